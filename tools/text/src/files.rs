//! Files and the standard streams, for the two programs.

use std::fs;
use std::io::{self, Read, Write};

/// The contents of a file, or of standard input where there is no name or it is `-`.
pub fn read(name: Option<&str>) -> io::Result<Vec<u8>> {
    match name {
        None | Some("-") => {
            let mut bytes = Vec::new();
            io::stdin().lock().read_to_end(&mut bytes)?;
            Ok(bytes)
        }
        Some(name) => fs::read(name),
    }
}

/// The name of what `read` reads, for messages.
pub fn shown(name: Option<&str>) -> &str {
    match name {
        None | Some("-") => "<stdin>",
        Some(name) => name,
    }
}

/// To a file, or to standard output where there is no name or it is `-`.
pub fn write(name: Option<&str>, bytes: &[u8]) -> io::Result<()> {
    match name {
        None | Some("-") => {
            let mut output = io::stdout().lock();
            output.write_all(bytes)?;
            output.flush()
        }
        Some(name) => fs::write(name, bytes),
    }
}
