//! Document 01's program, by the second machine.

use std::io::Write;
use std::process::ExitCode;

fn main() -> ExitCode {
    let line = second::sheet::program(&mut std::io::stdin().lock());
    let mut output = std::io::stdout();
    match output.write_all(&line).and_then(|()| output.flush()) {
        Ok(()) => ExitCode::SUCCESS,
        Err(_) => ExitCode::FAILURE,
    }
}
