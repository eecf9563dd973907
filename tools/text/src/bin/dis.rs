//! The disassembler: from an image, or an image and its run sheet, to text.

use std::process::ExitCode;
use text::files;

const USAGE: &str = "\
dis [--numbers] [FILE]
FILE, or standard input where there is none or it is -, as text on standard output; with --numbers, a comment
after each instruction has its number, the pc.";

fn main() -> ExitCode {
    let mut numbers = false;
    let mut file = None;
    for argument in std::env::args().skip(1) {
        match argument.as_str() {
            "--numbers" => numbers = true,
            option if option.starts_with('-') && option != "-" => return usage(),
            _ if file.is_some() => return usage(),
            _ => file = Some(argument),
        }
    }
    disassemble(file.as_deref(), numbers)
}

fn usage() -> ExitCode {
    eprintln!("{USAGE}");
    ExitCode::from(2)
}

fn disassemble(file: Option<&str>, numbers: bool) -> ExitCode {
    let name = files::shown(file);
    let bytes = match files::read(file) {
        Ok(bytes) => bytes,
        Err(error) => return failed(name, &error.to_string()),
    };
    let (run, length) = match text::read(&bytes) {
        Ok(read) => read,
        Err(refusal) => return failed(name, &refusal.to_string()),
    };
    if bytes.len() > length {
        eprintln!("{name}: {} bytes after the run sheet aren't read", bytes.len() - length);
    }
    match files::write(None, text::show(&run, numbers).as_bytes()) {
        Ok(()) => ExitCode::SUCCESS,
        Err(error) => failed("<stdout>", &error.to_string()),
    }
}

fn failed(file: &str, message: &str) -> ExitCode {
    eprintln!("{file}: {message}");
    ExitCode::FAILURE
}
