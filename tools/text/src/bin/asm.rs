//! The assembler: from text to an image, and the run sheet if the text has one.

use std::process::ExitCode;
use text::{files, Error};

const USAGE: &str = "\
asm [--image] [FILE] [-o OUT]
FILE, or standard input where there is none or it is -, as an image and then the run sheet if there is one,
with --image as the image alone; to OUT, or standard output.";

/// More than these are only counted.
const MOST_ERRORS: usize = 20;

#[derive(Default)]
struct Options {
    image: bool,
    file: Option<String>,
    out: Option<String>,
}

fn main() -> ExitCode {
    match options(std::env::args().skip(1)) {
        Some(options) => assemble(&options),
        None => {
            eprintln!("{USAGE}");
            ExitCode::from(2)
        }
    }
}

/// `None` where the arguments make no sense.
fn options(mut arguments: impl Iterator<Item = String>) -> Option<Options> {
    let mut options = Options::default();
    while let Some(argument) = arguments.next() {
        match argument.as_str() {
            "--image" => options.image = true,
            "-o" if options.out.is_none() => options.out = Some(arguments.next()?),
            "-" => set_file(&mut options, argument)?,
            option if option.starts_with('-') => return None,
            _ => set_file(&mut options, argument)?,
        }
    }
    Some(options)
}

/// `None` at a second file.
fn set_file(options: &mut Options, file: String) -> Option<()> {
    match options.file.replace(file) {
        Some(_) => None,
        None => Some(()),
    }
}

fn assemble(options: &Options) -> ExitCode {
    let file = options.file.as_deref();
    let text = match files::read(file) {
        Ok(text) => text,
        Err(error) => return failed(files::shown(file), &error.to_string()),
    };
    let run = match text::assemble_bytes(&text) {
        Ok(run) => run,
        Err(errors) => return report(files::shown(file), &errors),
    };
    let bytes = if options.image { run.image() } else { run.bytes() };
    match files::write(options.out.as_deref(), &bytes) {
        Ok(()) => ExitCode::SUCCESS,
        Err(error) => failed(options.out.as_deref().unwrap_or("<stdout>"), &error.to_string()),
    }
}

fn report(file: &str, errors: &[Error]) -> ExitCode {
    for error in errors.iter().take(MOST_ERRORS) {
        eprintln!("{file}:{error}");
    }
    if errors.len() > MOST_ERRORS {
        eprintln!("{file}: and {} more", errors.len() - MOST_ERRORS);
    }
    ExitCode::FAILURE
}

fn failed(file: &str, message: &str) -> ExitCode {
    eprintln!("{file}: {message}");
    ExitCode::FAILURE
}
