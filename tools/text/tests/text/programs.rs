//! The two programs: what they read, write and say, and their status.

use crate::{directory, file};
use std::fs;
use std::io::Write;
use std::path::PathBuf;
use std::process::{Command, Stdio};

const ASM: &str = env!("CARGO_BIN_EXE_asm");
const DIS: &str = env!("CARGO_BIN_EXE_dis");

/// Status, standard output, standard error.
fn run(program: &str, arguments: &[&str], input: &[u8]) -> (i32, Vec<u8>, String) {
    let mut child = Command::new(program)
        .args(arguments)
        .stdin(Stdio::piped())
        .stdout(Stdio::piped())
        .stderr(Stdio::piped())
        .spawn()
        .unwrap();
    // The program may end without reading it.
    let _ = child.stdin.take().unwrap().write_all(input);
    let output = child.wait_with_output().unwrap();
    let errors = String::from_utf8(output.stderr).unwrap();
    (output.status.code().unwrap(), output.stdout, errors)
}

fn scratch(name: &str) -> PathBuf {
    PathBuf::from(env!("CARGO_TARGET_TMPDIR")).join(name)
}

fn monitor() -> (String, text::Run) {
    let path = directory().join("monitor.ham");
    let run = text::assemble(&file("monitor.ham")).unwrap();
    (path.to_str().unwrap().to_string(), run)
}

#[test]
fn assembling() {
    let (path, monitor) = monitor();
    let good = |arguments: &[&str], input: &[u8]| {
        let (status, bytes, errors) = run(ASM, arguments, input);
        assert_eq!((status, errors.as_str()), (0, ""));
        bytes
    };
    let text = file("monitor.ham");
    assert_eq!(good(&[&path], b""), monitor.bytes());
    assert_eq!(good(&[], text.as_bytes()), monitor.bytes());
    assert_eq!(good(&["-"], text.as_bytes()), monitor.bytes());
    assert_eq!(good(&["--image", &path], b""), monitor.image());
    let out = scratch("monitor.bytes");
    assert_eq!(good(&[&path, "-o", out.to_str().unwrap()], b""), b"");
    assert_eq!(fs::read(out).unwrap(), monitor.bytes());
}

#[test]
fn assembling_what_is_wrong() {
    let path = scratch("wrong.ham");
    fs::write(&path, "box inputs 0 outputs 0\n  MkInt x\n").unwrap();
    let path = path.to_str().unwrap();
    let (status, bytes, errors) = run(ASM, &[path], b"");
    assert_eq!((status, bytes.len()), (1, 0));
    let message = "expected an Int in -2147483648..2147483647, or 0x and its bits, not `x`";
    assert_eq!(errors, format!("{path}:2:9: {message}\n"));
    let (status, _, errors) = run(ASM, &[], &b"x\n".repeat(30));
    assert_eq!(status, 1);
    assert!(errors.starts_with("<stdin>:1:1: "));
    assert!(errors.ends_with("<stdin>: and 10 more\n"));
    assert_eq!(run(ASM, &["--what"], b"").0, 2);
    assert_eq!(run(ASM, &["-o"], b"").0, 2);
    assert_eq!(run(ASM, &["a", "b"], b"").0, 2);
    assert_eq!(run(ASM, &["/no/such/file"], b"").0, 1);
}

#[test]
fn disassembling() {
    let (_, monitor) = monitor();
    let mut bytes = monitor.bytes();
    let text = text::show(&monitor, false).into_bytes();
    assert_eq!(run(DIS, &[], &bytes), (0, text.clone(), String::new()));
    let numbered = text::show(&monitor, true).into_bytes();
    assert_eq!(run(DIS, &["--numbers", "-"], &bytes), (0, numbered, String::new()));
    bytes.push(7);
    let note = "<stdin>: 1 bytes after the run sheet aren't read\n";
    assert_eq!(run(DIS, &[], &bytes), (0, text, note.to_string()));
    bytes[4] = 2;
    let refusal = "<stdin>: refused 2 at byte 4: the version is 2, not 1\n";
    assert_eq!(run(DIS, &[], &bytes), (1, Vec::new(), refusal.to_string()));
    assert_eq!(run(DIS, &["--what"], b"").0, 2);
    assert_eq!(run(DIS, &["/no/such/file"], b"").0, 1);
}
