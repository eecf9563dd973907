//! The program's form: the same standard input to a program and to the second machine.

use std::io::Write;
use std::process::{Command, Stdio};

/// Runs the program on `count` standard inputs; false at the first other line.
pub fn compare(path: &str, count: u64, seed: u64) -> bool {
    let mut lines = 0;
    let mut refusals = [0u64; 10];
    for number in 0..count {
        let input = cases::stdin::bytes(seed, number);
        let expected = second::sheet::program(&mut &input[..]);
        let printed = match print_of(path, &input) {
            Ok(printed) => printed,
            Err(error) => {
                println!("{path}: {error}");
                return false;
            }
        };
        if printed != expected {
            println!("input {number} of seed {seed}: {}", hexadecimal(&input));
            println!("second: {:?}", String::from_utf8_lossy(&expected));
            println!("{path}: {:?}", String::from_utf8_lossy(&printed));
            return false;
        }
        match expected.strip_prefix(b"refused ") {
            Some(rest) => refusals[usize::from(rest[0] - b'0')] += 1,
            None => lines += 1,
        }
    }
    println!(
        "no difference in {count} inputs: {lines} lines of figures, refusals 1 to 9: {:?}",
        &refusals[1..]
    );
    true
}

fn print_of(path: &str, input: &[u8]) -> std::io::Result<Vec<u8>> {
    let mut child = Command::new(path)
        .stdin(Stdio::piped())
        .stdout(Stdio::piped())
        .spawn()?;
    if let Some(mut stdin) = child.stdin.take() {
        // The program may end without reading all of it.
        let _ = stdin.write_all(input);
    }
    Ok(child.wait_with_output()?.stdout)
}

fn hexadecimal(bytes: &[u8]) -> String {
    bytes.iter().map(|byte| format!("{byte:02x}")).collect()
}
