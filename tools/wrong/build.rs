//! Makes a copy of the second machine's source with the mistakes of `edits.rs` written into it.
//!
//! Each edit is a piece of the source, found there exactly once, and what stands in its place. `bug("name")` in it is
//! true while the mistake of that name is switched on. So the second machine itself stays free of all this, and its
//! wrong copy can't fall behind it.

use std::fs;
use std::path::Path;

include!("edits.rs");

const FILES: [&str; 8] = [
    "frames",
    "heap",
    "image",
    "lent",
    "machine",
    "primitives",
    "sheet",
    "wire",
];

fn main() {
    println!("cargo:rerun-if-changed=build.rs");
    println!("cargo:rerun-if-changed=edits.rs");
    println!("cargo:rerun-if-changed=../second/src");
    let mut names = Vec::new();
    let mut copy = String::new();
    for file in FILES {
        let mut text = read(&format!("../second/src/{file}.rs"));
        edit(file, &mut text);
        copy.push_str(&format!("pub mod {file} {{\n{}\n}}\n", number_bugs(&text, &mut names)));
    }
    let mut root = read("../second/src/lib.rs");
    edit("lib", &mut root);
    let root: Vec<&str> = root
        .lines()
        .filter(|line| !line.starts_with("//!") && !line.starts_with("pub mod "))
        .collect();
    copy.push_str(&number_bugs(&root.join("\n"), &mut names));
    copy.push_str(&format!("\npub const MISTAKES: [&str; {}] = {names:?};\n", names.len()));
    let out = std::env::var("OUT_DIR").expect("set by cargo");
    fs::write(Path::new(&out).join("copy.rs"), copy).expect("the copy can be written");
}

fn read(path: &str) -> String {
    fs::read_to_string(path).unwrap_or_else(|error| panic!("{path}: {error}"))
}

fn edit(file: &str, text: &mut String) {
    for (_, old, new) in EDITS.iter().filter(|(own, _, _)| *own == file) {
        let count = text.matches(old).count();
        assert!(count == 1, "{file}.rs has this {count} times: {old}");
        *text = text.replace(old, new);
    }
}

/// `bug("name")` becomes `crate::bug(number)`, counted from 1.
fn number_bugs(text: &str, names: &mut Vec<String>) -> String {
    let mut pieces = text.split("bug(\"");
    let mut result = pieces.next().unwrap_or("").to_string();
    for piece in pieces {
        let (name, rest) = piece.split_once("\")").expect("a name in quotes");
        let known = names.iter().position(|own| own == name);
        let number = known.unwrap_or_else(|| {
            names.push(name.to_string());
            names.len() - 1
        });
        result.push_str(&format!("crate::bug({}){rest}", number + 1));
    }
    result
}
