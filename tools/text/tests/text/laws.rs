//! Random images and run sheets there and back, and the refusals of those that aren't accepted.

use crate::{file, image_length, keeps_the_law, refusal};
use cases::{case, stdin, Kind, KINDS};
use text::{read, show};

/// An image alone is no input of the program, but it is one of the disassembler.
fn is_image_alone(bytes: &[u8]) -> bool {
    bytes.len() >= 4 && image_length(bytes) == bytes.len() && second::image::read(bytes).is_ok()
}

/// Accepted where the program accepts, with the law; refused with the same number where it refuses. True if accepted.
fn agrees(bytes: &[u8]) -> bool {
    match (read(bytes), refusal(bytes)) {
        (Ok((_, length)), None) => {
            keeps_the_law(&bytes[..length]);
            true
        }
        (Ok(_), Some(9)) if is_image_alone(bytes) => {
            keeps_the_law(bytes);
            true
        }
        (Err(own), Some(number)) => {
            assert_eq!(own.number, number, "{own}");
            assert!(own.byte <= bytes.len());
            false
        }
        (own, expected) => panic!("{own:?}, {expected:?}"),
    }
}

#[test]
fn inputs_of_the_program() {
    let accepted = (0..6000).filter(|number| agrees(&stdin::bytes(11, *number))).count();
    assert!((3000..5500).contains(&accepted), "{accepted}");
}

#[test]
fn images_alone() {
    let mut accepted = 0;
    for kind in KINDS {
        for number in 0..3000 {
            let image = case(kind, 12, number).image;
            let good = agrees(&image);
            assert!(good || kind != Kind::Valid);
            accepted += usize::from(good);
        }
    }
    assert!(accepted > 5000, "{accepted}");
}

/// The numbers are comments, so they change nothing.
#[test]
fn numbers_are_comments() {
    for number in 0..300 {
        let image = case(Kind::Valid, 13, number).image;
        let (run, _) = read(&image).unwrap();
        assert_eq!(text::assemble(&show(&run, true)).unwrap(), run);
    }
}

/// Every byte of a small input, set to a few values.
#[test]
fn every_byte_damaged() {
    let bytes = text::assemble(&file("monitor.ham")).unwrap().bytes();
    for place in 0..bytes.len() {
        for byte in [0, 1, 2, 4, 5, 8, 40, 41, 127, 255] {
            let mut damaged = bytes.clone();
            damaged[place] = byte;
            agrees(&damaged);
        }
        agrees(&bytes[..place]);
    }
}
