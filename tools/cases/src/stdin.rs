//! A case as the bytes of the program's standard input, sometimes damaged.

use crate::rng::Rng;
use crate::{case, Case, Kind};

/// The bytes for this seed and number.
pub fn bytes(seed: u64, number: u64) -> Vec<u8> {
    let rng = &mut Rng::new(seed, 3, number);
    let kind = rng.pick(&[
        Kind::Valid,
        Kind::Valid,
        Kind::Valid,
        Kind::Valid,
        Kind::Damaged,
        Kind::Noise,
    ]);
    let case = case(kind, seed ^ 0x5DEE, number);
    let mut bytes = case.image.clone();
    bytes.extend(sheet(rng, &case));
    match rng.below(30) {
        0 => bytes.truncate(rng.below(bytes.len() + 1)),
        1 => bytes.truncate(bytes.len().saturating_sub(1)),
        // "Bytes after it aren't read."
        2..=8 => bytes.extend([1, 2, 3]),
        _ => {}
    }
    bytes
}

fn sheet(rng: &mut Rng, case: &Case) -> Vec<u8> {
    let inputs = usize::from(case.image.get(5).copied().unwrap_or(0));
    let mut words = vec![0, 1, case.time, case.stack_limit, case.heap_limit];
    words.extend(&case.card);
    words.extend(case.wires.iter().take(65 * inputs));
    words[0] = 4 * words.len() as u32;
    damage(rng, &mut words);
    words.iter().flat_map(|word| word.to_be_bytes()).collect()
}

/// Refusals 9, 5, 6 and 7, mostly none.
fn damage(rng: &mut Rng, words: &mut Vec<u32>) {
    let place = rng.below(words.len());
    match rng.below(40) {
        0 => words[0] = words[0].wrapping_add(rng.pick(&[1, 4, u32::MAX, 260])),
        1 => words[1] = rng.pick(&[0, 2, 65_536]),
        2 => {
            words.push(7);
            words[0] += 4;
        }
        3 => words[3] = rng.pick(&[4096, 4097]),
        4 => words[4] = rng.pick(&[16_384, 16_385]),
        5 | 6 => words[place] = rng.pick(&[0, 65_535, 65_536]),
        7 if words.len() > 45 => {
            let place = rng.between(45, words.len() - 1);
            words[place] = rng.pick(&[0, 1, 65, 458_752]);
        }
        _ => {}
    }
}
