//! Random cases, of three kinds: valid programs, valid cases that were damaged, and noise.
//!
//! A case is a function of its kind, the seed and its number, so any one of them can be made again alone.

pub mod assembly;
pub mod compiler;
pub mod coverage;
pub mod damage;
pub mod limits;
pub mod noise;
pub mod rng;
pub mod stdin;
pub mod templates;
pub mod valid;
pub mod values;

use rng::Rng;

/// Everything that is lent for one call. The areas hold rubbish before it.
#[derive(Clone, Debug, PartialEq, Eq)]
pub struct Case {
    pub image: Vec<u8>,
    pub card: Vec<u32>,
    pub time: u32,
    pub stack_limit: u32,
    pub heap_limit: u32,
    pub stack: Vec<u32>,
    pub heap: Vec<u32>,
    pub wires: Vec<u32>,
    pub order: Vec<u32>,
}

#[derive(Clone, Copy, Debug, PartialEq, Eq)]
pub enum Kind {
    Valid,
    Damaged,
    Noise,
}

pub const KINDS: [Kind; 3] = [Kind::Valid, Kind::Damaged, Kind::Noise];

/// The case of this kind, seed and number.
pub fn case(kind: Kind, seed: u64, number: u64) -> Case {
    let rng = &mut Rng::new(seed, kind as u64, number);
    match kind {
        Kind::Valid => valid::case(rng),
        Kind::Damaged => damage::case(rng),
        Kind::Noise => noise::case(rng),
    }
}
