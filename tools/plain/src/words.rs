//! Headers and words.

/// "The header is kind × 65536 + tag".
pub const BOOL: u32 = 1 << 16;
pub const INT: u32 = 2 << 16;
pub const FLOAT: u32 = 3 << 16;
pub const TUPLE: u32 = 4 << 16;
pub const CONSTR: u32 = 5 << 16;
pub const EXN: u32 = 6 << 16;
pub const NO_VALUE: u32 = 7 << 16;

/// "A stack or field word is type × 2^28 + payload".
pub const REFERENCE: u32 = 1 << 28;
pub const NONE: u32 = 2 << 28;
pub const RETURN_ADDRESS: u32 = 3 << 28;
pub const RULES: u32 = 4 << 28;
pub const STATIC_LINK: u32 = 5 << 28;
pub const FRAME_LINK: u32 = 6 << 28;

const PAYLOAD: u32 = REFERENCE - 1;

/// "A Float that is a NaN is 7FC00000."
pub const NAN: u32 = 0x7FC0_0000;

#[inline(always)]
pub fn kind(word: u32) -> u32 {
    word & !PAYLOAD
}

#[inline(always)]
pub fn payload(word: u32) -> usize {
    (word & PAYLOAD) as usize
}

#[inline(always)]
pub fn is_reference(word: u32) -> bool {
    kind(word) == REFERENCE
}

/// "a reference or None": None has no payload, so these words are one range.
#[inline(always)]
pub fn is_value(word: u32) -> bool {
    word.wrapping_sub(REFERENCE) <= NONE - REFERENCE
}

/// "null, a reference or None": null is the whole word 0, and there is no word between it and the references.
#[inline(always)]
pub fn is_plain(word: u32) -> bool {
    word <= NONE
}

/// "any NaN stored is 7FC00000"
#[inline(always)]
pub fn canonical(bits: u32) -> u32 {
    stored(f32::from_bits(bits))
}

#[inline(always)]
pub fn stored(float: f32) -> u32 {
    if float.is_nan() {
        NAN
    } else {
        float.to_bits()
    }
}

/// The header and the payload, or size, of the cell that a reference refers to: one test of an index for both.
#[inline(always)]
pub fn cell(heap: &[u32], word: u32) -> (u32, u32) {
    let place = payload(word);
    let words = &heap[place..place + 2];
    (words[0], words[1])
}
