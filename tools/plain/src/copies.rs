//! Values between wires and the heap.

use crate::lent::WIRE;
use crate::words::{payload, NONE, NO_VALUE, REFERENCE, TUPLE};

/// How many heap words a copy of the value on a wire takes: a reference for each field, and the words of each cell.
/// A None is a word on the wire and a word as a field. Any other cell but the whole value is one word more as a field.
pub fn heap_words(value: &[u32]) -> usize {
    let mut cells = 0;
    let mut at = 0;
    while at < value.len() {
        let cell = usize::from(value[at] != NO_VALUE);
        cells += cell;
        at += 1 + cell;
    }
    value.len() + cells - 1
}

/// A copy of the value on a wire, placed from hp on: the word that refers to it.
#[inline(never)]
pub fn place(value: &[u32], heap: &mut [u32], hp: usize) -> u32 {
    let mut placing = Placing {
        value,
        at: 0,
        heap,
        hp,
        waiting: [0; WIRE],
        count: 0,
    };
    placing.cell()
}

/// From a wire to the heap: what is still to be read, and the words of fields that wait for their object.
struct Placing<'a> {
    value: &'a [u32],
    at: usize,
    heap: &'a mut [u32],
    hp: usize,
    waiting: [u32; WIRE],
    count: usize,
}

impl Placing<'_> {
    /// The word for the next cell.
    #[inline(always)]
    fn cell(&mut self) -> u32 {
        let header = self.value[self.at];
        if header == NO_VALUE {
            self.at += 1;
            return NONE;
        }
        let second = self.value[self.at + 1];
        self.at += 2;
        if header < TUPLE {
            let place = self.hp;
            let object = &mut self.heap[place..place + 2];
            object[0] = header;
            object[1] = second;
            self.hp += 2;
            return REFERENCE + place as u32;
        }
        self.block(header, second)
    }

    /// "A copy to the heap places all fields, in order, before their object, so fields always refer lower."
    fn block(&mut self, header: u32, second: u32) -> u32 {
        let size = second as usize;
        for _ in 0..size {
            let word = self.cell();
            self.waiting[self.count] = word;
            self.count += 1;
        }
        self.count -= size;
        let place = self.hp;
        let object = &mut self.heap[place..place + 2 + size];
        object[0] = header;
        object[1] = second;
        object[2..].copy_from_slice(&self.waiting[self.count..self.count + size]);
        self.hp += 2 + size;
        REFERENCE + place as u32
    }
}

/// "A value copied to a wire is spread out in prefix form": writes the word's value at a place of a wire and returns the
/// place after it, or `None` where 64 words aren't enough. The wire is then not as it was.
#[inline(always)]
fn spread_cell(heap: &[u32], word: u32, wire: &mut [u32; WIRE], at: usize) -> Option<usize> {
    if word == NONE {
        *wire.get_mut(at)? = NO_VALUE;
        return Some(at + 1);
    }
    let object = &heap[payload(word)..];
    let head = wire.get_mut(at..at + 2)?;
    head.copy_from_slice(&object[..2]);
    if object[0] < TUPLE {
        return Some(at + 2);
    }
    spread_fields(heap, &object[2..2 + object[1] as usize], wire, at + 2)
}

fn spread_fields(heap: &[u32], fields: &[u32], wire: &mut [u32; WIRE], at: usize) -> Option<usize> {
    let mut at = at;
    for field in fields {
        at = spread_cell(heap, *field, wire, at)?;
    }
    Some(at)
}

/// Spreads a value out on an empty wire, all but its count, which is returned; a value that is too long leaves the wire
/// empty.
#[inline(never)]
pub fn spread(heap: &[u32], word: u32, wire: &mut [u32; WIRE]) -> Option<usize> {
    let end = spread_cell(heap, word, wire, 1);
    if end.is_none() {
        *wire = [0; WIRE];
    }
    end.map(|end| end - 1)
}
