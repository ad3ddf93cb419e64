//! Seeded random texts, tables, states, messages, conversations, batches and pairs of tables, to compare implementations with.
//!
//! Everything follows from the seed alone: the same seed gives the same things on every machine. What is said to be legal or sound
//! is so by construction; what is damaged may still be legal, and is to be asked.

mod batches;
mod editions;
mod messages;
mod names;
mod pairs;
mod shares;
mod states;
mod tables;
mod texts;
mod utf8;
mod ways;

pub use batches::*;
pub use editions::*;
pub use messages::*;
pub use names::*;
pub use pairs::*;
pub use shares::*;
pub use states::*;
pub use tables::*;
pub use texts::*;
pub use utf8::*;
pub use ways::*;

use super::table::{Field, Kind, Label, LABEL_BYTES, LONGEST_TEXT};

/// A small generator of numbers (xorshift with a multiplication).
#[derive(Clone, Debug)]
pub struct Random {
    state: u64,
}

impl Random {
    /// The generator of a seed.
    pub fn new(seed: u64) -> Random {
        // Seeds close to one another are driven apart; the state may not be zero.
        let state = (seed ^ 0x9E37_79B9_7F4A_7C15).wrapping_mul(0xBF58_476D_1CE4_E5B9) | 1;
        let mut random = Random { state };
        for _ in 0..4 {
            random.number();
        }
        random
    }

    /// Any 64-bit number.
    pub fn number(&mut self) -> u64 {
        self.state ^= self.state >> 12;
        self.state ^= self.state << 25;
        self.state ^= self.state >> 27;
        self.state.wrapping_mul(0x2545_F491_4F6C_DD1D)
    }

    /// A number below the bound; 0 when the bound is 0.
    pub fn below(&mut self, bound: usize) -> usize {
        ((self.number() >> 16) % (bound.max(1) as u64)) as usize
    }

    /// A number from low to high, both included.
    pub fn between(&mut self, low: i64, high: i64) -> i64 {
        low + ((self.number() >> 16) % ((high - low) as u64 + 1)) as i64
    }

    /// Yes, one time in so many.
    pub fn one_in(&mut self, many: usize) -> bool {
        self.below(many) == 0
    }

    /// One of the items, of which there is at least one.
    pub fn pick<'a, T>(&mut self, items: &'a [T]) -> &'a T {
        &items[self.below(items.len())]
    }

    /// Any byte.
    pub fn byte(&mut self) -> u8 {
        self.number().to_be_bytes()[0]
    }

    /// A word that is far from the usual: one that is the number again in its last byte or two, an end of the words, or any.
    pub fn wide(&mut self, number: u32) -> u32 {
        match self.below(4) {
            0 => number.wrapping_add(1 << (8 + self.below(24))),
            1 => number.wrapping_add(*self.pick(&[0x100, 0x1_0000, 0x100_0000, 0x8000_0000, 0xFFFF_FF00, 0xFFFF_0000])),
            2 => *self.pick(&[0x100, 0xFFFF, 0x1_0000, 0x7FFF_FFFF, 0x8000_0000, u32::MAX - 1, u32::MAX]),
            _ => self.number() as u32,
        }
    }

    /// At most so many bytes of any value.
    pub fn bytes(&mut self, most: usize) -> Vec<u8> {
        let length = self.below(most + 1);
        (0..length).map(|_| self.byte()).collect()
    }

    /// The items in another order.
    pub fn shuffle<T>(&mut self, items: &mut [T]) {
        for last in (1..items.len()).rev() {
            items.swap(last, self.below(last + 1));
        }
    }
}

/// A number of a kind, the ends and what is next to them more often than chance has it.
pub fn number_of(random: &mut Random, kind: Kind) -> i64 {
    let (low, high) = match kind {
        Kind::Int => (i64::from(i32::MIN), i64::from(i32::MAX)),
        Kind::Text => (0, LONGEST_TEXT),
        Kind::Flag => (0, 1),
    };
    let near = [low, low + 1, -1, 0, 1, 2, 99, 100, 101, high - 1, high];
    let number = match random.below(3) {
        0 => *random.pick(&near),
        1 => random.between(-10, 10),
        _ => random.between(low, high),
    };
    number.clamp(low, high)
}

/// Any kind.
pub fn kind(random: &mut Random) -> Kind {
    *random.pick(&[Kind::Int, Kind::Text, Kind::Flag])
}

/// Any field that keeps the limits.
pub fn field(random: &mut Random) -> Field {
    let kind = kind(random);
    let (one, other) = (number_of(random, kind), number_of(random, kind));
    Field { kind, low: one.min(other), high: one.max(other) }
}

/// At most so many fields; none half of the time.
pub fn fields(random: &mut Random, most: usize) -> Vec<Field> {
    let count = if random.one_in(2) { 0 } else { random.below(most + 1) };
    (0..count).map(|_| field(random)).collect()
}

/// Labels that are short, long, or nearly one another.
const LABELS: [&[u8]; 12] = [b"A", b"B", b"C", b"D", b"Aa", b"AB", b"A0", b"Ask", b"Ok", b"Quit", b"Abcdefgh", b"Abcdefgi"];

/// Up to eight bytes, filled up with 0x00.
pub fn label_of(name: &[u8]) -> Label {
    let mut label = [0; LABEL_BYTES];
    let length = name.len().min(LABEL_BYTES);
    label[..length].copy_from_slice(&name[..length]);
    label
}

/// A legal label that is none of those given.
pub fn label(random: &mut Random, but: &[Label]) -> Label {
    let name: &&[u8] = random.pick(&LABELS);
    let mut label = label_of(name);
    while but.contains(&label) {
        label = label_of(format!("B{}", random.below(1000)).as_bytes());
    }
    label
}
