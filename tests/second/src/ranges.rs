//! Whether a machine's state is in its ranges, in one pass and without a branch for each field.
//!
//! A core's next step, operation and flags are its shape. Two tables say, for each shape, whether a core can
//! have it and which of its other fields are unused, and so must be 0.

use crate::machine::{Core, Machine, CORES, ENTRY_LIMIT, LL, LOAD, MEMORY_LIMIT, SC, STORE};

/// Whether memory can have so many bytes.
#[inline]
pub fn memory_fits(bytes: usize) -> bool {
    (bytes % 4 == 0) & (bytes >= 4) & (bytes <= MEMORY_LIMIT)
}

/// Whether the tables can have so many entries.
#[inline]
pub fn entries_fit(entries: usize) -> bool {
    entries.is_power_of_two() & (entries <= ENTRY_LIMIT)
}

/// An address that is a multiple of 4 and below the largest memory has none of these bits.
const NO_ADDRESS: u32 = !(MEMORY_LIMIT as u32 - 4);

const SHAPES: usize = 512;

/// For each shape of a core, the bits that must be 0 in its address, link, value and what it read.
static MUST_BE_ZERO: [[u32; 4]; SHAPES] = must_be_zero();

/// For each shape, whether no core can have it.
static NEVER: [bool; SHAPES] = never();

/// A core's shape: next step and operation, each below 8 or the core is out of range, and three flags.
#[inline]
fn shape(core: &Core) -> usize {
    let numbers = core.next as usize | (core.operation as usize) << 3;
    let flags = (core.busy as usize) << 6 | (core.passed as usize) << 7 | (core.linked as usize) << 8;
    (numbers | flags) % SHAPES
}

const fn must_be_zero() -> [[u32; 4]; SHAPES] {
    let mut table = [[0; 4]; SHAPES];
    let mut number = 0;
    while number < SHAPES {
        let (next, operation) = (number & 7, (number >> 3 & 7) as u8);
        let (busy, linked) = (number >> 6 & 1 == 1, number >> 8 & 1 == 1);
        table[number] = [
            if busy { NO_ADDRESS } else { !0 },
            if linked { NO_ADDRESS } else { !0 },
            if operation == STORE || operation == SC { 0 } else { !0 },
            if operation == LL && next == 4 { 0 } else { !0 },
        ];
        number += 1;
    }
    table
}

const fn never() -> [bool; SHAPES] {
    let mut table = [true; SHAPES];
    let mut number = 0;
    while number < SHAPES {
        let (next, operation) = (number & 7, (number >> 3 & 7) as u8);
        let (busy, passed) = (number >> 6 & 1 == 1, number >> 7 & 1 == 1);
        let occurs = match operation {
            0 => !busy && next == 0,
            LOAD => busy && next == 1,
            LL | STORE | SC => busy && next >= 1 && next <= 4,
            _ => false,
        };
        table[number] = !occurs || (passed && !(operation == SC && next >= 3));
        number += 1;
    }
    table
}

/// What is wrong in the cores looked at so far, gathered without a branch, four fields side by side.
#[derive(Default)]
struct Wrong {
    fields: [u32; 4],
    outside: [u32; 4],
    shapes: bool,
    numbers: u8,
}

impl Wrong {
    #[inline]
    fn look_at(&mut self, core: &Core, last: u32) {
        let shape = shape(core);
        let fields = [core.address, core.link, core.value, core.read];
        for (at, field) in fields.into_iter().enumerate() {
            self.fields[at] |= field & MUST_BE_ZERO[shape][at];
            // The highest bit tells an address past the last one.
            self.outside[at] |= last.wrapping_sub(field);
        }
        self.shapes |= NEVER[shape];
        self.numbers |= core.operation | core.next;
    }

    #[inline]
    fn nothing(&self) -> bool {
        let [a, b, c, d] = self.fields;
        let outside = (self.outside[0] | self.outside[1]) >> 31;
        ((a | b | c | d | outside) == 0) & !self.shapes & (self.numbers < 8)
    }
}

impl Machine {
    /// Whether the state is in its ranges: the sizes, the cores that count, and nothing in the others.
    #[inline]
    pub fn in_ranges(&self) -> bool {
        let sizes = memory_fits(self.bytes) & entries_fit(self.entries) & (1..=CORES).contains(&self.count);
        let (counted, beyond) = self.cores.split_at(self.count.min(CORES));
        let mut wrong = Wrong::default();
        for core in counted {
            wrong.look_at(core, (self.bytes as u32).wrapping_sub(4));
        }
        sizes & wrong.nothing() & beyond.iter().all(|core| *core == Core::default())
    }
}
