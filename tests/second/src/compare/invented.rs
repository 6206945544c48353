//! Invented states and tables: each field out of its range, alone and together, and lent lengths that
//! are wrong by one and by much.

use super::deeds::{Deed, Edit, Field, FIELDS};
use super::runs::random_run;
use super::Difference;
use crate::machine::{entry_of, CORES, ENTRY_LIMIT, MEMORY_LIMIT};
use crate::random::Random;

/// The values that a field is set to alone: all of a byte, both of a bool, the edges of an address.
fn values_of(field: Field, bytes: u32) -> Vec<u32> {
    match field {
        Field::Busy | Field::Passed | Field::Linked => vec![0, 1],
        Field::Operation | Field::Next => (0..=255).collect(),
        Field::Address | Field::Link => vec![
            0,
            1,
            2,
            3,
            4,
            bytes - 4,
            bytes - 3,
            bytes - 2,
            bytes - 1,
            bytes,
            bytes + 1,
            bytes + 4,
            65_532,
            65_536,
            65_540,
            1 << 31,
            !3,
            !0,
        ],
        Field::Value | Field::Read => vec![0, 1, 1 << 31, !0],
    }
}

const COUNTS: [usize; 10] = [0, 1, 2, 7, 8, 9, 255, 256, 1 << 32, usize::MAX];
const SIZES: [usize; 16] = [
    0,
    1,
    2,
    3,
    4,
    5,
    6,
    8,
    60,
    64,
    16_384,
    65_532,
    MEMORY_LIMIT,
    MEMORY_LIMIT + 4,
    (1 << 32) + 64,
    usize::MAX - 3,
];
const ENTRIES: [usize; 14] =
    [0, 1, 2, 3, 4, 5, 6, 12, 2_048, ENTRY_LIMIT, ENTRY_LIMIT + 1, 8_192, 1 << 32, usize::MAX];
const MARKS: [u8; 12] = [0, 1, 2, 3, 4, 5, 6, 7, 8, 9, 128, 255];

/// One core's field set alone to every value, in the state that a run leads to.
pub fn alone(
    random: &mut Random,
    each: &mut impl FnMut(&[Deed]) -> Result<(), Difference>,
) -> Result<(), Difference> {
    let length = 2 + random.below(60);
    let run = random_run(random, length);
    let (count, bytes, entries) = sizes_of(&run);
    for core in 0..CORES {
        for field in FIELDS {
            for value in values_of(field, bytes as u32) {
                let edit = Edit::Core { core, field, value };
                each(&with(&run, &[edit], &calls(random, count, bytes, core)))?;
            }
        }
    }
    let sizes =
        COUNTS.map(Edit::Count).into_iter().chain(SIZES.map(Edit::Bytes)).chain(ENTRIES.map(Edit::Entries));
    for edit in sizes.chain(lengths(bytes, entries)) {
        let core = random.below(count);
        each(&with(&run, &[edit], &calls(random, count, bytes, core)))?;
    }
    for mark in MARKS {
        for core in 0..count {
            let entry = hot_entry(random, &run, entries);
            for edit in [Edit::Owner { entry, mark }, Edit::Holder { entry, mark }] {
                each(&with(&run, &[edit], &calls(random, count, bytes, core)))?;
            }
        }
    }
    Ok(())
}

/// Lent lengths that are wrong by one and by much.
fn lengths(bytes: usize, entries: usize) -> impl Iterator<Item = Edit> {
    let wrong = |right: usize| [0, right - 1, right + 1, right + 4, 2 * right, right + 70_000];
    let memory = wrong(bytes).map(Edit::MemoryLength).into_iter();
    memory.chain(wrong(entries).map(Edit::OwnersLength)).chain(wrong(entries).map(Edit::HoldersLength))
}

/// Several things set together, any of them, after a run.
pub fn together(random: &mut Random) -> Vec<Deed> {
    let length = 2 + random.below(30);
    let run = random_run(random, length);
    let (count, bytes, entries) = sizes_of(&run);
    let edits: Vec<Edit> = (0..1 + random.below(5)).map(|_| any_edit(random, &run, bytes, entries)).collect();
    let core = random.below(count);
    with(&run, &edits, &calls(random, count, bytes, core))
}

fn any_edit(random: &mut Random, run: &[Deed], bytes: usize, entries: usize) -> Edit {
    let lent: Vec<Edit> = lengths(bytes, entries).collect();
    match random.below(20) {
        0 => Edit::Count(random.pick(&COUNTS)),
        1 => Edit::Bytes(random.pick(&SIZES)),
        2 => Edit::Entries(random.pick(&ENTRIES)),
        3 => random.pick(&lent),
        4..=6 => Edit::Owner { entry: hot_entry(random, run, entries), mark: random.pick(&MARKS) },
        7..=9 => Edit::Holder { entry: hot_entry(random, run, entries), mark: random.pick(&MARKS) },
        _ => {
            let (core, field) = (random.below(CORES), random.pick(&FIELDS));
            let value = match field {
                Field::Operation => random.below(6) as u32,
                Field::Next => random.below(6) as u32,
                _ => random.pick(&values_of(field, bytes as u32)),
            };
            Edit::Core { core, field, value }
        }
    }
}

/// A machine made up whole: every core's fields drawn from what may just occur and what may just not.
pub fn made_up(random: &mut Random) -> Vec<Deed> {
    let (count, bytes, entries) =
        (1 + random.below(8), 4 * (1 + random.below(16)), random.pick(&[1, 2, 4, 8]));
    let mut deeds = vec![Deed::Start { count, bytes, owners: entries, holders: entries }];
    for core in 0..CORES {
        let busy = core < count && !random.one_in(3);
        let operation = if busy { 1 + random.below(4) as u32 } else { 0 };
        let next = match operation {
            0 => 0,
            1 => 1,
            _ => 1 + random.below(4) as u32,
        };
        let address = if busy { 4 * random.below(bytes / 4) as u32 } else { 0 };
        let value = if operation >= 3 { random.word() } else { 0 };
        let read = if operation == 2 && next == 4 { random.word() } else { 0 };
        let passed = (operation == 4 && next >= 3 && random.one_in(2)) as u32;
        let linked = core < count && random.one_in(2);
        let elsewhere = 4 * random.below(bytes / 4) as u32;
        let link = if linked { random.pick(&[address, elsewhere]) } else { 0 };
        let values = [busy as u32, operation, next, passed, linked as u32, address, value, read, link];
        deeds.extend(
            FIELDS.iter().zip(values).map(|(&field, value)| Deed::Edit(Edit::Core { core, field, value })),
        );
    }
    for entry in 0..entries {
        deeds.push(Deed::Edit(Edit::Owner { entry, mark: random.below(count + 1) as u8 }));
        deeds.push(Deed::Edit(Edit::Holder { entry, mark: random.below(count + 1) as u8 }));
    }
    deeds.extend((0..12).flat_map(|_| calls(random, count, bytes, 0)));
    deeds
}

/// A start with lengths and a core count of any kind.
pub fn any_start(random: &mut Random) -> Vec<Deed> {
    let bytes =
        random.pick(&[0, 1, 2, 3, 4, 5, 7, 8, 62, 64, 65_532, 65_535, 65_536, 65_537, 65_540, 131_072]);
    let entries = random.pick(&[0, 1, 2, 3, 4, 5, 12, 1_024, 4_095, 4_096, 4_097, 8_192]);
    let holders = if random.one_in(3) { random.pick(&[0, 1, 2, 4, 5, 4_096]) } else { entries };
    let count = random.pick(&[0, 1, 2, 7, 8, 9, 256, 1 << 32, usize::MAX]);
    let first = random_run(random, 5);
    let start = Deed::Start { count, bytes, owners: entries, holders };
    [first.as_slice(), &[start], &calls(random, 8, bytes.clamp(4, 65_536), 0)].concat()
}

/// Each kind of call once, most at good arguments: what they answer shows the state.
fn calls(random: &mut Random, count: usize, bytes: usize, core: usize) -> Vec<Deed> {
    let inside = 4 * random.below(bytes / 4) as u32;
    let address = random.pick(&[inside, inside, bytes as u32, 2]);
    let other = random.below(count + 1);
    let operation = random.below(6) as u8;
    vec![
        Deed::Step { core },
        Deed::Step { core: other },
        Deed::Give { core: other, operation, address, value: random.word() },
        Deed::Poke { address, value: random.word() },
        Deed::Show { address },
        Deed::Step { core: random.below(count) },
    ]
}

fn with(run: &[Deed], edits: &[Edit], calls: &[Deed]) -> Vec<Deed> {
    run.iter()
        .copied()
        .chain(edits.iter().map(|&edit| Deed::Edit(edit)))
        .chain(calls.iter().copied())
        .collect()
}

fn sizes_of(run: &[Deed]) -> (usize, usize, usize) {
    match run[0] {
        Deed::Start { count, bytes, owners, .. } => (count, bytes, owners),
        _ => unreachable!("a run begins with a start"),
    }
}

/// The entry of an address that the run uses.
fn hot_entry(random: &mut Random, run: &[Deed], entries: usize) -> usize {
    let given = run.iter().filter_map(|deed| match deed {
        Deed::Give { address, .. } => Some(*address),
        _ => None,
    });
    let addresses: Vec<u32> = given.collect();
    if addresses.is_empty() {
        0
    } else {
        entry_of(random.pick(&addresses), entries)
    }
}
