//! One run of a hundred records, of every kind and core: what its writer refuses, what is read back from its
//! archive, and each byte of that archive raised by one. What each call must answer stands here.

use super::archives::{compare_writers, encoded, perform, Archivist, Deed};
use super::{caught, Counts, Difference};
use crate::archive::{place_of, seal, Read, Sought, Whole, Wrote, BLOCK, BLOCK_LIMIT, PLACES};
use crate::machine::Record;

/// The record of a number: the six kinds in turn, a poke by the bench.
fn sample(number: u32) -> Record {
    let kind = 1 + (number % 6) as u8;
    let core = if kind == 6 { 255 } else { (number / 6 % 8) as u8 };
    Record { core, kind, address: number * 6_524 % 65_536 / 4 * 4, value: u32::MAX - number * 40_000_001 }
}

fn add(record: Record, lent: usize) -> Deed {
    Deed::Add { record: place_of(&record, 0), lent }
}

fn load() -> Record {
    Record { core: 0, kind: 1, address: 0, value: 0 }
}

/// Records with a wrong field each.
const WRONG: [Record; 7] = [
    Record { core: 8, kind: 1, address: 0, value: 0 },
    Record { core: 255, kind: 5, address: 0, value: 0 },
    Record { core: 0, kind: 6, address: 0, value: 0 },
    Record { core: 0, kind: 0, address: 0, value: 0 },
    Record { core: 0, kind: 7, address: 0, value: 0 },
    Record { core: 0, kind: 1, address: 2, value: 0 },
    Record { core: 0, kind: 1, address: 65_536, value: 0 },
];

/// Deeds of a writer, and what each call among them must answer.
fn answered<A: Archivist, B: Archivist>(
    deeds: &[Deed],
    expected: &[Wrote],
    counts: &mut Counts,
) -> Result<(), Difference> {
    compare_writers::<A, B>(deeds, counts)?;
    let (mut writer, mut block) = (A::begin(), Vec::new());
    let answers: Vec<Wrote> =
        deeds.iter().filter_map(|deed| perform::<A>(&mut writer, &mut block, deed)).collect();
    if answers == expected {
        return Ok(());
    }
    Err(Difference::plain(format!("{deeds:?} answers {answers:?} and not {expected:?}")))
}

/// The run: a hundred records, calls that are refused, and calls after it was closed.
fn run<A: Archivist, B: Archivist>(counts: &mut Counts) -> Result<(), Difference> {
    let mut deeds: Vec<Deed> = (0..100).map(|number| add(sample(number), BLOCK)).collect();
    let mut expected: Vec<Wrote> =
        (0..100).map(|number| if number % 31 == 30 { Wrote::Block } else { Wrote::NoBlock }).collect();
    deeds.push(add(load(), 511));
    deeds.extend(WRONG.map(|record| add(record, BLOCK)));
    deeds.extend([Deed::Close { lent: 511 }, Deed::Close { lent: BLOCK }, Deed::Close { lent: BLOCK }]);
    deeds.push(add(load(), BLOCK));
    expected.push(Wrote::Refused(16));
    expected.extend([Wrote::Refused(15); 7]);
    expected.extend([Wrote::Refused(16), Wrote::Block, Wrote::Refused(18), Wrote::Refused(18)]);
    answered::<A, B>(&deeds, &expected, counts)
}

/// Writers that no run has, or that only the longest one has: what an add and what a close answers.
fn strange_writers<A: Archivist, B: Archivist>(counts: &mut Counts) -> Result<(), Difference> {
    const OUT: Wrote = Wrote::Refused(5);
    let strange = [
        // the first place's first byte, the count, the blocks put out
        (0, 31, 0, OUT, OUT),
        (0, 1, 0, OUT, OUT),
        (1, 0, 0, OUT, OUT),
        (0, 0, BLOCK_LIMIT - 1, Wrote::NoBlock, Wrote::NoBlock),
        (0, 0, BLOCK_LIMIT, Wrote::Refused(17), Wrote::NoBlock),
        (0, 1, BLOCK_LIMIT, OUT, OUT),
        (0, 0, BLOCK_LIMIT + 1, OUT, OUT),
        (0, 0, u32::MAX, OUT, OUT),
    ];
    for (first, count, blocks, added, closed) in strange {
        let set = [Deed::SetByte(12, first), Deed::SetCount(count), Deed::SetBlocks(blocks)];
        answered::<A, B>(&[&set[..], &[add(load(), BLOCK)]].concat(), &[added], counts)?;
        answered::<A, B>(&[&set[..], &[Deed::Close { lent: BLOCK }]].concat(), &[closed], counts)?;
    }
    Ok(())
}

/// The archive of the run.
fn archive() -> Vec<u8> {
    let records: Vec<Record> = (0..100).map(sample).collect();
    (0..).zip(records.chunks(PLACES)).flat_map(|(number, records)| encoded(number, records)).collect()
}

/// Both sides' answers, where either is not the expected one.
fn unlike<T: PartialEq + std::fmt::Debug>(what: String, sides: [T; 2], expected: T) -> Option<String> {
    sides
        .iter()
        .any(|side| *side != expected)
        .then(|| format!("{what} is {:?} and {:?}, and not {expected:?}", sides[0], sides[1]))
}

/// What is read back of a block: each place, and past the last.
fn places_differ<A: Archivist, B: Archivist>(archive: &[u8]) -> Option<String> {
    for (index, block) in (0..).zip(archive.chunks(BLOCK)) {
        for place in 0..32 {
            let number = PLACES as u32 * index + place as u32;
            let there = place < PLACES && number < 100;
            let expected = if there { Read::Record(sample(number), number) } else { Read::NoRecord };
            let sides = [A::read(block, index, false, place), B::read(block, index, false, place)];
            let unlike = unlike(format!("place {place} of block {index}"), sides, expected);
            if unlike.is_some() {
                return unlike;
            }
        }
    }
    None
}

/// What the check of a block answers, and that of a part of an archive, and the record of a number in it.
fn checks_differ<A: Archivist, B: Archivist>(archive: &[u8]) -> Option<String> {
    let first = &archive[..BLOCK];
    let blocks = [
        (first, 0, false, None),
        (first, 0, true, Some(14)),
        (first, 1, false, Some(13)),
        (first, 1, true, Some(13)),
        (first, BLOCK_LIMIT, false, Some(13)),
        (&archive[..511], 0, false, Some(16)),
        (&archive[1..513], 0, false, Some(12)),
    ];
    let but_first = &archive[BLOCK..];
    let swapped = [first, &archive[2 * BLOCK..3 * BLOCK], &archive[BLOCK..2 * BLOCK]].concat();
    // a whole archive, and which block decided
    let wholes = [
        (archive, Whole::Holds(100), None),
        (&[], Whole::Holds(0), None),
        (&archive[..3 * BLOCK], Whole::Holds(93), None),
        (&archive[..2_047], Whole::Refused(16), None),
        (&but_first[..2_047 - BLOCK], Whole::Refused(16), None),
        (but_first, Whole::Refused(13), Some(0)),
        (&swapped, Whole::Refused(13), Some(1)),
    ];
    let numbers = [0, 30, 31, 99, 100, u32::MAX].map(|number| {
        let there = number < 100;
        (archive, number, if there { Sought::Record(sample(number), number) } else { Sought::NoRecord })
    });
    let refused = [(&archive[..2_047], 0, Sought::Refused(16)), (but_first, 0, Sought::Refused(13))];
    let checked = blocks.into_iter().find_map(|(block, expected, after_short, answer)| {
        let sides = [A::refusal(block, expected, after_short), B::refusal(block, expected, after_short)];
        unlike(format!("the check of a block as {expected}, after a short one {after_short},"), sides, answer)
    });
    let whole = || {
        wholes.into_iter().find_map(|(part, answer, by)| {
            let what = format!("the archive of {} bytes", part.len());
            let decided = format!("which block of the archive of {} bytes decided", part.len());
            unlike(what, [A::whole(part), B::whole(part)], answer)
                .or_else(|| unlike(decided, [A::decided_by(part), B::decided_by(part)], by))
        })
    };
    let sought = || {
        numbers.into_iter().chain(refused).find_map(|(part, number, answer)| {
            let sides = [A::sought(part, number), B::sought(part, number)];
            unlike(format!("record {number} of {} bytes", part.len()), sides, answer)
        })
    };
    checked.or_else(whole).or_else(sought)
}

/// A byte of the whole archive raised by one: alone, where its block is refused 12, and with the check made
/// to fit.
fn raised_differs<A: Archivist, B: Archivist>(archive: &[u8], at: usize) -> Option<String> {
    let mut hurt = archive.to_vec();
    hurt[at] = hurt[at].wrapping_add(1);
    let block = (at / BLOCK) as u32;
    let alone = [A::whole(&hurt), B::whole(&hurt)];
    let by = [A::decided_by(&hurt), B::decided_by(&hurt)];
    let unlike = unlike(format!("with byte {at} raised it"), alone, Whole::Refused(12))
        .or_else(|| unlike(format!("with byte {at} raised the block that decided"), by, Some(block)));
    if unlike.is_some() {
        return unlike;
    }
    seal(hurt.chunks_mut(BLOCK).nth(at / BLOCK)?.try_into().ok()?);
    let (left, right) = ((A::whole(&hurt), A::decided_by(&hurt)), (B::whole(&hurt), B::decided_by(&hurt)));
    (left != right)
        .then(|| format!("with byte {at} raised and the check made to fit it is {left:?} and {right:?}"))
}

pub fn compare<A: Archivist, B: Archivist>(counts: &mut Counts) -> Result<(), Difference> {
    run::<A, B>(counts)?;
    strange_writers::<A, B>(counts)?;
    let archive = archive();
    let differ = caught(|| {
        let read = places_differ::<A, B>(&archive).or_else(|| checks_differ::<A, B>(&archive));
        read.or_else(|| (0..archive.len()).find_map(|at| raised_differs::<A, B>(&archive, at)))
    });
    counts.add("bytes of a whole archive raised by one, alone and with the check made to fit", archive.len());
    differ.map_or(Ok(()), |what| Err(Difference::plain(format!("the archive of a hundred records: {what}"))))
}
