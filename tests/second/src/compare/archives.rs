//! Archives: round trips, invented writers, every byte of a block damaged, and whole archives whose blocks
//! are swapped, dropped, doubled and cut.

use super::shrink::shortest;
use super::{caught, hundred, Counts, Difference};
use crate::archive::{
    block_refusal, decided_by, place_of, seal, sought, whole, Read, Reader, Sought, Whole, Writer, Wrote,
    BLOCK, BLOCK_LIMIT, PLACE, PLACES,
};
use crate::machine::Record;
use crate::random::Random;
use std::fmt::Write as _;

/// Something that writes and reads archives. A record goes in as 16 bytes, of which a writer looks at
/// bytes 0, 1 and 4..11.
pub trait Archivist {
    fn begin() -> Writer;
    fn add(writer: &mut Writer, record: &[u8; PLACE], block: &mut Vec<u8>) -> Wrote;
    fn close(writer: &mut Writer, block: &mut Vec<u8>) -> Wrote;
    fn refusal(block: &[u8], expected: u32, after_short: bool) -> Option<u8>;
    fn read(block: &[u8], expected: u32, after_short: bool, place: usize) -> Read;
    fn whole(archive: &[u8]) -> Whole;
    fn decided_by(archive: &[u8]) -> Option<u32>;
    fn sought(archive: &[u8], number: u32) -> Sought;
}

/// This package's own archive.
impl Archivist for super::deeds::Second {
    fn begin() -> Writer {
        Writer::default()
    }

    fn add(writer: &mut Writer, bytes: &[u8; PLACE], block: &mut Vec<u8>) -> Wrote {
        let word = |at: usize| u32::from_le_bytes([bytes[at], bytes[at + 1], bytes[at + 2], bytes[at + 3]]);
        let record = Record { core: bytes[0], kind: bytes[1], address: word(4), value: word(8) };
        writer.add(&record, block)
    }

    fn close(writer: &mut Writer, block: &mut Vec<u8>) -> Wrote {
        writer.close(block)
    }

    fn refusal(block: &[u8], expected: u32, after_short: bool) -> Option<u8> {
        block_refusal(block, expected, after_short)
    }

    fn read(block: &[u8], expected: u32, after_short: bool, place: usize) -> Read {
        let (_, reader) = Reader::open(block, expected, after_short);
        reader.at(place)
    }

    fn whole(archive: &[u8]) -> Whole {
        whole(archive)
    }

    fn decided_by(archive: &[u8]) -> Option<u32> {
        decided_by(archive)
    }

    fn sought(archive: &[u8], number: u32) -> Sought {
        sought(archive, number)
    }
}

/// The block of a number and its records, put together from the rules' layout with plain sums: what
/// any accepted block has to be.
pub fn encoded(number: u32, records: &[Record]) -> [u8; BLOCK] {
    let mut bytes = b"LLRN".to_vec();
    bytes.extend(number.to_le_bytes());
    bytes.extend((records.len() as u32).to_le_bytes());
    for (place, record) in records.iter().enumerate() {
        bytes.extend(place_of(record, 31 * number + place as u32));
    }
    bytes.resize(508, 0);
    let (mut first, mut second) = (0, 0);
    for word in bytes.chunks(2).map(|pair| pair[0] as u32 + 256 * pair[1] as u32) {
        first = (first + word) % 65_535;
        second = (second + first) % 65_535;
    }
    bytes.extend((first as u16).to_le_bytes());
    bytes.extend((second as u16).to_le_bytes());
    bytes.try_into().expect("512 bytes")
}

/// What one does to a writer, one deed after another.
#[derive(Clone, Copy, Debug)]
pub enum Deed {
    Add { record: [u8; PLACE], lent: usize },
    Close { lent: usize },
    SetCount(u32),
    SetBlocks(u32),
    SetClosed(bool),
    SetByte(usize, u8),
}

pub fn perform<A: Archivist>(writer: &mut Writer, block: &mut Vec<u8>, deed: &Deed) -> Option<Wrote> {
    match *deed {
        Deed::Add { record, lent } => {
            *block = vec![0xa5; lent];
            Some(A::add(writer, &record, block))
        }
        Deed::Close { lent } => {
            *block = vec![0xa5; lent];
            Some(A::close(writer, block))
        }
        Deed::SetCount(count) => {
            writer.count = count;
            None
        }
        Deed::SetBlocks(blocks) => {
            writer.blocks = blocks;
            None
        }
        Deed::SetClosed(closed) => {
            writer.closed = closed;
            None
        }
        Deed::SetByte(at, byte) => {
            writer.pending[at] = byte;
            None
        }
    }
}

fn writers_differ<A: Archivist, B: Archivist>(deeds: &[Deed]) -> Option<String> {
    let (mut one, mut two) = (A::begin(), B::begin());
    let (mut left, mut right) = (Vec::new(), Vec::new());
    if one != two {
        return Some("the fresh writers differ".to_string());
    }
    for deed in deeds {
        let answers = (perform::<A>(&mut one, &mut left, deed), perform::<B>(&mut two, &mut right, deed));
        if answers.0 != answers.1 {
            return Some(format!("answers {:?} and {:?}", answers.0, answers.1));
        }
        if left != right {
            return Some("the lent blocks differ".to_string());
        }
        if one != two {
            return Some("the writers differ".to_string());
        }
    }
    None
}

pub fn compare_writers<A: Archivist, B: Archivist>(
    deeds: &[Deed],
    counts: &mut Counts,
) -> Result<(), Difference> {
    let calls = deeds.iter().filter(|deed| matches!(deed, Deed::Add { .. } | Deed::Close { .. }));
    counts.add("calls of writers", calls.count());
    let differ = |deeds: &[Deed]| caught(|| writers_differ::<A, B>(deeds));
    match differ(deeds) {
        None => {
            note_refusals::<A>(deeds, counts);
            Ok(())
        }
        Some(_) => {
            let short = shortest(deeds, |deeds| differ(deeds).is_some());
            let mut script = String::new();
            for deed in &short {
                writeln!(script, "{deed:?}").expect("text");
            }
            Err(Difference { what: differ(&short).unwrap_or_default(), deeds: deeds.len(), script })
        }
    }
}

fn note_refusals<A: Archivist>(deeds: &[Deed], counts: &mut Counts) {
    let (mut writer, mut block) = (A::begin(), Vec::new());
    for deed in deeds {
        if let Some(Wrote::Refused(number)) = perform::<A>(&mut writer, &mut block, deed) {
            counts.refused("of writers", number);
        }
    }
}

fn random_record(random: &mut Random) -> Record {
    let address = 4 * random.below(16_384) as u32;
    let value = if random.one_in(4) { random.pick(&[0, 1, !0, 65_535, 65_536]) } else { random.word() };
    if random.one_in(6) {
        return Record { core: 255, kind: 6, address, value };
    }
    Record { core: random.below(8) as u8, kind: 1 + random.below(5) as u8, address, value }
}

/// A record with something wrong, or just not wrong, in it; the bytes that a writer does not look at are
/// anything.
fn odd_record(random: &mut Random) -> [u8; PLACE] {
    let mut bytes = place_of(&random_record(random), random.word());
    bytes[2] = random.word() as u8;
    bytes[3] = random.word() as u8;
    match random.below(5) {
        0 => bytes[0] = random.pick(&[0, 7, 8, 254, 255]),
        1 => bytes[1] = random.pick(&[0, 5, 6, 7, 255]),
        2 => bytes[4] |= random.pick(&[1, 2, 3]),
        3 => bytes[4 + 2 + random.below(2)] = random.pick(&[1, 128, 255]),
        _ => {}
    }
    bytes
}

const LENT: [usize; 8] = [512, 512, 512, 511, 513, 0, 1, 1_024];

/// A run of a writer with refused calls in it, and the archive of the records that it took.
fn round_trip<A: Archivist, B: Archivist>(
    random: &mut Random,
    counts: &mut Counts,
) -> Result<(), Difference> {
    let length = random.below(130);
    let records: Vec<Record> = (0..length).map(|_| random_record(random)).collect();
    let mut deeds = Vec::new();
    for record in &records {
        while random.one_in(8) {
            let mut record = odd_record(random);
            record[1] = 0;
            deeds.push(Deed::Add { record, lent: random.pick(&LENT) });
        }
        deeds.push(Deed::Add { record: place_of(record, random.word()), lent: 512 });
    }
    deeds.push(Deed::Close { lent: 511 });
    deeds.extend([Deed::Close { lent: 512 }, Deed::Close { lent: 512 }]);
    deeds.push(Deed::Add { record: [0; PLACE], lent: 0 });
    compare_writers::<A, B>(&deeds, counts)?;
    counts.add("archives written and read back", 1);
    counts.add("  records in them", length);
    let differ = |records: &[Record]| caught(|| trips_differ::<A, B>(records));
    if differ(&records).is_none() {
        return Ok(());
    }
    let short = shortest(&records, |records| differ(records).is_some());
    let script = format!("the archive of {short:?}\n");
    Err(Difference { what: differ(&short).unwrap_or_default(), deeds: length, script })
}

/// Whether both sides put out the archive of the records, and read them back from it.
fn trips_differ<A: Archivist, B: Archivist>(records: &[Record]) -> Option<String> {
    let adds = records.iter().map(|record| Deed::Add { record: place_of(record, 0), lent: 512 });
    let deeds: Vec<Deed> = adds.chain([Deed::Close { lent: 512 }]).collect();
    let numbered = (0..).zip(records.chunks(PLACES));
    let archive: Vec<u8> = numbered.flat_map(|(number, records)| encoded(number, records)).collect();
    for put in [put_out::<A>(&deeds), put_out::<B>(&deeds)] {
        if put != archive {
            let at = (0..archive.len()).find(|&at| put.get(at) != Some(&archive[at]));
            return Some(format!("what was put out is not the archive of the records, from byte {at:?}"));
        }
    }
    for whole in [A::whole(&archive), B::whole(&archive)] {
        if whole != Whole::Holds(records.len() as u32) {
            return Some(format!("the archive is read as {whole:?}"));
        }
    }
    for (number, record) in (0..).zip(records) {
        for sought in [A::sought(&archive, number), B::sought(&archive, number)] {
            if sought != Sought::Record(*record, number) {
                return Some(format!("record {number} is read back as {sought:?}"));
            }
        }
    }
    None
}

fn put_out<A: Archivist>(deeds: &[Deed]) -> Vec<u8> {
    let mut writer = A::begin();
    let (mut archive, mut block) = (Vec::new(), Vec::new());
    for deed in deeds {
        if perform::<A>(&mut writer, &mut block, deed) == Some(Wrote::Block) {
            archive.extend_from_slice(&block);
        }
    }
    archive
}

/// A writer that no run made, or that only a very long one makes, and a few calls of it.
fn invented_writer(random: &mut Random) -> Vec<Deed> {
    let count = random.pick(&[0, 1, 2, 15, 29, 30]);
    let blocks = random.pick(&[0, 1, 2, 1_000, BLOCK_LIMIT - 2, BLOCK_LIMIT - 1, BLOCK_LIMIT]);
    let mut deeds = vec![Deed::SetCount(count), Deed::SetBlocks(blocks)];
    for at in 0..count {
        let number = (PLACES as u32).wrapping_mul(blocks).wrapping_add(at);
        let place = place_of(&random_record(random), number);
        let first = 12 + PLACE * at as usize;
        deeds.extend((0..PLACE).map(|byte| Deed::SetByte(first + byte, place[byte])));
    }
    for _ in 0..random.below(3) {
        deeds.push(match random.below(8) {
            0 => Deed::SetCount(random.pick(&[0, 1, 29, 30, 31, 32, 256, !0])),
            1 => Deed::SetBlocks(random.pick(&[0, 1, BLOCK_LIMIT, BLOCK_LIMIT + 1, 1 << 31, !0])),
            2 => Deed::SetClosed(true),
            3 => Deed::SetByte(random.pick(&[0, 3, 4, 8, 10, 11, 508, 511]), random.word() as u8),
            _ => Deed::SetByte(12 + random.below(496), random.word() as u8),
        });
    }
    for _ in 0..4 {
        let lent = random.pick(&LENT);
        deeds.push(if random.one_in(4) {
            Deed::Close { lent }
        } else {
            Deed::Add { record: odd_record(random), lent }
        });
    }
    deeds
}

/// What is done to a good block before it is read.
#[derive(Clone, Copy, Debug)]
struct Damage {
    byte: usize,
    value: u8,
    sealed: bool,
    expected: u32,
    after_short: bool,
    lent: usize,
}

fn damaged(number: u32, records: &[Record], damage: &Damage) -> Vec<u8> {
    let mut block = encoded(number, records);
    block[damage.byte] = damage.value;
    if damage.sealed {
        seal(&mut block);
    }
    let mut block = block.to_vec();
    block.resize(damage.lent, 0);
    block
}

/// Whether the two sides read a block alike, and an accepted one is the block of its own records.
fn readers_differ<A: Archivist, B: Archivist>(block: &[u8], damage: &Damage) -> Option<String> {
    let Damage { expected, after_short, .. } = *damage;
    let (left, right) = (A::refusal(block, expected, after_short), B::refusal(block, expected, after_short));
    if left != right {
        return Some(format!("the block check is {left:?} and {right:?}"));
    }
    let mut records = Vec::new();
    for place in [0, 1, 29, 30, 31, 32, usize::MAX] {
        let (left, right) =
            (A::read(block, expected, after_short, place), B::read(block, expected, after_short, place));
        if left != right {
            return Some(format!("at place {place} is {left:?} and {right:?}"));
        }
    }
    if left.is_some() {
        return None;
    }
    while let Read::Record(record, _) = A::read(block, expected, after_short, records.len()) {
        records.push(record);
    }
    (encoded(expected, &records) != block).then(|| "an accepted block is not that of its records".to_string())
}

fn compare_damage<A: Archivist, B: Archivist>(
    number: u32,
    records: &[Record],
    damage: &Damage,
    counts: &mut Counts,
) -> Result<Option<u8>, Difference> {
    let differ =
        |records: &[Record]| caught(|| readers_differ::<A, B>(&damaged(number, records, damage), damage));
    let block = damaged(number, records, damage);
    if differ(records).is_none() {
        let refusal = A::refusal(&block, damage.expected, damage.after_short);
        if let Some(number) = refusal {
            counts.refused("of blocks", number);
        }
        return Ok(refusal);
    }
    let short = shortest(records, |records| differ(records).is_some());
    let script = format!("block {number} of {short:?}\n{damage:?}\n");
    Err(Difference { what: differ(&short).unwrap_or_default(), deeds: 1, script })
}

/// Every byte of a block damaged, as it is and with the check made to fit.
fn damage_block<A: Archivist, B: Archivist>(
    random: &mut Random,
    every_value: bool,
    counts: &mut Counts,
) -> Result<(), Difference> {
    let number = random.pick(&[0, 1, 2, 77, BLOCK_LIMIT - 1]);
    let length = random.pick(&[1, 2, 15, 30, 31, 31]);
    let records: Vec<Record> = (0..length).map(|_| random_record(random)).collect();
    let good = encoded(number, &records);
    for (byte, &old) in good.iter().enumerate() {
        let values: Vec<u8> = if every_value {
            (0..=255).collect()
        } else {
            vec![old.wrapping_add(1), old ^ 1 << random.below(8), random.word() as u8, 0, 255]
        };
        for value in values {
            for sealed in [false, true] {
                let damage = Damage { byte, value, sealed, expected: number, after_short: false, lent: 512 };
                let refusal = compare_damage::<A, B>(number, &records, &damage, counts)?;
                counts.add("blocks damaged in one byte and read", 1);
                if !sealed && value != old && refusal != Some(12) {
                    return Err(Difference::plain(format!(
                        "{damage:?} of {records:?} is {refusal:?} and not 12"
                    )));
                }
            }
        }
    }
    Ok(())
}

/// A good block at another number, after a short one, or of another length.
fn misplaced_block<A: Archivist, B: Archivist>(
    random: &mut Random,
    counts: &mut Counts,
) -> Result<(), Difference> {
    let number = random.pick(&[0, 1, 2, BLOCK_LIMIT - 1]);
    let length = 1 + random.below(31);
    let records: Vec<Record> = (0..length).map(|_| random_record(random)).collect();
    let good = encoded(number, &records);
    let byte = random.pick(&[4, 5, 6, 7, 8, 9, 10, 11, 300, 511]);
    let damage = Damage {
        byte,
        value: random.pick(&[good[byte], 0, 1, 16, 30, 31, 32, 255]),
        sealed: random.one_in(2),
        expected: random.pick(&[number, number, number + 1, 0, BLOCK_LIMIT, !0]),
        after_short: random.one_in(3),
        lent: random.pick(&LENT),
    };
    counts.add("blocks misplaced and read", 1);
    compare_damage::<A, B>(number, &records, &damage, counts).map(|_| ())
}

fn cut_archive(blocks: &[[u8; BLOCK]], cut: usize) -> Vec<u8> {
    let mut archive = blocks.concat();
    archive.truncate(archive.len().saturating_sub(cut));
    archive
}

fn archives_differ<A: Archivist, B: Archivist>(blocks: &[[u8; BLOCK]], cut: usize) -> Option<String> {
    let archive = cut_archive(blocks, cut);
    let (left, right) = (A::whole(&archive), B::whole(&archive));
    if left != right {
        return Some(format!("the whole archive is {left:?} and {right:?}"));
    }
    let (left, right) = (A::decided_by(&archive), B::decided_by(&archive));
    if left != right {
        return Some(format!("of the archive, block {left:?} and block {right:?} decided"));
    }
    for number in [0, 1, 30, 31, 61, 62, 100, !0] {
        let (left, right) = (A::sought(&archive, number), B::sought(&archive, number));
        if left != right {
            return Some(format!("record {number} is {left:?} and {right:?}"));
        }
    }
    None
}

/// A whole archive with its blocks swapped, dropped, doubled, emptied, put after a short one, or cut.
fn mangled_archive<A: Archivist, B: Archivist>(
    random: &mut Random,
    counts: &mut Counts,
) -> Result<(), Difference> {
    let length = 1 + random.below(190);
    let records: Vec<Record> = (0..length).map(|_| random_record(random)).collect();
    let mut blocks: Vec<[u8; BLOCK]> =
        (0..).zip(records.chunks(PLACES)).map(|(number, records)| encoded(number, records)).collect();
    let mut cut = 0;
    for _ in 0..1 + random.below(2) {
        let (one, two) = (random.below(blocks.len()), random.below(blocks.len()));
        match random.below(7) {
            0 => blocks.swap(one, two),
            1 if blocks.len() > 1 => drop(blocks.remove(one)),
            2 => blocks.insert(one, blocks[two]),
            3 => blocks[one] = [0; BLOCK],
            4 => blocks[one] = encoded(one as u32, &records[..1 + random.below(31.min(length))]),
            5 => blocks.push(encoded(blocks.len() as u32, &records[..1])),
            _ => cut = 1 + random.below(600),
        }
    }
    counts.add("whole archives mangled and read", 1);
    let differ = |blocks: &[[u8; BLOCK]]| caught(|| archives_differ::<A, B>(blocks, cut));
    if differ(&blocks).is_none() {
        match A::whole(&cut_archive(&blocks, cut)) {
            Whole::Refused(number) => counts.refused("of whole archives", number),
            Whole::Holds(_) => counts.add("  that were good all the same", 1),
        }
        return Ok(());
    }
    let short = shortest(&blocks, |blocks| differ(blocks).is_some());
    let mut script = format!("an archive of {} blocks, the last {cut} bytes cut\n", short.len());
    for block in &short {
        writeln!(script, "{}", hexadecimal(block)).expect("text");
    }
    Err(Difference { what: differ(&short).unwrap_or_default(), deeds: blocks.len(), script })
}

pub fn hexadecimal(bytes: &[u8]) -> String {
    bytes.iter().map(|byte| format!("{byte:02x}")).collect()
}

pub fn compare<A: Archivist, B: Archivist>(
    seed: u64,
    times: usize,
    counts: &mut Counts,
) -> Result<(), Difference> {
    hundred::compare::<A, B>(counts)?;
    for number in 0..200 * times {
        round_trip::<A, B>(&mut Random::part(seed, "round trip", number as u64), counts)?;
    }
    for number in 0..40_000 * times {
        let deeds = invented_writer(&mut Random::part(seed, "writer", number as u64));
        compare_writers::<A, B>(&deeds, counts)?;
    }
    for number in 0..24 * times {
        let random = &mut Random::part(seed, "damage", number as u64);
        damage_block::<A, B>(random, number % 24 == 0, counts)?;
    }
    for number in 0..20_000 * times {
        misplaced_block::<A, B>(&mut Random::part(seed, "misplaced", number as u64), counts)?;
    }
    for number in 0..4_000 * times {
        mangled_archive::<A, B>(&mut Random::part(seed, "mangled", number as u64), counts)?;
    }
    Ok(())
}
