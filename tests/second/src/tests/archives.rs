//! Blocks, the writer, the reader and the whole archive, byte by byte as docs/RULES.md, 7, lays them out.

use crate::archive::{
    block_refusal, decided_by, seal, sought, whole, Read, Reader, Sought, Whole, Writer, Wrote, BLOCK,
};
use crate::machine::Record;

fn good(value: u32) -> Record {
    Record { core: (value % 8) as u8, kind: 1 + (value % 5) as u8, address: 4 * (value % 16_384), value }
}

/// The archive of a run of so many records.
fn archive_of(records: u32) -> Vec<u8> {
    let mut writer = Writer::default();
    let mut archive = Vec::new();
    let mut block = [0xee; BLOCK];
    for value in 0..records {
        let full = value % 31 == 30;
        assert_eq!(writer.add(&good(value), &mut block), if full { Wrote::Block } else { Wrote::NoBlock });
        if full {
            archive.extend_from_slice(&block);
            block = [0xee; BLOCK];
        }
        assert!(full || block == [0xee; BLOCK], "the lent block is unchanged");
    }
    if writer.close(&mut block) == Wrote::Block {
        archive.extend_from_slice(&block);
    }
    archive
}

fn block_of(records: u32) -> [u8; BLOCK] {
    archive_of(records).try_into().expect("one block")
}

/// The number of a block whose check was made to fit after a change.
fn changed(block: &[u8; BLOCK], change: impl Fn(&mut [u8; BLOCK])) -> Option<u8> {
    let mut block = *block;
    change(&mut block);
    seal(&mut block);
    block_refusal(&block, 0, false)
}

#[test]
fn a_block_as_it_is_stored() {
    let block = block_of(2);
    assert_eq!(&block[..12], b"LLRN\0\0\0\0\x02\0\0\0");
    assert_eq!(block[12..28], [0, 1, 0, 0, 0, 0, 0, 0, 0, 0, 0, 0, 0, 0, 0, 0]);
    assert_eq!(block[28..44], [1, 2, 0, 0, 4, 0, 0, 0, 1, 0, 0, 0, 1, 0, 0, 0]);
    assert!(block[44..508].iter().all(|&byte| byte == 0));
    let (mut first, mut second) = (0u32, 0u32);
    for word in block[..508].chunks(2).map(|pair| pair[0] as u32 + 256 * pair[1] as u32) {
        first = (first + word) % 65_535;
        second = (second + first) % 65_535;
    }
    assert_eq!(block[508..510], (first as u16).to_le_bytes());
    assert_eq!(block[510..], (second as u16).to_le_bytes());
}

#[test]
fn the_check_of_a_block_by_hand() {
    // Words 0x4c4c, 0x4e52, 0, 0, 1, 0, then 0x0100 at word 6: sums 0x9b9f and, with weights 254 - i,
    // 254 * 0x4c4c + 253 * 0x4e52 + 250 * 1 + 248 * 0x0100 modulo 65,535.
    let mut block = [0; BLOCK];
    block[..4].copy_from_slice(b"LLRN");
    (block[8], block[13]) = (1, 1);
    seal(&mut block);
    let second = (254 * 0x4c4c + 253 * 0x4e52 + 250 + 248 * 0x100) % 65_535u32;
    assert_eq!(block[508..510], 0x9b9fu16.to_le_bytes());
    assert_eq!(block[510..], (second as u16).to_le_bytes());
    assert_eq!(block_refusal(&block, 0, false), None);
}

#[test]
fn words_of_all_ones_are_summed_without_loss() {
    let mut block = [0xff; BLOCK];
    seal(&mut block);
    assert_eq!(block[508..], [0; 4]);
}

#[test]
fn a_reader_refuses_in_order() {
    let block = block_of(5);
    assert_eq!(block_refusal(&block, 0, false), None);
    for length in [0, 511, 513, 1024] {
        let mut lent = block.to_vec();
        lent.resize(length, 0);
        assert_eq!(block_refusal(&lent, 7, true), Some(16));
    }
    assert_eq!(block_refusal(&[0; BLOCK], 0, false), Some(11));
    assert_eq!(block_refusal(&block, 1, true), Some(13));
    assert_eq!(block_refusal(&block, 0, true), Some(14));
    let all = |block: &mut [u8; BLOCK]| (block[0], block[4], block[8], block[10]) = (0, 1, 0, 1);
    let mut worst = block;
    all(&mut worst);
    assert_eq!(block_refusal(&worst, 0, true), Some(12));
    assert_eq!(changed(&block, all), Some(11));
    assert_eq!(changed(&block, |block| (block[4], block[8], block[10]) = (1, 0, 1)), Some(13));
    assert_eq!(changed(&block, |block| (block[8], block[10]) = (0, 1)), Some(14));
    assert_eq!(changed(&block, |block| block[10] = 1), Some(15));
}

#[test]
fn a_stored_sum_of_65535_is_twelve() {
    let mut block = [0; BLOCK];
    block[508..].fill(0xff);
    assert_eq!(block_refusal(&block, 0, false), Some(12));
}

#[test]
fn counts_and_numbers_that_are_refused() {
    let block = block_of(31);
    for count in [0u16, 32, 256, 65_535] {
        let number = changed(&block, |block| block[8..10].copy_from_slice(&count.to_le_bytes()));
        assert_eq!(number, Some(14));
    }
    assert_eq!(changed(&block, |block| block[8] = 30), Some(15));
    let mut beyond = block;
    beyond[4..8].copy_from_slice(&1_048_576u32.to_le_bytes());
    seal(&mut beyond);
    assert_eq!(block_refusal(&beyond, 1_048_576, false), Some(13));
}

#[test]
fn places_that_are_refused() {
    let block = block_of(2);
    let at = |byte: usize, value: u8| changed(&block, |block| block[byte] = value);
    for (byte, value) in [
        (11, 1),
        (12, 8),
        (12, 255),
        (13, 0),
        (13, 6),
        (13, 7),
        (14, 1),
        (15, 1),
        (16, 1),
        (16, 2),
        (18, 1),
        (19, 1),
        (24, 1),
        (27, 1),
        (44, 1),
        (507, 1),
    ] {
        assert_eq!(at(byte, value), Some(15), "byte {byte}");
    }
    for (byte, value) in [(12, 7), (13, 5), (16, 252), (17, 255), (20, 9), (23, 255)] {
        assert_eq!(at(byte, value), None, "byte {byte}");
    }
    let poke = |core, kind| changed(&block, |block| (block[12], block[13]) = (core, kind));
    assert_eq!((poke(255, 6), poke(254, 6), poke(255, 5)), (None, Some(15), Some(15)));
}

#[test]
fn a_reader_hands_out_in_turn_and_stays() {
    let block = block_of(3);
    let (refusal, mut reader) = Reader::open(&block, 0, false);
    assert_eq!(refusal, None);
    for number in 0..3 {
        assert_eq!(reader.next(), Read::Record(good(number), number));
    }
    assert_eq!((reader.next(), reader.next()), (Read::NoRecord, Read::NoRecord));
    let (refusal, mut reader) = Reader::open(&block, 1, false);
    assert_eq!((refusal, reader.next(), reader.next()), (Some(13), Read::Refused(13), Read::Refused(13)));
    assert_eq!(reader.at(40), Read::Refused(13));
}

fn refuses(writer: &Writer, record: &Record, lent: usize, add: u8, close: Option<u8>) {
    let mut block = vec![0xee; lent];
    let mut after = *writer;
    assert_eq!(after.add(record, &mut block), Wrote::Refused(add));
    if let Some(number) = close {
        assert_eq!(after.close(&mut block), Wrote::Refused(number));
    }
    assert_eq!((&after, block), (writer, vec![0xee; lent]));
}

#[test]
fn a_writer_refuses_in_order() {
    let wrong = Record { kind: 6, ..good(0) };
    let full = Writer { blocks: 1_048_576, ..Writer::default() };
    refuses(&full, &good(0), 512, 17, None);
    refuses(&full, &wrong, 512, 15, None);
    refuses(&full, &wrong, 511, 16, Some(16));
    let closed = Writer { closed: true, ..full };
    refuses(&closed, &wrong, 511, 18, Some(18));
    refuses(&Writer { count: 1, ..closed }, &wrong, 511, 5, Some(5));
    let mut pending = Writer::default();
    pending.add(&good(0), &mut [0; BLOCK]);
    refuses(&Writer { closed: true, ..pending }, &wrong, 511, 18, Some(18));
}

#[test]
fn a_writers_state_out_of_its_ranges() {
    let mut writer = Writer::default();
    for value in 0..30 {
        writer.add(&good(value), &mut [0; BLOCK]);
    }
    refuses(&Writer { count: 31, ..writer }, &good(0), 512, 5, Some(5));
    refuses(&Writer { count: u32::MAX, ..writer }, &good(0), 512, 5, Some(5));
    refuses(&Writer { count: 29, ..writer }, &good(0), 512, 5, Some(5));
    refuses(&Writer { blocks: 1, ..writer }, &good(0), 512, 5, Some(5));
    refuses(&Writer { blocks: 1_048_577, ..Writer::default() }, &good(0), 512, 5, Some(5));
    for byte in [12, 14, 16, 24, 27, 492, 507] {
        let mut broken = writer;
        broken.pending[byte] ^= 0x81;
        refuses(&broken, &good(0), 512, 5, Some(5));
    }
    let mut other = writer;
    other.pending[..12].fill(0xaa);
    other.pending[508..].fill(0xaa);
    let mut block = [0; BLOCK];
    assert_eq!(other.add(&good(30), &mut block), Wrote::Block);
    assert_eq!((block, other), (block_of(31), Writer { blocks: 1, ..Writer::default() }));
}

#[test]
fn records_that_add_refuses() {
    let record = good(0);
    for wrong in [
        Record { core: 8, ..record },
        Record { core: 255, ..record },
        Record { kind: 0, ..record },
        Record { kind: 6, ..record },
        Record { kind: 7, ..record },
        Record { core: 255, kind: 7, ..record },
        Record { address: 2, ..record },
        Record { address: 65_536, ..record },
    ] {
        refuses(&Writer::default(), &wrong, 512, 15, None);
    }
    let mut writer = Writer::default();
    let poke = Record { core: 255, kind: 6, address: 65_532, value: u32::MAX };
    assert_eq!(writer.add(&poke, &mut [0; BLOCK]), Wrote::NoBlock);
}

#[test]
fn a_whole_archive_reads_back() {
    for records in [0, 1, 30, 31, 32, 62, 63, 100] {
        let archive = archive_of(records);
        assert_eq!(archive.len(), BLOCK * records.div_ceil(31) as usize);
        assert_eq!(whole(&archive), Whole::Holds(records));
        for number in 0..records {
            assert_eq!(sought(&archive, number), Sought::Record(good(number), number));
        }
        assert_eq!(sought(&archive, records), Sought::NoRecord);
        assert_eq!(sought(&archive, u32::MAX), Sought::NoRecord);
    }
}

#[test]
fn the_first_refused_block_decides() {
    let archive = archive_of(100);
    let judged = |archive: &[u8]| (whole(archive), decided_by(archive));
    let at = |block, number| (Whole::Refused(number), Some(block));
    assert_eq!(judged(&archive), (Whole::Holds(100), None));
    assert_eq!(judged(&archive[..2_047]), (Whole::Refused(16), None));
    assert_eq!(judged(&archive[512..]), at(0, 13));
    let mut doubled = archive.clone();
    doubled.extend_from_slice(&archive[3 * 512..]);
    assert_eq!(judged(&doubled), at(4, 13));
    let mut after_short = archive.clone();
    let mut block = block_of(1);
    (block[4], block[24]) = (4, 124);
    seal(&mut block);
    after_short.extend_from_slice(&block);
    assert_eq!(judged(&after_short), at(4, 14));
    let mut damaged = archive.clone();
    (damaged[600], damaged[1_536]) = (damaged[600] ^ 1, 0);
    assert_eq!(judged(&damaged), at(1, 12));
    assert_eq!(sought(&damaged, 0), Sought::Refused(12));
}
