//! The proved library, as bench/malthobre.h declares it. The one place with unsafe code: each call hands
//! over whole structs and slices with their own lengths, which is all that the header asks for.

#![allow(unsafe_code)]

use crate::archive::{Read, Sought, Whole, Writer, Wrote};
use crate::compare::archives::Archivist;
use crate::compare::deeds::{Engine, State};
use crate::machine::{Answer, Called, Core, Machine, Record};

/// The structs have the header's fields in its order, so `repr(C)` gives its layout.
#[repr(C)]
#[derive(Clone, Copy, Default)]
pub struct LibraryCore {
    busy: bool,
    operation: u8,
    next: u8,
    passed: bool,
    linked: bool,
    address: u32,
    value: u32,
    read: u32,
    link: u32,
}

#[repr(C)]
#[derive(Clone, Copy, Default)]
pub struct LibraryMachine {
    cores: [LibraryCore; 8],
    count: usize,
    bytes: usize,
    entries: usize,
}

#[repr(C)]
#[derive(Clone, Copy)]
pub struct LibraryWriter {
    pending: [u8; 512],
    count: u32,
    blocks: u32,
    closed: bool,
}

extern "C" {
    fn malthobre_start(
        machine: *mut LibraryMachine,
        count: usize,
        memory: *mut u8,
        memory_length: usize,
        owners: *mut u8,
        owners_length: usize,
        holders: *mut u8,
        holders_length: usize,
    ) -> u64;
    fn malthobre_give(
        machine: *mut LibraryMachine,
        core: usize,
        operation: u8,
        address: u32,
        value: u32,
    ) -> u64;
    fn malthobre_step(
        machine: *mut LibraryMachine,
        memory: *mut u8,
        memory_length: usize,
        owners: *mut u8,
        owners_length: usize,
        holders: *mut u8,
        holders_length: usize,
        core: usize,
        record: *mut u8,
    ) -> u64;
    fn malthobre_poke(
        machine: *mut LibraryMachine,
        memory: *mut u8,
        memory_length: usize,
        address: u32,
        value: u32,
        record: *mut u8,
    ) -> u64;
    fn malthobre_show(
        machine: *mut LibraryMachine,
        memory: *const u8,
        memory_length: usize,
        address: u32,
    ) -> u64;
    fn malthobre_writer_new(writer: *mut LibraryWriter) -> u64;
    fn malthobre_writer_add(
        writer: *mut LibraryWriter,
        block: *mut u8,
        block_length: usize,
        record: *const u8,
    ) -> u64;
    fn malthobre_writer_close(writer: *mut LibraryWriter, block: *mut u8, block_length: usize) -> u64;
    fn malthobre_block_check(block: *const u8, block_length: usize, expected: u32, after_short: bool) -> u64;
    fn malthobre_block_record(
        block: *const u8,
        block_length: usize,
        expected: u32,
        after_short: bool,
        place: usize,
        record: *mut u8,
    ) -> u64;
    fn malthobre_archive_check(archive: *const u8, archive_length: usize) -> u64;
    fn malthobre_archive_decided_by(archive: *const u8, archive_length: usize) -> u64;
    fn malthobre_archive_record(
        archive: *const u8,
        archive_length: usize,
        number: u32,
        record: *mut u8,
    ) -> u64;
}

/// The library's calls over safe types; the benchmarks time these.
impl LibraryMachine {
    pub fn start(&mut self, count: usize, memory: &mut [u8], owners: &mut [u8], holders: &mut [u8]) -> u64 {
        unsafe {
            malthobre_start(
                self,
                count,
                memory.as_mut_ptr(),
                memory.len(),
                owners.as_mut_ptr(),
                owners.len(),
                holders.as_mut_ptr(),
                holders.len(),
            )
        }
    }

    #[inline]
    pub fn give(&mut self, core: usize, operation: u8, address: u32, value: u32) -> u64 {
        unsafe { malthobre_give(self, core, operation, address, value) }
    }

    #[inline]
    pub fn step(
        &mut self,
        memory: &mut [u8],
        owners: &mut [u8],
        holders: &mut [u8],
        core: usize,
        record: &mut [u8; 16],
    ) -> u64 {
        unsafe {
            malthobre_step(
                self,
                memory.as_mut_ptr(),
                memory.len(),
                owners.as_mut_ptr(),
                owners.len(),
                holders.as_mut_ptr(),
                holders.len(),
                core,
                record.as_mut_ptr(),
            )
        }
    }

    pub fn poke(&mut self, memory: &mut [u8], address: u32, value: u32, record: &mut [u8; 16]) -> u64 {
        unsafe {
            malthobre_poke(self, memory.as_mut_ptr(), memory.len(), address, value, record.as_mut_ptr())
        }
    }

    pub fn show(&mut self, memory: &[u8], address: u32) -> u64 {
        unsafe { malthobre_show(self, memory.as_ptr(), memory.len(), address) }
    }
}

impl LibraryWriter {
    pub fn begin() -> LibraryWriter {
        let mut writer = LibraryWriter { pending: [0xa5; 512], count: 7, blocks: 7, closed: true };
        unsafe { malthobre_writer_new(&mut writer) };
        writer
    }

    #[inline]
    pub fn add(&mut self, block: &mut [u8], record: &[u8; 16]) -> u64 {
        unsafe { malthobre_writer_add(self, block.as_mut_ptr(), block.len(), record.as_ptr()) }
    }

    pub fn close(&mut self, block: &mut [u8]) -> u64 {
        unsafe { malthobre_writer_close(self, block.as_mut_ptr(), block.len()) }
    }
}

#[inline]
pub fn block_check(block: &[u8], expected: u32, after_short: bool) -> u64 {
    unsafe { malthobre_block_check(block.as_ptr(), block.len(), expected, after_short) }
}

#[inline]
pub fn block_record(
    block: &[u8],
    expected: u32,
    after_short: bool,
    place: usize,
    record: &mut [u8; 16],
) -> u64 {
    unsafe {
        malthobre_block_record(block.as_ptr(), block.len(), expected, after_short, place, record.as_mut_ptr())
    }
}

fn machine_to(machine: &Machine) -> LibraryMachine {
    let cores = machine.cores.map(|core| LibraryCore {
        busy: core.busy,
        operation: core.operation,
        next: core.next,
        passed: core.passed,
        linked: core.linked,
        address: core.address,
        value: core.value,
        read: core.read,
        link: core.link,
    });
    LibraryMachine { cores, count: machine.count, bytes: machine.bytes, entries: machine.entries }
}

fn machine_from(machine: &LibraryMachine) -> Machine {
    let cores = machine.cores.map(|core| Core {
        busy: core.busy,
        operation: core.operation,
        next: core.next,
        passed: core.passed,
        linked: core.linked,
        address: core.address,
        value: core.value,
        read: core.read,
        link: core.link,
    });
    Machine { cores, count: machine.count, bytes: machine.bytes, entries: machine.entries }
}

/// A record's 16 bytes taken apart; kind 0 is none, and is then to be all zero.
fn record_from(bytes: &[u8; 16]) -> (Option<Record>, u32) {
    let word = |at: usize| u32::from_le_bytes([bytes[at], bytes[at + 1], bytes[at + 2], bytes[at + 3]]);
    let record = Record { core: bytes[0], kind: bytes[1], address: word(4), value: word(8) };
    assert!(bytes[2] == 0 && bytes[3] == 0, "a record's bytes 2..3 are zero: {bytes:?}");
    if record.kind == 0 {
        assert!(bytes.iter().all(|&byte| byte == 0), "no record is 16 zero bytes: {bytes:?}");
        return (None, 0);
    }
    (Some(record), word(12))
}

/// An answer's number, word and value.
fn parts(answer: u64) -> (u8, u8, u32) {
    assert!(answer >> 16 & 0xffff == 0, "an answer's bits 16 to 31 are 0: {answer:#x}");
    (answer as u8, (answer >> 8) as u8, (answer >> 32) as u32)
}

/// What the 16 bytes for a record hold before a call: no record, and not 16 zero bytes.
const BEFORE: [u8; 16] = [0xa5; 16];

/// The record that a call hands out, with its number; a refused call leaves the 16 bytes as they were.
fn record_of(answer: u64, bytes: &[u8; 16]) -> (Option<Record>, u32) {
    if parts(answer).0 != 0 {
        assert!(*bytes == BEFORE, "a refused call leaves the record as it was: {bytes:?}");
        return (None, 0);
    }
    record_from(bytes)
}

fn called(answer: u64, record: &[u8; 16]) -> Called {
    let (number, word, value) = parts(answer);
    let (record, numbered) = record_of(answer, record);
    let answer = match (number, word, value) {
        (1.., 0, 0) => Answer::Refused(number),
        (0, 1, 0) => Answer::Ready,
        (0, 2, 0) => Answer::Taken,
        (0, 3, 0) => Answer::Moved,
        (0, 4, 0) => Answer::Waits,
        (0, 5, value) => Answer::Load(value),
        (0, 6, value) => Answer::Ll(value),
        (0, 7, 0) => Answer::Store,
        (0, 8, value) => Answer::Sc(value),
        (0, 9, 0) => Answer::Poked,
        (0, 10, value) => Answer::Word(value),
        _ => panic!("an answer that no machine's call has: {answer:#x}"),
    };
    assert!(numbered == 0, "no writer has numbered a machine's record: {numbered}");
    Called { answer, record }
}

/// The proved machine, behind the library's C interface.
pub struct Library;

fn through(
    state: &mut State,
    call: impl Fn(&mut LibraryMachine, &mut State, &mut [u8; 16]) -> u64,
) -> Called {
    let mut machine = machine_to(&state.machine);
    let mut record = BEFORE;
    let answer = call(&mut machine, state, &mut record);
    state.machine = machine_from(&machine);
    called(answer, &record)
}

/// A call that is lent no room for a record hands out none.
fn with_no_record(state: &mut State, call: impl Fn(&mut LibraryMachine, &mut State) -> u64) -> Called {
    through(state, |machine, state, record| {
        let answer = call(machine, state);
        if parts(answer).0 == 0 {
            *record = [0; 16];
        }
        answer
    })
}

impl Engine for Library {
    fn start(state: &mut State, count: usize) -> Called {
        with_no_record(state, |machine, state| {
            machine.start(count, &mut state.memory, &mut state.owners, &mut state.holders)
        })
    }

    fn give(state: &mut State, core: usize, operation: u8, address: u32, value: u32) -> Called {
        with_no_record(state, |machine, _| machine.give(core, operation, address, value))
    }

    fn step(state: &mut State, core: usize) -> Called {
        through(state, |machine, state, record| {
            machine.step(&mut state.memory, &mut state.owners, &mut state.holders, core, record)
        })
    }

    fn poke(state: &mut State, address: u32, value: u32) -> Called {
        through(state, |machine, state, record| machine.poke(&mut state.memory, address, value, record))
    }

    fn show(state: &mut State, address: u32) -> Called {
        with_no_record(state, |machine, state| machine.show(&state.memory, address))
    }
}

fn through_writer(writer: &mut Writer, call: impl Fn(&mut LibraryWriter) -> u64) -> Wrote {
    let mut library = LibraryWriter {
        pending: writer.pending,
        count: writer.count,
        blocks: writer.blocks,
        closed: writer.closed,
    };
    let answer = call(&mut library);
    *writer = writer_from(&library);
    match parts(answer) {
        (number @ 1.., 0, 0) => Wrote::Refused(number),
        (0, 11, 0) => Wrote::NoBlock,
        (0, 12, 0) => Wrote::Block,
        _ => panic!("an answer that no writer's call has: {answer:#x}"),
    }
}

fn writer_from(library: &LibraryWriter) -> Writer {
    Writer { pending: library.pending, count: library.count, blocks: library.blocks, closed: library.closed }
}

fn whole_from(answer: u64) -> Whole {
    match parts(answer) {
        (number @ 1.., 0, 0) => Whole::Refused(number),
        (0, 16, records) => Whole::Holds(records),
        _ => panic!("an answer that no whole archive has: {answer:#x}"),
    }
}

impl Archivist for Library {
    fn begin() -> Writer {
        writer_from(&LibraryWriter::begin())
    }

    fn add(writer: &mut Writer, record: &[u8; 16], block: &mut Vec<u8>) -> Wrote {
        let lent = std::cell::RefCell::new(block);
        through_writer(writer, |library| library.add(&mut lent.borrow_mut(), record))
    }

    fn close(writer: &mut Writer, block: &mut Vec<u8>) -> Wrote {
        let lent = std::cell::RefCell::new(block);
        through_writer(writer, |library| library.close(&mut lent.borrow_mut()))
    }

    fn refusal(block: &[u8], expected: u32, after_short: bool) -> Option<u8> {
        let answer = block_check(block, expected, after_short);
        match parts(answer) {
            (number @ 1.., 0, 0) => Some(number),
            (0, 13, 0) => None,
            _ => panic!("an answer that no block check has: {answer:#x}"),
        }
    }

    fn read(block: &[u8], expected: u32, after_short: bool, place: usize) -> Read {
        let mut bytes = BEFORE;
        let answer = block_record(block, expected, after_short, place, &mut bytes);
        match (parts(answer), record_of(answer, &bytes)) {
            ((number @ 1.., 0, 0), (None, _)) => Read::Refused(number),
            ((0, 14, 0), (None, _)) => Read::NoRecord,
            ((0, 15, 0), (Some(record), number)) => Read::Record(record, number),
            other => panic!("what no reader hands out: {other:?}"),
        }
    }

    fn whole(archive: &[u8]) -> Whole {
        whole_from(unsafe { malthobre_archive_check(archive.as_ptr(), archive.len()) })
    }

    fn decided_by(archive: &[u8]) -> Option<u32> {
        let answer = unsafe { malthobre_archive_decided_by(archive.as_ptr(), archive.len()) };
        match parts(answer) {
            (0, 17, 0) => None,
            (0, 18, block) => Some(block),
            _ => panic!("an answer that no decision has: {answer:#x}"),
        }
    }

    fn sought(archive: &[u8], number: u32) -> Sought {
        let mut bytes = BEFORE;
        let answer =
            unsafe { malthobre_archive_record(archive.as_ptr(), archive.len(), number, bytes.as_mut_ptr()) };
        match (parts(answer), record_of(answer, &bytes)) {
            ((number @ 1.., 0, 0), (None, _)) => Sought::Refused(number),
            ((0, 14, 0), (None, _)) => Sought::NoRecord,
            ((0, 15, 0), (Some(record), number)) => Sought::Record(record, number),
            other => panic!("what no archive hands out: {other:?}"),
        }
    }
}
