// A bench in Rust: plays the small runs P1 to P9 (docs/RULES.md, 9) on one machine, archives what they did
// and reads the archive back. It panics at the first answer that is not the rules'.
use std::mem::{offset_of, size_of};

#[repr(C)]
#[derive(Clone, Copy, Default)]
struct Core { busy: bool, operation: u8, next: u8, passed: bool, linked: bool, address: u32, value: u32, read: u32, link: u32 }

#[repr(C)]
#[derive(Default)]
struct Machine { cores: [Core; 8], count: usize, bytes: usize, entries: usize }

#[repr(C)]
struct Writer { pending: [u8; 512], count: u32, blocks: u32, closed: bool }

// As bench/malthobre.h has them.
const _: () = assert!(size_of::<Core>() == 24 && offset_of!(Core, linked) == 4 && offset_of!(Core, address) == 8 && offset_of!(Core, link) == 20);
const _: () = assert!(size_of::<Machine>() == 216 && offset_of!(Machine, count) == 192 && offset_of!(Machine, bytes) == 200 && offset_of!(Machine, entries) == 208);
const _: () = assert!(size_of::<Writer>() == 524 && offset_of!(Writer, count) == 512 && offset_of!(Writer, blocks) == 516 && offset_of!(Writer, closed) == 520);

// A slice crosses as a pointer and a length.
extern "C" {
    fn malthobre_start(machine: *mut Machine, count: usize, memory: *mut u8, bytes: usize, owners: *mut u8, owners_length: usize, holders: *mut u8, holders_length: usize) -> u64;
    fn malthobre_give(machine: *mut Machine, core: usize, operation: u8, address: u32, value: u32) -> u64;
    fn malthobre_step(machine: *mut Machine, memory: *mut u8, bytes: usize, owners: *mut u8, owners_length: usize, holders: *mut u8, holders_length: usize, core: usize, record: *mut [u8; 16]) -> u64;
    fn malthobre_poke(machine: *mut Machine, memory: *mut u8, bytes: usize, address: u32, value: u32, record: *mut [u8; 16]) -> u64;
    fn malthobre_writer_new(writer: *mut Writer) -> u64;
    fn malthobre_writer_add(writer: *mut Writer, block: *mut u8, length: usize, record: *const [u8; 16]) -> u64;
    fn malthobre_writer_close(writer: *mut Writer, block: *mut u8, length: usize) -> u64;
    fn malthobre_block_record(block: *const u8, length: usize, expected: u32, after_short: bool, place: usize, record: *mut [u8; 16]) -> u64;
    fn malthobre_archive_check(archive: *const u8, length: usize) -> u64;
    fn malthobre_archive_decided_by(archive: *const u8, length: usize) -> u64;
    fn malthobre_archive_record(archive: *const u8, length: usize, number: u32, record: *mut [u8; 16]) -> u64;
}

const LOAD: u8 = 1;
const LL: u8 = 2;
const STORE: u8 = 3;
const SC: u8 = 4;
const POKE: u8 = 5;
const NAMES: [&str; 5] = ["", "load", "ll", "store", "sc"];
const BLOCK: u64 = 12;
// Whole answers: the number 0, and which answer it is.
const NO_RECORD: u64 = 14 << 8;
const RECORD: u64 = 15 << 8;

// Run, core, operation, address, value, and the value that the rules have it answer.
const RUNS: [(u8, usize, u8, u32, u32, u32); 38] = [
    (1, 0, LL, 8, 0, 0), (1, 0, SC, 8, 5, 0), (1, 2, LOAD, 8, 0, 5),
    (2, 0, LL, 8, 0, 0), (2, 1, STORE, 8, 7, 0), (2, 1, STORE, 8, 0, 0), (2, 0, SC, 8, 5, 1), (2, 2, LOAD, 8, 0, 0),
    (3, 0, LL, 8, 0, 0), (3, 1, STORE, 8, 7, 0), (3, 0, STORE, 24, 9, 0), (3, 0, SC, 8, 5, 1), (3, 2, LOAD, 8, 0, 7),
    (4, 0, LL, 8, 0, 0), (4, 1, LL, 24, 0, 0), (4, 0, SC, 8, 5, 1), (4, 1, SC, 24, 4, 0), (4, 2, LOAD, 8, 0, 0),
    (5, 0, LL, 8, 0, 0), (5, 0, STORE, 8, 3, 0), (5, 0, SC, 8, 5, 0), (5, 2, LOAD, 8, 0, 5),
    (6, 0, LL, 8, 0, 0), (6, 0, SC, 12, 5, 1), (6, 0, SC, 8, 5, 1), (6, 2, LOAD, 8, 0, 0),
    (7, 0, LL, 8, 0, 0), (7, 1, STORE, 12, 1, 0), (7, 0, SC, 8, 5, 0), (7, 2, LOAD, 8, 0, 5),
    (8, 0, LL, 8, 0, 0), (8, 1, SC, 24, 4, 1), (8, 0, SC, 8, 5, 0), (8, 2, LOAD, 8, 0, 5),
    (9, 0, LL, 8, 0, 0), (9, 0, POKE, 8, 9, 0), (9, 0, SC, 8, 5, 0), (9, 2, LOAD, 8, 0, 5),
];

// An answer that is no refusal: bits 8 to 15 say which, bits 32 to 63 are its value.
fn expect(answer: u64, word: u64, value: u32) {
    assert_eq!((answer & 0xffff_ffff, answer >> 32), (word << 8, value as u64));
}

// The machine and the writer stand here for the whole session.
struct Bench { machine: Machine, memory: [u8; 64], owners: [u8; 4], holders: [u8; 4], writer: Writer, block: [u8; 512], archive: Vec<u8> }

impl Bench {
    fn start(&mut self) {
        expect(unsafe { malthobre_start(&mut self.machine, 3, self.memory.as_mut_ptr(), 64, self.owners.as_mut_ptr(), 4, self.holders.as_mut_ptr(), 4) }, 1, 0);
    }

    fn put_out(&mut self, answer: u64) {
        if answer >> 8 == BLOCK {
            self.archive.extend_from_slice(&self.block);
        } else {
            expect(answer, 11, 0);
        }
    }

    fn keep(&mut self, record: [u8; 16]) {
        if record[1] != 0 {
            let answer = unsafe { malthobre_writer_add(&mut self.writer, self.block.as_mut_ptr(), 512, &record) };
            self.put_out(answer);
        }
    }

    fn step(&mut self, core: usize) -> u64 {
        let mut record = [0; 16];
        let answer = unsafe { malthobre_step(&mut self.machine, self.memory.as_mut_ptr(), 64, self.owners.as_mut_ptr(), 4, self.holders.as_mut_ptr(), 4, core, &mut record) };
        // a refused step leaves `record` as it was
        if answer & 0xff == 0 {
            self.keep(record);
        }
        answer
    }

    fn run(&mut self, o: (u8, usize, u8, u32, u32, u32)) {
        let (run, core, what, address, value, answer) = o;
        if what == POKE {
            let mut record = [0; 16];
            expect(unsafe { malthobre_poke(&mut self.machine, self.memory.as_mut_ptr(), 64, address, value, &mut record) }, 9, 0);
            self.keep(record);
            println!("P{run}: poke {address} {value}: poked");
            return;
        }
        expect(unsafe { malthobre_give(&mut self.machine, core, what, address, value) }, 2, 0);
        let mut line = format!("P{run}: {core} {} {address}", NAMES[what as usize]);
        if what >= STORE {
            line += &format!(" {value}");
        }
        line += ":";
        for _ in 1..if what == LOAD { 1 } else { 4 } {
            expect(self.step(core), 3, 0);
            line += " moved";
        }
        expect(self.step(core), 4 + what as u64, answer);
        line += &format!(" {}", NAMES[what as usize]);
        if what != STORE {
            line += &format!(" {answer}");
        }
        println!("{line}");
    }

    // Goes through the archive once, block by block, as far as the first block that is refused: its records, that
    // block's index and the number of its refusal, or 0.
    fn pass(&self) -> (Vec<[u8; 16]>, usize, u64) {
        let mut records = Vec::new();
        let mut short_before = false;
        for (index, block) in self.archive.chunks_exact(512).enumerate() {
            let before = records.len();
            for place in 0..31 {
                let mut record = [0; 16];
                let answer = unsafe { malthobre_block_record(block.as_ptr(), 512, index as u32, short_before, place, &mut record) };
                match answer {
                    RECORD => records.push(record),
                    NO_RECORD => break,
                    refusal => return (records, index, refusal),
                }
            }
            short_before = records.len() - before < 31;
        }
        (records, self.archive.len() / 512, 0)
    }

    // The pass says of an archive what the calls of a whole archive do.
    fn read_back(&mut self) {
        let (records, _, refusal) = self.pass();
        assert_eq!((records.len(), refusal), (38, 0));
        println!("archive: {} bytes, {} records", self.archive.len(), records.len());
        for record in &records {
            let four = |i: usize| u32::from_le_bytes(record[i..i + 4].try_into().unwrap());
            println!("{}: core {} kind {} address {} value {}", four(12), record[0], record[1], four(4), four(8));
        }
        let mut last = [0; 16];
        expect(unsafe { malthobre_archive_check(self.archive.as_ptr(), self.archive.len()) }, 16, 38);
        expect(unsafe { malthobre_archive_decided_by(self.archive.as_ptr(), self.archive.len()) }, 17, 0);
        expect(unsafe { malthobre_archive_record(self.archive.as_ptr(), self.archive.len(), 37, &mut last) }, 15, 0);
        assert_eq!(records.last(), Some(&last));

        self.archive[600] ^= 1;
        let (records, index, refusal) = self.pass();
        assert_eq!((records.len(), refusal), (31, 12));
        assert_eq!(unsafe { malthobre_archive_check(self.archive.as_ptr(), self.archive.len()) }, refusal);
        expect(unsafe { malthobre_archive_decided_by(self.archive.as_ptr(), self.archive.len()) }, 18, index as u32);
        println!("a bit of block 1 turned: refused {refusal}, by block {index}");
    }
}

fn main() {
    let writer = Writer { pending: [0; 512], count: 0, blocks: 0, closed: false };
    let mut bench = Bench { machine: Machine::default(), memory: [0; 64], owners: [0; 4], holders: [0; 4], writer, block: [0; 512], archive: Vec::new() };
    expect(unsafe { malthobre_writer_new(&mut bench.writer) }, 11, 0);
    let mut of = 0;
    for o in RUNS {
        if o.0 != of {
            of = o.0;
            bench.start();
        }
        bench.run(o);
    }
    let answer = unsafe { malthobre_writer_close(&mut bench.writer, bench.block.as_mut_ptr(), 512) };
    bench.put_out(answer);
    bench.read_back();
}
