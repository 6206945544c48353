//! The benchmarks: both sides in one process, on the same seeded input, best of several alternating
//! rounds. A side that is missing leaves its column empty.

use crate::archive::{block_refusal, place_of, Read, Reader, Writer, Wrote, BLOCK, PLACES};
use crate::machine::{Machine, Operation, Record, LL, LOAD, SC, STORE};
use crate::random::Random;
use std::fs::File;
use std::hint::black_box;
use std::io::{self, Write as _};
use std::path::{Path, PathBuf};
use std::process::{Command, Stdio};
use std::time::{Duration, Instant};

/// Rounds in this process, and rounds of whole programs.
const ROUNDS: usize = 64;
const PROGRAM_ROUNDS: usize = 32;

/// A side's machine, kept for a whole run and stepped where it stands.
trait Stepped {
    fn start(count: usize, memory: &mut [u8], owners: &mut [u8], holders: &mut [u8]) -> Self;
    fn give(&mut self, given: &Given);
    fn step(&mut self, memory: &mut [u8], owners: &mut [u8], holders: &mut [u8], core: usize);
}

/// A side's archive.
trait Archived {
    fn write(records: &[Record]) -> Vec<u8>;
    fn check(block: &[u8], expected: u32) -> bool;
    /// Hands out all records of a block in turn; how many there were.
    fn hand_out(block: &[u8], expected: u32) -> usize;
}

struct Second(Machine);

#[derive(Clone, Copy)]
struct Given {
    core: usize,
    operation: Operation,
    address: u32,
}

impl Stepped for Second {
    fn start(count: usize, memory: &mut [u8], owners: &mut [u8], holders: &mut [u8]) -> Second {
        Second(Machine::start(count, memory, owners, holders).1)
    }

    #[inline]
    fn give(&mut self, given: &Given) {
        black_box(self.0.give(given.core, given.operation, given.address));
    }

    #[inline]
    fn step(&mut self, memory: &mut [u8], owners: &mut [u8], holders: &mut [u8], core: usize) {
        black_box(self.0.step(memory, owners, holders, core));
    }
}

impl Archived for Second {
    fn write(records: &[Record]) -> Vec<u8> {
        let mut writer = Writer::default();
        let (mut archive, mut block) = (Vec::new(), [0; BLOCK]);
        for record in records {
            if writer.add(record, &mut block) == Wrote::Block {
                archive.extend_from_slice(&block);
            }
        }
        if writer.close(&mut block) == Wrote::Block {
            archive.extend_from_slice(&block);
        }
        archive
    }

    #[inline]
    fn check(block: &[u8], expected: u32) -> bool {
        block_refusal(black_box(block), expected, false).is_none()
    }

    #[inline]
    fn hand_out(block: &[u8], expected: u32) -> usize {
        let (_, mut reader) = Reader::open(block, expected, false);
        let mut records = 0;
        while let Read::Record(record, _) = black_box(&mut reader).next() {
            black_box(record);
            records += 1;
        }
        records
    }
}

#[cfg(proved)]
mod library {
    use super::{Archived, Given, Stepped};
    use crate::archive::place_of;
    use crate::machine::Record;
    use crate::proved::{block_check, block_record, LibraryMachine, LibraryWriter};
    use std::hint::black_box;

    const BLOCK_OUT: u64 = 12 << 8;
    const GOOD: u64 = 13 << 8;
    const RECORD: u64 = 15 << 8;

    pub struct Library(LibraryMachine, [u8; 16]);

    impl Stepped for Library {
        fn start(count: usize, memory: &mut [u8], owners: &mut [u8], holders: &mut [u8]) -> Library {
            let mut library = Library(LibraryMachine::default(), [0; 16]);
            library.0.start(count, memory, owners, holders);
            library
        }

        #[inline]
        fn give(&mut self, given: &Given) {
            let (operation, value) = (given.operation.number(), given.operation.value());
            black_box(self.0.give(given.core, operation, given.address, value));
        }

        #[inline]
        fn step(&mut self, memory: &mut [u8], owners: &mut [u8], holders: &mut [u8], core: usize) {
            black_box(self.0.step(memory, owners, holders, core, &mut self.1));
        }
    }

    impl Archived for Library {
        fn write(records: &[Record]) -> Vec<u8> {
            let mut writer = LibraryWriter::begin();
            let (mut archive, mut block) = (Vec::new(), [0; 512]);
            for record in records {
                if writer.add(&mut block, &place_of(record, 0)) == BLOCK_OUT {
                    archive.extend_from_slice(&block);
                }
            }
            if writer.close(&mut block) == BLOCK_OUT {
                archive.extend_from_slice(&block);
            }
            archive
        }

        #[inline]
        fn check(block: &[u8], expected: u32) -> bool {
            block_check(black_box(block), expected, false) == GOOD
        }

        #[inline]
        fn hand_out(block: &[u8], expected: u32) -> usize {
            let mut record = [0; 16];
            let mut place = 0;
            while block_record(block, expected, false, place, &mut record) == RECORD {
                black_box(&record);
                place += 1;
            }
            place
        }
    }
}

/// A run in phases: every core is given an operation, then they step in random order until all are idle.
struct Phased {
    count: usize,
    bytes: usize,
    entries: usize,
    phases: Vec<(Vec<Given>, Vec<usize>)>,
}

fn phased(count: usize, bytes: usize, entries: usize, phases: usize) -> Phased {
    let mut random = Random::part(7, "phases", 0);
    let (mut memory, mut owners, mut holders) = (vec![0; bytes], vec![0; entries], vec![0; entries]);
    let mut machine = Machine::start(count, &mut memory, &mut owners, &mut holders).1;
    let mut made = Vec::new();
    for _ in 0..phases {
        let gives: Vec<Given> = (0..count).map(|core| random_give(&mut random, &machine, core)).collect();
        for given in &gives {
            machine.give(given.core, given.operation, given.address);
        }
        let mut steps = Vec::new();
        while machine.cores.iter().any(|core| core.busy) {
            let core = random.below(count);
            if machine.cores[core].busy {
                machine.step(&mut memory, &mut owners, &mut holders, core);
                steps.push(core);
            }
        }
        made.push((gives, steps));
    }
    Phased { count, bytes, entries, phases: made }
}

fn random_give(random: &mut Random, machine: &Machine, core: usize) -> Given {
    let number = random.pick(&[LOAD, LL, LL, STORE, SC, SC]);
    let own = &machine.cores[core];
    let anywhere = 4 * random.below(machine.bytes / 4) as u32;
    let address = if number == SC && own.linked { own.link } else { anywhere };
    let operation = Operation::numbered(number, random.word()).expect("one of the four");
    Given { core, operation, address }
}

/// The least time that looking at the clock twice takes, which each phase pays.
fn clock_cost() -> Duration {
    (0..10_000).map(|_| Instant::now().elapsed()).min().unwrap_or_default()
}

/// Nanoseconds per give and per micro-step of one round, and memory as the run leaves it.
fn play<S: Stepped>(run: &Phased) -> (f64, f64, Vec<u8>) {
    let (mut memory, mut owners, mut holders) =
        (vec![0; run.bytes], vec![0; run.entries], vec![0; run.entries]);
    let mut machine = S::start(run.count, &mut memory, &mut owners, &mut holders);
    let (mut giving, mut stepping) = (Duration::ZERO, Duration::ZERO);
    let (mut gives, mut steps) = (0, 0);
    let clock = clock_cost();
    for (given, moved) in &run.phases {
        let begun = Instant::now();
        for one in given {
            machine.give(one);
        }
        giving += begun.elapsed().saturating_sub(clock);
        let begun = Instant::now();
        for &core in moved {
            machine.step(&mut memory, &mut owners, &mut holders, core);
        }
        stepping += begun.elapsed().saturating_sub(clock);
        gives += given.len();
        steps += moved.len();
    }
    (giving.as_nanos() as f64 / gives as f64, stepping.as_nanos() as f64 / steps as f64, memory)
}

/// One row: what each side takes, the less the better.
struct Row {
    name: &'static str,
    ours: f64,
    theirs: f64,
}

impl Row {
    fn new(name: &'static str) -> Row {
        Row { name, ours: f64::INFINITY, theirs: f64::INFINITY }
    }
}

fn random_records(count: usize) -> Vec<Record> {
    let mut random = Random::part(7, "records", 0);
    let record = |random: &mut Random| Record {
        core: random.below(8) as u8,
        kind: 1 + random.below(5) as u8,
        address: 4 * random.below(16_384) as u32,
        value: random.word(),
    };
    (0..count).map(|_| record(&mut random)).collect()
}

/// Nanoseconds per record added, per block checked and per record handed out, of one round.
fn archive_round<A: Archived>(records: &[Record]) -> [f64; 3] {
    let begun = Instant::now();
    let archive = A::write(records);
    let added = begun.elapsed().as_nanos() as f64 / records.len() as f64;
    let blocks = records.len().div_ceil(PLACES);
    assert_eq!(archive.len(), blocks * BLOCK);
    let begun = Instant::now();
    let good = (0..).zip(archive.chunks(BLOCK)).filter(|(number, block)| A::check(block, *number)).count();
    let checked = begun.elapsed().as_nanos() as f64 / blocks as f64;
    assert_eq!(good, blocks);
    let begun = Instant::now();
    let read: usize =
        (0..).zip(archive.chunks(BLOCK)).map(|(number, block)| A::hand_out(block, number)).sum();
    let handed = begun.elapsed().as_nanos() as f64 / records.len() as f64;
    assert_eq!(read, records.len());
    [added, checked, handed]
}

fn least(best: &mut f64, time: f64) {
    *best = best.min(time);
}

fn machine_rows() -> Vec<Row> {
    let run = phased(8, 16_384, 1_024, 4_000);
    let mut rows = vec![Row::new("ns per micro-step"), Row::new("ns per give")];
    for _ in 0..ROUNDS {
        let (give, step, ours) = play::<Second>(&run);
        least(&mut rows[0].ours, step);
        least(&mut rows[1].ours, give);
        black_box(&ours);
        #[cfg(proved)]
        {
            let (give, step, theirs) = play::<library::Library>(&run);
            least(&mut rows[0].theirs, step);
            least(&mut rows[1].theirs, give);
            assert_eq!(ours, theirs, "the two sides end with the same memory");
        }
    }
    rows
}

fn archive_rows() -> Vec<Row> {
    let records = random_records(31 * 200);
    assert_eq!(Second::write(&records)[12..28], place_of(&records[0], 0));
    let mut rows = vec![
        Row::new("ns per record added"),
        Row::new("ns per block checked"),
        Row::new("ns per record handed out"),
    ];
    for _ in 0..ROUNDS {
        for (row, time) in rows.iter_mut().zip(archive_round::<Second>(&records)) {
            least(&mut row.ours, time);
        }
        #[cfg(proved)]
        for (row, time) in rows.iter_mut().zip(archive_round::<library::Library>(&records)) {
            least(&mut row.theirs, time);
        }
    }
    rows
}

/// A script of a long run, in phases like the machine's.
fn script_of(cores: usize, phases: usize) -> (Vec<u8>, usize) {
    let run = phased(cores, 16_384, 1_024, phases);
    let mut text = format!("new {} {} {}\n", run.count, run.bytes, run.entries).into_bytes();
    let mut lines = 1;
    for (gives, steps) in &run.phases {
        for given in gives {
            let (core, address) = (given.core, given.address);
            let line = match given.operation {
                Operation::Load => format!("give {core} load {address}\n"),
                Operation::Ll => format!("give {core} ll {address}\n"),
                Operation::Store(value) => format!("give {core} store {address} {value}\n"),
                Operation::Sc(value) => format!("give {core} sc {address} {value}\n"),
            };
            text.extend_from_slice(line.as_bytes());
        }
        for core in steps {
            text.extend_from_slice(format!("step {core}\n").as_bytes());
        }
        lines += gives.len() + steps.len();
    }
    (text, lines)
}

/// A script in a file of its own, removed at the end.
struct ScriptFile {
    path: PathBuf,
    lines: usize,
}

impl ScriptFile {
    fn write(cores: usize, phases: usize) -> io::Result<ScriptFile> {
        let (text, lines) = script_of(cores, phases);
        let path = std::env::temp_dir().join(format!("second-bench-{}-{cores}-{phases}", std::process::id()));
        File::create(&path)?.write_all(&text)?;
        Ok(ScriptFile { path, lines })
    }

    /// Nanoseconds per line of a program that answers the script.
    fn time(&self, program: &Path, arguments: &[&str]) -> io::Result<f64> {
        let mut command = Command::new(program);
        command.args(arguments).stdin(File::open(&self.path)?).stdout(Stdio::null());
        let begun = Instant::now();
        let ended = command.status()?;
        let time = begun.elapsed().as_nanos() as f64 / self.lines as f64;
        if !ended.success() {
            return Err(io::Error::other(format!("{} ended with {ended}", program.display())));
        }
        Ok(time)
    }
}

impl Drop for ScriptFile {
    fn drop(&mut self) {
        // A file that cannot be removed harms no measurement.
        let _ = std::fs::remove_file(&self.path);
    }
}

fn script_row(program: &Path) -> io::Result<Row> {
    let own = std::env::current_exe()?;
    let file = ScriptFile::write(8, 40_000)?;
    let mut row = Row::new("ns per script line");
    for _ in 0..PROGRAM_ROUNDS {
        least(&mut row.ours, file.time(&own, &["script"])?);
        if program.is_file() {
            least(&mut row.theirs, file.time(program, &[])?);
        }
    }
    Ok(row)
}

fn print(row: &Row) {
    if row.theirs.is_finite() {
        println!("{:<28} {:>9.1} {:>9.1} {:>7.2}", row.name, row.ours, row.theirs, row.theirs / row.ours);
    } else {
        println!("{:<28} {:>9.1} {:>9} {:>7}", row.name, row.ours, "-", "-");
    }
}

/// The table of ratios.
pub fn run(program: &Path) -> io::Result<()> {
    println!("{:<28} {:>9} {:>9} {:>7}", "best of alternating rounds", "second", "proved", "ratio");
    machine_rows().iter().for_each(print);
    archive_rows().iter().for_each(print);
    let row = script_row(program)?;
    print(&row);
    println!("{:<28} {:>9.1} {:>9.1}", "million script lines a second", 1e3 / row.ours, 1e3 / row.theirs);
    Ok(())
}

/// How the cost of a micro-step grows with cores, entries and memory, and that of a line with the script.
pub fn growth(program: &Path) -> io::Result<()> {
    println!("{:<34} {:>9} {:>9}", "ns per micro-step", "second", "proved");
    let sizes = [1, 2, 4, 8].map(|count| (count, 16_384, 1_024)).into_iter();
    let sizes = sizes.chain([1, 16, 64, 4_096].map(|entries| (8, 16_384, entries)));
    for (count, bytes, entries) in sizes.chain([64, 1_024, 65_536].map(|bytes| (8, bytes, 1_024))) {
        let run = phased(count, bytes, entries, 1_000);
        let (mut ours, mut theirs) = (f64::INFINITY, f64::INFINITY);
        for _ in 0..ROUNDS {
            least(&mut ours, play::<Second>(&run).1);
            #[cfg(proved)]
            least(&mut theirs, play::<library::Library>(&run).1);
        }
        print_growth(&format!("{count} cores, {bytes} bytes, {entries} entries"), ours, &mut theirs);
    }
    println!("{:<34} {:>9} {:>9}", "ns per script line", "second", "proved");
    let own = std::env::current_exe()?;
    // By cores, with about as many lines each; and by lines.
    let cores = [(1, 320_000), (2, 160_000), (4, 80_000), (8, 40_000)];
    for (cores, phases) in cores.into_iter().chain([1_000, 10_000, 100_000].map(|phases| (8, phases))) {
        let file = ScriptFile::write(cores, phases)?;
        let (mut ours, mut theirs) = (f64::INFINITY, f64::INFINITY);
        for _ in 0..PROGRAM_ROUNDS {
            least(&mut ours, file.time(&own, &["script"])?);
            if program.is_file() {
                least(&mut theirs, file.time(program, &[])?);
            }
        }
        print_growth(&format!("{cores} cores, {} lines", file.lines), ours, &mut theirs);
    }
    Ok(())
}

fn print_growth(name: &str, ours: f64, theirs: &mut f64) {
    match theirs.is_finite() {
        true => println!("{name:<34} {ours:>9.1} {theirs:>9.1}"),
        false => println!("{name:<34} {ours:>9.1} {:>9}", "-"),
    }
}
