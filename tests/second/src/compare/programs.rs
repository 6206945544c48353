//! The proved program against this package's script: the same input, cut at random places, and the files
//! that it puts runs into.

use super::archives::hexadecimal;
use super::scripts::{answers, first_line_apart, random_script, random_sizes, shown};
use super::shrink::shortest;
use super::{Counts, Difference, Plan};
use crate::archive::{Writer, Wrote, BLOCK};
use crate::machine::Record;
use crate::program::{records_text, Ended};
use crate::random::Random;
use crate::script::{Script, Sink, Unkept};
use std::io::{self, Read as _, Write as _};
use std::path::{Path, PathBuf};
use std::process::{Child, ChildStdin, Command, ExitStatus, Stdio};
use std::sync::mpsc::{channel, Receiver};
use std::thread;
use std::time::Duration;

/// How long the program may take to answer what it has read.
const PATIENCE: Duration = Duration::from_secs(5);

/// The program at work, and what its standard output has brought so far.
struct Running {
    child: Child,
    stdin: ChildStdin,
    pieces: Receiver<Vec<u8>>,
    output: Vec<u8>,
}

impl Running {
    fn start(program: &mut Command) -> io::Result<Running> {
        let mut child = program.stdin(Stdio::piped()).stdout(Stdio::piped()).spawn()?;
        let stdin = child.stdin.take().expect("a pipe");
        let mut stdout = child.stdout.take().expect("a pipe");
        let (sender, pieces) = channel();
        thread::spawn(move || {
            let mut piece = [0; 1 << 16];
            while let Ok(length @ 1..) = stdout.read(&mut piece) {
                if sender.send(piece[..length].to_vec()).is_err() {
                    break;
                }
            }
        });
        Ok(Running { child, stdin, pieces, output: Vec::new() })
    }

    /// Waits until the output has so many bytes; false if they do not come.
    fn reaches(&mut self, length: usize) -> bool {
        while self.output.len() < length {
            match self.pieces.recv_timeout(PATIENCE) {
                Ok(piece) => self.output.extend_from_slice(&piece),
                Err(_) => return false,
            }
        }
        true
    }

    /// Ends the input and takes the rest of the output.
    fn end(self, in_time: bool) -> io::Result<Outcome> {
        let Running { mut child, stdin, pieces, mut output } = self;
        drop(stdin);
        while let Ok(piece) = pieces.recv() {
            output.extend_from_slice(&piece);
        }
        Ok(Outcome { output, in_time, ended: child.wait()? })
    }

    /// The program's answers to an input in pieces. With `in_step` each piece waits for the answers to the
    /// lines before it, so that the pieces are read as they are cut.
    fn answers(program: &mut Command, input: &[u8], sizes: &[usize], in_step: bool) -> io::Result<Outcome> {
        let mut running = Running::start(program)?;
        let mut own = Script::start();
        let mut expected = Vec::new();
        let mut in_time = true;
        let mut rest = input;
        for &size in sizes {
            let (piece, later) = rest.split_at(size);
            // A program that ended early is seen by its answers.
            if running.stdin.write_all(piece).is_err() {
                break;
            }
            rest = later;
            if in_step && in_time {
                own.feed(piece, &mut expected, &mut Unkept);
                in_time = running.reaches(expected.len());
            }
        }
        running.end(in_time)
    }
}

/// What the program answered and how it ended; whether the answers that were waited for came in time.
struct Outcome {
    output: Vec<u8>,
    in_time: bool,
    ended: ExitStatus,
}

impl Outcome {
    /// What it has otherwise: the first line, or the status that it ended with.
    fn apart(&self, output: &[u8], status: i32) -> Option<String> {
        first_line_apart(&self.output, output).or_else(|| {
            (self.ended.code() != Some(status))
                .then(|| format!("ended with {}, and not {status}", self.ended))
        })
    }
}

/// The archive of each run of a script, as this package's writer puts it out.
#[derive(Default)]
struct RunArchives {
    writer: Writer,
    archives: Vec<Vec<u8>>,
}

impl RunArchives {
    fn put(&mut self, wrote: Wrote, block: &[u8; BLOCK]) {
        if let (Wrote::Block, Some(archive)) = (wrote, self.archives.last_mut()) {
            archive.extend_from_slice(block);
        }
    }

    fn end(&mut self) {
        let mut block = [0; BLOCK];
        let wrote = self.writer.close(&mut block);
        self.put(wrote, &block);
    }
}

impl Sink for RunArchives {
    fn begin(&mut self) {
        self.end();
        self.writer = Writer::default();
        self.archives.push(Vec::new());
    }

    fn record(&mut self, record: &Record) {
        let mut block = [0; BLOCK];
        let wrote = self.writer.add(record, &mut block);
        self.put(wrote, &block);
    }
}

/// This package's answers to a script, and the archives of its runs.
fn own_archives(input: &[u8]) -> (Vec<u8>, Vec<Vec<u8>>) {
    let mut own = RunArchives::default();
    let mut script = Script::start();
    let mut answers = Vec::new();
    script.feed(input, &mut answers, &mut own);
    script.finish(&mut answers, &mut own);
    own.end();
    (answers, own.archives)
}

/// A folder of its own for the program's archive files, removed at the end.
struct Folder(PathBuf);

impl Folder {
    fn make() -> io::Result<Folder> {
        let path = std::env::temp_dir().join(format!("second-compare-{}", std::process::id()));
        std::fs::create_dir_all(&path)?;
        Ok(Folder(path))
    }
}

impl Drop for Folder {
    fn drop(&mut self) {
        // What cannot be removed harms no comparison.
        let _ = std::fs::remove_dir_all(&self.0);
    }
}

/// Whether the program's archive files are those of the script's runs; a run without a record may have
/// no file or an empty one.
fn archives_differ(program: &Path, lines: &[Vec<u8>]) -> Option<String> {
    let input = lines.concat();
    let run = || -> io::Result<(Outcome, Vec<Vec<u8>>)> {
        let folder = Folder::make()?;
        let first = folder.0.join("run");
        let theirs = Running::answers(
            Command::new(program).arg("archive").arg(&first),
            &input,
            &[input.len()],
            false,
        )?;
        let files =
            (1..=lines.len())
                .map(|run| if run == 1 { first.clone() } else { folder.0.join(format!("run.{run}")) });
        Ok((theirs, files.map(|file| std::fs::read(file).unwrap_or_default()).collect()))
    };
    let (theirs, files) = match run() {
        Ok(outcome) => outcome,
        Err(error) => return Some(format!("{}: {error}", program.display())),
    };
    let (answers, mut archives) = own_archives(&input);
    let apart = theirs.apart(&answers, 0);
    archives.resize(lines.len(), Vec::new());
    let file = archives.iter().zip(&files).position(|(one, two)| one != two);
    apart.or_else(|| file.map(|file| format!("the archive of run {} differs", file + 1)))
}

/// Whether a file that stands in the place of the first run's archive, or of the second's, is harmed, or a line is
/// answered beside it.
fn old_file_is_harmed(program: &Path, name: &str) -> Option<String> {
    let input = b"new 1 64\npoke 4 7\nshow 4\n";
    let run = || -> io::Result<(Outcome, Vec<u8>)> {
        let folder = Folder::make()?;
        let old = folder.0.join(name);
        std::fs::write(&old, b"old")?;
        let mut command = Command::new(program);
        command.arg("archive").arg(folder.0.join("run")).stderr(Stdio::null());
        let theirs = Running::answers(&mut command, input, &[input.len()], false)?;
        Ok((theirs, std::fs::read(&old)?))
    };
    match run() {
        Ok((_, file)) if file != b"old" => Some(format!("the old file {name} was written over")),
        Ok((theirs, _)) => theirs.apart(b"", 3).map(|what| format!("beside the old file {name}: {what}")),
        Err(error) => Some(format!("{}: {error}", program.display())),
    }
}

/// An archive of a script's run with something done to it, or nothing.
fn random_archive(random: &mut Random) -> Vec<u8> {
    let lines = random_script(random, 400);
    let (_, archives) = own_archives(&lines.concat());
    let mut archive = archives.into_iter().max_by_key(Vec::len).unwrap_or_default();
    let length = archive.len();
    match random.below(6) {
        0 if length > 0 => archive[random.below(length)] ^= 1 << random.below(8),
        1 => archive.truncate(random.below(length + 1)),
        2 => archive.extend_from_within(..length.min(BLOCK)),
        3 if length > BLOCK => drop(archive.drain(..BLOCK)),
        _ => {}
    }
    archive
}

/// Whether the program lists an archive's records, and its refusal, as this package does.
fn listings_differ(program: &Path, archive: &[u8]) -> Option<String> {
    let run = || -> io::Result<Outcome> {
        let folder = Folder::make()?;
        let file = folder.0.join("archive");
        std::fs::write(&file, archive)?;
        let mut command = Command::new(program);
        // beside the number, standard error has what it means
        command.arg("records").arg(&file).stderr(Stdio::null());
        Running::answers(&mut command, &[], &[], false)
    };
    let (text, ended) = records_text(archive);
    match run() {
        Ok(theirs) => theirs.apart(text.as_bytes(), (ended == Ended::Refused) as i32),
        Err(error) => Some(format!("{}: {error}", program.display())),
    }
}

/// What differs between the program and this package on one script.
fn program_differs(program: &Path, lines: &[Vec<u8>], seed: u64, in_step: bool) -> Option<String> {
    let input = lines.concat();
    let sizes = random_sizes(&mut Random::new(seed), input.len());
    let theirs = match Running::answers(&mut Command::new(program), &input, &sizes, in_step) {
        Ok(outcome) => outcome,
        Err(error) => return Some(format!("{}: {error}", program.display())),
    };
    if let Some(what) = theirs.apart(&answers(&input, &[]), 0) {
        return Some(what);
    }
    (!theirs.in_time).then(|| "answers to the lines read so far did not come before more input".to_string())
}

/// The proved program against this package's script.
pub fn compare_program(plan: &Plan, counts: &mut Counts) -> Result<(), Difference> {
    let program = plan.program.as_deref().expect("a program to compare");
    for number in 0..300 * plan.times {
        let random = &mut Random::part(plan.seed, "program", number as u64);
        let in_step = number % 2 == 1;
        let length = if in_step { random.pick(&[0, 1, 40]) } else { random.pick(&[1, 300, 5_000]) };
        let lines = if length == 0 { Vec::new() } else { random_script(random, length) };
        let seed = random.next();
        compare_script(&lines, counts, |lines| program_differs(program, lines, seed, in_step))?;
        counts.add("  scripts whose pieces waited for their answers", in_step as usize);
    }
    for number in 0..40 * plan.times {
        let lines = random_script(&mut Random::part(plan.seed, "archived", number as u64), 400);
        compare_script(&lines, counts, |lines| archives_differ(program, lines))?;
        counts.add("  scripts whose archive files were compared", 1);
    }
    for name in ["run", "run.2"] {
        old_file_is_harmed(program, name).map_or(Ok(()), |what| Err(Difference::plain(what)))?;
    }
    for number in 0..100 * plan.times {
        let archive = random_archive(&mut Random::part(plan.seed, "listed", number as u64));
        counts.add("archives listed by the program", 1);
        if let Some(what) = listings_differ(program, &archive) {
            let script =
                format!("records of an archive of {} bytes\n{}\n", archive.len(), hexadecimal(&archive));
            return Err(Difference { what, deeds: number, script });
        }
    }
    Ok(())
}

fn compare_script(
    lines: &[Vec<u8>],
    counts: &mut Counts,
    differ: impl Fn(&[Vec<u8>]) -> Option<String>,
) -> Result<(), Difference> {
    counts.add("scripts through the program", 1);
    counts.add("  lines in them", lines.len());
    if differ(lines).is_none() {
        return Ok(());
    }
    let short = shortest(lines, |lines| differ(lines).is_some());
    let what = differ(&short).unwrap_or_else(|| "a difference that did not come back".to_string());
    Err(Difference { what, deeds: counts.of("  lines in them") as usize, script: shown(&short) })
}
