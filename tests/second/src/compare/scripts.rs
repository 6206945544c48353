//! Scripts: generated ones, a share of them malformed, and this package's answers to them: the text of a
//! run against its calls, and input in pieces against the same input whole.

use super::deeds::{Deed, Second, State};
use super::runs::random_run;
use super::shrink::shortest;
use super::{caught, Counts, Difference, Plan};
use crate::machine::Answer;
use crate::random::Random;
use crate::script::{Script, Unkept};

/// An answer in words, by the standard formatter.
fn words(answer: Answer) -> String {
    match answer {
        Answer::Refused(number) => format!("{number} refused"),
        Answer::Ready => "0 ready".to_string(),
        Answer::Taken => "0 taken".to_string(),
        Answer::Moved => "0 moved".to_string(),
        Answer::Waits => "0 waits".to_string(),
        Answer::Load(value) => format!("0 load {value}"),
        Answer::Ll(value) => format!("0 ll {value}"),
        Answer::Store => "0 store".to_string(),
        Answer::Sc(value) => format!("0 sc {value}"),
        Answer::Poked => "0 poked".to_string(),
        Answer::Word(value) => format!("0 word {value}"),
    }
}

/// The answers of this package's script, with the input in pieces of these sizes, then the rest.
pub fn answers(input: &[u8], sizes: &[usize]) -> Vec<u8> {
    let mut script = Script::start();
    let mut answers = Vec::new();
    let mut rest = input;
    for &size in sizes {
        let (piece, later) = rest.split_at(size.min(rest.len()));
        script.feed(piece, &mut answers, &mut Unkept);
        rest = later;
    }
    script.feed(rest, &mut answers, &mut Unkept);
    script.finish(&mut answers, &mut Unkept);
    answers
}

/// Whether a deed can be a script line with the same effect.
fn is_line(deed: &Deed) -> bool {
    match *deed {
        Deed::Start { bytes, .. } => bytes <= 16_384,
        Deed::Give { core, .. } | Deed::Step { core } => u32::try_from(core).is_ok(),
        _ => true,
    }
}

/// The lines of a run against its calls.
fn lines_differ(deeds: &[Deed]) -> Option<String> {
    let mut state = State::default();
    let (mut input, mut expected) = (String::new(), String::new());
    for (number, deed) in (1..).zip(deeds) {
        let called = state.perform::<Second>(deed)?;
        input.push_str(&format!("{deed}\n"));
        // Before a start the script has no machine, and the calls have one that is in no range.
        let answer = if state.machine.count == 0 { Answer::Refused(10) } else { called.answer };
        expected.push_str(&format!("{number} {}\n", words(answer)));
    }
    first_line_apart(&answers(input.as_bytes(), &[]), expected.as_bytes())
}

pub fn first_line_apart(left: &[u8], right: &[u8]) -> Option<String> {
    if left == right {
        return None;
    }
    let (mut ones, mut twos) = (left.split(|&byte| byte == b'\n'), right.split(|&byte| byte == b'\n'));
    loop {
        let (one, two) = (ones.next(), twos.next());
        if one != two {
            let text = |line: Option<&[u8]>| line.map(|line| String::from_utf8_lossy(line).into_owned());
            return Some(format!("answer lines {:?} and {:?}", text(one), text(two)));
        }
    }
}

/// The script's answers to runs' lines against the runs' calls, and to input in pieces against it whole.
pub fn compare_lines(plan: &Plan, counts: &mut Counts) -> Result<(), Difference> {
    for number in 0..1_000 * plan.times {
        let random = &mut Random::part(plan.seed, "lines", number as u64);
        let deeds: Vec<Deed> = random_run(random, 200).into_iter().filter(is_line).collect();
        counts.add("script lines against a run's calls", deeds.len());
        if caught(|| lines_differ(&deeds)).is_some() {
            let short = shortest(&deeds, |deeds| caught(|| lines_differ(deeds)).is_some());
            let script: String = short.iter().map(|deed| format!("{deed}\n")).collect();
            let what = caught(|| lines_differ(&short)).unwrap_or_default();
            return Err(Difference { what, deeds: deeds.len(), script });
        }
        let lines = random_script(random, 60);
        let input = lines.concat();
        let sizes = random_sizes(random, input.len());
        counts.add("script lines in pieces against whole", lines.len());
        if let Some(what) = first_line_apart(&answers(&input, &sizes), &answers(&input, &[])) {
            return Err(Difference { what, deeds: lines.len(), script: shown(&lines) });
        }
    }
    Ok(())
}

/// Sizes of pieces that make up so many bytes: of one byte, of a few, of many.
pub fn random_sizes(random: &mut Random, mut length: usize) -> Vec<usize> {
    let largest = random.pick(&[1, 3, 20, 200, 5_000]);
    let mut sizes = Vec::new();
    while length > 0 {
        let size = (1 + random.below(largest)).min(length);
        sizes.push(size);
        length -= size;
    }
    sizes
}

/// A script of about so many lines, each with its newline but for the last, perhaps.
pub fn random_script(random: &mut Random, length: usize) -> Vec<Vec<u8>> {
    let mut lines: Vec<Vec<u8>> = Vec::new();
    let malformed = random.pick(&[2, 8, 40, 1_000_000]);
    while lines.len() < length {
        let run_length = 2 + random.below(length);
        for deed in random_run(random, run_length).iter() {
            // What a script cannot say stays as a line that is not understood.
            let mut line = format!("{deed}").into_bytes();
            if random.one_in(malformed) {
                line = spoilt(random, line);
            }
            line.push(b'\n');
            lines.push(line);
        }
    }
    if random.one_in(2) {
        lines.last_mut().expect("a line").pop();
    }
    lines
}

/// A line with something wrong in it, or just not wrong.
fn spoilt(random: &mut Random, mut line: Vec<u8>) -> Vec<u8> {
    let at = random.below(line.len() + 1);
    match random.below(14) {
        0 => line.clear(),
        1 => line.insert(at, b' '),
        2 => line.insert(at, b'0'),
        3 => line.push(random.pick(b" \r\t\0\x0b0a\xff")),
        4 => line.truncate(at),
        5 => line.insert(at, random.word() as u8),
        6 => line = vec![random.pick(b"a0 \xc3"); random.pick(&[79, 80, 81, 82, 160, 5_000])],
        7 => line.extend(vec![b'0'; random.pick(&[1, 9, 10, 11, 20, 70])]),
        8 => {
            line = format!(
                "step {}",
                random.pick(&[4_294_967_295u64, 4_294_967_296, 18_446_744_073_709_551_615])
            )
            .into_bytes()
        }
        9 => {
            line = format!(
                "new {} {} {}",
                random.below(10),
                random.pick(&[0, 2, 4, 64, 16_384, 16_388, 65_536]),
                random.pick(&[0, 1, 3, 4_096, 8_192])
            )
            .into_bytes()
        }
        10 => line = b"new 2 64".to_vec(),
        11 => line.make_ascii_uppercase(),
        12 => line.extend_from_slice(b" 7"),
        _ => line = (0..random.below(90)).map(|_| random.word() as u8).collect(),
    }
    line.retain(|&byte| byte != b'\n');
    line
}

/// The first lines of a script that shows a difference, bytes that are no text written as escapes.
pub fn shown(lines: &[Vec<u8>]) -> String {
    lines.iter().map(|line| line.escape_ascii().to_string().replace("\\n", "\n")).collect()
}
