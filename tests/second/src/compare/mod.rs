//! The comparison: this package against the proved library and program, and against the reference.
//! It goes by a seed, prints what it compared in counts, and ends at the first difference.

pub mod archives;
pub mod deeds;
mod hundred;
mod invented;
mod programs;
mod reference;
mod runs;
mod scripts;
mod shrink;

use crate::random::Random;
use deeds::{first_difference, Deed, Engine, Second};
use runs::{random_run, Happened};
use std::fmt::Write as _;
use std::panic::{catch_unwind, AssertUnwindSafe};
use std::path::PathBuf;
use std::time::Instant;

#[cfg(proved)]
use crate::proved::Library;
#[cfg(not(proved))]
use deeds::Second as Library;

/// What to compare, and for how long.
pub struct Plan {
    pub seed: u64,
    /// How many times the work of the default.
    pub times: usize,
    /// The proved program, if it is to be compared.
    pub program: Option<PathBuf>,
    /// Leave out what needs the proved library.
    pub alone: bool,
}

/// The first difference, with the shortest script found that shows it.
#[derive(Debug)]
pub struct Difference {
    pub what: String,
    /// How many deeds or lines it took until it showed.
    pub deeds: usize,
    pub script: String,
}

impl Difference {
    pub fn plain(what: String) -> Difference {
        Difference { what, deeds: 1, script: String::new() }
    }
}

/// What was compared, in the order in which it was first counted.
#[derive(Default)]
pub struct Counts {
    named: Vec<(&'static str, u64)>,
    refusals: Vec<(&'static str, [u64; 19])>,
}

impl Counts {
    pub fn add(&mut self, name: &'static str, more: usize) {
        match self.named.iter_mut().find(|(old, _)| *old == name) {
            Some((_, count)) => *count += more as u64,
            None => self.named.push((name, more as u64)),
        }
    }

    fn of(&self, name: &str) -> u64 {
        self.named.iter().find(|(old, _)| *old == name).map_or(0, |(_, count)| *count)
    }

    /// Notes a refusal of one kind of call.
    pub fn refused(&mut self, name: &'static str, number: u8) {
        if !self.refusals.iter().any(|(old, _)| *old == name) {
            self.refusals.push((name, [0; 19]));
        }
        let (_, numbers) = self.refusals.iter_mut().find(|(old, _)| *old == name).expect("pushed above");
        numbers[number as usize] += 1;
    }

    fn print(&self) {
        for (name, count) in &self.named {
            println!("{count:>12} {name}");
        }
        for (name, numbers) in &self.refusals {
            let met = (0..).zip(numbers).filter(|(_, &times)| times > 0);
            let met: Vec<String> = met.map(|(number, times)| format!("{number}: {times}")).collect();
            println!("refusals {name}, by number: {}", met.join(", "));
        }
    }
}

/// A panic of either side is a difference like any other.
pub fn caught(differ: impl FnOnce() -> Option<String>) -> Option<String> {
    catch_unwind(AssertUnwindSafe(differ)).unwrap_or_else(|payload| {
        let text = payload.downcast_ref::<String>().map(String::as_str);
        let text = text.or_else(|| payload.downcast_ref::<&str>().copied()).unwrap_or("no words");
        Some(format!("a call broke off: {text}"))
    })
}

/// Shortens the deeds that show a difference; `before` is how many calls had shown none.
fn shown(deeds: &[Deed], before: usize, find: impl Fn(&[Deed]) -> Option<(usize, String)>) -> Difference {
    let differ = |deeds: &[Deed]| caught(|| find(deeds).map(|(_, what)| what));
    let short = shrink::shortest(deeds, |deeds| differ(deeds).is_some());
    let mut script = String::new();
    for deed in &short {
        writeln!(script, "{deed}").expect("text");
    }
    let at =
        catch_unwind(AssertUnwindSafe(|| find(deeds))).ok().flatten().map_or(deeds.len(), |(at, _)| at + 1);
    Difference { what: differ(&short).unwrap_or_default(), deeds: before + at, script }
}

/// Long random runs, each against the reference and against the other engine.
fn compare_runs<B: Engine>(plan: &Plan, counts: &mut Counts) -> Result<(), Difference> {
    let mut happened = Happened::of("in runs");
    for number in 0..6_000 * plan.times {
        let random = &mut Random::part(plan.seed, "run", number as u64);
        let length = random.pick(&[30, 300, 3_000]);
        let deeds = random_run(random, length);
        let before = happened.calls as usize;
        if caught(|| first_difference::<Second, B>(&deeds).map(|(_, what)| what)).is_some() {
            return Err(shown(&deeds, before, first_difference::<Second, B>));
        }
        if caught(|| reference::first_departure::<Second>(&deeds).map(|(_, what)| what)).is_some() {
            return Err(shown(&deeds, before, reference::first_departure::<Second>));
        }
        happened.note_from(&deeds, 0, counts);
    }
    counts.add("calls in runs, every field and byte after each", happened.calls as usize);
    counts.add("  access steps and pokes, each against the reference", happened.accesses as usize);
    counts.add("  waits", happened.waits as usize);
    counts.add("  store-conditionals that succeeded", happened.successes as usize);
    counts.add("  store-conditionals that failed", happened.failures as usize);
    Ok(())
}

/// Invented states and tables, wrong lengths and starts of any kind.
fn compare_invented<B: Engine>(plan: &Plan, counts: &mut Counts) -> Result<(), Difference> {
    let mut happened = Happened::of("in invented states");
    let each = &mut |deeds: &[Deed]| {
        if caught(|| first_difference::<Second, B>(deeds).map(|(_, what)| what)).is_some() {
            return Err(shown(deeds, happened.calls as usize, first_difference::<Second, B>));
        }
        let edited = deeds.iter().position(|deed| matches!(deed, Deed::Edit(_)));
        happened.note_from(deeds, edited.unwrap_or(0), counts);
        Ok(())
    };
    let random = |name, number| Random::part(plan.seed, name, number as u64);
    for number in 0..40 * plan.times {
        invented::alone(&mut random("alone", number), each)?;
    }
    for number in 0..200_000 * plan.times {
        each(&invented::together(&mut random("together", number)))?;
    }
    for number in 0..60_000 * plan.times {
        each(&invented::made_up(&mut random("made up", number)))?;
    }
    for number in 0..3_000 * plan.times {
        each(&invented::any_start(&mut random("start", number)))?;
    }
    counts.add("calls in invented states", happened.calls as usize);
    Ok(())
}

/// What a part needs beside this package.
#[derive(PartialEq)]
enum Needs {
    Nothing,
    Library,
    Program,
}

type Part = fn(&Plan, &mut Counts) -> Result<(), Difference>;

/// Runs and archives are held against the reference and the plain layout too, so they need no library.
const PARTS: [(&str, Needs, Part); 5] = [
    ("runs", Needs::Nothing, compare_runs::<Library>),
    ("invented states", Needs::Library, compare_invented::<Library>),
    ("archives", Needs::Nothing, |plan, counts| {
        archives::compare::<Second, Library>(plan.seed, plan.times, counts)
    }),
    ("script lines", Needs::Nothing, scripts::compare_lines),
    ("script program", Needs::Program, programs::compare_program),
];

/// Runs every part; false at the first difference.
pub fn run(plan: &Plan) -> bool {
    if !cfg!(proved) && !plan.alone {
        println!("built without the proved library; only `--alone` goes without it");
        return false;
    }
    let library = if plan.alone { "" } else { ", the proved library" };
    let program = if plan.program.is_none() { "" } else { ", the proved program" };
    println!("seed {}, {} times the default, against the reference{library}{program}", plan.seed, plan.times);
    // What breaks off is told with the script that shows it.
    std::panic::set_hook(Box::new(|_| {}));
    let mut counts = Counts::default();
    for (name, needs, part) in PARTS {
        if (plan.alone && needs == Needs::Library) || (plan.program.is_none() && needs == Needs::Program) {
            println!("not compared: {name}");
            continue;
        }
        let begun = Instant::now();
        if let Err(difference) = part(plan, &mut counts) {
            report(plan, name, &difference);
            return false;
        }
        println!("{name}: no difference, {:.1} s", begun.elapsed().as_secs_f64());
    }
    counts.print();
    true
}

fn report(plan: &Plan, name: &str, difference: &Difference) {
    println!("DIFFERENCE in {name}, seed {}, after {}: {}", plan.seed, difference.deeds, difference.what);
    println!("shortest script found:\n{}", difference.script);
}
