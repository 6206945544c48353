//! Random runs: cores that contend for few entries, calls that are to be refused among them.

use super::deeds::{Deed, Second, State};
use super::Counts;
use crate::machine::{entry_of, Answer, Called, LL, LOAD, SC, STORE};
use crate::random::Random;

/// The sizes and habits of one run.
struct Habits {
    count: usize,
    bytes: usize,
    hot: Vec<u32>,
    burst: usize,
}

const OPERATIONS: [u8; 16] = [LL, LL, LL, LL, LL, SC, SC, SC, SC, SC, SC, STORE, STORE, STORE, LOAD, LOAD];

/// A run of so many calls from a fresh machine. The generator plays it as it goes, to know who is busy.
pub fn random_run(random: &mut Random, calls: usize) -> Vec<Deed> {
    let small = !random.one_in(16);
    let bytes = if small { random.pick(&[4, 8, 16, 32, 64]) } else { random.pick(&[256, 16_384, 65_536]) };
    let entries = if small { random.pick(&[1, 2, 4]) } else { random.pick(&[1, 8, 64, 1_024, 4_096]) };
    let count = 1 + random.below(8);
    let hot = (0..1 + random.below(4)).map(|_| 4 * random.below(bytes / 4) as u32).collect();
    let habits = Habits { count, bytes, hot, burst: 1 + random.below(6) };
    let mut deeds = vec![Deed::Start { count, bytes, owners: entries, holders: entries }];
    let mut state = State::default();
    state.perform::<Second>(&deeds[0]);
    let mut core = 0;
    while deeds.len() < calls {
        if random.one_in(habits.burst) {
            core = random.below(count);
        }
        let deed = if random.one_in(12) {
            aside(random, &habits, &state)
        } else {
            onward(random, &habits, &state, core)
        };
        state.perform::<Second>(&deed);
        deeds.push(deed);
    }
    deeds
}

/// What moves a core on: a step if it is busy, an operation if it is idle.
fn onward(random: &mut Random, habits: &Habits, state: &State, core: usize) -> Deed {
    let own = &state.machine.cores[core];
    if own.busy {
        let holder = state.holders[entry_of(own.address, state.machine.entries)] as usize;
        // Mostly it is the holder that moves and not the one that waits for it.
        let moves = if own.next == 1 && holder > 0 && !random.one_in(4) { holder - 1 } else { core };
        return Deed::Step { core: moves };
    }
    let operation = random.pick(&OPERATIONS);
    let address =
        if operation == SC && own.linked && !random.one_in(4) { own.link } else { address(random, habits) };
    Deed::Give { core, operation, address, value: value(random) }
}

fn address(random: &mut Random, habits: &Habits) -> u32 {
    if random.one_in(8) {
        4 * random.below(habits.bytes / 4) as u32
    } else {
        random.pick(&habits.hot)
    }
}

/// Few values, so that words come back to what they were; now and then any.
fn value(random: &mut Random) -> u32 {
    if random.one_in(4) {
        random.word()
    } else {
        random.below(3) as u32
    }
}

/// A poke, a show, or a call that is likely to be refused.
fn aside(random: &mut Random, habits: &Habits, state: &State) -> Deed {
    let wrong_core = random.pick(&[habits.count, habits.count + 1, 8, 255, 256, 1 << 32, usize::MAX]);
    let end = habits.bytes as u32;
    let wrong_address = random.pick(&[
        1,
        2,
        3,
        end - 3,
        end - 2,
        end - 1,
        end,
        end + 1,
        end + 4,
        65_536,
        65_538,
        1 << 31,
        !0,
        !3,
    ]);
    let core = random.below(state.machine.count);
    let operation = random.pick(&OPERATIONS);
    match random.below(9) {
        0..=2 => Deed::Poke { address: address(random, habits), value: value(random) },
        3 => Deed::Show { address: address(random, habits) },
        4 => Deed::Give { core: wrong_core, operation, address: random.pick(&[0, wrong_address]), value: 1 },
        5 => Deed::Give { core, operation, address: random.pick(&[0, wrong_address]), value: 1 },
        6 => Deed::Step { core: random.pick(&[core, wrong_core]) },
        7 => Deed::Poke { address: wrong_address, value: 1 },
        _ => Deed::Show { address: wrong_address },
    }
}

/// How often what happened in runs, so that a reader sees that they were no idle ones.
pub struct Happened {
    place: &'static str,
    pub calls: u64,
    pub accesses: u64,
    pub waits: u64,
    pub successes: u64,
    pub failures: u64,
}

impl Happened {
    /// Nothing yet; refusals are counted as those of this place.
    pub fn of(place: &'static str) -> Happened {
        Happened { place, calls: 0, accesses: 0, waits: 0, successes: 0, failures: 0 }
    }

    fn note(&mut self, called: &Called, counts: &mut Counts) {
        self.calls += 1;
        self.accesses += called.record.is_some() as u64;
        match called.answer {
            Answer::Waits => self.waits += 1,
            Answer::Sc(0) => self.successes += 1,
            Answer::Sc(_) => self.failures += 1,
            Answer::Refused(number) => counts.refused(self.place, number),
            _ => {}
        }
    }

    /// Notes the calls of a run from one of its deeds on.
    pub fn note_from(&mut self, deeds: &[Deed], first: usize, counts: &mut Counts) {
        let mut state = State::default();
        for (at, deed) in deeds.iter().enumerate() {
            match state.perform::<Second>(deed) {
                Some(called) if at >= first => self.note(&called, counts),
                _ => {}
            }
        }
    }
}
