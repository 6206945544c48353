//! What docs/RULES.md says, by hand.

mod archives;
mod machines;
mod scripts;
mod small_runs;

use crate::machine::{Answer, Called, Machine, Operation};

/// A machine with the buffers it is lent.
#[derive(Clone, PartialEq, Eq, Debug)]
pub struct Bench {
    pub machine: Machine,
    pub memory: Vec<u8>,
    pub owners: Vec<u8>,
    pub holders: Vec<u8>,
}

impl Bench {
    pub fn start(cores: usize, bytes: usize, entries: usize) -> Bench {
        let (mut memory, mut owners, mut holders) = (vec![9; bytes], vec![9; entries], vec![9; entries]);
        let (called, machine) = Machine::start(cores, &mut memory, &mut owners, &mut holders);
        assert_eq!(called.answer, Answer::Ready);
        Bench { machine, memory, owners, holders }
    }

    pub fn step(&mut self, core: usize) -> Called {
        self.machine.step(&mut self.memory, &mut self.owners, &mut self.holders, core)
    }

    pub fn steps(&mut self, core: usize, times: usize) {
        for _ in 0..times {
            assert_eq!(self.step(core).answer, Answer::Moved);
        }
    }

    /// Gives an operation and steps until it is delivered.
    pub fn whole(&mut self, core: usize, operation: Operation, address: u32) -> Answer {
        assert_eq!(self.machine.give(core, operation, address).answer, Answer::Taken);
        loop {
            match self.step(core).answer {
                Answer::Moved => {}
                answer => return answer,
            }
        }
    }

    pub fn poke(&mut self, address: u32, value: u32) -> Answer {
        self.machine.poke(&mut self.memory, address, value).answer
    }

    pub fn show(&self, address: u32) -> Answer {
        self.machine.show(&self.memory, address).answer
    }
}
