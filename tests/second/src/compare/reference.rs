//! A run held against the reference machine: at each access step the core's operation is run whole,
//! and its record, its answer and memory are to be the same.

use super::deeds::{is_core_access, Deed, Engine, State};
use crate::history::Reference;
use crate::machine::{Answer, Called, Operation, CORES};

/// The reference beside a run, with the answers that are still to be delivered.
struct Beside {
    reference: Reference,
    due: [Option<Answer>; CORES],
}

/// The first deed after which a run from a fresh machine is not what the reference makes of it.
pub fn first_departure<E: Engine>(deeds: &[Deed]) -> Option<(usize, String)> {
    let mut state = State::default();
    let mut beside: Option<Beside> = None;
    for (at, deed) in deeds.iter().enumerate() {
        let Some(called) = state.perform::<E>(deed) else {
            continue;
        };
        if let (Deed::Start { bytes, owners, .. }, Answer::Ready) = (deed, called.answer) {
            beside = Some(Beside { reference: Reference::start(*bytes, *owners), due: [None; CORES] });
        }
        if let Some(beside) = &mut beside {
            if let Err(what) = beside.follow(deed, &called, &state) {
                return Some((at, what));
            }
        }
    }
    None
}

impl Beside {
    fn follow(&mut self, deed: &Deed, called: &Called, state: &State) -> Result<(), String> {
        if let Answer::Refused(number @ 4..=6) = called.answer {
            return Err(format!("{number} in a run from a fresh machine"));
        }
        self.access(deed, called)?;
        self.delivery(deed, called)?;
        if let (Deed::Give { core, operation, address, value }, Answer::Taken) = (*deed, called.answer) {
            let operation = Operation::numbered(operation, value).ok_or("an unknown operation was taken")?;
            self.reference.give(core, operation, address);
        }
        if state.memory != self.reference.memory {
            return Err("memory is not the reference's".to_string());
        }
        Ok(())
    }

    /// The record that was handed out is that of the whole operation.
    fn access(&mut self, deed: &Deed, called: &Called) -> Result<(), String> {
        let Some(record) = called.record else {
            return Ok(());
        };
        let expected = match *deed {
            Deed::Poke { address, value } => self.reference.poke(address, value),
            Deed::Step { core } if is_core_access(&record) && core < CORES => {
                let (answer, expected) = self.reference.run(core).ok_or("an access without an operation")?;
                self.due[core] = Some(answer);
                expected
            }
            _ => return Err(format!("{record:?} was handed out by {deed}")),
        };
        if record != expected {
            return Err(format!("the record is {record:?}, the reference's {expected:?}"));
        }
        Ok(())
    }

    /// An answer that is delivered is the one due, once.
    fn delivery(&mut self, deed: &Deed, called: &Called) -> Result<(), String> {
        let (Deed::Step { core }, answer) = (*deed, called.answer) else {
            return Ok(());
        };
        if !matches!(answer, Answer::Load(_) | Answer::Ll(_) | Answer::Store | Answer::Sc(_)) {
            return Ok(());
        }
        match self.due[core].take() {
            Some(due) if due == answer => Ok(()),
            due => Err(format!("the answer is {answer:?}, the reference's {due:?}")),
        }
    }
}
