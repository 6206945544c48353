//! The success rule judged from the history of accesses, and the reference machine: whole operations
//! in access order, with neither table nor locks.

use crate::machine::{
    read_word, write_word, Answer, Operation, Record, CORES, KIND_LL, KIND_LOAD, KIND_POKE, KIND_SC_FAILURE,
    KIND_SC_SUCCESS, KIND_STORE, POKE_CORE,
};

/// (a / 4) mod E, with a division: this side shares no arithmetic with the machine.
fn entry_of(address: u32, entries: usize) -> usize {
    (address as usize / 4) % entries
}

/// Whether core c's sc at an address succeeds (RULES 5.3 to 5.6): its latest ll was there, and after it came no
/// sc of its own, and no ll, store or successful sc of another core at the same entry.
pub fn succeeds(history: &[Record], entries: usize, core: u8, address: u32) -> bool {
    let entry = entry_of(address, entries);
    for access in history.iter().rev() {
        if access.core == core {
            match access.kind {
                KIND_LL => return access.address == address,
                KIND_SC_SUCCESS | KIND_SC_FAILURE => return false,
                _ => {}
            }
        } else if matches!(access.kind, KIND_LL | KIND_STORE | KIND_SC_SUCCESS)
            && entry_of(access.address, entries) == entry
        {
            return false;
        }
    }
    false
}

/// The reference machine. It takes accepted gives, and runs a core's operation whole when told to.
pub struct Reference {
    pub memory: Vec<u8>,
    pub history: Vec<Record>,
    entries: usize,
    given: [Option<(Operation, u32)>; CORES],
}

impl Reference {
    pub fn start(bytes: usize, entries: usize) -> Reference {
        Reference { memory: vec![0; bytes], history: Vec::new(), entries, given: [None; CORES] }
    }

    pub fn give(&mut self, core: usize, operation: Operation, address: u32) {
        self.given[core] = Some((operation, address));
    }

    /// Runs the operation that a core was given last, whole: its answer, and the record of its access.
    pub fn run(&mut self, core: usize) -> Option<(Answer, Record)> {
        let (operation, address) = self.given[core].take()?;
        let (answer, kind, value) = match operation {
            Operation::Load => {
                let value = read_word(&self.memory, address);
                (Answer::Load(value), KIND_LOAD, value)
            }
            Operation::Ll => {
                let value = read_word(&self.memory, address);
                (Answer::Ll(value), KIND_LL, value)
            }
            Operation::Store(value) => {
                write_word(&mut self.memory, address, value);
                (Answer::Store, KIND_STORE, value)
            }
            Operation::Sc(value) if succeeds(&self.history, self.entries, core as u8, address) => {
                write_word(&mut self.memory, address, value);
                (Answer::Sc(0), KIND_SC_SUCCESS, value)
            }
            Operation::Sc(value) => (Answer::Sc(1), KIND_SC_FAILURE, value),
        };
        let record = Record { core: core as u8, kind, address, value };
        self.history.push(record);
        Some((answer, record))
    }

    pub fn poke(&mut self, address: u32, value: u32) -> Record {
        write_word(&mut self.memory, address, value);
        let record = Record { core: POKE_CORE, kind: KIND_POKE, address, value };
        self.history.push(record);
        record
    }
}
