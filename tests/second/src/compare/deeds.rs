//! What a comparison does to a machine, one deed after another: calls, and edits that invent a state.
//! A difference is shown by the deeds that lead to it, so a run is a list of them and nothing else.

use crate::machine::{Answer, Called, Machine, Operation, Record};
use std::fmt;

/// A machine with all that is lent to it.
#[derive(Clone, PartialEq, Eq, Debug, Default)]
pub struct State {
    pub machine: Machine,
    pub memory: Vec<u8>,
    pub owners: Vec<u8>,
    pub holders: Vec<u8>,
}

#[derive(Clone, Copy, PartialEq, Eq, Debug)]
pub enum Deed {
    Start { count: usize, bytes: usize, owners: usize, holders: usize },
    Give { core: usize, operation: u8, address: u32, value: u32 },
    Step { core: usize },
    Poke { address: u32, value: u32 },
    Show { address: u32 },
    Edit(Edit),
}

/// Sets one thing of the state, to any value that its type has.
#[derive(Clone, Copy, PartialEq, Eq, Debug)]
pub enum Edit {
    Count(usize),
    Bytes(usize),
    Entries(usize),
    Core { core: usize, field: Field, value: u32 },
    Owner { entry: usize, mark: u8 },
    Holder { entry: usize, mark: u8 },
    MemoryLength(usize),
    OwnersLength(usize),
    HoldersLength(usize),
}

#[derive(Clone, Copy, PartialEq, Eq, Debug)]
pub enum Field {
    Busy,
    Operation,
    Next,
    Passed,
    Linked,
    Address,
    Value,
    Read,
    Link,
}

pub const FIELDS: [Field; 9] = [
    Field::Busy,
    Field::Operation,
    Field::Next,
    Field::Passed,
    Field::Linked,
    Field::Address,
    Field::Value,
    Field::Read,
    Field::Link,
];

/// Something that does the five calls. It takes any state, and leaves its own in place of it.
pub trait Engine {
    fn start(state: &mut State, count: usize) -> Called;
    fn give(state: &mut State, core: usize, operation: u8, address: u32, value: u32) -> Called;
    fn step(state: &mut State, core: usize) -> Called;
    fn poke(state: &mut State, address: u32, value: u32) -> Called;
    fn show(state: &mut State, address: u32) -> Called;
}

/// This package's own machine.
pub struct Second;

impl Engine for Second {
    fn start(state: &mut State, count: usize) -> Called {
        let (called, machine) =
            Machine::start(count, &mut state.memory, &mut state.owners, &mut state.holders);
        // The library's header: a refused start leaves the caller's machine as it was.
        if called.answer == Answer::Ready {
            state.machine = machine;
        }
        called
    }

    fn give(state: &mut State, core: usize, operation: u8, address: u32, value: u32) -> Called {
        match Operation::numbered(operation, value) {
            Some(operation) => state.machine.give(core, operation, address),
            // The library's header: an operation that is none of the four is 9, before all else.
            None => Called { answer: Answer::Refused(9), record: None },
        }
    }

    fn step(state: &mut State, core: usize) -> Called {
        state.machine.step(&mut state.memory, &mut state.owners, &mut state.holders, core)
    }

    fn poke(state: &mut State, address: u32, value: u32) -> Called {
        state.machine.poke(&mut state.memory, address, value)
    }

    fn show(state: &mut State, address: u32) -> Called {
        state.machine.show(&state.memory, address)
    }
}

impl State {
    /// Does a deed; an edit answers nothing.
    pub fn perform<E: Engine>(&mut self, deed: &Deed) -> Option<Called> {
        match *deed {
            Deed::Start { count, bytes, owners, holders } => {
                // What is lent to a start is not zero, so that it is seen whether it was filled.
                self.memory = vec![0xa5; bytes];
                self.owners = vec![0xa5; owners];
                self.holders = vec![0xa5; holders];
                Some(E::start(self, count))
            }
            Deed::Give { core, operation, address, value } => {
                Some(E::give(self, core, operation, address, value))
            }
            Deed::Step { core } => Some(E::step(self, core)),
            Deed::Poke { address, value } => Some(E::poke(self, address, value)),
            Deed::Show { address } => Some(E::show(self, address)),
            Deed::Edit(edit) => {
                self.edit(edit);
                None
            }
        }
    }

    fn edit(&mut self, edit: Edit) {
        match edit {
            Edit::Count(count) => self.machine.count = count,
            Edit::Bytes(bytes) => self.machine.bytes = bytes,
            Edit::Entries(entries) => self.machine.entries = entries,
            Edit::Core { core, field, value } => self.edit_core(core, field, value),
            Edit::Owner { entry, mark } => set(&mut self.owners, entry, mark),
            Edit::Holder { entry, mark } => set(&mut self.holders, entry, mark),
            Edit::MemoryLength(length) => self.memory.resize(length, 0xa5),
            Edit::OwnersLength(length) => self.owners.resize(length, 0),
            Edit::HoldersLength(length) => self.holders.resize(length, 0),
        }
    }

    fn edit_core(&mut self, core: usize, field: Field, value: u32) {
        let core = &mut self.machine.cores[core];
        match field {
            Field::Busy => core.busy = value != 0,
            Field::Operation => core.operation = value as u8,
            Field::Next => core.next = value as u8,
            Field::Passed => core.passed = value != 0,
            Field::Linked => core.linked = value != 0,
            Field::Address => core.address = value,
            Field::Value => core.value = value,
            Field::Read => core.read = value,
            Field::Link => core.link = value,
        }
    }
}

/// An entry that a shortened run no longer has is left alone.
fn set(marks: &mut [u8], entry: usize, mark: u8) {
    if let Some(old) = marks.get_mut(entry) {
        *old = mark;
    }
}

/// The first deed after which two engines differ, and in what.
pub fn first_difference<A: Engine, B: Engine>(deeds: &[Deed]) -> Option<(usize, String)> {
    let mut one = State::default();
    let mut two = State::default();
    for (at, deed) in deeds.iter().enumerate() {
        let (left, right) = (one.perform::<A>(deed), two.perform::<B>(deed));
        if left != right {
            return Some((at, format!("answers {left:?} and {right:?}")));
        }
        if one != two {
            return Some((at, state_difference(&one, &two)));
        }
    }
    None
}

fn state_difference(one: &State, two: &State) -> String {
    for (name, left, right) in [
        ("memory", &one.memory, &two.memory),
        ("owners", &one.owners, &two.owners),
        ("holders", &one.holders, &two.holders),
    ] {
        if let Some(at) = (0..left.len()).find(|&at| left.get(at) != right.get(at)) {
            return format!("{name}[{at}] is {} and {:?}", left[at], right.get(at));
        }
    }
    for (core, (left, right)) in one.machine.cores.iter().zip(&two.machine.cores).enumerate() {
        if left != right {
            return format!("core {core} is {left:?} and {right:?}");
        }
    }
    format!("machines {:?} and {:?}", one.machine, two.machine)
}

/// A call is written as a script line; what no script can say comes after a `#`.
impl fmt::Display for Deed {
    fn fmt(&self, text: &mut fmt::Formatter) -> fmt::Result {
        match *self {
            Deed::Start { count, bytes, owners, holders } if owners == holders => {
                write!(text, "new {count} {bytes} {owners}")
            }
            Deed::Start { count, bytes, owners, holders } => {
                write!(text, "# new {count} {bytes}, owners {owners}, holders {holders}")
            }
            Deed::Give { core, operation, address, value } => match operation {
                1 => write!(text, "give {core} load {address}"),
                2 => write!(text, "give {core} ll {address}"),
                3 => write!(text, "give {core} store {address} {value}"),
                4 => write!(text, "give {core} sc {address} {value}"),
                _ => write!(text, "# give {core} operation {operation} {address} {value}"),
            },
            Deed::Step { core } => write!(text, "step {core}"),
            Deed::Poke { address, value } => write!(text, "poke {address} {value}"),
            Deed::Show { address } => write!(text, "show {address}"),
            Deed::Edit(edit) => write!(text, "# set {edit:?}"),
        }
    }
}

/// Whether an access was made by a core and not by a poke.
pub fn is_core_access(record: &Record) -> bool {
    record.core != crate::machine::POKE_CORE
}
