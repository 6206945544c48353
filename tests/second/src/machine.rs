//! The machine: cores, memory, owner marks and locks, and the calls that move them.
//!
//! Memory, owner marks and lock holders are lent to each call; the machine itself is a plain struct
//! that a caller may fill with anything. Every call therefore looks at the whole state first (ranges.rs).

use crate::ranges::{entries_fit, memory_fits};

pub const CORES: usize = 8;
pub const MEMORY_LIMIT: usize = 65_536;
pub const ENTRY_LIMIT: usize = 4_096;

/// The operations' numbers, as a core keeps them.
pub const LOAD: u8 = 1;
pub const LL: u8 = 2;
pub const STORE: u8 = 3;
pub const SC: u8 = 4;

/// The kinds of a record, as the archive has them; a record's core is 255 for a poke.
pub const KIND_LOAD: u8 = 1;
pub const KIND_LL: u8 = 2;
pub const KIND_STORE: u8 = 3;
pub const KIND_SC_SUCCESS: u8 = 4;
pub const KIND_SC_FAILURE: u8 = 5;
pub const KIND_POKE: u8 = 6;
pub const POKE_CORE: u8 = 255;

/// An operation as it is given: only store and sc carry a value.
#[derive(Clone, Copy, PartialEq, Eq, Debug)]
pub enum Operation {
    Load,
    Ll,
    Store(u32),
    Sc(u32),
}

/// What a call answers.
#[derive(Clone, Copy, PartialEq, Eq, Debug)]
pub enum Answer {
    Refused(u8),
    Ready,
    Taken,
    Moved,
    Waits,
    Load(u32),
    Ll(u32),
    Store,
    Sc(u32),
    Poked,
    Word(u32),
}

/// What an access step or a poke did to one word.
#[derive(Clone, Copy, PartialEq, Eq, Debug, Default)]
pub struct Record {
    pub core: u8,
    pub kind: u8,
    pub address: u32,
    pub value: u32,
}

/// What a call hands back: its answer, and the record if it made one.
#[derive(Clone, Copy, PartialEq, Eq, Debug)]
pub struct Called {
    pub answer: Answer,
    pub record: Option<Record>,
}

/// One core's private part. Fields unused in the present state are 0.
#[derive(Clone, Copy, PartialEq, Eq, Debug, Default)]
pub struct Core {
    pub busy: bool,
    pub operation: u8,
    pub next: u8,
    pub passed: bool,
    pub linked: bool,
    pub address: u32,
    pub value: u32,
    pub read: u32,
    pub link: u32,
}

/// The machine without what is lent to it.
#[derive(Clone, Copy, PartialEq, Eq, Debug, Default)]
pub struct Machine {
    pub cores: [Core; CORES],
    pub count: usize,
    pub bytes: usize,
    pub entries: usize,
}

impl Operation {
    /// The operation of a number; a load and an ll look at no value.
    pub fn numbered(number: u8, value: u32) -> Option<Operation> {
        match number {
            LOAD => Some(Operation::Load),
            LL => Some(Operation::Ll),
            STORE => Some(Operation::Store(value)),
            SC => Some(Operation::Sc(value)),
            _ => None,
        }
    }

    pub fn number(self) -> u8 {
        match self {
            Operation::Load => LOAD,
            Operation::Ll => LL,
            Operation::Store(_) => STORE,
            Operation::Sc(_) => SC,
        }
    }

    /// What store and sc are to write, 0 for the others.
    pub fn value(self) -> u32 {
        match self {
            Operation::Store(value) | Operation::Sc(value) => value,
            _ => 0,
        }
    }
}

impl Called {
    #[inline]
    fn only(answer: Answer) -> Called {
        Called { answer, record: None }
    }

    #[inline]
    fn refused(number: u8) -> Called {
        Called::only(Answer::Refused(number))
    }

    #[inline]
    fn with(answer: Answer, core: u8, kind: u8, address: u32, value: u32) -> Called {
        Called { answer, record: Some(Record { core, kind, address, value }) }
    }
}

/// The entry of an address; the entries are a power of two, so the remainder is a mask.
#[inline]
pub fn entry_of(address: u32, entries: usize) -> usize {
    (address as usize / 4) & (entries - 1)
}

#[inline]
pub fn read_word(memory: &[u8], address: u32) -> u32 {
    let at = address as usize;
    let mut word = [0; 4];
    word.copy_from_slice(&memory[at..at + 4]);
    u32::from_le_bytes(word)
}

#[inline]
pub fn write_word(memory: &mut [u8], address: u32, value: u32) {
    let at = address as usize;
    memory[at..at + 4].copy_from_slice(&value.to_le_bytes());
}

impl Core {
    /// The core after it was given an operation; its link stays.
    #[inline]
    fn given(self, operation: Operation, address: u32) -> Core {
        Core {
            busy: true,
            operation: operation.number(),
            next: 1,
            address,
            value: operation.value(),
            ..self.idle()
        }
    }

    /// The core with nothing to do; its link stays.
    #[inline]
    fn idle(self) -> Core {
        Core { link: self.link, linked: self.linked, ..Core::default() }
    }
}

impl Machine {
    /// A fresh machine over the lent buffers, which are filled with 0. Refused 4, 1.
    pub fn start(
        count: usize,
        memory: &mut [u8],
        owners: &mut [u8],
        holders: &mut [u8],
    ) -> (Called, Machine) {
        if !memory_fits(memory.len()) | !entries_fit(owners.len()) | (owners.len() != holders.len()) {
            return (Called::refused(4), Machine::default());
        }
        if !(1..=CORES).contains(&count) {
            return (Called::refused(1), Machine::default());
        }
        memory.fill(0);
        owners.fill(0);
        holders.fill(0);
        let machine =
            Machine { count, bytes: memory.len(), entries: owners.len(), cores: [Core::default(); CORES] };
        (Called::only(Answer::Ready), machine)
    }

    /// Gives an operation to an idle core. Refused 5, 1, 7, 2, 3.
    #[inline]
    pub fn give(&mut self, core: usize, operation: Operation, address: u32) -> Called {
        if !self.in_ranges() {
            return Called::refused(5);
        }
        if core >= self.count {
            return Called::refused(1);
        }
        let own = &mut self.cores[core % CORES];
        if own.busy {
            return Called::refused(7);
        }
        if address % 4 != 0 {
            return Called::refused(2);
        }
        if address as usize >= self.bytes {
            return Called::refused(3);
        }
        *own = own.given(operation, address);
        Called::only(Answer::Taken)
    }

    /// One micro-step of a busy core. Refused 5, 4, 1, 8, 6.
    #[inline]
    pub fn step(&mut self, memory: &mut [u8], owners: &mut [u8], holders: &mut [u8], core: usize) -> Called {
        if !self.in_ranges() {
            return Called::refused(5);
        }
        let lent =
            (memory.len() == self.bytes) & (owners.len() == self.entries) & (holders.len() == self.entries);
        if !lent {
            return Called::refused(4);
        }
        if core >= self.count {
            return Called::refused(1);
        }
        let own = &mut self.cores[core % CORES];
        if !own.busy {
            return Called::refused(8);
        }
        if own.operation == LOAD {
            return load(own, core as u8, memory);
        }
        let entry = entry_of(own.address, self.entries);
        let mark = core as u8 + 1;
        if damaged(owners[entry], holders[entry], self.count, own.next, mark) {
            return Called::refused(6);
        }
        locked_step(own, memory, &mut owners[entry], &mut holders[entry], mark)
    }

    /// Writes one word at once; no mark, lock or link is touched. Refused 5, 4, 2, 3.
    pub fn poke(&self, memory: &mut [u8], address: u32, value: u32) -> Called {
        if let Some(number) = self.refuses_word(memory, address) {
            return Called::refused(number);
        }
        write_word(memory, address, value);
        Called::with(Answer::Poked, POKE_CORE, KIND_POKE, address, value)
    }

    /// Reads one word; no access. Refused 5, 4, 2, 3.
    pub fn show(&self, memory: &[u8], address: u32) -> Called {
        if let Some(number) = self.refuses_word(memory, address) {
            return Called::refused(number);
        }
        Called::only(Answer::Word(read_word(memory, address)))
    }

    fn refuses_word(&self, memory: &[u8], address: u32) -> Option<u8> {
        if !self.in_ranges() {
            Some(5)
        } else if memory.len() != self.bytes {
            Some(4)
        } else if address % 4 != 0 {
            Some(2)
        } else if address as usize >= self.bytes {
            Some(3)
        } else {
            None
        }
    }
}

/// A load's only step is its access step.
#[inline]
fn load(own: &mut Core, core: u8, memory: &[u8]) -> Called {
    let address = own.address;
    let value = read_word(memory, address);
    *own = own.idle();
    Called::with(Answer::Load(value), core, KIND_LOAD, address, value)
}

/// Whether the table is damaged at the entry that a locked operation uses.
#[inline]
fn damaged(owner: u8, holder: u8, count: usize, next: u8, mark: u8) -> bool {
    let beyond = (owner as usize > count) | (holder as usize > count);
    // Inside its lock the core must be the holder, before it must not be.
    beyond | ((holder == mark) == (next == 1))
}

/// One of the four steps of an operation that takes its entry's lock.
#[inline]
fn locked_step(own: &mut Core, memory: &mut [u8], owner: &mut u8, holder: &mut u8, mark: u8) -> Called {
    match own.next {
        1 => {
            if *holder != 0 {
                return Called::only(Answer::Waits);
            }
            *holder = mark;
        }
        2 => judge(own, owner, mark),
        3 => {
            own.next = 4;
            return access(own, memory, owner, mark - 1);
        }
        _ => {
            *holder = 0;
            return leave(own);
        }
    }
    own.next += 1;
    Called::only(Answer::Moved)
}

/// Step 2: what the operation makes of the owner mark, or whether sc passes.
#[inline]
fn judge(own: &mut Core, owner: &mut u8, mark: u8) {
    match own.operation {
        LL => *owner = mark,
        STORE if *owner != mark => *owner = 0,
        STORE => {}
        _ => own.passed = own.linked & (own.link == own.address) & (*owner == mark),
    }
}

/// Step 3, the access.
#[inline]
fn access(own: &mut Core, memory: &mut [u8], owner: &mut u8, core: u8) -> Called {
    let address = own.address;
    let (kind, value) = match own.operation {
        LL => {
            own.read = read_word(memory, address);
            own.linked = true;
            own.link = address;
            (KIND_LL, own.read)
        }
        STORE => {
            write_word(memory, address, own.value);
            (KIND_STORE, own.value)
        }
        _ => {
            own.linked = false;
            own.link = 0;
            if own.passed {
                write_word(memory, address, own.value);
                *owner = 0;
                (KIND_SC_SUCCESS, own.value)
            } else {
                (KIND_SC_FAILURE, own.value)
            }
        }
    };
    Called::with(Answer::Moved, core, kind, address, value)
}

/// Step 4: the lock is free again; the answer is delivered and the core idle.
#[inline]
fn leave(own: &mut Core) -> Called {
    let answer = match own.operation {
        LL => Answer::Ll(own.read),
        STORE => Answer::Store,
        _ => Answer::Sc(!own.passed as u32),
    };
    *own = own.idle();
    Called::only(answer)
}
