//! The script program: a line's grammar, its effect on the machine, the text of its answer.
//!
//! Input comes in pieces cut anywhere; what is left of a line waits for the next piece.

use crate::machine::{Answer, Called, Machine, Operation, Record, ENTRY_LIMIT};

const LINE_LIMIT: usize = 80;
const SCRIPT_MEMORY: usize = 16_384;
const ENTRIES_LEFT_OUT: u32 = 64;

/// Takes what a script makes beside its answers.
pub trait Sink {
    /// A `new` was accepted.
    fn begin(&mut self);
    fn record(&mut self, record: &Record);
}

/// A sink for scripts whose records nobody wants.
pub struct Unkept;

impl Sink for Unkept {
    #[inline]
    fn begin(&mut self) {}
    #[inline]
    fn record(&mut self, _: &Record) {}
}

#[derive(Clone, Copy, PartialEq, Eq, Debug)]
pub enum Command {
    New { cores: u32, bytes: u32, entries: u32 },
    Give { core: u32, operation: Operation, address: u32 },
    Step { core: u32 },
    Poke { address: u32, value: u32 },
    Show { address: u32 },
}

/// What is left of a line to be read.
struct Text<'a>(&'a [u8]);

impl Text<'_> {
    /// Reads past a word if it stands here.
    #[inline]
    fn word(&mut self, word: &[u8]) -> Option<()> {
        self.0 = self.0.strip_prefix(word)?;
        Some(())
    }

    /// Reads a decimal number without needless zeros.
    #[inline]
    fn number(&mut self) -> Option<u32> {
        let mut value = 0u64;
        let mut digits = 0;
        while let Some(digit) = self.0.get(digits).map(|byte| byte.wrapping_sub(b'0')) {
            if digit > 9 {
                break;
            }
            // Ten digits can't overflow; a line has at most 80, so more must be stopped here.
            if digits == 10 {
                return None;
            }
            value = value * 10 + digit as u64;
            digits += 1;
        }
        if digits == 0 || (digits > 1 && self.0[0] == b'0') {
            return None;
        }
        self.0 = &self.0[digits..];
        u32::try_from(value).ok()
    }

    #[inline]
    fn spaced_number(&mut self) -> Option<u32> {
        self.word(b" ")?;
        self.number()
    }

    #[inline]
    fn ends(&self, command: Command) -> Option<Command> {
        self.0.is_empty().then_some(command)
    }
}

/// The command of a line without its newline, if it is one.
#[inline]
pub fn command_of(line: &[u8]) -> Option<Command> {
    if line.len() > LINE_LIMIT {
        return None;
    }
    let mut text = Text(line);
    match line.get(..2)? {
        b"st" => {
            text.word(b"step ")?;
            let core = text.number()?;
            text.ends(Command::Step { core })
        }
        b"gi" => give_of(text),
        b"sh" => {
            text.word(b"show ")?;
            let address = text.number()?;
            text.ends(Command::Show { address })
        }
        b"po" => {
            text.word(b"poke ")?;
            let address = text.number()?;
            let value = text.spaced_number()?;
            text.ends(Command::Poke { address, value })
        }
        b"ne" => new_of(text),
        _ => None,
    }
}

#[inline]
fn give_of(mut text: Text) -> Option<Command> {
    text.word(b"give ")?;
    let core = text.number()?;
    let (address, operation) = if text.word(b" load").is_some() {
        (text.spaced_number()?, Operation::Load)
    } else if text.word(b" ll").is_some() {
        (text.spaced_number()?, Operation::Ll)
    } else if text.word(b" store").is_some() {
        (text.spaced_number()?, Operation::Store(text.spaced_number()?))
    } else {
        text.word(b" sc")?;
        (text.spaced_number()?, Operation::Sc(text.spaced_number()?))
    };
    text.ends(Command::Give { core, operation, address })
}

fn new_of(mut text: Text) -> Option<Command> {
    text.word(b"new ")?;
    let cores = text.number()?;
    let bytes = text.spaced_number()?;
    let entries = if text.0.is_empty() { ENTRIES_LEFT_OUT } else { text.spaced_number()? };
    text.ends(Command::New { cores, bytes, entries })
}

const DIGITS: usize = 20;

/// The number of the latest line in decimal, counted up digit by digit.
struct LineNumber {
    digits: [u8; DIGITS],
    length: usize,
}

impl LineNumber {
    fn zero() -> LineNumber {
        LineNumber { digits: [b'0'; DIGITS], length: 1 }
    }

    #[inline]
    fn count(&mut self) {
        for digit in self.digits[..self.length].iter_mut().rev() {
            if *digit < b'9' {
                *digit += 1;
                return;
            }
            *digit = b'0';
        }
        // All were nines: a one, and as many zeros.
        self.digits[0] = b'1';
        self.length += 1;
    }
}

/// Where the first newline stands, eight bytes at a time: lines are short.
#[inline]
fn newline(text: &[u8]) -> Option<usize> {
    const ONES: u64 = u64::MAX / 255;
    let mut chunks = text.chunks_exact(8);
    let mut at = 0;
    for chunk in &mut chunks {
        let mut bytes = [0; 8];
        bytes.copy_from_slice(chunk);
        // A newline becomes a zero byte, and the lowest zero byte has the lowest bit set here.
        let apart = u64::from_le_bytes(bytes) ^ (ONES * b'\n' as u64);
        let zeros = apart.wrapping_sub(ONES) & !apart & (ONES << 7);
        if zeros != 0 {
            return Some(at + zeros.trailing_zeros() as usize / 8);
        }
        at += 8;
    }
    chunks.remainder().iter().position(|&byte| byte == b'\n').map(|rest| at + rest)
}

/// A script in the middle of its input.
pub struct Script {
    machine: Option<Machine>,
    memory: Box<[u8; SCRIPT_MEMORY]>,
    owners: Box<[u8; ENTRY_LIMIT]>,
    holders: Box<[u8; ENTRY_LIMIT]>,
    line_number: LineNumber,
    // One byte more than a line may have, so that a longer one is seen to be longer.
    begun: [u8; LINE_LIMIT + 1],
    begun_length: usize,
}

impl Script {
    pub fn start() -> Script {
        Script {
            machine: None,
            memory: Box::new([0; SCRIPT_MEMORY]),
            owners: Box::new([0; ENTRY_LIMIT]),
            holders: Box::new([0; ENTRY_LIMIT]),
            line_number: LineNumber::zero(),
            begun: [0; LINE_LIMIT + 1],
            begun_length: 0,
        }
    }

    /// Takes the next piece of input and appends the answers to the lines that end in it.
    pub fn feed(&mut self, mut piece: &[u8], answers: &mut Vec<u8>, sink: &mut impl Sink) {
        while let Some(length) = newline(piece) {
            let line = &piece[..length];
            if self.begun_length == 0 {
                self.line(line, answers, sink);
            } else {
                self.keep(line);
                self.begun_line(answers, sink);
            }
            piece = &piece[length + 1..];
        }
        self.keep(piece);
    }

    /// The input is over: what stands after its last newline is a line too, unless it is empty.
    pub fn finish(&mut self, answers: &mut Vec<u8>, sink: &mut impl Sink) {
        if self.begun_length > 0 {
            self.begun_line(answers, sink);
        }
    }

    fn keep(&mut self, part: &[u8]) {
        let kept = part.len().min(self.begun.len() - self.begun_length);
        self.begun[self.begun_length..self.begun_length + kept].copy_from_slice(&part[..kept]);
        self.begun_length += kept;
    }

    fn begun_line(&mut self, answers: &mut Vec<u8>, sink: &mut impl Sink) {
        let begun = self.begun;
        let length = std::mem::take(&mut self.begun_length);
        self.line(&begun[..length], answers, sink);
    }

    #[inline]
    fn line(&mut self, line: &[u8], answers: &mut Vec<u8>, sink: &mut impl Sink) {
        self.line_number.count();
        let called = match command_of(line) {
            None => refused(9),
            Some(command) => self.obey(command),
        };
        if called.answer == Answer::Ready {
            sink.begin();
        }
        if let Some(record) = &called.record {
            sink.record(record);
        }
        write_answer(answers, &self.line_number, called.answer);
    }

    #[inline]
    fn obey(&mut self, command: Command) -> Called {
        if let Command::New { cores, bytes, entries } = command {
            return self.renew(cores as usize, bytes as usize, entries as usize);
        }
        let Some(machine) = &mut self.machine else {
            return refused(10);
        };
        let memory = &mut self.memory[..machine.bytes];
        match command {
            Command::Give { core, operation, address } => machine.give(core as usize, operation, address),
            Command::Step { core } => {
                let owners = &mut self.owners[..machine.entries];
                let holders = &mut self.holders[..machine.entries];
                machine.step(memory, owners, holders, core as usize)
            }
            Command::Poke { address, value } => machine.poke(memory, address, value),
            Command::Show { address } => machine.show(memory, address),
            Command::New { .. } => unreachable!("a new is obeyed above"),
        }
    }

    /// A refused `new` leaves the old machine, and what is lent to it, as they were.
    fn renew(&mut self, cores: usize, bytes: usize, entries: usize) -> Called {
        let (Some(memory), Some(owners), Some(holders)) =
            (self.memory.get_mut(..bytes), self.owners.get_mut(..entries), self.holders.get_mut(..entries))
        else {
            return refused(4);
        };
        let (called, machine) = Machine::start(cores, memory, owners, holders);
        if called.answer == Answer::Ready {
            self.machine = Some(machine);
        }
        called
    }
}

fn refused(number: u8) -> Called {
    Called { answer: Answer::Refused(number), record: None }
}

/// Appends the beginning of a text of fixed size, which costs no call of a copying function.
#[inline]
fn write_first<const N: usize>(answers: &mut Vec<u8>, text: &[u8; N], length: usize) {
    answers.extend_from_slice(text);
    answers.truncate(answers.len() - N + length);
}

/// Appends one answer line: line number, answer number, the answer's word and its value if it has one.
#[inline]
fn write_answer(answers: &mut Vec<u8>, line_number: &LineNumber, answer: Answer) {
    write_first(answers, &line_number.digits, line_number.length);
    let (word, value) = match answer {
        Answer::Refused(number) => {
            answers.push(b' ');
            write_decimal(answers, number as u32);
            return answers.extend_from_slice(b" refused\n");
        }
        Answer::Ready => return answers.extend_from_slice(b" 0 ready\n"),
        Answer::Taken => return answers.extend_from_slice(b" 0 taken\n"),
        Answer::Moved => return answers.extend_from_slice(b" 0 moved\n"),
        Answer::Waits => return answers.extend_from_slice(b" 0 waits\n"),
        Answer::Store => return answers.extend_from_slice(b" 0 store\n"),
        Answer::Poked => return answers.extend_from_slice(b" 0 poked\n"),
        Answer::Load(value) => (b" 0 load ", value),
        Answer::Word(value) => (b" 0 word ", value),
        Answer::Ll(value) => (b" 0 ll \0\0", value),
        Answer::Sc(value) => (b" 0 sc \0\0", value),
    };
    let padding = (word[7] == 0) as usize * 2;
    write_first(answers, word, word.len() - padding);
    write_decimal(answers, value);
    answers.push(b'\n');
}

#[inline]
fn write_decimal(text: &mut Vec<u8>, mut value: u32) {
    if value < 10 {
        return text.push(b'0' + value as u8);
    }
    let mut digits = [0; 10];
    let mut at = digits.len();
    while value > 0 {
        at -= 1;
        digits[at] = b'0' + (value % 10) as u8;
        value /= 10;
    }
    text.extend_from_slice(&digits[at..]);
}
