//! The micro-steps field by field, and every refusal of the machine in its order.

use super::Bench;
use crate::history::succeeds;
use crate::machine::Answer::{Ll, Load, Moved, Refused, Sc, Store, Taken, Waits};
use crate::machine::{Called, Core, Machine, Operation, Record};

fn record(core: u8, kind: u8, address: u32, value: u32) -> Option<Record> {
    Some(Record { core, kind, address, value })
}

#[test]
fn a_load_reads_and_finishes_in_one_step() {
    let mut bench = Bench::start(1, 16, 2);
    bench.poke(12, 0x0403_0201);
    assert_eq!(bench.memory[12..], [1, 2, 3, 4]);
    bench.machine.give(0, Operation::Load, 12);
    let busy = Core { busy: true, operation: 1, next: 1, address: 12, ..Core::default() };
    assert_eq!(bench.machine.cores[0], busy);
    let value = 0x0403_0201;
    assert_eq!(bench.step(0), Called { answer: Load(value), record: record(0, 1, 12, value) });
    assert_eq!(bench.machine.cores[0], Core::default());
}

#[test]
fn an_ll_takes_four_steps() {
    let mut bench = Bench::start(2, 32, 4);
    bench.poke(20, 77);
    bench.machine.give(1, Operation::Ll, 20);
    let at = |next| Core { busy: true, operation: 2, next, address: 20, ..Core::default() };
    assert_eq!(bench.step(1), Called { answer: Moved, record: None });
    assert_eq!((&bench.owners[..], &bench.holders[..]), (&[0, 0, 0, 0][..], &[0, 2, 0, 0][..]));
    assert_eq!(bench.machine.cores[1], at(2));
    assert_eq!(bench.step(1), Called { answer: Moved, record: None });
    assert_eq!((bench.owners[1], bench.holders[1]), (2, 2));
    assert_eq!(bench.machine.cores[1], at(3));
    assert_eq!(bench.step(1), Called { answer: Moved, record: record(1, 2, 20, 77) });
    assert_eq!(bench.machine.cores[1], Core { read: 77, link: 20, linked: true, ..at(4) });
    assert_eq!(bench.step(1), Called { answer: Ll(77), record: None });
    assert_eq!((bench.owners[1], bench.holders[1]), (2, 0));
    assert_eq!(bench.machine.cores[1], Core { link: 20, linked: true, ..Core::default() });
}

#[test]
fn a_store_writes_in_its_third_step_and_drops_anothers_mark() {
    let mut bench = Bench::start(2, 32, 4);
    bench.whole(1, Operation::Ll, 4);
    bench.machine.give(0, Operation::Store(6), 4);
    let at = |next| Core { busy: true, operation: 3, next, address: 4, value: 6, ..Core::default() };
    bench.steps(0, 1);
    assert_eq!((bench.owners[1], bench.holders[1]), (2, 1));
    bench.steps(0, 1);
    assert_eq!((bench.owners[1], bench.memory[4]), (0, 0));
    assert_eq!(bench.step(0), Called { answer: Moved, record: record(0, 3, 4, 6) });
    assert_eq!((bench.machine.cores[0], bench.memory[4]), (at(4), 6));
    assert_eq!(bench.step(0), Called { answer: Store, record: None });
    assert_eq!(bench.holders[1], 0);
    assert_eq!(bench.machine.cores[0], Core::default());
}

#[test]
fn a_store_leaves_its_own_mark() {
    let mut bench = Bench::start(2, 32, 4);
    bench.whole(0, Operation::Ll, 4);
    bench.whole(0, Operation::Store(6), 20);
    assert_eq!(bench.owners[1], 1);
}

#[test]
fn an_sc_remembers_its_outcome_from_step_two() {
    let mut bench = Bench::start(2, 32, 4);
    bench.whole(0, Operation::Ll, 4);
    bench.machine.give(0, Operation::Sc(6), 4);
    bench.steps(0, 2);
    let linked = Core { link: 4, linked: true, ..Core::default() };
    let at = Core { busy: true, operation: 4, next: 3, address: 4, value: 6, passed: true, ..linked };
    assert_eq!((bench.machine.cores[0], bench.owners[1]), (at, 1));
    assert_eq!(bench.step(0), Called { answer: Moved, record: record(0, 4, 4, 6) });
    let done = Core { next: 4, link: 0, linked: false, ..at };
    assert_eq!((bench.machine.cores[0], bench.owners[1], bench.memory[4]), (done, 0, 6));
    assert_eq!(bench.step(0), Called { answer: Sc(0), record: None });
    assert_eq!(bench.machine.cores[0], Core::default());
}

#[test]
fn a_failed_sc_leaves_owner_and_memory() {
    let mut bench = Bench::start(2, 32, 4);
    bench.whole(0, Operation::Ll, 4);
    bench.machine.give(0, Operation::Sc(6), 20);
    bench.steps(0, 2);
    assert_eq!(bench.step(0), Called { answer: Moved, record: record(0, 5, 20, 6) });
    assert_eq!((bench.machine.cores[0].linked, bench.machine.cores[0].link), (false, 0));
    assert_eq!((bench.owners[1], bench.memory[20]), (1, 0));
    assert_eq!(bench.step(0).answer, Sc(1));
}

#[test]
fn who_finds_the_lock_taken_waits() {
    let mut bench = Bench::start(2, 32, 4);
    bench.machine.give(0, Operation::Ll, 4);
    bench.machine.give(1, Operation::Store(1), 20);
    bench.steps(0, 1);
    let before = bench.clone();
    assert_eq!(bench.step(1), Called { answer: Waits, record: None });
    assert_eq!(bench, before);
}

#[test]
fn a_poke_is_recorded_and_touches_memory_alone() {
    let mut bench = Bench::start(2, 32, 4);
    bench.whole(0, Operation::Ll, 4);
    let before = bench.clone();
    let called = bench.machine.poke(&mut bench.memory, 4, 258);
    assert_eq!(called.record, record(255, 6, 4, 258));
    assert_eq!(bench.memory[4..8], [2, 1, 0, 0]);
    bench.memory[4..8].fill(0);
    assert_eq!(bench, before);
}

fn start_answer(cores: usize, bytes: usize, owners: usize, holders: usize) -> (u8, bool) {
    let mut lent = [vec![7; bytes], vec![7; owners], vec![7; holders]];
    let before = lent.clone();
    let [memory, owners, holders] = &mut lent;
    let (called, machine) = Machine::start(cores, memory, owners, holders);
    let kept = lent == before && machine == Machine::default();
    match called.answer {
        Refused(number) => (number, kept),
        answer => panic!("not refused: {answer:?}"),
    }
}

#[test]
fn start_refuses_four_then_one() {
    for (bytes, owners, holders) in [
        (0, 4, 4),
        (2, 4, 4),
        (3, 4, 4),
        (5, 4, 4),
        (65_540, 4, 4),
        (64, 0, 0),
        (64, 3, 3),
        (64, 8_192, 8_192),
        (64, 4, 2),
        (64, 4, 5),
    ] {
        assert_eq!(start_answer(0, bytes, owners, holders), (4, true));
    }
    for cores in [0, 9, 1 << 32, usize::MAX] {
        assert_eq!(start_answer(cores, 64, 4, 4), (1, true));
    }
}

#[test]
fn start_takes_the_edges_and_fills_with_zero() {
    for (cores, bytes, entries) in [(1, 4, 1), (8, 65_536, 4_096)] {
        let bench = Bench::start(cores, bytes, entries);
        assert_eq!(bench.machine, Machine { count: cores, bytes, entries, cores: Default::default() });
        assert_eq!(bench.memory, vec![0; bytes]);
        assert_eq!((bench.owners, bench.holders), (vec![0; entries], vec![0; entries]));
    }
}

/// A machine with one core busy and one idle, and the state's break that each later test adds.
fn two_cores() -> Bench {
    let mut bench = Bench::start(2, 64, 4);
    bench.machine.give(1, Operation::Store(3), 8);
    bench
}

#[test]
fn give_refuses_in_order() {
    let number = |bench: &Bench, core, address| {
        let mut machine = bench.machine;
        let called = machine.give(core, Operation::Sc(1), address);
        assert_eq!((machine, called.record), (bench.machine, None));
        called.answer
    };
    let mut bench = two_cores();
    assert_eq!(number(&bench, 0, 66), Refused(2));
    assert_eq!(number(&bench, 0, 64), Refused(3));
    assert_eq!(number(&bench, 1, 66), Refused(7));
    assert_eq!(number(&bench, 2, 66), Refused(1));
    bench.machine.entries = 3;
    assert_eq!(number(&bench, 2, 66), Refused(5));
}

#[test]
fn step_refuses_in_order() {
    let refused = |bench: &Bench, core, number| {
        let mut after = bench.clone();
        assert_eq!(after.step(core), Called { answer: Refused(number), record: None });
        assert_eq!(&after, bench);
    };
    let mut bench = two_cores();
    bench.owners[2] = 3;
    refused(&bench, 1, 6);
    refused(&bench, 0, 8);
    refused(&bench, 2, 1);
    for lent in 0..3 {
        let mut short = bench.clone();
        [&mut short.memory, &mut short.owners, &mut short.holders][lent].pop();
        refused(&short, 2, 4);
        short.machine.cores[0].read = 1;
        refused(&short, 2, 5);
    }
}

#[test]
fn poke_and_show_refuse_in_order() {
    let refused = |bench: &Bench, address, number| {
        let mut after = bench.clone();
        let answer = Called { answer: Refused(number), record: None };
        assert_eq!(after.machine.poke(&mut after.memory, address, 1), answer);
        assert_eq!(after.machine.show(&after.memory, address), answer);
        assert_eq!(&after, bench);
    };
    let mut bench = two_cores();
    refused(&bench, 64, 3);
    refused(&bench, 65, 2);
    bench.memory.push(0);
    refused(&bench, 65, 4);
    bench.machine.count = 9;
    refused(&bench, 65, 5);
}

#[test]
fn a_table_damaged_at_the_entry_used() {
    // owner, holder, next, answer; core 1 of 2 is at the entry, so its mark is 2.
    for (owner, holder, next, answer) in [
        (3, 0, 1, Refused(6)),
        (0, 3, 1, Refused(6)),
        (3, 1, 1, Refused(6)),
        (0, 2, 1, Refused(6)),
        (0, 1, 1, Waits),
        (2, 0, 1, Moved),
        (0, 0, 2, Refused(6)),
        (0, 1, 3, Refused(6)),
        (0, 255, 4, Refused(6)),
        (255, 2, 4, Refused(6)),
        (2, 2, 2, Moved),
        (0, 2, 4, Store),
    ] {
        let mut bench = two_cores();
        bench.machine.cores[1].next = next;
        (bench.owners[2], bench.holders[2]) = (owner, holder);
        assert_eq!(bench.step(1).answer, answer, "{owner} {holder} {next}");
    }
}

#[test]
fn a_load_never_finds_the_table_damaged() {
    let mut bench = Bench::start(1, 16, 1);
    bench.machine.give(0, Operation::Load, 4);
    (bench.owners[0], bench.holders[0]) = (200, 1);
    assert_eq!(bench.step(0).answer, Load(0));
}

/// A core of a machine of 4 cores and 64 bytes, and whether the state is then in its ranges.
fn in_ranges(number: usize, core: Core) -> bool {
    let mut bench = Bench::start(4, 64, 4);
    bench.machine.cores[number] = core;
    match bench.show(0) {
        Refused(number) => {
            assert_eq!(number, 5);
            false
        }
        _ => true,
    }
}

#[test]
fn every_operation_and_next_step_has_its_fields_in_use() {
    for operation in 0..=255 {
        for next in 0..=255 {
            let base = Core { busy: true, operation, next, ..Core::default() };
            let occurs = match operation {
                1 => next == 1,
                2..=4 => (1..=4).contains(&next),
                _ => false,
            };
            assert_eq!(in_ranges(1, base), occurs);
            let value = occurs && operation >= 3;
            assert_eq!(in_ranges(1, Core { value: 1 << 31, ..base }), value);
            let read = operation == 2 && next == 4;
            assert_eq!(in_ranges(1, Core { read: 1, ..base }), read);
            let passed = operation == 4 && (next == 3 || next == 4);
            assert_eq!(in_ranges(1, Core { passed: true, ..base }), passed);
            let idle = Core { busy: false, ..base };
            assert_eq!(in_ranges(1, idle), operation == 0 && next == 0);
        }
    }
}

#[test]
fn addresses_and_links_lie_inside_and_are_zero_when_unused() {
    let busy = Core { busy: true, operation: 1, next: 1, ..Core::default() };
    let linked = Core { linked: true, ..Core::default() };
    for (address, fits) in [(0, true), (60, true), (61, false), (62, false), (64, false), (1 << 31, false)] {
        assert_eq!(in_ranges(3, Core { address, ..busy }), fits);
        assert_eq!(in_ranges(3, Core { link: address, ..linked }), fits);
        assert_eq!(in_ranges(3, Core { link: address, ..Core::default() }), address == 0);
        assert_eq!(in_ranges(3, Core { address, ..Core::default() }), address == 0);
    }
    assert!(!in_ranges(4, busy));
    assert!(!in_ranges(4, linked));
    assert!(!in_ranges(7, Core { value: 1, ..Core::default() }));
}

#[test]
fn sizes_out_of_range() {
    let good = Bench::start(4, 64, 4).machine;
    let answer = |machine: Machine| machine.show(&[0; 64], 0).answer;
    for count in [0, 9, usize::MAX] {
        assert_eq!(answer(Machine { count, ..good }), Refused(5));
    }
    for bytes in [0, 2, 62, 65_540, usize::MAX - 3] {
        assert_eq!(answer(Machine { bytes, ..good }), Refused(5));
    }
    for entries in [0, 3, 8_192, usize::MAX] {
        assert_eq!(answer(Machine { entries, ..good }), Refused(5));
    }
    assert_eq!(answer(Machine { bytes: 68, ..good }), Refused(4));
}

#[test]
fn mixtures_that_no_run_reaches_are_stepped_by_the_text() {
    let mut bench = two_cores();
    let linked = Core { link: 8, linked: true, ..Core::default() };
    bench.machine.cores[1] = Core { busy: true, operation: 4, next: 4, address: 8, passed: true, ..linked };
    bench.holders[2] = 2;
    assert_eq!(bench.step(1).answer, Sc(0));
    assert_eq!(bench.machine.cores[1], linked);
    bench.machine.cores[0] = Core { busy: true, operation: 3, next: 1, address: 8, ..Core::default() };
    bench.holders[2] = 2;
    assert_eq!(bench.step(0).answer, Waits);
    assert_eq!(bench.machine.give(1, Operation::Ll, 8).answer, Taken);
}

#[test]
fn the_success_rule_is_judged_from_the_history() {
    let access = |core, kind, address| Record { core, kind, address, value: 0 };
    let judged = |history: &[Record]| succeeds(history, 4, 0, 8);
    assert!(!judged(&[]));
    assert!(judged(&[access(0, 2, 8)]));
    assert!(!judged(&[access(0, 2, 24)]));
    assert!(!judged(&[access(0, 2, 8), access(0, 2, 12)]));
    assert!(!judged(&[access(0, 2, 8), access(0, 5, 12)]));
    for (core, kind, address, succeeds) in [
        (1, 1, 8, true),
        (1, 2, 8, false),
        (1, 3, 24, false),
        (1, 4, 40, false),
        (1, 5, 8, true),
        (1, 3, 12, true),
        (255, 6, 8, true),
        (0, 3, 8, true),
        (0, 4, 8, false),
    ] {
        assert_eq!(
            judged(&[access(0, 2, 8), access(core, kind, address)]),
            succeeds,
            "{core} {kind} {address}"
        );
    }
}
