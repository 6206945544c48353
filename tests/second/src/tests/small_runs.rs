//! P1 to P10 and the Give line, on 3 cores, 64 bytes and 4 entries, each operation run whole.

use super::Bench;
use crate::archive::sums;
use crate::machine::Answer::{Ll, Poked, Refused, Sc, Store, Taken, Word};
use crate::machine::Operation;

fn fresh() -> Bench {
    Bench::start(3, 64, 4)
}

fn ll(bench: &mut Bench, core: usize, address: u32) {
    assert_eq!(bench.whole(core, Operation::Ll, address), Ll(0));
}

fn store(bench: &mut Bench, core: usize, address: u32, value: u32) {
    assert_eq!(bench.whole(core, Operation::Store(value), address), Store);
}

fn sc(bench: &mut Bench, core: usize, address: u32, value: u32, outcome: u32) {
    assert_eq!(bench.whole(core, Operation::Sc(value), address), Sc(outcome));
}

#[test]
fn p1_sc_after_its_ll_succeeds() {
    let mut bench = fresh();
    ll(&mut bench, 0, 8);
    sc(&mut bench, 0, 8, 5, 0);
    assert_eq!(bench.show(8), Word(5));
}

#[test]
fn p2_a_value_written_away_and_back_is_a_failure() {
    let mut bench = fresh();
    ll(&mut bench, 0, 8);
    store(&mut bench, 1, 8, 7);
    store(&mut bench, 1, 8, 0);
    sc(&mut bench, 0, 8, 5, 1);
    assert_eq!(bench.show(8), Word(0));
}

#[test]
fn p3_an_own_store_does_not_mend_anothers() {
    let mut bench = fresh();
    ll(&mut bench, 0, 8);
    store(&mut bench, 1, 8, 7);
    store(&mut bench, 0, 24, 9);
    sc(&mut bench, 0, 8, 5, 1);
}

#[test]
fn p4_anothers_ll_at_the_entry_is_a_cause() {
    let mut bench = fresh();
    ll(&mut bench, 0, 8);
    ll(&mut bench, 1, 24);
    sc(&mut bench, 0, 8, 5, 1);
    sc(&mut bench, 1, 24, 4, 0);
}

#[test]
fn p5_an_own_store_is_no_cause() {
    let mut bench = fresh();
    ll(&mut bench, 0, 8);
    store(&mut bench, 0, 8, 3);
    sc(&mut bench, 0, 8, 5, 0);
}

#[test]
fn p6_a_failed_sc_ends_the_link() {
    let mut bench = fresh();
    ll(&mut bench, 0, 8);
    sc(&mut bench, 0, 12, 5, 1);
    sc(&mut bench, 0, 8, 5, 1);
}

#[test]
fn p7_a_store_at_another_entry_is_no_cause() {
    let mut bench = fresh();
    ll(&mut bench, 0, 8);
    store(&mut bench, 1, 12, 1);
    sc(&mut bench, 0, 8, 5, 0);
}

#[test]
fn p8_anothers_failed_sc_is_no_cause() {
    let mut bench = fresh();
    ll(&mut bench, 0, 8);
    sc(&mut bench, 1, 24, 4, 1);
    sc(&mut bench, 0, 8, 5, 0);
}

#[test]
fn p9_a_poke_is_no_cause() {
    let mut bench = fresh();
    ll(&mut bench, 0, 8);
    assert_eq!(bench.poke(8, 9), Poked);
    sc(&mut bench, 0, 8, 5, 0);
    assert_eq!(bench.show(8), Word(5));
}

#[test]
fn p10_fletchers_sums() {
    assert_eq!(sums(&[1, 0, 2, 0]), (3, 4));
    assert_eq!(sums(&[255, 255]), (0, 0));
}

#[test]
fn give_at_the_edge_of_memory() {
    for (address, answer) in [(60, Taken), (62, Refused(2)), (64, Refused(3)), (66, Refused(2))] {
        let mut bench = fresh();
        assert_eq!(bench.machine.give(0, Operation::Load, address).answer, answer);
    }
}

#[test]
fn a_refused_sc_leaves_the_link() {
    let mut bench = fresh();
    ll(&mut bench, 0, 8);
    assert_eq!(bench.machine.give(0, Operation::Sc(5), 62).answer, Refused(2));
    sc(&mut bench, 0, 8, 5, 0);
}
