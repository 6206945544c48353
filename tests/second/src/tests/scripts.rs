//! The printed script, the line grammar and the script program's refusals.

use crate::script::{Script, Unkept};

fn answers(input: &[u8]) -> String {
    answers_in_pieces(input, input.len().max(1))
}

fn answers_in_pieces(input: &[u8], size: usize) -> String {
    let mut script = Script::start();
    let mut answers = Vec::new();
    for piece in input.chunks(size) {
        script.feed(piece, &mut answers, &mut Unkept);
    }
    script.finish(&mut answers, &mut Unkept);
    String::from_utf8(answers).expect("answers are text")
}

const PRINTED: &str = "new 2 64 4\ngive 0 ll 8\nstep 0\ngive 1 store 24 7\nstep 1\nstep 0\nstep 0\nstep 0\n\
    step 1\nstep 1\nstep 1\nstep 1\ngive 0 sc 8 5\nstep 0\nstep 0\nstep 0\nstep 0\nshow 24\n";
const PRINTED_ANSWERS: &str = "1 0 ready\n2 0 taken\n3 0 moved\n4 0 taken\n5 0 waits\n6 0 moved\n7 0 moved\n\
    8 0 ll 0\n9 0 moved\n10 0 moved\n11 0 moved\n12 0 store\n13 0 taken\n14 0 moved\n15 0 moved\n16 0 moved\n\
    17 0 sc 1\n18 0 word 7\n";

#[test]
fn the_printed_script() {
    for size in 1..=PRINTED.len() {
        assert_eq!(answers_in_pieces(PRINTED.as_bytes(), size), PRINTED_ANSWERS);
    }
    let unended = &PRINTED.as_bytes()[..PRINTED.len() - 1];
    assert_eq!(answers(unended), PRINTED_ANSWERS);
}

#[test]
fn no_input_gives_no_output_and_an_empty_line_is_nine() {
    assert_eq!(answers(b""), "");
    assert_eq!(answers(b"\n"), "1 9 refused\n");
    assert_eq!(answers(b"\n\nx"), "1 9 refused\n2 9 refused\n3 9 refused\n");
}

/// The answer to one line after an accepted `new 2 64 4`.
fn answer(line: &str) -> String {
    let all = answers(format!("new 2 64 4\n{line}\n").as_bytes());
    all.strip_prefix("1 0 ready\n2 ").expect("two answers").trim_end().to_string()
}

#[test]
fn every_command_is_understood() {
    for (line, expected) in [
        ("give 0 load 8", "0 taken"),
        ("give 0 ll 8", "0 taken"),
        ("give 0 store 8 4294967295", "0 taken"),
        ("give 0 sc 8 0", "0 taken"),
        ("step 0", "8 refused"),
        ("poke 60 4294967295", "0 poked"),
        ("show 60", "0 word 0"),
        ("new 8 16384 4096", "0 ready"),
        ("new 1 4", "0 ready"),
    ] {
        assert_eq!(answer(line), expected, "{line}");
    }
}

#[test]
fn what_the_grammar_shuts_out_is_nine() {
    for line in [
        " step 0",
        "step 0 ",
        "step  0",
        "step",
        "step ",
        "Step 0",
        "step 00",
        "step 01",
        "step +1",
        "step -1",
        "step 4294967296",
        "step 18446744073709551616",
        "step 0x1",
        "step 0 1",
        "step\t0",
        "step 0\r",
        "step 0\0",
        "step 1a",
        "stepp 0",
        "ste 0",
        "give 0 load",
        "give 0 load 8 1",
        "give 0 ll 8 1",
        "give 0 store 8",
        "give 0 sc 8",
        "give 0 sc 8 5 1",
        "give 0 add 8 5",
        "give 0 lload 8",
        "give 0 scc 8 5",
        "give load 8",
        "give 0  load 8",
        "poke 8",
        "poke 8 1 1",
        "show",
        "show 8 8",
        "new",
        "new 2",
        "new 2 64 4 1",
        "new 2 64 ",
        "new  2 64",
        "new 2 64 04",
        "quit",
        "é",
        "n",
        "ne",
    ] {
        assert_eq!(answer(line), "9 refused", "{line:?}");
    }
}

#[test]
fn a_line_has_at_most_eighty_bytes() {
    // The longest line that is a command is far shorter, so the bound shows in refusals alone.
    for length in [80, 81, 82, 161, 162, 100_000] {
        let line = "9".repeat(length);
        assert_eq!(answers(format!("{line}\nnew 1 4\n").as_bytes()), "1 9 refused\n2 0 ready\n");
        assert_eq!(answers_in_pieces(format!("{line}\nnew 1 4\n").as_bytes(), 7), "1 9 refused\n2 0 ready\n");
        // A command at the end of a long line must not be taken for one.
        assert_eq!(answers(format!("{line}new 1 4\nshow 0").as_bytes()), "1 9 refused\n2 10 refused\n");
    }
}

#[test]
fn ten_before_an_accepted_new_and_nine_before_ten() {
    assert_eq!(
        answers(b"step 0\nstep 00\nnew 9 64\nstep 0\nnew 1 64\nstep 0\n"),
        "1 10 refused\n2 9 refused\n3 1 refused\n4 10 refused\n5 0 ready\n6 8 refused\n"
    );
}

#[test]
fn new_refuses_four_then_one() {
    for (line, number) in [
        ("new 2 16388", 4),
        ("new 0 16388", 4),
        ("new 2 65536", 4),
        ("new 2 4294967295", 4),
        ("new 2 0", 4),
        ("new 2 66", 4),
        ("new 2 64 0", 4),
        ("new 2 64 3", 4),
        ("new 2 64 8192", 4),
        ("new 2 64 4294967295", 4),
        ("new 0 64", 1),
        ("new 9 64 4", 1),
        ("new 4294967295 64", 1),
    ] {
        assert_eq!(answer(line), format!("{number} refused"), "{line}");
    }
}

#[test]
fn a_later_new_starts_afresh_only_if_accepted() {
    assert_eq!(
        answers(b"new 1 64\npoke 8 3\nnew 1 66\nshow 8\nnew 0 32\nshow 60\nnew 1 32\nshow 8\nshow 32\n"),
        "1 0 ready\n2 0 poked\n3 4 refused\n4 0 word 3\n5 1 refused\n6 0 word 0\n7 0 ready\n8 0 word 0\n9 3 refused\n"
    );
}

#[test]
fn sixty_four_entries_if_left_out() {
    // Addresses 0 and 256 share an entry of 64, and of no more.
    let held = b"new 2 512\ngive 0 ll 0\nstep 0\ngive 1 ll 256\nstep 1\n";
    assert!(answers(held).ends_with("5 0 waits\n"));
    let free = b"new 2 512\ngive 0 ll 0\nstep 0\ngive 1 ll 128\nstep 1\n";
    assert!(answers(free).ends_with("5 0 moved\n"));
}

#[test]
fn line_numbers_go_on_past_nine_digits_places() {
    let all = answers("\n".repeat(1_001).as_bytes());
    let lines: Vec<&str> = all.lines().collect();
    assert_eq!((lines[8], lines[9], lines[99]), ("9 9 refused", "10 9 refused", "100 9 refused"));
    assert_eq!(lines[1_000], "1001 9 refused");
}
