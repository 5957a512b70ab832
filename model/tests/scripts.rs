//! The call script: its two forms, what it writes, and the harness.

use model::compare::{compare, shorten, Budget, Itself, Real};
use model::images;
use model::random::conversation;
use model::script::*;
use model::stick::{Stick, AREA, PAPER, SCREEN};
use std::time::{Duration, Instant};

/// The same text and bytes are tested in the host library.
const TEXT: &str = "\
fresh
take 0 11 05 00 00 00 45 3A 9B
tick 0
give 0 x 4
give 0
take 1 10
take 255 FF
tick 1 x 300
press 3F
lend area 100
lend state 602
lend 7 70000
lend tape 33000
lend images 368640
write tape 132 55 55 FA
write images 45952 02
write 9 16777215
dump
dump tape
doctor 3
raw 54 00
";
const BYTES: &str = "46 540011 540005 540000 540000 540000 540045 54003A 54009B 4B00 4700 4700 4700 4700 4700 \
    540110 54FFFF 58012C01 503F 4C00640000 4C035A0200 4C07701101 4C04E88000 4C0600A005 57048400000300 5555FA \
    570680B300010002 5709FFFFFF0000 44 43 5203 5400";

fn bytes(text: &str) -> Vec<u8> {
    let digits: String = text.split_whitespace().collect();
    (0..digits.len()).step_by(2).map(|at| u8::from_str_radix(&digits[at..at + 2], 16).unwrap()).collect()
}

#[test]
fn the_two_forms() {
    let ops = from_text(TEXT).unwrap();
    assert_eq!(bytes_of(&ops), bytes(BYTES));
    assert_eq!(ops_of(&bytes(BYTES)), ops);
    // Gives on one line and on two are the same ops.
    assert_eq!(to_text(&ops), TEXT.replace("give 0 x 4\ngive 0\n", "give 0 x 5\n"));
    for seed in 0..20 {
        let ops = conversation(seed, false);
        assert_eq!(from_text(&to_text(&ops)).unwrap(), ops);
    }
}

#[test]
fn comments_and_faults() {
    assert_eq!(from_text("  # nothing\n\nfresh # all\n").unwrap(), [Op::Fresh]);
    for line in [
        "tock 0",
        "take 0",
        "take 0 100",
        "tick 256",
        "tick 0 y 3",
        "tick 0 x 65536",
        "press",
        "lend area 16777216",
        "write tape",
        "write tape 16777216",
        "write tape 0 100",
        "dump paper",
        "doctor",
        "doctor 256",
        "doctor 0 x 2",
        "raw",
    ] {
        assert_eq!(from_text(&format!("fresh\n{line}")), Err(format!("line 2: not an op: {line}")));
    }
}

#[test]
fn what_is_written() {
    let written = |text: &str| play(&bytes_of(&from_text(text).unwrap()));
    assert_eq!(
        written("fresh\ntake 0 55 00 00\ntick 0\ngive 0 x 5"),
        [0, 0, 0, 0, 0, 0, 0xFF, 0, 1, 0, 0, 0, 0x92, 5, 0]
    );
    // Many ticks: none, a refused one, a request without transfers, a wrong port.
    assert_eq!(written("tick 0 x 0\ntick 0 x 9\ntick 7 x 9"), [0, 0, 0, 1, 0, 7, 1, 0, 1]);
    assert_eq!(written("take 0 55 00 00\ntick 0 x 9"), [0, 0, 0, 1, 0, 0]);
    // Cut and whole again; another buffer changes nothing.
    assert_eq!(written("lend area 5\nfresh\ntick 9\nlend area 16777215\ntick 9\nlend 9 0\nfresh"), [2, 2, 1, 0]);
    // Another op, or a cut one, ends the run.
    assert_eq!(written("fresh\nraw 00\nfresh"), [0]);
    assert_eq!(play(b"FT\0"), [0]);
    assert_eq!(play(b"FW\x04\0\0\0\x02\0F"), [0]);
    assert_eq!(play(b"FR"), [0]);
    // The doctor: as many bytes as it has changes.
    assert_eq!(written("doctor 4\ndoctor 255\nfresh"), [1, 0, 0, 1, 0, 0, 0]);
    assert_eq!(written("doctor 3\ndoctor 3\nfresh").len(), 3 + 5 * 91 + 3 + 1);
    assert_eq!(play(b""), []);
}

#[test]
fn the_dump() {
    let output = play(b"D");
    assert_eq!(output.len(), DUMP);
    assert_eq!(DUMP, 98_382);
    let mut same = Vec::new();
    dump(&Stick::new(), &mut same);
    assert_eq!(output, same);
    let numbers = 2 * AREA + SCREEN + PAPER;
    assert_eq!(output[numbers..numbers + 12], [0, 0, 0, 0, 2, 0, 0, 0, 255, 255, 1, 0]);
    assert_eq!(output[2 * AREA + 959..2 * AREA + 961], [0x20, 0]);
    // A block and a phase, each in its place.
    let text =
        "take 1 11 05 00 00 00 50 33 3A\ntick 1\ngive 1 x 4\ntake 1 10 09 00 02 03 00 00 00 00 F8 00 00\ntick 1\ndump";
    let output = play(&bytes_of(&from_text(text).unwrap()));
    let dump = &output[output.len() - DUMP..];
    let block = numbers + 12 + 32 + 8;
    assert_eq!(dump[block..block + 4], [1, b'P', 3, 0xF8]);
    assert_eq!(dump[DUMP - 2..], [0, 3]);
    assert_eq!(
        describe(&Op::Dump, dump),
        "used 0, mode 0, row 0, column 2, last 0, escape 0, read column 255, key 255, lock 1, inverse 0, \
         port 1 block 2 P3: AUX1 F8, port 0 gathering, port 1 replying"
    );
    assert_eq!(dump_place(block + 3), "port 1, block 2, AUX1");
    assert_eq!(dump_place(numbers + 4), "column");
    assert_eq!(dump_place(DUMP - 1), "phase of port 1");
    assert_eq!(dump_place(AREA), "area of port 1, address 0");
}

/// The script that the gate plays, and what must be written for it.
#[test]
fn the_gates_script() {
    let read = |name: &str| std::fs::read(format!("{}/../crates/play/{name}", env!("CARGO_MANIFEST_DIR"))).unwrap();
    assert!(play(&read("stdin")) == read("stdout"));
}

#[test]
fn conversations_are_the_seeds() {
    assert_eq!(conversation(5, false), conversation(5, false));
    assert_ne!(conversation(5, false), conversation(6, false));
    assert_eq!(images::script(5), images::script(5));
    assert_ne!(images::script(5), images::script(6));
}

/// The doctor's changes in words, of two lists those that differ.
#[test]
fn the_doctor_in_words() {
    let op = Op::Doctor { image: 0 };
    assert_eq!(describe(&op, &[1, 0, 0]), "answer 1, 0 changes");
    assert_eq!(
        describe(&op, &[0, 2, 0, 4, 0, 125, 1, 0, 0x69, 1, 16, 0x42, 0x80]),
        "answer 0, 2 changes; sector 4 place 125: 01 to 00; sector 361 place 16: 42 to 80"
    );
    assert_eq!(describe(&op, &[0, 2, 0, 4, 0]), "the output ends after 00 02 00 04 00");
    assert_eq!(describe(&op, &[0, 2]), "the output ends after 00 02");
    assert!(describe(&op, &play(b"R\0")).ends_with("; and 83 more"));
}

#[test]
fn the_model_is_like_itself() {
    for seed in 0..50 {
        let (difference, figures) = compare(&conversation(seed, false), &mut Itself).unwrap();
        assert_eq!(difference, None);
        assert!(figures.calls > 0);
    }
}

/// The model, but a press is answered 6 after the first tick of port 1.
struct Liar;

impl Real for Liar {
    fn run(&mut self, script: &[u8]) -> Result<Vec<u8>, String> {
        let (mut player, mut output, mut ticked) = (Player::new(), Vec::new(), false);
        for op in ops_of(script) {
            let at = output.len();
            player.play(&op, &mut output);
            ticked |= op == Op::Tick { port: 1 };
            if ticked && matches!(op, Op::Press { .. }) && output[at] == 0 {
                output[at] = 6;
            }
        }
        Ok(output)
    }
}

#[test]
fn a_difference_is_found_and_shortened() {
    let find = |seed: &u64| matches!(compare(&conversation(*seed, false), &mut Liar), Ok((Some(_), _)));
    let seed = (0..1000).find(find).expect("some script ticks and presses");
    let mut budget = Budget { trials: 5_000, end: Instant::now() + Duration::from_secs(60) };
    let short = shorten(&conversation(seed, false), &mut Liar, &mut budget);
    assert!(matches!(short[..], [Op::Tick { port: 1 }, Op::Press { .. }]), "{}", to_text(&short));
    let difference = compare(&short, &mut Liar).unwrap().0.unwrap();
    assert_eq!((difference.place, &difference.model[..]), (1, "0 done"));
    assert_eq!(difference.real, "6 key pressed while a request holds the console");
}

/// The model, cut short.
struct Short;

impl Real for Short {
    fn run(&mut self, script: &[u8]) -> Result<Vec<u8>, String> {
        let mut output = play(script);
        output.pop();
        Ok(output)
    }
}

#[test]
fn an_output_that_ends_early_differs() {
    let ops = from_text("fresh\ngive 0").unwrap();
    let difference = compare(&ops, &mut Short).unwrap().0.unwrap();
    assert_eq!((difference.place, &difference.real[..]), (1, "the output ends after 05"));
}
