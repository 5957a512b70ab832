//! Ask 7 of document 02, warn before the end: its worked example and its table, its readings (each test named after the number),
//! and of each wrong machine the test that it fails.

mod bench;
use bench::tapes::*;
use bench::{examples, Bench, Reply, BUFFER};
use model::random::call;
use model::stick::*;

/// The request's A, where it matters that the reply's is another.
const A: u8 = 0x5A;

/// The tape of the table, open for reading: `AB` and an EOL, then the end.
fn table() -> Bench {
    read_from(&[partial_record(b"AB\x9B"), end_record()])
}

/// A whole tape of partial records of one character, its last record another.
fn run_out(last: [u8; RECORD]) -> Bench {
    let mut bench = read_from(&[partial_record(b"A"); RECORDS]);
    lay(&mut bench, RECORDS - 1, &[last]);
    bench
}

/// A request with n bytes on IOCB 0 of port 0: its reply and what the area holds from the buffer on.
fn asked(bench: &mut Bench, command: u8, n: usize) -> (Reply, Vec<u8>) {
    bench.stick.area[BUFFER..BUFFER + 8].fill(0x77);
    let reply = bench.call(0, 0, command, BUFFER, n, [0, 0, A]);
    (reply, bench.stick.area[BUFFER..BUFFER + 8].to_vec())
}

/// The same with status, count and ticks; the bytes counted are those stored, and A is the request's.
fn expect(bench: &mut Bench, command: u8, n: usize, status: u8, bytes: &[u8], ticks: usize) {
    let (reply, area) = asked(bench, command, n);
    assert_eq!(reply, Reply { status, count: bytes.len(), a: A, ticks }, "command {command:02X}, n {n}");
    let mut expected = bytes.to_vec();
    expected.resize(8, 0x77);
    assert_eq!(area, expected, "command {command:02X}, n {n}");
}

/// A request of length 0: status, A and ticks; nothing is counted, and the area is not looked at.
fn by_a(bench: &mut Bench, command: u8) -> (u8, u8, usize) {
    let before = bench.stick.area.clone();
    let reply = bench.call(0, 0, command, 65_535, 0, [0, 0, A]);
    assert_eq!((reply.count, bench.stick.area == before), (0, true));
    (reply.status, reply.a, reply.ticks)
}

// ---- the worked example and the table ----

#[test]
fn the_example() {
    examples::run(
        "\
F = 00
W 04 00 00 00 06 00 55 55 FA 41 42 9B
W 04 82 00 00 05 00 03 C7 55 55 FE
W 04 07 01 00 01 00 A9
open 0 00 04 00 43 3A
0> 10 09 00 00 07 00 00 02 00 00 00 00 < 90 04 00 01 02 00 00 (3)
0> 10 09 00 00 07 00 00 00 00 00 00 5A < 90 04 00 03 00 00 9B (2)
0> 10 09 00 00 07 00 00 00 00 00 00 5A < 90 04 00 88 00 00 5A (2)
",
    );
}

#[test]
fn the_table() {
    for (command, n, status, bytes, ticks) in [
        (GET_RECORD, 10, 0x03, &b"AB\x9B"[..], 4),
        (GET_RECORD, 3, 0x03, b"AB\x9B", 4),
        (GET_RECORD, 2, 0x89, b"AB", 4),
        (GET_RECORD, 1, 0x89, b"A", 4),
        (GET_CHARACTERS, 3, 0x03, b"AB\x9B", 4),
        (GET_CHARACTERS, 4, 0x88, b"AB\x9B", 5),
    ] {
        expect(&mut table(), command, n, status, bytes, ticks);
    }
    let mut bench = table();
    expect(&mut bench, GET_CHARACTERS, 2, 0x01, b"AB", 3);
    expect(&mut bench, GET_CHARACTERS, 2, 0x88, b"\x9B", 3);
}

#[test]
fn zeros_for_the_end_record() {
    let mut bench = read_from(&[partial_record(b"AB\x9B"), [0; RECORD]]);
    expect(&mut bench, GET_CHARACTERS, 3, 0x01, b"AB\x9B", 4);
    expect(&mut bench, GET_CHARACTERS, 1, 0x8F, b"", 2);
}

#[test]
fn a_record_without_eol_before_the_end() {
    let start = || read_from(&[partial_record(b"AB"), end_record()]);
    for (n, bytes) in [(1, &b"A"[..]), (2, b"AB"), (3, b"AB")] {
        expect(&mut start(), GET_RECORD, n, 0x88, bytes, 4);
    }
    expect(&mut start(), GET_CHARACTERS, 2, 0x03, b"AB", 3);
}

#[test]
fn the_32_000th_character() {
    let start = || {
        let mut bench = read_from(&[record(FULL, [0x41; DATA]); RECORDS]);
        let reply = bench.call(0, 0, GET_CHARACTERS, 0, AREA, [0; 3]);
        assert_eq!(reply, Reply { status: SUCCESS, count: AREA, a: 0, ticks: AREA + 1 });
        bench
    };
    let left = 32_000 - AREA;
    for (n, status, count, ticks) in [
        (left - 1, 0x01, left - 1, left),
        (left, 0x03, left, left + 1),
        (left + 1, 0x88, left, left + 2),
        (AREA, 0x88, left, left + 2),
    ] {
        let mut bench = start();
        let reply = bench.call(0, 0, GET_CHARACTERS, 0, n, [0; 3]);
        assert_eq!(reply, Reply { status, count, a: 0, ticks });
        let next = if status == 0x01 { (0x03, 0x41, 2) } else { (0x88, A, 2) };
        assert_eq!(by_a(&mut bench, GET_CHARACTERS), next);
        assert_eq!(by_a(&mut bench, GET_CHARACTERS), (0x88, A, 2));
    }
}

// ---- the readings ----

#[test]
fn reading_7_1_what_the_next_would_be() {
    let (partial, full) = (partial_record(b"XY"), record(FULL, [0x41; DATA]));
    for (next, status, then) in [
        (end_record(), 0x03, 0x88),
        (with(end_record(), 3, 0x41), 0x03, 0x88),
        (with(end_record(), 130, 0xFF), 0x03, 0x88),
        (with(end_record(), 0, 0xAA), 0x03, 0x88),
        (spoilt(end_record(), 131), 0x01, 0x8F),
        (spoilt(end_record(), 9), 0x01, 0x8F),
        (with(end_record(), 2, 0xFF), 0x01, 0x8F),
        (spoilt(partial, 3), 0x01, 0x8F),
        (with(partial, 130, 0), 0x01, 0x8F),
        (with(partial, 130, 128), 0x01, 0x8F),
        (partial, 0x01, 0x01),
        (full, 0x01, 0x01),
    ] {
        for last in [partial_record(b"Z"), partial_record(&[b'Z'; 127]), record(FULL, [b'Z'; DATA])] {
            let mut bench = read_from(&[last, next]);
            let n = characters(&last).unwrap().len();
            if n > 1 {
                assert_eq!(bench.call(0, 0, GET_CHARACTERS, 0, n - 1, [0; 3]).status, SUCCESS);
            }
            assert_eq!(by_a(&mut bench, GET_CHARACTERS), (status, b'Z', 2));
            assert_eq!(by_a(&mut bench, GET_CHARACTERS).0, then);
        }
    }
    // Past record 249: the last record partial or full.
    for (last, n) in
        [(partial_record(b"Z"), 250), (partial_record(&[b'Z'; 127]), 376), (record(FULL, [b'Z'; DATA]), 377)]
    {
        let mut bench = run_out(last);
        assert_eq!(bench.call(0, 0, GET_CHARACTERS, 0, n - 1, [0; 3]).status, SUCCESS);
        assert_eq!(by_a(&mut bench, GET_CHARACTERS), (0x03, b'Z', 2));
        assert_eq!((by_a(&mut bench, GET_CHARACTERS), numbers(&bench)), ((0x88, A, 2), (1, 250, 0)));
    }
    // Record 249 is the end, or bad, as any other.
    for (last, status, then) in [(end_record(), 0x03, 0x88), (spoilt(end_record(), 9), 0x01, 0x8F)] {
        let mut bench = run_out(last);
        assert_eq!(bench.call(0, 0, GET_CHARACTERS, 0, 249, [0; 3]).status, status);
        assert_eq!(by_a(&mut bench, GET_CHARACTERS).0, then);
    }
}

#[test]
fn reading_7_1_the_tape_as_it_lies_after_the_read() {
    // What lies behind becomes another between the ticks of one request.
    for (before, after, status) in [
        (end_record(), end_record(), 0x03),
        (partial_record(b"XY"), end_record(), 0x03),
        ([0; RECORD], end_record(), 0x03),
        (end_record(), partial_record(b"XY"), 0x01),
        (end_record(), [0; RECORD], 0x01),
    ] {
        let mut bench = read_from(&[partial_record(b"ABC"), before]);
        bench.send(0, &call(0, GET_CHARACTERS, BUFFER, 3, [0; 3]));
        for _ in 0..3 {
            assert_eq!(bench.stick.tick(0), DONE);
        }
        lay(&mut bench, 1, &[after]);
        assert_eq!((bench.finish(0), bench.reply(0)), (1, vec![0x90, 4, 0, status, 3, 0, 0]));
    }
    // The record itself becomes shorter: its last character is another; behind one whose count has fallen the next is read.
    for (record, next, status, byte) in [
        (&b"abcd"[..], end_record(), 0x01, b'c'),
        (b"abc", end_record(), 0x03, b'c'),
        (b"abc", partial_record(b"XY"), 0x01, b'c'),
        (b"ab", end_record(), 0x88, A),
        (b"ab", partial_record(b"X"), 0x03, b'X'),
        (b"ab", partial_record(b"XY"), 0x01, b'X'),
    ] {
        let mut bench = read_from(&[partial_record(b"ABCDE")]);
        assert_eq!(got(&mut bench, 2), (SUCCESS, b"AB".to_vec()));
        lay(&mut bench, 0, &[partial_record(record), next, end_record()]);
        assert_eq!(by_a(&mut bench, GET_CHARACTERS), (status, byte, 2));
    }
}

#[test]
fn reading_7_2_other_devices_never_give_it() {
    // K, though its next would give $88.
    let mut bench = Bench::with(b"K:", R, 0);
    for (n, status, count) in [(1, 0x01, 1), (2, 0x88, 1)] {
        assert_eq!(bench.stick.press(0x3F), DONE);
        let reply = bench.call(0, 0, GET_CHARACTERS, BUFFER, n, [0; 3]);
        assert_eq!((reply.status, reply.count), (status, count));
    }
    assert_eq!(bench.stick.press(0x0C), DONE);
    expect(&mut bench, GET_RECORD, 3, 0x01, b"\x9B", 2);
    assert_eq!(bench.stick.press(0x3F), DONE);
    assert_eq!(by_a(&mut bench, GET_CHARACTERS), (0x01, b'A', 2));
    assert_eq!(by_a(&mut bench, GET_CHARACTERS), (0x88, A, 2));
    // S in its last cell, E in its last row.
    let mut bench = Bench::with(b"S:", R | W, 3);
    assert_eq!(bench.call(0, 0, GET_CHARACTERS, 0, 959, [0; 3]).status, 0x01);
    assert_eq!(by_a(&mut bench, GET_CHARACTERS), (0x01, 0, 2));
    assert_eq!(by_a(&mut bench, GET_CHARACTERS), (CURSOR_RANGE, A, 2));
    let mut bench = Bench::with(b"E:", 0x0D, 0);
    assert_eq!(bench.call(0, 0, GET_CHARACTERS, 0, 60, [0; 3]).status, 0x01);
}

#[test]
fn reading_7_2_a_put_has_no_such_case() {
    // The last that fits on paper and tape.
    let mut bench = Bench::with(b"P:", W, 0);
    assert_eq!(bench.call(0, 0, PUT_CHARACTERS, 0, PAPER, [0; 3]).status, 0x01);
    assert_eq!(by_a(&mut bench, PUT_CHARACTERS), (0x90, A, 2));
    let mut bench = tape(W);
    for n in [AREA, DATA * (RECORDS - 1) - AREA] {
        assert_eq!(bench.call(0, 0, PUT_CHARACTERS, 0, n, [0; 3]).status, 0x01);
    }
    assert_eq!(by_a(&mut bench, PUT_CHARACTERS), (0x90, A, 2));
    // Nor have the commands without transfers, where the tape is read to its end.
    let mut bench = table();
    expect(&mut bench, GET_RECORD, 3, 0x03, b"AB\x9B", 4);
    for (command, status) in [(GET_STATUS, 0x01), (0x0E, 0x84), (CLOSE, 0x01)] {
        assert_eq!(bench.call(0, 0, command, 0, 0, [0; 3]).status, status);
    }
}

#[test]
fn reading_7_3_the_last_characters_status() {
    // By its own rule: n characters, of one record or several.
    let start = || read_from(&[partial_record(b"AB"), partial_record(b"C"), partial_record(b"DE"), end_record()]);
    for (n, status, bytes, ticks) in [
        (2, 0x01, &b"AB"[..], 3),
        (3, 0x01, b"ABC", 4),
        (4, 0x01, b"ABCD", 5),
        (5, 0x03, b"ABCDE", 6),
        // A refusal gives its own.
        (6, 0x88, b"ABCDE", 7),
        (7, 0x88, b"ABCDE", 7),
    ] {
        expect(&mut start(), GET_CHARACTERS, n, status, bytes, ticks);
    }
    // Behind $03 the end may become bad: the refusal is that of the read which meets it.
    let mut bench = start();
    expect(&mut bench, GET_CHARACTERS, 5, 0x03, b"ABCDE", 6);
    lay(&mut bench, 3, &[spoilt(end_record(), 7)]);
    expect(&mut bench, GET_CHARACTERS, 1, 0x8F, b"", 2);
}

#[test]
fn reading_7_4_records() {
    // The EOL stored, with $03 and without.
    let mut bench = read_from(&[partial_record(b"AB\x9BC\x9B"), end_record()]);
    expect(&mut bench, GET_RECORD, 8, 0x01, b"AB\x9B", 4);
    expect(&mut bench, GET_RECORD, 2, 0x03, b"C\x9B", 3);
    expect(&mut bench, GET_RECORD, 2, 0x88, b"", 2);
    // Dropped through an EOL with $03, from near and from far.
    let text = [&[b'A'; 120][..], &[EOL]].concat();
    for n in [1, 119, 120] {
        let mut bench = read_from(&[partial_record(&text), end_record()]);
        let reply = bench.call(0, 0, GET_RECORD, 0, n, [0, 0, A]);
        assert_eq!(reply, Reply { status: 0x89, count: n, a: A, ticks: 122 });
        assert_eq!(by_a(&mut bench, GET_RECORD), (0x88, A, 2));
    }
    // Dropped with $03, and no EOL: the read after it meets $88.
    for n in [1, 2, 3] {
        expect(&mut read_from(&[partial_record(b"ABC"), end_record()]), GET_RECORD, n, 0x88, &b"ABC"[..n], 5);
    }
    // Where the tape runs out.
    for (last, n, status) in [(b"B\x9B", 251, 0x03), (b"B\x9B", 250, 0x89), (b"\x9BB", 249, 0x89), (b"BB", 250, 0x88)] {
        let reply = run_out(partial_record(last)).call(0, 0, GET_RECORD, 0, n, [0, 0, A]);
        assert_eq!((reply.status, reply.count, reply.a), (status, n, A));
    }
}

#[test]
fn reading_7_5_length_0() {
    for command in [GET_CHARACTERS, GET_RECORD] {
        let mut bench = table();
        for (status, a) in [(0x01, b'A'), (0x01, b'B'), (0x03, EOL), (0x88, A), (0x88, A)] {
            assert_eq!(by_a(&mut bench, command), (status, a, 2));
        }
        // No EOL is needed: there is no record rule.
        let mut bench = read_from(&[partial_record(b"A"), end_record()]);
        assert_eq!(by_a(&mut bench, command), (0x03, b'A', 2));
    }
}

#[test]
fn reading_7_6_nothing_of_the_state_says_it() {
    // After the same read, with $03 and with $01, the sticks are the same but for the tape's bytes.
    let read = |next: [u8; RECORD], status: u8| {
        let mut bench = read_from(&[partial_record(b"AB\x9B"), next]);
        expect(&mut bench, GET_CHARACTERS, 3, status, b"AB\x9B", 4);
        assert_eq!(numbers(&bench), (1, 1, 0));
        bench.stick
    };
    let (warned, mut other) = (read(end_record(), 0x03), read(partial_record(b"XY"), 0x01));
    other.tape.clone_from(&warned.tape);
    assert_eq!(warned, other);
    // A tape that goes on after all is read on, and warns again.
    let mut bench = Bench { stick: warned };
    lay(&mut bench, 1, &[partial_record(b"XY"), end_record()]);
    expect(&mut bench, GET_CHARACTERS, 1, 0x01, b"X", 2);
    expect(&mut bench, GET_CHARACTERS, 1, 0x03, b"Y", 2);
}

// ---- wrong machines: of each the test that it fails ----

#[test]
fn wrong_03_with_every_records_last_character() {
    let mut bench = read_from(&[partial_record(b"A"), record(FULL, [b'B'; DATA]), partial_record(b"C"), end_record()]);
    assert_eq!(by_a(&mut bench, GET_CHARACTERS), (0x01, b'A', 2));
    assert_eq!(bench.call(0, 0, GET_CHARACTERS, 0, DATA, [0; 3]).status, 0x01);
    assert_eq!(by_a(&mut bench, GET_CHARACTERS), (0x03, b'C', 2));
}

#[test]
fn wrong_03_as_a_refusal_not_stored() {
    for command in [GET_CHARACTERS, GET_RECORD] {
        assert_eq!(asked(&mut table(), command, 3).1[..4], *b"AB\x9B\x77");
    }
}

#[test]
fn wrong_03_as_a_refusal_not_counted() {
    for command in [GET_CHARACTERS, GET_RECORD] {
        let (reply, _) = asked(&mut table(), command, 3);
        assert_eq!((reply.status, reply.count), (0x03, 3));
    }
    // Nor does it end a request that goes on: the read after it has its own tick.
    for n in [4, 8] {
        let (reply, _) = asked(&mut table(), GET_CHARACTERS, n);
        assert_eq!((reply.status, reply.count, reply.ticks), (0x88, 3, 5));
    }
}

#[test]
fn wrong_03_for_89() {
    for (n, bytes) in [(1, &b"A"[..]), (2, b"AB")] {
        expect(&mut table(), GET_RECORD, n, 0x89, bytes, 4);
    }
}

#[test]
fn wrong_none_where_the_tape_runs_out_without_an_end_record() {
    for last in [b"A", b"\x9B"] {
        for command in [GET_CHARACTERS, GET_RECORD] {
            let mut bench = run_out(partial_record(last));
            assert_eq!(bench.call(0, 0, GET_CHARACTERS, 0, 249, [0; 3]).status, 0x01);
            assert_eq!(by_a(&mut bench, command), (0x03, last[0], 2));
        }
    }
}

#[test]
fn wrong_03_before_a_bad_record() {
    for bad in [[0; RECORD], spoilt(end_record(), 131), spoilt(partial_record(b"XY"), 3), with(end_record(), 2, 0)] {
        let mut bench = read_from(&[partial_record(b"AB\x9B"), bad]);
        expect(&mut bench, GET_CHARACTERS, 3, 0x01, b"AB\x9B", 4);
        expect(&mut bench, GET_CHARACTERS, 1, 0x8F, b"", 2);
    }
}

#[test]
fn wrong_a_the_requests_on_03() {
    for command in [GET_CHARACTERS, GET_RECORD] {
        let mut bench = table();
        assert_eq!(got(&mut bench, 2).0, 0x01);
        assert_eq!(by_a(&mut bench, command), (0x03, EOL, 2));
    }
}
