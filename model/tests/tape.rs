//! Ask 1 of document 02, the cassette handler: its worked examples, its readings (each test named after the number), and of each
//! wrong machine the test that it fails.

mod bench;
use bench::tapes::*;
use bench::{examples, Bench, Reply, BUFFER};
use model::random::{call, conversation, Random};
use model::script::{dump_tape, play, Op, Player, TAPE_DUMP};
use model::stick::*;

/// The first SPECIAL command.
const SPECIAL: u8 = 0x0E;

/// Puts so many characters on IOCB 0 of port 0, whatever they are.
fn put_many(bench: &mut Bench, mut n: usize) {
    while n > 0 {
        let part = n.min(AREA);
        let reply = bench.call(0, 0, PUT_CHARACTERS, 0, part, [0; 3]);
        assert_eq!((reply.status, reply.count, reply.ticks), (SUCCESS, part, part + 1));
        n -= part;
    }
}

// ---- the worked examples ----

#[test]
fn the_examples() {
    examples::run(
        "\
F = 00
0> 11 04 00 00 00 43 3A < 91 01 00 01
0> 10 09 00 00 03 00 00 00 00 08 00 00 < 90 04 00 01 00 00 00
0> 11 04 00 10 00 41 42 < 91 01 00 01
0> 10 09 00 00 09 10 00 02 00 00 00 00 < 90 04 00 01 02 00 00 (4)
C = 00x33000 02 00 00 03 41 42 9B 00x125
0> 10 09 00 00 0C 00 00 00 00 00 00 00 < 90 04 00 01 00 00 00
C = 55 55 FA 41 42 9B 00x124 03 C7 55 55 FE 00x128 A9 00x32736 00x132
open 1 02 04 00 43 3A
1> 10 09 00 02 07 10 00 02 00 00 00 00 < 90 04 00 01 02 00 00 (3)
C[33000..33004] = 01 00 00 02
0> 10 09 00 00 03 00 00 00 00 0C 00 00 < 90 04 00 84 00 00 00
0> 10 09 00 00 03 00 00 00 00 04 00 00 < 90 04 00 81 00 00 00
0> 10 09 00 00 0D 00 00 00 00 08 00 00 < 90 04 00 81 00 00 00
1> 10 09 00 02 0C 00 00 00 00 00 00 00 < 90 04 00 01 00 00 00
0> 10 09 00 00 0E 00 00 00 00 08 00 00 < 90 04 00 84 00 00 00
C[0..132] = 55 55 FE 00x128 A9

F = 00   a tape of zeros: checksum right, control byte not
open 0 00 04 00 43 3A
0> 10 09 00 00 07 00 00 01 00 00 00 00 < 90 04 00 8F 00 00 00 (2)
0> 10 09 00 00 07 00 00 01 00 00 00 00 < 90 04 00 8F 00 00 00 (2)

F = 00   full: 16,384 characters, then 15,488 and one refused
open 0 00 08 00 43 3A
0> 10 09 00 00 0B 00 00 00 40 00 00 00 < 90 04 00 01 00 40 00 (16385)
0> 10 09 00 00 0B 00 00 81 3C 00 00 00 < 90 04 00 90 80 3C 00 (15490)
C[33000..33004] = 02 F9 00 00
0> 10 09 00 00 0C 00 00 00 00 00 00 00 < 90 04 00 01 00 00 00
C[32868..33000] = 55 55 FE 00x128 A9
",
    );
}

/// A tape laid by `W`, read to its end; the other port waits meanwhile, and then finds the tape open.
#[test]
fn a_laid_tape_and_a_port_that_waits() {
    examples::run(
        "\
F = 00
W 04 00 00 00 06 00 55 55 FA 41 42 9B
W 04 82 00 00 05 00 03 C7 55 55 FE
W 04 07 01 00 01 00 A9
open 0 00 04 00 43 3A
0> 10 09 00 00 07 10 00 02 00 00 00 00 < 90 04 00 01 02 00 00 (3)
0> 12 04 00 10 00 02 00 < 92 03 00 01 41 42
0> 10 09 00 00 07 00 00 00 00 00 00 5A < 90 04 00 03 00 00 9B (2)
C[33000..33004] = 01 01 00 00
0> 10 09 00 00 07 00 00 00 00 00 00 5A < 90 04 00 88 00 00 5A (2)
C[33000..33004] = 01 01 00 00
D[98316..98320] = 01 43 01 04
1> 11 05 00 00 00 43 38 3A < 91 01 00 01
0> 10 09 00 00 07 00 00 02 00 00 00 00
K 00 = 00
1> 10 09 00 00 03 00 00 00 00 04 00 00 ! 8
P 3F = 00
K 00 = 00
0< 90 04 00 88 00 00 00
K 01 = 00
1< 90 04 00 81 00 00 00
",
    );
}

// ---- the readings ----

#[test]
fn reading_0_2_the_lent_tape_is_judged_in_every_call() {
    for length in [0, 1, TAPE - RECORD, TAPE - 1] {
        let mut bench = tape(W);
        bench.send(1, &[0x11, 3]);
        bench.stick.lent[4] = length;
        let before = bench.stick.clone();
        assert_eq!(bench.stick.fresh(), LENT_LENGTH);
        assert_eq!(bench.stick.take(1, 0), LENT_LENGTH);
        assert_eq!(bench.stick.tick(0), LENT_LENGTH);
        assert_eq!(bench.stick.give(0), (LENT_LENGTH, 0));
        assert_eq!(bench.stick.press(0x3F), LENT_LENGTH);
        assert_eq!(bench.stick.take(2, 0), LENT_LENGTH);
        assert_eq!(bench.stick, before);
    }
    // `L` w 4 cuts it, and lends it whole again.
    assert_eq!(play(b"FL\x04\xE7\x80\x00FP\x3FL\x04\xE8\x80\x00F"), [0, 2, 2, 0]);
    assert_eq!(play(b"L\x04\x00\x00\x00FL\x04\xFF\xFF\xFFF"), [2, 0]);
}

#[test]
fn reading_0_4_bytes_are_read_as_they_lie() {
    // Another character, then another record altogether, under a block that reads.
    let mut bench = read_from(&[partial_record(b"ABC"), end_record()]);
    assert_eq!(got(&mut bench, 1), (SUCCESS, b"A".to_vec()));
    lay(&mut bench, 0, &[partial_record(b"abcd")]);
    assert_eq!(got(&mut bench, 2), (SUCCESS, b"bc".to_vec()));
    lay(&mut bench, 0, &[record(FULL, [b'x'; DATA])]);
    assert_eq!(got(&mut bench, 2), (SUCCESS, b"xx".to_vec()));
    assert_eq!(numbers(&bench), (1, 0, 5));
}

#[test]
fn reading_0_6_0_7_tape_is_a_group_of_its_own() {
    // What needs the tape waits while the other port holds it ..
    for (aux1, command, waits) in [
        (R, OPEN, true),
        (BOTH, OPEN, true),
        (W, GET_STATUS, true),
        (W, SPECIAL, true),
        (R, CLOSE, false),
        (R, 0x0A, false),
        (R, GET_CHARACTERS, false),
    ] {
        let mut bench = tape(W);
        assert_eq!(bench.load(1, 0, b"C5:"), SUCCESS);
        bench.start_long(0);
        bench.send(1, &call(3, command, 0, 1, [aux1, 0, 0]));
        assert_eq!(bench.stick.tick(1), if waits { GROUP_HELD } else { DONE }, "command {command:02X}");
        if waits {
            bench.finish(0);
            assert_eq!(bench.stick.tick(1), DONE);
        }
    }
    // .. and what is refused before the group does not. (A block that is open on C never waits: no other is.)
    for (specification, status) in [(&b"C9:"[..], NO_DEVICE), (b"R:", NO_DEVICE), (b"C", NO_DEVICE)] {
        let mut bench = tape(W);
        bench.start_long(0);
        assert_eq!(bench.open(1, 3, specification, R, 0), status);
    }
}

#[test]
fn reading_1_1_records_and_their_places() {
    assert_eq!((RECORDS, RECORD * RECORDS, DATA * (RECORDS - 1)), (250, TAPE, 31_872));
    let mut bench = tape(W);
    let data: Vec<u8> = (0..300).map(|place| (place % 251) as u8).collect();
    assert_eq!(bench.put(PUT_CHARACTERS, &data).status, SUCCESS);
    close(&mut bench);
    for (place, control) in [(0, FULL), (1, FULL), (2, PARTIAL), (3, END)] {
        let bytes = on_tape(&bench, place);
        assert_eq!(bytes[..3], [0x55, 0x55, control]);
        assert_eq!(bytes[131], checksum(&bytes[..131]));
    }
    assert_eq!(on_tape(&bench, 0)[3..131], data[..128]);
    assert_eq!(on_tape(&bench, 1)[3..131], data[128..256]);
    assert_eq!(on_tape(&bench, 2)[3..47], data[256..300]);
    assert_eq!(on_tape(&bench, 2)[47..130], [0; 83]);
    assert_eq!(on_tape(&bench, 2)[130], 44);
    assert_eq!(bench.stick.tape[4 * RECORD..], [0; TAPE - 4 * RECORD]);
}

#[test]
fn reading_1_2_the_checksum() {
    assert_eq!(record(FULL, [0xFF; DATA])[131], 0xA7);
    assert_eq!(partial_record(b"AB\x9B")[131], 0xC7);
    assert_eq!(end_record()[131], 0xA9);
    assert_eq!((checksum(&[]), checksum(&[0, 0]), checksum(&[255, 0]), checksum(&[1, 254])), (0, 0, 255, 255));
    assert_eq!((checksum(&[1, 255]), checksum(&[255, 255]), checksum(&[128, 128])), (1, 255, 1));
    // Where the sum passes 255, 255 is subtracted: the sum modulo 255, but 255 for 0 unless each byte is 0.
    let mut random = Random::new(1);
    for _ in 0..1_000 {
        let bytes: Vec<u8> = (0..131).map(|_| random.byte()).collect();
        let sum: usize = bytes.iter().map(|byte| usize::from(*byte)).sum();
        assert_eq!(usize::from(checksum(&bytes)), if sum == 0 { 0 } else { (sum - 1) % 255 + 1 });
    }
}

#[test]
fn reading_1_3_specification_and_aux1() {
    for number in 1..=8 {
        let specification = [b'C', b'0' + number, b':'];
        let bench = Bench::with(&specification, R, 0xFF);
        assert_eq!(bench.stick.ports[0].blocks[0], Some(File { device: Device::C, number, aux1: R }));
    }
    for specification in [&b"C0:"[..], b"C9:", b"C12:", b"c:", b"CX:"] {
        assert_eq!(Bench::new().open(0, 0, specification, R, 0), NO_DEVICE);
    }
    // One tape: what C3 writes, C7 reads.
    let mut bench = Bench::with(b"C3:", W, 0);
    bench.put(PUT_CHARACTERS, b"AB");
    close(&mut bench);
    assert_eq!(bench.open(0, 0, b"C7:", R, 0), SUCCESS);
    assert_eq!(got(&mut bench, 2), (LAST_CHARACTER, b"AB".to_vec()));
    for aux1 in 0..=255 {
        let (status, mark) = match aux1 & BOTH {
            R => (SUCCESS, 1),
            W => (SUCCESS, 2),
            NEITHER => (SUCCESS, 3),
            _ => (BAD_COMMAND, 0),
        };
        let mut bench = Bench::new();
        assert_eq!(bench.open(0, 0, b"C:", aux1, 0xFF), status, "AUX1 {aux1:02X}");
        assert_eq!(numbers(&bench), (mark, 0, 0));
        let reads = if aux1 & R == 0 { NOT_READABLE } else { BAD_RECORD };
        let writes = if aux1 & W == 0 { NOT_WRITABLE } else { SUCCESS };
        if status == SUCCESS {
            assert_eq!(bench.call(0, 0, GET_CHARACTERS, 0, 1, [0; 3]).status, reads);
            assert_eq!(bench.call(0, 0, PUT_CHARACTERS, 0, 1, [0; 3]).status, writes);
        }
    }
}

#[test]
fn reading_1_3_open_with_neither_bit() {
    let mut bench = tape(NEITHER);
    bench.stick.tape.fill(0x77);
    for (command, status) in
        [(GET_RECORD, 0x83), (GET_CHARACTERS, 0x83), (PUT_RECORD, 0x87), (PUT_CHARACTERS, 0x87), (GET_STATUS, 1)]
    {
        let reply = bench.call(0, 0, command, 0, 1, [0; 3]);
        assert_eq!((reply.status, reply.count, reply.ticks), (status, 0, 1));
    }
    // It counts as open.
    assert_eq!(bench.open(1, 0, b"C:", R, 0), ALREADY_OPEN);
    close(&mut bench);
    assert_eq!((numbers(&bench), &bench.stick.tape[..]), ((0, 0, 0), &[0x77; TAPE][..]));
    assert_eq!(bench.open(1, 0, b"C:", R, 0), SUCCESS);
}

#[test]
fn reading_1_4_order_of_an_open() {
    for command in [OPEN, GET_STATUS, SPECIAL] {
        let mut bench = tape(W);
        bench.put(PUT_CHARACTERS, b"A");
        let before = (bench.stick.tape.clone(), bench.stick.cassette.clone());
        assert_eq!(bench.call(0, 8, command, 65_535, 0, [BOTH, 0, 0]).status, BAD_IOCB);
        assert_eq!(bench.call(0, 1, 0x0A, 65_535, 0, [BOTH, 0, 0]).status, BAD_COMMAND);
        assert_eq!(bench.call(0, 1, command, 65_535, 0, [BOTH, 0, 0]).status, PAST_AREA);
        assert_eq!(bench.by_name(0, 1, command, b"C9:", BOTH, 0), NO_DEVICE);
        // With the group held AUX1, then the tape.
        assert_eq!(bench.by_name(0, 1, command, b"C:", BOTH, 0), BAD_COMMAND);
        for (port, aux1) in [(0, R), (0, W), (0, NEITHER), (1, R), (1, W), (1, NEITHER)] {
            assert_eq!(bench.by_name(port, 1, command, b"C:", aux1, 0), ALREADY_OPEN);
        }
        // What is refused writes nothing, opens nothing and closes nothing.
        assert_eq!((&before.0, &before.1), (&bench.stick.tape, &bench.stick.cassette));
        assert_eq!(bench.stick.ports[0].blocks[1], None);
        assert_eq!(bench.stick.ports[1].blocks[1], None);
    }
    // $81 of this block comes first, before the specification is looked at, and without the group.
    let mut bench = tape(R);
    assert_eq!(bench.call(0, 0, OPEN, 65_535, 0, [BOTH, 0, 0]).status, ALREADY_OPEN);
    let mut bench = Bench::with(b"P:", W, 0);
    assert_eq!(bench.open(0, 0, b"C:", BOTH, 0), ALREADY_OPEN);
    assert_eq!(bench.open(1, 0, b"C:", W, 0), SUCCESS);
    bench.start_long(1);
    assert_eq!(bench.open(0, 0, b"C:", R, 0), ALREADY_OPEN);
}

#[test]
fn reading_1_4_the_tapes_refusals_wait_for_it() {
    for (aux1, status) in [(R, ALREADY_OPEN), (W, ALREADY_OPEN), (BOTH, BAD_COMMAND)] {
        for command in [OPEN, GET_STATUS, SPECIAL] {
            let mut bench = tape(W);
            assert_eq!(bench.load(1, 0, b"C:"), SUCCESS);
            bench.start_long(0);
            bench.send(1, &call(1, command, 0, 0, [aux1, 0, 0]));
            assert_eq!(bench.stick.tick(1), GROUP_HELD);
            bench.finish(0);
            assert_eq!(bench.stick.tick(1), DONE);
            assert_eq!(bench.reply(1), [0x90, 4, 0, status, 0, 0, 0]);
        }
    }
}

#[test]
fn reading_1_5_opening_starts_at_the_beginning() {
    let mut bench = read_from(&[partial_record(b"AB"), partial_record(b"CD"), end_record()]);
    for _ in 0..2 {
        assert_eq!(got(&mut bench, 3), (SUCCESS, b"ABC".to_vec()));
        assert_eq!(numbers(&bench), (1, 1, 1));
        close(&mut bench);
        assert_eq!(numbers(&bench), (0, 0, 0));
        assert_eq!(bench.open(0, 0, b"C:", R, 0), SUCCESS);
        assert_eq!(numbers(&bench), (1, 0, 0));
    }
    close(&mut bench);
    let before = bench.stick.tape.clone();
    for aux1 in [R, W, NEITHER] {
        let mut bench = Bench { stick: bench.stick.clone() };
        assert_eq!(bench.open(0, 0, b"C:", aux1, 0), SUCCESS);
        assert_eq!(bench.stick.tape, before);
    }
}

#[test]
fn reading_1_6_the_128th_character_writes_the_record() {
    let mut bench = tape(W);
    assert_eq!(bench.put(PUT_CHARACTERS, &[0xFF; 127]).status, SUCCESS);
    assert_eq!((numbers(&bench), &bench.stick.cassette.pending[..]), ((2, 0, 127), &[0xFF; 127][..]));
    assert_eq!(bench.stick.tape, [0; TAPE]);
    // In the tick of the character itself.
    bench.send(0, &call(0, PUT_CHARACTERS, 0, 0, [0, 0, 0xFF]));
    assert_eq!(bench.stick.tick(0), DONE);
    assert_eq!((on_tape(&bench, 0)[0], numbers(&bench)), (0, (2, 0, 127)));
    assert_eq!(bench.stick.tick(0), DONE);
    assert_eq!((on_tape(&bench, 0), numbers(&bench)), (&record(FULL, [0xFF; DATA])[..], (2, 1, 0)));
    assert_eq!(bench.reply(0), [0x90, 4, 0, 1, 0, 0, 0xFF]);
    // So is an added EOL, and the rest of a longer transfer goes on in the next record.
    assert_eq!(bench.put(PUT_RECORD, &[0x41; 127]).ticks, 129);
    assert_eq!((on_tape(&bench, 1)[129..131].to_vec(), numbers(&bench)), (vec![0x41, EOL], (2, 2, 0)));
    assert_eq!(bench.put(PUT_CHARACTERS, &[0x42; 130]).status, SUCCESS);
    assert_eq!((numbers(&bench), &bench.stick.cassette.pending[..]), ((2, 3, 2), &[0x42; 2][..]));
}

#[test]
fn reading_1_7_a_full_tape() {
    let mut bench = tape(W);
    put_many(&mut bench, 31_871);
    assert_eq!(numbers(&bench), (2, 248, 127));
    // The last that fits.
    let reply = bench.call(0, 0, PUT_CHARACTERS, 0, 0, [0, 0, 0x41]);
    assert_eq!((reply.status, reply.count, reply.ticks), (SUCCESS, 0, 2));
    assert_eq!((numbers(&bench), on_tape(&bench, 248)[130], on_tape(&bench, 249)[0]), ((2, 249, 0), 0x41, 0));
    let before = bench.stick.clone();
    for _ in 0..2 {
        for (command, n, ticks) in
            [(PUT_CHARACTERS, 0, 2), (PUT_RECORD, 0, 2), (PUT_CHARACTERS, 5, 2), (PUT_RECORD, 5, 2)]
        {
            let reply = bench.call(0, 0, command, 0, n, [0, 0, 0x77]);
            assert_eq!(reply, Reply { status: DEVICE_FULL, count: 0, a: 0x77, ticks });
            assert_eq!(bench.stick, before);
        }
    }
}

#[test]
fn reading_1_7_an_added_eol_that_does_not_fit() {
    let mut bench = tape(W);
    put_many(&mut bench, 31_870);
    // Two characters fit, their EOL does not: it is not counted either.
    let reply = bench.put(PUT_RECORD, b"AB");
    assert_eq!((reply.status, reply.count, reply.ticks), (DEVICE_FULL, 2, 4));
    assert_eq!(numbers(&bench), (2, 249, 0));
    assert_eq!(on_tape(&bench, 248)[129..131], *b"AB");
    let mut bench = tape(W);
    put_many(&mut bench, 31_870);
    let reply = bench.put(PUT_RECORD, b"A");
    assert_eq!((reply.status, reply.count), (SUCCESS, 1));
    assert_eq!(on_tape(&bench, 248)[129..131], *b"A\x9B");
}

#[test]
fn reading_1_8_close_after_writing() {
    for n in [0, 1, 2, 126, 127, 128, 129, 255, 256] {
        let mut bench = tape(W);
        bench.stick.tape.fill(0x77);
        let characters = vec![0xFF; n];
        if n > 0 {
            assert_eq!(bench.put(PUT_CHARACTERS, &characters).status, SUCCESS);
        }
        close(&mut bench);
        let full = n / DATA;
        let mut expected = record(FULL, [0xFF; DATA]).repeat(full);
        if n % DATA > 0 {
            let partial = partial_record(&characters[..n % DATA]);
            assert_eq!((partial[2], usize::from(partial[130])), (0xFA, n % DATA));
            assert!(partial[3 + n % DATA..130].iter().all(|&byte| byte == 0));
            expected.extend(partial);
        }
        expected.extend([&[0x55, 0x55, 0xFE][..], &[0; 128], &[0xA9]].concat());
        // Bytes behind the end record stay.
        let written = expected.len();
        expected.resize(TAPE, 0x77);
        assert!(bench.stick.tape == expected, "{n} characters");
        assert_eq!(written, RECORD * (full + usize::from(n % DATA > 0) + 1));
        assert_eq!((numbers(&bench), bench.stick.ports[0].blocks[0]), ((0, 0, 0), None));
        assert!(bench.stick.cassette.pending.is_empty());
    }
    // After reading nothing is written.
    let mut bench = read_from(&[partial_record(b"AB")]);
    got(&mut bench, 1);
    let before = bench.stick.tape.clone();
    close(&mut bench);
    assert_eq!((bench.stick.tape == before, numbers(&bench)), (true, (0, 0, 0)));
}

#[test]
fn reading_1_9_it_always_fits() {
    for (n, partial) in [(31_872, None), (31_871, Some(127)), (31_745, Some(1)), (31_744, None)] {
        let mut bench = tape(W);
        bench.stick.tape.fill(0x77);
        put_many(&mut bench, n);
        close(&mut bench);
        let end = n.div_ceil(DATA);
        assert_eq!(on_tape(&bench, end), end_record());
        if let Some(count) = partial {
            assert_eq!((on_tape(&bench, 248)[2], on_tape(&bench, 248)[130]), (PARTIAL, count));
        }
        assert_eq!(on_tape(&bench, 249)[0], if end == 249 { 0x55 } else { 0x77 });
        // All that was put is read again, and then the end.
        assert_eq!(bench.open(0, 0, b"C:", R, 0), SUCCESS);
        let first = bench.call(0, 0, GET_CHARACTERS, 0, AREA, [0; 3]);
        let second = bench.call(0, 0, GET_CHARACTERS, 0, AREA, [0; 3]);
        assert_eq!((first.status, second.status, first.count + second.count), (SUCCESS, END_OF_FILE, n));
        assert_eq!(numbers(&bench), (1, end, 0));
    }
}

#[test]
fn reading_1_10_an_implied_close_writes() {
    for (command, status) in [(GET_STATUS, SUCCESS), (SPECIAL, BAD_COMMAND), (0xFF, BAD_COMMAND)] {
        for (aux1, writes) in [(W, true), (W | 0xF3, true), (R, false), (NEITHER, false)] {
            let mut bench = laid(&[record(FULL, [0x41; DATA]); 2]);
            assert_eq!(bench.by_name(0, 3, command, b"C:", aux1, 0), status);
            let first = if writes { end_record() } else { record(FULL, [0x41; DATA]) };
            assert_eq!((on_tape(&bench, 0), on_tape(&bench, 1)[3]), (&first[..], 0x41));
            assert_eq!((numbers(&bench), bench.stick.ports[0].blocks[3]), ((0, 0, 0), None));
        }
        let mut bench = laid(&[record(FULL, [0x41; DATA])]);
        assert_eq!(bench.by_name(0, 3, command, b"C:", BOTH, 0), BAD_COMMAND);
        assert_eq!((on_tape(&bench, 0)[2], numbers(&bench)), (FULL, (0, 0, 0)));
    }
}

#[test]
fn reading_1_11_bad_records_each_time() {
    let (full, partial, end) = (record(FULL, [0x41; DATA]), partial_record(b"AB"), end_record());
    let mut bad = Vec::new();
    for place in 0..RECORD {
        bad.extend([spoilt(full, place), spoilt(partial, place), spoilt(end, place)]);
    }
    bad.extend(
        (0..=255).filter(|control| ![FULL, PARTIAL, END].contains(control)).map(|control| with(full, 2, control)),
    );
    bad.extend([0].into_iter().chain(128..=255).map(|count| with(partial, 130, count)));
    // Sums that are the same modulo 255 are not the same: 255 is no 0.
    let sum_255 = with(full, 3, 0x41 + (255 - full[CHECKSUM_AT]));
    assert_eq!(sum_255[CHECKSUM_AT], 255);
    bad.push([&sum_255[..CHECKSUM_AT], &[0]].concat().try_into().unwrap());
    for record in bad {
        let mut bench = read_from(&[record, partial_record(b"XY")]);
        for _ in 0..2 {
            for (command, n) in [(GET_CHARACTERS, 2), (GET_RECORD, 2), (GET_CHARACTERS, 0)] {
                let reply = bench.call(0, 0, command, BUFFER, n, [0, 0, 0x77]);
                assert_eq!(reply, Reply { status: BAD_RECORD, count: 0, a: 0x77, ticks: 2 });
                assert_eq!(numbers(&bench), (1, 0, 0));
            }
        }
    }
}

#[test]
fn reading_1_11_what_only_the_checksum_covers() {
    for place in [0, 1] {
        let mut bench = read_from(&[with(partial_record(b"AB"), place, 0x00), with(end_record(), place, 0xAA)]);
        assert_eq!(got(&mut bench, 3), (END_OF_FILE, b"AB".to_vec()));
    }
    for place in [3, 64, 130] {
        let mut bench = read_from(&[with(end_record(), place, 0x41)]);
        assert_eq!(got(&mut bench, 1), (END_OF_FILE, vec![]));
    }
    // A partial record's bytes behind its characters.
    let mut bench = read_from(&[with(partial_record(b"AB"), 5, 0x41), end_record()]);
    assert_eq!(got(&mut bench, 3), (END_OF_FILE, b"AB".to_vec()));
}

#[test]
fn reading_1_11_a_bad_record_behind_good_ones() {
    let mut bench = read_from(&[partial_record(b"AB"), spoilt(partial_record(b"CD"), 3)]);
    for (count, bytes) in [(2, &b"AB"[..]), (0, b""), (0, b"")] {
        let (reply, got) = bench.get(GET_CHARACTERS, 5);
        assert_eq!((reply.status, reply.count, reply.ticks, &got[..]), (BAD_RECORD, count, count + 2, bytes));
        assert_eq!(numbers(&bench), (1, 1, 0));
    }
    // Mended, it goes on there.
    lay(&mut bench, 1, &[partial_record(b"CD")]);
    assert_eq!(got(&mut bench, 2), (SUCCESS, b"CD".to_vec()));
    // A record spoilt in its middle keeps its place.
    let mut bench = read_from(&[partial_record(b"ABC")]);
    assert_eq!(got(&mut bench, 1), (SUCCESS, b"A".to_vec()));
    lay(&mut bench, 0, &[spoilt(partial_record(b"ABC"), 90)]);
    assert_eq!((got(&mut bench, 1), numbers(&bench)), ((BAD_RECORD, vec![]), (1, 0, 1)));
    lay(&mut bench, 0, &[partial_record(b"ABC")]);
    assert_eq!((got(&mut bench, 1), numbers(&bench)), ((SUCCESS, b"B".to_vec()), (1, 0, 2)));
}

#[test]
fn reading_1_12_the_end() {
    let mut bench = read_from(&[partial_record(b"AB"), end_record(), partial_record(b"CD")]);
    for (count, bytes) in [(2, &b"AB"[..]), (0, b""), (0, b"")] {
        let (reply, got) = bench.get(GET_CHARACTERS, 5);
        assert_eq!((reply.status, reply.count, reply.ticks, &got[..]), (END_OF_FILE, count, count + 2, bytes));
        assert_eq!(numbers(&bench), (1, 1, 0));
    }
    // A tape that runs out, its last record partial or full.
    for (last, count) in [(partial_record(b"Z"), 250), (record(FULL, [b'Z'; DATA]), 377)] {
        let mut bench = read_from(&[partial_record(b"A"); RECORDS]);
        lay(&mut bench, 249, &[last]);
        let (reply, bytes) = bench.get(GET_CHARACTERS, 1_000);
        assert_eq!((reply.status, reply.count, bytes[count - 1]), (END_OF_FILE, count, b'Z'));
        assert_eq!(numbers(&bench), (1, 250, 0));
        assert_eq!((got(&mut bench, 1), numbers(&bench)), ((END_OF_FILE, vec![]), (1, 250, 0)));
    }
}

#[test]
fn reading_1_12_the_next_record_whatever_it_is() {
    let mut bench =
        read_from(&[partial_record(b"A"), record(FULL, [b'B'; DATA]), partial_record(&[b'C'; 127]), end_record()]);
    for (n, numbers_then) in [(1, (1, 1, 0)), (127, (1, 1, 127)), (1, (1, 2, 0)), (126, (1, 2, 126))] {
        assert_eq!(got(&mut bench, n).0, SUCCESS);
        assert_eq!(numbers(&bench), numbers_then);
    }
    assert_eq!((got(&mut bench, 1).0, numbers(&bench)), (LAST_CHARACTER, (1, 3, 0)));
    assert_eq!(got(&mut bench, 1).0, END_OF_FILE);
}

#[test]
fn reading_1_12_a_count_that_has_fallen() {
    let start = || {
        let mut bench = read_from(&[partial_record(b"ABCDE"), partial_record(b"XY"), end_record()]);
        assert_eq!(got(&mut bench, 3), (SUCCESS, b"ABC".to_vec()));
        bench
    };
    for (count, byte, numbers_then) in
        [(5, b'd', (1, 0, 4)), (4, b'd', (1, 1, 0)), (3, b'X', (1, 1, 1)), (1, b'X', (1, 1, 1))]
    {
        let mut bench = start();
        lay(&mut bench, 0, &[partial_record(&b"abcde"[..count])]);
        assert_eq!((got(&mut bench, 1), numbers(&bench)), ((SUCCESS, vec![byte]), numbers_then));
    }
    // A refusal of the next record moves nothing.
    for (next, status) in [(end_record(), END_OF_FILE), (spoilt(end_record(), 9), BAD_RECORD)] {
        let mut bench = start();
        lay(&mut bench, 0, &[partial_record(b"abc"), next]);
        assert_eq!((got(&mut bench, 1), numbers(&bench)), ((status, vec![]), (1, 0, 3)));
    }
    // An end record in the middle is the end; behind the last record nothing is.
    let mut bench = start();
    lay(&mut bench, 0, &[end_record()]);
    assert_eq!((got(&mut bench, 1), numbers(&bench)), ((END_OF_FILE, vec![]), (1, 0, 3)));
    let mut bench = read_from(&[partial_record(b"A"); RECORDS]);
    lay(&mut bench, 249, &[partial_record(b"ZZ")]);
    assert_eq!(got(&mut bench, 250).0, SUCCESS);
    lay(&mut bench, 249, &[partial_record(b"Z")]);
    assert_eq!((got(&mut bench, 1), numbers(&bench)), ((END_OF_FILE, vec![]), (1, 249, 1)));
}

#[test]
fn reading_1_13_eol_status_special() {
    // GET RECORD stops at an EOL, as CIO's rule, and the tape goes on behind it.
    let mut bench = read_from(&[partial_record(b"AB\x9BCD"), partial_record(b"E\x9BF"), end_record()]);
    for (n, status, count) in [(10, SUCCESS, 3), (2, RECORD_CUT, 2), (10, END_OF_FILE, 1)] {
        let (reply, _) = bench.get(GET_RECORD, n);
        assert_eq!((reply.status, reply.count), (status, count));
    }
    // PUT: an EOL is a character.
    let mut bench = tape(W);
    bench.put(PUT_CHARACTERS, b"\x9B\x9BA");
    assert_eq!((numbers(&bench), &bench.stick.cassette.pending[..]), ((2, 0, 3), &b"\x9B\x9BA"[..]));
    // GET STATUS and SPECIAL on an open block leave it and the tape as they are.
    for aux1 in [R, W, NEITHER] {
        let mut bench = tape(aux1);
        if aux1 == W {
            bench.put(PUT_CHARACTERS, b"AB");
        }
        let before = bench.stick.clone();
        for (command, status) in
            [(GET_STATUS, SUCCESS), (SPECIAL, BAD_COMMAND), (0x11, BAD_COMMAND), (0xFF, BAD_COMMAND)]
        {
            assert_eq!(bench.call(0, 0, command, 65_535, 9, [BOTH, 0, 0]).status, status);
            assert_eq!(bench.stick, before);
        }
    }
}

#[test]
fn reading_1_14_fresh() {
    for aux1 in [R, W, NEITHER] {
        let mut bench = laid(&[partial_record(b"AB"), end_record()]);
        assert_eq!(bench.open(0, 0, b"C:", aux1, 0), SUCCESS);
        match aux1 {
            R => assert_eq!(got(&mut bench, 1).0, SUCCESS),
            W => {
                bench.put(PUT_CHARACTERS, b"XYZ");
                bench.start_long(0);
                bench.stick.tick(0);
            }
            _ => {}
        }
        let tape = bench.stick.tape.clone();
        assert_eq!(bench.stick.fresh(), DONE);
        let mut fresh = Stick::new();
        fresh.tape = tape;
        assert_eq!(bench.stick, fresh);
        assert_eq!(numbers(&bench), (0, 0, 0));
        assert_eq!(bench.open(1, 0, b"C:", R, 0), SUCCESS);
        assert_eq!(bench.get_on(1, 0, GET_CHARACTERS, 2).1, b"AB");
    }
}

/// The tape's numbers are in their ranges, and its mark is that of the one block on C, if there is one.
fn fits(stick: &Stick) -> bool {
    let Cassette { mark, record, place, ref pending } = stick.cassette;
    let open: Vec<File> =
        stick.ports.iter().flat_map(|port| port.blocks).flatten().filter(|file| file.device == Device::C).collect();
    let of_blocks = match open[..] {
        [] => Mark::Closed,
        [file] if file.aux1 & BOTH == R => Mark::Reading,
        [file] if file.aux1 & BOTH == W => Mark::Writing,
        [file] if file.aux1 & BOTH == NEITHER => Mark::Neither,
        _ => return false,
    };
    mark == of_blocks
        && match mark {
            Mark::Reading => record <= 250 && place <= 127 && pending.is_empty(),
            Mark::Writing => {
                record <= 249 && place == 0 && pending.len() <= 127 && (record < 249 || pending.is_empty())
            }
            Mark::Closed | Mark::Neither => (record, place, pending.len()) == (0, 0, 0),
        }
}

#[test]
fn reading_1_15_1_16_no_call_leads_to_damage() {
    for seed in 1..=300 {
        let mut player = Player::new();
        for op in conversation(seed, false) {
            if !player.play(&op, &mut Vec::new()) {
                break;
            }
            assert!(matches!(op, Op::Dump | Op::DumpTape) || fits(&player.stick), "seed {seed}");
        }
    }
}

#[test]
fn reading_1_17_the_longest_request() {
    for n in [1, 100] {
        let mut bench = read_from(&[record(FULL, [0x41; DATA]); RECORDS]);
        bench.send(0, &call(0, GET_RECORD, 0, n, [0; 3]));
        assert_eq!(bench.stick.tick(0), DONE);
        assert_eq!(bench.finish(0), 32_001);
        assert_eq!(bench.reply(0), [0x90, 4, 0, END_OF_FILE, n as u8, 0, 0]);
        assert_eq!(numbers(&bench), (1, 250, 0));
    }
}

// ---- wrong machines: of each the test that it fails ----

#[test]
fn wrong_a_sum_modulo_256() {
    let mut bench = tape(W);
    bench.put(PUT_CHARACTERS, &[0xFF; DATA]);
    assert_eq!(on_tape(&bench, 0)[131], 0xA7);
    let mut modulo_256 = record(FULL, [0xFF; DATA]);
    modulo_256[131] = 0x26;
    assert_eq!(got(&mut read_from(&[modulo_256]), 1).0, BAD_RECORD);
}

#[test]
fn wrong_characters_on_the_tape_as_they_come() {
    let mut bench = tape(W);
    for n in 1..DATA {
        bench.call(0, 0, PUT_CHARACTERS, 0, 0, [0, 0, 0xFF]);
        assert_eq!((numbers(&bench), bench.stick.tape == [0; TAPE]), ((2, 0, n), true));
    }
    // Nor does a fresh start write them.
    assert_eq!(bench.stick.fresh(), DONE);
    assert_eq!(bench.stick.tape, [0; TAPE]);
}

#[test]
fn wrong_no_end_record_where_nothing_is_pending() {
    let mut bench = tape(W);
    close(&mut bench);
    assert_eq!(on_tape(&bench, 0), end_record());
    let mut bench = tape(W);
    bench.put(PUT_CHARACTERS, &[0x41; DATA]);
    close(&mut bench);
    assert_eq!(on_tape(&bench, 1), end_record());
    let mut bench = laid(&[partial_record(b"AB")]);
    assert_eq!(bench.by_name(0, 0, GET_STATUS, b"C:", W, 0), SUCCESS);
    assert_eq!(on_tape(&bench, 0), end_record());
}

#[test]
fn wrong_250_full_records_and_no_room_for_the_end() {
    let mut bench = tape(W);
    put_many(&mut bench, 31_872);
    assert_eq!(bench.put(PUT_CHARACTERS, b"A").status, DEVICE_FULL);
    close(&mut bench);
    assert_eq!(on_tape(&bench, 249), end_record());
}

#[test]
fn wrong_8f_that_moves_on() {
    let mut bench = read_from(&[spoilt(partial_record(b"AB"), 3), partial_record(b"XY"), end_record()]);
    for _ in 0..3 {
        assert_eq!((got(&mut bench, 2), numbers(&bench)), ((BAD_RECORD, vec![]), (1, 0, 0)));
    }
}

#[test]
fn wrong_81_before_84() {
    let mut bench = tape(R);
    for port in [0, 1] {
        for command in [OPEN, GET_STATUS, SPECIAL] {
            assert_eq!(bench.by_name(port, 1, command, b"C:", BOTH, 0), BAD_COMMAND);
        }
        assert_eq!(bench.open(port, 1, b"C:", R, 0), ALREADY_OPEN);
    }
}

#[test]
fn wrong_81_from_the_own_ports_blocks_only() {
    for aux1 in [R, W, NEITHER] {
        let mut bench = tape(aux1);
        for command in [OPEN, GET_STATUS, SPECIAL] {
            assert_eq!(bench.by_name(1, 0, command, b"C:", R, 0), ALREADY_OPEN);
            assert_eq!(bench.by_name(0, 7, command, b"C:", R, 0), ALREADY_OPEN);
        }
        close(&mut bench);
        assert_eq!(bench.open(1, 0, b"C:", R, 0), SUCCESS);
    }
}

#[test]
fn wrong_81_without_the_group() {
    let mut bench = tape(W);
    assert_eq!(bench.load(1, 0, b"C:"), SUCCESS);
    bench.start_long(0);
    bench.send(1, &call(0, OPEN, 0, 0, [R, 0, 0]));
    for _ in 0..3 {
        assert_eq!((bench.stick.tick(1), bench.phase(1)), (GROUP_HELD, 1));
    }
    bench.finish(0);
    assert_eq!(bench.stick.tick(1), DONE);
    assert_eq!(bench.reply(1), [0x90, 4, 0, ALREADY_OPEN, 0, 0, 0]);
    // Closed meanwhile, it opens.
    bench.reply(0);
    bench.start_long(0);
    bench.send(1, &call(0, OPEN, 0, 0, [R, 0, 0]));
    assert_eq!(bench.stick.tick(1), GROUP_HELD);
    bench.finish(0);
    bench.reply(0);
    close(&mut bench);
    assert_eq!(bench.stick.tick(1), DONE);
    assert_eq!(bench.reply(1), [0x90, 4, 0, SUCCESS, 0, 0, 0]);
}

#[test]
fn wrong_one_lock_for_tape_and_console() {
    // While port 0 holds the tape, console and printer are free, and keys are taken.
    let mut bench = tape(W);
    bench.start_long(0);
    assert_eq!(bench.stick.press(0x3F), DONE);
    for (iocb, specification, aux1) in [(0, &b"E:"[..], 0x0D), (1, b"K:", R), (2, b"P:", W)] {
        assert_eq!(bench.open(1, iocb, specification, aux1, 0), SUCCESS);
    }
    assert_eq!(bench.get_on(1, 1, GET_CHARACTERS, 1).1, b"A");
    assert_eq!(bench.put_on(1, 0, PUT_RECORD, b"AB").status, SUCCESS);
    assert_eq!(bench.put_on(1, 2, PUT_RECORD, b"AB").status, SUCCESS);
    assert_eq!(bench.phase(0), 2);
    // While port 0 holds the console or the printer, the tape is free.
    for (specification, aux1) in [(&b"E:"[..], 0x0D), (b"P:", W)] {
        let mut bench = Bench::with(specification, aux1, 0);
        bench.start_long(0);
        assert_eq!(bench.open(1, 0, b"C:", W, 0), SUCCESS);
        assert_eq!(bench.put_on(1, 0, PUT_RECORD, b"AB").status, SUCCESS);
        assert_eq!(bench.call(1, 0, CLOSE, 0, 0, [0; 3]).status, SUCCESS);
        assert_eq!(bench.phase(0), 2);
    }
}

// ---- `C`, `W` and `L` ----

#[test]
fn the_dump_of_the_tape() {
    assert_eq!((TAPE_DUMP, play(b"C")), (33_132, vec![0; 33_132]));
    let mut bench = tape(W);
    bench.put(PUT_CHARACTERS, &[0x41; 130]);
    let mut dump = Vec::new();
    dump_tape(&bench.stick, &mut dump);
    assert_eq!(dump[..RECORD], record(FULL, [0x41; DATA]));
    assert_eq!(dump[RECORD..TAPE], [0; TAPE - RECORD]);
    assert_eq!(dump[TAPE..TAPE + 7], [2, 1, 0, 2, 0x41, 0x41, 0]);
    assert_eq!(dump[TAPE + 6..], [0; 126]);
    for (aux1, mark) in [(R, 1), (NEITHER, 3)] {
        assert_eq!(numbers(&tape(aux1)), (mark, 0, 0));
    }
}

#[test]
fn what_w_writes() {
    let write = |buffer: u8, at: u32, bytes: &[u8]| {
        let mut player = Player::new();
        let mut output = Vec::new();
        assert!(player.play(&Op::Write { buffer, at, bytes: bytes.to_vec() }, &mut output));
        assert!(output.is_empty());
        player.stick
    };
    let fresh = Stick::new();
    for (buffer, length) in [(0u8, 2 * AREA), (1, SCREEN), (2, PAPER), (4, TAPE), (6, IMAGES)] {
        let of = |stick: &Stick| {
            let none = &Vec::new();
            let buffers = [&stick.area, &stick.screen, &stick.paper, none, &stick.tape, none, &stick.images];
            buffers[usize::from(buffer)].clone()
        };
        for (at, written) in [(0, 3), (length - 3, 3), (length - 2, 2), (length, 0), (0xFF_FFFF, 0)] {
            let mut expected = of(&fresh);
            if written > 0 {
                expected[at..at + written].copy_from_slice(&[7, 8, 9][..written]);
            }
            let stick = write(buffer, at as u32, &[7, 8, 9]);
            assert!(of(&stick) == expected, "buffer {buffer} from {at}");
        }
        // And of the others nothing, nor a number.
        let mut stick = write(buffer, 5, &[7, 8, 9]);
        let (none, gap) = (&mut Vec::new(), &mut Vec::new());
        let Stick { area, screen, paper, tape, images, .. } = &mut stick;
        [area, screen, paper, none, tape, gap, images][usize::from(buffer)].copy_from_slice(&of(&fresh));
        assert_eq!(stick, fresh);
    }
    for buffer in [3, 5, 7, 8, 9, 255] {
        assert_eq!(write(buffer, 0, &[7, 8, 9]), fresh);
    }
    assert_eq!(write(4, 0, &[]), fresh);
}

#[test]
fn w_works_at_any_time() {
    // While a buffer is lent cut, and in the middle of a request.
    let output = play(b"L\x04\x00\x00\x00W\x04\xE6\x80\x00\x02\x00\x07\x08FC");
    assert_eq!((output[0], &output[1 + TAPE - 3..1 + TAPE]), (LENT_LENGTH, &[0, 7, 8][..]));
    // An input that ends inside it ends the run, and nothing of it is written.
    assert_eq!(play(b"FW\x04\0\0\0\x03\0\x07\x08"), [0]);
    assert_eq!(play(b"FW\x04\0\0\0\x03"), [0]);
    assert_eq!(play(b"FW"), [0]);
    assert_eq!(play(b"FW\x04\0\0\0\0\0F"), [0, 0]);
}
