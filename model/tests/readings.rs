//! The readings of document 01, each test named after its number.

mod bench;
use bench::Bench;
use model::random::{call, fetch, field, load};
use model::stick::*;

fn editor() -> Bench {
    Bench::with(b"E:", 0x0D, 0)
}

/// Both ports have IOCB 0 open for E, and port 0 runs a transfer on it.
fn console_held() -> Bench {
    let mut bench = editor();
    assert_eq!(bench.open(1, 0, b"K:", 4, 0), SUCCESS);
    bench.start_long(0);
    bench
}

// ---- A. ticks, starting, waiting ----

#[test]
fn reading_01_no_transfer_ends_in_its_start_tick() {
    let mut bench = Bench::new();
    bench.send(0, &load(0, b"A"));
    assert_eq!(bench.phase(0), 1);
    assert_eq!(bench.stick.tick(0), DONE);
    assert_eq!(bench.phase(0), 3);
}

#[test]
fn reading_02_reply_in_the_tick_of_the_last_character() {
    assert_eq!(editor().put(PUT_CHARACTERS, b"ABC").ticks, 4);
}

#[test]
fn reading_03_added_eol_has_its_own_tick() {
    assert_eq!(editor().put(PUT_RECORD, b"AB").ticks, 4);
    assert_eq!(editor().put(PUT_RECORD, b"A\x9B").ticks, 3);
    let mut bench = Bench::with(b"P:", 8, 0);
    bench.stick.used = PAPER - 2;
    let reply = bench.put(PUT_RECORD, b"AB");
    assert_eq!((reply.status, reply.count), (DEVICE_FULL, 2));
}

#[test]
fn reading_04_special_and_status_on_an_open_block_wait() {
    for command in [0x0E, 0xFF, GET_STATUS, CLOSE] {
        let mut bench = console_held();
        bench.send(1, &call(0, command, 0, 0, [0; 3]));
        assert_eq!(bench.stick.tick(1), GROUP_HELD);
        bench.finish(0);
        assert_eq!(bench.stick.tick(1), DONE);
    }
    // CLOSE of a closed block never waits.
    let mut bench = console_held();
    assert_eq!(bench.call(1, 5, CLOSE, 0, 0, [0; 3]).status, SUCCESS);
}

#[test]
fn reading_05_a_refused_open_waits_for_its_group() {
    for (specification, aux1, aux2, waits) in [
        (&b"K:"[..], 8, 0, true),
        (b"S:", 12, 2, true),
        (b"Q:", 4, 0, false),
        (b"E9:", 13, 0, false),
        (b"P:", 4, 0, false),
    ] {
        let mut bench = console_held();
        assert_eq!(bench.load(1, 0, specification), SUCCESS);
        bench.send(1, &call(1, OPEN, 0, 0, [aux1, aux2, 0]));
        assert_eq!(bench.stick.tick(1), if waits { GROUP_HELD } else { DONE });
    }
}

#[test]
fn reading_06_first_character_refused_in_tick_2() {
    assert_eq!(Bench::with(b"K:", 4, 0).get(GET_CHARACTERS, 1).0.ticks, 2);
    let mut bench = Bench::with(b"S:", 12, 3);
    assert_eq!(bench.open(0, 1, b"E:", 13, 0), SUCCESS);
    let (reply, _) = bench.get(GET_CHARACTERS, 1);
    assert_eq!((reply.status, reply.ticks), (SCREEN_MODE, 1));
}

#[test]
fn reading_08_10_keys_while_ready_and_after_the_last_tick() {
    let mut bench = editor();
    bench.send(0, &call(0, PUT_CHARACTERS, 0, 1, [0; 3]));
    assert_eq!(bench.stick.press(0x3F), DONE);
    assert_eq!(bench.stick.tick(0), DONE);
    assert_eq!(bench.stick.press(0x3E), CONSOLE_HELD);
    assert_eq!(bench.stick.console.key, 0x3F);
    assert_eq!(bench.stick.tick(0), DONE);
    assert_eq!(bench.stick.press(0x3E), DONE);
}

#[test]
fn reading_10_the_printer_does_not_hold_the_console() {
    let mut bench = Bench::with(b"P:", 8, 0);
    bench.start_long(0);
    assert_eq!(bench.stick.press(0x3F), DONE);
    assert_eq!(bench.open(1, 0, b"E:", 13, 0), SUCCESS);
}

#[test]
fn reading_11_every_call_is_lent_every_buffer() {
    for buffer in 0..WHOLE.len() {
        let mut bench = editor();
        bench.send(0, &load(0, b"A"));
        bench.finish(0);
        bench.stick.lent[buffer] -= 1;
        let before = bench.stick.clone();
        assert_eq!(bench.stick.give(0), (LENT_LENGTH, 0));
        assert_eq!(bench.stick.take(1, 0x10), LENT_LENGTH);
        assert_eq!(bench.stick.take(2, 0x10), LENT_LENGTH);
        assert_eq!(bench.stick.tick(7), LENT_LENGTH);
        assert_eq!(bench.stick.press(0), LENT_LENGTH);
        assert_eq!(bench.stick.fresh(), LENT_LENGTH);
        assert_eq!(bench.stick, before);
    }
}

#[test]
fn reading_12_73_fresh_in_the_middle_keeps_the_paper() {
    let mut bench = Bench::with(b"P:", 8, 0);
    assert_eq!(bench.put(PUT_CHARACTERS, b"AB").status, SUCCESS);
    bench.start_long(0);
    bench.send(1, &[0x11, 5]);
    assert_eq!(bench.stick.fresh(), DONE);
    let mut fresh = Stick::new();
    fresh.paper = bench.stick.paper.clone();
    assert_eq!(&fresh.paper[..3], b"AB\0");
    assert_eq!(bench.stick, fresh);
}

// ---- B. messages ----

#[test]
fn reading_13_fetch_count_first() {
    let mut bench = Bench::new();
    for (address, count, status) in
        [(65_535, 0, 0x84), (65_535, 257, 0x84), (0, 0, 0x84), (16_384, 1, 0xB0), (16_383, 2, 0xB0), (65_535, 2, 0xB0)]
    {
        assert_eq!(bench.ask(0, &fetch(address, count)), [0x92, 1, 0, status]);
    }
}

#[test]
fn reading_14_a_load_without_data_is_a_field_fault() {
    let mut bench = Bench::new();
    for length in [0, 1, 2, 259] {
        assert_eq!(bench.ask(0, &field(0x11, &vec![0; length])), [0xFF, 1, 0, 0x84]);
    }
}

#[test]
fn reading_15_a_bad_value_is_taken_whole() {
    let mut bench = Bench::new();
    bench.send(0, &[0x55, 0xFF, 0xFF]);
    for _ in 0..65_535 {
        assert_eq!(bench.phase(0), 0);
        assert_eq!(bench.stick.take(0, 0x10), DONE);
    }
    assert_eq!(bench.phase(0), 1);
    for tag in [0x10, 0x12, 0x99] {
        let mut bench = Bench::new();
        bench.send(0, &[tag, 0, 0]);
        assert_eq!(bench.phase(0), 1);
    }
}

#[test]
fn reading_16_a_refused_message_needs_a_tick() {
    let mut bench = Bench::new();
    bench.send(0, &[0x55, 0, 0]);
    assert_eq!(bench.stick.give(0), (NO_REPLY, 0));
    assert_eq!(bench.stick.tick(0), DONE);
    assert_eq!(bench.reply(0), [0xFF, 1, 0, 0x92]);
}

#[test]
fn reading_17_unknown_tag_beats_length() {
    for (tag, status) in [(0x13, 0x92), (0x0F, 0x92), (0xFF, 0x92), (0x10, 0x84), (0x12, 0x84)] {
        assert_eq!(Bench::new().ask(0, &field(tag, &[0; 5])), [0xFF, 1, 0, status]);
    }
}

#[test]
fn reading_18_fetch_lengths() {
    let mut bench = Bench::new();
    assert_eq!(bench.fetch(0, 0, 256), (1, vec![0; 256]));
    assert_eq!(bench.fetch(0, 16_383, 1), (1, vec![0]));
}

#[test]
fn reading_19_20_the_area_ends_at_16384() {
    let mut bench = Bench::new();
    assert_eq!(bench.load(0, 16_382, b"AB"), SUCCESS);
    assert_eq!(bench.load(1, 0, b"CD"), SUCCESS);
    for (address, data) in [(16_384, &b"X"[..]), (16_383, b"XY"), (65_535, b"XY"), (65_534, b"XYZ")] {
        assert_eq!(bench.load(0, address, data), PAST_AREA);
    }
    assert_eq!(&bench.stick.area[16_381..16_387], b"\0ABCD\0");
}

#[test]
fn reading_22_no_second_message_meanwhile() {
    let mut bench = editor();
    bench.send(0, &call(0, PUT_CHARACTERS, 0, 2, [0; 3]));
    for phase in [1, 2, 2, 3] {
        assert_eq!(bench.phase(0), phase);
        assert_eq!(bench.stick.take(0, 0x10), NOT_GATHERING);
        bench.stick.tick(0);
    }
    assert_eq!(bench.stick.tick(0), NOTHING_TO_DO);
}

// ---- C. CALL order and statuses ----

#[test]
fn reading_23_directions_are_the_blocks() {
    let mut bench = editor();
    assert_eq!(bench.call(0, 0, PUT_CHARACTERS, 0, 1, [0, 0, 0]).status, SUCCESS);
    assert_eq!(bench.call(0, 0, GET_CHARACTERS, 0, 1, [8, 0, 0]).status, SUCCESS);
}

#[test]
fn reading_24_past_the_area_by_the_length_alone() {
    let mut bench = editor();
    assert_eq!(bench.load(0, 16_382, b"A\x9B"), SUCCESS);
    let reply = bench.call(0, 0, PUT_RECORD, 16_382, 5, [0; 3]);
    assert_eq!((reply.status, reply.count), (PAST_AREA, 0));
    assert_eq!(bench.call(0, 0, PUT_RECORD, 65_535, 1, [0; 3]).status, PAST_AREA);
}

#[test]
fn reading_25_26_specifications() {
    let open = |bench: &mut Bench, address| bench.call(0, 0, OPEN, address, 0, [0, 0, 0]).status;
    for (data, status) in [
        (&b"Q"[..], NO_DEVICE),
        (b"E", PAST_AREA),
        (b"E3", PAST_AREA),
        (b"E0", NO_DEVICE),
        (b"E9", NO_DEVICE),
        (b"EX", NO_DEVICE),
        (b"E:", SUCCESS),
        (b"E8:", SUCCESS),
        (b"E12:", NO_DEVICE),
        (b"E1X", NO_DEVICE),
        (b"e:", NO_DEVICE),
        (b"R:", NO_DEVICE),
        (b"D", PAST_AREA),
        (b"D4", PAST_AREA),
        (b"D5", NO_DEVICE),
    ] {
        let mut bench = Bench::new();
        assert_eq!(bench.load(0, AREA - data.len(), data), SUCCESS);
        // The other port's area goes on with a colon, but is never read.
        assert_eq!(bench.load(1, 0, b"::"), SUCCESS);
        assert_eq!(open(&mut bench, AREA - data.len()), status, "{data:?}");
    }
    assert_eq!(open(&mut Bench::new(), 16_384), PAST_AREA);
    assert_eq!(open(&mut Bench::new(), 65_535), PAST_AREA);
}

#[test]
fn reading_27_45_a_in_the_reply() {
    let mut bench = Bench::with(b"K:", 4, 0);
    assert_eq!(bench.call(0, 0, GET_CHARACTERS, 0, 0, [0, 0, 0x77]).a, 0x77);
    bench.stick.press(0x3F);
    let reply = bench.call(0, 0, GET_CHARACTERS, 0, 0, [0, 0, 0x77]);
    assert_eq!((reply.status, reply.count, reply.a, reply.ticks), (1, 0, 0x41, 2));
    bench.stick.press(0x3F);
    assert_eq!(bench.call(0, 0, GET_CHARACTERS, 0, 1, [0, 0, 0x77]).a, 0x77);
    assert_eq!(bench.call(0, 9, GET_CHARACTERS, 0, 1, [0, 0, 0x77]).a, 0x77);
}

#[test]
fn reading_28_length_0_has_no_record_rule() {
    let mut bench = editor();
    let reply = bench.call(0, 0, PUT_RECORD, 65_535, 0, [0, 0, b'A']);
    assert_eq!((reply.status, reply.count, reply.a, reply.ticks), (1, 0, b'A', 2));
    assert_eq!((bench.cell(0, 2), bench.cursor()), (b'A', (0, 3)));
    let reply = bench.call(0, 0, GET_RECORD, 65_535, 0, [0; 3]);
    assert_eq!((reply.status, reply.count, reply.a, reply.ticks), (1, 0, b'A', 2));
    assert_eq!(bench.cursor(), (0, 3));
}

#[test]
fn reading_29_30_status_and_special_open_a_closed_block() {
    for (command, status) in [(GET_STATUS, SUCCESS), (0x0E, BAD_COMMAND), (0xFF, BAD_COMMAND)] {
        let mut bench = editor();
        assert_eq!(bench.put(PUT_RECORD, b"AB").status, SUCCESS);
        assert_eq!(bench.by_name(0, 3, command, b"K:", 8, 0), BAD_COMMAND);
        assert_eq!(bench.cell(0, 2), b'A');
        assert_eq!(bench.by_name(0, 3, command, b"S:", 12, 5), status);
        assert_eq!((bench.stick.console.mode, bench.stick.ports[0].blocks[3]), (5, None));
        assert_eq!(bench.by_name(0, 3, command, b"E:", 13, 0), status);
        assert_eq!((bench.cell(0, 2), bench.cursor()), (0x20, (0, 2)));
        assert_eq!(bench.by_name(0, 3, command, b"Q:", 13, 0), NO_DEVICE);
    }
}

#[test]
fn reading_31_33_neither_direction() {
    let mut bench = editor();
    assert_eq!(bench.put(PUT_RECORD, b"AB").status, SUCCESS);
    assert_eq!(bench.open(0, 1, b"E:", 0, 0), SUCCESS);
    assert_eq!(bench.cell(0, 2), 0x20);
    assert_eq!(bench.call(0, 1, GET_RECORD, 0, 1, [0; 3]).status, NOT_READABLE);
    assert_eq!(bench.call(0, 1, PUT_RECORD, 0, 1, [0; 3]).status, NOT_WRITABLE);
    assert_eq!(bench.open(0, 2, b"P:", 8, 0), SUCCESS);
    assert_eq!(bench.call(0, 2, GET_RECORD, 0, 1, [0; 3]).status, NOT_READABLE);
    assert_eq!(bench.open(0, 3, b"K:", 4, 0), SUCCESS);
    assert_eq!(bench.call(0, 3, PUT_RECORD, 0, 1, [0; 3]).status, NOT_WRITABLE);
}

#[test]
fn reading_32_order_of_refusals() {
    let mut bench = Bench::with(b"P:", 8, 0);
    assert_eq!(bench.open(0, 0, b"Q", 8, 0), ALREADY_OPEN);
    assert_eq!(bench.call(0, 0, OPEN, 65_535, 0, [0; 3]).status, ALREADY_OPEN);
    assert_eq!(bench.call(0, 1, GET_RECORD, 65_535, 1, [0; 3]).status, NOT_OPEN);
    assert_eq!(bench.call(0, 0, GET_RECORD, 65_535, 1, [0; 3]).status, NOT_READABLE);
    assert_eq!(bench.call(0, 0, PUT_RECORD, 65_535, 1, [0; 3]).status, PAST_AREA);
}

#[test]
fn reading_34_bad_commands() {
    let mut bench = Bench::with(b"P:", 8, 0);
    for command in [0, 1, 2, 4, 6, 8, 0x0A] {
        assert_eq!(bench.call(0, 1, command, 65_535, 1, [0; 3]).status, BAD_COMMAND);
        assert_eq!(bench.call(0, 8, command, 65_535, 1, [0; 3]).status, BAD_IOCB);
        // and never waits
        let mut held = console_held();
        assert_eq!(held.call(1, 0, command, 0, 0, [0; 3]).status, BAD_COMMAND);
    }
    assert_eq!(bench.call(0, 1, 0x0E, 65_535, 1, [0; 3]).status, PAST_AREA);
}

#[test]
fn reading_35_39_aux1_of_e_k_p() {
    let every = |specification: &[u8], refused: fn(u8) -> bool| {
        for aux1 in 0..=255 {
            let status = if refused(aux1) { BAD_COMMAND } else { SUCCESS };
            assert_eq!(Bench::new().open(0, 0, specification, aux1, 0xFF), status, "AUX1 {aux1:02X}");
        }
    };
    every(b"E:", |aux1| aux1 & 5 == 4);
    every(b"K:", |aux1| aux1 & 8 == 8);
    every(b"P:", |aux1| aux1 & 4 == 4);
}

#[test]
fn reading_36_37_aux_of_s() {
    for aux1 in 0..=255 {
        let status = if aux1 & 16 == 16 { SCREEN_MODE } else { SUCCESS };
        assert_eq!(Bench::new().open(0, 0, b"S:", aux1, 3), status, "AUX1 {aux1:02X}");
    }
    for aux2 in 0..=255 {
        let status = if (3..=8).contains(&aux2) { SUCCESS } else { SCREEN_MODE };
        assert_eq!(Bench::new().open(0, 0, b"S:", 12, aux2), status, "AUX2 {aux2:02X}");
    }
}

#[test]
fn reading_38_44_the_block() {
    let mut bench = Bench::with(b"P7:", 0xFB, 9);
    assert_eq!(bench.stick.ports[0].blocks[0], Some(File { device: Device::P, number: 7, aux1: 0xFB }));
    assert_eq!(bench.open(0, 1, b"K:", 12, 0), BAD_COMMAND);
    assert_eq!(bench.stick.ports[0].blocks[1], None);
    let reply = bench.call(0, 0, CLOSE, 65_535, 65_535, [1, 2, 3]);
    assert_eq!((reply.status, reply.count, reply.a), (SUCCESS, 0, 3));
    assert_eq!(bench.stick.ports[0].blocks[0], None);
    assert_eq!(bench.call(0, 0, CLOSE, 65_535, 65_535, [1, 2, 3]).status, SUCCESS);
}

#[test]
fn reading_40_a_refused_put_is_not_counted() {
    let mut bench = Bench::with(b"P:", 8, 0);
    bench.stick.used = PAPER - 1;
    let reply = bench.put(PUT_CHARACTERS, b"AB");
    assert_eq!((reply.status, reply.count, reply.ticks), (DEVICE_FULL, 1, 3));
}

#[test]
fn reading_41_record_ends() {
    // The n-th stored character is the EOL: not cut.
    let mut bench = editor();
    bench.put(PUT_RECORD, b"A");
    bench.put(PUT_CHARACTERS, &[0x1C]);
    let (reply, bytes) = bench.get(GET_RECORD, 2);
    assert_eq!((reply.status, &bytes[..]), (SUCCESS, &b"A\x9B"[..]));
    // Refused while dropping: the refusal's status.
    let mut bench = Bench::with(b"S:", 12, 3);
    let (reply, _) = bench.get(GET_RECORD, 5);
    assert_eq!((reply.status, reply.count, reply.ticks), (CURSOR_RANGE, 5, 962));
}

#[test]
fn reading_42_an_eol_ends_put_record() {
    let mut bench = Bench::with(b"P:", 8, 0);
    let reply = bench.put(PUT_RECORD, b"AB\x9BCD");
    assert_eq!((reply.status, reply.count, bench.stick.used), (SUCCESS, 3, 3));
    let mut bench = editor();
    assert_eq!(bench.put(PUT_RECORD, b"\x1B\x9BCD").count, 2);
}

// ---- D. screen, editor ----

#[test]
fn reading_46_every_put_drops_the_read_column() {
    for byte in [0x7F, 0x7E, 0x1B, 0xFD, 0x9C] {
        let mut bench = editor();
        bench.put(PUT_RECORD, b"AB");
        bench.put(PUT_CHARACTERS, &[0x1C]);
        assert_eq!(bench.get(GET_CHARACTERS, 1).1, b"A");
        bench.put(PUT_CHARACTERS, &[byte]);
        assert_eq!(bench.get(GET_CHARACTERS, 1).1, b"A");
        assert_eq!(bench.get(GET_CHARACTERS, 1).1, b"B");
    }
}

#[test]
fn reading_47_dropped_in_the_characters_tick() {
    let mut bench = editor();
    bench.put(PUT_CHARACTERS, b"AB");
    bench.get(GET_CHARACTERS, 1);
    bench.send(0, &call(0, PUT_CHARACTERS, 0, 1, [0; 3]));
    bench.stick.tick(0);
    assert_eq!(bench.stick.console.read_column, Some(3));
    bench.stick.tick(0);
    assert_eq!(bench.stick.console.read_column, None);
}

#[test]
fn reading_48_a_get_leaves_the_escape() {
    let mut bench = editor();
    bench.put(PUT_CHARACTERS, &[0x1B]);
    bench.get(GET_CHARACTERS, 1);
    bench.put(PUT_CHARACTERS, &[0x7D]);
    assert_eq!((bench.cell(1, 2), bench.stick.console.last), (0x7D, 0x7D));
}

#[test]
fn reading_49_s_open_leaves_escape_and_read_column() {
    let mut bench = editor();
    bench.put(PUT_CHARACTERS, b"AB\x1B");
    bench.get(GET_CHARACTERS, 1);
    assert_eq!(bench.open(0, 1, b"S:", 12, 3), SUCCESS);
    assert_eq!((bench.stick.console.escape, bench.stick.console.read_column), (true, Some(3)));
    bench.put(PUT_CHARACTERS, b"A");
    assert_eq!((bench.stick.console.escape, bench.stick.console.read_column), (false, None));
}

#[test]
fn reading_50_51_the_last_character() {
    let mut bench = editor();
    bench.put(PUT_CHARACTERS, b"AB\x9B\x1C");
    assert_eq!(bench.stick.console.last, b'B');
    bench.get(GET_CHARACTERS, 1);
    assert_eq!(bench.stick.console.last, b'A');
    bench.get(GET_RECORD, 9);
    assert_eq!(bench.stick.console.last, b'B');
    let mut bench = Bench::with(b"S:", 12, 3);
    bench.put(PUT_CHARACTERS, &[7, 0x9B, 0x7D]);
    assert_eq!(bench.stick.console.last, 7);
    bench.get(GET_CHARACTERS, 1);
    assert_eq!(bench.stick.console.last, 0);
}

#[test]
fn reading_54_one_read_column_for_all_blocks() {
    let mut bench = editor();
    assert_eq!(bench.open(0, 1, b"E:", 13, 0), SUCCESS);
    assert_eq!(bench.open(1, 0, b"E:", 13, 0), SUCCESS);
    bench.put(PUT_CHARACTERS, b"ABC");
    assert_eq!(bench.get_on(0, 0, GET_CHARACTERS, 1).1, b"A");
    assert_eq!(bench.get_on(0, 1, GET_CHARACTERS, 1).1, b"B");
    assert_eq!(bench.get_on(1, 0, GET_CHARACTERS, 1).1, b"C");
}

#[test]
fn reading_55_scrolling() {
    let mut bench = editor();
    let mut text = b"first\x9Bsecond".to_vec();
    text.extend([EOL; 22]);
    text.push(b'Z');
    bench.put(PUT_CHARACTERS, &text);
    assert_eq!((bench.cell(0, 2), bench.cursor()), (b'f', (23, 3)));
    bench.put(PUT_CHARACTERS, &[EOL]);
    assert_eq!((bench.cell(0, 2), bench.cell(22, 2), bench.cell(23, 2)), (b's', b'Z', 0x20));
    assert_eq!(bench.cursor(), (23, 2));
}

#[test]
fn reading_56_64_cells_past_the_mode_stay() {
    let mut bench = Bench::with(b"S:", 12, 8);
    bench.stick.screen.fill(7);
    assert_eq!(bench.open(0, 1, b"S:", 12 + 32, 5), SUCCESS);
    assert_eq!((bench.stick.screen[3_839], bench.stick.screen[3_840]), (3, 7));
    assert_eq!(bench.open(0, 2, b"S:", 12, 3), SUCCESS);
    assert_eq!((bench.stick.screen[959], bench.stick.screen[960]), (0, 3));
    assert_eq!(bench.open(0, 3, b"E:", 13 + 32, 0), SUCCESS);
    assert_eq!((bench.stick.screen[0], bench.stick.screen[959], bench.stick.screen[960]), (0x20, 0x20, 3));
}

#[test]
fn reading_57_e_in_another_mode_opens_anew() {
    let mut bench = editor();
    assert_eq!(bench.open(1, 0, b"S:", 12, 8), SUCCESS);
    assert_eq!(bench.call(0, 0, GET_RECORD, 16_384, 1, [0; 3]).status, PAST_AREA);
    assert_eq!(bench.stick.console.mode, 8);
    let (reply, bytes) = bench.get(GET_RECORD, 5);
    assert_eq!((reply.status, &bytes[..], bench.cursor()), (SUCCESS, &[EOL][..], (1, 2)));
    assert_eq!(bench.open(1, 1, b"S:", 12, 8), SUCCESS);
    assert_eq!(bench.call(0, 0, GET_RECORD, 0, 0, [0; 3]).a, EOL);
    assert_eq!(bench.stick.console.mode, 0);
}

#[test]
fn reading_58_an_eol_ends_the_escape() {
    let mut bench = editor();
    bench.put(PUT_CHARACTERS, b"A\x1B\x9B\x7D");
    assert_eq!((bench.cell(0, 2), bench.cursor()), (0x20, (0, 2)));
}

#[test]
fn reading_59_66_the_last_row_of_s() {
    let mut bench = Bench::with(b"S:", 12, 3);
    assert_eq!(bench.put(PUT_CHARACTERS, &[EOL; 24]).status, SUCCESS);
    assert_eq!(bench.cursor(), (24, 0));
    for byte in [EOL, 1] {
        let before = bench.stick.console.clone();
        let reply = bench.put(PUT_CHARACTERS, &[byte]);
        assert_eq!((reply.status, reply.count), (CURSOR_RANGE, 0));
        assert_eq!(bench.stick.console, before);
    }
    assert_eq!(bench.put(PUT_CHARACTERS, &[0x7D]).status, SUCCESS);
    assert_eq!(bench.put(PUT_CHARACTERS, &[1; 960]).status, SUCCESS);
    assert_eq!((bench.cell(23, 39), bench.cursor()), (1, (24, 0)));
}

#[test]
fn reading_60_62_the_cursor_codes() {
    let after = |bytes: &[u8]| {
        let mut bench = editor();
        bench.put(PUT_CHARACTERS, bytes);
        bench.cursor()
    };
    assert_eq!(after(&[0x1C]), (23, 2));
    assert_eq!(after(&[0x1C, 0x1D]), (0, 2));
    assert_eq!(after(&[0x1E]), (0, 39));
    assert_eq!(after(&[0x1E, 0x1F]), (0, 2));
    assert_eq!(after(&[0x1F, 0x7E]), (0, 2));
    let mut bench = editor();
    bench.put(PUT_CHARACTERS, b"AB\x1E\x1E\x7E");
    assert_eq!((bench.cell(0, 2), bench.cell(0, 3), bench.cursor()), (b'A', b'B', (0, 2)));
    bench.put(PUT_CHARACTERS, b"\x1F\x7E");
    assert_eq!((bench.cell(0, 2), bench.cell(0, 3), bench.cursor()), (0x20, b'B', (0, 2)));
}

#[test]
fn reading_61_layout() {
    let mut bench = Bench::with(b"S:", 12, 7);
    bench.put(PUT_CHARACTERS, &[EOL, EOL, 1, 2, 3]);
    assert_eq!(bench.stick.screen[320..324], [1, 2, 3, 0]);
}

#[test]
fn reading_63_a_row_is_read_from_column_2() {
    let mut bench = editor();
    bench.put(PUT_CHARACTERS, b" A  B   ");
    assert_eq!(bench.get(GET_RECORD, 40).1, b" A  B\x9B");
    assert_eq!(bench.cursor(), (1, 2));
    bench.put(PUT_CHARACTERS, &[b'X'; 38]);
    bench.put(PUT_CHARACTERS, &[0x1C]);
    assert_eq!(bench.get(GET_CHARACTERS, 38).1, [b'X'; 38]);
    assert_eq!((bench.stick.console.read_column, bench.cursor()), (Some(40), (1, 2)));
    assert_eq!(bench.get(GET_CHARACTERS, 1).1, [EOL]);
    assert_eq!(bench.cursor(), (2, 2));
}

#[test]
fn reading_65_after_an_escape_all_but_eol_is_data() {
    for byte in (0..=255).filter(|&byte| byte != EOL) {
        let mut bench = editor();
        bench.put(PUT_CHARACTERS, &[0x1B, byte]);
        assert_eq!((bench.cell(0, 2), bench.stick.console.last, bench.cursor()), (byte, byte, (0, 3)));
    }
}

#[test]
fn reading_67_s_blocks_have_no_mode() {
    let mut bench = Bench::with(b"S:", 12, 3);
    assert_eq!(bench.open(1, 0, b"S:", 12, 8), SUCCESS);
    bench.put(PUT_CHARACTERS, &[3]);
    assert_eq!((bench.cell(0, 0), bench.stick.console.mode), (1, 8));
    assert_eq!(bench.open(1, 1, b"E:", 13, 0), SUCCESS);
    assert_eq!(bench.put(PUT_CHARACTERS, &[3]).status, SCREEN_MODE);
    assert_eq!(bench.open(1, 2, b"S:", 12, 5), SUCCESS);
    assert_eq!(bench.put(PUT_CHARACTERS, &[3]).status, SUCCESS);
}

#[test]
fn reading_68_clear_on_s_zeroes_the_modes_cells() {
    let mut bench = Bench::with(b"S:", 12, 3);
    bench.stick.screen.fill(1);
    bench.put(PUT_CHARACTERS, &[0x7D]);
    assert_eq!((bench.stick.screen[959], bench.stick.screen[960]), (0, 1));
}

#[test]
fn reading_69_get_characters_goes_on_over_lines() {
    let (reply, bytes) = editor().get(GET_CHARACTERS, 60);
    assert_eq!((reply.status, reply.count, bytes), (SUCCESS, 60, vec![EOL; 60]));
}

// ---- E. keys, printer, translation ----

fn key(bench: &mut Bench, code: u8) -> Result<u8, u8> {
    assert_eq!(bench.stick.press(code), DONE);
    let (reply, bytes) = bench.get(GET_CHARACTERS, 1);
    match reply.status {
        SUCCESS => Ok(bytes[0]),
        status => Err(status),
    }
}

fn keyboard() -> Bench {
    Bench::with(b"K:", 4, 0)
}

#[test]
fn reading_70_71_a_key_read() {
    let mut bench = keyboard();
    assert_eq!(key(&mut bench, 0x3F), Ok(0x41));
    assert_eq!((bench.stick.console.last, bench.stick.console.key), (0, NO_KEY));
    assert_eq!(key(&mut bench, 0xC0), Err(END_OF_FILE));
    assert_eq!(bench.stick.console.key, NO_KEY);
}

#[test]
fn reading_72_press_ff_loses_the_key() {
    let mut bench = keyboard();
    assert_eq!(bench.stick.press(0x3F), DONE);
    assert_eq!(key(&mut bench, 0xFF), Err(END_OF_FILE));
}

#[test]
fn reading_74_75_end_of_file_and_records() {
    let mut bench = keyboard();
    for _ in 0..2 {
        let (reply, _) = bench.get(GET_CHARACTERS, 1);
        assert_eq!((reply.status, reply.ticks), (END_OF_FILE, 2));
    }
    assert_eq!(key(&mut bench, 0x9A), Err(END_OF_FILE));
    assert_eq!(bench.stick.console.lock, 1);
    for (code, n, status) in [(0x3F, 1, END_OF_FILE), (0x3F, 5, END_OF_FILE), (0x0C, 1, SUCCESS), (0x0C, 5, SUCCESS)] {
        bench.stick.press(code);
        let (reply, _) = bench.get(GET_RECORD, n);
        assert_eq!((reply.status, reply.count), (status, 1));
    }
}

#[test]
fn reading_76_77_locks_and_inverse() {
    let mut bench = keyboard();
    for (code, lock) in [(0x3C, 0), (0xBC, 2), (0x7C, 1), (0xBC, 2), (0x3C, 0)] {
        assert_eq!(key(&mut bench, code), Err(END_OF_FILE));
        assert_eq!(bench.stick.console.lock, lock);
    }
    assert_eq!(key(&mut bench, 0x27), Err(END_OF_FILE));
    assert_eq!(key(&mut bench, 0x3F), Ok(0xE1));
    assert_eq!(key(&mut bench, 0xA0), Ok(0x80));
    assert_eq!(key(&mut bench, 0xBC), Err(END_OF_FILE));
    assert_eq!(key(&mut bench, 0x3F), Ok(0x81));
    assert_eq!(key(&mut bench, 0x0C), Ok(EOL));
    assert_eq!(key(&mut bench, 0x1C), Ok(0x1B));
    for (code, inverse) in [(0xA7, 0), (0x67, 1), (0x27, 0)] {
        assert_eq!(key(&mut bench, code), Err(END_OF_FILE));
        assert_eq!(bench.stick.console.inverse, inverse);
    }
}

#[test]
fn reading_78_translate() {
    for (code, lock, inverse, answer) in [
        (0x3F, 0, 0, 0x61),
        (0x3F, 1, 0, 0x41),
        (0x3F, 2, 1, 0x81),
        (0x03, 0, 0, 256),
        (0x27, 0, 0, 257),
        (0x3C, 0, 0, 258),
        (0x7C, 0, 0, 259),
        (0xBC, 0, 0, 260),
        (0x9A, 0, 0, 261),
        (0xC0, 0, 0, 256),
        (0xFF, 2, 1, 256),
        (65_536, 0, 0, 256),
        (0x3F, 3, 0, 262),
        (0x3F, 0, 2, 262),
        (0xC0, 3, 0, 262),
    ] {
        assert_eq!(translate(code, lock, inverse), answer, "{code:02X} {lock} {inverse}");
    }
    // A letter's block 1 entry is 32 less, its block 2 entry 96 less.
    let mut letters = 0;
    for code in 0..64 {
        let entry = translate(code, 0, 0);
        if (0x61..=0x7A).contains(&entry) {
            letters += 1;
            assert_eq!(translate(code + 64, 0, 0), entry - 32);
            assert_eq!(translate(code + 128, 0, 0), entry - 96);
        }
    }
    assert_eq!(letters, 26);
}

#[test]
fn reading_79_one_paper() {
    let mut bench = Bench::with(b"P1:", 8, 0xFF);
    assert_eq!(bench.open(1, 5, b"P8:", 8, 0), SUCCESS);
    bench.put(PUT_CHARACTERS, b"A\xFF\x9B");
    bench.put_on(1, 5, PUT_RECORD, b"B");
    assert_eq!((&bench.stick.paper[..6], bench.stick.used), (&b"A\xFF\x9BB\x9B\0"[..], 5));
    bench.stick.used = PAPER - 1;
    assert_eq!(bench.put(PUT_CHARACTERS, b"A").status, SUCCESS);
    assert_eq!(bench.put(PUT_CHARACTERS, b"A").status, DEVICE_FULL);
}
