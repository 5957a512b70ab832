//! Ask 3 of document 02, scrolling: its worked example, its readings (each test named after the number), and of each wrong machine
//! that a screen of any bytes shows it.

mod bench;
use bench::Bench;
use model::stick::*;

const ROW: usize = 40;
const TEXT: usize = 24 * ROW;
const BLANK: u8 = 0x20;

/// E is open, and the cursor is in the last row.
fn last_row() -> Bench {
    let mut bench = Bench::with(b"E:", 0x0D, 0);
    bench.put(PUT_CHARACTERS, &[EOL; 23]);
    assert_eq!(bench.cursor(), (23, 2));
    bench
}

/// A screen of bytes without order.
fn any_screen() -> Vec<u8> {
    let mut number = 1_u32;
    let mut next = || {
        number = number.wrapping_mul(1_664_525).wrapping_add(1_013_904_223);
        (number >> 24) as u8
    };
    (0..SCREEN).map(|_| next()).collect()
}

/// What E leaves of a screen when it goes to a new row from the last one.
fn scrolled(screen: &[u8]) -> Vec<u8> {
    let mut bench = last_row();
    bench.stick.screen.copy_from_slice(screen);
    assert_eq!(bench.put(PUT_CHARACTERS, &[EOL]).status, SUCCESS);
    assert_eq!(bench.cursor(), (23, 2));
    bench.stick.screen.to_vec()
}

#[test]
fn the_example() {
    let mut bench = Bench::with(b"E:", 0x0D, 0);
    let text: Vec<u8> = (b'A'..=b'X').flat_map(|letter| [letter, EOL]).collect();
    let reply = bench.put(PUT_CHARACTERS, &text);
    assert_eq!((reply.status, reply.count, reply.ticks), (SUCCESS, 48, 49));
    for (row, letter) in (b'B'..=b'X').enumerate() {
        let mut cells = [BLANK; ROW];
        cells[2] = letter;
        assert_eq!(bench.stick.screen[row * ROW..(row + 1) * ROW], cells);
    }
    assert_eq!(bench.stick.screen[23 * ROW..TEXT], [BLANK; ROW]);
    assert_eq!(bench.cursor(), (23, 2));
}

#[test]
fn reading_3_2_each_cell() {
    let old = any_screen();
    let new = scrolled(&old);
    for (place, &cell) in new.iter().enumerate() {
        let right = match place {
            0..=919 => old[place + 40],
            920..=959 => 0x20,
            _ => old[place],
        };
        assert_eq!(cell, right, "cell {place}");
    }
}

#[test]
fn reading_3_3_whole_rows() {
    let old = any_screen();
    let new = scrolled(&old);
    for row in 0..23 {
        assert_eq!(new[row * ROW..row * ROW + 2], old[(row + 1) * ROW..(row + 1) * ROW + 2], "row {row}");
    }
}

/// A wrong machine leaves another screen.
fn shown(machine: fn(&mut [u8])) {
    let old = any_screen();
    let mut new = old.clone();
    machine(&mut new);
    assert_ne!(new, old);
    assert_ne!(new, scrolled(&old));
}

#[test]
fn wrong_from_the_last_cell_down() {
    fn machine(cells: &mut [u8]) {
        for place in (0..TEXT - ROW).rev() {
            cells[place] = cells[place + ROW];
        }
        cells[TEXT - ROW..TEXT].fill(BLANK);
        assert!((1..23).all(|row| cells[..ROW] == cells[row * ROW..(row + 1) * ROW]), "one row everywhere");
    }
    shown(machine);
}

#[test]
fn wrong_row_23_blanked_first() {
    shown(|cells| {
        cells[TEXT - ROW..TEXT].fill(BLANK);
        cells.copy_within(ROW..TEXT, 0);
    });
}

#[test]
fn wrong_24_rows_moved() {
    shown(|cells| cells.copy_within(ROW..TEXT + ROW, 0));
}

#[test]
fn wrong_all_61_440_moved() {
    shown(|cells| {
        cells.copy_within(ROW.., 0);
        cells[TEXT - ROW..TEXT].fill(BLANK);
    });
}

#[test]
fn wrong_columns_2_to_39_alone() {
    shown(|cells| {
        for row in 0..23 {
            cells.copy_within((row + 1) * ROW + 2..(row + 2) * ROW, row * ROW + 2);
        }
        cells[TEXT - ROW + 2..TEXT].fill(BLANK);
    });
}
