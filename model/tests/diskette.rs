//! Ask 12 of document 02, diskettes for reading: its worked example and the lines below it, its readings (each test named after
//! the number), and of each wrong machine the test that it fails.

mod bench;
use bench::disks::*;
use bench::{examples, Bench, Reply, BUFFER};
use model::diskette::{chain_of_all, entry, entry_at, is_reserved, link, sector_at, Diskette};
use model::random::{call, conversation, load};
use model::script::{play, Op, Player};
use model::stick::*;

/// The first SPECIAL command, and the commands that open a closed block.
const SPECIAL: u8 = 0x0E;
const OPENING: [u8; 3] = [OPEN, GET_STATUS, SPECIAL];

/// The status of a CALL with a specification, on a bench that stays as it is.
fn tried(bench: &Bench, command: u8, specification: &[u8], aux1: u8) -> u8 {
    Bench { stick: bench.stick.clone() }.by_name(0, 1, command, specification, aux1, 0)
}

/// The same of OPEN for reading, the name ended by an EOL.
fn opens(bench: &Bench, name: &[u8]) -> u8 {
    tried(bench, OPEN, &[name, &[EOL]].concat(), R)
}

/// The same with a specification that ends where the area does; the other port's area goes on with an EOL, but is never read.
fn at_the_end(bench: &Bench, command: u8, specification: &[u8], aux1: u8) -> u8 {
    let mut bench = Bench { stick: bench.stick.clone() };
    assert_eq!(bench.load(1, 0, b"\x9B\x9B"), SUCCESS);
    assert_eq!(bench.load(0, AREA - specification.len(), specification), SUCCESS);
    bench.call(0, 1, command, AREA - specification.len(), 0, [aux1, 0, 0]).status
}

/// A listing's records: the entries as given, then the free count.
fn records(entries: &[&[u8]], free: &[u8]) -> Vec<u8> {
    let mut all: Vec<u8> = entries.iter().flat_map(|entry| [entry, &[EOL][..]].concat()).collect();
    all.extend([free, b" FREE SECTORS", &[EOL]].concat());
    all
}

// ---- the worked example and the lines below it ----

#[test]
fn the_example() {
    examples::run(
        "\
F = 00
W 06 00 B4 00 10 00 42 01 00 04 00 48 45 4C 4C 4F 20 20 20 54 58 54
W 06 80 01 00 03 00 48 49 9B
W 06 FD 01 00 03 00 00 00 03
W 06 83 B3 00 02 00 C2 02
W 06 8A B3 00 5A 00 07 FFx44 00 7F FFx43
open 0 00 04 00 44 3A 48 45 4C 4C 4F 2E 54 58 54 9B
0> 10 09 00 00 05 20 00 0A 00 00 00 00 < 90 04 00 03 03 00 00 (4)
0> 12 04 00 20 00 03 00 < 92 04 00 01 48 49 9B
0> 10 09 00 00 05 20 00 0A 00 00 00 00 < 90 04 00 88 00 00 00 (2)
open 0 01 06 00 44 31 3A 2A 2E 2A 9B
0> 10 09 00 01 05 20 00 28 00 00 00 00 < 90 04 00 01 12 00 00 (19)
0> 12 04 00 20 00 12 00 < 92 13 00 01 20 20 48 45 4C 4C 4F 20 20 20 54 58 54 20 30 30 31 9B
0> 10 09 00 01 05 20 00 28 00 00 00 00 < 90 04 00 03 11 00 00 (18)
0> 12 04 00 20 00 11 00 < 92 12 00 01 37 30 36 20 46 52 45 45 20 53 45 43 54 4F 52 53 9B
0> 10 09 00 01 07 20 00 01 00 00 00 00 < 90 04 00 88 00 00 00 (2)
0> 10 09 00 02 0D 00 00 00 00 04 00 00 < 90 04 00 01 00 00 00
W 06 00 B4 00 01 00 62
0> 10 09 00 02 0D 00 00 00 00 04 00 00 < 90 04 00 A7 00 00 00
0> 10 09 00 00 0D 00 00 00 00 00 00 00 < 90 04 00 A7 00 00 00
W 06 FD 01 00 03 00 00 04 7D   sector 4 full and linked to itself
W 06 82 01 00 01 00 4C   no EOL in it
open 0 02 04 00 44 3A 2A 2E 2A 9B
0> 10 09 00 02 05 20 00 01 00 00 00 00 < 90 04 00 A4 01 00 00 (89877)
",
    );
}

/// The block of D in a dump, and a port that waits for another drive.
#[test]
fn a_dump_and_a_port_that_waits() {
    examples::run(
        "\
F = 00
W 06 00 B4 00 10 00 42 01 00 04 00 48 45 4C 4C 4F 20 20 20 54 58 54
W 06 80 01 00 03 00 48 49 9B
W 06 FD 01 00 03 00 00 00 03
open 0 00 04 00 44 31 3A 2A 2E 2A 9B
D[98316..98320] = 01 44 01 04
1> 11 08 00 00 00 44 33 3A 2A 2E 2A < 91 01 00 01
1> 11 03 00 06 00 9B < 91 01 00 01
0> 10 09 00 00 07 20 00 02 00 00 00 00
K 00 = 00
1> 10 09 00 07 03 00 00 00 00 06 00 00 ! 8
P 3F = 00
K 00 = 00
K 01 = 08
K 00 = 00
0< 90 04 00 01 02 00 00
K 01 = 00
1< 90 04 00 01 00 00 00
D[98376..98380] = 01 44 03 06
",
    );
}

#[test]
fn opens_on_that_diskette() {
    let mut bench = laid(&hello());
    reflag(&mut bench, 0, LOCK);
    for (specification, status) in [
        (&b"D:H*.T?T"[..], 0x01),
        (b"D:HELLO", 0xAA),
        (b"D:*", 0xAA),
        (b"D:HELLO.TXTY", 0x01),
        (b"D:HELLO.TXT.", 0xA5),
        (b"D:hello.txt", 0xA5),
        (b"D:ABCDEFGHIJ-", 0xA5),
        (b"D2:*.*", 0xAA),
        (b"D5:*.*", 0x82),
    ] {
        assert_eq!(opens(&bench, specification), status, "{specification:?}");
    }
    assert_eq!(tried(&bench, OPEN, b"D:-", W), 0x84);
    for (specification, status) in [(&b"D:A"[..], 0xB0), (b"D4", 0xB0), (b"D5", 0x82), (b"D:-", 0xA5)] {
        assert_eq!(at_the_end(&bench, OPEN, specification, R), status, "{specification:?}");
    }
}

#[test]
fn a_link_to_720_and_rings_of_one_sector() {
    let start = |link: usize, count: u8| {
        let mut bench = laid(&hello());
        relink(&mut bench, 4, 0, link);
        recount(&mut bench, 4, count);
        assert_eq!(bench.open(0, 0, b"D:*.*\x9B", R, 0), SUCCESS);
        bench
    };
    for (link, count, n, reply) in [(720, 3, 4, (0xA4, 3, 5)), (4, 0, 1, (0xA4, 0, 2)), (4, 1, 720, (0xA4, 719, 721))] {
        let mut bench = start(link, count);
        let got = bench.call(0, 0, GET_CHARACTERS, BUFFER, n, [0; 3]);
        assert_eq!((got.status, got.count, got.ticks), reply);
    }
}

/// The good diskettes of the tests are those of the paper.
#[test]
fn the_diskettes_of_the_tests() {
    let bench = laid(&hello());
    let mut expected = vec![0; IMAGES];
    let mut put = |at: usize, bytes: &[u8]| expected[at..at + bytes.len()].copy_from_slice(bytes);
    put(46_080, b"\x42\x01\0\x04\0HELLO   TXT");
    put(384, b"HI\x9B");
    put(509, &[0, 0, 3]);
    put(45_955, &[0xC2, 2]);
    put(45_962, &[&[7][..], &[0xFF; 44], &[0, 0x7F], &[0xFF; 43]].concat());
    // Not told by the paper, and read by nothing: bytes 0 to 2 of sector 360.
    put(45_952, &bench.stick.images[45_952..45_955]);
    assert!(bench.stick.images == expected);
    // 719 sectors, twelve of them reserved.
    assert_eq!((1..=LAST_SECTOR).filter(|sector| is_reserved(*sector)).count(), 12);
    // A deleted file's sectors are free.
    let mut diskette = hello();
    diskette.add(0x80, b"GONE       ", &chain(&[(5, b"X"), (6, b"Y")]));
    assert_eq!(laid(&diskette).stick.sector(0, 360)[3..5], [0xC2, 2]);
    assert_eq!(laid(&diskette).stick.sector(0, 5)[..1], *b"X");
    assert_eq!(laid(&diskette).stick.sector(0, 5)[125..], [4, 6, 1]);
}

// ---- for all Asks ----

#[test]
fn reading_0_2_the_lent_images_are_judged_in_every_call() {
    assert_eq!((IMAGES, WHOLE[5]), (368_640, 368_640));
    for length in [0, 1, IMAGE, IMAGES - 1] {
        let mut bench = read_from(&[(4, b"AB")]);
        bench.send(1, &[0x11, 3]);
        bench.send(0, &call(0, GET_CHARACTERS, BUFFER, 2, [0; 3]));
        bench.stick.lent[5] = length;
        let before = bench.stick.clone();
        assert_eq!(bench.stick.fresh(), LENT_LENGTH);
        assert_eq!(bench.stick.take(1, 0), LENT_LENGTH);
        assert_eq!(bench.stick.tick(0), LENT_LENGTH);
        assert_eq!(bench.stick.give(0), (LENT_LENGTH, 0));
        assert_eq!(bench.stick.press(0x3F), LENT_LENGTH);
        assert_eq!(bench.stick.take(2, 0), LENT_LENGTH);
        assert_eq!(bench.stick, before);
    }
    // `L` w 6 cuts them, and lends them whole again; 5, 7 and 8 are no buffers of it.
    assert_eq!(play(b"FL\x06\xFF\x9F\x05FP\x3FL\x06\x00\xA0\x05F"), [0, 2, 2, 0]);
    assert_eq!(play(b"L\x06\x00\x00\x00FL\x06\xFF\xFF\xFFF"), [2, 0]);
    assert_eq!(play(b"L\x05\x00\x00\x00L\x07\x00\x00\x00L\x08\x00\x00\x00F"), [0]);
}

#[test]
fn reading_0_3_fresh_leaves_the_images() {
    let mut bench = laid(&hello());
    lay(&mut bench, 3, &hello());
    ring(&mut bench, 1);
    assert_eq!(bench.open(1, 3, b"D4:*.*\x9B", DIRECTORY, 0), SUCCESS);
    start_reading(&mut bench, 0, b"D2:RING\x9B");
    let images = bench.stick.images.clone();
    assert_eq!(bench.stick.fresh(), DONE);
    let mut fresh = Stick::new();
    fresh.images = images;
    assert_eq!(bench.stick, fresh);
    assert_eq!(bench.open(0, 0, b"D4:HELLO.TXT\x9B", R, 0), SUCCESS);
    assert_eq!(got(&mut bench, 3), (LAST_CHARACTER, b"HI\x9B".to_vec()));
}

#[test]
fn reading_0_4_bytes_are_read_as_they_lie() {
    // Data, count and link become others between two reads, and between two ticks of one.
    let mut bench = read_from(&[(4, b"ABCD"), (5, b"EF")]);
    assert_eq!(got(&mut bench, 1), (SUCCESS, b"A".to_vec()));
    write(&mut bench, sector_at(0, 4), b"abcde");
    recount(&mut bench, 4, 5);
    bench.send(0, &call(0, GET_CHARACTERS, BUFFER, 5, [0; 3]));
    for _ in 0..4 {
        assert_eq!(bench.stick.tick(0), DONE);
    }
    assert_eq!(at(&bench), (4, 4, 1));
    write(&mut bench, sector_at(0, 9), b"XYZ");
    relink(&mut bench, 9, 0, 0);
    recount(&mut bench, 9, 3);
    relink(&mut bench, 4, 0, 9);
    bench.finish(0);
    assert_eq!(bench.reply(0), [0x90, 4, 0, 1, 5, 0, 0]);
    assert_eq!((&bench.stick.area[BUFFER..BUFFER + 5], at(&bench)), (&b"bcdeX"[..], (9, 1, 2)));
    // The entry is not looked at again.
    reflag(&mut bench, 0, 0);
    write(&mut bench, entry_at(0, 0) + FIRST_SECTOR_AT, &[0, 0]);
    assert_eq!(got(&mut bench, 2), (LAST_CHARACTER, b"YZ".to_vec()));
}

#[test]
fn reading_0_6_0_7_the_drives_are_one_group_of_its_own() {
    // What needs a diskette waits while the other port holds any of them ..
    for (drive, name) in [(0, &b"D:RING\x9B"[..]), (1, b"D2:RING\x9B"), (3, b"D4:RING\x9B")] {
        for (block, command, waits) in [
            (1, OPEN, true),
            (1, GET_STATUS, true),
            (1, SPECIAL, true),
            (1, CLOSE, false),
            (1, 0x0A, false),
            (1, GET_CHARACTERS, false),
            (0, GET_STATUS, true),
            (0, SPECIAL, true),
            (0, CLOSE, true),
            (0, GET_CHARACTERS, true),
            (0, OPEN, false),
            (0, PUT_CHARACTERS, false),
        ] {
            let mut bench = laid(&hello());
            ring(&mut bench, 2);
            ring(&mut bench, drive);
            assert_eq!(bench.open(1, 0, b"D3:RING\x9B", R, 0), SUCCESS);
            start_reading(&mut bench, 0, name);
            bench.send(1, &call(block, command, 0, 1, [R, 0, 0]));
            assert_eq!(bench.stick.tick(1), if waits { GROUP_HELD } else { DONE }, "{command:02X}");
            if waits {
                bench.finish(0);
                assert_eq!(bench.stick.tick(1), DONE);
            }
        }
    }
    // .. and what is refused before the group does not.
    for (specification, status) in [(&b"D5:A\x9B"[..], 0x82), (b"D0:A\x9B", 0x82), (b"DA\x9B", 0x82), (b"R:", 0x82)] {
        let mut bench = Bench::new();
        ring(&mut bench, 0);
        start_reading(&mut bench, 0, b"D:RING\x9B");
        assert_eq!(bench.open(1, 3, specification, R, 0), status);
    }
    // Console, printer and tape are free meanwhile, and keys are taken.
    let mut bench = Bench::new();
    ring(&mut bench, 0);
    start_reading(&mut bench, 0, b"D:RING\x9B");
    assert_eq!(bench.stick.press(0x3F), DONE);
    for (iocb, specification, aux1) in [(0, &b"E:"[..], 0x0D), (1, b"K:", R), (2, b"P:", W), (3, b"C:", W)] {
        assert_eq!(bench.open(1, iocb, specification, aux1, 0), SUCCESS);
    }
    assert_eq!(bench.get_on(1, 1, GET_CHARACTERS, 1).1, b"A");
    for iocb in [0, 2, 3] {
        assert_eq!(bench.put_on(1, iocb, PUT_RECORD, b"AB").status, SUCCESS);
    }
    assert_eq!(bench.phase(0), 2);
    // And the diskettes while another group is held.
    for (specification, aux1) in [(&b"E:"[..], 0x0D), (b"P:", W), (b"C:", W)] {
        let mut bench = Bench::with(specification, aux1, 0);
        lay(&mut bench, 0, &hello());
        bench.start_long(0);
        assert_eq!(bench.open(1, 0, b"D:HELLO.TXT\x9B", R, 0), SUCCESS);
        assert_eq!(bench.get_on(1, 0, GET_RECORD, 9).1, b"HI\x9B");
        assert_eq!(bench.phase(0), 2);
    }
}

// ---- the readings of Ask 12 ----

#[test]
fn reading_12_1_where_sectors_lie() {
    assert_eq!((IMAGE, IMAGES), (92_160, 4 * 92_160));
    assert_eq!((sector_at(0, 1), sector_at(0, 360), sector_at(0, 361), sector_at(0, 719)), (0, 45_952, 46_080, 91_904));
    assert_eq!((sector_at(1, 1), sector_at(3, 719)), (92_160, 368_384));
    assert_eq!((entry_at(0, 0), entry_at(0, 63)), (46_080, 47_088));
    // Each drive has its own.
    let mut bench = Bench::new();
    for (drive, byte) in [(0, b'a'), (1, b'b'), (2, b'c'), (3, b'd')] {
        lay(&mut bench, drive, &one_file(&[(719, &[byte, byte]), (1, &[byte]), (359, b"."), (369, b";")]));
    }
    for (drive, letter) in [(b'1', b'a'), (b'2', b'b'), (b'3', b'c'), (b'4', b'd')] {
        assert_eq!(bench.open(0, 0, &[b'D', drive, b':', b'A', EOL], R, 0), SUCCESS);
        let file = bench.stick.ports[0].blocks[0].unwrap();
        assert_eq!((file.device, file.number, file.aux1), (Device::D, drive - b'0', R));
        assert_eq!(got(&mut bench, 5), (LAST_CHARACTER, [letter, letter, letter, b'.', b';'].to_vec()));
        assert_eq!(bench.call(0, 0, CLOSE, 0, 0, [0; 3]).status, SUCCESS);
    }
}

#[test]
fn reading_12_2_drives() {
    let mut bench = Bench::new();
    for drive in 0..DRIVES {
        lay(&mut bench, drive, &hello());
    }
    for command in OPENING {
        let good = if command == SPECIAL { BAD_COMMAND } else { SUCCESS };
        for (specification, status) in [
            (&b"D:*.*"[..], good),
            (b"D1:*.*", good),
            (b"D2:*.*", good),
            (b"D3:*.*", good),
            (b"D4:*.*", good),
            (b"D5:*.*", 0x82),
            (b"D6:*.*", 0x82),
            (b"D7:*.*", 0x82),
            (b"D8:*.*", 0x82),
            (b"D9:*.*", 0x82),
            (b"D0:*.*", 0x82),
            (b"D12:*.*", 0x82),
            (b"D4*.*", 0x82),
            (b"D*.*", 0x82),
            (b"d:*.*", 0x82),
        ] {
            assert_eq!(tried(&bench, command, &[specification, &[EOL]].concat(), R), status, "{specification:?}");
        }
        // As the area's last bytes.
        for (specification, status) in [
            (&b"D"[..], 0xB0),
            (b"D1", 0xB0),
            (b"D4", 0xB0),
            (b"D5", 0x82),
            (b"D8", 0x82),
            (b"D0", 0x82),
            (b"D9", 0x82),
            (b"DA", 0x82),
            (b"D-", 0x82),
            (b"D\x9B", 0x82),
            (b"D44", 0x82),
            (b"D4\x9B", 0x82),
            (b"D:", 0xB0),
            (b"D4:", 0xB0),
        ] {
            assert_eq!(at_the_end(&bench, command, specification, R), status, "{specification:?}");
        }
    }
    // `D:` is D1.
    assert_eq!(bench.open(0, 0, b"D:*.*\x9B", R, 0), SUCCESS);
    assert_eq!(bench.stick.ports[0].blocks[0], Some(File { device: Device::D, number: 1, aux1: R }));
}

#[test]
fn reading_12_3_the_name_is_read_to_its_end() {
    let bench = laid(&hello());
    for command in OPENING {
        let good = if command == SPECIAL { BAD_COMMAND } else { SUCCESS };
        // What stands behind the end is not read, nor what is behind a bad byte.
        for (specification, status) in [
            (&b"D:HELLO.TXT\x9B-"[..], good),
            (b"D:HELLO.TXT -", good),
            (b"D:HELLO.TXT \x9B", good),
            (b"D:HELLO.TXT\x9B.", good),
            (b"D: HELLO.TXT\x9B", 0xAA),
            (b"D:-HELLO.TXT\x9B", 0xA5),
        ] {
            assert_eq!(tried(&bench, command, specification, R), status, "{specification:?}");
        }
        // As the area's last bytes.
        for (specification, status) in [
            (&b"D:HELLO.TXT\x9B"[..], good),
            (b"D:HELLO.TXT ", good),
            (b"D:HELLO.TXT", 0xB0),
            (b"D:HELLO.", 0xB0),
            (b"D:*", 0xB0),
            (b"D:?", 0xB0),
            (b"D:A", 0xB0),
            (b"D1:A", 0xB0),
            (b"D:ABCDEFGH", 0xB0),
            (b"D:ABCDEFGHI", 0xB0),
            (b"D:A.TXTY", 0xB0),
            (b"D:-", 0xA5),
            (b"D:A-", 0xA5),
            (b"D:A.B.", 0xA5),
            (b"D:\x9B", 0xAA),
            (b"D: ", 0xAA),
        ] {
            assert_eq!(at_the_end(&bench, command, specification, R), status, "{specification:?}");
        }
        // The address itself past the area.
        let mut bench = Bench { stick: bench.stick.clone() };
        for address in [AREA, 65_535] {
            assert_eq!(bench.call(0, 0, command, address, 0, [R, 0, 0]).status, 0xB0);
        }
    }
}

#[test]
fn reading_12_3_order_of_an_open() {
    let bench = laid(&hello());
    for command in OPENING {
        // $86, bad command, $82 and $B0: before AUX1 and the name.
        let mut open = Bench { stick: bench.stick.clone() };
        assert_eq!(open.call(0, 8, command, 65_535, 0, [W, 0, 0]).status, 0x86);
        assert_eq!(open.call(0, 1, 0x0A, 65_535, 0, [W, 0, 0]).status, 0x84);
        assert_eq!(tried(&bench, command, b"D5:-\x9B", W), 0x82);
        assert_eq!(at_the_end(&bench, command, b"D:A", W), 0xB0);
        // $84 before $A5 and $AA, $A5 before $AA.
        assert_eq!(tried(&bench, command, b"D:-\x9B", W), 0x84);
        assert_eq!(tried(&bench, command, b"D:NONE\x9B", W), 0x84);
        assert_eq!(tried(&bench, command, b"D2:-\x9B", R), 0xA5);
        assert_eq!(tried(&bench, command, b"D:NONE.-\x9B", R), 0xA5);
        assert_eq!(tried(&bench, command, b"D:NONE\x9B", R), 0xAA);
        // A refused one changes nothing.
        for (specification, aux1) in [(&b"D:-\x9B"[..], W), (b"D:-\x9B", R), (b"D:NONE\x9B", R)] {
            let mut refused = Bench { stick: bench.stick.clone() };
            refused.by_name(0, 1, command, specification, aux1, 0);
            refused.stick.area.fill(0);
            assert_eq!(refused.stick, bench.stick);
        }
    }
    // $81 comes before the specification is looked at, and without the group.
    let mut bench = laid(&hello());
    ring(&mut bench, 1);
    assert_eq!(bench.open(1, 0, b"D:*.*\x9B", DIRECTORY, 0), SUCCESS);
    start_reading(&mut bench, 0, b"D2:*\x9B");
    assert_eq!(bench.call(1, 0, OPEN, 65_535, 0, [W, 0, 0]).status, 0x81);
    assert_eq!(bench.open(1, 0, b"D:-\x9B", W, 0), 0x81);
}

#[test]
fn reading_12_3_with_the_group_held() {
    for command in OPENING {
        for (specification, aux1, status) in [
            (&b"D:-\x9B"[..], W, 0x84),
            (b"D:-\x9B", R, 0xA5),
            (b"D:-\x9B", DIRECTORY, 0xA5),
            (b"D:NONE\x9B", R, 0xAA),
            (b"D:NONE\x9B", 0, 0xAA),
        ] {
            let mut bench = Bench::new();
            ring(&mut bench, 2);
            assert_eq!(bench.load(1, 0, specification), SUCCESS);
            start_reading(&mut bench, 0, b"D3:RING\x9B");
            bench.send(1, &call(1, command, 0, 0, [aux1, 0, 0]));
            for _ in 0..2 {
                assert_eq!((bench.stick.tick(1), bench.phase(1)), (GROUP_HELD, 1));
            }
            bench.finish(0);
            assert_eq!(bench.stick.tick(1), DONE);
            assert_eq!(bench.reply(1), [0x90, 4, 0, status, 0, 0, 0]);
        }
    }
}

#[test]
fn reading_12_4_bytes_of_a_name() {
    let bench = laid(&hello());
    for byte in 0..=255u8 {
        let good = byte.is_ascii_uppercase() || byte.is_ascii_digit() || b"*?.".contains(&byte);
        let ends = matches!(byte, b' ' | EOL);
        for (before, behind) in [
            (&b"D:"[..], &b""[..]),
            (b"D:NO", b""),
            (b"D:NO", b"E"),
            (b"D:NONONONO", b""),
            (b"D:NONONONONO", b"E"),
            (b"D:NO*", b""),
        ] {
            let status = if good || ends { 0xAA } else { 0xA5 };
            assert_eq!(opens(&bench, &[before, &[byte], behind].concat()), status, "{byte:02X} behind {before:?}");
        }
        // Behind the dot another dot is none of them.
        for before in [&b"D:NO."[..], b"D:NO.T", b"D:NO.TXT", b"D:NO.TXTY", b"D:NO.*", b"D:."] {
            let status = if good && byte != b'.' || ends { 0xAA } else { 0xA5 };
            assert_eq!(opens(&bench, &[before, &[byte]].concat()), status, "{byte:02X} behind {before:?}");
        }
    }
}

#[test]
fn reading_12_5_patterns() {
    for (name, expected) in [
        (&b""[..], b"           "),
        (b".", b"           "),
        (b"A", b"A          "),
        (b"A.", b"A          "),
        (b".WHY", b"        WHY"),
        (b"MANUAL6", b"MANUAL6    "),
        (b"BRIDGE.002", b"BRIDGE  002"),
        (b"ABCDEFGH.TXT", b"ABCDEFGHTXT"),
        (b"ABCDEFGHI.TXTY", b"ABCDEFGHTXT"),
        (b"ABCDEFGHIJKLMNOP.T", b"ABCDEFGHT  "),
        (b"*", b"????????   "),
        (b"*.*", b"???????????"),
        (b".*", b"        ???"),
        (b"H*", b"H???????   "),
        (b"H*.T?T", b"H???????T?T"),
        (b"H*ELLO.T*XT", b"H???????T??"),
        (b"**.**", b"???????????"),
        (b"?", b"?          "),
        (b"??.?", b"??      ?  "),
        (b"ABCDEFGH*.TXT*", b"ABCDEFGHTXT"),
        (b"ABCDEFGH?.TXT?", b"ABCDEFGHTXT"),
        (b"ABCDEFG*", b"ABCDEFG?   "),
    ] {
        assert_eq!(pattern(name), Some(*expected), "{name:?}");
    }
    for name in [&b"A.B.C"[..], b"..", b"A-", b"a", b":", b"D:A"] {
        assert_eq!(pattern(name), None, "{name:?}");
    }
}

#[test]
fn reading_12_5_matches() {
    let all: [(&Pattern, &[&[u8]], &[&[u8]]); 6] = [
        (
            b"HELLO   TXT",
            &[
                b"HELLO.TXT",
                b"*.*",
                b"H*.*",
                b"HELLO*.T*",
                b"?????.???",
                b"????????.TXT",
                b"HELLO???XYZ.TXT9",
                b"H*P.TXT",
            ],
            &[b"HELLO", b"*", b"HELL.TXT", b"HELLOO.TXT", b"????.TXT", b"HELLO.TX", b"HELLO.", b".TXT", b"", b"H?.TXT"],
        ),
        (b"A          ", &[b"A", b"A.", b"*", b"?", b"A*", b"A???????.???", b"A????????"], &[b"", b"B", b"A.T", b"AA"]),
        (b"           ", &[b"", b".", b"*", b"?", b"*.*"], &[b"A", b".T"]),
        (b"        WHY", &[b".WHY", b"*.WHY", b"?.W?Y"], &[b"WHY", b"", b"A.WHY"]),
        // A byte that no name has is matched by ? alone, and ? and * in an entry are bytes as others.
        (b"a-?*\x9B\x00\xC1 .EX", &[b"*.*", b"????????.???"], &[b"A*.*", b"????????.EX", b"?B*.*"]),
        (b"ABCDEFGHIJK", &[b"ABCDEFGH.IJK", b"ABCDEFGHIJK.IJK", b"ABCDEFGH.IJKL"], &[b"ABCDEFGHIJK", b"ABCDEFG.IJK"]),
    ];
    for (name, good, bad) in all {
        let bench = laid(&entries(&[(USED, name)]));
        for asked in good {
            assert_eq!(opens(&bench, &[b"D:", *asked].concat()), 0x01, "{asked:?}");
        }
        for asked in bad {
            assert_eq!(opens(&bench, &[b"D:", *asked].concat()), 0xAA, "{asked:?}");
        }
    }
}

#[test]
fn reading_12_6_aux1() {
    for aux1 in 0..=255 {
        let mut bench = laid(&hello());
        reflag(&mut bench, 0, LOCK);
        let status = if aux1 & W != 0 { 0x84 } else { 0x01 };
        assert_eq!(bench.open(0, 0, b"D:HELLO.TXT\x9B", aux1, 0xFF), status, "AUX1 {aux1:02X}");
        let expected = match status {
            0x84 => None,
            _ if aux1 == 0x06 => Some(Place::Directory { pattern: *b"HELLO   TXT", entry: 0, place: 0 }),
            _ => Some(Place::File { entry: 0, sector: 4, place: 0, begun: 1 }),
        };
        assert_eq!(bench.stick.ports[0].places[0], expected);
        assert_eq!(bench.stick.ports[0].blocks[0].map(|file| file.aux1), expected.map(|_| aux1));
        // None is $AA, but a directory needs no match.
        let none = match aux1 {
            0x06 => 0x01,
            _ if aux1 & W != 0 => 0x84,
            _ => 0xAA,
        };
        assert_eq!(tried(&bench, OPEN, b"D:NONE\x9B", aux1), none);
        if expected.is_some() {
            let reads = if aux1 & R == 0 { 0x83 } else { 0x01 };
            assert_eq!(bench.call(0, 0, GET_CHARACTERS, 0, 1, [0xFF; 3]).status, reads);
            for command in [PUT_CHARACTERS, PUT_RECORD] {
                let reply = bench.call(0, 0, command, 0, 1, [0xFF; 3]);
                assert_eq!((reply.status, reply.count, reply.ticks), (0x87, 0, 1));
            }
        }
    }
    // The first match opens.
    let mut diskette = Diskette::new();
    for (name, byte) in [(b"X          ", b"x"), (b"AB         ", b"1"), (b"AC         ", b"2"), (b"AB         ", b"3")]
    {
        diskette.add(USED, name, &chain(&[(usize::from(byte[0]), byte)]));
    }
    for (name, byte) in [(&b"D:A*\x9B"[..], b"1"), (b"D:?C\x9B", b"2"), (b"D:*\x9B", b"x"), (b"D:AB\x9B", b"1")] {
        let mut bench = laid(&diskette);
        assert_eq!(bench.open(0, 0, name, R, 0), SUCCESS);
        assert_eq!(got(&mut bench, 1), (LAST_CHARACTER, byte.to_vec()));
    }
}

#[test]
fn reading_12_7_entries() {
    let name = b"A          ";
    for flag in 0..=255u8 {
        let in_use = flag & 0xC0 == 0x40;
        let mut bench = laid(&entries(&[(flag, name), (USED, b"B          ")]));
        assert_eq!(opens(&bench, b"D:A"), if in_use { 0x01 } else { 0xAA }, "flag {flag:02X}");
        // Flag 0 ends the directory; all others are passed over.
        assert_eq!(opens(&bench, b"D:B"), if flag == 0 { 0xAA } else { 0x01 }, "flag {flag:02X}");
        let lock: &[u8] = if flag & 0x20 != 0 { b"* A           000" } else { b"  A           000" };
        let mut expected = Vec::new();
        if in_use {
            expected.push(lock);
        }
        if flag != 0 {
            expected.push(b"  B           000");
        }
        assert_eq!(listing(&mut bench, b"D:*.*"), records(&expected, b"707"), "flag {flag:02X}");
    }
    // The 64th entry is the last; what lies behind the directory is none.
    let mut all = vec![(USED, b"A          "); 63];
    all.push((USED, b"Z          "));
    let mut bench = laid(&entries(&all));
    write(&mut bench, sector_at(0, 369), &entry(USED, 0, 0, b"BEHIND     "));
    assert_eq!(bench.open(0, 0, b"D:Z\x9B", R, 0), 0x01);
    assert!(matches!(bench.stick.ports[0].places[0], Some(Place::File { entry: 63, .. })));
    assert_eq!(opens(&bench, b"D:BEHIND"), 0xAA);
    assert_eq!(opens(&bench, b"D:B*"), 0xAA);
    assert_eq!(listing(&mut bench, b"D:*.*").len(), 64 * 18 + 17);
    reflag(&mut bench, 62, 0);
    assert_eq!(opens(&bench, b"D:Z"), 0xAA);
    reflag(&mut bench, 62, 0x80);
    assert_eq!(opens(&bench, b"D:Z"), 0x01);
}

#[test]
fn reading_12_8_get_status_on_a_closed_block() {
    let bench = laid(&entries(&[(USED, b"A          "), (LOCK, b"B          "), (0x80, b"C          ")]));
    for (name, aux1, status, special) in [
        (&b"D:A\x9B"[..], R, 0x01, 0x84),
        (b"D:A\x9B", 0, 0x01, 0x84),
        (b"D:B\x9B", R, 0xA7, 0x84),
        (b"D:B\x9B", 0, 0xA7, 0x84),
        (b"D:*\x9B", R, 0x01, 0x84),
        (b"D:B\x9B", 0x06, 0x01, 0x84),
        (b"D:B\x9B", 0x26, 0xA7, 0x84),
        (b"D:NONE\x9B", 0x06, 0x01, 0x84),
        (b"D:C\x9B", R, 0xAA, 0xAA),
        (b"D:NONE\x9B", R, 0xAA, 0xAA),
        (b"D:-\x9B", R, 0xA5, 0xA5),
        (b"D:-\x9B", 0x06, 0xA5, 0xA5),
        (b"D:B\x9B", W, 0x84, 0x84),
        (b"D5:B\x9B", R, 0x82, 0x82),
    ] {
        assert_eq!(tried(&bench, GET_STATUS, name, aux1), status, "{name:?} {aux1:02X}");
        for command in [SPECIAL, 0x20, 0xFF] {
            assert_eq!(tried(&bench, command, name, aux1), special, "{name:?} {aux1:02X}");
        }
        // The block is closed again, and nothing else changes.
        let mut after = Bench { stick: bench.stick.clone() };
        after.by_name(0, 1, GET_STATUS, name, aux1, 0);
        after.stick.area.fill(0);
        assert_eq!(after.stick, bench.stick);
    }
    // The first match alone is looked at.
    assert_eq!(tried(&bench, GET_STATUS, b"D:?\x9B", R), 0x01);
    let bench = laid(&entries(&[(LOCK, b"A          "), (USED, b"A          ")]));
    assert_eq!(tried(&bench, GET_STATUS, b"D:A\x9B", R), 0xA7);
}

#[test]
fn reading_12_8_get_status_on_an_open_block() {
    for (aux1, name) in [(R, &b"D:HELLO.TXT\x9B"[..]), (0, b"D:HELLO.TXT\x9B"), (0x06, b"D:*.*\x9B")] {
        let mut bench = laid(&hello());
        assert_eq!(bench.open(0, 0, name, aux1, 0), SUCCESS);
        for flag in 0..=255 {
            reflag(&mut bench, 0, flag);
            let before = bench.stick.clone();
            // The request's own specification and AUX1 are not looked at.
            let reply = bench.call(0, 0, GET_STATUS, 65_535, 9, [W, 0, 0x77]);
            let status = match flag {
                _ if aux1 == 0x06 => 0x01,
                _ if flag & 0xC0 != 0x40 => 0xAA,
                _ if flag & 0x20 != 0 => 0xA7,
                _ => 0x01,
            };
            assert_eq!(reply, Reply { status, count: 0, a: 0x77, ticks: 1 }, "flag {flag:02X}");
            assert_eq!(bench.call(0, 0, SPECIAL, 65_535, 9, [W, 0, 0]).status, 0x84);
            assert_eq!(bench.stick, before);
        }
    }
    // Its entry alone: not the name, nor an end before it.
    let mut bench = laid(&entries(&[(USED, b"A          "), (USED, b"B          ")]));
    assert_eq!(bench.open(0, 0, b"D:B\x9B", R, 0), SUCCESS);
    write(&mut bench, entry_at(0, 1) + NAME_AT, b"OTHER   NEW");
    reflag(&mut bench, 0, 0);
    assert_eq!(bench.call(0, 0, GET_STATUS, 0, 0, [0; 3]).status, 0x01);
    // CLOSE of a file or a directory, whatever has become of it.
    let images = bench.stick.images.clone();
    reflag(&mut bench, 1, 0x80);
    assert_eq!(bench.call(0, 0, CLOSE, 0, 0, [0; 3]), Reply { status: 0x01, count: 0, a: 0, ticks: 1 });
    assert_eq!((bench.stick.ports[0].blocks[0], bench.stick.ports[0].places[0]), (None, None));
    reflag(&mut bench, 1, USED);
    assert!(bench.stick.images == images);
}

#[test]
fn reading_12_9_each_block_has_its_own_place() {
    // Sixteen blocks, half of them on one file, half in listings of their own.
    let mut bench = laid(&one_file(&[(4, b"abcdefgh"), (5, b"ijklmnop")]));
    for place in 0..16 {
        let (port, iocb) = (place / 8, place % 8);
        let (name, aux1): (&[u8], u8) = if iocb < 4 { (b"D:A\x9B", R) } else { (b"D:*.*\x9B", DIRECTORY) };
        assert_eq!(bench.open(port, iocb, name, aux1, 0), SUCCESS);
    }
    let list = records(&[b"  A           002"], b"705");
    for round in 0..3 {
        for place in 0..16u8 {
            let (port, iocb) = (place / 8, place % 8);
            let n = 1 + usize::from(place % 4);
            let (reply, bytes) = bench.get_on(port, iocb, GET_CHARACTERS, n);
            let text: &[u8] = if iocb < 4 { b"abcdefghijklmnop" } else { &list };
            assert_eq!((reply.status, &bytes[..]), (SUCCESS, &text[round * n..(round + 1) * n]), "{port} {iocb}");
        }
    }
    // Closed and open again it begins anew; the others stay where they are.
    assert_eq!(bench.call(1, 1, CLOSE, 0, 0, [0; 3]).status, SUCCESS);
    assert_eq!(bench.open(1, 1, b"D:A\x9B", R, 0), SUCCESS);
    assert_eq!(bench.get_on(1, 1, GET_CHARACTERS, 3).1, b"abc");
    assert_eq!(bench.get_on(0, 1, GET_CHARACTERS, 3).1, b"ghi");
}

#[test]
fn reading_12_9_the_first_sector_is_the_entrys_at_open() {
    let mut bench = read_from(&[(4, b"AB")]);
    write(&mut bench, sector_at(0, 9), b"XY");
    recount(&mut bench, 9, 2);
    write(&mut bench, entry_at(0, 0) + FIRST_SECTOR_AT, &[9, 0]);
    assert_eq!(got(&mut bench, 1), (SUCCESS, b"A".to_vec()));
    assert_eq!(bench.open(0, 1, b"D:A\x9B", R, 0), SUCCESS);
    assert_eq!(bench.get_on(0, 1, GET_CHARACTERS, 1).1, b"X");
    // All sixteen bits of it.
    for (first, status) in
        [(9, 0x01), (0, 0x88), (256 + 9, 0x88), (719, 0xA4), (720, 0xA4), (0x8009, 0xA4), (65_535, 0xA4)]
    {
        let mut bench = laid(&one_file(&[(4, b"AB")]));
        write(&mut bench, sector_at(0, 9), b"XY");
        recount(&mut bench, 9, 2);
        relink(&mut bench, 719, 1, 0);
        write(&mut bench, entry_at(0, 0) + FIRST_SECTOR_AT, &(first as u16).to_le_bytes());
        assert_eq!(bench.open(0, 0, b"D:A\x9B", R, 0), SUCCESS);
        assert_eq!(got(&mut bench, 1).0, status, "first {first}");
    }
}

#[test]
fn reading_12_10_a_read() {
    let sectors: [(usize, &[u8]); 4] = [(700, b"AB"), (5, b""), (719, b""), (6, b"C\x9B")];
    let mut bench = read_from(&sectors);
    for (character, status, then) in
        [(b'A', 0x01, (700, 1, 1)), (b'B', 0x01, (700, 2, 1)), (b'C', 0x01, (6, 1, 4)), (EOL, 0x03, (6, 2, 4))]
    {
        // Over two empty sectors in the same tick.
        let reply = bench.call(0, 0, GET_CHARACTERS, 65_535, 0, [0; 3]);
        assert_eq!(reply, Reply { status, count: 0, a: character, ticks: 2 });
        assert_eq!(at(&bench), then);
    }
    assert_eq!(refused(&mut bench), 0x88);
    assert_eq!(refused(&mut bench), 0x88);
    // Whole sectors: 125 characters.
    let full: Vec<u8> = (0..125).collect();
    let mut bench = read_from(&[(4, &full), (5, &full[..124]), (6, &full)]);
    let (reply, bytes) = bench.get(GET_CHARACTERS, 374);
    assert_eq!((reply.status, reply.ticks), (0x03, 375));
    assert_eq!(bytes, [&full[..], &full[..124], &full].concat());
    assert_eq!(at(&bench), (6, 125, 3));
    // EOL means nothing to D.
    let mut bench = read_from(&[(4, b"A\x9B\x9B"), (5, b"B\x9BC")]);
    for (n, status, bytes) in [(9, 0x01, &b"A\x9B"[..]), (1, 0x01, b"\x9B"), (9, 0x01, b"B\x9B"), (9, 0x88, b"C")] {
        let (reply, read) = bench.get(GET_RECORD, n);
        assert_eq!((reply.status, &read[..]), (status, bytes));
    }
}

#[test]
fn reading_12_10_a_bad_chain() {
    let start = || read_from(&[(4, b"AB"), (5, b"CD"), (6, b"EF")]);
    // What makes the first sector bad, and the second, and a sector in its middle.
    let spoilers: [(&str, &dyn Fn(&mut Bench, usize)); 9] = [
        ("file number 1", &|bench, sector| write(bench, sector_at(0, sector) + 125, &[4])),
        ("file number 63", &|bench, sector| write(bench, sector_at(0, sector) + 125, &[0xFC])),
        ("file number 32", &|bench, sector| write(bench, sector_at(0, sector) + 125, &[0x80])),
        ("file number 1 and the end", &|bench, sector| write(bench, sector_at(0, sector) + 125, &[4, 0])),
        ("count 126", &|bench, sector| recount(bench, sector, 126)),
        ("count 127", &|bench, sector| recount(bench, sector, 127)),
        ("count 128", &|bench, sector| recount(bench, sector, 128)),
        ("count 255", &|bench, sector| recount(bench, sector, 255)),
        ("both", &|bench, sector| write(bench, sector_at(0, sector) + 125, &[4, 0, 255])),
    ];
    for (what, spoil) in spoilers {
        let mut bench = start();
        spoil(&mut bench, 4);
        for _ in 0..3 {
            assert_eq!((refused(&mut bench), at(&bench)), (0xA4, (4, 0, 1)), "{what}");
        }
        let mut bench = start();
        assert_eq!(got(&mut bench, 1).0, 0x01);
        spoil(&mut bench, 4);
        assert_eq!((refused(&mut bench), at(&bench)), (0xA4, (4, 1, 1)), "{what}");
        let mut bench = start();
        spoil(&mut bench, 5);
        // It is met by the read behind it, and nothing moves, not even over the link.
        for (count, ticks) in [(2, 4), (0, 2), (0, 2)] {
            let reply = bench.call(0, 0, GET_CHARACTERS, BUFFER, 9, [0; 3]);
            assert_eq!((reply.status, reply.count, reply.ticks), (0xA4, count, ticks), "{what}");
            assert_eq!(at(&bench), (4, 2, 1));
        }
        // Mended, it goes on there.
        relink(&mut bench, 5, 0, 6);
        recount(&mut bench, 5, 2);
        assert_eq!(got(&mut bench, 4), (0x03, b"CDEF".to_vec()), "{what}");
        // Its last character read, the sector is judged once more.
        let mut bench = start();
        assert_eq!(got(&mut bench, 2), (0x01, b"AB".to_vec()));
        spoil(&mut bench, 4);
        assert_eq!((refused(&mut bench), at(&bench)), (0xA4, (4, 2, 1)), "{what}");
    }
    // A link above 719; 719 itself is a sector.
    for next in [719, 720, 721, 767, 1_023] {
        let mut bench = start();
        relink(&mut bench, 4, 0, next);
        let (reply, _) = bench.get(GET_CHARACTERS, 3);
        let status = if next == 719 { 0x88 } else { 0xA4 };
        assert_eq!((reply.status, reply.count, reply.ticks), (status, 2, 4), "link {next}");
        assert_eq!(at(&bench), (4, 2, 1));
    }
    // Dropped into it.
    let mut bench = start();
    relink(&mut bench, 6, 0, 720);
    let (reply, bytes) = bench.get(GET_RECORD, 1);
    assert_eq!((reply.status, &bytes[..], reply.ticks), (0xA4, &b"A"[..], 8));
}

#[test]
fn reading_12_10_a_count_that_has_changed() {
    let start = || {
        let mut bench = read_from(&[(4, b"ABCDE"), (5, b"XY")]);
        assert_eq!(got(&mut bench, 3), (0x01, b"ABC".to_vec()));
        bench
    };
    for (count, status, byte, then) in
        [(5, 0x01, b'D', (4, 4, 1)), (4, 0x01, b'D', (4, 4, 1)), (3, 0x01, b'X', (5, 1, 2)), (0, 0x01, b'X', (5, 1, 2))]
    {
        let mut bench = start();
        recount(&mut bench, 4, count);
        assert_eq!((got(&mut bench, 1), at(&bench)), ((status, vec![byte]), then), "count {count}");
    }
    // Behind the last character the file may go on: in the sector, or over another link.
    let mut bench = read_from(&[(4, b"AB")]);
    assert_eq!((got(&mut bench, 2), at(&bench)), ((0x03, b"AB".to_vec()), (4, 2, 1)));
    write(&mut bench, sector_at(0, 4), b"ABC");
    recount(&mut bench, 4, 3);
    assert_eq!(got(&mut bench, 1), (0x03, b"C".to_vec()));
    assert_eq!(refused(&mut bench), 0x88);
    relink(&mut bench, 4, 0, 4);
    assert_eq!((got(&mut bench, 2), at(&bench)), ((0x01, b"AB".to_vec()), (4, 2, 2)));
}

#[test]
fn reading_12_10_the_720th_sector() {
    // A ring of one sector with one character: the 719th is given.
    let mut bench = Bench::new();
    ring(&mut bench, 0);
    assert_eq!(bench.open(0, 0, b"D:RING\x9B", R, 0), SUCCESS);
    assert_eq!((got(&mut bench, 718).0, at(&bench)), (0x01, (9, 1, 718)));
    assert_eq!((got(&mut bench, 1), at(&bench)), ((0x01, b"R".to_vec()), (9, 1, 719)));
    assert_eq!((refused(&mut bench), refused(&mut bench)), (0xA4, 0xA4));
    // Which sectors they were does not matter: with another link it is still the 720th, but the end is none.
    relink(&mut bench, 9, 0, 10);
    assert_eq!(refused(&mut bench), 0xA4);
    relink(&mut bench, 9, 0, 720);
    assert_eq!(refused(&mut bench), 0xA4);
    relink(&mut bench, 9, 0, 0);
    assert_eq!(refused(&mut bench), 0x88);
    // Open anew it begins anew.
    assert_eq!(bench.call(0, 0, CLOSE, 0, 0, [0; 3]).status, SUCCESS);
    relink(&mut bench, 9, 0, 9);
    assert_eq!(bench.open(0, 0, b"D:RING\x9B", R, 0), SUCCESS);
    assert_eq!(got(&mut bench, 719).0, 0x01);
    // Empty sectors count: in a ring of two, one of them empty, 360 characters.
    let mut bench = read_from(&[(4, b"A"), (5, b"")]);
    relink(&mut bench, 5, 0, 4);
    let (reply, _) = bench.get(GET_CHARACTERS, 400);
    assert_eq!((reply.status, reply.count, reply.ticks), (0xA4, 360, 362));
    assert_eq!(at(&bench), (4, 1, 719));
    // All of them empty: one tick.
    let mut bench = read_from(&[(4, b"")]);
    relink(&mut bench, 4, 0, 4);
    assert_eq!((refused(&mut bench), refused(&mut bench), at(&bench)), (0xA4, 0xA4, (4, 0, 1)));
}

/// Files over the sectors 1 to `last`, `behind` them the end or one more.
fn over_all(last: usize, behind: usize, count: usize) -> Bench {
    let mut bench = Bench::new();
    write(&mut bench, 0, &chain_of_all(b"ALL        ", last, behind, count, b'A'));
    assert_eq!(bench.open(0, 0, b"D:ALL\x9B", R, 0), SUCCESS);
    bench
}

#[test]
fn reading_12_11_the_719th_sector_may_end_the_file() {
    // Reserved sectors are read like others: the chain goes over all of them.
    for (last, behind, characters, status, next) in [
        (718, 0, 718, 0x03, 0x88),
        (719, 0, 719, 0x03, 0x88),
        (719, 1, 719, 0x01, 0xA4),
        (719, 719, 719, 0x01, 0xA4),
        (719, 720, 719, 0x01, 0xA4),
        (718, 1, 719, 0x01, 0xA4),
        (718, 720, 718, 0x01, 0xA4),
    ] {
        let mut bench = over_all(last, behind, 1);
        let (reply, _) = bench.get(GET_CHARACTERS, characters);
        assert_eq!((reply.status, reply.count), (status, characters), "{last}, then {behind}");
        assert_eq!(refused(&mut bench), next, "{last}, then {behind}");
        // All empty but the last.
        let mut bench = over_all(last, behind, 0);
        recount(&mut bench, last, 1);
        let reply = bench.call(0, 0, GET_CHARACTERS, BUFFER, 1, [0; 3]);
        assert_eq!((reply.status, reply.ticks), (status, 2), "{last}, then {behind}");
        assert_eq!(refused(&mut bench), next, "{last}, then {behind}");
    }
    // An empty file of 719 sectors.
    let mut bench = over_all(719, 0, 0);
    assert_eq!(refused(&mut bench), 0x88);
    let mut bench = over_all(719, 1, 0);
    assert_eq!(refused(&mut bench), 0xA4);
}

#[test]
fn reading_12_11_open_never_gives_a4() {
    for first in [0, 1, 4, 360, 361, 368, 719, 720, 65_535] {
        let mut bench = laid(&one_file(&[(4, b"AB")]));
        write(&mut bench, sector_at(0, 4) + LINK_AT, &[0xFF, 0xFF, 0xFF]);
        write(&mut bench, entry_at(0, 0) + FIRST_SECTOR_AT, &(first as u16).to_le_bytes());
        for (command, status) in [(OPEN, 0x01), (GET_STATUS, 0x01), (SPECIAL, 0x84)] {
            assert_eq!(tried(&bench, command, b"D:A\x9B", R), status, "first {first}");
        }
    }
    // The directory's own sector as a file: entry 7's extension is link and count.
    let mut all = vec![(USED, b"A          "); 7];
    all.push((USED, b"EIGHT   \x00\x00\x10"));
    let mut bench = laid(&entries(&all));
    write(&mut bench, entry_at(0, 0) + FIRST_SECTOR_AT, &[0x69, 1]);
    assert_eq!(bench.open(0, 0, b"D:A\x9B", R, 0), SUCCESS);
    assert_eq!(got(&mut bench, 16), (0x03, b"\x42\0\0\x69\x01A          ".to_vec()));
}

#[test]
fn reading_12_12_a_listing() {
    let mut diskette = Diskette::new();
    diskette.add(USED, b"HELLO   TXT", &chain(&[(4, b"HI\x9B")]));
    diskette.add(0x80, b"GONE    TXT", &chain(&[(5, b"A")]));
    diskette.add(LOCK, b"LOCKED     ", &chain(&[(6, b"B"), (7, b"C")]));
    diskette.add(0x41, b"OPEN    T  ", &[]);
    diskette.add(USED, b"a\x9B\x00.*?~ -  ", &chain(&[(8, b"")]));
    let mut bench = laid(&diskette);
    let (hello, lock) = (&b"  HELLO   TXT 001"[..], &b"* LOCKED      002"[..]);
    let (open, odd) = (&b"  OPEN    T   000"[..], &b"  a\x9B\x00.*?~ -   001"[..]);
    for (name, expected) in [
        (&b"D:*.*"[..], records(&[hello, lock, open, odd], b"703")),
        (b"D1:*.T*", records(&[hello, open], b"703")),
        (b"D:L*", records(&[lock], b"703")),
        (b"D:HELLO.TXT", records(&[hello], b"703")),
        (b"D:GONE.TXT", records(&[], b"703")),
        (b"D:NONE", records(&[], b"703")),
        (b"D:", records(&[], b"703")),
        (b"D3:*.*", records(&[], b"000")),
    ] {
        assert_eq!(listing(&mut bench, name), expected, "{name:?}");
    }
    // One that is listed once although its sectors are another's; counts modulo 1,000, with leading zeros.
    for (count, digits) in [
        (0usize, b"000"),
        (7, b"007"),
        (42, b"042"),
        (719, b"719"),
        (999, b"999"),
        (1_000, b"000"),
        (1_234, b"234"),
        (65_535, b"535"),
    ] {
        let bytes = (count as u16).to_le_bytes();
        write(&mut bench, entry_at(0, 0) + SECTOR_COUNT_AT, &bytes);
        write(&mut bench, sector_at(0, 360) + FREE_COUNT_AT, &bytes);
        let record = [b"  HELLO   TXT ", &digits[..]].concat();
        assert_eq!(listing(&mut bench, b"D:H*.*"), records(&[&record], digits), "{count}");
    }
}

#[test]
fn reading_12_12_records_and_places() {
    let mut bench = laid(&entries(&[(USED, b"A          "), (LOCK, b"B          ")]));
    assert_eq!(bench.open(0, 0, b"D:*\x9B", DIRECTORY, 0), SUCCESS);
    let place = |bench: &Bench| match bench.stick.ports[0].places[0] {
        Some(Place::Directory { entry, place, .. }) => (entry, place),
        other => panic!("no directory: {other:?}"),
    };
    assert_eq!(place(&bench), (0, 0));
    for (command, n, status, bytes, ticks, then) in [
        (GET_RECORD, 18, 0x01, &b"  A           000\x9B"[..], 19, (1, 0)),
        (GET_RECORD, 5, 0x89, b"* B  ", 19, (2, 0)),
        (GET_CHARACTERS, 1, 0x01, b"7", 2, (64, 1)),
        (GET_RECORD, 16, 0x03, b"07 FREE SECTORS\x9B", 17, (65, 0)),
        (GET_RECORD, 16, 0x88, b"", 2, (65, 0)),
        (GET_CHARACTERS, 16, 0x88, b"", 2, (65, 0)),
    ] {
        let (reply, read) = bench.get(command, n);
        assert_eq!((reply.status, &read[..], reply.ticks), (status, bytes, ticks));
        assert_eq!(place(&bench), then);
    }
    // The last record cut is $89, all and one more $88, the last EOL by A $03.
    for (command, n, status, count) in [
        (GET_RECORD, 16, 0x89, 16),
        (GET_CHARACTERS, 17, 0x03, 17),
        (GET_CHARACTERS, 18, 0x88, 17),
        (GET_RECORD, 17, 0x03, 17),
    ] {
        let mut bench = Bench::new();
        assert_eq!(bench.open(0, 0, b"D:*\x9B", DIRECTORY, 0), SUCCESS);
        let (reply, _) = bench.get(command, n);
        assert_eq!((reply.status, reply.count), (status, count));
        assert_eq!(refused(&mut bench), 0x88);
    }
    let mut bench = Bench::new();
    assert_eq!(bench.open(0, 0, b"D:*\x9B", DIRECTORY, 0), SUCCESS);
    assert_eq!(got(&mut bench, 16), (0x01, b"000 FREE SECTORS".to_vec()));
    let reply = bench.call(0, 0, GET_RECORD, 65_535, 0, [0; 3]);
    assert_eq!(reply, Reply { status: 0x03, count: 0, a: EOL, ticks: 2 });
}

#[test]
fn reading_12_12_a_full_directory() {
    let mut all = vec![(USED, b"A          "); 64];
    all[63] = (LOCK, b"Z       ZZZ");
    let mut bench = laid(&entries(&all));
    let list = listing(&mut bench, b"D:*.*");
    assert_eq!(list.len(), 64 * 18 + 17);
    assert_eq!(list[63 * 18..], records(&[b"* Z       ZZZ 000"], b"707"));
    assert_eq!(listing(&mut bench, b"D:Z.*"), records(&[b"* Z       ZZZ 000"], b"707"));
    // Behind entry 63's EOL comes the free record: not the last character.
    assert_eq!(bench.open(0, 0, b"D:Z.*\x9B", DIRECTORY, 0), SUCCESS);
    assert_eq!(bench.get(GET_RECORD, 18).0.status, 0x01);
    assert_eq!(
        bench.stick.ports[0].places[0],
        Some(Place::Directory { pattern: *b"Z       ???", entry: 64, place: 0 })
    );
    assert_eq!(bench.get(GET_RECORD, 17).0.status, 0x03);
    for flag in [0x80, 0] {
        reflag(&mut bench, 63, flag);
        assert_eq!(listing(&mut bench, b"D:Z.*"), records(&[], b"707"));
    }
}

#[test]
fn reading_12_9_12_12_a_directory_that_changes() {
    let start = |n: usize| {
        let mut bench = laid(&entries(&[(USED, b"A          "), (USED, b"B          "), (USED, b"C          ")]));
        assert_eq!(bench.open(0, 0, b"D:*\x9B", DIRECTORY, 0), SUCCESS);
        if n > 0 {
            assert_eq!(got(&mut bench, n).0, 0x01);
        }
        bench
    };
    let rest = |bench: &mut Bench| got(bench, 100).1;
    // A record's first character looks for the match: what comes before it is gone, what comes later is there.
    let mut bench = start(18);
    reflag(&mut bench, 1, 0x80);
    assert_eq!(rest(&mut bench), records(&[b"  C           000"], b"707"));
    let mut bench = start(18);
    reflag(&mut bench, 1, 0);
    assert_eq!(rest(&mut bench), records(&[], b"707"));
    let mut bench = start(0);
    reflag(&mut bench, 0, LOCK);
    write(&mut bench, entry_at(0, 1) + NAME_AT, b"NEW     TXT");
    assert_eq!(rest(&mut bench), records(&[b"* A           000", b"  C           000"], b"707"));
    let mut bench = start(3 * 18);
    write(&mut bench, entry_at(0, 3), &entry(USED, 9, 0, b"D          "));
    assert_eq!(rest(&mut bench), records(&[b"  D           009"], b"707"));
    // The free record begun, no match comes any more; its count is read as it lies.
    let mut bench = start(3 * 18 + 1);
    write(&mut bench, entry_at(0, 3), &entry(USED, 9, 0, b"D          "));
    write(&mut bench, sector_at(0, 360) + FREE_COUNT_AT, &[123, 0]);
    assert_eq!(rest(&mut bench), b"23 FREE SECTORS\x9B");
    // In the middle of a record its entry is read as it lies, in use or not, a match or not.
    let mut bench = start(18 + 2);
    write(&mut bench, entry_at(0, 1), &entry(0x80, 321, 0, b"XYZ     TXT"));
    reflag(&mut bench, 0, 0);
    assert_eq!(rest(&mut bench), [b"XYZ     TXT 321\x9B", &records(&[b"  C           000"], b"707")[..]].concat());
    // An end before the entry that comes next is not seen.
    let mut bench = start(18);
    reflag(&mut bench, 0, 0);
    assert_eq!(rest(&mut bench), records(&[b"  B           000", b"  C           000"], b"707"));
}

#[test]
fn reading_12_13_the_last_character() {
    let by_a = |bench: &mut Bench| {
        let reply = bench.call(0, 0, GET_CHARACTERS, 65_535, 0, [0, 0, 0x5A]);
        (reply.status, reply.a)
    };
    let full = [b'F'; 125];
    // What follows, the status of the character before it, and what then comes.
    for data in [&b"Z"[..], &full] {
        let last = data[0];
        for (behind, status, then) in [
            (&[][..], 0x03, 0x88),
            (&[(5, &b""[..])], 0x03, 0x88),
            (&[(5, b""), (719, b""), (6, b"")], 0x03, 0x88),
            (&[(5, b"X")], 0x01, 0x03),
            (&[(5, b""), (6, b"X")], 0x01, 0x03),
        ] {
            let mut bench = read_from(&[&[(4, data)], behind].concat());
            if data.len() > 1 {
                assert_eq!(got(&mut bench, 124).0, 0x01);
            }
            assert_eq!(by_a(&mut bench), (status, last));
            assert_eq!(by_a(&mut bench).0, then);
        }
        // Not where the next read gives $A4: behind it, or behind empty sectors.
        for spoilt in [4, 5, 6] {
            for next in [720, 1_023] {
                let mut bench = read_from(&[(4, data), (5, b""), (6, b"")]);
                relink(&mut bench, spoilt, 0, next);
                if data.len() > 1 {
                    assert_eq!(got(&mut bench, 124).0, 0x01);
                }
                assert_eq!(by_a(&mut bench), (0x01, last));
                assert_eq!(by_a(&mut bench), (0xA4, 0x5A));
            }
        }
        let mut bench = read_from(&[(4, data), (5, b""), (6, b"")]);
        write(&mut bench, sector_at(0, 6) + 125, &[4]);
        if data.len() > 1 {
            assert_eq!(got(&mut bench, 124).0, 0x01);
        }
        assert_eq!(by_a(&mut bench), (0x01, last));
    }
}

#[test]
fn reading_12_13_as_in_ask_7() {
    let start = || read_from(&[(4, b"AB"), (5, b"\x9B"), (6, b"")]);
    for (command, n, status, bytes, ticks) in [
        (GET_RECORD, 10, 0x03, &b"AB\x9B"[..], 4),
        (GET_RECORD, 3, 0x03, b"AB\x9B", 4),
        (GET_RECORD, 2, 0x89, b"AB", 4),
        (GET_RECORD, 1, 0x89, b"A", 4),
        (GET_CHARACTERS, 3, 0x03, b"AB\x9B", 4),
        (GET_CHARACTERS, 4, 0x88, b"AB\x9B", 5),
        (GET_CHARACTERS, 2, 0x01, b"AB", 3),
    ] {
        let mut bench = start();
        let (reply, read) = bench.get(command, n);
        assert_eq!((reply.status, &read[..], reply.ticks), (status, bytes, ticks), "{command:02X} {n}");
    }
    // Without an EOL a record meets the end.
    for n in [1, 2, 3] {
        let mut bench = read_from(&[(4, b"AB")]);
        let (reply, read) = bench.get(GET_RECORD, n);
        assert_eq!((reply.status, &read[..], reply.ticks), (0x88, &b"AB"[..n.min(2)], 4));
    }
    // An empty file has no last character: first sector 0, or empty sectors only.
    for sectors in [&[][..], &[(4, &b""[..])], &[(4, b""), (5, b"")]] {
        let mut bench = read_from(sectors);
        assert_eq!((refused(&mut bench), refused(&mut bench)), (0x88, 0x88));
    }
    // Judged as the image lies after the read.
    let mut bench = start();
    bench.send(0, &call(0, GET_CHARACTERS, BUFFER, 3, [0; 3]));
    for _ in 0..3 {
        assert_eq!(bench.stick.tick(0), DONE);
    }
    recount(&mut bench, 6, 1);
    bench.finish(0);
    assert_eq!(bench.reply(0), [0x90, 4, 0, 0x01, 3, 0, 0]);
    // Nothing of the state says it: the file goes on after all.
    let mut bench = start();
    assert_eq!(got(&mut bench, 3), (0x03, b"AB\x9B".to_vec()));
    write(&mut bench, sector_at(0, 6), b"Q");
    recount(&mut bench, 6, 1);
    assert_eq!(got(&mut bench, 1), (0x03, b"Q".to_vec()));
}

#[test]
fn reading_12_14_the_longest_request() {
    for (behind, status) in [(0, 0x88), (1, 0xA4)] {
        for n in [1, 100, AREA] {
            let mut bench = over_all(719, behind, 125);
            // No EOL among all the bytes.
            assert!((1..=719).all(|sector| bench.stick.sector(0, sector)[..125].iter().all(|&byte| byte != EOL)));
            bench.send(0, &call(0, GET_RECORD, 0, n, [0; 3]));
            assert_eq!(bench.stick.tick(0), DONE);
            assert_eq!(bench.finish(0), 89_876);
            let [low, high] = (n as u16).to_le_bytes();
            assert_eq!(bench.reply(0), [0x90, 4, 0, status, low, high, 0]);
            assert_eq!(at(&bench), (719, 125, 719));
        }
    }
    assert_eq!(719 * 125 + 1, 89_876);
}

/// What is not damaged, of the blocks that have D open.
fn fits(stick: &Stick) -> bool {
    let blocks = stick.ports.iter().flat_map(|port| port.blocks.iter().zip(&port.places));
    blocks.into_iter().all(|(file, place)| match (file, place) {
        (Some(file), Some(place)) => {
            let within = match *place {
                Place::File { entry, sector, place, begun } => {
                    file.aux1 != 6 && entry <= 63 && sector <= 65_535 && place <= 125 && (1..=719).contains(&begun)
                }
                Place::Directory { entry, place, .. } => {
                    file.aux1 == 6
                        && match entry {
                            0..=63 => place <= 17,
                            64 => place <= 16,
                            _ => (entry, place) == (65, 0),
                        }
                }
            };
            file.device == Device::D && (1..=4).contains(&file.number) && file.aux1 & W == 0 && within
        }
        (Some(file), None) => file.device != Device::D,
        (None, None) => true,
        (None, Some(_)) => false,
    })
}

#[test]
fn reading_12_15_no_call_leads_to_damage() {
    let mut seen = 0;
    for seed in 1..=300 {
        let mut player = Player::new();
        for op in conversation(seed, false) {
            if !player.play(&op, &mut Vec::new()) {
                break;
            }
            assert!(matches!(op, Op::Dump | Op::DumpTape) || fits(&player.stick), "seed {seed}");
            seen += usize::from(player.stick.ports.iter().any(|port| port.places.iter().any(Option::is_some)));
        }
    }
    assert!(seen > 1_000);
}

// ---- wrong machines: of each the test that it fails ----

#[test]
fn wrong_sector_s_at_s_times_128() {
    let mut bench = Bench::new();
    write(&mut bench, 46_080, &entry(USED, 1, 4, b"A          "));
    write(&mut bench, 384, b"RIGHT");
    write(&mut bench, 384 + 125, &[0, 0, 5]);
    write(&mut bench, 45_955, &[42, 0]);
    // What that machine would read.
    write(&mut bench, 46_208, &entry(USED, 2, 4, b"B          "));
    write(&mut bench, 512, b"WRONG");
    write(&mut bench, 512 + 125, &[0, 0, 5]);
    write(&mut bench, 46_083, &[4, 0]);
    assert_eq!(opens(&bench, b"D:B"), 0xAA);
    assert_eq!(listing(&mut bench, b"D:*"), records(&[b"  A           001"], b"042"));
    assert_eq!(bench.open(0, 0, b"D:A\x9B", R, 0), SUCCESS);
    assert_eq!(got(&mut bench, 5), (0x03, b"RIGHT".to_vec()));
}

#[test]
fn wrong_deleted_entries_listed() {
    for flag in [0x80, 0xC2, 0xE2, 0xFF] {
        let mut bench = laid(&entries(&[(flag, b"GONE       "), (USED, b"A          "), (flag, b"GONE       ")]));
        assert_eq!(listing(&mut bench, b"D:*"), records(&[b"  A           000"], b"707"));
        assert_eq!(opens(&bench, b"D:GONE"), 0xAA);
        assert_eq!(tried(&bench, GET_STATUS, b"D:GONE\x9B", R), 0xAA);
    }
}

#[test]
fn wrong_the_listing_ended_at_a_deleted_entry() {
    for flag in [0x80, 0xC2, 0x20, 0x01] {
        let all = [(USED, b"A          "), (flag, b"GONE       "), (flag, b"GONE       "), (LOCK, b"B          ")];
        let mut bench = laid(&entries(&all));
        assert_eq!(listing(&mut bench, b"D:*"), records(&[b"  A           000", b"* B           000"], b"707"));
        assert_eq!(opens(&bench, b"D:B"), 0x01);
    }
}

#[test]
fn wrong_the_free_count_from_the_map() {
    let mut bench = laid(&hello());
    write(&mut bench, sector_at(0, 360) + MAP_AT, &[0; 90]);
    assert_eq!(listing(&mut bench, b"D:NONE"), records(&[], b"706"));
    write(&mut bench, sector_at(0, 360) + FREE_COUNT_AT, &[5, 1]);
    assert_eq!(listing(&mut bench, b"D:NONE"), records(&[], b"261"));
}

#[test]
fn wrong_a_ring_found_before_the_720th_sector() {
    for sectors in [1, 2, 3, 7] {
        let chain: Vec<(usize, &[u8])> = (0..sectors).map(|place| (4 + place, &b"A"[..])).collect();
        let mut bench = read_from(&chain);
        relink(&mut bench, 3 + sectors, 0, 4);
        let (reply, _) = bench.get(GET_CHARACTERS, 800);
        assert_eq!((reply.status, reply.count, reply.ticks), (0xA4, 719, 721), "{sectors} sectors");
    }
}

#[test]
fn wrong_the_719th_sector_refused() {
    let mut bench = over_all(719, 0, 1);
    assert_eq!(got(&mut bench, 718).0, 0x01);
    assert_eq!(got(&mut bench, 1).0, 0x03);
    assert_eq!(refused(&mut bench), 0x88);
    // In a ring too.
    let mut bench = Bench::new();
    ring(&mut bench, 0);
    assert_eq!(bench.open(0, 0, b"D:RING\x9B", R, 0), SUCCESS);
    assert_eq!(got(&mut bench, 719).0, 0x01);
}

#[test]
fn wrong_a_bad_chain_refused_by_open() {
    let mut bench = laid(&one_file(&[(4, b"AB"), (5, b"CD")]));
    relink(&mut bench, 5, 0, 5);
    assert_eq!(opens(&bench, b"D:A"), 0x01);
    relink(&mut bench, 5, 0, 720);
    assert_eq!(opens(&bench, b"D:A"), 0x01);
    relink(&mut bench, 4, 9, 5);
    assert_eq!(opens(&bench, b"D:A"), 0x01);
    assert_eq!(tried(&bench, GET_STATUS, b"D:A\x9B", R), 0x01);
    write(&mut bench, entry_at(0, 0) + FIRST_SECTOR_AT, &[0xFF, 0xFF]);
    assert_eq!(bench.open(0, 0, b"D:A\x9B", R, 0), 0x01);
    assert_eq!(refused(&mut bench), 0xA4);
    // Characters before the bad sector are read.
    let mut bench = laid(&one_file(&[(4, b"AB"), (5, b"CD")]));
    recount(&mut bench, 5, 126);
    assert_eq!(bench.open(0, 0, b"D:A\x9B", R, 0), 0x01);
    assert_eq!(got(&mut bench, 2), (0x01, b"AB".to_vec()));
}

#[test]
fn wrong_no_03_before_trailing_empty_sectors() {
    for empty in 1..5 {
        let mut sectors = vec![(4, &b"AB"[..])];
        sectors.extend((0..empty).map(|place| (10 + place, &b""[..])));
        let mut bench = read_from(&sectors);
        assert_eq!(got(&mut bench, 2), (0x03, b"AB".to_vec()), "{empty} empty sectors");
        assert_eq!(refused(&mut bench), 0x88);
    }
    let mut bench = over_all(719, 0, 0);
    recount(&mut bench, 1, 1);
    assert_eq!(got(&mut bench, 1).0, 0x03);
}

#[test]
fn wrong_a_group_for_each_drive() {
    let mut bench = laid(&hello());
    ring(&mut bench, 1);
    start_reading(&mut bench, 0, b"D2:RING\x9B");
    bench.send(1, &load(0, b"D:HELLO.TXT\x9B"));
    assert_eq!(bench.stick.tick(1), DONE);
    bench.reply(1);
    bench.send(1, &call(0, OPEN, 0, 0, [R, 0, 0]));
    for _ in 0..3 {
        assert_eq!((bench.stick.tick(1), bench.phase(1)), (GROUP_HELD, 1));
    }
    bench.finish(0);
    assert_eq!(bench.stick.tick(1), DONE);
    assert_eq!(bench.reply(1), [0x90, 4, 0, 0x01, 0, 0, 0]);
}

#[test]
fn wrong_a5_without_the_group() {
    let mut bench = Bench::new();
    ring(&mut bench, 0);
    assert_eq!(bench.load(1, 0, b"D:-\x9B"), SUCCESS);
    start_reading(&mut bench, 0, b"D:RING\x9B");
    bench.send(1, &call(0, OPEN, 0, 0, [R, 0, 0]));
    for _ in 0..3 {
        assert_eq!((bench.stick.tick(1), bench.phase(1)), (GROUP_HELD, 1));
    }
    bench.finish(0);
    assert_eq!(bench.stick.tick(1), DONE);
    assert_eq!(bench.reply(1), [0x90, 4, 0, 0xA5, 0, 0, 0]);
}

#[test]
fn wrong_a5_before_84() {
    let bench = laid(&hello());
    for command in OPENING {
        for aux1 in [W, R | W, 0x0E, 0xFF] {
            for name in [&b"D:-\x9B"[..], b"D:A.B.C\x9B", b"D:hello\x9B"] {
                assert_eq!(tried(&bench, command, name, aux1), 0x84);
            }
        }
    }
}

#[test]
fn wrong_the_pattern_read_again_from_the_area() {
    let mut bench = laid(&entries(&[(USED, b"A          "), (USED, b"B          "), (USED, b"A          ")]));
    assert_eq!(bench.open(0, 0, b"D:A\x9B", DIRECTORY, 0), SUCCESS);
    // Before the first read, between records, and by the read itself.
    assert_eq!(bench.load(0, 0, b"D:B\x9B"), SUCCESS);
    assert_eq!(bench.get(GET_RECORD, 20).1, b"  A           000\x9B");
    assert_eq!(bench.load(0, 0, b"D:-"), SUCCESS);
    let reply = bench.call(0, 0, GET_CHARACTERS, 0, 35, [0; 3]);
    assert_eq!((reply.status, &bench.stick.area[..35]), (0x03, &records(&[b"  A           000"], b"707")[..]));
    // Nor is a file's name looked at again.
    let mut bench = read_from(&[(4, b"AB")]);
    assert_eq!(bench.load(0, 0, b"D2:-"), SUCCESS);
    write(&mut bench, entry_at(0, 0) + NAME_AT, b"OTHER      ");
    assert_eq!(got(&mut bench, 2), (0x03, b"AB".to_vec()));
}

/// The link of a good sector has its file's number.
#[test]
fn the_link_of_a_sector() {
    assert_eq!((link(0, 4), link(0, 719), link(1, 0), link(63, 1_023)), ([0, 4], [2, 207], [4, 0], [255, 255]));
}
