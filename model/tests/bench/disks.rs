//! D on the bench: diskettes laid from outside, opened and read.

use super::{Bench, Reply, BUFFER};
use model::diskette::{entry_at, link, sector_at, Diskette};
use model::random::call;
use model::stick::*;

/// Flags of an entry in use, and of a locked one.
pub const USED: u8 = 0x42;
pub const LOCK: u8 = 0x62;

/// A chain of sectors with their data.
pub fn chain(sectors: &[(usize, &[u8])]) -> Vec<(usize, Vec<u8>)> {
    sectors.iter().map(|(sector, data)| (*sector, data.to_vec())).collect()
}

/// The diskette of the worked example: HELLO.TXT alone, entry 0, sector 4.
pub fn hello() -> Diskette {
    let mut diskette = Diskette::new();
    diskette.add(USED, b"HELLO   TXT", &chain(&[(4, b"HI\x9B")]));
    diskette
}

/// A diskette whose one file, `A`, has this chain.
pub fn one_file(sectors: &[(usize, &[u8])]) -> Diskette {
    let mut diskette = Diskette::new();
    diskette.add(USED, b"A          ", &chain(sectors));
    diskette
}

/// A diskette with these entries, flag and name, of empty files.
pub fn entries(all: &[(u8, &Pattern)]) -> Diskette {
    let mut diskette = Diskette::new();
    for (flag, name) in all {
        diskette.add(*flag, name, &[]);
    }
    diskette
}

pub fn write(bench: &mut Bench, at: usize, bytes: &[u8]) {
    bench.stick.images[at..at + bytes.len()].copy_from_slice(bytes);
}

pub fn lay(bench: &mut Bench, drive: usize, diskette: &Diskette) {
    for (at, bytes) in diskette.parts(drive) {
        write(bench, at, &bytes);
    }
}

/// A bench with a diskette in the first drive.
pub fn laid(diskette: &Diskette) -> Bench {
    let mut bench = Bench::new();
    lay(&mut bench, 0, diskette);
    bench
}

/// A bench with one file in the first drive, open for reading on IOCB 0 of port 0.
pub fn read_from(sectors: &[(usize, &[u8])]) -> Bench {
    let mut bench = laid(&one_file(sectors));
    assert_eq!(bench.open(0, 0, b"D:A\x9B", R, 0), SUCCESS);
    bench
}

/// A sector of the first drive linked to another, its file number as given.
pub fn relink(bench: &mut Bench, sector: usize, file: usize, next: usize) {
    write(bench, sector_at(0, sector) + LINK_AT, &link(file, next));
}

/// A sector of the first drive with another data count.
pub fn recount(bench: &mut Bench, sector: usize, count: u8) {
    write(bench, sector_at(0, sector) + DATA_COUNT_AT, &[count]);
}

/// An entry of the first drive with another flag.
pub fn reflag(bench: &mut Bench, entry: usize, flag: u8) {
    write(bench, entry_at(0, entry), &[flag]);
}

/// Where IOCB 0 of port 0 is in its file: sector, place, sectors begun.
pub fn at(bench: &Bench) -> (usize, usize, usize) {
    match bench.stick.ports[0].places[0] {
        Some(Place::File { sector, place, begun, .. }) => (sector, place, begun),
        other => panic!("no file: {other:?}"),
    }
}

/// Status and bytes of a GET CHARACTERS.
pub fn got(bench: &mut Bench, n: usize) -> (u8, Vec<u8>) {
    let (reply, bytes) = bench.get(GET_CHARACTERS, n);
    (reply.status, bytes)
}

/// A refused GET CHARACTERS of one: its status, in two ticks; nothing moves.
pub fn refused(bench: &mut Bench) -> u8 {
    let before = bench.stick.ports[0].places;
    let reply = bench.call(0, 0, GET_CHARACTERS, BUFFER, 1, [0, 0, 0x5A]);
    assert_eq!((reply.count, reply.a, reply.ticks), (0, 0x5A, 2));
    assert_eq!(bench.stick.ports[0].places, before);
    reply.status
}

/// All that a directory gives for a name, on IOCB 7 of port 0.
pub fn listing(bench: &mut Bench, name: &[u8]) -> Vec<u8> {
    assert_eq!(bench.open(0, 7, &[name, b"\x9B"].concat(), DIRECTORY, 0), SUCCESS);
    let (reply, bytes) = bench.get_on(0, 7, GET_CHARACTERS, 2_000);
    assert_eq!((reply.status, reply.ticks), (END_OF_FILE, bytes.len() + 2));
    assert_eq!(bench.call(0, 7, CLOSE, 0, 0, [0; 3]), Reply { status: SUCCESS, count: 0, a: 0, ticks: 1 });
    bytes
}

/// A file that never ends is open for reading on IOCB 0 of the port, and a transfer on it runs.
pub fn start_reading(bench: &mut Bench, port: u8, specification: &[u8]) {
    assert_eq!(bench.open(port, 0, specification, R, 0), SUCCESS);
    bench.send(port, &call(0, GET_CHARACTERS, BUFFER, 600, [0; 3]));
    assert_eq!(bench.stick.tick(port), DONE);
    assert_eq!(bench.stick.tick(port), DONE);
    assert_eq!(bench.phase(usize::from(port)), 2);
}

/// A diskette whose file `RING` has one character in one sector, linked to itself.
pub fn ring(bench: &mut Bench, drive: usize) {
    let mut diskette = Diskette::new();
    diskette.add(USED, b"RING       ", &chain(&[(9, b"R")]));
    lay(bench, drive, &diskette);
    write(bench, sector_at(drive, 9) + LINK_AT, &link(0, 9));
}
