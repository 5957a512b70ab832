//! C on the bench: tapes laid from outside, opened and read.

use super::{Bench, Reply};
use model::script::{dump_tape, TAPE_DUMP};
use model::stick::*;

/// C with R, W, both or neither.
pub const NEITHER: u8 = 0;
pub const BOTH: u8 = R | W;

/// A bench whose IOCB 0 of port 0 has C open.
pub fn tape(aux1: u8) -> Bench {
    Bench::with(b"C:", aux1, 0)
}

/// A bench with these records on the tape, from its beginning on.
pub fn laid(records: &[[u8; RECORD]]) -> Bench {
    let mut bench = Bench::new();
    lay(&mut bench, 0, records);
    bench
}

pub fn lay(bench: &mut Bench, from: usize, records: &[[u8; RECORD]]) {
    let bytes = records.concat();
    bench.stick.tape[RECORD * from..RECORD * from + bytes.len()].copy_from_slice(&bytes);
}

/// The same, and open for reading on IOCB 0 of port 0.
pub fn read_from(records: &[[u8; RECORD]]) -> Bench {
    let mut bench = laid(records);
    assert_eq!(bench.open(0, 0, b"C:", R, 0), SUCCESS);
    bench
}

/// A record of the tape.
pub fn on_tape(bench: &Bench, record: usize) -> &[u8] {
    &bench.stick.tape[RECORD * record..RECORD * (record + 1)]
}

/// The four numbers of `C` behind the tape's bytes: mark, record, place or number pending.
pub fn numbers(bench: &Bench) -> (u8, usize, usize) {
    let mut dump = Vec::new();
    dump_tape(&bench.stick, &mut dump);
    assert_eq!(dump.len(), TAPE_DUMP);
    let at = |place: usize| usize::from(dump[TAPE + place]);
    (dump[TAPE], at(1) + 256 * at(2), at(3))
}

/// Status and bytes of a GET CHARACTERS.
pub fn got(bench: &mut Bench, n: usize) -> (u8, Vec<u8>) {
    let (reply, bytes) = bench.get(GET_CHARACTERS, n);
    (reply.status, bytes)
}

pub fn close(bench: &mut Bench) {
    let reply = bench.call(0, 0, CLOSE, 0, 0, [0; 3]);
    assert_eq!(reply, Reply { status: SUCCESS, count: 0, a: 0, ticks: 1 });
}

/// A record with a byte changed, its checksum made right again.
pub fn with(mut record: [u8; RECORD], place: usize, byte: u8) -> [u8; RECORD] {
    record[place] = byte;
    record[CHECKSUM_AT] = checksum(&record[..CHECKSUM_AT]);
    record
}

/// A record with a byte changed, and nothing else.
pub fn spoilt(mut record: [u8; RECORD], place: usize) -> [u8; RECORD] {
    record[place] ^= 1;
    record
}
