//! The bench cases 1 to 12 of document 01.

mod bench;
use bench::{Bench, Reply};
use model::random::call;
use model::stick::*;

const CASE_1: [u8; 8] = [0x11, 0x05, 0x00, 0x00, 0x00, 0x45, 0x3A, 0x9B];
const CASE_2: [u8; 12] = [0x10, 0x09, 0x00, 0x00, 0x03, 0x00, 0x00, 0x00, 0x00, 0x0D, 0x00, 0x00];

#[test]
fn case_01_load() {
    assert_eq!(Bench::new().ask(0, &CASE_1), [0x91, 0x01, 0x00, 0x01]);
}

#[test]
fn case_02_open() {
    for port in [0, 1] {
        let mut bench = Bench::new();
        bench.ask(port, &CASE_1);
        assert_eq!(bench.ask(port, &CASE_2), [0x90, 0x04, 0x00, 0x01, 0x00, 0x00, 0x00]);
        let file = bench.stick.ports[usize::from(port)].blocks[0];
        assert_eq!(file, Some(File { device: Device::E, number: 1, aux1: 0x0D }));
    }
}

#[test]
fn case_03_iocb_8() {
    assert_eq!(Bench::new().call(0, 8, GET_CHARACTERS, 0, 1, [0; 3]).status, 0x86);
}

#[test]
fn case_04_get_closed() {
    assert_eq!(Bench::new().call(0, 0, GET_CHARACTERS, 0, 1, [0; 3]).status, 0x85);
}

#[test]
fn case_05_put_at_the_last_byte() {
    let mut bench = Bench::with(b"E:", 0x0D, 0);
    assert_eq!(bench.call(0, 0, PUT_CHARACTERS, 16_383, 1, [0; 3]).status, SUCCESS);
    assert_eq!(bench.call(0, 0, PUT_CHARACTERS, 16_383, 2, [0; 3]).status, 0xB0);
}

fn after_case_6() -> Bench {
    let mut bench = Bench::with(b"E:", 0x0D, 0);
    assert_eq!(bench.put(PUT_RECORD, b"AB"), Reply { status: 1, count: 2, a: 0, ticks: 4 });
    bench
}

#[test]
fn case_06_put_record() {
    let bench = after_case_6();
    assert_eq!((bench.cell(0, 2), bench.cell(0, 3), bench.cursor()), (b'A', b'B', (1, 2)));
}

#[test]
fn case_07_get_record() {
    for (n, status, bytes) in [(10, 0x01, &b"AB\x9B"[..]), (3, 0x01, b"AB\x9B"), (2, 0x89, b"AB")] {
        let mut bench = after_case_6();
        assert_eq!(bench.put(PUT_CHARACTERS, &[0x1C]).status, SUCCESS);
        let (reply, got) = bench.get(GET_RECORD, n);
        assert_eq!((reply.status, reply.count, &got[..]), (status, bytes.len(), bytes));
    }
}

fn key(bench: &mut Bench, code: u8) -> (u8, Vec<u8>) {
    assert_eq!(bench.stick.press(code), DONE);
    let (reply, got) = bench.get(GET_CHARACTERS, 1);
    (reply.status, got)
}

#[test]
fn case_08_key_under_locks() {
    let mut bench = Bench::with(b"K:", 0x04, 0);
    assert_eq!(key(&mut bench, 0x3F), (1, vec![0x41]));
    assert_eq!(key(&mut bench, 0x3C), (0x88, vec![]));
    assert_eq!(key(&mut bench, 0x3F), (1, vec![0x61]));
}

#[test]
fn case_09_control_key() {
    assert_eq!(key(&mut Bench::with(b"K:", 0x04, 0), 0xBF), (1, vec![0x01]));
}

#[test]
fn case_10_end_of_file_key() {
    assert_eq!(key(&mut Bench::with(b"K:", 0x04, 0), 0x9A), (0x88, vec![]));
}

#[test]
fn case_11_mode_3() {
    let mut bench = Bench::with(b"S:", 0x0C, 3);
    assert_eq!(bench.put(PUT_CHARACTERS, &[5]).status, SUCCESS);
    assert_eq!((bench.cell(0, 0), bench.stick.console.last), (1, 5));
}

#[test]
fn case_12_mode_8_record() {
    let mut bench = Bench::with(b"S:", 0x0C, 8);
    bench.send(0, &call(0, GET_RECORD, 0, 1, [0; 3]));
    assert_eq!(bench.stick.tick(0), DONE);
    assert_eq!(bench.finish(0), 61_441);
    assert_eq!(bench.reply(0), [0x90, 4, 0, 0x8D, 1, 0, 0]);
}
