//! A bench for the tests: whole requests on a model.
#![allow(dead_code)]

pub mod disks;
pub mod examples;
pub mod tapes;

use model::random::{call, fetch, load};
use model::stick::*;

pub struct Bench {
    pub stick: Stick,
}

/// A CALL's reply, and the ticks it took.
#[derive(Debug, PartialEq, Eq)]
pub struct Reply {
    pub status: u8,
    pub count: usize,
    pub a: u8,
    pub ticks: usize,
}

pub const BUFFER: usize = 100;

impl Bench {
    pub fn new() -> Bench {
        Bench { stick: Stick::new() }
    }

    /// A bench with one block of port 0 open, IOCB 0.
    pub fn with(specification: &[u8], aux1: u8, aux2: u8) -> Bench {
        let mut bench = Bench::new();
        assert_eq!(bench.open(0, 0, specification, aux1, aux2), SUCCESS);
        bench
    }

    pub fn send(&mut self, port: u8, message: &[u8]) {
        for &byte in message {
            assert_eq!(self.stick.take(port, byte), DONE);
        }
    }

    pub fn phase(&self, port: usize) -> u8 {
        self.stick.ports[port].phase.number()
    }

    /// Ticks until the reply is made; how many ticks.
    pub fn finish(&mut self, port: u8) -> usize {
        let mut ticks = 0;
        while self.phase(usize::from(port)) != 3 {
            assert_eq!(self.stick.tick(port), DONE);
            ticks += 1;
        }
        ticks
    }

    pub fn reply(&mut self, port: u8) -> Vec<u8> {
        let mut reply = Vec::new();
        while self.phase(usize::from(port)) == 3 {
            let (answer, byte) = self.stick.give(port);
            assert_eq!(answer, DONE);
            reply.push(byte);
        }
        reply
    }

    /// A whole request: its reply.
    pub fn ask(&mut self, port: u8, message: &[u8]) -> Vec<u8> {
        self.send(port, message);
        self.finish(port);
        self.reply(port)
    }

    pub fn load(&mut self, port: u8, address: usize, data: &[u8]) -> u8 {
        let reply = self.ask(port, &load(address, data));
        assert_eq!(reply[..3], [0x91, 1, 0]);
        reply[3]
    }

    /// Status and bytes.
    pub fn fetch(&mut self, port: u8, address: usize, count: usize) -> (u8, Vec<u8>) {
        let reply = self.ask(port, &fetch(address, count));
        assert_eq!(reply[0], 0x92);
        assert_eq!(reply.len(), 3 + usize::from(reply[1]) + 256 * usize::from(reply[2]));
        (reply[3], reply[4..].to_vec())
    }

    pub fn call(&mut self, port: u8, iocb: u8, command: u8, address: usize, n: usize, rest: [u8; 3]) -> Reply {
        self.send(port, &call(iocb, command, address, n, rest));
        let ticks = self.finish(port);
        let reply = self.reply(port);
        assert_eq!((reply.len(), &reply[..3]), (7, &[0x90, 4, 0][..]));
        Reply { status: reply[3], count: usize::from(reply[4]) + 256 * usize::from(reply[5]), a: reply[6], ticks }
    }

    /// A CALL with a specification at address 0; its status.
    pub fn by_name(&mut self, port: u8, iocb: u8, command: u8, specification: &[u8], aux1: u8, aux2: u8) -> u8 {
        assert_eq!(self.load(port, 0, specification), SUCCESS);
        self.call(port, iocb, command, 0, 0, [aux1, aux2, 0]).status
    }

    pub fn open(&mut self, port: u8, iocb: u8, specification: &[u8], aux1: u8, aux2: u8) -> u8 {
        self.by_name(port, iocb, OPEN, specification, aux1, aux2)
    }

    /// Puts data on IOCB 0 of port 0.
    pub fn put(&mut self, command: u8, data: &[u8]) -> Reply {
        self.put_on(0, 0, command, data)
    }

    pub fn put_on(&mut self, port: u8, iocb: u8, command: u8, data: &[u8]) -> Reply {
        for (place, piece) in data.chunks(256).enumerate() {
            assert_eq!(self.load(port, BUFFER + 256 * place, piece), SUCCESS);
        }
        self.call(port, iocb, command, BUFFER, data.len(), [0; 3])
    }

    /// Gets from IOCB 0 of port 0: the reply and the bytes counted.
    pub fn get(&mut self, command: u8, n: usize) -> (Reply, Vec<u8>) {
        self.get_on(0, 0, command, n)
    }

    pub fn get_on(&mut self, port: u8, iocb: u8, command: u8, n: usize) -> (Reply, Vec<u8>) {
        let reply = self.call(port, iocb, command, BUFFER, n, [0; 3]);
        let from = usize::from(port) * AREA + BUFFER;
        let bytes = self.stick.area[from..from + reply.count].to_vec();
        (reply, bytes)
    }

    /// Starts a transfer on the port's IOCB 0 that goes on for long.
    pub fn start_long(&mut self, port: u8) {
        self.send(port, &call(0, PUT_CHARACTERS, 0, 1000, [0; 3]));
        assert_eq!(self.stick.tick(port), DONE);
        assert_eq!(self.phase(usize::from(port)), 2);
    }

    pub fn cell(&self, row: usize, column: usize) -> u8 {
        self.stick.screen[row * shape(self.stick.console.mode).0 + column]
    }

    pub fn cursor(&self) -> (usize, usize) {
        (self.stick.console.row, self.stick.console.column)
    }
}
