//! Whole conversations on both ports, made from a seed.
//!
//! Two hosts with tastes of their own run errands: they open a device, write
//! and read, ask, close, and now and then send rubbish. The turns mix them in
//! any order, with keys, wrong ports, cut buffers and calls at the wrong time
//! in between. A model plays along, so that most calls come when they make
//! sense and long conversations succeed. Numbers, lengths and cursors are
//! drawn to the paper's boundaries: `tests/reach.rs` says which are reached.
//! Tapes are laid by `W`, record by record with right checksums, and then a
//! few bytes of them are damaged: bytes at random would be no records at all.
//! So are diskettes, file by file; of an image only the sectors that files have.
//! The doctor is asked now and then, before, between and during reads; scripts
//! that are about it alone are those of `images`.

use crate::diskette::{chain_of_all, entry_at, link, sector_at, Diskette};
use crate::script::{Op, Player, BUFFERS};
use crate::stick::*;
use std::collections::VecDeque;

/// A generator of random numbers (splitmix64).
pub struct Random(u64);

impl Random {
    pub fn new(seed: u64) -> Random {
        Random(seed)
    }

    pub fn number(&mut self) -> u64 {
        self.0 = self.0.wrapping_add(0x9E37_79B9_7F4A_7C15);
        let mut z = self.0;
        z = (z ^ (z >> 30)).wrapping_mul(0xBF58_476D_1CE4_E5B9);
        z = (z ^ (z >> 27)).wrapping_mul(0x94D0_49BB_1331_11EB);
        z ^ (z >> 31)
    }

    /// A number below `end`.
    pub fn below(&mut self, end: usize) -> usize {
        (self.number() % end as u64) as usize
    }

    pub fn byte(&mut self) -> u8 {
        self.number() as u8
    }

    /// True in so many of a thousand cases.
    pub fn chance(&mut self, permille: usize) -> bool {
        self.below(1000) < permille
    }

    pub fn pick<T: Copy>(&mut self, from: &[T]) -> T {
        from[self.below(from.len())]
    }

    /// The place of one of some weights.
    pub fn weigh(&mut self, weights: &[usize]) -> usize {
        let mut left = self.below(weights.iter().sum());
        for (place, &weight) in weights.iter().enumerate() {
            if left < weight {
                return place;
            }
            left -= weight;
        }
        unreachable!("below the sum")
    }
}

/// One end of the stick: what it likes to do, and what it is about to send.
struct Host {
    /// Weights of E, S, K, P, C and D.
    taste: [usize; 6],
    messages: VecDeque<Vec<u8>>,
    sending: VecDeque<u8>,
}

struct Maker {
    random: Random,
    player: Player,
    ops: Vec<Op>,
    hosts: [Host; 2],
    dumps: usize,
    messages: usize,
}

/// The devices in the order of a taste.
const DEVICES: [Device; 6] = [Device::E, Device::S, Device::K, Device::P, Device::C, Device::D];
/// The commands that are no SPECIAL and not bad.
const COMMANDS: [u8; 7] = [OPEN, GET_RECORD, GET_CHARACTERS, PUT_RECORD, PUT_CHARACTERS, CLOSE, GET_STATUS];
/// The sixteen control codes of E.
const CONTROLS: [u8; 16] =
    [0x1B, 0x1C, 0x1D, 0x1E, 0x1F, 0x7D, 0x7E, 0x7F, 0x9B, 0x9C, 0x9D, 0x9E, 0x9F, 0xFD, 0xFE, 0xFF];
/// Keys that do something of their own: locks, inverse, end of file, RETURN,
/// none, the edges of the table.
const KEYS: [u8; 16] = [0x3C, 0x7C, 0xBC, 0x27, 0x67, 0xA7, 0x9A, 0x0C, 0xFF, 0x00, 0x3F, 0x40, 0x7F, 0x80, 0xBF, 0xC0];

/// SPECIAL commands, DRAW and FILL among them.
const SPECIALS: [u8; 9] = [0x0E, 0x0F, 0x11, 0x12, 0x20, 0x26, 0x7F, 0x80, 0xFF];

/// Names of files, of eight characters or fewer, and extensions: alike, so that a pattern has several matches or just misses.
const NAMES: [&[u8]; 12] =
    [b"A", b"B", b"AB", b"ABC", b"HELLO", b"HELP", b"GAME", b"DOS", b"ABCDEFG", b"ABCDEFGH", b"ABCDEFGI", b"12345678"];
const EXTENSIONS: [&[u8]; 8] = [b"", b"", b"T", b"TX", b"TXT", b"TXU", b"BAS", b"SYS"];
/// Flags of entries: in use, locked, open for output; deleted, whatever else; neither.
pub const FLAGS: [u8; 20] = [
    0x42, 0x42, 0x42, 0x42, 0x42, 0x42, 0x42, 0x40, 0x62, 0x62, 0x60, 0x43, 0x7F, 0x80, 0x80, 0x82, 0xC2, 0xE2, 0x22,
    0x01,
];
/// Bytes that no name has, the neighbours of those that it may have among them.
const NO_NAME: [u8; 16] = [b'-', b'/', b':', b';', b'@', b'[', b'>', b'a', b'z', b'_', b'!', b')', b'+', b',', 0, 0xC1];

/// Lengths around those of a piece, a full reply and a full LOAD.
const PIECES: [usize; 5] = [255, 256, 257, 258, 259];

/// The conversation of a seed; a long one has many more messages.
pub fn conversation(seed: u64, long: bool) -> Vec<Op> {
    let mut maker = Maker::new(seed);
    let (messages, ops, ticks) = if long { (600, 100_000, 1_000_000) } else { (80, 20_000, 200_000) };
    let messages = 4 + maker.random.below(messages);
    let share = maker.random.pick(&[500, 500, 500, 900, 100, 1000, 0]);
    if !maker.random.chance(50) {
        maker.play(Op::Fresh);
    }
    while maker.messages < messages && maker.ops.len() < ops && (maker.player.figures.ticks as usize) < ticks {
        let port = u8::from(!maker.random.chance(share));
        for _ in 0..=maker.random.below(8) {
            maker.turn(port);
            if maker.random.chance(40) {
                maker.noise();
            }
        }
    }
    maker.end();
    maker.ops
}

impl Maker {
    fn new(seed: u64) -> Maker {
        let mut random = Random::new(seed);
        // Scrambled once, so that neighbouring seeds have nothing in common.
        random = Random::new(random.number());
        // E and S clear each other's screen, so mostly only one of them is liked.
        let screen = random.pick(&[[1, 0], [1, 0], [0, 1], [1, 1]]);
        // There is one tape: mostly both like it, or neither.
        let tape = random.pick(&[0, 0, 0, 1, 40, 40]);
        // The same of the diskettes.
        let disk = random.pick(&[0, 0, 0, 1, 40, 40]);
        let mut host = || {
            let taste = random.pick(&[[6, 6, 2, 2], [20, 1, 1, 1], [1, 20, 1, 0], [2, 2, 20, 1], [1, 1, 1, 20]]);
            let [e, s, k, p] = taste;
            let taste = [e * screen[0], s * screen[1], k, p, tape, disk];
            Host { taste, messages: VecDeque::new(), sending: VecDeque::new() }
        };
        let hosts = [host(), host()];
        Maker { random, player: Player::new(), ops: Vec::new(), hosts, dumps: 0, messages: 0 }
    }

    /// Adds an op; the model plays along. A dump changes nothing.
    fn play(&mut self, op: Op) {
        if !matches!(op, Op::Dump | Op::DumpTape) {
            self.player.play(&op, &mut Vec::new());
        }
        self.ops.push(op);
    }

    fn phase(&self, port: u8) -> &Phase {
        &self.player.stick.ports[usize::from(port)].phase
    }

    // ---- turns ----

    /// Something sensible on the port.
    fn turn(&mut self, port: u8) {
        match self.phase(port) {
            Phase::Gathering(message) => {
                let begun = !message.is_empty();
                self.send(port, begun);
            }
            Phase::Ready(_) | Phase::Running(_) => self.tick(port),
            Phase::Replying(reply, given) => {
                let left = reply.len() - given;
                let times = if self.random.chance(800) { left } else { 1 + self.random.below(left) };
                for _ in 0..times {
                    self.play(Op::Give { port });
                }
            }
        }
    }

    fn tick(&mut self, port: u8) {
        let Cassette { mark, record, place, .. } = self.player.stick.cassette;
        let begun = mark == Mark::Reading && (record, place) != (0, 0);
        if begun && self.player.stick.holds(usize::from(port), Group::Tape) {
            // More often where the end comes next, in a request that goes on: the tape may go on after all.
            let end = self.player.stick.tape.chunks(RECORD).nth(record).map(characters) == Some(Err(END_OF_FILE));
            if self.random.chance(if end { 500 } else { 150 }) {
                self.meddle_with_record();
            }
        }
        if let Some((drive, place)) = self.running_on_disk(port) {
            // The same where a file or the directory ends.
            let end = self.player.stick.next_on_disk(drive, place) == Err(END_OF_FILE);
            if self.random.chance(if end { 500 } else { 150 }) {
                self.meddle_at(drive, place);
                // What was damaged is cut, or read as it lies.
                if self.random.chance(150) {
                    self.play(Op::Doctor { image: drive as u8 });
                }
            } else if !end && self.random.chance(200) {
                // Up to the last character.
                let count = self.left(drive, place, 300) as u16;
                return self.play(Op::Ticks { port, count });
            }
        }
        if self.random.chance(400) {
            for _ in 0..=self.random.below(2) {
                self.play(Op::Tick { port });
            }
        } else {
            let count = self.random.pick(&[0, 1, 2, 3, 3, 7, 7, 40, 40, 300, 300, 5_000, 65_535]);
            self.play(Op::Ticks { port, count });
        }
    }

    /// Some bytes of the message under way, or of a new one.
    fn send(&mut self, port: u8, begun: bool) {
        let host = usize::from(port);
        if self.hosts[host].sending.is_empty() {
            if begun {
                self.mend(port);
                return;
            }
            if self.hosts[host].messages.is_empty() {
                let messages = self.errand(port);
                self.hosts[host].messages.extend(messages);
            }
            let message = self.hosts[host].messages.pop_front().expect("an errand has a message");
            self.hosts[host].sending.extend(message);
            self.messages += 1;
        }
        // A phone drops out in the middle of a message.
        if begun && self.random.chance(3) {
            self.hosts[host].sending.clear();
            return;
        }
        let left = self.hosts[host].sending.len();
        let count = if self.random.chance(800) { left } else { 1 + self.random.below(left) };
        for byte in self.hosts[host].sending.drain(..count).collect::<Vec<u8>>() {
            self.play(Op::Take { port, byte });
        }
    }

    /// A message was left unfinished: what is missing, a new message in its
    /// middle, or a fresh start.
    fn mend(&mut self, port: u8) {
        let Phase::Gathering(message) = self.phase(port) else { return };
        let missing = match message[..] {
            [_, low, high, ..] => 3 + usize::from(low) + 256 * usize::from(high) - message.len(),
            _ => 1,
        };
        if missing < 600 || self.random.chance(20) {
            for _ in 0..missing {
                let byte = self.random.byte();
                self.play(Op::Take { port, byte });
            }
        } else if self.random.chance(500) {
            self.fresh();
        } else {
            let fields = self.wild_message();
            self.hosts[usize::from(port)].sending.extend(fields);
        }
        self.messages += 1;
    }

    fn fresh(&mut self) {
        self.play(Op::Fresh);
        for host in &mut self.hosts {
            // Some hosts do not notice and send the rest.
            if self.random.chance(700) {
                host.sending.clear();
                host.messages.clear();
            }
        }
    }

    /// Something beside the conversations.
    fn noise(&mut self) {
        let port = self.random.below(2) as u8;
        match self.random.weigh(&[30, 8, 8, 8, 8, 10, 2, 8, 8, 6]) {
            0 => self.press(),
            1 => {
                let port = self.random.pick(&[2, 3, 127, 128, 255]);
                let byte = self.random.byte();
                let ops = [
                    Op::Take { port, byte },
                    Op::Tick { port },
                    Op::Give { port },
                    Op::Ticks { port, count: 5 },
                    Op::Ticks { port, count: 0 },
                ];
                let op = ops[self.random.below(ops.len())].clone();
                self.play(op);
            }
            2 => {
                // At the wrong time only: a byte too many would spoil a message.
                if !matches!(self.phase(port), Phase::Gathering(_)) {
                    let byte = self.random.byte();
                    self.play(Op::Take { port, byte });
                }
            }
            3 => self.play(Op::Tick { port }),
            4 => self.play(Op::Give { port }),
            5 => self.cut(),
            6 => self.fresh(),
            7 => self.dump(),
            8 => self.meddle(),
            _ => self.doctor(),
        }
    }

    /// The doctor, mostly on an image that a block has open; at times on none.
    fn doctor(&mut self) {
        let places = self.open_places();
        let image = match self.random.weigh(&[60, 30, 10]) {
            0 if !places.is_empty() => self.random.pick(&places).0,
            0 | 1 => self.random.below(DRIVES),
            _ => self.random.pick(&[DRIVES, DRIVES, DRIVES + 1, 127, 255]),
        };
        self.play(Op::Doctor { image: image as u8 });
    }

    fn press(&mut self) {
        let code = match self.random.weigh(&[60, 25, 15]) {
            0 => self.random.below(0xC0) as u8,
            1 => self.random.pick(&KEYS),
            _ => self.random.byte(),
        };
        self.play(Op::Press { code });
    }

    /// Calls while a buffer is lent cut, then whole again.
    fn cut(&mut self) {
        let place = self.random.below(WHOLE.len());
        let (whole, (buffer, _)) = (WHOLE[place], BUFFERS[place]);
        let length = self.random.pick(&[0, 1, whole / 2, whole - 1, whole - 1, whole]) as u32;
        self.play(Op::Lend { buffer, length });
        if self.random.chance(100) {
            let buffer = self.random.pick(&[5, 7, 8, self.ops.len() as u8 | 8]);
            self.play(Op::Lend { buffer, length: 0 });
        }
        if self.random.chance(100) {
            self.meddle();
        }
        if self.random.chance(100) {
            self.doctor();
        }
        for _ in 0..=self.random.below(5) {
            let port = self.random.pick(&[0, 1, 0, 1, 0, 1, 2, 255]);
            let byte = self.random.byte();
            // Nothing may change, so that the conversations go on after it.
            let harmless = length as usize != whole;
            match self.random.below(6) {
                0 if harmless => self.play(Op::Fresh),
                1 if harmless => self.play(Op::Take { port, byte }),
                2 => self.play(Op::Tick { port }),
                3 => self.play(Op::Give { port }),
                4 => self.play(Op::Press { code: byte }),
                _ => self.play(Op::Ticks { port, count: u16::from(byte) }),
            }
        }
        let length = if self.random.chance(500) { whole as u32 } else { 0xFF_FFFF };
        self.play(Op::Lend { buffer, length });
    }

    fn dump(&mut self) {
        if self.dumps < 2 {
            self.dumps += 1;
            let tape = self.player.stick.cassette.mark != Mark::Closed || self.random.chance(200);
            self.play(if tape { Op::DumpTape } else { Op::Dump });
        }
    }

    /// Bytes of a lent buffer written from outside: mostly of tape or images,
    /// at times past its end or into no buffer at all.
    fn meddle(&mut self) {
        if self.player.stick.cassette.mark != Mark::Closed && self.random.chance(700) {
            return self.meddle_with_record();
        }
        if !self.open_places().is_empty() && self.random.chance(700) {
            return self.meddle_with_disk();
        }
        let buffer = self.random.pick(&[0, 1, 2, 3, 4, 4, 4, 6, 6, 5, 9, 255]);
        let place = BUFFERS.iter().position(|(number, _)| *number == buffer);
        let end = place.map_or(AREA, |place| WHOLE[place]);
        let length = self.random.pick(&[0, 1, 1, 1, 2, 3, 40]);
        let any = self.random.below(end);
        let at = self.random.pick(&[0, any, any, end - length, end - length / 2, end, 0xFF_FFFF]) as u32;
        let bytes = (0..length).map(|_| self.random.byte()).collect();
        self.play(Op::Write { buffer, at, bytes });
    }

    /// Another record where the tape is, or a byte of it spoilt; in the middle
    /// of a record that is read mostly one whose count is about the place. At
    /// times the record behind it, mostly an end: by it a character is the last.
    fn meddle_with_record(&mut self) {
        let Cassette { mark, mut record, place, .. } = self.player.stick.cassette;
        let behind = record + 1 < RECORDS && self.random.chance(300);
        if behind {
            record += 1;
        }
        if record == RECORDS {
            return;
        }
        if self.random.chance(400) {
            return self.spoil(record);
        }
        let bytes = match self.random.weigh(&[60, 15, 25]) {
            0 if behind => end_record(),
            0 if mark == Mark::Reading && place > 0 => {
                let count = (place + self.random.below(3)).saturating_sub(1).clamp(1, 127);
                let characters: Vec<u8> = (0..count).map(|_| self.random.byte()).collect();
                partial_record(&characters)
            }
            1 => end_record(),
            _ => self.record(),
        };
        self.play(Op::Write { buffer: 4, at: (RECORD * record) as u32, bytes: bytes.to_vec() });
    }

    /// Mostly both ports finish; then all is dumped.
    fn end(&mut self) {
        if self.random.chance(800) {
            for port in [0, 1, 0] {
                if !matches!(self.phase(port), Phase::Gathering(_)) {
                    self.play(Op::Ticks { port, count: 65_535 });
                }
                while let Phase::Replying(..) = self.phase(port) {
                    self.play(Op::Give { port });
                }
            }
        }
        self.play(Op::Dump);
        self.play(Op::DumpTape);
        // Another op, or one that is cut, ends the run.
        if self.random.chance(30) {
            let tails: [&[u8]; 12] = [
                b"T",
                b"T\0",
                b"K",
                b"R",
                b"X\0\0",
                b"L\0\0\0",
                b"W\x04\0\0\0\0",
                b"W\x06\0\0\0\x04\0CCC",
                b"?",
                b"c",
                b"f",
                b"\0D",
            ];
            let tail = tails[self.random.below(tails.len())].to_vec();
            self.play(Op::Raw(tail));
        }
    }

    // ---- errands: the messages that a host sends next ----

    fn errand(&mut self, port: u8) -> Vec<Vec<u8>> {
        let blocks = self.player.stick.ports[usize::from(port)].blocks;
        let open: Vec<u8> = (0..8).filter(|&iocb| blocks[usize::from(iocb)].is_some()).collect();
        let closed: Vec<u8> = (0..8).filter(|&iocb| blocks[usize::from(iocb)].is_none()).collect();
        let few = open.len() < 2;
        let transfer = if open.is_empty() { 0 } else { 70 };
        let weights =
            [if few { 30 } else { 4 }, transfer, transfer / 12, 4, 4, 4, 3, if open.is_empty() { 0 } else { 3 }];
        match self.random.weigh(&weights) {
            0 => self.open_errand(port, &closed),
            1 => {
                let iocb = self.random.pick(&open);
                let file = blocks[usize::from(iocb)].expect("open");
                self.transfer_errand(port, iocb, file)
            }
            2 => {
                let iocb = self.random.below(8) as u8;
                vec![self.call(iocb, CLOSE, 0, 0)]
            }
            3 => self.status_errand(port),
            4 => self.area_errand(),
            5 => vec![self.wild_call()],
            6 => vec![self.wild_message()],
            _ => {
                // one character by A
                let iocb = self.random.pick(&open);
                let command = self.random.pick(&[GET_RECORD, GET_CHARACTERS, PUT_RECORD, PUT_CHARACTERS]);
                let address = self.address();
                vec![self.call(iocb, command, address, 0)]
            }
        }
    }

    fn liked(&mut self, port: u8) -> Device {
        let taste = self.hosts[usize::from(port)].taste;
        DEVICES[self.random.weigh(&taste)]
    }

    /// An AUX1 that the device mostly offers, and an AUX2 for it.
    fn aux(&mut self, device: Device) -> (u8, u8) {
        if self.random.chance(120) {
            return (self.random.byte(), self.random.byte() % 16);
        }
        // One bit alone, or one bit off what the device offers.
        let odd = match device {
            Device::C => 300,
            Device::D => 450,
            _ => 80,
        };
        if self.random.chance(odd) {
            let offered = match device {
                Device::E => R | W | FORCED,
                Device::S => R | W,
                Device::K => R,
                Device::P => W,
                Device::C => self.random.pick(&[R, W]),
                Device::D => self.random.pick(&[R, DIRECTORY]),
            };
            let aux1 = self.random.pick(&[0, offered]) ^ (1 << self.random.below(8));
            return (aux1, 3 + self.random.below(6) as u8);
        }
        let aux1 = match device {
            Device::E => {
                self.random.pick(&[0x0D, 0x0D, 0x0D, 0x0D, 0x0D, 0x0D, 0x0D, 0x3D, 0x09, 0x08, 0x05, 0x0C, 0x00])
            }
            Device::S => self.random.pick(&[0x0C, 0x0C, 0x2C, 0x2C, 0x0D, 0x08, 0x04, 0x24, 0x1C, 0xEC]),
            Device::K => self.random.pick(&[0x04, 0x04, 0x04, 0x05, 0xF4, 0x0C, 0x00]),
            Device::P => self.random.pick(&[0x08, 0x08, 0x08, 0x09, 0xF8, 0x0C, 0x00]),
            Device::C => self.random.pick(&[0x04, 0x04, 0x04, 0x08, 0x08, 0x08, 0xF4, 0xF8, 0x0C, 0x00]),
            Device::D => {
                self.random.pick(&[0x04, 0x04, 0x04, 0x06, 0x06, 0x05, 0x07, 0x26, 0xF4, 0x02, 0x00, 0x08, 0x0E])
            }
        };
        let aux2 = if self.random.chance(950) { 3 + self.random.below(6) as u8 } else { self.random.byte() };
        (aux1, aux2)
    }

    /// A specification, mostly a good one.
    fn specification(&mut self, device: Device) -> Vec<u8> {
        let mut bytes = vec![device.letter()];
        if self.random.chance(40) {
            bytes[0] = self.random.pick(b"DRce:\x9B\x00Q");
        }
        if self.random.chance(300) {
            bytes.push(b'1' + self.random.below(8) as u8);
        }
        if self.random.chance(40) {
            bytes.push(self.random.pick(b"09A1: \x9B"));
        }
        bytes.push(if self.random.chance(970) { b':' } else { self.random.byte() });
        if self.random.chance(300) {
            bytes.extend(b"\x9B");
        }
        bytes
    }

    /// A specification in the area, and a CALL on it; at times at its edge.
    fn with_specification(&mut self, device: Device, iocb: u8, command: u8) -> Vec<Vec<u8>> {
        if device == Device::D {
            return self.ask_for_disk(iocb, command);
        }
        let specification = self.specification(device);
        let address = match self.random.weigh(&[70, 20, 10]) {
            0 => self.random.below(300),
            1 => AREA - specification.len(),
            _ => AREA - self.random.below(4),
        };
        let (aux1, aux2) = self.aux(device);
        let length = self.length();
        let room = AREA - address;
        let data = &specification[..specification.len().min(room.max(1))];
        vec![load(address, data), call(iocb, command, address, length, [aux1, aux2, self.random.byte()])]
    }

    fn open_errand(&mut self, port: u8, closed: &[u8]) -> Vec<Vec<u8>> {
        let device = self.liked(port);
        let iocb = if closed.is_empty() || self.random.chance(50) {
            self.random.below(9) as u8
        } else {
            self.random.pick(closed)
        };
        if device == Device::C && self.random.chance(700) {
            return self.tape_errand(iocb);
        }
        if device == Device::D && self.random.chance(800) {
            return self.disk_errand(iocb, closed);
        }
        self.with_specification(device, iocb, OPEN)
    }

    /// GET STATUS or SPECIAL, on open and closed blocks.
    fn status_errand(&mut self, port: u8) -> Vec<Vec<u8>> {
        let device = self.liked(port);
        let iocb = self.random.below(8) as u8;
        let special = self.random.pick(&SPECIALS);
        let command = if self.random.chance(500) { GET_STATUS } else { special };
        self.with_specification(device, iocb, command)
    }

    /// LOAD and FETCH at the edges.
    fn area_errand(&mut self) -> Vec<Vec<u8>> {
        let count = self.random.pick(&[0, 1, 2, 16, 255, 256, 256, 257, 258, 259, 16_384, 65_535]);
        let length = self.random.pick(&[1, 1, 2, 3, 40, 255, 256]);
        let address = match self.random.below(3) {
            0 => self.edge(count),
            1 => self.edge(length),
            _ => self.address(),
        };
        let data: Vec<u8> = (0..length).map(|_| self.random.byte()).collect();
        vec![load(address, &data), fetch(address, count)]
    }

    /// Reading or writing an open block.
    fn transfer_errand(&mut self, port: u8, iocb: u8, file: File) -> Vec<Vec<u8>> {
        if file.device == Device::C {
            return self.on_tape(iocb, file);
        }
        if file.device == Device::D {
            return self.on_disk(port, iocb, file);
        }
        if file.device == Device::E && file.aux1 & (R | W) == R | W && self.random.chance(300) {
            return if self.random.chance(500) { self.echo_errand(iocb) } else { self.edit_errand(iocb) };
        }
        let reads = match file.aux1 & (R | W) {
            0 if self.random.chance(800) => return vec![self.call(iocb, CLOSE, 0, 0)],
            R => !self.random.chance(20),
            W => self.random.chance(20),
            _ => self.random.chance(450),
        };
        let console = &self.player.stick.console;
        if file.device == Device::S && console.mode != 0 && file.aux1 & W != 0 && self.random.chance(140) {
            return if self.random.chance(250) { self.smaller_errand(iocb) } else { self.corner_errand(iocb) };
        }
        if file.device == Device::S && console.mode != 0 && console.row == shape(console.mode).1 {
            // Past the last row: mostly back to the first.
            match self.random.below(4) {
                0 if file.aux1 & W != 0 => return self.put(iocb, PUT_CHARACTERS, &[0x7D]),
                1 | 2 => {
                    let mode = console.mode;
                    return self.reopen(iocb, R | W | KEEP, mode);
                }
                _ => {}
            }
        }
        if reads {
            self.read_errand(iocb, file)
        } else {
            self.write_errand(iocb, file)
        }
    }

    /// A record written to E, the cursor back up, and the record read again:
    /// cut, just fitting, or with room to spare.
    fn echo_errand(&mut self, iocb: u8) -> Vec<Vec<u8>> {
        // A full row and one around it, an empty one (its EOL alone), or any.
        let any = 1 + self.random.below(38);
        let length = self.random.pick(&[any, any, any, 0, 1, 37, 38, 38, 39]);
        let mut text: Vec<u8> = (0..length).map(|_| self.random.pick(b"ABCabc 0123 xyz")).collect();
        if text.is_empty() {
            text.push(EOL);
        }
        let n = self.random.pick(&[1, 1 + length / 2, length.max(1), length.max(1), length + 1, length + 10, 37, 38]);
        let address = self.inside(n);
        let mut messages = Vec::new();
        // Now and then where it scrolls: on the last rows, all blank.
        if self.random.chance(150) {
            let down = vec![EOL; 21 + self.random.below(3)];
            messages.extend(self.put(iocb, PUT_CHARACTERS, &[vec![0x7D], down].concat()));
        }
        messages.extend(self.put(iocb, PUT_RECORD, &text));
        // The last column is followed by a new row of its own.
        let rows = if length < 38 { 1 } else { 2 };
        messages.extend(self.put(iocb, PUT_CHARACTERS, &vec![0x1C; rows]));
        messages.push(self.call(iocb, GET_RECORD, address, n));
        messages.push(fetch(address, n));
        messages
    }

    /// A place on a row of E, then single characters put and read by A.
    fn edit_errand(&mut self, iocb: u8) -> Vec<Vec<u8>> {
        // Behind the text, or in the last column.
        let start: &[u8] = if self.random.chance(700) { b"ABCDEF" } else { b"\x9B\x1E" };
        let mut messages = self.put(iocb, PUT_CHARACTERS, start);
        for _ in 0..2 + self.random.below(8) {
            let command = self.random.pick(&[PUT_CHARACTERS, PUT_RECORD, GET_CHARACTERS, GET_RECORD]);
            let byte = match self.random.below(4) {
                0 => self.random.pick(b"xyz "),
                1 => self.random.pick(&[0x1B, 0x1E, 0x1F, 0x7E]),
                _ => self.random.pick(&CONTROLS),
            };
            let address = self.address();
            messages.push(call(iocb, command, address, 0, [0, 0, byte]));
            // Another mode in between: S opened and closed by its GET STATUS.
            if self.random.chance(30) {
                let (address, other) = (self.inside(2), self.random.below(8) as u8);
                let aux = [self.random.pick(&[0x0C, 0x2C]), 3 + self.random.below(6) as u8, 0];
                messages.extend([load(address, b"S:"), call(other, GET_STATUS, address, 0, aux)]);
            }
        }
        messages
    }

    /// To the last cell of S, a byte into it, and something past it; then
    /// mostly S again with its cells kept, and its last row read to the end.
    fn corner_errand(&mut self, iocb: u8) -> Vec<Vec<u8>> {
        let console = &self.player.stick.console;
        let (columns, rows, _) = shape(console.mode);
        let (mut data, column) = match rows - console.row {
            0 => ([vec![0x7D], vec![EOL; rows - 1]].concat(), 0),
            1 => (Vec::new(), console.column),
            left => (vec![EOL; left - 1], 0),
        };
        let mut messages = Vec::new();
        if !data.is_empty() {
            messages.extend(self.put(iocb, PUT_CHARACTERS, &data));
        }
        // No control code among them, so that a record has its EOL added past the last row.
        data = (column + 1..columns).map(|_| self.random.pick(&[0x00, 0x01, 0x02, 0x03, 0xFC, 0xFF])).collect();
        data.push(self.random.pick(&[0x01, 0x02, 0x03, 0xFF]));
        let command = self.random.pick(&[PUT_CHARACTERS, PUT_RECORD]);
        messages.extend(self.put(iocb, command, &data));
        messages.extend(match self.random.below(5) {
            0 => self.put(iocb, PUT_CHARACTERS, &[0x01]),
            1 => self.put(iocb, PUT_CHARACTERS, &[EOL]),
            2 => self.put(iocb, PUT_CHARACTERS, &[0x7D]),
            3 => vec![self.call(iocb, GET_CHARACTERS, 0, 1)],
            _ => {
                let command = self.random.pick(&[GET_RECORD, GET_CHARACTERS, PUT_RECORD, PUT_CHARACTERS]);
                vec![self.call(iocb, command, 0, 0)]
            }
        });
        if self.random.chance(800) {
            let mode = self.player.stick.console.mode;
            messages.extend(self.reopen(iocb, R | W | KEEP, mode));
            messages.extend(self.put(iocb, PUT_CHARACTERS, &vec![EOL; rows - 1]));
            let n = columns + self.random.below(2);
            let address = self.inside(n);
            messages.push(self.call(iocb, GET_CHARACTERS, address, n));
            messages.push(fetch(address + n - 1, 1));
        }
        messages
    }

    /// The paper filled up to its last bytes, and some more byte by byte.
    fn paper_errand(&mut self, iocb: u8) -> Vec<Vec<u8>> {
        let mut messages = Vec::new();
        let n = (PAPER - 3 + self.random.below(4)).saturating_sub(self.player.stick.used);
        if n > 0 {
            let address = self.inside(n);
            messages.push(self.call(iocb, PUT_CHARACTERS, address, n));
        }
        for _ in 0..1 + self.random.below(3) {
            let command = self.random.pick(&[PUT_CHARACTERS, PUT_RECORD]);
            let byte = self.random.byte();
            messages.extend(match self.random.below(2) {
                0 => self.put(iocb, command, &[byte]),
                _ => vec![call(iocb, command, 65_535, 0, [0, 0, byte])],
            });
        }
        messages
    }

    // ---- the tape ----

    /// C from OPEN to CLOSE: a tape laid and read, one written and read again,
    /// one written full, or one read up to its end. Or C asked for, whoever has
    /// it open.
    fn tape_errand(&mut self, iocb: u8) -> Vec<Vec<u8>> {
        let mut messages = Vec::new();
        let open = self.player.stick.cassette.mark != Mark::Closed;
        // A tape that the other host reads is mostly left as it lies.
        let [end, ask] = if open { [10, 200] } else { [180, 15] };
        match self.random.weigh(&[50, 40, 12, 10, end, ask]) {
            0 => self.lay_tape(),
            1 => {
                messages.extend(self.open_tape(iocb, W));
                for _ in 0..self.random.below(5) {
                    messages.extend(self.write_tape(iocb));
                }
                messages.push(self.call(iocb, CLOSE, 0, 0));
            }
            2 => messages.extend(self.full_tape(iocb)),
            3 => messages.extend(self.last_record(iocb)),
            4 => return self.up_to_the_end(iocb),
            _ => {
                let (special, aux1) = (self.random.pick(&SPECIALS), self.random.pick(&[0, R, W, R | W]));
                let command = self.random.pick(&[OPEN, GET_STATUS, special]);
                return self.ask_for_tape(iocb, command, aux1);
            }
        }
        if messages.is_empty() || self.random.chance(800) {
            messages.extend(self.open_tape(iocb, R));
            for _ in 0..1 + self.random.below(4) {
                messages.extend(self.read_tape(iocb));
            }
            // Mostly closed: as long as it is open, no other block gets it.
            if self.random.chance(700) {
                messages.push(self.call(iocb, CLOSE, 0, 0));
            }
        }
        messages
    }

    /// At times with one bit of AUX1 off.
    fn open_tape(&mut self, iocb: u8, aux1: u8) -> Vec<Vec<u8>> {
        let bit = if self.random.chance(250) { 1 << self.random.below(8) } else { 0 };
        self.ask_for_tape(iocb, OPEN, aux1 ^ bit)
    }

    fn ask_for_tape(&mut self, iocb: u8, command: u8, aux1: u8) -> Vec<Vec<u8>> {
        let specification: &[u8] = self.random.pick(&[b"C:", b"C:", b"C1:", b"C8:"]);
        let address = self.inside(specification.len());
        let aux = [aux1, self.random.byte(), self.random.byte()];
        vec![load(address, specification), call(iocb, command, address, 0, aux)]
    }

    /// Something with an open block of C.
    fn on_tape(&mut self, iocb: u8, file: File) -> Vec<Vec<u8>> {
        match (self.random.weigh(&[60, 25, 10, 5]), file.aux1 & (R | W)) {
            (0, R) => {
                if self.random.chance(350) {
                    self.meddle_with_record();
                }
                self.read_tape(iocb)
            }
            (0, W) => self.write_tape(iocb),
            (1, _) => vec![self.call(iocb, CLOSE, 0, 0)],
            (2, _) => {
                let special = self.random.pick(&SPECIALS);
                let command = self.random.pick(&[GET_STATUS, special, OPEN]);
                vec![self.call(iocb, command, 0, 0)]
            }
            // The wrong way, or as it is open.
            _ => {
                let command = self.random.pick(&[GET_RECORD, GET_CHARACTERS, PUT_RECORD, PUT_CHARACTERS]);
                let n = self.random.below(3);
                vec![self.call(iocb, command, 0, n)]
            }
        }
    }

    /// A transfer from an open tape: to the end of its record or of all or
    /// about it, a few characters, or many.
    fn read_tape(&mut self, iocb: u8) -> Vec<Vec<u8>> {
        let Cassette { record, place, .. } = self.player.stick.cassette;
        let records = self.player.stick.tape.chunks(RECORD).skip(record).map_while(|record| characters(record).ok());
        let lengths: Vec<usize> = records.map(<[u8]>::len).collect();
        let left = lengths.first().map_or(1, |length| length.saturating_sub(place).max(1));
        let all = lengths.iter().sum::<usize>().saturating_sub(place).clamp(1, 2_000);
        let piece = self.random.pick(&PIECES);
        let few = [0, 1, 2, 3, 10, left, left, left + 1, all, all, all - 1, all + 1];
        let n = if self.random.chance(650) {
            self.random.pick(&few)
        } else {
            self.random.pick(&[126, 127, 128, 129, piece, 600, 2_000])
        };
        let address = self.inside(n);
        let command = self.random.pick(&[GET_CHARACTERS, GET_CHARACTERS, GET_RECORD]);
        let mut messages = vec![self.call(iocb, command, address, n)];
        if n > 0 && self.random.chance(300) {
            messages.push(fetch(address, n.min(256)));
        }
        messages
    }

    /// A transfer to an open tape: up to a full record or about it, a few
    /// characters, or many.
    fn write_tape(&mut self, iocb: u8) -> Vec<Vec<u8>> {
        let left = DATA - self.player.stick.cassette.pending.len();
        let piece = self.random.pick(&PIECES);
        let n = self.random.pick(&[0, 1, 2, 3, 10, left - 1, left, left, left + 1, 126, 127, 128, 129, piece, 600]);
        let command = self.random.pick(&[PUT_CHARACTERS, PUT_CHARACTERS, PUT_RECORD]);
        if n > 0 && self.random.chance(500) {
            let data: Vec<u8> = match self.random.below(3) {
                0 => vec![self.random.pick(&[0x00, 0x55, 0xFE, 0xFF]); n],
                1 => (0..n).map(|_| self.random.pick(b"ABCabc 0123 xyz")).collect(),
                _ => (0..n).map(|_| self.random.byte()).collect(),
            };
            return self.put(iocb, command, &data);
        }
        // What the area holds; or all but the last two of a record, and then one by one.
        if n == 0 && left > 2 {
            let address = self.inside(left - 2);
            let mut messages = vec![self.call(iocb, PUT_CHARACTERS, address, left - 2)];
            messages.extend((0..1 + self.random.below(3)).map(|_| self.call(iocb, command, 65_535, 0)));
            return messages;
        }
        let address = self.inside(n);
        vec![self.call(iocb, command, address, n)]
    }

    /// 249 full records but for a few characters, then some more one by one.
    fn full_tape(&mut self, iocb: u8) -> Vec<Vec<u8>> {
        if self.random.chance(500) {
            let bytes: Vec<u8> = (0..AREA).map(|_| self.random.byte()).collect();
            let at = self.random.pick(&[0, AREA]) as u32;
            self.play(Op::Write { buffer: 0, at, bytes });
        }
        let mut messages = self.ask_for_tape(iocb, OPEN, W);
        messages.push(self.call(iocb, PUT_CHARACTERS, 0, AREA));
        let n = DATA * (RECORDS - 1) - AREA - self.random.below(5);
        messages.push(self.call(iocb, PUT_CHARACTERS, AREA - n, n));
        for _ in 0..self.random.below(6) {
            let command = self.random.pick(&[PUT_CHARACTERS, PUT_RECORD]);
            let byte = self.random.byte();
            messages.extend(match self.random.below(4) {
                0 => self.put(iocb, PUT_RECORD, &[byte]),
                1 => self.put(iocb, command, &[byte]),
                2 => self.put(iocb, command, &[byte, byte]),
                _ => vec![call(iocb, command, 65_535, 0, [0, 0, byte])],
            });
        }
        if self.random.chance(800) {
            messages.push(self.call(iocb, CLOSE, 0, 0));
        }
        // Rarely all of it is read: as a record, or to its end.
        if self.random.chance(300) {
            messages.extend(self.open_tape(iocb, R));
            let command = self.random.pick(&[GET_RECORD, GET_CHARACTERS]);
            for _ in 0..2 {
                messages.push(self.call(iocb, command, 0, AREA));
            }
            messages.push(self.call(iocb, CLOSE, 0, 0));
        }
        messages
    }

    /// Some good records from the tape's beginning on, mostly with an end, and
    /// often a few bytes of them spoilt.
    fn lay_tape(&mut self) {
        let records = match self.random.weigh(&[85, 10, 5]) {
            0 => {
                let mut records: Vec<[u8; RECORD]> = (0..self.random.below(6)).map(|_| self.record()).collect();
                if self.random.chance(800) {
                    records.push(end_record());
                }
                records
            }
            1 => self.up_to_the_last(),
            _ => vec![record(FULL, [self.random.pick(b"AB\x9B\xFF"); DATA]); self.random.pick(&[249, 250])],
        };
        self.play(Op::Write { buffer: 4, at: 0, bytes: records.concat() });
        if !records.is_empty() && self.random.chance(400) {
            for _ in 0..1 + self.random.below(3) {
                let record = self.random.below(records.len().min(8));
                self.spoil(record);
            }
        }
    }

    /// Records to the tape's last, a character each; the last mostly of any kind.
    fn up_to_the_last(&mut self) -> Vec<[u8; RECORD]> {
        let mut records = vec![partial_record(&[self.random.byte()]); RECORDS];
        if self.random.chance(800) {
            records[RECORDS - 1] = self.record();
        }
        records
    }

    /// Such a tape, read up to its last record and through it.
    fn last_record(&mut self, iocb: u8) -> Vec<Vec<u8>> {
        let records = self.up_to_the_last();
        self.play(Op::Write { buffer: 4, at: 0, bytes: records.concat() });
        if self.random.chance(200) {
            self.spoil(RECORDS - 1);
        }
        let mut messages = self.ask_for_tape(iocb, OPEN, R);
        for n in [RECORDS - 1, self.random.pick(&[1, DATA - 1, DATA, DATA + 1]), 1 + self.random.below(2)] {
            let address = self.inside(n);
            messages.push(self.call(iocb, GET_CHARACTERS, address, n));
        }
        messages.push(self.call(iocb, CLOSE, 0, 0));
        messages
    }

    /// A text on the tape, mostly with its only EOL at its end, and behind it
    /// the end, a bad record, or nothing where the tape runs out; read once or
    /// several times, to its last character or about it.
    fn up_to_the_end(&mut self, iocb: u8) -> Vec<Vec<u8>> {
        let n = self.random.pick(&[1, 2, 2, 3, 3, 10, 127, 128, 129, 256]);
        let mut text: Vec<u8> = (0..n).map(|_| self.random.pick(b"ABCabc 0123 xyz")).collect();
        if self.random.chance(700) {
            text[n - 1] = EOL;
        }
        let mut records = self.records_of(&text);
        let runs_out = self.random.chance(250);
        let before = if runs_out { RECORDS - records.len() } else { 0 };
        if !runs_out {
            let data = [self.random.byte(); DATA];
            let bad = self.random.pick(&[0x00, 0xFF]);
            records.push(match self.random.weigh(&[60, 20, 10, 10]) {
                0 => end_record(),
                1 => record(END, data),
                2 => record(bad, data),
                _ => self.record(),
            });
        }
        let singles = vec![partial_record(b"A"); before];
        self.play(Op::Write { buffer: 4, at: 0, bytes: [singles, records.clone()].concat().concat() });
        if !runs_out && self.random.chance(100) {
            self.spoil(records.len() - 1);
        }
        let mut messages = Vec::new();
        for _ in 0..1 + self.random.below(4) {
            messages.extend(self.ask_for_tape(iocb, OPEN, R));
            if runs_out {
                messages.push(self.call(iocb, GET_CHARACTERS, 0, before));
            }
            for (command, n) in self.reads_about(n) {
                let address = self.inside(n);
                messages.push(self.call(iocb, command, address, n));
            }
            messages.push(self.call(iocb, CLOSE, 0, 0));
        }
        messages
    }

    /// Commands and lengths by which n characters are read, or about as many;
    /// mostly something more.
    fn reads_about(&mut self, n: usize) -> Vec<(u8, usize)> {
        let either = self.random.pick(&[GET_CHARACTERS, GET_RECORD]);
        let part = 1 + self.random.below(n);
        let mut reads = match self.random.below(6) {
            0 => vec![(GET_CHARACTERS, n)],
            1 => vec![(GET_CHARACTERS, n + 1 + self.random.below(3))],
            2 => vec![(GET_CHARACTERS, n - 1), (either, 0)],
            3 => vec![(GET_RECORD, n + self.random.pick(&[0, 0, 1, 10]))],
            4 => vec![(GET_RECORD, part)],
            _ => vec![(GET_CHARACTERS, part), (either, n - part)],
        };
        if self.random.chance(600) {
            reads.push((either, self.random.below(3)));
        }
        reads
    }

    /// A text as records, a short one at times with one or two characters in
    /// each.
    fn records_of(&mut self, text: &[u8]) -> Vec<[u8; RECORD]> {
        let few = self.random.pick(&[1, 2, DATA, DATA, DATA]);
        let pieces = text.chunks(if text.len() > 10 { DATA } else { few });
        pieces.map(|piece| piece.try_into().map_or_else(|_| partial_record(piece), |data| record(FULL, data))).collect()
    }

    /// A record, mostly good, its checksum right.
    fn record(&mut self) -> [u8; RECORD] {
        let mut data = [0; DATA];
        match self.random.below(3) {
            0 => data.fill(self.random.pick(&[0x00, 0x41, EOL, 0xFF])),
            1 => data.fill_with(|| self.random.pick(b"ABCabc\x9B0123 xyz")),
            _ => data.fill_with(|| self.random.byte()),
        }
        let any = 1 + self.random.below(127);
        let count = self.random.pick(&[1, 2, 3, 126, 127, any]);
        let mut bytes = match self.random.weigh(&[35, 35, 10, 3, 3, 4]) {
            0 => record(FULL, data),
            1 => partial_record(&data[..count]),
            2 => end_record(),
            3 => record(END, data),
            4 => record(self.random.pick(&[0x00, 0xF9, 0xFB, 0xFD, 0xFF]), data),
            _ => {
                data[DATA - 1] = self.random.pick(&[0, 128, 255]);
                record(PARTIAL, data)
            }
        };
        if self.random.chance(100) {
            // A sum of $FF, which is no 0.
            bytes[DATA_AT] = 0;
            bytes[DATA_AT] = 255 - checksum(&bytes[..CHECKSUM_AT]);
        }
        if self.random.chance(50) {
            bytes[self.random.below(CONTROL_AT)] = self.random.byte();
        }
        bytes[CHECKSUM_AT] = checksum(&bytes[..CHECKSUM_AT]);
        bytes
    }

    /// A byte of a record changed, or its checksum made another sum.
    fn spoil(&mut self, record: usize) {
        let from = RECORD * record;
        let bytes = &self.player.stick.tape[from..from + RECORD];
        let old = bytes[CHECKSUM_AT];
        let modulo_256 = bytes[..CHECKSUM_AT].iter().fold(0, |sum: u8, byte| sum.wrapping_add(*byte));
        let any = self.random.below(RECORD);
        let place = match old {
            255 => CHECKSUM_AT,
            _ => self.random.pick(&[0, CONTROL_AT, COUNT_AT, CHECKSUM_AT, CHECKSUM_AT, any]),
        };
        let byte = if place == CHECKSUM_AT {
            self.random.pick(&[modulo_256, !old, old.wrapping_add(1)])
        } else {
            self.random.byte()
        };
        self.play(Op::Write { buffer: 4, at: (from + place) as u32, bytes: vec![byte] });
    }

    // ---- the diskettes ----

    /// D from OPEN to CLOSE: a file or the directory read, a chain that goes
    /// round or over all sectors, a file read up to its end; or a name asked
    /// for.
    fn disk_errand(&mut self, iocb: u8, closed: &[u8]) -> Vec<Vec<u8>> {
        let drive = self.random.pick(&[0, 0, 0, 1, 1, 2, 3]);
        if self.player.stick.entry(drive, 0)[0] == 0 || self.random.chance(150) {
            self.lay_diskette(drive);
        }
        let mut messages = Vec::new();
        match self.random.weigh(&[60, 40, 50, 50, 14, 8, 3]) {
            0 => {
                let name = self.name(drive);
                messages.extend(self.open_disk(iocb, drive, &name, R));
                let place = self.place_of(drive, &name);
                for _ in 0..1 + self.random.below(4) {
                    messages.extend(self.read_disk(iocb, drive, place));
                }
            }
            1 => {
                let name = self.name_or_all(drive);
                messages.extend(self.open_disk(iocb, drive, &name, DIRECTORY));
                for _ in 0..1 + self.random.below(5) {
                    messages.extend(self.read_listing(iocb, drive));
                }
            }
            2 => return self.file_to_the_end(iocb, drive),
            3 => {
                for _ in 0..1 + self.random.below(4) {
                    let special = self.random.pick(&SPECIALS);
                    let command = self.random.pick(&[OPEN, GET_STATUS, GET_STATUS, special]);
                    messages.extend(self.ask_for_disk(iocb, command));
                }
            }
            4 => messages.extend(self.ring(iocb, drive)),
            5 => messages.extend(self.many(closed, drive)),
            _ => messages.extend(self.all_sectors(iocb, drive)),
        }
        if messages.is_empty() || self.random.chance(500) {
            messages.push(self.call(iocb, CLOSE, 0, 0));
        }
        messages
    }

    /// The drive and the place of the port's request on D, if one runs.
    fn running_on_disk(&self, port: u8) -> Option<(usize, Place)> {
        match self.phase(port) {
            Phase::Running(run) if run.file.device == Device::D => {
                let place = self.player.stick.ports[usize::from(port)].places[usize::from(run.call.iocb)];
                place.map(|place| (run.file.drive(), place))
            }
            _ => None,
        }
    }

    /// The drives and places of all blocks that have D open.
    fn open_places(&self) -> Vec<(usize, Place)> {
        let ports = self.player.stick.ports.iter();
        let blocks = ports.flat_map(|port| port.blocks.iter().zip(&port.places));
        blocks.filter_map(|(file, place)| Some((file.as_ref()?.drive(), (*place)?))).collect()
    }

    /// OPEN of a good name, at times with one bit of AUX1 off.
    fn open_disk(&mut self, iocb: u8, drive: usize, name: &[u8], aux1: u8) -> Vec<Vec<u8>> {
        let bit = if self.random.chance(100) { 1 << self.random.below(8) } else { 0 };
        let end = self.random.pick(b"\x9B\x9B ");
        let specification = [&self.drive_name(drive)[..], name, &[end]].concat();
        let address = self.inside(specification.len());
        let aux = [aux1 ^ bit, self.random.byte(), self.random.byte()];
        vec![load(address, &specification), call(iocb, OPEN, address, 0, aux)]
    }

    /// `D:`, or with a digit.
    fn drive_name(&mut self, drive: usize) -> Vec<u8> {
        if drive == 0 && self.random.chance(500) {
            return b"D:".to_vec();
        }
        vec![b'D', b'1' + drive as u8, b':']
    }

    /// A CALL on a specification of any kind, at times where the area ends in it.
    fn ask_for_disk(&mut self, iocb: u8, command: u8) -> Vec<Vec<u8>> {
        let drive = self.random.pick(&[0, 0, 0, 1, 2, 3]);
        let mut specification = self.drive_name(drive);
        if self.random.chance(80) {
            specification =
                self.random.pick::<&[u8]>(&[b"D5:", b"D8:", b"D0:", b"D9:", b"D4;", b"D12:", b"D "]).to_vec();
        }
        let name = match self.random.weigh(&[60, 30, 10]) {
            0 => self.name(drive),
            1 => self.bad_name(drive),
            _ => b"ABCDEFGHI.TXTY".to_vec(),
        };
        specification.extend(name);
        specification.push(self.random.pick(&[EOL, EOL, b' ']));
        let whole = specification.len();
        let room = match self.random.weigh(&[50, 20, 20, 10]) {
            0 => AREA - self.random.below(300),
            1 => whole,
            2 => 1 + self.random.below(whole),
            _ => 1 + self.random.below(4),
        };
        let bad_digit = matches!(specification[1], b'5'..=b'9');
        let room = if bad_digit && self.random.chance(300) { 2 } else { room };
        let address = AREA - room;
        specification.truncate(room);
        let (aux1, aux2) = if self.random.chance(400) { (R, 0) } else { self.aux(Device::D) };
        let length = self.length();
        vec![load(address, &specification), call(iocb, command, address, length, [aux1, aux2, self.random.byte()])]
    }

    /// A name that some file of the drive has, or about it: with wild cards,
    /// too long, or of no file.
    fn name(&mut self, drive: usize) -> Vec<u8> {
        let entries = (0..ENTRIES).take_while(|&entry| self.player.stick.entry(drive, entry)[0] != 0).count();
        let some = self.random.below(entries.max(1));
        let entry = self.random.pick(&[some, some, entries.max(1) - 1]);
        let bytes = self.player.stick.entry(drive, entry);
        let field = |bytes: &[u8]| bytes.iter().copied().take_while(u8::is_ascii_alphanumeric).collect::<Vec<u8>>();
        let (primary, extension) = (field(&bytes[NAME_AT..NAME_AT + NAME]), field(&bytes[NAME_AT + NAME..]));
        let alike = match self.random.weigh(&[20, 40, 20, 5, 10, 5]) {
            0 => return b"*.*".to_vec(),
            1 => (primary, extension),
            2 => (self.wild(&primary), self.wild(&extension)),
            3 => (b"????????".to_vec(), b"???".to_vec()),
            // Past eight and three: what is behind is ignored.
            4 => (self.too_long(primary, NAME), self.too_long(extension, EXTENSION)),
            _ => (self.random.pick(&NAMES).to_vec(), self.random.pick(&EXTENSIONS).to_vec()),
        };
        let (primary, extension) = alike;
        match self.random.below(30) {
            0 => Vec::new(),
            1 => primary,
            2 => [b".", &extension[..]].concat(),
            _ if extension.is_empty() && self.random.chance(500) => primary,
            _ => [&primary[..], b".", &extension].concat(),
        }
    }

    fn name_or_all(&mut self, drive: usize) -> Vec<u8> {
        if self.random.chance(500) {
            b"*.*".to_vec()
        } else {
            self.name(drive)
        }
    }

    /// A field with some characters as ?, or the rest of it as *, at times with
    /// more behind it.
    fn wild(&mut self, field: &[u8]) -> Vec<u8> {
        let mut wild: Vec<u8> = field.iter().map(|&byte| if self.random.chance(300) { b'?' } else { byte }).collect();
        if self.random.chance(600) {
            wild.truncate(self.random.below(wild.len() + 1));
            wild.push(b'*');
            if self.random.chance(200) {
                wild.push(self.random.pick(b"AZ09*?"));
            }
        } else if self.random.chance(300) {
            wild.push(b'?');
        }
        wild
    }

    /// A field up to its length and past it.
    fn too_long(&mut self, mut field: Vec<u8>, length: usize) -> Vec<u8> {
        while field.len() < length {
            field.push(b'?');
        }
        field.extend((0..self.random.below(4)).map(|_| self.random.pick(b"AZ09*?")));
        field
    }

    /// A name with a byte that it may not have: in a field, behind its end, a
    /// second dot, or alone.
    fn bad_name(&mut self, drive: usize) -> Vec<u8> {
        let mut name = self.name(drive);
        let bad = self.random.pick(&NO_NAME);
        let place = self.random.below(name.len() + 1);
        match self.random.below(6) {
            0 => name = vec![bad],
            1 => name.push(bad),
            2 => name.insert(place, bad),
            3 => name = [b"ABCDEFGH", &b"IJ"[..self.random.below(3)], &[bad]].concat(),
            4 => name = [b"A*.TXT", &b"YZ"[..self.random.below(3)], &[bad]].concat(),
            _ => name = [b"A.", &b"TXT"[..self.random.below(4)], b"."].concat(),
        }
        name
    }

    /// Where a file of that name is read from, as the diskette lies now.
    fn place_of(&self, drive: usize, name: &[u8]) -> Option<Place> {
        let pattern = pattern(name)?;
        let entry = self.player.stick.find(drive, &pattern, 0)?;
        Some(Place::File { entry, sector: self.player.stick.first_sector(drive, entry), place: 0, begun: 1 })
    }

    /// How many characters are left, of so many at most.
    fn left(&self, drive: usize, place: Place, most: usize) -> usize {
        let next = |place: &Place| self.player.stick.next_on_disk(drive, *place).ok().map(|(_, behind)| behind);
        std::iter::successors(Some(place), next).take(most + 1).count() - 1
    }

    /// A read of a file: to the end of its sector or of all or about it, a few
    /// characters, or many.
    fn read_disk(&mut self, iocb: u8, drive: usize, place: Option<Place>) -> Vec<Vec<u8>> {
        let all = place.map_or(1, |place| self.left(drive, place, 1_000)).max(1);
        let sector = match place {
            Some(Place::File { sector: sector @ 1..=LAST_SECTOR, place, .. }) => {
                usize::from(self.player.stick.sector(drive, sector)[DATA_COUNT_AT]).saturating_sub(place).max(1)
            }
            _ => 1,
        };
        let piece = self.random.pick(&PIECES);
        let n = if self.random.chance(800) {
            self.random.pick(&[0, 1, 2, 3, 10, sector, sector, sector + 1, all, all, all - 1, all + 1])
        } else {
            self.random.pick(&[124, 125, 126, piece, 600])
        };
        let address = self.inside(n);
        let command = self.random.pick(&[GET_CHARACTERS, GET_CHARACTERS, GET_RECORD]);
        let mut messages = vec![self.call(iocb, command, address, n)];
        if n > 0 && self.random.chance(300) {
            messages.push(fetch(address, n.min(256)));
        }
        messages
    }

    /// A read of a directory: a record or about it, to its end or about it.
    fn read_listing(&mut self, iocb: u8, drive: usize) -> Vec<Vec<u8>> {
        let all = self.left(drive, Place::Directory { pattern: [b'?'; 11], entry: 0, place: 0 }, 1_200);
        let (command, n) = match self.random.below(4) {
            0 => (GET_RECORD, self.random.pick(&[17, 18, 19, 40])),
            1 => (GET_RECORD, self.random.pick(&[0, 1, 5, 16, 17])),
            2 => (GET_CHARACTERS, self.random.pick(&[0, 1, 2, 17, 18, 35, 36])),
            _ => (GET_CHARACTERS, self.random.pick(&[all - 17, all - 1, all, all, all + 1, 600])),
        };
        let address = self.inside(n);
        let mut messages = vec![self.call(iocb, command, address, n)];
        if n > 0 && self.random.chance(500) {
            messages.push(fetch(address, n.min(256)));
        }
        messages
    }

    /// Something with an open block of D.
    fn on_disk(&mut self, port: u8, iocb: u8, file: File) -> Vec<Vec<u8>> {
        let place = self.player.stick.ports[usize::from(port)].places[usize::from(iocb)];
        match (self.random.weigh(&[60, 15, 15, 5]), place) {
            (0, Some(place)) if file.aux1 & R != 0 => {
                if self.random.chance(350) {
                    self.meddle_at(file.drive(), place);
                }
                if self.random.chance(80) {
                    self.play(Op::Doctor { image: file.drive() as u8 });
                }
                match place {
                    Place::File { .. } => self.read_disk(iocb, file.drive(), Some(place)),
                    Place::Directory { .. } => self.read_listing(iocb, file.drive()),
                }
            }
            (1, _) => vec![self.call(iocb, CLOSE, 0, 0)],
            (2, Some(place)) => {
                if let Place::File { entry, .. } = place {
                    if self.random.chance(500) {
                        self.reflag(file.drive(), entry);
                    }
                }
                let special = self.random.pick(&SPECIALS);
                let command = self.random.pick(&[GET_STATUS, GET_STATUS, special, OPEN]);
                vec![self.call(iocb, command, 0, 0)]
            }
            // The wrong way, or as it is open.
            _ => {
                let command = self.random.pick(&[GET_RECORD, GET_CHARACTERS, PUT_RECORD, PUT_CHARACTERS]);
                let n = self.random.below(3);
                vec![self.call(iocb, command, 0, n)]
            }
        }
    }

    /// Files with chains of sectors in no order, some of them empty; locked and
    /// deleted ones, and at times as many as a directory has. Often a few bytes
    /// of them are spoilt.
    fn lay_diskette(&mut self, drive: usize) {
        let mut diskette = Diskette::new();
        let files = match self.random.weigh(&[70, 20, 10]) {
            0 => 1 + self.random.below(4),
            1 => 4 + self.random.below(9),
            _ => self.random.pick(&[ENTRIES - 1, ENTRIES, ENTRIES]),
        };
        for file in 0..files {
            // Of many files most are empty.
            let long = if files < 20 || file == files - 1 { 1_000 } else { 100 };
            let sectors = if self.random.chance(long) { self.chain_length() } else { 0 };
            let data = (1..=sectors).map(|place| self.sector_data(place == sectors)).collect();
            let chain = self.laid_out(&diskette, data);
            let (flag, name) = (self.random.pick(&FLAGS), self.eleven());
            diskette.add(flag, &name, &chain);
        }
        self.insert(drive, &diskette);
        if self.random.chance(500) {
            for _ in 0..1 + self.random.below(3) {
                self.spoil_diskette(drive);
            }
        }
        if self.random.chance(200) {
            self.play(Op::Doctor { image: drive as u8 });
        }
    }

    fn chain_length(&mut self) -> usize {
        let many = 6 + self.random.below(20);
        self.random.pick(&[0, 1, 1, 1, 2, 2, 3, 3, 4, 5, many])
    }

    /// A file's data in sectors that are free: the first or the last, beside the
    /// directory, or any.
    fn laid_out(&mut self, diskette: &Diskette, data: Vec<Vec<u8>>) -> Vec<(usize, Vec<u8>)> {
        let mut chain: Vec<(usize, Vec<u8>)> = Vec::new();
        for data in data {
            let sector = loop {
                let any = 4 + self.random.below(LAST_SECTOR - 3);
                let sector = self.random.pick(&[4, 5, 255, 256, 359, 369, 718, LAST_SECTOR, any, any, any, any]);
                if diskette.has_free(sector) && chain.iter().all(|(other, _)| *other != sector) {
                    break sector;
                }
            };
            chain.push((sector, data));
        }
        chain
    }

    /// Writes what a diskette has into a drive's image.
    fn insert(&mut self, drive: usize, diskette: &Diskette) {
        for (at, bytes) in diskette.parts(drive) {
            self.write_images(at, &bytes);
        }
    }

    /// Data of a file sector: full ones, short ones, none.
    fn sector_data(&mut self, last: bool) -> Vec<u8> {
        let any = self.random.below(SECTOR_DATA + 1);
        let count = if last {
            self.random.pick(&[0, 1, 2, 3, 10, any, SECTOR_DATA - 1, SECTOR_DATA])
        } else {
            self.random.pick(&[0, 1, 2, 3, SECTOR_DATA - 1, SECTOR_DATA, SECTOR_DATA])
        };
        match self.random.below(3) {
            0 => vec![self.random.pick(&[0x00, b'A', b'B', EOL]); count],
            1 => (0..count).map(|_| self.random.pick(b"ABCabc\x9B0123 xyz")).collect(),
            _ => (0..count).map(|_| self.random.byte()).collect(),
        }
    }

    /// Name and extension of an entry, rarely with bytes that no name has.
    fn eleven(&mut self) -> Pattern {
        let mut name = [b' '; NAME + EXTENSION];
        let (primary, extension) = (self.random.pick(&NAMES), self.random.pick(&EXTENSIONS));
        name[..primary.len()].copy_from_slice(primary);
        name[NAME..NAME + extension.len()].copy_from_slice(extension);
        match self.random.below(40) {
            0 => name.fill(b' '),
            1 => name.fill_with(|| self.random.byte()),
            2 => name[self.random.below(NAME + EXTENSION)] = self.random.pick(b"?*a\x00\x9B. "),
            _ => {}
        }
        name
    }

    /// The sectors of a file's chain as they lie, the first few of them.
    fn chain(&self, drive: usize, entry: usize) -> Vec<usize> {
        let stick = &self.player.stick;
        let next = |sector: &usize| Some(next_sector(stick.sector(drive, *sector))).filter(is_in_image);
        let first = Some(stick.first_sector(drive, entry)).filter(is_in_image);
        std::iter::successors(first, next).take(8).collect()
    }

    fn write_images(&mut self, at: usize, bytes: &[u8]) {
        self.play(Op::Write { buffer: 6, at: at as u32, bytes: bytes.to_vec() });
    }

    /// A few bytes of a diskette changed: of a chain, an entry, or the free
    /// count.
    fn spoil_diskette(&mut self, drive: usize) {
        let entries = (0..ENTRIES).take_while(|&entry| self.player.stick.entry(drive, entry)[0] != 0).count();
        if entries == 0 {
            return;
        }
        let any = self.random.below(entries);
        let entry = self.random.pick(&[any, entries - 1]);
        let chain = self.chain(drive, entry);
        if chain.is_empty() || self.random.chance(400) {
            return self.spoil_entry(drive, entry);
        }
        let any = self.random.pick(&chain);
        let sector = self.random.pick(&[chain[0], chain[chain.len() - 1], any]);
        self.spoil_sector(drive, entry, sector, 0);
    }

    /// A sector that a file of that number reads: another link, file number,
    /// data count or byte.
    fn spoil_sector(&mut self, drive: usize, file: usize, sector: usize, place: usize) {
        let at = sector_at(drive, sector);
        let entries: Vec<usize> = (0..ENTRIES).filter(|&entry| self.player.stick.entry(drive, entry)[0] != 0).collect();
        let first = self.chain(drive, file).first().copied().unwrap_or(sector);
        let other = if entries.is_empty() { None } else { Some(self.random.pick(&entries)) };
        let cross = other.and_then(|entry| self.chain(drive, entry).last().copied()).unwrap_or(1);
        let any = self.random.below(1_024);
        match self.random.weigh(&[50, 20, 30, 10]) {
            // The end, a ring, a cross link, links about 719.
            0 => {
                let next =
                    self.random.pick(&[0, 0, sector, first, cross, LAST_SECTOR, LAST_SECTOR + 1, 1_023, 360, 361, any]);
                self.write_images(at + LINK_AT, &link(file, next));
            }
            1 => {
                let old = self.player.stick.sector(drive, sector)[LINK_AT];
                let byte = self.random.pick(&[old ^ 4, old ^ 0x80, old.wrapping_add(4), old & 3]);
                self.write_images(at + LINK_AT, &[byte]);
            }
            2 => {
                let about = (place + self.random.below(3)).saturating_sub(1) as u8;
                let count = self.random.pick(&[0, 0, 1, about, about, about, 125, 125, 126, 126, 127, 128, 255]);
                self.write_images(at + DATA_COUNT_AT, &[count]);
            }
            _ => {
                let byte = self.random.byte();
                self.write_images(at + place.min(SECTOR_DATA - 1), &[byte]);
            }
        }
    }

    /// An entry with another flag, count, first sector or name; or the free
    /// count, the map.
    fn spoil_entry(&mut self, drive: usize, entry: usize) {
        let at = entry_at(drive, entry);
        let any = self.random.below(65_536);
        let count = self.random.pick(&[0, 9, 10, 99, 100, 255, 256, 719, 999, 1_000, 1_001, 65_535, any]);
        match self.random.weigh(&[40, 15, 30, 10, 15, 5]) {
            0 => self.reflag(drive, entry),
            1 => self.write_images(at + SECTOR_COUNT_AT, &low_high(count)),
            2 => {
                let sector = if self.random.chance(200) {
                    // A bit more than a link has.
                    self.player.stick.first_sector(drive, entry) ^ self.random.pick(&[0x0400, 0x2000, 0x8000])
                } else {
                    self.random.pick(&[0, LAST_SECTOR, LAST_SECTOR, 720, 720, 720, 721, 65_535, 360, 361, any])
                };
                self.write_images(at + FIRST_SECTOR_AT, &low_high(sector));
            }
            3 => {
                let name = self.eleven();
                self.write_images(at + NAME_AT, &name);
            }
            4 => self.write_images(sector_at(drive, FREE_COUNT_SECTOR) + FREE_COUNT_AT, &low_high(count)),
            _ => {
                let (byte, place) = (self.random.byte(), self.random.below(90));
                self.write_images(sector_at(drive, FREE_COUNT_SECTOR) + MAP_AT + place, &[byte]);
            }
        }
    }

    /// An entry locked, deleted or not, or the directory's end.
    fn reflag(&mut self, drive: usize, entry: usize) {
        let flag = self.random.pick(&FLAGS);
        let flag = self.random.pick(&[0, 0x42, 0x62, 0x62, 0x80, flag, flag]);
        self.write_images(entry_at(drive, entry), &[flag]);
    }

    /// Bytes changed where some open block of D is.
    fn meddle_with_disk(&mut self) {
        let places = self.open_places();
        if !places.is_empty() {
            let (drive, place) = self.random.pick(&places);
            self.meddle_at(drive, place);
        }
    }

    fn meddle_at(&mut self, drive: usize, place: Place) {
        let end = self.player.stick.next_on_disk(drive, place) == Err(END_OF_FILE);
        match place {
            Place::File { entry, sector, place, begun } if is_in_image(&sector) && self.random.chance(800) => {
                let at = sector_at(drive, sector);
                match self.random.below(4) {
                    // Behind the last character one more, or the same sector once more.
                    0 if end => self.write_images(at + DATA_COUNT_AT, &[(place + 1) as u8]),
                    1 if end => self.write_images(at + LINK_AT, &link(entry, sector)),
                    0 | 1 if begun >= LAST_SECTOR - 1 => self.write_images(at + LINK_AT, &link(entry, 0)),
                    _ => self.spoil_sector(drive, entry, sector, place),
                }
            }
            Place::File { entry, .. } => self.spoil_entry(drive, entry),
            Place::Directory { entry, .. } => {
                // The record that is read, or one beside it.
                let entry = self.random.pick(&[entry, entry, entry + 1, entry.saturating_sub(1)]).min(ENTRIES - 1);
                match self.random.below(3) {
                    0 => {
                        let name = self.eleven();
                        self.write_images(entry_at(drive, entry) + NAME_AT, &name);
                    }
                    _ => self.spoil_entry(drive, entry),
                }
            }
        }
    }

    /// A text in a file, mostly with its only EOL at its end, and behind it the
    /// end, empty sectors, or what cannot be read; read once or several times,
    /// to its last character or about it.
    fn file_to_the_end(&mut self, iocb: u8, drive: usize) -> Vec<Vec<u8>> {
        let n = self.random.pick(&[1, 2, 2, 3, 3, 10, 124, 125, 126, 250]);
        let mut text: Vec<u8> = (0..n).map(|_| self.random.pick(b"ABCabc 0123 xyz")).collect();
        if self.random.chance(700) {
            text[n - 1] = EOL;
        }
        let few = self.random.pick(&[1, 2, SECTOR_DATA, SECTOR_DATA, SECTOR_DATA]);
        let mut pieces: Vec<Vec<u8>> =
            text.chunks(if n > 10 { SECTOR_DATA } else { few }).map(<[u8]>::to_vec).collect();
        let empty = self.random.pick(&[0, 0, 0, 1, 1, 2, 5]);
        pieces.extend(vec![Vec::new(); empty]);
        // Empty ones before and between them, too.
        if self.random.chance(300) {
            let place = self.random.below(pieces.len());
            pieces.insert(place, Vec::new());
        }
        let mut diskette = Diskette::new();
        let chain = self.laid_out(&diskette, pieces);
        // Its number is not always 0.
        let before = self.random.pick(&[0, 0, 0, 1, 2, 63]);
        for _ in 0..before {
            diskette.add(DELETED, b"A       TXT", &[]);
        }
        let flag = self.random.pick(&[0x42, 0x42, 0x42, 0x62]);
        let file = diskette.add(flag, b"A       TXT", &chain);
        self.insert(drive, &diskette);
        if self.random.chance(350) {
            // Where the file ends, or before the empty sectors there.
            let empty = chain.iter().rev().take_while(|(_, data)| data.is_empty()).count();
            let place = self.random.pick(&[chain.len() - 1, (chain.len() - 1).saturating_sub(empty)]);
            let (sector, next) = (chain[place].0, self.random.pick(&[720, 721, 1_023]));
            match self.random.below(3) {
                0 => self.spoil_sector(drive, file, sector, 0),
                _ => self.write_images(sector_at(drive, sector) + LINK_AT, &link(file, next)),
            }
        }
        let mut messages = Vec::new();
        for _ in 0..1 + self.random.below(4) {
            let name = self.random.pick::<&[u8]>(&[b"A.TXT", b"*.*", b"A*.T?T", b"A????????.TXTY"]);
            messages.extend(self.open_disk(iocb, drive, name, R));
            for (command, n) in self.reads_about(n) {
                let address = self.inside(n);
                messages.push(self.call(iocb, command, address, n));
            }
            messages.push(self.call(iocb, CLOSE, 0, 0));
        }
        messages
    }

    /// A chain that goes round, read to its 719th sector or about it. Rarely its
    /// sectors are full: up to 89,876 ticks.
    fn ring(&mut self, iocb: u8, drive: usize) -> Vec<Vec<u8>> {
        let sectors = self.random.pick(&[1, 1, 1, 2, 3]);
        let count = if self.random.chance(60) { SECTOR_DATA } else { self.random.pick(&[0, 0, 1, 1, 1, 2]) };
        let mut diskette = Diskette::new();
        let chain: Vec<(usize, Vec<u8>)> = (0..sectors).map(|place| (700 + place, vec![b'A'; count])).collect();
        diskette.add(IN_USE, b"RING       ", &chain);
        self.insert(drive, &diskette);
        self.write_images(sector_at(drive, 699 + sectors) + LINK_AT, &link(0, 700));
        let mut messages = self.open_disk(iocb, drive, b"R*", R);
        let all = LAST_SECTOR * count;
        let (command, n) = match self.random.below(6) {
            _ if count == SECTOR_DATA => (GET_RECORD, 1 + self.random.below(700)),
            0 => (GET_RECORD, 1 + self.random.below(700)),
            1 => (GET_CHARACTERS, all),
            2 => (GET_CHARACTERS, all + 1),
            // In the 719th sector, or before it: then its link may become another.
            3 => (GET_CHARACTERS, all.saturating_sub(self.random.below(2))),
            _ => (GET_CHARACTERS, all.saturating_sub(1 + count + self.random.below(2))),
        };
        let address = self.inside(n);
        messages.push(self.call(iocb, command, address, n));
        for _ in 0..self.random.below(3) {
            let n = self.random.below(4);
            messages.push(self.call(iocb, GET_CHARACTERS, 0, n));
        }
        messages
    }

    /// A chain over the sectors from 1 on, as many as there are or one fewer,
    /// with a character each or empty, and behind it the end or one more. Rarely
    /// full.
    fn all_sectors(&mut self, iocb: u8, drive: usize) -> Vec<Vec<u8>> {
        let last = self.random.pick(&[LAST_SECTOR - 1, LAST_SECTOR, LAST_SECTOR]);
        let behind = self.random.pick(&[0, 0, 0, 1, LAST_SECTOR, 720]);
        let count = if self.random.chance(30) { SECTOR_DATA } else { self.random.pick(&[0, 1, 1, 2]) };
        let image = chain_of_all(b"ALL        ", last, behind, count, b'A');
        let (first, second) = image.split_at(usize::from(u16::MAX));
        self.write_images(IMAGE * drive, first);
        self.write_images(IMAGE * drive + first.len(), second);
        let mut messages = self.open_disk(iocb, drive, b"ALL", R);
        let n = (last * count + self.random.below(3)).saturating_sub(1).min(AREA);
        let address = self.inside(n);
        let command = self.random.pick(&[GET_CHARACTERS, GET_CHARACTERS, GET_RECORD]);
        messages.push(self.call(iocb, command, address, n));
        messages.push(self.call(iocb, GET_CHARACTERS, 0, 1));
        messages
    }

    /// D open on every block that is closed, and then read by turns.
    fn many(&mut self, closed: &[u8], drive: usize) -> Vec<Vec<u8>> {
        let mut messages = Vec::new();
        for other in 0..DRIVES {
            if self.player.stick.entry(other, 0)[0] == 0 {
                self.lay_diskette(other);
            }
        }
        for &iocb in closed {
            let drive = if self.random.chance(600) { drive } else { self.random.below(DRIVES) };
            let (name, aux1) = (self.name_or_all(drive), self.random.pick(&[R, DIRECTORY]));
            messages.extend(self.open_disk(iocb, drive, &name, aux1));
        }
        for _ in 0..2 * closed.len() {
            let (iocb, n) = (self.random.pick(closed), self.random.below(20));
            let (address, command) = (self.inside(n), self.random.pick(&[GET_RECORD, GET_CHARACTERS]));
            messages.push(self.call(iocb, command, address, n));
        }
        messages
    }

    /// In mode 8 a row and a byte up to and past the end of a smaller mode;
    /// then S in that mode, mostly cleared.
    fn smaller_errand(&mut self, iocb: u8) -> Vec<Vec<u8>> {
        let mode = 3 + self.random.below(5) as u8;
        let (columns, rows, _) = shape(mode);
        let data = [vec![EOL; columns * rows / 320 - 1], vec![0x01; 321]].concat();
        let mut messages = self.reopen(iocb, R | W, 8);
        messages.extend(self.put(iocb, PUT_CHARACTERS, &data));
        let aux1 = self.random.pick(&[R | W, R | W, R | W | KEEP]);
        messages.extend(self.reopen(iocb, aux1, mode));
        messages
    }

    /// S again: in the same mode with its cells kept, to read them, or in
    /// another.
    fn reopen(&mut self, iocb: u8, aux1: u8, mode: u8) -> Vec<Vec<u8>> {
        let address = self.inside(2);
        let open = call(iocb, OPEN, address, 0, [aux1, mode, self.random.byte()]);
        vec![self.call(iocb, CLOSE, 0, 0), load(address, b"S:"), open]
    }

    fn read_errand(&mut self, iocb: u8, file: File) -> Vec<Vec<u8>> {
        let mut messages = Vec::new();
        let mode = self.player.stick.console.mode;
        // Back to what was written: some rows up, mostly one.
        if file.device == Device::E && file.aux1 & W != 0 && self.random.chance(700) {
            let rows = self.random.pick(&[1, 1, 1, 1, 2, 3, 12]);
            messages.extend(self.put(iocb, PUT_CHARACTERS, &vec![0x1C; rows]));
        }
        // A key first, unless one is still there.
        if file.device == Device::K && (self.player.stick.console.key == NO_KEY || self.random.chance(300)) {
            self.press();
        }
        let mut command = self.random.pick(&[GET_RECORD, GET_RECORD, GET_CHARACTERS]);
        // S has no EOL: a record is read through the last row, up to 61,441 ticks.
        if file.device == Device::S && mode >= 6 && self.random.chance(800) {
            command = GET_CHARACTERS;
        }
        let n = match (file.device, mode) {
            // Past the last row; in the large modes now and then.
            (Device::S, 3..=8) if self.random.chance(if mode < 6 { 300 } else { 30 }) => {
                let (columns, rows, _) = shape(mode);
                self.random.pick(&[columns, columns * rows - 1, columns * rows, columns * rows + 1]).min(AREA)
            }
            (Device::K, _) => self.random.pick(&[1, 1, 1, 2, 10]),
            // Each empty row is a character of E: many of them scroll all away.
            (Device::E, _) if command == GET_CHARACTERS && self.random.chance(900) => 1 + self.random.below(8),
            _ => {
                let piece = self.random.pick(&PIECES);
                self.random.pick(&[1, 2, 3, 5, 10, 37, 38, 39, 40, 100, 300, piece, piece])
            }
        };
        let address = self.inside(n);
        messages.push(self.call(iocb, command, address, n));
        if self.random.chance(500) {
            messages.push(fetch(address, n.min(256)));
        }
        messages
    }

    fn write_errand(&mut self, iocb: u8, file: File) -> Vec<Vec<u8>> {
        let command = self.random.pick(&[PUT_RECORD, PUT_RECORD, PUT_CHARACTERS]);
        let data = match file.device {
            Device::S => match self.screen_data() {
                Some(data) => data,
                None => {
                    // What the area holds, as much as the mode has cells.
                    let mode = self.player.stick.console.mode;
                    let (columns, rows, _) = shape(mode);
                    let n = (columns * rows + self.random.below(3)).saturating_sub(1).min(AREA);
                    let address = self.inside(n);
                    return vec![self.call(iocb, PUT_CHARACTERS, address, n)];
                }
            },
            Device::P if self.random.chance(40) => return self.paper_errand(iocb),
            Device::P if self.random.chance(30) => {
                let n = self.random.pick(&[1_000, 4_095, 4_096, 4_097, 16_384]);
                let address = self.inside(n);
                return vec![self.call(iocb, command, address, n)];
            }
            Device::P => {
                let length =
                    if self.random.chance(50) { self.random.pick(&PIECES) } else { 1 + self.random.below(300) };
                (0..length).map(|_| self.random.byte()).collect()
            }
            _ => self.text(),
        };
        self.put(iocb, command, &data)
    }

    /// Text for E: letters and blanks, some control codes, some of any byte.
    fn text(&mut self) -> Vec<u8> {
        let length = self.random.pick(&[1, 2, 5, 20, 37, 38, 39, 80, 200]);
        let length = 1 + self.random.below(length);
        let wild = self.random.pick(&[20, 20, 200, 600]);
        let mut text: Vec<u8> = Vec::new();
        for _ in 0..length {
            text.push(if !self.random.chance(wild) {
                self.random.pick(b"ABCabc 0123   xyz")
            } else if self.random.chance(700) {
                self.random.pick(&CONTROLS)
            } else {
                self.random.byte()
            });
        }
        // Many rows, to scroll.
        if self.random.chance(100) {
            text.extend(vec![EOL; 1 + self.random.below(30)]);
        }
        text
    }

    /// Bytes for S; none for as much as the mode has cells.
    fn screen_data(&mut self) -> Option<Vec<u8>> {
        let mode = self.player.stick.console.mode;
        let (columns, rows, _) = shape(mode);
        let mut data = Vec::new();
        match self.random.weigh(&[50, 25, if mode < 6 { 20 } else { 2 }]) {
            0 => {}
            // To the last row, or past it.
            1 => data = vec![EOL; rows - self.random.below(2)],
            _ => return None,
        }
        for _ in 0..1 + self.random.below(2 * columns) {
            let byte = match self.random.below(200) {
                0 => 0x7D,
                1..=5 => EOL,
                _ => self.random.byte(),
            };
            data.push(byte);
        }
        Some(data)
    }

    /// Loads the data in pieces and puts it.
    fn put(&mut self, iocb: u8, command: u8, data: &[u8]) -> Vec<Vec<u8>> {
        let address = self.inside(data.len());
        let pieces = data.chunks(256).enumerate();
        let mut messages: Vec<Vec<u8>> = pieces.map(|(place, piece)| load(address + 256 * place, piece)).collect();
        messages.push(self.call(iocb, command, address, data.len()));
        messages
    }

    // ---- numbers ----

    /// An address with room for n bytes; often the last one, rarely the next.
    fn inside(&mut self, n: usize) -> usize {
        let last = AREA - n;
        if self.random.chance(10) {
            return last + 1;
        }
        match self.random.below(5) {
            0 => last.saturating_sub(self.random.below(2)),
            1 => self.random.below(last + 1),
            _ => self.random.below(1 + last.min(300)),
        }
    }

    /// An address from which n bytes end at the area's end, one before or one
    /// past it.
    fn edge(&mut self, n: usize) -> usize {
        (AREA - 1 + self.random.below(3)).saturating_sub(n)
    }

    fn address(&mut self) -> usize {
        let any = self.random.below(65_536);
        self.random.pick(&[
            0,
            1,
            100,
            300,
            AREA - 2,
            AREA - 1,
            AREA - 1,
            AREA,
            AREA,
            AREA + 1,
            32_768,
            65_535,
            65_535,
            any,
        ])
    }

    fn length(&mut self) -> usize {
        let any = self.random.below(65_536);
        let piece = self.random.pick(&PIECES);
        let area = self.random.pick(&[AREA - 1, AREA, AREA + 1]);
        self.random.pick(&[0, 0, 1, 1, 2, 2, 3, 10, 40, piece, piece, piece, area, area, area, 65_535, 65_535, any])
    }

    // ---- messages ----

    /// A CALL whose AUX bytes and A do not matter, or should not.
    fn call(&mut self, iocb: u8, command: u8, address: usize, length: usize) -> Vec<u8> {
        let rest = [self.random.byte(), self.random.byte(), self.random.byte()];
        call(iocb, command, address, length, rest)
    }

    /// A CALL of any numbers, the edges among them.
    fn wild_call(&mut self) -> Vec<u8> {
        let iocb = match self.random.weigh(&[60, 30, 10]) {
            0 => self.random.below(8) as u8,
            1 => self.random.pick(&[7, 8]),
            _ => self.random.byte(),
        };
        let command = match self.random.weigh(&[40, 45, 15]) {
            0 => self.random.pick(&COMMANDS),
            1 => self.random.below(16) as u8,
            _ => self.random.byte(),
        };
        let mut length = self.length();
        let address = if self.random.chance(200) { self.edge(length) } else { self.address() };
        // A transfer that does not end soon is rare.
        if address + length <= AREA && length > 300 && self.random.chance(800) {
            length %= 300;
        }
        self.call(iocb, command, address, length)
    }

    /// A field with a bad tag or a bad length, or plain rubbish.
    fn wild_message(&mut self) -> Vec<u8> {
        let tag = if self.random.chance(700) { 0x0F + self.random.below(5) as u8 } else { self.random.byte() };
        let any = self.random.below(600);
        let length = self.random.pick(&[0, 0, 1, 2, 2, 3, 4, 5, 8, 9, 10, 255, 256, 257, 258, 259, 260, any]);
        let length = if self.random.chance(5) { self.random.pick(&[16_384, 65_535]) } else { length };
        let value: Vec<u8> = (0..length).map(|_| self.random.byte()).collect();
        let mut message = field(tag, &value);
        if self.random.chance(100) {
            message = (0..1 + self.random.below(20)).map(|_| self.random.byte()).collect();
        }
        message
    }
}

/// Whether a chain may have the sector.
fn is_in_image(sector: &usize) -> bool {
    (1..=LAST_SECTOR).contains(sector)
}

fn low_high(number: usize) -> [u8; 2] {
    (number as u16).to_le_bytes()
}

/// A message: tag, length, value.
pub fn field(tag: u8, value: &[u8]) -> Vec<u8> {
    [&[tag], &low_high(value.len())[..], value].concat()
}

pub fn load(address: usize, data: &[u8]) -> Vec<u8> {
    field(0x11, &[&low_high(address)[..], data].concat())
}

pub fn fetch(address: usize, count: usize) -> Vec<u8> {
    field(0x12, &[low_high(address), low_high(count)].concat())
}

/// A CALL; the rest is AUX1, AUX2 and A.
pub fn call(iocb: u8, command: u8, address: usize, length: usize, rest: [u8; 3]) -> Vec<u8> {
    field(0x10, &[&[iocb, command], &low_high(address)[..], &low_high(length)[..], &rest].concat())
}
