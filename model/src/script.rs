//! The call script of `play`: its ops as bytes and as readable text, and an
//! interpreter that plays them on the model.
//!
//! The readable form has one op a line; `#` begins a comment:
//!
//! ```text
//! fresh                    F
//! take 0 11 05 00          T, once for each byte (hexadecimal)
//! tick 0                   K
//! tick 0 x 300             X: up to 300 ticks
//! give 0                   G
//! give 0 x 4               G, four times
//! press 3F                 P (hexadecimal)
//! lend area 100            L: area, screen, paper, state, tape, images, or a number
//! write tape 132 55 55     W: these bytes into the buffer from there on
//! dump                     D
//! dump tape                C
//! doctor 0                 R: the doctor on that image, 0 that of D1
//! raw 54 00                bytes as they are (no op, or one that is cut)
//! ```

use crate::doctor::{doctor, Change, CHANGE, LIST, REFUSED};
use crate::images::kinds;
use crate::stick::*;
use std::collections::BTreeMap;

#[derive(Clone, Debug, PartialEq, Eq)]
pub enum Op {
    Fresh,
    Take {
        port: u8,
        byte: u8,
    },
    Tick {
        port: u8,
    },
    Give {
        port: u8,
    },
    Press {
        code: u8,
    },
    /// Tick up to `count` times, while the port runs on.
    Ticks {
        port: u8,
        count: u16,
    },
    /// Lend a buffer cut to `length` (three bytes in a script).
    Lend {
        buffer: u8,
        length: u32,
    },
    /// Write bytes into a buffer from `at` (three bytes in a script) on.
    Write {
        buffer: u8,
        at: u32,
        bytes: Vec<u8>,
    },
    Dump,
    DumpTape,
    /// The doctor on an image of the lent ones, 0 the first.
    Doctor {
        image: u8,
    },
    /// Bytes that are no op, or a cut one: the run ends here.
    Raw(Vec<u8>),
}

/// The lent buffers' numbers in a script and their names, in the order of `WHOLE`.
pub const BUFFERS: [(u8, &str); 6] =
    [(0, "area"), (1, "screen"), (2, "paper"), (3, "state"), (4, "tape"), (6, "images")];

/// What the answers 0 to 8 mean.
pub const ANSWERS: [&str; 9] = [
    "done",
    "port above 1",
    "a lent buffer has another length",
    "damaged state",
    "byte offered while not gathering",
    "no reply byte to give",
    "key pressed while a request holds the console",
    "tick, nothing ready or running",
    "tick, ready, group held by the other port",
];

/// The numbers of a dump after area, screen and paper, in order: name, bytes.
const NUMBERS: [(&str, usize); 10] = [
    ("used", 2),
    ("mode", 1),
    ("row", 1),
    ("column", 2),
    ("last", 1),
    ("escape", 1),
    ("read column", 1),
    ("key", 1),
    ("lock", 1),
    ("inverse", 1),
];

/// The bytes of a dump.
pub const DUMP: usize = 2 * AREA + SCREEN + PAPER + 12 + 2 * 8 * 4 + 2;

/// The bytes of a dump of the tape: its bytes, mark, record, place or number
/// pending, and the pending characters with zeros behind them.
pub const TAPE_DUMP: usize = TAPE + 1 + 2 + 1 + DATA;

impl Op {
    /// The op as bytes of a script.
    pub fn bytes(&self) -> Vec<u8> {
        match self {
            Op::Fresh => vec![b'F'],
            Op::Take { port, byte } => vec![b'T', *port, *byte],
            Op::Tick { port } => vec![b'K', *port],
            Op::Give { port } => vec![b'G', *port],
            Op::Press { code } => vec![b'P', *code],
            Op::Ticks { port, count } => vec![b'X', *port, *count as u8, (*count >> 8) as u8],
            Op::Lend { buffer, length } => {
                vec![b'L', *buffer, *length as u8, (*length >> 8) as u8, (*length >> 16) as u8]
            }
            Op::Write { buffer, at, bytes } => {
                let mut op = vec![b'W', *buffer, *at as u8, (*at >> 8) as u8, (*at >> 16) as u8];
                op.extend((bytes.len() as u16).to_le_bytes());
                op.extend(bytes);
                op
            }
            Op::Dump => vec![b'D'],
            Op::DumpTape => vec![b'C'],
            Op::Doctor { image } => vec![b'R', *image],
            Op::Raw(bytes) => bytes.clone(),
        }
    }

    /// How many bytes `play` writes for the op; of the doctor, what it has
    /// written tells: "answer, number (2), five bytes a change".
    pub fn output(&self, written: &[u8]) -> usize {
        match self {
            Op::Fresh | Op::Take { .. } | Op::Tick { .. } | Op::Press { .. } => 1,
            Op::Give { .. } => 2,
            Op::Ticks { .. } => 3,
            Op::Lend { .. } | Op::Write { .. } | Op::Raw(_) => 0,
            Op::Dump => DUMP,
            Op::DumpTape => TAPE_DUMP,
            Op::Doctor { .. } => match *written {
                [_, low, high, ..] => 3 + CHANGE * usize::from(u16::from_le_bytes([low, high])),
                _ => 3,
            },
        }
    }

    /// The port that the op is about.
    pub fn port(&self) -> Option<u8> {
        match self {
            Op::Take { port, .. } | Op::Tick { port } | Op::Give { port } | Op::Ticks { port, .. } => Some(*port),
            _ => None,
        }
    }
}

/// The script of some ops.
pub fn bytes_of(ops: &[Op]) -> Vec<u8> {
    ops.iter().flat_map(Op::bytes).collect()
}

/// The ops of a script; what ends its run is the last, as `Raw`.
pub fn ops_of(script: &[u8]) -> Vec<Op> {
    let mut ops = Vec::new();
    let mut rest = script;
    while !rest.is_empty() {
        let (op, length) = match *rest {
            [b'F', ..] => (Op::Fresh, 1),
            [b'T', port, byte, ..] => (Op::Take { port, byte }, 3),
            [b'K', port, ..] => (Op::Tick { port }, 2),
            [b'G', port, ..] => (Op::Give { port }, 2),
            [b'P', code, ..] => (Op::Press { code }, 2),
            [b'X', port, low, high, ..] => (Op::Ticks { port, count: u16::from_le_bytes([low, high]) }, 4),
            [b'L', buffer, a, b, c, ..] => (Op::Lend { buffer, length: u32::from_le_bytes([a, b, c, 0]) }, 5),
            [b'W', buffer, a, b, c, low, high, ref rest @ ..]
                if rest.len() >= usize::from(u16::from_le_bytes([low, high])) =>
            {
                let length = usize::from(u16::from_le_bytes([low, high]));
                let at = u32::from_le_bytes([a, b, c, 0]);
                (Op::Write { buffer, at, bytes: rest[..length].to_vec() }, 7 + length)
            }
            [b'D', ..] => (Op::Dump, 1),
            [b'C', ..] => (Op::DumpTape, 1),
            [b'R', image, ..] => (Op::Doctor { image }, 2),
            _ => (Op::Raw(rest.to_vec()), rest.len()),
        };
        ops.push(op);
        rest = &rest[length..];
    }
    ops
}

/// How much has been played.
#[derive(Clone, Debug, Default, PartialEq, Eq)]
pub struct Figures {
    pub scripts: u64,
    pub calls: u64,
    pub ticks: u64,
    /// Calls by answer.
    pub answers: [u64; 9],
    /// Replies made, by tag and status.
    pub replies: BTreeMap<(u8, u8), u64>,
    /// Replies of CALLs about C, by status.
    pub tape: BTreeMap<u8, u64>,
    /// Ticks answered 8 because the other port holds the tape.
    pub tape_waits: u64,
    /// The same of CALLs about D, by their specification's letter where it is not good.
    pub disk: BTreeMap<u8, u64>,
    pub disk_waits: u64,
    /// How often the doctor was asked, and what the images had for it.
    pub doctors: u64,
    pub kinds: BTreeMap<&'static str, u64>,
}

/// The statuses that a CALL about C can have.
pub const TAPE_STATUSES: [u8; 11] = [
    SUCCESS,
    LAST_CHARACTER,
    ALREADY_OPEN,
    NOT_READABLE,
    BAD_COMMAND,
    NOT_WRITABLE,
    END_OF_FILE,
    RECORD_CUT,
    BAD_RECORD,
    DEVICE_FULL,
    PAST_AREA,
];

/// The statuses that a CALL about D can have.
pub const DISK_STATUSES: [u8; 14] = [
    SUCCESS,
    LAST_CHARACTER,
    ALREADY_OPEN,
    NO_DEVICE,
    NOT_READABLE,
    BAD_COMMAND,
    NOT_WRITABLE,
    END_OF_FILE,
    RECORD_CUT,
    BAD_CHAIN,
    BAD_NAME,
    FILE_LOCKED,
    NO_FILE,
    PAST_AREA,
];

impl Figures {
    pub fn add(&mut self, other: &Figures) {
        self.scripts += other.scripts;
        self.calls += other.calls;
        self.ticks += other.ticks;
        for (mine, theirs) in self.answers.iter_mut().zip(other.answers) {
            *mine += theirs;
        }
        for (reply, count) in &other.replies {
            *self.replies.entry(*reply).or_default() += count;
        }
        for (status, count) in &other.tape {
            *self.tape.entry(*status).or_default() += count;
        }
        self.tape_waits += other.tape_waits;
        for (status, count) in &other.disk {
            *self.disk.entry(*status).or_default() += count;
        }
        self.disk_waits += other.disk_waits;
        self.doctors += other.doctors;
        for (kind, count) in &other.kinds {
            *self.kinds.entry(kind).or_default() += count;
        }
    }
}

/// `play` over the model.
#[derive(Default)]
pub struct Player {
    pub stick: Stick,
    pub figures: Figures,
}

impl Player {
    pub fn new() -> Player {
        Player::default()
    }

    /// Plays an op and writes what `play` would; false ends the run.
    pub fn play(&mut self, op: &Op, output: &mut Vec<u8>) -> bool {
        match *op {
            Op::Fresh => {
                let answer = self.stick.fresh();
                output.push(self.called(answer));
            }
            Op::Take { port, byte } => {
                let answer = self.stick.take(port, byte);
                output.push(self.called(answer));
            }
            Op::Tick { port } => {
                let answer = self.tick(port);
                output.push(answer);
            }
            Op::Give { port } => {
                let (answer, byte) = self.stick.give(port);
                output.extend([self.called(answer), byte]);
            }
            Op::Press { code } => {
                let answer = self.stick.press(code);
                output.push(self.called(answer));
            }
            Op::Ticks { port, count } => {
                let (mut done, mut answer) = (0u16, 0);
                while done < count {
                    answer = self.tick(port);
                    done += 1;
                    if answer != 0 || !self.runs(port) {
                        break;
                    }
                }
                output.extend(done.to_le_bytes());
                output.push(answer);
            }
            Op::Lend { buffer, length } => {
                if let Some(place) = BUFFERS.iter().position(|(number, _)| *number == buffer) {
                    self.stick.lent[place] = WHOLE[place].min(length as usize);
                }
            }
            Op::Write { buffer, at, ref bytes } => self.write(buffer, at as usize, bytes),
            Op::Dump => dump(&self.stick, output),
            Op::DumpTape => dump_tape(&self.stick, output),
            Op::Doctor { image } => self.doctor(usize::from(image), output),
            Op::Raw(_) => return false,
        }
        true
    }

    /// Writes bytes into a buffer, cut at its end; another buffer has none. It
    /// is no call: how much of the buffer is lent does not matter.
    fn write(&mut self, buffer: u8, at: usize, bytes: &[u8]) {
        let buffer = match buffer {
            0 => &mut self.stick.area,
            1 => &mut self.stick.screen,
            2 => &mut self.stick.paper,
            4 => &mut self.stick.tape,
            6 => &mut self.stick.images,
            _ => return,
        };
        for (cell, byte) in buffer.iter_mut().skip(at).zip(bytes) {
            *cell = *byte;
        }
    }

    /// "The doctor on image n (0 to 3) of buffer 6: answer, number (2), five
    /// bytes a change; n above 3: `01 00 00`. No call": how much of the buffer
    /// is lent does not matter.
    fn doctor(&mut self, image: usize, output: &mut Vec<u8>) {
        self.figures.doctors += 1;
        let Some(image) = self.stick.images.chunks_mut(IMAGE).nth(image) else {
            *self.figures.kinds.entry("no such image").or_default() += 1;
            return output.extend([REFUSED, 0, 0]);
        };
        for kind in kinds(image) {
            *self.figures.kinds.entry(kind).or_default() += 1;
        }
        let mut list = [0; LIST];
        let (answer, changes) = doctor(image, &mut list);
        output.push(answer);
        output.extend((changes as u16).to_le_bytes());
        output.extend(&list[..CHANGE * changes]);
    }

    fn runs(&self, port: u8) -> bool {
        matches!(self.stick.ports[usize::from(port)].phase, Phase::Running(_))
    }

    fn tick(&mut self, port: u8) -> u8 {
        let tape = port < 2 && self.stick.device(usize::from(port)) == Some(Device::C);
        let disk = port < 2 && self.stick.letter(usize::from(port)) == Some(Device::D.letter());
        let answer = self.stick.tick(port);
        self.figures.ticks += 1;
        if answer == 0 {
            if let Phase::Replying(reply, _) = &self.stick.ports[usize::from(port)].phase {
                *self.figures.replies.entry((reply[0], reply[3])).or_default() += 1;
                if tape {
                    *self.figures.tape.entry(reply[3]).or_default() += 1;
                }
                if disk {
                    *self.figures.disk.entry(reply[3]).or_default() += 1;
                }
            }
        }
        self.figures.tape_waits += u64::from(tape && answer == GROUP_HELD);
        self.figures.disk_waits += u64::from(disk && answer == GROUP_HELD);
        self.called(answer)
    }

    fn called(&mut self, answer: u8) -> u8 {
        self.figures.calls += 1;
        self.figures.answers[usize::from(answer)] += 1;
        answer
    }
}

/// Plays a whole script on a new model: the bytes that `play` writes.
pub fn play(script: &[u8]) -> Vec<u8> {
    let mut player = Player::new();
    let mut output = Vec::new();
    for op in ops_of(script) {
        if !player.play(&op, &mut output) {
            break;
        }
    }
    output
}

/// Writes a dump, field by field.
pub fn dump(stick: &Stick, output: &mut Vec<u8>) {
    let console = &stick.console;
    output.extend(&stick.area);
    output.extend(&stick.screen);
    output.extend(&stick.paper);
    output.extend((stick.used as u16).to_le_bytes());
    output.extend([console.mode, console.row as u8]);
    output.extend((console.column as u16).to_le_bytes());
    output.extend([console.last, u8::from(console.escape)]);
    output.push(console.read_column.map_or(255, |column| column as u8));
    output.extend([console.key, console.lock, console.inverse]);
    for port in &stick.ports {
        for block in &port.blocks {
            output.extend(match block {
                Some(file) => [1, file.device.letter(), file.number, file.aux1],
                None => [0; 4],
            });
        }
    }
    output.extend(stick.ports.iter().map(|port| port.phase.number()));
}

/// Writes a dump of the tape.
pub fn dump_tape(stick: &Stick, output: &mut Vec<u8>) {
    let cassette = &stick.cassette;
    let place = if cassette.mark == Mark::Writing { cassette.pending.len() } else { cassette.place };
    output.extend(&stick.tape);
    output.push(cassette.mark as u8);
    output.extend((cassette.record as u16).to_le_bytes());
    output.push(place as u8);
    output.extend(&cassette.pending);
    output.extend(vec![0; DATA - cassette.pending.len()]);
}

/// The name of the place in a dump of the tape.
pub fn tape_place(at: usize) -> String {
    match at.checked_sub(TAPE) {
        None => format!("tape byte {at} (record {}, byte {})", at / RECORD, at % RECORD),
        Some(0) => "mark".to_string(),
        Some(1 | 2) => "record".to_string(),
        Some(3) => "place or number pending".to_string(),
        Some(behind) => format!("pending character {}", behind - 4),
    }
}

/// The name of the place in a dump.
pub fn dump_place(at: usize) -> String {
    let mut at = at;
    for port in 0..2 {
        if at < AREA {
            return format!("area of port {port}, address {at}");
        }
        at -= AREA;
    }
    if at < SCREEN {
        return format!("screen cell {at}");
    }
    at -= SCREEN;
    if at < PAPER {
        return format!("paper byte {at}");
    }
    at -= PAPER;
    for (name, length) in NUMBERS {
        if at < length {
            return name.to_string();
        }
        at -= length;
    }
    if at < 64 {
        let part = ["open", "device", "number", "AUX1"][at % 4];
        return format!("port {}, block {}, {part}", at / 32, at / 4 % 8);
    }
    format!("phase of port {}", at - 64)
}

// ---- readable text ----

/// The most bytes of a take on one line.
const TAKES: usize = 16;

/// A buffer's name, or its number.
fn buffer_name(buffer: u8) -> String {
    let named = BUFFERS.iter().find(|(number, _)| *number == buffer);
    named.map_or(buffer.to_string(), |(_, name)| name.to_string())
}

fn hexadecimal(bytes: &[u8]) -> String {
    bytes.iter().map(|byte| format!(" {byte:02X}")).collect()
}

/// Ops in readable form.
pub fn to_text(ops: &[Op]) -> String {
    let mut text = String::new();
    let mut at = 0;
    while at < ops.len() {
        let mut next = at + 1;
        let line = match &ops[at] {
            Op::Fresh => "fresh".to_string(),
            Op::Take { port, .. } => {
                let mut bytes = Vec::new();
                while let Some(Op::Take { port: same, byte }) = ops.get(at + bytes.len()) {
                    if same != port || bytes.len() == TAKES {
                        break;
                    }
                    bytes.push(*byte);
                }
                next = at + bytes.len();
                format!("take {port}{}", hexadecimal(&bytes))
            }
            Op::Tick { port } => format!("tick {port}"),
            Op::Give { port } => {
                let times = ops[at..].iter().take_while(|op| *op == &ops[at]).count();
                next = at + times;
                match times {
                    1 => format!("give {port}"),
                    _ => format!("give {port} x {times}"),
                }
            }
            Op::Press { code } => format!("press {code:02X}"),
            Op::Ticks { port, count } => format!("tick {port} x {count}"),
            Op::Lend { buffer, length } => format!("lend {} {length}", buffer_name(*buffer)),
            Op::Write { buffer, at, bytes } => format!("write {} {at}{}", buffer_name(*buffer), hexadecimal(bytes)),
            Op::Dump => "dump".to_string(),
            Op::DumpTape => "dump tape".to_string(),
            Op::Doctor { image } => format!("doctor {image}"),
            Op::Raw(bytes) => format!("raw{}", hexadecimal(bytes)),
        };
        text.push_str(&line);
        text.push('\n');
        at = next;
    }
    text
}

/// Reads the readable form; the error names the line.
pub fn from_text(text: &str) -> Result<Vec<Op>, String> {
    let mut script = Vec::new();
    for (number, line) in text.lines().enumerate() {
        let line = line.split('#').next().unwrap_or("");
        let words: Vec<&str> = line.split_whitespace().collect();
        if words.is_empty() {
            continue;
        }
        let bytes = line_bytes(&words).ok_or_else(|| format!("line {}: not an op: {}", number + 1, line.trim()))?;
        script.extend(bytes);
    }
    Ok(ops_of(&script))
}

fn line_bytes(words: &[&str]) -> Option<Vec<u8>> {
    let byte = |word: &str| u8::from_str_radix(word, 16).ok().filter(|_| word.len() <= 2);
    let buffer = |word: &str| {
        let named = BUFFERS.iter().find(|(_, name)| *name == word).map(|(number, _)| *number);
        named.or_else(|| word.parse().ok())
    };
    let below_24_bits = |word: &str| word.parse().ok().filter(|number: &u32| *number < 1 << 24);
    let ops = match *words {
        ["fresh"] => vec![Op::Fresh],
        ["take", port, ref bytes @ ..] if !bytes.is_empty() => {
            let port = port.parse().ok()?;
            let take = |word: &&str| Some(Op::Take { port, byte: byte(word)? });
            bytes.iter().map(take).collect::<Option<Vec<Op>>>()?
        }
        ["tick", port] => vec![Op::Tick { port: port.parse().ok()? }],
        ["tick", port, "x", count] => vec![Op::Ticks { port: port.parse().ok()?, count: count.parse().ok()? }],
        ["give", port] => vec![Op::Give { port: port.parse().ok()? }],
        ["give", port, "x", times] => {
            let times: u16 = times.parse().ok()?;
            vec![Op::Give { port: port.parse().ok()? }; usize::from(times)]
        }
        ["press", code] => vec![Op::Press { code: byte(code)? }],
        ["lend", name, length] => vec![Op::Lend { buffer: buffer(name)?, length: below_24_bits(length)? }],
        ["write", name, at, ref bytes @ ..] if bytes.len() < 1 << 16 => {
            let bytes = bytes.iter().map(|word| byte(word)).collect::<Option<Vec<u8>>>()?;
            vec![Op::Write { buffer: buffer(name)?, at: below_24_bits(at)?, bytes }]
        }
        ["dump"] => vec![Op::Dump],
        ["dump", "tape"] => vec![Op::DumpTape],
        ["doctor", image] => vec![Op::Doctor { image: image.parse().ok()? }],
        ["raw", ref bytes @ ..] if !bytes.is_empty() => {
            vec![Op::Raw(bytes.iter().map(|word| byte(word)).collect::<Option<Vec<u8>>>()?)]
        }
        _ => return None,
    };
    Some(bytes_of(&ops))
}

fn answer_text(answer: u8) -> String {
    let meaning = ANSWERS.get(usize::from(answer)).unwrap_or(&"no such answer");
    format!("{answer} {meaning}")
}

/// What was written for one op, in words. Output that is cut short says so.
pub fn describe(op: &Op, output: &[u8]) -> String {
    if output.len() < op.output(output) {
        // Of a long output its beginning.
        let (shown, more) = output.split_at(output.len().min(32));
        let more = if more.is_empty() { String::new() } else { format!(" and {} bytes more", more.len()) };
        let after = if output.is_empty() { String::new() } else { " after".to_string() + &hexadecimal(shown) };
        return format!("the output ends{after}{more}");
    }
    match op {
        Op::Fresh | Op::Take { .. } | Op::Tick { .. } | Op::Press { .. } => answer_text(output[0]),
        Op::Give { .. } => format!("{}, byte {:02X}", answer_text(output[0]), output[1]),
        Op::Ticks { .. } => {
            format!("ticks {}, last {}", u16::from_le_bytes([output[0], output[1]]), answer_text(output[2]))
        }
        Op::Lend { .. } | Op::Write { .. } | Op::Raw(_) => "nothing".to_string(),
        Op::Dump => describe_dump(output),
        Op::DumpTape => describe_tape(output),
        Op::Doctor { .. } => describe_doctor(output, 0),
    }
}

/// The doctor's answer and its changes, the first few from one of them on.
pub fn describe_doctor(output: &[u8], from: usize) -> String {
    const SHOWN: usize = 8;
    let number = usize::from(u16::from_le_bytes([output[1], output[2]]));
    let changes = output[3..].chunks(CHANGE).skip(from).map(Change::of);
    let in_words = |change: Change| {
        format!("sector {} place {}: {:02X} to {:02X}", change.sector, change.place, change.old, change.new)
    };
    let mut words = vec![format!("answer {}, {number} changes", output[0])];
    if from > 0 {
        words.push(format!("behind {from} of them"));
    }
    words.extend(changes.take(SHOWN).map(in_words));
    if number > from + SHOWN {
        words.push(format!("and {} more", number - from - SHOWN));
    }
    words.join("; ")
}

/// The numbers of a dump of the tape; its bytes and what is pending are left out.
fn describe_tape(output: &[u8]) -> String {
    let marks = ["closed", "reading", "writing", "open with neither bit"];
    let mark = marks.get(usize::from(output[TAPE])).unwrap_or(&"in no way open");
    let record = u16::from_le_bytes([output[TAPE + 1], output[TAPE + 2]]);
    format!("tape {mark}, record {record}, place or number pending {}", output[TAPE + 3])
}

/// A dump's numbers and open blocks on one line; its buffers are left out.
fn describe_dump(output: &[u8]) -> String {
    let phases = ["gathering", "ready", "running", "replying"];
    let mut at = 2 * AREA + SCREEN + PAPER;
    let mut parts = Vec::new();
    for (name, length) in NUMBERS {
        let value = output[at..at + length].iter().rev().fold(0, |sum, byte| 256 * sum + usize::from(*byte));
        parts.push(format!("{name} {value}"));
        at += length;
    }
    for place in 0..16 {
        let block = &output[at + 4 * place..at + 4 * place + 4];
        if block != [0; 4] {
            let (port, iocb, device) = (place / 8, place % 8, char::from(block[1]));
            parts.push(format!("port {port} block {iocb} {device}{}: AUX1 {:02X}", block[2], block[3]));
        }
    }
    for port in 0..2 {
        let phase = phases.get(usize::from(output[at + 64 + port])).unwrap_or(&"in no phase");
        parts.push(format!("port {port} {phase}"));
    }
    parts.join(", ")
}
