//! The stick as document 01 tells it: two ports, a console, a printer; and of
//! document 02 the tape of Ask 1, with Ask 7's warning before its end, and the
//! diskettes of Ask 12.
//!
//! Clear before fast: messages are kept whole, and each rule stands where the
//! paper has it. States handed in damaged are not modelled (answer 3 never
//! comes): every run begins with a fresh start.

/// One port's area.
pub const AREA: usize = 16_384;
/// The screen's cells.
pub const SCREEN: usize = 61_440;
/// The paper's bytes.
pub const PAPER: usize = 4_096;
/// The bytes of the lent state. What they mean is the stick's own: here only their number counts.
pub const STATE: usize = 973;
/// The tape's bytes, and those of a record: $55, $55, a control byte, 128 data bytes, a checksum.
pub const TAPE: usize = 33_000;
pub const RECORD: usize = 132;
pub const RECORDS: usize = TAPE / RECORD;
pub const DATA: usize = 128;
/// "D1 to D4 .. over lent images of 720 sectors of 128 bytes": D1's image first.
pub const DRIVES: usize = 4;
pub const SECTORS: usize = 720;
pub const SECTOR: usize = 128;
pub const IMAGE: usize = SECTORS * SECTOR;
pub const IMAGES: usize = DRIVES * IMAGE;
/// The whole lengths of the lent buffers: areas, screen, paper, state, tape, images.
pub const WHOLE: [usize; 6] = [2 * AREA, SCREEN, PAPER, STATE, TAPE, IMAGES];

/// Control bytes: "$FC is full; $FA is partial ..; $FE is end of file".
pub const FULL: u8 = 0xFC;
pub const PARTIAL: u8 = 0xFA;
pub const END: u8 = 0xFE;
/// Where a record has its control byte, its data, a partial record's count ("in the byte before the checksum") and its checksum.
pub const CONTROL_AT: usize = 2;
pub const DATA_AT: usize = 3;
pub const COUNT_AT: usize = 130;
pub const CHECKSUM_AT: usize = 131;

/// The highest sector of a chain, and its greatest number of sectors; the sector of the free count, and the directory's first.
pub const LAST_SECTOR: usize = 719;
pub const FREE_COUNT_SECTOR: usize = 360;
pub const DIRECTORY_SECTOR: usize = 361;
/// Where sector 360 has the free count, and the map: a bit a sector.
pub const FREE_COUNT_AT: usize = 3;
pub const MAP_AT: usize = 10;
/// "64 entries of 16 bytes: flag .., sector count (2), first sector (2), name (8), extension (3)".
pub const ENTRIES: usize = 64;
pub const ENTRY: usize = 16;
pub const SECTOR_COUNT_AT: usize = 1;
pub const FIRST_SECTOR_AT: usize = 3;
pub const NAME_AT: usize = 5;
pub const NAME: usize = 8;
pub const EXTENSION: usize = 3;
/// Flags: "$80 deleted, $40 without it in use, $20 locked".
pub const DELETED: u8 = 0x80;
pub const IN_USE: u8 = 0x40;
pub const LOCKED: u8 = 0x20;
/// A file sector's data, then file number and next sector, then the data count.
pub const SECTOR_DATA: usize = 125;
pub const LINK_AT: usize = 125;
pub const DATA_COUNT_AT: usize = 127;
/// What the directory's listing has behind the 64 entries: the free-sector record, then the end.
pub const FREE_RECORD: usize = ENTRIES;
pub const LISTING_END: usize = ENTRIES + 1;

/// The end of a record.
pub const EOL: u8 = 0x9B;
/// The key place with no key in it.
pub const NO_KEY: u8 = 0xFF;

/// Answers of the calls.
pub const DONE: u8 = 0;
pub const NO_PORT: u8 = 1;
pub const LENT_LENGTH: u8 = 2;
pub const NOT_GATHERING: u8 = 4;
pub const NO_REPLY: u8 = 5;
pub const CONSOLE_HELD: u8 = 6;
pub const NOTHING_TO_DO: u8 = 7;
pub const GROUP_HELD: u8 = 8;

/// Statuses of the replies.
pub const SUCCESS: u8 = 0x01;
/// "A tape read after which the next would give $88 should come with $03"; so from diskettes.
pub const LAST_CHARACTER: u8 = 0x03;
pub const ALREADY_OPEN: u8 = 0x81;
pub const NO_DEVICE: u8 = 0x82;
pub const NOT_READABLE: u8 = 0x83;
pub const BAD_COMMAND: u8 = 0x84;
pub const NOT_OPEN: u8 = 0x85;
pub const BAD_IOCB: u8 = 0x86;
pub const NOT_WRITABLE: u8 = 0x87;
pub const END_OF_FILE: u8 = 0x88;
pub const RECORD_CUT: u8 = 0x89;
pub const CURSOR_RANGE: u8 = 0x8D;
pub const BAD_RECORD: u8 = 0x8F;
/// Of paper and tape.
pub const DEVICE_FULL: u8 = 0x90;
pub const SCREEN_MODE: u8 = 0x91;
pub const UNKNOWN_TAG: u8 = 0x92;
/// "A link above 719, a wrong file number, a data count above 125 or a 720th sector".
pub const BAD_CHAIN: u8 = 0xA4;
pub const BAD_NAME: u8 = 0xA5;
pub const FILE_LOCKED: u8 = 0xA7;
pub const NO_FILE: u8 = 0xAA;
pub const PAST_AREA: u8 = 0xB0;

/// Commands of CALL.
pub const OPEN: u8 = 0x03;
pub const GET_RECORD: u8 = 0x05;
pub const GET_CHARACTERS: u8 = 0x07;
pub const PUT_RECORD: u8 = 0x09;
pub const PUT_CHARACTERS: u8 = 0x0B;
pub const CLOSE: u8 = 0x0C;
pub const GET_STATUS: u8 = 0x0D;

/// AUX1's direction bits, and the ones a handler looks at.
pub const R: u8 = 4;
pub const W: u8 = 8;
pub const FORCED: u8 = 1;
pub const SPLIT: u8 = 16;
pub const KEEP: u8 = 32;
/// "OPEN DIRECTORY (AUX1 = $06)".
pub const DIRECTORY: u8 = 6;

/// E's margins and last row.
const LEFT: usize = 2;
const RIGHT: usize = 39;
const BOTTOM: usize = 23;
const TEXT_CELLS: usize = 960;

/// Columns, rows and colours of a mode.
pub fn shape(mode: u8) -> (usize, usize, u16) {
    match mode {
        0 => (40, 24, 256),
        3 => (40, 24, 4),
        4 => (80, 48, 2),
        5 => (80, 48, 4),
        6 => (160, 96, 2),
        7 => (160, 96, 4),
        8 => (320, 192, 2),
        _ => unreachable!("no such mode: {mode}"),
    }
}

/// The key table: a row of each half block as the paper prints it.
const KEYS: [&str; 6] = [
    "6C6A3B80806B2B2A6F8070759B692D3D768063808062787A348033361B353231",
    "2C202E6E806D2F81728065797F747771398030377E383C3E6668648082677361",
    "4C4A3A80804B5C5E4F8050559B495F7C568043808042585A248023261B252221",
    "5B205D4E804D3F81528045599F545751288029279C407D9D4648448083475341",
    "0C0A7B80800B1E1F0F8010159B091C1D168003808002181A808085801B80FD80",
    "0020600E800D8081128005199E14171180808080FE807DFF0608048084071301",
];

/// The table's entry for a code of at most $BF.
fn key_entry(code: u8) -> u8 {
    let (row, place) = (usize::from(code) / 32, usize::from(code) % 32);
    u8::from_str_radix(&KEYS[row][2 * place..2 * place + 2], 16).expect("two digits")
}

/// Key translation: the character, or 256 to 261 for the entries $80 to $85,
/// 256 for a code above $BF, 262 for another lock or inverse.
pub fn translate(code: u32, lock: u32, inverse: u32) -> u32 {
    if lock > 2 || inverse > 1 {
        return 262;
    }
    if code > 0xBF {
        return 256;
    }
    let mut entry = key_entry(code as u8);
    if code < 64 && (0x61..=0x7A).contains(&entry) {
        entry = key_entry(code as u8 + 64 * lock as u8);
    }
    match entry {
        0x80..=0x85 => 256 + u32::from(entry - 0x80),
        0x1B..=0x1F | 0x7D..=0x7F | 0x9B..=0x9F | 0xFD..=0xFF => u32::from(entry),
        _ => u32::from(entry) + 0x80 * inverse,
    }
}

#[derive(Clone, Copy, Debug, PartialEq, Eq)]
pub enum Device {
    E,
    S,
    K,
    P,
    C,
    D,
}

/// What a request holds while it runs.
#[derive(Clone, Copy, Debug, PartialEq, Eq)]
pub enum Group {
    Console,
    Printer,
    Tape,
    Disk,
}

impl Device {
    fn of_letter(letter: u8) -> Option<Device> {
        match letter {
            b'E' => Some(Device::E),
            b'S' => Some(Device::S),
            b'K' => Some(Device::K),
            b'P' => Some(Device::P),
            b'C' => Some(Device::C),
            b'D' => Some(Device::D),
            _ => None,
        }
    }

    pub fn letter(self) -> u8 {
        match self {
            Device::E => b'E',
            Device::S => b'S',
            Device::K => b'K',
            Device::P => b'P',
            Device::C => b'C',
            Device::D => b'D',
        }
    }

    /// The highest digit of its specification: "D1 to D4 (above: $82)".
    fn last_digit(self) -> u8 {
        match self {
            Device::D => b'4',
            _ => b'8',
        }
    }

    /// E, S and K share the console; P is the printer's only device, C the
    /// tape's; D1 to D4 are one group.
    pub fn group(self) -> Group {
        match self {
            Device::E | Device::S | Device::K => Group::Console,
            Device::P => Group::Printer,
            Device::C => Group::Tape,
            Device::D => Group::Disk,
        }
    }
}

/// What an open control block knows; a closed one is `None`.
#[derive(Clone, Copy, Debug, PartialEq, Eq)]
pub struct File {
    pub device: Device,
    pub number: u8,
    pub aux1: u8,
}

impl File {
    /// The place of D's image among the four.
    pub fn drive(self) -> usize {
        usize::from(self.number) - 1
    }
}

/// The nine bytes of a CALL.
#[derive(Clone, Copy, Debug, PartialEq, Eq)]
pub struct Call {
    pub iocb: u8,
    pub command: u8,
    pub address: usize,
    pub length: usize,
    pub aux1: u8,
    pub aux2: u8,
    pub a: u8,
}

impl Call {
    fn of(value: &[u8]) -> Call {
        Call {
            iocb: value[0],
            command: value[1],
            address: word(&value[2..]),
            length: word(&value[4..]),
            aux1: value[6],
            aux2: value[7],
            a: value[8],
        }
    }

    fn reads(&self) -> bool {
        matches!(self.command, GET_RECORD | GET_CHARACTERS)
    }

    fn writes(&self) -> bool {
        matches!(self.command, PUT_RECORD | PUT_CHARACTERS)
    }

    fn is_bad(&self) -> bool {
        matches!(self.command, 0 | 1 | 2 | 4 | 6 | 8 | 0x0A)
    }

    fn by_record(&self) -> bool {
        matches!(self.command, GET_RECORD | PUT_RECORD)
    }
}

/// A transfer under way: its request, its file, and the bytes counted so far.
#[derive(Clone, Debug, PartialEq, Eq)]
pub struct Run {
    pub call: Call,
    pub file: File,
    pub count: usize,
}

#[derive(Clone, Debug, PartialEq, Eq)]
pub enum Phase {
    /// The bytes of the message so far.
    Gathering(Vec<u8>),
    /// The whole message.
    Ready(Vec<u8>),
    Running(Run),
    /// The whole reply, and how much of it is given.
    Replying(Vec<u8>, usize),
}

impl Phase {
    /// The number of the phase in a dump.
    pub fn number(&self) -> u8 {
        match self {
            Phase::Gathering(_) => 0,
            Phase::Ready(_) => 1,
            Phase::Running(_) => 2,
            Phase::Replying(..) => 3,
        }
    }
}

#[derive(Clone, Debug, PartialEq, Eq)]
pub struct Port {
    pub blocks: [Option<File>; 8],
    /// Where the blocks that have D open are: "each block has its own place".
    pub places: [Option<Place>; 8],
    pub phase: Phase,
}

impl Port {
    fn fresh() -> Port {
        Port { blocks: [None; 8], places: [None; 8], phase: Phase::Gathering(Vec::new()) }
    }
}

/// The console but for its cells.
#[derive(Clone, Debug, PartialEq, Eq)]
pub struct Console {
    pub mode: u8,
    pub row: usize,
    pub column: usize,
    pub last: u8,
    pub escape: bool,
    pub read_column: Option<usize>,
    pub key: u8,
    pub lock: u8,
    pub inverse: u8,
}

/// A handler's answer to a read. "Every handler's character answer gains this
/// outcome; other devices never give it": only tape and diskettes have a last
/// character.
#[derive(Clone, Copy, Debug, PartialEq, Eq)]
pub enum Got {
    Character(u8),
    /// The next would be $88.
    Last(u8),
    /// No character: a status from $80.
    Refusal(u8),
}

impl Got {
    /// The character with its status, or the status that ends the request.
    fn with_status(self) -> Result<(u8, u8), u8> {
        match self {
            Got::Character(character) => Ok((character, SUCCESS)),
            Got::Last(character) => Ok((character, LAST_CHARACTER)),
            Got::Refusal(status) => Err(status),
        }
    }
}

/// How the tape is open; its number in a dump.
#[derive(Clone, Copy, Debug, PartialEq, Eq)]
pub enum Mark {
    Closed = 0,
    Reading = 1,
    Writing = 2,
    /// Open with neither R nor W.
    Neither = 3,
}

/// The tape but for its bytes: its own mark, the record that holds or takes
/// the next character, the place in it, and the characters put and not yet
/// written.
#[derive(Clone, Debug, PartialEq, Eq)]
pub struct Cassette {
    pub mark: Mark,
    pub record: usize,
    pub place: usize,
    pub pending: Vec<u8>,
}

impl Cassette {
    /// "Opening starts at its beginning"; a closed tape has no place either.
    fn at_the_beginning(mark: Mark) -> Cassette {
        Cassette { mark, record: 0, place: 0, pending: Vec::new() }
    }
}

/// "The sum of the first 131 bytes, each carry out of eight bits added back."
pub fn checksum(bytes: &[u8]) -> u8 {
    bytes.iter().fold(0, |sum: u8, &byte| {
        let (sum, carry) = sum.overflowing_add(byte);
        sum + u8::from(carry)
    })
}

/// A record's bytes, its checksum right.
pub fn record(control: u8, data: [u8; DATA]) -> [u8; RECORD] {
    let mut record = [0; RECORD];
    record[..CONTROL_AT].fill(0x55);
    record[CONTROL_AT] = control;
    record[DATA_AT..CHECKSUM_AT].copy_from_slice(&data);
    record[CHECKSUM_AT] = checksum(&record[..CHECKSUM_AT]);
    record
}

/// A partial record: the characters, zeros, their number in the last data byte.
pub fn partial_record(characters: &[u8]) -> [u8; RECORD] {
    let mut data = [0; DATA];
    data[..characters.len()].copy_from_slice(characters);
    data[DATA - 1] = characters.len() as u8;
    record(PARTIAL, data)
}

/// The end record: "$FE is end of file, data all zero".
pub fn end_record() -> [u8; RECORD] {
    record(END, [0; DATA])
}

/// The characters of a record's bytes, $88 for a good end record. "A bad
/// checksum, control byte or partial count (0, above 127) reads as $8F"; the
/// two $55 and an end record's data are judged by the checksum alone.
pub fn characters(record: &[u8]) -> Result<&[u8], u8> {
    if record[CHECKSUM_AT] != checksum(&record[..CHECKSUM_AT]) {
        return Err(BAD_RECORD);
    }
    match (record[CONTROL_AT], record[COUNT_AT]) {
        (FULL, _) => Ok(&record[DATA_AT..DATA_AT + DATA]),
        (PARTIAL, count @ 1..=127) => Ok(&record[DATA_AT..DATA_AT + usize::from(count)]),
        (END, _) => Err(END_OF_FILE),
        _ => Err(BAD_RECORD),
    }
}

/// What a name of D asks for: eleven bytes, ? for any.
pub type Pattern = [u8; NAME + EXTENSION];

/// Where a block of D reads on.
#[derive(Clone, Copy, Debug, PartialEq, Eq)]
pub enum Place {
    /// In a file: its number, which is its entry's; the sector, the place in
    /// it, and how many sectors it has begun.
    File { entry: usize, sector: usize, place: usize, begun: usize },
    /// In the directory's listing: what is listed, the entry and the place in
    /// its record. At a record's first character the entry is where the looking
    /// for the next match begins.
    Directory { pattern: Pattern, entry: usize, place: usize },
}

/// Whether an entry with this flag is a file, locked or not.
pub fn is_in_use(flag: u8) -> bool {
    flag & IN_USE != 0 && flag & DELETED == 0
}

/// Whether a name of eleven bytes is asked for: ? matches any byte, the blank
/// too, other bytes match themselves.
pub fn matches(pattern: &Pattern, name: &[u8]) -> bool {
    pattern.iter().zip(name).all(|(asked, byte)| *asked == b'?' || asked == byte)
}

/// A file sector's link: "byte 125 is the file number times four plus the next
/// sector's two high bits, 126 its low eight"; 0 is none.
pub fn next_sector(sector: &[u8]) -> usize {
    256 * usize::from(sector[LINK_AT] % 4) + usize::from(sector[LINK_AT + 1])
}

/// "Counts as three decimal digits modulo 1,000."
fn digits(count: usize) -> String {
    format!("{:03}", count % 1_000)
}

/// An entry's record in the directory's listing.
pub fn listed(entry: &[u8]) -> Vec<u8> {
    let lock = if entry[0] & LOCKED != 0 { b"* " } else { b"  " };
    let count = digits(word(&entry[SECTOR_COUNT_AT..]));
    [lock, &entry[NAME_AT..ENTRY], b" ", count.as_bytes(), &[EOL]].concat()
}

/// "The free-sector record (count, " FREE SECTORS", EOL)".
pub fn free_record(count: usize) -> Vec<u8> {
    [digits(count).as_bytes(), b" FREE SECTORS", &[EOL]].concat()
}

#[derive(Clone, Debug, PartialEq, Eq)]
pub struct Stick {
    pub area: Vec<u8>,
    pub screen: Vec<u8>,
    pub paper: Vec<u8>,
    pub tape: Vec<u8>,
    pub images: Vec<u8>,
    pub used: usize,
    pub console: Console,
    pub cassette: Cassette,
    pub ports: [Port; 2],
    /// The lengths at which area, screen, paper, state, tape and images are lent now.
    pub lent: [usize; 6],
}

/// A two-byte number, low byte first.
fn word(bytes: &[u8]) -> usize {
    usize::from(bytes[0]) + 256 * usize::from(bytes[1])
}

impl Default for Stick {
    fn default() -> Stick {
        Stick::new()
    }
}

impl Stick {
    /// A stick as after a fresh start over buffers of zeros.
    pub fn new() -> Stick {
        let mut stick = Stick {
            area: vec![0; 2 * AREA],
            screen: vec![0; SCREEN],
            paper: vec![0; PAPER],
            tape: vec![0; TAPE],
            images: vec![0; IMAGES],
            used: 0,
            console: Console {
                mode: 0,
                row: 0,
                column: LEFT,
                last: 0,
                escape: false,
                read_column: None,
                key: NO_KEY,
                lock: 1,
                inverse: 0,
            },
            cassette: Cassette::at_the_beginning(Mark::Closed),
            ports: [Port::fresh(), Port::fresh()],
            lent: WHOLE,
        };
        stick.fresh();
        stick
    }

    // ---- the five calls ----

    /// Fresh start. The bytes of paper, tape and images stay as they are lent:
    /// what is pending is not written.
    pub fn fresh(&mut self) -> u8 {
        if self.lent != WHOLE {
            return LENT_LENGTH;
        }
        self.area.fill(0);
        self.screen.fill(0);
        self.used = 0;
        self.open_editor();
        self.console.last = 0;
        self.console.key = NO_KEY;
        self.console.lock = 1;
        self.console.inverse = 0;
        self.cassette = Cassette::at_the_beginning(Mark::Closed);
        self.ports = [Port::fresh(), Port::fresh()];
        DONE
    }

    /// Take a byte of a message.
    pub fn take(&mut self, port: u8, byte: u8) -> u8 {
        let port = match self.port(port) {
            Ok(port) => port,
            Err(answer) => return answer,
        };
        let Phase::Gathering(message) = &mut self.ports[port].phase else {
            return NOT_GATHERING;
        };
        message.push(byte);
        if message.len() >= 3 && message.len() == 3 + word(&message[1..]) {
            let message = std::mem::take(message);
            self.ports[port].phase = Phase::Ready(message);
        }
        DONE
    }

    /// Tick a port: start what is ready, or move one character of what runs.
    pub fn tick(&mut self, port: u8) -> u8 {
        let port = match self.port(port) {
            Ok(port) => port,
            Err(answer) => return answer,
        };
        match &self.ports[port].phase {
            Phase::Gathering(_) | Phase::Replying(..) => NOTHING_TO_DO,
            Phase::Ready(message) => {
                let message = message.clone();
                self.start(port, &message)
            }
            Phase::Running(run) => {
                let run = run.clone();
                self.step(port, run);
                DONE
            }
        }
    }

    /// Give the next byte of the reply; the byte beside a refusal is 0.
    pub fn give(&mut self, port: u8) -> (u8, u8) {
        let port = match self.port(port) {
            Ok(port) => port,
            Err(answer) => return (answer, 0),
        };
        let Phase::Replying(reply, given) = &mut self.ports[port].phase else {
            return (NO_REPLY, 0);
        };
        let byte = reply[*given];
        *given += 1;
        if *given == reply.len() {
            self.ports[port].phase = Phase::Gathering(Vec::new());
        }
        (DONE, byte)
    }

    /// Press a key.
    pub fn press(&mut self, code: u8) -> u8 {
        if self.lent != WHOLE {
            return LENT_LENGTH;
        }
        if self.holds(0, Group::Console) || self.holds(1, Group::Console) {
            return CONSOLE_HELD;
        }
        self.console.key = code;
        DONE
    }

    /// The checks that every call with a port makes first.
    fn port(&self, port: u8) -> Result<usize, u8> {
        if self.lent != WHOLE {
            Err(LENT_LENGTH)
        } else if port > 1 {
            Err(NO_PORT)
        } else {
            Ok(usize::from(port))
        }
    }

    /// Whether the port holds the group.
    pub fn holds(&self, port: usize, group: Group) -> bool {
        match &self.ports[port].phase {
            Phase::Running(run) => run.file.device.group() == group,
            _ => false,
        }
    }

    /// The device that the port's CALL is about, ready or running: that of its
    /// block, or of the specification by which a closed block is opened.
    pub fn device(&self, port: usize) -> Option<Device> {
        match self.about(port)? {
            About::Block(file) => Some(file.device),
            About::Specification(address) => self.specification(port, address).ok().map(|named| named.file.device),
        }
    }

    /// The same by the specification's letter alone, whether it goes on well or
    /// not.
    pub fn letter(&self, port: usize) -> Option<u8> {
        match self.about(port)? {
            About::Block(file) => Some(file.device.letter()),
            About::Specification(address) => self.area[port * AREA..][..AREA].get(address).copied(),
        }
    }

    /// What the port's CALL is about, ready or running, if it is about a device.
    fn about(&self, port: usize) -> Option<About> {
        let call = match &self.ports[port].phase {
            Phase::Running(run) => return Some(About::Block(run.file)),
            Phase::Ready(message) if message[..3] == [0x10, 9, 0] => Call::of(&message[3..]),
            _ => return None,
        };
        match self.ports[port].blocks.get(usize::from(call.iocb))? {
            _ if call.is_bad() => None,
            Some(file) => Some(About::Block(*file)),
            None if call.reads() || call.writes() || call.command == CLOSE => None,
            None => Some(About::Specification(call.address)),
        }
    }

    // ---- messages ----

    /// The start tick of a ready message.
    fn start(&mut self, port: usize, message: &[u8]) -> u8 {
        let value = &message[3..];
        let reply = match (message[0], value.len()) {
            (0x10, 9) => return self.start_call(port, Call::of(value)),
            (0x11, 3..=258) => vec![0x91, 1, 0, self.load(port, value)],
            (0x12, 4) => self.fetch(port, word(value), word(&value[2..])),
            (0x10..=0x12, _) => vec![0xFF, 1, 0, BAD_COMMAND],
            _ => vec![0xFF, 1, 0, UNKNOWN_TAG],
        };
        self.reply(port, reply);
        DONE
    }

    fn load(&mut self, port: usize, value: &[u8]) -> u8 {
        let (address, data) = (word(value), &value[2..]);
        if address + data.len() > AREA {
            return PAST_AREA;
        }
        let from = port * AREA + address;
        self.area[from..from + data.len()].copy_from_slice(data);
        SUCCESS
    }

    fn fetch(&self, port: usize, address: usize, count: usize) -> Vec<u8> {
        if count == 0 || count > 256 {
            return vec![0x92, 1, 0, BAD_COMMAND];
        }
        if address + count > AREA {
            return vec![0x92, 1, 0, PAST_AREA];
        }
        let length = 1 + count;
        let from = port * AREA + address;
        let mut reply = vec![0x92, (length % 256) as u8, (length / 256) as u8, SUCCESS];
        reply.extend_from_slice(&self.area[from..from + count]);
        reply
    }

    fn reply(&mut self, port: usize, reply: Vec<u8>) {
        self.ports[port].phase = Phase::Replying(reply, 0);
    }

    fn reply_call(&mut self, port: usize, status: u8, count: usize, a: u8) {
        let reply = vec![0x90, 4, 0, status, (count % 256) as u8, (count / 256) as u8, a];
        self.reply(port, reply);
    }

    // ---- CALL ----

    /// The start tick of a CALL: all but transfers.
    fn start_call(&mut self, port: usize, call: Call) -> u8 {
        let Named { file, name } = match self.judge(port, &call) {
            Ok(Some(named)) => named,
            Ok(None) => {
                self.reply_call(port, SUCCESS, 0, call.a);
                return DONE;
            }
            Err(status) => {
                self.reply_call(port, status, 0, call.a);
                return DONE;
            }
        };
        if self.holds(1 - port, file.device.group()) {
            return GROUP_HELD;
        }
        if call.reads() || call.writes() {
            match self.ready_device(file.device) {
                Ok(()) => self.ports[port].phase = Phase::Running(Run { call, file, count: 0 }),
                Err(status) => self.reply_call(port, status, 0, call.a),
            }
            return DONE;
        }
        let status = self.without_transfer(port, &call, file, name).err().unwrap_or(SUCCESS);
        self.reply_call(port, status, 0, call.a);
        DONE
    }

    /// The checks before the group: the file that the CALL is about, `None`
    /// for CLOSE of a closed block, or the status that refuses it.
    fn judge(&self, port: usize, call: &Call) -> Result<Option<Named>, u8> {
        if call.iocb > 7 {
            return Err(BAD_IOCB);
        }
        if call.is_bad() {
            return Err(BAD_COMMAND);
        }
        let block = self.ports[port].blocks[usize::from(call.iocb)];
        let open = block.map(|file| Named { file, name: Name::None });
        if call.command == CLOSE {
            return Ok(open);
        }
        if call.reads() || call.writes() {
            let file = block.ok_or(NOT_OPEN)?;
            if call.reads() && file.aux1 & R == 0 {
                return Err(NOT_READABLE);
            }
            if call.writes() && file.aux1 & W == 0 {
                return Err(NOT_WRITABLE);
            }
            if call.length > 0 && call.address + call.length > AREA {
                return Err(PAST_AREA);
            }
            return Ok(open);
        }
        // OPEN, GET STATUS and SPECIAL
        if call.command == OPEN && block.is_some() {
            return Err(ALREADY_OPEN);
        }
        if block.is_some() {
            return Ok(open);
        }
        let mut named = self.specification(port, call.address)?;
        named.file.aux1 = call.aux1;
        Ok(Some(named))
    }

    /// What the specification at an address names; AUX1 is not its part.
    fn specification(&self, port: usize, address: usize) -> Result<Named, u8> {
        let byte = |at: usize| {
            if at < AREA {
                Ok(self.area[port * AREA + at])
            } else {
                Err(PAST_AREA)
            }
        };
        let device = Device::of_letter(byte(address)?).ok_or(NO_DEVICE)?;
        let (number, behind) = match byte(address + 1)? {
            b':' => (1, address + 2),
            digit if (b'1'..=device.last_digit()).contains(&digit) => match byte(address + 2)? {
                b':' => (digit - b'0', address + 3),
                _ => return Err(NO_DEVICE),
            },
            _ => return Err(NO_DEVICE),
        };
        let name = match device {
            Device::D => name(byte, behind)?,
            _ => Name::None,
        };
        Ok(Named { file: File { device, number, aux1: 0 }, name })
    }

    /// OPEN, CLOSE, GET STATUS and SPECIAL, with the group held.
    fn without_transfer(&mut self, port: usize, call: &Call, file: File, name: Name) -> Result<(), u8> {
        let iocb = usize::from(call.iocb);
        match call.command {
            OPEN => {
                self.ports[port].places[iocb] = self.open(file, name, call.aux2)?;
                self.ports[port].blocks[iocb] = Some(file);
                Ok(())
            }
            CLOSE => {
                self.close(file.device);
                self.ports[port].blocks[iocb] = None;
                self.ports[port].places[iocb] = None;
                Ok(())
            }
            command => {
                let mut place = self.ports[port].places[iocb];
                if self.ports[port].blocks[iocb].is_none() {
                    place = self.open(file, name, call.aux2)?;
                    self.close(file.device);
                }
                if command == GET_STATUS {
                    self.status(file, place)
                } else {
                    Err(BAD_COMMAND)
                }
            }
        }
    }

    /// What a transfer does to its device in the start tick.
    fn ready_device(&mut self, device: Device) -> Result<(), u8> {
        match device {
            Device::S if self.console.mode == 0 => return Err(SCREEN_MODE),
            Device::E if self.console.mode != 0 => self.open_editor(),
            _ => {}
        }
        Ok(())
    }

    /// A later tick of a transfer: one character, or one refusal.
    fn step(&mut self, port: usize, mut run: Run) {
        let Call { length: n, address, a, .. } = run.call;
        let place = port * AREA + address + run.count;
        let end = if run.call.reads() {
            match self.get(port, &run).with_status() {
                Err(status) => Some((status, a)),
                Ok((character, status)) if n == 0 => Some((status, character)),
                // $03 "is below $80, so the character is stored and counted"
                Ok((character, status)) if run.count < n => {
                    self.area[place] = character;
                    run.count += 1;
                    run.is_over(character).then_some((status, a))
                }
                // n are stored: the rest of the record is dropped; "a cut record still ends with $89"
                Ok((character, _)) => (character == EOL).then_some((RECORD_CUT, a)),
            }
        } else {
            let added = n > 0 && run.count == n;
            let character = match n {
                0 => a,
                _ if added => EOL,
                _ => self.area[place],
            };
            match self.put(run.file.device, character) {
                Err(status) => Some((status, a)),
                Ok(()) if n == 0 || added => Some((SUCCESS, a)),
                Ok(()) => {
                    run.count += 1;
                    run.is_over(character).then_some((SUCCESS, a))
                }
            }
        };
        match end {
            Some((status, a)) => self.reply_call(port, status, run.count, a),
            None => self.ports[port].phase = Phase::Running(run),
        }
    }

    // ---- the devices ----

    /// A device's open: AUX1, mode, name, and what it does to the device. Where
    /// a block of D begins to read.
    fn open(&mut self, file: File, name: Name, aux2: u8) -> Result<Option<Place>, u8> {
        let bit = |bits: u8| file.aux1 & bits != 0;
        match file.device {
            Device::K if bit(W) => return Err(BAD_COMMAND),
            Device::P if bit(R) => return Err(BAD_COMMAND),
            Device::E if bit(R) && !bit(FORCED) => return Err(BAD_COMMAND),
            Device::S if bit(SPLIT) || !(3..=8).contains(&aux2) => return Err(SCREEN_MODE),
            Device::C if bit(R) && bit(W) => return Err(BAD_COMMAND),
            Device::C if self.cassette.mark != Mark::Closed => return Err(ALREADY_OPEN),
            Device::D if bit(W) => return Err(BAD_COMMAND),
            Device::K | Device::P => {}
            Device::E => self.open_editor(),
            Device::S => self.open_screen(aux2, bit(KEEP)),
            Device::C => {
                self.cassette = Cassette::at_the_beginning(match (bit(R), bit(W)) {
                    (true, _) => Mark::Reading,
                    (_, true) => Mark::Writing,
                    _ => Mark::Neither,
                })
            }
            Device::D => return self.open_disk(file, name).map(Some),
        }
        Ok(None)
    }

    /// A device's close; only the tape's does something.
    fn close(&mut self, device: Device) {
        if device == Device::C {
            self.close_tape();
        }
    }

    /// A device's status; only that of a file on D is not always $01.
    fn status(&self, file: File, place: Option<Place>) -> Result<(), u8> {
        match place {
            Some(Place::File { entry, .. }) => self.file_status(file.drive(), entry),
            _ => Ok(()),
        }
    }

    fn open_editor(&mut self) {
        self.console.mode = 0;
        self.clear_text();
        self.console.escape = false;
        self.console.read_column = None;
    }

    fn open_screen(&mut self, mode: u8, keep: bool) {
        let (columns, rows, colours) = shape(mode);
        self.console.mode = mode;
        self.console.row = 0;
        self.console.column = 0;
        for cell in &mut self.screen[..columns * rows] {
            *cell = if keep { (u16::from(*cell) % colours) as u8 } else { 0 };
        }
    }

    fn get(&mut self, port: usize, run: &Run) -> Got {
        match run.file.device {
            Device::E => self.editor_get(),
            Device::S => self.screen_get(),
            Device::K => self.key_get(),
            Device::P => unreachable!("P offers no R"),
            Device::C => self.tape_get(),
            Device::D => self.disk_get(port, run),
        }
    }

    fn put(&mut self, device: Device, byte: u8) -> Result<(), u8> {
        match device {
            Device::E => self.editor_put(byte),
            Device::S => return self.screen_put(byte),
            Device::K => unreachable!("K offers no W"),
            Device::P => {
                if self.used == PAPER {
                    return Err(DEVICE_FULL);
                }
                self.paper[self.used] = byte;
                self.used += 1;
            }
            Device::C => return self.tape_put(byte),
            Device::D => unreachable!("D offers no W"),
        }
        Ok(())
    }

    // S

    fn screen_put(&mut self, byte: u8) -> Result<(), u8> {
        let (columns, rows, colours) = shape(self.console.mode);
        if byte == 0x7D {
            self.screen[..columns * rows].fill(0);
            self.console.row = 0;
            self.console.column = 0;
            return Ok(());
        }
        if self.console.row == rows {
            return Err(CURSOR_RANGE);
        }
        if byte == EOL {
            self.console.row += 1;
            self.console.column = 0;
            return Ok(());
        }
        self.screen[self.console.row * columns + self.console.column] = (u16::from(byte) % colours) as u8;
        self.console.last = byte;
        self.screen_move_on();
        Ok(())
    }

    fn screen_get(&mut self) -> Got {
        let (columns, rows, colours) = shape(self.console.mode);
        if self.console.row == rows {
            return Got::Refusal(CURSOR_RANGE);
        }
        let cell = self.screen[self.console.row * columns + self.console.column];
        let character = (u16::from(cell) % colours) as u8;
        self.console.last = character;
        self.screen_move_on();
        Got::Character(character)
    }

    fn screen_move_on(&mut self) {
        let (columns, ..) = shape(self.console.mode);
        self.console.column += 1;
        if self.console.column == columns {
            self.console.column = 0;
            self.console.row += 1;
        }
    }

    // E

    /// All cells blank, cursor home.
    fn clear_text(&mut self) {
        self.screen[..TEXT_CELLS].fill(0x20);
        self.console.row = 0;
        self.console.column = LEFT;
    }

    fn new_row(&mut self) {
        self.console.column = LEFT;
        if self.console.row < BOTTOM {
            self.console.row += 1;
        } else {
            self.screen.copy_within(40..TEXT_CELLS, 0);
            self.screen[TEXT_CELLS - 40..TEXT_CELLS].fill(0x20);
        }
    }

    fn editor_put(&mut self, byte: u8) {
        self.console.read_column = None;
        if self.console.escape {
            self.console.escape = false;
            if byte == EOL {
                self.new_row();
            } else {
                self.editor_data(byte);
            }
            return;
        }
        let (row, column) = (self.console.row, self.console.column);
        match byte {
            0x1B => self.console.escape = true,
            0x1C => self.console.row = if row == 0 { BOTTOM } else { row - 1 },
            0x1D => self.console.row = if row == BOTTOM { 0 } else { row + 1 },
            0x1E => self.console.column = if column == LEFT { RIGHT } else { column - 1 },
            0x1F => self.console.column = if column == RIGHT { LEFT } else { column + 1 },
            0x7D => self.clear_text(),
            0x7E if column > LEFT => {
                self.console.column = column - 1;
                self.screen[40 * row + column - 1] = 0x20;
            }
            EOL => self.new_row(),
            0x7E | 0x7F | 0x9C..=0x9F | 0xFD..=0xFF => {}
            data => self.editor_data(data),
        }
    }

    fn editor_data(&mut self, byte: u8) {
        self.screen[40 * self.console.row + self.console.column] = byte;
        self.console.last = byte;
        if self.console.column == RIGHT {
            self.new_row();
        } else {
            self.console.column += 1;
        }
    }

    fn editor_get(&mut self) -> Got {
        let at = self.console.read_column.unwrap_or(LEFT);
        let row = &self.screen[40 * self.console.row..40 * self.console.row + 40];
        let last = (LEFT..=RIGHT).rev().find(|&column| row[column] != 0x20);
        if last.is_some_and(|last| at <= last) {
            let character = row[at];
            self.console.last = character;
            self.console.read_column = Some(at + 1);
            Got::Character(character)
        } else {
            self.new_row();
            self.console.read_column = None;
            Got::Character(EOL)
        }
    }

    // K

    fn key_get(&mut self) -> Got {
        let code = std::mem::replace(&mut self.console.key, NO_KEY);
        let lock = u32::from(self.console.lock);
        match translate(u32::from(code), lock, u32::from(self.console.inverse)) {
            character @ 0..=255 => return Got::Character(character as u8),
            257 => self.console.inverse = 1 - self.console.inverse,
            258 => self.console.lock = 0,
            259 => self.console.lock = 1,
            260 => self.console.lock = 2,
            _ => {}
        }
        Got::Refusal(END_OF_FILE)
    }

    // C

    /// The next character; a refusal moves nothing. Whether it is the last, the
    /// tape says as it lies after the read.
    fn tape_get(&mut self) -> Got {
        match self.next_on_tape() {
            Ok((character, behind)) => {
                (self.cassette.record, self.cassette.place) = behind;
                match self.next_on_tape() {
                    Err(END_OF_FILE) => Got::Last(character),
                    _ => Got::Character(character),
                }
            }
            Err(status) => Got::Refusal(status),
        }
    }

    /// What a read would give: a character, with the record and the place
    /// behind it, or a refusal. The record is judged as it lies.
    fn next_on_tape(&self) -> Result<(u8, (usize, usize)), u8> {
        let Cassette { mut record, mut place, .. } = self.cassette;
        let mut characters = self.characters_of(record)?;
        if place >= characters.len() {
            // The count has meanwhile fallen to the place or below.
            (record, place) = (record + 1, 0);
            characters = self.characters_of(record)?;
        }
        // Behind a record's last character comes the next record.
        let behind = if place + 1 < characters.len() { (record, place + 1) } else { (record + 1, 0) };
        Ok((characters[place], behind))
    }

    /// The characters of a record on the tape; "a tape that runs out reads as $88".
    fn characters_of(&self, record: usize) -> Result<&[u8], u8> {
        if record == RECORDS {
            return Err(END_OF_FILE);
        }
        characters(&self.tape[RECORD * record..RECORD * (record + 1)])
    }

    /// "A full record is written with its 128th character ..; a character after
    /// 249 full records gives $90."
    fn tape_put(&mut self, byte: u8) -> Result<(), u8> {
        if self.cassette.record == RECORDS - 1 {
            return Err(DEVICE_FULL);
        }
        self.cassette.pending.push(byte);
        if let Ok(data) = <[u8; DATA]>::try_from(&self.cassette.pending[..]) {
            self.write_record(record(FULL, data));
            self.cassette.pending.clear();
        }
        Ok(())
    }

    /// "CLOSE after writing, implied ones too, flushes a partial record and
    /// adds the end record": also where nothing was put.
    fn close_tape(&mut self) {
        if self.cassette.mark == Mark::Writing {
            if !self.cassette.pending.is_empty() {
                self.write_record(partial_record(&self.cassette.pending));
            }
            self.write_record(end_record());
        }
        self.cassette = Cassette::at_the_beginning(Mark::Closed);
    }

    fn write_record(&mut self, bytes: [u8; RECORD]) {
        let from = RECORD * self.cassette.record;
        self.tape[from..from + RECORD].copy_from_slice(&bytes);
        self.cassette.record += 1;
    }

    // D

    /// A sector of a drive's image: they count from 1 on.
    pub fn sector(&self, drive: usize, sector: usize) -> &[u8] {
        &self.images[IMAGE * drive + SECTOR * (sector - 1)..][..SECTOR]
    }

    /// An entry of a drive's directory.
    pub fn entry(&self, drive: usize, entry: usize) -> &[u8] {
        &self.images[IMAGE * drive + SECTOR * (DIRECTORY_SECTOR - 1) + ENTRY * entry..][..ENTRY]
    }

    /// The first sector of an entry's file; 0 is none.
    pub fn first_sector(&self, drive: usize, entry: usize) -> usize {
        word(&self.entry(drive, entry)[FIRST_SECTOR_AT..])
    }

    /// The first match from an entry on. A flag of 0 "ends the directory"; other
    /// entries that are not in use are passed over.
    pub fn find(&self, drive: usize, pattern: &Pattern, from: usize) -> Option<usize> {
        let entries = (from..ENTRIES).map(|entry| (entry, self.entry(drive, entry)));
        let mut used = entries.take_while(|(_, bytes)| bytes[0] != 0).filter(|(_, bytes)| is_in_use(bytes[0]));
        used.find(|(_, bytes)| matches(pattern, &bytes[NAME_AT..])).map(|(entry, _)| entry)
    }

    /// $A5, then the directory, or "the first match opens, none is $AA".
    fn open_disk(&self, file: File, name: Name) -> Result<Place, u8> {
        let Name::Pattern(pattern) = name else {
            return Err(BAD_NAME);
        };
        if file.aux1 == DIRECTORY {
            return Ok(Place::Directory { pattern, entry: 0, place: 0 });
        }
        let entry = self.find(file.drive(), &pattern, 0).ok_or(NO_FILE)?;
        Ok(Place::File { entry, sector: self.first_sector(file.drive(), entry), place: 0, begun: 1 })
    }

    /// The status of a file's entry as it lies.
    fn file_status(&self, drive: usize, entry: usize) -> Result<(), u8> {
        match self.entry(drive, entry)[0] {
            flag if !is_in_use(flag) => Err(NO_FILE),
            flag if flag & LOCKED != 0 => Err(FILE_LOCKED),
            _ => Ok(()),
        }
    }

    /// The next character; a refusal moves nothing. Whether it is the last, the
    /// image says as it lies after the read.
    fn disk_get(&mut self, port: usize, run: &Run) -> Got {
        let (drive, iocb) = (run.file.drive(), usize::from(run.call.iocb));
        let place = self.ports[port].places[iocb].expect("a block of D has a place");
        match self.next_on_disk(drive, place) {
            Ok((character, behind)) => {
                self.ports[port].places[iocb] = Some(behind);
                match self.next_on_disk(drive, behind) {
                    Err(END_OF_FILE) => Got::Last(character),
                    _ => Got::Character(character),
                }
            }
            Err(status) => Got::Refusal(status),
        }
    }

    /// What a read would give: a character, with the place behind it, or a
    /// refusal. The image is judged as it lies.
    pub fn next_on_disk(&self, drive: usize, place: Place) -> Result<(u8, Place), u8> {
        match place {
            Place::File { entry, sector, place, begun } => self.next_in_file(drive, entry, sector, place, begun),
            Place::Directory { pattern, entry, place } => self.next_in_directory(drive, pattern, entry, place),
        }
    }

    /// Of a file: the byte at the place, or through the link, over empty sectors
    /// too, the first of a later sector.
    fn next_in_file(
        &self,
        drive: usize,
        entry: usize,
        mut sector: usize,
        mut place: usize,
        mut begun: usize,
    ) -> Result<(u8, Place), u8> {
        loop {
            if sector == 0 {
                return Err(END_OF_FILE);
            }
            if sector > LAST_SECTOR || begun > LAST_SECTOR {
                return Err(BAD_CHAIN);
            }
            let bytes = self.sector(drive, sector);
            let (file, count) = (usize::from(bytes[LINK_AT] / 4), usize::from(bytes[DATA_COUNT_AT]));
            if file != entry || count > SECTOR_DATA {
                return Err(BAD_CHAIN);
            }
            if place < count {
                return Ok((bytes[place], Place::File { entry, sector, place: place + 1, begun }));
            }
            sector = next_sector(bytes);
            place = 0;
            begun += 1;
        }
    }

    /// Of the directory: "every match once in directory order and then the
    /// free-sector record". A record's first character looks for the match.
    fn next_in_directory(
        &self,
        drive: usize,
        pattern: Pattern,
        mut entry: usize,
        place: usize,
    ) -> Result<(u8, Place), u8> {
        if place == 0 && entry < ENTRIES {
            entry = self.find(drive, &pattern, entry).unwrap_or(FREE_RECORD);
        }
        let record = match entry {
            LISTING_END => return Err(END_OF_FILE),
            FREE_RECORD => free_record(word(&self.sector(drive, FREE_COUNT_SECTOR)[FREE_COUNT_AT..])),
            _ => listed(self.entry(drive, entry)),
        };
        let behind = if place + 1 < record.len() { (entry, place + 1) } else { (entry + 1, 0) };
        Ok((record[place], Place::Directory { pattern, entry: behind.0, place: behind.1 }))
    }
}

/// What a CALL is about: its block's file, or a specification at an address.
enum About {
    Block(File),
    Specification(usize),
}

/// A file, and what is asked for on it.
struct Named {
    file: File,
    name: Name,
}

/// What stands behind the colon.
enum Name {
    /// Of other devices nothing is read; of an open block neither.
    None,
    /// A byte that no name of D may have.
    Bad,
    Pattern(Pattern),
}

/// The pattern of a name alone, if it is a good one.
pub fn pattern(text: &[u8]) -> Option<Pattern> {
    match name(|at| Ok(text.get(at).copied().unwrap_or(EOL)), 0) {
        Ok(Name::Pattern(pattern)) => Some(pattern),
        _ => None,
    }
}

/// D's name, read up to its end, EOL or blank; a bad byte ends the looking. "*
/// and ? (a byte outside A-Z, 0-9, these, one dot and the end ..: $A5 ..; past
/// eight or three, ignored)".
fn name(byte: impl Fn(usize) -> Result<u8, u8>, from: usize) -> Result<Name, u8> {
    let mut pattern = [b' '; NAME + EXTENSION];
    let (mut place, mut end) = (0, NAME);
    let mut at = from;
    loop {
        match byte(at)? {
            EOL | b' ' => return Ok(Name::Pattern(pattern)),
            b'.' if end == NAME => (place, end) = (NAME, NAME + EXTENSION),
            b'*' => {
                pattern[place..end].fill(b'?');
                place = end;
            }
            character @ (b'A'..=b'Z' | b'0'..=b'9' | b'?') => {
                if place < end {
                    pattern[place] = character;
                    place += 1;
                }
            }
            _ => return Ok(Name::Bad),
        }
        at += 1;
    }
}

impl Run {
    /// Whether the request ends by its own rule after this counted character.
    /// A record goes on without an EOL, to add one or to drop up to one.
    fn is_over(&self, character: u8) -> bool {
        if self.call.by_record() {
            character == EOL
        } else {
            self.count == self.call.length
        }
    }
}
