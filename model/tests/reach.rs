//! The random conversations come to the paper's boundaries: each of those below is reached at least once in the scripts that
//! `./test` compares.

use model::diskette::{is_reserved, link, sector_at, Diskette};
use model::random::{call, conversation, fetch, field, load};
use model::script::{Figures, Op, Player, DISK_STATUSES, TAPE_STATUSES};
use model::stick::*;
use std::collections::{BTreeMap, BTreeSet};

/// The scripts of `./test`: so many, from the seed on that `compare` has where none is said.
const SCRIPTS: u64 = 2_000;
const FIRST_SEED: u64 = 1;

/// Lengths and counts around those of a piece and a field, and ends around the area's.
const LENGTHS: [usize; 7] = [0, 1, 255, 256, 257, 258, 259];
const ENDS: [usize; 3] = [AREA - 1, AREA, AREA + 1];
const TRANSFERS: [(u8, &str); 4] = [
    (GET_RECORD, "GET RECORD"),
    (GET_CHARACTERS, "GET CHARACTERS"),
    (PUT_RECORD, "PUT RECORD"),
    (PUT_CHARACTERS, "PUT CHARACTERS"),
];
/// Each device's letter and the AUX1 with all that it offers.
const OFFERED: [(u8, u8); 8] =
    [(b'E', R | W | FORCED), (b'S', R | W), (b'K', R), (b'P', W), (b'C', R), (b'C', W), (b'D', R), (b'D', DIRECTORY)];
/// The buffers that `W` writes, with their lengths.
const WRITTEN: [(u8, usize); 5] = [(0, 2 * AREA), (1, SCREEN), (2, PAPER), (4, TAPE), (6, IMAGES)];

/// The names of all boundaries.
fn boundaries() -> Vec<String> {
    let mut all = Vec::new();
    let mut add = |name: String| all.push(name);
    for end in ENDS {
        add(format!("LOAD ends at {end}"));
        add(format!("FETCH ends at {end}"));
        for (_, transfer) in TRANSFERS {
            add(format!("{transfer} ends at {end}"));
        }
    }
    for length in LENGTHS {
        add(format!("FETCH of {length}"));
        for (_, transfer) in TRANSFERS {
            add(format!("{transfer} of {length}"));
        }
    }
    for (tag, lengths) in [(0x10, [8, 9, 10]), (0x11, [2, 3, 4]), (0x11, [257, 258, 259]), (0x12, [3, 4, 5])] {
        for length in lengths {
            add(format!("tag {tag:02X}, length {length}"));
        }
    }
    for tag in [0x0F, 0x13] {
        add(format!("tag {tag:02X}"));
    }
    for count in [0, 257] {
        add(format!("FETCH of {count} past the area"));
    }
    for iocb in [7, 8] {
        for command in 0..=0x0E {
            add(format!("IOCB {iocb}, command {command:02X}"));
        }
    }
    for (letter, offered) in OFFERED {
        for bit in 0..8 {
            add(format!("{} AUX1 {:02X}", letter as char, 1 << bit));
            add(format!("{} AUX1 {:02X}", letter as char, offered ^ 1 << bit));
        }
    }
    all.sort();
    all.dedup();
    let mut add = |name: String| all.push(name);
    for mode in 3..=8 {
        for what in [
            "PUT in the last column",
            "GET in the last column",
            "EOL in the last row",
            "PUT into the last cell",
            "GET of the last cell, not 0",
            "PUT past the last row",
            "EOL past the last row",
            "clear past the last row",
            "GET past the last row",
            "added EOL past the last row",
        ] {
            add(format!("mode {mode}, {what}"));
        }
        if mode < 8 {
            add(format!("mode {mode}, cleared before a cell that is not 0"));
        }
    }
    for what in [
        "data in column 39",
        "data in column 39 of row 23",
        "EOL in row 23",
        "up from row 0",
        "down from row 23",
        "left from column 2",
        "right from column 39",
        "backspace in column 2",
        "backspace in column 3",
        "GET of column 39",
        "GET behind column 39",
        "GET of an EOL in row 23",
        "GET of an empty row",
        "record of 38 cut by 37",
        "record of 38 cut by 38",
    ] {
        add(format!("E, {what}"));
    }
    for length in [0, 1, 37, 38, 39] {
        add(format!("E, PUT RECORD of {length} on a blank row"));
        if length < 39 {
            add(format!("E, GET RECORD of {length} and the EOL"));
        }
    }
    for row in [22, 23] {
        add(format!("E, PUT RECORD of 38 on row {row}"));
    }
    for used in [4_094, 4_095, 4_096] {
        for way in ["characters", "record", "added EOL", "A"] {
            add(format!("P, {way} at {used}"));
        }
    }
    for device in ["E", "S", "K", "C", "D"] {
        add(format!("{device}, a read of length 0"));
    }
    for device in ["S", "K", "P", "C", "D"] {
        add(format!("{device}, a refused character of length 0"));
    }
    all.extend(tape_boundaries());
    all.extend(warning_boundaries());
    all.extend(disk_boundaries());
    all.extend(file_boundaries());
    all.extend(doctor_boundaries());
    all
}

/// The names of the tape's boundaries.
fn tape_boundaries() -> Vec<String> {
    let mut all = Vec::new();
    let mut add = |name: String| all.push(name);
    for command in ["OPEN", "GET STATUS", "SPECIAL"] {
        for way in ["R", "W", "both", "neither"] {
            for tape in ["closed", "open on the own port", "open on the other port"] {
                add(format!("C, {command} with {way}, tape {tape}"));
            }
        }
        add(format!("C, {command} on a block that is open"));
        add(format!("C, {command} answered 8"));
    }
    for mark in ["Reading", "Writing", "Neither"] {
        add(format!("C, GET on a block open, {mark}"));
        add(format!("C, PUT on a block open, {mark}"));
        add(format!("C, CLOSE, {mark}"));
        add(format!("C, fresh start, {mark}"));
        add(format!("tape dumped, {mark}"));
    }
    for what in ["fresh start, tape held", "a dump with an open block", "a key taken, tape held"] {
        add(format!("C, {what}"));
    }
    for (group, held) in
        [("Tape", "Console"), ("Tape", "Printer"), ("Disk", "Console"), ("Disk", "Printer"), ("Disk", "Tape")]
    {
        add(format!("{group} starts, {held} held"));
        add(format!("{held} starts, {group} held"));
    }
    for way in ["characters", "record", "added EOL", "A"] {
        for pending in [0, 126, 127] {
            add(format!("C, {way} at {pending} pending"));
        }
        add(format!("C, {way} into the last place"));
        add(format!("C, {way} on a full tape"));
    }
    for pending in [0, 1, 126, 127] {
        add(format!("C, CLOSE with {pending} pending"));
    }
    for what in ["nothing put", "pending at record 248", "249 full records"] {
        add(format!("C, CLOSE with {what}"));
    }
    for kind in ["full", "partial"] {
        for what in ["first", "last"] {
            add(format!("C, GET of the {what} character of a {kind} record"));
        }
        add(format!("C, GET of the last character of record 249, {kind}"));
    }
    for count in [1, 126, 127] {
        add(format!("C, GET from a partial record of {count}"));
    }
    for what in [
        "GET from a good record without $55",
        "GET from a record of checksum FF",
        "GET with the count fallen to the place",
        "GET with the count fallen below the place",
        "GET with the count fallen, the next record refused",
        "end, an end record",
        "end, an end record with data",
        "end, an end record in the middle",
        "end, run out",
        "end while a record is dropped",
        "bad, checksum, control FA",
        "bad, checksum, control FC",
        "bad, checksum, control FE",
        "bad, checksum 0 for FF",
        "bad, checksum modulo 256",
        "bad, control byte",
        "bad, count 0",
        "bad, count 128",
        "bad, count 255",
        "bad, in the middle",
        "bad, record 249",
        "bad while a record is dropped",
        "bad, and bad again",
    ] {
        add(format!("C, {what}"));
    }
    for call in ["fresh", "take", "tick", "give", "press"] {
        add(format!("tape lent cut, {call}"));
        add(format!("images lent cut, {call}"));
    }
    for (buffer, _) in WRITTEN {
        for what in ["up to its end", "over its end", "behind its end"] {
            add(format!("W into buffer {buffer} {what}"));
        }
    }
    for what in
        ["into the rooms", "into no buffer", "of no bytes", "while a buffer is lent cut", "into a record that is read"]
    {
        add(format!("W {what}"));
    }
    all
}

/// What a read of C that gives a character comes to.
const WAYS: [&str; 9] = [
    "GET CHARACTERS of 0",
    "GET RECORD of 0",
    "GET CHARACTERS up to n",
    "GET CHARACTERS before n",
    "GET RECORD, an EOL with room to spare",
    "GET RECORD, an EOL that just fits",
    "GET RECORD, before an EOL",
    "GET RECORD, a dropped EOL",
    "GET RECORD, dropped before an EOL",
];
/// What the next record is behind a record's last character.
const BEHIND: [&str; 5] = ["an end record", "an end record with data", "nothing", "a bad record", "a record"];

/// The names of the boundaries about the last character: $03, and where it is $01.
fn warning_boundaries() -> Vec<String> {
    let mut all = Vec::new();
    for way in WAYS {
        all.extend(BEHIND.map(|behind| format!("C, {way}, then {behind}")));
    }
    for kind in ["full", "partial"] {
        all.push(format!("C, the last character, of a {kind} record"));
        all.push(format!("C, the last character, of record 249, {kind}"));
    }
    for what in ["a character", "88", "8F"] {
        all.push(format!("C, {what} behind the last character, in one request"));
        all.push(format!("C, {what} behind the last character, in the next request"));
    }
    for what in [
        "C, the last character, the count fallen",
        "C, the last character, all of the request",
        "C, the last character at the area's end",
        "W of an end behind the record that is read",
        "W over the end behind the record that is read",
        "K, a character, and then none",
    ] {
        all.push(what.to_string());
    }
    all
}

/// The names of the boundaries of D's specifications, blocks and directories.
fn disk_boundaries() -> Vec<String> {
    let mut all = Vec::new();
    let mut add = |name: String| all.push(name);
    for (command, statuses) in [
        ("OPEN", &[0x01, 0x82, 0x84, 0xA5, 0xAA, 0xB0][..]),
        ("GET STATUS", &[0x01, 0x82, 0x84, 0xA5, 0xA7, 0xAA, 0xB0]),
        ("SPECIAL", &[0x82, 0x84, 0xA5, 0xAA, 0xB0]),
    ] {
        for status in statuses {
            add(format!("D, {command} gives {status:02X}"));
        }
        for what in [
            "of the directory",
            "of the directory, no match",
            "with W and a bad name",
            "with neither bit",
            "of a locked file",
            "on a block that has a file open",
            "on a block that has the directory open",
            "answered 8",
            "answered 8, on another drive",
        ] {
            add(format!("D, {command} {what}"));
        }
    }
    for status in [0x01, 0xA7, 0xAA] {
        add(format!("D, GET STATUS of an open file gives {status:02X}"));
    }
    for what in ["a file", "the directory", "neither"] {
        add(format!("D, GET on a block that has {what} open"));
        add(format!("D, PUT on a block that has {what} open"));
        add(format!("D, CLOSE of {what}"));
    }
    for what in [
        "fresh start with an open block",
        "fresh start, disk held",
        "a dump with an open block",
        "a key taken, disk held",
        "all blocks of a port",
        "both ports",
        "all drives at once",
        "two blocks in one file",
        "the specification overwritten, the directory read on",
    ] {
        add(format!("D, {what}"));
    }
    for digit in ["none", "1", "2", "3", "4", "5", "8", "0", "9"] {
        add(format!("D, digit {digit}"));
    }
    for what in [
        "of 8",
        "past 8",
        "* past 8",
        "a byte behind *",
        "of 3 behind the dot",
        "past 3",
        "* past 3",
        "empty",
        "a dot alone",
        "without a dot",
        "with an empty extension",
        "with an empty primary",
        "ended by a blank",
        "ended by an EOL",
        "ended by the area's last byte",
        "? for a blank",
        "? past the name's end",
        "* for a name's rest",
        "* for no more",
        "bad, its first byte",
        "bad behind the eighth",
        "bad behind the third",
        "bad behind *",
        "bad, a second dot",
        "bad, the area's last byte",
    ] {
        add(format!("D, name, {what}"));
    }
    for what in ["letter", "digit", "colon", "name", "eighth", "dot", "third"] {
        add(format!("D, the area ends behind the {what}"));
    }
    add("D, the area ends behind a bad digit".to_string());
    for what in [
        "match in entry 0",
        "match in entry 63",
        "none in 64 entries",
        "none before the end",
        "a match behind the end",
        "a deleted match",
        "a deleted match before another",
        "an entry neither in use nor deleted that matches",
        "a second match",
    ] {
        add(format!("D, directory, {what}"));
    }
    for what in [
        "first character",
        "first character, locked",
        "EOL",
        "EOL of entry 63",
        "count from 1,000 on",
        "count below 10",
        "a deleted entry passed over",
        "an entry of another name passed over",
        "the free record, no match before it",
        "the free record behind the last match",
        "the free record behind entry 63",
        "the free record's EOL",
        "the free count from 1,000 on",
        "the free count not that of the map",
        "88 behind it",
        "an entry that is not in use any more",
        "an entry of another name now",
        "a record cut",
        "a record that just fits",
        "all and no more",
        "a byte that no name has",
    ] {
        add(format!("D, listing, {what}"));
    }
    all
}

/// What comes behind a character of a file.
const BEHIND_FILE: [&str; 5] =
    ["the end", "empty sectors and the end", "a bad sector", "empty sectors and a bad one", "a character"];

/// The names of the boundaries of D's files.
fn file_boundaries() -> Vec<String> {
    let mut all = Vec::new();
    for way in WAYS {
        all.extend(BEHIND_FILE.map(|behind| format!("D, {way}, then {behind}")));
    }
    let mut add = |name: String| all.push(name);
    for what in ["first", "link"] {
        for sector in ["0", "719", "720", "above 720", "reserved"] {
            add(format!("D, {what} {sector}"));
        }
    }
    add("D, first above 1,023, its low bits those of a sector of the file".to_string());
    for count in [1, 2, 124, 125] {
        add(format!("D, the last character of {count} in a sector"));
    }
    for count in [126, 127, 128, 255] {
        add(format!("D, A4, count {count}"));
    }
    for what in [
        "A4, file number",
        "A4, file number, all other bits",
        "A4, a 720th sector",
        "A4, a 720th sector, all empty",
        "A4, above 719",
        "A4 at the first sector",
        "A4 in the middle of a sector",
        "A4, and A4 again",
        "A4, then read on",
        "A4 while a record is dropped",
        "88 at the first sector",
        "88 behind empty sectors",
        "88 in the 719th sector",
        "88, and 88 again",
        "88, then read on",
        "88 while a record is dropped",
        "file number 63",
        "a character in the 718th sector",
        "a character in the 719th sector",
        "the last of all",
        "a character over a link",
        "a character over empty sectors",
        "a character over a link to the same sector",
        "a character over a link back",
        "count fallen to the place",
        "count fallen below the place",
        "count grown behind the last",
        "link changed behind the last",
        "the last character, all of the request",
        "the last character at the area's end",
        "the last character of the free record",
        "a character behind the last, in one request",
        "a character behind the last, in the next request",
        "W into a sector that is read",
        "W into an open file's entry",
        "W into a directory that is listed",
    ] {
        add(format!("D, {what}"));
    }
    all
}

/// The names of the boundaries of the doctor in a conversation: what it is asked beside, and who sees it. What the images have for
/// it, `tests/doctor.rs` counts.
fn doctor_boundaries() -> Vec<String> {
    let mut all: Vec<String> = (0..DRIVES).map(|image| format!("R on image {image}")).collect();
    for what in [
        "on image 4",
        "on image 255",
        "while a buffer is lent cut",
        "while the images are lent cut",
        "while a read of the image runs",
        "while a read of another image runs",
        "cuts the chain behind a sector that is read",
        "deletes a file that is open",
        "changes a directory that is listed",
        "leaves what is open on the image",
        "has cut where a read ends",
    ] {
        all.push(format!("R {what}"));
    }
    all
}

/// What a record of the tape is, in the words of the boundaries.
fn what_is(tape: &[u8], record: usize) -> &'static str {
    let Some(bytes) = tape.chunks(RECORD).nth(record) else { return "nothing" };
    match characters(bytes) {
        Ok(_) => "a record",
        Err(END_OF_FILE) if bytes[DATA_AT..CHECKSUM_AT] == [0; DATA] => "an end record",
        Err(END_OF_FILE) => "an end record with data",
        Err(_) => "a bad record",
    }
}

/// Whether a read there would give $88.
fn is_end(what: &str) -> bool {
    what.starts_with("an end") || what == "nothing"
}

/// A script played on the model, tick by tick, and the boundaries that it came to.
struct Watch<'a> {
    player: Player,
    reached: &'a mut BTreeMap<String, u64>,
    /// For each port's PUT RECORD on E whether it is plain characters on a blank row so far, and that row.
    plain: [Option<usize>; 2],
    /// The port that got $8F from the tape last, if nothing was read since, and the record.
    bad: Option<(usize, usize)>,
    /// The record behind the character that C gave last, if it was the last character, and whether its request goes on.
    warned: Option<(usize, bool)>,
    /// By port and block of D: where its specification stood, and its bytes.
    specified: BTreeMap<(usize, u8), (usize, Vec<u8>)>,
    /// By port and block of D, since its last read: the status that refused it, and its place; or the last character.
    refused: BTreeMap<(usize, u8), (u8, Place)>,
    last_read: BTreeMap<(usize, u8), (Place, bool)>,
    /// By drive: the sectors whose link the doctor was the last to change.
    cut: BTreeSet<(usize, usize)>,
}

/// The name of a command that opens a closed block.
fn command_name(command: u8) -> &'static str {
    match command {
        OPEN => "OPEN",
        GET_STATUS => "GET STATUS",
        _ => "SPECIAL",
    }
}

impl Watch<'_> {
    fn note(&mut self, name: String) {
        *self.reached.entry(name).or_default() += 1;
    }

    fn play(&mut self, op: &Op) -> bool {
        self.beside(op);
        let Cassette { mark, record, .. } = self.player.stick.cassette;
        let held = self.player.stick.holds(0, Group::Tape) || self.player.stick.holds(1, Group::Tape);
        match *op {
            Op::Write { .. } if held && mark == Mark::Reading => {
                let ended = is_end(what_is(&self.player.stick.tape, record + 1));
                self.player.play(op, &mut Vec::new());
                match (ended, is_end(what_is(&self.player.stick.tape, record + 1))) {
                    (false, true) => self.note("W of an end behind the record that is read".to_string()),
                    (true, false) => self.note("W over the end behind the record that is read".to_string()),
                    _ => {}
                }
                true
            }
            Op::Write { buffer: 6, .. } => {
                self.written_to_images(op);
                true
            }
            Op::Doctor { image } => {
                self.asked_doctor(usize::from(image));
                true
            }
            Op::Dump | Op::DumpTape => true,
            Op::Tick { port } => {
                self.tick(port);
                true
            }
            Op::Ticks { port, count } => {
                for _ in 0..count {
                    let done = self.tick(port) == DONE;
                    if !done || !matches!(self.player.stick.ports[usize::from(port)].phase, Phase::Running(_)) {
                        break;
                    }
                }
                true
            }
            ref op => self.player.play(op, &mut Vec::new()),
        }
    }

    /// What an op that is no tick comes to.
    fn beside(&mut self, op: &Op) {
        let stick = &self.player.stick;
        let Cassette { mark, record, place, .. } = stick.cassette;
        let whole = stick.lent == WHOLE;
        let held = stick.holds(0, Group::Tape) || stick.holds(1, Group::Tape);
        let console = stick.holds(0, Group::Console) || stick.holds(1, Group::Console);
        let cut: Vec<usize> = (0..WHOLE.len()).filter(|&place| stick.lent[place] != WHOLE[place]).collect();
        if cut == [4] || cut == [5] {
            let call = match op {
                Op::Fresh => "fresh",
                Op::Take { .. } => "take",
                Op::Tick { .. } => "tick",
                Op::Give { .. } => "give",
                Op::Press { .. } => "press",
                _ => "no call",
            };
            self.note(format!("{} lent cut, {call}", if cut == [4] { "tape" } else { "images" }));
        }
        let stick = &self.player.stick;
        let disk_open = stick.ports.iter().any(|port| port.places.iter().any(Option::is_some));
        let disk_held = stick.holds(0, Group::Disk) || stick.holds(1, Group::Disk);
        for (_, what) in [
            (matches!(op, Op::Fresh) && whole && disk_open, "fresh start with an open block"),
            (matches!(op, Op::Fresh) && whole && disk_held, "fresh start, disk held"),
            (matches!(op, Op::Dump) && disk_open, "a dump with an open block"),
            (matches!(op, Op::Press { .. }) && whole && disk_held && !console, "a key taken, disk held"),
        ]
        .iter()
        .filter(|(met, _)| *met)
        {
            self.note(format!("D, {what}"));
        }
        match op {
            Op::Fresh if whole => {
                self.note(format!("C, fresh start, {mark:?}"));
                if held {
                    self.note("C, fresh start, tape held".to_string());
                }
            }
            Op::Press { .. } if whole && held && !console => self.note("C, a key taken, tape held".to_string()),
            Op::DumpTape => self.note(format!("tape dumped, {mark:?}")),
            Op::Dump if mark != Mark::Closed => self.note("C, a dump with an open block".to_string()),
            Op::Write { buffer, at, bytes } => {
                let (at, end) = (*at as usize, *at as usize + bytes.len());
                match WRITTEN.iter().find(|(number, _)| number == buffer) {
                    Some((_, length)) if at >= *length => self.note(format!("W into buffer {buffer} behind its end")),
                    Some((_, length)) if end > *length => self.note(format!("W into buffer {buffer} over its end")),
                    Some((_, length)) if end == *length => self.note(format!("W into buffer {buffer} up to its end")),
                    Some(_) => {}
                    None if *buffer == 3 => self.note("W into the rooms".to_string()),
                    None => self.note("W into no buffer".to_string()),
                }
                if bytes.is_empty() {
                    self.note("W of no bytes".to_string());
                }
                if !whole {
                    self.note("W while a buffer is lent cut".to_string());
                }
                let from = RECORD * record;
                if *buffer == 4 && mark == Mark::Reading && place > 0 && at < from + RECORD && end > from {
                    self.note("W into a record that is read".to_string());
                }
            }
            _ => {}
        }
    }

    fn tick(&mut self, port: u8) -> u8 {
        let stick = &self.player.stick;
        let place = usize::from(port).min(1);
        let (device, other) = (stick.device(place), 1 - place);
        let groups = [Group::Console, Group::Printer, Group::Tape, Group::Disk];
        let held = groups.into_iter().find(|group| stick.holds(other, *group));
        let (cassette, blocks, places) = (stick.cassette.clone(), stick.ports[place].blocks, stick.ports[place].places);
        let letter = stick.letter(place);
        let held_drive = match &stick.ports[other].phase {
            Phase::Running(run) if run.file.device == Device::D => Some(run.file.number),
            _ => None,
        };
        let before = match &stick.ports[place].phase {
            ready @ Phase::Ready(_) => Some(ready.clone()),
            running @ Phase::Running(_) => Some(running.clone()),
            _ => None,
        };
        let (console, used) = (stick.console.clone(), stick.used);
        let mut answer = Vec::new();
        self.player.play(&Op::Tick { port }, &mut answer);
        if answer[0] == DONE {
            match before {
                Some(Phase::Ready(message)) => {
                    self.started(place, &message);
                    if let (Some(device), Some(held)) = (device, held) {
                        self.note(format!("{:?} starts, {held:?} held", device.group()));
                    }
                    if device == Some(Device::C) {
                        self.started_on_tape(place, &message[3..], &cassette, &blocks);
                    }
                    if letter == Some(b'D') {
                        self.started_on_disk(place, &message[3..], &blocks, &places);
                    }
                }
                Some(Phase::Running(run)) if run.file.device == Device::C => {
                    self.moved(place, &run, &console, used);
                    self.moved_on_tape(place, &run, &cassette);
                    if cassette.mark == Mark::Reading {
                        self.read_on_tape(place, &run, &cassette);
                    }
                }
                Some(Phase::Running(run)) if run.file.device == Device::D => {
                    self.moved(place, &run, &console, used);
                    let before = places[usize::from(run.call.iocb)].expect("an open block of D");
                    match before {
                        Place::File { .. } => self.read_file(place, &run, before),
                        Place::Directory { .. } => self.read_listing(place, &run, before),
                    }
                }
                Some(Phase::Running(run)) => self.moved(place, &run, &console, used),
                _ => unreachable!("a tick that does something"),
            }
        } else if let (GROUP_HELD, Some(device), Some(Phase::Ready(message))) = (answer[0], device, before) {
            let (value, name) = (&message[3..], command_name(message[4]));
            if matches!(device, Device::C | Device::D) {
                self.note(format!("{device:?}, {name} answered 8"));
            }
            let block = blocks[usize::from(value[0])];
            let number = block.map_or_else(|| self.specified_number(place, value), |file| file.number);
            if held_drive.is_some_and(|held| held != number) {
                self.note(format!("D, {name} answered 8, on another drive"));
            }
        }
        answer[0]
    }

    /// The start tick of a CALL about C; cassette and the port's blocks as they were before.
    fn started_on_tape(&mut self, port: usize, value: &[u8], before: &Cassette, blocks: &[Option<File>; 8]) {
        let Some(block) = blocks.get(usize::from(value[0])) else { return };
        let (command, name) = (value[1], command_name(value[1]));
        let Cassette { mark, record, ref pending, .. } = *before;
        match (command, block) {
            (CLOSE, _) => {
                self.note(format!("C, CLOSE, {mark:?}"));
                if mark == Mark::Writing {
                    self.note(format!("C, CLOSE with {} pending", pending.len()));
                    let names = [
                        (record == 0 && pending.is_empty(), "nothing put"),
                        (record == 248 && !pending.is_empty(), "pending at record 248"),
                        (record == 249, "249 full records"),
                    ];
                    for (_, what) in names.iter().filter(|(met, _)| *met) {
                        self.note(format!("C, CLOSE with {what}"));
                    }
                }
            }
            (GET_RECORD | GET_CHARACTERS, _) => self.note(format!("C, GET on a block open, {mark:?}")),
            (PUT_RECORD | PUT_CHARACTERS, _) => self.note(format!("C, PUT on a block open, {mark:?}")),
            (_, Some(_)) => self.note(format!("C, {name} on a block that is open")),
            (_, None) => {
                let way = match value[6] & (R | W) {
                    R => "R",
                    W => "W",
                    0 => "neither",
                    _ => "both",
                };
                let own = blocks.iter().flatten().any(|file| file.device == Device::C);
                let tape = match mark {
                    Mark::Closed => "closed",
                    _ if own => "open on the own port",
                    _ => "open on the other port",
                };
                let status = self.status(port);
                let expected = match (way, tape, command) {
                    ("both", ..) => BAD_COMMAND,
                    (_, "closed", OPEN | GET_STATUS) => SUCCESS,
                    (_, "closed", _) => BAD_COMMAND,
                    _ => ALREADY_OPEN,
                };
                assert_eq!(status, Some(expected));
                self.note(format!("C, {name} with {way}, tape {tape}"));
            }
        }
    }

    /// The specification's number where it is that of D and good.
    fn specified_number(&self, port: usize, value: &[u8]) -> u8 {
        let address = usize::from(value[2]) + 256 * usize::from(value[3]);
        match self.player.stick.area[port * AREA + address + 1] {
            b':' => 1,
            digit => digit - b'0',
        }
    }

    /// The start tick of a CALL about D, by its letter; the port's blocks and places as they were before.
    fn started_on_disk(&mut self, port: usize, value: &[u8], blocks: &[Option<File>; 8], places: &[Option<Place>; 8]) {
        let (iocb, command, name) = (value[0], value[1], command_name(value[1]));
        let (Some(block), Some(status)) = (blocks[usize::from(iocb)], self.status(port).or(Some(0))) else {
            return self.opened_on_disk(port, value);
        };
        let what = match places[usize::from(iocb)] {
            _ if block.aux1 & R == 0 => "neither",
            Some(Place::File { .. }) => "a file",
            _ => "the directory",
        };
        match command {
            CLOSE => self.note(format!("D, CLOSE of {what}")),
            GET_RECORD | GET_CHARACTERS => self.note(format!("D, GET on a block that has {what} open")),
            PUT_RECORD | PUT_CHARACTERS => self.note(format!("D, PUT on a block that has {what} open")),
            _ => {
                let what = if what == "neither" { "a file" } else { what };
                self.note(format!("D, {name} on a block that has {what} open"));
                if command == GET_STATUS && what == "a file" {
                    self.note(format!("D, GET STATUS of an open file gives {status:02X}"));
                }
            }
        }
    }

    /// The same on a closed block: its specification is looked at.
    fn opened_on_disk(&mut self, port: usize, value: &[u8]) {
        let (iocb, command, aux1, name) = (value[0], value[1], value[6], command_name(value[1]));
        let address = usize::from(value[2]) + 256 * usize::from(value[3]);
        let status = self.status(port).expect("it ends in its start tick");
        self.note(format!("D, {name} gives {status:02X}"));
        let specification = self.player.stick.area[port * AREA + address..(port + 1) * AREA].to_vec();
        let digits = match specification.get(1) {
            None => return self.note("D, the area ends behind the letter".to_string()),
            Some(b':') => 0,
            Some(_) => 1,
        };
        if digits == 1 {
            let digit = specification[1];
            self.note(format!("D, digit {}", digit as char));
            match (specification.get(2), (b'1'..=b'4').contains(&digit)) {
                (None, true) => self.note("D, the area ends behind the digit".to_string()),
                (None, false) => self.note("D, the area ends behind a bad digit".to_string()),
                _ => {}
            }
        } else {
            self.note("D, digit none".to_string());
        }
        if status == NO_DEVICE || specification.len() < 2 + digits {
            return;
        }
        // From here on the name.
        let text = &specification[2 + digits..];
        let bad = |byte: &u8| !matches!(*byte, b'A'..=b'Z' | b'0'..=b'9' | b'*' | b'?' | b'.' | EOL | b' ');
        let dot = text.iter().position(|byte| *byte == b'.').unwrap_or(text.len());
        let second = text.iter().skip(dot + 1).position(|byte| *byte == b'.').map(|place| dot + 1 + place);
        let stop = text.iter().position(|byte| bad(byte) || matches!(*byte, EOL | b' ')).unwrap_or(text.len());
        let stop = second.map_or(stop, |second| second.min(stop));
        let (primary, extension) = (&text[..dot.min(stop)], text.get(dot + 1..stop).unwrap_or(b""));
        let stars = |field: &[u8]| field.iter().position(|byte| *byte == b'*');
        let mut names: Vec<(bool, &str)> = Vec::new();
        match text.get(stop).copied() {
            None => {
                assert_eq!(status, PAST_AREA);
                let place = match (primary.len(), extension.len(), dot < stop) {
                    (0, _, false) => "colon",
                    (8, _, false) => "eighth",
                    (_, 0, true) => "dot",
                    (_, 3, true) => "third",
                    _ => "name",
                };
                return self.note(format!("D, the area ends behind the {place}"));
            }
            Some(EOL | b' ') => {
                names.extend([
                    (text[stop] == EOL, "ended by an EOL"),
                    (text[stop] == b' ', "ended by a blank"),
                    (stop + 1 == text.len(), "ended by the area's last byte"),
                    (stop == 0, "empty"),
                    (&text[..stop] == b".", "a dot alone"),
                ]);
            }
            Some(byte) => {
                assert!(status == BAD_NAME || aux1 & W != 0 && status == BAD_COMMAND);
                names.extend([
                    (stop == 0, "bad, its first byte"),
                    (primary.len() >= 8 && dot >= stop, "bad behind the eighth"),
                    (extension.len() >= 3, "bad behind the third"),
                    (stars(primary).is_some() && dot >= stop || stars(extension).is_some(), "bad behind *"),
                    (byte == b'.', "bad, a second dot"),
                    (stop + 1 == text.len(), "bad, the area's last byte"),
                ]);
                if aux1 & W != 0 {
                    self.note(format!("D, {name} with W and a bad name"));
                }
            }
        }
        let pattern = pattern(&text[..stop]).filter(|_| matches!(text[stop], EOL | b' '));
        let drive = if digits == 0 { 0 } else { usize::from(specification[1] - b'1') };
        let stick = &self.player.stick;
        let matching = |entry: usize| matches(&pattern.unwrap_or_default(), &stick.entry(drive, entry)[NAME_AT..]);
        let found = pattern.and_then(|pattern| stick.find(drive, &pattern, 0));
        if let Some(entry) = found {
            let bytes = &stick.entry(drive, entry)[NAME_AT..];
            let blank = |place: usize| bytes.get(place) == Some(&b' ');
            names.extend([
                (primary.len() == 8 && stars(primary).is_none(), "of 8"),
                (primary.len() > 8 && stars(primary).is_none(), "past 8"),
                (stars(primary).is_some_and(|star| star >= 8), "* past 8"),
                (stars(primary).is_some_and(|star| star + 1 < primary.len()), "a byte behind *"),
                (extension.len() == 3 && stars(extension).is_none(), "of 3 behind the dot"),
                (extension.len() > 3 && stars(extension).is_none(), "past 3"),
                (stars(extension).is_some_and(|star| star >= 3), "* past 3"),
                (dot >= stop, "without a dot"),
                (dot < stop && extension.is_empty(), "with an empty extension"),
                (dot < stop && primary.is_empty(), "with an empty primary"),
                (
                    primary.iter().enumerate().any(|(place, byte)| *byte == b'?' && place < 8 && blank(place)),
                    "? for a blank",
                ),
                (primary.len() < 8 && primary.ends_with(b"?") && blank(primary.len() - 1), "? past the name's end"),
                (stars(primary).is_some_and(|star| star < 8 && !blank(star)), "* for a name's rest"),
                (stars(primary).is_some_and(|star| star < 8 && blank(star)), "* for no more"),
            ]);
        }
        let ended = (0..ENTRIES).find(|&entry| stick.entry(drive, entry)[0] == 0);
        let end = ended.unwrap_or(ENTRIES);
        let gone = |entry: usize| stick.entry(drive, entry)[0] & DELETED != 0 && matching(entry);
        let of_entries = [
            (found == Some(0), "match in entry 0"),
            (found == Some(63), "match in entry 63"),
            (found.is_none() && ended.is_none(), "none in 64 entries"),
            (found.is_none() && ended.is_some(), "none before the end"),
            (
                found.is_none()
                    && (end..ENTRIES).any(|entry| is_in_use(stick.entry(drive, entry)[0]) && matching(entry)),
                "a match behind the end",
            ),
            (found.is_none() && (0..end).any(gone), "a deleted match"),
            (found.is_some_and(|found| (0..found).any(gone)), "a deleted match before another"),
            (
                (0..found.unwrap_or(end)).any(|entry| stick.entry(drive, entry)[0] & 0xC0 == 0 && matching(entry)),
                "an entry neither in use nor deleted that matches",
            ),
            (
                found.is_some_and(|found| stick.find(drive, &pattern.expect("good"), found + 1).is_some()),
                "a second match",
            ),
        ];
        let directory = aux1 == DIRECTORY;
        let locked = found.is_some_and(|found| stick.entry(drive, found)[0] & LOCKED != 0);
        let of_command = [
            (directory && found.is_some(), "of the directory"),
            (directory && found.is_none() && pattern.is_some(), "of the directory, no match"),
            (!directory && aux1 & W == 0 && locked, "of a locked file"),
            (aux1 & (R | W) == 0 && found.is_some(), "with neither bit"),
        ];
        let opens = aux1 & W == 0 && !directory && pattern.is_some();
        let first = found.map(|found| {
            let bytes = &stick.entry(drive, found)[FIRST_SECTOR_AT..];
            usize::from(bytes[0]) + 256 * usize::from(bytes[1])
        });
        let of_stick = if (command, status) == (OPEN, SUCCESS) {
            let all: Vec<(usize, File, Place)> = (0..2)
                .flat_map(|port| (0..8).map(move |iocb| (port, iocb)))
                .filter_map(|(port, iocb)| {
                    Some((port, stick.ports[port].blocks[iocb]?, stick.ports[port].places[iocb]?))
                })
                .collect();
            let mut files: Vec<(u8, usize)> = all
                .iter()
                .filter_map(|(_, file, place)| match place {
                    Place::File { entry, .. } => Some((file.number, *entry)),
                    _ => None,
                })
                .collect();
            let opened = files.len();
            files.sort();
            files.dedup();
            let drives = (1..=4).filter(|number| all.iter().any(|(_, file, _)| file.number == *number)).count();
            vec![
                (all.iter().filter(|(of, ..)| *of == port).count() == 8, "all blocks of a port"),
                ((0..2).all(|port| all.iter().any(|(of, ..)| *of == port)), "both ports"),
                (drives == 4, "all drives at once"),
                (files.len() < opened, "two blocks in one file"),
            ]
        } else {
            Vec::new()
        };
        for (_, what) in of_stick.into_iter().filter(|(met, _)| *met) {
            self.note(format!("D, {what}"));
        }
        for (_, what) in names.into_iter().filter(|(met, _)| *met) {
            self.note(format!("D, name, {what}"));
        }
        for (_, what) in of_entries.into_iter().filter(|(met, _)| *met && opens) {
            self.note(format!("D, directory, {what}"));
        }
        for (_, what) in of_command.into_iter().filter(|(met, _)| *met) {
            self.note(format!("D, {name} {what}"));
        }
        if (command, status) == (OPEN, SUCCESS) {
            let whole = specification[..2 + digits + stop + 1].to_vec();
            self.specified.insert((port, iocb), (port * AREA + address, whole));
            self.refused.remove(&(port, iocb));
            self.last_read.remove(&(port, iocb));
            if let (Some(first), true) = (first, opens) {
                self.note_sector("first", first);
                let (low, stick) = (first % 1_024, &self.player.stick);
                let own = |low: usize| usize::from(stick.sector(drive, low)[LINK_AT] >> 2) == found.expect("found");
                if first > 1_023 && (1..=719).contains(&low) && own(low) {
                    self.note("D, first above 1,023, its low bits those of a sector of the file".to_string());
                }
            }
        }
    }

    fn note_sector(&mut self, what: &str, sector: usize) {
        let name = match sector {
            0 => "0",
            719 => "719",
            720 => "720",
            721.. => "above 720",
            _ if is_reserved(sector) => "reserved",
            _ => return,
        };
        self.note(format!("D, {what} {name}"));
    }

    /// Bytes written into the images, seen by blocks that have them open.
    fn written_to_images(&mut self, op: &Op) {
        let Op::Write { at, bytes, .. } = op else { unreachable!("bytes are written") };
        let (from, to) = (*at as usize, *at as usize + bytes.len());
        let within = |start: usize, length: usize| from < start + length && to > start;
        let mut names = Vec::new();
        for port in &self.player.stick.ports {
            for (file, place) in port.blocks.iter().zip(&port.places) {
                let Some((drive, place)) = file.map(File::drive).zip(*place) else { continue };
                match place {
                    Place::File { entry, sector, place, .. } => names.extend([
                        (
                            (1..=719).contains(&sector) && place > 0 && within(sector_at(drive, sector), SECTOR),
                            "W into a sector that is read",
                        ),
                        (within(sector_at(drive, 361) + ENTRY * entry, 1), "W into an open file's entry"),
                    ]),
                    Place::Directory { .. } => {
                        names.push((within(sector_at(drive, 361), 1_024), "W into a directory that is listed"));
                    }
                }
            }
        }
        for (_, what) in names.into_iter().filter(|(met, _)| *met) {
            self.note(format!("D, {what}"));
        }
        self.cut.retain(|(drive, sector)| !within(sector_at(*drive, *sector) + LINK_AT, 2));
        self.player.play(op, &mut Vec::new());
    }

    /// The doctor: what it is asked beside, and what of the open blocks' files it changes.
    fn asked_doctor(&mut self, drive: usize) {
        let before = self.player.stick.clone();
        self.player.play(&Op::Doctor { image: drive as u8 }, &mut Vec::new());
        self.note(format!("R on image {drive}"));
        let mut names = vec![
            (before.lent != WHOLE, "while a buffer is lent cut"),
            (before.lent[5] != WHOLE[5], "while the images are lent cut"),
        ];
        let changed: BTreeSet<usize> =
            (0..IMAGES).filter(|&at| before.images[at] != self.player.stick.images[at]).collect();
        let within = |start: usize, length: usize| changed.range(start..start + length).next().is_some();
        for port in &before.ports {
            if let Phase::Running(run) = &port.phase {
                let disk = run.file.device == Device::D;
                names.push((disk && run.file.drive() == drive, "while a read of the image runs"));
                names.push((disk && run.file.drive() != drive, "while a read of another image runs"));
            }
            for (file, place) in port.blocks.iter().zip(&port.places) {
                let Some(place) = place.filter(|_| file.is_some_and(|file| file.drive() == drive)) else { continue };
                names.push((changed.is_empty(), "leaves what is open on the image"));
                match place {
                    Place::File { entry, sector, place, .. } => names.extend([
                        (
                            (1..=719).contains(&sector) && place > 0 && within(sector_at(drive, sector) + LINK_AT, 2),
                            "cuts the chain behind a sector that is read",
                        ),
                        (within(sector_at(drive, 361) + ENTRY * entry, 1), "deletes a file that is open"),
                    ]),
                    Place::Directory { .. } => {
                        names.push((within(sector_at(drive, 360), 9 * SECTOR), "changes a directory that is listed"));
                    }
                }
            }
        }
        if drive < DRIVES {
            let cut = (1..=719).filter(|&sector| within(sector_at(drive, sector) + LINK_AT, 2));
            self.cut.extend(cut.map(|sector| (drive, sector)));
        }
        for (_, what) in names.into_iter().filter(|(met, _)| *met) {
            self.note(format!("R {what}"));
        }
    }

    /// A read of a file; its place as it was before. The chain is walked anew, sector by sector.
    fn read_file(&mut self, port: usize, run: &Run, before: Place) {
        let Place::File { entry, sector, place, begun } = before else { unreachable!("a file") };
        let (drive, iocb, n) = (run.file.drive(), run.call.iocb, run.call.length);
        let after = self.player.stick.ports[port].places[usize::from(iocb)].expect("open");
        let status = self.status(port);
        let dropped = n > 0 && run.count == n;
        let (refused, key) = (after == before, (port, iocb));
        let link = |bytes: &[u8]| 256 * usize::from(bytes[125] & 3) + usize::from(bytes[126]);
        // The sectors from the place on, up to the one that has the character or refuses it.
        let mut walked = vec![sector];
        let (mut at, mut steps) = (sector, 0);
        let bytes_of = |stick: &Stick, sector: usize| stick.sector(drive, sector).to_vec();
        let why = loop {
            if at == 0 {
                break "88";
            } else if at > 719 {
                break "A4, above 719";
            } else if begun + steps > 719 {
                break "A4, a 720th sector";
            }
            let bytes = bytes_of(&self.player.stick, at);
            if usize::from(bytes[125] >> 2) != entry {
                break "A4, file number";
            } else if bytes[127] > 125 {
                break "A4, count";
            } else if (if steps == 0 { place } else { 0 }) < usize::from(bytes[127]) {
                break "";
            }
            at = link(&bytes);
            walked.push(at);
            steps += 1;
        };
        assert_eq!(refused, !why.is_empty());
        if let ("88", [.., last, 0]) = (why, &walked[..]) {
            if self.cut.contains(&(drive, *last)) {
                self.note("R has cut where a read ends".to_string());
            }
        }
        for (_, next) in walked.windows(2).map(|pair| (pair[0], pair[1])) {
            self.note_sector("link", next);
        }
        // What was before this read.
        if let Some((status_then, then)) = self.refused.remove(&key) {
            let again = refused && status == Some(status_then) && then == before;
            let name = if again {
                format!("{status_then:02X}, and {status_then:02X} again")
            } else {
                format!("{status_then:02X}, then read on")
            };
            if again || !refused {
                self.note(format!("D, {name}"));
            }
        }
        if let Some((then, goes_on)) = self.last_read.remove(&key) {
            if then == before && !refused {
                let request = if goes_on { "one request" } else { "the next request" };
                self.note(format!("D, a character behind the last, in {request}"));
                let same = after == Place::File { entry, sector, place: place + 1, begun };
                self.note(format!("D, {} behind the last", if same { "count grown" } else { "link changed" }));
            }
        }
        if refused {
            let status = status.expect("a refusal ends it");
            assert_eq!(status, if why == "88" { END_OF_FILE } else { BAD_CHAIN });
            self.refused.insert(key, (status, before));
            let bytes = if (1..=719).contains(&at) { bytes_of(&self.player.stick, at) } else { vec![0; SECTOR] };
            let numbers = usize::from(bytes[125] >> 2) ^ entry;
            let names = [
                (
                    why.starts_with("A4, above") || why == "A4, a 720th sector" || why == "A4, file number",
                    why.to_string(),
                ),
                (why == "A4, count", format!("A4, count {}", bytes[127])),
                (why == "A4, file number" && numbers & 0x3E != 0, "A4, file number, all other bits".to_string()),
                (why == "A4, a 720th sector" && begun == 1, "A4, a 720th sector, all empty".to_string()),
                (begun == 1 && steps == 0 && place == 0, format!("{status:02X} at the first sector")),
                (status == BAD_CHAIN && steps == 0 && place > 0, "A4 in the middle of a sector".to_string()),
                (dropped, format!("{status:02X} while a record is dropped")),
                (status == END_OF_FILE && steps > 1, "88 behind empty sectors".to_string()),
                (status == END_OF_FILE && begun + steps == 720, "88 in the 719th sector".to_string()),
            ];
            for (_, what) in names.into_iter().filter(|(met, _)| *met) {
                self.note(format!("D, {what}"));
            }
            return;
        }
        let bytes = bytes_of(&self.player.stick, at);
        let count = usize::from(bytes[127]);
        let Place::File { place: behind_place, begun: begun_now, .. } = after else { unreachable!("a file") };
        // What comes behind it.
        let next = self.player.stick.next_on_disk(drive, after);
        let empty = {
            let next = if behind_place < count { 0 } else { link(&bytes) };
            (1..=719).contains(&next) && bytes_of(&self.player.stick, next)[127] == 0 && begun_now < 719
        };
        let behind = match next {
            Ok(_) => "a character",
            Err(END_OF_FILE) if empty => "empty sectors and the end",
            Err(END_OF_FILE) => "the end",
            Err(_) if empty => "empty sectors and a bad one",
            Err(_) => "a bad sector",
        };
        let last = behind.ends_with("the end");
        let way = self.way(run, status);
        let expected = match last {
            _ if dropped => RECORD_CUT,
            true => LAST_CHARACTER,
            false => SUCCESS,
        };
        assert!(status.is_none_or(|status| status == expected), "{way}, then {behind}: {status:02X?}");
        let old = if (1..=719).contains(&sector) { bytes_of(&self.player.stick, sector)[127] } else { 0 };
        let names = [
            (true, format!("{way}, then {behind}")),
            (behind_place == count, format!("the last character of {count} in a sector")),
            (entry == 63, "file number 63".to_string()),
            (begun_now == 718, "a character in the 718th sector".to_string()),
            (begun_now == 719, "a character in the 719th sector".to_string()),
            (begun_now == 719 && behind_place == 125, "the last of all".to_string()),
            (steps == 1, "a character over a link".to_string()),
            (steps > 1, "a character over empty sectors".to_string()),
            (steps == 1 && at == sector, "a character over a link to the same sector".to_string()),
            (steps == 1 && at < sector, "a character over a link back".to_string()),
            (steps > 0 && place > 1 && place == usize::from(old), "count fallen to the place".to_string()),
            (steps > 0 && place > usize::from(old), "count fallen below the place".to_string()),
            (last && n == 1 && !dropped, "the last character, all of the request".to_string()),
            (
                last && !dropped && n > 0 && run.call.address + run.count + 1 == AREA,
                "the last character at the area's end".to_string(),
            ),
        ];
        for (_, what) in names.into_iter().filter(|(met, _)| *met) {
            self.note(format!("D, {what}"));
        }
        if last {
            self.last_read.insert(key, (after, status.is_none()));
        }
    }

    /// A read of a directory; its place as it was before.
    fn read_listing(&mut self, port: usize, run: &Run, before: Place) {
        let Place::Directory { pattern, entry, place } = before else { unreachable!("a directory") };
        let (drive, iocb, n) = (run.file.drive(), run.call.iocb, run.call.length);
        let stick = &self.player.stick;
        let status = self.status(port);
        let (at, specification) = &self.specified[&(port, iocb)];
        let overwritten = stick.area[*at..*at + specification.len()] != specification[..];
        if entry == LISTING_END {
            assert_eq!(status, Some(END_OF_FILE));
            return self.note("D, listing, 88 behind it".to_string());
        }
        let dropped = n > 0 && run.count == n;
        let found = match place {
            0 if entry < 64 => stick.find(drive, &pattern, entry).unwrap_or(64),
            _ => entry,
        };
        let length = if found < 64 { 18 } else { 17 };
        let (first, eol) = (place == 0, place + 1 == length);
        let passed = |what: fn(u8) -> bool| {
            first
                && (entry..found.min(63))
                    .any(|entry| stick.entry(drive, entry)[0] != 0 && what(stick.entry(drive, entry)[0]))
        };
        let word = |bytes: &[u8]| usize::from(bytes[0]) + 256 * usize::from(bytes[1]);
        let mut names = vec![
            (passed(|flag| flag & DELETED != 0), "a deleted entry passed over"),
            (passed(is_in_use), "an entry of another name passed over"),
            (eol && status == Some(SUCCESS) && n == length && run.count + 1 == n, "a record that just fits"),
            (eol && dropped && n > 0, "a record cut"),
        ];
        if found < 64 {
            let bytes = stick.entry(drive, found);
            let count = word(&bytes[1..]);
            let odd = |byte: &u8| !(byte.is_ascii_uppercase() || byte.is_ascii_digit() || *byte == b' ');
            names.extend([
                (first, "first character"),
                (first && bytes[0] & LOCKED != 0, "first character, locked"),
                (eol, "EOL"),
                (eol && found == 63, "EOL of entry 63"),
                (place == 14 && count >= 1_000, "count from 1,000 on"),
                (place == 14 && count < 10, "count below 10"),
                (!first && !is_in_use(bytes[0]), "an entry that is not in use any more"),
                (!first && !matches(&pattern, &bytes[NAME_AT..]), "an entry of another name now"),
                ((2..13).contains(&place) && odd(&bytes[NAME_AT + place - 2]), "a byte that no name has"),
            ]);
            assert!(status.is_none_or(|status| status == SUCCESS || dropped));
        } else {
            let bytes = stick.sector(drive, 360);
            let free = word(&bytes[3..]);
            let map: u32 = bytes[10..100].iter().map(|byte| byte.count_ones()).sum();
            names.extend([
                (first && entry == 0, "the free record, no match before it"),
                (first && (1..64).contains(&entry), "the free record behind the last match"),
                (first && entry == 64, "the free record behind entry 63"),
                (eol, "the free record's EOL"),
                (first && free >= 1_000, "the free count from 1,000 on"),
                (first && free != map as usize, "the free count not that of the map"),
                (eol && run.call.command == GET_CHARACTERS && status == Some(LAST_CHARACTER), "all and no more"),
            ]);
            let expected = match eol {
                _ if dropped => RECORD_CUT,
                true => LAST_CHARACTER,
                false => SUCCESS,
            };
            assert!(status.is_none_or(|status| status == expected), "{status:02X?}");
        }
        for (_, what) in names.into_iter().filter(|(met, _)| *met) {
            self.note(format!("D, listing, {what}"));
        }
        if found == 64 && eol && !dropped {
            self.note("D, the last character of the free record".to_string());
        }
        if overwritten && first {
            self.note("D, the specification overwritten, the directory read on".to_string());
        }
    }

    /// What a read that gave a character comes to.
    fn way(&self, run: &Run, status: Option<u8>) -> &'static str {
        let n = run.call.length;
        let dropped = n > 0 && run.count == n;
        match (run.call.command, n, status) {
            (GET_CHARACTERS, 0, _) => "GET CHARACTERS of 0",
            (_, 0, _) => "GET RECORD of 0",
            (GET_CHARACTERS, _, Some(_)) => "GET CHARACTERS up to n",
            (GET_CHARACTERS, _, None) => "GET CHARACTERS before n",
            (_, _, Some(_)) if dropped => "GET RECORD, a dropped EOL",
            (_, _, None) if dropped => "GET RECORD, dropped before an EOL",
            (_, _, Some(_)) if run.count + 1 < n => "GET RECORD, an EOL with room to spare",
            (_, _, Some(_)) => "GET RECORD, an EOL that just fits",
            (_, _, None) => "GET RECORD, before an EOL",
        }
    }

    /// A character of C moved, or was refused; the cassette as it was before.
    fn moved_on_tape(&mut self, port: usize, run: &Run, before: &Cassette) {
        let Cassette { mark, record, place, ref pending } = *before;
        let n = run.call.length;
        if mark == Mark::Writing {
            let way = match run.call.command {
                _ if n == 0 => "A",
                _ if run.count == n => "added EOL",
                PUT_RECORD => "record",
                _ => "characters",
            };
            self.note(format!("C, {way} at {} pending", pending.len()));
            if record == 249 {
                self.note(format!("C, {way} on a full tape"));
            } else if record == 248 && pending.len() == 127 {
                self.note(format!("C, {way} into the last place"));
            }
            return;
        }
        let dropped = n > 0 && run.count == n;
        if record == RECORDS {
            self.note("C, end, run out".to_string());
            return;
        }
        let bytes = self.player.stick.tape[RECORD * record..RECORD * (record + 1)].to_vec();
        let (control, count, sum) = (bytes[CONTROL_AT], bytes[COUNT_AT], bytes[CHECKSUM_AT]);
        let kind = if control == FULL { "full" } else { "partial" };
        let names = match characters(&bytes) {
            Ok(characters) => {
                let length = characters.len();
                let last = place + 1 == length;
                let refused = matches!(self.status(port), Some(END_OF_FILE | BAD_RECORD));
                vec![
                    (place == 0, format!("GET of the first character of a {kind} record")),
                    (last, format!("GET of the last character of a {kind} record")),
                    (last && record == 249, format!("GET of the last character of record 249, {kind}")),
                    (control == PARTIAL, format!("GET from a partial record of {count}")),
                    (bytes[..2] != [0x55; 2], "GET from a good record without $55".to_string()),
                    (sum == 255, "GET from a record of checksum FF".to_string()),
                    (place == length, "GET with the count fallen to the place".to_string()),
                    (place > length, "GET with the count fallen below the place".to_string()),
                    (place >= length && refused, "GET with the count fallen, the next record refused".to_string()),
                ]
            }
            Err(END_OF_FILE) => vec![
                (true, "end, an end record".to_string()),
                (bytes[DATA_AT..CHECKSUM_AT] != [0; DATA], "end, an end record with data".to_string()),
                (place > 0, "end, an end record in the middle".to_string()),
                (dropped, "end while a record is dropped".to_string()),
            ],
            Err(_) => {
                let right = checksum(&bytes[..CHECKSUM_AT]);
                let modulo_256 = bytes[..CHECKSUM_AT].iter().fold(0, |sum: u8, byte| sum.wrapping_add(*byte));
                let known = [FULL, PARTIAL, END].contains(&control);
                vec![
                    (sum != right && known, format!("bad, checksum, control {control:02X}")),
                    (sum == 0 && right == 255, "bad, checksum 0 for FF".to_string()),
                    (sum != right && sum == modulo_256, "bad, checksum modulo 256".to_string()),
                    (sum == right && !known, "bad, control byte".to_string()),
                    (sum == right && control == PARTIAL, format!("bad, count {count}")),
                    (place > 0, "bad, in the middle".to_string()),
                    (record == 249, "bad, record 249".to_string()),
                    (dropped, "bad while a record is dropped".to_string()),
                    (self.bad == Some((port, record)), "bad, and bad again".to_string()),
                ]
            }
        };
        for (_, what) in names.into_iter().filter(|(met, _)| *met) {
            self.note(format!("C, {what}"));
        }
        self.bad = (self.status(port) == Some(BAD_RECORD)).then_some((port, record));
    }

    /// The same for a read: what comes behind its character, and that the status tells it.
    fn read_on_tape(&mut self, port: usize, run: &Run, before: &Cassette) {
        let (status, n) = (self.status(port), run.call.length);
        let Cassette { record, place, .. } = self.player.stick.cassette;
        let refused = (record, place) == (before.record, before.place);
        if let Some((behind, goes_on)) = self.warned.take() {
            if (behind, 0) == (before.record, before.place) {
                let what = match status {
                    Some(status) if refused => format!("{status:02X}"),
                    _ => "a character".to_string(),
                };
                let request = if goes_on { "one request" } else { "the next request" };
                self.note(format!("C, {what} behind the last character, in {request}"));
            }
        }
        if refused {
            return;
        }
        let dropped = n > 0 && run.count == n;
        let way = self.way(run, status);
        let stick = &self.player.stick;
        let behind = if place > 0 { "the same record" } else { what_is(&stick.tape, record) };
        let last = is_end(behind);
        let expected = match last {
            _ if dropped => RECORD_CUT,
            true => LAST_CHARACTER,
            false => SUCCESS,
        };
        assert!(status.is_none_or(|status| status == expected), "{way}, then {behind}: {status:02X?}");
        if place > 0 {
            return;
        }
        let full = stick.tape[RECORD * (record - 1) + CONTROL_AT] == FULL;
        let kind = if full { "full" } else { "partial" };
        self.note(format!("C, {way}, then {behind}"));
        let names = [
            (true, format!("of a {kind} record")),
            (record == RECORDS, format!("of record 249, {kind}")),
            (record > before.record + 1, "the count fallen".to_string()),
            (n == 1 && status == Some(LAST_CHARACTER), "all of the request".to_string()),
        ];
        for (_, what) in names.into_iter().filter(|(met, _)| *met && last) {
            self.note(format!("C, the last character, {what}"));
        }
        if last && !dropped && n > 0 && run.call.address + run.count + 1 == AREA {
            self.note("C, the last character at the area's end".to_string());
        }
        self.warned = last.then_some((record, status.is_none()));
    }

    /// The status in the reply, once it is made.
    fn status(&self, port: usize) -> Option<u8> {
        match &self.player.stick.ports[port].phase {
            Phase::Replying(reply, _) => Some(reply[3]),
            _ => None,
        }
    }

    fn started(&mut self, port: usize, message: &[u8]) {
        let (tag, value) = (message[0], &message[3..]);
        let word = |at: usize| usize::from(value[at]) + 256 * usize::from(value[at + 1]);
        if !(0x10..=0x12).contains(&tag) {
            self.note(format!("tag {tag:02X}"));
            return;
        }
        self.note(format!("tag {tag:02X}, length {}", value.len()));
        match (tag, value.len()) {
            (0x11, 3..=258) => self.note(format!("LOAD ends at {}", word(0) + value.len() - 2)),
            (0x12, 4) => {
                let (address, count) = (word(0), word(2));
                self.note(format!("FETCH of {count}"));
                if (1..=256).contains(&count) {
                    self.note(format!("FETCH ends at {}", address + count));
                } else if address + count > AREA {
                    self.note(format!("FETCH of {count} past the area"));
                }
            }
            (0x10, 9) => self.called(port, value[0], value[1], word(2), word(4), value[6]),
            _ => {}
        }
    }

    fn called(&mut self, port: usize, iocb: u8, command: u8, address: usize, length: usize, aux1: u8) {
        self.note(format!("IOCB {iocb}, command {command:02X}"));
        let status = self.status(port);
        // A transfer that only its buffer can refuse, or a device.
        if let Some((_, transfer)) = TRANSFERS.iter().find(|(number, _)| *number == command) {
            if status.is_none() || status == Some(PAST_AREA) {
                self.note(format!("{transfer} of {length}"));
                self.note(format!("{transfer} ends at {}", address + length));
            }
            let stick = &self.player.stick;
            if let Phase::Running(run) = &stick.ports[port].phase {
                let row = stick.console.row;
                let blank = stick.screen[40 * row..40 * row + 40].iter().all(|&cell| cell == 0x20);
                let plain = run.file.device == Device::E && command == PUT_RECORD && length > 0 && blank;
                self.plain[port] = (plain && stick.console.column == 2 && !stick.console.escape).then_some(row);
            }
        }
        // An OPEN whose specification is good.
        if command == OPEN && matches!(status, Some(SUCCESS | BAD_COMMAND | SCREEN_MODE | NO_FILE)) {
            let letter = self.player.stick.area[port * AREA + address];
            self.note(format!("{} AUX1 {aux1:02X}", letter as char));
            let (mode, screen) = (self.player.stick.console.mode, &self.player.stick.screen);
            if (letter, status) == (b'S', Some(SUCCESS)) && aux1 & KEEP == 0 && mode < 8 {
                let (columns, rows, _) = shape(mode);
                if screen[columns * rows] != 0 {
                    self.note(format!("mode {mode}, cleared before a cell that is not 0"));
                }
            }
        }
    }

    /// A character moved, or a device refused it; console and paper as they were before.
    fn moved(&mut self, port: usize, run: &Run, before: &Console, used: usize) {
        let (n, device) = (run.call.length, run.file.device);
        let reads = matches!(run.call.command, GET_RECORD | GET_CHARACTERS);
        let status = self.status(port);
        let added = !reads && n > 0 && run.count == n;
        let byte = match n {
            0 => run.call.a,
            _ if added => EOL,
            _ if reads => 0,
            _ => self.player.stick.area[port * AREA + run.call.address + run.count],
        };
        if n == 0 && status.is_some_and(|status| status < 0x80) && reads {
            self.note(format!("{device:?}, a read of length 0"));
        } else if n == 0 && status.is_some_and(|status| status >= 0x80) {
            self.note(format!("{device:?}, a refused character of length 0"));
        }
        match device {
            Device::P if used >= 4_094 => {
                let way = match run.call.command {
                    _ if n == 0 => "A",
                    _ if added => "added EOL",
                    PUT_RECORD => "record",
                    _ => "characters",
                };
                self.note(format!("P, {way} at {used}"));
            }
            Device::K if status == Some(END_OF_FILE) && run.count > 0 => {
                self.note("K, a character, and then none".to_string());
            }
            Device::S => self.on_screen(before, reads, added, byte),
            Device::E if reads => self.read_editor(run, before, status),
            Device::E => self.wrote_editor(port, run, before, added, byte),
            _ => {}
        }
    }

    fn on_screen(&mut self, before: &Console, reads: bool, added: bool, byte: u8) {
        let (columns, rows, _) = shape(before.mode);
        let last_column = before.column == columns - 1;
        let last_cell = last_column && before.row == rows - 1;
        let past = before.row == rows;
        let got = self.player.stick.console.last;
        let what = match (reads, byte) {
            (true, _) if past => "GET past the last row",
            (true, _) if last_cell && got != 0 => "GET of the last cell, not 0",
            (true, _) if last_column => "GET in the last column",
            (false, 0x7D) if past => "clear past the last row",
            (false, EOL) if past && added => "added EOL past the last row",
            (false, EOL) if past => "EOL past the last row",
            (false, EOL) if before.row == rows - 1 => "EOL in the last row",
            (false, 0x7D | EOL) => return,
            (false, _) if past => "PUT past the last row",
            (false, _) if last_cell => "PUT into the last cell",
            (false, _) if last_column => "PUT in the last column",
            _ => return,
        };
        self.note(format!("mode {}, {what}", before.mode));
    }

    fn read_editor(&mut self, run: &Run, before: &Console, status: Option<u8>) {
        let at = before.read_column.unwrap_or(2);
        let ends = self.player.stick.console.read_column.is_none();
        let record = run.call.command == GET_RECORD && run.call.length > 0;
        let names = [
            (!ends && at == 39, "GET of column 39"),
            (ends && at == 40, "GET behind column 39"),
            (ends && before.row == 23, "GET of an EOL in row 23"),
            (ends && before.read_column.is_none(), "GET of an empty row"),
            (ends && status == Some(RECORD_CUT) && at == 40 && run.count == 37, "record of 38 cut by 37"),
            (ends && status == Some(RECORD_CUT) && at == 40 && run.count == 38, "record of 38 cut by 38"),
        ];
        for (_, what) in names.iter().filter(|(met, _)| *met) {
            self.note(format!("E, {what}"));
        }
        // Stored from the row's first column on.
        if ends && record && status == Some(SUCCESS) && at == 2 + run.count {
            self.note(format!("E, GET RECORD of {} and the EOL", run.count));
        }
    }

    fn wrote_editor(&mut self, port: usize, run: &Run, before: &Console, added: bool, byte: u8) {
        let control = matches!(byte, 0x1B..=0x1F | 0x7D..=0x7F | EOL..=0x9F | 0xFD..=0xFF);
        let data = byte != EOL && (before.escape || !control);
        let acts = |code: u8| byte == code && !before.escape;
        let names = [
            (data && before.column == 39, "data in column 39"),
            (data && before.column == 39 && before.row == 23, "data in column 39 of row 23"),
            (byte == EOL && before.row == 23, "EOL in row 23"),
            (acts(0x1C) && before.row == 0, "up from row 0"),
            (acts(0x1D) && before.row == 23, "down from row 23"),
            (acts(0x1E) && before.column == 2, "left from column 2"),
            (acts(0x1F) && before.column == 39, "right from column 39"),
            (acts(0x7E) && before.column == 2, "backspace in column 2"),
            (acts(0x7E) && before.column == 3, "backspace in column 3"),
        ];
        for (_, what) in names.iter().filter(|(met, _)| *met) {
            self.note(format!("E, {what}"));
        }
        if let Some(row) = self.plain[port] {
            if added || byte == EOL {
                self.note(format!("E, PUT RECORD of {} on a blank row", run.count));
                if run.count == 38 {
                    self.note(format!("E, PUT RECORD of 38 on row {row}"));
                }
            }
            if !data {
                self.plain[port] = None;
            }
        }
    }
}

/// The boundaries that a script comes to, and how often; what was played.
fn watch(script: &[Op], reached: &mut BTreeMap<String, u64>) -> Figures {
    let mut watch = Watch {
        player: Player::new(),
        reached,
        plain: [None; 2],
        bad: None,
        warned: None,
        specified: BTreeMap::new(),
        refused: BTreeMap::new(),
        last_read: BTreeMap::new(),
        cut: BTreeSet::new(),
    };
    for op in script {
        if !watch.play(op) {
            break;
        }
    }
    watch.player.figures
}

fn missing(reached: &BTreeMap<String, u64>) -> Vec<String> {
    boundaries().into_iter().filter(|name| !reached.contains_key(name)).collect()
}

/// `./test` compares the scripts that are counted here.
#[test]
fn the_gates_scripts() {
    let test = std::fs::read_to_string(format!("{}/../test", env!("CARGO_MANIFEST_DIR"))).unwrap();
    assert!(test.contains(&format!("--scripts {SCRIPTS} ")));
    assert!(!test.contains("--seed") && !test.contains("--long"));
}

#[test]
fn each_boundary_is_reached() {
    let (mut reached, mut figures) = (BTreeMap::new(), Figures::default());
    for seed in FIRST_SEED..FIRST_SEED + SCRIPTS {
        figures.add(&watch(&conversation(seed, false), &mut reached));
    }
    assert_eq!(missing(&reached), Vec::<String>::new());
    // Each status of C was seen, and no other.
    assert_eq!(figures.tape.keys().copied().collect::<Vec<u8>>(), TAPE_STATUSES);
    assert!(figures.tape_waits > 0);
    // So of D.
    assert_eq!(figures.disk.keys().copied().collect::<Vec<u8>>(), DISK_STATUSES);
    assert!(figures.disk_waits > 0);
    // Other devices never give $03.
    let last = figures.tape[&LAST_CHARACTER] + figures.disk[&LAST_CHARACTER];
    assert_eq!(figures.replies[&(0x90, LAST_CHARACTER)], last);
    // Nor $A4 to $AA.
    for status in [BAD_CHAIN, BAD_NAME, FILE_LOCKED, NO_FILE] {
        assert_eq!(figures.replies[&(0x90, status)], figures.disk[&status]);
    }
}

/// What some messages on port 0 come to, of the boundaries alone.
fn of_messages(messages: &[Vec<u8>]) -> Vec<String> {
    of_diskette(&[], messages)
}

/// The same with bytes written into the images before.
fn of_diskette(parts: &[(usize, Vec<u8>)], messages: &[Vec<u8>]) -> Vec<String> {
    let write = |(at, bytes): &(usize, Vec<u8>)| Op::Write { buffer: 6, at: *at as u32, bytes: bytes.clone() };
    let mut ops: Vec<Op> = parts.iter().map(write).collect();
    for message in messages {
        ops.extend(message.iter().map(|&byte| Op::Take { port: 0, byte }));
        ops.push(Op::Ticks { port: 0, count: 65_535 });
        ops.push(Op::Ticks { port: 0, count: 65_535 });
        ops.extend(vec![Op::Give { port: 0 }; 300]);
    }
    let mut reached = BTreeMap::new();
    watch(&ops, &mut reached);
    let all = boundaries();
    reached.into_keys().filter(|name| all.contains(name)).collect()
}

/// A boundary is reached where it is met, and not beside it.
#[test]
fn what_is_reached() {
    assert_eq!(missing(&BTreeMap::new()), boundaries());
    assert_eq!(of_messages(&[]), Vec::<String>::new());
    assert_eq!(of_messages(&[load(AREA - 1, b"A")]), ["LOAD ends at 16384", "tag 11, length 3"]);
    assert_eq!(of_messages(&[load(AREA - 9, b"ABC")]), Vec::<String>::new());
    assert_eq!(
        of_messages(&[fetch(AREA - 1, 257)]),
        ["FETCH of 257", "FETCH of 257 past the area", "tag 12, length 4"]
    );
    assert_eq!(of_messages(&[field(0x13, b""), field(0x14, b"")]), ["tag 13"]);
    let open = |device: &[u8], aux: [u8; 3]| vec![load(0, device), call(0, OPEN, 0, 0, aux)];
    let put = |command: u8, data: &[u8]| vec![load(100, data), call(0, command, 100, data.len(), [0, 0, 0])];
    // A full row of E, and one less; the last cell of mode 3, and one before it.
    for (length, full) in [(37, false), (38, true)] {
        let record = put(PUT_RECORD, &vec![b'A'; length]);
        let up = put(PUT_CHARACTERS, &[0x1C, 0x1C][..1 + usize::from(full)]);
        let get = vec![call(0, GET_RECORD, 100, 39, [0, 0, 0])];
        let reached = of_messages(&[open(b"E:", [0x0D, 0, 0]), record, up, get].concat());
        for name in ["data in column 39", "GET of column 39", "GET behind column 39", "GET RECORD of 38 and the EOL"] {
            assert_eq!(reached.contains(&format!("E, {name}")), full, "{length}: {name}");
        }
        assert!(reached.contains(&format!("E, PUT RECORD of {length} on a blank row")), "{length}");
    }
    // The 128th character of a record of C, and the one before it; read again, a full record and a partial one.
    for (length, full) in [(127, false), (128, true)] {
        let close = vec![call(0, CLOSE, 0, 0, [0; 3])];
        let written = [open(b"C:", [W, 0, 0]), put(PUT_CHARACTERS, &vec![b'A'; length]), close].concat();
        let read = [open(b"C:", [R, 0, 0]), vec![call(0, GET_CHARACTERS, 100, 200, [0; 3])]].concat();
        let reached = of_messages(&[written, read].concat());
        for (name, met) in [
            ("characters at 127 pending", full),
            ("CLOSE with 0 pending", full),
            ("CLOSE with 127 pending", !full),
            ("GET of the last character of a full record", full),
            ("GET of the last character of a partial record", !full),
            ("GET from a partial record of 127", !full),
            ("CLOSE with nothing put", false),
            ("end, an end record", true),
            ("end, run out", false),
        ] {
            assert_eq!(reached.contains(&format!("C, {name}")), met, "{length}: {name}");
        }
    }
    // A tape of three characters, read to the one before the last, to the last, and past it.
    for (n, name) in [
        (2, None),
        (3, Some("GET CHARACTERS up to n, then an end record")),
        (4, Some("GET CHARACTERS before n, then an end record")),
    ] {
        let close = vec![call(0, CLOSE, 0, 0, [0; 3])];
        let written = [open(b"C:", [W, 0, 0]), put(PUT_CHARACTERS, b"AB\x9B"), close].concat();
        let read = [open(b"C:", [R, 0, 0]), vec![call(0, GET_CHARACTERS, 100, n, [0; 3])]].concat();
        let reached = of_messages(&[written, read].concat());
        let all: Vec<String> = warning_boundaries().into_iter().filter(|name| reached.contains(name)).collect();
        let mut expected: Vec<String> = name.iter().map(|name| format!("C, {name}")).collect();
        if n > 2 {
            expected.push("C, the last character, of a partial record".to_string());
        }
        if n > 3 {
            expected.push("C, 88 behind the last character, in one request".to_string());
        }
        assert_eq!(all, expected);
    }
    for (length, last) in [(39, false), (40, true)] {
        let there = put(PUT_CHARACTERS, &[EOL; 23]);
        let row = put(PUT_RECORD, &vec![1; length]);
        let reached = of_messages(&[open(b"S:", [0x0C, 3, 0]), there, row].concat());
        for name in ["PUT into the last cell", "added EOL past the last row"] {
            assert_eq!(reached.contains(&format!("mode 3, {name}")), last, "{length}: {name}");
        }
        assert_eq!(reached.contains(&"mode 3, EOL in the last row".to_string()), !last, "{length}");
    }
}

/// The same of the doctor: a chain that goes round, read, cut and read to its end; and one that is cut nowhere.
#[test]
fn what_is_reached_by_the_doctor() {
    let mut diskette = Diskette::new();
    diskette.add(IN_USE, b"A          ", &[(4, b"AB".to_vec())]);
    let write = |(at, bytes): (usize, Vec<u8>)| Op::Write { buffer: 6, at: at as u32, bytes };
    let ask = |message: Vec<u8>| {
        let mut ops: Vec<Op> = message.iter().map(|&byte| Op::Take { port: 0, byte }).collect();
        ops.extend([vec![Op::Ticks { port: 0, count: 65_535 }], vec![Op::Give { port: 0 }; 7]].concat());
        ops
    };
    for (next, cut) in [(4, true), (0, false)] {
        let mut ops: Vec<Op> = diskette.parts(0).into_iter().map(write).collect();
        ops.push(write((sector_at(0, 4) + LINK_AT, link(0, next).to_vec())));
        ops.extend(ask(load(0, b"D:A\x9B")));
        ops.extend(ask(call(0, OPEN, 0, 0, [R, 0, 0])));
        ops.extend(ask(call(0, GET_CHARACTERS, 100, 1, [0; 3])));
        ops.push(Op::Doctor { image: 0 });
        ops.extend(ask(call(0, GET_CHARACTERS, 100, 2, [0; 3])));
        let mut reached = BTreeMap::new();
        watch(&ops, &mut reached);
        let of_doctor: Vec<String> =
            doctor_boundaries().into_iter().filter(|name| reached.contains_key(name)).collect();
        let expected = match cut {
            true => {
                vec!["R on image 0", "R cuts the chain behind a sector that is read", "R has cut where a read ends"]
            }
            false => vec!["R on image 0", "R leaves what is open on the image"],
        };
        assert_eq!(of_doctor, expected);
    }
}

/// The same of D: names, entries, links and counts at their boundaries, and beside them.
#[test]
fn what_is_reached_on_diskettes() {
    let read = |name: &[u8], n: usize| {
        let specification = [b"D:", name, &[EOL]].concat();
        vec![load(0, &specification), call(0, OPEN, 0, 0, [R, 0, 0]), call(0, GET_CHARACTERS, 100, n, [0; 3])]
    };
    let only = |reached: &[String], of: &[&str]| -> Vec<String> {
        of.iter().filter(|name| reached.contains(&format!("D, {name}"))).map(|name| name.to_string()).collect()
    };
    // A sector of 124, 125 and 126, and a link to 0, 719 and 720.
    for (count, next, expected) in [
        (124, 0, &["link 0", "the last character of 124 in a sector"][..]),
        (125, 719, &["the last character of 125 in a sector", "link 719"]),
        (125, 720, &["the last character of 125 in a sector", "link 720", "A4, above 719"]),
        (126, 0, &["A4, count 126", "A4 at the first sector"]),
    ] {
        let mut diskette = Diskette::new();
        diskette.add(IN_USE, b"A          ", &[(4, vec![b'A'; 125])]);
        let mut parts = diskette.parts(0);
        parts.push((sector_at(0, 4) + LINK_AT, [&link(0, next)[..], &[count]].concat()));
        let reached = of_diskette(&parts, &read(b"A", 200));
        let all = [
            "link 0",
            "link 719",
            "link 720",
            "the last character of 124 in a sector",
            "the last character of 125 in a sector",
            "A4, count 126",
            "A4, above 719",
            "A4 at the first sector",
            "A4, a 720th sector",
        ];
        let mut expected: Vec<&str> = expected.to_vec();
        if next == 719 {
            // Sector 719 is empty and the last.
            expected.push("link 0");
        }
        let mut found = only(&reached, &all);
        found.sort();
        expected.sort();
        assert_eq!(found, expected, "count {count}, link {next}");
    }
    // A ring, read to its 718th, 719th and 720th sector.
    for (n, expected) in [
        (718, &["a character in the 718th sector"][..]),
        (719, &["a character in the 718th sector", "a character in the 719th sector"]),
        (720, &["a character in the 718th sector", "a character in the 719th sector", "A4, a 720th sector"]),
    ] {
        let mut diskette = Diskette::new();
        diskette.add(IN_USE, b"A          ", &[(4, vec![b'A'])]);
        let mut parts = diskette.parts(0);
        parts.push((sector_at(0, 4) + LINK_AT, link(0, 4).to_vec()));
        let reached = of_diskette(&parts, &read(b"A", n));
        let all = ["a character in the 718th sector", "a character in the 719th sector", "A4, a 720th sector"];
        assert_eq!(only(&reached, &all), expected, "{n} characters");
    }
    // Names of seven, eight and nine, and the entry that they match.
    for (name, entries, expected) in [
        (&b"ABCDEFG"[..], 1, &[][..]),
        (b"ABCDEFGH", 1, &["name, of 8", "directory, match in entry 0"][..]),
        (b"ABCDEFGHI", 63, &["name, past 8"]),
        (b"ABCDEFGH.", 64, &["name, of 8", "name, with an empty extension", "directory, match in entry 63"]),
        (b"ABCDEFGHI-", 64, &["name, bad behind the eighth"]),
        (b"ABCDEFG-", 64, &[]),
    ] {
        let mut diskette = Diskette::new();
        for _ in 1..entries {
            diskette.add(DELETED, b"ABCDEFGH   ", &[]);
        }
        diskette.add(IN_USE, b"ABCDEFGH   ", &[]);
        let reached = of_diskette(&diskette.parts(0), &read(name, 1)[..2]);
        let all = [
            "name, of 8",
            "name, past 8",
            "name, with an empty extension",
            "name, bad behind the eighth",
            "directory, match in entry 0",
            "directory, match in entry 63",
        ];
        assert_eq!(only(&reached, &all), expected, "{name:?}");
    }
    // The name's end as the area's last byte, and one behind it.
    for (specification, status) in
        [(&b"D:A\x9B"[..], "name, ended by the area's last byte"), (b"D:A", "the area ends behind the name")]
    {
        let address = AREA - specification.len();
        let reached = of_diskette(&[], &[load(address, specification), call(0, OPEN, address, 0, [R, 0, 0])]);
        let all = ["name, ended by the area's last byte", "the area ends behind the name"];
        assert_eq!(only(&reached, &all), [status]);
    }
}
