//! Damaged diskettes for the doctor, made from a seed: good ones are laid, and
//! then a few bytes of them damaged again and again, the doctor in between, so
//! that most damage is done to a sound image. And what an image has for it.

use crate::diskette::{entry, entry_at, file_sector, is_reserved, link, sector_at, Diskette};
use crate::doctor::{changes, entry_of, free, walks, Stop, Walk};
use crate::random::{Random, FLAGS};
use crate::script::{Op, Player};
use crate::stick::*;

/// How often a script asks the doctor about a damaged image.
pub const ROUNDS: usize = 100;
/// `compare` plays one of these scripts for so many conversations.
pub const CONVERSATIONS: u64 = 50;

/// The sectors that no file has.
const RESERVED: [usize; 12] = [1, 2, 3, 360, 361, 362, 363, 364, 365, 366, 367, 368];
/// The sectors beside those, and the last.
const EDGES: [usize; 4] = [4, 359, 369, LAST_SECTOR];

struct Maker {
    random: Random,
    player: Player,
    ops: Vec<Op>,
    drive: usize,
}

/// The script of a seed.
pub fn script(seed: u64) -> Vec<Op> {
    // Scrambled, so that neighbouring seeds have nothing in common.
    let random = Random::new(Random::new(!seed).number());
    let mut maker = Maker { random, player: Player::new(), ops: Vec::new(), drive: 0 };
    if maker.random.chance(500) {
        maker.play(Op::Fresh);
    }
    for round in 0..ROUNDS {
        // Most of a script is about one drive.
        if round == 0 || maker.random.chance(80) {
            maker.drive = maker.random.pick(&[0, 0, 0, 1, 2, 3]);
            maker.lay();
        }
        maker.spoil();
        let image =
            if maker.random.chance(30) { maker.random.pick(&[0, 1, 2, 3, 4, 5, 255]) } else { maker.drive as u8 };
        maker.play(Op::Doctor { image });
        // What it leaves is sound.
        if maker.random.chance(100) {
            maker.play(Op::Doctor { image });
        }
    }
    maker.ops
}

impl Maker {
    /// Adds an op; the model plays along.
    fn play(&mut self, op: Op) {
        self.player.play(&op, &mut Vec::new());
        self.ops.push(op);
    }

    fn image(&self) -> &[u8] {
        &self.player.stick.images[IMAGE * self.drive..][..IMAGE]
    }

    /// Writes bytes into the drive's image.
    fn write(&mut self, at: usize, bytes: &[u8]) {
        self.play(Op::Write { buffer: 6, at: (IMAGE * self.drive + at) as u32, bytes: bytes.to_vec() });
    }

    // ---- good diskettes ----

    /// A good diskette: few files, many, as many as a directory has, or with
    /// one that has most of the sectors; or an empty one.
    fn lay(&mut self) {
        let lengths: Vec<usize> = match self.random.weigh(&[50, 20, 12, 14, 4]) {
            0 => (0..1 + self.random.below(4)).map(|_| self.random.below(6)).collect(),
            1 => (0..4 + self.random.below(20)).map(|_| self.random.below(9)).collect(),
            2 => (0..ENTRIES).map(|_| self.random.below(5)).collect(),
            3 => {
                let long = self.random.pick(&[255, 256, 257, 300, 511, 512, 513, 600, 690]);
                vec![self.random.below(3), long, self.random.below(4)]
            }
            _ => Vec::new(),
        };
        let mut sectors = self.shuffled();
        let mut diskette = Diskette::new();
        for length in lengths {
            // Long files are in use, or the diskette would be almost empty.
            let flag = if length > 250 { 0x42 } else { self.random.pick(&FLAGS) };
            let chain: Vec<(usize, Vec<u8>)> = sectors.drain(..length).map(|sector| (sector, self.data())).collect();
            diskette.add(flag, b"A       TXT", &chain);
        }
        let at = IMAGE * self.drive;
        for (from, bytes) in diskette.parts(self.drive) {
            // A write has at most 65,535 bytes.
            for (piece, bytes) in bytes.chunks(60_000).enumerate() {
                self.write(from - at + 60_000 * piece, bytes);
            }
        }
    }

    /// The sectors that a file may have, the edges mostly first, so that few
    /// files have them.
    fn shuffled(&mut self) -> Vec<usize> {
        let mut sectors: Vec<usize> = (1..=LAST_SECTOR).filter(|sector| !is_reserved(*sector)).collect();
        if self.random.chance(300) {
            return sectors;
        }
        for place in (1..sectors.len()).rev() {
            sectors.swap(place, self.random.below(place + 1));
        }
        if self.random.chance(500) {
            sectors.sort_by_key(|sector| !EDGES.contains(sector));
        }
        sectors
    }

    fn data(&mut self) -> Vec<u8> {
        let count = self.random.pick(&[0, 1, 3, SECTOR_DATA - 1, SECTOR_DATA, SECTOR_DATA]);
        vec![self.random.byte(); count]
    }

    // ---- damage ----

    /// Mostly one thing or a few; at times many, none, or the whole directory.
    fn spoil(&mut self) {
        let times = match self.random.weigh(&[4, 46, 20, 18, 8, 2, 2]) {
            0 => 0,
            1 => 1,
            2 => 2,
            3 => 3 + self.random.below(4),
            4 => 10 + self.random.below(40),
            5 => return self.wild(),
            _ => return self.most(),
        };
        for _ in 0..times {
            self.damage();
        }
    }

    fn damage(&mut self) {
        let walks = walks(self.image());
        let chains: Vec<&Walk> = walks.iter().filter(|walk| !walk.kept.is_empty()).collect();
        let chain = (!chains.is_empty()).then(|| self.random.pick(&chains));
        let Some(Walk { file, kept, .. }) = chain else {
            // Without a file there are the entries and sector 360.
            return match self.random.below(4) {
                0 => self.spoil_free_count(),
                1 => self.spoil_map(),
                2 => self.aside(),
                _ => self.revive(&walks),
            };
        };
        let any = self.random.pick(kept);
        let sector = self.random.pick(&[kept[0], kept[kept.len() - 1], any, any]);
        let at = sector_at(0, sector);
        match self.random.weigh(&[30, 6, 8, 12, 12, 12, 6, 10, 4, 12]) {
            0 => {
                let next = self.target(&walks, kept, sector);
                self.write(at + LINK_AT, &link(*file, next));
                if self.random.chance(300) {
                    self.make_good(*file, next);
                }
            }
            1 => {
                let byte = self.image()[at + LINK_AT] ^ (4 << self.random.below(6));
                self.write(at + LINK_AT, &[byte]);
            }
            2 => {
                let count = self.random.pick(&[0, 125, 126, 126, 127, 128, 255]);
                self.write(at + DATA_COUNT_AT, &[count]);
            }
            3 => {
                // More than a link can say, too.
                let beyond = kept[0] | self.random.pick(&[0x0400, 0x1000, 0x8000]);
                let inside = self.target(&walks, kept, kept[0]);
                let first = self.random.pick(&[inside, inside, inside, beyond, 65_535]);
                self.write(entry_at(0, *file) + FIRST_SECTOR_AT, &(first as u16).to_le_bytes());
                if self.random.chance(300) {
                    self.make_good(*file, first);
                }
            }
            4 => {
                let flag = self.random.pick(&FLAGS);
                let flag = self.random.pick(&[0, flag, flag]);
                self.write(entry_at(0, *file), &[flag]);
            }
            5 => self.spoil_count(*file, kept.len()),
            6 => self.spoil_free_count(),
            7 => self.spoil_map(),
            8 => self.aside(),
            _ => self.revive(&walks),
        }
    }

    /// Where a damaged link goes: to a sector of the file or of another one, to
    /// a reserved one or one beside it, above 719, or anywhere.
    fn target(&mut self, walks: &[Walk], kept: &[usize], sector: usize) -> usize {
        let claimed: Vec<usize> = walks.iter().flat_map(|walk| walk.kept.iter().copied()).collect();
        match self.random.below(10) {
            0 => 0,
            1 => sector,
            2 => self.random.pick(kept),
            3 | 4 => self.random.pick(&claimed),
            5 => self.random.pick(&RESERVED),
            6 => self.random.pick(&EDGES),
            7 => self.random.pick(&[720, 720, 721, 768, 1_023]),
            8 => 720 + self.random.below(1_024 - 720),
            _ => self.random.below(1_024),
        }
    }

    /// A sector as an empty last one of the file, so that only its place can be
    /// wrong.
    fn make_good(&mut self, file: usize, sector: usize) {
        if (1..=SECTORS).contains(&sector) {
            self.write(sector_at(0, sector) + LINK_AT, &file_sector(file, 0, &[])[LINK_AT..]);
        }
    }

    fn spoil_count(&mut self, file: usize, right: usize) {
        let (right, any) = (right as u16, self.random.number() as u16);
        let wrong = [right + 1, right.saturating_sub(1), right ^ 0x100, right.swap_bytes(), 0, 65_535, any];
        let count = self.random.pick(&wrong);
        self.write(entry_at(0, file) + SECTOR_COUNT_AT, &count.to_le_bytes());
    }

    fn spoil_free_count(&mut self) {
        let at = sector_at(0, FREE_COUNT_SECTOR) + FREE_COUNT_AT;
        let right = u16::from_le_bytes([self.image()[at], self.image()[at + 1]]);
        let any = self.random.number() as u16;
        let wrong = [right.wrapping_add(1), right.wrapping_sub(1), right ^ 0x100, 0, 707, 719, any];
        let count = self.random.pick(&wrong);
        self.write(at, &count.to_le_bytes());
    }

    /// A bit of the map, a byte of it, all of it, or what is behind it.
    fn spoil_map(&mut self) {
        let map = sector_at(0, FREE_COUNT_SECTOR) + MAP_AT;
        let any = self.random.below(SECTORS);
        match self.random.below(8) {
            0 => {
                let byte = self.random.byte();
                self.write(map + any / 8, &[byte]);
            }
            1 if self.random.chance(300) => {
                let byte = self.random.pick(&[0, 0x55, 0xFF]);
                self.write(map, &[byte; SECTOR - MAP_AT]);
            }
            2 => {
                let byte = self.random.byte();
                let place = map + 90 + self.random.below(SECTOR - MAP_AT - 90);
                self.write(place, &[byte]);
            }
            _ => {
                let (reserved, edge) = (self.random.pick(&RESERVED), self.random.pick(&EDGES));
                let sector = self.random.pick(&[0, 0, reserved, edge, any, any]);
                let byte = self.image()[map + sector / 8] ^ (0x80 >> (sector % 8));
                self.write(map + sector / 8, &[byte]);
            }
        }
    }

    /// Bytes that the doctor leaves: of sector 360, of boot sectors, of 720, of
    /// an entry's name, of an entry behind the end.
    fn aside(&mut self) {
        let byte = self.random.byte();
        let file = self.random.below(ENTRIES);
        let place = self.random.pick(&[0, 1, 2, 5, 6, 7, 8, 9]);
        let sector = self.random.pick(&[1, 2, 3, SECTORS]);
        match self.random.below(4) {
            0 => self.write(sector_at(0, FREE_COUNT_SECTOR) + place, &[byte]),
            1 => self.write(sector_at(0, sector) + usize::from(byte) % SECTOR, &[byte]),
            2 => self.write(entry_at(0, file) + NAME_AT + place, &[byte]),
            _ => {
                let end = (0..ENTRIES).take_while(|&file| entry_of(self.image(), file)[0] != 0).count();
                if end + 1 < ENTRIES {
                    let file = end + 1 + self.random.below(ENTRIES - end - 1);
                    let first = self.random.below(SECTORS);
                    self.write(entry_at(0, file), &entry(0x42, 1, first, b"BEHIND     "));
                }
            }
        }
    }

    /// An entry in use again, mostly with the first sector that it had; or a
    /// file's last sector linked to one with its number, as before a cut.
    fn revive(&mut self, walks: &[Walk]) {
        let unused: Vec<usize> = (0..ENTRIES).filter(|file| walks.iter().all(|walk| walk.file != *file)).collect();
        let free: Vec<usize> = free(walks).into_iter().collect();
        let chains: Vec<&Walk> = walks.iter().filter(|walk| !walk.kept.is_empty()).collect();
        if self.random.chance(500) && !chains.is_empty() {
            let Walk { file, kept, .. } = self.random.pick(&chains);
            let number = |sector: usize| usize::from(self.image()[sector_at(0, sector) + LINK_AT] / 4);
            let same: Vec<usize> = free.iter().copied().filter(|sector| number(*sector) == *file).collect();
            if !same.is_empty() {
                let next = self.random.pick(&same);
                return self.write(sector_at(0, kept[kept.len() - 1]) + LINK_AT, &link(*file, next));
            }
        }
        if !unused.is_empty() {
            let behind = walks.last().map_or(0, |walk| walk.file + 1).min(ENTRIES - 1);
            let (any, flag) = (self.random.pick(&unused), self.random.pick(&[0x42, 0x62]));
            let file = self.random.pick(&[any, behind]);
            self.write(entry_at(0, file), &[flag]);
            if self.random.chance(300) && !free.is_empty() {
                let first = self.random.pick(&free);
                self.write(entry_at(0, file) + FIRST_SECTOR_AT, &(first as u16).to_le_bytes());
                self.make_good(file, first);
            }
        }
    }

    /// A directory of any entries, and links of any kind.
    fn wild(&mut self) {
        let mut directory = Vec::new();
        for _ in 0..ENTRIES {
            let (byte, flag) = (self.random.byte(), self.random.pick(&FLAGS));
            let (count, first) = (self.random.below(65_536), self.random.below(740));
            directory.extend(entry(self.random.pick(&[byte, flag, flag, flag]), count, first, b"WILD       "));
        }
        self.write(entry_at(0, 0), &directory);
        for _ in 0..60 {
            let (sector, file, next) = (self.random.below(SECTORS), self.random.below(ENTRIES), self.random.below(740));
            let [high, low] = link(file, next);
            let count = self.random.below(140) as u8;
            self.write(sector_at(0, 1 + sector) + LINK_AT, &[high, low, count]);
        }
    }

    /// As many changes as there can be, or nearly: each of 64 files is cut in
    /// both bytes and has another count, and every byte of free count and map is
    /// wrong.
    fn most(&mut self) {
        for (at, bytes) in most_changes() {
            self.write(at, &bytes);
        }
        for _ in 0..self.random.below(3) {
            self.damage();
        }
    }
}

/// An image with 348 changes: places, and bytes. Each of 64 files has one
/// sector, linked to 361, and another count; each byte of the free count and of
/// the map is wrong.
pub fn most_changes() -> Vec<(usize, Vec<u8>)> {
    let first = |file: usize| 400 + file;
    let entries: Vec<u8> = (0..ENTRIES).flat_map(|file| entry(0x42, 0x0102, first(file), b"MOST       ")).collect();
    let sectors: Vec<u8> = (0..ENTRIES).flat_map(|file| file_sector(file, 361, b"A")).collect();
    let free = |sector: usize| !is_reserved(sector) && !(first(0)..first(ENTRIES)).contains(&sector);
    let wrong = |byte: usize| (0..8).fold(0, |bits, bit| 2 * bits + u8::from(!free(8 * byte + bit)));
    let map: Vec<u8> = (0..=LAST_SECTOR / 8).map(wrong).collect();
    // 719 - 12 - 64 are free: $0283.
    let free_count = [0x82, 0x03];
    let free_count_at = sector_at(0, FREE_COUNT_SECTOR) + FREE_COUNT_AT;
    let map_at = sector_at(0, FREE_COUNT_SECTOR) + MAP_AT;
    vec![
        (free_count_at, free_count.to_vec()),
        (map_at, map),
        (entry_at(0, 0), entries),
        (sector_at(0, first(0)), sectors),
    ]
}

// ---- what an image has for the doctor ----

/// What an image may have for the doctor, each by a name; "no such image" is
/// the refusal.
pub const KINDS: [&str; 40] = [
    "link to a reserved sector",
    "link to a reserved sector, else good",
    "link above 719",
    "link to 720, else good",
    "link into an earlier file",
    "link back into the file",
    "link to another file number",
    "link to a count above 125",
    "first reserved",
    "first above 719",
    "first above 1023",
    "first in an earlier file",
    "first of another file number",
    "first of a count above 125",
    "first 0",
    "cut in byte 125 alone",
    "cut in byte 126 alone",
    "cut in both bytes",
    "count too low",
    "count too high",
    "count wrong in its low byte",
    "count wrong in its high byte",
    "count wrong beside flag $80",
    "free count wrong in its low byte",
    "free count wrong in its high byte",
    "free sector not on the map",
    "claimed sector on the map",
    "reserved sector on the map",
    "sector 0 on the map",
    "bytes behind the map",
    "file locked",
    "file behind one not in use",
    "in use behind the end",
    "file 63",
    "no file",
    "nothing to change",
    "one change",
    "100 changes or more",
    "348 changes",
    "no such image",
];

/// The kinds that an image has.
pub fn kinds(image: &[u8]) -> Vec<&'static str> {
    let (walks, changes) = (walks(image), changes(image));
    let changed = |at: usize| changes.iter().any(|change| change.at() == at);
    let flag = |file: usize| entry_of(image, file)[0];
    let mut kinds = Vec::new();
    let mut note = |met: bool, kind: &'static str| {
        debug_assert!(KINDS.contains(&kind), "{kind}");
        if met {
            kinds.push(kind);
        }
    };
    for walk in &walks {
        let at = entry_at(0, walk.file);
        if let Some((sector, stop)) = walk.stopped {
            let first = walk.kept.is_empty();
            let good = sector <= SECTORS && {
                let from = sector_at(0, sector);
                let number = usize::from(image[from + LINK_AT] / 4);
                number == walk.file && usize::from(image[from + DATA_COUNT_AT]) <= SECTOR_DATA
            };
            let (of_first, of_link) = match stop {
                Stop::Reserved => ("first reserved", "link to a reserved sector"),
                Stop::Above719 if sector > 1_023 => ("first above 1023", "link above 719"),
                Stop::Above719 => ("first above 719", "link above 719"),
                Stop::ClaimedEarlier => ("first in an earlier file", "link into an earlier file"),
                // A file's first sector finds none of its own claimed.
                Stop::ClaimedHere => ("link back into the file", "link back into the file"),
                Stop::OtherFileNumber => ("first of another file number", "link to another file number"),
                Stop::CountAbove125 => ("first of a count above 125", "link to a count above 125"),
            };
            note(first, of_first);
            note(!first, of_link);
            note(!first && good && stop == Stop::Reserved, "link to a reserved sector, else good");
            note(!first && good && stop == Stop::Above719, "link to 720, else good");
        }
        note(walk.kept.is_empty() && walk.stopped.is_none(), "first 0");
        if let (Some(&last), Some(_)) = (walk.kept.last(), walk.stopped) {
            let link = sector_at(0, last) + LINK_AT;
            note(changed(link) && !changed(link + 1), "cut in byte 125 alone");
            note(!changed(link) && changed(link + 1), "cut in byte 126 alone");
            note(changed(link) && changed(link + 1), "cut in both bytes");
        }
        let count = usize::from(image[at + SECTOR_COUNT_AT]) + 256 * usize::from(image[at + SECTOR_COUNT_AT + 1]);
        note(walk.is_deleted() && count != 0, "count wrong beside flag $80");
        note(!walk.is_deleted() && count < walk.kept.len(), "count too low");
        note(!walk.is_deleted() && count > walk.kept.len(), "count too high");
        note(changed(at + SECTOR_COUNT_AT), "count wrong in its low byte");
        note(changed(at + SECTOR_COUNT_AT + 1), "count wrong in its high byte");
        note(flag(walk.file) & LOCKED != 0, "file locked");
        note((0..walk.file).any(|other| !is_in_use(flag(other))), "file behind one not in use");
        note(walk.file == ENTRIES - 1, "file 63");
    }
    let end = (0..ENTRIES).take_while(|&file| flag(file) != 0).count();
    note((end..ENTRIES).any(|file| is_in_use(flag(file))), "in use behind the end");
    note(walks.is_empty(), "no file");
    let from = sector_at(0, FREE_COUNT_SECTOR);
    note(changed(from + FREE_COUNT_AT), "free count wrong in its low byte");
    note(changed(from + FREE_COUNT_AT + 1), "free count wrong in its high byte");
    let free = free(&walks);
    let on_map = |sector: usize| image[from + MAP_AT + sector / 8] & (0x80 >> (sector % 8)) != 0;
    let any = |is: &dyn Fn(usize) -> bool| (1..=LAST_SECTOR).any(is);
    let claimed = |sector: usize| !is_reserved(sector) && !free.contains(&sector);
    note(any(&|sector| free.contains(&sector) && !on_map(sector)), "free sector not on the map");
    note(any(&|sector| claimed(sector) && on_map(sector)), "claimed sector on the map");
    note(any(&|sector| is_reserved(sector) && on_map(sector)), "reserved sector on the map");
    note(on_map(0), "sector 0 on the map");
    note(image[from + MAP_AT + SECTORS / 8..from + SECTOR].iter().any(|byte| *byte != 0), "bytes behind the map");
    note(changes.is_empty(), "nothing to change");
    note(changes.len() == 1, "one change");
    note(changes.len() >= 100, "100 changes or more");
    note(changes.len() == 348, "348 changes");
    kinds
}
