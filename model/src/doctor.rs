//! Ask 13, the diskette doctor: "a tool over a lent image". It is no call, and
//! has no group and no port.
//!
//! Clear before fast: the files are walked on the image as it is lent, what
//! the bytes have to be is written down in the list's order, and what differs
//! is the list.

use crate::diskette::{entry_at, is_reserved, link, sector_at};
use crate::stick::*;
use std::collections::BTreeSet;

/// "The lent list has room for 512 changes", of five bytes each: sector (2),
/// place, old, new.
pub const CHANGE: usize = 5;
pub const LIST: usize = 512 * CHANGE;

/// "Another size is refused and the image left alone."
pub const REFUSED: u8 = 1;

/// The last of the map's bytes: "a bit a sector", sector 719 the last.
const MAP_END: usize = MAP_AT + LAST_SECTOR / 8;

/// Why a walk stops before a sector: it "is reserved (1 to 3, 360 to 368),
/// already claimed or bad by Ask 12".
#[derive(Clone, Copy, Debug, PartialEq, Eq, PartialOrd, Ord)]
pub enum Stop {
    Reserved,
    Above719,
    /// Claimed by an earlier file.
    ClaimedEarlier,
    /// Claimed by this file: its chain goes round.
    ClaimedHere,
    OtherFileNumber,
    CountAbove125,
}

/// A file's chain as far as it is kept, and why no further.
#[derive(Clone, Debug, PartialEq, Eq)]
pub struct Walk {
    /// The entry's number, which is the file's.
    pub file: usize,
    pub kept: Vec<usize>,
    /// The sector before which the walk stopped, and why; none at the file's end.
    pub stopped: Option<(usize, Stop)>,
}

impl Walk {
    /// "A bad first sector makes the flag $80."
    pub fn is_deleted(&self) -> bool {
        self.kept.is_empty() && self.stopped.is_some()
    }
}

/// A byte and what it has to be; "each changed byte with sector, place, old
/// and new" where it differs.
#[derive(Clone, Copy, Debug, PartialEq, Eq)]
pub struct Change {
    pub sector: usize,
    pub place: usize,
    pub old: u8,
    pub new: u8,
}

impl Change {
    pub fn bytes(&self) -> [u8; CHANGE] {
        let [low, high] = (self.sector as u16).to_le_bytes();
        [low, high, self.place as u8, self.old, self.new]
    }

    /// A change as it stands in a list.
    pub fn of(bytes: &[u8]) -> Change {
        let sector = usize::from(u16::from_le_bytes([bytes[0], bytes[1]]));
        Change { sector, place: usize::from(bytes[2]), old: bytes[3], new: bytes[4] }
    }

    /// Where the byte lies in the image.
    pub fn at(&self) -> usize {
        sector_at(0, self.sector) + self.place
    }
}

/// A sector of the image: they count from 1 on.
fn sector(image: &[u8], sector: usize) -> &[u8] {
    &image[sector_at(0, sector)..][..SECTOR]
}

/// An entry of the image's directory.
pub fn entry_of(image: &[u8], entry: usize) -> &[u8] {
    &image[entry_at(0, entry)..][..ENTRY]
}

/// The files: the entries in use, locked ones too, before the flag that "ends
/// the directory".
pub fn files(image: &[u8]) -> Vec<usize> {
    let used = |file: &usize| is_in_use(entry_of(image, *file)[0]);
    (0..ENTRIES).take_while(|&file| entry_of(image, file)[0] != 0).filter(used).collect()
}

/// Why a walk of the file stops before the sector, if it does.
fn stop(image: &[u8], file: usize, next: usize, kept: &[usize], earlier: &BTreeSet<usize>) -> Option<Stop> {
    // "Reserved (1 to 3, 360 to 368)".
    if is_reserved(next) {
        return Some(Stop::Reserved);
    }
    // "A link above 719"; an entry's first sector may be any number of two bytes.
    if next > LAST_SECTOR {
        return Some(Stop::Above719);
    }
    // "Already claimed".
    if earlier.contains(&next) {
        return Some(Stop::ClaimedEarlier);
    }
    if kept.contains(&next) {
        return Some(Stop::ClaimedHere);
    }
    // "A wrong file number, a data count above 125".
    let bytes = sector(image, next);
    if usize::from(bytes[LINK_AT] / 4) != file {
        return Some(Stop::OtherFileNumber);
    }
    if usize::from(bytes[DATA_COUNT_AT]) > SECTOR_DATA {
        return Some(Stop::CountAbove125);
    }
    None
}

/// "It walks every file's chain in directory order." A cut changes only the
/// last sector that its own file keeps, and an entry or sector 360 is in no
/// chain that is kept: so all are walked on the image as it is lent.
pub fn walks(image: &[u8]) -> Vec<Walk> {
    let mut claimed = BTreeSet::new();
    let mut walks = Vec::new();
    for file in files(image) {
        let mut walk = Walk { file, kept: Vec::new(), stopped: None };
        let first = &entry_of(image, file)[FIRST_SECTOR_AT..];
        let mut next = usize::from(u16::from_le_bytes([first[0], first[1]]));
        // "Next or first 0 ends the file."
        while next != 0 {
            if let Some(reason) = stop(image, file, next, &walk.kept, &claimed) {
                walk.stopped = Some((next, reason));
                break;
            }
            walk.kept.push(next);
            next = next_sector(sector(image, next));
        }
        claimed.extend(walk.kept.iter().copied());
        walks.push(walk);
    }
    walks
}

/// The sectors of 1 to 719 that are neither reserved nor claimed.
pub fn free(walks: &[Walk]) -> BTreeSet<usize> {
    let claimed: BTreeSet<usize> = walks.iter().flat_map(|walk| walk.kept.iter().copied()).collect();
    (1..=LAST_SECTOR).filter(|sector| !is_reserved(*sector) && !claimed.contains(sector)).collect()
}

/// What the bytes have to be that the doctor looks after, in the list's order:
/// file by file, then sector 360.
fn right(image: &[u8]) -> Vec<Change> {
    let mut all = Vec::new();
    let mut set = |number: usize, place: usize, new: u8| {
        all.push(Change { sector: number, place, old: sector(image, number)[place], new });
    };
    let walks = walks(image);
    for walk in &walks {
        let at = ENTRY * walk.file;
        let (directory, place) = (DIRECTORY_SECTOR + at / SECTOR, at % SECTOR);
        // "A bad first sector makes the flag $80", and nothing else of the entry changes.
        if walk.is_deleted() {
            set(directory, place, DELETED);
            continue;
        }
        // "Cuts one before the first sector that is .. bad": the last kept one has no next; file number and data count stay.
        if let (Some(&last), Some(_)) = (walk.kept.last(), walk.stopped) {
            let [high, low] = link(walk.file, 0);
            set(last, LINK_AT, high);
            set(last, LINK_AT + 1, low);
        }
        // "Sets sector counts .. right."
        let [low, high] = (walk.kept.len() as u16).to_le_bytes();
        set(directory, place + SECTOR_COUNT_AT, low);
        set(directory, place + SECTOR_COUNT_AT + 1, high);
    }
    // "Sets .. free count and the map of 1 to 719 right."
    let free = free(&walks);
    let [low, high] = (free.len() as u16).to_le_bytes();
    set(FREE_COUNT_SECTOR, FREE_COUNT_AT, low);
    set(FREE_COUNT_SECTOR, FREE_COUNT_AT + 1, high);
    // "From byte 10 a bit a sector, sector 0 highest, 1 for free": sector 0 is none of 1 to 719, its bit stays.
    for place in MAP_AT..=MAP_END {
        let first = 8 * (place - MAP_AT);
        let mut byte = if first == 0 { sector(image, FREE_COUNT_SECTOR)[place] & 0x80 } else { 0 };
        for bit in 0..8 {
            if free.contains(&(first + bit)) {
                byte |= 0x80 >> bit;
            }
        }
        set(FREE_COUNT_SECTOR, place, byte);
    }
    all
}

/// "Lists each changed byte": those that are not yet right.
pub fn changes(image: &[u8]) -> Vec<Change> {
    right(image).into_iter().filter(|change| change.old != change.new).collect()
}

/// "Sound": no chain has a sector before which a walk stops, and counts, free
/// count and map are right. Written down by itself, so that "a sound image is
/// left untouched" and "what the doctor leaves is sound" can be tried.
pub fn is_sound(image: &[u8]) -> bool {
    let walks = walks(image);
    let free = free(&walks);
    let word = |at: usize| usize::from(image[at]) + 256 * usize::from(image[at + 1]);
    let map = sector_at(0, FREE_COUNT_SECTOR) + MAP_AT;
    let is_free_on_map = |sector: usize| image[map + sector / 8] & (0x80 >> (sector % 8)) != 0;
    walks.iter().all(|walk| walk.stopped.is_none())
        && walks.iter().all(|walk| word(entry_at(0, walk.file) + SECTOR_COUNT_AT) == walk.kept.len())
        && word(sector_at(0, FREE_COUNT_SECTOR) + FREE_COUNT_AT) == free.len()
        && (1..=LAST_SECTOR).all(|sector| is_free_on_map(sector) == free.contains(&sector))
}

/// The doctor: 0 and the number of changes, which stand in the list, what is
/// behind them as lent; 1 for another length of image or list, both as they
/// were.
pub fn doctor(image: &mut [u8], list: &mut [u8]) -> (u8, usize) {
    if image.len() != IMAGE || list.len() != LIST {
        return (REFUSED, 0);
    }
    let changes = changes(image);
    for (change, room) in changes.iter().zip(list.chunks_mut(CHANGE)) {
        room.copy_from_slice(&change.bytes());
        image[change.at()] = change.new;
    }
    (DONE, changes.len())
}
