//! Diskettes as DOS 2.0S writes them, for tests and random conversations: good
//! ones, with right sector counts, free count and map.

use crate::stick::*;
use std::collections::BTreeMap;

/// The sectors that no file has: the boot record, and free count, map and
/// directory.
pub fn is_reserved(sector: usize) -> bool {
    matches!(sector, 1..=3 | 360..=368)
}

/// Where a sector of a drive begins in the lent images.
pub fn sector_at(drive: usize, sector: usize) -> usize {
    IMAGE * drive + SECTOR * (sector - 1)
}

/// Where an entry of a drive's directory begins.
pub fn entry_at(drive: usize, entry: usize) -> usize {
    sector_at(drive, DIRECTORY_SECTOR) + ENTRY * entry
}

/// The two bytes behind a file sector's data: "the file number times four plus
/// the next sector's two high bits .. its low eight".
pub fn link(file: usize, next: usize) -> [u8; 2] {
    [(4 * file + next / 256) as u8, next as u8]
}

/// A file sector.
pub fn file_sector(file: usize, next: usize, data: &[u8]) -> [u8; SECTOR] {
    let mut sector = [0; SECTOR];
    sector[..data.len()].copy_from_slice(data);
    sector[LINK_AT..DATA_COUNT_AT].copy_from_slice(&link(file, next));
    sector[DATA_COUNT_AT] = data.len() as u8;
    sector
}

/// A directory's entry.
pub fn entry(flag: u8, count: usize, first: usize, name: &Pattern) -> [u8; ENTRY] {
    let mut entry = [0; ENTRY];
    entry[0] = flag;
    entry[SECTOR_COUNT_AT..FIRST_SECTOR_AT].copy_from_slice(&(count as u16).to_le_bytes());
    entry[FIRST_SECTOR_AT..NAME_AT].copy_from_slice(&(first as u16).to_le_bytes());
    entry[NAME_AT..].copy_from_slice(name);
    entry
}

/// A diskette: its entries, and the sectors that its files have or had.
#[derive(Clone, Debug, Default)]
pub struct Diskette {
    entries: Vec<[u8; ENTRY]>,
    sectors: BTreeMap<usize, [u8; SECTOR]>,
    /// The sectors of files that are not deleted.
    taken: Vec<usize>,
}

impl Diskette {
    pub fn new() -> Diskette {
        Diskette::default()
    }

    /// Adds a file with a chain of sectors, each with its data; its number. The
    /// sectors of one that is not in use are free again.
    pub fn add(&mut self, flag: u8, name: &Pattern, chain: &[(usize, Vec<u8>)]) -> usize {
        let file = self.entries.len();
        let mut next = 0;
        for (sector, data) in chain.iter().rev() {
            self.sectors.insert(*sector, file_sector(file, next, data));
            next = *sector;
        }
        if is_in_use(flag) {
            self.taken.extend(chain.iter().map(|(sector, _)| sector));
        }
        self.entries.push(entry(flag, chain.len(), next, name));
        file
    }

    /// Whether a file may have the sector, and none has or had it.
    pub fn has_free(&self, sector: usize) -> bool {
        (1..=LAST_SECTOR).contains(&sector) && !is_reserved(sector) && !self.sectors.contains_key(&sector)
    }

    /// Sector 360: the free count, and "from byte 10 a bit a sector, sector 0
    /// highest, 1 for free".
    fn free_sector(&self) -> [u8; SECTOR] {
        let mut bytes = [0; SECTOR];
        let free = (1..=LAST_SECTOR).filter(|sector| !is_reserved(*sector) && !self.taken.contains(sector));
        let mut count = 0u16;
        for sector in free {
            bytes[MAP_AT + sector / 8] |= 0x80 >> (sector % 8);
            count += 1;
        }
        // DOS 2.0S, and how many sectors a new diskette has free.
        bytes[..FREE_COUNT_AT].copy_from_slice(&[2, 0xC3, 2]);
        bytes[FREE_COUNT_AT..FREE_COUNT_AT + 2].copy_from_slice(&count.to_le_bytes());
        bytes
    }

    /// What is to be written into a drive's image, the rest of it as it lies:
    /// places in the lent images, and bytes.
    pub fn parts(&self, drive: usize) -> Vec<(usize, Vec<u8>)> {
        let mut directory = [&self.free_sector()[..], &self.entries.concat()].concat();
        if self.entries.len() < ENTRIES {
            directory.push(0);
        }
        let mut parts = vec![(sector_at(drive, FREE_COUNT_SECTOR), directory)];
        let mut behind = 0;
        for (sector, bytes) in &self.sectors {
            match parts.last_mut() {
                Some((_, part)) if *sector == behind => part.extend(bytes),
                _ => parts.push((sector_at(drive, *sector), bytes.to_vec())),
            }
            behind = sector + 1;
        }
        parts
    }
}

/// An image whose one file, `name`, has the sectors 1 to `last` in order, the
/// directory's among them, and behind the last of them another or none; so many
/// characters in each.
pub fn chain_of_all(name: &Pattern, last: usize, behind: usize, count: usize, byte: u8) -> Vec<u8> {
    let mut image = vec![0; IMAGE];
    for sector in 1..=last {
        let next = if sector < last { sector + 1 } else { behind };
        let from = sector_at(0, sector);
        image[from..from + SECTOR].copy_from_slice(&file_sector(0, next, &vec![byte; count]));
    }
    // The directory's first entry, and its end.
    let from = entry_at(0, 0);
    image[from..from + ENTRY].copy_from_slice(&entry(IN_USE, last, 1, name));
    image[from + ENTRY] = 0;
    image
}
