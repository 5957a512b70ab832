//! Ask 13 of document 02, the diskette doctor: its worked example and the lines below it, its readings (each test named after the
//! number), and of each wrong machine the image on which it is seen. The wrong machines are slips of a doctor that is written here
//! once more, step by step over one image; without a slip it is the model's.

mod bench;
use bench::disks::*;
use bench::{examples, Bench, BUFFER};
use model::compare::{compare, shorten, Budget, Real};
use model::diskette::{entry, entry_at, is_reserved, link, sector_at, Diskette};
use model::doctor::*;
use model::images::{kinds, most_changes, script, CONVERSATIONS, KINDS, ROUNDS};
use model::random::{conversation, Random};
use model::script::{ops_of, play, to_text, Figures, Op, Player};
use model::stick::*;
use std::collections::{BTreeMap, BTreeSet};
use std::time::{Duration, Instant};

/// Where sector 360 has the free count and the map in an image.
const FREE_AT: usize = 359 * SECTOR + 3;
const MAP: usize = 359 * SECTOR + 10;

/// The image of a diskette.
fn image_of(diskette: &Diskette) -> Vec<u8> {
    let mut image = vec![0; IMAGE];
    lay_on(&mut image, &diskette.parts(0));
    image
}

fn lay_on(image: &mut [u8], parts: &[(usize, Vec<u8>)]) {
    for (at, bytes) in parts {
        image[*at..*at + bytes.len()].copy_from_slice(bytes);
    }
}

/// The worked example's image, with bytes changed.
fn hello_with(changed: &[(usize, &[u8])]) -> Vec<u8> {
    let mut image = image_of(&hello());
    for (at, bytes) in changed {
        image[*at..*at + bytes.len()].copy_from_slice(bytes);
    }
    image
}

/// Two files, AAA in 4, 5 and 6 and BBB in 9 and 300, a deleted one between them; with bytes changed.
fn two_with(changed: &[(usize, &[u8])]) -> Vec<u8> {
    let mut diskette = Diskette::new();
    diskette.add(USED, b"AAA        ", &chain(&[(4, b"A"), (5, b""), (6, b"AA")]));
    diskette.add(0x80, b"GONE       ", &chain(&[(20, b"G")]));
    diskette.add(LOCK, b"BBB        ", &chain(&[(9, b"B"), (300, b"BB")]));
    let mut image = image_of(&diskette);
    for (at, bytes) in changed {
        image[*at..*at + bytes.len()].copy_from_slice(bytes);
    }
    image
}

/// Byte 125 of a sector, and its data count.
fn link_at(sector: usize) -> usize {
    sector_at(0, sector) + LINK_AT
}

fn count_at(sector: usize) -> usize {
    sector_at(0, sector) + DATA_COUNT_AT
}

fn first_at(file: usize) -> usize {
    entry_at(0, file) + FIRST_SECTOR_AT
}

/// A list as numbers: sector, place, old, new.
type Listed = (usize, usize, u8, u8);

/// Runs the doctor: the list. What is behind it is as lent, and the changes are made and are all.
fn run(image: &mut [u8]) -> Vec<Listed> {
    let old = image.to_vec();
    let lent: Vec<u8> = (0..LIST).map(|at| at as u8 ^ 0xA5).collect();
    let mut list = lent.clone();
    let (answer, number) = doctor(image, &mut list);
    assert_eq!(answer, DONE);
    assert_eq!(list[CHANGE * number..], lent[CHANGE * number..]);
    let changes: Vec<Change> = list.chunks(CHANGE).take(number).map(Change::of).collect();
    // "Replaying the list on the old image gives the new one."
    let mut replayed = old.clone();
    for change in &changes {
        assert_eq!(replayed[change.at()], change.old);
        replayed[change.at()] = change.new;
    }
    assert!(replayed == image);
    // A byte is listed if and only if it differs, once.
    let places: BTreeSet<usize> = changes.iter().map(Change::at).collect();
    assert_eq!(places.len(), number);
    assert_eq!(places, (0..IMAGE).filter(|&at| old[at] != image[at]).collect());
    changes.iter().map(|change| (change.sector, change.place, change.old, change.new)).collect()
}

fn list_of(image: &[u8]) -> Vec<Listed> {
    run(&mut image.to_vec())
}

// ---- the worked example and the lines below it ----

#[test]
fn the_example() {
    examples::run(
        "\
F = 00
W 06 00 B4 00 10 00 42 01 00 04 00 48 45 4C 4C 4F 20 20 20 54 58 54
W 06 80 01 00 03 00 48 49 9B
W 06 FD 01 00 03 00 00 00 03
W 06 83 B3 00 02 00 C2 02
W 06 8A B3 00 5A 00 07 FFx44 00 7F FFx43
R 00 = 00 00 00
W 06 FD 01 00 02 00 01 69   a link to 361, and count 2
W 06 01 B4 00 01 00 02
R 00 = 00 03 00 04 00 7D 01 00 04 00 7E 69 00 69 01 01 02 01
R 00 = 00 00 00
W 06 03 B4 00 01 00 02   first sector 2
R 00 = 00 03 00 69 01 00 42 80 68 01 03 C2 C3 68 01 0A 07 0F
",
    );
}

#[test]
fn the_lines_below_it() {
    examples::run(
        "\
F = 00
W 06 00 B4 00 10 00 42 01 00 04 00 48 45 4C 4C 4F 20 20 20 54 58 54
W 06 80 01 00 03 00 48 49 9B
W 06 FD 01 00 03 00 00 00 03
W 06 83 B3 00 02 00 C2 02
W 06 8A B3 00 5A 00 07 FFx44 00 7F FFx43
W 06 10 B4 00 05 00 42 01 00 04 00   a second entry in use with first sector 4
R 00 = 00 01 00 69 01 10 42 80
R 00 = 00 00 00
W 06 03 B4 00 01 00 00   first 0 and count 1
R 00 = 00 03 00 69 01 01 01 00 68 01 03 C2 C3 68 01 0A 07 0F
R 00 = 00 00 00
R 04 = 01 00 00
R FF = 01 00 00
",
    );
}

#[test]
fn an_image_of_zeros() {
    let mut image = vec![0; IMAGE];
    let list = run(&mut image);
    assert_eq!(list.len(), 91);
    assert_eq!(list[..3], [(360, 3, 0, 0xC3), (360, 4, 0, 0x02), (360, 10, 0, 0x0F)]);
    // Every byte of the map but that of 360 to 367; that of 368 has only the reserved one out.
    let full = |place: usize| (360, place, 0, if place == 56 { 0x7F } else { 0xFF });
    assert_eq!(list[3..], (11..=99).filter(|&place| place != 55).map(full).collect::<Vec<Listed>>());
    // The same through a script, of the last image.
    let written = play(b"FR\x03R\x03R\x02");
    assert_eq!(written[..4], [0, 0, 91, 0]);
    assert_eq!(written[4..9], [0x68, 0x01, 3, 0, 0xC3]);
    assert_eq!(written[4 + 91 * CHANGE..][..6], [0, 0, 0, 0, 91, 0]);
    assert_eq!(written.len(), 4 + 91 * CHANGE + 3 + 3 + 91 * CHANGE);
}

#[test]
fn reading_13_7_an_image_reaches_348() {
    let mut image = vec![0; IMAGE];
    lay_on(&mut image, &most_changes());
    let list = run(&mut image);
    assert_eq!(list.len(), 64 * 4 + 2 + 90);
    for (file, of_file) in list[..256].chunks(4).enumerate() {
        let (directory, place) = (361 + file / 8, 16 * (file % 8));
        let high = (4 * file) as u8;
        assert_eq!(
            of_file,
            [
                (400 + file, 125, high + 1, high),
                (400 + file, 126, 0x69, 0),
                (directory, place + 1, 2, 1),
                (directory, place + 2, 1, 0),
            ]
        );
    }
    assert_eq!(list[256..258], [(360, 3, 0x82, 0x83), (360, 4, 0x03, 0x02)]);
    let places: Vec<usize> = list[258..].iter().map(|change| change.1).collect();
    assert_eq!(places, (10..=99).collect::<Vec<usize>>());
    assert_eq!(list_of(&image), []);
    assert!(LIST / CHANGE == 512 && list.len() <= 512);
}

// ---- the readings ----

#[test]
fn reading_13_1_another_length_is_refused() {
    let right = hello_with(&[(link_at(4), &[1, 0x69])]);
    for (image, list) in [
        (IMAGE - 1, LIST),
        (IMAGE + 1, LIST),
        (0, LIST),
        (4 * IMAGE, LIST),
        (IMAGE, LIST - 1),
        (IMAGE, LIST + 1),
        (IMAGE, LIST - CHANGE),
        (IMAGE, 0),
        (IMAGE, 2 * CHANGE),
        (IMAGE - 1, LIST + 1),
        (0, 0),
    ] {
        let mut lent: Vec<u8> = right.iter().copied().cycle().take(image).collect();
        let mut room = vec![0xA5; list];
        let before = lent.clone();
        assert_eq!(doctor(&mut lent, &mut room), (REFUSED, 0), "{image} {list}");
        assert!(lent == before && room == vec![0xA5; list]);
    }
    assert_eq!(list_of(&right).len(), 2);
}

#[test]
fn reading_13_1_in_a_script() {
    // Each image is its own, and another number is none.
    let mut player = Player::new();
    for drive in 0..4 {
        let diskette = image_of(&hello());
        player.stick.images[IMAGE * drive..][..IMAGE].copy_from_slice(&diskette);
        player.stick.images[IMAGE * drive + link_at(4)] = 3;
    }
    for n in [4, 5, 127, 128, 255] {
        let (before, mut output) = (player.stick.clone(), Vec::new());
        assert!(player.play(&Op::Doctor { image: n }, &mut output));
        assert_eq!(output, [1, 0, 0]);
        assert!(player.stick == before);
    }
    for n in [2, 0, 3, 1] {
        let (mut expected, mut output) = (player.stick.clone(), Vec::new());
        expected.images[IMAGE * usize::from(n) + link_at(4)] = 0;
        assert!(player.play(&Op::Doctor { image: n }, &mut output));
        assert_eq!(output, [0, 1, 0, 4, 0, 125, 3, 0]);
        assert!(player.stick == expected);
    }
    assert_eq!(player.figures.calls, 0);
}

/// It works at any time: how much is lent does not matter, nor a request that runs.
#[test]
fn reading_13_1_it_is_no_call() {
    let mut player = Player::new();
    lay_on(&mut player.stick.images, &hello().parts(0));
    player.stick.images[link_at(4)] = 3;
    player.play(&Op::Lend { buffer: 6, length: 0 }, &mut Vec::new());
    player.play(&Op::Lend { buffer: 0, length: 5 }, &mut Vec::new());
    let (mut expected, mut output) = (player.stick.clone(), Vec::new());
    expected.images[link_at(4)] = 0;
    player.play(&Op::Doctor { image: 0 }, &mut output);
    assert_eq!(output, [0, 1, 0, 4, 0, 125, 3, 0]);
    assert!(player.stick == expected);

    // A read that would go round for long meets the cut.
    let mut bench = Bench::new();
    ring(&mut bench, 0);
    start_reading(&mut bench, 0, b"D:R*\x9B");
    let mut player = Player { stick: bench.stick, ..Player::default() };
    player.play(&Op::Doctor { image: 0 }, &mut Vec::new());
    bench = Bench { stick: player.stick };
    bench.finish(0);
    assert_eq!(bench.reply(0)[3..], [END_OF_FILE, 1, 0, 0]);
    assert_eq!(bench.fetch(0, BUFFER, 1), (SUCCESS, b"R".to_vec()));
}

#[test]
fn reading_13_2_files() {
    // Behind the first flag 0 nothing is walked; what is not in use is passed over, whatever else.
    for flag in [0x80, 0xC2, 0xFF, 0x22, 0x01, 0x3F] {
        let image = two_with(&[(entry_at(0, 0), &[flag])]);
        assert_eq!(list_of(&image), [(360, 3, 0xBE, 0xC1), (360, 10, 0x01, 0x0F)], "{flag:02X}");
    }
    assert_eq!(files(&two_with(&[])), [0, 2]);
    assert_eq!(files(&two_with(&[(entry_at(0, 1), &[0])])), [0]);
    assert_eq!(files(&two_with(&[(entry_at(0, 0), &[0])])), [] as [usize; 0]);
    for flag in [0x40, 0x42, 0x60, 0x7F, 0x41] {
        assert_eq!(files(&two_with(&[(entry_at(0, 0), &[flag])])), [0, 2]);
        assert_eq!(list_of(&two_with(&[(entry_at(0, 0), &[flag])])), []);
    }
    // All 64 entries, without an end.
    let mut diskette = Diskette::new();
    for file in 0..64 {
        diskette.add(USED, b"A          ", &chain(&[(400 + file, b"")]));
    }
    let mut image = image_of(&diskette);
    assert_eq!(list_of(&image), []);
    image[link_at(463) + 1] = 2;
    assert_eq!(list_of(&image), [(463, 126, 2, 0)]);
    // An empty file is kept: its count becomes 0, its flag stays.
    let image = hello_with(&[(first_at(0), &[0, 0]), (entry_at(0, 0) + 1, &[0xFF, 0xFF])]);
    assert_eq!(list_of(&image), [(361, 1, 0xFF, 0), (361, 2, 0xFF, 0), (360, 3, 0xC2, 0xC3), (360, 10, 0x07, 0x0F)]);
}

/// Each sector before which a walk stops, by a link and by a first sector. The sector is else a good one.
#[test]
fn reading_13_3_where_a_walk_stops() {
    for sector in (0..1_024).chain([1_024 + 5, 32_768 + 5, 65_535]) {
        let stops = matches!(sector, 1..=3 | 360..=368 | 720..);
        let good = |image: &mut Vec<u8>| {
            if (1..=720).contains(&sector) && sector != 4 {
                image[link_at(sector)..][..3].copy_from_slice(&[0, 0, 125]);
            }
        };
        // By a link: of the file in sector 4.
        if sector < 1_024 {
            let mut image = hello_with(&[(link_at(4), &link(0, sector))]);
            good(&mut image);
            let kept = run(&mut image);
            let is_kept = image[link_at(4)..][..2] == link(0, sector);
            assert_eq!(is_kept, sector == 0 || (!stops && sector != 4), "link {sector}: {kept:?}");
            assert_eq!(image[entry_at(0, 0)], 0x42);
            assert_eq!(image[entry_at(0, 0) + 1], if is_kept && sector != 0 { 2 } else { 1 });
        }
        // By a first sector; also above what a link can say, where the low bits are those of a good one.
        let first = (sector as u16).to_le_bytes();
        let mut image = hello_with(&[(first_at(0), &first), (link_at(5), &[0, 0, 1])]);
        good(&mut image);
        run(&mut image);
        assert_eq!(image[entry_at(0, 0)], if stops { 0x80 } else { 0x42 }, "first {sector}");
        assert_eq!(image[first_at(0)..][..2], first);
    }
}

#[test]
fn reading_13_3_claimed_number_and_count() {
    // A ring: back to the last, to the first, and to one between.
    for back in [4, 5, 6] {
        let image = two_with(&[(link_at(6), &link(0, back))]);
        assert_eq!(list_of(&image), [(6, 126, back as u8, 0)]);
    }
    // Into an earlier file, and into a later one: its number is another.
    assert_eq!(list_of(&two_with(&[(link_at(300), &link(2, 5))])), [(300, 126, 5, 0)]);
    assert_eq!(list_of(&two_with(&[(link_at(6), &link(0, 9))])), [(6, 126, 9, 0)]);
    // An earlier file has it, whatever number it has: the later one then loses it.
    let image = two_with(&[(link_at(6), &link(0, 9)), (link_at(9), &link(0, 0))]);
    assert_eq!(list_of(&image), [(361, 1, 3, 4), (361, 32, 0x62, 0x80), (360, 3, 0xBE, 0xBF), (360, 47, 0xF7, 0xFF)]);
    // Another file number in each bit, and counts about 125; the first sector and a later one.
    for bit in 2..8 {
        let image = two_with(&[(link_at(9), &[link(2, 300)[0] ^ (1 << bit)])]);
        assert_eq!(list_of(&image)[0], (361, 32, 0x62, 0x80), "bit {bit}");
        let image = two_with(&[(link_at(300), &[link(2, 0)[0] ^ (1 << bit)])]);
        assert_eq!(list_of(&image)[..2], [(9, 125, 9, 8), (9, 126, 44, 0)], "bit {bit}");
    }
    for count in 0..=255 {
        let of_first = list_of(&two_with(&[(count_at(9), &[count])]));
        let of_later = list_of(&two_with(&[(count_at(300), &[count])]));
        assert_eq!((of_first.is_empty(), of_later.is_empty()), (count <= 125, count <= 125), "{count}");
    }
}

#[test]
fn reading_13_4_the_cut() {
    // File number and data count stay; the sectors behind it are free, their bytes as they were.
    let mut image = two_with(&[(count_at(300), &[126])]);
    let before = image.clone();
    let expected = [(9, 125, 9, 8), (9, 126, 44, 0), (361, 33, 2, 1), (360, 3, 0xBE, 0xBF), (360, 47, 0xF7, 0xFF)];
    assert_eq!(run(&mut image), expected);
    assert_eq!(image[sector_at(0, 300)..][..SECTOR], before[sector_at(0, 300)..][..SECTOR]);
    assert_eq!(image[count_at(9)], 1);
    // The flag exactly $80, whatever it was, and nothing else of the entry: its count, though wrong, too.
    for flag in [0x40, 0x42, 0x62, 0x7F] {
        let image = two_with(&[(entry_at(0, 2), &[flag, 7, 7]), (first_at(2), &[0xD0, 0x02])]);
        let freed = [(360, 3, 0xBE, 0xC0), (360, 11, 0xBF, 0xFF), (360, 47, 0xF7, 0xFF)];
        assert_eq!(list_of(&image), [&[(361, 32, flag, 0x80)][..], &freed].concat(), "{flag:02X}");
    }
}

#[test]
fn reading_13_5_free_count_and_map() {
    let image = two_with(&[]);
    // Each bit of the map alone: that of sector 0 and the bytes behind it stay.
    for sector in 0..720 {
        let at = MAP + sector / 8;
        let wrong = image[at] ^ (0x80 >> (sector % 8));
        let list = list_of(&two_with(&[(at, &[wrong])]));
        let expected = if sector == 0 { vec![] } else { vec![(360, 10 + sector / 8, wrong, image[at])] };
        assert_eq!(list, expected, "{sector}");
    }
    for place in (0..3).chain(5..10).chain(100..128) {
        assert_eq!(list_of(&two_with(&[(359 * SECTOR + place, &[0xFF])])), [], "{place}");
    }
    // Sector 0's bit as it was, in either case, when the byte changes.
    for zero in [0, 0x80] {
        assert_eq!(list_of(&two_with(&[(MAP, &[zero])])), [(360, 10, zero, zero | 0x01)]);
    }
    for (count, expected) in [
        ([0xBE, 2], vec![]),
        ([0xBF, 2], vec![(360, 3, 0xBF, 0xBE)]),
        ([0xBE, 0], vec![(360, 4, 0, 2)]),
        ([2, 0xBE], vec![(360, 3, 2, 0xBE), (360, 4, 0xBE, 2)]),
    ] {
        assert_eq!(list_of(&two_with(&[(FREE_AT, &count)])), expected);
    }
    // Entries behind the end stay, whatever they say.
    assert_eq!(list_of(&two_with(&[(entry_at(0, 4), &entry(0x42, 9, 2, b"BEHIND     "))])), []);
}

#[test]
fn reading_13_6_the_lists_order() {
    let image = two_with(&[
        (link_at(4), &[3, 1]),
        (entry_at(0, 0) + 1, &[0, 1]),
        (entry_at(0, 2) + 1, &[0, 1]),
        (count_at(300), &[255]),
        (FREE_AT, &[0, 0]),
        (MAP, &[0xFF; 90]),
    ]);
    let list = list_of(&image);
    let mut places = vec![(4, 125), (4, 126), (361, 1), (361, 2)];
    places.extend([
        (9, 125),
        (9, 126),
        (361, 33),
        (361, 34),
        (360, 3),
        (360, 4),
        (360, 10),
        (360, 11),
        (360, 55),
        (360, 56),
    ]);
    assert_eq!(list.iter().map(|change| (change.0, change.1)).collect::<Vec<_>>(), places);
    assert_eq!(list[..4], [(4, 125, 3, 0), (4, 126, 1, 0), (361, 1, 0, 1), (361, 2, 1, 0)]);
}

/// The chains of an image as they lie, by entry: no sector is judged.
fn chains(image: &[u8]) -> Vec<Vec<usize>> {
    let mut chains = Vec::new();
    for file in 0..64 {
        let entry = &image[360 * 128 + 16 * file..][..16];
        if entry[0] == 0 {
            break;
        }
        if entry[0] & 0xC0 != 0x40 {
            continue;
        }
        let (mut chain, mut sector) = (Vec::new(), usize::from(entry[3]) + 256 * usize::from(entry[4]));
        while sector != 0 && chain.len() < 720 {
            chain.push(sector);
            let end = &image[128 * sector - 3..128 * sector];
            sector = 256 * usize::from(end[0] & 3) + usize::from(end[1]);
        }
        chains.push(chain);
    }
    chains
}

/// "Each usable sector is reserved, free, or in exactly one file, and the three numbers add up to 719, each counted from the
/// chains and the reserved list, none by subtraction": the three numbers.
fn partition(image: &[u8]) -> [usize; 3] {
    let reserved: Vec<usize> = vec![1, 2, 3, 360, 361, 362, 363, 364, 365, 366, 367, 368];
    let in_files: Vec<usize> = chains(image).concat();
    let mut free = Vec::new();
    for sector in 1..=719 {
        if !reserved.contains(&sector) && !in_files.contains(&sector) {
            free.push(sector);
        }
    }
    let mut all = [&reserved[..], &in_files, &free].concat();
    all.sort();
    assert_eq!(all, (1..=719).collect::<Vec<usize>>(), "each sector once");
    // The new map and the free count say the same.
    let on_map = |sector: &usize| image[MAP + sector / 8] >> (7 - sector % 8) & 1 == 1;
    assert_eq!((1..=719).filter(on_map).collect::<Vec<usize>>(), free);
    assert_eq!(usize::from(image[FREE_AT]) + 256 * usize::from(image[FREE_AT + 1]), free.len());
    [reserved.len(), in_files.len(), free.len()]
}

/// All that is promised of a run, on an image of any bytes.
fn promises(image: &[u8]) -> Vec<Listed> {
    let mut new = image.to_vec();
    let list = run(&mut new);
    assert!(list.len() <= 348);
    // "A sound image is left untouched with an empty list", and only that one; what the doctor leaves is sound.
    assert_eq!(list.is_empty(), is_sound(image));
    assert!(is_sound(&new));
    assert_eq!(list_of(&new), []);
    let [reserved, in_files, free] = partition(&new);
    assert_eq!(reserved, 12);
    assert_eq!(12 + in_files + free, 719);
    // The sector counts are the chains' lengths.
    let counts = files(&new).into_iter().map(|file| {
        let entry = &new[entry_at(0, file)..];
        usize::from(entry[1]) + 256 * usize::from(entry[2])
    });
    assert_eq!(counts.collect::<Vec<_>>(), chains(&new).iter().map(Vec::len).collect::<Vec<_>>());
    // The doctor that is written here once more does the same.
    let mut again = image.to_vec();
    assert_eq!(another(&mut again, ""), list);
    assert!(again == new);
    list
}

#[test]
fn reading_13_8_13_9_the_images_of_scripts() {
    let mut numbers = BTreeMap::new();
    for seed in 0..8 {
        let mut player = Player::new();
        let mut rounds = 0;
        for op in script(seed) {
            if let Op::Doctor { image: image @ 0..=3 } = op {
                let image = &player.stick.images[IMAGE * usize::from(image)..][..IMAGE];
                *numbers.entry(promises(image).len().min(20)).or_insert(0) += 1;
                rounds += 1;
            }
            player.play(&op, &mut Vec::new());
        }
        assert!(rounds >= ROUNDS * 9 / 10);
    }
    // From none to many changes.
    assert!((0..=20).all(|changes| numbers.contains_key(&changes)), "{numbers:?}");
}

#[test]
fn reading_13_8_13_9_images_of_any_bytes() {
    let mut random = Random::new(13);
    for round in 0..60 {
        let mut image: Vec<u8> = (0..IMAGE).map(|_| random.byte()).collect();
        // First sectors that there are, and sectors that are good.
        for file in 0..64 {
            let first = random.below(if round % 2 == 0 { 720 } else { 1_100 });
            image[first_at(file)..][..2].copy_from_slice(&(first as u16).to_le_bytes());
            image[entry_at(0, file)] = random.pick(&[0x42, 0x42, 0x42, 0x62, 0x80]);
        }
        for sector in 1..=720 {
            let owner = if round % 3 == 0 { random.below(4) } else { random.below(64) };
            image[link_at(sector)..][..2].copy_from_slice(&link(owner, random.below(740)));
            image[count_at(sector)] = random.below(128) as u8;
        }
        promises(&image);
    }
    let mut most = vec![0; IMAGE];
    lay_on(&mut most, &most_changes());
    for image in [vec![0; IMAGE], vec![0xFF; IMAGE], vec![0x42; IMAGE], most, two_with(&[]), hello_with(&[])] {
        promises(&image);
    }
}

#[test]
fn reading_13_9_sound_images() {
    // As DOS 2.0S writes them, and one file over all sectors that a file may have.
    for image in [hello_with(&[]), two_with(&[]), image_of(&Diskette::new())] {
        assert!(is_sound(&image));
        assert_eq!(list_of(&image), []);
    }
    let all: Vec<(usize, Vec<u8>)> =
        (1..=719).rev().filter(|sector| !is_reserved(*sector)).map(|sector| (sector, vec![b'A'; 125])).collect();
    let mut diskette = Diskette::new();
    diskette.add(USED, b"ALL        ", &all);
    let mut image = image_of(&diskette);
    assert_eq!(list_of(&image), []);
    assert_eq!(partition(&image), [12, 707, 0]);
    // A ring of all of them.
    image[link_at(4)..][..2].copy_from_slice(&link(0, 719));
    assert_eq!(list_of(&image), [(4, 125, 2, 0), (4, 126, 0xCF, 0)]);
    // Each thing that is not right by itself.
    for changed in [
        (link_at(4), &[1, 0x69][..]),
        (first_at(0), &[2]),
        (entry_at(0, 0) + 1, &[2]),
        (entry_at(0, 0) + 2, &[1]),
        (FREE_AT, &[0xC1]),
        (MAP + 1, &[0xFE]),
    ] {
        assert!(!is_sound(&hello_with(&[changed])));
        assert_ne!(list_of(&hello_with(&[changed])), []);
    }
}

// ---- what the random scripts see ----

/// The doctor's scripts of `./test`, which has 2,000 conversations (`tests/reach.rs` sees to it).
const SCRIPTS: u64 = 2_000 / CONVERSATIONS;

#[test]
fn each_kind_of_image_is_seen() {
    let mut figures = Figures::default();
    for seed in 1..=SCRIPTS {
        let (difference, played) = compare(&script(seed), &mut Another("")).unwrap();
        assert_eq!(difference, None);
        figures.add(&played);
    }
    assert!(figures.doctors >= SCRIPTS * ROUNDS as u64);
    for kind in KINDS {
        assert!(figures.kinds.get(kind).copied().unwrap_or(0) >= 10, "{kind}");
    }
    assert_eq!(figures.kinds.len(), KINDS.len());
    // In the conversations, too.
    let mut figures = Figures::default();
    for seed in 1..=400 {
        let (difference, played) = compare(&conversation(seed, false), &mut Another("")).unwrap();
        assert_eq!(difference, None);
        figures.add(&played);
    }
    assert!(figures.doctors > 100 && figures.kinds["nothing to change"] * 2 < figures.doctors, "{figures:?}");
}

/// A kind is that of the image, and not of one beside it.
#[test]
fn what_kinds_are() {
    let new = |image: &[u8]| -> Vec<&str> {
        let sound = kinds(&two_with(&[]));
        kinds(image).into_iter().filter(|kind| !sound.contains(kind)).collect()
    };
    assert_eq!(kinds(&hello_with(&[])), ["nothing to change"]);
    assert_eq!(kinds(&two_with(&[])), ["file locked", "file behind one not in use", "nothing to change"]);
    for (changed, names) in [
        ((link_at(6), &[0, 3][..]), &["link to a reserved sector", "link to a reserved sector, else good"][..]),
        ((link_at(6), &[2, 0xD0]), &["link above 719", "link to 720, else good"]),
        ((link_at(6), &[2, 0xD1]), &["link above 719"]),
        ((link_at(6), &[3, 0]), &["link above 719"]),
        ((link_at(300), &[8, 5]), &["link into an earlier file"]),
        ((link_at(6), &[0, 4]), &["link back into the file"]),
        ((link_at(6), &[0, 9]), &["link to another file number"]),
        ((count_at(6), &[126]), &["link to a count above 125"]),
        ((first_at(0), &[2]), &["first reserved"]),
        ((first_at(0), &[0xD0, 2]), &["first above 719"]),
        ((first_at(0), &[4, 4]), &["first above 1023"]),
        ((first_at(2), &[4]), &["first in an earlier file"]),
        ((first_at(0), &[9]), &["first of another file number"]),
        ((count_at(4), &[126]), &["first of a count above 125"]),
        ((first_at(0), &[0]), &["first 0"]),
        ((entry_at(0, 0) + 1, &[2]), &["count too low", "count wrong in its low byte"]),
        ((entry_at(0, 0) + 2, &[1]), &["count too high", "count wrong in its high byte"]),
        ((FREE_AT, &[0]), &["free count wrong in its low byte"]),
        ((FREE_AT + 1, &[0]), &["free count wrong in its high byte"]),
        ((MAP + 2, &[0xFE]), &["free sector not on the map"]),
        ((MAP, &[0x05]), &["claimed sector on the map"]),
        ((MAP, &[0x41]), &["reserved sector on the map"]),
        ((MAP, &[0x81]), &["sector 0 on the map"]),
        ((MAP + 90, &[1]), &["bytes behind the map"]),
        ((entry_at(0, 1), &[0]), &["in use behind the end"]),
    ] {
        let seen = new(&two_with(&[changed]));
        // What follows of it is of other kinds.
        assert!(names.iter().all(|name| seen.contains(name)), "{names:?}: {seen:?}");
        let of_walk = |kind: &&&str| kind.starts_with("link") || kind.starts_with("first");
        let (told, named): (Vec<&&str>, Vec<&&str>) =
            (seen.iter().filter(of_walk).collect(), names.iter().filter(of_walk).collect());
        assert_eq!(told, named);
    }
}

// ---- another doctor, and its slips ----

/// The doctor once more: each file is walked, cut and counted before the next, and each change is made and listed at once. A slip
/// is one of the wrong machines.
fn another(image: &mut [u8], slip: &str) -> Vec<Listed> {
    let reserved =
        |sector: usize| matches!(sector, 1..=3 | 360..=368) && slip != format!("sector {sector} is not reserved");
    let mut list = Vec::new();
    let mut set = |image: &mut [u8], sector: usize, place: usize, new: u8| {
        let byte = &mut image[128 * (sector - 1) + place];
        if *byte != new || slip == "unchanged bytes are listed" {
            list.push((sector, place, *byte, new));
            *byte = new;
        }
    };
    let mut claimed = vec![false; 65_536];
    for file in 0..64 {
        let (sector, place) = (361 + file / 8, file % 8 * 16);
        let entry: Vec<u8> = image[128 * (sector - 1) + place..][..16].to_vec();
        if entry[0] == 0 {
            match slip {
                "entries behind the end are walked" => continue,
                _ => break,
            }
        }
        if entry[0] & 0x80 != 0 && slip == "a deleted entry ends the directory" {
            break;
        }
        if entry[0] & 0x40 == 0 || (entry[0] & 0x80 != 0 && slip != "deleted entries are walked") {
            continue;
        }
        if entry[0] & 0x20 != 0 && slip == "locked files are passed over" {
            continue;
        }
        if slip == "claims are forgotten from file to file" {
            claimed.fill(false);
        }
        let mut next = usize::from(entry[3]) + 256 * usize::from(entry[4]);
        if slip == "a first sector has ten bits" {
            next %= 1_024;
        }
        let (mut last, mut count, mut bad) = (0, 0usize, false);
        while next != 0 {
            let highest = match slip {
                "720 may be in a file" => 720,
                "719 may not be in a file" => 718,
                _ => 719,
            };
            let most = match slip {
                "a data count of 126 is good" => 126,
                "a data count of 125 is bad" => 124,
                _ => 125,
            };
            let end = if next > 720 { [0; 3] } else { [0, 1, 2].map(|byte| image[128 * next - 3 + byte]) };
            let ring = claimed[next] && end[0] >> 2 == file as u8;
            bad = reserved(next)
                || next > highest
                || (claimed[next] && !(ring && slip == "a ring goes on" && count < 719))
                || (usize::from(end[0] >> 2) != file && slip != "the file number is not looked at")
                || (end[2] > most && slip != "the data count is not looked at");
            if bad && slip == "the cut is behind the bad sector" && next <= 719 {
                (last, count) = (next, count + 1);
                claimed[next] = true;
            }
            if bad {
                break;
            }
            claimed[next] = true;
            (last, count) = (next, count + 1);
            next = 256 * usize::from(end[0] & 3) + usize::from(end[1]);
        }
        if bad && last == 0 {
            let flag = if slip == "$80 is added to the flag" { entry[0] | 0x80 } else { 0x80 };
            set(image, sector, place, flag);
            if slip == "count and first are cleared with the flag" {
                for byte in 1..5 {
                    set(image, sector, place + byte, 0);
                }
            }
            if slip == "the count of a file with a bad first sector is set" {
                set(image, sector, place + 1, 0);
                set(image, sector, place + 2, 0);
            }
            continue;
        }
        if count == 0 && slip == "an empty file is deleted" {
            set(image, sector, place, 0x80);
            continue;
        }
        if bad {
            let high = image[128 * last - 3];
            set(image, last, 125, if slip == "byte 125 is cleared whole" { 0 } else { high & 0xFC });
            set(image, last, 126, 0);
            if slip == "the data count is cleared with the link" {
                set(image, last, 127, 0);
            }
        }
        set(image, sector, place + 1, count as u8);
        if slip != "a count has one byte" {
            set(image, sector, place + 2, (count >> 8) as u8);
        }
    }
    let is_free = |sector: usize| {
        let kept_apart = reserved(sector) && slip != "reserved sectors are free";
        (1..=719).contains(&sector) && !kept_apart && !claimed[sector]
    };
    let free = (1..=719).filter(|&sector| is_free(sector)).count();
    set(image, 360, 3, free as u8);
    set(image, 360, 4, (free >> 8) as u8);
    for byte in 0..if slip == "the map's last byte is left" { 89 } else { 90 } {
        let mut bits = 0;
        for sector in 8 * byte..8 * byte + 8 {
            bits = 2 * bits + u8::from(is_free(sector));
        }
        if byte == 0 {
            bits |= match slip {
                "sector 0's bit is set" => 0x80,
                "sector 0's bit is cleared" => 0,
                _ => image[MAP] & 0x80,
            };
        }
        set(image, 360, 10 + byte, bits);
    }
    if slip == "the bytes behind the map are cleared" {
        for place in 100..128 {
            set(image, 360, place, 0);
        }
    }
    if slip == "sector 360 is listed first" {
        list.sort_by_key(|change| change.0 != 360);
    }
    list
}

/// The model with that doctor.
struct Another(&'static str);

impl Real for Another {
    fn run(&mut self, script: &[u8]) -> Result<Vec<u8>, String> {
        let (mut player, mut output) = (Player::new(), Vec::new());
        for op in ops_of(script) {
            if let Op::Doctor { image: image @ 0..=3 } = op {
                let list = another(&mut player.stick.images[IMAGE * usize::from(image)..][..IMAGE], self.0);
                output.push(0);
                output.extend((list.len() as u16).to_le_bytes());
                for (sector, place, old, new) in list {
                    output.extend((sector as u16).to_le_bytes());
                    output.extend([place as u8, old, new]);
                }
            } else if !player.play(&op, &mut output) {
                break;
            }
        }
        Ok(output)
    }
}

/// The wrong machines of Ask 13, and more; each with an image on which it is seen.
fn wrong_machines() -> Vec<(&'static str, Vec<u8>)> {
    let good = |file: usize, sector: usize| (link_at(sector), [link(file, 0)[0], 0, 0]);
    let (boot, beyond, last) = (good(0, 3), good(0, 720), good(0, 719));
    let hidden = entry(0x42, 1, 30, b"HIDDEN     ");
    let reserved = |sector: usize| {
        let (at, bytes) = good(0, sector);
        hello_with(&[(link_at(4), &link(0, sector)), (at, &bytes)])
    };
    let mut machines = vec![
        ("byte 125 is cleared whole", two_with(&[(count_at(300), &[126])])),
        ("the cut is behind the bad sector", hello_with(&[(link_at(4), &link(0, 3)), (boot.0, &boot.1)])),
        ("claims are forgotten from file to file", two_with(&[])),
        ("$80 is added to the flag", hello_with(&[(first_at(0), &[2])])),
        ("count and first are cleared with the flag", hello_with(&[(first_at(0), &[2])])),
        ("reserved sectors are free", hello_with(&[])),
        ("sector 0's bit is set", hello_with(&[])),
        ("sector 0's bit is cleared", two_with(&[(MAP, &[0x81])])),
        ("unchanged bytes are listed", hello_with(&[])),
        ("entries behind the end are walked", two_with(&[(entry_at(0, 4), &hidden)])),
        ("a deleted entry ends the directory", two_with(&[])),
        ("deleted entries are walked", two_with(&[(entry_at(0, 1), &[0xC2])])),
        ("locked files are passed over", two_with(&[])),
        ("a first sector has ten bits", hello_with(&[(first_at(0), &[4, 4])])),
        ("720 may be in a file", hello_with(&[(link_at(4), &link(0, 720)), (beyond.0, &beyond.1)])),
        ("719 may not be in a file", hello_with(&[(link_at(4), &link(0, 719)), (last.0, &last.1)])),
        ("a data count of 126 is good", two_with(&[(count_at(300), &[126])])),
        ("a data count of 125 is bad", two_with(&[(count_at(300), &[125])])),
        ("a ring goes on", two_with(&[(link_at(6), &link(0, 4))])),
        ("the file number is not looked at", two_with(&[(link_at(6), &link(0, 20))])),
        ("the data count is not looked at", two_with(&[(count_at(300), &[255])])),
        ("the count of a file with a bad first sector is set", hello_with(&[(first_at(0), &[2])])),
        ("an empty file is deleted", hello_with(&[(first_at(0), &[0])])),
        ("the data count is cleared with the link", hello_with(&[(link_at(4), &link(0, 720))])),
        ("a count has one byte", hello_with(&[(entry_at(0, 0) + 2, &[1])])),
        ("the map's last byte is left", hello_with(&[(MAP + 89, &[0xFE])])),
        ("the bytes behind the map are cleared", hello_with(&[(MAP + 90, &[1])])),
        ("sector 360 is listed first", hello_with(&[(first_at(0), &[2])])),
    ];
    machines.extend([
        ("sector 1 is not reserved", reserved(1)),
        ("sector 2 is not reserved", reserved(2)),
        ("sector 3 is not reserved", reserved(3)),
        ("sector 360 is not reserved", reserved(360)),
        ("sector 361 is not reserved", reserved(361)),
        ("sector 362 is not reserved", reserved(362)),
        ("sector 363 is not reserved", reserved(363)),
        ("sector 364 is not reserved", reserved(364)),
        ("sector 365 is not reserved", reserved(365)),
        ("sector 366 is not reserved", reserved(366)),
        ("sector 367 is not reserved", reserved(367)),
        ("sector 368 is not reserved", reserved(368)),
    ]);
    machines
}

#[test]
fn wrong_machines_are_seen_on_their_images() {
    for (slip, image) in wrong_machines() {
        let (mut model, mut right, mut wrong) = (image.clone(), image.clone(), image.clone());
        let list = run(&mut model);
        assert_eq!(another(&mut right, ""), list, "{slip}");
        assert!(right == model, "{slip}");
        assert_ne!(another(&mut wrong, slip), list, "{slip}");
        promises(&image);
    }
}

#[test]
fn wrong_machines_are_seen_by_the_random_scripts() {
    for (slip, _) in wrong_machines() {
        let seen = |seed: &u64| compare(&script(*seed), &mut Another(slip)).unwrap().0.is_some();
        let seed = (1..=SCRIPTS).find(seen).unwrap_or_else(|| panic!("{slip} is not seen"));
        assert!(seed <= SCRIPTS / 4, "{slip} is seen late, at {seed}");
    }
}

#[test]
fn a_wrong_machine_is_told_and_shortened() {
    let slip = "the bytes behind the map are cleared";
    let ops = (1..).map(script).find(|ops| compare(ops, &mut Another(slip)).unwrap().0.is_some()).unwrap();
    let mut budget = Budget { trials: 3_000, end: Instant::now() + Duration::from_secs(60) };
    let short = shorten(&ops, &mut Another(slip), &mut budget);
    // A byte behind the map of the image, and the doctor on it.
    let [Op::Write { buffer: 6, bytes, .. }, Op::Doctor { .. }] = &short[..] else { panic!("{}", to_text(&short)) };
    assert_eq!(bytes.len(), 1);
    let difference = compare(&short, &mut Another(slip)).unwrap().0.unwrap();
    assert_eq!(difference.place, 1);
    assert!(difference.model.starts_with("answer 0, 91 changes; behind 91 of them"), "{}", difference.model);
    assert!(difference.real.starts_with("answer 0, 92 changes; behind 91 of them; sector 360 place 1"));
}
