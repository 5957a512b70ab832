/* doctor [IMAGES [SEED]]: the diskette doctor: the paper's worked bytes, every next sector, file number, data count and
 * flag that a walk can meet, an image with the most changes, buffers of another length, and some thousand random images.
 *
 * Of every run all is looked at. It ends; each listed byte differs, stands once and in its order; replaying the list on
 * the old image gives the new one, and undoing it the old one; the list behind the last change stays. The new image is
 * what the rules make of the old one, here written a second time, and by itself it is sound; a second run changes
 * nothing. Image and list stand between guard pages. No stick is started: the doctor needs none. */
#define _GNU_SOURCE /* MAP_NORESERVE */
#include "fixlomand.h"
#include "guard.h"

#include <inttypes.h>
#include <signal.h>
#include <stdio.h>
#include <stdlib.h>
#include <string.h>
#include <sys/mman.h>
#include <unistd.h>

enum { LEN = FIXLOMAND_IMAGE_LEN, LIST = FIXLOMAND_LIST_LEN, CHANGE = FIXLOMAND_CHANGE_LEN };
enum { LAST_SECTOR = 719, RESERVED = 12, USABLE = LAST_SECTOR - RESERVED, FILES = FIXLOMAND_ENTRIES };
/* the places in sector 360 and in a file's sectors, and an entry's bytes */
enum { FREE_COUNT = 3, MAP = 10, MAP_END = 100, LINK = 125, DATA_COUNT = 127, MOST_DATA = 125 };
enum { DIRECTORY = 361, DIRECTORY_END = 368, ENTRY_LEN = 16, FLAG = 0, COUNT = 1, FIRST = 3 };
enum { DELETED = 0x80, IN_USE = 0x42, LOCKED = 0x62 };
/* seconds after which a run is taken for one that does not end */
enum { PATIENCE = 30 };

static uint8_t *image, *list;
static uint8_t old[LEN], right[LEN], other[LEN], lent_list[LIST];
static unsigned long runs, checks, changed, cuts, deletions;

/* ---- an image's parts ---- */

static uint8_t *at(uint8_t *in, unsigned sector, unsigned place)
{
    return in + FIXLOMAND_SECTOR(1, sector) + place;
}

static uint8_t *entry_of(uint8_t *in, unsigned file)
{
    return at(in, DIRECTORY, ENTRY_LEN * file); /* the directory's sectors lie one after the other */
}

static unsigned two(const uint8_t *bytes)
{
    return bytes[0] + 256u * bytes[1];
}

static void put_two(uint8_t *bytes, unsigned number)
{
    bytes[0] = (uint8_t)number;
    bytes[1] = (uint8_t)(number >> 8);
}

static int is_reserved(unsigned sector)
{
    return (sector >= 1 && sector <= 3) || (sector >= 360 && sector <= 368);
}

static int in_use(uint8_t flag)
{
    return (flag & 0x40) != 0 && (flag & 0x80) == 0;
}

static unsigned next_of(uint8_t *in, unsigned sector)
{
    const uint8_t *bytes = at(in, sector, LINK);
    return 256u * (bytes[0] % 4) + bytes[1];
}

static unsigned map_bit(uint8_t *in, unsigned sector)
{
    return (*at(in, FIXLOMAND_MAP_SECTOR, MAP + sector / 8) >> (7 - sector % 8)) & 1u;
}

static void set_map_bit(uint8_t *in, unsigned sector, unsigned bit)
{
    uint8_t *byte = at(in, FIXLOMAND_MAP_SECTOR, MAP + sector / 8), mask = (uint8_t)(0x80 >> sector % 8);
    *byte = (uint8_t)(bit ? *byte | mask : *byte & ~mask);
}

/* ---- a run, and all that is said of it ---- */

/* "Order: by file 125, 126, count low, count high (or the flag alone); then 360's bytes 3, 4, 10 to 99": where in it a
 * byte stands, 0 for one that no run changes. A file's sector has its number, which no run changes. */
static unsigned rank(unsigned sector, unsigned place)
{
    static const uint8_t of_entry[ENTRY_LEN] = {[FLAG] = 1, [COUNT] = 3, [COUNT + 1] = 4};
    if (sector == FIXLOMAND_MAP_SECTOR)
        return place == 3 || place == 4 || (place >= MAP && place < MAP_END) ? 8 * FILES + place : 0;
    if (sector >= DIRECTORY && sector <= DIRECTORY_END)
        return of_entry[place % ENTRY_LEN] == 0
                   ? 0
                   : 8 * ((sector - DIRECTORY) * 8 + place / ENTRY_LEN) + of_entry[place % ENTRY_LEN];
    if (is_reserved(sector) || sector > LAST_SECTOR || (place != LINK && place != LINK + 1))
        return 0;
    return 8 * (*at(old, sector, LINK) / 4u) + 1 + place - LINK;
}

static void check_list(unsigned number, const char *what)
{
    unsigned before = 0;
    memcpy(other, image, LEN);
    for (const uint8_t *change = list; change < list + CHANGE * number; change += CHANGE) {
        unsigned sector = two(change + FIXLOMAND_CHANGE_SECTOR), place = change[FIXLOMAND_CHANGE_PLACE], now;
        if (sector < 1 || sector > LAST_SECTOR || place >= FIXLOMAND_SECTOR_LEN)
            fail("%s: the list has place %u of sector %u", what, place, sector);
        now = rank(sector, place);
        if (now == 0)
            fail("%s: the list has place %u of sector %u, which no run changes", what, place, sector);
        if (now <= before)
            fail("%s: place %u of sector %u stands behind its order, or twice", what, place, sector);
        if (change[FIXLOMAND_CHANGE_OLD] == change[FIXLOMAND_CHANGE_NEW])
            fail("%s: the list has place %u of sector %u, which did not change", what, place, sector);
        if (change[FIXLOMAND_CHANGE_OLD] != *at(old, sector, place))
            fail("%s: the list has another old byte for place %u of sector %u", what, place, sector);
        other[FIXLOMAND_CHANGE_AT(change)] = change[FIXLOMAND_CHANGE_OLD];
        before = now;
    }
    if (memcmp(other, old, LEN) != 0)
        fail("%s: undoing the list on the new image does not give the old one", what);
    for (const uint8_t *change = list; change < list + CHANGE * number; change += CHANGE)
        other[FIXLOMAND_CHANGE_AT(change)] = change[FIXLOMAND_CHANGE_NEW];
    if (memcmp(other, image, LEN) != 0)
        fail("%s: replaying the list on the old image does not give the new one", what);
    if (memcmp(list + CHANGE * number, lent_list + CHANGE * number, LIST - CHANGE * number) != 0)
        fail("%s: the list behind change %u did not stay as lent", what, number);
}

/* What the rules make of the old image. */
static void set_right(void)
{
    static uint8_t claimed[LAST_SECTOR + 1];
    unsigned free_sectors = 0;
    memcpy(right, old, LEN);
    memset(claimed, 0, sizeof claimed);
    for (unsigned file = 0; file < FILES && *entry_of(old, file) != 0; file++) {
        uint8_t *entry = entry_of(right, file);
        unsigned sector = two(entry + FIRST), kept = 0, last = 0;
        if (!in_use(entry[FLAG]))
            continue;
        while (sector != 0 && sector <= LAST_SECTOR && !is_reserved(sector) && !claimed[sector] &&
               *at(old, sector, LINK) / 4 == (int)file && *at(old, sector, DATA_COUNT) <= MOST_DATA) {
            claimed[sector] = 1;
            kept++;
            last = sector;
            sector = next_of(old, sector);
        }
        if (sector != 0 && kept == 0) {
            entry[FLAG] = DELETED;
            deletions++;
            continue;
        }
        if (sector != 0) {
            *at(right, last, LINK) &= 0xFC;
            *at(right, last, LINK + 1) = 0;
            cuts++;
        }
        put_two(entry + COUNT, kept);
    }
    for (unsigned sector = 1; sector <= LAST_SECTOR; sector++) {
        unsigned is_free = !is_reserved(sector) && !claimed[sector];
        set_map_bit(right, sector, is_free);
        free_sectors += is_free;
    }
    put_two(at(right, FIXLOMAND_MAP_SECTOR, FREE_COUNT), free_sectors);
}

static void check_right(const char *what)
{
    set_right();
    if (memcmp(image, right, LEN) == 0)
        return;
    for (unsigned i = 0; i < LEN; i++)
        if (image[i] != right[i])
            fail("%s: place %u of sector %u was $%02X and is $%02X, not $%02X", what, i % FIXLOMAND_SECTOR_LEN,
                 i / FIXLOMAND_SECTOR_LEN + 1, old[i], image[i], right[i]);
}

/* "Outside 360 to 368 only a link changes, and only to 0." */
static void check_links(const char *what)
{
    for (unsigned sector = 1; sector <= FIXLOMAND_SECTORS; sector++) {
        const uint8_t *was = at(old, sector, 0), *is = at(image, sector, 0);
        if (sector >= 360 && sector <= 368)
            continue;
        for (unsigned place = 0; place < FIXLOMAND_SECTOR_LEN && memcmp(was, is, FIXLOMAND_SECTOR_LEN) != 0; place++)
            if (is[place] != was[place] && !(place == LINK && is[place] == (was[place] & 0xFC)) &&
                !(place == LINK + 1 && is[place] == 0))
                fail("%s: place %u of sector %u was $%02X and is $%02X", what, place, sector, was[place], is[place]);
    }
}

/* "Afterwards each usable sector is reserved, free, or in exactly one file, and the three numbers add up to 719, each
 * counted": the files' by their chains, the free ones by the map. It looks at the new image alone. */
static void check_sound(const char *what)
{
    unsigned in_file[LAST_SECTOR + 1] = {0}, reserved = 0, in_files = 0, free_sectors = 0;
    for (unsigned file = 0; file < FILES && *entry_of(image, file) != 0; file++) {
        const uint8_t *entry = entry_of(image, file);
        unsigned length = 0;
        if (!in_use(entry[FLAG]))
            continue;
        for (unsigned sector = two(entry + FIRST); sector != 0; sector = next_of(image, sector)) {
            if (sector > LAST_SECTOR)
                fail("%s: file %u goes to sector %u", what, file, sector);
            if (*at(image, sector, LINK) / 4 != (int)file || *at(image, sector, DATA_COUNT) > MOST_DATA)
                fail("%s: file %u has the bad sector %u", what, file, sector);
            if (in_file[sector] != 0)
                fail("%s: sector %u is twice in a chain", what, sector);
            in_file[sector] = 1;
            length++;
        }
        if (two(entry + COUNT) != length)
            fail("%s: file %u has %u sectors, and its count is %u", what, file, length, two(entry + COUNT));
        in_files += length;
    }
    for (unsigned sector = 1; sector <= LAST_SECTOR; sector++) {
        unsigned is_free = map_bit(image, sector);
        if (is_reserved(sector) + in_file[sector] + is_free != 1)
            fail("%s: of reserved, in a file and free sector %u is %d, %u and %u", what, sector, is_reserved(sector),
                 in_file[sector], is_free);
        reserved += is_reserved(sector) != 0;
        free_sectors += is_free;
    }
    if (reserved != RESERVED || reserved + in_files + free_sectors != LAST_SECTOR)
        fail("%s: %u sectors reserved, %u in files, %u free", what, reserved, in_files, free_sectors);
    if (two(at(image, FIXLOMAND_MAP_SECTOR, FREE_COUNT)) != free_sectors)
        fail("%s: %u sectors are free, and the free count is %u", what, free_sectors,
             two(at(image, FIXLOMAND_MAP_SECTOR, FREE_COUNT)));
}

static void fill_list(void)
{
    for (unsigned i = 0; i < LIST; i++)
        list[i] = lent_list[i] = (uint8_t)(i * 37 + i / 251 + runs);
}

static void endless(int number)
{
    static const char text[] = "FAIL: doctor: a run does not end\n";
    (void)number;
    _exit(write(STDERR_FILENO, text, sizeof text - 1) < 0 ? 2 : 1);
}

static uint32_t called(uint8_t *its_image, size_t image_len, uint8_t *its_list, size_t list_len)
{
    runs++;
    guard_number = runs;
    alarm(PATIENCE);
    return fixlomand_doctor(its_image, image_len, its_list, list_len);
}

static uint32_t run(void)
{
    return called(image, LEN, list, LIST);
}

/* Runs the doctor on the image that lies there, looks at all of it, and runs it again; how many changes. */
static unsigned doctored(const char *what)
{
    uint32_t given;
    unsigned number;
    memcpy(old, image, LEN);
    fill_list();
    given = run();
    number = FIXLOMAND_CHANGES(given);
    if (FIXLOMAND_ANSWER(given) != FIXLOMAND_DONE)
        fail("%s: answer %u", what, FIXLOMAND_ANSWER(given));
    if (number > FIXLOMAND_CHANGES_MOST)
        fail("%s: %u changes", what, number);
    check_list(number, what);
    check_links(what);
    check_sound(what);
    check_right(what);
    memcpy(lent_list, list, LIST);
    given = run();
    if (given != FIXLOMAND_DONE || memcmp(image, right, LEN) != 0 || memcmp(list, lent_list, LIST) != 0)
        fail("%s: a second run answers $%" PRIX32 ", or changes something", what, given);
    checks++;
    changed += number;
    return number;
}

static void want(unsigned long got, unsigned long wanted, const char *what)
{
    checks++;
    if (got != wanted)
        fail("%s gives %lu ($%02lX), not %lu ($%02lX)", what, got, got, wanted, wanted);
}

/* A run whose list is these bytes, in hexadecimal. */
static void want_list(const char *text, const char *what)
{
    uint8_t wanted[LIST];
    size_t length = 0;
    char *end;
    for (; *text != 0; text = end) {
        wanted[length++] = (uint8_t)strtoul(text, &end, 16);
        if (end == text)
            fail("no bytes: '%s'", text);
    }
    want(doctored(what), length / CHANGE, what);
    if (memcmp(list, wanted, length) != 0)
        fail("%s: the list has other bytes", what);
}

/* ---- images ---- */

static void write_entry(unsigned file, unsigned flag, unsigned sectors, unsigned first)
{
    uint8_t *entry = entry_of(image, file);
    entry[FLAG] = (uint8_t)flag;
    put_two(entry + COUNT, sectors);
    put_two(entry + FIRST, first);
    memcpy(entry + FIRST + 2, "HELLO   TXT", FIXLOMAND_NAME_LEN);
}

static void write_link(unsigned sector, unsigned file, unsigned next, unsigned data_count)
{
    uint8_t *bytes = at(image, sector, LINK);
    bytes[0] = (uint8_t)(4 * file + next / 256);
    bytes[1] = (uint8_t)next;
    bytes[2] = (uint8_t)data_count;
}

/* One file, HELLO.TXT, entry 0, sector 4, three characters; 719 - 12 - 1 = 706 sectors are free. */
static void hello(void)
{
    memset(image, 0, LEN);
    write_entry(0, IN_USE, 1, 4);
    memcpy(at(image, 4, 0), "HI\x9B", 3);
    write_link(4, 0, 0, 3);
    put_two(at(image, FIXLOMAND_MAP_SECTOR, FREE_COUNT), 706);
    memset(at(image, FIXLOMAND_MAP_SECTOR, MAP), 0xFF, MAP_END - MAP);
    *at(image, FIXLOMAND_MAP_SECTOR, MAP) = 0x07;
    *at(image, FIXLOMAND_MAP_SECTOR, MAP + 45) = 0x00;
    *at(image, FIXLOMAND_MAP_SECTOR, MAP + 46) = 0x7F;
}

/* The usable sectors, in their order. */
static uint16_t usable[USABLE];

static void find_usable(void)
{
    unsigned found = 0;
    for (unsigned sector = 1; sector <= LAST_SECTOR; sector++)
        if (!is_reserved(sector))
            usable[found++] = (uint16_t)sector;
}

/* Gives a file the usable sectors from the one place to the other, and its entry their number and the first. */
static void write_file(unsigned file, unsigned flag, unsigned from, unsigned to)
{
    write_entry(file, flag, to - from, from < to ? usable[from] : 0);
    for (unsigned i = from; i < to; i++)
        write_link(usable[i], file, i + 1 < to ? usable[i + 1] : 0, MOST_DATA);
}

/* Free count and map for the usable sectors from this place on. */
static void write_free(unsigned from)
{
    put_two(at(image, FIXLOMAND_MAP_SECTOR, FREE_COUNT), USABLE - from);
    for (unsigned sector = 1; sector <= LAST_SECTOR; sector++)
        set_map_bit(image, sector, 0);
    for (unsigned i = from; i < USABLE; i++)
        set_map_bit(image, usable[i], 1);
}

/* An image with the most changes: each of 64 files is cut, both bytes of all its numbers wrong, as is each byte of the
 * map. */
static void most_wrong(void)
{
    memset(image, 0xA7, LEN);
    for (unsigned file = 0; file < FILES; file++) {
        write_file(file, file % 2 ? LOCKED : IN_USE, 3 * file, 3 * file + 3);
        put_two(entry_of(image, file) + COUNT, 0x0104);
        write_link(usable[3 * file + 2], file, 0x0169, 0);
    }
    write_free(3 * FILES);
    for (unsigned i = 0; i < MAP_END - MAP; i++)
        *at(image, FIXLOMAND_MAP_SECTOR, MAP + i) ^= 0xFF;
    put_two(at(image, FIXLOMAND_MAP_SECTOR, FREE_COUNT), 0xFFFF);
}

/* ---- the paper's bytes ---- */

static void check_worked(void)
{
    hello();
    want_list("", "the worked example");
    write_link(4, 0, 361, 3);
    put_two(entry_of(image, 0) + COUNT, 2);
    want_list("04 00 7D 01 00  04 00 7E 69 00  69 01 01 02 01", "a link to 361, and count 2");
    want_list("", "the image that it left");
    put_two(entry_of(image, 0) + FIRST, 2);
    want_list("69 01 00 42 80  68 01 03 C2 C3  68 01 0A 07 0F", "first sector 2");
    want(*entry_of(image, 0), DELETED, "its flag");
    hello();
    write_entry(1, IN_USE, 1, 4);
    want_list("69 01 10 42 80", "a second entry with first sector 4");
    hello();
    put_two(entry_of(image, 0) + FIRST, 0);
    want_list("69 01 01 01 00  68 01 03 C2 C3  68 01 0A 07 0F", "first 0 and count 1");
    memset(image, 0, LEN);
    want(doctored("an image of zeros"), 91, "an image of zeros");
    want(two(at(image, FIXLOMAND_MAP_SECTOR, FREE_COUNT)), 707, "its free count");
    for (unsigned i = 0; i < MAP_END - MAP; i++)
        want(*at(image, FIXLOMAND_MAP_SECTOR, MAP + i), i == 0 ? 0x0F : i == 45 ? 0x00 : i == 46 ? 0x7F : 0xFF,
             "a byte of its map");
}

/* ---- everything that a walk can meet ---- */

/* Every sector is a good one of file 0, but for the map and the directory. */
static void all_good(void)
{
    hello();
    for (unsigned sector = 1; sector <= FIXLOMAND_SECTORS; sector++)
        if (sector < 360 || sector > 368)
            write_link(sector, 0, 0, 1);
}

/* How many sectors of a file are kept whose first has this next one. */
static unsigned kept_with_next(unsigned next)
{
    all_good();
    write_link(4, 0, next, 1);
    doctored("a next sector");
    want(*entry_of(image, 0), IN_USE, "the flag of a file with a sector");
    want(two(entry_of(image, 0) + FIRST), 4, "the first sector of a file with a sector");
    return two(entry_of(image, 0) + COUNT);
}

/* The flag of a file that has this first sector. */
static unsigned flag_with_first(unsigned first)
{
    all_good();
    write_entry(0, LOCKED, 0x1234, first);
    doctored("a first sector");
    want(two(entry_of(image, 0) + FIRST), first, "the first sector of any file");
    want(two(entry_of(image, 0) + COUNT), *entry_of(image, 0) == DELETED ? 0x1234 : first == 0 ? 0 : 1, "its count");
    return *entry_of(image, 0);
}

static int may_follow(unsigned sector)
{
    return (sector >= 4 && sector <= 359) || (sector >= 369 && sector <= 719);
}

static void check_sectors(void)
{
    static const unsigned firsts[] = {0,   1,   2,   3,   4,    5,    359,    360,    361,    364,    367,   368,
                                      369, 718, 719, 720, 1023, 1024, 0x0404, 0x0804, 0x8004, 0xFC04, 0xFFFF};
    for (unsigned next = 0; next < 1024; next++)
        want(kept_with_next(next), next != 4 && may_follow(next) ? 2 : 1, "a next sector");
    for (unsigned i = 0; i < sizeof firsts / sizeof *firsts; i++)
        want(flag_with_first(firsts[i]), firsts[i] == 0 || may_follow(firsts[i]) ? LOCKED : DELETED, "a first sector");
}

static void check_sector_bytes(void)
{
    for (unsigned byte = 0; byte < 256; byte++) {
        hello();
        write_file(0, IN_USE, 0, 3);
        *at(image, usable[1], DATA_COUNT) = (uint8_t)byte;
        doctored("a data count");
        want(two(entry_of(image, 0) + COUNT), byte <= MOST_DATA ? 3 : 1, "a data count");
        want(*at(image, usable[1], DATA_COUNT), byte, "the data count behind a cut");
        hello();
        write_file(0, IN_USE, 0, 0);
        write_file(1, IN_USE, 10, 13);
        *at(image, usable[11], LINK) = (uint8_t)byte;
        doctored("a file number");
        want(two(entry_of(image, 1) + COUNT), byte / 4 != 1 ? 1 : byte == 4 ? 3 : 2, "a file number");
        want(*at(image, usable[11], LINK) / 4, byte / 4, "the file number behind a cut");
    }
    /* the highest file number, both bits of the link behind it */
    hello();
    for (unsigned file = 1; file < FILES; file++)
        write_file(file, 0x80, 0, 0);
    write_file(63, IN_USE, 700, 704);
    *at(image, usable[702], LINK) = 0xFF;
    doctored("file 63");
    want(*at(image, usable[702], LINK), 0xFC, "byte 125 of a cut in file 63");
    want(*at(image, usable[702], DATA_COUNT), MOST_DATA, "byte 127 of it");
    want(two(entry_of(image, 63) + COUNT), 3, "its count");
}

/* Every flag in an entry with a reserved first sector, before an entry with a wrong count. */
static void check_flags(void)
{
    for (unsigned flag = 0; flag < 256; flag++) {
        hello();
        write_entry(1, flag, 0x0203, 360);
        write_file(2, IN_USE, 1, 2);
        put_two(entry_of(image, 2) + COUNT, 9);
        doctored("a flag");
        want(*entry_of(image, 1), (flag & 0xC0) == 0x40 ? DELETED : flag, "a flag");
        want(two(entry_of(image, 1) + COUNT), 0x0203, "the count beside a flag");
        want(two(entry_of(image, 1) + FIRST), 360, "the first sector beside a flag");
        want(two(entry_of(image, 2) + COUNT), flag == 0 ? 9 : 1, "the count of the entry behind a flag");
        want(map_bit(image, usable[1]), flag == 0, "the map's bit of a sector of the entry behind a flag");
    }
}

/* Claims: by an earlier file, by the same one; a file that is deleted claims nothing, and the earlier file wins. */
static void check_claims(void)
{
    hello();
    write_file(0, IN_USE, 0, 4);
    write_link(usable[3], 0, usable[1], MOST_DATA);
    want(doctored("a ring"), 3, "a ring"); /* byte 126; free count; one byte of the map */
    want(two(entry_of(image, 0) + COUNT), 4, "the sectors of a ring");
    hello();
    write_file(0, IN_USE, 0, 1);
    write_link(usable[0], 0, usable[0], 0);
    doctored("a ring of one sector");
    want(two(entry_of(image, 0) + COUNT), 1, "a ring of one sector");
    /* a sector of file 1's number, in the chain of file 0 first: so it is cut there, and file 1 has it */
    hello();
    write_file(0, IN_USE, 0, 2);
    write_file(1, IN_USE, 2, 4);
    write_link(usable[1], 0, usable[2], 1);
    doctored("a link into another file");
    want(two(entry_of(image, 0) + COUNT), 2, "the count before a link into another file");
    want(two(entry_of(image, 1) + COUNT), 2, "the count of the other file");
    /* two entries with one chain: the file number says whose it is */
    hello();
    write_file(0, IN_USE, 0, 0);
    write_file(1, IN_USE, 0, 5);
    write_entry(2, LOCKED, 5, usable[0]);
    doctored("two entries with one chain");
    want(*entry_of(image, 1), IN_USE, "the one whose chain it is");
    want(*entry_of(image, 2), DELETED, "the other");
    /* all sectors in one file */
    hello();
    write_file(0, IN_USE, 0, USABLE);
    write_free(USABLE);
    want(doctored("a file of all usable sectors"), 0, "a file of all usable sectors");
    want(two(entry_of(image, 0) + COUNT), 707, "its count");
    write_link(usable[USABLE - 1], 0, 720, 0);
    want(doctored("it with a bad end"), 2, "it with a bad end");
    want(next_of(image, 719), 0, "its last link");
    /* and each in one of 64 */
    for (unsigned file = 0; file < FILES; file++)
        write_file(file, file % 3 ? IN_USE : LOCKED, 11 * file, file < FILES - 1 ? 11 * file + 11 : USABLE);
    want(doctored("64 files of all usable sectors"), 0, "64 files of all usable sectors");
    *entry_of(image, 20) = DELETED;
    want(doctored("one of them deleted"), 3, "one of them deleted"); /* the free count; two bytes of the map */
    want(two(at(image, FIXLOMAND_MAP_SECTOR, FREE_COUNT)), 11, "the free count then");
}

/* What no rule names stays, whatever it is. */
static void check_rest(void)
{
    static const uint8_t bytes[] = {0x00, 0x80, 0xFF};
    for (unsigned i = 0; i < sizeof bytes; i++) {
        uint8_t *sector = at(image, FIXLOMAND_MAP_SECTOR, 0);
        memset(image, bytes[i], LEN);
        write_file(0, IN_USE, 0, 1);
        *entry_of(image, 1) = 0;
        write_entry(2, IN_USE, 7, 2); /* behind the end */
        doctored("a byte everywhere");
        want(map_bit(image, 0), bytes[i] >> 7, "the map's bit of sector 0");
        want(sector[0], bytes[i], "the first byte of sector 360");
        for (unsigned place = MAP_END; place < FIXLOMAND_SECTOR_LEN; place++)
            want(sector[place], bytes[i], "a byte behind the map");
        want(*entry_of(image, 2), IN_USE, "the flag of an entry behind the end");
        want(two(entry_of(image, 2) + COUNT), 7, "the count of an entry behind the end");
        want(*at(image, FIXLOMAND_SECTORS, DATA_COUNT), bytes[i], "the last byte of sector 720");
    }
}

static void check_most(void)
{
    most_wrong();
    want(doctored("an image with the most changes"), FIXLOMAND_CHANGES_MOST, "an image with the most changes");
    want(FIXLOMAND_CHANGES_MOST, 348, "the most changes");
    want(two(list + CHANGE * 347), FIXLOMAND_MAP_SECTOR, "the sector of the last of them");
    want(list[CHANGE * 347 + FIXLOMAND_CHANGE_PLACE], MAP_END - 1, "the place of it");
}

/* ---- other lengths ---- */

/* These lengths, buffers exactly as long between guard pages, are answered 1, and nothing changes. */
static void refused(size_t image_len, size_t list_len, enum side side)
{
    static uint8_t image_before[FIXLOMAND_IMAGES_LEN], list_before[2 * LIST];
    uint8_t *its_image = guarded("image of another length", image_len, side);
    uint8_t *its_list = guarded("list of another length", list_len, side);
    uint32_t given;
    char what[100];
    snprintf(what, sizeof what, "an image of %zu bytes and a list of %zu", image_len, list_len);
    most_wrong(); /* what a doctor that does not look would change */
    for (size_t i = 0; i < image_len; i++)
        its_image[i] = image_before[i] = image[i % LEN];
    for (size_t i = 0; i < list_len; i++)
        its_list[i] = list_before[i] = (uint8_t)(i * 37 + i / 251 + 11);
    given = called(image_len == 0 && side == LEFT ? NULL : its_image, image_len,
                   list_len == 0 && side == LEFT ? NULL : its_list, list_len);
    checks++;
    if (given != FIXLOMAND_DOCTOR_REFUSED)
        fail("%s: answer $%" PRIX32 ", not 1", what, given);
    if (image_len > 0 && memcmp(its_image, image_before, image_len) != 0)
        fail("%s: the image changed", what);
    if (list_len > 0 && memcmp(its_list, list_before, list_len) != 0)
        fail("%s: the list changed", what);
}

/* Lengths whose low 32 bits are right. */
static void refused_huge(size_t image_len, size_t list_len)
{
    size_t longer = image_len > list_len ? image_len : list_len;
    uint8_t *map = mmap(NULL, longer, PROT_READ | PROT_WRITE, MAP_PRIVATE | MAP_ANONYMOUS | MAP_NORESERVE, -1, 0);
    uint8_t *its_image = image_len == LEN ? image : map, *its_list = list_len == LIST ? list : map;
    if (map == MAP_FAILED) {
        printf("doctor: no room for %zu bytes, not tried\n", longer);
        return;
    }
    most_wrong();
    fill_list();
    memcpy(other, image, LEN);
    if (its_image == map)
        memcpy(map, image, LEN);
    else
        memcpy(map, list, LIST);
    want(called(its_image, image_len, its_list, list_len), FIXLOMAND_DOCTOR_REFUSED, "2^32 bytes more");
    want(memcmp(its_image, other, LEN) != 0, 0, "the image, its or the list's length 2^32 more,");
    want(memcmp(its_list, lent_list, LIST) != 0, 0, "the list, its or the image's length 2^32 more,");
    munmap(map, longer);
}

static void check_lengths(enum side side)
{
    static const size_t images[] = {0,       1,        FIXLOMAND_SECTOR_LEN, LEN - FIXLOMAND_SECTOR_LEN, LEN - 1,
                                    LEN + 1, LEN + 16, 2 * LEN,              FIXLOMAND_IMAGES_LEN};
    static const size_t lists[] = {
        0, 1, CHANGE, CHANGE * FIXLOMAND_CHANGES_MOST, LIST - CHANGE, LIST - 1, LIST + 1, LIST + CHANGE, 2 * LIST};
    for (unsigned i = 0; i < sizeof images / sizeof *images; i++) {
        image = guarded("image", LEN, side);
        list = guarded("list", LIST, side);
        refused(images[i], LIST, side);
        refused(images[i], lists[i], side);
        refused(LEN, lists[i], side);
        most_wrong();
        want(doctored("whole buffers"), FIXLOMAND_CHANGES_MOST, "whole buffers");
        guards_free();
    }
}

/* ---- one of four images ---- */

static void check_drives(enum side side)
{
    static uint8_t before[FIXLOMAND_IMAGES_LEN], alone[FIXLOMAND_DRIVES][LEN];
    uint8_t *images = guarded("images", FIXLOMAND_IMAGES_LEN, side), *one = image;
    for (unsigned drive = 1; drive <= FIXLOMAND_DRIVES; drive++) {
        most_wrong();
        for (unsigned i = drive; i <= LAST_SECTOR; i += drive + 1)
            if (!is_reserved(i))
                *at(image, i, DATA_COUNT) = (uint8_t)(120 + i % 16);
        memcpy(images + FIXLOMAND_IMAGE(drive), image, LEN);
        doctored("an image alone");
        memcpy(alone[drive - 1], image, LEN);
    }
    memcpy(before, images, sizeof before);
    for (unsigned drive = FIXLOMAND_DRIVES; drive >= 1; drive--) {
        image = images + FIXLOMAND_IMAGE(drive);
        fill_list();
        want(FIXLOMAND_ANSWER(run()), FIXLOMAND_DONE, "one of four images");
        memcpy(before + FIXLOMAND_IMAGE(drive), alone[drive - 1], LEN);
        want(memcmp(images, before, sizeof before) != 0, 0, "the four images, the doctor at one,");
    }
    image = one;
}

/* ---- random images ---- */

static uint64_t seed;

/* xorshift64*: the same numbers on every machine */
static uint32_t random_number(void)
{
    seed ^= seed >> 12;
    seed ^= seed << 25;
    seed ^= seed >> 27;
    return (uint32_t)((seed * UINT64_C(2685821657736338717)) >> 32);
}

static unsigned below(unsigned n)
{
    return random_number() % n;
}

static int one_in(unsigned n)
{
    return below(n) == 0;
}

static void any_bytes(void)
{
    for (unsigned i = 0; i < LEN; i += 4) {
        uint32_t some = random_number();
        memcpy(image + i, &some, 4);
    }
}

static void shuffle(void)
{
    for (unsigned i = USABLE - 1; i > 0; i--) {
        unsigned j = below(i + 1);
        uint16_t sector = usable[i];
        usable[i] = usable[j];
        usable[j] = sector;
    }
}

/* A sound image: some files with sectors anywhere, deleted entries between them, any bytes where no rule looks. */
static void random_sound(void)
{
    static const uint8_t flags[] = {IN_USE, IN_USE, IN_USE, LOCKED, 0x40, 0x7F};
    unsigned used = 0, files = one_in(4) ? FILES : below(FILES), most = 1 + below(one_in(4) ? 2 * USABLE : 40);
    any_bytes();
    shuffle();
    for (unsigned file = 0; file < files; file++) {
        unsigned length = below(most), left = USABLE - used;
        if (one_in(5)) {
            *entry_of(image, file) = one_in(3) ? 0xC2 : one_in(2) ? 0x02 : DELETED;
            continue;
        }
        length = one_in(12) ? 0 : length < left ? length : left;
        write_file(file, flags[below(sizeof flags)], used, used + length);
        for (unsigned i = used; i < used + length; i++)
            if (!one_in(3))
                *at(image, usable[i], DATA_COUNT) = (uint8_t)below(MOST_DATA + 1);
        used += length;
    }
    if (files < FILES)
        *entry_of(image, files) = 0;
    write_free(used);
}

/* A sector that a rule may look at. */
static unsigned any_sector(void)
{
    static const uint16_t ends[] = {0, 1, 3, 4, 359, 360, 361, 368, 369, 719, 720, 1023};
    return one_in(3) ? ends[below(sizeof ends / sizeof *ends)] : below(one_in(8) ? 1024 : 720);
}

/* One thing wrong. */
static void damage(void)
{
    uint8_t *entry = entry_of(image, one_in(2) ? below(FILES) : below(8));
    unsigned sector = usable[below(USABLE)], next = any_sector();
    uint8_t byte = (uint8_t)below(256);
    switch (below(9)) {
    case 0: /* a link */
        *at(image, sector, LINK) = (uint8_t)((*at(image, sector, LINK) & 0xFC) + next / 256);
        *at(image, sector, LINK + 1) = (uint8_t)next;
        break;
    case 1: /* a file number */
        *at(image, sector, LINK) ^= (uint8_t)(4u << below(6));
        break;
    case 2: /* a data count */
        *at(image, sector, DATA_COUNT) = one_in(2) ? (uint8_t)(124 + below(4)) : byte;
        break;
    case 3: /* a flag */
        entry[FLAG] = one_in(8) ? 0 : one_in(2) ? (uint8_t)(entry[FLAG] ^ (0x80u >> below(8))) : byte;
        break;
    case 4: /* a first sector */
        put_two(entry + FIRST, one_in(8) ? below(65536) : next);
        break;
    case 5: /* the first sector of another file */
        memcpy(entry + FIRST, entry_of(image, below(FILES)) + FIRST, 2);
        break;
    case 6: /* a sector count */
        put_two(entry + COUNT, one_in(2) ? below(65536) : below(720));
        break;
    case 7: /* the free count, or the map */
        *at(image, FIXLOMAND_MAP_SECTOR, one_in(4) ? 3 + below(2) : MAP + below(MAP_END - MAP)) = byte;
        break;
    default: /* any byte */
        image[one_in(2) ? below(LEN) : FIXLOMAND_SECTOR(1, 360) + below(9 * FIXLOMAND_SECTOR_LEN)] = byte;
        break;
    }
}

/* Links from anywhere to anywhere, in few files: chains that meet, and rings. */
static void random_tangle(void)
{
    unsigned files = 1 + below(one_in(2) ? 4 : FILES);
    any_bytes();
    for (unsigned sector = 1; sector <= FIXLOMAND_SECTORS; sector++) {
        unsigned file = one_in(64) ? below(FILES) : below(files);
        unsigned next = one_in(files > 4 ? 4 : 64) ? any_sector() : usable[below(USABLE)];
        unsigned data_count = one_in(64) ? below(256) : below(MOST_DATA + 1);
        if (sector < 360 || sector > 368)
            write_link(sector, file, next, data_count);
    }
    if (files <= 4) /* long chains: the sectors of one file mostly follow each other */
        for (unsigned i = 0; i + 1 < USABLE; i++)
            if (!one_in(32))
                write_link(usable[i], (i / 64) % files, usable[i + 1], below(MOST_DATA + 1));
    for (unsigned file = 0; file < FILES; file++) {
        unsigned flag = file < files || one_in(2) ? (one_in(4) ? LOCKED : IN_USE) : below(256);
        unsigned sectors = below(one_in(2) ? 8 : 65536);
        write_entry(file, flag, sectors, one_in(4) ? any_sector() : usable[below(USABLE)]);
    }
}

static void check_random(unsigned long images)
{
    unsigned long sound = 0, most = 0;
    for (unsigned long i = 0; i < images; i++) {
        unsigned wrong = 0, number;
        if (i % 8 == 0)
            any_bytes();
        else if (i % 4 == 1)
            random_tangle();
        else {
            random_sound();
            for (wrong = i % 8 == 2 ? 0 : 1 + below(one_in(4) ? 64 : 4); wrong > 0; wrong--)
                damage();
        }
        number = doctored("a random image");
        if (i % 8 == 2) {
            sound++;
            want(number, 0, "a sound image");
        }
        if (number > most)
            most = number;
    }
    printf("doctor: %lu random images, %lu of them sound; the most changes of one were %lu\n", images, sound, most);
}

static void begin(enum side side)
{
    image = guarded("image", LEN, side);
    list = guarded("list", LIST, side);
}

int main(int words, char **word)
{
    unsigned long images = words > 1 ? strtoul(word[1], NULL, 10) : 4000;
    seed = words > 2 ? strtoull(word[2], NULL, 10) : 13;
    if (images == 0 || seed == 0)
        fail("doctor: IMAGES and SEED are numbers above 0");
    guard_doing = "doctor";
    guard_watch();
    signal(SIGALRM, endless);
    for (enum side side = LEFT; side <= RIGHT; side++) {
        find_usable();
        begin(side);
        check_worked();
        check_sectors();
        check_sector_bytes();
        check_flags();
        check_claims();
        check_rest();
        check_most();
        check_drives(side);
        guards_free();
        check_lengths(side);
        begin(side);
        refused_huge(LEN + (size_t)(UINT64_C(1) << 32), LIST);
        refused_huge(LEN, LIST + (size_t)(UINT64_C(1) << 32));
        check_random(images / 2);
        guards_free();
    }
    printf("doctor: %lu runs, %lu bytes set right; %lu chains cut, %lu files deleted; %lu checks\n", runs, changed,
           cuts, deletions, checks);
    return 0;
}
