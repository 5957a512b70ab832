/* diskettes: D through the C calls: files, their ends and bad chains, the directory, names, GET STATUS, both ports at the
 * one group, what damages a place, and what the doctor has set right (doctor.c tests the doctor itself). The images are
 * lent where they can only be read, so that a call that writes a byte of them ends the test. */
#include "fixlomand.h"
#include "guard.h"

#include <stdio.h>
#include <stdlib.h>
#include <string.h>

enum { R = FIXLOMAND_AUX1_READ, W = FIXLOMAND_AUX1_WRITE, DIRECTORY = FIXLOMAND_AUX1_DIRECTORY };
enum { STATUS = FIXLOMAND_HEADER_LEN, COUNT, SPECIFICATION = 0, BUFFER = 32 };
enum {
    OPEN = FIXLOMAND_COMMAND_OPEN,
    GET_RECORD = FIXLOMAND_COMMAND_GET_RECORD,
    GET_CHARACTERS = FIXLOMAND_COMMAND_GET_CHARACTERS,
    PUT_CHARACTERS = FIXLOMAND_COMMAND_PUT_CHARACTERS,
    CLOSE = FIXLOMAND_COMMAND_CLOSE,
    GET_STATUS = FIXLOMAND_COMMAND_GET_STATUS,
    SPECIAL = FIXLOMAND_COMMAND_SPECIAL
};
enum {
    SUCCESS = FIXLOMAND_STATUS_SUCCESS,
    LAST = FIXLOMAND_STATUS_LAST_CHARACTER,
    END = FIXLOMAND_STATUS_END_OF_FILE,
    BAD_CHAIN = FIXLOMAND_STATUS_BAD_CHAIN,
    BAD_NAME = FIXLOMAND_STATUS_BAD_FILE_NAME,
    LOCKED = FIXLOMAND_STATUS_FILE_LOCKED,
    NOT_FOUND = FIXLOMAND_STATUS_FILE_NOT_FOUND
};
enum { ENTRY_LEN = 16, LINK = 125, DATA_COUNT = 127 };

static uint8_t state[FIXLOMAND_STATE_LEN], area[FIXLOMAND_AREA_LEN];
static uint8_t screen[FIXLOMAND_SCREEN_LEN], paper[FIXLOMAND_PAPER_LEN], tape[FIXLOMAND_TAPE_LEN];
/* what the test writes, and the same memory as the core is lent it */
static uint8_t *images, *images_view;
static uint8_t reply[FIXLOMAND_ROOM_LEN];
static unsigned checks;

#define LENT                                                                                                           \
    state, sizeof state, area, sizeof area, screen, sizeof screen, paper, sizeof paper, tape, sizeof tape,             \
        images_view, FIXLOMAND_IMAGES_LEN

static void want(unsigned long got, unsigned long right, const char *what)
{
    checks++;
    if (got != right)
        fail("diskettes: %s gives %lu ($%02lX), not %lu ($%02lX)", what, got, got, right, right);
}

/* ---- requests ---- */

static void send(unsigned port, const uint8_t *message, size_t length)
{
    for (size_t i = 0; i < length; i++)
        if (fixlomand_take(LENT, (uint8_t)port, message[i]) != FIXLOMAND_DONE)
            fail("diskettes: byte %zu of message $%02X is not taken", i, message[0]);
}

/* Ticks while there is something to do; how many were answered 0. */
static unsigned long run(unsigned port)
{
    unsigned long ticks = 0;
    while (fixlomand_tick(LENT, (uint8_t)port) == FIXLOMAND_DONE)
        ticks++;
    return ticks;
}

static size_t receive(unsigned port)
{
    size_t length = 0;
    uint16_t given;
    while (given = fixlomand_give(LENT, (uint8_t)port), FIXLOMAND_ANSWER(given) == FIXLOMAND_DONE)
        reply[length++] = FIXLOMAND_BYTE(given);
    return length;
}

static void send_call(unsigned port, unsigned block, unsigned command, unsigned address, unsigned length, unsigned aux1)
{
    const uint8_t message[FIXLOMAND_HEADER_LEN + FIXLOMAND_CALL_LEN] = {
        FIXLOMAND_TAG_CALL,      FIXLOMAND_CALL_LEN, 0,
        (uint8_t)block,          (uint8_t)command,   (uint8_t)address,
        (uint8_t)(address >> 8), (uint8_t)length,    (uint8_t)(length >> 8),
        (uint8_t)aux1,           0,                  0};
    send(port, message, sizeof message);
}

/* The status of a CALL's reply. */
static unsigned received(unsigned port)
{
    if (receive(port) != FIXLOMAND_HEADER_LEN + FIXLOMAND_CALL_REPLY_LEN || reply[0] != FIXLOMAND_TAG_CALL_REPLY)
        fail("diskettes: a CALL is answered by tag $%02X", reply[0]);
    return reply[STATUS];
}

static unsigned count(void)
{
    return reply[COUNT] + 256u * reply[COUNT + 1];
}

/* The ticks of the last request. */
static unsigned long ticks;

/* A whole CALL; its status. */
static unsigned call(unsigned port, unsigned block, unsigned command, unsigned length, unsigned aux1)
{
    send_call(port, block, command, command == OPEN || command >= GET_STATUS ? SPECIFICATION : BUFFER, length, aux1);
    ticks = run(port);
    return received(port);
}

/* A specification with the EOL behind it, where OPEN and GET STATUS look for it. */
static void specify(unsigned port, const char *specification)
{
    uint8_t *at = area + port * FIXLOMAND_PORT_AREA_LEN + SPECIFICATION;
    size_t length = strlen(specification);
    memcpy(at, specification, length);
    at[length] = FIXLOMAND_EOL;
}

/* Closes the block and opens it; the status. */
static unsigned opened(unsigned port, unsigned block, unsigned aux1, const char *specification)
{
    call(port, block, CLOSE, 0, 0);
    specify(port, specification);
    return call(port, block, OPEN, 0, aux1);
}

/* The bytes that a read has stored. */
static void want_stored(unsigned port, const void *right, size_t length, const char *what)
{
    checks++;
    if (memcmp(area + port * FIXLOMAND_PORT_AREA_LEN + BUFFER, right, length) != 0)
        fail("diskettes: %s stores other characters", what);
}

/* Bytes in hexadecimal. */
static size_t bytes_of(const char *text, uint8_t *bytes)
{
    size_t length = 0;
    char *end;
    for (; *text != 0; text = end) {
        bytes[length++] = (uint8_t)strtoul(text, &end, 16);
        if (end == text)
            fail("diskettes: no bytes: '%s'", text);
    }
    return length;
}

/* What port 0's host sends, what it must get, and after how many ticks; 0 for any number. */
static void talk(const char *sent, const char *right, unsigned long right_ticks)
{
    uint8_t message[FIXLOMAND_ROOM_LEN], answer[FIXLOMAND_ROOM_LEN];
    size_t length = bytes_of(right, answer);
    send(0, message, bytes_of(sent, message));
    ticks = run(0);
    checks++;
    if (receive(0) != length || memcmp(reply, answer, length) != 0)
        fail("diskettes: '%s' is not answered '%s'", sent, right);
    if (right_ticks != 0)
        want(ticks, right_ticks, sent);
}

/* ---- images ---- */

static void write_sector(unsigned drive, unsigned sector, unsigned file, unsigned next, unsigned data_count,
                         uint8_t byte)
{
    uint8_t *bytes = images + FIXLOMAND_SECTOR(drive, sector);
    memset(bytes, byte, LINK);
    bytes[LINK] = (uint8_t)(4 * file + next / 256);
    bytes[LINK + 1] = (uint8_t)next;
    bytes[DATA_COUNT] = (uint8_t)data_count;
}

/* An entry; the name has all its eleven bytes. */
static void write_entry(unsigned drive, unsigned entry, unsigned flag, unsigned sectors, unsigned first,
                        const char *name)
{
    uint8_t *bytes = images + FIXLOMAND_SECTOR(drive, 361) + ENTRY_LEN * entry;
    bytes[0] = (uint8_t)flag;
    bytes[1] = (uint8_t)sectors;
    bytes[2] = (uint8_t)(sectors >> 8);
    bytes[3] = (uint8_t)first;
    bytes[4] = (uint8_t)(first >> 8);
    memcpy(bytes + 5, name, FIXLOMAND_NAME_LEN);
}

static void write_free(unsigned drive, unsigned free_sectors)
{
    uint8_t *bytes = images + FIXLOMAND_SECTOR(drive, 360);
    bytes[3] = (uint8_t)free_sectors;
    bytes[4] = (uint8_t)(free_sectors >> 8);
}

/* One file, HELLO.TXT, entry 0, sector 4, three characters; 719 - 12 - 1 = 706 sectors are free. */
static void hello(void)
{
    memset(images, 0, FIXLOMAND_IMAGES_LEN);
    write_entry(1, 0, 0x42, 1, 4, "HELLO   TXT");
    write_sector(1, 4, 0, 0, 3, 0);
    memcpy(images + FIXLOMAND_SECTOR(1, 4), "HI\x9B", 3);
    write_free(1, 706);
    memset(images + FIXLOMAND_SECTOR(1, 360) + 10, 0xFF, 90); /* the map, which nothing looks at */
    memcpy(images + FIXLOMAND_SECTOR(1, 360) + 10, "\x07", 1);
    memcpy(images + FIXLOMAND_SECTOR(1, 360) + 55, "\x00\x7F", 2);
}

static void start(void)
{
    want(fixlomand_fresh(LENT), FIXLOMAND_DONE, "a fresh start");
    hello();
}

/* ---- worked bytes ---- */

static void check_worked(void)
{
    start();
    want(FIXLOMAND_SECTOR(1, 360), 45952, "the place of sector 360");
    want(FIXLOMAND_SECTOR(1, 361), 46080, "the place of sector 361");
    want(FIXLOMAND_SECTOR(4, 720) + FIXLOMAND_SECTOR_LEN, FIXLOMAND_IMAGES_LEN, "the end of the last sector");
    talk("11 0E 00 00 00 44 3A 48 45 4C 4C 4F 2E 54 58 54 9B", "91 01 00 01", 1);
    talk("10 09 00 00 03 00 00 00 00 04 00 00", "90 04 00 01 00 00 00", 1);
    talk("10 09 00 00 05 20 00 0A 00 00 00 00", "90 04 00 03 03 00 00", 4);
    talk("12 04 00 20 00 03 00", "92 04 00 01 48 49 9B", 1);
    talk("10 09 00 00 05 20 00 0A 00 00 00 00", "90 04 00 88 00 00 00", 2);
    talk("11 09 00 00 00 44 31 3A 2A 2E 2A 9B", "91 01 00 01", 1);
    talk("10 09 00 01 03 00 00 00 00 06 00 00", "90 04 00 01 00 00 00", 1);
    talk("10 09 00 01 05 20 00 28 00 00 00 00", "90 04 00 01 12 00 00", 19);
    talk("12 04 00 20 00 12 00", "92 13 00 01 20 20 48 45 4C 4C 4F 20 20 20 54 58 54 20 30 30 31 9B", 1);
    talk("10 09 00 01 05 20 00 28 00 00 00 00", "90 04 00 03 11 00 00", 18);
    talk("12 04 00 20 00 11 00", "92 12 00 01 37 30 36 20 46 52 45 45 20 53 45 43 54 4F 52 53 9B", 1);
    talk("10 09 00 01 07 20 00 01 00 00 00 00", "90 04 00 88 00 00 00", 2);
    talk("10 09 00 02 0D 00 00 00 00 04 00 00", "90 04 00 01 00 00 00", 1);
    images[FIXLOMAND_SECTOR(1, 361)] = 0x62;
    talk("10 09 00 02 0D 00 00 00 00 04 00 00", "90 04 00 A7 00 00 00", 1);
    talk("10 09 00 00 0D 00 00 00 00 00 00 00", "90 04 00 A7 00 00 00", 1);
    /* sector 4 full, linked to itself, and without an EOL: the longest request, 89,876 ticks after its start */
    write_sector(1, 4, 0, 4, 125, 'H');
    talk("10 09 00 02 03 00 00 00 00 04 00 00", "90 04 00 01 00 00 00", 1);
    talk("10 09 00 02 05 20 00 01 00 00 00 00", "90 04 00 A4 01 00 00", 89877);
}

/* ---- names ---- */

static void want_open(unsigned aux1, const char *specification, unsigned status)
{
    want(opened(0, 0, aux1, specification), status, specification);
}

/* A specification as the area's last bytes. */
static void want_last(const char *specification, unsigned status)
{
    size_t length = strlen(specification);
    unsigned address = FIXLOMAND_PORT_AREA_LEN - (unsigned)length;
    call(0, 0, CLOSE, 0, 0);
    memcpy(area + address, specification, length);
    send_call(0, 0, OPEN, address, 0, R);
    run(0);
    want(received(0), status, specification);
}

static void check_names(void)
{
    start();
    want_open(R, "D:H*.T?T", SUCCESS);
    want_open(R, "D1:HELLO.TXT", SUCCESS);
    want_open(R, "D:HELLO.TXT ?-", SUCCESS); /* the blank is an end too */
    want_open(R, "D:HELLO", NOT_FOUND);
    want_open(R, "D:*", NOT_FOUND);
    want_open(R, "D:", NOT_FOUND);
    want_open(R, "D:HELLO.TXTY", SUCCESS);
    want_open(R, "D:HELLO?????.TXT", SUCCESS);
    want_open(R, "D:HELLO.TXT.", BAD_NAME);
    want_open(R, "D:hello.txt", BAD_NAME);
    want_open(R, "D:ABCDEFGHIJ-", BAD_NAME);
    want_open(R, "D2:*.*", NOT_FOUND);
    want_open(R, "D5:*.*", FIXLOMAND_STATUS_UNKNOWN_DEVICE);
    want_open(W, "D:-", FIXLOMAND_STATUS_BAD_COMMAND);
    want_open(R | W, "D:HELLO.TXT", FIXLOMAND_STATUS_BAD_COMMAND);
    want(state[FIXLOMAND_BLOCKS], FIXLOMAND_CLOSED, "a block whose OPEN is refused");
    want_last("D:A", FIXLOMAND_STATUS_PAST_AREA);
    want_last("D4", FIXLOMAND_STATUS_PAST_AREA);
    want_last("D5", FIXLOMAND_STATUS_UNKNOWN_DEVICE);
    want_last("D:-", BAD_NAME);
    want_last("D:HELLO.TXT\x9B", SUCCESS);
    want_open(0, "D:HELLO.TXT", SUCCESS);
    want(call(0, 0, GET_CHARACTERS, 1, 0), FIXLOMAND_STATUS_NOT_READABLE, "GET without R");
    want(call(0, 0, PUT_CHARACTERS, 1, 0), FIXLOMAND_STATUS_NOT_WRITABLE, "PUT to D");
    want(call(0, 0, SPECIAL, 0, 0), FIXLOMAND_STATUS_BAD_COMMAND, "SPECIAL of D");
    want(state[FIXLOMAND_BLOCKS], FIXLOMAND_D, "the device of the block");
    want(state[FIXLOMAND_BLOCKS + 1], 1, "the number of the block");
    want_open(R, "D4:*.*", NOT_FOUND);
    write_entry(4, 0, 0x42, 1, 4, "HELLO   TXT");
    want_open(R, "D4:*.*", SUCCESS);
    want(state[FIXLOMAND_BLOCKS + 1], FIXLOMAND_DRIVES, "the number of the last drive");
}

/* ---- chains ---- */

static void check_chains(void)
{
    start();
    write_sector(1, 4, 0, 720, 3, 'a');
    want_open(R, "D:*.*", SUCCESS);
    want(call(0, 0, GET_CHARACTERS, 4, 0), BAD_CHAIN, "a link above 719");
    want(count(), 3, "its count");
    want(ticks, 5, "its ticks");
    want(call(0, 0, GET_CHARACTERS, 4, 0), BAD_CHAIN, "it once more");
    want(count(), 0, "its count");
    want_open(R, "D:*.*", SUCCESS);
    want(call(0, 0, GET_CHARACTERS, 3, 0), SUCCESS, "the last character before a bad chain");
    write_sector(1, 4, 0, 4, 0, 'a');
    want_open(R, "D:*.*", SUCCESS);
    want(call(0, 0, GET_CHARACTERS, 4, 0), BAD_CHAIN, "a ring of one empty sector");
    want(ticks, 2, "its ticks");
    write_sector(1, 4, 0, 4, 1, 'a');
    want_open(R, "D:*.*", SUCCESS);
    want(call(0, 0, GET_CHARACTERS, 720, 0), BAD_CHAIN, "a ring of one sector of one character");
    want(count(), 719, "its count");
    write_sector(1, 4, 1, 0, 3, 'a');
    want_open(R, "D:*.*", SUCCESS);
    want(call(0, 0, GET_CHARACTERS, 1, 0), BAD_CHAIN, "another file number");
    write_sector(1, 4, 0, 0, 126, 'a');
    want(call(0, 0, GET_CHARACTERS, 1, 0), BAD_CHAIN, "a data count above 125");
    write_sector(1, 4, 0, 0, 125, 'a');
    want(call(0, 0, GET_CHARACTERS, 125, 0), LAST, "a full sector");
    write_entry(1, 0, 0x42, 1, 0, "HELLO   TXT");
    want_open(R, "D:*.*", SUCCESS);
    want(call(0, 0, GET_CHARACTERS, 1, 0), END, "a file without a sector");
    write_entry(1, 0, 0x42, 1, 720, "HELLO   TXT");
    want_open(R, "D:*.*", SUCCESS);
    want(call(0, 0, GET_CHARACTERS, 1, 0), BAD_CHAIN, "a first sector above 719");
    /* the last character, then empty sectors, and no more */
    write_entry(1, 0, 0x42, 3, 719, "HELLO   TXT");
    write_sector(1, 719, 0, 5, 2, 'b');
    write_sector(1, 5, 0, 1, 0, 'c');
    write_sector(1, 1, 0, 0, 0, 'd');
    want_open(R, "D:*.*", SUCCESS);
    want(call(0, 0, GET_CHARACTERS, 1, 0), SUCCESS, "the last character but one");
    want(call(0, 0, GET_CHARACTERS, 1, 0), LAST, "the last character, empty sectors behind it");
    want_stored(0, "b", 1, "the last character");
    want(call(0, 0, GET_CHARACTERS, 1, 0), END, "a read behind it");
}

/* A file of all sectors from 1 to 719, the reserved ones too, a character each: the 719th may end it. */
static void check_longest_chain(void)
{
    start();
    for (unsigned sector = 1; sector <= 719; sector++)
        write_sector(1, sector, 0, sector < 719 ? sector + 1 : 0, 1, 'e');
    write_entry(1, 0, 0x42, 719, 1, "HELLO   TXT");
    images[FIXLOMAND_SECTOR(1, 361) + ENTRY_LEN] = 0;
    want_open(R, "D:*.*", SUCCESS);
    want(call(0, 0, GET_CHARACTERS, 718, 0), SUCCESS, "718 sectors");
    want(call(0, 0, GET_CHARACTERS, 1, 0), LAST, "the 719th sector");
    want(call(0, 0, GET_CHARACTERS, 1, 0), END, "a read behind it");
    images[FIXLOMAND_SECTOR(1, 719) + LINK + 1] = 1;
    want(call(0, 0, GET_CHARACTERS, 1, 0), BAD_CHAIN, "the 720th sector");
}

/* ---- the directory ---- */

static void want_record(unsigned block, const char *record, unsigned status)
{
    uint8_t right[40];
    size_t length = strlen(record);
    memcpy(right, record, length);
    right[length] = FIXLOMAND_EOL;
    want(call(0, block, GET_RECORD, 40, 0), status, record);
    want(count(), (unsigned)length + 1, record);
    want_stored(0, right, length + 1, record);
}

static void check_directory(void)
{
    start();
    write_entry(1, 1, 0x80, 2, 5, "GONE    TXT");
    write_entry(1, 2, 0x62, 1234, 5, "LOCKED  TXT");
    write_entry(1, 3, 0xC2, 2, 5, "GONETOO TXT");
    write_entry(1, 4, 0x40, 20, 5, "A          ");
    write_entry(1, 6, 0x42, 20, 5, "BEHIND  TXT"); /* entry 5 has flag 0, which ends the directory */
    write_free(1, 1007);
    want(opened(0, 0, DIRECTORY, "D:*.*"), SUCCESS, "OPEN of the directory");
    want_record(0, "  HELLO   TXT 001", SUCCESS);
    want_record(0, "* LOCKED  TXT 234", SUCCESS);
    want_record(0, "  A           020", SUCCESS);
    want_record(0, "007 FREE SECTORS", LAST);
    want(call(0, 0, GET_RECORD, 40, 0), END, "the end of the directory");
    want(call(0, 0, GET_STATUS, 0, 0), SUCCESS, "GET STATUS of the directory");
    /* the name is kept from the OPEN on */
    want(opened(0, 0, DIRECTORY, "D:?"), SUCCESS, "OPEN of the directory");
    specify(0, "D2:*.*");
    want_record(0, "  A           020", SUCCESS);
    want_record(0, "007 FREE SECTORS", LAST);
    want(opened(0, 0, DIRECTORY, "D1:X"), SUCCESS, "OPEN of the directory, no match");
    want_record(0, "007 FREE SECTORS", LAST);
    want(opened(0, 0, DIRECTORY, "D3:*.*"), SUCCESS, "OPEN of an empty drive's directory");
    want_record(0, "000 FREE SECTORS", LAST);
    want(opened(0, 0, DIRECTORY, "D:-"), BAD_NAME, "OPEN of the directory, a bad name");
    /* all 64 entries */
    for (unsigned entry = 0; entry < FIXLOMAND_ENTRIES; entry++)
        write_entry(2, entry, entry == 63 ? 0x42 : 0x80, entry, 4, "LAST       ");
    want(opened(0, 0, DIRECTORY, "D2:*.*"), SUCCESS, "OPEN of a full directory");
    want_record(0, "  LAST        063", SUCCESS);
    want_record(0, "000 FREE SECTORS", LAST);
    /* another AUX1 with these bits opens a file */
    want(opened(0, 0, DIRECTORY | 0x10, "D:*.*"), SUCCESS, "OPEN with more than $06");
    want(call(0, 0, GET_CHARACTERS, 2, 0), SUCCESS, "GET from it");
    want_stored(0, "HI", 2, "GET from it");
}

/* ---- GET STATUS ---- */

static void check_status(void)
{
    start();
    specify(0, "D:HELLO.TXT");
    want(call(0, 0, GET_STATUS, 0, R), SUCCESS, "GET STATUS on a closed block");
    want(state[FIXLOMAND_BLOCKS], FIXLOMAND_CLOSED, "the block after it");
    specify(0, "D:NONE");
    want(call(0, 0, GET_STATUS, 0, R), NOT_FOUND, "GET STATUS, no file");
    want(call(0, 0, GET_STATUS, 0, DIRECTORY), SUCCESS, "GET STATUS, the directory");
    want(call(0, 0, SPECIAL, 0, R), NOT_FOUND, "SPECIAL, no file");
    specify(0, "D:-");
    want(call(0, 0, GET_STATUS, 0, R), BAD_NAME, "GET STATUS, a bad name");
    want(opened(0, 0, R, "D:HELLO.TXT"), SUCCESS, "OPEN");
    want(call(0, 0, GET_STATUS, 0, 0), SUCCESS, "GET STATUS on the open block");
    images[FIXLOMAND_SECTOR(1, 361)] = 0x62;
    want(call(0, 0, GET_STATUS, 0, 0), LOCKED, "GET STATUS, locked now");
    want(call(0, 0, GET_CHARACTERS, 1, 0), SUCCESS, "GET from a locked file");
    images[FIXLOMAND_SECTOR(1, 361)] = 0x80;
    want(call(0, 0, GET_STATUS, 0, 0), NOT_FOUND, "GET STATUS, deleted now");
}

/* ---- both ports ---- */

static void check_ports(void)
{
    start();
    write_entry(2, 0, 0x42, 1, 9, "TWO        ");
    write_sector(2, 9, 0, 0, 125, '2');
    want(opened(0, 0, R, "D:HELLO.TXT"), SUCCESS, "OPEN at port 0");
    want(opened(0, 7, R, "D:HELLO.TXT"), SUCCESS, "OPEN at port 0, another block");
    want(opened(1, 0, R, "D:HELLO.TXT"), SUCCESS, "OPEN at port 1");
    want(opened(1, 7, R, "D2:TWO"), SUCCESS, "OPEN of D2 at port 1");
    /* each block has its own place in the one file */
    want(call(0, 0, GET_CHARACTERS, 1, 0), SUCCESS, "GET at port 0");
    want_stored(0, "H", 1, "GET at port 0");
    want(call(1, 0, GET_CHARACTERS, 2, 0), SUCCESS, "GET at port 1");
    want_stored(1, "HI", 2, "GET at port 1");
    want(call(0, 7, GET_CHARACTERS, 3, 0), LAST, "GET at the other block");
    want_stored(0, "HI\x9B", 3, "GET at the other block");
    want(call(0, 0, GET_CHARACTERS, 1, 0), SUCCESS, "GET at port 0");
    want_stored(0, "I", 1, "GET at port 0");
    want(call(1, 0, GET_CHARACTERS, 1, 0), LAST, "GET at port 1");
    want_stored(1, "\x9B", 1, "GET at port 1");
    want(call(0, 7, GET_CHARACTERS, 1, 0), END, "GET at the other block");
    want(call(0, 0, GET_CHARACTERS, 1, 0), LAST, "GET at port 0");
    /* the four drives are one group: it is held from the start tick to the end */
    want(call(0, 0, CLOSE, 0, 0), SUCCESS, "CLOSE at port 0");
    send_call(1, 7, GET_CHARACTERS, BUFFER, 2, 0);
    want(fixlomand_tick(LENT, 1), FIXLOMAND_DONE, "the start at D2");
    want(opened(0, 1, W, "E:"), SUCCESS, "OPEN of another device meanwhile");
    specify(0, "D5:-");
    want(call(0, 0, OPEN, 0, R), FIXLOMAND_STATUS_UNKNOWN_DEVICE, "a drive above 4, meanwhile");
    specify(0, "D:-");
    send_call(0, 0, OPEN, SPECIFICATION, 0, R);
    want(fixlomand_tick(LENT, 0), FIXLOMAND_GROUP_HELD, "a bad name, which needs the group");
    want(fixlomand_tick(LENT, 0), FIXLOMAND_GROUP_HELD, "it once more");
    want(run(1), 2, "the characters of D2");
    want(received(1), SUCCESS, "GET from D2");
    want_stored(1, "22", 2, "GET from D2");
    want(run(0), 1, "the OPEN that waited");
    want(received(0), BAD_NAME, "the OPEN that waited");
}

/* ---- places and damage ---- */

static uint8_t *place(unsigned port, unsigned block)
{
    return state + FIXLOMAND_PLACES + FIXLOMAND_PLACE_LEN * (FIXLOMAND_BLOCK_COUNT * port + block);
}

/* With another byte in a block's place, what a call answers; a tick of an idle port is 7 where the state is in order. */
static void want_answer(unsigned port, unsigned block, unsigned at, uint8_t byte, unsigned answer, const char *what)
{
    uint8_t *its = place(port, block) + at, right = *its;
    *its = byte;
    want(fixlomand_tick(LENT, 0), answer, what);
    *its = right;
    want(fixlomand_tick(LENT, 0), FIXLOMAND_IDLE, "the state as it was");
}

static void check_places(void)
{
    static const uint8_t at_open[FIXLOMAND_PLACE_LEN] = {1, FIXLOMAND_PLACE_FILE, 3, 0, 0xCF, 2};
    static const uint8_t listing[FIXLOMAND_PLACE_LEN] = {
        0, FIXLOMAND_PLACE_DIRECTORY, 0, 0, 'H', '?', '?', '?', '?', '?', '?', '?', 'T', '?', 'T'};
    start();
    for (size_t i = 0; i < FIXLOMAND_PLACES_LEN; i++)
        want(state[FIXLOMAND_PLACES + i], 0, "a place after a fresh start");
    for (unsigned entry = 0; entry < 3; entry++)
        write_entry(2, entry, 0x80, 1, 5, "TWO        ");
    write_entry(2, 3, 0x42, 2, 719, "TWO        ");
    write_sector(2, 719, 3, 9, 1, '2');
    write_sector(2, 9, 3, 0, 125, '2');
    want(opened(1, 7, R, "D2:TWO"), SUCCESS, "OPEN of a file");
    want(memcmp(place(1, 7), at_open, FIXLOMAND_PLACE_LEN) == 0, 1, "the place after the OPEN");
    want(call(1, 7, GET_CHARACTERS, 2, 0), SUCCESS, "GET of two");
    want(place(1, 7)[FIXLOMAND_PLACE_AT], 1, "the place in the second sector");
    want(place(1, 7)[FIXLOMAND_PLACE_SECTOR], 9, "the second sector");
    want(place(1, 7)[FIXLOMAND_PLACE_SECTOR + 1], 0, "the second sector");
    want(place(1, 7)[FIXLOMAND_PLACE_PASSED], 1, "the passed sectors");
    want_answer(1, 7, FIXLOMAND_PLACE_UNIT, 0, FIXLOMAND_DAMAGED, "another unit");
    want_answer(1, 7, FIXLOMAND_PLACE_UNIT, 4, FIXLOMAND_DAMAGED, "a unit above 3");
    want_answer(1, 7, FIXLOMAND_PLACE_KIND, 1, FIXLOMAND_DAMAGED, "a directory in a file's block");
    want_answer(1, 7, FIXLOMAND_PLACE_KIND, 2, FIXLOMAND_DAMAGED, "a kind above 1");
    want_answer(1, 7, FIXLOMAND_PLACE_ENTRY, 63, FIXLOMAND_IDLE, "the last entry");
    want_answer(1, 7, FIXLOMAND_PLACE_ENTRY, 64, FIXLOMAND_DAMAGED, "an entry above 63");
    want_answer(1, 7, FIXLOMAND_PLACE_AT, 125, FIXLOMAND_IDLE, "a place at the data's end");
    want_answer(1, 7, FIXLOMAND_PLACE_AT, 126, FIXLOMAND_DAMAGED, "a place above 125");
    want_answer(1, 7, FIXLOMAND_PLACE_SECTOR + 1, 0xFF, FIXLOMAND_IDLE, "any sector");
    want_answer(1, 7, FIXLOMAND_PLACE_PASSED + 1, 2, FIXLOMAND_IDLE, "513 passed sectors");
    want_answer(1, 7, FIXLOMAND_PLACE_PASSED + 1, 3, FIXLOMAND_DAMAGED, "769 passed sectors");
    place(1, 7)[FIXLOMAND_PLACE_PASSED + 1] = 2;
    want_answer(1, 7, FIXLOMAND_PLACE_PASSED, 0xCE, FIXLOMAND_IDLE, "718 passed sectors");
    want_answer(1, 7, FIXLOMAND_PLACE_PASSED, 0xCF, FIXLOMAND_DAMAGED, "719 passed sectors");
    place(1, 7)[FIXLOMAND_PLACE_PASSED + 1] = 0;
    for (unsigned at = FIXLOMAND_PLACE_PASSED + 2; at < FIXLOMAND_PLACE_LEN; at++)
        want_answer(1, 7, at, 0xFF, FIXLOMAND_IDLE, "the bytes behind a file's numbers");
    want(opened(0, 2, DIRECTORY, "D:H*.T?T"), SUCCESS, "OPEN of the directory");
    want(memcmp(place(0, 2), listing, FIXLOMAND_PLACE_LEN) == 0, 1, "the place after the OPEN");
    want_answer(0, 2, FIXLOMAND_PLACE_UNIT, 1, FIXLOMAND_DAMAGED, "another unit");
    want_answer(0, 2, FIXLOMAND_PLACE_KIND, 0, FIXLOMAND_DAMAGED, "a file in a directory's block");
    want_answer(0, 2, FIXLOMAND_PLACE_ENTRY, FIXLOMAND_LISTING_END, FIXLOMAND_IDLE, "the end");
    want_answer(0, 2, FIXLOMAND_PLACE_ENTRY, FIXLOMAND_LISTING_END + 1, FIXLOMAND_DAMAGED, "an entry above 65");
    want_answer(0, 2, FIXLOMAND_PLACE_AT, 17, FIXLOMAND_IDLE, "the last place in a file's record");
    want_answer(0, 2, FIXLOMAND_PLACE_AT, 18, FIXLOMAND_DAMAGED, "a place behind a file's record");
    for (unsigned at = FIXLOMAND_PLACE_NAME; at < FIXLOMAND_PLACE_LEN; at++)
        want_answer(0, 2, at, 0xFF, FIXLOMAND_IDLE, "any name");
    want_record(2, "  HELLO   TXT 001", SUCCESS);
    want(place(0, 2)[FIXLOMAND_PLACE_ENTRY], 1, "the entry behind it");
    want(call(0, 2, GET_CHARACTERS, 1, 0), SUCCESS, "the first of the free sectors' record");
    want(place(0, 2)[FIXLOMAND_PLACE_ENTRY], FIXLOMAND_FREE_RECORD, "its entry");
    want(place(0, 2)[FIXLOMAND_PLACE_AT], 1, "the place in it");
    want_answer(0, 2, FIXLOMAND_PLACE_AT, 16, FIXLOMAND_IDLE, "the last place in it");
    want_answer(0, 2, FIXLOMAND_PLACE_AT, 17, FIXLOMAND_DAMAGED, "a place behind it");
    want(call(0, 2, GET_RECORD, 40, 0), LAST, "the rest of it");
    want(place(0, 2)[FIXLOMAND_PLACE_ENTRY], FIXLOMAND_LISTING_END, "the entry at the end");
    want(place(0, 2)[FIXLOMAND_PLACE_AT], 0, "the place at the end");
    want_answer(0, 2, FIXLOMAND_PLACE_AT, 1, FIXLOMAND_DAMAGED, "a place at the end");
    /* the place of a block that does not have D open is not judged */
    want(opened(0, 3, W, "P:"), SUCCESS, "OPEN of P");
    want(call(1, 7, CLOSE, 0, 0), SUCCESS, "CLOSE of the file");
    want(place(1, 7)[FIXLOMAND_PLACE_SECTOR], 9, "the place after the CLOSE");
    for (unsigned at = 0; at < FIXLOMAND_PLACE_LEN; at++) {
        want_answer(0, 3, at, 0xFF, FIXLOMAND_IDLE, "the place of a block on P");
        want_answer(1, 7, at, 0xFF, FIXLOMAND_IDLE, "the place of a closed block");
    }
    /* the blocks themselves */
    uint8_t *block = state + FIXLOMAND_BLOCKS + FIXLOMAND_BLOCK_LEN * 2;
    block[1] = 5;
    place(0, 2)[FIXLOMAND_PLACE_UNIT] = 4;
    want(fixlomand_tick(LENT, 0), FIXLOMAND_DAMAGED, "D5");
    block[1] = 1;
    place(0, 2)[FIXLOMAND_PLACE_UNIT] = 0;
    block[2] = R;
    want(fixlomand_tick(LENT, 0), FIXLOMAND_DAMAGED, "a directory without AUX1 $06");
    block[2] = DIRECTORY;
    want(fixlomand_tick(LENT, 0), FIXLOMAND_IDLE, "the block as it was");
    want(opened(0, 2, R, "D:HELLO.TXT"), SUCCESS, "OPEN of a file");
    block[2] = R | W;
    want(fixlomand_tick(LENT, 0), FIXLOMAND_DAMAGED, "D with W");
    block[2] = DIRECTORY;
    want(fixlomand_tick(LENT, 0), FIXLOMAND_DAMAGED, "a file with AUX1 $06");
    block[2] = R;
    want(fixlomand_tick(LENT, 0), FIXLOMAND_IDLE, "the block as it was");
}

/* What the doctor has set right reads to its end, and a block that was open goes on from its place; the doctor's rules for
 * a bad sector are D's. */
static void check_doctored(void)
{
    static uint8_t list[FIXLOMAND_LIST_LEN];
    uint32_t given;
    start();
    write_entry(1, 0, 0x42, 9, 4, "HELLO   TXT");
    write_sector(1, 4, 0, 5, 2, 'h');
    write_sector(1, 5, 1, 0, 3, 'g'); /* a sector of file 1 */
    write_entry(1, 1, 0x62, 1, 4, "GONE       ");
    write_free(1, 12);
    want_open(R, "D:HELLO.TXT", SUCCESS);
    want(call(0, 0, GET_CHARACTERS, 3, 0), BAD_CHAIN, "a chain into another file");
    want(opened(0, 1, R, "D:GONE"), SUCCESS, "OPEN of a file that begins in another");
    want(call(0, 1, GET_CHARACTERS, 1, 0), BAD_CHAIN, "a file that begins in another");
    given = fixlomand_doctor(images + FIXLOMAND_IMAGE(1), FIXLOMAND_IMAGE_LEN, list, sizeof list);
    want(FIXLOMAND_ANSWER(given), FIXLOMAND_DONE, "the doctor");
    want(call(0, 0, GET_CHARACTERS, 1, 0), END, "a read behind the cut, the block open as before");
    want_open(R, "D:HELLO.TXT", SUCCESS);
    want(call(0, 0, GET_CHARACTERS, 2, 0), LAST, "the file that is cut");
    want_stored(0, "hh", 2, "the file that is cut");
    want(call(0, 0, GET_CHARACTERS, 1, 0), END, "a read behind its end");
    want(opened(0, 1, R, "D:GONE"), NOT_FOUND, "OPEN of the file that is deleted");
    want(opened(0, 1, DIRECTORY, "D:*.*"), SUCCESS, "OPEN of the directory");
    want_record(1, "  HELLO   TXT 001", SUCCESS);
    want_record(1, "706 FREE SECTORS", LAST);
}

/* "No call changes an image, a fresh start neither." Of the other calls the memory that can only be read has shown it. */
static void check_images(void)
{
    static uint8_t before[FIXLOMAND_IMAGES_LEN];
    for (size_t i = 0; i < sizeof before; i++)
        before[i] = images[i] = (uint8_t)(i * 37 + i / 251 + 11);
    want(fixlomand_fresh(LENT), FIXLOMAND_DONE, "a fresh start");
    checks++;
    if (memcmp(images, before, sizeof before) != 0)
        fail("diskettes: a fresh start changes the images");
}

int main(void)
{
    images = shared("images", FIXLOMAND_IMAGES_LEN, RIGHT);
    images_view = view_of_shared(0, 0);
    guard_doing = "diskettes";
    guard_watch();
    check_worked();
    check_names();
    check_chains();
    check_longest_chain();
    check_directory();
    check_status();
    check_ports();
    check_places();
    check_doctored();
    check_images();
    guards_free();
    printf("diskettes: %u times the core did with a diskette what it should; no call wrote a byte of one\n", checks);
    return 0;
}
