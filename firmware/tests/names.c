/* names: each name that fixlomand.h has for what hosts send and get, for keys and for modes, by what the core does with
 * its number. */
#include "fixlomand.h"
#include "guard.h"

#include <stdio.h>
#include <string.h>

enum { R = FIXLOMAND_AUX1_READ, W = FIXLOMAND_AUX1_WRITE, FORCED = FIXLOMAND_AUX1_FORCED };
enum { SPECIFICATION = 0, BUFFER = 16, STATUS = FIXLOMAND_HEADER_LEN, COUNT, A = COUNT + 2 };

static uint8_t state[FIXLOMAND_STATE_LEN], area[FIXLOMAND_AREA_LEN];
static uint8_t screen[FIXLOMAND_SCREEN_LEN], paper[FIXLOMAND_PAPER_LEN], tape[FIXLOMAND_TAPE_LEN];
static uint8_t images[FIXLOMAND_IMAGES_LEN];
static uint8_t reply[FIXLOMAND_ROOM_LEN];
static unsigned checks;

#define LENT                                                                                                           \
    state, sizeof state, area, sizeof area, screen, sizeof screen, paper, sizeof paper, tape, sizeof tape, images,     \
        sizeof images

static void want(unsigned got, unsigned right, const char *what)
{
    checks++;
    if (got != right)
        fail("names: %s gives $%02X, not $%02X", what, got, right);
}

/* Sends a message at port 0 and reads its reply; how many bytes. */
static unsigned request(const uint8_t *message, size_t length)
{
    unsigned got = 0;
    uint16_t given;
    for (size_t i = 0; i < length; i++)
        if (fixlomand_take(LENT, 0, message[i]) != FIXLOMAND_DONE)
            fail("names: byte %zu of message $%02X is not taken", i, message[0]);
    while (fixlomand_tick(LENT, 0) == FIXLOMAND_DONE)
        continue;
    while (given = fixlomand_give(LENT, 0), FIXLOMAND_ANSWER(given) == FIXLOMAND_DONE)
        reply[got++] = FIXLOMAND_BYTE(given);
    return got;
}

/* A CALL; its status. */
static unsigned call(unsigned block, unsigned command, unsigned address, unsigned length, unsigned aux1, unsigned aux2)
{
    const uint8_t message[FIXLOMAND_HEADER_LEN + FIXLOMAND_CALL_LEN] = {
        FIXLOMAND_TAG_CALL,      FIXLOMAND_CALL_LEN, 0,
        (uint8_t)block,          (uint8_t)command,   (uint8_t)address,
        (uint8_t)(address >> 8), (uint8_t)length,    (uint8_t)(length >> 8),
        (uint8_t)aux1,           (uint8_t)aux2,      0};
    if (request(message, sizeof message) != FIXLOMAND_HEADER_LEN + FIXLOMAND_CALL_REPLY_LEN ||
        reply[0] != FIXLOMAND_TAG_CALL_REPLY)
        fail("names: a CALL of command $%02X is answered by tag $%02X", command, reply[0]);
    return reply[STATUS];
}

/* Closes block 0 and opens a device on it; the status. */
static unsigned opened(const char *specification, unsigned aux1, unsigned mode)
{
    call(0, FIXLOMAND_COMMAND_CLOSE, 0, 0, 0, 0);
    memcpy(area + SPECIFICATION, specification, strlen(specification));
    return call(0, FIXLOMAND_COMMAND_OPEN, SPECIFICATION, 0, aux1, mode);
}

static unsigned put(unsigned length)
{
    return call(0, FIXLOMAND_COMMAND_PUT_CHARACTERS, BUFFER, length, 0, 0);
}

static unsigned column(void)
{
    return state[FIXLOMAND_COLUMN] + 256u * state[FIXLOMAND_COLUMN + 1];
}

static void check_version(void)
{
    char text[16];
    snprintf(text, sizeof text, "%d.%d.%d", FIXLOMAND_VERSION_NUMBER / 10000, FIXLOMAND_VERSION_NUMBER / 100 % 100,
             FIXLOMAND_VERSION_NUMBER % 100);
    if (strcmp(text, FIXLOMAND_VERSION) != 0)
        fail("names: version %s has the number of %s", FIXLOMAND_VERSION, text);
}

static void check_messages(void)
{
    static uint8_t load[FIXLOMAND_HEADER_LEN + 2 + FIXLOMAND_PIECE_LEN + 1] = {FIXLOMAND_TAG_LOAD};
    uint8_t fetch[] = {FIXLOMAND_TAG_FETCH, FIXLOMAND_FETCH_LEN, 0, 0, 0, 0, 0};
    const uint8_t unknown[] = {FIXLOMAND_TAG_FETCH + 1, 0, 0};
    memset(load + FIXLOMAND_HEADER_LEN + 2, 'x', FIXLOMAND_PIECE_LEN);
    load[1] = (2 + FIXLOMAND_PIECE_LEN) % 256;
    load[2] = (2 + FIXLOMAND_PIECE_LEN) / 256;
    want(request(load, sizeof load - 1), FIXLOMAND_HEADER_LEN + 1, "the length of a LOAD's reply");
    want(reply[0], FIXLOMAND_TAG_LOAD_REPLY, "LOAD");
    want(reply[STATUS], FIXLOMAND_STATUS_SUCCESS, "LOAD of the most bytes");
    want(area[FIXLOMAND_PIECE_LEN - 1], 'x', "the last byte of a LOAD");
    load[1]++;
    request(load, sizeof load);
    want(reply[0], FIXLOMAND_TAG_REFUSED, "LOAD of one more");
    want(reply[STATUS], FIXLOMAND_STATUS_BAD_COMMAND, "LOAD of one more");
    fetch[5] = FIXLOMAND_PIECE_LEN % 256;
    fetch[6] = FIXLOMAND_PIECE_LEN / 256;
    want(request(fetch, sizeof fetch), FIXLOMAND_HEADER_LEN + 1 + FIXLOMAND_PIECE_LEN, "the length of a FETCH's reply");
    want(reply[0], FIXLOMAND_TAG_FETCH_REPLY, "FETCH");
    want(reply[STATUS], FIXLOMAND_STATUS_SUCCESS, "FETCH of the most bytes");
    fetch[5]++;
    request(fetch, sizeof fetch);
    want(reply[STATUS], FIXLOMAND_STATUS_BAD_COMMAND, "FETCH of one more");
    fetch[3] = FIXLOMAND_PORT_AREA_LEN % 256;
    fetch[4] = FIXLOMAND_PORT_AREA_LEN / 256;
    fetch[5] = 1;
    fetch[6] = 0;
    request(fetch, sizeof fetch);
    want(reply[STATUS], FIXLOMAND_STATUS_PAST_AREA, "FETCH behind the area");
    fetch[3] = (FIXLOMAND_PORT_AREA_LEN - 1) % 256;
    fetch[4] = (FIXLOMAND_PORT_AREA_LEN - 1) / 256;
    request(fetch, sizeof fetch);
    want(reply[STATUS], FIXLOMAND_STATUS_SUCCESS, "FETCH of the area's last byte");
    request(unknown, sizeof unknown);
    want(reply[0], FIXLOMAND_TAG_REFUSED, "an unknown tag");
    want(reply[STATUS], FIXLOMAND_STATUS_UNKNOWN_TAG, "an unknown tag");
    want(fixlomand_tick(LENT, FIXLOMAND_PORTS - 1), FIXLOMAND_IDLE, "the last port");
    want(fixlomand_tick(LENT, FIXLOMAND_PORTS), FIXLOMAND_BAD_PORT, "the port behind it");
}

static void check_blocks(void)
{
    want(FIXLOMAND_COMMAND_SPECIAL, FIXLOMAND_COMMAND_GET_STATUS + 1, "the first SPECIAL");
    want(FORCED + R + W + FIXLOMAND_AUX1_SPLIT + FIXLOMAND_AUX1_KEEP, 0x3D, "the sum of the bits of AUX1");
    want(call(FIXLOMAND_BLOCK_COUNT - 1, FIXLOMAND_COMMAND_CLOSE, 0, 0, 0, 0), FIXLOMAND_STATUS_SUCCESS,
         "CLOSE of the last block");
    want(call(FIXLOMAND_BLOCK_COUNT, FIXLOMAND_COMMAND_CLOSE, 0, 0, 0, 0), FIXLOMAND_STATUS_BAD_IOCB,
         "CLOSE of the block behind it");
    want(opened("X:", W, 0), FIXLOMAND_STATUS_UNKNOWN_DEVICE, "OPEN of X:");
    want(put(1), FIXLOMAND_STATUS_NOT_OPEN, "PUT at a closed block");
    memcpy(area + SPECIFICATION, "P:", 2);
    want(call(0, FIXLOMAND_COMMAND_GET_STATUS, SPECIFICATION, 0, W, 0), FIXLOMAND_STATUS_SUCCESS, "GET STATUS of P:");
    want(call(0, FIXLOMAND_COMMAND_SPECIAL, SPECIFICATION, 0, W, 0), FIXLOMAND_STATUS_BAD_COMMAND, "SPECIAL of P:");
    want(state[FIXLOMAND_BLOCKS], FIXLOMAND_CLOSED, "the block after it");
    want(opened("P:", W, 0), FIXLOMAND_STATUS_SUCCESS, "OPEN of P:");
    want(state[FIXLOMAND_BLOCKS], FIXLOMAND_P, "the block after it");
    want(call(0, FIXLOMAND_COMMAND_OPEN, SPECIFICATION, 0, W, 0), FIXLOMAND_STATUS_ALREADY_OPEN, "OPEN once more");
    want(call(0, FIXLOMAND_COMMAND_GET_RECORD, BUFFER, 1, 0, 0), FIXLOMAND_STATUS_NOT_READABLE, "GET from P:");
    want(put(FIXLOMAND_PORT_AREA_LEN), FIXLOMAND_STATUS_PAST_AREA, "PUT past the area");
    want(opened("P:", R, 0), FIXLOMAND_STATUS_BAD_COMMAND, "OPEN of P: with R");
    want(opened("K:", R, 0), FIXLOMAND_STATUS_SUCCESS, "OPEN of K:");
    want(put(1), FIXLOMAND_STATUS_NOT_WRITABLE, "PUT to K:");
}

static void check_printer(void)
{
    opened("P:", W, 0);
    memcpy(area + BUFFER, "ab", 2);
    want(call(0, FIXLOMAND_COMMAND_PUT_RECORD, BUFFER, 2, 0, 0), FIXLOMAND_STATUS_SUCCESS, "PUT RECORD");
    want(reply[COUNT], 2, "PUT RECORD's count");
    want(paper[2], FIXLOMAND_EOL, "PUT RECORD's last byte");
    want(put(FIXLOMAND_PAPER_LEN), FIXLOMAND_STATUS_PAPER_FULL, "PUT of more than the paper");
}

/* A record that is full with its last character, the last character of all, the end, and a record that is bad; then a
 * tape that is full. */
static void check_cassette(void)
{
    want(opened("C:", R | W, 0), FIXLOMAND_STATUS_BAD_COMMAND, "OPEN of C: with R and W");
    want(opened("C:", W, 0), FIXLOMAND_STATUS_SUCCESS, "OPEN of C:");
    want(state[FIXLOMAND_BLOCKS], FIXLOMAND_C, "the block after it");
    want(state[FIXLOMAND_MARK], FIXLOMAND_TAPE_WRITING, "the mark after it");
    want(call(1, FIXLOMAND_COMMAND_OPEN, SPECIFICATION, 0, W, 0), FIXLOMAND_STATUS_ALREADY_OPEN, "OPEN at another block");
    memset(area + BUFFER, 'a', FIXLOMAND_PENDING_LEN + 1);
    want(put(FIXLOMAND_PENDING_LEN - 1), FIXLOMAND_STATUS_SUCCESS, "PUT of fewer than a record");
    want(state[FIXLOMAND_PLACE], FIXLOMAND_PENDING_LEN - 1, "the place");
    want(state[FIXLOMAND_PENDING + FIXLOMAND_PENDING_LEN - 2], 'a', "the last pending character");
    want(tape[2], 0, "the tape meanwhile");
    want(put(2), FIXLOMAND_STATUS_SUCCESS, "PUT of a full record and one more");
    want(state[FIXLOMAND_RECORD], 1, "the record");
    want(state[FIXLOMAND_PLACE], 1, "the place");
    want(tape[2], 0xFC, "the control byte of a full record");
    want(opened("C:", 0, 0), FIXLOMAND_STATUS_SUCCESS, "OPEN of C: with neither");
    want(state[FIXLOMAND_MARK], FIXLOMAND_TAPE_NEITHER, "the mark after it");
    want(tape[132 + 2], 0xFA, "the control byte of a partial record");
    want(tape[264 + 2], 0xFE, "the control byte of the end");
    want(opened("C:", R, 0), FIXLOMAND_STATUS_SUCCESS, "OPEN of C: with R");
    want(state[FIXLOMAND_MARK], FIXLOMAND_TAPE_READING, "the mark after it");
    want(call(0, FIXLOMAND_COMMAND_GET_CHARACTERS, BUFFER, FIXLOMAND_PENDING_LEN, 0, 0), FIXLOMAND_STATUS_SUCCESS,
         "GET of all but one");
    area[BUFFER] = 0;
    want(call(0, FIXLOMAND_COMMAND_GET_CHARACTERS, BUFFER, 1, 0, 0), FIXLOMAND_STATUS_LAST_CHARACTER, "GET of the last");
    want(reply[COUNT], 1, "its count");
    want(area[BUFFER], 'a', "its character");
    want(call(0, FIXLOMAND_COMMAND_GET_CHARACTERS, BUFFER, 1, 0, 0), FIXLOMAND_STATUS_END_OF_FILE, "GET behind the last");
    want(opened("C:", R, 0), FIXLOMAND_STATUS_SUCCESS, "OPEN of C: with R");
    want(call(0, FIXLOMAND_COMMAND_GET_CHARACTERS, BUFFER, 256, 0, 0), FIXLOMAND_STATUS_END_OF_FILE, "GET of more");
    want(reply[COUNT], FIXLOMAND_PENDING_LEN + 1, "GET's count");
    want(opened("C:", R, 0), FIXLOMAND_STATUS_SUCCESS, "OPEN of C: with R");
    tape[131]++;
    want(call(0, FIXLOMAND_COMMAND_GET_CHARACTERS, BUFFER, 1, 0, 0), FIXLOMAND_STATUS_CHECKSUM, "GET of a bad record");
    want(opened("C:", W, 0), FIXLOMAND_STATUS_SUCCESS, "OPEN of C:");
    want(put(16000), FIXLOMAND_STATUS_SUCCESS, "PUT of half a tape");
    want(put(16000), FIXLOMAND_STATUS_PAPER_FULL, "PUT of more than the tape");
    want(reply[COUNT] + 256u * reply[COUNT + 1], 249 * FIXLOMAND_PENDING_LEN - 16000, "PUT's count");
    want(call(0, FIXLOMAND_COMMAND_CLOSE, 0, 0, 0, 0), FIXLOMAND_STATUS_SUCCESS, "CLOSE of a full tape");
    want(tape[FIXLOMAND_TAPE_LEN - 1], 0xA9, "the checksum of an end record");
    want(state[FIXLOMAND_MARK], FIXLOMAND_TAPE_CLOSED, "the mark of a closed tape");
}

/* A file of one character, the directory, and what D refuses; where they stand in the images and in the state. */
static void check_diskettes(void)
{
    static const uint8_t entry[] = {0x42, 1, 0, 4, 0, 'A', ' ', ' ', ' ', ' ', ' ', ' ', ' ', 'B', ' ', ' '};
    uint8_t *sector = images + FIXLOMAND_SECTOR(FIXLOMAND_DRIVES, 4);
    const uint8_t *place = state + FIXLOMAND_PLACES;
    want(FIXLOMAND_DRIVES * FIXLOMAND_IMAGE_LEN, FIXLOMAND_IMAGES_LEN, "the images");
    want(FIXLOMAND_SECTORS * FIXLOMAND_SECTOR_LEN, FIXLOMAND_IMAGE_LEN, "an image");
    want(FIXLOMAND_SECTOR(2, 1), FIXLOMAND_IMAGE(2), "the first sector of an image");
    want(FIXLOMAND_PORTS * FIXLOMAND_BLOCK_COUNT * FIXLOMAND_PLACE_LEN, FIXLOMAND_PLACES_LEN, "the places");
    want(FIXLOMAND_PLACES + FIXLOMAND_PLACES_LEN, FIXLOMAND_ROOMS, "the end of the places");
    want(opened("D4:A.B\x9B", R, 0), FIXLOMAND_STATUS_FILE_NOT_FOUND, "OPEN at an empty drive");
    memcpy(images + FIXLOMAND_SECTOR(FIXLOMAND_DRIVES, 361), entry, sizeof entry);
    sector[0] = 'a';
    sector[127] = 1;
    want(opened("D4:A.B\x9B", W, 0), FIXLOMAND_STATUS_BAD_COMMAND, "OPEN of D with W");
    want(opened("D4:A-B\x9B", R, 0), FIXLOMAND_STATUS_BAD_FILE_NAME, "OPEN of a bad name");
    want(opened("D5:A.B\x9B", R, 0), FIXLOMAND_STATUS_UNKNOWN_DEVICE, "OPEN of D5");
    want(opened("D4:A.B\x9B", R, 0), FIXLOMAND_STATUS_SUCCESS, "OPEN of D4");
    want(state[FIXLOMAND_BLOCKS], FIXLOMAND_D, "the block after it");
    want(place[FIXLOMAND_PLACE_UNIT], FIXLOMAND_DRIVES - 1, "the unit after it");
    want(place[FIXLOMAND_PLACE_KIND], FIXLOMAND_PLACE_FILE, "the kind after it");
    want(place[FIXLOMAND_PLACE_SECTOR], 4, "the sector after it");
    area[BUFFER] = 0;
    want(call(0, FIXLOMAND_COMMAND_GET_CHARACTERS, BUFFER, 1, 0, 0), FIXLOMAND_STATUS_LAST_CHARACTER, "GET from D4");
    want(area[BUFFER], 'a', "its character");
    want(place[FIXLOMAND_PLACE_AT], 1, "the place after it");
    want(call(0, FIXLOMAND_COMMAND_GET_CHARACTERS, BUFFER, 1, 0, 0), FIXLOMAND_STATUS_END_OF_FILE, "GET behind it");
    images[FIXLOMAND_SECTOR(FIXLOMAND_DRIVES, 361)] = 0x62;
    want(call(0, FIXLOMAND_COMMAND_GET_STATUS, 0, 0, 0, 0), FIXLOMAND_STATUS_FILE_LOCKED, "GET STATUS, a locked file");
    sector[127] = 126;
    want(call(0, FIXLOMAND_COMMAND_GET_CHARACTERS, BUFFER, 1, 0, 0), FIXLOMAND_STATUS_BAD_CHAIN, "GET of a bad sector");
    want(opened("D4:?.B\x9B", FIXLOMAND_AUX1_DIRECTORY, 0), FIXLOMAND_STATUS_SUCCESS, "OPEN of a directory");
    want(place[FIXLOMAND_PLACE_KIND], FIXLOMAND_PLACE_DIRECTORY, "the kind after it");
    want(place[FIXLOMAND_PLACE_NAME], '?', "the name after it");
    want(place[FIXLOMAND_PLACE_NAME + FIXLOMAND_NAME_LEN - 3], 'B', "the extension after it");
    want(call(0, FIXLOMAND_COMMAND_GET_RECORD, BUFFER, 18, 0, 0), FIXLOMAND_STATUS_SUCCESS, "GET of a file's record");
    want(area[BUFFER + 17], FIXLOMAND_EOL, "its last character");
    want(call(0, FIXLOMAND_COMMAND_GET_CHARACTERS, BUFFER, 16, 0, 0), FIXLOMAND_STATUS_SUCCESS, "the last record");
    want(place[FIXLOMAND_PLACE_ENTRY], FIXLOMAND_FREE_RECORD, "its entry");
    want(call(0, FIXLOMAND_COMMAND_GET_CHARACTERS, BUFFER, 1, 0, 0), FIXLOMAND_STATUS_LAST_CHARACTER, "its EOL");
    want(place[FIXLOMAND_PLACE_ENTRY], FIXLOMAND_LISTING_END, "the entry behind it");
    want(call(0, FIXLOMAND_COMMAND_CLOSE, 0, 0, 0, 0), FIXLOMAND_STATUS_SUCCESS, "CLOSE of a directory");
}

static void check_editor(void)
{
    want(opened("E:", R | W, 0), FIXLOMAND_STATUS_BAD_COMMAND, "OPEN of E: without forced read");
    want(opened("E:", R | W | FORCED, 0), FIXLOMAND_STATUS_SUCCESS, "OPEN of E:");
    memset(area + BUFFER, ' ', 64);
    want(call(0, FIXLOMAND_COMMAND_GET_CHARACTERS, BUFFER, 1, 0, 0), FIXLOMAND_STATUS_SUCCESS, "GET from an empty row");
    want(area[BUFFER], FIXLOMAND_EOL, "GET CHARACTERS from an empty row");
    memcpy(area + BUFFER, "abc\x1D\x1C", 5); /* down and up: the row stays */
    want(put(5), FIXLOMAND_STATUS_SUCCESS, "PUT to E:");
    want(call(0, FIXLOMAND_COMMAND_GET_RECORD, BUFFER, 2, 0, 0), FIXLOMAND_STATUS_RECORD_CUT, "GET RECORD of more");
    want(reply[COUNT], 2, "GET RECORD's count");
}

static void check_keys(void)
{
    static const uint8_t caps = 60;
    want(state[FIXLOMAND_LOCK], FIXLOMAND_LOCK_SHIFT, "the lock of a fresh start");
    want(opened("K:", R, 0), FIXLOMAND_STATUS_SUCCESS, "OPEN of K:");
    want(call(0, FIXLOMAND_COMMAND_GET_CHARACTERS, BUFFER, 1, 0, 0), FIXLOMAND_STATUS_END_OF_FILE, "GET without a key");
    fixlomand_press(LENT, caps);
    call(0, FIXLOMAND_COMMAND_GET_CHARACTERS, BUFFER, 0, 0, 0);
    want(state[FIXLOMAND_LOCK], FIXLOMAND_LOCK_NONE, "CAPS");
    fixlomand_press(LENT, caps + FIXLOMAND_WITH_CONTROL);
    call(0, FIXLOMAND_COMMAND_GET_CHARACTERS, BUFFER, 0, 0, 0);
    want(state[FIXLOMAND_LOCK], FIXLOMAND_LOCK_CONTROL, "CAPS with control");
    fixlomand_press(LENT, caps + FIXLOMAND_WITH_SHIFT);
    want(state[FIXLOMAND_KEY], 124, "CAPS with shift");
    call(0, FIXLOMAND_COMMAND_GET_CHARACTERS, BUFFER, 0, 0, 0);
    want(state[FIXLOMAND_KEY], FIXLOMAND_NO_KEY, "a GET");
    want(state[FIXLOMAND_LOCK], FIXLOMAND_LOCK_SHIFT, "CAPS with shift");
}

/* The colours by a cell, the columns and rows by where the cursor goes. */
static void check_mode(unsigned mode)
{
    char what[40];
    snprintf(what, sizeof what, "mode %u", mode);
    want(opened("S:", R | W, mode), FIXLOMAND_STATUS_SUCCESS, what);
    want(state[FIXLOMAND_MODE], mode, what);
    memset(area + BUFFER, 255, FIXLOMAND_PORT_AREA_LEN - BUFFER);
    want(put(FIXLOMAND_COLUMNS(mode) - 1), FIXLOMAND_STATUS_SUCCESS, what);
    want(screen[0], FIXLOMAND_COLOURS(mode) - 1, what);
    want(column(), FIXLOMAND_COLUMNS(mode) - 1, what);
    want(put(1), FIXLOMAND_STATUS_SUCCESS, what);
    want(column(), 0, what);
    want(state[FIXLOMAND_ROW], 1, what);
    memset(area + BUFFER, FIXLOMAND_EOL, 256);
    want(put(FIXLOMAND_ROWS(mode) - 1), FIXLOMAND_STATUS_SUCCESS, what);
    want(put(1), FIXLOMAND_STATUS_CURSOR_PAST_LAST_ROW, what);
    want(opened("S:", R | FIXLOMAND_AUX1_KEEP, mode), FIXLOMAND_STATUS_SUCCESS, what);
    want(screen[0], FIXLOMAND_COLOURS(mode) - 1, "OPEN of S: that keeps the cells");
    want(opened("S:", R, mode), FIXLOMAND_STATUS_SUCCESS, what);
    want(screen[0], 0, "OPEN of S:");
    want(opened("S:", R | FIXLOMAND_AUX1_SPLIT, mode), FIXLOMAND_STATUS_SCREEN_MODE, "OPEN of S: with a split screen");
}

static void check_modes(void)
{
    for (unsigned mode = 0; mode < 256; mode++)
        if (mode >= 3 && mode <= 8)
            check_mode(mode);
        else
            want(opened("S:", R | W, mode), FIXLOMAND_STATUS_SCREEN_MODE, "no mode of S:");
    for (unsigned mode = 1; mode < 256; mode == 2 ? mode = 9 : mode++)
        want(FIXLOMAND_COLUMNS(mode) + FIXLOMAND_ROWS(mode) + FIXLOMAND_COLOURS(mode), 0, "a number that is no mode");
    /* the text: a fresh start's blanks, the right margin, and the last row, from which the rows move up */
    fixlomand_fresh(LENT);
    want(screen[FIXLOMAND_COLUMNS(0) * FIXLOMAND_ROWS(0) - 1], ' ', "the text's last cell");
    want(screen[FIXLOMAND_COLUMNS(0) * FIXLOMAND_ROWS(0)], 0, "the cell behind it");
    want(FIXLOMAND_COLOURS(0), 256, "the text's characters");
    opened("E:", W, 0);
    memset(area + BUFFER, 'a', 64);
    put(FIXLOMAND_COLUMNS(0) - 2);
    want(state[FIXLOMAND_ROW], 1, "a row of text");
    memset(area + BUFFER, FIXLOMAND_EOL, 64);
    put(FIXLOMAND_ROWS(0) - 2);
    want(screen[2], 'a', "the text's first row");
    want(state[FIXLOMAND_ROW], FIXLOMAND_ROWS(0) - 1, "the text's last row");
    put(1);
    want(screen[2], ' ', "a new row from the last");
}

int main(void)
{
    check_version();
    fixlomand_fresh(LENT);
    check_messages();
    check_blocks();
    check_printer();
    check_cassette();
    check_diskettes();
    check_editor();
    check_keys();
    check_modes();
    printf("names: %u times the core did what the header's name says\n", checks);
    return 0;
}
