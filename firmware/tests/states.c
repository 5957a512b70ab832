/* states [CALLS [SEED]]: a million calls on states that somebody may hand over.
 *
 * Half of the calls are on states in order, made at random, of which one byte after the other gets every value. The rest
 * are on random bytes, on states in order, on such states with one wrong byte, and on what the calls make of them. Every
 * call must end in an answer of its own row of the table, answer 3 exactly when damage.c, which is
 * written from the header alone, finds the state damaged, change nothing unless it answers 0, and leave a state in
 * order. The buffers stand between guard pages; what of area, screen, paper and tape a call may not write it is lent at
 * a place where it can only be read, and so are the images always. */
#include "damage.h"
#include "fixlomand.h"
#include "guard.h"

#include <inttypes.h>
#include <stdio.h>
#include <stdlib.h>
#include <string.h>

enum { FRESH, TAKE, TICK, GIVE, PRESS, CALLS, ANSWERS = 9, HALF = FIXLOMAND_PORT_AREA_LEN };
enum { R = FIXLOMAND_AUX1_READ, W = FIXLOMAND_AUX1_WRITE, FORCED = FIXLOMAND_AUX1_FORCED, SPECIFICATIONS = 16 };

/* the control blocks of both ports, and how many numbers the files of the diskettes have */
enum { BLOCKS = FIXLOMAND_PORTS * FIXLOMAND_BLOCK_COUNT, FILES = 2 };

static const char *const names[CALLS] = {"fresh", "take", "tick", "give", "press"};
static uint8_t *state, *area, *screen, *paper, *tape, *images;
/* where nothing can be written, and where one port's half of the area can */
static uint8_t *area_view, *screen_view, *paper_view, *tape_view, *images_view, *half_view[2];
static uint8_t state_before[FIXLOMAND_STATE_LEN], area_before[FIXLOMAND_AREA_LEN];
static uint8_t screen_before[FIXLOMAND_SCREEN_LEN], paper_before[FIXLOMAND_PAPER_LEN];
static uint8_t tape_before[FIXLOMAND_TAPE_LEN];
static unsigned long counts[CALLS][ANSWERS];
static uint64_t seed;

/* ---- random numbers ---- */

/* xorshift64*: the same numbers on every machine */
static uint32_t random_number(void)
{
    seed ^= seed >> 12;
    seed ^= seed << 25;
    seed ^= seed >> 27;
    return (uint32_t)((seed * UINT64_C(2685821657736338717)) >> 32);
}

static unsigned below(unsigned n)
{
    return random_number() % n;
}

static int one_in(unsigned n)
{
    return below(n) == 0;
}

/* A number from low to high; the ends come often. */
static unsigned between(unsigned low, unsigned high)
{
    if (one_in(4))
        return one_in(2) ? low : high;
    return low + below(high - low + 1);
}

static void put(uint8_t *bytes, unsigned number)
{
    bytes[0] = (uint8_t)number;
    bytes[1] = (uint8_t)(number >> 8);
}

static void put_random(uint8_t *bytes, size_t length)
{
    uint32_t some = 0;
    for (size_t i = 0; i < length; i++, some >>= 8) {
        if (i % 4 == 0)
            some = random_number();
        bytes[i] = (uint8_t)some;
    }
}

/* ---- states in order ---- */

/* An AUX1 that OPEN takes for the device. */
static uint8_t random_aux1(uint8_t device)
{
    unsigned aux1 = below(256);
    if (device == FIXLOMAND_E && (aux1 & R) != 0)
        aux1 |= FORCED;
    if (device == FIXLOMAND_S)
        aux1 &= ~(unsigned)FIXLOMAND_AUX1_SPLIT;
    if (device == FIXLOMAND_D && one_in(3))
        aux1 = FIXLOMAND_AUX1_DIRECTORY;
    if (device == FIXLOMAND_K || device == FIXLOMAND_D)
        aux1 &= ~(unsigned)W;
    if (device == FIXLOMAND_P || (device == FIXLOMAND_C && (aux1 & W) != 0))
        aux1 &= ~(unsigned)R;
    return (uint8_t)aux1;
}

static void random_block(uint8_t *block, uint8_t device)
{
    block[0] = device;
    block[1] = device == FIXLOMAND_CLOSED ? 0 : (uint8_t)between(1, device == FIXLOMAND_D ? FIXLOMAND_DRIVES : 8);
    block[2] = device == FIXLOMAND_CLOSED ? 0 : random_aux1(device);
}

/* A message that does something, whole in the port's room: a CALL at a specification that prepare_area has put there, a
 * LOAD or a FETCH; now and then rubbish. */
static void random_ready(uint8_t *port, uint8_t *room)
{
    static const uint8_t commands[] = {
        FIXLOMAND_COMMAND_OPEN,           FIXLOMAND_COMMAND_OPEN,       FIXLOMAND_COMMAND_GET_RECORD,
        FIXLOMAND_COMMAND_GET_CHARACTERS, FIXLOMAND_COMMAND_PUT_RECORD, FIXLOMAND_COMMAND_PUT_CHARACTERS,
        FIXLOMAND_COMMAND_CLOSE,          FIXLOMAND_COMMAND_GET_STATUS, FIXLOMAND_COMMAND_SPECIAL,
        0};
    port[1] = (uint8_t)(FIXLOMAND_TAG_CALL + below(3));
    if (one_in(16))
        port[1] = (uint8_t)below(256);
    put_random(room, FIXLOMAND_ROOM_LEN);
    switch (port[1]) {
    case FIXLOMAND_TAG_CALL:
        put(port + 2, FIXLOMAND_CALL_LEN);
        room[0] = (uint8_t)below(one_in(16) ? 256 : FIXLOMAND_BLOCK_COUNT);
        room[1] = commands[below(sizeof commands)];
        put(room + 2, one_in(16) ? between(0, 65535) : 8 * below(SPECIFICATIONS));
        put(room + 4, one_in(16) ? between(0, 65535) : between(0, 300));
        room[6] = one_in(8) ? FIXLOMAND_AUX1_DIRECTORY : (uint8_t)below(64);
        room[7] = (uint8_t)below(10);
        break;
    case FIXLOMAND_TAG_LOAD:
        put(port + 2, between(3, 2 + FIXLOMAND_PIECE_LEN));
        put(room, one_in(2) ? between(HALF - 300, HALF) : between(8 * SPECIFICATIONS, 65535));
        break;
    case FIXLOMAND_TAG_FETCH:
        put(port + 2, FIXLOMAND_FETCH_LEN);
        put(room, one_in(2) ? between(HALF - 300, HALF) : between(0, 65535));
        put(room + 2, between(0, 300));
        break;
    default:
        put(port + 2, between(0, 65535));
        break;
    }
    if (one_in(16))
        put(port + 2, between(0, 65535));
}

/* A request at a block that is opened for it; it may be one at the tape, which may be open at one port alone. */
static void random_running(uint8_t *port, uint8_t mode, int tape_too)
{
    uint8_t kind = (uint8_t)below(6), *block;
    uint8_t device = kind < 3 ? (uint8_t)(1 + below(3)) : one_in(2) ? FIXLOMAND_P : (uint8_t)(1 + below(2));
    unsigned place = between(0, HALF), left = between(0, HALF - place);
    if (kind < 3 && one_in(3))
        device = FIXLOMAND_D;
    if (tape_too && one_in(2))
        device = FIXLOMAND_C;
    if (device == FIXLOMAND_E || device == FIXLOMAND_S)
        device = mode == 0 ? FIXLOMAND_E : FIXLOMAND_S;
    port[1] = kind;
    port[2] = device;
    port[3] = (uint8_t)below(FIXLOMAND_BLOCK_COUNT);
    block = port + FIXLOMAND_BLOCKS + FIXLOMAND_BLOCK_LEN * port[3];
    random_block(block, device);
    if (device == FIXLOMAND_C)
        block[2] &= (uint8_t)~(R | W);
    block[2] |= kind < 3 ? R : W;
    if (device == FIXLOMAND_E && (block[2] & R) != 0)
        block[2] |= FORCED;
    if (kind % 3 == 0) {
        put(port + 6, below(65536));
    } else {
        if (left == 0 && (kind % 3 == 1 || place == 0))
            left = place > 0 ? (place--, 1) : 1;
        put(port + 4, left);
        put(port + 6, place);
        put(port + 8, left > 0 ? between(0, place) : between(1, place));
    }
    port[10] = (uint8_t)below(256);
}

/* Any device but C, or none. */
static uint8_t random_device(void)
{
    unsigned device = below(FIXLOMAND_D);
    return (uint8_t)(device == FIXLOMAND_C ? FIXLOMAND_D : device);
}

static void random_port(uint8_t *port, uint8_t *room, uint8_t mode, int tape_too)
{
    unsigned length, taken;
    memset(port, 0, FIXLOMAND_PORT_LEN);
    for (unsigned i = 0; i < FIXLOMAND_BLOCK_COUNT; i++)
        random_block(port + FIXLOMAND_BLOCKS + FIXLOMAND_BLOCK_LEN * i, random_device());
    port[FIXLOMAND_PHASE] = (uint8_t)below(4);
    switch (port[FIXLOMAND_PHASE]) {
    case FIXLOMAND_GATHERING:
        random_ready(port, room);
        length = port[2] + 256u * port[3];
        taken = between(0, 2 + length);
        put(port + 4, taken & 65535);
        port[6] = (uint8_t)(taken >> 16);
        if (taken < 3)
            port[3] = 0;
        if (taken < 2)
            port[2] = 0;
        if (taken < 1)
            port[1] = 0;
        break;
    case FIXLOMAND_READY:
        random_ready(port, room);
        break;
    case FIXLOMAND_RUNNING:
        random_running(port, mode, tape_too);
        break;
    default:
        length = between(4, FIXLOMAND_ROOM_LEN);
        put(port + 1, length);
        put(port + 3, between(0, length - 1));
        break;
    }
    if (tape_too && port[FIXLOMAND_PHASE] != FIXLOMAND_RUNNING)
        random_block(port + FIXLOMAND_BLOCKS + FIXLOMAND_BLOCK_LEN * below(FIXLOMAND_BLOCK_COUNT), FIXLOMAND_C);
}

static void random_console(uint8_t *s)
{
    static const uint8_t modes[] = {0, 0, 0, 3, 4, 5, 6, 7, 8};
    uint8_t mode = modes[below(sizeof modes)];
    s[FIXLOMAND_MODE] = mode;
    s[FIXLOMAND_ROW] = (uint8_t)between(0, mode == 0 ? 23 : FIXLOMAND_ROWS(mode));
    put(s + FIXLOMAND_COLUMN, mode == 0 ? between(2, 39) : between(0, FIXLOMAND_COLUMNS(mode) - 1));
    s[FIXLOMAND_LAST] = (uint8_t)below(256);
    s[FIXLOMAND_ESCAPE] = (uint8_t)below(2);
    s[FIXLOMAND_READ_COLUMN] = one_in(2) ? FIXLOMAND_NO_COLUMN : (uint8_t)between(2, 40);
    s[FIXLOMAND_KEY] = (uint8_t)below(256);
    s[FIXLOMAND_LOCK] = (uint8_t)below(3);
    s[FIXLOMAND_INVERSE] = (uint8_t)below(2);
    put(s + FIXLOMAND_USED, between(0, FIXLOMAND_PAPER_LEN));
}

/* A block of both ports, 0 to 15, and its place. */
static const uint8_t *block_of(const uint8_t *s, unsigned number)
{
    return s + number / FIXLOMAND_BLOCK_COUNT * FIXLOMAND_PORT_LEN + FIXLOMAND_BLOCKS +
           number % FIXLOMAND_BLOCK_COUNT * FIXLOMAND_BLOCK_LEN;
}

static size_t place_of(unsigned number)
{
    return FIXLOMAND_PLACES + number * FIXLOMAND_PLACE_LEN;
}

/* The cassette, as the blocks have it open. */
static void random_cassette(uint8_t *s)
{
    unsigned mark = FIXLOMAND_TAPE_CLOSED, record = 0, at = 0;
    for (unsigned i = 0; i < BLOCKS; i++) {
        const uint8_t *block = block_of(s, i);
        if (block[0] == FIXLOMAND_C)
            mark = (block[2] & R) != 0   ? FIXLOMAND_TAPE_READING
                   : (block[2] & W) != 0 ? FIXLOMAND_TAPE_WRITING
                                         : FIXLOMAND_TAPE_NEITHER;
    }
    if (mark == FIXLOMAND_TAPE_READING || mark == FIXLOMAND_TAPE_WRITING) {
        record = between(0, mark == FIXLOMAND_TAPE_READING ? 250 : 249);
        at = mark == FIXLOMAND_TAPE_WRITING && record == 249 ? 0 : between(0, 127);
    }
    s[FIXLOMAND_MARK] = (uint8_t)mark;
    s[FIXLOMAND_RECORD] = (uint8_t)record;
    s[FIXLOMAND_PLACE] = (uint8_t)at;
    put_random(s + FIXLOMAND_PENDING, FIXLOMAND_PENDING_LEN);
}

/* The places, as the blocks have D open; the others may be any bytes. */
static void random_places(uint8_t *s)
{
    put_random(s + FIXLOMAND_PLACES, FIXLOMAND_PLACES_LEN);
    for (unsigned i = 0; i < BLOCKS; i++) {
        const uint8_t *block = block_of(s, i);
        uint8_t *place_in = s + place_of(i);
        unsigned entry;
        if (block[0] != FIXLOMAND_D)
            continue;
        place_in[FIXLOMAND_PLACE_UNIT] = (uint8_t)(block[1] - 1);
        if (block[2] != FIXLOMAND_AUX1_DIRECTORY) {
            place_in[FIXLOMAND_PLACE_KIND] = FIXLOMAND_PLACE_FILE;
            place_in[FIXLOMAND_PLACE_ENTRY] = (uint8_t)(one_in(2) ? below(FILES) : between(0, FIXLOMAND_ENTRIES - 1));
            place_in[FIXLOMAND_PLACE_AT] = (uint8_t)between(0, 125);
            put(place_in + FIXLOMAND_PLACE_SECTOR, one_in(8) ? between(0, 65535) : between(0, 720));
            put(place_in + FIXLOMAND_PLACE_PASSED, between(0, 718));
            continue;
        }
        entry = between(0, FIXLOMAND_LISTING_END);
        place_in[FIXLOMAND_PLACE_KIND] = FIXLOMAND_PLACE_DIRECTORY;
        place_in[FIXLOMAND_PLACE_ENTRY] = (uint8_t)entry;
        place_in[FIXLOMAND_PLACE_AT] = (uint8_t)(entry < FIXLOMAND_FREE_RECORD    ? between(0, 17)
                                                 : entry == FIXLOMAND_FREE_RECORD ? between(0, 16)
                                                                                  : 0);
        if (one_in(2))
            memset(place_in + FIXLOMAND_PLACE_NAME, '?', FIXLOMAND_NAME_LEN);
    }
}

/* A state in which each part is in order. */
static void random_parts(uint8_t *s)
{
    unsigned with_tape = below(3);
    put_random(s + FIXLOMAND_ROOMS, FIXLOMAND_STATE_LEN - FIXLOMAND_ROOMS);
    random_console(s);
    for (unsigned side = 0; side < 2; side++)
        random_port(s + side * FIXLOMAND_PORT_LEN, s + FIXLOMAND_ROOMS + side * FIXLOMAND_ROOM_LEN, s[FIXLOMAND_MODE],
                    side == with_tape);
    random_cassette(s);
    random_places(s);
    if (damage(s) != NULL && strcmp(damage(s), "both ports at one group") != 0)
        fail("states: a state made to be in order is not: %s", damage(s));
}

static void random_in_order(uint8_t *s)
{
    do
        random_parts(s);
    while (damage(s) != NULL);
}

/* One byte before the rooms becomes another; most are no pending characters, for these are never wrong, and not of a
 * name in a place either. */
static void one_wrong_byte(uint8_t *s)
{
    uint8_t *byte = s + below(one_in(16) ? FIXLOMAND_ROOMS : FIXLOMAND_PENDING);
    if (one_in(3))
        byte = s + place_of(below(BLOCKS)) + below(FIXLOMAND_PLACE_PASSED + 2);
    uint8_t old = *byte;
    switch (below(4)) {
    case 0:
        *byte = (uint8_t)(old ^ 1u << below(8));
        break;
    case 1:
        *byte = (uint8_t)(old + (one_in(2) ? 1 : 255));
        break;
    default:
        *byte = (uint8_t)(old + 1 + below(255));
        break;
    }
}

/* Specifications where the random CALLs look for them. */
static void prepare_area(void)
{
    static const char *const some[SPECIFICATIONS] = {
        "E:",  "S:", "K:",        "P:",       "C:",  "E1:",         "S8:",    "K9:",
        "C8:", "X:", "D:*.*\x9B", "D2:A\x9B", "D:-", "D4:?*.?\x9B", "D3:B?*", "D5:A\x9B"};
    put_random(area, FIXLOMAND_AREA_LEN);
    for (unsigned port = 0; port < 2; port++)
        for (unsigned i = 0; i < SPECIFICATIONS; i++)
            memcpy(area + port * HALF + 8 * i, some[i], strlen(some[i]));
}

/* Records, most of them good: a count, a control byte, and a checksum of all before it. */
static void prepare_tape(void)
{
    static const uint8_t controls[] = {0xFC, 0xFA, 0xFA, 0xFE};
    put_random(tape, FIXLOMAND_TAPE_LEN);
    for (uint8_t *record = tape; record < tape + FIXLOMAND_TAPE_LEN; record += 132) {
        unsigned sum = 0;
        if (!one_in(8))
            record[2] = controls[below(sizeof controls)];
        record[130] = (uint8_t)between(0, 128);
        for (unsigned i = 0; i < 131; i++)
            sum += record[i];
        if (!one_in(8))
            record[131] = (uint8_t)(sum == 0 ? 0 : (sum - 1) % 255 + 1);
    }
}

/* Diskettes with some files of short names, locked and deleted ones too, and sectors most of which may be of one chain:
 * a file number, a link and a data count that are good. */
static void prepare_images(void)
{
    static const uint8_t flags[] = {0x42, 0x42, 0x62, 0x80, 0x40, 0xC2};
    put_random(images, FIXLOMAND_IMAGES_LEN);
    for (unsigned drive = 1; drive <= FIXLOMAND_DRIVES; drive++) {
        uint8_t *directory = images + FIXLOMAND_SECTOR(drive, 361);
        for (unsigned sector = 1; sector <= FIXLOMAND_SECTORS; sector++) {
            uint8_t *bytes = images + FIXLOMAND_SECTOR(drive, sector);
            unsigned next = one_in(16) ? 0 : one_in(16) ? between(0, 1023) : between(1, 719);
            if (one_in(8))
                continue;
            bytes[125] = (uint8_t)(4 * below(FILES) + next / 256);
            bytes[126] = (uint8_t)next;
            bytes[127] = (uint8_t)(one_in(3) ? 0 : between(0, 125));
        }
        for (unsigned i = 0; i < FIXLOMAND_ENTRIES; i++) {
            uint8_t *entry = directory + 16 * i;
            entry[0] = one_in(32) ? 0 : one_in(8) ? (uint8_t)below(256) : flags[below(sizeof flags)];
            put(entry + 3, one_in(16) ? between(0, 65535) : between(1, 719));
            memset(entry + 5, ' ', FIXLOMAND_NAME_LEN);
            for (unsigned at = 0; at < 3; at++)
                entry[5 + 4 * at] = (uint8_t)(one_in(2) ? ' ' : 'A' + below(3));
        }
    }
}

/* ---- one call ---- */

static unsigned long place;
static unsigned which, port;
static uint8_t operand;

/* Whether a part of the state begins at this byte, or a place. */
static int begins_part(unsigned i)
{
    return i == 0 || i == FIXLOMAND_PORT_LEN || i == FIXLOMAND_CONSOLE || i == FIXLOMAND_USED ||
           i == FIXLOMAND_CASSETTE || i == FIXLOMAND_PENDING ||
           (i >= FIXLOMAND_PLACES && (i - FIXLOMAND_PLACES) % FIXLOMAND_PLACE_LEN == 0);
}

static void trouble(const char *what)
{
    fprintf(stderr, "state before the call:");
    for (unsigned i = 0; i < FIXLOMAND_ROOMS; i++)
        fprintf(stderr, "%s%02X", begins_part(i) ? "\n  " : " ", state_before[i]);
    fputc('\n', stderr);
    fail("states: call %lu, %s at port %u with %u: %s", place, names[which], port, operand, what);
}

/* The only answer that the call may give; -1 for a tick that may be answered 0 or 8. */
static int expected(void)
{
    const uint8_t *its = state + (port & 1) * FIXLOMAND_PORT_LEN;
    uint8_t phase = its[FIXLOMAND_PHASE];
    if (which == FRESH)
        return FIXLOMAND_DONE;
    if (damage(state) != NULL)
        return FIXLOMAND_DAMAGED;
    if (which == PRESS)
        return holds_console(state, 0) || holds_console(state, 1) ? FIXLOMAND_CONSOLE_HELD : FIXLOMAND_DONE;
    if (port > 1)
        return FIXLOMAND_BAD_PORT;
    if (which == TAKE)
        return phase == FIXLOMAND_GATHERING ? FIXLOMAND_DONE : FIXLOMAND_NOT_GATHERING;
    if (which == GIVE)
        return phase == FIXLOMAND_REPLYING ? FIXLOMAND_DONE : FIXLOMAND_NO_REPLY;
    if (phase == FIXLOMAND_RUNNING)
        return FIXLOMAND_DONE;
    if (phase != FIXLOMAND_READY)
        return FIXLOMAND_IDLE;
    return state[(1 - port) * FIXLOMAND_PORT_LEN + FIXLOMAND_PHASE] == FIXLOMAND_RUNNING ? -1 : FIXLOMAND_DONE;
}

#define LENT                                                                                                           \
    state, FIXLOMAND_STATE_LEN, its_area, FIXLOMAND_AREA_LEN, its_screen, FIXLOMAND_SCREEN_LEN, its_paper,            \
        FIXLOMAND_PAPER_LEN, its_tape, FIXLOMAND_TAPE_LEN, images_view, FIXLOMAND_IMAGES_LEN

/* Makes the call; a call that is to be refused can write nothing but the state. */
static unsigned call(int refused)
{
    int ticks = which == TICK && !refused;
    uint8_t *its_area = which == FRESH ? area : ticks ? half_view[port] : area_view;
    uint8_t *its_screen = which == FRESH || ticks ? screen : screen_view;
    uint8_t *its_paper = ticks ? paper : paper_view;
    uint8_t *its_tape = ticks ? tape : tape_view;
    switch (which) {
    case FRESH:
        return fixlomand_fresh(LENT);
    case TAKE:
        return fixlomand_take(LENT, (uint8_t)port, operand);
    case TICK:
        return fixlomand_tick(LENT, (uint8_t)port);
    case GIVE:
        return fixlomand_give(LENT, (uint8_t)port);
    default:
        return fixlomand_press(LENT, operand);
    }
}

/* Eight bytes at a time: an emulator may do a library's string instructions byte by byte. */
static void keep(uint8_t *to, const uint8_t *from, size_t length)
{
    for (size_t i = 0; i < length; i += 8) {
        uint64_t some;
        memcpy(&some, from + i, 8);
        volatile uint64_t one = some; /* or the compiler makes one such instruction of the loop */
        some = one;
        memcpy(to + i, &some, 8);
    }
}

static int same(const uint8_t *now, const uint8_t *before, size_t from, size_t to)
{
    return memcmp(now + from, before + from, to - from) == 0;
}

/* After 0: what a call may not touch, and that the state is one in order. */
static void check_done(unsigned given)
{
    size_t other = (1 - (port & 1)) * FIXLOMAND_PORT_LEN;
    size_t other_room = FIXLOMAND_ROOMS + (1 - (port & 1)) * FIXLOMAND_ROOM_LEN;
    if (damage(state) != NULL)
        trouble("leaves a damaged state");
    if (which == FRESH)
        return;
    if (which == PRESS) {
        if (!same(state, state_before, 0, FIXLOMAND_KEY) ||
            !same(state, state_before, FIXLOMAND_KEY + 1, FIXLOMAND_STATE_LEN) || state[FIXLOMAND_KEY] != operand)
            trouble("does not store the key and nothing else");
        return;
    }
    if (!same(state, state_before, other, other + FIXLOMAND_PORT_LEN) ||
        !same(state, state_before, other_room, other_room + FIXLOMAND_ROOM_LEN))
        trouble("changes the other port");
    if (which != TICK && !same(state, state_before, FIXLOMAND_CONSOLE, FIXLOMAND_ROOMS))
        trouble("changes console, printer, cassette or a place");
    if (which == TICK) {
        const uint8_t *its = state_before + port * FIXLOMAND_PORT_LEN;
        unsigned block = its[FIXLOMAND_PHASE] == FIXLOMAND_RUNNING
                             ? its[3]
                             : state_before[FIXLOMAND_ROOMS + port * FIXLOMAND_ROOM_LEN];
        for (unsigned i = 0; i < BLOCKS; i++)
            if (i != port * FIXLOMAND_BLOCK_COUNT + block &&
                !same(state, state_before, place_of(i), place_of(i) + FIXLOMAND_PLACE_LEN))
                trouble("changes the place of another block");
    }
    if (which == GIVE) {
        const uint8_t *its = state_before + port * FIXLOMAND_PORT_LEN;
        if (given != state_before[FIXLOMAND_ROOMS + port * FIXLOMAND_ROOM_LEN + its[3] + 256u * its[4]])
            trouble("does not give the room's next byte");
    }
}

/* Every fresh start leaves the same, whatever was there. */
static void check_fresh(void)
{
    static uint8_t first[FIXLOMAND_STATE_LEN];
    static int has_first;
    if (!has_first)
        memcpy(first, state, sizeof first);
    has_first = 1;
    if (!same(state, first, 0, sizeof first))
        trouble("leaves another state than the first fresh start did");
    for (size_t i = 0; i < FIXLOMAND_AREA_LEN; i++)
        if (area[i] != 0)
            trouble("leaves an area that is not zero");
    for (size_t i = 0; i < FIXLOMAND_SCREEN_LEN; i++)
        if (screen[i] != (i < 960 ? 0x20 : 0))
            trouble("leaves another screen than a fresh one");
}

static void make_call(void)
{
    int want = expected();
    int either = want < 0;
    unsigned answer, given;
    memcpy(state_before, state, FIXLOMAND_STATE_LEN);
    if (either) {
        keep(area_before, area, FIXLOMAND_AREA_LEN);
        keep(screen_before, screen, FIXLOMAND_SCREEN_LEN);
        keep(paper_before, paper, FIXLOMAND_PAPER_LEN);
        keep(tape_before, tape, FIXLOMAND_TAPE_LEN);
    }
    guard_doing = names[which];
    guard_number = place;
    answer = call(want > 0);
    given = answer >> 8;
    answer &= 255;
    if (either && (answer == FIXLOMAND_DONE || answer == FIXLOMAND_GROUP_HELD))
        want = (int)answer;
    if ((int)answer != want) {
        char text[200];
        const char *why = damage(state_before);
        snprintf(text, sizeof text, "answered %u, not %d%s%s", answer, want, why ? "; damaged is " : "",
                 why ? why : "");
        trouble(text);
    }
    counts[which][answer]++;
    if (answer != FIXLOMAND_DONE) {
        if (given != 0)
            trouble("gives a byte beside a refusal");
        if (!same(state, state_before, 0, FIXLOMAND_STATE_LEN))
            trouble("is refused and changes the state");
        if (either && (!same(area, area_before, 0, FIXLOMAND_AREA_LEN) ||
                       !same(screen, screen_before, 0, FIXLOMAND_SCREEN_LEN) ||
                       !same(paper, paper_before, 0, FIXLOMAND_PAPER_LEN) ||
                       !same(tape, tape_before, 0, FIXLOMAND_TAPE_LEN)))
            trouble("is refused and changes area, screen, paper or tape");
        return;
    }
    check_done(given);
    if (which == FRESH) {
        check_fresh();
        prepare_area();
        prepare_tape();
        prepare_images();
    }
}

/* ---- all of them ---- */

static void say_counts(void)
{
    printf("states: %-6s", "");
    for (unsigned answer = 0; answer < ANSWERS; answer++)
        printf("%10u", answer);
    printf("\n");
    for (unsigned i = 0; i < CALLS; i++) {
        printf("states: %-6s", names[i]);
        for (unsigned answer = 0; answer < ANSWERS; answer++)
            printf("%10lu", counts[i][answer]);
        printf("\n");
    }
}

static void next_state(void)
{
    static uint8_t base[FIXLOMAND_STATE_LEN];
    switch (below(16)) {
    case 0:
        put_random(state, FIXLOMAND_STATE_LEN);
        break;
    case 1:
    case 2:
    case 3:
        random_in_order(base);
        memcpy(state, base, sizeof base);
        break;
    case 4: /* what the last calls made of it, if that is in order */
        if (damage(state) == NULL)
            memcpy(base, state, sizeof base);
        memcpy(state, base, sizeof base);
        one_wrong_byte(state);
        break;
    case 5:
    case 6:
    case 7:
    case 8:
        memcpy(state, base, sizeof base);
        one_wrong_byte(state);
        break;
    case 9: /* damaged only if both ports run at one group */
        random_parts(state);
        break;
    default: /* go on */
        break;
    }
}

static unsigned long calls;

/* The next call, and how far the test is. */
static void make_next_call(void)
{
    operand = (uint8_t)below(256);
    place++;
    make_call();
    if (place % (calls / 10 > 0 ? calls / 10 : 1) == 0) {
        printf("states: %lu of %lu calls\n", place, calls);
        fflush(stdout);
    }
}

/* Every value of a byte in a state that is in order else. The port is above 1, so that the answer is 3 or 1 and nothing
 * moves on. */
static void every_value(size_t at)
{
    uint8_t right = state[at];
    for (unsigned value = 0; value < 256; value++) {
        state[at] = (uint8_t)value;
        which = TAKE + below(3);
        port = 2 + below(254);
        make_next_call();
    }
    state[at] = right;
}

/* Every byte before the pending characters, in turn, and every byte of the places of the blocks that have D open, and of
 * one other. */
static void every_byte(void)
{
    unsigned other = below(BLOCKS);
    random_in_order(state);
    for (size_t at = 0; at < FIXLOMAND_PENDING; at++)
        every_value(at);
    for (unsigned i = 0; i < BLOCKS; i++)
        if (i == other || block_of(state, i)[0] == FIXLOMAND_D)
            for (size_t at = place_of(i); at < place_of(i + 1); at++)
                every_value(at);
}

static void any_call(void)
{
    which = one_in(1000) ? FRESH : 1 + below(4);
    port = one_in(32) ? below(256) : below(2);
    next_state();
    make_next_call();
}

static void run(void)
{
    unsigned long damaged = 0;
    state = guarded("state", FIXLOMAND_STATE_LEN, seed % 2 == 0 ? LEFT : RIGHT);
    while (place + 256 * (FIXLOMAND_PENDING + FIXLOMAND_PLACES_LEN) <= calls / 2)
        every_byte();
    random_in_order(state);
    while (place < calls)
        any_call();
    for (unsigned i = 0; i < CALLS; i++)
        damaged += counts[i][FIXLOMAND_DAMAGED];
    say_counts();
    printf("states: %lu calls, each with its answer, %lu of them 3; nothing changed unless it was 0\n", calls, damaged);
}

int main(int words, char **word)
{
    calls = words > 1 ? strtoul(word[1], NULL, 10) : 1000000;
    seed = words > 2 ? strtoull(word[2], NULL, 10) : 6;
    if (calls == 0 || seed == 0)
        fail("states: CALLS and SEED are numbers above 0");
    area = shared("area", FIXLOMAND_AREA_LEN, RIGHT);
    area_view = view_of_shared(0, 0);
    half_view[0] = view_of_shared(0, HALF);
    half_view[1] = view_of_shared(HALF, 2 * HALF);
    screen = shared("screen", FIXLOMAND_SCREEN_LEN, RIGHT);
    screen_view = view_of_shared(0, 0);
    paper = shared("paper", FIXLOMAND_PAPER_LEN, RIGHT);
    paper_view = view_of_shared(0, 0);
    tape = shared("tape", FIXLOMAND_TAPE_LEN, RIGHT);
    tape_view = view_of_shared(0, 0);
    images = shared("images", FIXLOMAND_IMAGES_LEN, RIGHT);
    images_view = view_of_shared(0, 0);
    guard_watch();
    prepare_area();
    put_random(screen, FIXLOMAND_SCREEN_LEN);
    put_random(paper, FIXLOMAND_PAPER_LEN);
    prepare_tape();
    prepare_images();
    run();
    guards_free();
    return 0;
}
