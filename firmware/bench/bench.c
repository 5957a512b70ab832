/* bench: how fast the library is, and how deep its stack gets. It tests nothing but that each request ends as it should;
 * what it prints depends on the machine, and under an emulator only the proportions say something.
 *
 *   bench          calls a second, kind by kind; whole requests; ticks of short and of long requests; ticks of E that
 *                  scroll, and that do not; the doctor
 *   bench stack    the bytes of stack of the deepest call, kind by kind, and of the doctor */
#define _XOPEN_SOURCE 700 /* clock_gettime, ucontext */
#include "fixlomand.h"

#include <stdio.h>
#include <stdlib.h>
#include <string.h>
#include <time.h>
#include <ucontext.h>

enum {
    OPEN = FIXLOMAND_COMMAND_OPEN,
    GET_RECORD = FIXLOMAND_COMMAND_GET_RECORD,
    GET_CHARACTERS = FIXLOMAND_COMMAND_GET_CHARACTERS,
    PUT_CHARACTERS = FIXLOMAND_COMMAND_PUT_CHARACTERS,
    CLOSE = FIXLOMAND_COMMAND_CLOSE
};
enum { R = FIXLOMAND_AUX1_READ, W = FIXLOMAND_AUX1_WRITE, FORCED = FIXLOMAND_AUX1_FORCED };
enum { SUCCESS = FIXLOMAND_STATUS_SUCCESS, REPLY_LEN = FIXLOMAND_ROOM_LEN };
/* E's codes: a new row, and the row above */
enum { EOL = FIXLOMAND_EOL, UP = 0x1C };
/* where the specifications are in each port's area; buffers may lie over them once the blocks are open */
enum { AT_E = 0, AT_S = 2, AT_K = 4, AT_P = 6, AT_C = 8, AT_D = 10 };
/* the blocks: port 0 has E, S and K open, port 1 P, C and D */
enum { BLOCK_E = 0, BLOCK_S = 1, BLOCK_K = 2, BLOCK_P = 0, BLOCK_C = 1, BLOCK_D = 2 };
/* a tape's records, the bytes of each and its characters */
enum { RECORDS = 250, RECORD_LEN = FIXLOMAND_TAPE_LEN / RECORDS, CHARACTERS = FIXLOMAND_PENDING_LEN };
/* the sectors that a file of a diskette may have, and the characters of each */
enum { SECTORS = FIXLOMAND_SECTORS - 1, SECTOR_CHARACTERS = 125 };
/* the sectors that the files of a sound diskette may have together, and those of each where 64 files have them all */
enum { USABLE = 707, FILE_SECTORS = USABLE / FIXLOMAND_ENTRIES };

static uint8_t state[FIXLOMAND_STATE_LEN], area[FIXLOMAND_AREA_LEN];
static uint8_t screen[FIXLOMAND_SCREEN_LEN], paper[FIXLOMAND_PAPER_LEN], tape[FIXLOMAND_TAPE_LEN];
static uint8_t images[FIXLOMAND_IMAGES_LEN], list[FIXLOMAND_LIST_LEN];

#define LENT                                                                                                           \
    state, sizeof state, area, sizeof area, screen, sizeof screen, paper, sizeof paper, tape, sizeof tape, images,     \
        sizeof images

static void want(int right, const char *what)
{
    if (!right) {
        fprintf(stderr, "bench: %s did not end as it should\n", what);
        exit(1);
    }
}

static double now(void)
{
    struct timespec t;
    clock_gettime(CLOCK_MONOTONIC, &t);
    return (double)t.tv_sec + (double)t.tv_nsec / 1e9;
}

/* ---- requests ---- */

static uint8_t reply[REPLY_LEN];

static void send(uint8_t port, const uint8_t *message, size_t length)
{
    for (size_t i = 0; i < length; i++)
        want(fixlomand_take(LENT, port, message[i]) == FIXLOMAND_DONE, "take");
}

static void send_call(uint8_t port, unsigned block, unsigned command, unsigned address, unsigned length, unsigned aux1,
                      unsigned aux2)
{
    uint8_t m[12] = {FIXLOMAND_TAG_CALL, FIXLOMAND_CALL_LEN, 0, (uint8_t)block, (uint8_t)command};
    m[5] = (uint8_t)address;
    m[6] = (uint8_t)(address >> 8);
    m[7] = (uint8_t)length;
    m[8] = (uint8_t)(length >> 8);
    m[9] = (uint8_t)aux1;
    m[10] = (uint8_t)aux2;
    send(port, m, sizeof m);
}

/* Seconds spent in ticks, and how many. */
static double tick_time;
static unsigned long tick_count;

/* Ticks while the port runs; how many ticks. */
static unsigned long run(uint8_t port)
{
    unsigned long ticks = 0;
    double begin = now();
    do {
        want(fixlomand_tick(LENT, port) == FIXLOMAND_DONE, "tick");
        ticks++;
    } while (state[port * FIXLOMAND_PORT_LEN] == FIXLOMAND_RUNNING);
    tick_time += now() - begin;
    tick_count += ticks;
    return ticks;
}

static size_t receive(uint8_t port)
{
    size_t length = 0;
    uint16_t given;
    while (given = fixlomand_give(LENT, port), FIXLOMAND_ANSWER(given) == FIXLOMAND_DONE) {
        want(length < sizeof reply, "give");
        reply[length++] = FIXLOMAND_BYTE(given);
    }
    return length;
}

/* A whole CALL; how many ticks. */
static unsigned long call(uint8_t port, unsigned block, unsigned command, unsigned address, unsigned length,
                          unsigned aux1, unsigned aux2, unsigned status)
{
    unsigned long ticks;
    send_call(port, block, command, address, length, aux1, aux2);
    ticks = run(port);
    want(receive(port) == 7 && reply[3] == status, "a CALL");
    return ticks;
}

static void specifications(void)
{
    static const char all[] = "E:S:K:P:C:D:?\x9B";
    memcpy(area, all, sizeof all - 1);
    memcpy(area + FIXLOMAND_PORT_AREA_LEN, all, sizeof all - 1);
}

static void open_screen(unsigned mode)
{
    specifications();
    call(0, BLOCK_S, CLOSE, 0, 0, 0, 0, SUCCESS);
    call(0, BLOCK_S, OPEN, AT_S, 0, R | W, mode, SUCCESS);
}

/* A tape of full records, each character an A. No message makes one without an end. */
static void fill_tape(void)
{
    unsigned sum = 0;
    memset(tape, 'A', sizeof tape);
    for (uint8_t *record = tape; record < tape + sizeof tape; record += RECORD_LEN) {
        record[0] = record[1] = 0x55;
        record[2] = 0xFC;
    }
    for (unsigned i = 0; i < RECORD_LEN - 1; i++)
        sum += tape[i];
    for (uint8_t *record = tape; record < tape + sizeof tape; record += RECORD_LEN)
        record[RECORD_LEN - 1] = (uint8_t)((sum - 1) % 255 + 1);
}

static void open_tape(unsigned aux1)
{
    specifications();
    call(1, BLOCK_C, CLOSE, 0, 0, 0, 0, SUCCESS);
    fill_tape();
    call(1, BLOCK_C, OPEN, AT_C, 0, aux1, 0, SUCCESS);
}

/* A diskette with one file, of so many characters in each sector but the last, which is full. It has all sectors that a
 * chain may have, those of the directory too: so its entry, of the name A, is among its characters. */
static void fill_diskette(unsigned characters)
{
    static const uint8_t entry[] = {0x42, 0xCF, 2, 1, 0, 'A', ' ', ' ', ' ', ' ', ' ', ' ', ' ', ' ', ' ', ' ', 0};
    memset(images, 'A', FIXLOMAND_IMAGE_LEN);
    for (unsigned sector = 1; sector <= SECTORS; sector++) {
        uint8_t *bytes = images + FIXLOMAND_SECTOR(1, sector);
        unsigned next = sector < SECTORS ? sector + 1 : 0;
        bytes[125] = (uint8_t)(next / 256);
        bytes[126] = (uint8_t)next;
        bytes[127] = (uint8_t)(sector < SECTORS ? characters : SECTOR_CHARACTERS);
    }
    memcpy(images + FIXLOMAND_SECTOR(1, 361), entry, sizeof entry);
}

static void open_diskette(unsigned characters)
{
    specifications();
    call(1, BLOCK_D, CLOSE, 0, 0, 0, 0, SUCCESS);
    fill_diskette(characters);
    call(1, BLOCK_D, OPEN, AT_D, 0, R, 0, SUCCESS);
}

static void start(void)
{
    want(fixlomand_fresh(LENT) == FIXLOMAND_DONE, "fresh start");
    specifications();
    call(0, BLOCK_E, OPEN, AT_E, 0, R | W | FORCED, 0, SUCCESS);
    call(0, BLOCK_K, OPEN, AT_K, 0, R, 0, SUCCESS);
    call(1, BLOCK_P, OPEN, AT_P, 0, W, 0, SUCCESS);
}

/* A new paper, the cursor home, a tape at its beginning and a file at its own: no message does one of them alone, so the
 * state is written between two calls, by its layout. */
static void new_paper(void)
{
    state[FIXLOMAND_USED] = state[FIXLOMAND_USED + 1] = 0;
}

static void home(void)
{
    state[FIXLOMAND_ROW] = state[FIXLOMAND_COLUMN] = state[FIXLOMAND_COLUMN + 1] = 0;
}

static void rewind_tape(void)
{
    state[FIXLOMAND_RECORD] = state[FIXLOMAND_PLACE] = 0;
}

static void rewind_diskette(void)
{
    uint8_t *place = state + FIXLOMAND_PLACES + FIXLOMAND_PLACE_LEN * (FIXLOMAND_BLOCK_COUNT + BLOCK_D);
    memset(place + FIXLOMAND_PLACE_AT, 0, FIXLOMAND_PLACE_PASSED + 2 - FIXLOMAND_PLACE_AT);
    place[FIXLOMAND_PLACE_SECTOR] = 1;
}

/* ---- diskettes for the doctor ---- */

/* Free count and map where no sector is free. */
static void fill_map(uint8_t byte)
{
    uint8_t *bytes = images + FIXLOMAND_SECTOR(1, FIXLOMAND_MAP_SECTOR);
    memset(bytes, 0, FIXLOMAND_SECTOR_LEN);
    bytes[0] = FIXLOMAND_DOS_2;
    bytes[3] = bytes[4] = byte;
    memset(bytes + 10, byte, 90);
}

/* A sound diskette in the first drive: so many files have all usable sectors, one after the other. */
static void fill_files(unsigned files)
{
    unsigned sector = 4;
    memset(images, 'A', FIXLOMAND_IMAGE_LEN);
    memset(images + FIXLOMAND_SECTOR(1, 361), 0, FIXLOMAND_ENTRIES * 16);
    fill_map(0);
    for (unsigned file = 0; file < files; file++) {
        uint8_t *entry = images + FIXLOMAND_SECTOR(1, 361) + 16 * file;
        unsigned length = file + 1 < files ? FILE_SECTORS : USABLE - FILE_SECTORS * (files - 1);
        memset(entry, 'A', 16);
        entry[0] = 0x42;
        entry[1] = (uint8_t)length;
        entry[2] = (uint8_t)(length >> 8);
        entry[3] = (uint8_t)sector;
        entry[4] = (uint8_t)(sector >> 8);
        for (; length > 0; length--) {
            uint8_t *bytes = images + FIXLOMAND_SECTOR(1, sector);
            sector = sector == 359 ? 369 : sector + 1;
            bytes[125] = (uint8_t)(4 * file + (length > 1 ? sector / 256 : 0));
            bytes[126] = (uint8_t)(length > 1 ? sector : 0);
            bytes[127] = SECTOR_CHARACTERS;
        }
    }
}

/* The same of 64 files, of which each has a further link from its last sector, into the directory, and a wrong count; the
 * free count and each byte of the map are wrong too. */
static void fill_damaged(void)
{
    fill_files(FIXLOMAND_ENTRIES);
    fill_map(0xFF);
    for (unsigned sector = 4; sector <= SECTORS; sector = sector == 359 ? 369 : sector + 1) {
        uint8_t *bytes = images + FIXLOMAND_SECTOR(1, sector);
        if (bytes[125] % 4 == 0 && bytes[126] == 0) {
            bytes[125] |= 361 / 256;
            bytes[126] = 361 % 256;
        }
    }
    for (unsigned file = 0; file < FIXLOMAND_ENTRIES; file++)
        memset(images + FIXLOMAND_SECTOR(1, 361) + 16 * file + 1, 0xFF, 2);
}

/* What the doctor must change in it. */
static unsigned changes_now;

static unsigned long doctor_once(void)
{
    uint32_t given = fixlomand_doctor(images, FIXLOMAND_IMAGE_LEN, list, sizeof list);
    want(FIXLOMAND_ANSWER(given) == FIXLOMAND_DONE && FIXLOMAND_CHANGES(given) == changes_now, "the doctor");
    return 1;
}

/* With the old bytes put back behind it, as its list says them. */
static unsigned long doctor_undone(void)
{
    doctor_once();
    for (const uint8_t *change = list; change < list + FIXLOMAND_CHANGE_LEN * changes_now;
         change += FIXLOMAND_CHANGE_LEN)
        images[FIXLOMAND_CHANGE_AT(change)] = change[FIXLOMAND_CHANGE_OLD];
    return 1;
}

/* ---- calls a second ---- */

/* Kinds of work: each does it once and says how many calls that were. */
static unsigned long fresh_once(void)
{
    want(fixlomand_fresh(LENT) == FIXLOMAND_DONE, "fresh start");
    return 1;
}

static unsigned long take_many(void)
{
    /* an unknown tag's value is dropped, so that it can be long */
    static const uint8_t header[] = {0x77, 0xFF, 0xFF};
    send(0, header, sizeof header);
    for (unsigned i = 0; i < 65535; i++)
        fixlomand_take(LENT, 0, 1);
    want(run(0) == 1 && receive(0) == 4 && reply[3] == FIXLOMAND_STATUS_UNKNOWN_TAG, "an unknown tag");
    return 65535 + 3 + 1 + 5;
}

static unsigned long give_many(void)
{
    static const uint8_t fetch[] = {FIXLOMAND_TAG_FETCH, FIXLOMAND_FETCH_LEN, 0, 0, 0, 0, 1};
    send(0, fetch, sizeof fetch);
    want(run(0) == 1 && receive(0) == REPLY_LEN && reply[3] == SUCCESS, "FETCH");
    return 7 + 1 + 261;
}

static unsigned long load_once(void)
{
    static uint8_t load[261] = {FIXLOMAND_TAG_LOAD, 2, 1, 64};
    send(0, load, sizeof load);
    want(run(0) == 1 && receive(0) == 4 && reply[3] == SUCCESS, "LOAD");
    return 261 + 1 + 5;
}

static unsigned long press_many(void)
{
    for (unsigned i = 0; i < 1000; i++)
        fixlomand_press(LENT, (uint8_t)i);
    return 1000;
}

static unsigned long idle_many(void)
{
    for (unsigned i = 0; i < 1000; i++)
        fixlomand_tick(LENT, 0);
    return 1000;
}

static unsigned long damaged_many(void)
{
    state[FIXLOMAND_MODE] ^= 1;
    for (unsigned i = 0; i < 1000; i++)
        fixlomand_tick(LENT, 0);
    state[FIXLOMAND_MODE] ^= 1;
    return 1000;
}

static unsigned long key_once(void)
{
    want(fixlomand_press(LENT, 0x3F) == FIXLOMAND_DONE, "press");
    return 1 + 12 + call(0, BLOCK_K, GET_CHARACTERS, 64, 1, 0, 0, SUCCESS) + 8;
}

static unsigned long translate_many(void)
{
    unsigned sum = 0;
    for (unsigned i = 0; i < 10000; i++)
        sum += fixlomand_translate((uint8_t)i, (uint8_t)(i % 3), (uint8_t)(i & 1));
    want(sum > 0, "translate");
    return 10000;
}

static unsigned length_now;

static unsigned long put_editor(void)
{
    return 12 + call(0, BLOCK_E, PUT_CHARACTERS, 0, length_now, 0, 0, SUCCESS) + 8;
}

static unsigned long get_editor(void)
{
    return 12 + call(0, BLOCK_E, GET_CHARACTERS, 0, length_now, 0, 0, SUCCESS) + 8;
}

static unsigned long put_screen(void)
{
    home();
    return 12 + call(0, BLOCK_S, PUT_CHARACTERS, 0, length_now, 0, 0, SUCCESS) + 8;
}

static unsigned long put_printer(void)
{
    new_paper();
    return 12 + call(1, BLOCK_P, PUT_CHARACTERS, 0, length_now, 0, 0, SUCCESS) + 8;
}

static unsigned long put_tape(void)
{
    rewind_tape();
    return 12 + call(1, BLOCK_C, PUT_CHARACTERS, 0, length_now, 0, 0, SUCCESS) + 8;
}

static unsigned long get_tape(void)
{
    rewind_tape();
    return 12 + call(1, BLOCK_C, GET_CHARACTERS, 0, length_now, 0, 0, SUCCESS) + 8;
}

static unsigned long record_tape(void)
{
    unsigned long ticks;
    rewind_tape();
    ticks = call(1, BLOCK_C, GET_RECORD, 64, 1, 0, 0, FIXLOMAND_STATUS_END_OF_FILE);
    want(ticks == RECORDS * CHARACTERS + 2, "GET RECORD of a tape (32,001 ticks after its start)");
    return 12 + ticks + 8;
}

static unsigned long get_diskette(void)
{
    rewind_diskette();
    return 12 + call(1, BLOCK_D, GET_CHARACTERS, 0, length_now, 0, 0, SUCCESS) + 8;
}

static unsigned long record_diskette(void)
{
    unsigned long ticks;
    rewind_diskette();
    ticks = call(1, BLOCK_D, GET_RECORD, 64, 1, 0, 0, FIXLOMAND_STATUS_END_OF_FILE);
    want(ticks == SECTORS * SECTOR_CHARACTERS + 2, "GET RECORD of a diskette (89,876 ticks after its start)");
    return 12 + ticks + 8;
}

static unsigned long record_screen(void)
{
    unsigned long ticks;
    home();
    ticks = call(0, BLOCK_S, GET_RECORD, 64, 1, 0, 0, FIXLOMAND_STATUS_CURSOR_PAST_LAST_ROW);
    want(ticks == 61442, "GET RECORD of a mode 8 screen (61,441 ticks after its start)");
    return 12 + ticks + 8;
}

static unsigned long open_once(void)
{
    open_screen(8);
    return 2 * (12 + 1 + 8);
}

enum { CALL, TICK };

/* Seconds for a call of the work, or for a tick of it: those of the fastest of some turns, since what disturbs a turn only
 * makes it slower. */
static double measure(unsigned long (*work)(void), int of)
{
    double best = 0, begin = now();
    do {
        unsigned long calls = 0;
        double turn = now(), spent;
        tick_time = 0;
        tick_count = 0;
        do {
            calls += work();
            spent = now() - turn;
        } while (spent < 0.02);
        spent = of == TICK ? tick_time / (double)tick_count : spent / (double)calls;
        if (best == 0 || spent < best)
            best = spent;
    } while (now() - begin < 0.3);
    return best;
}

static void say(const char *what, unsigned long (*work)(void))
{
    double seconds = measure(work, CALL);
    printf("%-48s%12.1f%16.0f\n", what, seconds * 1e9, 1 / seconds);
    fflush(stdout);
}

/* The same for a tick of some requests. */
static void say_tick(const char *what, unsigned long (*work)(void))
{
    double seconds = measure(work, TICK);
    printf("%-48s%12.1f%16.0f\n", what, seconds * 1e9, 1 / seconds);
    fflush(stdout);
}

/* The same for a whole request, with its calls and how often it can be made. */
static void say_request(const char *what, unsigned long (*work)(void))
{
    double seconds = measure(work, CALL);
    unsigned long calls = work();
    printf("%-48s%12.1f%16.0f%12lu%20.1f\n", what, seconds * 1e9, 1 / seconds, calls, 1 / seconds / (double)calls);
    fflush(stdout);
}

static void prepare(unsigned mode, unsigned length)
{
    start();
    if (mode > 0)
        open_screen(mode);
    memset(area, 'A', sizeof area);
    length_now = length;
}

static void prepare_tape(unsigned aux1, unsigned length)
{
    start();
    open_tape(aux1);
    memset(area, 'A', sizeof area);
    length_now = length;
}

static void prepare_diskette(unsigned characters, unsigned length)
{
    start();
    open_diskette(characters);
    memset(area, 'A', sizeof area);
    length_now = length;
}

static void say_kinds(void)
{
    printf("%-48s%12s%16s\n", "kind of call", "ns a call", "calls a second");
    say("fresh start", fresh_once);
    prepare(0, 0);
    say("take a byte", take_many);
    say("give a byte (a FETCH's reply)", give_many);
    say("press a key", press_many);
    say("tick, nothing ready", idle_many);
    say("tick, damaged state", damaged_many);
    say("key translation", translate_many);
}

static void say_doctor(void)
{
    printf("\n%-48s%12s%16s\n", "the doctor, over a whole image", "ns a run", "runs a second");
    memset(images, 0, FIXLOMAND_IMAGE_LEN);
    changes_now = 91;
    say("an empty image: 91 changes, undone", doctor_undone);
    fill_files(1);
    changes_now = 0;
    say("one file of all 707 sectors, sound", doctor_once);
    fill_files(FIXLOMAND_ENTRIES);
    say("64 files of all 707 sectors, sound", doctor_once);
    fill_damaged();
    changes_now = FIXLOMAND_CHANGES_MOST;
    say("the same damaged: 348 changes, undone", doctor_undone);
}

static void say_requests(void)
{
    printf("\n%-48s%12s%16s%12s%20s\n", "whole requests: take, tick, give", "ns a call", "calls a second", "calls",
           "requests a second");
    prepare(0, 0);
    say_request("LOAD of 256", load_once);
    say_request("FETCH of 256", give_many);
    say_request("a key pressed, and GET of it", key_once);
    prepare(0, 16384);
    say_request("PUT CHARACTERS of 16,384 to E, scrolling", put_editor);
    prepare(0, 16384);
    say_request("GET CHARACTERS of 16,384 from E", get_editor);
    prepare(8, 16384);
    say_request("PUT CHARACTERS of 16,384 to S, mode 8", put_screen);
    prepare(8, 1);
    say_request("GET RECORD of a mode 8 screen, 61,441 ticks", record_screen);
    prepare(0, 4096);
    say_request("PUT CHARACTERS of 4,096 to P", put_printer);
    prepare_tape(W, 16384);
    say_request("PUT CHARACTERS of 16,384 to C", put_tape);
    prepare_tape(R, 16384);
    say_request("GET CHARACTERS of 16,384 from C", get_tape);
    prepare_tape(R, 1);
    say_request("GET RECORD of a tape, 32,001 ticks", record_tape);
    prepare_diskette(SECTOR_CHARACTERS, 16384);
    say_request("GET CHARACTERS of 16,384 from D", get_diskette);
    prepare_diskette(SECTOR_CHARACTERS, 1);
    say_request("GET RECORD of a diskette, 89,876 ticks", record_diskette);
    prepare_diskette(0, 1);
    say_request("GET from D over 718 empty sectors", get_diskette);
    prepare(8, 0);
    say_request("CLOSE of S and OPEN in mode 8", open_once);
}

/* ns a tick for requests of four lengths, the longest last. The first number is what is prepared: the mode, AUX1, or the
 * characters of a sector. */
static void say_growth(const char *what, void (*prepared)(unsigned, unsigned), unsigned with, unsigned longest,
                       unsigned long (*work)(void))
{
    printf("%-36s", what);
    for (unsigned length = longest / 64; length <= longest; length *= 4) {
        prepared(with, length);
        printf("%8u:%8.1f", length, measure(work, TICK) * 1e9);
        fflush(stdout);
    }
    printf("\n");
}

static void say_lengths(void)
{
    printf("\nns a tick, by the request's length: it does not grow with it\n");
    say_growth("PUT CHARACTERS to S, mode 8", prepare, 8, 16384, put_screen);
    say_growth("PUT CHARACTERS to E, scrolling", prepare, 0, 16384, put_editor);
    say_growth("GET CHARACTERS from E", prepare, 0, 16384, get_editor);
    say_growth("PUT CHARACTERS to P", prepare, 0, 4096, put_printer);
    say_growth("PUT CHARACTERS to C", prepare_tape, W, 16384, put_tape);
    say_growth("GET CHARACTERS from C", prepare_tape, R, 16384, get_tape);
    say_growth("GET CHARACTERS from D", prepare_diskette, SECTOR_CHARACTERS, 16384, get_diskette);
}

/* What a scroll adds to a tick: 920 bytes move, and 40 become blank. */
static void say_scrolling(void)
{
    printf("\n%-48s%12s%16s\n", "kind of tick", "ns a tick", "ticks a second");
    prepare(0, FIXLOMAND_PORT_AREA_LEN);
    for (unsigned i = 0; i < FIXLOMAND_PORT_AREA_LEN; i++)
        area[i] = i % 2 == 0 ? EOL : UP;
    say_tick("a tick of E that does not scroll (EOL, up)", put_editor);
    memset(area, EOL, FIXLOMAND_PORT_AREA_LEN);
    put_editor(); /* to the last row */
    say_tick("a tick of E that scrolls (PUT of EOL)", put_editor);
    say_tick("a tick of E that scrolls (GET of a blank row)", get_editor);
}

/* ---- stack ---- */

enum { STACK_LEN = 1 << 18, PAINT = 0xC5 };

static uint8_t stack[STACK_LEN];
static ucontext_t here, there;
static void (*stack_work)(void);

static void on_stack(void)
{
    stack_work();
}

/* The bytes below the stack's end that the work has written. */
static size_t depth(void (*work)(void))
{
    size_t clean = 0;
    memset(stack, PAINT, sizeof stack);
    want(getcontext(&there) == 0, "getcontext");
    there.uc_stack.ss_sp = stack;
    there.uc_stack.ss_size = sizeof stack;
    there.uc_link = &here;
    stack_work = work;
    makecontext(&there, on_stack, 0);
    want(swapcontext(&here, &there) == 0, "swapcontext");
    while (clean < sizeof stack && stack[clean] == PAINT)
        clean++;
    return sizeof stack - clean;
}

static void work_nothing(void)
{
}

static void work_fresh(void)
{
    fixlomand_fresh(LENT);
}

static void work_take(void)
{
    fixlomand_take(LENT, 0, FIXLOMAND_TAG_LOAD);
}

static void work_tick0(void)
{
    fixlomand_tick(LENT, 0);
}

static void work_tick1(void)
{
    fixlomand_tick(LENT, 1);
}

static void work_give(void)
{
    fixlomand_give(LENT, 0);
}

static void work_press(void)
{
    fixlomand_press(LENT, 0x3F);
}

static void work_translate(void)
{
    fixlomand_translate(0x3F, FIXLOMAND_LOCK_SHIFT, 0);
}

static void work_doctor(void)
{
    fixlomand_doctor(images, FIXLOMAND_IMAGE_LEN, list, sizeof list);
}

static size_t deepest;

static void say_depth(const char *what, void (*work)(void))
{
    size_t bytes = depth(work) - depth(work_nothing);
    if (bytes > deepest)
        deepest = bytes;
    printf("  %-48s%8zu\n", what, bytes);
}

/* A CALL's start tick, and then its first character's. */
static void say_call(const char *what, uint8_t port, unsigned block, unsigned command, unsigned length, unsigned aux1,
                     unsigned aux2)
{
    char text[64];
    send_call(port, block, command, command != OPEN ? 0 : port == 0 ? AT_S : AT_D, length, aux1, aux2);
    snprintf(text, sizeof text, "tick, %s, start", what);
    say_depth(text, port == 0 ? work_tick0 : work_tick1);
    if (length > 0) {
        snprintf(text, sizeof text, "tick, %s, a character", what);
        say_depth(text, port == 0 ? work_tick0 : work_tick1);
        run(port);
    }
    receive(port);
}

static void say_stack(void)
{
    static const uint8_t fetch[] = {FIXLOMAND_TAG_FETCH, FIXLOMAND_FETCH_LEN, 0, 0, 0, 0, 1};
    static uint8_t load[261] = {FIXLOMAND_TAG_LOAD, 2, 1, 64};
    printf("stack, bytes\n");
    say_depth("fresh start", work_fresh);
    start();
    say_depth("tick, nothing ready", work_tick0);
    say_depth("press", work_press);
    say_depth("translate", work_translate);
    say_depth("take", work_take);
    send(0, load + 1, sizeof load - 1);
    say_depth("tick, LOAD of 256", work_tick0);
    say_depth("give", work_give);
    receive(0);
    send(0, fetch, sizeof fetch);
    say_depth("tick, FETCH of 256", work_tick0);
    receive(0);
    area[0] = EOL; /* from the last row: scrolls */
    state[FIXLOMAND_ROW] = 23;
    say_call("PUT to E, a new row", 0, BLOCK_E, PUT_CHARACTERS, 2, 0, 0);
    say_call("GET from E", 0, BLOCK_E, GET_CHARACTERS, 2, 0, 0);
    say_call("GET from K", 0, BLOCK_K, GET_RECORD, 0, 0, 0);
    say_depth("tick, GET from K, the character", work_tick0);
    receive(0);
    say_call("PUT to P", 1, BLOCK_P, PUT_CHARACTERS, 2, 0, 0);
    open_tape(R);
    say_call("GET from C", 1, BLOCK_C, GET_CHARACTERS, 2, 0, 0);
    open_tape(W);
    state[FIXLOMAND_PLACE] = CHARACTERS - 1; /* the next one makes a full record */
    say_call("PUT to C, a full record", 1, BLOCK_C, PUT_CHARACTERS, 2, 0, 0);
    say_call("CLOSE of C, two records", 1, BLOCK_C, CLOSE, 0, 0, 0);
    specifications();
    fill_diskette(0);
    say_call("OPEN of D", 1, BLOCK_D, OPEN, 0, R, 0);
    say_call("GET from D, empty sectors", 1, BLOCK_D, GET_CHARACTERS, 2, 0, 0);
    say_call("GET STATUS of D", 1, BLOCK_D, FIXLOMAND_COMMAND_GET_STATUS, 0, 0, 0);
    say_call("CLOSE of D", 1, BLOCK_D, CLOSE, 0, 0, 0);
    specifications();
    say_call("OPEN of D, a directory", 1, BLOCK_D, OPEN, 0, FIXLOMAND_AUX1_DIRECTORY, 0);
    say_call("GET from D, a directory", 1, BLOCK_D, GET_CHARACTERS, 2, 0, 0);
    specifications();
    say_call("OPEN of S, mode 8", 0, BLOCK_S, OPEN, 0, R | W, 8);
    say_call("PUT to S", 0, BLOCK_S, PUT_CHARACTERS, 2, 0, 0);
    say_call("GET from S", 0, BLOCK_S, GET_CHARACTERS, 2, 0, 0);
    say_call("PUT to E, which opens it again", 0, BLOCK_E, PUT_CHARACTERS, 2, 0, 0);
    printf("  %-48s%8zu\n", "deepest", deepest);
    fill_files(FIXLOMAND_ENTRIES);
    say_depth("the doctor, a sound image", work_doctor);
    fill_damaged();
    say_depth("the doctor, 348 changes", work_doctor);
}

int main(int words, char **word)
{
    if (words > 1 && strcmp(word[1], "stack") == 0) {
        say_stack();
        return 0;
    }
    say_kinds();
    say_requests();
    say_lengths();
    say_scrolling();
    say_doctor();
    return 0;
}
