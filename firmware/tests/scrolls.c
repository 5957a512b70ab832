/* scrolls: from the last row the rows move up and row 23 becomes $20, whatever the screen shows, in each of the three ways
 * in which E gets there; and from another row no cell moves. The screen lies between guard pages. */
#include "fixlomand.h"
#include "guard.h"

#include <stdio.h>
#include <stdlib.h>
#include <string.h>

enum { COLUMNS = 40, ROWS = 24, LAST = ROWS - 1, LEFT_MARGIN = 2, RIGHT_MARGIN = 39, BLANK = 0x20 };
enum { TURNS = 100, BUFFER = 16, STATUS = FIXLOMAND_HEADER_LEN };
enum way { BY_EOL, BY_FILLING, BY_GET, WAYS };

static const char *const words[WAYS] = {"PUT of an EOL", "PUT in column 39", "GET of a blank row"};
static uint8_t state[FIXLOMAND_STATE_LEN], area[FIXLOMAND_AREA_LEN];
static uint8_t paper[FIXLOMAND_PAPER_LEN], tape[FIXLOMAND_TAPE_LEN], images[FIXLOMAND_IMAGES_LEN];
static uint8_t *screen, right[FIXLOMAND_SCREEN_LEN];

#define LENT                                                                                                           \
    state, sizeof state, area, sizeof area, screen, FIXLOMAND_SCREEN_LEN, paper, sizeof paper, tape, sizeof tape,      \
        images, sizeof images

/* A CALL on block 0 of port 0; ends the test if it does not succeed. */
static void call(unsigned command, unsigned address, unsigned length, unsigned aux1)
{
    const uint8_t message[FIXLOMAND_HEADER_LEN + FIXLOMAND_CALL_LEN] = {
        FIXLOMAND_TAG_CALL, FIXLOMAND_CALL_LEN, 0, 0, (uint8_t)command, (uint8_t)address, (uint8_t)(address >> 8),
        (uint8_t)length,    0,                  (uint8_t)aux1};
    uint8_t reply[FIXLOMAND_ROOM_LEN] = {0};
    size_t got = 0;
    uint16_t given;
    for (size_t i = 0; i < sizeof message; i++)
        if (fixlomand_take(LENT, 0, message[i]) != FIXLOMAND_DONE)
            fail("scrolls: byte %zu of a CALL is not taken", i);
    while (fixlomand_tick(LENT, 0) == FIXLOMAND_DONE)
        continue;
    while (given = fixlomand_give(LENT, 0), FIXLOMAND_ANSWER(given) == FIXLOMAND_DONE)
        reply[got++] = FIXLOMAND_BYTE(given);
    if (got != FIXLOMAND_HEADER_LEN + FIXLOMAND_CALL_REPLY_LEN || reply[STATUS] != FIXLOMAND_STATUS_SUCCESS)
        fail("scrolls: command $%02X ends with $%02X", command, reply[STATUS]);
}

static void start(void)
{
    if (fixlomand_fresh(LENT) != FIXLOMAND_DONE)
        fail("scrolls: no fresh start");
    memcpy(area, "E:", 2);
    call(FIXLOMAND_COMMAND_OPEN, 0, 0, FIXLOMAND_AUX1_READ | FIXLOMAND_AUX1_WRITE | FIXLOMAND_AUX1_FORCED);
}

/* Rows move up, row by row and column by column, in what the screen should be. */
static void move_up(void)
{
    for (unsigned row = 0; row < LAST; row++)
        for (unsigned column = 0; column < COLUMNS; column++)
            right[row * COLUMNS + column] = right[(row + 1) * COLUMNS + column];
    for (unsigned column = 0; column < COLUMNS; column++)
        right[LAST * COLUMNS + column] = BLANK;
}

/* A screen of any bytes, the cursor in this row, and one character in this way. */
static void turn(enum way way, unsigned row)
{
    unsigned column = way == BY_FILLING ? RIGHT_MARGIN : LEFT_MARGIN;
    for (size_t i = 0; i < sizeof right; i++)
        screen[i] = (uint8_t)(rand() >> 5);
    if (way == BY_GET)
        memset(screen + row * COLUMNS + LEFT_MARGIN, BLANK, COLUMNS - LEFT_MARGIN);
    memcpy(right, screen, sizeof right);
    state[FIXLOMAND_ROW] = (uint8_t)row;
    state[FIXLOMAND_COLUMN] = (uint8_t)column;
    area[BUFFER] = way == BY_FILLING ? 'x' : FIXLOMAND_EOL;
    call(way == BY_GET ? FIXLOMAND_COMMAND_GET_CHARACTERS : FIXLOMAND_COMMAND_PUT_CHARACTERS, BUFFER, 1, 0);
    if (way == BY_GET && area[BUFFER] != FIXLOMAND_EOL)
        fail("scrolls: %s in row %u gives $%02X", words[way], row, area[BUFFER]);
    if (way == BY_FILLING)
        right[row * COLUMNS + column] = 'x';
    if (row == LAST)
        move_up();
    for (size_t i = 0; i < sizeof right; i++)
        if (screen[i] != right[i])
            fail("scrolls: after %s in row %u cell %zu is $%02X, not $%02X", words[way], row, i, screen[i], right[i]);
    if (state[FIXLOMAND_ROW] != (row < LAST ? row + 1 : LAST) || state[FIXLOMAND_COLUMN] != LEFT_MARGIN)
        fail("scrolls: after %s in row %u the cursor is at (%u, %u)", words[way], row, state[FIXLOMAND_ROW],
             state[FIXLOMAND_COLUMN]);
}

int main(void)
{
    unsigned long turns = 0;
    srand(1);
    guard_watch();
    for (enum side side = LEFT; side <= RIGHT; side++) {
        screen = guarded("screen", FIXLOMAND_SCREEN_LEN, side);
        start();
        for (unsigned way = 0; way < WAYS; way++) {
            guard_doing = words[way];
            for (unsigned row = 0; row < LAST; row++, turns++)
                turn((enum way)way, row);
            for (guard_number = 0; guard_number < TURNS; guard_number++, turns++)
                turn((enum way)way, LAST);
        }
        guards_free();
    }
    printf("%lu screens, of which %d scrolled\n", turns, 2 * WAYS * TURNS);
    return 0;
}
