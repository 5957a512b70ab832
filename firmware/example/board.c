/* board.c: an example firmware for a stick, to start from. Everything that differs from board to board is in board.h.
 *
 * It serves both ports in turn, one byte in, one step, one byte out for each, and scans the keys. Nothing here waits, and
 * a turn of the loop has a bound: so no host can hold up the other, nor the keys, by what it sends or does not read. */
#include "board.h"

enum { PORTS = FIXLOMAND_PORTS };

/* In memory that starts as zeros. The fresh start below needs not even that; but it leaves the tape and the diskettes as
 * they are. */
struct board board;

#define LENT                                                                                                           \
    board.state, sizeof board.state, board.area, sizeof board.area, board.screen, sizeof board.screen, board.paper,   \
        sizeof board.paper, board.tape, sizeof board.tape, board.images, sizeof board.images

/* ---- when something is wrong ---- */

/* Pressed keys that the core has not stored yet, the oldest first. What is pressed while so many wait is lost. */
enum { TYPED = 64 };
static uint8_t typed[TYPED];
static unsigned typed_length;

/* A byte of each link that the core has not taken yet. */
static struct {
    int full;
    uint8_t byte;
} waiting[PORTS];

/* Fresh start of the core and of both links: the hosts see a stick that has just been plugged in. */
static void start(void)
{
    uint8_t answer = fixlomand_fresh(LENT);
    if (answer != FIXLOMAND_DONE)
        board_fault(answer);
    typed_length = 0;
    for (unsigned port = 0; port < PORTS; port++) {
        waiting[port].full = 0;
        link_reset(port);
    }
}

/* An answer that the caller has no use for. Damage is no fault of the firmware: memory has lost what it held, as in a
 * brown-out. Nothing in it can be trusted then, not for either port. */
static void unexpected(uint8_t answer)
{
    if (answer != FIXLOMAND_DAMAGED)
        board_fault(answer);
    start();
    board_tell_restart();
}

/* ---- the ports ---- */

/* Offers the core the link's next byte. While the port is busy the byte waits here, and the bytes behind it in the link:
 * that is the flow control towards the host. */
static int take(uint8_t port)
{
    uint8_t answer;
    if (!waiting[port].full)
        waiting[port].full = link_read(port, &waiting[port].byte);
    if (!waiting[port].full)
        return 0;
    answer = fixlomand_take(LENT, port, waiting[port].byte);
    if (answer == FIXLOMAND_NOT_GATHERING)
        return 0;
    if (answer == FIXLOMAND_DONE)
        waiting[port].full = 0;
    else
        unexpected(answer);
    return 1;
}

/* Moves the port's request on by one character. A port that waits for the other (8) is asked again in the next turn; as a
 * reply has at least four bytes, and each takes a turn, it gets the device before the other can ask for it again. */
static int tick(uint8_t port)
{
    uint8_t answer = fixlomand_tick(LENT, port);
    if (answer == FIXLOMAND_IDLE || answer == FIXLOMAND_GROUP_HELD)
        return 0;
    if (answer != FIXLOMAND_DONE)
        unexpected(answer);
    return 1;
}

/* Sends a byte of the port's reply. The core gives a byte once: so it is asked only when the link can keep one. */
static int give(uint8_t port)
{
    uint16_t given;
    uint8_t answer;
    if (!link_has_room(port))
        return 0;
    given = fixlomand_give(LENT, port);
    answer = FIXLOMAND_ANSWER(given);
    if (answer == FIXLOMAND_NO_REPLY)
        return 0;
    if (answer == FIXLOMAND_DONE)
        link_write(port, FIXLOMAND_BYTE(given));
    else
        unexpected(answer);
    return 1;
}

/* ---- the keys ---- */

enum { SCAN_TIME = 5, SCANS = 3, NO_KEY = -1, SEVERAL_KEYS = -2 };

/* The one closed switch of the matrix. With more than one closed, a matrix without diodes shows some that are open: so
 * then it is none of them. */
static int closed_key(void)
{
    int key = NO_KEY;
    for (unsigned row = 0; row < MATRIX_ROWS; row++) {
        uint8_t closed = matrix_row(row);
        for (unsigned column = 0; closed != 0; column++, closed >>= 1)
            if ((closed & 1) != 0)
                key = key == NO_KEY ? (int)(8 * row + column) : SEVERAL_KEYS;
    }
    return key;
}

/* A key is pressed when some scans in a row have seen it and it alone: contacts bounce for some milliseconds. It is
 * pressed once, until all keys are up. */
static void scan(void)
{
    static int seen = NO_KEY, down = NO_KEY;
    static unsigned scans;
    int key = closed_key();
    if (key != seen) {
        seen = key;
        scans = 0;
    }
    if (++scans != SCANS)
        return;
    if (key == NO_KEY)
        down = NO_KEY;
    if (key >= 0 && key != down) {
        uint8_t with = matrix_modifiers();
        down = key;
        if (typed_length < TYPED)
            typed[typed_length++] = (uint8_t)(key + ((with & MATRIX_SHIFT) != 0 ? FIXLOMAND_WITH_SHIFT : 0) +
                                              ((with & MATRIX_CONTROL) != 0 ? FIXLOMAND_WITH_CONTROL : 0));
    }
}

/* Stores the oldest key. The core has one place, and would store it over a key that no host has read: so it waits here
 * until the place is empty, and while a request is at the console (6). */
static void press(void)
{
    uint8_t answer;
    if (typed_length == 0 || board.state[FIXLOMAND_KEY] != FIXLOMAND_NO_KEY)
        return;
    answer = fixlomand_press(LENT, typed[0]);
    if (answer == FIXLOMAND_CONSOLE_HELD)
        return;
    if (answer != FIXLOMAND_DONE) {
        unexpected(answer);
        return;
    }
    typed_length--;
    for (unsigned i = 0; i < typed_length; i++)
        typed[i] = typed[i + 1];
}

/* ---- the loop ---- */

/* One turn; 0 if there was nothing to do for either port. */
static int turn(void)
{
    static uint32_t scanned;
    int moved = 0;
    for (uint8_t port = 0; port < PORTS; port++) {
        moved |= take(port);
        moved |= tick(port);
        moved |= give(port);
    }
    if ((uint32_t)(board_clock() - scanned) >= SCAN_TIME) {
        scanned = board_clock();
        scan();
    }
    press();
    return moved;
}

int main(void)
{
    board_begin();
    start();
    for (;;)
        if (!turn())
            board_idle();
}
