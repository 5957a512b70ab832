/* play_c [left|right]: plays a call script from standard input through the C boundary, and writes what the program play
 * (crates/play) writes: so whatever talks to play can talk to the library. The ops, numbers low byte first:
 *
 *     F                    fresh start: the answer
 *     T PORT BYTE          take: the answer
 *     K PORT               tick: the answer
 *     G PORT               give: the answer, the byte
 *     P CODE               press: the answer
 *     X PORT N(2)          ticks while the port runs on, at most N: how many (2), the last answer
 *     L BUFFER LENGTH(3)   from now on lend so much of 0 area, 1 screen, 2 paper, 3 state, 4 tape, 6 images: nothing is
 *                          written
 *     W BUFFER AT(3) N(2)  the N bytes behind it into the area, screen, paper, tape or images, from AT to its end:
 *                          nothing is written
 *     D                    area, screen, paper, and the state but for the cassette and the diskettes' places, as the
 *                          header lays it out
 *     C                    tape, mark, record (2), place, and the pending characters with zeros behind them
 *     R IMAGE              the doctor on one of the four images, 0 to 3, whatever is lent of them: the answer, the number
 *                          of changes (2) and the changes; of another image answer 1 and 0 changes
 *
 * Each op is answered before the next is read. The buffers stand between guard pages. */
#include "fixlomand.h"
#include "guard.h"

#include <stdio.h>
#include <string.h>
#include <unistd.h>

/* The buffers by their numbers in a script; 5 is none. */
enum { AREA, SCREEN, PAPER, STATE, TAPE, IMAGES = 6, BUFFERS };

static const size_t whole[BUFFERS] = {[AREA] = FIXLOMAND_AREA_LEN,   [SCREEN] = FIXLOMAND_SCREEN_LEN,
                                      [PAPER] = FIXLOMAND_PAPER_LEN, [STATE] = FIXLOMAND_STATE_LEN,
                                      [TAPE] = FIXLOMAND_TAPE_LEN,   [IMAGES] = FIXLOMAND_IMAGES_LEN};
static size_t lent[BUFFERS];
static uint8_t *state, *area, *screen, *paper, *tape, *images, *list;

#define LENT                                                                                                           \
    state, lent[STATE], area, lent[AREA], screen, lent[SCREEN], paper, lent[PAPER], tape, lent[TAPE], images,          \
        lent[IMAGES]

static void say(const uint8_t *bytes, size_t length)
{
    fwrite(bytes, 1, length, stdout);
}

static void say_byte(uint8_t byte)
{
    say(&byte, 1);
}

/* A byte of the script, or -1 at its end. Whoever sent it may wait for the answers before sending on. */
static int next(void)
{
    static uint8_t some[65536];
    static ssize_t have, at;
    if (at == have) {
        fflush(stdout);
        have = read(STDIN_FILENO, some, sizeof some);
        at = 0;
        if (have <= 0) {
            have = 0;
            return -1;
        }
    }
    return some[at++];
}

static void say_block(const uint8_t *block)
{
    static const uint8_t letters[] = {0, 'E', 'S', 'K', 'P', 'C', 'D'};
    uint8_t device = block[0];
    if (device >= sizeof letters)
        fail("dump: %u is no device", device);
    say_byte(device != FIXLOMAND_CLOSED);
    say_byte(letters[device]);
    say(block + 1, 2);
}

static void dump(void)
{
    say(area, FIXLOMAND_AREA_LEN);
    say(screen, FIXLOMAND_SCREEN_LEN);
    say(paper, FIXLOMAND_PAPER_LEN);
    say(state + FIXLOMAND_USED, 2);
    say(state + FIXLOMAND_MODE, 1);
    say(state + FIXLOMAND_ROW, 1);
    say(state + FIXLOMAND_COLUMN, 2);
    say(state + FIXLOMAND_LAST, 1);
    say(state + FIXLOMAND_ESCAPE, 1);
    say(state + FIXLOMAND_READ_COLUMN, 1);
    say(state + FIXLOMAND_KEY, 1);
    say(state + FIXLOMAND_LOCK, 1);
    say(state + FIXLOMAND_INVERSE, 1);
    for (unsigned port = 0; port < FIXLOMAND_PORTS; port++)
        for (unsigned block = 0; block < FIXLOMAND_BLOCK_COUNT; block++)
            say_block(state + port * FIXLOMAND_PORT_LEN + FIXLOMAND_BLOCKS + block * FIXLOMAND_BLOCK_LEN);
    for (unsigned port = 0; port < FIXLOMAND_PORTS; port++)
        say_byte(state[port * FIXLOMAND_PORT_LEN + FIXLOMAND_PHASE]);
}

static void dump_tape(void)
{
    static const uint8_t zeros[FIXLOMAND_PENDING_LEN];
    unsigned pending = state[FIXLOMAND_MARK] == FIXLOMAND_TAPE_WRITING ? state[FIXLOMAND_PLACE] : 0;
    if (pending > FIXLOMAND_PENDING_LEN)
        fail("dump: %u characters are pending", pending);
    say(tape, FIXLOMAND_TAPE_LEN);
    say(state + FIXLOMAND_MARK, 1);
    say(state + FIXLOMAND_RECORD, 1);
    say_byte(0);
    say(state + FIXLOMAND_PLACE, 1);
    say(state + FIXLOMAND_PENDING, pending);
    say(zeros, FIXLOMAND_PENDING_LEN - pending);
}

/* Writes the script's next bytes into a buffer, once all of them are there; 0 if the script ends before. */
static int write_into(unsigned buffer, size_t at, unsigned length)
{
    static uint8_t some[65535];
    uint8_t *const buffers[BUFFERS] = {
        [AREA] = area, [SCREEN] = screen, [PAPER] = paper, [TAPE] = tape, [IMAGES] = images};
    for (unsigned i = 0; i < length; i++) {
        int byte = next();
        if (byte < 0)
            return 0;
        some[i] = (uint8_t)byte;
    }
    if (buffer < BUFFERS && buffers[buffer] != NULL)
        for (unsigned i = 0; i < length && at + i < whole[buffer]; i++)
            buffers[buffer][at + i] = some[i];
    return 1;
}

static void ticks(uint8_t port, unsigned most)
{
    unsigned done = 0;
    uint8_t answer = 0;
    while (done < most) {
        answer = fixlomand_tick(LENT, port);
        done++;
        if (answer != FIXLOMAND_DONE || state[port * FIXLOMAND_PORT_LEN + FIXLOMAND_PHASE] != FIXLOMAND_RUNNING)
            break;
    }
    say_byte((uint8_t)done);
    say_byte((uint8_t)(done >> 8));
    say_byte(answer);
}

static void doctor(unsigned image)
{
    uint32_t given = FIXLOMAND_DOCTOR_REFUSED;
    if (image < FIXLOMAND_DRIVES)
        given = fixlomand_doctor(images + FIXLOMAND_IMAGE(image + 1), FIXLOMAND_IMAGE_LEN, list, FIXLOMAND_LIST_LEN);
    if (FIXLOMAND_CHANGES(given) > FIXLOMAND_CHANGES_MOST)
        fail("doctor: %lu changes", (unsigned long)FIXLOMAND_CHANGES(given));
    say_byte(FIXLOMAND_ANSWER(given));
    say_byte((uint8_t)FIXLOMAND_CHANGES(given));
    say_byte((uint8_t)(FIXLOMAND_CHANGES(given) >> 8));
    say(list, FIXLOMAND_CHANGE_LEN * FIXLOMAND_CHANGES(given));
}

/* Plays an op; 0 if it is none, or is cut by the end of the script. */
static int play(int op)
{
    static const char ops[] = "FTKGPXLWDCR";
    static const uint8_t operands[] = {0, 2, 1, 1, 1, 3, 4, 6, 0, 0, 1};
    const char *found = op > 0 ? strchr(ops, op) : NULL;
    uint8_t a[6] = {0};
    uint16_t given;
    if (found == NULL)
        return 0;
    for (unsigned i = 0; i < operands[found - ops]; i++) {
        int byte = next();
        if (byte < 0)
            return 0;
        a[i] = (uint8_t)byte;
    }
    guard_number++;
    switch (op) {
    case 'F':
        say_byte(fixlomand_fresh(LENT));
        break;
    case 'T':
        say_byte(fixlomand_take(LENT, a[0], a[1]));
        break;
    case 'K':
        say_byte(fixlomand_tick(LENT, a[0]));
        break;
    case 'G':
        given = fixlomand_give(LENT, a[0]);
        say_byte(FIXLOMAND_ANSWER(given));
        say_byte(FIXLOMAND_BYTE(given));
        break;
    case 'P':
        say_byte(fixlomand_press(LENT, a[0]));
        break;
    case 'X':
        ticks(a[0], a[1] + 256u * a[2]);
        break;
    case 'L':
        if (a[0] < BUFFERS) {
            size_t length = a[1] + 256u * a[2] + 65536u * a[3];
            lent[a[0]] = length < whole[a[0]] ? length : whole[a[0]];
        }
        break;
    case 'W':
        return write_into(a[0], a[1] + 256u * a[2] + 65536u * a[3], a[4] + 256u * a[5]);
    case 'D':
        dump();
        break;
    case 'C':
        dump_tape();
        break;
    default:
        doctor(a[0]);
        break;
    }
    return 1;
}

int main(int words, char **word)
{
    enum side side = words > 1 ? side_of(word[1]) : RIGHT;
    state = guarded("state", FIXLOMAND_STATE_LEN, side);
    area = guarded("area", FIXLOMAND_AREA_LEN, side);
    screen = guarded("screen", FIXLOMAND_SCREEN_LEN, side);
    paper = guarded("paper", FIXLOMAND_PAPER_LEN, side);
    tape = guarded("tape", FIXLOMAND_TAPE_LEN, side);
    images = guarded("images", FIXLOMAND_IMAGES_LEN, side);
    list = guarded("list", FIXLOMAND_LIST_LEN, side);
    memcpy(lent, whole, sizeof lent);
    guard_doing = "play_c";
    guard_watch();
    if (fixlomand_fresh(LENT) != FIXLOMAND_DONE)
        fail("play_c: the fresh start is refused");
    while (play(next()))
        continue;
    guards_free();
    return fflush(stdout) == 0 ? 0 : 1;
}
