/* Whether a state is damaged; see damage.h. */
#include "damage.h"

#include "fixlomand.h"

#include <stddef.h>

enum { R = FIXLOMAND_AUX1_READ, W = FIXLOMAND_AUX1_WRITE };

static unsigned long number(const uint8_t *bytes, unsigned length)
{
    unsigned long n = 0;
    while (length-- > 0)
        n = 256 * n + bytes[length];
    return n;
}

/* "those not named are 0" */
static int unused(const uint8_t *port, unsigned from)
{
    for (unsigned i = from; i <= FIXLOMAND_NUMBERS_LEN; i++)
        if (port[i] != 0)
            return 0;
    return 1;
}

/* The place of a block that has D open: "Only the places of such blocks are looked at." */
static const char *place_damage(const uint8_t *block, const uint8_t *place)
{
    unsigned entry = place[FIXLOMAND_PLACE_ENTRY], at = place[FIXLOMAND_PLACE_AT];
    unsigned kind = block[2] == FIXLOMAND_AUX1_DIRECTORY ? FIXLOMAND_PLACE_DIRECTORY : FIXLOMAND_PLACE_FILE;
    if (place[FIXLOMAND_PLACE_UNIT] != block[1] - 1)
        return "a place in another drive than its block's";
    if (place[FIXLOMAND_PLACE_KIND] != kind)
        return "a file's place in a directory, or a directory's in a file";
    if (kind == FIXLOMAND_PLACE_FILE) {
        if (entry >= FIXLOMAND_ENTRIES)
            return "a file's entry";
        if (at > 125)
            return "a place in a sector";
        return number(place + FIXLOMAND_PLACE_PASSED, 2) > 718 ? "passed sectors" : NULL;
    }
    if (entry > FIXLOMAND_LISTING_END)
        return "a directory's entry";
    if (at > (entry < FIXLOMAND_FREE_RECORD ? 17u : entry == FIXLOMAND_FREE_RECORD ? 16u : 0u))
        return "a place in a directory's record";
    return NULL;
}

static const char *block_damage(const uint8_t *block, const uint8_t *place)
{
    uint8_t device = block[0], number_of = block[1], aux1 = block[2];
    if (device > FIXLOMAND_D)
        return "a block's device";
    if (device == FIXLOMAND_CLOSED)
        return number_of != 0 || aux1 != 0 ? "a closed block with numbers" : NULL;
    if (number_of < 1 || number_of > (device == FIXLOMAND_D ? FIXLOMAND_DRIVES : 8))
        return "a block's number";
    if (device == FIXLOMAND_E && (aux1 & R) != 0 && (aux1 & FIXLOMAND_AUX1_FORCED) == 0)
        return "E with R and without forced read";
    if (device == FIXLOMAND_S && (aux1 & FIXLOMAND_AUX1_SPLIT) != 0)
        return "S with a split screen";
    if (device == FIXLOMAND_K && (aux1 & W) != 0)
        return "K with W";
    if (device == FIXLOMAND_P && (aux1 & R) != 0)
        return "P with R";
    if (device == FIXLOMAND_C && (aux1 & R) != 0 && (aux1 & W) != 0)
        return "C with R and W";
    if (device == FIXLOMAND_D && (aux1 & W) != 0)
        return "D with W";
    return device == FIXLOMAND_D ? place_damage(block, place) : NULL;
}

static const char *gathering_damage(const uint8_t *port)
{
    unsigned long tag = port[1], length = number(port + 2, 2), taken = number(port + 4, 3);
    if (!unused(port, 7))
        return "a gathering with other numbers";
    if (taken == 0)
        return tag != 0 || length != 0 ? "a header that is not taken" : NULL;
    if (taken == 1)
        return length != 0 ? "a length that is not taken" : NULL;
    if (taken == 2)
        return length > 255 ? "a length of which half is taken" : NULL;
    return taken >= 3 + length ? "a gathering that has all its bytes" : NULL;
}

static const char *running_damage(const uint8_t *port, uint8_t mode)
{
    unsigned kind = port[1], device = port[2], block = port[3];
    unsigned long left = number(port + 4, 2), place = number(port + 6, 2), count = number(port + 8, 2);
    const uint8_t *its = port + FIXLOMAND_BLOCKS + FIXLOMAND_BLOCK_LEN * block;
    if (kind > 5)
        return "a request's kind";
    if (device < FIXLOMAND_E || device > FIXLOMAND_D)
        return "a request's device";
    if (block >= FIXLOMAND_BLOCK_COUNT)
        return "a request's block";
    if (its[0] != device)
        return "a request on another device than its block";
    if ((its[2] & (kind < 3 ? R : W)) == 0)
        return "a request in a direction its block has not";
    if (device == FIXLOMAND_E ? mode != 0 : device == FIXLOMAND_S && mode == 0)
        return "a request in another mode";
    if (kind % 3 == 0)
        return left != 0 || count != 0 ? "one character with left or count" : NULL;
    if (place + left > FIXLOMAND_PORT_AREA_LEN)
        return "a buffer past the area";
    if (count > place)
        return "a count past the place";
    if (kind % 3 == 1 ? left == 0 : left + count == 0)
        return "a request with nothing left";
    return NULL;
}

static const char *port_damage(const uint8_t *port, const uint8_t *places, uint8_t mode)
{
    for (unsigned i = 0; i < FIXLOMAND_BLOCK_COUNT; i++) {
        const char *why =
            block_damage(port + FIXLOMAND_BLOCKS + FIXLOMAND_BLOCK_LEN * i, places + FIXLOMAND_PLACE_LEN * i);
        if (why != NULL)
            return why;
    }
    switch (port[FIXLOMAND_PHASE]) {
    case FIXLOMAND_GATHERING:
        return gathering_damage(port);
    case FIXLOMAND_READY:
        return unused(port, 4) ? NULL : "a ready message with other numbers";
    case FIXLOMAND_RUNNING:
        return running_damage(port, mode);
    case FIXLOMAND_REPLYING:
        if (!unused(port, 5))
            return "a reply with other numbers";
        if (number(port + 1, 2) < 4 || number(port + 1, 2) > FIXLOMAND_ROOM_LEN)
            return "a reply's length";
        return number(port + 3, 2) >= number(port + 1, 2) ? "a reply that is given whole" : NULL;
    default:
        return "a phase";
    }
}

static const char *console_damage(const uint8_t *state)
{
    unsigned mode = state[FIXLOMAND_MODE], row = state[FIXLOMAND_ROW], reading = state[FIXLOMAND_READ_COLUMN];
    unsigned long column = number(state + FIXLOMAND_COLUMN, 2);
    if (FIXLOMAND_COLUMNS(mode) == 0)
        return "a mode";
    if (mode == 0 ? row > 23 : row > FIXLOMAND_ROWS(mode))
        return "a row";
    if (mode == 0 ? column < 2 || column > 39 : column >= FIXLOMAND_COLUMNS(mode))
        return "a column";
    if (reading != FIXLOMAND_NO_COLUMN && (reading < 2 || reading > 40))
        return "a read column";
    if (state[FIXLOMAND_ESCAPE] > 1 || state[FIXLOMAND_LOCK] > FIXLOMAND_LOCK_CONTROL || state[FIXLOMAND_INVERSE] > 1)
        return "escape, lock or inverse";
    return NULL;
}

static const char *cassette_damage(const uint8_t *state)
{
    unsigned mark = state[FIXLOMAND_MARK], record = state[FIXLOMAND_RECORD], place = state[FIXLOMAND_PLACE];
    switch (mark) {
    case FIXLOMAND_TAPE_READING:
        return record > 250 || place > 127 ? "a tape that is read" : NULL;
    case FIXLOMAND_TAPE_WRITING:
        if (record > 249 || place > 127)
            return "a tape that is written";
        return record == 249 && place != 0 ? "characters that are pending for a full tape" : NULL;
    case FIXLOMAND_TAPE_CLOSED:
    case FIXLOMAND_TAPE_NEITHER:
        return record != 0 || place != 0 ? "a tape that is neither read nor written, with numbers" : NULL;
    default:
        return "a mark";
    }
}

/* "Where it is 0 no block has C open. Where it is not, one block of the two ports has, and no second one" */
static const char *open_damage(const uint8_t *state)
{
    unsigned open = 0, mark = FIXLOMAND_TAPE_CLOSED;
    for (unsigned i = 0; i < FIXLOMAND_PORTS * FIXLOMAND_BLOCK_COUNT; i++) {
        const uint8_t *block = state + i / FIXLOMAND_BLOCK_COUNT * FIXLOMAND_PORT_LEN + FIXLOMAND_BLOCKS +
                               i % FIXLOMAND_BLOCK_COUNT * FIXLOMAND_BLOCK_LEN;
        if (block[0] != FIXLOMAND_C)
            continue;
        open++;
        mark = (block[2] & R) != 0   ? FIXLOMAND_TAPE_READING
               : (block[2] & W) != 0 ? FIXLOMAND_TAPE_WRITING
                                     : FIXLOMAND_TAPE_NEITHER;
    }
    if (open > 1)
        return "two blocks with C open";
    return state[FIXLOMAND_MARK] != mark ? "a mark and blocks at odds" : NULL;
}

/* The group of a port's running request, by its first device; 0 for none. */
static unsigned group(const uint8_t *state, unsigned port)
{
    const uint8_t *its = state + port * FIXLOMAND_PORT_LEN;
    if (its[FIXLOMAND_PHASE] != FIXLOMAND_RUNNING)
        return 0;
    return its[2] == FIXLOMAND_S || its[2] == FIXLOMAND_K ? FIXLOMAND_E : its[2];
}

int holds_console(const uint8_t *state, unsigned port)
{
    return group(state, port) == FIXLOMAND_E;
}

const char *damage(const uint8_t *state)
{
    const char *why = console_damage(state);
    for (unsigned port = 0; port < FIXLOMAND_PORTS && why == NULL; port++)
        why = port_damage(state + port * FIXLOMAND_PORT_LEN,
                          state + FIXLOMAND_PLACES + port * FIXLOMAND_BLOCK_COUNT * FIXLOMAND_PLACE_LEN,
                          state[FIXLOMAND_MODE]);
    if (why == NULL && number(state + FIXLOMAND_USED, 2) > FIXLOMAND_PAPER_LEN)
        why = "the paper's used length";
    if (why == NULL)
        why = cassette_damage(state);
    if (why == NULL)
        why = open_damage(state);
    if (why == NULL && group(state, 0) != 0 && group(state, 0) == group(state, 1))
        why = "both ports at one group";
    return why;
}
