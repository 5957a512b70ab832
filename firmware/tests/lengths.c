/* lengths: each lent buffer at another length is answered 2 by all five calls, and nothing changes.
 *
 * The buffers stand between guard pages and are exactly as long as they are said to be, so that whoever believes in the
 * right length all the same, ends the test. */
#define _GNU_SOURCE /* MAP_NORESERVE */
#include "fixlomand.h"
#include "guard.h"

#include <inttypes.h>
#include <stdio.h>
#include <string.h>
#include <sys/mman.h>

enum { STATE, AREA, SCREEN, PAPER, TAPE, IMAGES, BUFFERS, CALLS = 5 };

struct buffer {
    uint8_t *bytes;
    size_t length;
};

static const char *const names[BUFFERS] = {"state", "area", "screen", "paper", "tape", "images"};
static const char *const call_names[CALLS] = {"fresh", "take", "tick", "give", "press"};
static const size_t whole[BUFFERS] = {FIXLOMAND_STATE_LEN, FIXLOMAND_AREA_LEN, FIXLOMAND_SCREEN_LEN,
                                      FIXLOMAND_PAPER_LEN, FIXLOMAND_TAPE_LEN, FIXLOMAND_IMAGES_LEN};
static unsigned long calls, refusals;

#define LENT                                                                                                           \
    b[STATE].bytes, b[STATE].length, b[AREA].bytes, b[AREA].length, b[SCREEN].bytes, b[SCREEN].length,                \
        b[PAPER].bytes, b[PAPER].length, b[TAPE].bytes, b[TAPE].length, b[IMAGES].bytes, b[IMAGES].length

/* The answer of a call; give's byte is in the high half. */
static unsigned call(unsigned which, const struct buffer b[BUFFERS], uint8_t port)
{
    calls++;
    guard_doing = call_names[which];
    guard_number = calls;
    switch (which) {
    case 0:
        return fixlomand_fresh(LENT);
    case 1:
        return fixlomand_take(LENT, port, FIXLOMAND_TAG_LOAD);
    case 2:
        return fixlomand_tick(LENT, port);
    case 3:
        return fixlomand_give(LENT, port);
    default:
        return fixlomand_press(LENT, 0x3F);
    }
}

/* Bytes in which any other byte shows, also at a place one further. */
static void fill(const struct buffer *b)
{
    for (size_t i = 0; i < b->length; i++)
        b->bytes[i] = (uint8_t)(i * 37 + i / 251 + 11);
}

static void compare(const struct buffer *b, const uint8_t *before, unsigned which, const char *name, const char *what)
{
    if (b->length == 0 || memcmp(b->bytes, before, b->length) == 0)
        return;
    for (size_t i = 0; i < b->length; i++)
        if (b->bytes[i] != before[i])
            fail("%s, %s: byte %zu of %s was %u and is %u", what, call_names[which], i, name, before[i], b->bytes[i]);
}

/* All five calls, at ports that are there and ports that are not, refuse these buffers and change none. */
static void refused(const struct buffer b[BUFFERS], const char *what)
{
    static uint8_t before[BUFFERS][2 * FIXLOMAND_IMAGES_LEN];
    static const uint8_t ports[] = {0, 1, 2, 255};
    for (unsigned i = 0; i < BUFFERS; i++)
        if (b[i].length > 0)
            memcpy(before[i], b[i].bytes, b[i].length);
    for (unsigned which = 0; which < CALLS; which++)
        for (unsigned p = 0; p < sizeof ports; p++) {
            unsigned answer = call(which, b, ports[p]);
            if (answer != FIXLOMAND_BAD_LENGTH)
                fail("%s: %s at port %u answered $%04X, not 2", what, call_names[which], ports[p], answer);
            for (unsigned i = 0; i < BUFFERS; i++)
                compare(&b[i], before[i], which, names[i], what);
            refusals++;
        }
}

/* The six whole buffers after a fresh start and some bytes of a message. */
static void started(struct buffer b[BUFFERS], enum side side)
{
    for (unsigned i = 0; i < BUFFERS; i++) {
        b[i].bytes = guarded(names[i], whole[i], side);
        b[i].length = whole[i];
        fill(&b[i]);
    }
    if (call(0, b, 0) != FIXLOMAND_DONE || call(1, b, 0) != FIXLOMAND_DONE)
        fail("whole buffers are refused: then the rest shows nothing");
}

/* One buffer at another length: on a state that is in order, on one that is not, and with nothing whole at all. */
static void one_wrong(unsigned which, size_t length, enum side side)
{
    struct buffer b[BUFFERS], other[BUFFERS];
    char what[80];
    snprintf(what, sizeof what, "%s of %zu bytes, its %s end at a guard page", names[which], length,
             side == LEFT ? "left" : "right");
    started(b, side);
    for (unsigned i = 0; i < BUFFERS; i++) {
        size_t now = i == which ? length : whole[i] - 1;
        other[i].bytes = guarded(names[i], now, side);
        other[i].length = now;
        if (i == which && i != STATE)
            fill(&other[i]);
        else if (now > 0)
            memcpy(other[i].bytes, b[i].bytes, now < whole[i] ? now : whole[i]);
    }
    b[which] = other[which];
    refused(b, what);
    refused(other, "no buffer whole");
    if (length == 0) {
        b[which].bytes = NULL; /* as good a pointer to no bytes as any */
        refused(b, what);
    }
    if (b[STATE].length > FIXLOMAND_MODE) {
        b[STATE].bytes[FIXLOMAND_MODE] = 1; /* damaged: but 2 comes before 3 */
        refused(b, what);
    }
    guards_free();
}

/* A length whose low 32 bits are right. */
static void one_huge(unsigned which)
{
    struct buffer b[BUFFERS];
    size_t length = whole[which] + (size_t)(UINT64_C(1) << 32);
    void *map = mmap(NULL, length, PROT_READ | PROT_WRITE, MAP_PRIVATE | MAP_ANONYMOUS | MAP_NORESERVE, -1, 0);
    if (map == MAP_FAILED) {
        printf("lengths: no room for a %s of 2^32 + %zu bytes, not tried\n", names[which], whole[which]);
        return;
    }
    started(b, RIGHT);
    memcpy(map, b[which].bytes, whole[which]);
    for (unsigned c = 0; c < CALLS; c++) {
        struct buffer huge[BUFFERS];
        memcpy(huge, b, sizeof huge);
        huge[which].bytes = map;
        huge[which].length = length;
        if (call(c, huge, 0) != FIXLOMAND_BAD_LENGTH)
            fail("%s of 2^32 + %zu bytes: %s did not answer 2", names[which], whole[which], call_names[c]);
        if (memcmp(map, b[which].bytes, whole[which]) != 0)
            fail("%s of 2^32 + %zu bytes: %s changed it", names[which], whole[which], call_names[c]);
        refusals++;
    }
    munmap(map, length);
    guards_free();
}

int main(void)
{
    guard_watch();
    for (unsigned which = 0; which < BUFFERS; which++) {
        const size_t lengths[] = {0, 1, whole[which] - 1, whole[which] + 1, 2 * whole[which]};
        for (unsigned i = 0; i < sizeof lengths / sizeof *lengths; i++) {
            one_wrong(which, lengths[i], LEFT);
            one_wrong(which, lengths[i], RIGHT);
        }
        one_huge(which);
    }
    printf("lengths: %lu calls on buffers of another length, each answered 2 with nothing changed\n", refusals);
    return 0;
}
