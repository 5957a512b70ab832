/* translate: key translation. Every code under every lock and inverse means what a GET of that key does; any other lock or
 * inverse is answered 262; and the papers' cases. */
#include "fixlomand.h"
#include "guard.h"

#include <stdio.h>
#include <string.h>

static uint8_t state[FIXLOMAND_STATE_LEN], area[FIXLOMAND_AREA_LEN];
static uint8_t screen[FIXLOMAND_SCREEN_LEN], paper[FIXLOMAND_PAPER_LEN], tape[FIXLOMAND_TAPE_LEN];
static uint8_t images[FIXLOMAND_IMAGES_LEN];
static uint8_t reply[FIXLOMAND_HEADER_LEN + FIXLOMAND_CALL_REPLY_LEN];

#define LENT                                                                                                           \
    state, sizeof state, area, sizeof area, screen, sizeof screen, paper, sizeof paper, tape, sizeof tape, images,     \
        sizeof images

/* A whole CALL on block 0 of port 0, its address 0; the reply has status, count and A from byte 3 on. */
static void call(uint8_t command, uint8_t aux1)
{
    const uint8_t message[FIXLOMAND_HEADER_LEN + FIXLOMAND_CALL_LEN] = {
        FIXLOMAND_TAG_CALL, FIXLOMAND_CALL_LEN, 0, 0, command, 0, 0, 0, 0, aux1, 0, 0};
    for (unsigned i = 0; i < sizeof message; i++)
        if (fixlomand_take(LENT, 0, message[i]) != FIXLOMAND_DONE)
            fail("translate: a byte is not taken");
    while (fixlomand_tick(LENT, 0) == FIXLOMAND_DONE)
        continue;
    for (unsigned i = 0; i < sizeof reply; i++)
        reply[i] = FIXLOMAND_BYTE(fixlomand_give(LENT, 0));
}

/* Presses a key and reads it with GET CHARACTERS of length 0, which gives the character as A. */
static void get(uint8_t code, uint8_t lock, uint8_t inverse)
{
    state[FIXLOMAND_LOCK] = lock;
    state[FIXLOMAND_INVERSE] = inverse;
    if (fixlomand_press(LENT, code) != FIXLOMAND_DONE)
        fail("translate: code $%02X cannot be pressed", code);
    call(FIXLOMAND_COMMAND_GET_CHARACTERS, 0);
    if (state[FIXLOMAND_KEY] != FIXLOMAND_NO_KEY)
        fail("translate: a GET of code $%02X leaves the key", code);
}

static void compare(uint8_t code, uint8_t lock, uint8_t inverse)
{
    uint16_t means = fixlomand_translate(code, lock, inverse);
    uint8_t lock_after = means == FIXLOMAND_MEANS_UNLOCK         ? FIXLOMAND_LOCK_NONE
                         : means == FIXLOMAND_MEANS_SHIFT_LOCK   ? FIXLOMAND_LOCK_SHIFT
                         : means == FIXLOMAND_MEANS_CONTROL_LOCK ? FIXLOMAND_LOCK_CONTROL
                                                                 : lock;
    uint8_t inverse_after = means == FIXLOMAND_MEANS_INVERSE ? 1 - inverse : inverse;
    int is_character = means < FIXLOMAND_MEANS_NOTHING;
    get(code, lock, inverse);
    if (means >= FIXLOMAND_MEANS_BAD_LOCK)
        fail("translate: code $%02X, lock %u, inverse %u gives %u", code, lock, inverse, means);
    if (reply[3] != (is_character ? FIXLOMAND_STATUS_SUCCESS : FIXLOMAND_STATUS_END_OF_FILE) ||
        (is_character && reply[6] != means))
        fail("translate: code $%02X, lock %u, inverse %u gives %u, but a GET of it status $%02X, A $%02X", code, lock,
             inverse, means, reply[3], reply[6]);
    if (state[FIXLOMAND_LOCK] != lock_after || state[FIXLOMAND_INVERSE] != inverse_after)
        fail("translate: code $%02X, lock %u, inverse %u gives %u, but a GET of it leaves lock %u, inverse %u", code,
             lock, inverse, means, state[FIXLOMAND_LOCK], state[FIXLOMAND_INVERSE]);
}

static void expect(uint8_t code, uint8_t lock, uint8_t inverse, uint16_t means)
{
    if (fixlomand_translate(code, lock, inverse) != means)
        fail("translate: code $%02X, lock %u, inverse %u gives %u, not %u", code, lock, inverse,
             fixlomand_translate(code, lock, inverse), means);
}

int main(void)
{
    fixlomand_fresh(LENT);
    memcpy(area, "K:", 2);
    call(FIXLOMAND_COMMAND_OPEN, FIXLOMAND_AUX1_READ);
    if (reply[3] != FIXLOMAND_STATUS_SUCCESS)
        fail("translate: K is not opened");
    for (unsigned code = 0; code < 256; code++)
        for (unsigned lock = 0; lock < 256; lock++)
            for (unsigned inverse = 0; inverse < 256; inverse++)
                if (lock > FIXLOMAND_LOCK_CONTROL || inverse > 1)
                    expect((uint8_t)code, (uint8_t)lock, (uint8_t)inverse, FIXLOMAND_MEANS_BAD_LOCK);
                else
                    compare((uint8_t)code, (uint8_t)lock, (uint8_t)inverse);
    expect(0x3F, FIXLOMAND_LOCK_SHIFT, 0, 'A');
    expect(0x3F, FIXLOMAND_LOCK_NONE, 0, 'a');
    expect(0x3F, FIXLOMAND_LOCK_NONE, 1, 'a' + 0x80);
    expect(0x3F, FIXLOMAND_LOCK_CONTROL, 0, 0x01);
    expect(0x3F + FIXLOMAND_WITH_SHIFT, FIXLOMAND_LOCK_NONE, 0, 'A');
    expect(0x3F + FIXLOMAND_WITH_CONTROL, FIXLOMAND_LOCK_SHIFT, 0, 0x01);
    expect(0x9A, FIXLOMAND_LOCK_SHIFT, 0, FIXLOMAND_MEANS_END_OF_FILE);
    expect(0x27, FIXLOMAND_LOCK_SHIFT, 0, FIXLOMAND_MEANS_INVERSE);
    expect(0x3C, FIXLOMAND_LOCK_SHIFT, 0, FIXLOMAND_MEANS_UNLOCK);
    expect(0x3C + FIXLOMAND_WITH_SHIFT, FIXLOMAND_LOCK_NONE, 0, FIXLOMAND_MEANS_SHIFT_LOCK);
    expect(0x3C + FIXLOMAND_WITH_CONTROL, FIXLOMAND_LOCK_NONE, 0, FIXLOMAND_MEANS_CONTROL_LOCK);
    expect(0xC0, FIXLOMAND_LOCK_NONE, 0, FIXLOMAND_MEANS_NOTHING);
    printf("translate: 16,777,216 values of code, lock and inverse, 1,536 of them beside a GET of the key\n");
    return 0;
}
