/* board.h: what the example firmware, board.c, needs of a board. For another board write these functions anew; posix.c
 * has them for a computer, with two pseudo-terminals for the links and simulated keys. */
#ifndef BOARD_H
#define BOARD_H

#include "fixlomand.h"

/* What the core is lent. The display and the printer read their parts of it between two calls; they write nothing.
 *
 * The tape is as good as the memory that it stands in. A board that keeps it over a power-down has a copy where that does
 * not reach, as in flash, and reads it into board.tape before the first call (in board_begin): a fresh start leaves the
 * tape. Later, when there is nothing else to do (in board_idle), it compares a record after the other with the copy and
 * writes those that differ, while board.state[FIXLOMAND_MARK] is not FIXLOMAND_TAPE_WRITING: until the host's CLOSE the
 * tape has no end. The mark alone does not tell that there is something new: a request that opens and closes the tape in
 * one tick writes an end too. Another cassette is put in, by writing board.tape between two calls, while the mark is
 * FIXLOMAND_TAPE_CLOSED. A tape of zeros, as here, reads as bad until a host has written it.
 *
 * The diskettes are what the board puts into board.images, before the first call (in board_begin) or between two, as
 * from a card; the calls only read them, so that nothing is to be copied back, but for what a board has the doctor
 * change (fixlomand_doctor, which this one does not use). Zeros, as here, are drives without a diskette: no file is found
 * there, and the directory tells of no free sector. */
struct board {
    uint8_t state[FIXLOMAND_STATE_LEN];
    uint8_t area[FIXLOMAND_AREA_LEN];
    uint8_t screen[FIXLOMAND_SCREEN_LEN];
    uint8_t paper[FIXLOMAND_PAPER_LEN];
    uint8_t tape[FIXLOMAND_TAPE_LEN];
    uint8_t images[FIXLOMAND_IMAGES_LEN];
};

extern struct board board;

/* ---- the links: two byte streams, ports 0 and 1; none of these waits ---- */

/* The next byte of the host; 0 if there is none. */
int link_read(unsigned port, uint8_t *byte);

/* Whether link_write would keep a byte. */
int link_has_room(unsigned port);

/* Sends a byte to the host, now or a little later. */
void link_write(unsigned port, uint8_t byte);

/* Drops what is under way in both directions, also a reply that the host has not read yet, so that the host sees it: on
 * USB, a reset of the device. */
void link_reset(unsigned port);

/* ---- the keys: 64 switches, and shift and control by themselves ---- */

enum { MATRIX_ROWS = 8, MATRIX_SHIFT = 1, MATRIX_CONTROL = 2 };

/* The closed switches of a row, column 0 in bit 0. The key in a row and column has the number 8 * row + column. */
uint8_t matrix_row(unsigned row);

/* MATRIX_SHIFT and MATRIX_CONTROL, if they are closed. */
uint8_t matrix_modifiers(void);

/* ---- the rest ---- */

/* Sets up the hardware, before all else. */
void board_begin(void);

/* Milliseconds since some time; it may wrap. */
uint32_t board_clock(void);

/* There was nothing to do: sleep until a byte comes, or for a millisecond or so. */
void board_idle(void);

/* Tells whoever looks after the board that the core's memory was damaged, and that everything has started again: a
 * light, a line in a log. */
void board_tell_restart(void);

/* Something that a right firmware never meets: an answer that it should not get. Does not return. */
void board_fault(uint8_t answer);

#endif
