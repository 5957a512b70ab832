/* guard.h: lent buffers between pages that nobody may touch, so that one byte read or written outside ends the test. */
#ifndef GUARD_H
#define GUARD_H

#include <stddef.h>
#include <stdint.h>

/* A page is 4,096 bytes, and most buffers are no whole pages: so a buffer ends exactly at the page behind it (RIGHT) or
 * begins exactly behind the page before it (LEFT), and a test is run with both. */
enum side { LEFT, RIGHT };

/* A buffer of this length, which may be 0, filled with zeros. The name is for messages and is kept. */
uint8_t *guarded(const char *name, size_t length, enum side side);

/* The same, but of memory that can be mapped again. */
uint8_t *shared(const char *name, size_t length, enum side side);

/* The last shared buffer's memory at another place, between guard pages too, where only the bytes from one to the other
 * may be written, whole pages of the buffer. A call that must not write the rest is lent this, so that any write there,
 * even of what is there already, ends the test. */
uint8_t *view_of_shared(size_t from, size_t to);

/* Ends the test if a byte has changed that lies beside a buffer, between it and its pages' far end; frees all. */
void guards_free(void);

/* What the test does just now, for the message when a page is touched. */
extern const char *guard_doing;
extern unsigned long guard_number;

/* From now on a touched page ends the program with a message and status 1. */
void guard_watch(void);

/* Ends the program with a message and status 1; the words are those of printf. */
#if defined(__GNUC__)
__attribute__((noreturn, format(printf, 1, 2)))
#endif
void fail(const char *words, ...);

/* The side that a word names; ends the program if it names none. */
enum side side_of(const char *word);

#endif
