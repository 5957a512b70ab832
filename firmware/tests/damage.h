/* damage.h: whether a state is damaged, written a second time, from the words of fixlomand.h alone. */
#ifndef DAMAGE_H
#define DAMAGE_H

#include <stdint.h>

/* 0 for a state in order; else a text that says which rule of the header it breaks first. */
const char *damage(const uint8_t *state);

/* Whether a port's running request is at the console (E, S, K). */
int holds_console(const uint8_t *state, unsigned port);

#endif
