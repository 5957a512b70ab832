/* Lent buffers between pages that nobody may touch; see guard.h. */
#define _GNU_SOURCE /* memfd_create */
#include "guard.h"

#include <signal.h>
#include <stdarg.h>
#include <stdio.h>
#include <stdlib.h>
#include <string.h>
#include <sys/mman.h>
#include <unistd.h>

enum { PAGE = 4096, FILLER = 0xA5, MOST = 64 };

/* A mapping: one page, the pages of the buffer, one page. */
struct mapping {
    const char *name;
    uint8_t *map;
    size_t whole; /* bytes of the pages of the buffer */
    uint8_t *buffer;
    size_t length;
};

static struct mapping mappings[MOST];
static unsigned used;

const char *guard_doing = "nothing";
unsigned long guard_number;

void fail(const char *words, ...)
{
    va_list list;
    fflush(stdout);
    fputs("FAIL: ", stderr);
    va_start(list, words);
    vfprintf(stderr, words, list);
    va_end(list);
    fputc('\n', stderr);
    exit(1);
}

enum side side_of(const char *word)
{
    if (strcmp(word, "left") != 0 && strcmp(word, "right") != 0)
        fail("a side is left or right, not '%s'", word);
    return strcmp(word, "left") == 0 ? LEFT : RIGHT;
}

/* Maps a file's or, with -1, nobody's memory between two pages that stay closed. */
static struct mapping *map(const char *name, size_t length, enum side side, int file, int access)
{
    struct mapping *m = &mappings[used];
    if (used == MOST)
        fail("guard: more than %d buffers", MOST);
    m->name = name;
    m->length = length;
    m->whole = (length + PAGE - 1) / PAGE * PAGE;
    m->map = mmap(NULL, m->whole + 2 * PAGE, PROT_NONE, MAP_PRIVATE | MAP_ANONYMOUS | MAP_NORESERVE, -1, 0);
    if (m->map == MAP_FAILED)
        fail("guard: no memory for %s, %zu bytes", name, length);
    if (m->whole > 0) {
        int flags = MAP_FIXED | (file < 0 ? MAP_PRIVATE | MAP_ANONYMOUS | MAP_NORESERVE : MAP_SHARED);
        if (mmap(m->map + PAGE, m->whole, access, flags, file, 0) == MAP_FAILED)
            fail("guard: no memory for %s, %zu bytes", name, length);
    }
    m->buffer = m->map + PAGE + (side == RIGHT ? m->whole - length : 0);
    used++;
    return m;
}

/* The bytes of the buffer's pages that are not the buffer's. */
static void beside(const struct mapping *m, uint8_t **begin, size_t *length)
{
    *begin = m->buffer == m->map + PAGE ? m->buffer + m->length : m->map + PAGE;
    *length = m->whole - m->length;
}

static void fill_beside(const struct mapping *m)
{
    uint8_t *begin;
    size_t length;
    beside(m, &begin, &length);
    memset(begin, FILLER, length);
}

uint8_t *guarded(const char *name, size_t length, enum side side)
{
    struct mapping *m = map(name, length, side, -1, PROT_READ | PROT_WRITE);
    fill_beside(m);
    return m->buffer;
}

static int last_file = -1;
static enum side last_side;

uint8_t *shared(const char *name, size_t length, enum side side)
{
    if (last_file >= 0)
        close(last_file);
    last_file = memfd_create(name, 0);
    last_side = side;
    if (last_file < 0 || ftruncate(last_file, (off_t)((length + PAGE - 1) / PAGE * PAGE)) != 0)
        fail("guard: no file for %s", name);
    struct mapping *m = map(name, length, side, last_file, PROT_READ | PROT_WRITE);
    fill_beside(m);
    return m->buffer;
}

uint8_t *view_of_shared(size_t from, size_t to)
{
    const struct mapping *last = &mappings[used - 1];
    struct mapping *m = map(last->name, last->length, last_side, last_file, PROT_READ);
    if (to > from && mprotect(m->buffer + from, to - from, PROT_READ | PROT_WRITE) != 0)
        fail("guard: bytes %zu to %zu of %s are not whole pages", from, to, m->name);
    return m->buffer;
}

static void check_beside(void)
{
    for (unsigned i = 0; i < used; i++) {
        uint8_t *begin;
        size_t length;
        beside(&mappings[i], &begin, &length);
        for (size_t at = 0; at < length; at++)
            if (begin[at] != FILLER)
                fail("a byte beside %s was written, %td from its first byte", mappings[i].name,
                     begin + at - mappings[i].buffer);
    }
}

void guards_free(void)
{
    check_beside();
    while (used > 0) {
        used--;
        munmap(mappings[used].map, mappings[used].whole + 2 * PAGE);
    }
}

/* Names the buffer whose page was touched. printf is no function for signal handlers; but the program ends here, and
 * what was touched was touched by the library, which prints nothing. Some emulators call a handler with a stack that is
 * not aligned as functions expect it. */
#if defined(__x86_64__)
__attribute__((force_align_arg_pointer))
#endif
static void touched(int number, siginfo_t *info, void *context)
{
    const uint8_t *at = info->si_addr;
    (void)number, (void)context;
    for (unsigned i = 0; i < used; i++) {
        const struct mapping *m = &mappings[i];
        if (at >= m->map && at < m->map + m->whole + 2 * PAGE) {
            int inside = at >= m->buffer && at < m->buffer + m->length;
            fprintf(stderr, "FAIL: %s (call %lu): %s %s (%zu bytes), at its byte %td\n", guard_doing, guard_number,
                    inside ? "a write to what this call may only read," : "a byte outside a lent buffer,",
                    m->name, m->length, at - m->buffer);
            _exit(1);
        }
    }
    fprintf(stderr, "FAIL: %s (call %lu): memory at %p that nobody lent\n", guard_doing, guard_number,
            (const void *)at);
    _exit(1);
}

void guard_watch(void)
{
    struct sigaction action;
    memset(&action, 0, sizeof action);
    action.sa_sigaction = touched;
    action.sa_flags = SA_SIGINFO;
    if (sigaction(SIGSEGV, &action, NULL) != 0 || sigaction(SIGBUS, &action, NULL) != 0)
        fail("guard: no signal handler");
}
