/* posix.c: board.h for a computer, so that the example firmware can be tried. Each link is a pseudo-terminal, whose name
 * it prints; a host opens it as it would a serial port. The keyboard, the display and the printer are at standard input
 * and output, a line each:
 *
 *     3F         presses the key of this code (hexadecimal) for a while, with contacts that bounce
 *     15 3F 23   presses one key after the other
 *     show       writes the text screen, and what is on the paper
 *     damage     spoils a byte of the core's state, as a brown-out might
 *
 * The tape is in memory, and kept as long as the program runs; the drives have no diskettes. It ends with its input. */
#define _XOPEN_SOURCE 700 /* posix_openpt */
#include "board.h"

#include <errno.h>
#include <fcntl.h>
#include <poll.h>
#include <stdio.h>
#include <stdlib.h>
#include <string.h>
#include <termios.h>
#include <time.h>
#include <unistd.h>

enum { PORTS = FIXLOMAND_PORTS, PIECE = 256 };

static void die(const char *what)
{
    fprintf(stderr, "board: %s: %s\n", what, strerror(errno));
    exit(1);
}

void board_tell_restart(void)
{
    fprintf(stderr, "board: the core's state was damaged: fresh start, both links reset\n");
}

void board_fault(uint8_t answer)
{
    fprintf(stderr, "board: the core answered %u, which this firmware should never see\n", answer);
    exit(1);
}

uint32_t board_clock(void)
{
    struct timespec t;
    clock_gettime(CLOCK_MONOTONIC, &t);
    return (uint32_t)((uint64_t)t.tv_sec * 1000 + (uint64_t)t.tv_nsec / 1000000);
}

/* ---- the links ---- */

/* Both ends of a pseudo-terminal, with what is read ahead and what is still to be written. The host's end stays open
 * here, so that hosts may come and go. */
static struct plug {
    int file, host;
    uint8_t in[PIECE], out[PIECE];
    size_t in_at, in_length, out_length;
    uint32_t flushed;
} plugs[PORTS];

static void plug_in(struct plug *plug)
{
    struct termios raw;
    plug->file = posix_openpt(O_RDWR | O_NOCTTY);
    if (plug->file < 0 || grantpt(plug->file) != 0 || unlockpt(plug->file) != 0)
        die("no pseudo-terminal");
    plug->host = open(ptsname(plug->file), O_RDWR | O_NOCTTY);
    if (plug->host < 0 || tcgetattr(plug->host, &raw) != 0)
        die("no pseudo-terminal");
    raw.c_iflag = raw.c_oflag = raw.c_lflag = 0;
    raw.c_cflag = (raw.c_cflag & ~(tcflag_t)(CSIZE | PARENB)) | CS8;
    raw.c_cc[VMIN] = 1;
    raw.c_cc[VTIME] = 0;
    if (tcsetattr(plug->host, TCSANOW, &raw) != 0 || fcntl(plug->file, F_SETFL, O_NONBLOCK) != 0)
        die("the pseudo-terminal");
}

void board_begin(void)
{
    for (unsigned port = 0; port < PORTS; port++)
        plug_in(&plugs[port]);
}

static void flush(struct plug *plug)
{
    ssize_t written;
    plug->flushed = board_clock();
    if (plug->out_length == 0)
        return;
    written = write(plug->file, plug->out, plug->out_length);
    if (written > 0) {
        plug->out_length -= (size_t)written;
        memmove(plug->out, plug->out + written, plug->out_length);
    }
}

int link_read(unsigned port, uint8_t *byte)
{
    struct plug *plug = &plugs[port];
    if (plug->in_at == plug->in_length) {
        ssize_t length = read(plug->file, plug->in, sizeof plug->in);
        plug->in_at = 0;
        plug->in_length = length > 0 ? (size_t)length : 0;
    }
    if (plug->in_at == plug->in_length)
        return 0;
    *byte = plug->in[plug->in_at++];
    return 1;
}

/* What is written goes out in pieces, but within a millisecond or so, however busy the other port is. */
int link_has_room(unsigned port)
{
    struct plug *plug = &plugs[port];
    if (plug->out_length > 0 && (plug->out_length == PIECE || board_clock() != plug->flushed))
        flush(plug);
    return plug->out_length < PIECE;
}

void link_write(unsigned port, uint8_t byte)
{
    plugs[port].out[plugs[port].out_length++] = byte;
}

/* A reply that the host has not read waits at the host's end. A pseudo-terminal has no reset that its host could see:
 * here the host sees no more than that no reply comes. */
void link_reset(unsigned port)
{
    struct plug *plug = &plugs[port];
    if (tcflush(plug->file, TCIOFLUSH) != 0 || tcflush(plug->host, TCIOFLUSH) != 0)
        die("a link cannot be reset");
    plug->in_at = plug->in_length = plug->out_length = 0;
}

/* ---- the keys ---- */

enum { PENDING = 256, BOUNCE = 3, CLOSED = 12, RELEASED = 24 };

/* Codes still to be typed; the first is under way since so many scans. Counted so, no key is lost on a computer that is
 * busy with something else. */
static uint8_t pending[PENDING];
static unsigned pending_length, scans;

/* Whether the first key's switch is closed just now: for a while after each change it is both. */
static int is_closed(void)
{
    if (pending_length == 0 || scans >= CLOSED + BOUNCE)
        return 0;
    return scans < BOUNCE || scans >= CLOSED ? scans % 2 == 0 : 1;
}

static void type(uint8_t code)
{
    if (pending_length == PENDING) {
        fprintf(stderr, "board: %d keys are still to be pressed: key %02X is not\n", PENDING, code);
        return;
    }
    if (pending_length == 0)
        scans = 0;
    pending[pending_length++] = code;
}

static void type_on(void)
{
    if (pending_length == 0 || ++scans < RELEASED)
        return;
    memmove(pending, pending + 1, --pending_length);
    scans = 0;
}

static void read_lines(void);

/* The keys are typed at standard input: so a scan looks there too. */
uint8_t matrix_row(unsigned row)
{
    struct pollfd input = {STDIN_FILENO, POLLIN, 0};
    uint8_t key;
    if (row == 0) {
        if (poll(&input, 1, 0) > 0)
            read_lines();
        type_on();
    }
    key = pending[0] % 64;
    return is_closed() && key / 8 == row ? (uint8_t)(1 << key % 8) : 0;
}

uint8_t matrix_modifiers(void)
{
    uint8_t with = pending_length > 0 ? pending[0] / 64 : 0;
    return (uint8_t)(((with & 1) != 0 ? MATRIX_SHIFT : 0) | ((with & 2) != 0 ? MATRIX_CONTROL : 0));
}

/* ---- what is typed here ---- */

static void show(void)
{
    unsigned used = board.state[FIXLOMAND_USED] + 256u * board.state[FIXLOMAND_USED + 1];
    for (unsigned row = 0; row < FIXLOMAND_ROWS(0); row++) {
        printf("screen: ");
        for (unsigned column = 0; column < FIXLOMAND_COLUMNS(0); column++) {
            uint8_t c = board.screen[FIXLOMAND_COLUMNS(0) * row + column] & 0x7F;
            putchar(c >= 0x20 && c < 0x7F ? c : '.');
        }
        putchar('\n');
    }
    printf("paper: ");
    for (unsigned i = 0; i < used; i++) {
        uint8_t c = board.paper[i];
        putchar(c == FIXLOMAND_EOL ? '/' : c >= 0x20 && c < 0x7F ? c : '.');
    }
    printf("\nshown\n");
    fflush(stdout);
}

enum { LINE = 1024 };

/* Presses the keys of a line of codes; 0 if it is none. */
static int type_codes(const char *line)
{
    uint8_t codes[LINE / 2];
    unsigned length = 0;
    while (*line != 0) {
        char *end;
        unsigned long code = strtoul(line, &end, 16);
        if (end == line || (*end != 0 && *end != ' ') || code > 255)
            return 0;
        codes[length++] = (uint8_t)code;
        line = end + strspn(end, " ");
    }
    for (unsigned i = 0; i < length; i++)
        type(codes[i]);
    return length > 0;
}

static void obey(const char *line)
{
    if (strcmp(line, "show") == 0)
        show();
    else if (strcmp(line, "damage") == 0)
        board.state[FIXLOMAND_MODE] = 1;
    else if (!type_codes(line))
        fprintf(stderr, "board: show, damage or codes of keys, not '%s'\n", line);
}

static void read_lines(void)
{
    static char line[LINE];
    static size_t length;
    char some[80];
    ssize_t got = read(STDIN_FILENO, some, sizeof some);
    if (got <= 0)
        exit(0);
    for (ssize_t i = 0; i < got; i++)
        if (some[i] == '\n') {
            line[length] = 0;
            length = 0;
            obey(line);
        } else if (length + 1 < sizeof line) {
            line[length++] = some[i];
        }
}

/* The names are told when the stick is ready: what a host sends before the links' first reset is lost. */
static void tell_names(void)
{
    static int told;
    if (told)
        return;
    told = 1;
    printf("laptop: %s\n", ptsname(plugs[0].file));
    printf("phone: %s\n", ptsname(plugs[1].file));
    fprintf(stderr, "board: type codes of keys in hexadecimal (3F is A), show or damage; it ends with its input\n");
    fflush(stdout);
}

void board_idle(void)
{
    struct pollfd files[1 + PORTS] = {{STDIN_FILENO, POLLIN, 0}};
    for (unsigned port = 0; port < PORTS; port++) {
        flush(&plugs[port]);
        files[1 + port].fd = plugs[port].file;
        /* a byte that waits for the core would end the sleep at once, again and again */
        files[1 + port].events = plugs[port].in_at == plugs[port].in_length ? POLLIN : 0;
    }
    tell_names();
    if (poll(files, 1 + PORTS, 1) > 0 && (files[0].revents & (POLLIN | POLLHUP)) != 0)
        read_lines();
}
