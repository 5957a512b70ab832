/* guards: the guard pages themselves. A byte read or written outside either end of a lent buffer must end a program, and
 * so must a write where it may only read: or the other tests would show nothing. */
#define _XOPEN_SOURCE 700 /* fork */
#include "fixlomand.h"
#include "guard.h"

#include <stdio.h>
#include <sys/wait.h>
#include <unistd.h>

static unsigned tries;

/* Touches a byte in a process of its own; whether that ended it as guard.c ends a test. */
static int ends(volatile uint8_t *byte, int write_it)
{
    pid_t child;
    int status;
    tries++;
    fflush(stdout);
    child = fork();
    if (child < 0)
        fail("guards: no process");
    if (child == 0) {
        if (freopen("/dev/null", "w", stderr) == NULL) /* its message is no message of this test */
            _exit(2);
        if (write_it)
            *byte = 1;
        else
            (void)*byte;
        _exit(0);
    }
    return waitpid(child, &status, 0) == child && WIFEXITED(status) && WEXITSTATUS(status) == 1;
}

static void try_buffer(const char *name, size_t length)
{
    uint8_t *left = guarded(name, length, LEFT), *right = guarded(name, length, RIGHT);
    uint8_t *both = shared(name, length, RIGHT), *view = view_of_shared(0, 0);
    for (int write_it = 0; write_it < 2; write_it++) {
        if (!ends(left - 1, write_it))
            fail("guards: the byte before %s could be touched", name);
        if (!ends(right + length, write_it))
            fail("guards: the byte behind %s could be touched", name);
        if (ends(left, write_it) || ends(left + length - 1, write_it) || ends(right, write_it) ||
            ends(right + length - 1, write_it) || ends(both, write_it))
            fail("guards: a byte of %s could not be touched", name);
    }
    if (!ends(view, 1) || !ends(view + length - 1, 1))
        fail("guards: %s could be written where it may only be read", name);
    both[length / 2] = 7;
    if (ends(view, 0) || view[length / 2] != 7)
        fail("guards: %s cannot be read", name);
    guards_free();
}

int main(void)
{
    guard_watch();
    try_buffer("state", FIXLOMAND_STATE_LEN);
    try_buffer("area", FIXLOMAND_AREA_LEN);
    try_buffer("screen", FIXLOMAND_SCREEN_LEN);
    try_buffer("paper", FIXLOMAND_PAPER_LEN);
    try_buffer("tape", FIXLOMAND_TAPE_LEN);
    try_buffer("images", FIXLOMAND_IMAGES_LEN);
    try_buffer("image", FIXLOMAND_IMAGE_LEN);
    try_buffer("list", FIXLOMAND_LIST_LEN);
    printf("guards: %u bytes touched, inside and outside of lent buffers; each outside one ended its program\n", tries);
    return 0;
}
