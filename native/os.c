/* What a program takes of the kit's C library for x86-64, for another processor: its arguments, and errno. */
#include <errno.h>
#include <stddef.h>
#include <string.h>
#include <sys/types.h>

static size_t count;
static char **words;

/* The C library hands the arguments to each function that runs before main. */
__attribute__((constructor)) static void keep(int argc, char **argv) {
    count = (size_t)argc;
    words = argv;
}

int rattle_errno(void) { return errno; }

void rattle_set_errno(int error) { errno = error; }

size_t rattle_arg_count(void) { return count; }

/* The argument's length, -1 if there is none, or -2 if it does not fit, and then the buffer is full. */
ssize_t rattle_arg(size_t i, unsigned char *buf, size_t room) {
    if (i >= count) return -1;
    size_t n = strlen(words[i]);
    memcpy(buf, words[i], n < room ? n : room);
    return n <= room ? (ssize_t)n : -2;
}
