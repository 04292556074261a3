/*
 * What the program edfvd needs from the system on 64-bit ARM besides heap.c: the functions of C that it reaches in the kit's crate os,
 * as its src/c.rt declares them. The kit has them compiled for x86-64 alone.
 */
#include <errno.h>
#include <stddef.h>
#include <stdint.h>

static size_t count;
static char **words;

/* glibc passes the arguments of main to each function of .init_array. */
static void keep(int given, char **arguments, char **environment) {
    (void)environment;
    count = given < 0 ? 0 : (size_t)given;
    words = arguments;
}

__attribute__((section(".init_array"), used)) static void (*const keeps)(int, char **, char **) = keep;

extern int32_t rattle_errno(void);
extern void rattle_set_errno(int32_t error);
extern size_t rattle_arg_count(void);
extern ptrdiff_t rattle_arg(size_t number, uint8_t *buffer, size_t room);

int32_t rattle_errno(void) { return errno; }

void rattle_set_errno(int32_t error) { errno = error; }

/* How many arguments there are, with the name of the program. */
size_t rattle_arg_count(void) { return count; }

/* The length of an argument, which is stored at the start of the buffer. -1 if there is none of this number; -2 if it does not fit, and
   then the buffer is full. */
ptrdiff_t rattle_arg(size_t number, uint8_t *buffer, size_t room) {
    if (number >= count || words[number] == NULL) return -1;
    size_t length = 0;
    for (; words[number][length] != 0; length++) {
        if (length == room) return -2;
        buffer[length] = (uint8_t)words[number][length];
    }
    return (ptrdiff_t)length;
}
