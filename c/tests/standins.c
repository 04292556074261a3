/*
 * heap.c and system.c, which stand in on 64-bit ARM for functions of the kit, beside what the kit's src/heap.rt and src/c.rt say of them.
 * They are compiled with this test, on each machine. It calls itself with the words that rattle_arg must return. Link with
 * -Wl,--wrap=malloc,--wrap=realloc,--wrap=free.
 */
#include "tests.h"
#include <errno.h>
#include <stdlib.h>
#include <unistd.h>

typedef struct tried {
    bool ok;
    void *p;
} tried;

extern tried rattle_alloc(size_t size, size_t align);
extern tried rattle_realloc(void *at, size_t kept, size_t size, size_t align);
extern void rattle_dealloc(void *at);
extern int32_t rattle_errno(void);
extern void rattle_set_errno(int32_t error);
extern size_t rattle_arg_count(void);
extern ptrdiff_t rattle_arg(size_t number, uint8_t *buffer, size_t room);

tally tests;

void *__real_malloc(size_t size);
void *__real_realloc(void *at, size_t size);
void __real_free(void *at);
void *__wrap_malloc(size_t size);
void *__wrap_realloc(void *at, size_t size);
void __wrap_free(void *at);

static bool fails;          /* whether the next allocation fails */
static size_t asked;        /* the bytes that were asked for last */
static unsigned long freed; /* how many blocks were freed */

void *__wrap_malloc(size_t size) {
    asked = size;
    return fails ? NULL : __real_malloc(size);
}

void *__wrap_realloc(void *at, size_t size) {
    asked = size;
    return fails ? NULL : __real_realloc(at, size);
}

void __wrap_free(void *at) {
    freed++;
    __real_free(at);
}

/* A block for each size and alignment: aligned, written to its end, and never null; none for memory that is not there. */
static void allocates(void) {
    static const size_t sizes[] = {0, 1, 7, 16, 4096, 1 << 20};
    for (size_t place = 0; place < sizeof sizes / sizeof *sizes; place++)
        for (size_t align = 1; align <= 16; align *= 2) {
            tried got = rattle_alloc(sizes[place], align);
            IS(true, got.ok);
            IS(true, got.p != NULL);
            IS(0, (uintptr_t)got.p % align);
            IS(sizes[place] == 0 ? align : sizes[place], asked);
            memset(got.p, PAINT, sizes[place]);
            rattle_dealloc(got.p);
        }
    IS(30, freed);
    fails = true;
    tried none = rattle_alloc(8, 8);
    IS(false, none.ok);
    IS(true, none.p != NULL);
    fails = false;
}

/* The 100 bytes are 1, 2, 3 and so on. */
static void are_kept(const unsigned char *bytes) {
    for (int place = 0; place < 100; place++) IS(place + 1, bytes[place]);
}

/* A block that grows and shrinks keeps its bytes, and one that cannot grow stays as it was. */
static void reallocates(void) {
    unsigned char *at = rattle_alloc(100, 8).p;
    for (int place = 0; place < 100; place++) at[place] = (unsigned char)(place + 1);
    tried grown = rattle_realloc(at, 100, 100000, 8);
    IS(true, grown.ok);
    IS(100000, asked);
    are_kept(grown.p);
    fails = true;
    tried none = rattle_realloc(grown.p, 100, 200000, 8);
    IS(false, none.ok);
    IS(true, none.p != NULL);
    fails = false;
    are_kept(grown.p);
    tried least = rattle_realloc(grown.p, 0, 0, 16);
    IS(true, least.ok);
    IS(true, least.p != NULL);
    IS(16, asked);
    freed = 0;
    rattle_dealloc(least.p);
    IS(1, freed);
}

static void errors(void) {
    rattle_set_errno(ENOENT);
    IS(ENOENT, errno);
    IS(ENOENT, rattle_errno());
    errno = 0;
    IS(0, rattle_errno());
}

/* The arguments are the name of the program, `ab`, an empty one, and one of three bytes that are no text. */
static void arguments(void) {
    uint8_t buffer[8];
    IS(4, rattle_arg_count());
    PAINTED(buffer);
    IS(2, rattle_arg(1, buffer, sizeof buffer));
    IS('a', buffer[0]);
    IS('b', buffer[1]);
    IS(PAINT, buffer[2]);
    PAINTED(buffer);
    IS(0, rattle_arg(2, buffer, sizeof buffer));
    IS_PAINTED(buffer);
    IS(0, rattle_arg(2, buffer, 0));
    IS(3, rattle_arg(3, buffer, 3));
    IS(0xff, buffer[0]);
    IS(0x80, buffer[1]);
    IS('!', buffer[2]);
    PAINTED(buffer);
    IS(-2, rattle_arg(3, buffer, 2));
    IS(0xff, buffer[0]);
    IS(0x80, buffer[1]);
    IS(PAINT, buffer[2]);
    IS(-2, rattle_arg(1, buffer, 0));
    PAINTED(buffer);
    IS(-1, rattle_arg(4, buffer, sizeof buffer));
    IS(-1, rattle_arg(SIZE_MAX, buffer, sizeof buffer));
    IS_PAINTED(buffer);
}

int main(int argc, char **argv) {
    if (argc == 1) {
        execl("/proc/self/exe", argv[0], "ab", "", "\xff\x80!", (char *)NULL);
        return 1;
    }
    allocates();
    reallocates();
    errors();
    arguments();
    return ends("standins");
}
