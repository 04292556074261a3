/* Tries the heap of the module natively: a hundred thousand random calls, with the bytes of each block written and read back. Memory
 * has 16 MiB here, of which the heap may use all but the last, and sizes that no memory has are refused. */
#include <stdio.h>
#include <stdlib.h>
#include <string.h>

static unsigned char arena[1u << 24] __attribute__((aligned(65536)));
static unsigned long long pages = 1;
#define __heap_base arena
#define __asm__(words)
#define __builtin_wasm_memory_size(n) (((unsigned long long)arena >> 16) + pages)
#define __builtin_wasm_memory_grow(n, more) (pages + (more) > (sizeof arena >> 16) ? -1 : (pages += (more), 0))
#define MOST_MEMORY ((unsigned long long)arena + sizeof arena - (1u << 20))
#include "heap_under_test.c"

enum { BLOCKS = 3000 };
static struct { unsigned char *at; unsigned long long size; unsigned char mark; } blocks[BLOCKS];

static void fail(const char *why) { printf("FAILED: %s\n", why); exit(1); }

static void check(int i) {
    for (unsigned long long k = 0; k < blocks[i].size; k++)
        if (blocks[i].at[k] != (unsigned char)(blocks[i].mark + k)) fail("a byte changed");
}

static void fill(int i) {
    blocks[i].mark = rand();
    for (unsigned long long k = 0; k < blocks[i].size; k++) blocks[i].at[k] = blocks[i].mark + k;
}

static void inside(unsigned long long p, unsigned long long size) {
    if (p % 16) fail("alignment");
    if ((unsigned char *)p < arena || (unsigned char *)p + size > arena + (pages << 16)) fail("outside");
    if (p + size > MOST_MEMORY) fail("above the most memory");
}

/* The last block of the heap grows and shrinks in place, and the next block lies behind it. */
static void last_block(void) {
    for (u64 size = 10; size < 100000; size = size * 3 / 2) {
        Tried grown = rattle_realloc(rattle_alloc(10, 1).p, 10, size, 1);
        Tried next = rattle_alloc(50, 1);
        memset((void *)grown.p, 1, size);
        memset((void *)next.p, 2, 50);
        for (u64 k = 0; k < size; k++) if (((unsigned char *)grown.p)[k] != 1) fail("a block beside the last one");
        rattle_dealloc(next.p);
        Tried least = rattle_realloc(grown.p, 5, 5, 1);
        if (!least.ok || *(unsigned char *)least.p != 1) fail("a block that shrinks");
        rattle_dealloc(least.p);
    }
}

/* The classes: each has room for a block of its size with its head, and the class before has not. */
static void classes(void) {
    for (u64 bytes = 1; bytes < 100000; bytes++) {
        u64 class = class_of(bytes);
        if (size_of(class) < bytes || (class > 0 && size_of(class - 1) >= bytes)) fail("the class of a size");
        if (bytes > 64 && size_of(class) > bytes + bytes / 4 + 16) fail("a block wastes more than a quarter");
    }
    for (int shift = 20; shift < 61; shift++)
        for (int more = -1; more < 2; more++) {
            u64 bytes = ((u64)1 << shift) + more;
            if (size_of(class_of(bytes)) < bytes || size_of(class_of(bytes) - 1) >= bytes) fail("the class of a great size");
        }
}

static void refusals(void) {
    u64 sizes[] = {sizeof arena, (u64)1 << 32, ((u64)1 << 40) + 1, (u64)1 << 62, (u64)1 << 63, (u64)3 << 62, ~(u64)0, ~(u64)0 - 15};
    for (int i = 0; i < 8; i++) {
        if (rattle_alloc(sizes[i], 1).ok || rattle_alloc(sizes[i], 1).p == 0) fail("a size that no memory has is refused");
        if (edfvd_web_take(sizes[i]) != 0) fail("the page is refused a size that no memory has");
        Tried kept = rattle_alloc(10, 1);
        memset((void *)kept.p, 7, 10);
        if (rattle_realloc(kept.p, 10, sizes[i], 1).ok) fail("a block does not grow to a size that no memory has");
        for (int k = 0; k < 10; k++) if (((unsigned char *)kept.p)[k] != 7) fail("a refused growth leaves the block");
        rattle_dealloc(kept.p);
    }
}

int main(void) {
    srand(7);
    long refused = 0;
    classes();
    refusals();
    last_block();
    for (long turn = 0; turn < 100000; turn++) {
        int i = rand() % BLOCKS;
        unsigned long long size = rand() % 100 < 90 ? rand() % 300 : rand() % 100 < 95 ? rand() % 20000 : rand() % 3000000;
        if (!blocks[i].at) {
            Tried t = rattle_alloc(size, 16);
            if (!t.ok) { refused++; continue; }
            inside(t.p, size);
            blocks[i].at = (unsigned char *)t.p; blocks[i].size = size; fill(i);
        } else if (rand() % 3) {
            check(i);
            unsigned long long kept = size < blocks[i].size ? size : blocks[i].size;
            Tried t = rattle_realloc((unsigned long long)blocks[i].at, kept, size, 16);
            if (!t.ok) { refused++; check(i); continue; }
            inside(t.p, size);
            blocks[i].at = (unsigned char *)t.p; blocks[i].size = kept; check(i); blocks[i].size = size; fill(i);
        } else { check(i); rattle_dealloc((unsigned long long)blocks[i].at); blocks[i].at = 0; }
    }
    for (int i = 0; i < BLOCKS; i++) if (blocks[i].at) { check(i); rattle_dealloc((unsigned long long)blocks[i].at); }
    if (refused == 0) fail("no call was refused, so this test does not try what follows");
    printf("heap: 100000 calls, %ld refused, %llu pages\n", refused, pages);
    return 0;
}
