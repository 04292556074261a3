/*
 * Random calls of edfvd.h by a seed, compared with what the definitions say. It ends with the first case that differs, and names
 * its seed and number: with these two words it makes that case alone.
 *
 * usage: fuzz SEED CASES [FIRST]
 *        FIRST is the number of the first case, 0 without it
 */
#define _GNU_SOURCE
#include "fuzz.h"
#include <stdlib.h>
#include <sys/mman.h>

tally tests;

static uint64_t state;

/* SplitMix64 (G. Steele, D. Lea, C. Flood, Fast Splittable Pseudorandom Number Generators, OOPSLA 2014). */
static uint64_t next_random(void) {
    uint64_t mixed = state += UINT64_C(0x9e3779b97f4a7c15);
    mixed = (mixed ^ mixed >> 30) * UINT64_C(0xbf58476d1ce4e5b9);
    mixed = (mixed ^ mixed >> 27) * UINT64_C(0x94d049bb133111eb);
    return mixed ^ mixed >> 31;
}

uint64_t below(uint64_t limit) { return next_random() % limit; }

uint32_t wild32(void) {
    static const uint32_t ends[] = {0, 1, 2, 127, 128, 129, INT32_MAX, UINT32_C(1) << 31, UINT32_MAX - 1, UINT32_MAX};
    return one_in(2) ? ends[below(sizeof ends / sizeof *ends)] : (uint32_t)next_random();
}

uint64_t wild64(void) {
    static const uint64_t ends[] = {0,
                                    1,
                                    UINT32_MAX,
                                    UINT64_C(1) << 32,
                                    UINT64_C(1) << 60,
                                    (UINT64_C(1) << 60) + 1,
                                    UINT64_C(1) << 62,
                                    UINT64_C(1) << 63,
                                    UINT64_MAX - 1,
                                    UINT64_MAX};
    return one_in(2) ? ends[below(sizeof ends / sizeof *ends)] : next_random();
}

void *at_edge(size_t bytes, int slot) {
    enum { PAGE = 4096, REGION = 64 * PAGE };
    static unsigned char *regions[SLOTS];
    if (regions[slot] == NULL) {
        void *region = mmap(NULL, REGION + PAGE, PROT_READ | PROT_WRITE, MAP_PRIVATE | MAP_ANONYMOUS, -1, 0);
        if (region == MAP_FAILED || mprotect((unsigned char *)region + REGION, PAGE, PROT_NONE) != 0) abort();
        regions[slot] = region;
    }
    if (bytes > REGION) abort();
    return memset(regions[slot] + REGION - bytes, PAINT, bytes);
}

bool is_painted(const void *bytes, size_t size) {
    const unsigned char *at = bytes;
    for (size_t place = 0; place < size; place++)
        if (at[place] != PAINT) return false;
    return true;
}

size_t likely_set(edfvd_task *tasks, size_t most) {
    static const uint32_t periods[] = {1, 2, 3, 4, 5, 6, 8, 10, 12, 15, 16, 20, 24, 30};
    size_t count = 1 + below(most);
    for (size_t place = 0; place < count; place++) {
        uint32_t period = periods[below(sizeof periods / sizeof *periods)];
        uint32_t low = 1 + (uint32_t)below(period / (uint32_t)count + 1), high = low + (uint32_t)below(period / 2 + 1);
        bool is_low = one_in(2);
        tasks[place] = (edfvd_task){is_low ? EDFVD_LOW : EDFVD_HIGH, period, low, is_low ? low : high};
    }
    return count;
}

const edfvd_task *given(const edfvd_task *tasks, size_t count) {
    if (count == 0 && one_in(2)) return NULL;
    return memcpy(at_edge(count * sizeof *tasks, 0), tasks, count * sizeof *tasks);
}

int main(int argc, char **argv) {
    static void (*const parts[])(void) = {try_sets, try_events, try_rows, try_words};
    if (argc < 3 || argc > 4) return fputs("usage: fuzz SEED CASES [FIRST]\n", stderr), 2;
    uint64_t seed = strtoull(argv[1], NULL, 10), cases = strtoull(argv[2], NULL, 10);
    uint64_t first = argc > 3 ? strtoull(argv[3], NULL, 10) : 0;
    for (uint64_t number = first; number < first + cases; number++) {
        state = seed * UINT64_C(0xd1342543de82ef95) + number;
        parts[number % 4]();
        if (tests.failed == 0) continue;
        printf("fuzz: case %" PRIu64 " of seed %" PRIu64 " differs; fuzz %" PRIu64 " 1 %" PRIu64 " makes it again\n", number,
               seed, seed, number);
        return 1;
    }
    return ends("fuzz");
}
