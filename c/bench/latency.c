/*
 * How long each call takes on x86-64: the median, and the worst one. The schedule is repeated, and of each call the shortest time counts,
 * since the others have interrupts in them; the time of an empty measurement is taken off.
 * usage: latency TASKS TICKS REPEATS
 *        TASKS is 8 or 128; a line for each kind of call: median and worst with jobs spread out, and in bursts, in nanoseconds
 */
#define _GNU_SOURCE
#include <stdint.h>
#include <time.h>
#include <x86intrin.h>

static uint32_t *cost; /* of each call in the order of the schedule */
static uint8_t *kind_of;
static size_t at, most;

static inline uint64_t begin(void) {
    _mm_lfence();
    uint64_t cycles = __rdtsc();
    _mm_lfence();
    return cycles;
}

static inline uint64_t end(void) {
    unsigned processor;
    uint64_t cycles = __rdtscp(&processor);
    _mm_lfence();
    return cycles;
}

static void note(int kind, uint64_t took) {
    if (at == most) return;
    kind_of[at] = (uint8_t)kind;
    if (took < cost[at]) cost[at] = (uint32_t)took;
    at++;
}

#define CALL(kind, call)                 \
    do {                                 \
        uint64_t begun_ = begin();       \
        call;                            \
        note(kind, end() - begun_);      \
    } while (0)
#include "drive.h"

static int order(const void *a, const void *b) {
    uint32_t x = *(const uint32_t *)a, y = *(const uint32_t *)b;
    return (x > y) - (x < y);
}

static double nanoseconds(void) {
    struct timespec time;
    clock_gettime(CLOCK_MONOTONIC, &time);
    return (double)time.tv_sec * 1e9 + (double)time.tv_nsec;
}

/* The cycles of an empty measurement: the median. */
static uint32_t empty(void) {
    enum { MANY = 100001 };
    static uint32_t cycles[MANY];
    for (size_t place = 0; place < MANY; place++) {
        uint64_t begun = begin();
        cycles[place] = (uint32_t)(end() - begun);
    }
    qsort(cycles, MANY, sizeof *cycles, order);
    return cycles[MANY / 2];
}

/* The median and the worst of a kind of call. */
static void find(int kind, uint32_t *of, uint32_t *median, uint32_t *worst) {
    size_t number = 0;
    for (size_t place = 0; place < at; place++)
        if (kind_of[place] == kind) of[number++] = cost[place];
    qsort(of, number, sizeof *of, order);
    *median = number == 0 ? 0 : of[number / 2];
    *worst = number == 0 ? 0 : of[number - 1];
}

int main(int argc, char **argv) {
    uint32_t ticks = argc == 4 ? number_in(argv[2]) : 0, repeats = argc == 4 ? number_in(argv[3]) : 0;
    if (ticks == 0 || repeats == 0) return 2;
    set_tasks(number_in(argv[1]));
    most = (size_t)ticks * 32;
    cost = malloc(most * sizeof *cost);
    kind_of = malloc(most);
    uint32_t *of = malloc(most * sizeof *of), none = empty(), found[KINDS][2][2];
    if (cost == NULL || kind_of == NULL || of == NULL) return 1;
    double began = nanoseconds();
    uint64_t first = begin();
    for (int in_bursts = 0; in_bursts < 2; in_bursts++) {
        memset(cost, 255, most * sizeof *cost);
        for (uint32_t left = repeats; left > 0; left--) {
            at = 0;
            open_all();
            for (uint32_t number = 0; number < ticks; number++) tick(in_bursts);
            close_all();
        }
        if (at == most) return 1;
        for (int kind = 0; kind < KINDS; kind++) find(kind, of, &found[kind][in_bursts][0], &found[kind][in_bursts][1]);
    }
    double of_cycle = (nanoseconds() - began) / (double)(end() - first);
    for (int kind = 0; kind < KINDS; kind++) {
        printf("%s", kinds[kind]);
        for (int place = 0; place < 4; place++) {
            uint32_t cycles = found[kind][place / 2][place % 2];
            printf(" %.0f", cycles > none ? (cycles - none) * of_cycle : 0.0);
        }
        printf("\n");
    }
    return 0;
}
