/*
 * What each call needs besides time: the stack that it uses at most, which is painted before the call and looked at after it, and the
 * memory that it takes. The calls of a schedule are those of drive.h. Link with -Wl,--wrap=malloc,--wrap=realloc,--wrap=free.
 * usage: needs TASKS TICKS
 *        TASKS is 8 or 128; a line for each call: its name, how often it was made, bytes of stack, how many of these calls took memory, how
 *        many allocations one of them made at most, and the bytes that it took and did not give back
 */
#include <stdbool.h>
#include <stdint.h>
#include <stdlib.h>

typedef struct use {
    const char *name;
    unsigned long calls, stack, takers, most;
    long kept;
} use;

enum { BELOW = 64 * 1024, MOST_CALLS = 40 };
static const uint64_t paint = 0xa5a5a5a5a5a5a5a5u;
static use uses[MOST_CALLS];
static unsigned long allocations; /* of the call that is measured */
static long held;                 /* bytes that malloc was asked for and that are not free */

#ifdef __aarch64__
#define STACK_POINTER(to) __asm__ volatile("mov %0, sp" : "=r"(to))
#else
#define STACK_POINTER(to) __asm__ volatile("mov %%rsp, %0" : "=r"(to))
#endif

/* Measures a call. What is below the stack pointer belongs to nobody until the call. */
#define MEASURE(use_, call)                                                                         \
    do {                                                                                            \
        use *of_ = (use_);                                                                          \
        volatile uint64_t *top_, *at_;                                                              \
        long held_ = held;                                                                          \
        STACK_POINTER(top_);                                                                        \
        for (at_ = top_ - BELOW / 8; at_ < top_; at_++) *at_ = paint;                               \
        allocations = 0;                                                                            \
        call;                                                                                       \
        for (at_ = top_ - BELOW / 8; at_ < top_ && *at_ == paint; at_++) continue;                  \
        note(of_, (unsigned long)((uintptr_t)top_ - (uintptr_t)at_), held - held_);                 \
    } while (0)

static void note(use *of, unsigned long stack, long kept) {
    of->calls++;
    if (stack > of->stack) of->stack = stack;
    of->takers += allocations != 0;
    if (allocations > of->most) of->most = allocations;
    if (kept > of->kept) of->kept = kept;
}

static use *named(const char *name) {
    size_t place = 0;
    while (uses[place].name != NULL && uses[place].name != name) place++;
    uses[place].name = name;
    return &uses[place];
}

#define CALL(kind, call) MEASURE(named(kinds[kind]), call)
#include "drive.h"

void *__real_malloc(size_t size);
void *__real_realloc(void *at, size_t size);
void __real_free(void *at);
void *__wrap_malloc(size_t size);
void *__wrap_realloc(void *at, size_t size);
void __wrap_free(void *at);

/* Each block has its size in the 16 bytes before it. */
static void *sized(size_t *at, size_t size) {
    if (at == NULL) exit(1);
    allocations++;
    held += (long)size;
    *at = size;
    return at + 2;
}

static size_t *begin_of(void *at) {
    size_t *begin = (size_t *)at - 2;
    held -= (long)*begin;
    return begin;
}

void *__wrap_malloc(size_t size) { return sized(__real_malloc(size + 16), size); }

void *__wrap_realloc(void *at, size_t size) {
    return at == NULL ? __wrap_malloc(size) : sized(__real_realloc(begin_of(at), size + 16), size);
}

void __wrap_free(void *at) {
    if (at != NULL) __real_free(begin_of(at));
}

#define ONE(name, call) MEASURE(named(name), must(name, call))

/* The calls with a set and nothing else. */
static void with_sets(void) {
    static edfvd_test test;
    static edfvd_budgets budgets[128];
    static edfvd_scale_range scales;
    static edfvd_demand_task demands[128];
    static edfvd_demand_test demand;
    static uint32_t percent, on[128], counts[11];
    static uint64_t millionths;
    ONE("check", edfvd_check(tasks, count, &test));
    ONE("stretch", edfvd_stretch(tasks, count, &percent, NULL));
    ONE("sensitivity", edfvd_sensitivity(tasks, count, budgets, NULL));
    ONE("scales", edfvd_scales(tasks, count, &scales, NULL));
    ONE("speed", edfvd_speed(tasks, count, &millionths, NULL));
    ONE("partition", edfvd_partition(tasks, count, 4, on, NULL));
    for (size_t place = 0; place < count; place++)
        demands[place] = (edfvd_demand_task){tasks[place].period, tasks[place].period, tasks[place].low};
    ONE("demand", edfvd_demand(demands, count, &demand));
    ONE("accept", edfvd_accept(1, 10, 8, counts));
}

/* A scheduler of 1,000 rows, and the judge on rows of a schedule that was driven before. */
static void with_rows(void) {
    enum { MOST = 256 };
    static edfvd_row rows[MOST];
    static edfvd_scheduler plain;
    static edfvd_verdict verdict;
    for (size_t place = 0; place < MOST; place++) rows[place] = (edfvd_row){EDFVD_IDLE, 0, 0};
    ONE("judge of 256 rows", edfvd_judge(tasks, count, rows, MOST, 0, 0, &verdict));
    ONE("scheduler_open of 1,000 rows", edfvd_scheduler_open(&plain, tasks, count, 1000, NULL));
    must("close", edfvd_scheduler_close(&plain));
}

/* A monitor that finds a late job: two tasks with all of the processor each, under a scale that does not hold for them. */
static void with_late_job(void) {
    static const edfvd_task two[] = {{EDFVD_LOW, 2, 2, 2}, {EDFVD_LOW, 2, 2, 2}};
    static const edfvd_row rows[] = {{EDFVD_KEPT, 1, 1}, {EDFVD_KEPT, 2, 1}, {EDFVD_MORE, 1, 1}, {EDFVD_DONE, 1, 1}};
    edfvd_late late[2];
    uint64_t number = 0;
    reset();
    must("monitor_open", edfvd_monitor_open(&monitor, two, 2, 1, 1, NULL));
    for (size_t place = 0; place < 4; place++) must("observe", edfvd_monitor_observe(&monitor, &rows[place], 1, NULL));
    ONE("monitor_late of a late job", edfvd_monitor_late(&monitor, 0, late, 2, &number));
    if (number != 1 || late[0].task != 2) must("late", EDFVD_ARGUMENT);
    must("monitor_close", edfvd_monitor_close(&monitor));
}

int main(int argc, char **argv) {
    uint32_t ticks = argc == 3 ? number_in(argv[2]) : 0;
    if (ticks == 0) return 2;
    long before = held; /* what the C library took as the program began */
    set_tasks(number_in(argv[1]));
    with_sets();
    with_rows();
    for (int in_bursts = 0; in_bursts < 2; in_bursts++) {
        edfvd_verdict verdict;
        edfvd_watch watch;
        reset();
        ONE("scheduler_open_endless", edfvd_scheduler_open_endless(&scheduler, tasks, count, NULL));
        ONE("monitor_open", edfvd_monitor_open(&monitor, tasks, count, 0, 0, NULL));
        for (uint32_t number = 0; number < ticks; number++) tick(in_bursts);
        ONE("monitor_verdict", edfvd_monitor_verdict(&monitor, &verdict));
        ONE("monitor_look", edfvd_monitor_look(&monitor, &watch));
        ONE("monitor_close", edfvd_monitor_close(&monitor));
        ONE("scheduler_close", edfvd_scheduler_close(&scheduler));
    }
    with_late_job();
    if (held != before) return 1;
    for (const use *of = uses; of->name != NULL; of++)
        printf("%s|%lu|%lu|%lu|%lu|%ld\n", of->name, of->calls, of->stack, of->takers, of->most, of->kept);
    return 0;
}
