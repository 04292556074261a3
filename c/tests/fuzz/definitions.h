/*
 * What the calls of edfvd.h must store, computed from the definitions that docs/RULES.md states, and from nothing of the library.
 * It is written to be compared with that page, and not to be fast: a percentage is found by trying all of them, and a demand by
 * adding it up for each length of time.
 */
#ifndef FUZZ_DEFINITIONS_H
#define FUZZ_DEFINITIONS_H

#include "edfvd.h"

__extension__ typedef unsigned __int128 wide;

/* The loads of a set over its hyperperiod. */
typedef struct loads {
    uint64_t lcm;
    wide low_low, high_low, high_high;
} loads;

/* The rule of a set: 0 for none, 1 plain EDF, 2 EDF-VD with the scale p/q. */
typedef struct rule {
    uint32_t number;
    uint64_t p, q;
} rule;

uint64_t greatest_common_divisor(uint64_t a, uint64_t b);

/* The first task with whose period the hyperperiod exceeds the limit, or 0; otherwise lcm gets the hyperperiod. */
uint32_t beyond(const edfvd_task *tasks, size_t count, uint64_t limit, uint64_t *lcm);

/* Whether the refusal of a set with this task is one that the tasks deserve: EDFVD_OK if they are a set. */
bool is_refusal(const edfvd_task *tasks, size_t count, edfvd_status status, uint32_t task);

loads loads_of(const edfvd_task *tasks, size_t count, uint64_t lcm);

rule published(const loads *of);

/* The stretch of a set within the range, or -1 if it has none. */
int stretch_of(const edfvd_task *tasks, size_t count, uint64_t lcm);

/* Puts each task on the first processor on which it fits; 0, or the first task that fits on none. */
uint32_t first_fit(const edfvd_task *tasks, size_t count, uint32_t processors, uint32_t *on);

/* The table of the random sets from `number` on. */
void accept_table(uint64_t number, uint32_t sets, uint32_t tasks, uint32_t counts[11]);

/* The result of the processor-demand test, with its status. */
edfvd_status demand_of(const edfvd_demand_task *tasks, size_t count, edfvd_demand_test *test);

#endif
