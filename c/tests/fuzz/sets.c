/* Random sets: the test, the stretch, first fit, the tables of random sets, and demands. */
#include "fuzz.h"

enum { MOST_TASKS = 130 };

static const uint64_t most_ticks = UINT64_C(1) << 60;

/* Makes some of the tasks wrong, or far out. */
static void spoil(edfvd_task *tasks, size_t count) {
    edfvd_task *task = &tasks[below(count)];
    switch (below(5)) {
    case 0: task->level = wild32(); break;
    case 1: task->period = wild32(); break;
    case 2: task->low = wild32(); break;
    case 3: task->high = wild32(); break;
    default: task->low = task->high = task->period = UINT32_MAX - (uint32_t)below(100); break;
    }
}

/* Any set: mostly a likely one, at times with spoilt tasks, and up to 130 tasks or none. */
static size_t any_set(edfvd_task *tasks) {
    size_t count = likely_set(tasks, one_in(10) ? MOST_TASKS : 6);
    if (one_in(30)) return 0;
    if (one_in(3))
        for (uint64_t times = 1 + below(2); times > 0; times--) spoil(tasks, count);
    return count;
}

/* Whether the status and task of a refusal are those of the tasks: as a set, and if they are one, of its hyperperiod. */
static bool is_refused_rightly(const edfvd_task *tasks, size_t count, edfvd_status status, uint32_t task, uint64_t *lcm) {
    if (!is_refusal(tasks, count, EDFVD_OK, 0)) return status != EDFVD_OK && is_refusal(tasks, count, status, task);
    uint32_t first = beyond(tasks, count, most_ticks, lcm);
    return first != 0 ? status == EDFVD_PERIODS && task == first : status != EDFVD_PERIODS && task == 0;
}

static void try_check(const edfvd_task *tasks, size_t count) {
    edfvd_test *test = at_edge(sizeof *test, 1);
    uint64_t lcm = 0;
    edfvd_status status = edfvd_check(given(tasks, count), count, test);
    IS(true, is_refused_rightly(tasks, count, status, test->task, &lcm));
    if (status != EDFVD_OK) {
        test->task = 0;
        IS_ZEROS(*test);
        return;
    }
    loads of = loads_of(tasks, count, lcm);
    rule by = published(&of);
    IS(by.number, test->rule);
    IS(by.p, test->p);
    IS(by.q, test->q);
    IS(lcm, test->lcm);
    IS(of.low_low >> 64, test->low_low_top);
    IS(of.low_low, test->low_low);
    IS(of.high_low >> 64, test->high_low_top);
    IS(of.high_low, test->high_low);
    IS(of.high_high >> 64, test->high_high_top);
    IS(of.high_high, test->high_high);
}

static void try_stretch(const edfvd_task *tasks, size_t count) {
    uint32_t *percent = at_edge(sizeof *percent, 1), *task = at_edge(sizeof *task, 2);
    uint64_t lcm = 0;
    edfvd_status status = edfvd_stretch(given(tasks, count), count, percent, task);
    IS(true, is_refused_rightly(tasks, count, status, *task, &lcm));
    int wanted = status == EDFVD_OK || status == EDFVD_NO_PERCENTAGE ? stretch_of(tasks, count, lcm) : -1;
    IS(wanted >= 0, status == EDFVD_OK);
    IS(wanted >= 0 ? wanted : 0, *percent);
    IS(status, edfvd_stretch(given(tasks, count), count, percent, NULL));
}

static void try_partition(const edfvd_task *tasks, size_t count) {
    uint32_t processors = one_in(8) ? wild32() : 1 + (uint32_t)below(4), wanted[MOST_TASKS];
    uint32_t *on = at_edge(count * sizeof *on, 1), *task = at_edge(sizeof *task, 2);
    bool is_range = processors >= 1 && processors <= 16;
    edfvd_status status = edfvd_partition(given(tasks, count), count, processors, count == 0 ? NULL : on, task);
    if (!is_range) {
        IS(EDFVD_ARGUMENT, status);
        IS(0, *task);
    } else if (!is_refusal(tasks, count, EDFVD_OK, 0)) {
        IS(true, status != EDFVD_OK && is_refusal(tasks, count, status, *task));
    } else {
        uint32_t first = first_fit(tasks, count, processors, wanted);
        IS(first == 0 ? EDFVD_OK : EDFVD_NO_PROCESSOR, status);
        IS(first, *task);
    }
    if (status == EDFVD_OK)
        IS(0, memcmp(wanted, on, count * sizeof *on));
    else
        IS(true, is_painted(on, count * sizeof *on));
}

static void try_accept(void) {
    uint64_t number = one_in(2) ? wild64() : below(1000000);
    uint32_t sets = one_in(3) ? wild32() : 1 + (uint32_t)below(3), tasks = one_in(3) ? wild32() : 2 + (uint32_t)below(31);
    uint32_t *counts = at_edge(11 * sizeof *counts, 1), wanted[11];
    bool is_range = sets >= 1 && sets <= 10000 && tasks >= 2 && tasks <= 32 && number <= UINT64_MAX - sets;
    if (is_range && sets > 3) sets = 1;
    edfvd_status status = edfvd_accept(number, sets, tasks, counts);
    IS(is_range ? EDFVD_OK : EDFVD_ARGUMENT, status);
    if (!is_range) {
        IS(true, is_painted(counts, 11 * sizeof *counts));
        return;
    }
    accept_table(number, sets, tasks, wanted);
    for (int step = 0; step < 11; step++) IS(wanted[step], counts[step]);
}

static void try_demand(void) {
    static const uint32_t periods[] = {1, 2, 3, 4, 5, 6, 8, 10, 12, 20, 30, 300};
    size_t count = one_in(20) ? below(MOST_TASKS) : 1 + below(5);
    edfvd_demand_task *tasks = at_edge(count * sizeof *tasks, 0);
    edfvd_demand_test *test = at_edge(sizeof *test, 1), wanted;
    for (size_t place = 0; place < count; place++) {
        uint32_t period = periods[below(sizeof periods / sizeof *periods)], deadline = 1 + (uint32_t)below(period);
        tasks[place] = (edfvd_demand_task){period, deadline, 1 + (uint32_t)below(deadline / 2 + 1)};
        if (!one_in(25)) continue;
        uint32_t *numbers[] = {&tasks[place].period, &tasks[place].deadline, &tasks[place].budget};
        *numbers[below(3)] = wild32();
    }
    edfvd_status status = edfvd_demand(count == 0 ? NULL : tasks, count, test);
    IS(demand_of(tasks, count, &wanted), status);
    if (status == EDFVD_TOO_MANY) wanted.task = 0;
    IS(wanted.past, test->past);
    IS(wanted.task, test->task);
    IS(status == EDFVD_OK ? wanted.length : 0, test->length);
    IS(wanted.demand, test->demand);
}

void try_sets(void) {
    edfvd_task tasks[MOST_TASKS];
    size_t count = any_set(tasks);
    switch (below(5)) {
    case 0: try_check(tasks, count); break;
    case 1: try_stretch(tasks, count); break;
    case 2: try_partition(tasks, count); break;
    case 3: try_accept(); break;
    default: try_demand(); break;
    }
}
