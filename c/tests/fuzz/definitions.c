#include "definitions.h"
#include <string.h>

enum { MOST_TASKS = 128, MOST_PERCENT = 1000, MOST_DEMAND = 500000 };

static const uint64_t most_ticks = UINT64_C(1) << 60;

uint64_t greatest_common_divisor(uint64_t a, uint64_t b) {
    while (b != 0) {
        uint64_t rest = a % b;
        a = b;
        b = rest;
    }
    return a;
}

uint32_t beyond(const edfvd_task *tasks, size_t count, uint64_t limit, uint64_t *lcm) {
    *lcm = 1;
    for (size_t place = 0; place < count; place++) {
        uint64_t period = tasks[place].period;
        wide next = (wide)*lcm / greatest_common_divisor(*lcm, period) * period;
        if (next > limit) return (uint32_t)place + 1;
        *lcm = (uint64_t)next;
    }
    return 0;
}

/* Whether this refusal may be about the task alone. */
static bool is_fault(const edfvd_task *task, edfvd_status status) {
    bool is_low = task->level == EDFVD_LOW;
    switch (status) {
    case EDFVD_LEVEL: return task->level != EDFVD_LOW && task->level != EDFVD_HIGH;
    case EDFVD_ZERO_NUMBER: return task->period == 0 || task->low == 0 || task->high == 0;
    case EDFVD_BUDGET_ORDER: return task->low > task->high || (is_low && task->low != task->high);
    default: return false;
    }
}

bool is_refusal(const edfvd_task *tasks, size_t count, edfvd_status status, uint32_t task) {
    static const edfvd_status faults[] = {EDFVD_LEVEL, EDFVD_ZERO_NUMBER, EDFVD_BUDGET_ORDER};
    if (count == 0 || count > MOST_TASKS) return status == (count == 0 ? EDFVD_EMPTY : EDFVD_TOO_MANY) && task == 0;
    if (status != EDFVD_OK) return task >= 1 && task <= count && is_fault(&tasks[task - 1], status);
    for (size_t place = 0; place < count; place++)
        for (size_t fault = 0; fault < 3; fault++)
            if (is_fault(&tasks[place], faults[fault])) return false;
    return true;
}

loads loads_of(const edfvd_task *tasks, size_t count, uint64_t lcm) {
    loads of = {lcm, 0, 0, 0};
    for (size_t place = 0; place < count; place++) {
        wide jobs = lcm / tasks[place].period;
        if (tasks[place].level == EDFVD_LOW) {
            of.low_low += jobs * tasks[place].low;
        } else {
            of.high_low += jobs * tasks[place].low;
            of.high_high += jobs * tasks[place].high;
        }
    }
    return of;
}

/* U_LL = a/n, U_HL = b/n and U_HH = c/n. Case 2 needs U_LL below 1 and U_HH at most 1; then no product exceeds 2^120. */
rule published(const loads *of) {
    static const rule none = {0, 0, 0}, plain = {1, 0, 0};
    wide n = of->lcm, a = of->low_low, b = of->high_low, c = of->high_high;
    if (a + c <= n) return plain;
    if (a >= n || c > n || a * b + c * (n - a) > n * (n - a)) return none;
    uint64_t divisor = greatest_common_divisor((uint64_t)b, (uint64_t)(n - a));
    return (rule){2, (uint64_t)b / divisor, (uint64_t)(n - a) / divisor};
}

int stretch_of(const edfvd_task *tasks, size_t count, uint64_t lcm) {
    int most = -1;
    for (int percent = 0; percent <= MOST_PERCENT; percent++) {
        edfvd_task at[MOST_TASKS];
        for (size_t place = 0; place < count; place++) {
            at[place] = tasks[place];
            if (tasks[place].level == EDFVD_LOW) continue;
            uint64_t high = (uint64_t)tasks[place].high * (uint64_t)percent / 100;
            if (high < tasks[place].low) high = tasks[place].low;
            at[place].high = high > UINT32_MAX ? UINT32_MAX : (uint32_t)high;
        }
        loads of = loads_of(at, count, lcm);
        if (published(&of).number != 0) most = percent;
    }
    return most;
}

/* Whether the tasks fit on one processor. */
static bool fits(const edfvd_task *tasks, size_t count) {
    uint64_t lcm;
    if (beyond(tasks, count, most_ticks, &lcm) != 0) return false;
    loads of = loads_of(tasks, count, lcm);
    return published(&of).number != 0;
}

uint32_t first_fit(const edfvd_task *tasks, size_t count, uint32_t processors, uint32_t *on) {
    edfvd_task parts[16][MOST_TASKS];
    size_t counts[16] = {0};
    for (size_t place = 0; place < count; place++) {
        uint32_t processor = 0;
        for (; processor < processors; processor++) {
            parts[processor][counts[processor]] = tasks[place];
            if (fits(parts[processor], counts[processor] + 1)) break;
        }
        if (processor == processors) return (uint32_t)place + 1;
        counts[processor]++;
        on[place] = processor + 1;
    }
    return 0;
}

/* PCG's generator Lcg64Xsh32 (M. E. O'Neill, PCG: A Family of Simple Fast Space-Efficient Statistically Good Algorithms for
   Random Number Generation, 2014), with the stream 54. */
static uint64_t stepped(uint64_t state) { return state * UINT64_C(6364136223846793005) + 54 * 2 + 1; }

static uint32_t next_word(uint64_t *state) {
    uint32_t mixed = (uint32_t)(((*state >> 18) ^ *state) >> 27), turn = (uint32_t)(*state >> 59);
    *state = stepped(*state);
    return mixed >> turn | mixed << (-turn & 31);
}

/* The random set of this many tasks that is generated from the number. */
static void random_set(uint64_t number, uint32_t count, edfvd_task *tasks) {
    static const uint32_t periods[] = {200, 250, 400, 500, 800, 1000, 1250, 2000, 2500, 4000, 5000, 10000};
    uint32_t highs = (count + 1) / 2, lows = count / 2;
    uint64_t state = stepped(number + 54 * 2 + 1);
    for (uint32_t place = 0; place < count; place++) {
        uint32_t period = periods[next_word(&state) % 12];
        if (place % 2 == 0)
            tasks[place] =
                (edfvd_task){EDFVD_HIGH, period, 1 + next_word(&state) % (period / (4 * highs)), 3 * period / (4 * highs)};
        else
            tasks[place] = (edfvd_task){EDFVD_LOW, period, period / (2 * lows), period / (2 * lows)};
        (void)next_word(&state); /* the extra gap of its releases */
    }
}

void accept_table(uint64_t number, uint32_t sets, uint32_t count, uint32_t counts[11]) {
    memset(counts, 0, 11 * sizeof *counts);
    for (uint32_t place = 0; place < sets; place++) {
        edfvd_task tasks[32];
        uint64_t lcm;
        random_set(number + place, count, tasks);
        (void)beyond(tasks, count, most_ticks, &lcm);
        int stretch = stretch_of(tasks, count, lcm);
        for (int step = 0; step < 11; step++) counts[step] += stretch >= 100 + 10 * step;
    }
}

static edfvd_status demand_fault(const edfvd_demand_task *task) {
    if (task->period == 0 || task->deadline == 0 || task->budget == 0) return EDFVD_ZERO_NUMBER;
    return task->deadline > task->period ? EDFVD_DEADLINE_ORDER : EDFVD_OK;
}

static uint64_t demand_within(const edfvd_demand_task *tasks, size_t count, uint64_t length) {
    uint64_t sum = 0;
    for (size_t place = 0; place < count; place++)
        if (tasks[place].deadline <= length)
            sum += ((length - tasks[place].deadline) / tasks[place].period + 1) * tasks[place].budget;
    return sum;
}

edfvd_status demand_of(const edfvd_demand_task *tasks, size_t count, edfvd_demand_test *test) {
    *test = (edfvd_demand_test){0, 0, 0, 0};
    if (count == 0 || count > MOST_TASKS) return count == 0 ? EDFVD_EMPTY : EDFVD_TOO_MANY;
    uint64_t lcm = 1;
    for (size_t place = 0; place < count; place++) {
        edfvd_status fault = demand_fault(&tasks[place]);
        test->task = (uint32_t)place + 1;
        if (fault != EDFVD_OK) return fault;
        lcm = lcm / greatest_common_divisor(lcm, tasks[place].period) * tasks[place].period;
        if (lcm > MOST_DEMAND) return EDFVD_PERIODS;
    }
    test->task = 0;
    for (uint64_t length = 1; length <= lcm; length++) {
        uint64_t demand = demand_within(tasks, count, length);
        if (demand > length) {
            *test = (edfvd_demand_test){1, 0, length, demand};
            return EDFVD_OK;
        }
    }
    test->length = lcm;
    return EDFVD_OK;
}
