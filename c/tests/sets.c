/* The calls about task sets: what each stores, every refusal with its task, and the ends of each range. stated.h has what stated.sh
   writes. */
#include "stated.h"
#include "tests.h"

tally tests;

/* The control set: U_LL = 5/10, U_HL = 2/10, U_HH = 6/10, so x = 2/10 / (1 - 5/10) = 2/5. */
static const edfvd_task control[] = {{EDFVD_HIGH, 10, 2, 6}, {EDFVD_LOW, 10, 5, 5}};

/* Sets that are none: the status of each and the task that it is about. */
static const struct {
    edfvd_task tasks[3];
    edfvd_status status;
    uint32_t task;
} refused[] = {
    {{{EDFVD_HIGH, 10, 2, 6}, {EDFVD_LOW, 0, 5, 5}, {EDFVD_LOW, 10, 1, 1}}, EDFVD_ZERO_NUMBER, 2},
    {{{EDFVD_HIGH, 10, 2, 6}, {EDFVD_LOW, 10, 1, 1}, {EDFVD_LOW, 10, 0, 0}}, EDFVD_ZERO_NUMBER, 3},
    {{{EDFVD_HIGH, 10, 0, 6}, {EDFVD_LOW, 10, 1, 1}, {EDFVD_LOW, 10, 1, 1}}, EDFVD_ZERO_NUMBER, 1},
    {{{EDFVD_LOW, 10, 1, 1}, {EDFVD_HIGH, 10, 7, 6}, {EDFVD_LOW, 10, 1, 1}}, EDFVD_BUDGET_ORDER, 2},
    {{{EDFVD_LOW, 10, 1, 1}, {EDFVD_LOW, 10, 1, 1}, {EDFVD_LOW, 10, 1, 2}}, EDFVD_BUDGET_ORDER, 3},
    {{{2, 10, 1, 1}, {EDFVD_LOW, 10, 1, 1}, {EDFVD_LOW, 10, 1, 1}}, EDFVD_LEVEL, 1},
    {{{EDFVD_LOW, 10, 1, 1}, {EDFVD_LOW, 10, 1, 1}, {UINT32_MAX, 10, 1, 1}}, EDFVD_LEVEL, 3},
};

/* 2^31 times 2^29 - 1 is below 2^60, and three times that is above it. */
static const edfvd_task long_periods[] = {{EDFVD_LOW, 2147483648u, 1, 1}, {EDFVD_LOW, 536870911u, 1, 1}, {EDFVD_LOW, 3, 1, 1}};

/* What edfvd_check stores for the set: each field. A set for which one is wrong is named by its first task. */
static void stores(const edfvd_task *tasks, size_t count, edfvd_test wanted) {
    edfvd_test test;
    unsigned long failed = tests.failed;
    PAINTED(test);
    RETURNS(EDFVD_OK, edfvd_check(tasks, count, &test));
    IS(wanted.rule, test.rule);
    IS(wanted.task, test.task);
    IS(wanted.p, test.p);
    IS(wanted.q, test.q);
    IS(wanted.lcm, test.lcm);
    IS(wanted.low_low_top, test.low_low_top);
    IS(wanted.low_low, test.low_low);
    IS(wanted.high_low_top, test.high_low_top);
    IS(wanted.high_low, test.high_low);
    IS(wanted.high_high_top, test.high_high_top);
    IS(wanted.high_high, test.high_high);
    if (tests.failed != failed) printf("of %zu tasks, the first %" PRIu32 "/%" PRIu32 "\n", count, tasks->low, tasks->period);
}

/*
 * A low task whose budget is its period has U_LL = 1 and plain EDF, and one tick more is not admitted.
 *
 * Periods 2^31 and 2^29 - 1: lcm = 2^60 - 2^31. The first task asks for 2^32 - 1 ticks in each of its lcm/2^31 = 2^29 - 1 periods;
 * the second, for 2^32 - 1 in each of 2^31, low ones or high ones. Each of these numerators is below 2^64.
 */
static void check_stores_the_test(void) {
    static const struct {
        edfvd_task tasks[2];
        size_t count;
        edfvd_test test;
    } tested[] = {
        {{{EDFVD_HIGH, 10, 2, 6}, {EDFVD_LOW, 10, 5, 5}},
         2,
         {.rule = EDFVD_RULE_VIRTUAL, .p = 2, .q = 5, .lcm = 10, .low_low = 5, .high_low = 2, .high_high = 6}},
        {{{EDFVD_LOW, 7, 7, 7}}, 1, {.rule = EDFVD_RULE_PLAIN, .lcm = 7, .low_low = 7}},
        {{{EDFVD_LOW, 7, 8, 8}}, 1, {.rule = EDFVD_RULE_NONE, .lcm = 7, .low_low = 8}},
        {{{EDFVD_LOW, 2147483648u, UINT32_MAX, UINT32_MAX}, {EDFVD_HIGH, 536870911u, UINT32_MAX, UINT32_MAX}},
         2,
         {.rule = EDFVD_RULE_NONE,
          .lcm = (UINT64_C(1) << 60) - (UINT64_C(1) << 31),
          .low_low = UINT64_C(4294967295) * 536870911u,
          .high_low = UINT64_C(4294967295) << 31,
          .high_high = UINT64_C(4294967295) << 31}},
    };
    for (size_t place = 0; place < sizeof tested / sizeof *tested; place++)
        stores(tested[place].tasks, tested[place].count, tested[place].test);
}

/* A numerator with two halves. Ten tasks of period 2^31 with budgets of 2^32 - 1, beside one of period 2^29 - 1: 10 (2^32 - 1)(2^29 - 1)
   = 10 * 2^61 - 10 * 2^32 - 10 * 2^29 + 10, which is 2^64 and 2^62 - 10 * 2^32 - 10 * 2^29 + 10. The last task, a low one, adds one
   tick in each of its 2^31 periods. */
static void check_stores_both_halves_of_a_load(void) {
    uint64_t rest = (UINT64_C(1) << 62) - 10 * (UINT64_C(1) << 32) - 10 * (UINT64_C(1) << 29) + 10;
    edfvd_task many[21];
    for (int place = 0; place < 10; place++) {
        many[place] = (edfvd_task){EDFVD_LOW, 2147483648u, UINT32_MAX, UINT32_MAX};
        many[10 + place] = (edfvd_task){EDFVD_HIGH, 2147483648u, UINT32_MAX, UINT32_MAX};
    }
    many[20] = (edfvd_task){EDFVD_LOW, 536870911u, 1, 1};
    stores(many, 21, (edfvd_test){.rule = EDFVD_RULE_NONE,
                                  .lcm = (UINT64_C(1) << 60) - (UINT64_C(1) << 31),
                                  .low_low_top = 1,
                                  .low_low = rest + (UINT64_C(1) << 31),
                                  .high_low_top = 1,
                                  .high_low = rest,
                                  .high_high_top = 1,
                                  .high_high = rest});
}

static void check_refuses(void) {
    edfvd_test test;
    edfvd_task many[129];
    for (size_t place = 0; place < 129; place++) many[place] = (edfvd_task){EDFVD_LOW, 1000, 1, 1};
    RETURNS(EDFVD_OK, edfvd_check(many, 128, &test));
    IS(128, test.low_low);
    PAINTED(test);
    RETURNS(EDFVD_TOO_MANY, edfvd_check(many, 129, &test));
    IS_ZEROS(test);
    PAINTED(test);
    RETURNS(EDFVD_EMPTY, edfvd_check(many, 0, &test));
    IS_ZEROS(test);
    PAINTED(test);
    RETURNS(EDFVD_EMPTY, edfvd_check(NULL, 0, &test));
    IS_ZEROS(test);
    for (size_t place = 0; place < sizeof refused / sizeof *refused; place++) {
        PAINTED(test);
        RETURNS(refused[place].status, edfvd_check(refused[place].tasks, 3, &test));
        IS(refused[place].task, test.task);
        test.task = 0;
        IS_ZEROS(test);
    }
    RETURNS(EDFVD_OK, edfvd_check(long_periods, 2, &test));
    PAINTED(test);
    RETURNS(EDFVD_PERIODS, edfvd_check(long_periods, 3, &test));
    IS(3, test.task);
    test.task = 0;
    IS_ZEROS(test);
    PAINTED(test);
    RETURNS(EDFVD_NULL, edfvd_check(NULL, 1, &test));
    IS_PAINTED(test);
    RETURNS(EDFVD_NULL, edfvd_check(control, 2, NULL));
    RETURNS(EDFVD_NULL, edfvd_check(NULL, 0, NULL));
}

static void stretch_stores(const edfvd_task *tasks, size_t count, uint32_t wanted) {
    uint32_t percent, task;
    PAINTED(percent);
    PAINTED(task);
    RETURNS(EDFVD_OK, edfvd_stretch(tasks, count, &percent, &task));
    IS(wanted, percent);
    IS(0, task);
    PAINTED(percent);
    RETURNS(EDFVD_OK, edfvd_stretch(tasks, count, &percent, NULL));
    IS(wanted, percent);
}

/*
 * By hand. Control: with x = 2/5, x U_LL = 1/5, so U_HH may be 4/5, a high budget of 8. 6 * 149 / 100 is 8.94, which is 8, and
 * 6 * 150 / 100 is 9.
 *
 * 0 percent: U_LL is 199/200 and U_HL 1/200, which is 1 together, so the test admits the set while the high budget is 1. At 0
 * percent it is: max(0, 1). At 1 percent the high budget is 200/100 = 2 and U_HH 2/200. Plain EDF fails, since 199/200 + 2/200
 * is above 1, and x = (1/200) / (1/200) = 1, by which 199/200 + 2/200 is above 1, too.
 *
 * 1000 percent is the end of the range: a low task alone, whose high budget does not count, and a high one of 1/100.
 */
static void stretch_stores_the_percentage(void) {
    static const edfvd_task none_left[] = {{EDFVD_HIGH, 200, 1, 200}, {EDFVD_LOW, 200, 199, 199}};
    static const edfvd_task low[] = {{EDFVD_LOW, 10, 10, 10}};
    static const edfvd_task small[] = {{EDFVD_HIGH, 100, 1, 1}};
    stretch_stores(control, 2, 149);
    stretch_stores(none_left, 2, STATED_LEAST_PERCENT);
    stretch_stores(low, 1, 1000);
    stretch_stores(small, 1, 1000);
    edfvd_test test;
    RETURNS(EDFVD_OK, edfvd_check(none_left, 2, &test));
    IS(EDFVD_RULE_NONE, test.rule);
    /* What the header says of this percentage: with each high budget the low one plain EDF does, and at the next percentage none. */
    edfvd_task changed[] = {none_left[0], none_left[1]};
    changed[0].high = changed[0].low;
    RETURNS(EDFVD_OK, edfvd_check(changed, 2, &test));
    IS(EDFVD_RULE_PLAIN, test.rule);
    IS(STATED_LEAST_PERCENT + 1, STATED_NEXT_PERCENT);
    changed[0].high = none_left[0].high * STATED_NEXT_PERCENT / 100;
    RETURNS(EDFVD_OK, edfvd_check(changed, 2, &test));
    IS(EDFVD_RULE_NONE, test.rule);
}

static void stretch_refuses(void) {
    static const edfvd_task never[] = {{EDFVD_LOW, 10, 11, 11}, {EDFVD_HIGH, 10, 1, 1}};
    uint32_t percent, task;
    for (size_t place = 0; place < sizeof refused / sizeof *refused; place++) {
        PAINTED(percent);
        PAINTED(task);
        RETURNS(refused[place].status, edfvd_stretch(refused[place].tasks, 3, &percent, &task));
        IS(0, percent);
        IS(refused[place].task, task);
    }
    PAINTED(percent);
    PAINTED(task);
    RETURNS(EDFVD_NO_PERCENTAGE, edfvd_stretch(never, 2, &percent, &task));
    IS(0, percent);
    IS(0, task);
    PAINTED(percent);
    PAINTED(task);
    RETURNS(EDFVD_PERIODS, edfvd_stretch(long_periods, 3, &percent, &task));
    IS(0, percent);
    IS(3, task);
    PAINTED(percent);
    RETURNS(EDFVD_EMPTY, edfvd_stretch(NULL, 0, &percent, &task));
    IS(0, percent);
    IS(0, task);
    PAINTED(percent);
    RETURNS(EDFVD_TOO_MANY, edfvd_stretch((const edfvd_task[129]){{EDFVD_LOW, 1, 1, 1}}, 129, &percent, NULL));
    IS(0, percent);
    PAINTED(percent);
    PAINTED(task);
    RETURNS(EDFVD_NULL, edfvd_stretch(NULL, 2, &percent, &task));
    RETURNS(EDFVD_NULL, edfvd_stretch(control, 2, NULL, &task));
    IS_PAINTED(percent);
    IS_PAINTED(task);
}

/* First fit by hand: task 1 has a load of 6/10 and goes to processor 1. Task 2 has 5/10, which does not fit beside it; task 3
   has 4/10 and fills processor 1; task 4 has 5/10 and fills processor 2. A fifth task of 1/10 fits on neither of two. */
static void partition_stores_the_processors(void) {
    static const edfvd_task tasks[] = {
        {EDFVD_LOW, 10, 6, 6}, {EDFVD_LOW, 10, 5, 5}, {EDFVD_LOW, 10, 4, 4}, {EDFVD_LOW, 10, 5, 5}, {EDFVD_LOW, 10, 1, 1}};
    uint32_t on[5], task;
    PAINTED(on);
    PAINTED(task);
    RETURNS(EDFVD_OK, edfvd_partition(tasks, 4, 2, on, &task));
    IS(1, on[0]);
    IS(2, on[1]);
    IS(1, on[2]);
    IS(2, on[3]);
    IS_PAINTED(on[4]);
    IS(0, task);
    RETURNS(EDFVD_OK, edfvd_partition(tasks, 5, 16, on, NULL));
    IS(3, on[4]);
    RETURNS(EDFVD_OK, edfvd_partition(tasks, 1, 1, on, &task));
    IS(1, on[0]);
}

static void partition_refuses(void) {
    static const edfvd_task three[] = {{EDFVD_LOW, 10, 6, 6}, {EDFVD_LOW, 10, 5, 5}, {EDFVD_LOW, 10, 6, 6}};
    uint32_t on[3], task;
    PAINTED(on);
    PAINTED(task);
    RETURNS(EDFVD_NO_PROCESSOR, edfvd_partition(three, 3, 2, on, &task));
    IS(3, task);
    RETURNS(EDFVD_NO_PROCESSOR, edfvd_partition(three, 3, 1, on, &task));
    IS(2, task);
    RETURNS(EDFVD_ARGUMENT, edfvd_partition(three, 3, 0, on, &task));
    IS(0, task);
    PAINTED(task);
    RETURNS(EDFVD_ARGUMENT, edfvd_partition(three, 3, 17, on, &task));
    IS(0, task);
    RETURNS(EDFVD_ARGUMENT, edfvd_partition(three, 3, UINT32_MAX, on, NULL));
    PAINTED(task);
    RETURNS(EDFVD_EMPTY, edfvd_partition(NULL, 0, 1, NULL, &task));
    IS(0, task);
    for (size_t place = 0; place < sizeof refused / sizeof *refused; place++) {
        PAINTED(task);
        RETURNS(refused[place].status, edfvd_partition(refused[place].tasks, 3, 2, on, &task));
        IS(refused[place].task, task);
    }
    PAINTED(task);
    RETURNS(EDFVD_NULL, edfvd_partition(NULL, 3, 2, on, &task));
    RETURNS(EDFVD_NULL, edfvd_partition(three, 3, 2, NULL, &task));
    RETURNS(EDFVD_NULL, edfvd_partition(three, 1, 2, NULL, NULL));
    IS_PAINTED(task);
    IS_PAINTED(on);
}

/* Sets 7, 8 and 9 are those of 7 and those of 8 and 9. By the 3/4 law each generated set has a stretch of at least 100. */
static void accept_counts(void) {
    uint32_t all[11], first[11], others[11];
    RETURNS(EDFVD_OK, edfvd_accept(7, 3, 8, all));
    RETURNS(EDFVD_OK, edfvd_accept(7, 1, 8, first));
    RETURNS(EDFVD_OK, edfvd_accept(8, 2, 8, others));
    IS(3, all[0]);
    for (int place = 0; place < 11; place++) IS(first[place] + others[place], all[place]);
    for (int place = 1; place < 11; place++) IS(1, all[place] <= all[place - 1]);
    RETURNS(EDFVD_OK, edfvd_accept(1, 1, 2, all));
    RETURNS(EDFVD_OK, edfvd_accept(1, 1, 32, all));
    RETURNS(EDFVD_OK, edfvd_accept(1, 10000, 2, all));
    IS(10000, all[0]);
    RETURNS(EDFVD_OK, edfvd_accept(UINT64_MAX - 1, 1, 2, all)); /* the sum is 2^64 - 1 */
}

static void accept_refuses(void) {
    uint32_t counts[11];
    PAINTED(counts);
    RETURNS(EDFVD_ARGUMENT, edfvd_accept(1, 0, 8, counts));
    RETURNS(EDFVD_ARGUMENT, edfvd_accept(1, 10001, 8, counts));
    RETURNS(EDFVD_ARGUMENT, edfvd_accept(1, 1, 1, counts));
    RETURNS(EDFVD_ARGUMENT, edfvd_accept(1, 1, 33, counts));
    RETURNS(EDFVD_ARGUMENT, edfvd_accept(UINT64_MAX, 1, 8, counts));
    RETURNS(EDFVD_ARGUMENT, edfvd_accept(UINT64_MAX - 1, 2, 8, counts));
    IS_PAINTED(counts);
    RETURNS(EDFVD_NULL, edfvd_accept(1, 1, 8, NULL));
    RETURNS(EDFVD_NULL, edfvd_accept(1, 0, 8, NULL));
}

/* What edfvd_demand stores for the tasks: each field. Tasks for which one is wrong are named by the first. */
static void demand_stores(const edfvd_demand_task *tasks, size_t count, edfvd_demand_test wanted) {
    edfvd_demand_test test;
    unsigned long failed = tests.failed;
    PAINTED(test);
    RETURNS(EDFVD_OK, edfvd_demand(tasks, count, &test));
    IS(wanted.past, test.past);
    IS(wanted.task, test.task);
    IS(wanted.length, test.length);
    IS(wanted.demand, test.demand);
    if (tests.failed != failed) printf("of %zu tasks, the first %" PRIu32 "/%" PRIu32 "\n", count, tasks->budget, tasks->period);
}

/* Demands by hand. Periods 4 and 6, deadlines 2 and 3, budgets 2 and 2: in 2 ticks 2 are asked for, in 3 ticks 2 + 2 = 4. With
   a budget of 1 for the first there are 1 in 2 ticks, 3 in 3, 4 in 6, 6 in 9, 7 in 10: never more ticks than there are. */
static void demand_stores_the_test(void) {
    static const edfvd_demand_task past[] = {{4, 2, 2}, {6, 3, 2}};
    static const edfvd_demand_task within[] = {{4, 2, 1}, {6, 3, 2}};
    demand_stores(past, 2, (edfvd_demand_test){.past = 1, .length = 3, .demand = 4});
    demand_stores(within, 2, (edfvd_demand_test){.length = 12});
    static const edfvd_demand_task longest[] = {{500000, 500000, 500000}};
    demand_stores(longest, 1, (edfvd_demand_test){.length = 500000});
}

static void demand_refuses(void) {
    static const struct {
        edfvd_demand_task tasks[2];
        edfvd_status status;
        uint32_t task;
    } bad[] = {
        {{{4, 2, 1}, {0, 1, 1}}, EDFVD_ZERO_NUMBER, 2},         {{{4, 0, 1}, {4, 1, 1}}, EDFVD_ZERO_NUMBER, 1},
        {{{4, 2, 1}, {4, 1, 0}}, EDFVD_ZERO_NUMBER, 2},         {{{4, 5, 1}, {0, 1, 1}}, EDFVD_DEADLINE_ORDER, 1},
        {{{500001, 1, 1}, {0, 1, 1}}, EDFVD_PERIODS, 1},        {{{500000, 1, 1}, {3, 1, 1}}, EDFVD_PERIODS, 2},
        {{{500000, 1, 1}, {3, 4, 1}}, EDFVD_DEADLINE_ORDER, 2},
    };
    edfvd_demand_test test;
    for (size_t place = 0; place < sizeof bad / sizeof *bad; place++) {
        PAINTED(test);
        RETURNS(bad[place].status, edfvd_demand(bad[place].tasks, 2, &test));
        IS(bad[place].task, test.task);
        test.task = 0;
        IS_ZEROS(test);
    }
    edfvd_demand_task many[129] = {{0, 0, 0}}; /* too many comes before what is wrong with the first task */
    PAINTED(test);
    RETURNS(EDFVD_TOO_MANY, edfvd_demand(many, 129, &test));
    IS_ZEROS(test);
    PAINTED(test);
    RETURNS(EDFVD_EMPTY, edfvd_demand(NULL, 0, &test));
    IS_ZEROS(test);
    for (size_t place = 0; place < 128; place++) many[place] = (edfvd_demand_task){200, 200, 1};
    RETURNS(EDFVD_OK, edfvd_demand(many, 128, &test));
    PAINTED(test);
    RETURNS(EDFVD_NULL, edfvd_demand(NULL, 1, &test));
    IS_PAINTED(test);
    RETURNS(EDFVD_NULL, edfvd_demand(many, 1, NULL));
}

/* A number of tasks that is one or two in its lower 32 bits: too many, which each call says before it reads a task. */
static void counts_of_more_than_32_bits(void) {
    static const edfvd_demand_task within[] = {{4, 2, 1}, {6, 3, 2}};
    size_t many = (SIZE_MAX >> 32) + 3;
    edfvd_test test;
    edfvd_demand_test demand;
    edfvd_scale_range scales;
    edfvd_budgets budgets[2];
    edfvd_verdict verdict;
    edfvd_scheduler s = EDFVD_NONE;
    edfvd_monitor m = EDFVD_NONE;
    uint32_t percent, on[2];
    uint64_t millionths;
    edfvd_row row = {EDFVD_IDLE, 0, 0};
    RETURNS(EDFVD_TOO_MANY, edfvd_check(control, many, &test));
    RETURNS(EDFVD_TOO_MANY, edfvd_stretch(control, many, &percent, NULL));
    RETURNS(EDFVD_TOO_MANY, edfvd_partition(control, many, 2, on, NULL));
    RETURNS(EDFVD_TOO_MANY, edfvd_sensitivity(control, many, budgets, NULL));
    RETURNS(EDFVD_TOO_MANY, edfvd_scales(control, many, &scales, NULL));
    RETURNS(EDFVD_TOO_MANY, edfvd_speed(control, many, &millionths, NULL));
    RETURNS(EDFVD_TOO_MANY, edfvd_demand(within, many, &demand));
    RETURNS(EDFVD_TOO_MANY, edfvd_judge(control, many, &row, 1, 0, 0, &verdict));
    RETURNS(EDFVD_FULL, edfvd_judge(control, 2, &row, many, 0, 0, &verdict));
    RETURNS(EDFVD_TOO_MANY, edfvd_scheduler_open(&s, control, many, 9, NULL));
    RETURNS(EDFVD_TOO_MANY, edfvd_scheduler_open_endless(&s, control, many, NULL));
    RETURNS(EDFVD_TOO_MANY, edfvd_scheduler_open_scaled(&s, control, many, 2, 5, 9, NULL));
    RETURNS(EDFVD_TOO_MANY, edfvd_scheduler_open_endless_scaled(&s, control, many, 2, 5, NULL));
    RETURNS(EDFVD_TOO_MANY, edfvd_monitor_open(&m, control, many, 0, 0, NULL));
}

/* Each status has words of its own, and every other number has those of an unknown one. */
static void words_of_statuses(void) {
    static const int known[] = {0,  1,  2,  3,  4,  5,  6,  7,  8,  9,  10, 11, 12, 13, 20, 21,
                                22, 23, 24, 25, 26, 27, 28, 29, 30, 31, 40, 41, 42, 43, 44, 45};
    const char *unknown = edfvd_word((edfvd_status)14);
    IS(0, strcmp(unknown, "an unknown status"));
    enum { KNOWN = sizeof known / sizeof *known };
    for (size_t place = 0; place < KNOWN; place++) {
        const char *word = edfvd_word((edfvd_status)known[place]);
        IS(1, strlen(word) > 0 && strcmp(word, unknown) != 0);
        for (size_t other = 0; other < place; other++) IS(1, strcmp(word, edfvd_word((edfvd_status)known[other])) != 0);
    }
    IS(0, strcmp(edfvd_word(EDFVD_TOO_SOON), "too soon"));
    IS(0, strcmp(edfvd_word(EDFVD_SAME_NAME), "two tasks have one name")); /* which no call returns */
    static const unsigned others[] = {14, 19, 32, 39, 46, 255, 0x7fffffff};
    for (size_t place = 0; place < sizeof others / sizeof *others; place++)
        IS(0, strcmp(edfvd_word((edfvd_status)others[place]), unknown));
}

int main(void) {
    check_stores_the_test();
    check_stores_both_halves_of_a_load();
    check_refuses();
    stretch_stores_the_percentage();
    stretch_refuses();
    partition_stores_the_processors();
    partition_refuses();
    accept_counts();
    accept_refuses();
    demand_stores_the_test();
    demand_refuses();
    counts_of_more_than_32_bits();
    words_of_statuses();
    return ends("sets");
}
