/*
 * Random sets and schedules through the calls of edfvd.h: each call's status and each number that it stores is written. The text depends
 * on nothing but the two counts, so libraries for two machines must give equal texts. Whether the numbers are right is not seen here:
 * tests/fuzz compares them with the definitions.
 *
 * usage: cross SETS SCHEDULES
 */
#include "edfvd.h"
#include <inttypes.h>
#include <stdio.h>
#include <stdlib.h>
#include <string.h>

enum { MOST_TASKS = 140, MOST_ROWS = 2000 };

static uint64_t state; /* of the random numbers */
static uint64_t calls;
static bool has_come[64]; /* which statuses have come */

/* splitmix64 */
static uint64_t random64(void) {
    uint64_t z = (state += 0x9e3779b97f4a7c15u);
    z = (z ^ (z >> 30)) * 0xbf58476d1ce4e5b9u;
    z = (z ^ (z >> 27)) * 0x94d049bb133111ebu;
    return z ^ (z >> 31);
}

static uint32_t below(uint32_t limit) { return (uint32_t)(random64() % limit); }

static bool one_in(uint32_t many) { return below(many) == 0; }

static edfvd_status came(const char *call, edfvd_status status) {
    calls++;
    has_come[(unsigned)status % 64] = true;
    printf("%s %d", call, (int)status);
    return status;
}

/* A period of one of five kinds: small ones that divide others, small, middle, large round ones, and any. */
static uint32_t random_period(uint32_t kind) {
    static const uint32_t divisors[] = {2, 4, 5, 8, 10, 20, 25, 40, 50, 100};
    switch (kind) {
    case 0: return divisors[below(10)];
    case 1: return 1 + below(30);
    case 2: return 1 + below(1000);
    case 3: return 1000 * (1 + below(1000));
    default: return (uint32_t)random64();
    }
}

/* Mostly a set with a load near 1; one in `wrong` has a field of a task at random, unless that is 0. */
static size_t random_set(edfvd_task *tasks, edfvd_demand_task *demands, uint32_t kinds, uint32_t wrong) {
    size_t count = one_in(20) ? below(MOST_TASKS) : 1 + below(7);
    uint32_t kind = below(kinds);
    bool is_wrong = wrong != 0 && one_in(wrong);
    for (size_t place = 0; place < count; place++) {
        uint32_t period = random_period(kind), share = period / (uint32_t)count + 1, level = below(2), low = 1 + below(share);
        tasks[place] = (edfvd_task){level, period, low, level == EDFVD_HIGH ? low + below(share) : low};
        uint32_t budget = 1 + below(share), room = period > budget ? period - budget + 1 : 1;
        demands[place] = (edfvd_demand_task){period, budget + below(room), budget};
        if (is_wrong && one_in((uint32_t)count)) {
            uint32_t number = one_in(3) ? (uint32_t)random64() : below(3), field = below(4);
            memcpy((char *)&tasks[place] + field * sizeof number, &number, sizeof number);
            memcpy((char *)&demands[place] + field % 3 * sizeof number, &number, sizeof number);
        }
    }
    return count;
}

static void try_set(void) {
    edfvd_task tasks[MOST_TASKS];
    edfvd_demand_task demands[MOST_TASKS];
    size_t count = random_set(tasks, demands, 5, 12);
    edfvd_test t;
    came("check", edfvd_check(tasks, count, &t));
    printf(" %" PRIu32 " %" PRIu32 " %" PRIu64 "/%" PRIu64 " %" PRIu64, t.rule, t.task, t.p, t.q, t.lcm);
    printf(" %" PRIu64 ":%" PRIu64 " %" PRIu64 ":%" PRIu64 " %" PRIu64 ":%" PRIu64 "\n", t.low_low_top, t.low_low, t.high_low_top,
           t.high_low, t.high_high_top, t.high_high);
    uint32_t percent = 77, task = 77;
    came("stretch", edfvd_stretch(tasks, count, &percent, &task));
    printf(" %" PRIu32 " %" PRIu32 "\n", percent, task);
    uint32_t on[MOST_TASKS] = {0};
    came("partition", edfvd_partition(tasks, count, below(18), on, &task));
    printf(" %" PRIu32 ":", task);
    for (size_t place = 0; place < count; place++) printf(" %" PRIu32, on[place]);
    edfvd_budgets budgets[MOST_TASKS];
    memset(budgets, 0, sizeof budgets);
    came("\nsensitivity", edfvd_sensitivity(tasks, count, budgets, &task));
    printf(" %" PRIu32 ":", task);
    for (size_t place = 0; place < count; place++) printf(" %" PRIu32 ",%" PRIu32, budgets[place].low, budgets[place].high);
    edfvd_scale_range r;
    came("\nscales", edfvd_scales(tasks, count, &r, &task));
    printf(" %" PRIu32 " %" PRIu64 "/%" PRIu64 " %" PRIu64 "/%" PRIu64 "\n", task, r.least_p, r.least_q, r.greatest_p, r.greatest_q);
    uint64_t millionths = 77;
    came("speed", edfvd_speed(tasks, count, &millionths, &task));
    printf(" %" PRIu64 " %" PRIu32 "\n", millionths, task);
    edfvd_demand_test d;
    came("demand", edfvd_demand(demands, count, &d));
    printf(" %" PRIu32 " %" PRIu32 " %" PRIu64 " %" PRIu64 "\n", d.past, d.task, d.length, d.demand);
    if (one_in(20)) {
        uint32_t counts[11] = {0}, sets = below(30), of = below(34);
        uint64_t from = random64() >> below(64);
        came("accept", edfvd_accept(from, sets, of, counts));
        for (int place = 0; place < 11; place++) printf(" %" PRIu32, counts[place]);
        printf("\n");
    }
}

/* ---- A schedule: a scheduler of each kind with events, right and wrong ones, its rows to a monitor, and all of them to the judge ---- */

static edfvd_scheduler scheduler;
static edfvd_monitor monitor;
static edfvd_row rows[MOST_ROWS];
static size_t length;  /* of rows */
static uint64_t seen;  /* how many rows of the scheduler were handed on */
static edfvd_answer given; /* what the last grant returned */

static void write_answer(edfvd_answer a) {
    printf(" %" PRIu32 " %" PRIu32 " %" PRIu32 " %" PRIu32 " %" PRIu64 "\n", a.what, a.task, a.count, a.before, a.at);
}

static edfvd_look look_at(void) {
    edfvd_look l;
    came("look", edfvd_scheduler_look(&scheduler, &l));
    printf(" %" PRIu64 " %" PRIu64 " %" PRIu32 " %" PRIu32 " %" PRIu32 " %" PRIu32 " %" PRIu32 "\n", l.ticks, l.rows, l.high_mode,
           l.out_task, l.out_count, l.chosen_task, l.chosen_count);
    return l;
}

/* A field of the row gets some number. */
static void spoil(edfvd_row *row) {
    uint32_t number = one_in(4) ? (uint32_t)random64() : below(12);
    memcpy((char *)row + below(3) * sizeof number, &number, sizeof number);
}

/* Any event, likely one that the scheduler refuses. */
static void wrong_event(uint32_t task) {
    edfvd_answer a = {0, 0, 0, 0, 0};
    uint32_t count = below(3);
    switch (below(4)) {
    case 0: came("grant", edfvd_scheduler_grant(&scheduler, task, &a)); break;
    case 1: came("outcome", edfvd_scheduler_outcome(&scheduler, task, count, one_in(2), &a)); break;
    case 2: came("idle", edfvd_scheduler_idle(&scheduler, &a)); break;
    default: came("release", edfvd_scheduler_release(&scheduler, (uint32_t)random64(), &a)); break;
    }
    write_answer(a);
}

static void event(size_t count) {
    edfvd_look l = look_at();
    edfvd_answer a = {0, 0, 0, 0, 0};
    uint32_t task = 1 + below((uint32_t)count + (count == 0 || one_in(30))), what = below(10);
    if (what == 9) {
        wrong_event(task);
        return;
    }
    if (what < 4) {
        came("release", edfvd_scheduler_release(&scheduler, task, &a));
    } else if (l.out_task != 0) {
        bool is_done = given.before + 1 >= 1 + below(4);
        came("outcome", edfvd_scheduler_outcome(&scheduler, l.out_task, l.out_count, is_done, &a));
    } else if (l.chosen_task != 0) {
        came("grant", edfvd_scheduler_grant(&scheduler, l.chosen_task, &a));
        given = a;
    } else {
        came("idle", edfvd_scheduler_idle(&scheduler, &a));
    }
    write_answer(a);
}

/* Hands the rows that are new to the monitor, one in 60 with another number in a field. */
static void hand_on(void) {
    for (uint64_t until = look_at().rows; seen < until; seen++) {
        edfvd_row row;
        edfvd_unfit u = {9, 9};
        edfvd_watch w;
        came("row", edfvd_scheduler_row(&scheduler, seen, &row));
        printf(" %" PRIu32 " %" PRIu32 " %" PRIu32 "\n", row.event, row.task, row.count);
        if (length < MOST_ROWS) rows[length++] = row;
        if (one_in(60)) spoil(&row);
        uint32_t times = one_in(20) ? below(5) : 1;
        came("would", edfvd_monitor_would_fit(&monitor, &row, times, &u));
        printf(" %" PRIu32 " %" PRIu64 "\n", u.why, u.place);
        came("observe", edfvd_monitor_observe(&monitor, &row, times, &u));
        printf(" %" PRIu32 " %" PRIu64 "\n", u.why, u.place);
        came("watch", edfvd_monitor_look(&monitor, &w));
        printf(" %" PRIu64 " %" PRIu64 " %" PRIu64 " %" PRIu32 " %" PRIu32 "\n", w.rows, w.ticks, w.pending, w.legal, w.high_mode);
    }
}

static void write_verdict(const char *call, edfvd_status status, const edfvd_verdict *v) {
    came(call, status);
    printf(" %" PRIu32 " %" PRIu32 " %" PRIu32 " %" PRIu64 " %" PRIu64 "\n", v->why, v->task, v->count, v->late, v->place);
}

/* What the monitor and the judge find at the end. */
static void judge(const edfvd_task *tasks, size_t count, uint64_t p, uint64_t q) {
    edfvd_late jobs[40];
    uint64_t many = 99;
    if (came("late", edfvd_monitor_late(&monitor, below(50), jobs, 40, &many)) == EDFVD_OK)
        for (uint64_t n = 0; n < many; n++) printf(" %" PRIu32 ".%" PRIu32 "@%" PRIu64, jobs[n].task, jobs[n].count, jobs[n].deadline);
    printf(" %" PRIu64 "\n", many);
    edfvd_verdict v;
    edfvd_status status = edfvd_monitor_verdict(&monitor, &v);
    write_verdict("verdict", status, &v);
    if (one_in(3) && length > 0) spoil(&rows[below((uint32_t)length)]);
    status = edfvd_judge(tasks, count, rows, length, p, q, &v);
    write_verdict("judge", status, &v);
}

static void try_schedule(void) {
    edfvd_task tasks[MOST_TASKS];
    edfvd_demand_task demands[MOST_TASKS];
    size_t count;
    edfvd_test test;
    do count = random_set(tasks, demands, 2, 20);
    while (!one_in(20) && (edfvd_check(tasks, count, &test) != EDFVD_OK || test.rule == 0));
    uint64_t p = 0, q = 0;
    uint32_t task = 77;
    memset(&scheduler, 0, sizeof scheduler);
    memset(&monitor, 0, sizeof monitor);
    memset(&given, 0, sizeof given);
    length = 0;
    seen = 0;
    bool is_endless = one_in(2);
    came("open", is_endless ? edfvd_scheduler_open_endless(&scheduler, tasks, count, &task)
                            : edfvd_scheduler_open(&scheduler, tasks, count, 50 + below(400), &task));
    printf(" %" PRIu32 "\n", task);
    if (one_in(3)) {
        q = 1 + random64() % ((uint64_t)1 << (1 + below(61)));
        p = 1 + random64() % q;
    }
    came("open", edfvd_monitor_open(&monitor, tasks, count, p, q, &task));
    printf(" %" PRIu32 " %" PRIu64 "/%" PRIu64 "\n", task, p, q);
    for (uint32_t left = 60 + below(500); left > 0; left--) {
        event(count);
        hand_on();
    }
    edfvd_row row;
    came("row", edfvd_scheduler_row(&scheduler, random64() % (seen + 2), &row));
    printf(" %" PRIu32 " %" PRIu32 " %" PRIu32 "\n", row.event, row.task, row.count);
    judge(tasks, count, p, q);
    came("close", edfvd_scheduler_close(&scheduler));
    came(" close", edfvd_monitor_close(&monitor));
    printf("\n");
}

static uint32_t number_in(const char *word) {
    char *end;
    unsigned long number = strtoul(word, &end, 10);
    return *word == 0 || *end != 0 || number > 1000000 ? 0 : (uint32_t)number;
}

int main(int argc, char **argv) {
    uint32_t sets = argc == 3 ? number_in(argv[1]) : 0, schedules = argc == 3 ? number_in(argv[2]) : 0, statuses = 0;
    if (sets == 0 || schedules == 0) {
        fputs("usage: cross SETS SCHEDULES\n", stderr);
        return 2;
    }
    for (uint32_t number = 1; number <= sets; number++) {
        state = number * (uint64_t)1000003;
        printf("set %" PRIu32 "\n", number);
        try_set();
    }
    for (uint32_t number = 1; number <= schedules; number++) {
        state = number * (uint64_t)999983;
        printf("schedule %" PRIu32 "\n", number);
        try_schedule();
    }
    for (size_t status = 0; status < 64; status++) statuses += has_come[status];
    printf("%" PRIu64 " calls, %" PRIu32 " statuses\n", calls, statuses);
    return fflush(stdout) == 0 && !ferror(stdout) ? 0 : 1;
}
