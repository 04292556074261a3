/*
 * Random schedules, each driven twice side by side: by runs, and by single ticks. Both leave the same rows, answers, refusals and numbers,
 * and a monitor of each finds it legal with no job late. The sets are those that the test admits; some have a scale of their own, the
 * least or the greatest that holds, and some schedulers have so few places that they become full.
 * usage: schedules SEED COUNT
 */
#include "tests.h"
#include <stdlib.h>

tally tests;

enum { MOST = 5, PLACES = 120, STEPS = 25 };

/* A scheduler, its monitor, and how many rows the monitor has had. */
typedef struct side {
    edfvd_scheduler s;
    edfvd_monitor m;
    uint64_t seen;
} side;

static side by_runs, by_ticks;
static edfvd_task tasks[MOST];
static uint32_t count;
static bool has_end;
static uint64_t state, of_status[EDFVD_THREADS + 1], of_event[EDFVD_IDLE + 1];

/* splitmix64 */
static uint32_t below(uint32_t limit) {
    uint64_t z = (state += 0x9e3779b97f4a7c15u);
    z = (z ^ (z >> 30)) * 0xbf58476d1ce4e5b9u;
    z = (z ^ (z >> 27)) * 0x94d049bb133111ebu;
    return limit == 0 ? 0 : (uint32_t)((z ^ (z >> 31)) >> 32) % limit;
}

static bool one_in(uint32_t limit) { return below(limit) == 0; }

/* A set that the test admits. */
static void draw_set(void) {
    static const uint32_t periods[] = {4, 5, 6, 8, 10, 12, 15, 20, 24, 30};
    edfvd_test test;
    do {
        count = 1 + below(MOST);
        for (uint32_t place = 0; place < count; place++) {
            uint32_t period = periods[below(10)], low = 1 + below(period / 3 + 1);
            bool is_high = one_in(2);
            tasks[place] = (edfvd_task){is_high ? EDFVD_HIGH : EDFVD_LOW, period, low, is_high ? low + below(period - low + 1) : low};
        }
    } while (edfvd_check(tasks, count, &test) != EDFVD_OK || test.rule == EDFVD_RULE_NONE);
}

/* A scale for the set: 0 and 0, or one that holds. */
static void draw_scale(uint64_t *p, uint64_t *q) {
    edfvd_scale_range range;
    bool greatest = one_in(2);
    *p = *q = 0;
    if (!one_in(3) || edfvd_scales(tasks, count, &range, NULL) != EDFVD_OK || range.least_q == 0 || range.least_p == 0) return;
    *p = greatest ? range.greatest_p : range.least_p;
    *q = greatest ? range.greatest_q : range.least_q;
}

static void open_side(side *one, uint64_t p, uint64_t q) {
    static const side none;
    *one = none;
    if (q == 0)
        RETURNS(EDFVD_OK, has_end ? edfvd_scheduler_open(&one->s, tasks, count, PLACES, NULL)
                                  : edfvd_scheduler_open_endless(&one->s, tasks, count, NULL));
    else
        RETURNS(EDFVD_OK, has_end ? edfvd_scheduler_open_scaled(&one->s, tasks, count, p, q, PLACES, NULL)
                                  : edfvd_scheduler_open_endless_scaled(&one->s, tasks, count, p, q, NULL));
    RETURNS(EDFVD_OK, edfvd_monitor_open(&one->m, tasks, count, p, q, NULL));
}

static edfvd_look look_at(side *one) {
    edfvd_look look;
    RETURNS(EDFVD_OK, edfvd_scheduler_look(&one->s, &look));
    return look;
}

static bool is_equal(const edfvd_row *one, const edfvd_row *other) {
    return one->event == other->event && one->task == other->task && one->count == other->count;
}

static void observed(side *one, const edfvd_row *row, uint32_t times) {
    edfvd_unfit unfit;
    if (times == 0) return;
    RETURNS(EDFVD_OK, edfvd_monitor_observe(&one->m, row, times, &unfit));
    IS(EDFVD_FITS, unfit.why);
}

/* The row of this number, and how many equal rows begin with it. */
static edfvd_row row_at(side *one, uint64_t number, uint32_t *times) {
    edfvd_row row, other;
    RETURNS(EDFVD_OK, edfvd_scheduler_row(&one->s, number, &row));
    RETURNS(EDFVD_OK, edfvd_scheduler_rows(&one->s, number, &other, times));
    IS(true, is_equal(&row, &other));
    return row;
}

/* Compares the new rows of both, and gives them to the monitors: equal ticks of the one as a run, those of the other one by one. */
static void compare_rows(uint64_t rows) {
    edfvd_row run = {0, 0, 0};
    uint32_t times = 0, left = 0;
    for (; by_runs.seen < rows; by_runs.seen++, by_ticks.seen++) {
        uint32_t equal, other_equal;
        edfvd_row row = row_at(&by_runs, by_runs.seen, &equal), other = row_at(&by_ticks, by_ticks.seen, &other_equal);
        IS(true, is_equal(&row, &other));
        IS(other_equal, equal);
        /* Of n equal rows that begin with one row, n - 1 begin with the next; after the last of them comes another row. */
        IS(left != 0, is_equal(&run, &row));
        if (left != 0) IS(left, equal);
        left = equal - 1;
        observed(&by_ticks, &other, 1);
        if (row.event <= EDFVD_IDLE) of_event[row.event]++;
        if (times != 0 && is_equal(&run, &row) && (row.event == EDFVD_MORE || row.event == EDFVD_IDLE)) {
            times++;
            continue;
        }
        observed(&by_runs, &run, times);
        run = row;
        times = 1;
    }
    observed(&by_runs, &run, times);
    IS(0, left);
}

static void compare_task(uint32_t task) {
    edfvd_pending one, other;
    uint64_t at, other_at;
    uint32_t discarded, other_discarded;
    RETURNS(EDFVD_OK, edfvd_scheduler_pending(&by_runs.s, task, &one));
    RETURNS(EDFVD_OK, edfvd_scheduler_pending(&by_ticks.s, task, &other));
    IS(other.task, one.task);
    IS(other.count, one.count);
    IS(other.used, one.used);
    IS(other.release, one.release);
    IS(other.deadline, one.deadline);
    IS(other.key_top, one.key_top);
    IS(other.key, one.key);
    RETURNS(EDFVD_OK, edfvd_scheduler_earliest(&by_runs.s, task, &at));
    RETURNS(EDFVD_OK, edfvd_scheduler_earliest(&by_ticks.s, task, &other_at));
    IS(other_at, at);
    RETURNS(EDFVD_OK, edfvd_scheduler_discarded(&by_runs.s, task, &discarded));
    RETURNS(EDFVD_OK, edfvd_scheduler_discarded(&by_ticks.s, task, &other_discarded));
    IS(other_discarded, discarded);
}

static void compare_next(void) {
    edfvd_next one, other;
    RETURNS(EDFVD_OK, edfvd_scheduler_next(&by_runs.s, &one));
    RETURNS(EDFVD_OK, edfvd_scheduler_next(&by_ticks.s, &other));
    IS(other.task, one.task);
    IS(other.count, one.count);
    IS(other.ticks, one.ticks);
}

static void compare_sides(void) {
    edfvd_look one = look_at(&by_runs), other = look_at(&by_ticks);
    edfvd_watch watch, other_watch;
    IS(other.ticks, one.ticks);
    IS(other.rows, one.rows);
    IS(other.high_mode, one.high_mode);
    IS(other.chosen_task, one.chosen_task);
    IS(other.chosen_count, one.chosen_count);
    IS(0, one.out_task | other.out_task);
    compare_next();
    for (uint32_t task = 1; task <= count; task++) compare_task(task);
    compare_rows(one.rows);
    RETURNS(EDFVD_OK, edfvd_monitor_look(&by_runs.m, &watch));
    RETURNS(EDFVD_OK, edfvd_monitor_look(&by_ticks.m, &other_watch));
    IS(one.rows, watch.rows);
    IS(one.ticks, watch.ticks);
    IS(one.high_mode, watch.high_mode);
    IS(true, watch.legal);
    IS(true, other_watch.rows == watch.rows && other_watch.ticks == watch.ticks && other_watch.pending == watch.pending &&
                 other_watch.legal == watch.legal && other_watch.high_mode == watch.high_mode);
}

static void compare_answers(edfvd_status status, const edfvd_answer *one, edfvd_status other_status, const edfvd_answer *other) {
    RETURNS(other_status, status);
    IS(other->what, one->what);
    IS(other->task, one->task);
    IS(other->count, one->count);
    IS(other->before, one->before);
    IS(other->at, one->at);
    of_status[status]++;
}

static void release(uint32_t task) {
    edfvd_answer one, other;
    edfvd_status status = edfvd_scheduler_release(&by_runs.s, task, &one);
    compare_answers(status, &one, edfvd_scheduler_release(&by_ticks.s, task, &other), &other);
}

/* Releases that may come, and some that come too soon. */
static void releases(void) {
    uint64_t now = look_at(&by_runs).ticks;
    for (uint32_t task = 1; task <= count; task++) {
        uint64_t at;
        RETURNS(EDFVD_OK, edfvd_scheduler_earliest(&by_runs.s, task, &at));
        if (at <= now ? one_in(2) : one_in(8)) release(task);
    }
}

/* Calls that both refuse, or one alone because it takes many ticks. They change nothing. */
static void refusals(const edfvd_next *next) {
    edfvd_answer one, other;
    uint32_t task = 1 + below(count);
    RETURNS(EDFVD_NOT_CHOSEN, edfvd_scheduler_run(&by_runs.s, count + 1, 1, 1, one_in(2), &one));
    if (task != next->task) {
        edfvd_status status = edfvd_scheduler_run(&by_runs.s, task, 1, 1 + below(3), one_in(2), &one);
        compare_answers(status, &one, edfvd_scheduler_grant(&by_ticks.s, task, &other), &other);
        IS(true, status != EDFVD_OK);
    }
    RETURNS(EDFVD_ARGUMENT, edfvd_scheduler_idle_for(&by_runs.s, 0, &one));
    if (next->task == 0) return;
    edfvd_status status = edfvd_scheduler_idle_for(&by_runs.s, 1 + below(9), &one);
    compare_answers(status, &one, edfvd_scheduler_idle(&by_ticks.s, &other), &other);
    IS(EDFVD_PENDING, status);
    RETURNS(EDFVD_PAST, edfvd_scheduler_run(&by_runs.s, next->task, next->count, next->ticks + 1 + below(2), one_in(2), &one));
    IS(next->ticks, one.at);
    of_status[EDFVD_PAST]++;
    RETURNS(EDFVD_NOT_CHOSEN, edfvd_scheduler_run(&by_runs.s, next->task, next->count + 1, 1, one_in(2), &one));
    RETURNS(EDFVD_ARGUMENT, edfvd_scheduler_run(&by_runs.s, next->task, next->count, 0, one_in(2), &one));
}

/* How many places are left, of which a scheduler without an end has any number. */
static uint64_t places_left(void) { return has_end ? PLACES - look_at(&by_runs).rows : UINT64_MAX; }

/* Runs the chosen job. By single ticks, another task's release may come in the last of them, and is held; by runs it comes after. */
static bool run(const edfvd_next *next) {
    uint32_t ticks = one_in(3) ? next->ticks : 1 + below(next->ticks), held = one_in(4) ? 1 + below(count) : 0;
    bool is_done = one_in(3), is_full = places_left() < ticks;
    edfvd_answer one, other = {0, 0, 0, 0, 0}, given;
    edfvd_status status = edfvd_scheduler_run(&by_runs.s, next->task, next->count, ticks, is_done, &one);
    RETURNS(is_full ? EDFVD_FULL : EDFVD_OK, status);
    of_status[status]++;
    if (is_full) return false;
    edfvd_status released = EDFVD_TOO_SOON;
    for (uint32_t tick = 1; tick <= ticks; tick++) {
        RETURNS(EDFVD_OK, edfvd_scheduler_grant(&by_ticks.s, next->task, &given));
        if (tick == ticks && held != 0 && held != next->task) released = edfvd_scheduler_release(&by_ticks.s, held, NULL);
        RETURNS(EDFVD_OK, edfvd_scheduler_outcome(&by_ticks.s, next->task, next->count, is_done && tick == ticks, &other));
    }
    compare_answers(status, &one, EDFVD_OK, &other);
    if (released == EDFVD_OK) RETURNS(EDFVD_OK, edfvd_scheduler_release(&by_runs.s, held, NULL));
    return true;
}

static bool rest(void) {
    uint32_t ticks = 1 + below(12);
    bool is_full = places_left() < ticks;
    edfvd_answer one, other, later;
    edfvd_status status = edfvd_scheduler_idle_for(&by_runs.s, ticks, &one);
    RETURNS(is_full ? EDFVD_FULL : EDFVD_OK, status);
    of_status[status]++;
    if (is_full) return false;
    compare_answers(status, &one, edfvd_scheduler_idle(&by_ticks.s, &other), &other);
    for (uint32_t tick = 1; tick < ticks; tick++) RETURNS(EDFVD_OK, edfvd_scheduler_idle(&by_ticks.s, &later));
    return true;
}

static void close_side(side *one) {
    edfvd_verdict verdict;
    RETURNS(EDFVD_OK, edfvd_monitor_verdict(&one->m, &verdict));
    IS(EDFVD_FITS, verdict.why);
    IS(0, verdict.late);
    RETURNS(EDFVD_OK, edfvd_monitor_close(&one->m));
    RETURNS(EDFVD_OK, edfvd_scheduler_close(&one->s));
}

static void schedule(void) {
    uint64_t p, q;
    edfvd_next next;
    bool goes_on = true;
    draw_set();
    draw_scale(&p, &q);
    has_end = one_in(2);
    open_side(&by_runs, p, q);
    open_side(&by_ticks, p, q);
    for (uint32_t step = 0; step < STEPS && goes_on && tests.failed == 0; step++) {
        releases();
        RETURNS(EDFVD_OK, edfvd_scheduler_next(&by_runs.s, &next));
        if (one_in(3)) refusals(&next);
        compare_sides();
        goes_on = next.task == 0 ? rest() : run(&next);
        compare_sides();
    }
    close_side(&by_runs);
    close_side(&by_ticks);
}

/* The number that the word is, or 0 for a word that is none from 1 to 4294967295. */
static uint64_t number_in(const char *word) {
    char *end;
    unsigned long long number = strtoull(word, &end, 10);
    return *word < '0' || *word > '9' || *end != 0 || number > UINT32_MAX ? 0 : number;
}

int main(int argc, char **argv) {
    uint64_t seed = argc == 3 ? number_in(argv[1]) : 0, schedules = argc == 3 ? number_in(argv[2]) : 0;
    if (seed == 0 || schedules == 0) {
        fprintf(stderr, "usage: schedules SEED COUNT\n");
        return 2;
    }
    for (uint64_t number = 0; number < schedules && tests.failed < 20; number++) {
        state = (seed << 32) + number;
        schedule();
        if (tests.failed != 0) printf("in schedule %" PRIu64 " of seed %" PRIu64 "\n", number, seed);
    }
    printf("%" PRIu64 " overruns, %" PRIu64 " dropped, %" PRIu64 " stopped; %" PRIu64 " past, %" PRIu64 " full, %" PRIu64 " too soon\n",
           of_event[EDFVD_OVER], of_event[EDFVD_DROPPED], of_event[EDFVD_STOP], of_status[EDFVD_PAST], of_status[EDFVD_FULL],
           of_status[EDFVD_TOO_SOON]);
    /* A seed that draws none of one kind tries less than it says. */
    static const edfvd_status statuses[] = {EDFVD_TOO_SOON, EDFVD_FULL, EDFVD_NOT_CHOSEN, EDFVD_PENDING, EDFVD_PAST};
    for (uint32_t event = EDFVD_KEPT; event <= EDFVD_IDLE; event++)
        if (event != EDFVD_HELD && event != EDFVD_GIVEN && schedules >= 1000) IS(true, of_event[event] != 0);
    for (size_t place = 0; place < sizeof statuses / sizeof *statuses; place++)
        if (schedules >= 1000) IS(true, of_status[statuses[place]] != 0);
    return ends("schedules");
}
