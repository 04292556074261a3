/* Runs of ticks, what is read of a task, and schedulers under a scale: each number worked out by hand. */
#include "tests.h"

tally tests;

enum { CTL = 1, LOG = 2 };

/* The control set, whose rule is EDF-VD with the scale 2/5. A key counts fifths of a tick: of ctl released at r it is
   5 r + 2 * 10 in low mode and 5 (r + 10) in high mode, and of log 5 (r + 10). */
static const edfvd_task control[] = {{EDFVD_HIGH, 10, 2, 6}, {EDFVD_LOW, 10, 5, 5}};

static edfvd_scheduler s = EDFVD_NONE;

static void answers(const edfvd_answer *answer, uint32_t what, uint32_t task, uint32_t count, uint64_t at) {
    IS(what, answer->what);
    IS(task, answer->task);
    IS(count, answer->count);
    IS(0, answer->before);
    IS(at, answer->at);
}

static void runs(edfvd_status status, uint32_t task, uint32_t count, uint32_t ticks, bool done, edfvd_answer wanted) {
    edfvd_answer answer;
    PAINTED(answer);
    RETURNS(status, edfvd_scheduler_run(&s, task, count, ticks, done, &answer));
    answers(&answer, wanted.what, wanted.task, wanted.count, wanted.at);
}

static void rests(edfvd_status status, uint64_t ticks, edfvd_answer wanted) {
    edfvd_answer answer;
    PAINTED(answer);
    RETURNS(status, edfvd_scheduler_idle_for(&s, ticks, &answer));
    answers(&answer, wanted.what, wanted.task, wanted.count, wanted.at);
}

static edfvd_answer of_job(uint32_t what, uint32_t task, uint32_t count) { return (edfvd_answer){what, task, count, 0, 0}; }
static edfvd_answer at_tick(uint32_t what, uint64_t at) { return (edfvd_answer){what, 0, 0, 0, at}; }
static const edfvd_answer nothing;

static void has_next(uint32_t task, uint32_t count, uint32_t ticks) {
    edfvd_next next;
    PAINTED(next);
    RETURNS(EDFVD_OK, edfvd_scheduler_next(&s, &next));
    IS(task, next.task);
    IS(count, next.count);
    IS(ticks, next.ticks);
}

/* What is read of the task: its pending job with release, deadline, key and ticks, its earliest next release, and the count of
   its job that the latest overrun discarded. */
static void has_task(uint32_t task, edfvd_pending wanted, uint64_t earliest, uint32_t discarded) {
    edfvd_pending pending;
    uint64_t at;
    uint32_t count;
    PAINTED(pending);
    PAINTED(at);
    PAINTED(count);
    RETURNS(EDFVD_OK, edfvd_scheduler_pending(&s, task, &pending));
    IS(wanted.task, pending.task);
    IS(wanted.count, pending.count);
    IS(wanted.used, pending.used);
    IS(wanted.release, pending.release);
    IS(wanted.deadline, pending.deadline);
    IS(wanted.key_top, pending.key_top);
    IS(wanted.key, pending.key);
    RETURNS(EDFVD_OK, edfvd_scheduler_earliest(&s, task, &at));
    IS(earliest, at);
    RETURNS(EDFVD_OK, edfvd_scheduler_discarded(&s, task, &count));
    IS(discarded, count);
}

static const edfvd_pending none;

static void no_task(uint32_t task) {
    edfvd_pending pending;
    uint64_t at;
    uint32_t count;
    PAINTED(pending);
    PAINTED(at);
    PAINTED(count);
    RETURNS(EDFVD_NO_TASK, edfvd_scheduler_pending(&s, task, &pending));
    IS(0, pending.task | pending.count | pending.used);
    IS(0, pending.release | pending.deadline | pending.key_top | pending.key);
    RETURNS(EDFVD_NO_TASK, edfvd_scheduler_earliest(&s, task, &at));
    IS(0, at);
    RETURNS(EDFVD_NO_TASK, edfvd_scheduler_discarded(&s, task, &count));
    IS(0, count);
}

static void has_row(uint64_t number, uint32_t event, uint32_t task, uint32_t count) {
    edfvd_row row;
    PAINTED(row);
    RETURNS(EDFVD_OK, edfvd_scheduler_row(&s, number, &row));
    IS(event, row.event);
    IS(task, row.task);
    IS(count, row.count);
}

/* The row of this number, and how many equal rows begin with it. */
static void has_rows(uint64_t number, uint32_t event, uint32_t task, uint32_t count, uint32_t equal) {
    edfvd_row row;
    uint32_t times;
    PAINTED(row);
    PAINTED(times);
    RETURNS(EDFVD_OK, edfvd_scheduler_rows(&s, number, &row, &times));
    IS(event, row.event);
    IS(task, row.task);
    IS(count, row.count);
    IS(equal, times);
    has_row(number, event, task, count);
}

static void has_no_rows(uint64_t number, edfvd_status status) {
    edfvd_row row;
    uint32_t times;
    PAINTED(row);
    PAINTED(times);
    RETURNS(status, edfvd_scheduler_rows(&s, number, &row, &times));
    IS_ZEROS(row);
    IS_ZEROS(times);
    RETURNS(status, edfvd_scheduler_row(&s, number, &row));
}

/* The schedule by runs: an overrun that discards a job, refusals of each kind, and the last place used. */
static void each_run(void) {
    edfvd_answer a;
    RETURNS(EDFVD_OK, edfvd_scheduler_open(&s, control, 2, 20, NULL));
    has_next(0, 0, 0);
    has_task(CTL, none, 0, 0);
    runs(EDFVD_NOT_CHOSEN, CTL, 1, 1, false, nothing);
    RETURNS(EDFVD_OK, edfvd_scheduler_release(&s, CTL, &a));
    RETURNS(EDFVD_OK, edfvd_scheduler_release(&s, LOG, &a));
    has_next(CTL, 1, 2);
    has_task(CTL, (edfvd_pending){CTL, 1, 0, 0, 10, 0, 20}, 10, 0);
    has_task(LOG, (edfvd_pending){LOG, 1, 0, 0, 10, 0, 50}, 10, 0);
    no_task(0);
    no_task(3);
    no_task(UINT32_MAX);
    runs(EDFVD_ARGUMENT, CTL, 1, 0, true, nothing);
    rests(EDFVD_ARGUMENT, 0, nothing);
    runs(EDFVD_NOT_CHOSEN, LOG, 1, 1, false, of_job(0, CTL, 1));
    runs(EDFVD_NOT_CHOSEN, CTL, 2, 1, false, of_job(0, CTL, 1));
    runs(EDFVD_PAST, CTL, 1, 3, true, at_tick(0, 2));
    runs(EDFVD_PAST, CTL, 1, UINT32_MAX, false, at_tick(0, 2));
    rests(EDFVD_PENDING, 1, of_job(0, CTL, 1));
    has_next(CTL, 1, 2);
    RETURNS(EDFVD_OK, edfvd_scheduler_grant(&s, CTL, &a));
    runs(EDFVD_TICK_OUT, CTL, 1, 1, false, of_job(0, CTL, 1));
    rests(EDFVD_TICK_OUT, 1, of_job(0, CTL, 1));
    RETURNS(EDFVD_OK, edfvd_scheduler_outcome(&s, CTL, 1, false, &a));
    has_next(CTL, 1, 1);
    runs(EDFVD_OK, CTL, 1, 1, false, of_job(EDFVD_OVER, CTL, 1));
    has_next(CTL, 1, 4);
    has_task(CTL, (edfvd_pending){CTL, 1, 2, 0, 10, 0, 50}, 10, 0);
    has_task(LOG, none, 10, 1);
    runs(EDFVD_OK, CTL, 1, 3, false, of_job(EDFVD_MORE, CTL, 1));
    runs(EDFVD_OK, CTL, 1, 1, true, of_job(EDFVD_DONE, CTL, 1));
    rests(EDFVD_OK, 4, at_tick(EDFVD_IDLE, 6));
    RETURNS(EDFVD_OK, edfvd_scheduler_release(&s, LOG, &a));
    has_task(LOG, (edfvd_pending){LOG, 2, 0, 10, 20, 0, 100}, 20, 1);
    runs(EDFVD_OK, LOG, 2, 5, false, of_job(EDFVD_STOP, LOG, 2));
    rests(EDFVD_FULL, 3, nothing);
    rests(EDFVD_OK, 2, at_tick(EDFVD_IDLE, 15));
    rests(EDFVD_FULL, 1, nothing);
    static const edfvd_row rows[20] = {
        {EDFVD_KEPT, 1, 1}, {EDFVD_KEPT, 2, 1}, {EDFVD_MORE, 1, 1}, {EDFVD_OVER, 1, 1}, {EDFVD_MORE, 1, 1},
        {EDFVD_MORE, 1, 1}, {EDFVD_MORE, 1, 1}, {EDFVD_DONE, 1, 1}, {EDFVD_IDLE, 0, 0}, {EDFVD_IDLE, 0, 0},
        {EDFVD_IDLE, 0, 0}, {EDFVD_IDLE, 0, 0}, {EDFVD_KEPT, 2, 2}, {EDFVD_MORE, 2, 2}, {EDFVD_MORE, 2, 2},
        {EDFVD_MORE, 2, 2}, {EDFVD_MORE, 2, 2}, {EDFVD_STOP, 2, 2}, {EDFVD_IDLE, 0, 0}, {EDFVD_IDLE, 0, 0}};
    static const uint32_t equal[20] = {1, 1, 1, 1, 3, 2, 1, 1, 4, 3, 2, 1, 1, 4, 3, 2, 1, 1, 2, 1};
    for (uint64_t row = 0; row < 20; row++) has_rows(row, rows[row].event, rows[row].task, rows[row].count, equal[row]);
    has_no_rows(20, EDFVD_NO_ROW);
    has_no_rows(UINT64_MAX, EDFVD_NO_ROW);
    RETURNS(EDFVD_OK, edfvd_scheduler_close(&s));
}

/* A run that fits its boundary and not the places that are left changes nothing. */
static void too_few_places(void) {
    edfvd_answer a;
    edfvd_look look;
    RETURNS(EDFVD_OK, edfvd_scheduler_open(&s, control, 2, 4, NULL));
    RETURNS(EDFVD_OK, edfvd_scheduler_release(&s, LOG, &a));
    runs(EDFVD_FULL, LOG, 1, 4, true, nothing);
    RETURNS(EDFVD_OK, edfvd_scheduler_look(&s, &look));
    IS(0, look.ticks);
    IS(1, look.rows);
    runs(EDFVD_OK, LOG, 1, 3, true, of_job(EDFVD_DONE, LOG, 1));
    RETURNS(EDFVD_OK, edfvd_scheduler_close(&s));
}

/* Long runs without an end, each of which is one of the runs that are kept. A key that needs more than 64 bits. */
static void long_runs(void) {
    static const edfvd_task slow[] = {{EDFVD_HIGH, 4000000000u, 1000000000u, 3000000000u}, {EDFVD_LOW, 4000000000u, 1, 1}};
    edfvd_answer a;
    edfvd_look look;
    RETURNS(EDFVD_OK, edfvd_scheduler_open_endless_scaled(&s, slow, 2, (uint64_t)1 << 59, (uint64_t)1 << 60, NULL));
    rests(EDFVD_OK, 10000000000, at_tick(EDFVD_IDLE, 0));
    RETURNS(EDFVD_OK, edfvd_scheduler_release(&s, CTL, &a));
    answers(&a, EDFVD_KEPT, CTL, 1, 10000000000);
    has_next(CTL, 1, 1000000000);
    /* 2^60 * 10^10 + 2^59 * 4 * 10^9 = 2^60 * 12 * 10^9, and 12 * 10^9 / 2^4 = 750000000. */
    has_task(CTL, (edfvd_pending){CTL, 1, 0, 10000000000, 14000000000, 750000000, 0}, 14000000000, 0);
    runs(EDFVD_OK, CTL, 1, 999999999, false, of_job(EDFVD_MORE, CTL, 1));
    has_next(CTL, 1, 1);
    runs(EDFVD_OK, CTL, 1, 1, false, of_job(EDFVD_OVER, CTL, 1));
    has_next(CTL, 1, 2000000000);
    runs(EDFVD_OK, CTL, 1, 2000000000, false, of_job(EDFVD_STOP, CTL, 1));
    rests(EDFVD_OK, 10, at_tick(EDFVD_IDLE, 13000000000));
    RETURNS(EDFVD_OK, edfvd_scheduler_look(&s, &look));
    IS(13000000010, look.ticks);
    IS(13000000011, look.rows);
    IS(0, look.high_mode);
    has_rows(0, EDFVD_IDLE, 0, 0, UINT32_MAX);
    has_rows(10000000000 - UINT32_MAX - 1, EDFVD_IDLE, 0, 0, UINT32_MAX);
    has_rows(10000000000 - UINT32_MAX, EDFVD_IDLE, 0, 0, UINT32_MAX);
    has_rows(10000000000 - UINT32_MAX + 1, EDFVD_IDLE, 0, 0, UINT32_MAX - 1);
    has_rows(9999999999, EDFVD_IDLE, 0, 0, 1);
    has_rows(10000000000, EDFVD_KEPT, CTL, 1, 1);
    has_rows(10000000001, EDFVD_MORE, CTL, 1, 999999999);
    has_rows(10999999999, EDFVD_MORE, CTL, 1, 1);
    has_rows(11000000000, EDFVD_OVER, CTL, 1, 1);
    has_rows(11000000001, EDFVD_MORE, CTL, 1, 1999999999);
    has_rows(13000000000, EDFVD_STOP, CTL, 1, 1);
    has_rows(13000000001, EDFVD_IDLE, 0, 0, 10);
    has_rows(13000000010, EDFVD_IDLE, 0, 0, 1);
    has_no_rows(13000000011, EDFVD_NO_ROW);
    RETURNS(EDFVD_OK, edfvd_scheduler_close(&s));
}

static void has_scale(uint64_t p, uint64_t q) {
    edfvd_scale scale;
    PAINTED(scale);
    RETURNS(EDFVD_OK, edfvd_scheduler_scale(&s, &scale));
    IS(p, scale.p);
    IS(q, scale.q);
    RETURNS(EDFVD_OK, edfvd_scheduler_close(&s));
}

/* A scale holds for the control set if 1/2 + (1/5)/x <= 1 and x/2 + 3/5 <= 1: from 2/5 to 4/5. */
static void scales(void) {
    static const edfvd_task plain[] = {{EDFVD_HIGH, 4, 1, 2}, {EDFVD_LOW, 4, 2, 2}};
    static const uint64_t holding[][2] = {{2, 5}, {4, 5}, {1, 2}, {4, 10}, {800, 1000}, {(uint64_t)1 << 59, (uint64_t)1 << 60}};
    static const uint64_t failing[][2] = {{1, 5}, {399, 1000}, {801, 1000}, {1, 1}, {1, (uint64_t)1 << 60}};
    static const uint64_t wrong[][2] = {{0, 1}, {0, UINT64_MAX}, {3, 2}, {1, 0}, {1, ((uint64_t)1 << 60) + 1}, {UINT64_MAX, UINT64_MAX}};
    uint32_t task;
    RETURNS(EDFVD_OK, edfvd_scheduler_open(&s, control, 2, 9, NULL));
    has_scale(2, 5);
    RETURNS(EDFVD_OK, edfvd_scheduler_open_scaled(&s, control, 2, 0, 0, 9, NULL));
    has_scale(2, 5);
    RETURNS(EDFVD_OK, edfvd_scheduler_open_endless(&s, plain, 2, NULL));
    has_scale(0, 0);
    for (size_t n = 0; n < sizeof holding / sizeof *holding; n++) {
        RETURNS(EDFVD_OK, edfvd_scheduler_open_scaled(&s, control, 2, holding[n][0], holding[n][1], 9, NULL));
        has_scale(holding[n][0], holding[n][1]);
        RETURNS(EDFVD_OK, edfvd_scheduler_open_endless_scaled(&s, control, 2, holding[n][0], holding[n][1], NULL));
        has_scale(holding[n][0], holding[n][1]);
    }
    for (size_t n = 0; n < sizeof failing / sizeof *failing; n++) {
        RETURNS(EDFVD_NOT_ADMITTED, edfvd_scheduler_open_scaled(&s, control, 2, failing[n][0], failing[n][1], 9, NULL));
        RETURNS(EDFVD_NOT_ADMITTED, edfvd_scheduler_open_endless_scaled(&s, control, 2, failing[n][0], failing[n][1], NULL));
    }
    for (size_t n = 0; n < sizeof wrong / sizeof *wrong; n++) {
        RETURNS(EDFVD_ARGUMENT, edfvd_scheduler_open_scaled(&s, control, 2, wrong[n][0], wrong[n][1], 9, NULL));
        RETURNS(EDFVD_ARGUMENT, edfvd_scheduler_open_endless_scaled(&s, NULL, 0, wrong[n][0], wrong[n][1], NULL));
    }
    /* As many places as were asked for, also more than 2^16. */
    RETURNS(EDFVD_OK, edfvd_scheduler_open_scaled(&s, control, 2, 2, 5, 70000, NULL));
    rests(EDFVD_OK, 70000, at_tick(EDFVD_IDLE, 0));
    rests(EDFVD_FULL, 1, nothing);
    RETURNS(EDFVD_OK, edfvd_scheduler_close(&s));
    PAINTED(task);
    RETURNS(EDFVD_EMPTY, edfvd_scheduler_open_scaled(&s, NULL, 0, 2, 5, 9, &task));
    IS(0, task);
    RETURNS(EDFVD_LEVEL, edfvd_scheduler_open_endless_scaled(&s, (edfvd_task[]){{2, 10, 1, 1}}, 1, 2, 5, &task));
    IS(1, task);
    RETURNS(EDFVD_NULL, edfvd_scheduler_open_scaled(&s, NULL, 1, 2, 5, 9, &task));
    RETURNS(EDFVD_NULL, edfvd_scheduler_open_endless_scaled(&s, NULL, 1, 2, 5, &task));
}

/* A null pointer for what a call stores: refused, but for an answer. */
static void nulls(void) {
    edfvd_answer a;
    RETURNS(EDFVD_OK, edfvd_scheduler_open(&s, control, 2, 9, NULL));
    RETURNS(EDFVD_NULL, edfvd_scheduler_next(&s, NULL));
    RETURNS(EDFVD_NULL, edfvd_scheduler_pending(&s, CTL, NULL));
    RETURNS(EDFVD_NULL, edfvd_scheduler_earliest(&s, CTL, NULL));
    RETURNS(EDFVD_NULL, edfvd_scheduler_discarded(&s, CTL, NULL));
    RETURNS(EDFVD_NULL, edfvd_scheduler_scale(&s, NULL));
    RETURNS(EDFVD_NULL, edfvd_scheduler_rows(&s, 0, NULL, &(uint32_t){0}));
    RETURNS(EDFVD_NULL, edfvd_scheduler_rows(&s, 0, &(edfvd_row){0, 0, 0}, NULL));
    RETURNS(EDFVD_OK, edfvd_scheduler_idle_for(&s, 2, NULL));
    RETURNS(EDFVD_OK, edfvd_scheduler_release(&s, CTL, &a));
    answers(&a, EDFVD_KEPT, CTL, 1, 2);
    RETURNS(EDFVD_OK, edfvd_scheduler_run(&s, CTL, 1, 1, true, NULL));
    RETURNS(EDFVD_OK, edfvd_scheduler_close(&s));
}

/* A job that was held until an outcome is pending after it exactly if its release was kept: after a done job it is, and after
   an overrun it is not. */
static void held(void) {
    for (int done = 0; done < 2; done++) {
        edfvd_answer a;
        RETURNS(EDFVD_OK, edfvd_scheduler_open(&s, control, 2, 50, NULL));
        RETURNS(EDFVD_OK, edfvd_scheduler_release(&s, CTL, &a));
        runs(EDFVD_OK, CTL, 1, 1, false, of_job(EDFVD_MORE, CTL, 1));
        RETURNS(EDFVD_OK, edfvd_scheduler_grant(&s, CTL, &a));
        RETURNS(EDFVD_OK, edfvd_scheduler_release(&s, LOG, &a));
        answers(&a, EDFVD_HELD, LOG, 1, 2);
        has_task(LOG, none, 12, 0);
        RETURNS(EDFVD_OK, edfvd_scheduler_outcome(&s, CTL, 1, done == 1, &a));
        has_task(LOG, done == 1 ? (edfvd_pending){LOG, 1, 0, 2, 12, 0, 60} : none, 12, 0);
        RETURNS(EDFVD_OK, edfvd_scheduler_close(&s));
    }
}

static void restarts(edfvd_status status, edfvd_answer wanted) {
    edfvd_answer answer;
    PAINTED(answer);
    RETURNS(status, edfvd_scheduler_restart(&s, &answer));
    answers(&answer, wanted.what, wanted.task, wanted.count, wanted.at);
}

/* The ticks and rows so far, and whether the mode is high. */
static void has_counts(uint64_t ticks, uint64_t rows, uint32_t high_mode) {
    edfvd_look look;
    PAINTED(look);
    RETURNS(EDFVD_OK, edfvd_scheduler_look(&s, &look));
    IS(ticks, look.ticks);
    IS(rows, look.rows);
    IS(high_mode, look.high_mode);
}

/* The counts start anew while no job is pending: ctl, released at 0, may be released again at 10, and that is kept over each
   restart. An overrun is over then, and all places are free. */
static void counts_anew(void) {
    for (int endless = 0; endless < 2; endless++) {
        edfvd_answer a;
        RETURNS(EDFVD_OK, endless ? edfvd_scheduler_open_endless(&s, control, 2, NULL) : edfvd_scheduler_open(&s, control, 2, 9, NULL));
        restarts(EDFVD_OK, nothing);
        has_counts(0, 0, 0);
        RETURNS(EDFVD_OK, edfvd_scheduler_release(&s, CTL, &a));
        restarts(EDFVD_PENDING, of_job(0, CTL, 1));
        has_counts(0, 1, 0);
        RETURNS(EDFVD_OK, edfvd_scheduler_grant(&s, CTL, &a));
        restarts(EDFVD_TICK_OUT, of_job(0, CTL, 1));
        RETURNS(EDFVD_OK, edfvd_scheduler_outcome(&s, CTL, 1, false, &a));
        restarts(EDFVD_PENDING, of_job(0, CTL, 1));
        runs(EDFVD_OK, CTL, 1, 1, false, of_job(EDFVD_OVER, CTL, 1));
        runs(EDFVD_OK, CTL, 1, 1, true, of_job(EDFVD_DONE, CTL, 1));
        has_counts(3, 4, 1);
        has_task(CTL, none, 10, 0);
        restarts(EDFVD_OK, nothing);
        has_counts(0, 0, 0);
        has_no_rows(0, EDFVD_NO_ROW);
        has_task(CTL, none, 7, 0);
        has_task(LOG, none, 0, 0);
        RETURNS(EDFVD_TOO_SOON, edfvd_scheduler_release(&s, CTL, &a));
        answers(&a, 0, 0, 0, 7);
        rests(EDFVD_OK, 4, at_tick(EDFVD_IDLE, 0));
        restarts(EDFVD_OK, nothing);
        has_task(CTL, none, 3, 0);
        restarts(EDFVD_OK, nothing);
        has_task(CTL, none, 3, 0);
        RETURNS(EDFVD_OK, edfvd_scheduler_release(&s, LOG, &a));
        answers(&a, EDFVD_KEPT, LOG, 1, 0);
        runs(EDFVD_OK, LOG, 1, 2, true, of_job(EDFVD_DONE, LOG, 1));
        RETURNS(EDFVD_TOO_SOON, edfvd_scheduler_release(&s, CTL, &a));
        rests(EDFVD_OK, 1, at_tick(EDFVD_IDLE, 2));
        RETURNS(EDFVD_OK, edfvd_scheduler_release(&s, CTL, &a));
        answers(&a, EDFVD_KEPT, CTL, 1, 3);
        has_task(CTL, (edfvd_pending){CTL, 1, 0, 3, 13, 0, 35}, 13, 0);
        has_task(LOG, none, 10, 0);
        runs(EDFVD_OK, CTL, 1, 2, true, of_job(EDFVD_DONE, CTL, 1));
        has_rows(0, EDFVD_KEPT, LOG, 1, 1);
        restarts(EDFVD_OK, nothing);
        has_task(CTL, none, 8, 0);
        has_task(LOG, none, 5, 0);
        rests(EDFVD_OK, 9, at_tick(EDFVD_IDLE, 0));
        rests(endless ? EDFVD_OK : EDFVD_FULL, 1, endless ? at_tick(EDFVD_IDLE, 9) : nothing);
        restarts(EDFVD_OK, nothing);
        has_task(CTL, none, 0, 0);
        RETURNS(EDFVD_OK, edfvd_scheduler_close(&s));
    }
}

/* A scheduler without an end takes 2^62 rows: 2^62 - 3 idle ones, a release, and two ticks of its job. The job, released at
   2^62 - 3, is followed by the next one 10 ticks later, which is 8 ticks after the last tick. */
static void the_last_rows(void) {
    const uint64_t most = UINT64_C(1) << 62;
    edfvd_answer a;
    RETURNS(EDFVD_OK, edfvd_scheduler_open_endless(&s, control, 2, NULL));
    rests(EDFVD_FULL, UINT64_MAX, nothing);
    rests(EDFVD_FULL, most + 1, nothing);
    rests(EDFVD_OK, most - 3, at_tick(EDFVD_IDLE, 0));
    RETURNS(EDFVD_OK, edfvd_scheduler_release(&s, CTL, &a));
    answers(&a, EDFVD_KEPT, CTL, 1, most - 3);
    has_next(CTL, 1, 2);
    /* The key is 5 (2^62 - 3) + 20 = 2^64 + 2^62 + 5. */
    has_task(CTL, (edfvd_pending){CTL, 1, 0, most - 3, most + 7, 1, most + 5}, most + 7, 0);
    runs(EDFVD_OK, CTL, 1, 2, true, of_job(EDFVD_DONE, CTL, 1));
    has_counts(most - 1, most, 0);
    rests(EDFVD_FULL, 1, nothing);
    RETURNS(EDFVD_FULL, edfvd_scheduler_idle(&s, &a));
    RETURNS(EDFVD_FULL, edfvd_scheduler_release(&s, LOG, &a));
    has_counts(most - 1, most, 0);
    has_rows(0, EDFVD_IDLE, 0, 0, UINT32_MAX);
    has_rows(most - 4, EDFVD_IDLE, 0, 0, 1);
    has_rows(most - 3, EDFVD_KEPT, CTL, 1, 1);
    has_rows(most - 2, EDFVD_MORE, CTL, 1, 1);
    has_rows(most - 1, EDFVD_DONE, CTL, 1, 1);
    has_no_rows(most, EDFVD_NO_ROW);
    restarts(EDFVD_OK, nothing);
    has_task(CTL, none, 8, 0);
    rests(EDFVD_OK, most, at_tick(EDFVD_IDLE, 0));
    RETURNS(EDFVD_OK, edfvd_scheduler_close(&s));
}

int main(void) {
    each_run();
    too_few_places();
    long_runs();
    scales();
    nulls();
    held();
    counts_anew();
    the_last_rows();
    return ends("runs");
}
