/* The events of a scheduler: what each stores, each refusal with its numbers, and the rows, with an end and without. */
#include "tests.h"

tally tests;

enum { CTL = 1, LOG = 2 };

/* The control set, whose rule is EDF-VD with the scale 2/5: a job of ctl goes before one of log that is released with it. */
static const edfvd_task control[] = {{EDFVD_HIGH, 10, 2, 6}, {EDFVD_LOW, 10, 5, 5}};

static edfvd_scheduler s = EDFVD_NONE;

/* The answer is of this event and job, and has these numbers. */
static void answers(const edfvd_answer *answer, uint32_t what, uint32_t task, uint32_t count, uint32_t before, uint64_t at) {
    IS(what, answer->what);
    IS(task, answer->task);
    IS(count, answer->count);
    IS(before, answer->before);
    IS(at, answer->at);
}

static void looks(uint64_t ticks, uint64_t rows, uint32_t high_mode, uint32_t out, uint32_t chosen) {
    edfvd_look look;
    PAINTED(look);
    RETURNS(EDFVD_OK, edfvd_scheduler_look(&s, &look));
    IS(ticks, look.ticks);
    IS(rows, look.rows);
    IS(high_mode, look.high_mode);
    IS(out, look.out_task);
    IS(out != 0, look.out_count != 0);
    IS(chosen, look.chosen_task);
    IS(chosen != 0, look.chosen_count != 0);
}

static void has_row(uint64_t number, uint32_t event, uint32_t task, uint32_t count) {
    edfvd_row row;
    PAINTED(row);
    RETURNS(EDFVD_OK, edfvd_scheduler_row(&s, number, &row));
    IS(event, row.event);
    IS(task, row.task);
    IS(count, row.count);
}

static void has_no_row(uint64_t number, edfvd_status status) {
    edfvd_row row;
    PAINTED(row);
    RETURNS(status, edfvd_scheduler_row(&s, number, &row));
    IS_ZEROS(row);
}

static void opens(uint32_t places) {
    uint32_t task;
    PAINTED(task);
    RETURNS(EDFVD_OK, edfvd_scheduler_open(&s, control, 2, places, &task));
    IS(0, task);
}

/* Nine events, one of each kind, and the row of each. Tick 0 of ctl goes on; in tick 1, at its low budget, it overruns. The
   release of log was held in tick 1, so it is dropped at the overrun, which comes first. */
static void each_event(void) {
    edfvd_answer a;
    opens(100);
    looks(0, 0, 0, 0, 0);
    RETURNS(EDFVD_OK, edfvd_scheduler_release(&s, CTL, &a));
    answers(&a, EDFVD_KEPT, CTL, 1, 0, 0);
    looks(0, 1, 0, 0, CTL);
    RETURNS(EDFVD_OK, edfvd_scheduler_grant(&s, CTL, &a));
    answers(&a, EDFVD_GIVEN, CTL, 1, 0, 0);
    looks(0, 1, 0, CTL, CTL);
    RETURNS(EDFVD_OK, edfvd_scheduler_outcome(&s, CTL, 1, false, &a));
    answers(&a, EDFVD_MORE, CTL, 1, 0, 0);
    RETURNS(EDFVD_OK, edfvd_scheduler_grant(&s, CTL, &a));
    answers(&a, EDFVD_GIVEN, CTL, 1, 1, 1);
    RETURNS(EDFVD_OK, edfvd_scheduler_release(&s, LOG, &a));
    answers(&a, EDFVD_HELD, LOG, 1, 0, 2);
    looks(1, 2, 0, CTL, CTL);
    RETURNS(EDFVD_OK, edfvd_scheduler_outcome(&s, CTL, 1, false, &a));
    answers(&a, EDFVD_OVER, CTL, 1, 0, 0);
    looks(2, 4, 1, 0, CTL);
    for (uint32_t tick = 2; tick < 6; tick++) {
        RETURNS(EDFVD_OK, edfvd_scheduler_grant(&s, CTL, &a));
        answers(&a, EDFVD_GIVEN, CTL, 1, tick, tick);
        RETURNS(EDFVD_OK, edfvd_scheduler_outcome(&s, CTL, 1, false, &a));
        answers(&a, tick == 5 ? EDFVD_STOP : EDFVD_MORE, CTL, 1, 0, 0);
    }
    looks(6, 8, 1, 0, 0);
    RETURNS(EDFVD_OK, edfvd_scheduler_idle(&s, &a));
    answers(&a, EDFVD_IDLE, 0, 0, 0, 6);
    looks(7, 9, 0, 0, 0);
    has_row(0, EDFVD_KEPT, CTL, 1);
    has_row(1, EDFVD_MORE, CTL, 1);
    has_row(2, EDFVD_OVER, CTL, 1);
    has_row(3, EDFVD_DROPPED, LOG, 1);
    has_row(4, EDFVD_MORE, CTL, 1);
    has_row(7, EDFVD_STOP, CTL, 1);
    has_row(8, EDFVD_IDLE, 0, 0);
    has_no_row(9, EDFVD_NO_ROW);
    RETURNS(EDFVD_OK, edfvd_scheduler_close(&s));
}

/* A low job is dropped in high mode, kept after an idle tick, done before its budget; without an answer to store, all alike. */
static void dropped_and_done(void) {
    edfvd_answer a;
    opens(100);
    RETURNS(EDFVD_OK, edfvd_scheduler_release(&s, CTL, NULL));
    for (uint32_t tick = 0; tick < 2; tick++) {
        RETURNS(EDFVD_OK, edfvd_scheduler_grant(&s, CTL, NULL));
        RETURNS(EDFVD_OK, edfvd_scheduler_outcome(&s, CTL, 1, false, NULL));
    }
    RETURNS(EDFVD_OK, edfvd_scheduler_release(&s, LOG, &a));
    answers(&a, EDFVD_DROPPED, LOG, 1, 0, 2);
    RETURNS(EDFVD_OK, edfvd_scheduler_grant(&s, CTL, NULL));
    RETURNS(EDFVD_OK, edfvd_scheduler_outcome(&s, CTL, 1, true, NULL));
    for (uint32_t tick = 3; tick < 12; tick++) RETURNS(EDFVD_OK, edfvd_scheduler_idle(&s, NULL));
    RETURNS(EDFVD_OK, edfvd_scheduler_release(&s, LOG, &a));
    answers(&a, EDFVD_KEPT, LOG, 2, 0, 12);
    RETURNS(EDFVD_OK, edfvd_scheduler_grant(&s, LOG, &a));
    answers(&a, EDFVD_GIVEN, LOG, 2, 0, 12);
    RETURNS(EDFVD_OK, edfvd_scheduler_outcome(&s, LOG, 2, true, &a));
    answers(&a, EDFVD_DONE, LOG, 2, 0, 0);
    RETURNS(EDFVD_OK, edfvd_scheduler_close(&s));
}

/* Each refusal of an event, after which nothing has changed. */
static void refusals(void) {
    edfvd_answer a;
    opens(100);
    static const uint32_t strangers[] = {0, 3, UINT32_MAX};
    for (size_t place = 0; place < 3; place++) {
        PAINTED(a);
        RETURNS(EDFVD_NO_TASK, edfvd_scheduler_release(&s, strangers[place], &a));
        IS_ZEROS(a);
        PAINTED(a);
        RETURNS(EDFVD_NO_TASK, edfvd_scheduler_grant(&s, strangers[place], &a));
        IS_ZEROS(a);
        RETURNS(EDFVD_NO_TASK, edfvd_scheduler_release(&s, strangers[place], NULL));
    }
    PAINTED(a);
    RETURNS(EDFVD_NOT_CHOSEN, edfvd_scheduler_grant(&s, CTL, &a));
    IS_ZEROS(a);
    PAINTED(a);
    RETURNS(EDFVD_NOT_OUT, edfvd_scheduler_outcome(&s, CTL, 1, true, &a));
    IS_ZEROS(a);
    looks(0, 0, 0, 0, 0);
    RETURNS(EDFVD_OK, edfvd_scheduler_idle(&s, NULL));
    RETURNS(EDFVD_OK, edfvd_scheduler_release(&s, LOG, NULL));
    RETURNS(EDFVD_OK, edfvd_scheduler_release(&s, CTL, NULL));
    PAINTED(a);
    RETURNS(EDFVD_TOO_SOON, edfvd_scheduler_release(&s, CTL, &a));
    answers(&a, 0, 0, 0, 0, 11);
    PAINTED(a);
    RETURNS(EDFVD_NOT_CHOSEN, edfvd_scheduler_grant(&s, LOG, &a));
    answers(&a, 0, CTL, 1, 0, 0);
    PAINTED(a);
    RETURNS(EDFVD_PENDING, edfvd_scheduler_idle(&s, &a));
    answers(&a, 0, CTL, 1, 0, 0);
    RETURNS(EDFVD_OK, edfvd_scheduler_grant(&s, CTL, NULL));
    for (uint32_t task = CTL; task <= LOG; task++) {
        PAINTED(a);
        RETURNS(EDFVD_TICK_OUT, edfvd_scheduler_grant(&s, task, &a));
        answers(&a, 0, CTL, 1, 0, 0);
    }
    PAINTED(a);
    RETURNS(EDFVD_TICK_OUT, edfvd_scheduler_idle(&s, &a));
    answers(&a, 0, CTL, 1, 0, 0);
    PAINTED(a);
    RETURNS(EDFVD_RUNNING, edfvd_scheduler_release(&s, CTL, &a));
    answers(&a, 0, CTL, 1, 0, 0);
    PAINTED(a);
    RETURNS(EDFVD_NOT_OUT, edfvd_scheduler_outcome(&s, CTL, 2, true, &a));
    answers(&a, 0, CTL, 1, 0, 0);
    PAINTED(a);
    RETURNS(EDFVD_NOT_OUT, edfvd_scheduler_outcome(&s, LOG, 1, true, &a));
    answers(&a, 0, CTL, 1, 0, 0);
    looks(1, 3, 0, CTL, CTL);
    RETURNS(EDFVD_OK, edfvd_scheduler_close(&s));
}

/* Two places: one for a release and one for its tick. A held release takes one, too. */
static void full(void) {
    edfvd_answer a;
    opens(2);
    RETURNS(EDFVD_OK, edfvd_scheduler_release(&s, CTL, NULL));
    RETURNS(EDFVD_OK, edfvd_scheduler_grant(&s, CTL, NULL));
    PAINTED(a);
    RETURNS(EDFVD_FULL, edfvd_scheduler_release(&s, LOG, &a));
    IS_ZEROS(a);
    RETURNS(EDFVD_OK, edfvd_scheduler_outcome(&s, CTL, 1, false, NULL)); /* its place was taken by the grant */
    PAINTED(a);
    RETURNS(EDFVD_FULL, edfvd_scheduler_grant(&s, CTL, &a));
    IS_ZEROS(a);
    RETURNS(EDFVD_OK, edfvd_scheduler_close(&s));
    opens(3);
    RETURNS(EDFVD_OK, edfvd_scheduler_release(&s, CTL, NULL));
    RETURNS(EDFVD_OK, edfvd_scheduler_grant(&s, CTL, NULL));
    RETURNS(EDFVD_OK, edfvd_scheduler_release(&s, LOG, &a));
    answers(&a, EDFVD_HELD, LOG, 1, 0, 1);
    RETURNS(EDFVD_OK, edfvd_scheduler_outcome(&s, CTL, 1, true, NULL));
    looks(1, 3, 0, 0, LOG);
    RETURNS(EDFVD_FULL, edfvd_scheduler_grant(&s, LOG, NULL));
    RETURNS(EDFVD_OK, edfvd_scheduler_close(&s));
    opens(1);
    RETURNS(EDFVD_OK, edfvd_scheduler_idle(&s, NULL));
    PAINTED(a);
    RETURNS(EDFVD_FULL, edfvd_scheduler_idle(&s, &a));
    IS_ZEROS(a);
    RETURNS(EDFVD_OK, edfvd_scheduler_close(&s));
    opens(0);
    RETURNS(EDFVD_FULL, edfvd_scheduler_idle(&s, NULL));
    RETURNS(EDFVD_FULL, edfvd_scheduler_release(&s, CTL, NULL));
    RETURNS(EDFVD_OK, edfvd_scheduler_close(&s));
}

/* More places than 16 bits can count. */
static void many_places(void) {
    enum { MANY = 65536 + 3 };
    uint32_t idles = 0;
    opens(MANY);
    while (idles < MANY && edfvd_scheduler_idle(&s, NULL) == EDFVD_OK) idles++;
    IS(MANY, idles);
    RETURNS(EDFVD_FULL, edfvd_scheduler_idle(&s, NULL));
    looks(MANY, MANY, 0, 0, 0);
    has_row(MANY - 1, EDFVD_IDLE, 0, 0);
    has_no_row(MANY, EDFVD_NO_ROW);
    RETURNS(EDFVD_OK, edfvd_scheduler_close(&s));
}

/* A row's number has 64 bits: 2^32 and 2^32 + 1 are not 0 and 1. */
static void row_numbers(void) {
    static const uint64_t none[] = {2, 3, UINT64_C(1) << 32, (UINT64_C(1) << 32) + 1, UINT64_C(1) << 63, UINT64_MAX};
    for (int endless = 0; endless < 2; endless++) {
        if (endless)
            RETURNS(EDFVD_OK, edfvd_scheduler_open_endless(&s, control, 2, NULL));
        else
            opens(10);
        RETURNS(EDFVD_OK, edfvd_scheduler_release(&s, LOG, NULL));
        has_row(0, EDFVD_KEPT, LOG, 1);
        has_no_row(1, EDFVD_NO_ROW);
        RETURNS(EDFVD_OK, edfvd_scheduler_release(&s, CTL, NULL));
        has_row(1, EDFVD_KEPT, CTL, 1);
        for (size_t place = 0; place < sizeof none / sizeof *none; place++) has_no_row(none[place], EDFVD_NO_ROW);
        RETURNS(EDFVD_OK, edfvd_scheduler_close(&s));
    }
}

/* A scheduler without an end keeps its latest 256 runs of equal rows. A job of ctl in each ten ticks, done in its first, makes
   three runs of 11 rows: its release, its tick and nine idle ticks. So 85 jobs make 255 runs of 935 rows. */
static void latest_rows(void) {
    RETURNS(EDFVD_OK, edfvd_scheduler_open_endless(&s, control, 2, NULL));
    for (uint32_t job = 1; job <= 85; job++) {
        RETURNS(EDFVD_OK, edfvd_scheduler_release(&s, CTL, NULL));
        RETURNS(EDFVD_OK, edfvd_scheduler_grant(&s, CTL, NULL));
        RETURNS(EDFVD_OK, edfvd_scheduler_outcome(&s, CTL, job, true, NULL));
        for (int tick = 0; tick < 9; tick++) RETURNS(EDFVD_OK, edfvd_scheduler_idle(&s, NULL));
    }
    RETURNS(EDFVD_OK, edfvd_scheduler_release(&s, CTL, NULL));
    has_row(0, EDFVD_KEPT, CTL, 1);
    has_row(935, EDFVD_KEPT, CTL, 86);
    has_no_row(936, EDFVD_NO_ROW);
    RETURNS(EDFVD_OK, edfvd_scheduler_grant(&s, CTL, NULL));
    RETURNS(EDFVD_OK, edfvd_scheduler_outcome(&s, CTL, 86, true, NULL));
    has_no_row(0, EDFVD_GONE);
    has_row(1, EDFVD_DONE, CTL, 1);
    RETURNS(EDFVD_OK, edfvd_scheduler_idle(&s, NULL));
    has_no_row(1, EDFVD_GONE);
    has_row(2, EDFVD_IDLE, 0, 0);
    for (int tick = 0; tick < 8; tick++) RETURNS(EDFVD_OK, edfvd_scheduler_idle(&s, NULL));
    has_row(2, EDFVD_IDLE, 0, 0);
    has_row(945, EDFVD_IDLE, 0, 0);
    has_no_row(946, EDFVD_NO_ROW);
    RETURNS(EDFVD_OK, edfvd_scheduler_release(&s, CTL, NULL));
    has_no_row(2, EDFVD_GONE);
    has_no_row(10, EDFVD_GONE);
    has_row(11, EDFVD_KEPT, CTL, 2);
    RETURNS(EDFVD_OK, edfvd_scheduler_close(&s));
}

/* One event makes at most one row more than there are tasks: 127 releases held in a tick, and the row of that tick. */
static void most_rows_of_an_event(void) {
    edfvd_task tasks[128];
    for (size_t place = 0; place < 128; place++) tasks[place] = (edfvd_task){EDFVD_LOW, 1000, 1, 1};
    RETURNS(EDFVD_OK, edfvd_scheduler_open_endless(&s, tasks, 128, NULL));
    RETURNS(EDFVD_OK, edfvd_scheduler_release(&s, 1, NULL));
    RETURNS(EDFVD_OK, edfvd_scheduler_grant(&s, 1, NULL));
    for (uint32_t task = 2; task <= 128; task++) RETURNS(EDFVD_OK, edfvd_scheduler_release(&s, task, NULL));
    looks(0, 1, 0, 1, 1);
    RETURNS(EDFVD_OK, edfvd_scheduler_outcome(&s, 1, 1, true, NULL));
    looks(1, 129, 0, 0, 2);
    has_row(1, EDFVD_DONE, 1, 1);
    for (uint32_t task = 2; task <= 128; task++) has_row(task, EDFVD_KEPT, task, 1);
    RETURNS(EDFVD_OK, edfvd_scheduler_close(&s));
}

/* A set that is refused leaves the scheduler closed, whichever way it was to be opened. */
static void opens_refused(void) {
    static const edfvd_task unknown[] = {{EDFVD_LOW, 10, 1, 1}, {7, 10, 1, 1}};
    static const edfvd_task zero[] = {{EDFVD_LOW, 10, 1, 1}, {EDFVD_LOW, 10, 1, 1}, {EDFVD_LOW, 0, 1, 1}};
    static const edfvd_task order[] = {{EDFVD_HIGH, 10, 2, 1}};
    static const edfvd_task beyond[] = {{EDFVD_LOW, 2147483648u, 1, 1}, {EDFVD_LOW, 536870911u, 1, 1}, {EDFVD_LOW, 3, 1, 1}};
    static const edfvd_task above[] = {{EDFVD_LOW, 10, 11, 11}};
    static const edfvd_task many[129] = {{EDFVD_LOW, 10, 1, 1}};
    static const struct {
        const edfvd_task *tasks;
        size_t count;
        edfvd_status status;
        uint32_t task;
    } bad[] = {
        {unknown, 2, EDFVD_LEVEL, 2},  {zero, 3, EDFVD_ZERO_NUMBER, 3},   {order, 1, EDFVD_BUDGET_ORDER, 1},
        {beyond, 3, EDFVD_PERIODS, 3}, {above, 1, EDFVD_NOT_ADMITTED, 0}, {many, 129, EDFVD_TOO_MANY, 0},
        {above, 0, EDFVD_EMPTY, 0},    {NULL, 0, EDFVD_EMPTY, 0},
    };
    for (size_t place = 0; place < sizeof bad / sizeof *bad; place++) {
        uint32_t task;
        PAINTED(task);
        RETURNS(bad[place].status, edfvd_scheduler_open(&s, bad[place].tasks, bad[place].count, 10, &task));
        IS(bad[place].task, task);
        RETURNS(bad[place].status, edfvd_scheduler_open(&s, bad[place].tasks, bad[place].count, 10, NULL));
        PAINTED(task);
        RETURNS(bad[place].status, edfvd_scheduler_open_endless(&s, bad[place].tasks, bad[place].count, &task));
        IS(bad[place].task, task);
        RETURNS(bad[place].status, edfvd_scheduler_open_endless(&s, bad[place].tasks, bad[place].count, NULL));
        RETURNS(EDFVD_CLOSED, edfvd_scheduler_close(&s));
    }
}

int main(void) {
    each_event();
    dropped_and_done();
    refusals();
    full();
    many_places();
    row_numbers();
    latest_rows();
    most_rows_of_an_event();
    opens_refused();
    return ends("events");
}
