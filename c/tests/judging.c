/* The judge and the monitor: verdicts by hand, the scales that are taken and those that are not, each refusal, and late jobs. */
#include "tests.h"
#include <stdlib.h>

tally tests;

enum { CTL = 1, LOG = 2, MOST_ROWS = 2000000 };

/* The control set: the published test gives it EDF-VD with the scale 2/5. */
static const edfvd_task control[] = {{EDFVD_HIGH, 10, 2, 6}, {EDFVD_LOW, 10, 5, 5}};

/* Both tasks need all ticks, so the published test does not admit the set. */
static const edfvd_task overload[] = {{EDFVD_LOW, 4, 4, 4}, {EDFVD_LOW, 4, 4, 4}};

static const edfvd_task long_periods[] = {{EDFVD_LOW, 2147483648u, 1, 1}, {EDFVD_LOW, 536870911u, 1, 1}, {EDFVD_LOW, 3, 1, 1}};

static const edfvd_row kept = {EDFVD_KEPT, CTL, 1}, idle = {EDFVD_IDLE, 0, 0};

static void judged(const edfvd_task *tasks, const edfvd_row *rows, size_t length, uint64_t p, uint64_t q,
                   edfvd_verdict wanted) {
    edfvd_verdict verdict;
    PAINTED(verdict);
    RETURNS(EDFVD_OK, edfvd_judge(tasks, 2, rows, length, p, q, &verdict));
    IS(wanted.why, verdict.why);
    IS(wanted.task, verdict.task);
    IS(wanted.count, verdict.count);
    IS(wanted.late, verdict.late);
    IS(wanted.place, verdict.place);
}

/* A row of each kind that does not fit. With x = 2/5 a job of ctl that is released with one of log comes first; with x = 1 they
   have one deadline, so either may run. */
static void verdicts(void) {
    static const struct {
        edfvd_row rows[4];
        size_t length;
        uint32_t why;
    } bad[] = {
        {{{EDFVD_KEPT, CTL, 1}, {EDFVD_DONE, CTL, 1}, {EDFVD_KEPT, CTL, 2}}, 3, EDFVD_WHY_TOO_SOON},
        {{{EDFVD_KEPT, CTL, 2}}, 1, EDFVD_WHY_WRONG_COUNT},
        {{{EDFVD_DROPPED, LOG, 1}}, 1, EDFVD_WHY_WRONG_KEPT},
        {{{EDFVD_MORE, CTL, 1}}, 1, EDFVD_WHY_NOT_PENDING},
        {{{EDFVD_KEPT, CTL, 1}, {EDFVD_KEPT, LOG, 1}, {EDFVD_MORE, LOG, 1}}, 3, EDFVD_WHY_NOT_LEAST},
        {{{EDFVD_KEPT, CTL, 1}, {EDFVD_OVER, CTL, 1}}, 2, EDFVD_WHY_WRONG_HOW},
        {{{EDFVD_KEPT, CTL, 1}, {EDFVD_MORE, CTL, 1}, {EDFVD_IDLE, 0, 0}}, 3, EDFVD_WHY_IDLE_PENDING},
    };
    for (size_t place = 0; place < sizeof bad / sizeof *bad; place++)
        judged(control, bad[place].rows, bad[place].length, 0, 0, (edfvd_verdict){bad[place].why, 0, 0, 0, bad[place].length});
    judged(control, bad[4].rows, 3, 1, 1, (edfvd_verdict){EDFVD_FITS, 0, 0, 0, 0});
    judged(control, NULL, 0, 0, 0, (edfvd_verdict){EDFVD_FITS, 0, 0, 0, 0});
    /* Task 1 has all four ticks, so the job of task 2 is late at its deadline, and is the one that was released first. */
    static const edfvd_row late[] = {{EDFVD_KEPT, 2, 1}, {EDFVD_KEPT, 1, 1}, {EDFVD_MORE, 1, 1},
                                     {EDFVD_MORE, 1, 1}, {EDFVD_MORE, 1, 1}, {EDFVD_DONE, 1, 1}};
    judged(overload, late, 6, 1, 1, (edfvd_verdict){EDFVD_FITS, 2, 1, 1, 0});
    judged(overload, late, 5, 1, 1, (edfvd_verdict){EDFVD_FITS, 0, 0, 0, 0});
}

/* p and q: 0 and 0 stand for the published rule, and 1 <= p <= q <= 2^60 for a scale. All else is EDFVD_ARGUMENT. */
static void scales(void) {
    static const uint64_t most = UINT64_C(1) << 60;
    static const uint64_t good[][2] = {{0, 0}, {1, 1}, {2, 5}, {1, most}, {most, most}, {most - 1, most}};
    static const uint64_t bad[][2] = {{0, 1},          {0, 5}, {0, most},       {0, UINT64_MAX},         {1, 0},
                                      {2, 1},          {3, 2}, {1, most + 1},   {most, most + 1},        {most + 1, most + 1},
                                      {UINT64_MAX, 0}, {5, 4}, {UINT64_MAX, 1}, {UINT64_MAX, UINT64_MAX}};
    edfvd_monitor m = EDFVD_NONE;
    edfvd_verdict verdict;
    uint32_t task;
    for (size_t place = 0; place < sizeof good / sizeof *good; place++) {
        RETURNS(EDFVD_OK, edfvd_judge(control, 2, &kept, 1, good[place][0], good[place][1], &verdict));
        PAINTED(task);
        RETURNS(EDFVD_OK, edfvd_monitor_open(&m, control, 2, good[place][0], good[place][1], &task));
        IS(0, task);
        RETURNS(EDFVD_OK, edfvd_monitor_close(&m));
    }
    for (size_t place = 0; place < sizeof bad / sizeof *bad; place++) {
        uint64_t p = bad[place][0], q = bad[place][1];
        PAINTED(verdict);
        RETURNS(EDFVD_ARGUMENT, edfvd_judge(control, 2, &kept, 1, p, q, &verdict));
        verdict_is_zeros(&verdict);
        PAINTED(verdict);
        RETURNS(EDFVD_ARGUMENT, edfvd_judge(overload, 2, NULL, 0, p, q, &verdict)); /* not a set that is not admitted */
        verdict_is_zeros(&verdict);
        PAINTED(task);
        RETURNS(EDFVD_ARGUMENT, edfvd_monitor_open(&m, control, 2, p, q, &task));
        IS(0, task);
        RETURNS(EDFVD_CLOSED, edfvd_monitor_close(&m));
    }
    RETURNS(EDFVD_OK, edfvd_monitor_open(&m, control, 2, 0, 0, NULL));
    RETURNS(EDFVD_OPEN, edfvd_monitor_open(&m, control, 2, 0, 1, NULL));
    RETURNS(EDFVD_OK, edfvd_monitor_close(&m));
}

/* Each set that is none, and what only the published rule needs of a set. */
static void sets_refused(void) {
    static const struct {
        edfvd_task tasks[2];
        size_t count;
        edfvd_status status;
        uint32_t task;
    } bad[] = {
        {{{EDFVD_LOW, 10, 1, 1}, {2, 10, 1, 1}}, 2, EDFVD_LEVEL, 2},
        {{{EDFVD_LOW, 0, 1, 1}, {EDFVD_LOW, 10, 1, 1}}, 2, EDFVD_ZERO_NUMBER, 1},
        {{{EDFVD_LOW, 10, 1, 1}, {EDFVD_HIGH, 10, 2, 1}}, 2, EDFVD_BUDGET_ORDER, 2},
        {{{EDFVD_LOW, 10, 1, 1}}, 0, EDFVD_EMPTY, 0},
    };
    edfvd_monitor m = EDFVD_NONE;
    edfvd_verdict verdict;
    uint32_t task;
    for (uint64_t p = 0; p < 2; p++)
        for (size_t place = 0; place < sizeof bad / sizeof *bad; place++) {
            PAINTED(verdict);
            RETURNS(bad[place].status, edfvd_judge(bad[place].tasks, bad[place].count, &idle, 1, p, p, &verdict));
            IS(bad[place].task, verdict.task);
            verdict.task = 0;
            verdict_is_zeros(&verdict);
            PAINTED(task);
            RETURNS(bad[place].status, edfvd_monitor_open(&m, bad[place].tasks, bad[place].count, p, p, &task));
            IS(bad[place].task, task);
        }
    static const edfvd_task many[129] = {{EDFVD_LOW, 10, 1, 1}};
    RETURNS(EDFVD_TOO_MANY, edfvd_judge(many, 129, &idle, 1, 1, 1, &verdict));
    RETURNS(EDFVD_TOO_MANY, edfvd_monitor_open(&m, many, 129, 1, 1, &task));
    RETURNS(EDFVD_NOT_ADMITTED, edfvd_judge(overload, 2, &idle, 1, 0, 0, &verdict));
    verdict_is_zeros(&verdict);
    RETURNS(EDFVD_NOT_ADMITTED, edfvd_monitor_open(&m, overload, 2, 0, 0, &task));
    IS(0, task);
    RETURNS(EDFVD_PERIODS, edfvd_judge(long_periods, 3, &idle, 1, 0, 0, &verdict));
    IS(3, verdict.task);
    RETURNS(EDFVD_PERIODS, edfvd_monitor_open(&m, long_periods, 3, 0, 0, &task));
    IS(3, task);
    RETURNS(EDFVD_OK, edfvd_judge(long_periods, 3, &idle, 1, 1, 1, &verdict));
    RETURNS(EDFVD_OK, edfvd_monitor_open(&m, long_periods, 3, 1, 1, &task));
    RETURNS(EDFVD_OK, edfvd_monitor_close(&m));
    PAINTED(verdict);
    RETURNS(EDFVD_NULL, edfvd_judge(NULL, 2, &idle, 1, 1, 1, &verdict));
    RETURNS(EDFVD_NULL, edfvd_judge(control, 2, NULL, 1, 1, 1, &verdict));
    IS_PAINTED(verdict);
    RETURNS(EDFVD_NULL, edfvd_judge(control, 2, &idle, 1, 1, 1, NULL));
}

/* Rows of no kind, and of tasks that the set does not have: refused by the judge and by a monitor. */
static void rows_refused(void) {
    static const edfvd_row no_kind[] = {{0, 1, 1},          {EDFVD_HELD, 1, 1}, {EDFVD_GIVEN, 1, 1}, {10, 1, 1},
                                        {UINT32_MAX, 1, 1}, {EDFVD_IDLE, 1, 0}, {EDFVD_IDLE, 0, 1}};
    static const edfvd_row strangers[] = {{EDFVD_KEPT, 0, 1}, {EDFVD_KEPT, 3, 1}, {EDFVD_DROPPED, 3, 1},
                                          {EDFVD_MORE, 3, 1}, {EDFVD_DONE, 0, 1}, {EDFVD_STOP, UINT32_MAX, 1},
                                          {EDFVD_OVER, 3, 1}};
    edfvd_monitor m = EDFVD_NONE;
    edfvd_verdict verdict;
    edfvd_unfit unfit;
    RETURNS(EDFVD_OK, edfvd_monitor_open(&m, control, 2, 0, 0, NULL));
    for (size_t place = 0; place < sizeof no_kind / sizeof *no_kind + sizeof strangers / sizeof *strangers; place++) {
        bool is_kind = place >= sizeof no_kind / sizeof *no_kind;
        edfvd_row row = is_kind ? strangers[place - sizeof no_kind / sizeof *no_kind] : no_kind[place];
        edfvd_status wanted = is_kind ? EDFVD_NO_TASK : EDFVD_ARGUMENT;
        PAINTED(verdict);
        RETURNS(wanted, edfvd_judge(control, 2, (const edfvd_row[]){idle, row}, 2, 0, 0, &verdict));
        verdict_is_zeros(&verdict);
        PAINTED(unfit);
        RETURNS(wanted, edfvd_monitor_observe(&m, &row, 1, &unfit));
        unfit_is_zeros(&unfit);
        RETURNS(wanted, edfvd_monitor_observe(&m, &row, 1, NULL));
        PAINTED(unfit);
        RETURNS(wanted, edfvd_monitor_would_fit(&m, &row, 1, &unfit));
        unfit_is_zeros(&unfit);
    }
    edfvd_watch watch;
    RETURNS(EDFVD_OK, edfvd_monitor_look(&m, &watch));
    IS(0, watch.rows);
    RETURNS(EDFVD_OK, edfvd_monitor_close(&m));
}

/* How many times a row may come: once, except ticks after which the job goes on, and idle ticks. */
static void times(void) {
    static const uint32_t once[] = {EDFVD_KEPT, EDFVD_DROPPED, EDFVD_DONE, EDFVD_STOP, EDFVD_OVER};
    static const uint32_t wrong[] = {0, 2, UINT32_MAX};
    edfvd_monitor m = EDFVD_NONE;
    edfvd_unfit unfit;
    RETURNS(EDFVD_OK, edfvd_monitor_open(&m, control, 2, 0, 0, NULL));
    for (size_t event = 0; event < 5; event++)
        for (size_t number = 0; number < 3; number++) {
            edfvd_row row = {once[event], CTL, 1};
            PAINTED(unfit);
            RETURNS(EDFVD_ARGUMENT, edfvd_monitor_observe(&m, &row, wrong[number], &unfit));
            unfit_is_zeros(&unfit);
            PAINTED(unfit);
            RETURNS(EDFVD_ARGUMENT, edfvd_monitor_would_fit(&m, &row, wrong[number], &unfit));
            unfit_is_zeros(&unfit);
        }
    RETURNS(EDFVD_ARGUMENT, edfvd_monitor_observe(&m, &idle, 0, &unfit));
    RETURNS(EDFVD_ARGUMENT, edfvd_monitor_would_fit(&m, &(edfvd_row){EDFVD_MORE, CTL, 1}, 0, &unfit));
    RETURNS(EDFVD_OK, edfvd_monitor_observe(&m, &idle, UINT32_MAX, &unfit));
    edfvd_watch watch;
    RETURNS(EDFVD_OK, edfvd_monitor_look(&m, &watch));
    IS(UINT32_MAX, watch.ticks);
    IS(UINT32_MAX, watch.rows);
    RETURNS(EDFVD_OK, edfvd_monitor_close(&m));
}

/* 2,000,000 rows are judged, and one more is not. */
static void too_many_rows(void) {
    edfvd_row *rows = malloc((MOST_ROWS + 1) * sizeof *rows);
    edfvd_verdict verdict;
    IS(1, rows != NULL);
    if (rows == NULL) return;
    for (size_t place = 0; place <= MOST_ROWS; place++) rows[place] = idle;
    RETURNS(EDFVD_OK, edfvd_judge(control, 2, rows, MOST_ROWS, 0, 0, &verdict));
    verdict_is_zeros(&verdict);
    PAINTED(verdict);
    RETURNS(EDFVD_FULL, edfvd_judge(control, 2, rows, MOST_ROWS + 1, 0, 0, &verdict));
    verdict_is_zeros(&verdict);
    free(rows);
}

/* Idle ticks while a job is pending do not fit, and a monitor that is only asked about them has not seen them. No test comes to
   EDFVD_FULL: the monitor takes 2^62 rows, and a call at most 2^32 - 1 of them. */
static void only_asked(void) {
    edfvd_monitor m = EDFVD_NONE;
    edfvd_unfit unfit;
    edfvd_watch watch;
    RETURNS(EDFVD_OK, edfvd_monitor_open(&m, control, 2, 0, 0, NULL));
    RETURNS(EDFVD_OK, edfvd_monitor_observe(&m, &kept, 1, &unfit));
    RETURNS(EDFVD_OK, edfvd_monitor_would_fit(&m, &idle, UINT32_MAX, &unfit));
    IS(EDFVD_WHY_IDLE_PENDING, unfit.why);
    IS(2, unfit.place);
    RETURNS(EDFVD_OK, edfvd_monitor_look(&m, &watch));
    IS(1, watch.rows);
    IS(0, watch.ticks);
    IS(1, watch.pending);
    IS(1, watch.legal);
    RETURNS(EDFVD_OK, edfvd_monitor_close(&m));
}

/* What a monitor sees: the clock, the mode and the counts after each row, and the first row that does not fit ever after. */
static void watches(void) {
    static const struct {
        edfvd_row row;
        uint32_t times;
        edfvd_watch after;
    } steps[] = {
        {{EDFVD_KEPT, CTL, 1}, 1, {1, 0, 1, 1, 0}}, {{EDFVD_KEPT, LOG, 1}, 1, {2, 0, 2, 1, 0}},
        {{EDFVD_MORE, CTL, 1}, 1, {3, 1, 2, 1, 0}}, {{EDFVD_OVER, CTL, 1}, 1, {4, 2, 1, 1, 1}},
        {{EDFVD_MORE, CTL, 1}, 3, {7, 5, 1, 1, 1}}, {{EDFVD_STOP, CTL, 1}, 1, {8, 6, 0, 1, 1}},
        {{EDFVD_IDLE, 0, 0}, 4, {12, 10, 0, 1, 0}}, {{EDFVD_KEPT, CTL, 2}, 1, {13, 10, 1, 1, 0}},
    };
    edfvd_monitor m = EDFVD_NONE;
    edfvd_unfit unfit;
    edfvd_watch watch;
    edfvd_verdict verdict;
    RETURNS(EDFVD_OK, edfvd_monitor_open(&m, control, 2, 0, 0, NULL));
    for (size_t place = 0; place < sizeof steps / sizeof *steps; place++) {
        PAINTED(unfit);
        RETURNS(EDFVD_OK, edfvd_monitor_would_fit(&m, &steps[place].row, steps[place].times, &unfit));
        unfit_is_zeros(&unfit);
        PAINTED(unfit);
        RETURNS(EDFVD_OK, edfvd_monitor_observe(&m, &steps[place].row, steps[place].times, &unfit));
        unfit_is_zeros(&unfit);
        PAINTED(watch);
        RETURNS(EDFVD_OK, edfvd_monitor_look(&m, &watch));
        IS(0, memcmp(&watch, &steps[place].after, sizeof watch));
    }
    edfvd_row more = {EDFVD_MORE, CTL, 2};
    RETURNS(EDFVD_OK, edfvd_monitor_would_fit(&m, &more, 5, &unfit)); /* the second tick passes the low budget */
    IS(EDFVD_WHY_WRONG_HOW, unfit.why);
    IS(15, unfit.place);
    RETURNS(EDFVD_OK, edfvd_monitor_observe(&m, &more, 5, &unfit));
    IS(EDFVD_WHY_WRONG_HOW, unfit.why);
    IS(15, unfit.place);
    RETURNS(EDFVD_OK, edfvd_monitor_look(&m, &watch));
    edfvd_watch broken = {14, 11, 1, 0, 0}; /* of the five that came with one call the first fits */
    IS(0, memcmp(&watch, &broken, sizeof watch));
    for (int again = 0; again < 2; again++) {
        RETURNS(EDFVD_OK, edfvd_monitor_observe(&m, &idle, 1, &unfit));
        IS(EDFVD_WHY_WRONG_HOW, unfit.why);
        IS(15, unfit.place);
    }
    RETURNS(EDFVD_OK, edfvd_monitor_verdict(&m, &verdict));
    IS(EDFVD_WHY_WRONG_HOW, verdict.why);
    IS(15, verdict.place);
    IS(0, verdict.task | verdict.count | verdict.late);
    RETURNS(EDFVD_OK, edfvd_monitor_close(&m));
}

/* Jobs of three tasks that all need all their ticks. Task 3 has ticks 0 to 2 and is not late. The job of task 1 is late at 4,
   and that of task 2 at 6. */
static void late_jobs(void) {
    static const edfvd_task three[] = {{EDFVD_LOW, 4, 4, 4}, {EDFVD_LOW, 6, 4, 4}, {EDFVD_LOW, 3, 3, 3}};
    edfvd_monitor m = EDFVD_NONE;
    edfvd_late late[3];
    uint64_t count;
    edfvd_verdict verdict;
    RETURNS(EDFVD_OK, edfvd_monitor_open(&m, three, 3, 1, 1, NULL));
    for (uint32_t task = 1; task <= 3; task++)
        RETURNS(EDFVD_OK, edfvd_monitor_observe(&m, &(edfvd_row){EDFVD_KEPT, task, 1}, 1, NULL));
    RETURNS(EDFVD_OK, edfvd_monitor_observe(&m, &(edfvd_row){EDFVD_MORE, 3, 1}, 2, NULL));
    RETURNS(EDFVD_OK, edfvd_monitor_observe(&m, &(edfvd_row){EDFVD_STOP, 3, 1}, 1, NULL));
    RETURNS(EDFVD_OK, edfvd_monitor_observe(&m, &(edfvd_row){EDFVD_MORE, 1, 1}, 3, NULL)); /* 6 ticks have ended */
    PAINTED(late);
    RETURNS(EDFVD_OK, edfvd_monitor_late(&m, 3, late, 3, &count));
    IS(2, count);
    IS(1, late[0].task);
    IS(1, late[0].count);
    IS(4, late[0].deadline);
    IS(2, late[1].task);
    IS(1, late[1].count);
    IS(6, late[1].deadline);
    IS_PAINTED(late[2]);
    PAINTED(late);
    RETURNS(EDFVD_OK, edfvd_monitor_late(&m, 4, late, 1, &count));
    IS(1, count);
    IS(2, late[0].task);
    IS_PAINTED(late[1]);
    for (size_t room = 0; room < 2; room++) {
        PAINTED(late);
        PAINTED(count);
        RETURNS(EDFVD_SHORT_BUFFER, edfvd_monitor_late(&m, 0, room == 0 ? NULL : late, room, &count));
        IS(2, count);
        IS_PAINTED(late);
    }
    PAINTED(count);
    RETURNS(EDFVD_OK, edfvd_monitor_late(&m, 6, NULL, 0, &count));
    IS(0, count);
    RETURNS(EDFVD_OK, edfvd_monitor_late(&m, UINT64_MAX, NULL, 0, &count));
    IS(0, count);
    RETURNS(EDFVD_OK, edfvd_monitor_verdict(&m, &verdict));
    IS(EDFVD_FITS, verdict.why);
    IS(2, verdict.late);
    IS(1, verdict.task);
    IS(1, verdict.count);
    IS(0, verdict.place);
    RETURNS(EDFVD_OK, edfvd_monitor_close(&m));
}

/* Of two causes the first: the set before the scale, the scale before the rows, and their number before the kind of one and its task. */
static void first_causes(void) {
    static const edfvd_task zero_and_level[] = {{EDFVD_LOW, 0, 1, 1}, {7, 10, 1, 1}};
    static const edfvd_task beyond[] = {{EDFVD_LOW, 10, 11, 11}};
    static const edfvd_row mixed[] = {{EDFVD_KEPT, 9, 1}, {EDFVD_GIVEN, 1, 1}};
    edfvd_row *many = calloc(MOST_ROWS + 1, sizeof *many); /* none of these is of a kind */
    edfvd_monitor m = EDFVD_NONE;
    edfvd_verdict verdict;
    edfvd_unfit unfit;
    IS(1, many != NULL);
    if (many == NULL) return;
    RETURNS(EDFVD_LEVEL, edfvd_judge(zero_and_level, 2, many, 1, 3, 2, &verdict));
    IS(2, verdict.task);
    RETURNS(EDFVD_NOT_ADMITTED, edfvd_judge(beyond, 1, many, MOST_ROWS + 1, 0, 0, &verdict));
    RETURNS(EDFVD_ARGUMENT, edfvd_judge(control, 2, many, MOST_ROWS + 1, 3, 2, &verdict));
    RETURNS(EDFVD_FULL, edfvd_judge(control, 2, many, MOST_ROWS + 1, 2, 5, &verdict));
    RETURNS(EDFVD_ARGUMENT, edfvd_judge(control, 2, mixed, 2, 2, 5, &verdict));
    RETURNS(EDFVD_NO_TASK, edfvd_judge(control, 2, mixed, 1, 2, 5, &verdict));
    free(many);
    RETURNS(EDFVD_OK, edfvd_monitor_open(&m, control, 2, 0, 0, NULL));
    RETURNS(EDFVD_ARGUMENT, edfvd_monitor_observe(&m, &(edfvd_row){EDFVD_KEPT, 3, 1}, 2, &unfit));
    RETURNS(EDFVD_NO_TASK, edfvd_monitor_observe(&m, &(edfvd_row){EDFVD_DONE, 3, 1}, 2, &unfit));
    RETURNS(EDFVD_NO_TASK, edfvd_monitor_would_fit(&m, &(edfvd_row){EDFVD_MORE, 3, 1}, 0, &unfit));
    RETURNS(EDFVD_ARGUMENT, edfvd_monitor_would_fit(&m, &(edfvd_row){EDFVD_MORE, 1, 1}, 0, &unfit));
    RETURNS(EDFVD_OK, edfvd_monitor_close(&m));
}

/* Ticks of more than 32 bits: a job is released at 2^32 and has its deadline at 2^32 + 4, and no tick. */
static void late_after_many_ticks(void) {
    static const uint64_t most = UINT64_C(1) << 32;
    edfvd_monitor m = EDFVD_NONE;
    edfvd_late late[2];
    uint64_t count;
    RETURNS(EDFVD_OK, edfvd_monitor_open(&m, overload, 2, 1, 1, NULL));
    RETURNS(EDFVD_OK, edfvd_monitor_observe(&m, &idle, UINT32_MAX, NULL));
    RETURNS(EDFVD_OK, edfvd_monitor_observe(&m, &idle, 1, NULL));
    for (uint32_t task = 1; task <= 2; task++)
        RETURNS(EDFVD_OK, edfvd_monitor_observe(&m, &(edfvd_row){EDFVD_KEPT, task, 1}, 1, NULL));
    RETURNS(EDFVD_OK, edfvd_monitor_observe(&m, &(edfvd_row){EDFVD_MORE, 1, 1}, 3, NULL));
    RETURNS(EDFVD_OK, edfvd_monitor_observe(&m, &(edfvd_row){EDFVD_STOP, 1, 1}, 1, NULL));
    RETURNS(EDFVD_OK, edfvd_monitor_late(&m, most + 3, late, 2, &count));
    IS(1, count);
    IS(2, late[0].task);
    IS(most + 4, late[0].deadline);
    RETURNS(EDFVD_OK, edfvd_monitor_late(&m, most + 4, late, 2, &count));
    IS(0, count);
    RETURNS(EDFVD_OK, edfvd_monitor_close(&m));
}

int main(void) {
    verdicts();
    scales();
    sets_refused();
    rows_refused();
    times();
    too_many_rows();
    only_asked();
    watches();
    late_jobs();
    late_after_many_ticks();
    first_causes();
    return ends("judging");
}
