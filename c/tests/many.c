/* Many sets tested at once, many rows observed at once, and the version: beside the calls that take one, by hand, and each refusal. */
#include "tests.h"

tally tests;

enum { CTL = 1, LOG = 2 };

/* The control set, whose scale is 2/5; one task; and a set with a period of 0. */
static const edfvd_task tasks[] = {
    {EDFVD_HIGH, 10, 2, 6}, {EDFVD_LOW, 10, 5, 5}, {EDFVD_LOW, 10, 11, 11}, {EDFVD_HIGH, 10, 2, 6}, {EDFVD_LOW, 0, 5, 5}};

static void sets(void) {
    static const uint64_t offsets[] = {0, 2, 3, 3, 5};
    edfvd_test found[5], one;
    uint32_t statuses[5];
    PAINTED(found);
    PAINTED(statuses);
    RETURNS(EDFVD_OK, edfvd_check_many(tasks, 5, offsets, 4, found, statuses));
    IS(EDFVD_OK, statuses[0]);
    IS(2, found[0].rule);
    IS(2, found[0].p);
    IS(5, found[0].q);
    IS(10, found[0].lcm);
    IS(5, found[0].low_low);
    IS(2, found[0].high_low);
    IS(6, found[0].high_high);
    IS(EDFVD_OK, statuses[1]);
    IS(0, found[1].rule);
    IS(11, found[1].low_low);
    IS(EDFVD_EMPTY, statuses[2]);
    IS_ZEROS(found[2]);
    IS(EDFVD_ZERO_NUMBER, statuses[3]);
    IS(2, found[3].task);
    IS_PAINTED(found[4]);
    IS_PAINTED(statuses[4]);
    for (size_t i = 0; i < 4; i++) {
        PAINTED(one);
        RETURNS((edfvd_status)statuses[i], edfvd_check(tasks + offsets[i], offsets[i + 1] - offsets[i], &one));
        IS(0, memcmp(&one, &found[i], sizeof one));
    }
}

/* A refused set does not hinder those after it, whatever it is refused for. */
static void a_refused_set_before_others(void) {
    static const edfvd_task mixed[] = {{EDFVD_LOW, 0, 1, 1},        {EDFVD_LOW, 7, 7, 7}, {7, 1, 1, 1}, {EDFVD_LOW, 7, 8, 8},
                                       {EDFVD_HIGH, 10, 7, 6}, {EDFVD_LOW, 7, 6, 6}};
    static const uint64_t offsets[] = {0, 1, 2, 3, 4, 5, 6};
    static const uint32_t wanted[] = {EDFVD_ZERO_NUMBER, EDFVD_OK, EDFVD_LEVEL, EDFVD_OK, EDFVD_BUDGET_ORDER, EDFVD_OK};
    static const uint64_t loads[] = {0, 7, 0, 8, 0, 6};
    edfvd_test found[6];
    uint32_t statuses[6];
    PAINTED(found);
    PAINTED(statuses);
    RETURNS(EDFVD_OK, edfvd_check_many(mixed, 6, offsets, 6, found, statuses));
    for (size_t i = 0; i < 6; i++) {
        IS(wanted[i], statuses[i]);
        IS(wanted[i] == EDFVD_OK ? 0 : 1, found[i].task);
        IS(loads[i], found[i].low_low);
    }
}

/* The sets need not begin with the first task, nor end with the last one, and there may be none. */
static void parts_of_the_array(void) {
    static const uint64_t offsets[] = {1, 2}, end[] = {5, 5}, none[] = {0};
    edfvd_test found;
    uint32_t status;
    RETURNS(EDFVD_OK, edfvd_check_many(tasks, 5, offsets, 1, &found, &status));
    IS(EDFVD_OK, status);
    IS(1, found.rule);
    RETURNS(EDFVD_OK, edfvd_check_many(tasks, 5, end, 1, &found, &status));
    IS(EDFVD_EMPTY, status);
    RETURNS(EDFVD_OK, edfvd_check_many(tasks, 5, offsets, 0, NULL, NULL));
    RETURNS(EDFVD_OK, edfvd_check_many(NULL, 0, none, 0, NULL, NULL));
}

static void wrong_offsets(void) {
    static const uint64_t wrong[][3] = {{0, 6, 6}, {2, 1, 5}, {0, 2, 1}, {0, 3, UINT64_MAX}, {UINT64_MAX, 0, 1}};
    static const uint64_t offsets[] = {0, 2, 5}, past[] = {6};
    edfvd_test found[2];
    uint32_t statuses[2];
    PAINTED(found);
    PAINTED(statuses);
    for (size_t i = 0; i < sizeof wrong / sizeof *wrong; i++)
        RETURNS(EDFVD_ARGUMENT, edfvd_check_many(tasks, 5, wrong[i], 2, found, statuses));
    RETURNS(EDFVD_ARGUMENT, edfvd_check_many(tasks, 5, past, 0, found, statuses));
    RETURNS(EDFVD_ARGUMENT, edfvd_check_many(NULL, 0, offsets, 2, found, statuses));
    RETURNS(EDFVD_NULL, edfvd_check_many(NULL, 5, offsets, 2, found, statuses));
    RETURNS(EDFVD_NULL, edfvd_check_many(tasks, 5, NULL, 2, found, statuses));
    RETURNS(EDFVD_NULL, edfvd_check_many(tasks, 5, offsets, 2, NULL, statuses));
    RETURNS(EDFVD_NULL, edfvd_check_many(tasks, 5, offsets, 2, found, NULL));
    IS_PAINTED(found);
    IS_PAINTED(statuses);
}

/* An overrun at tick 1 discards the job of log; ctl has six ticks, and four are idle. Then ctl releases its job number 3. */
static const edfvd_row overrun[] = {
    {EDFVD_KEPT, CTL, 1}, {EDFVD_KEPT, LOG, 1}, {EDFVD_MORE, CTL, 1}, {EDFVD_OVER, CTL, 1}, {EDFVD_MORE, CTL, 1},
    {EDFVD_MORE, CTL, 1}, {EDFVD_MORE, CTL, 1}, {EDFVD_DONE, CTL, 1}, {EDFVD_IDLE, 0, 0}, {EDFVD_IDLE, 0, 0},
    {EDFVD_IDLE, 0, 0}, {EDFVD_IDLE, 0, 0}, {EDFVD_KEPT, CTL, 3}, {EDFVD_IDLE, 0, 0}};

static void rows(void) {
    edfvd_monitor m = EDFVD_NONE;
    edfvd_unfit unfit;
    edfvd_watch watch;
    RETURNS(EDFVD_OK, edfvd_monitor_open(&m, tasks, 2, 0, 0, NULL));
    PAINTED(unfit);
    RETURNS(EDFVD_OK, edfvd_monitor_observe_all(&m, NULL, 0, &unfit));
    unfit_is_zeros(&unfit);
    PAINTED(unfit);
    RETURNS(EDFVD_OK, edfvd_monitor_observe_all(&m, overrun, 12, &unfit));
    unfit_is_zeros(&unfit);
    RETURNS(EDFVD_OK, edfvd_monitor_look(&m, &watch));
    IS(12, watch.rows);
    IS(10, watch.ticks);
    IS(0, watch.pending | watch.high_mode);
    IS(1, watch.legal);
    for (int again = 0; again < 2; again++) {
        PAINTED(unfit);
        RETURNS(EDFVD_OK, edfvd_monitor_observe_all(&m, overrun + 12, 2, again == 0 ? &unfit : NULL));
        if (again == 0) IS(EDFVD_WHY_WRONG_COUNT, unfit.why);
        if (again == 0) IS(13, unfit.place);
    }
    RETURNS(EDFVD_OK, edfvd_monitor_close(&m));
}

/* Equal rows that may not come many times are taken one by one: the second of two equal releases does not fit. */
static void equal_rows_that_are_no_run(void) {
    static const edfvd_row twice[] = {{EDFVD_KEPT, CTL, 1}, {EDFVD_KEPT, CTL, 1}};
    static const edfvd_row over[] = {{EDFVD_KEPT, CTL, 1}, {EDFVD_MORE, CTL, 1}, {EDFVD_MORE, CTL, 1}, {EDFVD_MORE, CTL, 1}};
    edfvd_monitor m = EDFVD_NONE;
    edfvd_unfit unfit;
    RETURNS(EDFVD_OK, edfvd_monitor_open(&m, tasks, 2, 0, 0, NULL));
    RETURNS(EDFVD_OK, edfvd_monitor_observe_all(&m, twice, 2, &unfit));
    IS(EDFVD_WHY_TOO_SOON, unfit.why);
    IS(2, unfit.place);
    RETURNS(EDFVD_OK, edfvd_monitor_close(&m));
    RETURNS(EDFVD_OK, edfvd_monitor_open(&m, tasks, 2, 0, 0, NULL));
    RETURNS(EDFVD_OK, edfvd_monitor_observe_all(&m, over, 4, &unfit));
    IS(EDFVD_WHY_WRONG_HOW, unfit.why);
    IS(3, unfit.place);
    RETURNS(EDFVD_OK, edfvd_monitor_close(&m));
}

/* Neighbours of one kind that differ in the job's count, or of a kind that comes once, are not taken as one run; and after a row that
   does not fit no row is looked at, not even one that is none. */
static void rows_that_are_taken_one_by_one(void) {
    static const struct {
        edfvd_row rows[4];
        size_t length;
        uint32_t why;
        uint64_t place;
    } bad[] = {
        {{{EDFVD_KEPT, CTL, 1}, {EDFVD_MORE, CTL, 1}, {EDFVD_MORE, CTL, 2}}, 3, EDFVD_WHY_NOT_PENDING, 3},
        {{{EDFVD_KEPT, CTL, 1}, {EDFVD_DONE, CTL, 1}, {EDFVD_DONE, CTL, 1}}, 3, EDFVD_WHY_NOT_PENDING, 3},
        {{{EDFVD_DROPPED, LOG, 1}, {EDFVD_DROPPED, LOG, 1}}, 2, EDFVD_WHY_WRONG_KEPT, 1},
        {{{EDFVD_MORE, CTL, 1}, {EDFVD_GIVEN, CTL, 1}}, 2, EDFVD_WHY_NOT_PENDING, 1},
        {{{EDFVD_KEPT, CTL, 1}, {EDFVD_IDLE, 0, 0}, {EDFVD_MORE, 3, 1}}, 3, EDFVD_WHY_IDLE_PENDING, 2},
    };
    for (size_t i = 0; i < sizeof bad / sizeof *bad; i++) {
        edfvd_monitor m = EDFVD_NONE;
        edfvd_unfit unfit;
        edfvd_watch watch;
        PAINTED(unfit);
        RETURNS(EDFVD_OK, edfvd_monitor_open(&m, tasks, 2, 0, 0, NULL));
        RETURNS(EDFVD_OK, edfvd_monitor_observe_all(&m, bad[i].rows, bad[i].length, &unfit));
        IS(bad[i].why, unfit.why);
        IS(bad[i].place, unfit.place);
        RETURNS(EDFVD_OK, edfvd_monitor_look(&m, &watch));
        IS(bad[i].place - 1, watch.rows);
        RETURNS(EDFVD_OK, edfvd_monitor_close(&m));
    }
}

/* A refused row in the middle: the one before it is taken, the one after it is not, and zeros are stored. */
static void refused_rows(void) {
    static const struct {
        edfvd_row row;
        edfvd_status status;
    } refused[] = {{{EDFVD_GIVEN, CTL, 1}, EDFVD_ARGUMENT}, {{EDFVD_IDLE, CTL, 0}, EDFVD_ARGUMENT}, {{EDFVD_MORE, 3, 1}, EDFVD_NO_TASK}};
    edfvd_monitor m = EDFVD_NONE, other;
    edfvd_unfit unfit;
    edfvd_watch watch;
    for (size_t i = 0; i < sizeof refused / sizeof *refused; i++) {
        edfvd_row three[] = {{EDFVD_IDLE, 0, 0}, refused[i].row, {EDFVD_IDLE, 0, 0}};
        RETURNS(EDFVD_OK, edfvd_monitor_open(&m, tasks, 2, 0, 0, NULL));
        PAINTED(unfit);
        RETURNS(refused[i].status, edfvd_monitor_observe_all(&m, three, 3, &unfit));
        unfit_is_zeros(&unfit);
        RETURNS(EDFVD_OK, edfvd_monitor_look(&m, &watch));
        IS(1, watch.rows);
        RETURNS(EDFVD_OK, edfvd_monitor_close(&m));
    }
    RETURNS(EDFVD_CLOSED, edfvd_monitor_observe_all(&m, overrun, 1, &unfit));
    RETURNS(EDFVD_CLOSED, edfvd_monitor_observe_all(&m, NULL, 0, NULL));
    RETURNS(EDFVD_NULL, edfvd_monitor_observe_all(NULL, overrun, 1, &unfit));
    RETURNS(EDFVD_OK, edfvd_monitor_open(&m, tasks, 2, 0, 0, NULL));
    PAINTED(unfit);
    RETURNS(EDFVD_NULL, edfvd_monitor_observe_all(&m, NULL, 1, &unfit));
    other = m;
    RETURNS(EDFVD_MOVED, edfvd_monitor_observe_all(&other, overrun, 1, &unfit));
    m.handle.busy = 1;
    RETURNS(EDFVD_BUSY, edfvd_monitor_observe_all(&m, overrun, 1, &unfit));
    m.handle.busy = 0;
    IS_PAINTED(unfit);
    RETURNS(EDFVD_OK, edfvd_monitor_look(&m, &watch));
    IS(0, watch.rows);
    RETURNS(EDFVD_OK, edfvd_monitor_close(&m));
}

int main(void) {
    IS(EDFVD_VERSION, edfvd_version());
    sets();
    a_refused_set_before_others();
    parts_of_the_array();
    wrong_offsets();
    rows();
    equal_rows_that_are_no_run();
    rows_that_are_taken_one_by_one();
    refused_rows();
    return ends("many");
}
