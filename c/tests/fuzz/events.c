/* Random events of a scheduler, with an end and without: each answer, the clock, the mode and the rows. */
#include "fuzz.h"
#include "schedule.h"

static edfvd_scheduler s = EDFVD_NONE;
static driven wanted;
static bool is_endless;

/* The scheduler's clock, mode and jobs are those of the definition. */
static void compare_look(void) {
    edfvd_look *look = at_edge(sizeof *look, 1);
    const job *first = chosen(&wanted.so_far);
    RETURNS(EDFVD_OK, edfvd_scheduler_look(&s, look));
    IS(wanted.so_far.ticks, look->ticks);
    IS(wanted.so_far.rows, look->rows);
    IS(wanted.so_far.high_mode, look->high_mode);
    IS(wanted.out.task, look->out_task);
    IS(wanted.out.task == 0 ? 0 : wanted.out.count, look->out_count);
    IS(first == NULL ? 0 : first->task, look->chosen_task);
    IS(first == NULL ? 0 : first->count, look->chosen_count);
}

/* A task's number: mostly one of the set's, and `likely` more often than others. */
static uint32_t any_task(uint32_t likely) {
    if (likely != 0 && !one_in(6)) return likely;
    return one_in(20) ? wild32() : 1 + (uint32_t)below(wanted.so_far.count);
}

/* One random event: what it returns and stores. */
static void try_event(void) {
    edfvd_answer expected, *answer = one_in(10) ? NULL : at_edge(sizeof *answer, 2);
    const job *first = chosen(&wanted.so_far);
    edfvd_status found, right;
    uint64_t chance = below(100);
    if (chance < 25) {
        uint32_t task = any_task(0);
        right = release(&wanted, task, &expected);
        found = edfvd_scheduler_release(&s, task, answer);
    } else if (chance < 55) {
        uint32_t task = any_task(first == NULL ? 0 : first->task);
        right = grant(&wanted, task, &expected);
        found = edfvd_scheduler_grant(&s, task, answer);
    } else if (chance < 88) {
        uint32_t task = any_task(wanted.out.task), count = one_in(15) ? wild32() : wanted.out.count;
        bool done = one_in(4);
        right = outcome(&wanted, task, count, done, &expected);
        found = edfvd_scheduler_outcome(&s, task, count, done, answer);
    } else {
        right = idle(&wanted, &expected);
        found = edfvd_scheduler_idle(&s, answer);
    }
    RETURNS(right, found);
    if (answer != NULL) IS(0, memcmp(&expected, answer, sizeof expected));
}

/* Whether the row of this number, which is not 0, equals the row before it. */
static bool is_equal(uint64_t number) { return memcmp(&wanted.rows[number - 1], &wanted.rows[number], sizeof(edfvd_row)) == 0; }

/* The number of the oldest of the latest 256 runs of equal rows. */
static uint64_t oldest_kept(void) {
    uint64_t oldest = wanted.so_far.rows, runs = 0;
    for (uint64_t number = wanted.so_far.rows; number > 0 && runs < 256; number--)
        if (number == 1 || !is_equal(number - 1)) {
            runs++;
            oldest = number - 1;
        }
    return oldest;
}

/* Each row that there is and how many equal rows begin with it, those that are gone, and none after the last. */
static void compare_rows(void) {
    uint64_t rows = wanted.so_far.rows, oldest = is_endless ? oldest_kept() : 0;
    for (uint64_t number = 0; number < rows + 3; number++) {
        static const edfvd_row none = {0, 0, 0};
        edfvd_row *row = at_edge(sizeof *row, 1);
        uint32_t *times = at_edge(sizeof *times, 2), equal = 1;
        bool is_kept = number >= oldest && number < rows;
        edfvd_status right = number < oldest ? EDFVD_GONE : is_kept ? EDFVD_OK : EDFVD_NO_ROW;
        RETURNS(right, edfvd_scheduler_row(&s, number, row));
        IS(0, memcmp(is_kept ? &wanted.rows[number] : &none, row, sizeof *row));
        while (is_kept && number + equal < rows && is_equal(number + equal)) equal++;
        RETURNS(right, edfvd_scheduler_rows(&s, number, row, times));
        IS(0, memcmp(is_kept ? &wanted.rows[number] : &none, row, sizeof *row));
        IS(is_kept ? equal : 0, *times);
    }
    edfvd_row *row = at_edge(sizeof *row, 1);
    RETURNS(EDFVD_NO_ROW, edfvd_scheduler_row(&s, rows + (UINT64_C(1) << (below(32) + 32)), row));
}

/* The rows are legal under the published rule, and no job is late. */
static void judge_rows(const edfvd_task *tasks, size_t count) {
    edfvd_verdict verdict;
    RETURNS(EDFVD_OK, edfvd_judge(tasks, count, wanted.rows, wanted.so_far.rows, 0, 0, &verdict));
    verdict_is_zeros(&verdict);
    IS(0, wanted.so_far.late);
    IS(EDFVD_FITS, wanted.so_far.why);
}

void try_events(void) {
    edfvd_task tasks[FEW_TASKS];
    size_t count = likely_set(tasks, FEW_TASKS);
    uint32_t places = (uint32_t)below(one_in(3) ? 5 : 300), *task = at_edge(sizeof *task, 1);
    uint64_t lcm;
    (void)beyond(tasks, count, UINT64_MAX, &lcm);
    loads of = loads_of(tasks, count, lcm);
    rule by = published(&of);
    is_endless = one_in(2);
    edfvd_status status = is_endless ? edfvd_scheduler_open_endless(&s, given(tasks, count), count, task)
                                     : edfvd_scheduler_open(&s, given(tasks, count), count, places, task);
    RETURNS(by.number == 0 ? EDFVD_NOT_ADMITTED : EDFVD_OK, status);
    IS(0, *task);
    if (status != EDFVD_OK) return;
    memset(&wanted, 0, sizeof wanted);
    wanted.so_far = new_schedule(tasks, count, by);
    wanted.places = is_endless ? UINT64_C(1) << 62 : places;
    for (uint64_t events = below(one_in(4) ? 2000 : 300); events > 0 && tests.failed == 0; events--) {
        if (wanted.so_far.rows + 2 * FEW_TASKS > MOST_PLACES) break;
        try_event();
        compare_look();
    }
    compare_rows();
    judge_rows(tasks, count);
    RETURNS(EDFVD_OK, edfvd_scheduler_close(&s));
}
