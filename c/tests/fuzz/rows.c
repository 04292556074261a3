/* Random rows, judged at the end and while they happen: verdicts, the first row that does not fit, late jobs, and scales. */
#include "fuzz.h"
#include "schedule.h"

enum { MOST_ROWS = 400 };

static edfvd_monitor m = EDFVD_NONE;
static schedule wanted;
static edfvd_row rows[MOST_ROWS];
static size_t length;

/* A random row of a kind that there is, of a task of the set. */
static edfvd_row any_row(void) {
    static const uint32_t kinds[] = {EDFVD_KEPT, EDFVD_KEPT, EDFVD_DROPPED, EDFVD_MORE, EDFVD_MORE,
                                     EDFVD_DONE, EDFVD_STOP, EDFVD_OVER,    EDFVD_IDLE};
    uint32_t event = kinds[below(sizeof kinds / sizeof *kinds)], task = 1 + (uint32_t)below(wanted.count);
    if (event == EDFVD_IDLE) return (edfvd_row){event, 0, 0};
    uint32_t count = wanted.releases[task - 1] + (event <= EDFVD_DROPPED);
    return (edfvd_row){event, task, count + (uint32_t)one_in(20) - (uint32_t)one_in(20)};
}

/* A row that fits, if some tries find one. */
static edfvd_row likely_row(void) {
    edfvd_row row = any_row();
    for (int tries = 0; tries < 60 && broken_by(&wanted, row) != EDFVD_FITS; tries++) row = any_row();
    return row;
}

/* The refusal of a row that is none of edfvd_row's kinds, is of no task, or does not come this many times; otherwise EDFVD_OK. */
static edfvd_status refusal_of(edfvd_row row, uint32_t times) {
    bool is_tick = row.event >= EDFVD_MORE && row.event <= EDFVD_OVER, is_idle = row.event == EDFVD_IDLE;
    bool is_release = row.event == EDFVD_KEPT || row.event == EDFVD_DROPPED;
    if (is_idle) return row.task == 0 && row.count == 0 && times != 0 ? EDFVD_OK : EDFVD_ARGUMENT;
    if (!is_tick && !is_release) return EDFVD_ARGUMENT;
    if (times == 0 || (times > 1 && row.event != EDFVD_MORE)) return EDFVD_ARGUMENT;
    return row.task >= 1 && row.task <= wanted.count ? EDFVD_OK : EDFVD_NO_TASK;
}

/* Gives the monitor a row that is wrong in one number, unless it happens to be right: returns whether it was wrong. */
static bool try_wrong_row(void) {
    edfvd_row row = any_row();
    uint32_t times = 1;
    switch (below(4)) {
    case 0: row.event = wild32(); break;
    case 1: row.task = wild32(); break;
    case 2: row.count = wild32(); break;
    default: times = wild32(); break;
    }
    edfvd_status right = refusal_of(row, times);
    if (right == EDFVD_OK) return false;
    bool is_both = right == EDFVD_ARGUMENT && row.event != EDFVD_IDLE && (row.task == 0 || row.task > wanted.count);
    edfvd_unfit unfit;
    PAINTED(unfit);
    edfvd_status found = edfvd_monitor_observe(&m, &row, times, &unfit);
    IS(true, found == right || (is_both && found == EDFVD_NO_TASK));
    unfit_is_zeros(&unfit);
    PAINTED(unfit);
    RETURNS(found, edfvd_monitor_would_fit(&m, &row, times, &unfit));
    unfit_is_zeros(&unfit);
    return true;
}

/* The late jobs since this tick, by the definition: in the order of their deadlines, and of their releases. */
static size_t late_since(uint64_t since, edfvd_late *late) {
    size_t count = 0;
    for (uint64_t deadline = since + 1; deadline <= wanted.ticks; deadline++)
        for (size_t place = 0; place < wanted.jobs; place++)
            if (deadline_of(&wanted, &wanted.pending[place]) == deadline)
                late[count++] = (edfvd_late){wanted.pending[place].task, wanted.pending[place].count, deadline};
    return count;
}

static void compare_late(uint64_t since) {
    static edfvd_late right[MOST_JOBS];
    size_t number = late_since(since, right), room = number + below(2);
    edfvd_late *late = at_edge(room * sizeof *late, 1);
    uint64_t *count = at_edge(sizeof *count, 2);
    if (number != 0 && one_in(2)) {
        RETURNS(EDFVD_SHORT_BUFFER, edfvd_monitor_late(&m, since, late, number - 1, count));
        IS(number, *count);
        IS(true, is_painted(late, room * sizeof *late));
    }
    RETURNS(EDFVD_OK, edfvd_monitor_late(&m, since, room == 0 ? NULL : late, room, count));
    IS(number, *count);
    IS(0, memcmp(right, late, number * sizeof *late));
}

/* After a row that does not fit, all is as before that row. */
static void compare_watch(void) {
    edfvd_watch *watch = at_edge(sizeof *watch, 1);
    RETURNS(EDFVD_OK, edfvd_monitor_look(&m, watch));
    IS(wanted.rows, watch->rows);
    IS(wanted.why == EDFVD_FITS, watch->legal);
    IS(wanted.ticks, watch->ticks);
    IS(wanted.jobs, watch->pending);
    IS(wanted.high_mode, watch->high_mode);
}

static void compare_verdict(const edfvd_verdict *verdict) {
    bool fits = wanted.why == EDFVD_FITS;
    IS(wanted.why, verdict->why);
    IS(wanted.place, verdict->place);
    IS(fits ? wanted.late : 0, verdict->late);
    IS(fits ? wanted.first_late.task : 0, verdict->task);
    IS(fits ? wanted.first_late.count : 0, verdict->count);
}

/* The monitor is asked about the rows, takes them, and finds what the definition finds. */
static void observe(edfvd_row row, uint32_t times) {
    edfvd_unfit *unfit = at_edge(sizeof *unfit, 1);
    uint64_t since = wanted.ticks;
    for (uint32_t time = 0; time < times; time++) {
        rows[length++] = row;
        add_row(&wanted, row);
    }
    RETURNS(EDFVD_OK, edfvd_monitor_would_fit(&m, &row, times, unfit));
    IS(wanted.why, unfit->why);
    IS(wanted.place, unfit->place);
    memset(unfit, PAINT, sizeof *unfit);
    RETURNS(EDFVD_OK, edfvd_monitor_observe(&m, &row, times, one_in(10) ? NULL : unfit));
    if (!is_painted(unfit, sizeof *unfit)) {
        IS(wanted.why, unfit->why);
        IS(wanted.place, unfit->place);
    }
    compare_watch();
    compare_late(since);
}

/* The rule that p and q stand for, or EDFVD_ARGUMENT; EDFVD_NOT_ADMITTED if the published test gives none. */
static edfvd_status rule_of(const edfvd_task *tasks, size_t count, uint64_t p, uint64_t q, rule *by) {
    uint64_t lcm;
    *by = (rule){2, p, q};
    if (p != 0 || q != 0) return p >= 1 && p <= q && q <= UINT64_C(1) << 60 ? EDFVD_OK : EDFVD_ARGUMENT;
    (void)beyond(tasks, count, UINT64_MAX, &lcm);
    loads of = loads_of(tasks, count, lcm);
    *by = published(&of);
    return by->number == 0 ? EDFVD_NOT_ADMITTED : EDFVD_OK;
}

static void any_scale(uint64_t *p, uint64_t *q) {
    *p = *q = 0;
    if (one_in(3)) return;
    *q = 1 + below(12);
    *p = 1 + below(*q);
    if (one_in(8)) *p = wild64();
    if (one_in(8)) *q = wild64();
}

void try_rows(void) {
    edfvd_task tasks[FEW_TASKS];
    size_t count = likely_set(tasks, FEW_TASKS);
    uint64_t p, q;
    rule by;
    any_scale(&p, &q);
    edfvd_status right = rule_of(tasks, count, p, q, &by);
    edfvd_verdict verdict;
    PAINTED(verdict);
    RETURNS(right, edfvd_monitor_open(&m, given(tasks, count), count, p, q, NULL));
    RETURNS(right, edfvd_judge(given(tasks, count), count, NULL, 0, p, q, &verdict));
    verdict_is_zeros(&verdict);
    if (right != EDFVD_OK) return;
    wanted = new_schedule(tasks, count, by);
    length = 0;
    for (uint64_t runs = below(150); runs > 0 && tests.failed == 0 && length + 10 < MOST_ROWS; runs--) {
        if (one_in(20) && try_wrong_row()) continue;
        edfvd_row row = one_in(60) ? any_row() : likely_row();
        bool is_run = (row.event == EDFVD_MORE || row.event == EDFVD_IDLE) && one_in(3);
        observe(row, is_run ? 1 + (uint32_t)below(8) : 1);
    }
    RETURNS(EDFVD_OK, edfvd_monitor_verdict(&m, &verdict));
    compare_verdict(&verdict);
    edfvd_row *given_rows = at_edge(length * sizeof *rows, 3);
    memcpy(given_rows, rows, length * sizeof *rows);
    RETURNS(EDFVD_OK, edfvd_judge(given(tasks, count), count, length == 0 ? NULL : given_rows, length, p, q, &verdict));
    compare_verdict(&verdict);
    RETURNS(EDFVD_OK, edfvd_monitor_close(&m));
}
