/*
 * A scheduler or monitor that a call must not take: null, closed, copied or moved while it is open, or in use. Every call that
 * takes one is tried with each, on a scheduler with an end, on one without, and on a monitor. A refused call stores nothing,
 * except with EDFVD_CLOSED and EDFVD_OPEN, and leaves the scheduler or monitor as it was.
 */
#include "tests.h"

tally tests;

static const edfvd_task control[] = {{EDFVD_HIGH, 10, 2, 6}, {EDFVD_LOW, 10, 5, 5}};

/* What the calls store: painted before each. */
static struct stores {
    edfvd_answer answer;
    edfvd_look look;
    edfvd_row row;
    edfvd_next next;
    edfvd_pending pending;
    edfvd_scale scale;
    uint64_t at;
    uint32_t discarded;
    uint32_t times;
    uint32_t task;
    edfvd_unfit unfit;
    edfvd_late late[2];
    uint64_t count;
    edfvd_verdict verdict;
    edfvd_watch watch;
} to;

static edfvd_status open_plain(edfvd_scheduler *s) { return edfvd_scheduler_open(s, control, 2, 50, &to.task); }
static edfvd_status open_endless(edfvd_scheduler *s) { return edfvd_scheduler_open_endless(s, control, 2, &to.task); }
static edfvd_status open_scaled(edfvd_scheduler *s) { return edfvd_scheduler_open_scaled(s, control, 2, 2, 5, 50, &to.task); }
static edfvd_status open_endless_scaled(edfvd_scheduler *s) {
    return edfvd_scheduler_open_endless_scaled(s, control, 2, 2, 5, &to.task);
}
static edfvd_status close_it(edfvd_scheduler *s) { return edfvd_scheduler_close(s); }
static edfvd_status release(edfvd_scheduler *s) { return edfvd_scheduler_release(s, 1, &to.answer); }
static edfvd_status grant(edfvd_scheduler *s) { return edfvd_scheduler_grant(s, 1, &to.answer); }
static edfvd_status outcome(edfvd_scheduler *s) { return edfvd_scheduler_outcome(s, 1, 1, true, &to.answer); }
static edfvd_status idle(edfvd_scheduler *s) { return edfvd_scheduler_idle(s, &to.answer); }
static edfvd_status run(edfvd_scheduler *s) { return edfvd_scheduler_run(s, 1, 1, 1, true, &to.answer); }
static edfvd_status idle_for(edfvd_scheduler *s) { return edfvd_scheduler_idle_for(s, 3, &to.answer); }
static edfvd_status next(edfvd_scheduler *s) { return edfvd_scheduler_next(s, &to.next); }
static edfvd_status pending(edfvd_scheduler *s) { return edfvd_scheduler_pending(s, 1, &to.pending); }
static edfvd_status earliest(edfvd_scheduler *s) { return edfvd_scheduler_earliest(s, 1, &to.at); }
static edfvd_status discarded(edfvd_scheduler *s) { return edfvd_scheduler_discarded(s, 1, &to.discarded); }
static edfvd_status scale(edfvd_scheduler *s) { return edfvd_scheduler_scale(s, &to.scale); }
static edfvd_status look(edfvd_scheduler *s) { return edfvd_scheduler_look(s, &to.look); }
static edfvd_status row_at(edfvd_scheduler *s) { return edfvd_scheduler_row(s, 0, &to.row); }
static edfvd_status rows_at(edfvd_scheduler *s) { return edfvd_scheduler_rows(s, 0, &to.row, &to.times); }
static edfvd_status restart(edfvd_scheduler *s) { return edfvd_scheduler_restart(s, &to.answer); }

static edfvd_status (*const scheduler_calls[])(edfvd_scheduler *) = {
    open_plain, open_endless, open_scaled, open_endless_scaled, close_it, release,   grant, outcome, idle,   run,
    idle_for,   next,         pending,     earliest,            discarded, scale,    look,  row_at,  rows_at, restart};
enum { OPENERS = 4, SCHEDULER_CALLS = sizeof scheduler_calls / sizeof *scheduler_calls };

static const edfvd_row first_row = {EDFVD_KEPT, 1, 1};

static edfvd_status monitor_open(edfvd_monitor *m) { return edfvd_monitor_open(m, control, 2, 1, 1, &to.task); }
static edfvd_status monitor_close(edfvd_monitor *m) { return edfvd_monitor_close(m); }
static edfvd_status observe(edfvd_monitor *m) { return edfvd_monitor_observe(m, &first_row, 1, &to.unfit); }
static edfvd_status would_fit(edfvd_monitor *m) { return edfvd_monitor_would_fit(m, &first_row, 1, &to.unfit); }
static edfvd_status late(edfvd_monitor *m) { return edfvd_monitor_late(m, 0, to.late, 2, &to.count); }
static edfvd_status verdict(edfvd_monitor *m) { return edfvd_monitor_verdict(m, &to.verdict); }
static edfvd_status monitor_look(edfvd_monitor *m) { return edfvd_monitor_look(m, &to.watch); }

static edfvd_status (*const monitor_calls[])(edfvd_monitor *) = {monitor_open, monitor_close, observe,     would_fit,
                                                                 late,         verdict,       monitor_look};
enum { MONITOR_CALLS = sizeof monitor_calls / sizeof *monitor_calls };

/* Whether no field has changed. */
static bool is_same(const edfvd_handle *a, const edfvd_handle *b) {
    return a->mark == b->mark && a->at == b->at && a->self == b->self && a->busy == b->busy;
}

/* Every call with this scheduler returns the status, stores nothing, and leaves it as it is. */
static void all_refused(edfvd_scheduler *s, edfvd_status wanted) {
    edfvd_scheduler before = EDFVD_NONE;
    if (s != NULL) before = *s;
    PAINTED(to);
    for (size_t call = 0; call < SCHEDULER_CALLS; call++) {
        RETURNS(wanted, scheduler_calls[call](s));
        IS_PAINTED(to);
        if (s != NULL) IS(true, is_same(&s->handle, &before.handle));
    }
}

static void all_refused_monitor(edfvd_monitor *m, edfvd_status wanted) {
    edfvd_monitor before = EDFVD_NONE;
    if (m != NULL) before = *m;
    PAINTED(to);
    for (size_t call = 0; call < MONITOR_CALLS; call++) {
        RETURNS(wanted, monitor_calls[call](m));
        IS_PAINTED(to);
        if (m != NULL) IS(true, is_same(&m->handle, &before.handle));
    }
}

/* Every call with a closed scheduler, except those that open one, is EDFVD_CLOSED, stores zeros and changes nothing. */
static void all_closed(edfvd_scheduler *s) {
    edfvd_scheduler before = *s;
    PAINTED(to);
    for (size_t call = OPENERS; call < SCHEDULER_CALLS; call++) {
        RETURNS(EDFVD_CLOSED, scheduler_calls[call](s));
        IS(true, is_same(&s->handle, &before.handle));
    }
    IS_ZEROS(to.answer);
    look_is_zeros(&to.look);
    IS_ZEROS(to.row);
    IS_ZEROS(to.next);
    IS(0, to.pending.task | to.pending.count | to.pending.used);
    IS(0, to.pending.release | to.pending.deadline | to.pending.key_top | to.pending.key);
    IS_ZEROS(to.at);
    IS_ZEROS(to.discarded);
    IS_ZEROS(to.times);
    IS_ZEROS(to.scale);
}

static void all_closed_monitor(edfvd_monitor *m) {
    edfvd_monitor before = *m;
    PAINTED(to);
    for (size_t call = 1; call < MONITOR_CALLS; call++) {
        RETURNS(EDFVD_CLOSED, monitor_calls[call](m));
        IS(true, is_same(&m->handle, &before.handle));
    }
    unfit_is_zeros(&to.unfit);
    IS_ZEROS(to.count);
    verdict_is_zeros(&to.verdict);
    IS_ZEROS(to.watch);
}

/* A scheduler of each kind: closed, open, copied, moved and moved back, in use, closed and opened at another place. */
static void schedulers(void) {
    for (size_t kind = 0; kind < OPENERS; kind++) {
        edfvd_scheduler s = EDFVD_NONE, other;
        all_closed(&s);
        RETURNS(EDFVD_OK, scheduler_calls[kind](&s));
        for (size_t opener = 0; opener < OPENERS; opener++) {
            PAINTED(to.task);
            RETURNS(EDFVD_OPEN, scheduler_calls[opener](&s));
            IS(0, to.task);
        }
        RETURNS(EDFVD_OK, release(&s));
        other = s;
        all_refused(&other, EDFVD_MOVED);
        memset(&s, 0, sizeof s); /* now it is moved, and not copied alone */
        all_refused(&other, EDFVD_MOVED);
        s = other;
        RETURNS(EDFVD_OK, grant(&s));
        s.handle.busy = 1; /* as it is while another thread is in a call */
        all_refused(&s, EDFVD_BUSY);
        s.handle.busy = 0;
        RETURNS(EDFVD_OK, outcome(&s));
        RETURNS(EDFVD_OK, row_at(&s));
        RETURNS(EDFVD_OK, close_it(&s));
        all_closed(&s);
        other = s; /* a closed one may be copied, and the copy opened */
        RETURNS(EDFVD_OK, scheduler_calls[kind](&other));
        RETURNS(EDFVD_OK, idle(&other));
        RETURNS(EDFVD_OK, close_it(&other));
        RETURNS(EDFVD_OK, scheduler_calls[kind](&s));
        RETURNS(EDFVD_OK, close_it(&s));
    }
}

static void monitors(void) {
    edfvd_monitor m = EDFVD_NONE, other;
    all_closed_monitor(&m);
    RETURNS(EDFVD_OK, monitor_open(&m));
    PAINTED(to.task);
    RETURNS(EDFVD_OPEN, monitor_open(&m));
    IS(0, to.task);
    other = m;
    all_refused_monitor(&other, EDFVD_MOVED);
    memset(&m, 0, sizeof m);
    all_refused_monitor(&other, EDFVD_MOVED);
    m = other;
    RETURNS(EDFVD_OK, observe(&m));
    m.handle.busy = 1;
    all_refused_monitor(&m, EDFVD_BUSY);
    m.handle.busy = 0;
    RETURNS(EDFVD_OK, verdict(&m));
    RETURNS(EDFVD_OK, monitor_close(&m));
    all_closed_monitor(&m);
    other = m;
    RETURNS(EDFVD_OK, monitor_open(&other));
    RETURNS(EDFVD_OK, observe(&other));
    RETURNS(EDFVD_OK, monitor_close(&other));
    RETURNS(EDFVD_OK, monitor_open(&m));
    RETURNS(EDFVD_OK, monitor_close(&m));
}

/* Bytes that were never a scheduler: no call takes them, and they are no open one even if they name their own place. */
static void garbage(void) {
    edfvd_scheduler s;
    edfvd_monitor m;
    memset(&s, 0x5a, sizeof s);
    memset(&m, 0x5a, sizeof m);
    s.handle.busy = 0;
    m.handle.busy = 0;
    all_refused(&s, EDFVD_MOVED);
    all_refused_monitor(&m, EDFVD_MOVED);
    s.handle.self = &s.handle;
    m.handle.self = &m.handle;
    all_closed(&s);
    all_closed_monitor(&m);
}

/* A scheduler is no monitor, although both are a handle: the calls of the other kind can neither use, open nor close it. */
static void kinds_are_not_mixed(void) {
    edfvd_scheduler s = EDFVD_NONE;
    edfvd_monitor m = EDFVD_NONE;
    RETURNS(EDFVD_OK, open_plain(&s));
    RETURNS(EDFVD_OK, monitor_open(&m));
    all_closed_monitor((edfvd_monitor *)(void *)&s);
    all_closed((edfvd_scheduler *)(void *)&m);
    RETURNS(EDFVD_OPEN, monitor_open((edfvd_monitor *)(void *)&s));
    for (size_t opener = 0; opener < OPENERS; opener++)
        RETURNS(EDFVD_OPEN, scheduler_calls[opener]((edfvd_scheduler *)(void *)&m));
    RETURNS(EDFVD_OK, close_it(&s));
    RETURNS(EDFVD_OK, monitor_close(&m));
}

/* A set that is refused leaves a closed scheduler or monitor as it was, and a copy of that one can be opened. */
static void refused_sets(void) {
    edfvd_scheduler s = EDFVD_NONE, none = EDFVD_NONE, other;
    edfvd_monitor m = EDFVD_NONE, nothing = EDFVD_NONE, watch;
    RETURNS(EDFVD_EMPTY, edfvd_scheduler_open(&s, NULL, 0, 10, NULL));
    IS(true, is_same(&s.handle, &none.handle));
    RETURNS(EDFVD_EMPTY, edfvd_scheduler_open_endless(&s, NULL, 0, NULL));
    IS(true, is_same(&s.handle, &none.handle));
    RETURNS(EDFVD_EMPTY, edfvd_monitor_open(&m, NULL, 0, 1, 1, NULL));
    IS(true, is_same(&m.handle, &nothing.handle));
    other = s;
    watch = m;
    RETURNS(EDFVD_OK, open_endless(&other));
    RETURNS(EDFVD_OK, monitor_open(&watch));
    RETURNS(EDFVD_OK, close_it(&other));
    RETURNS(EDFVD_OK, monitor_close(&watch));
}

/* Null pointers beside a good scheduler or monitor: each argument that may not be null, and nothing stored. */
static void null_arguments(void) {
    edfvd_scheduler s = EDFVD_NONE;
    edfvd_monitor m = EDFVD_NONE;
    PAINTED(to);
    RETURNS(EDFVD_NULL, edfvd_scheduler_open(&s, NULL, 2, 10, &to.task));
    RETURNS(EDFVD_NULL, edfvd_scheduler_open_endless(&s, NULL, 2, &to.task));
    RETURNS(EDFVD_NULL, edfvd_monitor_open(&m, NULL, 2, 1, 1, &to.task));
    IS_PAINTED(to);
    RETURNS(EDFVD_OK, open_plain(&s));
    RETURNS(EDFVD_OK, monitor_open(&m));
    PAINTED(to);
    RETURNS(EDFVD_NULL, edfvd_scheduler_look(&s, NULL));
    RETURNS(EDFVD_NULL, edfvd_scheduler_row(&s, 0, NULL));
    RETURNS(EDFVD_NULL, edfvd_scheduler_rows(&s, 0, NULL, &to.times));
    RETURNS(EDFVD_NULL, edfvd_scheduler_rows(&s, 0, &to.row, NULL));
    RETURNS(EDFVD_NULL, edfvd_monitor_observe(&m, NULL, 1, &to.unfit));
    RETURNS(EDFVD_NULL, edfvd_monitor_would_fit(&m, NULL, 1, &to.unfit));
    RETURNS(EDFVD_NULL, edfvd_monitor_would_fit(&m, &first_row, 1, NULL));
    RETURNS(EDFVD_NULL, edfvd_monitor_late(&m, 0, NULL, 2, &to.count));
    RETURNS(EDFVD_NULL, edfvd_monitor_late(&m, 0, to.late, 2, NULL));
    RETURNS(EDFVD_NULL, edfvd_monitor_late(&m, 0, NULL, 0, NULL));
    RETURNS(EDFVD_NULL, edfvd_monitor_verdict(&m, NULL));
    RETURNS(EDFVD_NULL, edfvd_monitor_look(&m, NULL));
    IS_PAINTED(to);
    /* These may be null. */
    RETURNS(EDFVD_OK, edfvd_scheduler_release(&s, 1, NULL));
    RETURNS(EDFVD_OK, edfvd_scheduler_grant(&s, 1, NULL));
    RETURNS(EDFVD_OK, edfvd_scheduler_outcome(&s, 1, 1, true, NULL));
    RETURNS(EDFVD_OK, edfvd_scheduler_idle(&s, NULL));
    RETURNS(EDFVD_OK, edfvd_scheduler_restart(&s, NULL));
    RETURNS(EDFVD_OK, edfvd_monitor_observe(&m, &first_row, 1, NULL));
    RETURNS(EDFVD_OK, edfvd_monitor_late(&m, 0, NULL, 0, &to.count));
    RETURNS(EDFVD_OK, close_it(&s));
    RETURNS(EDFVD_OK, monitor_close(&m));
    RETURNS(EDFVD_OK, edfvd_scheduler_open(&s, control, 2, 10, NULL));
    RETURNS(EDFVD_OK, close_it(&s));
    RETURNS(EDFVD_OK, edfvd_scheduler_open_endless(&s, control, 2, NULL));
    RETURNS(EDFVD_OK, close_it(&s));
    RETURNS(EDFVD_OK, edfvd_monitor_open(&m, control, 2, 1, 1, NULL));
    RETURNS(EDFVD_OK, monitor_close(&m));
}

int main(void) {
    all_refused(NULL, EDFVD_NULL);
    all_refused_monitor(NULL, EDFVD_NULL);
    schedulers();
    monitors();
    garbage();
    kinds_are_not_mixed();
    refused_sets();
    null_arguments();
    return ends("handles");
}
