/* The guard between C and the proved library of numbers: it refuses what the library's contracts take for granted. */
#include "edfvd.h"

/* The exports of crates/edfvd_c. No compiler compares these lines with its sources; declared.py does. */
typedef struct raw_handle {
    uint64_t mark;
    void *at;
} raw_handle;

extern uint32_t edfvd_raw_check(const edfvd_task *tasks, size_t count, edfvd_test *test);
extern uint32_t edfvd_raw_stretch(const edfvd_task *tasks, size_t count, uint32_t *percent, uint32_t *task);
extern uint32_t edfvd_raw_sensitivity(const edfvd_task *tasks, size_t count, edfvd_budgets *budgets, size_t length,
                                      uint32_t *task);
extern uint32_t edfvd_raw_scales(const edfvd_task *tasks, size_t count, edfvd_scale_range *scales, uint32_t *task);
extern uint32_t edfvd_raw_speed(const edfvd_task *tasks, size_t count, uint64_t *millionths, uint32_t *task);
extern uint32_t edfvd_raw_accept(uint64_t number, uint32_t sets, uint32_t tasks, uint32_t *counts);
extern uint32_t edfvd_raw_judge(const edfvd_task *tasks, size_t count, const edfvd_row *rows, size_t length, uint64_t p,
                                uint64_t q, edfvd_verdict *verdict);
extern uint32_t edfvd_raw_demand(const edfvd_demand_task *tasks, size_t count, edfvd_demand_test *test);
extern uint32_t edfvd_raw_partition(const edfvd_task *tasks, size_t count, uint32_t processors, uint32_t *on, size_t length,
                                    uint32_t *task);
extern uint32_t edfvd_raw_scheduler_open(raw_handle *scheduler, const edfvd_task *tasks, size_t count, uint32_t places,
                                         uint32_t *task);
extern uint32_t edfvd_raw_scheduler_open_endless(raw_handle *scheduler, const edfvd_task *tasks, size_t count, uint32_t *task);
extern uint32_t edfvd_raw_scheduler_open_scaled(raw_handle *scheduler, const edfvd_task *tasks, size_t count, uint64_t p,
                                                uint64_t q, uint32_t places, uint32_t *task);
extern uint32_t edfvd_raw_scheduler_open_endless_scaled(raw_handle *scheduler, const edfvd_task *tasks, size_t count, uint64_t p,
                                                        uint64_t q, uint32_t *task);
extern uint32_t edfvd_raw_scheduler_close(raw_handle *scheduler);
extern uint32_t edfvd_raw_scheduler_restart(raw_handle *scheduler, edfvd_answer *answer);
extern uint32_t edfvd_raw_scheduler_release(raw_handle *scheduler, uint32_t task, edfvd_answer *answer);
extern uint32_t edfvd_raw_scheduler_grant(raw_handle *scheduler, uint32_t task, edfvd_answer *answer);
extern uint32_t edfvd_raw_scheduler_outcome(raw_handle *scheduler, uint32_t task, uint32_t count, bool done,
                                            edfvd_answer *answer);
extern uint32_t edfvd_raw_scheduler_idle(raw_handle *scheduler, edfvd_answer *answer);
extern uint32_t edfvd_raw_scheduler_look(raw_handle *scheduler, edfvd_look *look);
extern uint32_t edfvd_raw_scheduler_row(raw_handle *scheduler, uint64_t place, edfvd_row *row);
extern uint32_t edfvd_raw_scheduler_rows(raw_handle *scheduler, uint64_t place, edfvd_row *row, uint32_t *times);
extern uint32_t edfvd_raw_scheduler_run(raw_handle *scheduler, uint32_t task, uint32_t count, uint32_t ticks, bool done,
                                        edfvd_answer *answer);
extern uint32_t edfvd_raw_scheduler_idle_for(raw_handle *scheduler, uint64_t ticks, edfvd_answer *answer);
extern uint32_t edfvd_raw_scheduler_next(raw_handle *scheduler, edfvd_next *next);
extern uint32_t edfvd_raw_scheduler_pending(raw_handle *scheduler, uint32_t task, edfvd_pending *pending);
extern uint32_t edfvd_raw_scheduler_earliest(raw_handle *scheduler, uint32_t task, uint64_t *at);
extern uint32_t edfvd_raw_scheduler_discarded(raw_handle *scheduler, uint32_t task, uint32_t *count);
extern uint32_t edfvd_raw_scheduler_scale(raw_handle *scheduler, edfvd_scale *scale);
extern uint32_t edfvd_raw_monitor_open(raw_handle *monitor, const edfvd_task *tasks, size_t count, uint64_t p, uint64_t q,
                                       uint32_t *task);
extern uint32_t edfvd_raw_monitor_close(raw_handle *monitor);
extern uint32_t edfvd_raw_monitor_observe(raw_handle *monitor, const edfvd_row *row, uint32_t length, edfvd_unfit *unfit);
extern uint32_t edfvd_raw_monitor_would_fit(raw_handle *monitor, const edfvd_row *row, uint32_t length, edfvd_unfit *unfit);
extern uint32_t edfvd_raw_monitor_late(raw_handle *monitor, uint64_t since, edfvd_late *jobs, size_t length, uint64_t *many);
extern uint32_t edfvd_raw_monitor_verdict(raw_handle *monitor, edfvd_verdict *verdict);
extern uint32_t edfvd_raw_monitor_look(raw_handle *monitor, edfvd_watch *watch);

_Static_assert(sizeof(edfvd_task) == 16, "edfvd_task");
_Static_assert(sizeof(edfvd_test) == 80, "edfvd_test");
_Static_assert(sizeof(edfvd_budgets) == 8, "edfvd_budgets");
_Static_assert(sizeof(edfvd_scale_range) == 32, "edfvd_scale_range");
_Static_assert(sizeof(edfvd_demand_task) == 12, "edfvd_demand_task");
_Static_assert(sizeof(edfvd_demand_test) == 24, "edfvd_demand_test");
_Static_assert(sizeof(edfvd_answer) == 24, "edfvd_answer");
_Static_assert(sizeof(edfvd_look) == 40, "edfvd_look");
_Static_assert(sizeof(edfvd_next) == 12, "edfvd_next");
_Static_assert(sizeof(edfvd_pending) == 48, "edfvd_pending");
_Static_assert(sizeof(edfvd_scale) == 16, "edfvd_scale");
_Static_assert(sizeof(edfvd_row) == 12, "edfvd_row");
_Static_assert(sizeof(edfvd_verdict) == 32, "edfvd_verdict");
_Static_assert(sizeof(edfvd_unfit) == 16, "edfvd_unfit");
_Static_assert(sizeof(edfvd_watch) == 32, "edfvd_watch");
_Static_assert(sizeof(edfvd_late) == 16, "edfvd_late");
_Static_assert(offsetof(edfvd_handle, mark) == offsetof(raw_handle, mark), "mark");
_Static_assert(offsetof(edfvd_handle, at) == offsetof(raw_handle, at), "at");
_Static_assert(offsetof(edfvd_handle, self) >= sizeof(raw_handle), "a handle begins with what the library has of it");
_Static_assert(sizeof(edfvd_scheduler) == sizeof(edfvd_handle) && sizeof(edfvd_monitor) == sizeof(edfvd_handle), "a handle");
_Static_assert(sizeof(void *) == 8 && sizeof(size_t) == 8, "a machine of 64 bits");

/* What is passed for no elements: a slice of the library is never null, even if it is empty. */
static const edfvd_task no_tasks[1];

static const edfvd_row no_rows[1];

static const edfvd_task *some(const edfvd_task *tasks, size_t count) { return count == 0 ? no_tasks : tasks; }

/* The handle of a scheduler and that of a monitor; null of a null pointer. */
static edfvd_handle *of_scheduler(edfvd_scheduler *s) { return s == NULL ? NULL : &s->handle; }

static edfvd_handle *of_monitor(edfvd_monitor *m) { return m == NULL ? NULL : &m->handle; }

static raw_handle *raw(edfvd_handle *h) { return (raw_handle *)(void *)h; }

/* Enters a call, unless another thread is in one with this scheduler or monitor, or it is not where it was opened. That another
   thread is in one is marked as rare, which saves each call an instruction. */
static inline edfvd_status enter(edfvd_handle *h) {
    if (h == NULL) return EDFVD_NULL;
    if (__builtin_expect(__atomic_exchange_n(&h->busy, 1, __ATOMIC_ACQUIRE) != 0, 0)) return EDFVD_BUSY;
    if (h->self != h && h->self != NULL) {
        __atomic_store_n(&h->busy, 0, __ATOMIC_RELEASE);
        return EDFVD_MOVED;
    }
    return EDFVD_OK;
}

static edfvd_status leave(edfvd_handle *h, uint32_t status) {
    __atomic_store_n(&h->busy, 0, __ATOMIC_RELEASE);
    return (edfvd_status)status;
}

/* Leaves the call that opened it: from now on it stays here. */
static edfvd_status leave_opened(edfvd_handle *h, uint32_t status) {
    if (status == EDFVD_OK) h->self = h;
    return leave(h, status);
}

/* Leaves the call that closed it: it may be moved again. */
static edfvd_status leave_closed(edfvd_handle *h, uint32_t status) {
    if (status == EDFVD_OK) h->self = NULL;
    return leave(h, status);
}

uint32_t edfvd_version(void) { return EDFVD_VERSION; }

edfvd_status edfvd_check(const edfvd_task *tasks, size_t count, edfvd_test *test) {
    if (test == NULL || (tasks == NULL && count != 0)) return EDFVD_NULL;
    return (edfvd_status)edfvd_raw_check(some(tasks, count), count, test);
}

edfvd_status edfvd_check_many(const edfvd_task *tasks, size_t count, const uint64_t *offsets, size_t sets, edfvd_test *tests,
                              uint32_t *statuses) {
    if (offsets == NULL || (tasks == NULL && count != 0)) return EDFVD_NULL;
    if ((tests == NULL || statuses == NULL) && sets != 0) return EDFVD_NULL;
    for (size_t i = 0; i < sets; i++)
        if (offsets[i] > offsets[i + 1]) return EDFVD_ARGUMENT;
    if (offsets[sets] > count) return EDFVD_ARGUMENT;
    for (size_t i = 0; i < sets; i++) {
        size_t length = offsets[i + 1] - offsets[i];
        statuses[i] = edfvd_raw_check(length == 0 ? no_tasks : tasks + offsets[i], length, &tests[i]);
    }
    return EDFVD_OK;
}

edfvd_status edfvd_stretch(const edfvd_task *tasks, size_t count, uint32_t *percent, uint32_t *task) {
    uint32_t unread;
    if (percent == NULL || (tasks == NULL && count != 0)) return EDFVD_NULL;
    return (edfvd_status)edfvd_raw_stretch(some(tasks, count), count, percent, task == NULL ? &unread : task);
}

edfvd_status edfvd_partition(const edfvd_task *tasks, size_t count, uint32_t processors, uint32_t *on, uint32_t *task) {
    static uint32_t none[1];
    uint32_t unread;
    if ((tasks == NULL || on == NULL) && count != 0) return EDFVD_NULL;
    return (edfvd_status)edfvd_raw_partition(some(tasks, count), count, processors, count == 0 ? none : on, count,
                                             task == NULL ? &unread : task);
}

edfvd_status edfvd_accept(uint64_t number, uint32_t sets, uint32_t tasks, uint32_t counts[11]) {
    if (counts == NULL) return EDFVD_NULL;
    return (edfvd_status)edfvd_raw_accept(number, sets, tasks, counts);
}

edfvd_status edfvd_sensitivity(const edfvd_task *tasks, size_t count, edfvd_budgets *budgets, uint32_t *task) {
    static edfvd_budgets none[1];
    uint32_t unread;
    if ((tasks == NULL || budgets == NULL) && count != 0) return EDFVD_NULL;
    return (edfvd_status)edfvd_raw_sensitivity(some(tasks, count), count, count == 0 ? none : budgets, count,
                                               task == NULL ? &unread : task);
}

edfvd_status edfvd_scales(const edfvd_task *tasks, size_t count, edfvd_scale_range *scales, uint32_t *task) {
    uint32_t unread;
    if (scales == NULL || (tasks == NULL && count != 0)) return EDFVD_NULL;
    return (edfvd_status)edfvd_raw_scales(some(tasks, count), count, scales, task == NULL ? &unread : task);
}

edfvd_status edfvd_speed(const edfvd_task *tasks, size_t count, uint64_t *millionths, uint32_t *task) {
    uint32_t unread;
    if (millionths == NULL || (tasks == NULL && count != 0)) return EDFVD_NULL;
    return (edfvd_status)edfvd_raw_speed(some(tasks, count), count, millionths, task == NULL ? &unread : task);
}

edfvd_status edfvd_demand(const edfvd_demand_task *tasks, size_t count, edfvd_demand_test *test) {
    static const edfvd_demand_task none[1];
    if (test == NULL || (tasks == NULL && count != 0)) return EDFVD_NULL;
    return (edfvd_status)edfvd_raw_demand(count == 0 ? none : tasks, count, test);
}

edfvd_status edfvd_judge(const edfvd_task *tasks, size_t count, const edfvd_row *rows, size_t length, uint64_t p, uint64_t q,
                         edfvd_verdict *verdict) {
    if (verdict == NULL || (tasks == NULL && count != 0) || (rows == NULL && length != 0)) return EDFVD_NULL;
    return (edfvd_status)edfvd_raw_judge(some(tasks, count), count, length == 0 ? no_rows : rows, length, p, q,
                                         verdict);
}

edfvd_status edfvd_scheduler_open(edfvd_scheduler *s, const edfvd_task *tasks, size_t count, uint32_t places, uint32_t *task) {
    uint32_t unread = 0;
    if (tasks == NULL && count != 0) return EDFVD_NULL;
    edfvd_handle *h = of_scheduler(s);
    edfvd_status entered = enter(h);
    if (entered != EDFVD_OK) return entered;
    uint32_t status = edfvd_raw_scheduler_open(raw(h), some(tasks, count), count, places, task == NULL ? &unread : task);
    return leave_opened(h, status);
}

edfvd_status edfvd_scheduler_open_endless(edfvd_scheduler *s, const edfvd_task *tasks, size_t count, uint32_t *task) {
    uint32_t unread = 0;
    if (tasks == NULL && count != 0) return EDFVD_NULL;
    edfvd_handle *h = of_scheduler(s);
    edfvd_status entered = enter(h);
    if (entered != EDFVD_OK) return entered;
    uint32_t status = edfvd_raw_scheduler_open_endless(raw(h), some(tasks, count), count, task == NULL ? &unread : task);
    return leave_opened(h, status);
}

edfvd_status edfvd_scheduler_open_scaled(edfvd_scheduler *s, const edfvd_task *tasks, size_t count, uint64_t p, uint64_t q,
                                         uint32_t places, uint32_t *task) {
    uint32_t unread = 0;
    if (tasks == NULL && count != 0) return EDFVD_NULL;
    edfvd_handle *h = of_scheduler(s);
    edfvd_status entered = enter(h);
    if (entered != EDFVD_OK) return entered;
    uint32_t status = edfvd_raw_scheduler_open_scaled(raw(h), some(tasks, count), count, p, q, places,
                                                      task == NULL ? &unread : task);
    return leave_opened(h, status);
}

edfvd_status edfvd_scheduler_open_endless_scaled(edfvd_scheduler *s, const edfvd_task *tasks, size_t count, uint64_t p,
                                                 uint64_t q, uint32_t *task) {
    uint32_t unread = 0;
    if (tasks == NULL && count != 0) return EDFVD_NULL;
    edfvd_handle *h = of_scheduler(s);
    edfvd_status entered = enter(h);
    if (entered != EDFVD_OK) return entered;
    uint32_t status = edfvd_raw_scheduler_open_endless_scaled(raw(h), some(tasks, count), count, p, q,
                                                              task == NULL ? &unread : task);
    return leave_opened(h, status);
}

edfvd_status edfvd_scheduler_close(edfvd_scheduler *s) {
    edfvd_handle *h = of_scheduler(s);
    edfvd_status entered = enter(h);
    if (entered != EDFVD_OK) return entered;
    uint32_t status = edfvd_raw_scheduler_close(raw(h));
    return leave_closed(h, status);
}

edfvd_status edfvd_scheduler_restart(edfvd_scheduler *s, edfvd_answer *answer) {
    edfvd_answer unread;
    edfvd_handle *h = of_scheduler(s);
    edfvd_status entered = enter(h);
    if (entered != EDFVD_OK) return entered;
    return leave(h, edfvd_raw_scheduler_restart(raw(h), answer == NULL ? &unread : answer));
}

edfvd_status edfvd_scheduler_release(edfvd_scheduler *s, uint32_t task, edfvd_answer *answer) {
    edfvd_answer unread;
    edfvd_handle *h = of_scheduler(s);
    edfvd_status entered = enter(h);
    if (entered != EDFVD_OK) return entered;
    return leave(h, edfvd_raw_scheduler_release(raw(h), task, answer == NULL ? &unread : answer));
}

edfvd_status edfvd_scheduler_grant(edfvd_scheduler *s, uint32_t task, edfvd_answer *answer) {
    edfvd_answer unread;
    edfvd_handle *h = of_scheduler(s);
    edfvd_status entered = enter(h);
    if (entered != EDFVD_OK) return entered;
    return leave(h, edfvd_raw_scheduler_grant(raw(h), task, answer == NULL ? &unread : answer));
}

edfvd_status edfvd_scheduler_outcome(edfvd_scheduler *s, uint32_t task, uint32_t count, bool done, edfvd_answer *answer) {
    edfvd_answer unread;
    edfvd_handle *h = of_scheduler(s);
    edfvd_status entered = enter(h);
    if (entered != EDFVD_OK) return entered;
    return leave(h, edfvd_raw_scheduler_outcome(raw(h), task, count, done, answer == NULL ? &unread : answer));
}

edfvd_status edfvd_scheduler_idle(edfvd_scheduler *s, edfvd_answer *answer) {
    edfvd_answer unread;
    edfvd_handle *h = of_scheduler(s);
    edfvd_status entered = enter(h);
    if (entered != EDFVD_OK) return entered;
    return leave(h, edfvd_raw_scheduler_idle(raw(h), answer == NULL ? &unread : answer));
}

edfvd_status edfvd_scheduler_run(edfvd_scheduler *s, uint32_t task, uint32_t count, uint32_t ticks, bool done,
                                 edfvd_answer *answer) {
    edfvd_answer unread;
    edfvd_handle *h = of_scheduler(s);
    edfvd_status entered = enter(h);
    if (entered != EDFVD_OK) return entered;
    return leave(h, edfvd_raw_scheduler_run(raw(h), task, count, ticks, done, answer == NULL ? &unread : answer));
}

edfvd_status edfvd_scheduler_idle_for(edfvd_scheduler *s, uint64_t ticks, edfvd_answer *answer) {
    edfvd_answer unread;
    edfvd_handle *h = of_scheduler(s);
    edfvd_status entered = enter(h);
    if (entered != EDFVD_OK) return entered;
    return leave(h, edfvd_raw_scheduler_idle_for(raw(h), ticks, answer == NULL ? &unread : answer));
}

edfvd_status edfvd_scheduler_next(edfvd_scheduler *s, edfvd_next *next) {
    if (next == NULL) return EDFVD_NULL;
    edfvd_handle *h = of_scheduler(s);
    edfvd_status entered = enter(h);
    if (entered != EDFVD_OK) return entered;
    return leave(h, edfvd_raw_scheduler_next(raw(h), next));
}

edfvd_status edfvd_scheduler_pending(edfvd_scheduler *s, uint32_t task, edfvd_pending *pending) {
    if (pending == NULL) return EDFVD_NULL;
    edfvd_handle *h = of_scheduler(s);
    edfvd_status entered = enter(h);
    if (entered != EDFVD_OK) return entered;
    return leave(h, edfvd_raw_scheduler_pending(raw(h), task, pending));
}

edfvd_status edfvd_scheduler_earliest(edfvd_scheduler *s, uint32_t task, uint64_t *at) {
    if (at == NULL) return EDFVD_NULL;
    edfvd_handle *h = of_scheduler(s);
    edfvd_status entered = enter(h);
    if (entered != EDFVD_OK) return entered;
    return leave(h, edfvd_raw_scheduler_earliest(raw(h), task, at));
}

edfvd_status edfvd_scheduler_discarded(edfvd_scheduler *s, uint32_t task, uint32_t *count) {
    if (count == NULL) return EDFVD_NULL;
    edfvd_handle *h = of_scheduler(s);
    edfvd_status entered = enter(h);
    if (entered != EDFVD_OK) return entered;
    return leave(h, edfvd_raw_scheduler_discarded(raw(h), task, count));
}

edfvd_status edfvd_scheduler_scale(edfvd_scheduler *s, edfvd_scale *scale) {
    if (scale == NULL) return EDFVD_NULL;
    edfvd_handle *h = of_scheduler(s);
    edfvd_status entered = enter(h);
    if (entered != EDFVD_OK) return entered;
    return leave(h, edfvd_raw_scheduler_scale(raw(h), scale));
}

edfvd_status edfvd_scheduler_look(edfvd_scheduler *s, edfvd_look *look) {
    if (look == NULL) return EDFVD_NULL;
    edfvd_handle *h = of_scheduler(s);
    edfvd_status entered = enter(h);
    if (entered != EDFVD_OK) return entered;
    return leave(h, edfvd_raw_scheduler_look(raw(h), look));
}

edfvd_status edfvd_scheduler_row(edfvd_scheduler *s, uint64_t number, edfvd_row *row) {
    if (row == NULL) return EDFVD_NULL;
    edfvd_handle *h = of_scheduler(s);
    edfvd_status entered = enter(h);
    if (entered != EDFVD_OK) return entered;
    return leave(h, edfvd_raw_scheduler_row(raw(h), number, row));
}

edfvd_status edfvd_scheduler_rows(edfvd_scheduler *s, uint64_t number, edfvd_row *row, uint32_t *times) {
    if (row == NULL || times == NULL) return EDFVD_NULL;
    edfvd_handle *h = of_scheduler(s);
    edfvd_status entered = enter(h);
    if (entered != EDFVD_OK) return entered;
    return leave(h, edfvd_raw_scheduler_rows(raw(h), number, row, times));
}

edfvd_status edfvd_monitor_open(edfvd_monitor *m, const edfvd_task *tasks, size_t count, uint64_t p, uint64_t q,
                                uint32_t *task) {
    uint32_t unread = 0;
    if (tasks == NULL && count != 0) return EDFVD_NULL;
    edfvd_handle *h = of_monitor(m);
    edfvd_status entered = enter(h);
    if (entered != EDFVD_OK) return entered;
    uint32_t status = edfvd_raw_monitor_open(raw(h), some(tasks, count), count, p, q,
                                             task == NULL ? &unread : task);
    return leave_opened(h, status);
}

edfvd_status edfvd_monitor_close(edfvd_monitor *m) {
    edfvd_handle *h = of_monitor(m);
    edfvd_status entered = enter(h);
    if (entered != EDFVD_OK) return entered;
    uint32_t status = edfvd_raw_monitor_close(raw(h));
    return leave_closed(h, status);
}

edfvd_status edfvd_monitor_observe(edfvd_monitor *m, const edfvd_row *row, uint32_t times, edfvd_unfit *unfit) {
    edfvd_unfit unread;
    if (row == NULL) return EDFVD_NULL;
    edfvd_handle *h = of_monitor(m);
    edfvd_status entered = enter(h);
    if (entered != EDFVD_OK) return entered;
    return leave(h, edfvd_raw_monitor_observe(raw(h), row, times, unfit == NULL ? &unread : unfit));
}

/* How many of the rows from the first on are equal to it, and may come at once. */
static uint32_t equal_rows(const edfvd_row *rows, size_t length) {
    uint32_t times = 1;
    if (rows->event != EDFVD_MORE && rows->event != EDFVD_IDLE) return times;
    while (times < length && times < UINT32_MAX && rows[times].event == rows->event && rows[times].task == rows->task &&
           rows[times].count == rows->count)
        times++;
    return times;
}

edfvd_status edfvd_monitor_observe_all(edfvd_monitor *m, const edfvd_row *rows, size_t length, edfvd_unfit *unfit) {
    static const edfvd_unfit none;
    edfvd_watch unread;
    edfvd_unfit found = none;
    if (rows == NULL && length != 0) return EDFVD_NULL;
    edfvd_handle *h = of_monitor(m);
    edfvd_status entered = enter(h);
    if (entered != EDFVD_OK) return entered;
    /* Whether the monitor is open is said without a row, too. */
    uint32_t status = edfvd_raw_monitor_look(raw(h), &unread);
    while (status == EDFVD_OK && length != 0 && found.why == EDFVD_FITS) {
        uint32_t times = equal_rows(rows, length);
        status = edfvd_raw_monitor_observe(raw(h), rows, times, &found);
        rows += times;
        length -= times;
    }
    if (unfit != NULL) *unfit = found;
    return leave(h, status);
}

edfvd_status edfvd_monitor_would_fit(edfvd_monitor *m, const edfvd_row *row, uint32_t times, edfvd_unfit *unfit) {
    if (row == NULL || unfit == NULL) return EDFVD_NULL;
    edfvd_handle *h = of_monitor(m);
    edfvd_status entered = enter(h);
    if (entered != EDFVD_OK) return entered;
    return leave(h, edfvd_raw_monitor_would_fit(raw(h), row, times, unfit));
}

edfvd_status edfvd_monitor_late(edfvd_monitor *m, uint64_t since, edfvd_late *jobs, size_t capacity, uint64_t *count) {
    edfvd_late none[1];
    if (count == NULL || (jobs == NULL && capacity != 0)) return EDFVD_NULL;
    edfvd_handle *h = of_monitor(m);
    edfvd_status entered = enter(h);
    if (entered != EDFVD_OK) return entered;
    return leave(h, edfvd_raw_monitor_late(raw(h), since, capacity == 0 ? none : jobs, capacity, count));
}

edfvd_status edfvd_monitor_verdict(edfvd_monitor *m, edfvd_verdict *verdict) {
    if (verdict == NULL) return EDFVD_NULL;
    edfvd_handle *h = of_monitor(m);
    edfvd_status entered = enter(h);
    if (entered != EDFVD_OK) return entered;
    return leave(h, edfvd_raw_monitor_verdict(raw(h), verdict));
}

edfvd_status edfvd_monitor_look(edfvd_monitor *m, edfvd_watch *watch) {
    if (watch == NULL) return EDFVD_NULL;
    edfvd_handle *h = of_monitor(m);
    edfvd_status entered = enter(h);
    if (entered != EDFVD_OK) return entered;
    return leave(h, edfvd_raw_monitor_look(raw(h), watch));
}

const char *edfvd_word(edfvd_status status) {
    switch (status) {
    case EDFVD_OK: return "ok";
    case EDFVD_EMPTY: return "no tasks";
    case EDFVD_TOO_MANY: return "more than 128 tasks";
    case EDFVD_ZERO_NUMBER: return "a period, deadline or budget is 0";
    case EDFVD_BUDGET_ORDER: return "budgets out of order";
    case EDFVD_SAME_NAME: return "two tasks have one name";
    case EDFVD_LEVEL: return "neither low nor high";
    case EDFVD_PERIODS: return "periods out of range";
    case EDFVD_NOT_ADMITTED: return "not admitted";
    case EDFVD_MEMORY: return "out of memory";
    case EDFVD_NO_TASK: return "no such task";
    case EDFVD_DEADLINE_ORDER: return "the deadline is above the period";
    case EDFVD_CLOSED: return "closed";
    case EDFVD_OPEN: return "open already";
    case EDFVD_RUNNING: return "a tick of its job is in progress";
    case EDFVD_TOO_SOON: return "too soon";
    case EDFVD_FULL: return "too many rows or releases";
    case EDFVD_TICK_OUT: return "a tick is in progress";
    case EDFVD_NOT_CHOSEN: return "not the chosen job";
    case EDFVD_NOT_OUT: return "no tick of this job is in progress";
    case EDFVD_PENDING: return "a job is pending";
    case EDFVD_NO_ROW: return "no such row";
    case EDFVD_NO_PERCENTAGE: return "admitted at no percentage";
    case EDFVD_NO_PROCESSOR: return "fits on no processor";
    case EDFVD_GONE: return "the row is no longer kept";
    case EDFVD_PAST: return "the run passes the job's boundary";
    case EDFVD_NULL: return "a null pointer";
    case EDFVD_MOVED: return "copied or moved while open";
    case EDFVD_BUSY: return "another thread is in a call";
    case EDFVD_ARGUMENT: return "a number out of range";
    case EDFVD_SHORT_BUFFER: return "the buffer is too small";
    case EDFVD_THREADS: return "the command starts threads";
    }
    return "an unknown status";
}
