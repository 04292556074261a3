/*
 * A scheduler or monitor that another thread is in a call with: every call with it is EDFVD_BUSY, stores nothing, and does not
 * wait. The main thread is the one in a call: when that call asks for memory, a second thread is started inside malloc, makes
 * the calls that are refused, and ends. Link with -Wl,--wrap=malloc,--wrap=realloc,--wrap=free and -pthread.
 */
#include "tests.h"
#include <pthread.h>

void *__real_malloc(size_t size);
void *__real_realloc(void *at, size_t size);
void __real_free(void *at);
void *__wrap_malloc(size_t size);
void *__wrap_realloc(void *at, size_t size);
void __wrap_free(void *at);

tally tests;

static const edfvd_task control[] = {{EDFVD_HIGH, 10, 2, 6}, {EDFVD_LOW, 10, 5, 5}};
static edfvd_scheduler s = EDFVD_NONE;
static edfvd_monitor m = EDFVD_NONE;

/* What the second thread does inside the next allocation, and how many times it was started. */
static void *(*inside)(void *);
static int started;

static void interrupt(void) {
    pthread_t thread;
    void *(*calls)(void *) = inside;
    if (calls == NULL) return;
    inside = NULL; /* an allocation of the second thread starts no third */
    started++;
    IS(0, pthread_create(&thread, NULL, calls, NULL));
    IS(0, pthread_join(thread, NULL));
}

void *__wrap_malloc(size_t size) {
    interrupt();
    return __real_malloc(size);
}

void *__wrap_realloc(void *at, size_t size) {
    interrupt();
    return __real_realloc(at, size);
}

void __wrap_free(void *at) { __real_free(at); }

static void *scheduler_calls(void *none) {
    edfvd_answer answer;
    edfvd_look look;
    edfvd_row row;
    uint32_t task, count, times;
    edfvd_next next;
    edfvd_pending pending;
    edfvd_scale scale;
    uint64_t at;
    PAINTED(next);
    PAINTED(pending);
    PAINTED(scale);
    PAINTED(at);
    PAINTED(count);
    PAINTED(answer);
    PAINTED(look);
    PAINTED(row);
    PAINTED(times);
    PAINTED(task);
    RETURNS(EDFVD_BUSY, edfvd_scheduler_open(&s, control, 2, 10, &task));
    RETURNS(EDFVD_BUSY, edfvd_scheduler_open_endless(&s, control, 2, &task));
    RETURNS(EDFVD_BUSY, edfvd_scheduler_open_scaled(&s, control, 2, 2, 5, 10, &task));
    RETURNS(EDFVD_BUSY, edfvd_scheduler_open_endless_scaled(&s, control, 2, 2, 5, &task));
    RETURNS(EDFVD_BUSY, edfvd_scheduler_run(&s, 1, 1, 1, true, &answer));
    RETURNS(EDFVD_BUSY, edfvd_scheduler_idle_for(&s, 3, &answer));
    RETURNS(EDFVD_BUSY, edfvd_scheduler_next(&s, &next));
    RETURNS(EDFVD_BUSY, edfvd_scheduler_pending(&s, 1, &pending));
    RETURNS(EDFVD_BUSY, edfvd_scheduler_earliest(&s, 1, &at));
    RETURNS(EDFVD_BUSY, edfvd_scheduler_discarded(&s, 1, &count));
    RETURNS(EDFVD_BUSY, edfvd_scheduler_scale(&s, &scale));
    RETURNS(EDFVD_BUSY, edfvd_scheduler_release(&s, 1, &answer));
    RETURNS(EDFVD_BUSY, edfvd_scheduler_grant(&s, 1, &answer));
    RETURNS(EDFVD_BUSY, edfvd_scheduler_outcome(&s, 1, 1, true, &answer));
    RETURNS(EDFVD_BUSY, edfvd_scheduler_idle(&s, &answer));
    RETURNS(EDFVD_BUSY, edfvd_scheduler_look(&s, &look));
    RETURNS(EDFVD_BUSY, edfvd_scheduler_row(&s, 0, &row));
    RETURNS(EDFVD_BUSY, edfvd_scheduler_rows(&s, 0, &row, &times));
    RETURNS(EDFVD_BUSY, edfvd_scheduler_restart(&s, &answer));
    RETURNS(EDFVD_BUSY, edfvd_scheduler_close(&s));
    IS_PAINTED(next);
    IS_PAINTED(pending);
    IS_PAINTED(scale);
    IS_PAINTED(at);
    IS_PAINTED(count);
    IS_PAINTED(answer);
    IS_PAINTED(look);
    IS_PAINTED(row);
    IS_PAINTED(times);
    IS_PAINTED(task);
    return none;
}

static void *monitor_calls(void *none) {
    static const edfvd_row idle = {EDFVD_IDLE, 0, 0};
    edfvd_unfit unfit;
    edfvd_late late;
    edfvd_verdict verdict;
    edfvd_watch watch;
    uint64_t count;
    uint32_t task;
    PAINTED(unfit);
    PAINTED(late);
    PAINTED(verdict);
    PAINTED(watch);
    PAINTED(count);
    PAINTED(task);
    RETURNS(EDFVD_BUSY, edfvd_monitor_open(&m, control, 2, 1, 1, &task));
    RETURNS(EDFVD_BUSY, edfvd_monitor_observe(&m, &idle, 1, &unfit));
    RETURNS(EDFVD_BUSY, edfvd_monitor_would_fit(&m, &idle, 1, &unfit));
    RETURNS(EDFVD_BUSY, edfvd_monitor_late(&m, 0, &late, 1, &count));
    RETURNS(EDFVD_BUSY, edfvd_monitor_verdict(&m, &verdict));
    RETURNS(EDFVD_BUSY, edfvd_monitor_look(&m, &watch));
    RETURNS(EDFVD_BUSY, edfvd_monitor_close(&m));
    IS_PAINTED(unfit);
    IS_PAINTED(late);
    IS_PAINTED(verdict);
    IS_PAINTED(watch);
    IS_PAINTED(count);
    IS_PAINTED(task);
    return none;
}

int main(void) {
    edfvd_look look;
    edfvd_verdict verdict;
    inside = scheduler_calls;
    RETURNS(EDFVD_OK, edfvd_scheduler_open(&s, control, 2, 10, NULL));
    RETURNS(EDFVD_OK, edfvd_scheduler_look(&s, &look));
    IS(0, look.rows);
    RETURNS(EDFVD_OK, edfvd_scheduler_close(&s));
    inside = scheduler_calls;
    RETURNS(EDFVD_OK, edfvd_scheduler_open_endless(&s, control, 2, NULL));
    RETURNS(EDFVD_OK, edfvd_scheduler_idle(&s, NULL));
    RETURNS(EDFVD_OK, edfvd_scheduler_close(&s));
    inside = monitor_calls;
    RETURNS(EDFVD_OK, edfvd_monitor_open(&m, control, 2, 0, 0, NULL));
    RETURNS(EDFVD_OK, edfvd_monitor_verdict(&m, &verdict));
    RETURNS(EDFVD_OK, edfvd_monitor_close(&m));
    IS(3, started);
    inside = NULL;
    return ends("busy");
}
