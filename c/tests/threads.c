/*
 * Threads with schedulers and monitors of their own, and threads that share one by mistake: each call on the shared one is
 * refused as busy or done whole. The thread sanitizer reports two accesses without an order between them, so under it this also
 * tries that a call sees what the call before it has written. Link with -pthread.
 */
#include "tests.h"
#include <pthread.h>
#include <stdlib.h>

tally tests;

enum { THREADS = 4, CTL = 1, LOG = 2 };

static const edfvd_task control[] = {{EDFVD_HIGH, 10, 2, 6}, {EDFVD_LOW, 10, 5, 5}};
static edfvd_scheduler shared = EDFVD_NONE;
static edfvd_monitor watched = EDFVD_NONE;
static unsigned calls = 20000; /* how many each thread makes */

/* What one thread counts: ticks of the scheduler and rows of the monitor, openings and closings, and calls that returned a status
   that they must not. */
typedef struct counts {
    uint64_t ticks, rows, opened, closed, wrong;
} counts;

/* Runs the function on each thread, and adds up what they count. */
static counts on_threads(void *(*work)(void *)) {
    pthread_t threads[THREADS];
    counts of[THREADS] = {{0, 0, 0, 0, 0}}, all = {0, 0, 0, 0, 0};
    for (int place = 0; place < THREADS; place++)
        if (pthread_create(&threads[place], NULL, work, &of[place]) != 0) exit(2);
    for (int place = 0; place < THREADS; place++) {
        if (pthread_join(threads[place], NULL) != 0) exit(2);
        all.ticks += of[place].ticks;
        all.rows += of[place].rows;
        all.opened += of[place].opened;
        all.closed += of[place].closed;
        all.wrong += of[place].wrong;
    }
    return all;
}

/* Idle ticks of the one scheduler, and of the one monitor. */
static void *idle_shared(void *arg) {
    static const edfvd_row idle = {EDFVD_IDLE, 0, 0};
    counts *count = arg;
    for (unsigned call = 0; call < calls; call++) {
        edfvd_status status = edfvd_scheduler_idle(&shared, NULL);
        count->ticks += status == EDFVD_OK;
        count->wrong += status != EDFVD_OK && status != EDFVD_BUSY;
        status = edfvd_monitor_observe(&watched, &idle, 1, NULL);
        count->rows += status == EDFVD_OK;
        count->wrong += status != EDFVD_OK && status != EDFVD_BUSY;
    }
    return NULL;
}

/* Opens, looks at and closes the shared ones. A call that is not refused finds them open or closed, and never between. */
static void *open_and_close(void *arg) {
    counts *count = arg;
    for (unsigned call = 0; call < calls / 4; call++) {
        edfvd_look look;
        edfvd_watch watch;
        edfvd_status status =
            call % 2 ? edfvd_scheduler_open(&shared, control, 2, 4, NULL)
                     : edfvd_scheduler_open_endless(&shared, control, 2, NULL);
        count->opened += status == EDFVD_OK;
        count->wrong += status != EDFVD_OK && status != EDFVD_BUSY && status != EDFVD_OPEN;
        status = edfvd_scheduler_look(&shared, &look);
        count->wrong += status != EDFVD_OK && status != EDFVD_BUSY && status != EDFVD_CLOSED;
        status = edfvd_scheduler_close(&shared);
        count->closed += status == EDFVD_OK;
        count->wrong += status != EDFVD_OK && status != EDFVD_BUSY && status != EDFVD_CLOSED;
        status = edfvd_monitor_open(&watched, control, 2, 1, 1, NULL);
        count->opened += status == EDFVD_OK;
        count->wrong += status != EDFVD_OK && status != EDFVD_BUSY && status != EDFVD_OPEN;
        status = edfvd_monitor_look(&watched, &watch);
        count->wrong += status != EDFVD_OK && status != EDFVD_BUSY && status != EDFVD_CLOSED;
        status = edfvd_monitor_close(&watched);
        count->closed += status == EDFVD_OK;
        count->wrong += status != EDFVD_OK && status != EDFVD_BUSY && status != EDFVD_CLOSED;
    }
    return NULL;
}

/* Ten ticks of the control set: ctl has two of them, log five, which is its budget, and three are idle. */
static uint64_t round_of(edfvd_scheduler *s) {
    uint64_t done = 0;
    done += edfvd_scheduler_release(s, CTL, NULL) == EDFVD_OK;
    done += edfvd_scheduler_release(s, LOG, NULL) == EDFVD_OK;
    for (int tick = 0; tick < 10; tick++) {
        edfvd_answer given;
        edfvd_look look;
        done += edfvd_scheduler_look(s, &look) == EDFVD_OK;
        if (look.chosen_task == 0) {
            done += edfvd_scheduler_idle(s, NULL) == EDFVD_OK;
            continue;
        }
        done += edfvd_scheduler_grant(s, look.chosen_task, &given) == EDFVD_OK;
        bool is_done = given.task == CTL && given.before == 1;
        done += edfvd_scheduler_outcome(s, given.task, given.count, is_done, NULL) == EDFVD_OK;
    }
    return done;
}

/* A scheduler and a monitor of the thread's own, beside those of the other threads: no call is refused, and each row fits. */
static void *own(void *arg) {
    counts *count = arg;
    edfvd_scheduler s = EDFVD_NONE;
    edfvd_monitor m = EDFVD_NONE;
    edfvd_look look = {0};
    edfvd_verdict verdict = {0};
    count->wrong +=
        edfvd_scheduler_open_endless(&s, control, 2, NULL) != EDFVD_OK ||
        edfvd_monitor_open(&m, control, 2, 0, 0, NULL) != EDFVD_OK;
    uint64_t seen = 0;
    for (unsigned round = 0; round < calls / 40; round++) {
        count->wrong += round_of(&s) != 2 + 10 + 3 + 2 * 7;
        count->wrong += edfvd_scheduler_look(&s, &look) != EDFVD_OK;
        for (; seen < look.rows; seen++) {
            edfvd_row row;
            edfvd_unfit unfit;
            count->wrong += edfvd_scheduler_row(&s, seen, &row) != EDFVD_OK;
            count->wrong += edfvd_monitor_observe(&m, &row, 1, &unfit) != EDFVD_OK || unfit.why != EDFVD_FITS;
        }
    }
    count->ticks = look.ticks;
    count->wrong += edfvd_monitor_verdict(&m, &verdict) != EDFVD_OK || verdict.why != EDFVD_FITS || verdict.late != 0;
    count->wrong += edfvd_scheduler_close(&s) != EDFVD_OK || edfvd_monitor_close(&m) != EDFVD_OK;
    return NULL;
}

int main(int argc, char **argv) {
    if (argc > 1) calls = (unsigned)strtoul(argv[1], NULL, 10);
    edfvd_look look;
    edfvd_watch watch;
    RETURNS(EDFVD_OK, edfvd_scheduler_open_endless(&shared, control, 2, NULL));
    RETURNS(EDFVD_OK, edfvd_monitor_open(&watched, control, 2, 0, 0, NULL));
    counts all = on_threads(idle_shared);
    IS(0, all.wrong);
    RETURNS(EDFVD_OK, edfvd_scheduler_look(&shared, &look));
    IS(look.ticks, all.ticks);
    RETURNS(EDFVD_OK, edfvd_monitor_look(&watched, &watch));
    IS(watch.rows, all.rows);
    RETURNS(EDFVD_OK, edfvd_scheduler_close(&shared));
    RETURNS(EDFVD_OK, edfvd_monitor_close(&watched));

    all = on_threads(open_and_close);
    IS(0, all.wrong);
    all.closed += edfvd_scheduler_close(&shared) == EDFVD_OK;
    all.closed += edfvd_monitor_close(&watched) == EDFVD_OK;
    IS(all.opened, all.closed);
    IS(0, shared.handle.busy);
    IS(0, watched.handle.busy);

    all = on_threads(own);
    IS(0, all.wrong);
    IS((uint64_t)THREADS * (calls / 40) * 10, all.ticks);
    return ends("threads");
}
