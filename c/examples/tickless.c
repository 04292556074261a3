/*
 * A dispatcher without a periodic tick. It asks the scheduler which job runs and for how many ticks at most, sets its timer to
 * that or to the next release, and reports afterwards how many ticks the job ran. The timer ends the budgets: a job that is
 * not done at its low budget overruns there, and a kernel also stops a job at EDFVD_STOP. Releases come at any tick, here those
 * of net at 3 and 23 in the middle of a job of log. After an overrun the discarded jobs are stopped. A monitor of its own judges
 * the rows, equal ones at once. Here lists of numbers stand for the releases and the work of the jobs, and no time passes.
 */
#include "edfvd.h"
#include <inttypes.h>
#include <stdio.h>

enum { CTL = 1, LOG = 2, NET = 3, TASKS = 3, END = 30 };

static const edfvd_task tasks[TASKS] = {
    {EDFVD_HIGH, 10, 2, 6}, /* ctl, released every 10 ticks */
    {EDFVD_LOW, 10, 4, 4},  /* log, released every 10 ticks */
    {EDFVD_LOW, 20, 1, 1},  /* net, released when a packet comes */
};
static const char *const names[TASKS] = {"ctl", "log", "net"};
static const uint64_t packets[] = {3, 23};

static edfvd_scheduler scheduler = EDFVD_NONE;
static edfvd_monitor monitor = EDFVD_NONE;

/* How many ticks the job needs: the second job of ctl overruns its low budget. */
static uint32_t need(uint32_t task, uint32_t count) {
    static const uint32_t of_ctl[] = {2, 4, 1};
    return task == CTL ? of_ctl[count - 1] : task == LOG ? 4 : 1;
}

static uint64_t seen; /* how many rows the monitor has had */

/* Gives the monitor the rows that are new, equal ones at once. Whether each fits. */
static bool new_rows_fit(void) {
    edfvd_row row;
    edfvd_unfit unfit;
    uint32_t times;
    edfvd_status status;
    while ((status = edfvd_scheduler_rows(&scheduler, seen, &row, &times)) == EDFVD_OK) {
        if (edfvd_monitor_observe(&monitor, &row, times, &unfit) != EDFVD_OK || unfit.why != EDFVD_FITS) return false;
        seen += times;
    }
    return status == EDFVD_NO_ROW;
}

static bool release(uint32_t task) { return edfvd_scheduler_release(&scheduler, task, NULL) == EDFVD_OK && new_rows_fit(); }

/* The next tick after `now` at which a job is released. */
static uint64_t next_release(uint64_t now) {
    uint64_t next = now + 10 - now % 10;
    for (size_t packet = 0; packet < sizeof packets / sizeof *packets; packet++)
        if (packets[packet] > now && packets[packet] < next) next = packets[packet];
    return next;
}

/* Releases what is due: ctl and log every 10 ticks, and net when a packet has come. */
static bool release_due(uint64_t now) {
    if (now % 10 == 0 && !(release(CTL) && release(LOG))) return false;
    for (size_t packet = 0; packet < sizeof packets / sizeof *packets; packet++)
        if (packets[packet] == now && !release(NET)) return false;
    return true;
}

/* Stops the jobs that an overrun discarded. */
static bool stop_discarded(void) {
    for (uint32_t task = 1; task <= TASKS; task++) {
        uint32_t count;
        if (edfvd_scheduler_discarded(&scheduler, task, &count) != EDFVD_OK) return false;
        if (count != 0) printf("      %s %" PRIu32 " is discarded\n", names[task - 1], count);
    }
    return true;
}

static const char *word(uint32_t what) {
    return what == EDFVD_MORE ? "more" : what == EDFVD_DONE ? "done" : what == EDFVD_STOP ? "stopped" : "over";
}

/* Runs the chosen job until the timer or its end; returns how many ticks that took, or 0 after a refusal. */
static uint64_t run(const edfvd_next *next, uint64_t now, uint64_t timer) {
    edfvd_pending job;
    edfvd_answer answer;
    if (edfvd_scheduler_pending(&scheduler, next->task, &job) != EDFVD_OK) return 0;
    uint64_t left = need(job.task, job.count) - job.used;
    uint64_t ticks = next->ticks < timer - now ? next->ticks : timer - now;
    if (left < ticks) ticks = left;
    if (edfvd_scheduler_run(&scheduler, job.task, job.count, (uint32_t)ticks, ticks == left, &answer) != EDFVD_OK) return 0;
    printf("%2" PRIu64 "-%2" PRIu64 " %s %" PRIu32 " %s\n", now, now + ticks, names[job.task - 1], job.count, word(answer.what));
    if (answer.what == EDFVD_OVER && !stop_discarded()) return 0;
    return new_rows_fit() ? ticks : 0;
}

/* Idles until the timer; returns how many ticks that took, or 0 after a refusal. */
static uint64_t rest(uint64_t now, uint64_t timer) {
    if (edfvd_scheduler_idle_for(&scheduler, timer - now, NULL) != EDFVD_OK) return 0;
    printf("%2" PRIu64 "-%2" PRIu64 " idle\n", now, timer);
    return new_rows_fit() ? timer - now : 0;
}

int main(void) {
    uint64_t now = 0, ticks;
    edfvd_next next;
    edfvd_look look;
    edfvd_verdict verdict;
    if (edfvd_scheduler_open_endless(&scheduler, tasks, TASKS, NULL) != EDFVD_OK) return 1;
    if (edfvd_monitor_open(&monitor, tasks, TASKS, 0, 0, NULL) != EDFVD_OK) return 2;
    while (now < END) {
        if (!release_due(now) || edfvd_scheduler_next(&scheduler, &next) != EDFVD_OK) return 3;
        uint64_t timer = next_release(now);
        do {
            ticks = next.task == 0 ? rest(now, timer) : run(&next, now, timer);
            if (ticks == 0 || edfvd_scheduler_next(&scheduler, &next) != EDFVD_OK) return 4;
            now += ticks;
        } while (now < timer);
    }
    if (edfvd_scheduler_look(&scheduler, &look) != EDFVD_OK) return 5;
    if (edfvd_monitor_verdict(&monitor, &verdict) != EDFVD_OK) return 6;
    printf("%" PRIu64 " ticks, %" PRIu64 " rows, %s, %" PRIu64 " late\n", look.ticks, look.rows,
           verdict.why == EDFVD_FITS ? "legal" : "illegal", verdict.late);
    if (edfvd_monitor_close(&monitor) != EDFVD_OK) return 7;
    return edfvd_scheduler_close(&scheduler) == EDFVD_OK ? 0 : 8;
}
