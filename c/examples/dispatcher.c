/*
 * A dispatcher as firmware has it: no stdio, no memory but what the two open calls take, and no end. A timer calls tick() once
 * each tick. It reports how the last tick ended for its job, releases the jobs that are due, and grants the tick to the job
 * that the scheduler chooses. Each row goes to a monitor of its own, so a row that breaks a rule, or a job that becomes late,
 * is seen in the tick in which it happens. A monitor takes memory after it is open only if a task with two pending jobs
 * releases a third, and then is_good() sees EDFVD_MEMORY if there is none. Here a loop stands for the timer. The program ends
 * with 0 if no call was refused, each row fitted and no job was late.
 */
#include "edfvd.h"

enum { TASKS = 3, TICKS = 200000 };

static const edfvd_task tasks[TASKS] = {
    {EDFVD_HIGH, 5, 1, 2},  /* 1: sample a sensor */
    {EDFVD_HIGH, 10, 2, 4}, /* 2: control a motor */
    {EDFVD_LOW, 20, 3, 3},  /* 3: send a report */
};

static edfvd_scheduler scheduler = EDFVD_NONE;
static edfvd_monitor monitor = EDFVD_NONE;
static edfvd_answer running; /* the job that has the tick in progress; task 0 if there is none */
static uint64_t seen;        /* how many rows the monitor has had */

/* Stands for the job's work in a tick: whether the job is done with it. Each hundredth job of the motor's control overruns. */
static bool works(const edfvd_answer *job) {
    static const uint32_t needs[TASKS] = {1, 2, 3};
    bool overruns = job->task == 2 && job->count % 100 == 0;
    return job->before + 1 == (overruns ? 4 : needs[job->task - 1]);
}

/* Gives the monitor each new row. Whether each fits, and no job became late by it. */
static bool is_good(void) {
    edfvd_look look;
    edfvd_watch watch;
    if (edfvd_scheduler_look(&scheduler, &look) != EDFVD_OK || edfvd_monitor_look(&monitor, &watch) != EDFVD_OK) return false;
    for (; seen < look.rows; seen++) {
        edfvd_row row;
        edfvd_unfit unfit;
        if (edfvd_scheduler_row(&scheduler, seen, &row) != EDFVD_OK) return false;
        if (edfvd_monitor_observe(&monitor, &row, 1, &unfit) != EDFVD_OK || unfit.why != EDFVD_FITS) return false;
    }
    uint64_t late; /* with no array, the call is EDFVD_SHORT_BUFFER if there is a late job */
    return edfvd_monitor_late(&monitor, watch.ticks, NULL, 0, &late) == EDFVD_OK;
}

/* What the timer calls at the start of tick `now`. */
static bool tick(uint64_t now) {
    edfvd_look look;
    if (running.task != 0) {
        if (edfvd_scheduler_outcome(&scheduler, running.task, running.count, works(&running), NULL) != EDFVD_OK) return false;
        running.task = 0;
    }
    for (uint32_t task = 1; task <= TASKS; task++)
        if (now % tasks[task - 1].period == 0 && edfvd_scheduler_release(&scheduler, task, NULL) != EDFVD_OK) return false;
    if (!is_good()) return false;
    if (edfvd_scheduler_look(&scheduler, &look) != EDFVD_OK) return false;
    if (look.chosen_task == 0) return edfvd_scheduler_idle(&scheduler, NULL) == EDFVD_OK;
    return edfvd_scheduler_grant(&scheduler, look.chosen_task, &running) == EDFVD_OK;
}

int main(void) {
    if (edfvd_scheduler_open_endless(&scheduler, tasks, TASKS, NULL) != EDFVD_OK) return 1;
    if (edfvd_monitor_open(&monitor, tasks, TASKS, 0, 0, NULL) != EDFVD_OK) return 2;
    for (uint64_t now = 0; now < TICKS; now++)
        if (!tick(now)) return 3;
    if (edfvd_monitor_close(&monitor) != EDFVD_OK) return 4;
    return edfvd_scheduler_close(&scheduler) == EDFVD_OK ? 0 : 5;
}
