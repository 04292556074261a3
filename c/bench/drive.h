/*
 * A fixed schedule for the measurements of bench/small.sh, with a monitor beside the scheduler. Who includes this defines
 * CALL(kind, call), through which each measured call goes. Of the 8 or 128 tasks half are of high level, and jobs come in one of two ways:
 * spread, each task's when its period has passed, or later by up to a quarter of it; or all in one tick, and then none until all tasks may
 * release again. In each second burst task 2 comes a tick earlier than the others and overruns while they are released, which is the most
 * that an event has to do: all low jobs are discarded, and all keys change.
 */
#ifndef DRIVE_H
#define DRIVE_H

#include "edfvd.h"
#include <inttypes.h>
#include <stdio.h>
#include <stdlib.h>
#include <string.h>

enum { RELEASE, GRANT, OUTCOME, IDLE, LOOK, ROW, OBSERVE, WOULD_FIT, LATE, KINDS };

static const char *const kinds[KINDS] = {
    "scheduler_release", "scheduler_grant", "scheduler_outcome",  "scheduler_idle", "scheduler_look",
    "scheduler_row",     "monitor_observe", "monitor_would_fit", "monitor_late",
};

static edfvd_task tasks[128];
static uint32_t count;
static edfvd_scheduler scheduler = EDFVD_NONE;
static edfvd_monitor monitor = EDFVD_NONE;
static uint64_t seen;   /* how many rows the monitor has had */
static uint64_t state;  /* of the random numbers */
static uint64_t now;    /* the tick that begins */
static struct plan {
    uint64_t next; /* the first tick at which the task may release again */
    uint32_t need; /* ticks of its latest job */
} plans[129];

static void must(const char *call, edfvd_status status) {
    if (status == EDFVD_OK) return;
    fprintf(stderr, "%s: %s\n", call, edfvd_word(status));
    exit(1);
}

/* splitmix64 */
static uint32_t below(uint32_t limit) {
    uint64_t z = (state += 0x9e3779b97f4a7c15u);
    z = (z ^ (z >> 30)) * 0xbf58476d1ce4e5b9u;
    z = (z ^ (z >> 27)) * 0x94d049bb133111ebu;
    return (uint32_t)((z ^ (z >> 31)) >> 32) % limit;
}

/* Sets of 8 and of 128 tasks, which the test admits with virtual deadlines. */
static void set_tasks(uint32_t number) {
    static const edfvd_task eight[8] = {
        {EDFVD_HIGH, 10, 1, 3}, {EDFVD_HIGH, 20, 1, 3}, {EDFVD_HIGH, 40, 1, 3}, {EDFVD_HIGH, 40, 1, 3},
        {EDFVD_LOW, 20, 3, 3},  {EDFVD_LOW, 20, 2, 2},  {EDFVD_LOW, 40, 4, 4},  {EDFVD_LOW, 80, 8, 8},
    };
    count = number;
    if (number == 8) memcpy(tasks, eight, sizeof eight);
    for (uint32_t place = 0; number != 8 && place < number; place++)
        tasks[place] = place % 2 != 0   ? (edfvd_task){EDFVD_HIGH, 320, 1, 3}
                       : place % 4 != 0 ? (edfvd_task){EDFVD_LOW, 320, 2, 2}
                                        : (edfvd_task){EDFVD_LOW, 640, 5, 5};
}

/* Everything is as at the beginning. */
static void reset(void) {
    memset(&scheduler, 0, sizeof scheduler);
    memset(&monitor, 0, sizeof monitor);
    memset(plans, 0, sizeof plans);
    state = 42;
    seen = 0;
    now = 0;
}

static inline void open_all(void) {
    reset();
    must("open", edfvd_scheduler_open_endless(&scheduler, tasks, count, NULL));
    must("monitor_open", edfvd_monitor_open(&monitor, tasks, count, 0, 0, NULL));
}

static inline void close_all(void) {
    must("monitor_close", edfvd_monitor_close(&monitor));
    must("close", edfvd_scheduler_close(&scheduler));
}

/* Gives the monitor each new row. */
static void hand_on(void) {
    edfvd_look look;
    edfvd_watch watch;
    edfvd_status status;
    CALL(LOOK, status = edfvd_scheduler_look(&scheduler, &look));
    must("look", status);
    must("monitor_look", edfvd_monitor_look(&monitor, &watch));
    for (; seen < look.rows; seen++) {
        edfvd_row row;
        edfvd_unfit unfit;
        CALL(ROW, status = edfvd_scheduler_row(&scheduler, seen, &row));
        must("row", status);
        CALL(WOULD_FIT, status = edfvd_monitor_would_fit(&monitor, &row, 1, &unfit));
        must("would_fit", status);
        CALL(OBSERVE, status = edfvd_monitor_observe(&monitor, &row, 1, &unfit));
        must("observe", status);
        if (unfit.why != EDFVD_FITS) must("a row", EDFVD_ARGUMENT);
    }
    uint64_t late = 0;
    CALL(LATE, status = edfvd_monitor_late(&monitor, watch.ticks, NULL, 0, &late));
    must("late", status);
}

/* Whether the task's next job comes now. A release while a tick is in progress is one at the tick after it. */
static bool is_due(uint32_t task, bool in_bursts, bool in_tick) {
    uint64_t round = tasks[count - 1].period == 320 ? 642 : 82, place = now % round;
    if (plans[task].next > now + in_tick) return false;
    if (!in_bursts) return in_tick == (below(4) == 0);
    bool comes_first = task == 2 && now / round % 2 == 1;
    return place == 0 && (now / round % 2 == 0 ? !in_tick : comes_first != in_tick);
}

/* Releases the jobs that are due. */
static void release(bool in_bursts, bool in_tick) {
    for (uint32_t task = 1; task <= count; task++) {
        edfvd_status status;
        if (!is_due(task, in_bursts, in_tick)) continue;
        CALL(RELEASE, status = edfvd_scheduler_release(&scheduler, task, NULL));
        if (status == EDFVD_RUNNING) continue; /* its own job has the tick */
        must("release", status);
        const edfvd_task *of = &tasks[task - 1];
        bool overruns = of->level == EDFVD_HIGH && (in_bursts ? task == 2 : below(count == 8 ? 20 : 200) == 0);
        plans[task].next = now + in_tick + of->period + (in_bursts ? 0 : below(of->period / 4 + 1));
        plans[task].need = overruns ? of->high : 1 + below(of->low);
    }
}

/* A tick. */
static void tick(bool in_bursts) {
    edfvd_look look;
    edfvd_answer given;
    edfvd_status status;
    release(in_bursts, false);
    hand_on();
    CALL(LOOK, status = edfvd_scheduler_look(&scheduler, &look));
    must("look", status);
    if (look.chosen_task == 0) {
        CALL(IDLE, status = edfvd_scheduler_idle(&scheduler, NULL));
        must("idle", status);
    } else {
        CALL(GRANT, status = edfvd_scheduler_grant(&scheduler, look.chosen_task, &given));
        must("grant", status);
        release(in_bursts, true);
        bool is_done = given.before + 1 >= plans[given.task].need;
        CALL(OUTCOME, status = edfvd_scheduler_outcome(&scheduler, given.task, given.count, is_done, NULL));
        must("outcome", status);
    }
    hand_on();
    now++;
}

/* The number that a word is, or 0. */
static uint32_t number_in(const char *word) {
    char *end;
    unsigned long number = strtoul(word, &end, 10);
    return *word == 0 || *end != 0 || number > 10000000 ? 0 : (uint32_t)number;
}

#endif
