/*
 * What a run of many ticks costs beside as many ticks one by one. One task has half of its period as its budget. Its job runs for TICKS
 * ticks and is done, then as many ticks are idle, and so on for JOBS jobs. With `runs` a job takes three calls, with `ticks` one for its
 * release and three for each of its ticks. With `day` and `day-by-tick` it is the set of examples/tickless.c for JOBS times TICKS ticks,
 * of which ten times 8,640,000 are a day of milliseconds; each thousandth job of ctl overruns, and net is released every 20 ticks.
 * usage: runs TICKS JOBS runs|ticks|day|day-by-tick, as after: cc -O2 -Ic c/bench/runs.c c/out/libedfvd_core.a -o runs
 */
#define _GNU_SOURCE
#include "edfvd.h"
#include <inttypes.h>
#include <stdio.h>
#include <stdlib.h>
#include <string.h>
#include <time.h>

static edfvd_scheduler scheduler = EDFVD_NONE;
static uint64_t calls;

static double seconds(void) {
    struct timespec t;
    clock_gettime(CLOCK_PROCESS_CPUTIME_ID, &t);
    return (double)t.tv_sec + (double)t.tv_nsec * 1e-9;
}

static void must(edfvd_status status) {
    calls++;
    if (status == EDFVD_OK) return;
    fprintf(stderr, "%s\n", edfvd_word(status));
    exit(1);
}

/* A job that runs and is done, and as many idle ticks, in two calls. */
static void in_runs(uint32_t ticks, uint32_t count) {
    must(edfvd_scheduler_run(&scheduler, 1, count, ticks, true, NULL));
    must(edfvd_scheduler_idle_for(&scheduler, ticks, NULL));
}

static void in_ticks(uint32_t ticks, uint32_t count) {
    for (uint32_t tick = 1; tick <= ticks; tick++) {
        must(edfvd_scheduler_grant(&scheduler, 1, NULL));
        must(edfvd_scheduler_outcome(&scheduler, 1, count, tick == ticks, NULL));
    }
    for (uint32_t tick = 0; tick < ticks; tick++) must(edfvd_scheduler_idle(&scheduler, NULL));
}

static void jobs(uint32_t ticks, uint64_t number, bool by_tick) {
    const edfvd_task task = {EDFVD_LOW, 2 * ticks, ticks, ticks};
    edfvd_answer released;
    must(edfvd_scheduler_open_endless(&scheduler, &task, 1, NULL));
    for (uint64_t job = 0; job < number; job++) {
        must(edfvd_scheduler_release(&scheduler, 1, &released));
        (by_tick ? in_ticks : in_runs)(ticks, released.count);
    }
}

/* How many ticks the job needs: those of ctl 2, and each thousandth 4. */
static uint32_t need(uint32_t task, uint64_t release) {
    return task == 1 ? (release / 10 % 1000 == 999 ? 4 : 2) : task == 2 ? 4 : 1;
}

static const edfvd_task tasks[] = {{EDFVD_HIGH, 10, 2, 6}, {EDFVD_LOW, 10, 4, 4}, {EDFVD_LOW, 20, 1, 1}};

static void release_due(uint64_t now) {
    must(edfvd_scheduler_release(&scheduler, 1, NULL));
    must(edfvd_scheduler_release(&scheduler, 2, NULL));
    if (now % 20 == 0) must(edfvd_scheduler_release(&scheduler, 3, NULL));
}

static void day_by_tick(uint64_t end) {
    edfvd_look look;
    edfvd_answer given;
    must(edfvd_scheduler_open_endless(&scheduler, tasks, 3, NULL));
    for (uint64_t now = 0; now < end; now++) {
        if (now % 10 == 0) release_due(now);
        must(edfvd_scheduler_look(&scheduler, &look));
        if (look.chosen_task == 0) {
            must(edfvd_scheduler_idle(&scheduler, NULL));
            continue;
        }
        must(edfvd_scheduler_grant(&scheduler, look.chosen_task, &given));
        bool is_done = given.before + 1 == need(given.task, now - now % (given.task == 3 ? 20 : 10));
        must(edfvd_scheduler_outcome(&scheduler, given.task, given.count, is_done, NULL));
    }
}

static void day(uint64_t end) {
    edfvd_next next;
    edfvd_pending job;
    must(edfvd_scheduler_open_endless(&scheduler, tasks, 3, NULL));
    for (uint64_t now = 0; now < end;) {
        uint64_t timer = now + 10;
        release_due(now);
        for (must(edfvd_scheduler_next(&scheduler, &next)); next.task != 0 && now < timer; must(edfvd_scheduler_next(&scheduler, &next))) {
            must(edfvd_scheduler_pending(&scheduler, next.task, &job));
            uint32_t left = need(job.task, job.release) - job.used, ticks = next.ticks;
            if (ticks > timer - now) ticks = (uint32_t)(timer - now);
            if (ticks > left) ticks = left;
            must(edfvd_scheduler_run(&scheduler, next.task, next.count, ticks, ticks == left, NULL));
            now += ticks;
        }
        if (now < timer) must(edfvd_scheduler_idle_for(&scheduler, timer - now, NULL));
        now = timer;
    }
}

enum { RUNS, TICKS, DAY, DAY_BY_TICK, WORDS };
static const char *const words[WORDS] = {"runs", "ticks", "day", "day-by-tick"};

/* The number that the word is, or 0 for a word that is none from 1 to 4294967295. */
static uint64_t number_in(const char *word) {
    char *end;
    unsigned long long number = strtoull(word, &end, 10);
    return *word < '0' || *word > '9' || *end != 0 || number > UINT32_MAX ? 0 : number;
}

int main(int argc, char **argv) {
    uint64_t ticks = argc == 4 ? number_in(argv[1]) : 0, number = argc == 4 ? number_in(argv[2]) : 0;
    size_t how = 0;
    while (argc == 4 && how < WORDS && strcmp(argv[3], words[how]) != 0) how++;
    if (argc != 4 || ticks == 0 || ticks > UINT32_MAX / 2 || number == 0 || how == WORDS) {
        fprintf(stderr, "usage: runs TICKS JOBS runs|ticks|day|day-by-tick\n");
        return 2;
    }
    edfvd_look look;
    double begun = seconds();
    if (how == RUNS || how == TICKS) jobs((uint32_t)ticks, number, how == TICKS);
    if (how == DAY) day(ticks * number);
    if (how == DAY_BY_TICK) day_by_tick(ticks * number);
    double took = seconds() - begun;
    must(edfvd_scheduler_look(&scheduler, &look));
    printf("%" PRIu64 " ticks, %" PRIu64 " rows, %" PRIu64 " calls, %.3f s, %.1f ns a job\n", look.ticks, look.rows, calls, took,
           took * 1e9 / (double)number);
    return edfvd_scheduler_close(&scheduler) == EDFVD_OK ? 0 : 1;
}
