/* What each call costs, in nanoseconds, and how much memory stays taken after it.
   usage: cost [CALLS], as after: cc -O2 -Ic c/bench/cost.c c/out/libedfvd.a -o cost */
#define _GNU_SOURCE
#include "edfvd.h"
#include <stdio.h>
#include <stdlib.h>
#include <string.h>
#include <time.h>

static const edfvd_task two[2] = {{EDFVD_HIGH, 10, 2, 6}, {EDFVD_LOW, 10, 5, 5}};
static edfvd_task many[128];

static const char file[] =
    "[[task]]\nname = \"ctl\"\nlevel = \"high\"\nperiod = 10\nlow = 2\nhigh = 6\n\n"
    "[[task]]\nname = \"log\"\nlevel = \"low\"\nperiod = 10\nlow = 5\n";
static const char work[] = "task,release,need\nctl,0,6\nlog,0,3\nctl,10,6\nlog,10,3\n";

static double begun;
static long taken;

static double now(void) {
    struct timespec t;
    clock_gettime(CLOCK_MONOTONIC, &t);
    return (double)t.tv_sec * 1e9 + (double)t.tv_nsec;
}

/* The pages of this process that are in memory, in KB. */
static long resident(void) {
    long all = 0, pages = 0;
    FILE *statm = fopen("/proc/self/statm", "r");
    if (statm != NULL) {
        if (fscanf(statm, "%ld %ld", &all, &pages) != 2) pages = 0;
        fclose(statm);
    }
    return pages * 4;
}

static void begin(void) {
    taken = resident();
    begun = now();
}

static void end(const char *what, double calls) {
    double took = now() - begun;
    printf("%-26s %10.1f ns, %ld KB stay\n", what, took / calls, resident() - taken);
}

static void must(edfvd_status status) {
    if (status == EDFVD_OK) return;
    fprintf(stderr, "%s\n", edfvd_word(status));
    exit(1);
}

static void sets(long calls) {
    edfvd_test test;
    uint32_t percent, counts[11], on[128];
    begin();
    for (long call = 0; call < calls; call++) must(edfvd_check(two, 2, &test));
    end("check, 2 tasks", (double)calls);
    begin();
    for (long call = 0; call < calls / 10; call++) must(edfvd_check(many, 128, &test));
    end("check, 128 tasks", (double)(calls / 10));
    begin();
    for (long call = 0; call < calls; call++) must(edfvd_stretch(two, 2, &percent, NULL));
    end("stretch, 2 tasks", (double)calls);
    begin();
    for (long call = 0; call < calls / 100; call++) must(edfvd_partition(many, 128, 16, on, NULL));
    end("partition, 128 tasks", (double)(calls / 100));
    begin();
    must(edfvd_accept(1, 10000, 8, counts));
    end("accept, a set", 10000);
}

static void schedule(const edfvd_task *tasks, size_t count, uint32_t period) {
    enum { TICKS = 1000000, PLACES = 4000000 };
    edfvd_scheduler s = EDFVD_NONE;
    edfvd_look look;
    edfvd_answer given;
    edfvd_verdict verdict;
    must(edfvd_scheduler_open(&s, tasks, count, PLACES, NULL));
    begin();
    for (uint32_t tick = 0; tick < TICKS; tick++) {
        if (tick % period == 0)
            for (uint32_t task = 1; task <= count; task++) must(edfvd_scheduler_release(&s, task, NULL));
        must(edfvd_scheduler_look(&s, &look));
        if (look.chosen_task == 0) {
            must(edfvd_scheduler_idle(&s, NULL));
        } else {
            must(edfvd_scheduler_grant(&s, look.chosen_task, &given));
            must(edfvd_scheduler_outcome(&s, given.task, given.count, false, NULL));
        }
    }
    end(count == 2 ? "a tick, 2 tasks" : "a tick, 128 tasks", TICKS);
    must(edfvd_scheduler_look(&s, &look));
    edfvd_row *rows = malloc((size_t)look.rows * sizeof *rows);
    if (rows == NULL) exit(1);
    begin();
    for (uint64_t number = 0; number < look.rows; number++) must(edfvd_scheduler_row(&s, number, &rows[number]));
    end("a row read", (double)look.rows);
    begin();
    must(edfvd_judge(tasks, count, rows, (size_t)look.rows, 0, 0, &verdict));
    end("a row judged", (double)look.rows);
    free(rows);
    must(edfvd_scheduler_close(&s));
}

static void ask(const char *what, size_t count, const char *const *words, const char *second, long calls) {
    static char out[1 << 20];
    size_t length;
    uint32_t ended;
    begin();
    for (long call = 0; call < calls; call++)
        must(edfvd_ask(count, words, file, strlen(file), second, strlen(second), out, sizeof out, &length, &ended));
    end(what, (double)calls);
}

int main(int argc, char **argv) {
    long calls = argc > 1 ? atol(argv[1]) : 100000;
    for (size_t place = 0; place < 128; place++) many[place] = (edfvd_task){place % 2, 10000, 20, place % 2 ? 40 : 20};
    sets(calls);
    begin();
    for (long call = 0; call < calls; call++) {
        edfvd_scheduler s = EDFVD_NONE;
        must(edfvd_scheduler_open(&s, two, 2, 100, NULL));
        must(edfvd_scheduler_close(&s));
    }
    end("open and close", (double)calls);
    schedule(two, 2, 10);
    schedule(many, 128, 10000);
    ask("ask check", 2, (const char *const[]){"check", "1"}, "", calls / 10);
    ask("ask stretch", 2, (const char *const[]){"stretch", "1"}, "", calls / 10);
    ask("ask run, 20 ticks", 4, (const char *const[]){"run", "1", "2", "20"}, work, calls / 10);
    return 0;
}
