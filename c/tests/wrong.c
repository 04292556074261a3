/* Wrong calls of each kind, and the status that each gets. */
#include "edfvd.h"
#include <stdio.h>
#include <string.h>

static void say(const char *call, edfvd_status status) { printf("%-40s %2d %s\n", call, (int)status, edfvd_word(status)); }

int main(void) {
    edfvd_task tasks[129] = {{EDFVD_HIGH, 10, 2, 6}, {EDFVD_LOW, 10, 5, 5}};
    edfvd_test test;
    edfvd_scheduler s = EDFVD_NONE;
    uint32_t task = 0;
    edfvd_answer a;
    say("check(NULL, 2)", edfvd_check(NULL, 2, &test));
    say("check(NULL, 0)", edfvd_check(NULL, 0, &test));
    say("check(.., NULL)", edfvd_check(tasks, 2, NULL));
    say("check 129 tasks", edfvd_check(tasks, 129, &test));
    edfvd_task bad[2] = {tasks[0], {7, 1, 1, 1}};
    say("check a level of 7", edfvd_check(bad, 2, &test));
    bad[1] = (edfvd_task){EDFVD_LOW, 0, 1, 1};
    say("check a period of 0", edfvd_check(bad, 2, &test));
    bad[1] = (edfvd_task){EDFVD_LOW, 9, 1, 2};
    say("check a low task with two budgets", edfvd_check(bad, 2, &test));
    bad[1] = (edfvd_task){EDFVD_LOW, 10, 9, 9};
    say("open a set that is not admitted", edfvd_scheduler_open(&s, bad, 2, 10, &task));
    uint32_t on[2];
    bad[0] = (edfvd_task){EDFVD_LOW, 4294967291u, 1, 1};
    bad[1] = (edfvd_task){EDFVD_LOW, 4294967279u, 1, 1};
    say("check two periods that are large primes", edfvd_check(bad, 2, &test));
    say("partition on no processor", edfvd_partition(tasks, 2, 0, on, &task));
    bad[0] = tasks[0];
    bad[1] = (edfvd_task){EDFVD_LOW, 10, 11, 11};
    say("partition a task above its period", edfvd_partition(bad, 2, 16, on, &task));
    say("stretch a set that is admitted nowhere", edfvd_stretch(bad, 2, &task, NULL));
    say("accept no sets", edfvd_accept(1, 0, 8, (uint32_t[11]){0}));
    edfvd_demand_task short_one = {4, 5, 1};
    edfvd_demand_test demand;
    say("demand of NULL", edfvd_demand(NULL, 1, &demand));
    say("demand of no tasks", edfvd_demand(NULL, 0, &demand));
    say("demand with a deadline above the period", edfvd_demand(&short_one, 1, &demand));
    short_one = (edfvd_demand_task){0, 0, 1};
    say("demand with a period of 0", edfvd_demand(&short_one, 1, &demand));
    short_one = (edfvd_demand_task){500001, 1, 1};
    say("demand with a period above 500,000", edfvd_demand(&short_one, 1, &demand));
    short_one = (edfvd_demand_task){4, 2, 3};
    say("demand of 3 ticks in 2", edfvd_demand(&short_one, 1, &demand));
    say("judge a row of a third task", edfvd_judge(tasks, 2, &(edfvd_row){EDFVD_KEPT, 3, 1}, 1, 0, 0, &(edfvd_verdict){0, 0, 0, 0, 0}));
    say("judge a row of no kind", edfvd_judge(tasks, 2, &(edfvd_row){EDFVD_GIVEN, 1, 1}, 1, 0, 0, &(edfvd_verdict){0, 0, 0, 0, 0}));
    say("judge by a scale above 1", edfvd_judge(tasks, 2, NULL, 0, 3, 2, &(edfvd_verdict){0, 0, 0, 0, 0}));
    say("release before open", edfvd_scheduler_release(&s, 1, &a));
    say("release of NULL", edfvd_scheduler_release(NULL, 1, &a));
    say("open", edfvd_scheduler_open(&s, tasks, 2, 10, &task));
    say("open again", edfvd_scheduler_open(&s, tasks, 2, 10, &task));
    say("release of task 3", edfvd_scheduler_release(&s, 3, &a));
    say("release of task 0", edfvd_scheduler_release(&s, 0, &a));
    say("release of task 1", edfvd_scheduler_release(&s, 1, &a));
    say("release of task 1 again", edfvd_scheduler_release(&s, 1, &a));
    say("outcome with no tick in progress", edfvd_scheduler_outcome(&s, 1, 1, true, &a));
    say("grant to task 2", edfvd_scheduler_grant(&s, 2, &a));
    say("idle", edfvd_scheduler_idle(&s, &a));
    say("run of task 1 past its low budget", edfvd_scheduler_run(&s, 1, 1, 3, true, &a));
    say("run of no tick", edfvd_scheduler_run(&s, 1, 1, 0, true, &a));
    say("open by a scale above 1", edfvd_scheduler_open_scaled(&(edfvd_scheduler)EDFVD_NONE, tasks, 2, 3, 2, 10, &task));
    say("open by a scale that does not hold", edfvd_scheduler_open_scaled(&(edfvd_scheduler)EDFVD_NONE, tasks, 2, 1, 1, 10, &task));
    say("grant to task 1", edfvd_scheduler_grant(&s, 1, &a));
    say("grant to task 1 again", edfvd_scheduler_grant(&s, 1, &a));
    say("release of task 1 in its tick", edfvd_scheduler_release(&s, 1, &a));
    edfvd_scheduler copy = s;
    say("outcome by a copy of the scheduler", edfvd_scheduler_outcome(&copy, 1, 1, false, &a));
    say("close of a copy", edfvd_scheduler_close(&copy));
    s.handle.busy = 1; /* as where another thread is in a call */
    say("outcome while busy", edfvd_scheduler_outcome(&s, 1, 1, false, &a));
    s.handle.busy = 0;
    say("row after the last", edfvd_scheduler_row(&s, 1000, &(edfvd_row){0, 0, 0}));
    say("outcome", edfvd_scheduler_outcome(&s, 1, 1, true, &a));
    /* With the release and its tick these use ten places. */
    for (int tick = 0; tick < 8; tick++) (void)edfvd_scheduler_idle(&s, &a);
    say("idle with no place left", edfvd_scheduler_idle(&s, &a));
    say("close", edfvd_scheduler_close(&s));
    say("close again", edfvd_scheduler_close(&s));
    say("idle after close", edfvd_scheduler_idle(&s, &a));
    say("open without an end", edfvd_scheduler_open_endless(&s, tasks, 2, &task));
    say("open without an end again", edfvd_scheduler_open_endless(&s, tasks, 2, &task));
    /* Each job makes three runs of equal rows, its release, its tick and nine idle ticks: 86 jobs make 258 of 946 rows. */
    for (uint32_t job = 1; job <= 86; job++) {
        (void)edfvd_scheduler_release(&s, 1, &a);
        if (job == 1) say("restart with a job pending", edfvd_scheduler_restart(&s, &a));
        (void)edfvd_scheduler_run(&s, 1, job, 1, true, &a);
        (void)edfvd_scheduler_idle_for(&s, 9, &a);
    }
    say("row before the last 256 runs", edfvd_scheduler_row(&s, 1, &(edfvd_row){0, 0, 0}));
    say("first of the last 256 runs", edfvd_scheduler_rows(&s, 2, &(edfvd_row){0, 0, 0}, &task));
    say("row after the last, without an end", edfvd_scheduler_row(&s, 946, &(edfvd_row){0, 0, 0}));
    say("restart", edfvd_scheduler_restart(&s, &a));
    say("row before the restart", edfvd_scheduler_rows(&s, 2, &(edfvd_row){0, 0, 0}, &task));
    say("close of it", edfvd_scheduler_close(&s));
    say("open no tasks without an end", edfvd_scheduler_open_endless(&s, NULL, 0, &task));
    say("open NULL without an end", edfvd_scheduler_open_endless(NULL, tasks, 2, &task));
    memset(&s, 0x5a, sizeof s);
    s.handle.busy = 0;
    say("idle of a scheduler of garbage", edfvd_scheduler_idle(&s, &a));
    edfvd_monitor m = EDFVD_NONE;
    edfvd_unfit unfit;
    edfvd_row kept = {EDFVD_KEPT, 1, 1}, idle = {EDFVD_IDLE, 0, 0}, third = {EDFVD_KEPT, 3, 1}, given = {EDFVD_GIVEN, 1, 1};
    say("observe before open", edfvd_monitor_observe(&m, &kept, 1, &unfit));
    say("monitor by a scale above 1", edfvd_monitor_open(&m, tasks, 2, 3, 2, &task));
    say("monitor", edfvd_monitor_open(&m, tasks, 2, 1, 1, &task));
    say("monitor again", edfvd_monitor_open(&m, tasks, 2, 1, 1, &task));
    say("observe NULL", edfvd_monitor_observe(&m, NULL, 1, &unfit));
    say("observe a row of a third task", edfvd_monitor_observe(&m, &third, 1, &unfit));
    say("observe a row of no kind", edfvd_monitor_observe(&m, &given, 1, &unfit));
    say("observe a release twice", edfvd_monitor_observe(&m, &kept, 2, &unfit));
    say("observe a row no times", edfvd_monitor_observe(&m, &idle, 0, &unfit));
    edfvd_monitor other = m;
    say("observe by a copy of the monitor", edfvd_monitor_observe(&other, &kept, 1, &unfit));
    m.handle.busy = 1;
    say("observe while busy", edfvd_monitor_observe(&m, &kept, 1, &unfit));
    m.handle.busy = 0;
    say("close of the monitor", edfvd_monitor_close(&m));
    say("observe after close", edfvd_monitor_observe(&m, &kept, 1, &unfit));

    /* Two tasks that need all ticks: the second one's job is late. */
    edfvd_task full[2] = {{EDFVD_LOW, 4, 4, 4}, {EDFVD_LOW, 4, 4, 4}};
    edfvd_row rows[4] = {{EDFVD_KEPT, 1, 1}, {EDFVD_KEPT, 2, 1}, {EDFVD_MORE, 1, 1}, {EDFVD_DONE, 1, 1}};
    uint64_t late;
    say("monitor of an overload", edfvd_monitor_open(&m, full, 2, 1, 1, &task));
    for (int row = 0; row < 4; row++) (void)edfvd_monitor_observe(&m, &rows[row], row == 2 ? 3 : 1, &unfit);
    say("late jobs into no array", edfvd_monitor_late(&m, 0, NULL, 0, &late));
    say("close of that monitor", edfvd_monitor_close(&m));
    return 0;
}
