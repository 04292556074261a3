/* The control set: its test, and twenty ticks of its schedule, whose first job of `ctl` overruns. */
#include "edfvd.h"
#include <inttypes.h>
#include <stdio.h>

enum { CTL = 1, LOG = 2, TICKS = 20 };

static int fails(const char *call, edfvd_status status) {
    fprintf(stderr, "%s: %s\n", call, edfvd_word(status));
    return 1;
}

int main(void) {
    static const edfvd_task tasks[] = {
        {EDFVD_HIGH, 10, 2, 6}, /* ctl */
        {EDFVD_LOW, 10, 5, 5},  /* log */
    };
    edfvd_test test;
    edfvd_status status = edfvd_check(tasks, 2, &test);
    if (status != EDFVD_OK) return fails("check", status);
    printf("U_LL %" PRIu64 "/%" PRIu64 "\n", test.low_low, test.lcm);
    printf("U_HL %" PRIu64 "/%" PRIu64 "\n", test.high_low, test.lcm);
    printf("U_HH %" PRIu64 "/%" PRIu64 "\n", test.high_high, test.lcm);
    if (test.rule == EDFVD_RULE_VIRTUAL) printf("rule virtual\nx %" PRIu64 "/%" PRIu64 "\n", test.p, test.q);

    edfvd_scheduler s = EDFVD_NONE;
    status = edfvd_scheduler_open(&s, tasks, 2, 100, NULL);
    if (status != EDFVD_OK) return fails("open", status);
    for (int tick = 0; tick < TICKS; tick++) {
        for (uint32_t task = CTL; task <= LOG; task++) (void)edfvd_scheduler_release(&s, task, NULL); /* or too soon */
        edfvd_look look;
        status = edfvd_scheduler_look(&s, &look);
        if (status != EDFVD_OK) return fails("look", status);
        if (look.chosen_task == 0) {
            status = edfvd_scheduler_idle(&s, NULL);
            if (status != EDFVD_OK) return fails("idle", status);
            continue;
        }
        edfvd_answer given, how;
        status = edfvd_scheduler_grant(&s, look.chosen_task, &given);
        if (status != EDFVD_OK) return fails("grant", status);
        bool done = given.task == LOG && given.before == 2; /* a job of log needs 3 ticks, and one of ctl 6 */
        status = edfvd_scheduler_outcome(&s, given.task, given.count, done, &how);
        if (status != EDFVD_OK) return fails("outcome", status);
    }

    static const char *const names[] = {"", "ctl", "log"};
    static const char *const words[] = {"", "kept", "dropped", "", "", "more", "done", "stop", "over", "idle"};
    edfvd_row row;
    uint64_t tick = 0;
    puts("event,tick,task,job,how");
    for (uint64_t place = 0; edfvd_scheduler_row(&s, place, &row) == EDFVD_OK; place++) {
        if (row.event == EDFVD_IDLE) {
            printf("idle,%" PRIu64 ",,,\n", tick++);
        } else {
            bool is_release = row.event <= EDFVD_DROPPED;
            printf("%s,%" PRIu64 ",%s,%" PRIu32 ",%s\n", is_release ? "release" : "tick", tick, names[row.task], row.count,
                   words[row.event]);
            if (!is_release) tick++;
        }
    }
    return edfvd_scheduler_close(&s) == EDFVD_OK ? 0 : 1;
}
