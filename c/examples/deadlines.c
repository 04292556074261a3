/* Tasks whose deadlines are shorter than their periods, under plain EDF: three that meet them, and two that do not. */
#include "edfvd.h"
#include <inttypes.h>
#include <stdio.h>

static int test(const char *name, const edfvd_demand_task *tasks, size_t count) {
    edfvd_demand_test found;
    edfvd_status status = edfvd_demand(tasks, count, &found);
    if (status != EDFVD_OK) {
        fprintf(stderr, "%s: task %" PRIu32 ": %s\n", name, found.task, edfvd_word(status));
        return 1;
    }
    if (found.past)
        printf("%s: not schedulable, %" PRIu64 " ticks are asked for in %" PRIu64 "\n", name, found.demand, found.length);
    else
        printf("%s: schedulable, hyperperiod %" PRIu64 "\n", name, found.length);
    return 0;
}

int main(void) {
    static const edfvd_demand_task sensors[] = {{5, 2, 1}, {10, 6, 3}, {20, 10, 5}};
    static const edfvd_demand_task tight[] = {{4, 2, 2}, {6, 3, 2}};
    return test("sensors", sensors, 3) | test("tight", tight, 2);
}
