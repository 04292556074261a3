/*
 * The calls of single ticks, to be counted by callgrind: PERIODS periods of ten ticks of the control set. In each its two jobs are
 * released and the scheduler is looked at, seven ticks are granted and ended, after which both jobs are done, and three ticks are idle.
 * The scheduler has an end or none.
 * usage: calls PERIODS with-end|endless, as after: cc -O2 -Ic c/bench/calls.c c/out/libedfvd_core.a -o calls
 */
#include "edfvd.h"
#include <stdio.h>
#include <stdlib.h>
#include <string.h>

static edfvd_scheduler scheduler = EDFVD_NONE;

static void must(edfvd_status status) {
    if (status == EDFVD_OK) return;
    fprintf(stderr, "%s\n", edfvd_word(status));
    exit(1);
}

/* The job runs for this many ticks, and is done in the last of them. */
static void job(uint32_t task, uint32_t count, uint32_t ticks) {
    for (uint32_t tick = 1; tick <= ticks; tick++) {
        must(edfvd_scheduler_grant(&scheduler, task, NULL));
        must(edfvd_scheduler_outcome(&scheduler, task, count, tick == ticks, NULL));
    }
}

int main(int argc, char **argv) {
    static const edfvd_task control[] = {{EDFVD_HIGH, 10, 2, 6}, {EDFVD_LOW, 10, 5, 5}};
    /* A period has twelve rows. */
    static const unsigned long most = 1000000;
    edfvd_look look;
    char *end = NULL;
    unsigned long periods = argc == 3 ? strtoul(argv[1], &end, 10) : 0;
    bool is_endless = argc == 3 && strcmp(argv[2], "endless") == 0;
    if (periods == 0 || periods > most || *end != 0 || !(is_endless || strcmp(argv[2], "with-end") == 0)) {
        fprintf(stderr, "usage: calls PERIODS with-end|endless\n");
        return 2;
    }
    must(is_endless ? edfvd_scheduler_open_endless(&scheduler, control, 2, NULL)
                    : edfvd_scheduler_open(&scheduler, control, 2, (uint32_t)(12 * periods), NULL));
    for (uint32_t count = 1; count <= periods; count++) {
        must(edfvd_scheduler_release(&scheduler, 1, NULL));
        must(edfvd_scheduler_release(&scheduler, 2, NULL));
        must(edfvd_scheduler_look(&scheduler, &look));
        job(1, count, 2);
        job(2, count, 5);
        for (uint32_t tick = 0; tick < 3; tick++) must(edfvd_scheduler_idle(&scheduler, NULL));
    }
    return edfvd_scheduler_close(&scheduler) == EDFVD_OK ? 0 : 1;
}
