/*
 * A scheduler without an end: three million ticks of the control set, in memory that does not grow. Each row goes to a monitor
 * as soon as it is there, and is counted. Every fourth job of `ctl` overruns.
 *
 * The expected numbers come from this plan, by hand. Ten ticks are a round. `ctl` is released at its beginning and has ticks 0
 * and 1. `log` is released during tick 1, so the release is held, and recorded once tick 1 has its outcome.
 *
 *     round     ticks of ctl     log         ticks of log   idle   rows with the two releases
 *     1, 2, 3   2, and is done   is kept     3              5      12
 *     4         6, an overrun    is dropped  0              4      12
 *
 * So four rounds have 3 * 2 + 6 = 12 ticks of ctl, 3 * 3 = 9 of log and 3 * 5 + 4 = 19 idle ones, which are 40 ticks. Three
 * million ticks are 75,000 times that: 900,000, 675,000 and 1,425,000, in 300,000 rounds with 3,600,000 rows. No job is late:
 * ctl ends within 6 of its 10 ticks, and log at the end of tick 4.
 *
 * Each round has seven runs of equal rows. In rounds 1, 2 and 3 these are the release of ctl, its first tick, its last; the
 * release of log, its first two ticks, its last; and the idle ticks. In round 4 they are the release of ctl, its first tick, its
 * overrun; the release of log; the next three ticks of ctl, its last; and the idle ticks. The scheduler keeps the last 256 runs,
 * which are 36 rounds, and four runs of the round before them. That is round 299,964, a fourth one, so the oldest row is its
 * release of log, which has three rows of the round before it: number 299,963 * 12 + 3 = 3,599,559.
 *
 * usage: endless [ROUNDS]
 *        ROUNDS is how many rounds there are, 300000 without it
 */
#include "edfvd.h"
#include <inttypes.h>
#include <stdio.h>
#include <stdlib.h>

enum { CTL = 1, LOG = 2, ROUND = 10 };

static const edfvd_task tasks[] = {
    {EDFVD_HIGH, ROUND, 2, 6}, /* ctl */
    {EDFVD_LOW, ROUND, 5, 5},  /* log */
};

static edfvd_scheduler scheduler = EDFVD_NONE;
static edfvd_monitor monitor = EDFVD_NONE;

static uint64_t seen;                     /* how many rows the monitor has had */
static uint64_t of_kind[EDFVD_IDLE + 1];  /* how many rows of each kind there were */
static uint64_t ticks_of[LOG + 1];        /* how many ticks each task has had; the idle ones are those of task 0 */

/* Ends the example if the call was refused. */
static void must(const char *call, edfvd_status status) {
    if (status == EDFVD_OK) return;
    fprintf(stderr, "%s: %s\n", call, edfvd_word(status));
    exit(1);
}

/* Gives the monitor the rows that are new since the last call, equal ones at once. No event makes more runs of equal rows than
   the scheduler keeps. */
static void stream(void) {
    edfvd_look look;
    must("look", edfvd_scheduler_look(&scheduler, &look));
    for (uint32_t times; seen < look.rows; seen += times) {
        edfvd_row row;
        edfvd_unfit unfit;
        must("rows", edfvd_scheduler_rows(&scheduler, seen, &row, &times));
        must("observe", edfvd_monitor_observe(&monitor, &row, times, &unfit));
        if (unfit.why != EDFVD_FITS) {
            fprintf(stderr, "row %" PRIu64 " does not fit\n", unfit.place);
            exit(1);
        }
        of_kind[row.event] += times;
        if (row.event >= EDFVD_MORE) ticks_of[row.task] += times;
    }
}

/* Tick number `place` of a round. */
static void tick(int place) {
    if (place == 0) must("release", edfvd_scheduler_release(&scheduler, CTL, NULL));
    stream();
    edfvd_look look;
    must("look", edfvd_scheduler_look(&scheduler, &look));
    if (look.chosen_task == 0) {
        must("idle", edfvd_scheduler_idle(&scheduler, NULL));
    } else {
        edfvd_answer given;
        must("grant", edfvd_scheduler_grant(&scheduler, look.chosen_task, &given));
        if (place == 1) must("release", edfvd_scheduler_release(&scheduler, LOG, NULL));
        uint32_t needs = given.task == LOG ? 3 : given.count % 4 == 0 ? 6 : 2;
        must("outcome", edfvd_scheduler_outcome(&scheduler, given.task, given.count, given.before + 1 == needs, NULL));
    }
    stream();
}

int main(int argc, char **argv) {
    long rounds = argc > 1 ? strtol(argv[1], NULL, 10) : 300000;
    must("open_endless", edfvd_scheduler_open_endless(&scheduler, tasks, 2, NULL));
    must("monitor_open", edfvd_monitor_open(&monitor, tasks, 2, 0, 0, NULL));
    for (long round = 0; round < rounds; round++)
        for (int place = 0; place < ROUND; place++) tick(place);

    edfvd_verdict verdict;
    must("verdict", edfvd_monitor_verdict(&monitor, &verdict));
    printf("rows %" PRIu64 "\n", seen);
    printf("kept %" PRIu64 " dropped %" PRIu64 " overruns %" PRIu64 "\n", of_kind[EDFVD_KEPT], of_kind[EDFVD_DROPPED],
           of_kind[EDFVD_OVER]);
    printf("ticks of ctl %" PRIu64 " of log %" PRIu64 " idle %" PRIu64 "\n", ticks_of[CTL], ticks_of[LOG], ticks_of[0]);
    printf("%s, %" PRIu64 " late\n", verdict.why == EDFVD_FITS ? "legal" : "illegal", verdict.late);
    edfvd_row row;
    uint64_t oldest = 0;
    while (edfvd_scheduler_row(&scheduler, oldest, &row) == EDFVD_GONE) oldest++;
    printf("oldest row %" PRIu64 "\n", oldest);
    must("monitor_close", edfvd_monitor_close(&monitor));
    must("close", edfvd_scheduler_close(&scheduler));
    return 0;
}
