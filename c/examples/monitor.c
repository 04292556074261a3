/* A schedule of the control set, judged while it happens: an overrun, and at last a tick of a job that is not pending, which the
   monitor is asked about first. */
#include "edfvd.h"
#include <inttypes.h>
#include <stdio.h>

enum { CTL = 1, LOG = 2 };

static int fails(const char *call, edfvd_status status) {
    fprintf(stderr, "%s: %s\n", call, edfvd_word(status));
    return 1;
}

int main(void) {
    static const edfvd_task tasks[] = {
        {EDFVD_HIGH, 10, 2, 6}, /* ctl */
        {EDFVD_LOW, 10, 5, 5},  /* log */
    };
    static const struct {
        edfvd_row row;
        uint32_t times;
    } seen[] = {
        {{EDFVD_KEPT, CTL, 1}, 1}, {{EDFVD_KEPT, LOG, 1}, 1}, {{EDFVD_MORE, CTL, 1}, 1}, {{EDFVD_OVER, CTL, 1}, 1},
        {{EDFVD_MORE, CTL, 1}, 3}, {{EDFVD_DONE, CTL, 1}, 1}, {{EDFVD_IDLE, 0, 0}, 4},   {{EDFVD_MORE, LOG, 1}, 1},
    };
    edfvd_monitor m = EDFVD_NONE;
    edfvd_status status = edfvd_monitor_open(&m, tasks, 2, 0, 0, NULL);
    if (status != EDFVD_OK) return fails("open", status);
    for (size_t place = 0; place < sizeof seen / sizeof *seen; place++) {
        edfvd_unfit unfit;
        status = edfvd_monitor_would_fit(&m, &seen[place].row, seen[place].times, &unfit);
        if (status != EDFVD_OK) return fails("would_fit", status);
        if (unfit.why != EDFVD_FITS) {
            printf("row %" PRIu64 " would not fit: %" PRIu32 "\n", unfit.place, unfit.why);
            break;
        }
        edfvd_watch watch;
        status = edfvd_monitor_look(&m, &watch);
        if (status != EDFVD_OK) return fails("look", status);
        uint64_t since = watch.ticks;
        status = edfvd_monitor_observe(&m, &seen[place].row, seen[place].times, NULL);
        if (status != EDFVD_OK) return fails("observe", status);
        edfvd_late late[2];
        uint64_t count;
        status = edfvd_monitor_late(&m, since, late, 2, &count);
        if (status != EDFVD_OK) return fails("late", status);
        status = edfvd_monitor_look(&m, &watch);
        if (status != EDFVD_OK) return fails("look", status);
        printf("rows %" PRIu64 " ticks %" PRIu64 " pending %" PRIu64 " late %" PRIu64 " mode %s\n", watch.rows, watch.ticks,
               watch.pending, count, watch.high_mode ? "high" : "low");
    }
    edfvd_verdict verdict;
    status = edfvd_monitor_verdict(&m, &verdict);
    if (status != EDFVD_OK) return fails("verdict", status);
    printf("%s, %" PRIu64 " late\n", verdict.why == EDFVD_FITS ? "legal" : "illegal", verdict.late);
    return edfvd_monitor_close(&m) == EDFVD_OK ? 0 : 1;
}
