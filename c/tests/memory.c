/* Each allocation of each call fails in turn, alone and with all that come after it: the call returns EDFVD_MEMORY or does without
   that memory, leaves nothing allocated, and succeeds when it is made again. Link with -Wl,--wrap=malloc,--wrap=realloc,--wrap=free. */
#include "edfvd.h"
#include <stdio.h>
#include <string.h>

void *__real_malloc(size_t size);
void *__real_realloc(void *at, size_t size);
void __real_free(void *at);
void *__wrap_malloc(size_t size);
void *__wrap_realloc(void *at, size_t size);
void __wrap_free(void *at);

/* How many allocations succeed before one fails, which then has failed; below 0 none fails. Whether those after it fail, too. */
static long left = -1;
static bool has_failed, for_good;

/* How many blocks are allocated. */
static long live;

static bool fails(void) {
    if (left < 0) return false;
    if (left-- > 0) return false;
    left = for_good ? 0 : -1;
    has_failed = true;
    return true;
}

void *__wrap_malloc(size_t size) {
    void *at = fails() ? NULL : __real_malloc(size);
    live += at != NULL;
    return at;
}

void *__wrap_realloc(void *at, size_t size) { return fails() ? NULL : __real_realloc(at, size); }

void __wrap_free(void *at) {
    live -= at != NULL;
    __real_free(at);
}

static const edfvd_task tasks[] = {{EDFVD_HIGH, 10, 2, 6}, {EDFVD_LOW, 10, 5, 5}};
static const char file[] = "task = [{name='ctl', level='high', period=10, low=2, high=6}, {name='log', level='low', period=10, low=5}]";
static const char work[] = "task,release,need\nctl,0,6\nlog,0,3\nctl,10,6\n";
static const char trace[] = "event,tick,task,job,how\nrelease,0,ctl,1,kept\ntick,0,ctl,1,done\n";

static const char demands[] = "task,period,deadline,budget\na,4,2,1\nb,6,3,2\n";

static edfvd_status try_check(void) {
    edfvd_test test;
    return edfvd_check(tasks, 2, &test);
}

static edfvd_status try_stretch(void) {
    uint32_t percent;
    return edfvd_stretch(tasks, 2, &percent, NULL);
}

static edfvd_status try_partition(void) {
    uint32_t on[2];
    return edfvd_partition(tasks, 2, 2, on, NULL);
}

static edfvd_status try_margins(void) {
    edfvd_budgets budgets[2];
    edfvd_scale_range scales;
    uint64_t millionths;
    edfvd_status status = edfvd_sensitivity(tasks, 2, budgets, NULL);
    if (status == EDFVD_OK) status = edfvd_scales(tasks, 2, &scales, NULL);
    return status == EDFVD_OK ? edfvd_speed(tasks, 2, &millionths, NULL) : status;
}

static edfvd_status try_open(void) {
    edfvd_scheduler s = EDFVD_NONE;
    edfvd_status status = edfvd_scheduler_open(&s, tasks, 2, 100, NULL);
    return status == EDFVD_OK ? edfvd_scheduler_close(&s) : status;
}

static edfvd_status try_open_endless(void) {
    edfvd_scheduler s = EDFVD_NONE;
    edfvd_status status = edfvd_scheduler_open_endless(&s, tasks, 2, NULL);
    if (status != EDFVD_OK) return status;
    long before = left;
    bool had_failed = has_failed;
    has_failed = false;
    left = 0; /* an event that tried an allocation would fail */
    for (int tick = 0; tick < 1000 && status == EDFVD_OK; tick++) status = edfvd_scheduler_idle(&s, NULL);
    bool tried = has_failed;
    left = before;
    has_failed = had_failed;
    edfvd_status closed = edfvd_scheduler_close(&s);
    return tried ? EDFVD_FULL : status == EDFVD_OK ? closed : status;
}

/* A restart that finds no memory leaves the scheduler as it was: its nine rows, and the ten ticks of its task from release to
   release. */
static edfvd_status try_restart(bool endless) {
    edfvd_scheduler s = EDFVD_NONE;
    edfvd_look look;
    edfvd_answer answer;
    uint64_t earliest;
    long before = left;
    bool had_failed = has_failed;
    left = -1; /* the opening finds memory */
    edfvd_status opened = endless ? edfvd_scheduler_open_endless(&s, tasks, 2, NULL) : edfvd_scheduler_open(&s, tasks, 2, 9, NULL);
    if (opened == EDFVD_OK) opened = edfvd_scheduler_release(&s, 1, NULL);
    if (opened == EDFVD_OK) opened = edfvd_scheduler_run(&s, 1, 1, 2, true, NULL);
    if (opened == EDFVD_OK) opened = edfvd_scheduler_idle_for(&s, 6, NULL);
    left = before;
    has_failed = had_failed;
    edfvd_status status = opened == EDFVD_OK ? edfvd_scheduler_restart(&s, &answer) : opened;
    left = -1;
    if (edfvd_scheduler_look(&s, &look) != EDFVD_OK || edfvd_scheduler_earliest(&s, 1, &earliest) != EDFVD_OK) return EDFVD_FULL;
    if (status == EDFVD_MEMORY && (look.ticks != 8 || look.rows != 9 || earliest != 10)) status = EDFVD_FULL;
    if (status == EDFVD_OK && (look.ticks != 0 || look.rows != 0 || earliest != 2)) status = EDFVD_FULL;
    if (answer.what != 0 || answer.task != 0) status = EDFVD_FULL;
    edfvd_status closed = edfvd_scheduler_close(&s);
    return closed == EDFVD_OK ? status : closed;
}

static edfvd_status try_restart_plain(void) { return try_restart(false); }
static edfvd_status try_restart_endless(void) { return try_restart(true); }

static edfvd_status try_demand(void) {
    static const edfvd_demand_task three[] = {{4, 2, 1}, {6, 3, 2}, {12, 12, 1}};
    edfvd_demand_test test;
    return edfvd_demand(three, 3, &test);
}

static edfvd_status try_judge(void) {
    static const edfvd_row rows[] = {{EDFVD_KEPT, 1, 1}, {EDFVD_DONE, 1, 1}, {EDFVD_IDLE, 0, 0}};
    edfvd_verdict verdict;
    return edfvd_judge(tasks, 2, rows, 3, 0, 0, &verdict);
}

static edfvd_status try_monitor(void) {
    static const edfvd_row rows[] = {{EDFVD_KEPT, 1, 1}, {EDFVD_KEPT, 2, 1}, {EDFVD_DONE, 1, 1}};
    edfvd_monitor m = EDFVD_NONE;
    edfvd_status status = edfvd_monitor_open(&m, tasks, 2, 0, 0, NULL);
    if (status != EDFVD_OK) return status;
    for (size_t place = 0; place < 3 && status == EDFVD_OK; place++)
        status = edfvd_monitor_observe(&m, &rows[place], 1, NULL);
    edfvd_status closed = edfvd_monitor_close(&m);
    return status == EDFVD_OK ? closed : status;
}

/* With EDFVD_MEMORY the buffer is as it was, and both numbers are 0. */
static edfvd_status ask(size_t count, const char *const *words, const char *second) {
    static char out[4096], before[sizeof out];
    size_t length = SIZE_MAX;
    uint32_t ended = UINT32_MAX;
    memset(out, 0xa5, sizeof out);
    memset(before, 0xa5, sizeof before);
    edfvd_status status =
        edfvd_ask(count, words, file, strlen(file), second, strlen(second), out, sizeof out, &length, &ended);
    if (status != EDFVD_MEMORY) return status;
    return length == 0 && ended == 0 && memcmp(out, before, sizeof out) == 0 ? status : EDFVD_SHORT_BUFFER;
}

static edfvd_status ask_check(void) { return ask(2, (const char *const[]){"check", "1"}, ""); }
static edfvd_status ask_run(void) { return ask(4, (const char *const[]){"run", "1", "2", "20"}, work); }
static edfvd_status ask_report(void) { return ask(3, (const char *const[]){"report", "1", "2"}, trace); }
static edfvd_status ask_partition(void) { return ask(3, (const char *const[]){"partition", "1", "2"}, ""); }
static edfvd_status ask_demand(void) { return ask(2, (const char *const[]){"demand", "2"}, demands); }
static edfvd_status ask_accept(void) { return ask(4, (const char *const[]){"accept", "1", "20", "4"}, ""); }

typedef edfvd_status call(void);

/* Whether the call is as it must be while its allocation of this number fails. */
static bool is_good(const char *name, call *made, long number) {
    long before = live;
    has_failed = false;
    left = number;
    edfvd_status status = made();
    left = -1;
    if (live != before) return printf("%s: a leak at allocation %ld\n", name, number), false;
    /* A vector that gets no memory for more than it needs asks again for less, so a call may still succeed. */
    if (status != EDFVD_OK && status != EDFVD_MEMORY)
        return printf("%s: %s at allocation %ld\n", name, edfvd_word(status), number), false;
    bool did_fail = has_failed;
    status = made();
    if (status != EDFVD_OK) return printf("%s: %s after allocation %ld\n", name, edfvd_word(status), number), false;
    has_failed = did_fail;
    return true;
}

/* Whether the call is as it must be with each of its allocations. */
static bool is_good_with_each(const char *name, call *made) {
    long number = 0;
    do {
        if (!is_good(name, made, number++)) return false;
    } while (has_failed);
    if (number == 1) return printf("%s: no allocation was seen\n", name), false;
    return true;
}

int main(void) {
    static const struct {
        const char *name;
        call *made;
    } calls[] = {{"check", try_check},       {"stretch", try_stretch},   {"partition", try_partition},
                 {"demand", try_demand},     {"open", try_open},         {"open_endless", try_open_endless},
                 {"judge", try_judge},       {"monitor", try_monitor},   {"ask check", ask_check},
                 {"ask run", ask_run},       {"ask report", ask_report}, {"ask partition", ask_partition},
                 {"ask demand", ask_demand}, {"ask accept", ask_accept}, {"margins", try_margins},
                 {"restart", try_restart_plain}, {"restart without an end", try_restart_endless}};
    for (size_t place = 0; place < sizeof calls / sizeof *calls; place++) {
        for_good = false;
        if (!is_good_with_each(calls[place].name, calls[place].made)) return 1;
        for_good = true;
        if (!is_good_with_each(calls[place].name, calls[place].made)) return 1;
        printf("%s: each allocation failed in turn\n", calls[place].name);
    }
    return 0;
}
