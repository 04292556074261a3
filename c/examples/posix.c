/*
 * Dispatches POSIX threads by the scheduler, on one processor of Linux: a thread for each task and, above them, a ticker that wakes at
 * each boundary of ticks. The ticker reports how the tick that has ended went for its job, releases the jobs that are due, and grants
 * the tick that begins. All are under SCHED_FIFO. The thread of the granted job comes after the ticker, then a thread `rest`, which never
 * waits, and then all other threads. So a job never has more ticks than the scheduler grants it, whether or not its thread minds its
 * budget. The ticker reads the processor-time clock of each thread to see that this is so. Each row goes to a monitor of its own.
 *
 * The tasks are those of examples/record/tasks.toml, and the jobs those of work.csv there: the third job of ctl overruns, and nav is
 * stopped at its budget. With the word `greedy` the thread of ctl ignores its budget from its first job on, and never ends a job. Each
 * release, dropped release and end is written to the kernel's trace_marker, if that can be opened: tools/record/record.sh records this
 * program. A job works until its thread has had its ticks, except a tenth of one, which is left for the ticker.
 *
 * usage: posix MICROSECONDS CPU [greedy]
 *        MICROSECONDS is the length of a tick, from 100 to 1,000,000
 *
 * The exit status is 0 if no call was refused, each row fitted, no job was late, the ticker was never a tenth of a tick late, and no
 * thread without a grant had a tenth of a tick; 1 if not; 2 for other words; 3 if the system does not permit SCHED_FIFO, one processor or
 * locked memory. Linux leaves 50 ms of each second to threads without a real-time priority: write -1 to
 * /proc/sys/kernel/sched_rt_runtime_us before, and what was there afterwards. Link with -pthread.
 */
#define _GNU_SOURCE
#include "edfvd.h"
#include <errno.h>
#include <fcntl.h>
#include <inttypes.h>
#include <pthread.h>
#include <sched.h>
#include <semaphore.h>
#include <stdatomic.h>
#include <stdio.h>
#include <stdlib.h>
#include <string.h>
#include <sys/mman.h>
#include <time.h>
#include <unistd.h>

enum { CTL = 1, NAV, LOG, TASKS = LOG, TICKS = 40, NOT_PERMITTED = 3 };

/* The real-time priorities. A thread that has no grant is aside: one without a real-time priority would get some time of each second. */
enum { TICKER = 60, GRANTED = 50, REST = 2, ASIDE = 1 };

static const edfvd_task tasks[TASKS] = {
    {EDFVD_HIGH, 10, 2, 5}, /* ctl */
    {EDFVD_HIGH, 20, 3, 6}, /* nav */
    {EDFVD_LOW, 8, 2, 2},   /* log */
};

static const char *const names[TASKS + 1] = {"", "ctl", "nav", "log"};

/* A job of the plan: its task, the tick of its release, and how many ticks it needs. */
typedef struct job {
    uint32_t task, release, need;
} job;

static const job plan[] = {
    {CTL, 0, 2},  {NAV, 3, 3},  {LOG, 4, 2},  {CTL, 11, 2}, {LOG, 12, 2}, {LOG, 20, 2},
    {CTL, 21, 5}, {NAV, 23, 8}, {LOG, 28, 2}, {CTL, 31, 2}, {LOG, 36, 2},
};

/* A thread that serves a task. The ticker writes which job it is to work on, and reads which one it has done last. */
typedef struct worker {
    pthread_t thread;
    sem_t wake;
    clockid_t clock; /* of the processor time of the thread */
    int64_t had;     /* nanoseconds on that clock when the tick in progress began */
    atomic_uint wanted, done;
    atomic_llong work; /* nanoseconds that the wanted job takes */
    uint32_t task;
    bool is_greedy;
} worker;

static worker workers[TASKS + 1];
static sem_t ready; /* a thread has its name */
static edfvd_scheduler scheduler = EDFVD_NONE;
static edfvd_monitor monitor = EDFVD_NONE;
static uint64_t seen;         /* how many rows the monitor has had */
static edfvd_answer running;  /* the job that has the tick in progress; task 0 if there is none */
static uint32_t of_kind[EDFVD_IDLE + 1]; /* how many rows of each kind there were */
static int64_t tick_length;              /* nanoseconds */
static int64_t least_granted, most_ungranted, latest; /* nanoseconds */
static int marker = -1;
static atomic_bool finished;

static void fail(const char *what, const char *why, int status) {
    fprintf(stderr, "posix: %s: %s\n", what, why);
    exit(status);
}

static void must(const char *call, edfvd_status status) {
    if (status != EDFVD_OK) fail(call, edfvd_word(status), 1);
}

/* Ends the program if the system does not permit this. */
static void permitted(const char *what, int error) {
    if (error != 0) fail(what, strerror(error), error == EPERM || error == ENOMEM ? NOT_PERMITTED : 1);
}

static int64_t now(clockid_t clock) {
    struct timespec time;
    clock_gettime(clock, &time);
    return time.tv_sec * INT64_C(1000000000) + time.tv_nsec;
}

static void mark(const char *word, const char *name) {
    char line[64];
    int length = snprintf(line, sizeof line, "%s %s\n", word, name);
    if (marker >= 0 && write(marker, line, (size_t)length) != length) fail("trace_marker", strerror(errno), 1);
}

/* ---- The threads ---- */

/* Works on each job that is wanted: until its clock shows the work, or another job is wanted. A greedy thread looks at neither. */
static void *serve(void *argument) {
    worker *w = argument;
    pthread_setname_np(pthread_self(), names[w->task]);
    sem_post(&ready);
    while (sem_wait(&w->wake) == 0 && !atomic_load(&finished)) {
        unsigned wanted = atomic_load(&w->wanted);
        int64_t end = now(CLOCK_THREAD_CPUTIME_ID) + atomic_load(&w->work);
        while (!atomic_load(&finished) && (w->is_greedy || (atomic_load(&w->wanted) == wanted && now(CLOCK_THREAD_CPUTIME_ID) < end)))
            ;
        if (atomic_load(&finished) || atomic_load(&w->wanted) != wanted) continue;
        atomic_store(&w->done, wanted);
        mark("end", names[w->task]);
    }
    return NULL;
}

/* Keeps the processor while no job has work, so that no thread without a grant gets it. */
static void *rest(void *argument) {
    pthread_setname_np(pthread_self(), "rest");
    sem_post(&ready);
    while (!atomic_load(&finished))
        ;
    return argument;
}

static void set_priority(pthread_t thread, int priority) {
    struct sched_param given = {.sched_priority = priority};
    permitted("SCHED_FIFO", pthread_setschedparam(thread, SCHED_FIFO, &given));
}

/* ---- The ticker ---- */

/* Gives the monitor each new row; each must fit, and no job may become late by it. */
static void observe(void) {
    edfvd_look look;
    edfvd_watch watch;
    uint64_t late;
    must("look", edfvd_scheduler_look(&scheduler, &look));
    must("monitor_look", edfvd_monitor_look(&monitor, &watch));
    for (; seen < look.rows; seen++) {
        edfvd_row row;
        edfvd_unfit unfit;
        must("row", edfvd_scheduler_row(&scheduler, seen, &row));
        must("observe", edfvd_monitor_observe(&monitor, &row, 1, &unfit));
        if (unfit.why != EDFVD_FITS) fail("monitor", "a row does not fit", 1);
        of_kind[row.event]++;
    }
    if (edfvd_monitor_late(&monitor, watch.ticks, NULL, 0, &late) != EDFVD_OK) fail("monitor", "a job is late", 1);
}

/* How much of the tick that has ended each thread had: compares it with the grant. */
static void measure(void) {
    for (uint32_t task = 1; task <= TASKS; task++) {
        worker *w = &workers[task];
        int64_t had = now(w->clock) - w->had;
        w->had += had;
        if (task != running.task) {
            if (had > most_ungranted) most_ungranted = had;
        } else if (atomic_load(&w->done) != running.count && had < least_granted) {
            least_granted = had;
        }
    }
}

/* Ends the tick in progress: takes the processor from the thread of its job, and reports whether the job is done. */
static void end_tick(void) {
    measure();
    if (running.task == 0) return;
    worker *w = &workers[running.task];
    set_priority(w->thread, ASIDE);
    must("outcome", edfvd_scheduler_outcome(&scheduler, running.task, running.count, atomic_load(&w->done) == running.count, NULL));
    running.task = 0;
}

/* Releases the next job of the plan. */
static void release(const job *due) {
    edfvd_answer answer;
    worker *w = &workers[due->task];
    must("release", edfvd_scheduler_release(&scheduler, due->task, &answer));
    mark(answer.what == EDFVD_DROPPED ? "drop" : "release", names[due->task]);
    if (answer.what == EDFVD_DROPPED) return;
    atomic_store(&w->work, due->need * tick_length - tick_length / 10);
    atomic_store(&w->wanted, answer.count);
    sem_post(&w->wake);
}

/* Begins a tick: grants it to the chosen job, whose thread gets the processor. */
static void begin_tick(void) {
    edfvd_look look;
    must("look", edfvd_scheduler_look(&scheduler, &look));
    if (look.chosen_task == 0) {
        must("idle", edfvd_scheduler_idle(&scheduler, NULL));
        return;
    }
    must("grant", edfvd_scheduler_grant(&scheduler, look.chosen_task, &running));
    set_priority(workers[running.task].thread, GRANTED);
}

static void run(void) {
    int64_t first = now(CLOCK_MONOTONIC) + 2 * tick_length;
    size_t next = 0;
    for (uint32_t tick = 0; tick <= TICKS; tick++) {
        int64_t time = first + tick * tick_length;
        struct timespec until = {time / 1000000000, time % 1000000000};
        while (clock_nanosleep(CLOCK_MONOTONIC, TIMER_ABSTIME, &until, NULL) == EINTR)
            ;
        int64_t late = now(CLOCK_MONOTONIC) - time;
        if (late > latest) latest = late;
        if (tick != 0) end_tick();
        for (; tick < TICKS && next < sizeof plan / sizeof *plan && plan[next].release == tick; next++) release(&plan[next]);
        if (tick < TICKS) begin_tick();
        observe();
        if (tick == 0)
            for (uint32_t task = 1; task <= TASKS; task++) workers[task].had = now(workers[task].clock);
    }
    mark("finish", "");
}

/* ---- The beginning and the end ---- */

/* Puts the program on one processor, into memory, and under SCHED_FIFO, with this thread as the ticker. */
static void settle(int processor) {
    cpu_set_t set;
    CPU_ZERO(&set);
    CPU_SET((size_t)processor, &set);
    permitted("one processor", sched_setaffinity(0, sizeof set, &set) == 0 ? 0 : errno);
    permitted("locked memory", mlockall(MCL_CURRENT | MCL_FUTURE) == 0 ? 0 : errno);
    set_priority(pthread_self(), TICKER);
    pthread_setname_np(pthread_self(), "ticker");
    marker = open("/sys/kernel/tracing/trace_marker", O_WRONLY);
    if (marker < 0) fprintf(stderr, "posix: nothing is recorded: trace_marker: %s\n", strerror(errno));
}

/* Starts a thread of this priority, and waits until it has its name. */
static pthread_t start(void *(*work)(void *), void *argument, int priority) {
    struct sched_param given = {.sched_priority = priority};
    pthread_attr_t how;
    pthread_t thread;
    pthread_attr_init(&how);
    pthread_attr_setinheritsched(&how, PTHREAD_EXPLICIT_SCHED);
    pthread_attr_setschedpolicy(&how, SCHED_FIFO);
    pthread_attr_setschedparam(&how, &given);
    pthread_attr_setstacksize(&how, 1 << 18);
    permitted("a thread under SCHED_FIFO", pthread_create(&thread, &how, work, argument));
    pthread_attr_destroy(&how);
    while (sem_wait(&ready) != 0)
        ;
    return thread;
}

static int report(void) {
    edfvd_verdict verdict;
    must("verdict", edfvd_monitor_verdict(&monitor, &verdict));
    printf("%" PRIu32 " done, %" PRIu32 " overruns, %" PRIu32 " stopped, %" PRIu32 " dropped, %" PRIu32 " idle ticks; %s, %" PRIu64 " late\n",
           of_kind[EDFVD_DONE], of_kind[EDFVD_OVER], of_kind[EDFVD_STOP], of_kind[EDFVD_DROPPED], of_kind[EDFVD_IDLE],
           verdict.why == EDFVD_FITS ? "legal" : "illegal", verdict.late);
    printf("of a tick a thread had at least %" PRId64 " us if it was granted, and at most %" PRId64 " us if not; ", least_granted / 1000,
           most_ungranted / 1000);
    printf("the ticker came at most %" PRId64 " us late\n", latest / 1000);
    must("monitor_close", edfvd_monitor_close(&monitor));
    must("close", edfvd_scheduler_close(&scheduler));
    return verdict.why == EDFVD_FITS && verdict.late == 0 && latest < tick_length / 10 && most_ungranted < tick_length / 10 ? 0 : 1;
}

/* The number that a word is, or -1 if it is none within the range. */
static long number_in(const char *word, long least, long most) {
    char *end;
    errno = 0;
    long number = strtol(word, &end, 10);
    return *word >= '0' && *word <= '9' && *end == 0 && errno == 0 && number >= least && number <= most ? number : -1;
}

int main(int argc, char **argv) {
    long microseconds = argc >= 3 ? number_in(argv[1], 100, 1000000) : -1, processor = argc >= 3 ? number_in(argv[2], 0, CPU_SETSIZE - 1) : -1;
    if (microseconds < 0 || processor < 0 || argc > 4 || (argc == 4 && strcmp(argv[3], "greedy") != 0)) {
        fputs("usage: posix MICROSECONDS CPU [greedy]\n", stderr);
        return 2;
    }
    tick_length = microseconds * 1000;
    least_granted = tick_length;
    must("open", edfvd_scheduler_open_endless(&scheduler, tasks, TASKS, NULL));
    must("monitor_open", edfvd_monitor_open(&monitor, tasks, TASKS, 0, 0, NULL));
    settle((int)processor);
    sem_init(&ready, 0, 0);
    for (uint32_t task = 1; task <= TASKS; task++) {
        worker *w = &workers[task];
        sem_init(&w->wake, 0, 0);
        w->task = task;
        w->is_greedy = argc == 4 && task == CTL;
        w->thread = start(serve, w, ASIDE);
        pthread_getcpuclockid(w->thread, &w->clock);
    }
    pthread_t resting = start(rest, NULL, REST);
    run();
    atomic_store(&finished, true);
    for (uint32_t task = 1; task <= TASKS; task++) {
        sem_post(&workers[task].wake);
        pthread_join(workers[task].thread, NULL);
    }
    pthread_join(resting, NULL);
    return report();
}
