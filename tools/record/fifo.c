/* Serves the jobs of a work file by EDF-VD with real threads: one for each task, under SCHED_FIFO on one processor. A ticker
 * thread wakes at each boundary, closes the tick before it, releases, and ranks the threads by the keys of their jobs; in
 * between the kernel serves the first that has work. Each release, dropped release and end is written to trace_marker, for
 * sched.py. Where no job is pending a thread of the least rank keeps the processor, so that the recording has no others.
 * ../../docs/RECORDING.md says how it is recorded.
 *
 * A job works until its thread has had its ticks except a tenth of one, which is left for the ticker and for interrupts.
 *
 * usage: fifo TASKS WORK TICKS MICROSECONDS CPU [plain|keep]
 *        plain has deadlines for keys in low mode too, and keep goes on with low jobs after an overrun: both break the rules.
 *        TICKS from 1 to 1,000,000, MICROSECONDS to 1,000,000. A task file has one key in a line, its numbers are at most
 *        1,000,000, and a task has one pending job at a time. */
#define _GNU_SOURCE
#include <errno.h>
#include <fcntl.h>
#include <pthread.h>
#include <sched.h>
#include <semaphore.h>
#include <stdarg.h>
#include <stdatomic.h>
#include <stdbool.h>
#include <stdio.h>
#include <stdlib.h>
#include <string.h>
#include <sys/mman.h>
#include <sys/prctl.h>
#include <sys/stat.h>
#include <time.h>
#include <unistd.h>

enum { MOST_TASKS = 16, MOST_JOBS = 4096, MOST_NUMBER = 1000000, STACK = 1 << 18 };
/* The ranks, as priorities of SCHED_FIFO: a thread without a pending job is aside. */
enum { TICKER = 60, FIRST_JOB = 50, ASIDE = 2, REST = 1 };

/* Keys and loads: of numbers of at most 2^60 their products are in range. */
__extension__ typedef __int128 wide;

struct task {
    char name[33];
    bool is_high;
    long period, low, high; /* ticks */
    /* The ticker's: its releases so far, and of its last kept job the release, the ticks it has had, whether it is pending. */
    long count, release, used;
    bool pending;
    int rank;
    /* Between the ticker and the thread: the number of the job that is to go on, or 0; its work; whether it is done. */
    atomic_long job;
    atomic_llong work; /* nanoseconds */
    atomic_bool done;
    sem_t wake;
    pthread_t thread;
};

struct work {
    int task;
    long release, need; /* ticks */
};

static struct task tasks[MOST_TASKS];
static int task_count;
static struct work jobs[MOST_JOBS];
static int job_count;
static wide scale_p = 1, scale_q = 1;
static bool is_virtual, high_mode, keys_are_plain, low_jobs_go_on;
static long long tick_length; /* nanoseconds */
static int marker = -1;
static atomic_int markers_lost;
static atomic_bool finished;

static void fail(const char *form, ...)
{
    va_list words;
    va_start(words, form);
    fputs("fifo: ", stderr);
    vfprintf(stderr, form, words);
    fputc('\n', stderr);
    va_end(words);
    exit(1);
}

static void must(int error, const char *what)
{
    if (error != 0)
        fail("%s: %s", what, strerror(error));
}

/* ---- Files ---- */

/* Opens a regular file: another one, as a pipe, might never open. */
static FILE *open_file(const char *name)
{
    int descriptor = open(name, O_RDONLY | O_NONBLOCK);
    struct stat status;
    FILE *file = descriptor < 0 ? NULL : fdopen(descriptor, "r");
    if (file == NULL || fstat(descriptor, &status) != 0)
        fail("%s: %s", name, strerror(errno));
    if (!S_ISREG(status.st_mode))
        fail("%s: not a regular file", name);
    return file;
}

/* Reads the next line without its end, or answers that there is none. A line that is too long or has a NUL is refused. */
static bool next_line(FILE *file, const char *name, int number, char *line, int size)
{
    if (fgets(line, size, file) == NULL) {
        if (ferror(file))
            fail("%s: %s", name, strerror(errno));
        return false;
    }
    size_t length = strlen(line);
    if (length > 0 && line[length - 1] == '\n')
        line[length - 1] = '\0';
    else if (!feof(file))
        fail("%s: line %d is not read here", name, number);
    return true;
}

/* Takes the number that a text begins with, and answers what comes after it, or NULL where it is none from LEAST on. */
static const char *take_number(const char *text, long least, long *number)
{
    *number = 0;
    const char *digit = text;
    for (; *digit >= '0' && *digit <= '9' && *number <= MOST_NUMBER; digit++)
        *number = 10 * *number + (*digit - '0');
    return digit == text || *number < least || *number > MOST_NUMBER ? NULL : digit;
}

/* Whether a line is KEY = NUMBER; then it takes the number. */
static bool take_key(const char *line, const char *key, long *number)
{
    size_t length = strlen(key);
    if (strncmp(line, key, length) != 0 || strncmp(line + length, " = ", 3) != 0)
        return false;
    const char *rest = take_number(line + length + 3, 1, number);
    return rest != NULL && *rest == '\0';
}

/* Takes one line of a task file. */
static bool take_task_line(const char *line)
{
    char first, text[33];
    int end = 0;
    if (sscanf(line, " %c", &first) != 1 || first == '#')
        return true;
    if (strcmp(line, "[[task]]") == 0)
        return task_count < MOST_TASKS && ++task_count > 0;
    if (task_count == 0)
        return false;
    struct task *task = &tasks[task_count - 1];
    if (sscanf(line, "level = \"%32[a-z]\"%n", text, &end) == 1 && end > 0 && line[end] == '\0') {
        task->is_high = strcmp(text, "high") == 0;
        return task->is_high || strcmp(text, "low") == 0;
    }
    if (sscanf(line, "name = \"%32[A-Za-z0-9_-]\"%n", task->name, &end) == 1)
        return end > 0 && line[end] == '\0';
    return take_key(line, "period", &task->period) || take_key(line, "low", &task->low) || take_key(line, "high", &task->high);
}

static void read_tasks(const char *name)
{
    FILE *file = open_file(name);
    char line[256];
    for (int number = 1; next_line(file, name, number, line, sizeof line); number++)
        if (!take_task_line(line))
            fail("%s: line %d is not read here", name, number);
    fclose(file);
    if (task_count == 0)
        fail("%s: no tasks", name);
    for (struct task *task = tasks; task < tasks + task_count; task++) {
        if (!task->is_high)
            task->high = task->low;
        if (task->name[0] == '\0' || task->period < 1 || task->low < 1 || task->high < task->low)
            fail("%s: task %d has no name, no period or no such budgets", name, (int)(task - tasks) + 1);
    }
}

/* Takes one line of a work file. */
static bool take_work_line(const char *line)
{
    if (job_count == MOST_JOBS)
        return false;
    struct work *job = &jobs[job_count];
    size_t length = strcspn(line, ",");
    for (job->task = 0; job->task < task_count; job->task++)
        if (strlen(tasks[job->task].name) == length && strncmp(tasks[job->task].name, line, length) == 0)
            break;
    const char *rest = line[length] == ',' ? take_number(line + length + 1, 0, &job->release) : NULL;
    rest = rest != NULL && *rest == ',' ? take_number(rest + 1, 1, &job->need) : NULL;
    bool is_in_order = job_count == 0 || jobs[job_count - 1].release <= job->release;
    if (job->task == task_count || rest == NULL || *rest != '\0' || !is_in_order)
        return false;
    job_count++;
    return true;
}

static void read_work(const char *name)
{
    FILE *file = open_file(name);
    char line[256];
    int number = 1;
    for (; next_line(file, name, number, line, sizeof line); number++)
        if (number == 1 ? strcmp(line, "task,release,need") != 0 : !take_work_line(line))
            fail("%s: line %d is not read here", name, number);
    fclose(file);
    if (number == 1)
        fail("%s: line 1 is not read here", name);
}

/* ---- The rule ---- */

static wide greatest_divisor(wide a, wide b)
{
    return b == 0 ? a : greatest_divisor(b, a % b);
}

/* The rule of the published test; the loads are counted in parts of which `all` make one. */
static void find_rule(void)
{
    wide all = 1, low_low = 0, high_low = 0, high_high = 0;
    for (struct task *task = tasks; task < tasks + task_count; task++) {
        all = all / greatest_divisor(all, task->period) * task->period;
        if (all > (wide)1 << 60)
            fail("the periods are out of range");
    }
    for (struct task *task = tasks; task < tasks + task_count; task++) {
        *(task->is_high ? &high_low : &low_low) += task->low * (all / task->period);
        high_high += task->is_high ? task->high * (all / task->period) : 0;
    }
    is_virtual = low_low + high_high > all;
    if (!is_virtual)
        return;
    scale_p = high_low;
    scale_q = all - low_low;
    if (low_low >= all || high_high > all || high_low > all || scale_p * low_low + scale_q * high_high > scale_q * all)
        fail("the tasks are not admitted");
}

static wide key(const struct task *task)
{
    bool by_scale = is_virtual && !high_mode && task->is_high && !keys_are_plain;
    return scale_q * task->release + (by_scale ? scale_p : scale_q) * task->period;
}

/* ---- Time, markers and ranks ---- */

static long long now(clockid_t clock)
{
    struct timespec time;
    clock_gettime(clock, &time);
    return time.tv_sec * 1000000000LL + time.tv_nsec;
}

static void sleep_until(long long time)
{
    struct timespec until = {time / 1000000000LL, time % 1000000000LL};
    while (clock_nanosleep(CLOCK_MONOTONIC, TIMER_ABSTIME, &until, NULL) == EINTR)
        ;
}

static void mark(const char *word, const char *name)
{
    char line[64];
    int length = snprintf(line, sizeof line, "%s %s\n", word, name);
    if (write(marker, line, (size_t)length) != length)
        atomic_fetch_add(&markers_lost, 1);
}

static void set_rank(struct task *task, int rank)
{
    struct sched_param priority = {.sched_priority = rank};
    if (task->rank != rank)
        must(pthread_setschedparam(task->thread, SCHED_FIFO, &priority), "a priority");
    task->rank = rank;
}

/* ---- The threads ---- */

/* Serves a task: works off each job that it is woken for, or leaves it where the ticker says so. */
static void *serve(void *argument)
{
    struct task *task = argument;
    prctl(PR_SET_NAME, task->name);
    while (sem_wait(&task->wake) == 0 && !atomic_load(&finished)) {
        long job = atomic_load(&task->job);
        long long end = now(CLOCK_THREAD_CPUTIME_ID) + atomic_load(&task->work);
        while (job != 0 && atomic_load(&task->job) == job && now(CLOCK_THREAD_CPUTIME_ID) < end)
            ;
        if (job == 0 || atomic_load(&task->job) != job)
            continue;
        atomic_store(&task->done, true);
        mark("end", task->name);
    }
    return NULL;
}

/* Keeps the processor where nothing else has work. */
static void *rest(void *argument)
{
    prctl(PR_SET_NAME, "rest");
    while (!atomic_load(&finished))
        ;
    return argument;
}

static pthread_t start(void *(*work)(void *), void *argument, int rank)
{
    struct sched_param priority = {.sched_priority = rank};
    pthread_attr_t how;
    pthread_t thread;
    pthread_attr_init(&how);
    pthread_attr_setstacksize(&how, STACK);
    pthread_attr_setinheritsched(&how, PTHREAD_EXPLICIT_SCHED);
    pthread_attr_setschedpolicy(&how, SCHED_FIFO);
    pthread_attr_setschedparam(&how, &priority);
    must(pthread_create(&thread, &how, work, argument), "a thread under SCHED_FIFO");
    pthread_attr_destroy(&how);
    return thread;
}

/* ---- The ticker ---- */

static void leave(struct task *task)
{
    task->pending = false;
    atomic_store(&task->job, 0);
}

static void overrun(void)
{
    high_mode = true;
    for (struct task *task = tasks; task < tasks + task_count; task++)
        if (task->pending && !task->is_high && !low_jobs_go_on)
            leave(task);
}

/* What a tick did, whose job was of this task, or which was idle. */
static void close_tick(struct task *task)
{
    if (task == NULL) {
        high_mode = false;
        return;
    }
    task->used++;
    if (atomic_load(&task->done) || task->used == task->high)
        leave(task);
    else if (is_virtual && !high_mode && task->is_high && task->used == task->low)
        overrun();
}

static void release(struct task *task, long boundary, long need)
{
    if (task->pending)
        fail("%s is late at boundary %ld, where it is released again", task->name, boundary);
    task->count++;
    if (high_mode && !task->is_high) {
        mark("drop", task->name);
        return;
    }
    mark("release", task->name);
    task->release = boundary;
    task->used = 0;
    task->pending = true;
    atomic_store(&task->done, false);
    atomic_store(&task->work, need * tick_length - tick_length / 10);
    atomic_store(&task->job, task->count);
    sem_post(&task->wake);
}

/* Ranks the pending jobs by their keys, and of equal keys by their numbers; the first of them has the tick, if there is one. */
static struct task *rank_all(void)
{
    struct task *first = NULL;
    for (struct task *task = tasks; task < tasks + task_count; task++) {
        int before = 0;
        for (struct task *other = tasks; other < tasks + task_count; other++)
            before += other->pending && (key(other) < key(task) || (key(other) == key(task) && other < task));
        set_rank(task, task->pending ? FIRST_JOB - before : ASIDE);
        if (task->pending && before == 0)
            first = task;
    }
    return first;
}

/* The ticks of a run, and how late the ticker was at most. */
static long long tick_through(long ticks)
{
    long long first = now(CLOCK_MONOTONIC) + 2 * tick_length, latest = 0;
    int job = 0;
    struct task *served = NULL;
    for (long boundary = 0; boundary <= ticks; boundary++) {
        sleep_until(first + boundary * tick_length);
        long long late = now(CLOCK_MONOTONIC) - first - boundary * tick_length;
        latest = late > latest ? late : latest;
        if (boundary > 0)
            close_tick(served);
        if (boundary == ticks)
            break;
        for (; job < job_count && jobs[job].release == boundary; job++)
            release(&tasks[jobs[job].task], boundary, jobs[job].need);
        served = rank_all();
    }
    mark("finish", "");
    return latest;
}

/* Puts the whole program on one processor, in memory and under SCHED_FIFO, with this thread as the ticker. */
static void settle(size_t processor)
{
    struct sched_param priority = {.sched_priority = TICKER};
    cpu_set_t set;
    CPU_ZERO(&set);
    CPU_SET(processor, &set);
    if (sched_setaffinity(0, sizeof set, &set) != 0 || mlockall(MCL_CURRENT | MCL_FUTURE) != 0
        || sched_setscheduler(0, SCHED_FIFO, &priority) != 0)
        fail("one processor, memory and SCHED_FIFO: %s", strerror(errno));
    prctl(PR_SET_NAME, "ticker");
    marker = open("/sys/kernel/tracing/trace_marker", O_WRONLY);
    if (marker < 0)
        fail("trace_marker: %s", strerror(errno));
}

/* Whether a word is a number from LEAST on; then it takes the number. */
static bool take_word(const char *word, long least, long *number)
{
    const char *rest = take_number(word, least, number);
    return rest != NULL && *rest == '\0';
}

/* Takes the words of the call, or answers that they are none. */
static bool take_words(int count, char **words, long *ticks, long *processor)
{
    long microseconds;
    if (count < 6 || count > 7 || !take_word(words[3], 1, ticks) || !take_word(words[4], 1, &microseconds)
        || !take_word(words[5], 0, processor) || *processor >= CPU_SETSIZE)
        return false;
    tick_length = microseconds * 1000LL;
    keys_are_plain = count == 7 && strcmp(words[6], "plain") == 0;
    low_jobs_go_on = count == 7 && strcmp(words[6], "keep") == 0;
    return count == 6 || keys_are_plain || low_jobs_go_on;
}

int main(int count, char **words)
{
    long ticks, processor;
    if (!take_words(count, words, &ticks, &processor)) {
        fputs("usage: fifo TASKS WORK TICKS MICROSECONDS CPU [plain|keep]\n", stderr);
        return 2;
    }
    read_tasks(words[1]);
    read_work(words[2]);
    find_rule();
    settle((size_t)processor);
    for (struct task *task = tasks; task < tasks + task_count; task++) {
        sem_init(&task->wake, 0, 0);
        task->rank = ASIDE;
        task->thread = start(serve, task, ASIDE);
    }
    pthread_t rest_thread = start(rest, NULL, REST);
    long long latest = tick_through(ticks);
    atomic_store(&finished, true);
    for (struct task *task = tasks; task < tasks + task_count; task++) {
        leave(task);
        sem_post(&task->wake);
        pthread_join(task->thread, NULL);
    }
    pthread_join(rest_thread, NULL);
    fprintf(stderr, "fifo: at most %lld us late at a boundary, %d markers not taken\n", latest / 1000, markers_lost);
    return markers_lost != 0;
}
