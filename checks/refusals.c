/* Stands before the C library, counts its calls, and makes some of them fail. For LD_PRELOAD.
 * GROWTH is the number, from 1, of the growth of memory that is refused, by whichever thread it is asked for.
 * CALL is that of the call that fails, among the opens, the reads, and the writes to standard output; STOP that of a write
 * that takes nothing and answers 0. MOST is the most bytes that a write takes. Before call CUT the file CUT_FILE is cut to 0
 * bytes. Files of /sys, by which processors are counted, are none of these calls. A signal interrupts each of them INTERRUPT
 * times before it goes through; the tries that are interrupted are not counted among the calls.
 * START is the number of the start of a thread that fails; all fail where it is 0.
 * Faults that stay: from growth GROWTHS_FROM on each growth is refused, and by the seed SEED each one with a chance of one in
 * ONE_IN. From call CALLS_FROM on each call fails, of KIND alone where that is given: open, read or write. MOST_READ is the most
 * bytes that a read gives; a disk is full after FULL bytes. From growth NO_MAPS on the system refuses each mmap, and from start
 * NO_CLONES on each clone, whoever calls it.
 * IN is the name of the program that is meant: in any other, as one that starts it, nothing fails.
 * At the end it tells on standard error how many growths, calls, interruptions and starts there were, how many filters of the
 * system stand, or -1 where it takes none, and which call failed first: an open or a read with its file's number, or a write. */
#define _GNU_SOURCE
#include <dlfcn.h>
#include <errno.h>
#include <fcntl.h>
#include <linux/filter.h>
#include <linux/seccomp.h>
#include <pthread.h>
#include <stdarg.h>
#include <stddef.h>
#include <stdio.h>
#include <stdlib.h>
#include <string.h>
#include <sys/prctl.h>
#include <sys/syscall.h>
#include <sys/types.h>
#include <unistd.h>

/* What the environment gives under the name, in the program that is meant. */
static const char *setting(const char *name)
{
    const char *meant = getenv("IN");
    return meant == NULL || (program_invocation_short_name != NULL && strcmp(program_invocation_short_name, meant) == 0)
               ? getenv(name)
               : NULL;
}

/* Where the headers are older than the call. */
#ifndef SYS_clone3
#define SYS_clone3 435
#endif

/* The C library's own function of this name. */
#define NEXT(name)                 \
    static __typeof__(name) *next; \
    if (next == NULL)              \
        next = (__typeof__(name) *)dlsym(RTLD_NEXT, #name)

static long growths;
static long calls;
static long interruptions;
static long opens;
/* The last opened file of /sys, while no other has its number. */
static int uncounted = -1;
static long starts;
static long filters;
/* The bytes that went to standard output. */
static size_t taken;
static char failed[64] = "nothing";

/* Whether the environment gives this number under the name. */
static int is_number(const char *name, long number)
{
    const char *text = setting(name);
    return text != NULL && atol(text) == number;
}

/* Whether the environment gives this number or one before it under the name. */
static int is_from(const char *name, long number)
{
    const char *text = setting(name);
    return text != NULL && number >= atol(text);
}

/* Whether a growth is one of those that the seed draws: a hash of both, the finish of splitmix64. */
static int is_drawn(long growth)
{
    const char *one_in = setting("ONE_IN"), *seed = setting("SEED");
    if (one_in == NULL || seed == NULL)
        return 0;
    unsigned long long mixed = (unsigned long long)atol(seed) * 0x9e3779b97f4a7c15u + (unsigned long long)growth;
    mixed = (mixed ^ (mixed >> 30)) * 0xbf58476d1ce4e5b9u;
    mixed = (mixed ^ (mixed >> 27)) * 0x94d049bb133111ebu;
    return (mixed ^ (mixed >> 31)) % (unsigned long long)atol(one_in) == 0;
}

/* From now on the system answers these two calls of each thread with the error. */
static void refuse_for_good(unsigned first, unsigned second, unsigned error)
{
    struct sock_filter steps[] = {
        BPF_STMT(BPF_LD | BPF_W | BPF_ABS, offsetof(struct seccomp_data, nr)),
        BPF_JUMP(BPF_JMP | BPF_JEQ | BPF_K, first, 1, 0),
        BPF_JUMP(BPF_JMP | BPF_JEQ | BPF_K, second, 0, 1),
        BPF_STMT(BPF_RET | BPF_K, SECCOMP_RET_ERRNO | error),
        BPF_STMT(BPF_RET | BPF_K, SECCOMP_RET_ALLOW),
    };
    struct sock_fprog filter = {sizeof steps / sizeof steps[0], steps};
    if (prctl(PR_SET_NO_NEW_PRIVS, 1, 0, 0, 0) == 0 &&
        syscall(SYS_seccomp, SECCOMP_SET_MODE_FILTER, SECCOMP_FILTER_FLAG_TSYNC, &filter) == 0)
        filters += 1;
    else
        filters = -1;
}

static int is_growth_refused(void)
{
    long growth = __atomic_add_fetch(&growths, 1, __ATOMIC_SEQ_CST);
    if (is_number("NO_MAPS", growth))
        refuse_for_good(SYS_mmap, SYS_mremap, ENOMEM);
    if (!is_number("GROWTH", growth) && !is_from("GROWTHS_FROM", growth) && !is_drawn(growth))
        return 0;
    errno = ENOMEM;
    return 1;
}

void *malloc(size_t size)
{
    NEXT(malloc);
    return is_growth_refused() ? NULL : next(size);
}

void *realloc(void *old, size_t size)
{
    NEXT(realloc);
    return is_growth_refused() ? NULL : next(old, size);
}

/* Whether a signal interrupts this try of the next call. */
static int is_interrupted(void)
{
    static long tries;
    const char *times = setting("INTERRUPT");
    if (times == NULL || tries == atol(times)) {
        tries = 0;
        return 0;
    }
    tries += 1;
    interruptions += 1;
    errno = EINTR;
    return 1;
}

/* A call fails with the error, and is noted where it is the first one. */
static int failed_with(int error, const char *kind, long file)
{
    if (strcmp(failed, "nothing") == 0 && file == 0)
        snprintf(failed, sizeof failed, "%s", kind);
    else if (strcmp(failed, "nothing") == 0)
        snprintf(failed, sizeof failed, "%s %ld", kind, file);
    errno = error;
    return 1;
}

/* Whether this call, the next one, is to fail. */
static int fails(const char *kind, long file)
{
    const char *only = setting("KIND");
    calls += 1;
    if (is_number("CUT", calls) && truncate(setting("CUT_FILE"), 0) != 0)
        abort();
    if (is_number("CALL", calls) || (is_from("CALLS_FROM", calls) && (only == NULL || strcmp(only, kind) == 0)))
        return failed_with(EIO, kind, file);
    return 0;
}

/* The number of bytes, or the one of the environment where that is less. */
static size_t at_most(const char *name, size_t count)
{
    const char *text = setting(name);
    return text != NULL && (size_t)atol(text) < count ? (size_t)atol(text) : count;
}

int open(const char *path, int flags, ...)
{
    mode_t mode = 0;
    NEXT(open);
    if (flags & O_CREAT) {
        va_list rest;
        va_start(rest, flags);
        mode = va_arg(rest, mode_t);
        va_end(rest);
    }
    if (strncmp(path, "/sys/", 5) == 0)
        return uncounted = next(path, flags, mode);
    if (is_interrupted())
        return -1;
    opens += 1;
    if (fails("open", opens))
        return -1;
    int file = next(path, flags, mode);
    if (file == uncounted)
        uncounted = -1;
    return file;
}

ssize_t read(int file, void *bytes, size_t count)
{
    NEXT(read);
    if (file == uncounted)
        return next(file, bytes, count);
    return is_interrupted() || fails("read", opens) ? -1 : next(file, bytes, at_most("MOST_READ", count));
}

ssize_t write(int file, const void *bytes, size_t count)
{
    NEXT(write);
    if (file != 1)
        return next(file, bytes, count);
    if (is_interrupted() || fails("write", 0))
        return -1;
    if (is_number("STOP", calls))
        return 0;
    count = at_most("MOST", count);
    size_t room = at_most("FULL", taken + count) - taken;
    if (room == 0 && count > 0 && failed_with(ENOSPC, "write", 0))
        return -1;
    ssize_t went = next(file, bytes, room);
    taken += went > 0 ? (size_t)went : 0;
    return went;
}

ssize_t __write(int file, const void *bytes, size_t count)
{
    return write(file, bytes, count);
}

int pthread_create(pthread_t *thread, const pthread_attr_t *attributes, void *(*start)(void *), void *argument)
{
    NEXT(pthread_create);
    starts += 1;
    if (is_number("NO_CLONES", starts))
        refuse_for_good(SYS_clone, SYS_clone3, EAGAIN);
    if (is_number("START", starts) || is_number("START", 0))
        return EAGAIN;
    return next(thread, attributes, start, argument);
}

/* The program ends without the library's own end. */
void _exit(int status)
{
    char lines[256];
    int length = snprintf(lines, sizeof lines,
                          "growths %ld\ncalls %ld\ninterruptions %ld\nstarts %ld\nfilters %ld\nrefused %s\n",
                          growths, calls, interruptions, starts, filters, failed);
    NEXT(_exit);
    if (write(2, lines, (size_t)length) != length)
        status = 127;
    next(status);
    __builtin_unreachable();
}
