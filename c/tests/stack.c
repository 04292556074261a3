/*
 * edfvd_ask on a thread with the stack that edfvd.h says it needs, with the files that nest the deepest. The reader of task files
 * takes 80 levels and calls itself for each. The stack is painted before each call and ends at a page that cannot be touched; the
 * bytes that a call has changed are what it used. stated.h has what stated.sh writes. Link with -pthread.
 */
#define _GNU_SOURCE
#include "stated.h"
#include "tests.h"
#include <pthread.h>
#include <stdlib.h>
#include <sys/mman.h>

tally tests;

enum { STACK = STATED_STACK_KIB * 1024, PAGE = 4096, LEVELS = STATED_STACK_LEVELS };

static char file[1 << 16], out[1 << 16];
static size_t length;
static uint32_t exit_status;
static edfvd_status status;

static void *check(void *words) {
    status = edfvd_ask(2, words, file, strlen(file), file, strlen(file), out, sizeof out, &length, &exit_status);
    return NULL;
}

/* Appends the text this many times. */
static void append(const char *text, int times) {
    for (int time = 0; time < times; time++) strcat(file, text);
}

/* The bytes that the call changed: those above the lowest one that is not painted. */
static size_t used(const unsigned char *stack) {
    size_t painted = 0;
    while (painted < STACK && stack[painted] == PAINT) painted++;
    return STACK - painted;
}

/* Asks on a thread with such a stack. */
static size_t ask(unsigned char *stack, const char *command) {
    const char *words[] = {command, "1"};
    pthread_attr_t attributes;
    pthread_t thread;
    memset(stack, PAINT, STACK);
    IS(0, pthread_attr_init(&attributes));
    IS(0, pthread_attr_setstack(&attributes, stack, STACK));
    IS(0, pthread_create(&thread, &attributes, check, words));
    IS(0, pthread_join(thread, NULL));
    IS(0, pthread_attr_destroy(&attributes));
    IS(EDFVD_OK, status);
    return used(stack);
}

/* Files whose parts nest: names of tables, keys, arrays and tables in lines, to the limit of 80 and beyond it. */
static void nested(unsigned char *stack, const char *name, const char *begin, const char *level, const char *middle,
                   const char *close, const char *end) {
    static const int levels[] = {1, 40, LEVELS - 3, LEVELS - 2, LEVELS - 1, LEVELS, LEVELS + 1, 1000};
    size_t most = 0;
    for (size_t place = 0; place < sizeof levels / sizeof *levels; place++) {
        file[0] = 0;
        append(begin, 1);
        append(level, levels[place]);
        append(middle, 1);
        append(close, levels[place]);
        append(end, 1);
        size_t bytes = ask(stack, "check");
        if (bytes > most) most = bytes;
        IS(3, exit_status);
    }
    printf("%s: at most %zu bytes of stack\n", name, most);
    IS(1, most <= STACK / 4 * 3); /* so that other compilers and later versions have room */
}

/* The file that the header means, [[a.a..]] of 80 names without a line's end: its length, and the stack that it uses, up to a tenth. */
static void named_file(unsigned char *stack) {
    file[0] = 0;
    append("[[a", 1);
    append(".a", LEVELS - 1);
    append("]]", 1);
    IS(STATED_STACK_FILE_BYTES, strlen(file));
    size_t bytes = ask(stack, "check");
    IS(3, exit_status);
    IS(1, bytes > STATED_STACK_BYTES / 10 * 9 && bytes < STATED_STACK_BYTES / 10 * 11);
}

/* The largest set, by each command that reads nothing but a set. */
static void largest_set(unsigned char *stack) {
    static const char *const commands[] = {"check", "stretch"};
    file[0] = 0;
    for (int task = 0; task < 128; task++)
        sprintf(file + strlen(file), "[[task]]\nname = \"t%d\"\nlevel = \"high\"\nperiod = 1000\nlow = 1\nhigh = 2\n", task);
    for (size_t place = 0; place < 2; place++) {
        size_t bytes = ask(stack, commands[place]);
        IS(0, exit_status);
        printf("%s of 128 tasks: %zu bytes of stack\n", commands[place], bytes);
    }
}

int main(void) {
    unsigned char *pages = mmap(NULL, STACK + PAGE, PROT_READ | PROT_WRITE, MAP_PRIVATE | MAP_ANONYMOUS, -1, 0);
    if (pages == MAP_FAILED || mprotect(pages, PAGE, PROT_NONE) != 0) return 1;
    unsigned char *stack = pages + PAGE;
    nested(stack, "[a.a..]", "[a", ".a", "", "", "]\n");
    nested(stack, "[[a.a..]]", "[[a", ".a", "", "", "]]\n");
    nested(stack, "a.a.. = 1", "a", ".a", " = 1\n", "", "");
    nested(stack, "a = [[..]]", "a = ", "[", "1", "]", "\n");
    nested(stack, "a = {a = {..}}", "a = ", "{a = ", "1", "}", "\n");
    nested(stack, "a = [{a = [..", "a = ", "[{a = ", "1", "}]", "\n");
    nested(stack, "a = {a.a = {..", "a = ", "{a.a = ", "1", "}", "\n");
    nested(stack, "[a] [a.a] ..", "[a]\n[a", ".a", "]\n", "", "b = 1\n");
    named_file(stack);
    largest_set(stack);
    return ends("stack");
}
