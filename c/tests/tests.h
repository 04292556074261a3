/* What the tests of the C libraries share: each comparison that fails is reported with its file and line. */
#ifndef TESTS_H
#define TESTS_H

#include "edfvd.h"
#include <inttypes.h>
#include <stdio.h>
#include <string.h>

/* How many comparisons there were, and how many of them failed. */
typedef struct tally {
    unsigned long made, failed;
} tally;

extern tally tests;

/* The byte that fills what a call must not write. */
enum { PAINT = 0xa5 };

static inline void compare(const char *file, int line, const char *what, uint64_t found, uint64_t wanted) {
    tests.made++;
    if (found == wanted) return;
    tests.failed++;
    printf("%s:%d: %s is %" PRIu64 ", wanted %" PRIu64 "\n", file, line, what, found, wanted);
}

static inline void compare_status(const char *file, int line, const char *call, edfvd_status found, edfvd_status wanted) {
    tests.made++;
    if (found == wanted) return;
    tests.failed++;
    printf("%s:%d: %s returns %d (%s), wanted %d (%s)\n", file, line, call, (int)found, edfvd_word(found), (int)wanted,
           edfvd_word(wanted));
}

static inline void compare_bytes(const char *file, int line, const char *what, const void *found, size_t size, int byte) {
    const unsigned char *bytes = found;
    size_t equal = 0;
    tests.made++;
    while (equal < size && bytes[equal] == byte) equal++;
    if (equal == size) return;
    tests.failed++;
    printf("%s:%d: byte %zu of %s is %d, wanted %d\n", file, line, equal, what, bytes[equal], byte);
}

/* The call returns this status. */
#define RETURNS(wanted, call) compare_status(__FILE__, __LINE__, #call, (call), (wanted))

/* The number is this one. */
#define IS(wanted, number) compare(__FILE__, __LINE__, #number, (uint64_t)(number), (uint64_t)(wanted))

/* Fills an object, and says that it still is as it was filled, or that it holds zeros. */
#define PAINTED(object) memset(&(object), PAINT, sizeof(object))
#define IS_PAINTED(object) compare_bytes(__FILE__, __LINE__, #object, &(object), sizeof(object), PAINT)
#define IS_ZEROS(object) compare_bytes(__FILE__, __LINE__, #object, &(object), sizeof(object), 0)

/* Each field holds 0. These structs have bytes between their fields, which nobody writes. */
static inline void look_is_zeros(const edfvd_look *look) {
    IS(0, look->ticks | look->rows);
    IS(0, look->high_mode | look->out_task | look->out_count | look->chosen_task | look->chosen_count);
}

static inline void unfit_is_zeros(const edfvd_unfit *unfit) {
    IS(0, unfit->why);
    IS(0, unfit->place);
}

static inline void verdict_is_zeros(const edfvd_verdict *verdict) {
    IS(0, verdict->why | verdict->task | verdict->count);
    IS(0, verdict->late | verdict->place);
}

/* What main returns: 0 if no comparison failed, and some were made. */
static inline int ends(const char *name) {
    printf("%s: %lu comparisons, %lu failed\n", name, tests.made, tests.failed);
    return tests.failed == 0 && tests.made != 0 ? 0 : 1;
}

#endif
