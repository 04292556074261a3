/*
 * What edfvd.h says of the memory of edfvd_scheduler_open: some bytes a place, all taken when it opens, and none by an event. With 10^9 places
 * a system may promise memory that it does not have, and then the header has to say so; with less address space than they need it is
 * EDFVD_MEMORY. Memory is read from /proc. stated.h has what stated.sh writes.
 */
#define _POSIX_C_SOURCE 200809L
#include "stated.h"
#include "tests.h"
#include <sys/resource.h>
#include <unistd.h>

tally tests;

enum { FEW = 1000000, MANY = 1000000000, MIB = 1 << 20 };

static const edfvd_task control[] = {{EDFVD_HIGH, 10, 2, 6}, {EDFVD_LOW, 10, 5, 5}};

/* Bytes of address space, and bytes for which there is memory. */
typedef struct memory {
    uint64_t promised, there;
} memory;

static memory taken(void) {
    memory now = {0, 0};
    FILE *file = fopen("/proc/self/statm", "r");
    IS(1, file != NULL && fscanf(file, "%" SCNu64 " %" SCNu64, &now.promised, &now.there) == 2);
    if (file != NULL) fclose(file);
    now.promised *= (uint64_t)sysconf(_SC_PAGESIZE);
    now.there *= (uint64_t)sysconf(_SC_PAGESIZE);
    return now;
}

/* The address space is that of the places, up to a twentieth and what malloc adds. */
static void is_of_places(uint64_t bytes, uint64_t places) {
    IS(1, bytes > STATED_PLACE_BYTES * places / 20 * 19);
    IS(1, bytes < STATED_PLACE_BYTES * places / 20 * 21 + MIB);
}

/* No more address space than this from now on; 0 is no limit. */
static void limited(uint64_t bytes) {
    struct rlimit limit;
    IS(0, getrlimit(RLIMIT_AS, &limit));
    limit.rlim_cur = bytes == 0 ? limit.rlim_max : (rlim_t)bytes;
    IS(0, setrlimit(RLIMIT_AS, &limit));
}

/* A million places, each of which an idle tick uses, with no more address space than after the opening. */
static void events_take_none(void) {
    edfvd_scheduler s = EDFVD_NONE;
    uint32_t task;
    PAINTED(task);
    memory before = taken();
    RETURNS(EDFVD_OK, edfvd_scheduler_open(&s, control, 2, FEW, &task));
    IS(0, task);
    memory after = taken();
    is_of_places(after.promised - before.promised, FEW);
    limited(after.promised);
    unsigned refused = 0;
    for (int place = 0; place < FEW; place++) refused += edfvd_scheduler_idle(&s, NULL) != EDFVD_OK;
    IS(0, refused);
    RETURNS(EDFVD_FULL, edfvd_scheduler_idle(&s, NULL));
    limited(0);
    RETURNS(EDFVD_OK, edfvd_scheduler_close(&s));
}

/* As many places as no address space of a GiB has. */
static void refused(void) {
    edfvd_scheduler s = EDFVD_NONE;
    uint32_t task;
    PAINTED(task);
    limited(taken().promised + 1024 * (uint64_t)MIB);
    RETURNS(EDFVD_MEMORY, edfvd_scheduler_open(&s, control, 2, MANY, &task));
    IS(0, task);
    RETURNS(EDFVD_CLOSED, edfvd_scheduler_close(&s));
    limited(0);
}

/* The system may say no. If it says yes, the header says whose word that is, as long as the memory is not there. */
static void promised(void) {
    edfvd_scheduler s = EDFVD_NONE;
    memory before = taken();
    edfvd_status status = edfvd_scheduler_open(&s, control, 2, MANY, NULL);
    if (status == EDFVD_MEMORY) {
        puts("places: this system does not promise the memory of 10^9 places");
        return;
    }
    RETURNS(EDFVD_OK, status);
    memory after = taken();
    is_of_places(after.promised - before.promised, MANY);
    if (after.there - before.there < STATED_PLACE_BYTES * (uint64_t)MANY / 2) IS(1, STATED_PROMISED);
    RETURNS(EDFVD_OK, edfvd_scheduler_close(&s));
    IS(1, taken().promised < before.promised + MIB);
}

int main(void) {
    taken(); /* what stdio takes once */
    events_take_none();
    refused();
    promised();
    return ends("places");
}
