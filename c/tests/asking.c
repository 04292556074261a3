/* The commands in process: what edfvd_ask stores with each status, the words that it takes, and null pointers. */
#include "tests.h"

tally tests;

/* The control set in a file: 2 tasks, U_LL = 5/10, U_HL = 2/10, U_HH = 6/10, and x = 2/10 / (1 - 5/10). */
static const char file[] =
    "task = [{name='ctl', level='high', period=10, low=2, high=6}, {name='log', level='low', period=10, low=5}]";
static const char reply[] = "tasks 2\nU_LL 1/2\nU_HL 1/5\nU_HH 3/5\nrule virtual\nx 2/5\n";

enum { LONG = sizeof reply - 1, BUFFER = 1024 };

/* What a call stores: painted before each. */
static struct stores {
    char out[BUFFER];
    size_t length;
    uint32_t exit_status;
} to;

static edfvd_status ask(size_t count, const char *const *words, size_t room) {
    PAINTED(to);
    return edfvd_ask(count, words, file, strlen(file), NULL, 0, room == 0 ? NULL : to.out, room, &to.length, &to.exit_status);
}

/* The call is refused with this status, and stores 0 as the exit status and this length. */
static void refused(edfvd_status wanted, size_t count, const char *const *words, size_t room, size_t length) {
    RETURNS(wanted, ask(count, words, room));
    IS(length, to.length);
    IS(0, to.exit_status);
    IS_PAINTED(to.out);
}

/* Each size of the buffer: too small, exactly large enough, and larger. */
static void buffers(void) {
    static const char *const check[] = {"check", "1"};
    for (size_t room = 0; room < LONG; room++) refused(EDFVD_SHORT_BUFFER, 2, check, room, LONG);
    for (size_t room = LONG; room < LONG + 3; room++) {
        RETURNS(EDFVD_OK, ask(2, check, room));
        IS(LONG, to.length);
        IS(0, to.exit_status);
        IS(0, memcmp(to.out, reply, LONG));
        compare_bytes(__FILE__, __LINE__, "the rest of the buffer", to.out + LONG, BUFFER - LONG, PAINT);
    }
}

/* A capacity of more than 32 bits: the call writes the text alone, so the buffer need not be that long. */
static void longest_buffer(void) {
    static const char *const check[] = {"check", "1"};
    PAINTED(to);
    RETURNS(EDFVD_OK, edfvd_ask(2, check, file, strlen(file), NULL, 0, to.out, (SIZE_MAX >> 32) + 2, &to.length, &to.exit_status));
    IS(LONG, to.length);
    IS(0, memcmp(to.out, reply, LONG));
    compare_bytes(__FILE__, __LINE__, "the rest of the buffer", to.out + LONG, BUFFER - LONG, PAINT);
}

/* The status that the program would exit with, which is no status of the call; and an empty file for every other name. */
static void exit_statuses(void) {
    RETURNS(EDFVD_OK, ask(2, (const char *const[]){"check", "2"}, BUFFER));
    IS(3, to.exit_status);
    RETURNS(EDFVD_OK, ask(2, (const char *const[]){"check", "absent"}, BUFFER));
    IS(3, to.exit_status);
    RETURNS(EDFVD_OK, ask(3, (const char *const[]){"partition", "1", "0"}, BUFFER));
    IS(2, to.exit_status);
    /* A high task of 10 ticks in 10 and a low one of 1: U_LL + U_HH is above 1, and x U_LL + U_HH too, whatever x above 0. */
    static const char above[] =
        "task = [{name='a', level='high', period=10, low=1, high=10}, {name='b', level='low', period=10, low=1}]";
    PAINTED(to);
    RETURNS(EDFVD_OK, edfvd_ask(2, (const char *const[]){"check", "2"}, NULL, 0, above, strlen(above), to.out, BUFFER,
                                &to.length, &to.exit_status));
    IS(1, to.exit_status);
    static const char text[] = "not admitted: U_LL 1/10 U_HL 1/10 U_HH 1/1\n";
    IS(strlen(text), to.length);
    IS(0, memcmp(to.out, text, strlen(text)));
}

/* No words, an unknown one and more than five are no command: exit status 2. Of more than five none is read after the fifth. */
static void numbers_of_words(void) {
    static const char *const many[] = {"a", "b", "c", "d", "e", NULL, NULL};
    RETURNS(EDFVD_OK, ask(0, NULL, BUFFER));
    IS(2, to.exit_status);
    RETURNS(EDFVD_OK, ask(0, many, BUFFER));
    IS(2, to.exit_status);
    for (size_t count = 1; count < 8; count++) {
        RETURNS(EDFVD_OK, ask(count, many, BUFFER));
        IS(2, to.exit_status);
        IS(0, memcmp(to.out, "usage: ", 7));
    }
    /* The first five of these are a command. */
    static const char *const judge[] = {"judge", "1", "2", "1", "1", "1"};
    RETURNS(EDFVD_OK, ask(6, judge, BUFFER));
    IS(2, to.exit_status);
    RETURNS(EDFVD_OK, ask(SIZE_MAX, many, BUFFER));
    IS(2, to.exit_status);
    /* 2^32 + 2 words are not the two of check. */
    static const char *const check[] = {"check", "1", "c", "d", "e"};
    RETURNS(EDFVD_OK, ask((SIZE_MAX >> 32) + 3, check, BUFFER));
    IS(2, to.exit_status);
}

/* Words that are not UTF-8: a byte that never comes, a sequence cut short, an overlong one, a surrogate, and above 10FFFF. */
static void words_that_are_no_text(void) {
    static const char *const bad[] = {"\xff", "\xc3\x28", "a\xc3", "\xc0\x80", "\xed\xa0\x80", "\xf4\x90\x80\x80"};
    for (size_t place = 0; place < sizeof bad / sizeof *bad; place++) {
        refused(EDFVD_ARGUMENT, 2, (const char *const[]){"check", bad[place]}, BUFFER, 0);
        refused(EDFVD_ARGUMENT, 5, (const char *const[]){"judge", "1", "2", "1", bad[place]}, BUFFER, 0);
        /* No command, a command that would start threads, and a buffer without a byte. */
        refused(EDFVD_ARGUMENT, 1, (const char *const[]){bad[place]}, BUFFER, 0);
        refused(EDFVD_ARGUMENT, 3, (const char *const[]){"live", bad[place], "10"}, BUFFER, 0);
        refused(EDFVD_ARGUMENT, 2, (const char *const[]){"check", bad[place]}, 0, 0);
        /* Of more than five words none is read. */
        RETURNS(EDFVD_OK, ask(6, (const char *const[]){bad[place], "b", "c", "d", "e", "f"}, BUFFER));
        IS(2, to.exit_status);
    }
    RETURNS(EDFVD_OK, ask(2, (const char *const[]){"check", "\xc3\xa9\xf4\x8f\xbf\xbf"}, BUFFER));
    IS(3, to.exit_status);
}

/* The commands that start threads, whatever the buffer and the files: no buffer, one that is too short, and no task file. */
static void commands_with_threads(void) {
    static const char *const soak[] = {"soak", "1", "8", "100"}, *const live[] = {"live", "1", "10"};
    static const char *const runall[] = {"runall", "1", "2", "5", "2"}, *const absent[] = {"live", "absent", "10"};
    static const size_t rooms[] = {0, 1, BUFFER};
    for (size_t place = 0; place < sizeof rooms / sizeof *rooms; place++) {
        refused(EDFVD_THREADS, 4, soak, rooms[place], 0);
        refused(EDFVD_THREADS, 3, live, rooms[place], 0);
        refused(EDFVD_THREADS, 3, absent, rooms[place], 0);
        refused(EDFVD_THREADS, 5, runall, rooms[place], 0);
    }
    /* With a number out of its range, or a word more, they are no commands. */
    RETURNS(EDFVD_OK, ask(4, (const char *const[]){"soak", "1", "8", "0"}, BUFFER));
    IS(2, to.exit_status);
    RETURNS(EDFVD_OK, ask(3, (const char *const[]){"live", "1", "100001"}, BUFFER));
    IS(2, to.exit_status);
    RETURNS(EDFVD_OK, ask(5, (const char *const[]){"runall", "1", "2", "5", "17"}, BUFFER));
    IS(2, to.exit_status);
    RETURNS(EDFVD_OK, ask(5, (const char *const[]){"soak", "1", "8", "100", "1"}, BUFFER));
    IS(2, to.exit_status);
}

/* Each pointer that is null with a length above 0, or that may never be null: nothing is stored. */
static void nulls(void) {
    static const char *const check[] = {"check", "1"};
    size_t *length = &to.length;
    uint32_t *ended = &to.exit_status;
    size_t size = strlen(file);
    PAINTED(to);
    RETURNS(EDFVD_NULL, edfvd_ask(2, NULL, file, size, file, size, to.out, BUFFER, length, ended));
    RETURNS(EDFVD_NULL, edfvd_ask(2, check, NULL, size, file, size, to.out, BUFFER, length, ended));
    RETURNS(EDFVD_NULL, edfvd_ask(2, check, file, size, NULL, size, to.out, BUFFER, length, ended));
    RETURNS(EDFVD_NULL, edfvd_ask(2, check, file, size, file, size, NULL, BUFFER, length, ended));
    RETURNS(EDFVD_NULL, edfvd_ask(2, check, file, size, file, size, to.out, BUFFER, NULL, ended));
    RETURNS(EDFVD_NULL, edfvd_ask(2, check, file, size, file, size, to.out, BUFFER, length, NULL));
    for (size_t place = 0; place < 5; place++) {
        const char *words[5] = {"check", "1", "c", "d", "e"};
        words[place] = NULL;
        RETURNS(EDFVD_NULL, edfvd_ask(5, words, file, size, NULL, 0, to.out, BUFFER, length, ended));
    }
    IS_PAINTED(to);
    RETURNS(EDFVD_SHORT_BUFFER, edfvd_ask(0, NULL, NULL, 0, NULL, 0, NULL, 0, length, ended));
}

int main(void) {
    buffers();
    longest_buffer();
    exit_statuses();
    numbers_of_words();
    words_that_are_no_text();
    commands_with_threads();
    nulls();
    return ends("asking");
}
