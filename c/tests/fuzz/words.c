/* The commands in process: `check` of random sets, whose reply follows from the definitions, and random words on broken files. */
#include "fuzz.h"

enum { FEW_TASKS = 6, LONGEST = 4096 };

/* What a call stores, at the edges of memory. */
static char *out;
static size_t room, *length;
static uint32_t *exit_status;

static edfvd_status ask(size_t count, const char *const *words, const char *file, size_t bytes, size_t buffer) {
    room = buffer;
    out = at_edge(room, 1);
    length = at_edge(sizeof *length, 2);
    exit_status = at_edge(sizeof *exit_status, 3);
    char *copy = at_edge(bytes, 4);
    memcpy(copy, file, bytes);
    return edfvd_ask(count, words, bytes == 0 ? NULL : copy, bytes, copy, bytes, room == 0 ? NULL : out, room, length,
                     exit_status);
}

/* A task file of the set. */
static size_t write_file(char *file, const edfvd_task *tasks, size_t count) {
    size_t end = 0;
    for (size_t place = 0; place < count; place++) {
        const edfvd_task *task = &tasks[place];
        bool is_high = task->level == EDFVD_HIGH;
        end +=
            (size_t)sprintf(file + end, "[[task]]\nname = \"t%zu\"\nlevel = \"%s\"\nperiod = %" PRIu32 "\nlow = %" PRIu32 "\n",
                            place + 1, is_high ? "high" : "low", task->period, task->low);
        if (is_high) end += (size_t)sprintf(file + end, "high = %" PRIu32 "\n", task->high);
    }
    return end;
}

/* Three loads in lowest terms, with this between them. The sets here are small: no number exceeds 64 bits. */
static size_t write_loads(char *text, const loads *of, const char *gap) {
    const uint64_t numbers[] = {(uint64_t)of->low_low, (uint64_t)of->high_low, (uint64_t)of->high_high};
    static const char *const names[] = {"U_LL", "U_HL", "U_HH"};
    size_t end = 0;
    for (int load = 0; load < 3; load++) {
        uint64_t divisor = greatest_common_divisor(numbers[load], of->lcm);
        end += (size_t)sprintf(text + end, "%s %" PRIu64 "/%" PRIu64 "%s", names[load], numbers[load] / divisor,
                               of->lcm / divisor, load < 2 ? gap : "");
    }
    return end;
}

/* What `check` writes of the set; its exit status. */
static uint32_t write_reply(char *text, const edfvd_task *tasks, size_t count, size_t *bytes) {
    uint64_t lcm;
    (void)beyond(tasks, count, UINT64_MAX, &lcm);
    loads of = loads_of(tasks, count, lcm);
    rule by = published(&of);
    size_t end = by.number == 0 ? (size_t)sprintf(text, "not admitted: ") : (size_t)sprintf(text, "tasks %zu\n", count);
    end += write_loads(text + end, &of, by.number == 0 ? " " : "\n");
    if (by.number == 0) end += (size_t)sprintf(text + end, "\n");
    if (by.number == 1) end += (size_t)sprintf(text + end, "\nrule plain\n");
    if (by.number == 2) end += (size_t)sprintf(text + end, "\nrule virtual\nx %" PRIu64 "/%" PRIu64 "\n", by.p, by.q);
    *bytes = end;
    return by.number == 0 ? 1 : 0;
}

static void try_check(void) {
    static const char *const words[] = {"check", "1"};
    edfvd_task tasks[FEW_TASKS];
    char file[LONGEST], reply[LONGEST];
    size_t count = likely_set(tasks, FEW_TASKS), bytes, file_bytes = write_file(file, tasks, count);
    uint32_t exits = write_reply(reply, tasks, count, &bytes);
    RETURNS(EDFVD_OK, ask(2, words, file, file_bytes, bytes));
    IS(bytes, *length);
    IS(exits, *exit_status);
    IS(0, memcmp(reply, out, bytes));
    size_t shorter = below(bytes);
    RETURNS(EDFVD_SHORT_BUFFER, ask(2, words, file, file_bytes, shorter));
    IS(bytes, *length);
    IS(0, *exit_status);
    IS(true, is_painted(out, shorter));
}

/* Whether the bytes are UTF-8, by the table of the Unicode standard (table 3-7). */
static bool is_text(const unsigned char *at) {
    while (*at != 0) {
        unsigned char first = *at++;
        unsigned char least = first == 0xe0   ? 0xa0
                              : first == 0xf0 ? 0x90
                                              : 0x80,
                      most = first == 0xed   ? 0x9f
                             : first == 0xf4 ? 0x8f
                                             : 0xbf;
        int more = first < 0x80 ? 0 : first < 0xc2 ? -1 : first < 0xe0 ? 1 : first < 0xf0 ? 2 : first < 0xf5 ? 3 : -1;
        if (more < 0) return false;
        for (; more > 0; more--, least = 0x80, most = 0xbf)
            if (*at < least || *at++ > most) return false;
    }
    return true;
}

/* A file that is nearly one of a task set: some bytes of it are others. */
static size_t broken_file(char *file) {
    edfvd_task tasks[FEW_TASKS];
    size_t bytes = write_file(file, tasks, likely_set(tasks, FEW_TASKS));
    for (uint64_t times = below(4); times > 0; times--) file[below(bytes)] = (char)(one_in(2) ? below(256) : ' ' + below(95));
    return one_in(8) ? below(bytes) : bytes;
}

static void try_any_words(void) {
    static const char *const known[] = {"check",
                                        "stretch",
                                        "run",
                                        "judge",
                                        "chart",
                                        "report",
                                        "migrate",
                                        "demand",
                                        "partition",
                                        "soak",
                                        "live",
                                        "runall",
                                        "1",
                                        "2",
                                        "3",
                                        "20",
                                        "0",
                                        "-1",
                                        "",
                                        "\xc3\xa9",
                                        "--help",
                                        "x",
                                        "18446744073709551616"};
    char file[LONGEST], random[8][24];
    const char *words[8];
    size_t count = below(8), bytes = broken_file(file);
    bool are_text = true;
    for (size_t place = 0; place < count; place++) {
        words[place] = known[below(place == 0 ? 12 : sizeof known / sizeof *known)];
        if (!one_in(20)) continue;
        size_t size = below(sizeof *random);
        for (size_t byte = 0; byte < size; byte++) random[place][byte] = (char)(1 + below(255));
        random[place][size] = 0;
        words[place] = random[place];
        are_text = are_text && is_text((const unsigned char *)random[place]);
    }
    edfvd_status status = ask(count, words, file, bytes, LONGEST);
    bool may_thread = count > 0 && (!strcmp(words[0], "soak") || !strcmp(words[0], "live") || !strcmp(words[0], "runall"));
    if (count <= 5 && !are_text)
        IS(EDFVD_ARGUMENT, status);
    else
        IS(true, status == EDFVD_OK || status == EDFVD_SHORT_BUFFER || (status == EDFVD_THREADS && may_thread));
    IS(true, status == EDFVD_OK ? *length <= room && is_painted(out + *length, room - *length) : is_painted(out, room));
    IS(true, status == EDFVD_OK ? *exit_status <= 12 : *exit_status == 0);
    if (status != EDFVD_OK && status != EDFVD_SHORT_BUFFER) IS(0, *length);
}

void try_words(void) {
    if (one_in(2))
        try_check();
    else
        try_any_words();
}
