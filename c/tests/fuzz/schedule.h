/*
 * A schedule by the rules that docs/RULES.md states: which row fits after the rows before it, which job comes first, which are
 * late, and what the events of a scheduler return. Nothing here is of the library.
 */
#ifndef FUZZ_SCHEDULE_H
#define FUZZ_SCHEDULE_H

#include "definitions.h"

enum { FEW_TASKS = 6, MOST_JOBS = 600, MOST_PLACES = 700 };

/* A job that was released and kept, and is pending. */
typedef struct job {
    uint32_t task, count, used;
    uint64_t release, order;
} job;

/* What the rows so far come to. */
typedef struct schedule {
    edfvd_task tasks[FEW_TASKS];
    size_t count;
    rule rule;
    uint64_t rows, ticks;
    bool high_mode;
    job pending[MOST_JOBS]; /* in the order of their releases */
    size_t jobs;
    uint32_t releases[FEW_TASKS];
    uint64_t next[FEW_TASKS]; /* the first tick at which the task may release again */
    uint64_t late;
    job first_late;
    uint32_t why; /* which rule the first row that does not fit breaks, and its number */
    uint64_t place;
} schedule;

schedule new_schedule(const edfvd_task *tasks, size_t count, rule by);

uint64_t deadline_of(const schedule *s, const job *of);

/* The pending job that comes first, or none. */
const job *chosen(const schedule *s);

/* Which rule the row breaks after the rows so far; EDFVD_FITS if it breaks none. */
uint32_t broken_by(const schedule *s, edfvd_row row);

/* Adds the row. After a row that does not fit none is added. */
void add_row(schedule *s, edfvd_row row);

/* A scheduler, as its definition has it. */
typedef struct driven {
    schedule so_far;
    edfvd_row rows[MOST_PLACES];
    uint64_t places;
    job out; /* the job with the tick in progress; task 0 if there is none */
    uint32_t held[FEW_TASKS];
    size_t holds;
} driven;

edfvd_status release(driven *s, uint32_t task, edfvd_answer *answer);
edfvd_status grant(driven *s, uint32_t task, edfvd_answer *answer);
edfvd_status outcome(driven *s, uint32_t task, uint32_t count, bool done, edfvd_answer *answer);
edfvd_status idle(driven *s, edfvd_answer *answer);

#endif
