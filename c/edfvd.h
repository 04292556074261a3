/*
 * EDF-VD for C: task sets tested, traces judged, a scheduler that is driven event by event, and a monitor that judges a
 * schedule while it happens, for C11 and C++17.
 *
 * Time is counted in ticks; a period, a budget and a release are numbers of ticks. A task set is an array of edfvd_task, and
 * the n-th task of the array is task number n, from 1. A job is a task's number with a count: its task's count-th release,
 * from 1.
 *
 * Each call returns a status. EDFVD_OK means that it did what its comment says. With any other status no scheduler and no
 * monitor has changed, except by edfvd_monitor_observe_all; what is stored through the other pointers is stated at the call.
 * Each call lists the other statuses that it may return. These are not listed, because many calls share them, and no sentence
 * on other statuses is about the first three:
 *
 *     EDFVD_NULL                 a pointer is null, and the call does not say that it may be; nothing is stored
 *     EDFVD_MOVED, EDFVD_BUSY    any call with a scheduler or monitor; nothing is stored
 *     EDFVD_CLOSED               any call with a scheduler or monitor, except the one that opens it
 *
 * What you keep. Each pointer leads to as many elements as you say, and is aligned as C aligns their type. Memory that a call
 * writes does not overlap anything else that you pass to it. No call is made from a signal handler, nor in the forked child of
 * a process with threads. A call keeps none of your pointers, except that an open edfvd_scheduler or edfvd_monitor stays where
 * it is. Several threads may be in calls at once: in calls without a scheduler or monitor, and in calls with different ones.
 *
 * Each call stands on a function of the proved libraries in crates/edfvd_c and crates/edfvd_ask_c. edfvd.c and edfvd_ask.c,
 * which are not proved, stand between: they refuse null pointers, a scheduler or monitor that was copied or moved while it was
 * open, and one that another thread is in. docs/C-AND-PYTHON.md says what is proved and what must be trusted.
 */
#ifndef EDFVD_H
#define EDFVD_H

#include <stdbool.h>
#include <stddef.h>
#include <stdint.h>

#ifdef __cplusplus
extern "C" {
#endif

#define EDFVD_VERSION 3

/* The EDFVD_VERSION of the header that the library was built with, for callers that load the library when they run. */
uint32_t edfvd_version(void);

/* What a call returns. "The task" and "the job" are stored where the call says. */
typedef enum edfvd_status {
    EDFVD_OK = 0,
    EDFVD_EMPTY = 1,           /* the set has no task */
    EDFVD_TOO_MANY = 2,        /* the set has more than 128 tasks */
    EDFVD_ZERO_NUMBER = 3,     /* a period, deadline or budget of the task is 0 */
    EDFVD_BUDGET_ORDER = 4,    /* the task's low budget is above its high one, or it is a low task with two budgets */
    EDFVD_SAME_NAME = 5,       /* never returned: tasks have numbers here, and no names */
    EDFVD_LEVEL = 6,           /* the task's level is neither EDFVD_LOW nor EDFVD_HIGH */
    EDFVD_PERIODS = 7,         /* the hyperperiod of the tasks up to this one exceeds 2^60 ticks, or 500,000 for edfvd_demand */
    EDFVD_NOT_ADMITTED = 8,    /* the published test gives the set no rule; with a scale of your own: it does not hold */
    EDFVD_MEMORY = 9,          /* malloc failed */
    EDFVD_NO_TASK = 10,        /* the set has no task of this number */
    EDFVD_DEADLINE_ORDER = 11, /* the task's deadline is above its period */
    EDFVD_CLOSED = 12,         /* the scheduler or monitor is closed */
    EDFVD_OPEN = 13,           /* the scheduler or monitor is open already */
    EDFVD_RUNNING = 20,        /* a tick of the task's job is in progress: its outcome comes first */
    EDFVD_TOO_SOON = 21,       /* answer.at is the first tick at which the task may release again */
    EDFVD_FULL = 22,           /* no place is left for another row, or no number for another job of the task */
    EDFVD_TICK_OUT = 23,       /* a tick of the job is in progress: its outcome comes first */
    EDFVD_NOT_CHOSEN = 24,     /* another job is the chosen one; task 0 if none is pending */
    EDFVD_NOT_OUT = 25,        /* no tick of this job is in progress; the job is the one with a tick, or task 0 */
    EDFVD_PENDING = 26,        /* the job is pending, so the tick is not idle, and the counts do not start anew */
    EDFVD_NO_ROW = 27,         /* the scheduler has no row of this number yet */
    EDFVD_NO_PERCENTAGE = 28,  /* the published test admits the set at no percentage */
    EDFVD_NO_PROCESSOR = 29,   /* the task fits on none of the processors */
    EDFVD_GONE = 30,           /* the row is older than those that a scheduler without an end keeps */
    EDFVD_PAST = 31,           /* the run passes the tick at which its job ends or overruns; answer.at is the ticks up to it */
    EDFVD_NULL = 40,           /* a pointer is null */
    EDFVD_MOVED = 41,          /* the scheduler or monitor was copied or moved after it was opened */
    EDFVD_BUSY = 42,           /* another thread is in a call with this scheduler or monitor */
    EDFVD_ARGUMENT = 43,       /* a number is outside the range that the call states, or a word of edfvd_ask is not UTF-8 */
    EDFVD_SHORT_BUFFER = 44,   /* the buffer or array is too short; the length that it needs is stored */
    EDFVD_THREADS = 45         /* the command starts threads, which a library does not: soak, live, runall */
} edfvd_status;

/* A few words for a status, such as "too soon"; those of another number say that it is unknown. The text is never null, stays
   valid, and is not yours to free. */
const char *edfvd_word(edfvd_status status);

/*
 * ---- Task sets ----
 *
 * `tasks` has `count` elements, which a call reads and does not keep; it may be null if `count` is 0. An array that is no set
 * is refused with EDFVD_EMPTY, _TOO_MANY, _ZERO_NUMBER, _BUDGET_ORDER or _LEVEL: these five are meant where a call says "the
 * refusals of a set". The task that one of them is about is stored, or 0. If several apply, the first of these is returned:
 * EDFVD_TOO_MANY; EDFVD_LEVEL, whichever task has it; EDFVD_EMPTY; that of the first task at fault.
 *
 * Memory may run out before a call finds another cause. So a call that lists EDFVD_MEMORY may return it in place of a refusal.
 */

#define EDFVD_LOW 0u
#define EDFVD_HIGH 1u

typedef struct edfvd_task {
    uint32_t level;  /* EDFVD_LOW or EDFVD_HIGH */
    uint32_t period; /* ticks from a release to its deadline, and at least to the next release */
    uint32_t low;    /* ticks: the budget in low mode */
    uint32_t high;   /* ticks: the budget in high mode; a low task has its one budget here again */
} edfvd_task;

/* The order of jobs: by their deadlines, or by virtual deadlines while the mode is low. */
typedef enum edfvd_rule {
    EDFVD_RULE_NONE = 0,   /* the set is not admitted */
    EDFVD_RULE_PLAIN = 1,  /* plain EDF */
    EDFVD_RULE_VIRTUAL = 2 /* EDF-VD with a scale */
} edfvd_rule;

/* What the published test says of a set. Loads are fractions over lcm, and each numerator is top * 2^64 + rest. */
typedef struct edfvd_test {
    uint32_t rule;                          /* an edfvd_rule */
    uint32_t task;                          /* the task that a refusal is about, or 0 */
    uint64_t p, q;                          /* the scale p/q in lowest terms, under EDFVD_RULE_VIRTUAL; otherwise 0 */
    uint64_t lcm;                           /* the hyperperiod: the least common multiple of the periods, in ticks */
    uint64_t low_low_top, low_low;          /* U_LL: the low tasks with their low budgets */
    uint64_t high_low_top, high_low;        /* U_HL: the high tasks with their low budgets */
    uint64_t high_high_top, high_high;      /* U_HH: the high tasks with their high budgets */
} edfvd_test;

/*
 * Tests a set by the published test (Baruah et al., ECRTS 2012). A set that is not admitted is EDFVD_OK with EDFVD_RULE_NONE.
 * With any other status `test` holds zeros and the task.
 *
 * Statuses: the refusals of a set, EDFVD_PERIODS, EDFVD_MEMORY.
 */
edfvd_status edfvd_check(const edfvd_task *tasks, size_t count, edfvd_test *test);

/*
 * Tests many sets, which are parts of one array of `count` tasks: set number i, from 0, has the tasks from offsets[i] up to
 * offsets[i + 1], so `offsets` has `sets` + 1 elements. Of each set statuses[i] gets what edfvd_check returns for these tasks, and
 * tests[i] what it stores; a task that a refusal is about is a number in the set. A refused set does not hinder the others.
 * `tests` and `statuses` have `sets` elements, and may be null if that is 0.
 *
 * Status: EDFVD_ARGUMENT if an offset is above the next one, or the last one above `count`; then nothing is stored.
 */
edfvd_status edfvd_check_many(const edfvd_task *tasks, size_t count, const uint64_t *offsets, size_t sets, edfvd_test *tests,
                              uint32_t *statuses);

/*
 * Stores the greatest percentage, up to 1000, at which the test admits the set if the high budgets of the high tasks are taken
 * at that percentage, rounded down to whole ticks but at least their low budgets, and at most 4294967295. EDFVD_OK with 0 percent
 * means that the test admits the set if each high budget is the low one, and at 1 percent no longer. With any other status
 * `percent` gets 0, too. `task` gets the task of a refusal, or 0, and may be null.
 *
 * Statuses: EDFVD_NO_PERCENTAGE if there is no such percentage, the refusals of a set, EDFVD_PERIODS, EDFVD_MEMORY.
 */
edfvd_status edfvd_stretch(const edfvd_task *tasks, size_t count, uint32_t *percent, uint32_t *task);

/*
 * Puts the tasks on processors 1 to `processors`, which is 1 to 16, by first fit with the published test, and stores the
 * processor of each task in order: `on` has `count` elements, and is written only with EDFVD_OK. `task` gets the task of a
 * refusal, or 0, and may be null.
 *
 * A task does not fit where the least common multiple of the periods would exceed 2^60, either.
 *
 * Statuses: EDFVD_ARGUMENT for another number of processors, before any other; EDFVD_NO_PROCESSOR if a task fits nowhere, with
 * the first such task; the refusals of a set, EDFVD_MEMORY.
 */
edfvd_status edfvd_partition(const edfvd_task *tasks, size_t count, uint32_t processors, uint32_t *on, uint32_t *task);

/*
 * Of `sets` random sets of `tasks` tasks, those generated from `number`, number + 1 and so on, counts how many have a stretch
 * of at least 100 percent (counts[0]), 110 percent (counts[1]) and so on to 200 percent (counts[10]). `sets` is 1 to 10000,
 * `tasks` 2 to 32, and number + sets is below 2^64. `counts` is written only with EDFVD_OK.
 *
 * Status: EDFVD_ARGUMENT.
 */
edfvd_status edfvd_accept(uint64_t number, uint32_t sets, uint32_t tasks, uint32_t counts[11]);

/*
 * ---- What may change in a set ----
 *
 * How far a set is from what the published test admits: by one budget, by the scale, or by the speed of the processor. A set
 * that is not admitted is EDFVD_OK for the budgets and the speed, which then say what would do.
 */

/* The greatest budgets of a task with which the test admits the set, if one of them changes and all else stays. */
typedef struct edfvd_budgets {
    uint32_t low;  /* ticks: the greatest low budget, which a low task has in both modes; 0 if the set is admitted with none */
    uint32_t high; /* ticks: a high task's greatest high budget; 0 if the set is admitted with none, and for a low task */
} edfvd_budgets;

/* The scales with which EDF-VD holds: p/q does exactly if it is from the least to the greatest. Both are in lowest terms. */
typedef struct edfvd_scale_range {
    uint64_t least_p, least_q;       /* 0/1, which is no scale itself, if no task is high; then each scale p/q holds */
    uint64_t greatest_p, greatest_q; /* at most 1/1, and a scale that holds */
} edfvd_scale_range;

/*
 * Stores the greatest budgets of each task in order: `budgets` has `count` elements, is written only with EDFVD_OK, and may be null
 * if `count` is 0. The test admits the set with the stored budget, and with each lower one that the task may have, and refuses it
 * with each greater one. A low budget is at least 1, and that of a high task at most its high budget; a high budget is at least
 * the task's low budget.
 * `task` gets the task of a refusal, or 0, and may be null.
 *
 * Statuses: the refusals of a set, EDFVD_PERIODS, EDFVD_MEMORY.
 */
edfvd_status edfvd_sensitivity(const edfvd_task *tasks, size_t count, edfvd_budgets *budgets, uint32_t *task);

/*
 * Stores the least and the greatest scale with which EDF-VD holds for the set, even if plain EDF does too. If the published test
 * gives a scale, it is the least one. With any other status than EDFVD_OK `scales` holds zeros. `task` gets the task of a
 * refusal, or 0, and may be null.
 *
 * Statuses: EDFVD_NOT_ADMITTED if no scale holds, which is so exactly if the test gives the set no rule; the refusals of a set,
 * EDFVD_PERIODS, EDFVD_MEMORY.
 */
edfvd_status edfvd_scales(const edfvd_task *tasks, size_t count, edfvd_scale_range *scales, uint32_t *task);

/*
 * Stores the least speed of the processor, in millionths of the speed for which the budgets are given, at which the test admits
 * the set: at a millionth less it does not. At speed s a job takes its ticks divided by s, and so each load is divided by s; no
 * budget is rounded. If U_LL + U_HL and U_HH are at most 1, the speed is at most 1333334 (4/3, rounded up). With any other status
 * than EDFVD_OK `millionths` gets 0. `task` gets the task of a refusal, or 0, and may be null.
 *
 * Statuses: the refusals of a set, EDFVD_PERIODS, EDFVD_MEMORY.
 */
edfvd_status edfvd_speed(const edfvd_task *tasks, size_t count, uint64_t *millionths, uint32_t *task);

/*
 * ---- Deadlines below periods ----
 *
 * Tasks of one level under plain EDF, whose deadlines may be shorter than their periods: an array of 1 to 128 elements, of which
 * the n-th is task number n. It may be null if `count` is 0.
 */

typedef struct edfvd_demand_task {
    uint32_t period;   /* ticks from a release at least to the next */
    uint32_t deadline; /* ticks from a release to its deadline: at most the period */
    uint32_t budget;   /* ticks that a job takes at most */
} edfvd_demand_task;

/* What the processor-demand test finds. */
typedef struct edfvd_demand_test {
    uint32_t past;   /* 0 if plain EDF schedules the tasks, and 1 if they ask for more ticks than a length of time has */
    uint32_t task;   /* the task that a refusal is about, or 0 */
    uint64_t length; /* the least such length, in ticks; without one the hyperperiod, up to which each length was tested */
    uint64_t demand; /* the ticks that they ask for in that length; 0 without one */
} edfvd_demand_test;

/*
 * Tests whether plain EDF meets every deadline of the tasks, by the processor-demand test (Baruah, Mok and Rosier, RTSS 1990).
 * Tasks that it does not schedule are EDFVD_OK with `past` 1. With any other status `test` holds zeros and the task. The call
 * takes 8 bytes for each tick of the hyperperiod, and time that grows with it.
 *
 * Statuses: EDFVD_TOO_MANY, with task 0, before any other; EDFVD_EMPTY; then those of the first task at fault, in this order:
 * EDFVD_ZERO_NUMBER, EDFVD_DEADLINE_ORDER, EDFVD_PERIODS; EDFVD_MEMORY.
 */
edfvd_status edfvd_demand(const edfvd_demand_task *tasks, size_t count, edfvd_demand_test *test);

/* ---- A scheduler ---- */

/* What a scheduler and a monitor are made of. You give it zeros before you open it, and neither read nor write it after. */
typedef struct edfvd_handle {
    uint64_t mark;
    void *at;
    const void *self;
    uint32_t busy;
} edfvd_handle;

/*
 * A scheduler, open or closed. Begin with EDFVD_NONE, or all bytes 0, which is a closed one. While it is open it must not be
 * copied, moved or written by you; edfvd_scheduler_close ends that.
 */
typedef struct edfvd_scheduler {
    edfvd_handle handle;
} edfvd_scheduler;

#define EDFVD_NONE {{0, NULL, NULL, 0}}

/* What came of an event, and what a row records. */
typedef enum edfvd_event {
    EDFVD_KEPT = 1,    /* a release: the job is pending */
    EDFVD_DROPPED = 2, /* a release in high mode of a low task: the job never runs */
    EDFVD_HELD = 3,    /* a release while a tick is in progress: it is kept or dropped at that tick's outcome */
    EDFVD_GIVEN = 4,   /* tick `at` is granted to the job, which has had `before` ticks */
    EDFVD_MORE = 5,    /* the job ran for the tick, and has more to do */
    EDFVD_DONE = 6,    /* the job is done */
    EDFVD_STOP = 7,    /* the job has used its own budget, and is stopped */
    EDFVD_OVER = 8,    /* the job passed its low budget: the mode is high from now on, and pending low jobs are discarded */
    EDFVD_IDLE = 9     /* an idle tick: the mode is low from now on */
} edfvd_event;

typedef struct edfvd_answer {
    uint32_t what;   /* an edfvd_event; 0 after a refusal */
    uint32_t task;   /* the job's task, or 0 */
    uint32_t count;  /* which of its task's releases the job is, from 1 */
    uint32_t before; /* EDFVD_GIVEN: how many ticks the job has had */
    uint64_t at;     /* the tick, from 0, of a release, a grant or an idle tick; see also EDFVD_TOO_SOON and EDFVD_PAST */
} edfvd_answer;

/* The chosen job, and how many ticks it may run in one go. */
typedef struct edfvd_next {
    uint32_t task, count; /* 0 if no job is pending */
    uint32_t ticks;
} edfvd_next;

/* A pending job. The job with the least key is the chosen one, and of equal keys the one of the lowest task number. */
typedef struct edfvd_pending {
    uint32_t task, count;  /* 0 if the task has no pending job; then all is 0 */
    uint32_t used;         /* how many ticks it has had */
    uint64_t release;      /* its release, in ticks */
    uint64_t deadline;     /* the number of ticks before its deadline */
    uint64_t key_top, key; /* its virtual deadline in low mode and its deadline in high mode, in units of 1/q tick (of 1 tick
                              under plain EDF): key_top * 2^64 + key */
} edfvd_pending;

/* The scale p/q of EDF-VD; 0 and 0 under plain EDF. */
typedef struct edfvd_scale {
    uint64_t p, q;
} edfvd_scale;

typedef struct edfvd_look {
    uint64_t ticks;                     /* how many ticks have ended */
    uint64_t rows;                      /* how many rows there have been */
    uint32_t high_mode;                 /* 1 in high mode, otherwise 0 */
    uint32_t out_task, out_count;       /* the job whose tick is in progress; 0 if there is none */
    uint32_t chosen_task, chosen_count; /* the pending job that comes first, which the next grant must name; 0 if there is none */
} edfvd_look;

typedef struct edfvd_row {
    uint32_t event; /* EDFVD_KEPT, EDFVD_DROPPED, or EDFVD_MORE to EDFVD_IDLE */
    uint32_t task;  /* 0 in an idle row */
    uint32_t count; /* 0 in an idle row */
} edfvd_row;

/*
 * Opens a scheduler of the set under the rule that the published test gives it. It keeps all its rows. A place is used by each
 * row, each held release and the tick in progress; after `places` of them each event but an outcome is refused, with EDFVD_FULL
 * if no other status of its list applies. All memory is taken here, some 16 bytes a place, and no other call with it is
 * EDFVD_MEMORY, except edfvd_scheduler_restart. A system may promise memory that it does not have, as Linux does: EDFVD_OK then
 * means that malloc promised all places, and a process that uses more than there is may be ended by the system. `task` gets the
 * task of a refusal, or 0, and may be null.
 *
 * Statuses: EDFVD_OPEN, the refusals of a set, EDFVD_PERIODS, EDFVD_NOT_ADMITTED, EDFVD_MEMORY.
 */
edfvd_status edfvd_scheduler_open(edfvd_scheduler *s, const edfvd_task *tasks, size_t count, uint32_t places, uint32_t *task);

/*
 * Opens a scheduler without an end: as edfvd_scheduler_open, but it keeps the latest 256 runs of equal rows alone, and its
 * memory depends on the number of tasks alone. Each of the four events below makes at most one row more than there are tasks, so
 * at most 129: if you read the rows after each event, from the `rows` of the edfvd_scheduler_look before it on, you get them
 * all. Every other call with it is that of a plain scheduler. Events are EDFVD_FULL after 2^62 rows.
 *
 * Releases are counted: a task's release after 2^32 - 1 of them is EDFVD_FULL, which with 1,000 releases a second takes 49
 * days. Before that, when no job is pending, call edfvd_scheduler_restart: the ticks, the rows and the counts begin anew. To
 * close the scheduler and open it again does this, too, but forgets for each task the first tick at which it may release again.
 *
 * Statuses: those of edfvd_scheduler_open.
 */
edfvd_status edfvd_scheduler_open_endless(edfvd_scheduler *s, const edfvd_task *tasks, size_t count, uint32_t *task);

/*
 * Open a scheduler as edfvd_scheduler_open and edfvd_scheduler_open_endless do, but under a scale of your own, for instance one
 * with which the set was certified: EDF-VD with p/q, 1 <= p <= q <= 2^60, which must hold for the set. If p and q are 0, the
 * rule is that of the published test.
 *
 * Statuses: those of edfvd_scheduler_open, where EDFVD_NOT_ADMITTED means that the scale does not hold, if p and q are one;
 * EDFVD_ARGUMENT for another p and q, whatever the tasks are.
 */
edfvd_status edfvd_scheduler_open_scaled(edfvd_scheduler *s, const edfvd_task *tasks, size_t count, uint64_t p, uint64_t q,
                                         uint32_t places, uint32_t *task);
edfvd_status edfvd_scheduler_open_endless_scaled(edfvd_scheduler *s, const edfvd_task *tasks, size_t count, uint64_t p,
                                                 uint64_t q, uint32_t *task);

/* Closes the scheduler and frees its memory. It may be opened again. No further statuses. */
edfvd_status edfvd_scheduler_close(edfvd_scheduler *s);

/*
 * Starts the ticks, the rows and the counts of a scheduler anew, as after its opening, at any moment when no job is pending. Only
 * each task's earliest next release is kept, counted from the restart, so that two releases of a task are a period apart across
 * a restart, too. The mode is low. The call takes the memory of an opening before it frees the old. `answer`, which may be null,
 * gets the job that a refusal is about, and otherwise zeros.
 *
 * Statuses: EDFVD_TICK_OUT, with the job that has the tick; EDFVD_PENDING, with the chosen job; EDFVD_MEMORY.
 */
edfvd_status edfvd_scheduler_restart(edfvd_scheduler *s, edfvd_answer *answer);

/*
 * Your part of the loop. The scheduler says which job has the next tick, and you run it and report. For each tick:
 *
 *   1. Release each task whose next job arrives. The job of a release that is EDFVD_DROPPED never runs. One that is EDFVD_HELD
 *      is kept or dropped with the outcome of the tick in progress, and its row says which.
 *   2. Look. If no job is chosen, report an idle tick. Otherwise grant the tick to the chosen task, and let its job run for it.
 *   3. Report the outcome of that tick, and do what the answer says:
 *
 *          EDFVD_MORE   nothing: the job may be chosen again
 *          EDFVD_DONE   nothing: the job has ended, and gets no further tick
 *          EDFVD_STOP   stop the job, which is not done: it has used its budget, and gets no further tick
 *          EDFVD_OVER   stop every pending job of a low task: none of them gets a further tick. The job of the tick itself
 *                       goes on, and low tasks release no job that runs until a tick is idle
 *
 * The four events. `answer` gets what came of the event, or after a refusal the numbers that its comment names and otherwise
 * zeros; it may be null. No event is EDFVD_MEMORY.
 */

/*
 * Releases the task's next job, at the tick that begins next: EDFVD_KEPT, EDFVD_DROPPED or EDFVD_HELD. A task has at most
 * 2^32 - 1 releases.
 *
 * Statuses: EDFVD_NO_TASK; EDFVD_RUNNING, with the job; EDFVD_TOO_SOON, with `at`; EDFVD_FULL.
 */
edfvd_status edfvd_scheduler_release(edfvd_scheduler *s, uint32_t task, edfvd_answer *answer);

/*
 * Grants the next tick to the task, whose job must be the chosen one: EDFVD_GIVEN. Its outcome comes next.
 *
 * Statuses: EDFVD_NO_TASK; EDFVD_TICK_OUT, with the job that has the tick; EDFVD_NOT_CHOSEN, with the chosen job; EDFVD_FULL.
 */
edfvd_status edfvd_scheduler_grant(edfvd_scheduler *s, uint32_t task, edfvd_answer *answer);

/*
 * Reports how the tick in progress ended for its job, which is done or not: EDFVD_MORE, _DONE, _STOP or _OVER. `task` and
 * `count` are those of the grant's answer.
 *
 * Status: EDFVD_NOT_OUT, with the job that has the tick.
 */
edfvd_status edfvd_scheduler_outcome(edfvd_scheduler *s, uint32_t task, uint32_t count, bool done, edfvd_answer *answer);

/*
 * Reports that the next tick is idle, which it may be only if no job is pending: EDFVD_IDLE.
 *
 * Statuses: EDFVD_TICK_OUT, with the job that has the tick; EDFVD_PENDING, with the chosen job; EDFVD_FULL.
 */
edfvd_status edfvd_scheduler_idle(edfvd_scheduler *s, edfvd_answer *answer);

/*
 * ---- Several ticks in one call ----
 *
 * A kernel without a periodic tick asks edfvd_scheduler_next which job runs and for how many ticks at most, sets its timer to
 * that or to its next release, whichever is first, and then reports with edfvd_scheduler_run what happened. Both ways to drive
 * a scheduler may be mixed. An event may then make many more rows than 129, but no more than two runs of equal rows, which
 * edfvd_scheduler_rows reads by two calls, or more where a run has more than 4294967295 rows.
 */

/*
 * Stores the chosen job, and how many ticks it may run in one go: unless it is done before, it overruns or is stopped in the
 * last of them. After EDFVD_CLOSED zeros. No further statuses.
 */
edfvd_status edfvd_scheduler_next(edfvd_scheduler *s, edfvd_next *next);

/*
 * Reports that the chosen job ran for `ticks` ticks in one go, and whether it was done in the last of them: it leaves what a
 * grant and an outcome for each of these ticks leave. EDFVD_MORE, _DONE, _STOP or _OVER of the last tick. The time of a call
 * does not grow with `ticks` without an end, and by a row a tick otherwise. Report a run before you release jobs at the tick
 * at which it ended: a release counts at the end of the last reported tick, so an earlier one may make the run EDFVD_NOT_CHOSEN.
 *
 * Statuses, of which the first that applies is returned: EDFVD_ARGUMENT if `ticks` is 0; EDFVD_TICK_OUT, with the job that has
 * a tick by edfvd_scheduler_grant; EDFVD_NOT_CHOSEN, with the chosen job; EDFVD_PAST, with the ticks of edfvd_scheduler_next
 * in `at`; EDFVD_FULL if fewer than `ticks` places are left.
 */
edfvd_status edfvd_scheduler_run(edfvd_scheduler *s, uint32_t task, uint32_t count, uint32_t ticks, bool done,
                                 edfvd_answer *answer);

/*
 * Reports that the next `ticks` ticks are idle: it leaves what as many calls of edfvd_scheduler_idle leave. EDFVD_IDLE, with the
 * first of them in `at`.
 *
 * Statuses: EDFVD_ARGUMENT if `ticks` is 0; those of edfvd_scheduler_idle; EDFVD_FULL if fewer than `ticks` places are left.
 */
edfvd_status edfvd_scheduler_idle_for(edfvd_scheduler *s, uint64_t ticks, edfvd_answer *answer);

/*
 * Stores the task's pending job. A job that was held until an outcome is pending after it exactly if its release was kept.
 *
 * Status: EDFVD_NO_TASK, with zeros, as after EDFVD_CLOSED.
 */
edfvd_status edfvd_scheduler_pending(edfvd_scheduler *s, uint32_t task, edfvd_pending *pending);

/*
 * Stores the earliest next release of the task: the first tick at which a release is not EDFVD_TOO_SOON.
 *
 * Status: EDFVD_NO_TASK, with 0, as after EDFVD_CLOSED.
 */
edfvd_status edfvd_scheduler_earliest(edfvd_scheduler *s, uint32_t task, uint64_t *at);

/*
 * Stores the count of the task's job that the latest EDFVD_OVER discarded, or 0 if it discarded none of the task. After each
 * EDFVD_OVER ask for every low task, and stop the thread of each job that is discarded.
 *
 * Status: EDFVD_NO_TASK, with 0, as after EDFVD_CLOSED.
 */
edfvd_status edfvd_scheduler_discarded(edfvd_scheduler *s, uint32_t task, uint32_t *count);

/* Stores the scale in force; after EDFVD_CLOSED zeros. No further statuses. */
edfvd_status edfvd_scheduler_scale(edfvd_scheduler *s, edfvd_scale *scale);

/* Stores the scheduler's clock, mode and jobs; after EDFVD_CLOSED zeros. No further statuses. */
edfvd_status edfvd_scheduler_look(edfvd_scheduler *s, edfvd_look *look);

/*
 * Stores row number `number`, from 0: the oldest row is the first. After a refusal the row is zeros.
 *
 * Statuses: EDFVD_NO_ROW; EDFVD_GONE, of a scheduler without an end alone.
 */
edfvd_status edfvd_scheduler_row(edfvd_scheduler *s, uint64_t number, edfvd_row *row);

/*
 * Stores row number `number` as edfvd_scheduler_row does, and in `times` how many equal rows begin with it, or 2^32 - 1 if there
 * are more. So edfvd_monitor_observe takes this `row` and these `times` at once, and the next row to be read has the number
 * `number` + `times`. A scheduler without an end keeps the latest 256 runs of equal rows. Any other counts the equal rows one by
 * one, and the time of a call grows with them. After a refusal `times` is 0.
 *
 * Statuses: those of edfvd_scheduler_row.
 */
edfvd_status edfvd_scheduler_rows(edfvd_scheduler *s, uint64_t number, edfvd_row *row, uint32_t *times);

/* ---- The judge ---- */

/* Which rule a row breaks. */
typedef enum edfvd_why {
    EDFVD_FITS = 0,
    EDFVD_WHY_TOO_SOON = 1,     /* a release before its period has passed */
    EDFVD_WHY_WRONG_COUNT = 2,  /* a release with another count than the next */
    EDFVD_WHY_WRONG_KEPT = 3,   /* a release kept that must be dropped, or the other way round */
    EDFVD_WHY_NOT_PENDING = 4,  /* a tick of a job that is not pending */
    EDFVD_WHY_NOT_LEAST = 5,    /* a tick of a job although another one has a lesser key */
    EDFVD_WHY_WRONG_HOW = 6,    /* a tick that ends otherwise than the budgets say */
    EDFVD_WHY_IDLE_PENDING = 7  /* an idle tick although a job is pending */
} edfvd_why;

typedef struct edfvd_verdict {
    uint32_t why;         /* EDFVD_FITS if the trace is legal; otherwise what the first row that does not fit breaks */
    uint32_t task, count; /* of a legal trace: the late job that was released first, or 0; otherwise 0, or a refusal's task */
    uint64_t late;        /* of a legal trace: how many jobs are late */
    uint64_t place;       /* the number of the row that does not fit, from 1; 0 in a legal trace */
} edfvd_verdict;

/*
 * Judges `length` rows, the oldest first, at most 2000000; `rows` may be null if that is 0. If p and q are 0, the rule is that
 * of the published test, which must admit the set; otherwise it is EDF-VD with the scale p/q, 1 <= p <= q <= 2^60, whether or
 * not the test holds with it. With any other status than EDFVD_OK `verdict` holds zeros and the task of a refusal.
 *
 * Statuses, the first that applies: the refusals of a set; if p and q are 0, EDFVD_PERIODS and EDFVD_NOT_ADMITTED, and otherwise
 * EDFVD_ARGUMENT for another p and q, such as 0 and 1; EDFVD_FULL for more rows; EDFVD_ARGUMENT if a row is none of edfvd_row's
 * kinds; EDFVD_NO_TASK if a row is of a task that the set does not have; EDFVD_MEMORY.
 */
edfvd_status edfvd_judge(const edfvd_task *tasks, size_t count, const edfvd_row *rows, size_t length, uint64_t p, uint64_t q,
                         edfvd_verdict *verdict);

/* ---- A monitor ---- */

/*
 * A monitor judges a schedule while it happens. It is open or closed: begin with EDFVD_NONE, or all bytes 0, which is a closed
 * one. While it is open it must not be copied, moved or written by you; edfvd_monitor_close ends that.
 */
typedef struct edfvd_monitor {
    edfvd_handle handle;
} edfvd_monitor;

/* The first row so far that does not fit. */
typedef struct edfvd_unfit {
    uint32_t why;   /* an edfvd_why: which rule the row breaks; EDFVD_FITS if each row so far fits */
    uint64_t place; /* the number of the row, from 1, or 0 */
} edfvd_unfit;

/* What a monitor has seen. After a row that does not fit, the numbers and the mode are those before that row. */
typedef struct edfvd_watch {
    uint64_t rows;      /* how many rows have fitted; of several that one call gave, those before the first that does not fit */
    uint64_t ticks;     /* how many ticks have ended */
    uint64_t pending;   /* how many jobs are pending */
    uint32_t legal;     /* 1 if each row has fitted, otherwise 0 */
    uint32_t high_mode; /* 1 in high mode, otherwise 0 */
} edfvd_watch;

/* A job that is late, and its deadline, as the number of ticks before it. */
typedef struct edfvd_late {
    uint32_t task, count;
    uint64_t deadline;
} edfvd_late;

/*
 * Opens a monitor of the set, under the rule that edfvd_judge takes for p and q. `task` gets the task of a refusal, or 0, and
 * may be null.
 *
 * Statuses: EDFVD_OPEN, before any other; then the refusals of a set; EDFVD_ARGUMENT for p and q that edfvd_judge refuses;
 * EDFVD_MEMORY; if p and q are 0, EDFVD_PERIODS and EDFVD_NOT_ADMITTED.
 */
edfvd_status edfvd_monitor_open(edfvd_monitor *m, const edfvd_task *tasks, size_t count, uint64_t p, uint64_t q,
                                uint32_t *task);

/* Closes the monitor and frees its memory. It may be opened again. No further statuses. */
edfvd_status edfvd_monitor_close(edfvd_monitor *m);

/*
 * Takes the next rows of the schedule: `times` rows that are all `row`. `times` is 1, except that a tick with EDFVD_MORE or
 * EDFVD_IDLE may come many times. `unfit`, which may be null, gets the first row so far that does not fit, and zeros after a
 * refusal. The monitor keeps no rows, and is opened with memory for two pending jobs of each task.
 *
 * Statuses, the first that applies: EDFVD_ARGUMENT for a row that is none of edfvd_row's kinds, or a release that does not come
 * once; EDFVD_NO_TASK for a task that the set does not have; EDFVD_ARGUMENT for another `times`; EDFVD_FULL for more than 2^62
 * rows, those that have fitted and these; EDFVD_MEMORY only for an EDFVD_KEPT row of a task that has two pending jobs or more.
 */
edfvd_status edfvd_monitor_observe(edfvd_monitor *m, const edfvd_row *row, uint32_t times, edfvd_unfit *unfit);

/*
 * Takes `length` rows in order, up to the first one that does not fit or is refused, as edfvd_monitor_observe takes one after the
 * other. `unfit`, which may be null, gets what that call stores for the last of them, and zeros without a row. After a refusal
 * the rows before the refused one are taken. `rows` may be null if `length` is 0.
 *
 * Statuses: those of edfvd_monitor_observe.
 */
edfvd_status edfvd_monitor_observe_all(edfvd_monitor *m, const edfvd_row *rows, size_t length, edfvd_unfit *unfit);

/*
 * Stores in `unfit` what edfvd_monitor_observe would store for these rows, and the monitor does not take them: a dispatcher can
 * ask before it acts.
 *
 * Statuses: those of edfvd_monitor_observe, except EDFVD_MEMORY.
 */
edfvd_status edfvd_monitor_would_fit(edfvd_monitor *m, const edfvd_row *row, uint32_t times, edfvd_unfit *unfit);

/*
 * Stores the pending jobs whose deadlines came after `since` ticks, in the order of their deadlines, and their number in
 * `count`. After one observed row or run, with the ticks before it, these are the jobs that became late by it. `jobs` has
 * `capacity` elements, and may be null if that is 0. After a row that does not fit, the jobs are those of the rows before it.
 *
 * Statuses: EDFVD_SHORT_BUFFER if there are more jobs than `capacity`, with their number alone: ask again with a longer array;
 * EDFVD_MEMORY. With EDFVD_MEMORY and EDFVD_CLOSED the number is 0.
 */
edfvd_status edfvd_monitor_late(edfvd_monitor *m, uint64_t since, edfvd_late *jobs, size_t capacity, uint64_t *count);

/* Stores the verdict on all rows so far, as edfvd_judge finds it; after EDFVD_CLOSED zeros. No further statuses. */
edfvd_status edfvd_monitor_verdict(edfvd_monitor *m, edfvd_verdict *verdict);

/* Stores the monitor's clock, mode and counts; after EDFVD_CLOSED zeros. No further statuses. */
edfvd_status edfvd_monitor_look(edfvd_monitor *m, edfvd_watch *watch);

/* ---- Any command (not in libedfvd_core.a) ---- */

/*
 * Asks what the words ask of the program, such as {"judge", "1", "2"}, over the bytes of two files in memory, which the words
 * name "1" and "2"; any other name is an empty file. Words end with a 0 byte, and more than five words are no command (exit
 * status 2), whatever they are. The reply's text is stored in `out`, which has `capacity` bytes, without a 0 byte at its end; its
 * length in bytes in `length`, and the status that the program would exit with in `exit_status`; so a refused task file is
 * EDFVD_OK with exit status 3. `run` and `accept` work on this thread, with the program's reply. `words`, `first`, `second` and
 * `out` may be null if their lengths are 0.
 *
 * Call it with 256 KiB of stack or more. The reader of task files calls itself once for each level of a file's tables, up to
 * its limit of 80: a file of 163 bytes uses some 150,000 bytes of stack, and no file needs more levels. The main thread of a
 * process and the threads of most C libraries have megabytes; those of musl have 128 KiB unless you ask for more.
 *
 * Statuses: EDFVD_MEMORY may come in place of any other. Without it, the first of these that applies is returned:
 *
 *     EDFVD_ARGUMENT        a word is not UTF-8, and there are at most five: more words are not read
 *     EDFVD_THREADS         the words are the command soak, live or runall, whatever the files are, and even if `out` is too small
 *     EDFVD_SHORT_BUFFER    the text is longer than `capacity`: its length is stored, so ask again with a longer buffer
 *     EDFVD_OK              the text fits; the bytes of `out` after it are as they were
 *
 * With any status but EDFVD_OK `out` is as it was and `exit_status` gets 0; `length` gets 0 too, except with EDFVD_SHORT_BUFFER.
 */
edfvd_status edfvd_ask(size_t count, const char *const *words, const void *first, size_t first_length, const void *second,
                       size_t second_length, void *out, size_t capacity, size_t *length, uint32_t *exit_status);

#ifdef __cplusplus
}
#endif

#endif
