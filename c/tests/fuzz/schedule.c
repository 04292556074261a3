#include "schedule.h"
#include <string.h>

schedule new_schedule(const edfvd_task *tasks, size_t count, rule by) {
    schedule s;
    memset(&s, 0, sizeof s);
    memcpy(s.tasks, tasks, count * sizeof *tasks);
    s.count = count;
    s.rule = by;
    return s;
}

static const edfvd_task *task_of(const schedule *s, uint32_t task) { return &s->tasks[task - 1]; }

static bool is_high(const schedule *s, uint32_t task) { return task_of(s, task)->level == EDFVD_HIGH; }

uint64_t deadline_of(const schedule *s, const job *of) { return of->release + task_of(s, of->task)->period; }

/* The key of a job in q-ths of a tick: its deadline, and of a high job in low mode its virtual deadline. */
static wide key(const schedule *s, const job *of) {
    wide q = s->rule.number == 2 ? s->rule.q : 1;
    if (s->rule.number != 2 || s->high_mode || !is_high(s, of->task)) return q * deadline_of(s, of);
    return q * of->release + (wide)s->rule.p * task_of(s, of->task)->period;
}

const job *chosen(const schedule *s) {
    const job *first = NULL;
    for (size_t place = 0; place < s->jobs; place++) {
        const job *of = &s->pending[place];
        if (first == NULL || key(s, of) < key(s, first) || (key(s, of) == key(s, first) && of->task < first->task)) first = of;
    }
    return first;
}

static size_t place_of(const schedule *s, uint32_t task, uint32_t count) {
    size_t place = 0;
    while (place < s->jobs && (s->pending[place].task != task || s->pending[place].count != count)) place++;
    return place;
}

/* How the job's next tick ends if the job is not done. */
static uint32_t end_of_tick(const schedule *s, const job *of) {
    const edfvd_task *task = task_of(s, of->task);
    if (of->used + 1 == task->high) return EDFVD_STOP; /* a low task has its one budget there, too */
    if (is_high(s, of->task) && s->rule.number == 2 && !s->high_mode && of->used + 1 == task->low) return EDFVD_OVER;
    return EDFVD_MORE;
}

static uint32_t broken_by_release(const schedule *s, edfvd_row row) {
    if (s->ticks < s->next[row.task - 1]) return EDFVD_WHY_TOO_SOON;
    if (row.count != s->releases[row.task - 1] + 1) return EDFVD_WHY_WRONG_COUNT;
    bool is_kept = is_high(s, row.task) || !s->high_mode;
    return is_kept == (row.event == EDFVD_KEPT) ? EDFVD_FITS : EDFVD_WHY_WRONG_KEPT;
}

uint32_t broken_by(const schedule *s, edfvd_row row) {
    if (row.event == EDFVD_IDLE) return s->jobs == 0 ? EDFVD_FITS : EDFVD_WHY_IDLE_PENDING;
    if (row.event <= EDFVD_DROPPED) return broken_by_release(s, row);
    size_t place = place_of(s, row.task, row.count);
    if (place == s->jobs) return EDFVD_WHY_NOT_PENDING;
    const job *of = &s->pending[place];
    if (key(s, of) != key(s, chosen(s))) return EDFVD_WHY_NOT_LEAST;
    return row.event == EDFVD_DONE || row.event == end_of_tick(s, of) ? EDFVD_FITS : EDFVD_WHY_WRONG_HOW;
}

static void add_release(schedule *s, edfvd_row row) {
    s->releases[row.task - 1]++;
    s->next[row.task - 1] = s->ticks + task_of(s, row.task)->period;
    if (row.event == EDFVD_KEPT && s->jobs < MOST_JOBS)
        s->pending[s->jobs++] = (job){row.task, row.count, 0, s->ticks, s->rows};
}

static void remove_job(schedule *s, size_t place) {
    memmove(&s->pending[place], &s->pending[place + 1], (s->jobs - place - 1) * sizeof *s->pending);
    s->jobs--;
}

static void add_tick(schedule *s, edfvd_row row) {
    size_t place = place_of(s, row.task, row.count);
    s->ticks++;
    if (row.event == EDFVD_IDLE) {
        s->high_mode = false;
        return;
    }
    s->pending[place].used++;
    if (row.event == EDFVD_DONE || row.event == EDFVD_STOP) remove_job(s, place);
    if (row.event != EDFVD_OVER) return;
    s->high_mode = true;
    for (size_t low = s->jobs; low > 0; low--)
        if (!is_high(s, s->pending[low - 1].task)) remove_job(s, low - 1);
}

/* Counts the jobs that are pending at their deadline, which the last tick came to. */
static void count_late(schedule *s) {
    for (size_t place = 0; place < s->jobs; place++) {
        const job *of = &s->pending[place];
        if (deadline_of(s, of) != s->ticks) continue;
        if (s->late == 0 || of->order < s->first_late.order) s->first_late = *of;
        s->late++;
    }
}

void add_row(schedule *s, edfvd_row row) {
    if (s->why != EDFVD_FITS) return;
    s->why = broken_by(s, row);
    if (s->why != EDFVD_FITS) {
        s->place = s->rows + 1;
        return;
    }
    if (row.event <= EDFVD_DROPPED) {
        add_release(s, row);
    } else {
        add_tick(s, row);
        count_late(s);
    }
    s->rows++;
}

static void record(driven *s, edfvd_row row) {
    s->rows[s->so_far.rows] = row;
    add_row(&s->so_far, row);
}

static bool is_full(const driven *s) { return s->so_far.rows + s->holds + (s->out.task != 0) >= s->places; }

static bool is_held(const driven *s, uint32_t task) {
    for (size_t place = 0; place < s->holds; place++)
        if (s->held[place] == task) return true;
    return false;
}

static bool is_task(const driven *s, uint32_t task) { return task >= 1 && task <= s->so_far.count; }

/* A refusal with the numbers of a job. */
static edfvd_status about(edfvd_status status, const job *of, edfvd_answer *answer) {
    if (of != NULL) *answer = (edfvd_answer){0, of->task, of->count, 0, 0};
    return status;
}

/* The release of the task's next job after the rows so far. */
static edfvd_row release_row(const driven *s, uint32_t task) {
    bool is_kept = is_high(&s->so_far, task) || !s->so_far.high_mode;
    return (edfvd_row){is_kept ? EDFVD_KEPT : EDFVD_DROPPED, task, s->so_far.releases[task - 1] + 1};
}

edfvd_status release(driven *s, uint32_t task, edfvd_answer *answer) {
    *answer = (edfvd_answer){0, 0, 0, 0, 0};
    if (!is_task(s, task)) return EDFVD_NO_TASK;
    if (s->out.task == task) return about(EDFVD_RUNNING, &s->out, answer);
    bool is_out = s->out.task != 0;
    uint64_t begun = s->so_far.ticks + is_out, next = s->so_far.next[task - 1];
    if (is_held(s, task)) next = begun + task_of(&s->so_far, task)->period;
    if (begun < next) {
        answer->at = next;
        return EDFVD_TOO_SOON;
    }
    if (is_full(s)) return EDFVD_FULL;
    edfvd_row row = release_row(s, task);
    *answer = (edfvd_answer){is_out ? EDFVD_HELD : row.event, task, row.count, 0, begun};
    if (is_out)
        s->held[s->holds++] = task;
    else
        record(s, row);
    return EDFVD_OK;
}

edfvd_status grant(driven *s, uint32_t task, edfvd_answer *answer) {
    *answer = (edfvd_answer){0, 0, 0, 0, 0};
    if (!is_task(s, task)) return EDFVD_NO_TASK;
    if (s->out.task != 0) return about(EDFVD_TICK_OUT, &s->out, answer);
    const job *first = chosen(&s->so_far);
    if (first == NULL || first->task != task) return about(EDFVD_NOT_CHOSEN, first, answer);
    if (is_full(s)) return EDFVD_FULL;
    s->out = *first;
    *answer = (edfvd_answer){EDFVD_GIVEN, task, first->count, first->used, s->so_far.ticks};
    return EDFVD_OK;
}

edfvd_status outcome(driven *s, uint32_t task, uint32_t count, bool done, edfvd_answer *answer) {
    *answer = (edfvd_answer){0, 0, 0, 0, 0};
    if (s->out.task == 0 || s->out.task != task || s->out.count != count)
        return about(EDFVD_NOT_OUT, s->out.task == 0 ? NULL : &s->out, answer);
    uint32_t event = done ? EDFVD_DONE : end_of_tick(&s->so_far, &s->out);
    *answer = (edfvd_answer){event, task, count, 0, 0};
    record(s, (edfvd_row){event, task, count});
    for (size_t place = 0; place < s->holds; place++) record(s, release_row(s, s->held[place]));
    s->holds = 0;
    s->out.task = 0;
    return EDFVD_OK;
}

edfvd_status idle(driven *s, edfvd_answer *answer) {
    *answer = (edfvd_answer){0, 0, 0, 0, 0};
    if (s->out.task != 0) return about(EDFVD_TICK_OUT, &s->out, answer);
    if (s->so_far.jobs != 0) return about(EDFVD_PENDING, chosen(&s->so_far), answer);
    if (is_full(s)) return EDFVD_FULL;
    *answer = (edfvd_answer){EDFVD_IDLE, 0, 0, 0, s->so_far.ticks};
    record(s, (edfvd_row){EDFVD_IDLE, 0, 0});
    return EDFVD_OK;
}
