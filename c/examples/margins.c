/* What may change in a set, and by how much: for one that is admitted, one that is not, and one whose loads are at most 1. Then
   sets and pointers that are refused, with what is stored. */
#include "edfvd.h"
#include <inttypes.h>
#include <stdio.h>

static void print_budget(const char *name, uint32_t budget) {
    if (budget == 0)
        printf(" %s none", name);
    else
        printf(" %s %" PRIu32, name, budget);
}

static int print_margins(const char *name, const edfvd_task *tasks, size_t count) {
    edfvd_budgets budgets[2];
    edfvd_scale_range scales;
    uint64_t millionths;
    uint32_t task;
    if (count > 2 || edfvd_sensitivity(tasks, count, budgets, &task) != EDFVD_OK) return 1;
    for (size_t i = 0; i < count; i++) {
        printf("%s: task %zu:", name, i + 1);
        print_budget("low", budgets[i].low);
        if (tasks[i].level == EDFVD_HIGH) print_budget("high", budgets[i].high);
        printf("\n");
    }
    edfvd_status status = edfvd_scales(tasks, count, &scales, NULL);
    if (status == EDFVD_OK)
        printf("%s: scales %" PRIu64 "/%" PRIu64 " to %" PRIu64 "/%" PRIu64 "\n", name, scales.least_p, scales.least_q,
               scales.greatest_p, scales.greatest_q);
    else
        printf("%s: scales: %s\n", name, edfvd_word(status));
    if (edfvd_speed(tasks, count, &millionths, NULL) != EDFVD_OK) return 1;
    printf("%s: speed %" PRIu64 " millionths\n", name, millionths);
    return 0;
}

/* Each call for what is no set: the status, the task, and what is stored over numbers that were there. */
static void print_refusals(const char *name, const edfvd_task *tasks, size_t count) {
    edfvd_budgets budgets[129] = {{7, 7}};
    edfvd_scale_range scales = {7, 7, 7, 7};
    uint64_t millionths = 7;
    uint32_t task = 7;
    edfvd_status status = edfvd_sensitivity(tasks, count, budgets, &task);
    printf("%s: %s, task %" PRIu32 ", budgets %" PRIu32 " %" PRIu32 "\n", name, edfvd_word(status), task, budgets[0].low,
           budgets[0].high);
    task = 7;
    status = edfvd_scales(tasks, count, &scales, &task);
    printf("%s: %s, task %" PRIu32 ", scales %" PRIu64 "/%" PRIu64 " %" PRIu64 "/%" PRIu64 "\n", name, edfvd_word(status), task,
           scales.least_p, scales.least_q, scales.greatest_p, scales.greatest_q);
    task = 7;
    status = edfvd_speed(tasks, count, &millionths, &task);
    printf("%s: %s, task %" PRIu32 ", speed %" PRIu64 "\n", name, edfvd_word(status), task, millionths);
}

static void print_wrong_calls(const edfvd_task *tasks) {
    static edfvd_task many[129];
    edfvd_task wrong[] = {tasks[0], {7, 1, 1, 1}};
    print_refusals("no tasks", NULL, 0);
    print_refusals("129 tasks", many, 129);
    print_refusals("a level of 7", wrong, 2);
    wrong[1] = (edfvd_task){EDFVD_LOW, 9, 1, 2};
    print_refusals("a low task with two budgets", wrong, 2);
    wrong[0] = (edfvd_task){EDFVD_LOW, 4294967291u, 1, 1};
    wrong[1] = (edfvd_task){EDFVD_LOW, 4294967279u, 1, 1};
    print_refusals("periods that are large primes", wrong, 2);
    print_refusals("a null pointer for two tasks", NULL, 2);
    printf("null results: %s, %s, %s\n", edfvd_word(edfvd_sensitivity(tasks, 2, NULL, NULL)),
           edfvd_word(edfvd_scales(tasks, 2, NULL, NULL)), edfvd_word(edfvd_speed(tasks, 2, NULL, NULL)));
}

int main(void) {
    static const edfvd_task control[] = {{EDFVD_HIGH, 10, 2, 6}, {EDFVD_LOW, 10, 5, 5}};
    static const edfvd_task refused[] = {{EDFVD_HIGH, 10, 4, 8}, {EDFVD_LOW, 10, 5, 5}};
    static const edfvd_task full[] = {{EDFVD_HIGH, 3, 1, 3}, {EDFVD_LOW, 3, 2, 2}};
    print_wrong_calls(control);
    return print_margins("control", control, 2) | print_margins("refused", refused, 2) | print_margins("full", full, 2);
}
