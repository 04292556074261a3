/*
 * The schedule of drive.h for a count of instructions: before and after each call an instruction of a function of its own is executed, so
 * whoever sees each instruction with its function counts those between. bench/small.sh does so by the emulator's log.
 * usage: steps TASKS TICKS spread|bursts
 */
#define MARK(name) \
    __attribute__((noinline)) void name(void); \
    __attribute__((noinline)) void name(void) { __asm__ volatile("" ::: "memory"); }
MARK(mark_0_release)
MARK(mark_1_grant)
MARK(mark_2_outcome)
MARK(mark_3_idle)
MARK(mark_4_look)
MARK(mark_5_row)
MARK(mark_6_observe)
MARK(mark_7_would_fit)
MARK(mark_8_late)
MARK(mark_end)
static void (*const marks[])(void) = {
    mark_0_release, mark_1_grant,   mark_2_outcome,   mark_3_idle, mark_4_look,
    mark_5_row,     mark_6_observe, mark_7_would_fit, mark_8_late,
};
#define CALL(kind, call) \
    do {                 \
        marks[kind]();   \
        call;            \
        mark_end();      \
    } while (0)
#include "drive.h"

int main(int argc, char **argv) {
    uint32_t ticks = argc == 4 ? number_in(argv[2]) : 0;
    if (ticks == 0) return 2;
    set_tasks(number_in(argv[1]));
    open_all();
    for (uint32_t number = 0; number < ticks; number++) tick(argv[3][0] == 'b');
    close_all();
    return 0;
}
