/*
 * Long judgements: accepted components whose common period is the limit, from those where supply is nearly all there is to do to
 * those where it is next to nothing.
 *
 *     long [RUNS [ROW]]
 *
 * Prints a line for each, or for the one of that number: its name, the reply's bytes and the processor time of one call of
 * jougsilver_judge in ms, the least of RUNS (7). Ends with 3 where something failed.
 */
#define _POSIX_C_SOURCE 200809L

#include <jougsilver.h>

#include <stdio.h>
#include <stdlib.h>
#include <time.h>

#include "../tests/outside/trees.h"

static void one_task(void) {
    component(1, LIMIT, LIMIT, LIMIT);
    task(1, 1, 1);
}

/* A step at every second instant, the limit as the longest period. */
static void two_tasks(uint32_t period, long capacity) {
    component(1, period, capacity, period - 1);
    task(2, 1, 2);
    task(LIMIT, 1, LIMIT);
}
static void two_tasks_stated(void) { two_tasks(16, 15); }
static void two_tasks_asked(void) { two_tasks(16, ASKED); }

static void eight_tasks(void) {
    component(1, 16, 15, 15);
    for (uint32_t deadline = 2; deadline <= 8; deadline++) task(8, 1, deadline);
    task(LIMIT, 1, LIMIT);
}

static void fifteen_tasks(void) {
    component(1, LIMIT, ASKED, LIMIT);
    for (uint32_t deadline = 1; deadline <= 15; deadline++) task(16, 1, deadline);
}

static void sixty_four_tasks(void) {
    component(1, LIMIT, LIMIT, LIMIT);
    in_turn();
}

static void sixty_four_tasks_half(void) {
    component(1, 16, 15, 15);
    for (uint32_t deadline = 65; deadline <= 127; deadline++) task(128, 1, deadline);
    task(LIMIT, 1, LIMIT);
}

static const struct {
    const char *name;
    void (*make)(void);
} rows[] = {
    {"1 task, dedicated, a step at every instant", one_task},
    {"2 tasks, Π 16, a step at every second", two_tasks_stated},
    {"2 tasks, Π 16, asked", two_tasks_asked},
    {"8 tasks, Π 16, a step at 7 of 8", eight_tasks},
    {"15 tasks, Π the limit, asked, a step at 15 of 16", fifteen_tasks},
    {"64 tasks, dedicated, a step at every instant", sixty_four_tasks},
    {"64 tasks, Π 16, a step at 63 of 128", sixty_four_tasks_half},
};
enum { ROWS = sizeof rows / sizeof rows[0] };

static double now(void) {
    struct timespec at;
    if (clock_gettime(CLOCK_PROCESS_CPUTIME_ID, &at) != 0) exit(3);
    return (double)at.tv_sec * 1e3 + (double)at.tv_nsec / 1e6;
}

static void run(int row, int runs) {
    uint8_t reply[JOUGSILVER_REPLY_LENGTH];
    double least = 1e18;
    length = 0;
    rows[row].make();
    end(1);
    for (int i = 0; i < runs; i++) {
        double from = now();
        if (jougsilver_judge(sheet, length, 0, reply, sizeof reply, 0) != JOUGSILVER_TAKEN) exit(3);
        double took = now() - from;
        if (took < least) least = took;
    }
    if (jougsilver_decode_reply(reply).code != JOUGSILVER_ACCEPTED) exit(3);
    printf("%s\t", rows[row].name);
    for (int i = 0; i < JOUGSILVER_REPLY_LENGTH; i++) printf("%02x", reply[i]);
    printf("\t%.3f\n", least);
}

int main(int argc, char **argv) {
    int runs = argc > 1 ? atoi(argv[1]) : 7;
    int only = argc > 2 ? atoi(argv[2]) : 0;
    if (runs < 1 || only < 0 || only > ROWS) return 3;
    for (int row = 0; row < ROWS; row++)
        if (only == 0 || only == row + 1) run(row, runs);
    return 0;
}
