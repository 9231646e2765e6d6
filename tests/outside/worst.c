/*
 * The stack and the time of a call on the hardest sheets that are known.
 *
 *     worst [RUNS]
 *
 * Prints a line for each and ends with 1 where a call took more stack than the header says. Stack: the call runs on a
 * thread whose stack was filled with one byte beforehand; what it took, with all that it calls, reaches from the caller's
 * frame down to the lowest byte that changed. Time: processor time of the thread, the least and the greatest of RUNS runs
 * (1 where no number is given).
 */
#define _POSIX_C_SOURCE 200809L

#include <jougsilver.h>

#include <pthread.h>
#include <stdio.h>
#include <stdlib.h>
#include <string.h>
#include <time.h>

#include "trees.h"

enum { STACK = 1 << 20, PAINT = 0xa5 };

static size_t place;
static double milliseconds;
static uint8_t *stack, *frame;
static uint8_t replies[JOUGSILVER_ALL_LENGTH(JOUGSILVER_MOST_COMPONENTS)];

/* A task that states its lateness, or where that is 0 one that doesn't. */
static void late_task(uint32_t period, uint32_t work, uint32_t deadline, uint32_t lateness) {
    if (lateness == 0) {
        task(period, work, deadline);
        return;
    }
    put(20, 2);
    put(5, 2);
    put(period, 4);
    put(work, 4);
    put(deadline, 4);
    put(lateness, 4);
}

static void asked(void) {
    component(1, LIMIT, ASKED, LIMIT);
    in_turn();
    end(1);
}

/* The same demand from tasks with a deadline of 64 slots each, whose latenesses put their steps where those were. */
static void asked_late(void) {
    component(1, LIMIT, ASKED, LIMIT);
    for (uint32_t i = 0; i < TASKS; i++) late_task(TASKS, 1, TASKS, TASKS - 1 - i * 37 % TASKS);
    end(1);
}

static void stated(void) {
    component(1, LIMIT, LIMIT, LIMIT);
    in_turn();
    end(1);
}

/* All 64 tasks are due at each instant: short at once, but the margin is measured over all of them. */
static void at_once(void) {
    component(1, LIMIT, LIMIT, LIMIT);
    for (int i = 0; i < TASKS; i++) task(1, 1, 1);
    end(1);
}

/* The asked one as the last of 256 components; no sheet of 256 has more than these 65,534 bytes. */
static void last_of_many(void) {
    for (unsigned number = 0; number < COMPONENTS - 1; number++) {
        component(number, LIMIT, number < 2 ? LIMIT : ASKED, LIMIT);
        for (int i = 0; i < (number < 237 ? 15 : 14); i++) task(1, 1, 1);
    }
    component(COMPONENTS - 1, LIMIT, ASKED, LIMIT);
    in_turn();
    end(COMPONENTS);
    place = COMPONENTS - 1;
}

static void top_of_chain(void) {
    chain();
    place = COMPONENTS - 1;
}

/* As many asked components of 64 tasks as a sheet holds. */
static void asked_many(void) {
    unsigned number = 0;
    for (; number < 63; number++) {
        component(number, LIMIT, ASKED, LIMIT);
        in_turn();
    }
    end(number);
}

/* 256 asked components, each with a step at every instant of 16: one task is due at two of them, the 14 others at one each. */
static void asked_all(void) {
    for (unsigned number = 0; number < COMPONENTS; number++) {
        component(number, LIMIT, ASKED, LIMIT);
        task(8, 1, 8);
        for (uint32_t deadline = 1; deadline < 16; deadline++)
            if (deadline != 8) task(16, 1, deadline);
    }
    end(COMPONENTS);
}

static double now(void) {
    struct timespec at;
    if (clock_gettime(CLOCK_THREAD_CPUTIME_ID, &at) != 0) exit(3);
    return (double)at.tv_sec * 1e3 + (double)at.tv_nsec / 1e6;
}

static void *judge(void *reply) {
    uint8_t here;
    frame = &here;
    double from = now();
    if (jougsilver_judge(sheet, length, place, (uint8_t *)reply, JOUGSILVER_REPLY_LENGTH, 0) != JOUGSILVER_TAKEN) exit(3);
    milliseconds = now() - from;
    return NULL;
}

static void *check(void *reply) {
    uint8_t here;
    frame = &here;
    double from = now();
    if (jougsilver_check(sheet, length, (uint8_t *)reply, JOUGSILVER_CHECK_LENGTH, 0) != JOUGSILVER_TAKEN) exit(3);
    milliseconds = now() - from;
    return NULL;
}

static void *judge_all(void *reply) {
    uint8_t here;
    frame = &here;
    double from = now();
    if (jougsilver_judge_all(sheet, length, (uint8_t *)reply, sizeof replies, 0) != JOUGSILVER_TAKEN) exit(3);
    milliseconds = now() - from;
    return NULL;
}

/* The stack that one call took. */
static size_t stack_of(void *(*call)(void *)) {
    pthread_attr_t where;
    pthread_t thread;
    size_t lowest = 0;
    memset(stack, PAINT, STACK);
    if (pthread_attr_init(&where) != 0 || pthread_attr_setstack(&where, stack, STACK) != 0) exit(3);
    if (pthread_create(&thread, &where, call, replies) != 0 || pthread_join(thread, NULL) != 0) exit(3);
    pthread_attr_destroy(&where);
    while (stack[lowest] == PAINT) lowest++;
    return (size_t)(frame - stack) - lowest;
}

static int measure(const char *name, void (*make)(void), void *(*call)(void *), int runs) {
    size_t most = 0;
    double least = 1e9, greatest = 0;
    length = place = 0;
    make();
    for (int i = 0; i < runs; i++) {
        size_t took = stack_of(call);
        if (took > most) most = took;
        if (milliseconds < least) least = milliseconds;
        if (milliseconds > greatest) greatest = milliseconds;
    }
    printf("%-40s %6zu bytes of stack  %8.3f to %.3f ms\n", name, most, least, greatest);
    return most > JOUGSILVER_STACK;
}

int main(int argc, char **argv) {
    int runs = argc > 1 ? atoi(argv[1]) : 1, over = 0;
    if (runs < 1 || posix_memalign((void **)&stack, 4096, STACK) != 0) return 3;
    over |= measure("judge, first call of the program", stated, judge, 1);
    over |= measure("judge, stated", stated, judge, runs);
    over |= measure("judge, all tasks due at each instant", at_once, judge, runs);
    over |= measure("judge, asked", asked, judge, runs);
    over |= measure("judge, asked, tasks that are late", asked_late, judge, runs);
    over |= measure("judge, asked, last of 256 components", last_of_many, judge, runs);
    over |= measure("judge, asked, top of a chain of 256", top_of_chain, judge, runs);
    over |= measure("judge_all, a chain of 256", chain, judge_all, runs);
    over |= measure("judge_all, four parents of 63 children", fan, judge_all, runs);
    over |= measure("judge_all, 63 asked components, once", asked_many, judge_all, 1);
    over |= measure("judge_all, 256 asked components, once", asked_all, judge_all, 1);
    over |= measure("check, 256 components", last_of_many, check, runs);
    if (over) printf("more than the %d bytes of stack that the header says\n", JOUGSILVER_STACK);
    return over;
}
