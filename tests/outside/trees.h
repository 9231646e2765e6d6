/* Sheets at the large end, written record by record: for worst.c beside this file, and for bench/tree.c. */
#ifndef TREES_H
#define TREES_H

#include <stddef.h>
#include <stdint.h>

enum { LIMIT = 1 << 20, TASKS = 64, COMPONENTS = 256, ASKED = -1 };

static uint8_t sheet[65536];
static size_t length;

static void put(uint32_t value, int width) {
    for (int i = 0; i < width; i++, value >>= 8) sheet[length++] = (uint8_t)value;
}

static void component(unsigned number, uint32_t period, long capacity, uint32_t deadline) {
    put(capacity == ASKED ? 14 : 18, 2);
    put(capacity == ASKED ? 4 : 1, 2);
    put(number, 2);
    put(period, 4);
    if (capacity != ASKED) put((uint32_t)capacity, 4);
    put(deadline, 4);
}

static void task(uint32_t period, uint32_t work, uint32_t deadline) {
    put(16, 2);
    put(2, 2);
    put(period, 4);
    put(work, 4);
    put(deadline, 4);
}

static void pair(unsigned child, unsigned parent) {
    put(8, 2);
    put(6, 2);
    put(child, 2);
    put(parent, 2);
}

static void end(unsigned count) {
    put(6, 2);
    put(3, 2);
    put(count, 2);
}

/* One of 64 tasks is due at each instant, in an order that is none of the table's: 37 is prime to 64. Accepted at the full
   deadline and no sooner, so that every instant up to the limit is looked at. */
static void in_turn(void) {
    for (uint32_t i = 0; i < TASKS; i++) task(TASKS, 1, i * 37 % TASKS + 1);
}

/* 256 components, each inside the next, all of them asked. The first has 64 tasks in turn and needs its whole period, the limit;
   so the next needs every slot, and the one around that is again due at each instant up to the limit, and so on. */
static void chain(void) {
    component(0, LIMIT, ASKED, LIMIT);
    in_turn();
    for (unsigned number = 1; number < COMPONENTS; number++) {
        uint32_t period = number % 2 == 1 ? 1 : LIMIT;
        component(number, period, ASKED, period);
    }
    for (unsigned number = 1; number < COMPONENTS; number++) pair(number - 1, number);
    end(COMPONENTS);
}

/* Four parents of 63 children, the most that 256 components allow. A child needs 1 unit in every 64 slots, by a place that none of
   its brothers has: with them its parent is due at all instants but one in 64, up to the limit. */
static void fan(void) {
    for (unsigned number = 0; number < COMPONENTS; number++) {
        if (number % TASKS == TASKS - 1) {
            component(number, LIMIT, ASKED, LIMIT);
        } else {
            component(number, TASKS, ASKED, number % TASKS * 37 % (TASKS - 1) + 1);
            task(2 * TASKS, 1, 2 * TASKS);
            task(LIMIT, 1, LIMIT);
        }
    }
    for (unsigned number = 0; number < COMPONENTS; number++)
        if (number % TASKS != TASKS - 1) pair(number, number / TASKS * TASKS + TASKS - 1);
    end(COMPONENTS);
}

#endif
