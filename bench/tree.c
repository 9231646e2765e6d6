/*
 * What it costs to judge a whole sheet of nested components, against the sum of single judgements.
 *
 *     tree [RUNS]
 *
 * The sheets are the chain and the fans of tests/outside/trees.h. Whole: one call of jougsilver_judge_all. Single: one call of
 * jougsilver_judge for each component, in a sheet that holds it alone with its workload as its tasks; those sheets are made
 * beforehand. Prints a row for each, in processor time, the least of RUNS (5) runs taken in turn. Ends with 1 where some
 * component gets another answer alone, and with 3 where something failed.
 */
#define _POSIX_C_SOURCE 200809L

#include <jougsilver.h>

#include <stdio.h>
#include <stdlib.h>
#include <string.h>
#include <time.h>

#include "../tests/outside/trees.h"

static uint8_t whole[JOUGSILVER_ALL_LENGTH(JOUGSILVER_MOST_COMPONENTS)];
static uint8_t reply[JOUGSILVER_MOST_COMPONENTS][JOUGSILVER_REPLY_LENGTH];
static struct {
    uint8_t bytes[18 + 16 * TASKS + 6];
    size_t length;
} alone[JOUGSILVER_MOST_COMPONENTS];

static double now(void) {
    struct timespec at;
    if (clock_gettime(CLOCK_PROCESS_CPUTIME_ID, &at) != 0) exit(3);
    return (double)at.tv_sec * 1e3 + (double)at.tv_nsec / 1e6;
}

static uint32_t judge_whole(void) { return jougsilver_judge_all(sheet, length, whole, sizeof whole, 0); }

static uint32_t judge_alone(uint32_t count) {
    uint32_t refused = 0;
    for (uint32_t i = 0; i < count; i++)
        refused |= jougsilver_judge(alone[i].bytes, alone[i].length, 0, reply[i], sizeof reply[i], 0);
    return refused;
}

static void add(uint32_t place, const uint8_t *record, size_t bytes) {
    memcpy(alone[place].bytes + alone[place].length, record, bytes);
    alone[place].length += bytes;
}

/* The place of the component with that number. */
static uint32_t place_of(uint32_t number, uint32_t count) {
    uint32_t place = 0;
    while (place < count && jougsilver_decode_entry(whole, place).number != number) place++;
    return place;
}

/* A child's interface as a task of its parent, with the capacity that was found; none where that is 0. */
static void add_child(uint32_t child, uint32_t parent) {
    struct jougsilver_entry entry = jougsilver_decode_entry(whole, child);
    const uint8_t *record = sheet + entry.byte;
    uint8_t made[16] = {16, 0, 2, 0};
    if (entry.reply.capacity == 0) return;
    memcpy(made + 4, record + 6, 4);
    memcpy(made + 8, whole + JOUGSILVER_ALL_LENGTH(child) + 12 + 8, 4);
    memcpy(made + 12, record + record[0] - 4, 4);
    add(parent, made, sizeof made);
}

/* The sheets of the single components, from the whole one and its replies. */
static void part(uint32_t count) {
    const uint8_t last[6] = {6, 0, 3, 0, 1, 0};
    uint32_t place = 0, begun = 0;
    for (size_t at = 0; at < length; at += sheet[at]) {
        const uint8_t *record = sheet + at;
        switch (record[2]) {
        case 1:
        case 4:
            place = begun++;
            alone[place].length = 0;
            add(place, record, record[0]);
            break;
        case 2: add(place, record, record[0]); break;
        case 6: add_child(place_of(jougsilver_number_at(record + 4, 2), count), place_of(jougsilver_number_at(record + 6, 2), count)); break;
        }
    }
    for (place = 0; place < count; place++) add(place, last, sizeof last);
}

static int row(const char *name, void (*make)(void), int runs) {
    double least_whole = 1e18, least_alone = 1e18;
    length = 0;
    make();
    if (judge_whole() != JOUGSILVER_TAKEN) exit(3);
    uint32_t count = jougsilver_decode_check(whole).components;
    part(count);
    for (int i = 0; i < runs; i++) {
        double from = now();
        if (judge_whole() != JOUGSILVER_TAKEN) exit(3);
        double between = now();
        if (judge_alone(count) != JOUGSILVER_TAKEN) exit(3);
        double to = now();
        if (between - from < least_whole) least_whole = between - from;
        if (to - between < least_alone) least_alone = to - between;
    }
    printf("| %s | %.1f | %.1f | %.3f |\n", name, least_alone, least_whole, least_whole / least_alone);
    for (uint32_t i = 0; i < count; i++)
        if (memcmp(reply[i], whole + JOUGSILVER_ALL_LENGTH(i) + 12, JOUGSILVER_REPLY_LENGTH) != 0) return 1;
    return 0;
}

int main(int argc, char **argv) {
    int runs = argc > 1 ? atoi(argv[1]) : 5;
    if (runs < 1) return 3;
    return row("256 components, each inside the next", chain, runs) | row("256 components, four parents of 63 children", fan, runs);
}
