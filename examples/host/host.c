/*
 * A designer's panel in miniature: reads a sheet file, judges every component of it in one call and prints a table with the
 * margin and the instant where it stands.
 *
 *     host SHEET
 *
 * Ends with 0 where every component is accepted, 1 where one is not, 2 where the sheet is refused, 3 where something failed.
 */
#include <errno.h>
#include <stdint.h>
#include <stdio.h>
#include <string.h>

#include "jougsilver.h"

/* One byte more than a sheet may have, so that a longer file is seen to be longer. */
static uint8_t sheet[JOUGSILVER_SHEET_LENGTH + 1];

/* Room for the replies of any sheet. */
static uint8_t replies[JOUGSILVER_ALL_LENGTH(JOUGSILVER_MOST_COMPONENTS)];

enum { ACCEPTED = 0, NOT_ACCEPTED = 1, REFUSED = 2, FAILED = 3 };

/* The line of a component that has no capacity and no margin. */
static void print_without(uint32_t number, const char *verdict)
{
    printf("%9u  %-22s %8s %8s %8s\n", (unsigned)number, verdict, "-", "-", "-");
}

/* The line of a component that is accepted or short. */
static void print_measured(const struct jougsilver_reply *reply)
{
    unsigned number = reply->number, capacity = reply->capacity;
    char verdict[64];
    if (reply->code == JOUGSILVER_SHORT)
        snprintf(verdict, sizeof verdict, "short at %u", (unsigned)reply->short_instant);
    else
        snprintf(verdict, sizeof verdict, "accepted");
    if (reply->margin_instant == 0)
        printf("%9u  %-22s %8u %8s %8s\n", number, verdict, capacity, "-", "-");
    else
        printf("%9u  %-22s %8u %+8ld %8u\n", number, verdict, capacity, (long)reply->margin, (unsigned)reply->margin_instant);
}

/* Prints the line of a component, and answers whether it is accepted. */
static int print_component(const struct jougsilver_entry *entry)
{
    if (entry->refusal == JOUGSILVER_LONG) {
        print_without(entry->number, "common period too long");
        return 0;
    }
    switch (entry->reply.code) {
    case JOUGSILVER_ACCEPTED:
    case JOUGSILVER_SHORT: print_measured(&entry->reply); break;
    case JOUGSILVER_NONE: print_without(entry->number, "no capacity is enough"); break;
    case JOUGSILVER_WAITING: print_without(entry->number, "waiting for a child"); break;
    default: print_without(entry->number, jougsilver_code_text(entry->reply.code));
    }
    return entry->reply.code == JOUGSILVER_ACCEPTED;
}

/* Prints the table of a sheet that was judged. */
static int print_table(void)
{
    int status = ACCEPTED;
    uint32_t count = jougsilver_decode_check(replies).components;
    printf("component  %-22s %8s %8s %8s\n", "verdict", "capacity", "margin", "at");
    for (uint32_t place = 0; place < count; place++) {
        struct jougsilver_entry entry = jougsilver_decode_entry(replies, place);
        if (!print_component(&entry))
            status = NOT_ACCEPTED;
    }
    return status;
}

/* Prints why a sheet is refused, and where. */
static int print_refusal(size_t length)
{
    uint8_t bytes[JOUGSILVER_CHECK_LENGTH];
    if (jougsilver_check(sheet, length, bytes, sizeof bytes, 0) != JOUGSILVER_TAKEN)
        return FAILED;
    struct jougsilver_checked found = jougsilver_decode_check(bytes);
    printf("refused %u at byte %u: %s\n", (unsigned)found.refusal, (unsigned)found.byte, jougsilver_refusal_text(found.refusal));
    return REFUSED;
}

static int print_sheet(size_t length)
{
    switch (jougsilver_judge_all(sheet, length, replies, sizeof replies, 0)) {
    case JOUGSILVER_TAKEN: return print_table();
    case JOUGSILVER_ROOM: return FAILED; /* never: there is room for the most components that a sheet may have */
    default: return print_refusal(length);
    }
}

/* Says what failed and why, in the system's words. */
static int failed(const char *what)
{
    fprintf(stderr, "host: %s: %s\n", what, strerror(errno));
    return FAILED;
}

int main(int argc, char **argv)
{
    if (argc != 2) {
        fprintf(stderr, "usage: host SHEET\n");
        return FAILED;
    }
    FILE *file = fopen(argv[1], "rb");
    if (!file)
        return failed(argv[1]);
    size_t length = fread(sheet, 1, sizeof sheet, file);
    if (ferror(file))
        return failed(argv[1]);
    fclose(file);

    /* A table that was not written whole is no answer, and is known only once the output is closed. */
    int status = print_sheet(length);
    int written = !ferror(stdout);
    if (fclose(stdout) != 0 || !written)
        return failed("standard output");
    return status;
}
