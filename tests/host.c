/* A host that answers `host`, `host_check` and `host_all` calls (docs/CALLS.md) through the exported calls, as a C program links them. */
#include "../include/jougsilver.h"

#include <stdio.h>
#include <stdlib.h>
#include <string.h>

enum { LINE = 262144, SHEET = 65600, BUFFER = 4096, FILLED = 0xa5 };

static char line[LINE];
static uint8_t sheet[SHEET + 1];
static uint8_t reply[BUFFER + 1];

static int digit(char c) { return c >= 'a' ? c - 'a' + 10 : c - '0'; }

/* The bytes of a row, `-` for none. */
static size_t bytes_of(const char *word) {
    size_t count = 0;
    if (word[0] == '-') return 0;
    while (word[2 * count] != '\0' && count < SHEET) {
        sheet[count] = (uint8_t)(digit(word[2 * count]) * 16 + digit(word[2 * count + 1]));
        count++;
    }
    return count;
}

static size_t number(const char *word) { return strtoull(word, NULL, 10); }

/* The call that a line names: 5 words for a component, 4 for the whole sheet. */
static unsigned call(char *word[], int count, size_t bytes, size_t length) {
    if (count == 5) return jougsilver_judge(sheet, bytes, number(word[2]), reply, length, number(word[4]));
    if (strcmp(word[0], "host_all") == 0) return jougsilver_judge_all(sheet, bytes, reply, length, number(word[3]));
    return jougsilver_check(sheet, bytes, reply, length, number(word[3]));
}

int main(void) {
    while (fgets(line, LINE, stdin) != NULL) {
        char *word[6] = {NULL};
        int count = 0;
        for (char *next = strtok(line, " \n"); next != NULL && count < 6; next = strtok(NULL, " \n")) word[count++] = next;
        size_t length = count == 5 ? number(word[3]) : count == 4 ? number(word[2]) : BUFFER + 1;
        if (length > BUFFER) return 2;
        memset(reply, FILLED, sizeof reply);
        printf("%u ", call(word, count, bytes_of(word[1]), length));
        if (length == 0) putchar('-');
        for (size_t i = 0; i < length; i++) printf("%02x", reply[i]);
        if (reply[length] != FILLED) printf(" written past the buffer");
        putchar('\n');
    }
    return 0;
}
