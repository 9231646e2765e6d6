// Copies standard input to a pipe in pieces of so many bytes: pieces BYTES <FILE | PROGRAM
// The pipe is put into packet mode, so that a read of it ends where a piece does, however far ahead this program is.
#define _GNU_SOURCE
#include <fcntl.h>
#include <stdio.h>
#include <stdlib.h>
#include <unistd.h>

static int fail(const char *what) {
    perror(what);
    return 1;
}

int main(int count, char **words) {
    static char piece[4096]; // the most that one packet has
    size_t bytes = count == 2 ? strtoul(words[1], NULL, 10) : 0;
    if (bytes < 1 || bytes > sizeof piece) {
        fprintf(stderr, "usage: pieces BYTES, from 1 to %zu\n", sizeof piece);
        return 2;
    }
    if (fcntl(STDOUT_FILENO, F_SETFL, O_DIRECT) != 0) return fail("standard output is no pipe that takes packets");
    for (;;) {
        size_t got = fread(piece, 1, bytes, stdin);
        if (got == 0) return ferror(stdin) ? fail("reading") : 0;
        if (write(STDOUT_FILENO, piece, got) != (ssize_t)got) return fail("writing");
    }
}
