/* Plays the run file that is named on the command line, or the one on standard input, and prints the report. */

#include <errno.h>
#include <stdio.h>
#include <stdlib.h>
#include <string.h>

#include "queue_bench.h"

/* One byte more than the longest lawful file is enough to tell that a file is too long. */
#define FILE_ROOM 49153
/* Every report fits in here. */
#define AREA_LENGTH 65536

static uint8_t file[FILE_ROOM];
static uint8_t area[AREA_LENGTH];

static int fail(const char *what)
{
    fprintf(stderr, "%s: %s\n", what, strerror(errno));
    return EXIT_FAILURE;
}

int main(int argc, char **argv)
{
    if (argc > 2) {
        fprintf(stderr, "usage: %s [RUN-FILE]\n", argv[0]);
        return EXIT_FAILURE;
    }
    const char *name = argc == 2 ? argv[1] : "standard input";
    FILE *input = argc == 2 ? fopen(name, "rb") : stdin;
    if (input == NULL)
        return fail(name);
    size_t file_length = fread(file, 1, FILE_ROOM, input);
    if (ferror(input))
        return fail(name);

    int64_t length = queue_bench_play(file, file_length, area, AREA_LENGTH);
    if (length < 0) {
        fprintf(stderr, "%s: the call answered %lld\n", name, (long long)length);
        return EXIT_FAILURE;
    }
    if (fwrite(area, 1, (size_t)length, stdout) != (size_t)length || fflush(stdout) != 0)
        return fail("standard output");
    return EXIT_SUCCESS;
}
