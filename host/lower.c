/*
 * A build host in C: lowers the record in the file named on the command line, or on standard input, and prints its lines or
 * `refused=N`; with --all the sections of all its packets and structs. The exit status is 0 for lines, 1 for a refusal, and 2 where
 * the record cannot be read or the lines not written.
 */
#include <stdio.h>
#include <string.h>

#include "ruphwenqo.h"

/* One byte more than a record may have: a longer input is refusal 1, whatever follows. */
static uint8_t record[RUPHWENQO_RECORD_MAX + 1];
static uint8_t lines[RUPHWENQO_ALL_ROOM];

int main(int argc, char **argv)
{
    int all = argc > 1 && strcmp(argv[1], "--all") == 0;
    const char *name = argc > 1 + all ? argv[1 + all] : NULL;
    if (argc > 2 + all) {
        fprintf(stderr, "usage: %s [--all] [RECORD]\n", argv[0]);
        return 2;
    }
    FILE *input = stdin;
    if (name != NULL && (input = fopen(name, "rb")) == NULL) {
        perror(name);
        return 2;
    }
    size_t length = fread(record, 1, sizeof record, input);
    if (ferror(input)) {
        perror(name != NULL ? name : "standard input");
        return 2;
    }

    /* 65,536 bytes for one target, as the program `lower` lends; for all of them what holds every file. */
    uint64_t number = all ? lower_all(record, length, lines, sizeof lines) : lower(record, length, lines, RUPHWENQO_LINES_ROOM);

    uint32_t answer = ruphwenqo_answer(number);
    if (answer != 0)
        printf("refused=%u\n", (unsigned)answer);
    else
        fwrite(lines, 1, ruphwenqo_length(number), stdout);
    if (fflush(stdout) != 0 || ferror(stdout)) {
        perror("standard output");
        return 2;
    }
    return answer == 0 ? 0 : 1;
}
