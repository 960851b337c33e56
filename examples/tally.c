/* tally [FILE]: the tally of a file, or of standard input, printed as bin/pcd-tally prints it. Ends with status 1, and no tally, where the
 * input cannot be read to its end. */
#include <inttypes.h>
#include <stdio.h>

#include "pcd.h"

#define PIECE 65536

static const struct {
    const char *name;
    int place;
} LINES[] = {
    {"bytes", PCD_BYTES}, {"fill", PCD_FILL}, {"stray", PCD_STRAY},
    {"voted", PCD_VOTED}, {"split", PCD_SPLIT}, {"weak1", PCD_WEAK1},
    {"weak2", PCD_WEAK2}, {"weak3", PCD_WEAK3}, {"open", PCD_OPEN},
    {"hunted", PCD_HUNTED}, {"good", PCD_GOOD}, {"damaged", PCD_DAMAGED},
    {"unsynced", PCD_UNSYNCED}, {"placed", PCD_PLACED}, {"majors", PCD_MAJORS},
    {"broken", PCD_BROKEN}, {"loose", PCD_LOOSE}, {"building", PCD_BUILDING},
};

static uint64_t numbers[PCD_NUMBERS];
static uint8_t frame[PCD_MINOR_FRAME];
static uint8_t area[PCD_MAJOR_FRAME];

/* Takes all of a piece: a call that stops at a major frame is followed by one with the rest. The number of the refusal, 0 for none. */
static uint8_t take_all(const uint8_t *piece, size_t length)
{
    size_t at = 0;
    while (at < length) {
        uint64_t answer[2];
        uint8_t refusal = pcd_take(numbers, frame, piece + at, length - at, area, sizeof area, answer);
        if (refusal != 0)
            return refusal;
        at += answer[0];
        /* Where answer[1] is 1, the area holds a major frame, whole until the next call. */
    }
    return 0;
}

static int read_all(FILE *file)
{
    static uint8_t piece[PIECE];
    size_t length;
    while ((length = fread(piece, 1, sizeof piece, file)) != 0) {
        uint8_t refusal = take_all(piece, length);
        if (refusal != 0) {
            fprintf(stderr, "tally: refused %u\n", (unsigned)refusal);
            return 1;
        }
    }
    if (ferror(file)) {
        perror("tally");
        return 1;
    }
    return 0;
}

int main(int argc, char **argv)
{
    FILE *file = argc > 1 ? fopen(argv[1], "rb") : stdin;
    if (file == NULL) {
        perror(argv[1]);
        return 1;
    }
    pcd_fresh(PCD_BY_BYTES, numbers, frame);
    if (read_all(file) != 0)
        return 1;
    printf("PCD TALLY 2\n");
    for (size_t i = 0; i < sizeof LINES / sizeof LINES[0]; i++)
        printf("%s %" PRIu64 "\n", LINES[i].name, numbers[LINES[i].place]);
    return fflush(stdout) == 0 ? 0 : 1;
}
