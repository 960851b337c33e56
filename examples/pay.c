/* pay: a wage slip of two shifts. From the times of the recorded major frames, as they stand on the reel, it finds how many were complete by the end
 * of each shift, and pays them at a rate that is itself a number of word 72; then it settles the words that were disputed. It calls all entries for
 * the pay system, and is plain C99 that C++ takes too. */
#include <inttypes.h>
#include <stdio.h>
#include <stdlib.h>
#include <string.h>

#include "pcd.h"

#define YEAR 2000
#define INSTANT 8
#define TICKS_AN_HOUR 57600000

/* The times of the frames: spacecraft 7, day 260, then hours, minutes, seconds, milliseconds and sixteenths in decimal digits. One is scratched. */
static const uint8_t FRAMES[][PCD_TIME] = {
    {0x72, 0x60, 0x05, 0x59, 0x58, 0x00, 0x00}, {0x72, 0x60, 0x06, 0x30, 0x00, 0x12, 0x5F}, {0x72, 0x60, 0x07, 0x15, 0x30, 0x50, 0x00},
    {0x72, 0x60, 0x1A, 0x15, 0x30, 0x50, 0x00}, {0x72, 0x60, 0x13, 0x59, 0x59, 0x99, 0x9F}, {0x72, 0x60, 0x14, 0x00, 0x00, 0x00, 0x00},
    {0x72, 0x60, 0x14, 0x00, 0x00, 0x00, 0x01}, {0x72, 0x60, 0x21, 0x07, 0x08, 0x09, 0x00},
};

#define COUNT (sizeof FRAMES / sizeof FRAMES[0])

/* Where the first shift begins, and where each ends. */
static const uint8_t CHANGES[][PCD_TIME] = {{0x72, 0x60, 0x06}, {0x72, 0x60, 0x14}, {0x72, 0x60, 0x22}};

/* 0.78125 * 2^4 for a frame */
static const uint8_t RATE[PCD_NUMBER] = {0x64, 0x00, 0x00, 0x04, 0x00, 0x00};

static uint64_t number_of(const uint8_t *bytes)
{
    uint64_t n = 0;
    for (int i = 0; i < 8; i++)
        n = n * 256 + bytes[i];
    return n;
}

/* The result of an answer that is not refused; else the program ends. */
static uint64_t result_of(const uint8_t answer[PCD_PAY_ANSWER])
{
    if (number_of(answer) != 0) {
        fprintf(stderr, "pay: refused %" PRIu64 "\n", number_of(answer));
        exit(1);
    }
    return number_of(answer + 8);
}

/* Reads the times of the frames into a list of instants, and says which were scratched. How many bytes the list then has. */
static size_t read_times(uint8_t *instants)
{
    size_t length = 0;
    for (size_t i = 0; i < COUNT; i++) {
        uint8_t answer[PCD_PAY_ANSWER];
        uint8_t refusal = pcd_pay_instant(FRAMES[i], PCD_TIME, YEAR, answer, sizeof answer);
        if (refusal != 0) {
            printf("frame %u: its time is refused %u, not paid\n", (unsigned)i, (unsigned)refusal);
            continue;
        }
        /* An instant is looked up as it stands in the answer, first byte highest. */
        memcpy(instants + length, answer + 8, INSTANT);
        length += INSTANT;
    }
    return length;
}

/* How many frames were complete by a change of shift: the place of the last of them plus one. */
static uint64_t complete_by(const uint8_t *change, const uint8_t *instants, size_t length)
{
    uint8_t answer[PCD_PAY_ANSWER];
    pcd_pay_instant(change, PCD_TIME, YEAR, answer, sizeof answer);
    uint64_t end = result_of(answer);
    pcd_pay_find(instants, length, end, answer, sizeof answer);
    uint64_t found = result_of(answer);
    printf("  by %02u:00 %u frames", (unsigned)(end / TICKS_AN_HOUR % 24), (unsigned)(found >> 32));
    printf(", %u looked at\n", (unsigned)(found & 0xFFFFFFFF));
    return found >> 32;
}

static double rate(void)
{
    uint8_t answer[PCD_PAY_ANSWER];
    double x;
    pcd_pay_number(RATE, sizeof RATE, answer, sizeof answer);
    uint64_t bits = result_of(answer);
    memcpy(&x, &bits, sizeof x);
    return x;
}

static void pay_shifts(const uint8_t *instants, size_t length)
{
    uint64_t before = complete_by(CHANGES[0], instants, length);
    for (int shift = 1; shift <= 2; shift++) {
        uint64_t after = complete_by(CHANGES[shift], instants, length);
        unsigned frames = (unsigned)(after - before);
        printf("shift %d: %u frames at %.2f, to pay %.2f\n", shift, frames, rate(), frames * rate());
        before = after;
    }
}

static void settle(uint8_t a, uint8_t b, uint8_t c)
{
    uint8_t answer[PCD_PAY_ANSWER];
    printf("copies %02X %02X %02X: ", (unsigned)a, (unsigned)b, (unsigned)c);
    pcd_pay_vote_bytes(a, b, c, answer, sizeof answer);
    if (result_of(answer) == PCD_PAY_SPLIT)
        printf("split by bytes");
    else
        printf("%02X by bytes", (unsigned)result_of(answer));
    pcd_pay_vote_bits(a, b, c, answer, sizeof answer);
    printf(", %02X by bits\n", (unsigned)result_of(answer));
}

int main(void)
{
    static uint8_t instants[INSTANT * COUNT];
    size_t length = read_times(instants);
    pay_shifts(instants, length);
    settle(0xFA, 0xFA, 0xFA);
    settle(0xFA, 0xF3, 0xFA);
    settle(0x0F, 0x33, 0x55);
    return fflush(stdout) == 0 ? 0 : 1;
}
