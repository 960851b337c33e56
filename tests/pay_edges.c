/* pay_edges: the pay system's entries with answers of 0 to 32 bytes, between bytes that nobody lends. What is returned stands in the answer too; an
 * answer of another length than 16 is refused 2 and stays; and no byte beside the answer is touched. Prints what is wrong. */
#include <stdio.h>
#include <string.h>

#include "pcd.h"

#define MARGIN 24
#define MOST 32

enum { VOTE_BYTES, VOTE_BITS, INSTANT, BAD_TIME, SHORT_TIME, NUMBER, BAD_NUMBER, FIND, HALF_AN_INSTANT, CALLS };

static const uint8_t TIME[PCD_TIME] = {0x71, 0x23, 0x04, 0x56, 0x07, 0x89, 0x0F};
static const uint8_t ZEROS[24] = {0};

/* The number that a call is refused with, and its result, by papers 01 and 02. */
static const struct {
    uint8_t refusal;
    uint64_t result;
} WANTED[CALLS] = {
    {0, PCD_PAY_SPLIT},
    {0, 0x17},
    {0, 170319486255u},
    {PCD_TIME_OUT_OF_RANGE, 0},
    {PCD_WRONG_LENGTH, 0},
    {0, 0},
    {PCD_NOT_NORMALISED, 0},
    {0, ((uint64_t)3 << 32) + 2},
    {PCD_WRONG_LENGTH, 0},
};

static uint8_t call(int which, uint8_t *answer, size_t length)
{
    switch (which) {
    case VOTE_BYTES: return pcd_pay_vote_bytes(0x0F, 0x33, 0x55, answer, length);
    case VOTE_BITS: return pcd_pay_vote_bits(0x0F, 0x33, 0x55, answer, length);
    case INSTANT: return pcd_pay_instant(TIME, PCD_TIME, 2000, answer, length);
    case BAD_TIME: return pcd_pay_instant(ZEROS, PCD_TIME, 2000, answer, length);
    case SHORT_TIME: return pcd_pay_instant(TIME, PCD_TIME - 1, 1998, answer, length);
    case NUMBER: return pcd_pay_number(ZEROS, PCD_NUMBER, answer, length);
    case BAD_NUMBER: return pcd_pay_number(TIME + 1, PCD_NUMBER, answer, length);
    case FIND: return pcd_pay_find(ZEROS, 24, 0, answer, length);
    default: return pcd_pay_find(ZEROS, 12, 0, answer, length);
    }
}

static void put(uint64_t n, uint8_t *bytes)
{
    for (int i = 0; i < 8; i++)
        bytes[i] = (uint8_t)(n >> (56 - 8 * i));
}

static int trial(int which, size_t length)
{
    uint8_t lent[MARGIN + MOST + MARGIN], wanted[sizeof lent];
    for (size_t i = 0; i < sizeof lent; i++)
        wanted[i] = lent[i] = (uint8_t)(0xA5 + 7 * i);
    uint8_t number = PCD_WRONG_LENGTH;
    if (length == PCD_PAY_ANSWER) {
        number = WANTED[which].refusal;
        put(number, wanted + MARGIN);
        put(WANTED[which].result, wanted + MARGIN + 8);
    }
    if (call(which, lent + MARGIN, length) == number && memcmp(lent, wanted, sizeof lent) == 0)
        return 0;
    printf("call %d with an answer of %u bytes\n", which, (unsigned)length);
    return 1;
}

int main(void)
{
    int failed = 0;
    for (int which = 0; which < CALLS; which++)
        for (size_t length = 0; length <= MOST; length++)
            failed |= trial(which, length);
    return failed;
}
