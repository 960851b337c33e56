/*
 * Landsat 7 payload correction data (PCD): the proved library for programs in C.
 *
 *     bench/archive.sh bridge                              target/staticlib/libbridge.a: the reader and the writer
 *     cc -I include program.c target/staticlib/libbridge.a
 *
 * The other archives are made and linked likewise, and any of them together:
 *
 *     word72_api    word 72 and its codecs
 *     book_api      the lookup, books of cycles, the records of a cycle
 *     frame_api     VCDU headers, the frame store, the data pointer
 *     pay_api       pcd_pay_..
 *
 * Every function returns the number of its refusal, 0 for none. A refused call leaves all lent memory as it was, but for what pcd_fresh,
 * pcd_book_check and pcd_pay_.. say of theirs. Where several refusals apply, the first in this order is given: 15; 1, 14, 2, 3, 4, 5, 13, 6 to 12,
 * 16 to 29; but 4 goes before 2 where a length depends on the spacing, and a book of fewer than 4 bytes is 16.
 *
 * What a caller owes: each pointer leads to as many elements as its array or its count says, none is NULL (with a count of 0 too), and
 * no two of them overlap. Everything else is tested. Nothing is kept between calls but what the caller lends.
 *
 * A slice crosses as a pointer and the count of its elements, as piece and piece_len. A plain array, as numbers[PCD_NUMBERS], has its length in its
 * type: it crosses as a pointer alone, and no count of it can be wrong.
 */
#ifndef PCD_H
#define PCD_H

#include <stddef.h>
#include <stdint.h>

#ifdef __cplusplus
extern "C" {
#endif

/* ---- Refusals */

#define PCD_NOT_IN_ORDER 1       /* the tally is not in order, or its numbers are no tally's */
#define PCD_WRONG_LENGTH 2       /* a lent area, column, source or output has another length than it must have */
#define PCD_TOO_MANY_BYTES 3     /* the bytes so far and the piece are more than 2^40 */
#define PCD_SPACING_TOO_WIDE 4   /* the spacing is above 60 */
#define PCD_NOT_A_MINOR_FRAME 5  /* a minor frame to write lacks its sync words, or its number is above 127 */
#define PCD_NO_SUCH_KIND 6       /* the kind is above 3; or a column has none */
#define PCD_NO_SUCH_ITEM 7       /* the kind has no such item */
#define PCD_TIME_OUT_OF_RANGE 8  /* a digit or a field of a time is out of range */
#define PCD_UPPER_BITS_SET 9     /* the upper four bits of a 12-bit item are not 0 */
#define PCD_NOT_NORMALISED 10    /* a six-byte number is not normalised */
#define PCD_NO_WORD_FOR_DOUBLE 11 /* a double has no six-byte word */
#define PCD_LIST_TOO_LONG 12     /* a list of instants is longer than 100,000 */
#define PCD_YEAR_OUTSIDE_SPAN 13 /* a year is outside 1999 to 2099; given before 6 */
#define PCD_NO_SUCH_OPERATOR 14  /* the operator's number is above 7 */
#define PCD_NO_SUCH_RULE 15      /* a fresh tally is asked for with another rule than 1 or 2 */
#define PCD_WRONG_BOOK_LENGTH 16 /* a book has another length than its cycles make, or more than 255 of them */
#define PCD_NOT_A_CYCLE 17       /* a body is not four major frames of kinds 0 to 3 of whole minor frames */
#define PCD_WRONG_INSTANT 18     /* an entry's instant is not its body's, or is no later than the one before */
#define PCD_WRONG_OFFSET 19      /* an entry's offset is not its body's */
#define PCD_NO_SUCH_ENTRY 20     /* the book has no such entry */
#define PCD_YEARS_DIFFER 21      /* two books are of different years */
#define PCD_NOT_A_HEADER 22      /* a VCDU header has another length than eight bytes */
#define PCD_NO_CODE_WORD 23      /* no code word lies within two symbols of a VCDU header's */
#define PCD_NOT_WHOLE_SLOTS 24   /* an area is not a whole number of slots of 16,384 bytes, 1 to 64 of them */
#define PCD_BITS_BEYOND_SLOTS 25 /* bits are set beyond the slots */
#define PCD_NO_FREE_SLOT 26      /* every slot is in use */
#define PCD_NO_SUCH_SLOT 27      /* a slot is not in use, or not there */
#define PCD_NO_SUCH_POINTER 28   /* a data pointer is above 84 */
#define PCD_TOO_MANY_FRAMES 29   /* the frames to go on are more than 2^24 - 1 */

/* ---- Sizes */

#define PCD_NUMBERS 33           /* the numbers of a tally */
#define PCD_MINOR_FRAME 128      /* the bytes of a minor frame */
#define PCD_MAJOR_FRAME 16384    /* the bytes of a major frame, and of the area that it is put together in */
#define PCD_COLUMN 128           /* word 72 of each minor frame of a major frame */
#define PCD_TIME 7               /* the bytes of a time code */
#define PCD_NUMBER 6             /* the bytes of a number of MIL-STD-1750, extended */
#define PCD_ENTRY 12             /* the bytes of an entry of a book: instant (8) and offset (4), first byte highest */
#define PCD_BODY 65536           /* the bytes of a body: four major frames */
#define PCD_COMPARISON 1530      /* the numbers of the table of a comparison: 510 lines of three */
#define PCD_PAY_ANSWER 16        /* the bytes of an answer to the pay system */

/* ---- The reader (libbridge.a)
 *
 * A tally is PCD_NUMBERS numbers and the minor frame that is being filled. The caller lends both, and hands them on from call to call as
 * they were left. The places of the numbers: */

enum {
    PCD_BYTES,      /* bytes = fill + stray + 4 * voted + 4 * split + open */
    PCD_FILL,
    PCD_STRAY,
    PCD_VOTED,      /* voted + split = hunted + 128 * (good + damaged + unsynced) + placed */
    PCD_SPLIT,
    PCD_OPEN,       /* 0 to 3 */
    PCD_FIRST,      /* the first copy of the last group, a byte */
    PCD_SECOND,     /* its second copy, a byte */
    PCD_HUNTED,
    PCD_GOOD,       /* good = 128 * majors + broken + loose + building */
    PCD_DAMAGED,
    PCD_UNSYNCED,
    PCD_PLACED,     /* 0 to 127 */
    PCD_HUNTING,    /* 1 while the reader hunts for the sync words, else 0 */
    PCD_MATCHED,    /* how many of them the last words are, 0 to 2 */
    PCD_ERASURE,    /* 1 where the frame being filled has a hole, else 0 */
    PCD_MAJORS,
    PCD_BROKEN,
    PCD_LOOSE,
    PCD_BUILDING,   /* 0 to 127 */
    PCD_WEAK1,      /* voted groups whose first copy alone disagreed; weak1 + weak2 + weak3 is at most voted */
    PCD_WEAK2,      /* whose second copy did */
    PCD_WEAK3,      /* whose third copy did */
    PCD_PAID0,      /* the major frames paid to operator 0; the eight add up to majors */
    PCD_PAID1,
    PCD_PAID2,
    PCD_PAID3,
    PCD_PAID4,
    PCD_PAID5,
    PCD_PAID6,
    PCD_PAID7,
    PCD_DUTY,       /* who is on duty, 0 to 7 */
    PCD_RULE        /* how a word is voted, PCD_BY_BYTES or PCD_BY_BITS; by bits no group is split */
};

/* The rules of the vote. */
#define PCD_BY_BYTES 1           /* the byte that at least two copies have; where all three differ the group is split */
#define PCD_BY_BITS 2            /* each bit is the one that at least two copies have */

/* Writes a fresh tally, which carries the rule to the end: it hunts, and is otherwise 0, so that operator 0 is on duty.
 *
 * Refused: 15, another rule. The fresh tally of PCD_BY_BYTES is then written all the same. */
uint8_t pcd_fresh(uint64_t rule, uint64_t numbers[PCD_NUMBERS], uint8_t frame[PCD_MINOR_FRAME]);

/* Takes a piece of the unpacked stream, of any length. The area has PCD_MAJOR_FRAME bytes, in which the caller does not write between calls.
 *
 * Accepted: the tally moves on; each minor frame of a run is put at 128 times its number in the area; answer[0] is how many bytes were
 * taken, answer[1] whether a major frame is complete, 1 or 0. Where one is, the area holds it, it is paid to the operator on duty, the call
 * stopped just after its last byte, and the next call goes on from there; else the whole piece was taken.
 *
 * Refused: 1, a copy is above 255, a flag above 1, or the tally is not in order; 2, the area's length; 3. Nothing is taken or written. */
uint8_t pcd_take(uint64_t numbers[PCD_NUMBERS], uint8_t frame[PCD_MINOR_FRAME], const uint8_t *piece, size_t piece_len, uint8_t *area,
                 size_t area_len, uint64_t answer[2]);

/* As pcd_take, but the call also stops just after the byte that ends a hunt. answer[0] is how many bytes were taken, answer[1] whether a major
 * frame is complete, answer[2] whether a hunt has ended; where neither is, the whole piece was taken. Refused as pcd_take of the whole piece. */
uint8_t pcd_take_to_lock(uint64_t numbers[PCD_NUMBERS], uint8_t frame[PCD_MINOR_FRAME], const uint8_t *piece, size_t piece_len, uint8_t *area,
                         size_t area_len, uint64_t answer[3]);

/* One step over a reel as it comes, with lead-ins or without, whose words may be lost: where a hunt ends on a frame's own sync, the three sync words
 * are handed to the reader once more, so that the frame is read where it lies. Beside the tally the caller lends feeder: feeder[0] is 1 where a
 * lock awaits the word that decides and 0 where none does, feeder[1] how many lead-ins were handed. Both are 0 at first; the tally's bytes are
 * those of the reel, and twelve for each lead-in. ends is 0 where more bytes may follow the piece, and another number where none do.
 *
 * Accepted: answer[0] is how many bytes of the piece were taken, and the next step goes on there; answer[1] whether a major frame is complete, and
 * the area holds it; answer[2] whether the bytes that were not taken must come again with more behind them. A step that takes no byte of a piece
 * that has some asks so.
 *
 * Refused: 1, as above, or the lock is none: feeder[0] above 1, or a lock that does not stand before a frame, or more lead-ins than the tally has
 * bytes for; 2, the area's length; 3, the piece and twelve bytes more are too many. Nothing is taken or written. */
uint8_t pcd_relock(uint64_t numbers[PCD_NUMBERS], uint8_t frame[PCD_MINOR_FRAME], uint64_t feeder[2], const uint8_t *piece, size_t piece_len,
                   uint64_t ends, uint8_t *area, size_t area_len, uint64_t answer[3]);

/* Puts an operator on duty, 0 to 7, and changes nothing else: the major frames that are complete from now on are paid to that operator.
 *
 * Refused: 1, as above; 14. Nothing is written. */
uint8_t pcd_change_duty(uint64_t numbers[PCD_NUMBERS], uint8_t frame[PCD_MINOR_FRAME], uint64_t operator_number);

/* ---- The writer (libbridge.a): for each byte SYNC, three copies and so many FILL as the spacing says, 0 to 60. */

/* Writes a lead-in, the three sync words, into exactly 3 * (4 + spacing) bytes. Refused: 4, 2. */
uint8_t pcd_write_lead_in(uint64_t spacing, uint8_t *out, size_t out_len);

/* Writes a minor frame of 128 bytes into exactly 128 * (4 + spacing) bytes. Refused: 4; 2, either length; 5. */
uint8_t pcd_write_minor_frame(uint64_t spacing, const uint8_t *frame, size_t frame_len, uint8_t *out, size_t out_len);

/* ---- Word 72 (libword72_api.a) */

/* Puts place 72 of each minor frame of an area of PCD_MAJOR_FRAME bytes into a column of PCD_COLUMN. Refused: 2, either length. */
uint8_t pcd_gather(const uint8_t *area, size_t area_len, uint8_t *column, size_t column_len);

/* The kind of a column recorded in a year, 0 to 3. Refused: 2; 13; 6, it has none. A time code of day 366 makes kind 0 only in a year that is
 * divisible by 4. */
uint8_t pcd_kind(uint64_t year, const uint8_t *column, size_t column_len, uint64_t *out);

/* How many items a kind has. Refused: 6. */
uint8_t pcd_item_count(uint64_t kind, uint64_t *out);

/* An item's form, as a number: */
enum { PCD_COUNT, PCD_TWELVE_BIT, PCD_FLAGS, PCD_DOUBLE, PCD_TIME_CODE, PCD_ZERO_FILL };

/* What an item is: its form, its first place in the column, its length. Refused: 6, 7. */
uint8_t pcd_describe(uint64_t kind, uint64_t item, uint64_t out[3]);

/* Whether an item's bytes can be had from a column; pcd_describe says where they lie. Refused: 2, 6, 7. */
uint8_t pcd_part_refusal(const uint8_t *column, size_t column_len, uint64_t kind, uint64_t item);

/* What an item of a column recorded in a year reads as. out[0] is the form that it is read by: PCD_COUNT for a 12-bit item too, PCD_ZERO_FILL for one too long
 * for a count. Then its values: a count; eight flags, the most significant bit first; spacecraft and instant. The rest of out is 0. A
 * PCD_DOUBLE goes to number, which otherwise stays. Refused: 2; 13, whatever the item; 6, 7, and by the item's form 8, 9 or 10. */
uint8_t pcd_read(uint64_t year, const uint8_t *column, size_t column_len, uint64_t kind, uint64_t item, uint64_t out[9], double *number);

/* ---- The codecs of word 72 (libword72_api.a) */

/* Reads a time code of PCD_TIME bytes in a year: out gets the spacecraft, 0 to 15, and the instant, in sixteenths of a millisecond, day * 24 hours and
 * on down. Refused: 2; 13; 8, a digit or a field is out of range, as day 366 is in a year that is not divisible by 4. */
uint8_t pcd_decode_time(uint64_t year, const uint8_t *bytes, size_t bytes_len, uint64_t out[2]);

/* Writes the PCD_TIME bytes of a spacecraft and an instant of a year. Refused: 2; 13; 8, a spacecraft above 15 or an instant outside days 1 to
 * the year's last. */
uint8_t pcd_encode_time(uint64_t year, uint64_t spacecraft, uint64_t instant, uint8_t *out, size_t out_len);

/* Reads a number of PCD_NUMBER bytes, exactly. Refused: 2, 10. */
uint8_t pcd_decode_number(const uint8_t *bytes, size_t bytes_len, double *out);

/* Writes the PCD_NUMBER bytes of a double. Refused: 2; 11, among others negative zero, infinities and not-a-numbers. */
uint8_t pcd_encode_number(double x, uint8_t *out, size_t out_len);

/* ---- The lookup (libbook_api.a) */

/* Finds the last instant at or before the wanted one, by halving: out gets its place plus one, 0 for none, and how many instants were looked
 * at. Of a list that does not rise, the place that halving comes to. Refused: 12. */
uint8_t pcd_find(const uint64_t *instants, size_t instants_len, uint64_t wanted, uint64_t out[2]);

/* ---- A book of cycles (libbook_api.a)
 *
 * The number of cycles and the year, 2 bytes each, first byte highest; an entry of PCD_ENTRY bytes for each cycle; then its body of PCD_BODY
 * bytes for each. */

/* Writes the book of a year, 1999 to 2099, and of n bodies that stand end to end, at most 255, into exactly 4 + n * (PCD_ENTRY + PCD_BODY)
 * bytes. Refused, in this order: 2, no whole number of bodies or another length of out; 13, 16, 17, 18. */
uint8_t pcd_book_write(uint64_t year, const uint8_t *bodies, size_t bodies_len, uint8_t *out, size_t out_len);

/* Whether the bytes are a book. Refused, in this order: 16, fewer than 4 bytes; 13, 16, 17, 18, 19. */
uint8_t pcd_book_view_refusal(const uint8_t *book, size_t book_len);

/* Checks a book that somebody else wrote: returns the number of its first fault, in the order 16 for fewer than 4 bytes, 13, 16, 17, 18, 19, and 0
 * where the book is what pcd_book_write gives for some year and some bodies. out gets the lowest entry that has the fault, 0 for 13 and 16 and
 * where there is none; it is written in every case. */
uint8_t pcd_book_check(const uint8_t *book, size_t book_len, uint64_t *out);

/* The number of cycles and the year that a book says. Only its length is tested. Refused: 16. */
uint8_t pcd_book_header(const uint8_t *book, size_t book_len, uint64_t out[2]);

/* Where entry i, or body i, stands in a book, and its length. Only the book's length is tested, and no offset in it is used. Refused: 16, 20. */
uint8_t pcd_book_entry(const uint8_t *book, size_t book_len, uint64_t i, uint64_t out[2]);
uint8_t pcd_book_body(const uint8_t *book, size_t book_len, uint64_t i, uint64_t out[2]);

/* How two books differ, into a table of PCD_COMPARISON numbers: lines of three by rising instant, which are the instant; 1 for only in the first, 2
 * for only in the second, 3 for in both with different bodies; the place in the body of the first byte that differs, 0 in cases 1 and 2.
 * lines gets how many there are; the rest of the table stays. Books are equal byte for byte exactly where there are none. Refused, in this order: 2,
 * another size of the table; those of pcd_book_view_refusal for the first, then for the second; 21. */
uint8_t pcd_book_compare(const uint8_t *first, size_t first_len, const uint8_t *second, size_t second_len, uint64_t *table, size_t table_len, uint64_t *lines);

/* ---- The records of a cycle (libbook_api.a)
 *
 * A cycle is PCD_BODY bytes, as a body of a book is. An instant is in sixteenths of a millisecond, as pcd_decode_time gives it: the cycle's time code
 * - 8.192 s, - 4.096 s, + 0 and + 4.096 s for the major frames 0 to 3. Every double is exact. Refused, each of them and in this order: 2, another length;
 * 13; 6, a major frame above 3; 17, no cycle of the year; and last what it says. */

/* The temperatures of a major frame, in degrees Celsius: the angular displacement sensors' X, Y and Z, and the PDF's. Refused: also 9. */
uint8_t pcd_temperatures(const uint8_t *cycle, size_t cycle_len, uint64_t year, uint64_t frame, double out[4]);

/* The drift of the gyros, X, Y and Z, in radians per second, at the instant of major frame 0. Refused: also 8, the instant is none of the year. */
uint8_t pcd_gyro_drift(const uint8_t *cycle, size_t cycle_len, uint64_t year, uint64_t *instant, double out[3]);

/* The Euler parameters 1 to 4 of a major frame, as signed counts, whose weight is not known. Refused: also 8. */
uint8_t pcd_attitude(const uint8_t *cycle, size_t cycle_len, uint64_t year, uint64_t frame, uint64_t *instant, int64_t out[4]);

/* The last update of the clock, in seconds from midnight of the year's first day, where an instant counts a day more; and the counts of its bias (ms),
 * its drift rate (ms/day) and its drift acceleration (ms/day^2), 0 to 65,535, whose weight and sign the book leaves open. Refused: also 10. */
uint8_t pcd_clock(const uint8_t *cycle, size_t cycle_len, uint64_t year, double *updated, uint64_t out[3]);

/* The position X, Y, Z in metres and the velocity X', Y', Z' in metres per millisecond of a major frame. Refused: also 8. */
uint8_t pcd_ephemeris(const uint8_t *cycle, size_t cycle_len, uint64_t year, uint64_t frame, uint64_t *instant, double out[6]);

/* ---- VCDU headers of eight bytes (libframe_api.a): bytes 0, 1 and 5 are six symbols of four bits, which the four check symbols in bytes 6 and 7 protect. The
 * counter in bytes 2 to 4 is not protected, and never changes. */

/* Writes the check symbols. Refused: 22. */
uint8_t pcd_encode_header(uint8_t *header, size_t header_len);

/* Whether the ten symbols are a code word: out gets 1 or 0. Refused: 22. */
uint8_t pcd_check_header(const uint8_t *header, size_t header_len, uint64_t *out);

/* Puts the only code word within two symbols into the header; out gets how many symbols were wrong. Refused: 22; 23, there is none. */
uint8_t pcd_repair_header(uint8_t *header, size_t header_len, uint64_t *out);

/* ---- Frames held in the slots of an area (libframe_api.a)
 *
 * The area is 1 to 64 slots of PCD_MAJOR_FRAME bytes; slot i begins at i * PCD_MAJOR_FRAME. The bits tell which are in use, 2^i for slot i: begin with
 * 0 and hand on what each call leaves. */

/* Puts a frame of PCD_MAJOR_FRAME bytes into the lowest free slot: slot gets it, bits those afterwards. Refused: 2, the frame's length; 24; 25; 26. */
uint8_t pcd_store(uint8_t *area, size_t area_len, uint64_t *bits, const uint8_t *frame, size_t frame_len, uint64_t *slot);

/* Frees a slot and writes nothing but the bits. Refused: 24, 25, 27. */
uint8_t pcd_release(const uint8_t *area, size_t area_len, uint64_t *bits, uint64_t slot);

/* Whether a slot holds a frame, which then stands in the area at slot * PCD_MAJOR_FRAME. Refused: 24, 25, 27. */
uint8_t pcd_slot_refusal(const uint8_t *area, size_t area_len, uint64_t bits, uint64_t slot);

/* ---- The data pointer, 0 to 84 (libframe_api.a) */

/* The pointer of the next frame. Refused: 28. */
uint8_t pcd_next_pointer(uint64_t p, uint64_t *out);

/* The pointer of the frame before. Refused: 28. */
uint8_t pcd_previous_pointer(uint64_t p, uint64_t *out);

/* The pointer n frames on, n up to 2^24 - 1. Refused: 28, 29. */
uint8_t pcd_pointer_after(uint64_t p, uint64_t n, uint64_t *out);

/* The smallest number of frames from p on to q, 0 to 84. Refused: 28, either pointer. */
uint8_t pcd_pointer_distance(uint64_t p, uint64_t q, uint64_t *out);

/* ---- The pay system (libpay_api.a)
 *
 * Each of these writes an answer of PCD_PAY_ANSWER bytes: the number of the refusal (8 bytes), then the result (8 bytes, 0 when refused), first byte
 * highest. It is written after a refusal too. An answer of another length is refused 2 before all else, and then nothing is written. What is
 * returned is the number of the refusal, 0 for none. */

#define PCD_PAY_SPLIT 256        /* the result of a vote that gives no word */

/* The byte that at least two of three copies have, PCD_PAY_SPLIT where all three differ. Refused: 2, the answer's length. */
uint8_t pcd_pay_vote_bytes(uint8_t a, uint8_t b, uint8_t c, uint8_t *answer, size_t answer_len);

/* The byte of which each bit is the one that at least two of three copies have. Refused: 2, the answer's length. */
uint8_t pcd_pay_vote_bits(uint8_t a, uint8_t b, uint8_t c, uint8_t *answer, size_t answer_len);

/* The instant of a time of PCD_TIME bytes in a year, as of pcd_decode_time. Refused: 2, either length; 13; 8. */
uint8_t pcd_pay_instant(const uint8_t *bytes, size_t bytes_len, uint64_t year, uint8_t *answer, size_t answer_len);

/* The 64 bits of the double that PCD_NUMBER bytes are, as of pcd_decode_number. Refused: 2, either length; 10. */
uint8_t pcd_pay_number(const uint8_t *bytes, size_t bytes_len, uint8_t *answer, size_t answer_len);

/* Finds the last instant at or before the wanted one, as pcd_find does, among instants of eight bytes each, first byte highest: the result has its
 * place plus one in the upper 32 bits, 0 for none, and how many instants were looked at in the lower. Refused: 2, either length; 12. */
uint8_t pcd_pay_find(const uint8_t *instants, size_t instants_len, uint64_t wanted, uint8_t *answer, size_t answer_len);

#ifdef __cplusplus
}
#endif

#endif
