/*
 * The settings carrier: sheets of settings to files of strips, and back.
 *
 * A call answers 0, or the number of the first check that refuses it; the numbers are those of docs/CARRIER.md.
 *
 * Each buffer is a pointer and then a length, counted in elements. A pointer is not null and is aligned for its type,
 * also where the length is 0, and points to that many elements. What a call writes to overlaps nothing else that it is
 * given. No call allocates, keeps a pointer, or shares anything with another call. A read takes about 75 KiB of stack,
 * a decode 49 KiB and a write 10 KiB, as measured.
 *
 * A field is given by two numbers: 1 and a listed prime modulus, or 2 and 285 for GF(256). The code is the evaluation
 * code of k coefficients at the points 0 to n - 1: n is from 1 to 128 and at most the field's size, k is from 1 to n.
 */
#ifndef SETTINGS_CARRIER_H
#define SETTINGS_CARRIER_H

#include <stddef.h>
#include <stdint.h>

#ifdef __cplusplus
extern "C" {
#endif

/* How a file was received. What is not reported is 0. */
struct carrier_report {
    uint8_t kind;     /* the heading: 1 for a prime field, 2 for GF(256) */
    uint8_t n;        /* how many numbers a word has */
    uint8_t k;        /* how many numbers a row of the sheet has */
    uint8_t depth;    /* how many rows the sheet has */
    uint16_t modulus; /* the modulus, or 285 */
    size_t kept;      /* how many places hold a strip */
    size_t declined;  /* how many strips were declined */
    size_t wrong;     /* how many of the numbers kept are wrong */
    size_t place;     /* the place of a refusal */
    size_t row;       /* the row of a refusal */
};

/* What a call counted, or where it was refused. What is not reported is 0. */
struct carrier_tally {
    size_t count; /* the bytes of the file written, or the wrong numbers of the word decoded */
    size_t place; /* the place of a refusal */
};

/*
 * Reads the sheet that a file of at most 65,535 bytes carries.
 *
 * 0: the sheet's first depth * k numbers are its rows one after another, and the rest of it is as it was; the report has
 * the heading and how the strips fared, and place and row 0.
 *
 * Refusals, in this order: 20 (longer than 65,535 bytes or shorter than 8), 21 (no field), 22 (the back count), 2, 3, 4
 * and 14 (n, k, a point or the depth is unfit), 19 (the sheet is shorter than depth * k), 13 (a row has no message within
 * reach). Then the sheet is as it was, and the report has the place and the row, and 0 elsewhere. A sheet of 2,048
 * numbers is never too short.
 */
uint32_t carrier_read(const uint8_t *file, size_t file_length, uint16_t *sheet, size_t sheet_length,
                      struct carrier_report *report);

/*
 * Writes the file of a sheet of depth rows of k numbers.
 *
 * 0: the file is the output's first n * (1 + 2 * depth) + 8 bytes, which is the count, and the rest of the output is as it
 * was.
 *
 * Refusals, in this order: 21 (no field), 2, 3, 4 and 14 (n, k, a point or the depth is unfit), 19 (the sheet has not
 * depth * k numbers), 11 (a number is not below the field's size; place: the first such), 23 (the output is shorter than
 * the file). Then the output is as it was, the count is 0, and the place is that of the refusal.
 */
uint32_t carrier_write(uint8_t kind, uint16_t modulus, uint8_t n, uint8_t k, uint8_t depth, const uint16_t *sheet,
                       size_t sheet_length, uint8_t *output, size_t output_length, struct carrier_tally *tally);

/*
 * Decodes one word of n numbers. A place whose mark is not 0 is missing, and its number is not looked at.
 *
 * 0: the message, of k numbers, is the one within reach: twice the wrong numbers plus the missing places is at most
 * n - k. The count is that of the wrong numbers.
 *
 * Refusals, in this order: 21 (no field), 2, 3 and 4 (n, k or a point is unfit), 10 (there are not n received numbers or
 * not n marks), 9 (the message's buffer has not k numbers), 11 (a number at an unmarked place is not below the field's
 * size; place: the first such), 13 (no message is within reach). Then the message is as it was, the count is 0, and the
 * place is that of the refusal.
 */
uint32_t carrier_decode(uint8_t kind, uint16_t modulus, uint8_t n, uint8_t k, const uint16_t *received,
                        size_t received_length, const uint8_t *marks, size_t marks_length, uint16_t *message,
                        size_t message_length, struct carrier_tally *tally);

#ifdef __cplusplus
}
#endif

#endif
