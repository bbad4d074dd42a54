/*
 * The carrier once more, from the rules of docs/CARRIER.md alone, by other algorithms than the library's: fields by
 * tables of logarithms and by remainders, Newton's interpolation, and Gao's decoder, which stops Euclid's algorithm
 * halfway. Nothing in it is fast or sparing.
 */
#ifndef INDEPENDENT_H
#define INDEPENDENT_H

#include <stdbool.h>
#include <stddef.h>
#include <stdint.h>

/* A refusal, or number 0. */
struct verdict {
    uint32_t number;
    size_t place;
    size_t row;
};

/* A field: its size, and whether its numbers are bytes and not remainders. */
struct field {
    uint32_t size;
    bool bytes;
};

/* What a file was found to hold, where its verdict is 0. */
struct finding {
    uint8_t kind, n, k, depth;
    uint16_t modulus;
    size_t kept, declined, wrong;
    uint16_t sheet[16 * 128];
};

/* The field of these two numbers, if they name one. */
bool field_named(uint8_t kind, uint16_t modulus, struct field *field);

/* The value at x of the polynomial with these coefficients, the constant first. */
uint32_t value_at(const struct field *f, const uint16_t *coefficients, size_t count, uint32_t x);

/* Looks for the message within reach by Gao's decoder; answers false where there is none. */
bool find_message(const struct field *f, size_t n, size_t k, const uint16_t *received, const uint8_t *marks,
                  uint16_t *message, size_t *wrong);

/* The same by trying every message: only for few and short ones. */
bool try_messages(const struct field *f, size_t n, size_t k, const uint16_t *received, const uint8_t *marks,
                  uint16_t *message, size_t *wrong);

/* The whole of decoding one word, with its checks. */
struct verdict decode_word(uint8_t kind, uint16_t modulus, uint8_t n, uint8_t k, const uint16_t *received,
                           size_t received_length, const uint8_t *marks, size_t marks_length, uint16_t *message,
                           size_t message_length, size_t *wrong);

/* The whole of writing a file, with its checks. */
struct verdict write_file(uint8_t kind, uint16_t modulus, uint8_t n, uint8_t k, uint8_t depth, const uint16_t *sheet,
                          size_t sheet_length, uint8_t *output, size_t output_length, size_t *length);

/* The whole of reading a file for a sheet with so much room, with its checks. */
struct verdict read_file(const uint8_t *file, size_t length, size_t room, struct finding *finding);

#endif
