/* Recovery of a memory image, written from document 01 ("Images for the C runtime") and its readings alone. */
#ifndef RECOVER_H
#define RECOVER_H
#include <stddef.h>
#include <stdint.h>

/* An image: n words, then k descriptors of status, count and four entries of three numbers; a number is 8 bytes, little-endian. */
enum { NUMBER = 8, ENTRY = 24, DESCRIPTOR = 112 };
enum { COUNT_AT = 8, ENTRIES_AT = 16, EXPECTED_AT = 8, DESIRED_AT = 16 };      /* within a descriptor; within an entry */

/* Answers: the number of a refusal, or one of these. */
enum { COMPLETE = 0, INCOMPLETE = 256 };

struct recovered { uint64_t answer, steps; };
struct recovered model_recover(uint64_t n, uint64_t k, unsigned char *image, size_t length, uint64_t allowance);

static inline uint64_t number_at(const unsigned char *b) {
    return (uint64_t)b[0] | (uint64_t)b[1] << 8 | (uint64_t)b[2] << 16 | (uint64_t)b[3] << 24 | (uint64_t)b[4] << 32
         | (uint64_t)b[5] << 40 | (uint64_t)b[6] << 48 | (uint64_t)b[7] << 56;
}

static inline void set_number(unsigned char *b, uint64_t x) {
    b[0] = (unsigned char)x, b[1] = (unsigned char)(x >> 8), b[2] = (unsigned char)(x >> 16), b[3] = (unsigned char)(x >> 24);
    b[4] = (unsigned char)(x >> 32), b[5] = (unsigned char)(x >> 40), b[6] = (unsigned char)(x >> 48), b[7] = (unsigned char)(x >> 56);
}
#endif
