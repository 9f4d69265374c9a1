/* Recovery of a PMwCAS memory image after a power cut.

   An image is n words (1 to 64), then k descriptors (1 to 16) of 112 bytes each: status, count, and four entries of address, expected and
   desired. Every number is 8 bytes, little-endian. Bit 63 of a word is the dirty bit, bit 62 says that it is a pointer, bit 61 is zero; the bits below are
   a value, or the number of a descriptor. A status is 0 (Free), 1 (Undecided), 2 (Succeeded) or 3 (Failed), the last two with or without bit 63. A
   descriptor that is not Free has 1 to 4 entries; their addresses are word numbers that ascend, expected and desired are below 2^61. The value of a
   pointer is its descriptor's desired for that address where the status is Succeeded, dirty or not, and else expected. The entries of a Free
   descriptor, and those past the count, are not looked at.

   pmwcas_recover works in place, from descriptor 0, and performs at most `allowance` steps; 160 are always enough. A Free descriptor takes one step, one
   of c entries 2c+2. A call begins at descriptor 0 again, so that allowances which end before the first live descriptor is Free bring it no further,
   however often they are given. Every word keeps its value, and once the answer is PMWCAS_COMPLETE every descriptor is Free and every word a plain
   value (bit 63 of a word that was plain before stays). A refused image is not touched.

   `length` is the number of bytes at `image`; nothing outside is read or written. The archive is for x86-64. */
#ifndef PMWCAS_RECOVERY_H
#define PMWCAS_RECOVERY_H

#include <stddef.h>
#include <stdint.h>

#ifdef __cplusplus
extern "C" {
#endif

enum {
    PMWCAS_COMPLETE = 0,      /* every descriptor has been visited */
    PMWCAS_INCOMPLETE = 256,  /* the allowance was used up before */
    PMWCAS_BAD_SIZES = 1,     /* n is not 1 to 64, or k not 1 to 16 */
    PMWCAS_BAD_LENGTH = 20,   /* length is not 8n + 112k */
    PMWCAS_BAD_STATUS = 21,   /* a status that is not one of those above */
    PMWCAS_BAD_BODY = 22,     /* a descriptor in use: its count, an address or a value is out of range, or its addresses do not ascend */
    PMWCAS_BAD_WORD = 23,     /* a word that is neither a value nor a pointer */
    PMWCAS_BAD_POINTER = 24   /* a pointer to no descriptor, to a Free one, or to one without that address */
};

typedef struct {
    uint64_t answer; /* one of the above */
    uint64_t steps;  /* the steps taken; 0 for a refused image */
} pmwcas_recovery;

pmwcas_recovery pmwcas_recover(uint64_t n, uint64_t k, unsigned char *image, size_t length, uint64_t allowance);

#ifdef __cplusplus
}
#endif

#endif
