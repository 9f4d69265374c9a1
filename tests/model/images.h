/* Random images by seed: good ones, and damaged ones. */
#ifndef IMAGES_H
#define IMAGES_H
#include "choose.h"

enum { LARGEST_IMAGE = 8 * MAX_WORDS + 112 * MAX_DESCRIPTORS, IMAGE_ROOM = LARGEST_IMAGE + 256 };

struct image {
    u64 n, k;                           /* as told to recovery: not always the sizes that the bytes were made for */
    size_t length;
    int good, by_machine;               /* not damaged, so it passes; what the machine m persists now, and not damaged */
    unsigned char bytes[IMAGE_ROOM];
};

void make_image(u64 from, struct image *im);            /* that of seed `from`; leaves the random numbers at a place that it fixes */
void full_image(struct image *im);                      /* n = 64, k = 16, all live, each with four words that point to it */
void put_copy(const struct copy *c, struct image *im);  /* as n words and k descriptors */
u64 rubbish(void);

/* ---- damage.c ---- */
void damage_copy(struct copy *c, u64 n, u64 k);         /* one thing in what the memory holds; not always to a bad one */
void damage_bytes(struct image *im);                    /* a bit, a byte or a number */
void damage_sizes(struct image *im);                    /* the length, n or k */
#endif
