/* The fault that started this: a recovery that compares a status word with Succeeded for equality, and forgets the dirty bit that it may still carry. On the
   persisted image of run (a) it takes the operation for failed and the swap is lost; ours keeps it. */
#include "pmwcas_recovery.h"
#include <stdio.h>
#include <string.h>

#define DIRTY (UINT64_C(1) << 63)
#define POINTER (UINT64_C(1) << 62)

static uint64_t get(const unsigned char *p)
{
    uint64_t v = 0;
    for (int i = 7; i >= 0; i--)
        v = v << 8 | p[i];
    return v;
}

static void put(unsigned char *p, uint64_t v)
{
    for (int i = 0; i < 8; i++)
        p[i] = (unsigned char)(v >> 8 * i);
}

/* one word, one descriptor: what run (a) leaves in persistent memory when the power is cut */
static void image_of_run_a(unsigned char *image)
{
    memset(image, 0, 120);
    put(image, DIRTY | POINTER);  /* word 0 points to descriptor 0 */
    put(image + 8, DIRTY | 2);    /* Succeeded, dirty */
    put(image + 16, 1);           /* one entry: address 0, from 0 to 5 */
    put(image + 40, 5);
}

/* the faulty recovery */
static void recover_by_equality(unsigned char *image)
{
    uint64_t value = get(image + 8) == 2 ? get(image + 40) : get(image + 32);
    if (get(image) & POINTER)
        put(image, value);
    put(image + 8, 0);
}

int main(void)
{
    unsigned char faulty[120], ours[120];
    image_of_run_a(faulty);
    image_of_run_a(ours);
    recover_by_equality(faulty);
    pmwcas_recovery r = pmwcas_recover(1, 1, ours, sizeof ours, 160);
    printf("status compared for equality: word 0 is %llu\n", (unsigned long long)get(faulty));
    printf("pmwcas_recover: word 0 is %llu, answer %llu, %llu steps\n", (unsigned long long)get(ours), (unsigned long long)r.answer,
           (unsigned long long)r.steps);
    return !(get(faulty) == 0 && get(ours) == 5 && r.answer == PMWCAS_COMPLETE && r.steps == 4);
}
