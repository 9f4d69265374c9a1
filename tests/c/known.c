/* pmwcas_recover on images whose answers are known from the specification: runs (a), (b) and (c), every refusal, every allowance. A zone of fixed bytes
   on both sides of the image shows a store outside it. */
#include "pmwcas_recovery.h"
#include <stdio.h>
#include <string.h>

#define DIRTY (UINT64_C(1) << 63)
#define POINTER (UINT64_C(1) << 62)
#define RESERVED (UINT64_C(1) << 61)
enum { ZONE = 64, MOST = 64 * 8 + 16 * 112 };

static int bad;
static int tried;

struct image {
    uint64_t n, k;
    size_t length;
    unsigned char before[ZONE], bytes[MOST], after[ZONE];
};

static void put(unsigned char *p, uint64_t v)
{
    for (int i = 0; i < 8; i++)
        p[i] = (unsigned char)(v >> 8 * i);
}

static uint64_t get(const unsigned char *p)
{
    uint64_t v = 0;
    for (int i = 7; i >= 0; i--)
        v = v << 8 | p[i];
    return v;
}

static void fresh(struct image *m, uint64_t n, uint64_t k)
{
    memset(m, 0xA5, sizeof *m);
    m->n = n;
    m->k = k;
    m->length = (size_t)(8 * n + 112 * k);
    memset(m->bytes, 0, m->length);
}

static unsigned char *word(struct image *m, int a)
{
    return m->bytes + 8 * a;
}

static unsigned char *descriptor(struct image *m, int d)
{
    return m->bytes + 8 * m->n + 112 * d;
}

static void entry(struct image *m, int d, int i, uint64_t address, uint64_t expected, uint64_t desired)
{
    put(descriptor(m, d) + 16 + 24 * i, address);
    put(descriptor(m, d) + 24 + 24 * i, expected);
    put(descriptor(m, d) + 32 + 24 * i, desired);
}

/* one word that points to descriptor 0, which changes it from 0 to 5 */
static void swap_of_one(struct image *m, uint64_t status)
{
    fresh(m, 1, 1);
    put(word(m, 0), DIRTY | POINTER);
    put(descriptor(m, 0), status);
    put(descriptor(m, 0) + 8, 1);
    entry(m, 0, 0, 0, 0, 5);
}

static int zones_kept(const struct image *m)
{
    for (int i = 0; i < ZONE; i++)
        if (m->before[i] != 0xA5 || m->after[i] != 0xA5)
            return 0;
    for (size_t i = m->length; i < MOST; i++)
        if (m->bytes[i] != 0xA5)
            return 0;
    return 1;
}

static void say(const char *name, int right)
{
    tried++;
    if (!right) {
        printf("%s: wrong\n", name);
        bad = 1;
    }
}

static pmwcas_recovery recover(struct image *m, uint64_t allowance)
{
    return pmwcas_recover(m->n, m->k, m->bytes, m->length, allowance);
}

static void want(const char *name, struct image *m, uint64_t allowance, uint64_t answer, uint64_t steps)
{
    pmwcas_recovery r = recover(m, allowance);
    say(name, r.answer == answer && r.steps == steps && zones_kept(m));
}

/* refused: zero steps, and no byte changes */
static void refused(const char *name, struct image *m, uint64_t answer)
{
    struct image old = *m;
    want(name, m, 160, answer, 0);
    say(name, memcmp(&old, m, sizeof old) == 0);
}

static void known_runs(void)
{
    struct image m;
    swap_of_one(&m, DIRTY | 2);
    want("allowance 0", &m, 0, PMWCAS_INCOMPLETE, 0);
    want("run (a)", &m, 160, PMWCAS_COMPLETE, 4);
    say("run (a), value", get(word(&m, 0)) == 5 && get(descriptor(&m, 0)) == 0);
    swap_of_one(&m, 1);
    want("run (b)", &m, 4, PMWCAS_COMPLETE, 4);
    say("run (b), value", get(word(&m, 0)) == 0);
    /* run (c) leaves in persisted memory what run (a) leaves */
    swap_of_one(&m, DIRTY | 2);
    want("run (c)", &m, 4, PMWCAS_COMPLETE, 4);
    say("run (c), value", get(word(&m, 0)) == 5);
    swap_of_one(&m, 2);
    want("a clean Succeeded", &m, 4, PMWCAS_COMPLETE, 4);
    say("a clean Succeeded, value", get(word(&m, 0)) == 5);
    fresh(&m, 1, 1);
    want("a fresh memory", &m, 160, PMWCAS_COMPLETE, 1);
    fresh(&m, 64, 16);
    want("the largest", &m, 160, PMWCAS_COMPLETE, 16);
}

static void refusals(void)
{
    struct image m;
    static const uint64_t sizes[][2] = {{0, 1}, {65, 1}, {1, 0}, {1, 17}, {UINT64_MAX, 1}, {1, UINT64_MAX}};
    for (size_t i = 0; i < sizeof sizes / sizeof *sizes; i++) {
        fresh(&m, 1, 1);
        m.n = sizes[i][0];
        m.k = sizes[i][1];
        refused("1", &m, PMWCAS_BAD_SIZES);
    }
    fresh(&m, 2, 1);
    m.bytes[--m.length] = 0xA5;
    refused("20, a byte short", &m, PMWCAS_BAD_LENGTH);
    static const uint64_t statuses[] = {4, DIRTY, DIRTY | 1, DIRTY | 4, UINT64_MAX};
    for (size_t i = 0; i < sizeof statuses / sizeof *statuses; i++) {
        swap_of_one(&m, statuses[i]);
        refused("21", &m, PMWCAS_BAD_STATUS);
    }
    static const uint64_t counts[] = {0, 5, UINT64_MAX};
    for (size_t i = 0; i < sizeof counts / sizeof *counts; i++) {
        swap_of_one(&m, 1);
        put(descriptor(&m, 0) + 8, counts[i]);
        refused("22, the count", &m, PMWCAS_BAD_BODY);
    }
    swap_of_one(&m, 1);
    entry(&m, 0, 0, 1, 0, 5);
    refused("22, the address", &m, PMWCAS_BAD_BODY);
    swap_of_one(&m, 1);
    entry(&m, 0, 0, 0, RESERVED, 5);
    refused("22, expected", &m, PMWCAS_BAD_BODY);
    swap_of_one(&m, 1);
    entry(&m, 0, 0, 0, 0, RESERVED);
    refused("22, desired", &m, PMWCAS_BAD_BODY);
    fresh(&m, 2, 1);
    put(descriptor(&m, 0), 1);
    put(descriptor(&m, 0) + 8, 2);
    entry(&m, 0, 0, 1, 0, 5);
    entry(&m, 0, 1, 1, 0, 5);
    refused("22, an address twice", &m, PMWCAS_BAD_BODY);
    fresh(&m, 1, 1);
    put(word(&m, 0), RESERVED);
    refused("23", &m, PMWCAS_BAD_WORD);
    fresh(&m, 1, 1);
    put(word(&m, 0), POINTER);
    refused("24, to a Free descriptor", &m, PMWCAS_BAD_POINTER);
    put(word(&m, 0), POINTER | 1);
    refused("24, to none", &m, PMWCAS_BAD_POINTER);
    swap_of_one(&m, 1);
    m.n = 2;
    m.length += 8;
    memset(m.bytes, 0, m.length);
    put(word(&m, 0), POINTER);
    put(descriptor(&m, 0), 1);
    put(descriptor(&m, 0) + 8, 1);
    entry(&m, 0, 0, 1, 0, 5);
    entry(&m, 0, 1, 0, 0, 5); /* past the count */
    refused("24, without that address", &m, PMWCAS_BAD_POINTER);
}

/* three descriptors: Succeeded dirty with two words, Free with rubbish, Failed with one; every allowance, and run again until complete */
static void mixed(struct image *m)
{
    fresh(m, 4, 3);
    put(word(m, 0), POINTER);
    put(word(m, 1), DIRTY | 7);
    put(word(m, 2), DIRTY | POINTER);
    put(word(m, 3), POINTER | 2);
    put(descriptor(m, 0), DIRTY | 2);
    put(descriptor(m, 0) + 8, 2);
    entry(m, 0, 0, 0, 1, 10);
    entry(m, 0, 1, 2, 2, 20);
    put(descriptor(m, 1) + 8, 99);
    put(descriptor(m, 2), 3);
    put(descriptor(m, 2) + 8, 1);
    entry(m, 2, 0, 3, 3, 30);
}

static void allowances(void)
{
    for (uint64_t allowance = 0; allowance <= 12; allowance++) {
        struct image m;
        mixed(&m);
        pmwcas_recovery r = recover(&m, allowance);
        say("every allowance", r.steps == (allowance < 11 ? allowance : 11) && (r.answer == PMWCAS_COMPLETE) == (allowance >= 11));
        /* each run begins at descriptor 0: an allowance that never frees it would never end */
        for (uint64_t again = 6; again < 20 && r.answer != PMWCAS_COMPLETE; again++)
            r = recover(&m, again);
        say("run again", r.answer == PMWCAS_COMPLETE && zones_kept(&m));
        say("the values", get(word(&m, 0)) == 10 && get(word(&m, 1)) == (DIRTY | 7) && get(word(&m, 2)) == 20 && get(word(&m, 3)) == 3);
        say("all Free", get(descriptor(&m, 0)) == 0 && get(descriptor(&m, 1)) == 0 && get(descriptor(&m, 2)) == 0);
        say("a Free body is kept", get(descriptor(&m, 1) + 8) == 99);
    }
}

int main(void)
{
    known_runs();
    refusals();
    allowances();
    printf("%d facts tried, %s\n", tried, bad ? "some are wrong" : "all right");
    return bad;
}
