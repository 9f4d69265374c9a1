/* compare_images FROM TO: on the image of each seed pmwcas_recover and the model give the same answer, steps and bytes, again after every
 * cut until recovery is complete; and what document 01 says of the outcome holds by itself, whatever the model does.
 * Exit status: 0 if no seed differs, and 10000 seeds or more have had every answer; else 1. */
#include "images.h"
#include "pmwcas_recovery.h"
#include "recover.h"
#include <fcntl.h>
#include <signal.h>
#include <stdlib.h>
#include <string.h>
#include <sys/mman.h>
#include <unistd.h>

enum { REDZONE = 64, ALL_STEPS = 10 * MAX_DESCRIPTORS, MOST_CUTS = 8, ENOUGH_SEEDS = 10000, MOST_TOLD = 5 };

/* ---- Two copies of an image, each between two redzones, and at any address ---- */

struct room { unsigned char around[REDZONE + 8 + IMAGE_ROOM + REDZONE], kept[REDZONE + 8 + IMAGE_ROOM + REDZONE]; size_t at; };
static struct room ours, models;
static struct image im;

static void furnish(struct room *r) {
    memset(r->around, below(256), sizeof r->around);
    for (int i = 0; i < 4; i++)
        r->around[next() % sizeof r->around] = (unsigned char)below(256);
    r->at = REDZONE + (size_t)below(8);
    memcpy(r->around + r->at, im.bytes, im.length);
}

static void keep(struct room *r) { memcpy(r->kept, r->around, sizeof r->kept); }
static unsigned char *inside(struct room *r) { return r->around + r->at; }
static const unsigned char *kept_inside(const struct room *r) { return r->kept + r->at; }

static int redzone_changed(const struct room *r) {
    size_t end = r->at + im.length;
    return memcmp(r->around, r->kept, r->at) || memcmp(r->around + end, r->kept + end, sizeof r->around - end);
}

/* ---- A third copy, at the start or at the end of a page whose neighbours cannot even be read ---- */

static u64 at_seed;
static unsigned char *page;
static size_t page_length;

static void stopped(int signal) {
    printf("images: seed %llu: stopped by signal %d, perhaps for a byte outside the image\n", (unsigned long long)at_seed, signal);
    fflush(stdout);
    _Exit(1);
}

static void fence(void) {
    page_length = (size_t)sysconf(_SC_PAGESIZE);
    void *pages = mmap(NULL, 3 * page_length, PROT_NONE, MAP_PRIVATE, open("/dev/zero", O_RDWR), 0);
    if (page_length < IMAGE_ROOM || pages == MAP_FAILED
        || mprotect((unsigned char *)pages + page_length, page_length, PROT_READ | PROT_WRITE)) {
        printf("images: no page between two that cannot be read\n");
        exit(1);
    }
    page = (unsigned char *)pages + page_length;
    signal(SIGSEGV, stopped);
    signal(SIGBUS, stopped);
}

/* Both again, on what the image was before this run: `is` is what has come of it. */
static int fenced_differs(const unsigned char *was, const unsigned char *is, u64 allowance, pmwcas_recovery r) {
    unsigned char *b = chance(50) ? page : page + page_length - im.length;
    memcpy(b, was, im.length);
    pmwcas_recovery q = pmwcas_recover(im.n, im.k, b, im.length, allowance);
    int differs = q.answer != r.answer || q.steps != r.steps || memcmp(b, is, im.length);
    memcpy(b, was, im.length);
    struct recovered s = model_recover(im.n, im.k, b, im.length, allowance);
    return differs || s.answer != r.answer || s.steps != r.steps || memcmp(b, is, im.length);
}

/* ---- What document 01 says of an image that is not refused ---- */

static const unsigned char *descriptor(const unsigned char *b, u64 d) { return b + NUMBER * im.n + DESCRIPTOR * d; }
static u64 word_at(const unsigned char *b, u64 a) { return number_at(b + NUMBER * a); }

/* The value of a word; UINT64_MAX where it has none. */
static u64 value_at(const unsigned char *b, u64 a) {
    u64 word = word_at(b, a);
    if (!(word & POINTER))
        return word & ~DIRTY;
    if ((word & (POINTER - 1)) >= im.k)
        return UINT64_MAX;
    const unsigned char *to = descriptor(b, word & (POINTER - 1)), *entry = to + ENTRIES_AT;
    u64 count = number_at(to + COUNT_AT);
    for (u64 i = 0; number_at(to) != FREE && i < count && i < MAX_ENTRIES; i++, entry += ENTRY)
        if (number_at(entry) == a)
            return number_at(entry + ((number_at(to) & ~DIRTY) == SUCCEEDED ? DESIRED_AT : EXPECTED_AT));
    return UINT64_MAX;
}

static int good_sizes(void) {
    return im.n - 1 < MAX_WORDS && im.k - 1 < MAX_DESCRIPTORS && im.length == NUMBER * im.n + DESCRIPTOR * im.k;
}

/* The steps of a whole recovery. */
static u64 due(const unsigned char *b) {
    u64 steps = 0;
    for (u64 d = 0; d < im.k; d++)
        steps += number_at(descriptor(b, d)) == FREE ? 1 : 2 * number_at(descriptor(b, d) + COUNT_AT) + 2;
    return steps;
}

/* A word is as it was, or was a pointer and is its value; a status is as it was, or Free; a body is as it was. All Free at the end. */
static const char *wrong_bytes(const unsigned char *was, const unsigned char *is, int complete) {
    for (u64 a = 0; a < im.n; a++) {
        u64 before = word_at(was, a), after = word_at(is, a);
        if (value_at(was, a) == UINT64_MAX)
            return "a word without a value is not refused";
        if (value_at(is, a) != value_at(was, a))
            return "the value of a word is not kept";
        if (after != before && (!(before & POINTER) || after != value_at(was, a)))
            return "a word is neither as it was nor its value";
        if (complete && (after & POINTER))
            return "complete, and a word is not plain";
    }
    for (u64 d = 0; d < im.k; d++) {
        u64 before = number_at(descriptor(was, d)), after = number_at(descriptor(is, d));
        if (memcmp(descriptor(was, d) + COUNT_AT, descriptor(is, d) + COUNT_AT, DESCRIPTOR - COUNT_AT))
            return "a body has changed";
        if (after != before && after != FREE)
            return "a status is neither as it was nor Free";
        if (complete && after != FREE)
            return "complete, and a descriptor is not Free";
    }
    return NULL;
}

static const char *wrong_outcome(pmwcas_recovery r, u64 allowance) {
    const unsigned char *was = kept_inside(&ours), *is = inside(&ours);
    if (r.answer != PMWCAS_COMPLETE && r.answer != PMWCAS_INCOMPLETE)
        return r.steps ? "refused, with steps" : memcmp(was, is, im.length) ? "refused, and the image has changed" : NULL;
    if (!good_sizes())
        return "bad sizes are not refused";
    u64 all = due(was);
    if (r.answer != (allowance < all ? PMWCAS_INCOMPLETE : PMWCAS_COMPLETE))
        return "complete or not, against the allowance";
    if (r.steps != (allowance < all ? allowance : all))
        return "the number of steps";
    return wrong_bytes(was, is, r.answer == PMWCAS_COMPLETE);
}

/* The machine that left this image, after a crash and as many recovery steps: its cached copy is the image. */
static int machine_differs(u64 steps) {
    static struct image by_machine;
    struct record crash = { 0x0B, 0, 0, 0, 0 }, recovery_step = { 0x0C, 0, 0, 0, 0 };
    perform(&crash);
    for (; steps > 0 && m.recovering; steps--)
        perform(&recovery_step);
    by_machine.n = m.n;
    by_machine.k = m.k;
    put_copy(&m.cached, &by_machine);
    return steps > 0 || memcmp(by_machine.bytes, inside(&ours), im.length);
}

/* ---- One run of both ---- */

static const char *run(u64 allowance, int after_crash, u64 *answer) {
    keep(&ours);
    keep(&models);
    pmwcas_recovery r = pmwcas_recover(im.n, im.k, inside(&ours), im.length, allowance);
    struct recovered s = model_recover(im.n, im.k, inside(&models), im.length, allowance);
    *answer = r.answer;
    if (redzone_changed(&ours) || redzone_changed(&models))
        return "a byte outside the image has changed";
    if (r.answer != s.answer)
        return "another answer than the model's";
    if (r.steps != s.steps)
        return "other steps than the model's";
    if (memcmp(inside(&ours), inside(&models), im.length))
        return "other bytes than the model's";
    if (fenced_differs(kept_inside(&ours), inside(&ours), allowance, r))
        return "the same image elsewhere comes out otherwise";
    if (im.good && r.answer != PMWCAS_COMPLETE && r.answer != PMWCAS_INCOMPLETE)
        return "a good image is refused";
    if (im.by_machine && after_crash && (machine_differs(r.steps) || m.recovering != (r.answer == PMWCAS_INCOMPLETE)))
        return "not what the machine's recovery does";
    return wrong_outcome(r, allowance);
}

/* Around `all`, the steps of the whole. */
static u64 some_allowance(u64 all) {
    switch (below(8)) {
    case 0: return 0;
    case 1: return (u64)below(12);
    case 2: return all;
    case 3: return all - 1;
    case 4: return chance(50) ? UINT64_MAX : DIRTY;
    default: return next() % (all + 2);
    }
}

/* A seed: until it is complete, then once more, which alters nothing. Each cut begins at descriptor 0, so the last allowance is great. */
static const char *try(u64 from, u64 *first) {
    u64 answer;
    make_image(from, &im);
    furnish(&ours);
    furnish(&models);
    for (int cuts = 0; ; cuts++) {
        u64 all = good_sizes() ? due(inside(&ours)) : ALL_STEPS;
        const char *wrong = run(cuts < MOST_CUTS ? some_allowance(all <= ALL_STEPS ? all : ALL_STEPS) : UINT64_MAX, cuts == 0, &answer);
        if (cuts == 0)
            *first = answer;
        if (wrong || (answer != COMPLETE && answer != INCOMPLETE))
            return wrong;
        if (answer == COMPLETE)
            break;
        if (cuts > MOST_CUTS)
            return "not complete with any allowance";
    }
    const char *wrong = run(im.k, 0, &answer);
    if (!wrong && (answer != COMPLETE || memcmp(kept_inside(&ours), inside(&ours), im.length)))
        wrong = "after it was complete there was more to do";
    return wrong;
}

int main(int argc, char **argv) {
    static const u64 answers[8] = { COMPLETE, INCOMPLETE, 1, 20, 21, 22, 23, 24 };
    u64 count[8] = { 0 }, differ = 0, missing = 0, by_machine = 0;
    if (argc != 3) {
        fprintf(stderr, "compare_images FROM TO\n");
        return 1;
    }
    u64 from = strtoull(argv[1], NULL, 10), to = strtoull(argv[2], NULL, 10), at;
    fence();
    for (at = from; at <= to && differ < MOST_TOLD; at++) {
        u64 first = UINT64_MAX;
        at_seed = at;
        const char *wrong = try(at, &first);
        if (wrong) {
            printf("images: seed %llu: %s\n", (unsigned long long)at, wrong);
            differ++;
        }
        by_machine += im.by_machine;
        for (int i = 0; i < 8; i++)
            count[i] += answers[i] == first;
    }
    printf("images: seeds %llu to %llu, %llu differ; %llu are the machine's own; answers", (unsigned long long)from,
           (unsigned long long)at - 1, (unsigned long long)differ, (unsigned long long)by_machine);
    for (int i = 0; i < 8; i++) {
        printf(" %llu: %llu%s", (unsigned long long)answers[i], (unsigned long long)count[i], i < 7 ? "," : "\n");
        missing += count[i] == 0;
    }
    if (from > to || (missing && at - from >= ENOUGH_SEEDS)) {
        printf("images: %s\n", from > to ? "no seeds" : "an answer is missing");
        return 1;
    }
    return differ != 0;
}
