/* The checks of an image, each over all of it before the next (reading 25), and its recovery in place. */
#include "recover.h"
#include "machine.h"

/* ---- The checks: 21, 22, 23, 24 ---- */

/* Dirty is allowed on 2 and 3 only (reading 26). */
static int bad_status(u64 status) {
    return status > FAILED && status != (DIRTY | SUCCEEDED) && status != (DIRTY | FAILED);
}

static int bad_body(const unsigned char *descriptor, u64 n) {
    u64 count = number_at(descriptor + COUNT_AT), least = 0;
    if (count < 1 || count > MAX_ENTRIES)
        return 1;
    for (u64 i = 0; i < count; i++) {
        const unsigned char *entry = descriptor + ENTRIES_AT + ENTRY * i;
        u64 address = number_at(entry);
        if (address < least || address >= n)
            return 1;
        if (number_at(entry + EXPECTED_AT) >= PLAIN_LIMIT || number_at(entry + DESIRED_AT) >= PLAIN_LIMIT)
            return 1;
        least = address + 1;
    }
    return 0;
}

/* A plain value has neither bit 62 nor bit 61, a pointer has bit 62 and not bit 61; either may be dirty. */
static int bad_word(u64 word) { return (word & PLAIN_LIMIT) != 0; }

/* Among the first `count` entries (reading 27). */
static int has_address(const unsigned char *descriptor, u64 address) {
    u64 count = number_at(descriptor + COUNT_AT);
    for (u64 i = 0; i < count; i++)
        if (number_at(descriptor + ENTRIES_AT + ENTRY * i) == address)
            return 1;
    return 0;
}

static int bad_pointer(const unsigned char *descriptors, u64 k, u64 word, u64 address) {
    if (!is_pointer(word))
        return 0;
    if (target(word) >= k)
        return 1;
    const unsigned char *descriptor = descriptors + DESCRIPTOR * target(word);
    return number_at(descriptor) == FREE || !has_address(descriptor, address);
}

/* The first refusal that holds, or 0. */
static u64 image_refusal(u64 n, u64 k, const unsigned char *image, size_t length) {
    if (n < 1 || n > MAX_WORDS || k < 1 || k > MAX_DESCRIPTORS)
        return 1;
    if (length != NUMBER * n + DESCRIPTOR * k)
        return 20;
    const unsigned char *descriptors = image + NUMBER * n;
    for (u64 d = 0; d < k; d++)
        if (bad_status(number_at(descriptors + DESCRIPTOR * d)))
            return 21;
    for (u64 d = 0; d < k; d++)
        if (number_at(descriptors + DESCRIPTOR * d) != FREE && bad_body(descriptors + DESCRIPTOR * d, n))
            return 22;
    for (u64 a = 0; a < n; a++)
        if (bad_word(number_at(image + NUMBER * a)))
            return 23;
    for (u64 a = 0; a < n; a++)
        if (bad_pointer(descriptors, k, number_at(image + NUMBER * a), a))
            return 24;
    return 0;
}

/* ---- Recovery ---- */

/* A word that points to d, dirty or clean, becomes desired or expected, not dirty; another stays as it is (readings 17, 32). */
static void settle(unsigned char *image, u64 d, u64 status, const unsigned char *entry) {
    unsigned char *word = image + NUMBER * number_at(entry);
    struct entry e = { number_at(entry), number_at(entry + EXPECTED_AT), number_at(entry + DESIRED_AT) };
    if (points_to(number_at(word), d))
        set_number(word, by_status(status, &e));
}

/* The first `steps` of descriptor d's 2c+2: settle and write back each entry, store Free, write back. Write-backs alter no byte. */
static void recover_live(unsigned char *image, u64 d, unsigned char *descriptor, u64 count, u64 steps) {
    u64 status = number_at(descriptor);
    for (u64 i = 0; i < count && steps > 2 * i; i++)
        settle(image, d, status, descriptor + ENTRIES_AT + ENTRY * i);
    if (steps > 2 * count)
        set_number(descriptor, FREE);
}

struct recovered model_recover(uint64_t n, uint64_t k, unsigned char *image, size_t length, uint64_t allowance) {
    struct recovered r = { image_refusal(n, k, image, length), 0 };
    if (r.answer)
        return r;
    for (u64 d = 0; d < k; d++) {
        unsigned char *descriptor = image + NUMBER * n + DESCRIPTOR * d;
        u64 live = number_at(descriptor) != FREE, count = number_at(descriptor + COUNT_AT);
        u64 due = live ? 2 * count + 2 : 1, left = allowance - r.steps, taken = left < due ? left : due;
        if (live)
            recover_live(image, d, descriptor, count, taken);
        r.steps += taken;
        if (taken < due) {
            r.answer = INCOMPLETE;
            return r;
        }
    }
    return r;       /* complete: the allowance was enough for all (reading 28) */
}
