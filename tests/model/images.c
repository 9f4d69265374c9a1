/* What a memory holds after a power cut: as the machine leaves it, and anything else that passes the checks; and as bytes. */
#include "images.h"
#include "contend.h"
#include "recover.h"
#include <string.h>

static struct copy made;

/* ---- Numbers ---- */

u64 rubbish(void) {
    static const u64 odd[8] = { UINT64_MAX, DIRTY, POINTER, PLAIN_LIMIT, PLAIN_LIMIT - 1, DIRTY | SUCCEEDED, DIRTY | POINTER, 5 };
    return chance(40) ? next() : chance(50) ? odd[below(8)] : (u64)below(8);
}

static void random_sizes(void) {
    t.n = chance(45) ? between(1, 5) : chance(60) ? between(4, 16) : between(1, 64);
    t.k = chance(60) ? between(1, 4) : between(1, 16);
    if (chance(8))
        t.n = 64, t.k = 16;
    t.w = between(1, 6);
    t.hot = between(1, t.n < 5 ? t.n : 5);
    t.base = below(t.n);
    t.values = chance(50) ? 4 : 100;
    t.high = chance(20);
    t.read_share = 15;
    t.match_share = chance(80) ? 95 : 50;
    t.together = 60;
    t.burst = between(1, 8);
}

/* ---- As the machine leaves it ---- */

static void left_by_machine(void) {
    put_setup();
    for (int left = between(1, chance(80) ? 60 : 200); left > 0; left--) {
        int worker = below(t.w), what = below(100);
        if (m.recovering && what < 80)
            recover(chance(60) ? between(1, 6) : 200);
        else if (what >= 98)
            put_0(0x0B);
        else if (what >= 88)
            write_back();
        else if (m.worker[worker].owns == NOTHING)
            idle_worker(worker);
        else if (m.worker[worker].owns == BUILDING)
            build_on(worker);
        else
            steps(worker, some_burst());
    }
    cut_store(0);
    made = m.persisted;
}

/* ---- Anything that passes the checks ---- */

static u64 random_status(int live) {
    static const u64 statuses[5] = { UNDECIDED, SUCCEEDED, FAILED, DIRTY | SUCCEEDED, DIRTY | FAILED };
    return live ? statuses[below(5)] : FREE;
}

/* Entries past the count are rubbish, or look like good ones; now and then they have an address that is there already. */
static struct entry past_the_count(const struct body *b) {
    struct entry e = { rubbish(), rubbish(), rubbish() };
    if (chance(50))
        e.address = chance(50) ? b->entry[0].address : (u64)below(t.n);
    if (chance(50))
        e.expected = some_value(), e.desired = some_value();
    return e;
}

static struct body live_body(int count) {
    struct body b = { (u64)count, { { 0, 0, 0 } } };
    int a = 0;
    for (int i = 0; i < count; i++) {
        a = chance(40) ? a : between(a, t.n - (count - i));
        struct entry e = { (u64)a++, some_value(), some_value() };
        b.entry[i] = e;
    }
    for (int i = count; i < MAX_ENTRIES; i++)
        b.entry[i] = past_the_count(&b);
    return b;
}

static struct body free_body(void) {
    struct body b = { rubbish(), { { 0, 0, 0 } } };
    for (int i = 0; i < MAX_ENTRIES; i++) {
        struct entry e = { chance(50) ? rubbish() : (u64)below(t.n), rubbish(), rubbish() };
        b.entry[i] = e;
    }
    return b;
}

static void random_copy(void) {
    int share = chance(30) ? 100 : below(101), pointers = chance(30) ? 100 : below(101), dirty = below(101);
    for (int a = 0; a < t.n; a++)
        made.word[a] = some_value() | (chance(dirty) ? DIRTY : 0);
    for (int d = 0; d < t.k; d++) {
        int live = chance(share);
        struct body *b = &made.body[d];
        made.status[d] = random_status(live);
        *b = live ? live_body(between(1, t.n < MAX_ENTRIES ? t.n : MAX_ENTRIES)) : free_body();
        for (u64 i = 0; live && i < b->count; i++)
            if (chance(pointers))
                made.word[b->entry[i].address] = POINTER | (u64)d | (chance(dirty) ? DIRTY : 0);
    }
}

/* ---- Bytes ---- */

void put_copy(const struct copy *c, struct image *im) {
    unsigned char *b = im->bytes;
    for (u64 a = 0; a < im->n; a++, b += NUMBER)
        set_number(b, c->word[a]);
    for (u64 d = 0; d < im->k; d++) {
        set_number(b, c->status[d]);
        set_number(b + COUNT_AT, c->body[d].count);
        b += ENTRIES_AT;
        for (int i = 0; i < MAX_ENTRIES; i++, b += ENTRY) {
            set_number(b, c->body[d].entry[i].address);
            set_number(b + EXPECTED_AT, c->body[d].entry[i].expected);
            set_number(b + DESIRED_AT, c->body[d].entry[i].desired);
        }
    }
    im->length = (size_t)(b - im->bytes);
    for (; b < im->bytes + IMAGE_ROOM; b += NUMBER)         /* what a length that is too great lets in */
        set_number(b, next());
}

/* ---- An image ---- */

void make_image(u64 from, struct image *im) {
    seed = from;
    random_sizes();
    im->by_machine = chance(25);
    if (im->by_machine)
        left_by_machine();
    else
        random_copy();
    im->n = (u64)t.n;
    im->k = (u64)t.k;
    int what = below(100);              /* half are good; most of the others have one thing wrong, some have more */
    im->good = what < 50;
    im->by_machine &= im->good;
    if (what >= 50 && what < 85)
        for (int i = chance(60) ? 1 : between(2, 4); i > 0; i--)
            damage_copy(&made, im->n, im->k);
    put_copy(&made, im);
    if ((what >= 85 && what < 92) || (what >= 50 && chance(12)))
        damage_bytes(im);
    if (what >= 92 || (what >= 50 && chance(8)))
        damage_sizes(im);
}

void full_image(struct image *im) {
    im->n = MAX_WORDS;
    im->k = MAX_DESCRIPTORS;
    for (u64 d = 0; d < im->k; d++) {
        made.status[d] = d % 3 == 0 ? UNDECIDED : d % 3 == 1 ? DIRTY | SUCCEEDED : FAILED;
        made.body[d].count = MAX_ENTRIES;
        for (u64 i = 0; i < MAX_ENTRIES; i++) {
            u64 a = d + MAX_DESCRIPTORS * i;
            struct entry e = { a, a, a + 1000 };
            made.body[d].entry[i] = e;
            made.word[a] = POINTER | d | (i % 2 ? DIRTY : 0);
        }
    }
    put_copy(&made, im);
}
