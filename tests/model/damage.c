/* Damage to images: most of it is what one of the checks is there for, some lies just on the good side of it. */
#include "images.h"
#include "recover.h"
#include <string.h>

#define PICK(list) ((list)[below((int)(sizeof(list) / sizeof *(list)))])

/* ---- Choices ---- */

/* One of the live descriptors, or -1. */
static int live_one(const struct copy *c, u64 k) {
    int found = -1, seen = 0;
    for (int d = 0; d < (int)k; d++)
        if (c->status[d] != FREE && below(++seen) == 0)
            found = d;
    return found;
}

static int free_one(const struct copy *c, u64 k) {
    int found = -1, seen = 0;
    for (int d = 0; d < (int)k; d++)
        if (c->status[d] == FREE && below(++seen) == 0)
            found = d;
    return found;
}

/* How many entries there are to be chosen from, whatever has been done to the count. */
static int entries(const struct body *b) { return b->count >= 1 && b->count <= MAX_ENTRIES ? (int)b->count : 1; }

static u64 maybe_dirty(void) { return chance(50) ? DIRTY : 0; }

/* ---- What each check is there for ---- */

static void damage_status(struct copy *c, u64 k) {
    static const u64 bad[12] = { DIRTY, DIRTY | UNDECIDED, 4, DIRTY | 4, 5, 256, POINTER | SUCCEEDED, PLAIN_LIMIT | SUCCEEDED,
                                 UINT64_C(1) << 32, UINT64_C(1) << 32 | SUCCEEDED, UINT64_MAX, DIRTY - 1 };
    static const u64 other[6] = { FREE, UNDECIDED, SUCCEEDED, FAILED, DIRTY | SUCCEEDED, DIRTY | FAILED };
    c->status[below((int)k)] = chance(75) ? PICK(bad) : PICK(other);
}

static void damage_count(struct body *b) {
    static const u64 bad[8] = { 0, 0, 5, 5, DIRTY, UINT64_C(1) << 32 | 1, 256 + 2, UINT64_MAX };
    if (chance(60))
        b->count = PICK(bad);
    else                                /* entries that were in are now past the count, or rubbish is now in */
        b->count = (u64)between(1, MAX_ENTRIES);
}

static void damage_address(struct body *b, u64 n) {
    const u64 bad[6] = { n, n, n + 1, UINT64_MAX, UINT64_C(1) << 32, DIRTY };
    int count = entries(b), i = below(count), j = count > 1 ? (i + between(1, count - 1)) % count : i;
    struct entry e = b->entry[i];
    switch (below(4)) {
    case 0: b->entry[j].address = e.address; break;                     /* equal */
    case 1: b->entry[i] = b->entry[j], b->entry[j] = e; break;          /* descending */
    case 2: b->entry[chance(50) ? i : count - 1].address = PICK(bad); break;
    default: b->entry[i].address = (u64)below((int)n);                  /* may be good, but a pointer may miss it */
    }
}

static void damage_value(struct body *b) {
    static const u64 edge[7] = { PLAIN_LIMIT - 1, PLAIN_LIMIT, PLAIN_LIMIT, PLAIN_LIMIT + 1, POINTER, DIRTY, UINT64_MAX };
    struct entry *e = &b->entry[chance(80) ? below(entries(b)) : below(MAX_ENTRIES)];
    *(chance(50) ? &e->expected : &e->desired) = PICK(edge);
}

static void damage_word(struct copy *c, u64 n, u64 k) {
    u64 *word = &c->word[below((int)n)];
    const u64 edge[5] = { PLAIN_LIMIT - 1, PLAIN_LIMIT, 2 * PLAIN_LIMIT - 1, POINTER | PLAIN_LIMIT, POINTER | PLAIN_LIMIT | (k - 1) };
    *word = chance(40) ? *word ^ PLAIN_LIMIT : PICK(edge) | maybe_dirty();
}

/* A word that points to live d at an address that d has past its count alone. */
static void point_past_the_count(struct copy *c, u64 n, int d) {
    struct body *b = &c->body[d];
    int a = below((int)n);
    if (b->count < 1 || b->count >= MAX_ENTRIES)
        b->count = (u64)between(1, MAX_ENTRIES - 1);
    for (u64 i = 0; i < b->count; i++)
        if (b->entry[i].address == (u64)a)
            return;
    b->entry[between((int)b->count, MAX_ENTRIES - 1)].address = (u64)a;
    c->word[a] = POINTER | (u64)d | maybe_dirty();
}

static void damage_pointer(struct copy *c, u64 n, u64 k) {
    const u64 nowhere[7] = { k, k, k + 1, PLAIN_LIMIT - 1, UINT64_C(1) << 32, UINT64_C(1) << 60, 256 };
    int live = live_one(c, k), unused = free_one(c, k), a = below((int)n), what = below(5);
    u64 to = PICK(nowhere);
    if (what == 0 && live >= 0) {
        point_past_the_count(c, n, live);
        return;
    }
    if (what == 1 && unused >= 0) {     /* to a Free one, whose body may have that address */
        to = (u64)unused;
        if (chance(60))
            c->body[unused].count = (u64)between(1, MAX_ENTRIES), c->body[unused].entry[0].address = (u64)a;
    } else if (what <= 3 && live >= 0) {
        to = (u64)live;                 /* most likely without that address */
    }
    if (what == 4 && (c->word[a] & POINTER))
        to = target(c->word[a]) | UINT64_C(1) << between(4, 60);        /* one bit more */
    c->word[a] = POINTER | to | maybe_dirty();
}

void damage_copy(struct copy *c, u64 n, u64 k) {
    int live = live_one(c, k), what = below(live < 0 ? 3 : 7);
    switch (what) {
    case 0: damage_status(c, k); break;
    case 1: damage_word(c, n, k); break;
    case 2: damage_pointer(c, n, k); break;
    case 3: damage_count(&c->body[live]); break;
    case 4: damage_address(&c->body[live], n); break;
    case 5: damage_value(&c->body[live]); break;
    default:                            /* Free, and its words still point to it */
        if (chance(50))
            c->status[live] = FREE;
        else
            damage_pointer(c, n, k);
    }
}

/* ---- Bytes ---- */

void damage_bytes(struct image *im) {
    size_t numbers = im->length / NUMBER;
    for (int i = chance(80) ? 1 : between(2, 6); i > 0; i--) {
        unsigned char *b = im->bytes + (chance(20) ? NUMBER * im->n + DESCRIPTOR * (next() % im->k) : NUMBER * (next() % numbers));
        switch (below(3)) {
        case 0: b[below(8)] ^= (unsigned char)(1 << below(8)); break;
        case 1: b[below(8)] = (unsigned char)below(256); break;
        default: set_number(b, rubbish());
        }
    }
}

/* ---- Sizes ---- */

static void damage_length(struct image *im) {
    static const int by[8] = { -1, 1, -8, 8, -112, 112, -7, 7 };
    if (chance(8))
        im->length = chance(50) ? 0 : next() % IMAGE_ROOM;
    else
        im->length = (size_t)((long)im->length + PICK(by));
}

/* Too small or too great; now and then by so much that 8n + 112k comes out right in 64 bits. */
static u64 bad_size(u64 size, u64 top) {
    const u64 bad[9] = { 0, top + 1, top + 1, 255, size + 256, size + (UINT64_C(1) << 32), size + PLAIN_LIMIT, DIRTY | size, UINT64_MAX };
    return PICK(bad);
}

/* The length that would be right, if there are so many bytes. */
static void fit_length(struct image *im) {
    if (im->n <= MAX_WORDS + 1 && im->k <= MAX_DESCRIPTORS + 1)
        im->length = NUMBER * im->n + DESCRIPTOR * im->k;
}

/* Too many or no words or descriptors, and all else as it should be. */
static void too_many_or_none(struct image *im) {
    unsigned char *words = im->bytes, *descriptors = words + NUMBER * im->n;
    switch (below(4)) {
    case 0:                             /* 65 words */
        memmove(words + NUMBER * (MAX_WORDS + 1), descriptors, DESCRIPTOR * im->k);
        for (; im->n <= MAX_WORDS; im->n++)
            set_number(words + NUMBER * im->n, some_value());
        break;
    case 1:                             /* 17 descriptors */
        for (; im->k <= MAX_DESCRIPTORS; im->k++)
            memset(descriptors + DESCRIPTOR * im->k, 0, DESCRIPTOR);
        break;
    case 2:
        memmove(words, descriptors, DESCRIPTOR * im->k);
        for (u64 d = 0; d < im->k; d++)
            set_number(words + DESCRIPTOR * d, FREE);
        im->n = 0;
        break;
    default:
        for (u64 a = 0; a < im->n; a++)
            set_number(words + NUMBER * a, some_value());
        im->k = 0;
    }
    fit_length(im);
}

void damage_sizes(struct image *im) {
    int fit = chance(50);
    switch (below(7)) {
    case 0: im->n = bad_size(im->n, MAX_WORDS); break;
    case 1: im->k = bad_size(im->k, MAX_DESCRIPTORS); break;
    case 2:                             /* the same bytes for other sizes: 14 words are as long as a descriptor */
        if (im->k > 1 && im->n + 14 <= MAX_WORDS)
            im->n += 14, im->k--;
        else if (im->n > 14 && im->k < MAX_DESCRIPTORS)
            im->n -= 14, im->k++;
        break;
    case 3:                             /* one more, one fewer */
        *(chance(50) ? &im->n : &im->k) += chance(50) ? 1 : UINT64_MAX;
        break;
    case 4: too_many_or_none(im); break;
    default:
        damage_length(im);
        fit = 0;
    }
    if (fit)
        fit_length(im);
}
