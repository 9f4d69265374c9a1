/* Random numbers, the store of bytes, and choices that look at what goes on in the machine. */
#include "choose.h"
#include <stdlib.h>

u64 seed;
struct temper t;
int stalled, stalled_until, records;
const int body_length[13] = { 3, 1, 18, 2, 1, 1, 2, 1, 1, 1, 1, 0, 0 };

/* ---- Random numbers (splitmix64) ---- */

u64 next(void) {
    u64 z = seed += UINT64_C(0x9E3779B97F4A7C15);
    z = (z ^ z >> 30) * UINT64_C(0xBF58476D1CE4E5B9);
    z = (z ^ z >> 27) * UINT64_C(0x94D049BB133111EB);
    return z ^ z >> 31;
}

int below(int x) { return (int)(next() % (u64)x); }
int between(int a, int b) { return a + below(b - a + 1); }
int chance(int percent) { return below(100) < percent; }

/* ---- The store of bytes ---- */

static unsigned char *bytes;
static size_t used, room;

void put_byte(int byte) {
    if (used == room) {
        room = room ? 2 * room : 1 << 16;
        bytes = realloc(bytes, room);
        if (!bytes) {
            fprintf(stderr, "gen: no memory\n");
            exit(1);
        }
    }
    bytes[used++] = (unsigned char)byte;
}

size_t stored(void) { return used; }
unsigned char *store(void) { return bytes; }
void cut_store(size_t length) { used = length; }

void write_store(FILE *file) {
    if (used > 0 && fwrite(bytes, 1, used, file) != used) {
        fprintf(stderr, "gen: cannot write\n");
        exit(1);
    }
    used = 0;
}

/* ---- Records: written, and performed on the machine ---- */

char put(int kind, int first, int second, u64 expected, u64 desired) {
    struct record r = { kind, (unsigned char)first, (unsigned char)second, expected, desired };
    put_byte(kind);
    if (body_length[kind] > 0)
        put_byte(first);
    if (body_length[kind] > 1)
        put_byte(second);
    for (int i = 0; i < 16 && kind == 0x02; i++)
        put_byte((int)((i < 8 ? expected >> 8 * i : desired >> 8 * (i - 8)) & 255));
    records++;
    return refusal(&r) ? 'R' : perform(&r).letter;
}

char put_0(int kind) { return put(kind, 0, 0, 0, 0); }
char put_1(int kind, int first) { return put(kind, first, 0, 0, 0); }
char put_2(int kind, int first, int second) { return put(kind, first, second, 0, 0); }
char take_step(int worker) { return put_1(0x07, worker); }

void put_setup(void) {
    put_byte(0);
    put_byte(t.n);
    put_byte(t.k);
    put_byte(t.w);
    setup((u64)t.n, (u64)t.k, (u64)t.w);
    records = 1;
    stalled = -1;
    stalled_until = 0;
}

/* ---- Choices ---- */

int some_address(void) { return chance(92) ? (t.base + below(t.hot)) % t.n : below(t.n); }

u64 some_value(void) {
    static const u64 rare[4] = { PLAIN_LIMIT - 1, PLAIN_LIMIT - 2, PLAIN_LIMIT >> 1, 255 };
    if (chance(97))
        return t.high ? PLAIN_LIMIT - 1 - (u64)below(t.values) : (u64)below(t.values);
    return chance(50) ? rare[below(4)] : next() >> between(3, 63);
}

u64 bad_value(void) {
    static const u64 bad[5] = { PLAIN_LIMIT, PLAIN_LIMIT + 1, POINTER, DIRTY, UINT64_MAX };
    return bad[below(5)];
}

int below_or_not(int top) { return chance(70) ? below(top) : not_below(top); }
int not_below(int top) { return chance(60) ? top : between(top, 255); }

int worker_that(u64 owns) {
    int found = -1, seen = 0;
    for (int i = 0; i < t.w; i++)
        if ((owns == RUNS ? runs(&m.worker[i]) : m.worker[i].owns == owns) && below(++seen) == 0)
            found = i;
    return found;
}

int busy_descriptor(void) {
    int i = worker_that(RUNS);
    if (i >= 0 && at_operation(&m.worker[i]))
        return (int)m.worker[i].job;
    return chance(80) ? below(t.k < 4 ? t.k : 4) : below(t.k);
}

int busy_address(void) {
    const struct body *b = &m.cached.body[busy_descriptor()];
    return b->count ? (int)b->entry[below((int)b->count)].address : some_address();
}

u64 likely_value(int a) {
    u64 word = m.cached.word[a], d = target(word);
    if (!is_pointer(word))
        return word & ~DIRTY;
    const struct entry *e = &m.cached.body[d].entry[find(&m.cached.body[d], (u64)a)];
    return chance(50) ? e->expected : e->desired;
}

/* The word that the worker's next step installs into or reads, or 0. */
static u64 word_ahead(const struct worker *x) {
    if (!runs(x))
        return 0;
    if (x->step == READ_LOOK)
        return m.cached.word[x->own];
    return x->step == INSTALL ? m.cached.word[m.cached.body[x->job].entry[x->entry].address] : 0;
}

int worker_in_trouble(void) {
    int found = -1, seen = 0;
    for (int i = 0; i < t.w; i++)
        if (i != stalled && (word_ahead(&m.worker[i]) & (DIRTY | POINTER)) && below(++seen) == 0)
            found = i;
    return found;
}
