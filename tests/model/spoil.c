/* Refused records, and damage. */
#include "spoil.h"

/* ---- Refused records ---- */

void wild(void) {
    int kind = between(1, 12);
    if ((kind == 0x0B && chance(80)) || (kind == 0x05 && chance(50)))
        kind = 0x02;
    put(kind, below_or_not(kind < 0x08 ? t.w : kind == 0x08 ? t.n : t.k), below_or_not(t.n),
        chance(75) ? some_value() : bad_value(), chance(75) ? some_value() : bad_value());
}

/* A worker that builds, made so if need be; -1 if there is none. */
static int builder(void) {
    int worker = worker_that(BUILDING);
    if (worker < 0 && (worker = worker_that(NOTHING)) >= 0 && put_1(0x01, worker) != 'D')
        worker = -1;
    return worker;
}

/* A full body, then one or two words more. */
static void too_many(int b) {
    for (int a = below(t.n), i = 0; i < t.n && count_of(b) < 4; i++, a = (a + 1) % t.n)
        if (!has(b, a))
            add(b, a);
    for (int i = between(1, 2); i > 0; i--)
        add(b, below(t.n));
}

/* Refusals 10, 11, 13, 12, 14 and 15 of one that builds, and their order. */
static void bad_building(int r) {
    int b = builder(), a = below(t.n);
    if (b < 0)
        return;
    if (r == 10 && chance(60)) {
        put(0x02, b, not_below(t.n), some_value(), chance(80) ? some_value() : bad_value());
    } else if (r == 10) {
        put_2(0x03, b, not_below(t.n));
    } else if (r == 11) {
        put(0x02, b, some_address(), chance(50) ? bad_value() : some_value(), chance(50) ? bad_value() : some_value());
    } else if (r == 12) {
        too_many(b);
    } else if (r == 13) {
        add_some(b);
        a = (int)m.cached.body[m.worker[b].own].entry[below(count_of(b) > 0 ? count_of(b) : 1)].address;
        put(0x02, b, a, some_value(), chance(90) ? some_value() : bad_value());
    } else if (r == 14) {
        if (!has(b, a))
            put_2(0x03, b, a);
    } else {
        while (count_of(b) > 0)
            take_out(b);
        put_1(0x04, b);
    }
}

void noise(void) {
    int r = between(4, 18), idle = worker_that(NOTHING), any = below(t.w);
    switch (r) {
    case 4: put(between(1, 7), not_below(t.w), below_or_not(t.n), some_value(), some_value()); break;
    case 6: put_0(0x0C); break;
    case 7:
        if (m.worker[any].owns != NOTHING)
            put_2(chance(50) ? 0x01 : 0x06, any, below_or_not(t.n));
        break;
    case 8:
        if (m.worker[any].owns != BUILDING)
            put(between(2, 5), any, below_or_not(t.n), some_value(), chance(80) ? some_value() : bad_value());
        break;
    case 9:
        if (idle >= 0 && (lowest_openable() < 0 || chance(20)))
            put_1(0x01, idle);
        break;
    case 16:
        if (!runs(&m.worker[any]))
            take_step(any);
        break;
    case 17: put_1(between(9, 10), not_below(t.k)); break;
    case 5: case 18: wild(); break;
    default:
        if (r == 10 && chance(50))
            put_1(0x08, not_below(t.n));
        else if (r == 10 && idle >= 0 && chance(30))
            put_2(0x06, idle, not_below(t.n));
        else
            bad_building(r);
    }
}

/* ---- During recovery ---- */

void recovery_action(void) {
    int what = below(100);
    if (m.done == 2 * m.cached.body[m.at].count + 1 && chance(30))
        put_1(0x09, (int)m.at);         /* reading 15 */
    if (what < 7) {
        put_0(0x0B);
    } else if (what < 17) {
        write_back();
    } else if (what < 25) {             /* refused 5, or 4 */
        for (int i = between(1, 3); i > 0; i--)
            put(between(1, 7), below_or_not(t.w), below_or_not(t.n), some_value(), some_value());
    } else {
        recover(what < 60 ? between(1, 5) : 200);
    }
}

/* ---- Damage ---- */

static void some_bytes(int count, int top) {
    while (count-- > 0)
        put_byte(below(top));
}

/* Empty; another kind first; a setup that is cut, or out of range, or both. What follows must not be read. */
void damaged_start(void) {
    int what = below(8), size[3] = { t.n, t.k, t.w }, length = what == 3 ? below(3) : what == 4 ? between(1, 2) : 3;
    static const int top[3] = { MAX_WORDS, MAX_DESCRIPTORS, MAX_WORKERS };
    if (what == 0)
        return;
    if (what <= 2) {
        put_byte(between(1, what == 1 ? 12 : 255));
        some_bytes(chance(50) ? below(3) : below(30), 13);
        return;
    }
    if (what != 3) {
        int which = below(length);
        size[which] = chance(40) ? 0 : not_below(top[which] + 1);
    }
    put_byte(0);
    for (int i = 0; i < length; i++)
        put_byte(size[i]);
    if (length == 3)
        some_bytes(below(30), 13);
}

void garbage(void) {
    if (chance(70))
        put_setup();
    some_bytes(below(400), chance(50) ? 256 : chance(50) ? 14 : 4);
}

/* After the first two some more follows that must not be read. */
void damaged_end(void) {
    int what = below(3), kind = what == 0 ? between(13, 255) : what == 1 ? 0 : chance(40) ? 2 : between(1, 10);
    if (what == 0 && chance(40))
        kind = 13;
    put_byte(kind);
    some_bytes(what == 2 ? below(body_length[kind]) : chance(50) ? below(3) : below(20), 13);
}

/* Now and then at a multiple of 4096, or one beside it: where buffers end. */
void cut_anywhere(void) {
    size_t length = stored(), pages = length / 4096, at = (size_t)(next() % (length + 1));
    if (pages > 0 && chance(60))
        at = 4096 * (size_t)between(1, (int)pages) + (size_t)between(0, 2) - 1;
    cut_store(at < length ? at : length);
}

void alter(void) {
    for (int i = between(1, 6); i > 0 && stored() > 0; i--)
        store()[next() % stored()] = (unsigned char)(chance(50) ? below(256) : below(13));
}
