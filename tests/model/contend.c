/* The records of workers that get into each other's way. */
#include "contend.h"

/* ---- Building ---- */

void add(int worker, int address) {
    u64 expected = chance(t.match_share) ? likely_value(address) : some_value();
    put(0x02, worker, address, expected, chance(8) ? expected : some_value());
}

int has(int worker, int address) { return find(&m.cached.body[m.worker[worker].own], (u64)address) >= 0; }
int count_of(int worker) { return (int)m.cached.body[m.worker[worker].own].count; }

void add_some(int worker) {
    int address = chance(30) ? busy_address() : some_address();
    for (int tries = 0; tries < 12 && has(worker, address); tries++)
        address = tries < 6 ? some_address() : below(t.n);
    if (!has(worker, address) || chance(5))
        add(worker, address);
}

void take_out(int worker) {
    if (count_of(worker))
        put_2(0x03, worker, (int)m.cached.body[m.worker[worker].own].entry[below(count_of(worker))].address);
}

static void build_whole(int worker) {
    if (put_1(0x01, worker) != 'D')
        return;
    for (int c = chance(25) ? 1 : chance(55) ? 2 : between(3, 4); c > 0; c--) {
        add_some(worker);
        if (chance(5))
            take_out(worker);
        if (chance(3))
            put_1(0x0A, (int)m.worker[worker].own);
    }
    if (chance(93))
        put_1(0x04, worker);
    else if (chance(50))
        put_1(0x05, worker);
}

static void build_all(void) {
    for (int i = 0, first = below(t.w); i < t.w; i++)
        if (m.worker[(first + i) % t.w].owns == NOTHING && lowest_openable() >= 0 && chance(85))
            build_whole((first + i) % t.w);
}

void build_on(int worker) {
    int what = below(100);
    if (what < 55 && count_of(worker) < 4)
        add_some(worker);
    else if (what < 65)
        take_out(worker);
    else if (what < 71)
        put_1(0x05, worker);
    else
        put_1(0x04, worker);
}

void idle_worker(int worker) {
    if (chance(t.read_share) || (lowest_openable() < 0 && chance(85)))
        put_2(0x06, worker, chance(60) ? busy_address() : some_address());
    else if (chance(t.together))
        build_all();
    else if (chance(75))
        build_whole(worker);
    else
        put_1(0x01, worker);
}

/* ---- Steps ---- */

void steps(int worker, int count) {
    while (count-- > 0 && runs(&m.worker[worker])) {
        char letter = take_step(worker);
        if (letter == 'W' && chance(70))
            return;
        if ((m.worker[worker].step == INSTALL_CLEAR || m.worker[worker].step == READ_CLEAR) && t.w > 1 && chance(40)) {
            stalled = worker;           /* let the word change under it */
            stalled_until = records + between(2, 20);
            return;
        }
    }
}

int some_burst(void) { return chance(6) ? between(1, 30) : between(1, t.burst); }

void write_back(void) {
    int what = below(10);
    if (what < 5)
        put_1(0x08, chance(70) ? busy_address() : some_address());
    else if (what < 8)
        put_1(0x09, chance(80) ? busy_descriptor() : below(t.k));
    else
        put_1(0x0A, chance(80) ? busy_descriptor() : below(t.k));
}

/* Free persisted by kind 09 before its owner has answered; an opening then must not take it (readings 13 and 18). */
void early_free(void) {
    for (int i = 0; i < t.w; i++)
        if (runs(&m.worker[i]) && m.worker[i].step == ANSWER) {
            int idle = worker_that(NOTHING);
            put_1(0x09, (int)m.worker[i].own);
            if (idle >= 0)
                put_1(0x01, idle);
            return;
        }
}

void recover(int count) {
    while (count-- > 0 && m.recovering)
        put_0(0x0C);
    if (!m.recovering && chance(10))
        put_0(0x0C);
}

/* ---- A worker that helps meets its own operation only in a chain of three operations; this makes one, more or less exactly. ---- */

static void stir(void) {
    if (chance(6))
        write_back();
    if (chance(3))
        steps(below(t.w), 1);
}

static int build_of(int worker, int count, const int *address, int wrong) {
    if (put_1(0x01, worker) != 'D')
        return -1;
    for (int i = 0; i < count; i++) {
        u64 e = m.cached.word[address[i]] & ~DIRTY;
        put(0x02, worker, address[i], i == wrong ? e ^ 1 : e, some_value());
    }
    put_1(0x04, worker);
    return (int)m.worker[worker].own;
}

/* Steps of the worker until the word points to d (or, with d below 0, until it helps -d - 1). */
static void steps_until(int worker, int address, int d, int most) {
    const struct worker *x = &m.worker[worker];
    while (most-- > 0 && runs(x)) {
        if (d >= 0 ? points_to(m.cached.word[address], (u64)d) : at_operation(x) && x->job == (u64)(-d - 1))
            return;
        stir();
        if (runs(x))
            take_step(worker);
    }
}

/* So many addresses, ascending; all workers are idle and no word has a pointer. */
static int stage(int count, int *a) {
    if (t.n < count || t.w < 3 || m.recovering)
        return 0;
    for (int i = 0; i < t.w; i++)
        if (m.worker[i].owns != NOTHING)
            return 0;
    for (int i = 0, left = t.n, need = count, at = 0; i < count; at++, left--)
        if (below(left) < need) {
            a[i++] = at;
            need--;
        }
    for (int i = 0; i < count; i++)
        if (is_pointer(m.cached.word[a[i]]))
            return 0;
    return 1;
}

void chain(void) {
    int a[4] = { 0 }, first = below(t.w), p = first, q = (first + 1) % t.w, r = (first + 2) % t.w, wrong = chance(88) ? 1 : -1;
    if (!stage(4, a))
        return;
    int of_p[3] = { a[0], a[1], a[3] }, of_q[2] = { a[1], a[2] }, of_r[2] = { a[2], a[3] };
    int d = build_of(p, 3, of_p, -1), e = build_of(q, 2, of_q, wrong), f = build_of(r, 2, of_r, -1);
    if (d < 0 || e < 0 || f < 0)
        return;
    steps_until(q, a[1], e, 10);
    if (wrong >= 0)
        steps(q, chance(90) ? 1 : 2);
    steps_until(r, a[2], f, 10);
    steps_until(p, 0, -f - 1, 14);
    steps(q, 60);
    if (m.worker[q].owns == NOTHING)
        put_2(0x06, q, a[0]);
    steps_until(q, a[3], d, 14);
    steps_until(p, 0, -d - 1, 4);
}

static void swap_to(int worker, int address, u64 desired) {
    if (put_1(0x01, worker) != 'D')
        return;
    put(0x02, worker, address, likely_value(address), desired);
    put_1(0x04, worker);
    steps(worker, 30);
}

/* A helper stops, the operation goes on without it to the end of 6, then the helper wakes. Either it stops before the last word, which
 * another sets back to what was expected; or after it found that word another than expected, which another makes good. */
void overtaken(void) {
    int a[2] = { 0 }, first = below(t.w), p = first, q = (first + 1) % t.w, r = (first + 2) % t.w, other = chance(40);
    if (!stage(2, a))
        return;
    u64 old = m.cached.word[a[1]] & ~DIRTY;
    int d = build_of(p, 2, a, other ? 1 : -1);
    if (d < 0)
        return;
    steps_until(p, a[0], d, 10);
    put_2(0x06, q, a[0]);
    steps(q, other ? 3 : 2);
    if (other)
        swap_to(r, a[1], old ^ 1);
    for (int i = 0; i < 40 && runs(&m.worker[p]) && m.worker[p].step != RELEASE; i++)
        take_step(p);
    if (!other)
        swap_to(r, a[1], old);
    if (chance(30))
        steps(p, 1);
    steps(q, between(1, 30));
}
