/* Every event of a schedule: what the memory holds, building, refusals, crash and recovery. The steps are in steps.c. */
#include "machine.h"
#include <stdio.h>
#include <stdlib.h>
#include <string.h>

struct machine m;

void impossible(const char *what) {
    fprintf(stderr, "model: impossible: %s\n", what);
    exit(3);
}

/* ---- What the memory holds ---- */

int find(const struct body *b, u64 address) {
    for (u64 i = 0; i < b->count; i++)
        if (b->entry[i].address == address)
            return (int)i;
    return -1;
}

/* From persisted copies only. */
u64 value(u64 a) {
    u64 word = m.persisted.word[a], d = target(word);
    if (!is_pointer(word))
        return word & ~DIRTY;
    int i = d < m.k ? find(&m.persisted.body[d], a) : -1;
    if (i < 0)
        impossible("a persisted pointer to no descriptor, or to one without that address");
    return by_status(m.persisted.status[d], &m.persisted.body[d].entry[i]);
}

struct answer setup(u64 n, u64 k, u64 w) {
    if (n < 1 || n > MAX_WORDS || k < 1 || k > MAX_DESCRIPTORS || w < 1 || w > MAX_WORKERS)
        return answer('R', 1);
    memset(&m, 0, sizeof m);
    m.n = n;
    m.k = k;
    m.w = w;
    return answer('O', 0);
}

/* ---- Building ---- */

static int owned(u64 d) {
    for (u64 i = 0; i < m.w; i++)
        if ((m.worker[i].owns == BUILDING || m.worker[i].owns == OPERATION) && m.worker[i].own == d)
            return 1;
    return 0;
}

/* Free in both copies and owned by nobody (reading 18). */
int lowest_openable(void) {
    for (u64 d = 0; d < m.k; d++)
        if (m.cached.status[d] == FREE && m.persisted.status[d] == FREE && !owned(d))
            return (int)d;
    return -1;
}

static struct answer open_descriptor(struct worker *me) {
    me->own = (u64)lowest_openable();                       /* refusal 9 has seen to it that there is one */
    me->owns = BUILDING;
    memset(&m.cached.body[me->own], 0, sizeof m.cached.body[0]);
    return answer('D', me->own);
}

/* Kind 02: kept sorted. */
static void add_word(struct body *b, struct entry new) {
    u64 i = b->count++;
    for (; i > 0 && b->entry[i - 1].address > new.address; i--)
        b->entry[i] = b->entry[i - 1];
    b->entry[i] = new;
}

/* Kind 03: later entries move down, the place left over becomes zeros. */
static void remove_word(struct body *b, u64 address) {
    for (u64 i = (u64)find(b, address); i + 1 < b->count; i++)
        b->entry[i] = b->entry[i + 1];
    memset(&b->entry[--b->count], 0, sizeof b->entry[0]);
}

static void submit(struct worker *me) {
    me->owns = OPERATION;
    me->job = me->own;
    me->step = OWN_BODY;
}

static void begin_read(struct worker *me, u64 address) {
    me->owns = READ;
    me->own = address;
    me->step = READ_LOOK;
}

/* ---- Crash and recovery ---- */

/* Kind 0B, in recovery too (reading 14). */
static void crash(void) {
    m.cached = m.persisted;
    for (u64 i = 0; i < m.w; i++)
        become_idle(&m.worker[i]);
    m.recovering = 1;
    m.at = m.done = 0;
}

/* On to the next descriptor; Z in place of A on the very last step (reading 16). */
static struct answer descriptor_done(void) {
    m.at++;
    m.done = 0;
    if (m.at < m.k)
        return answer('A', 0);
    m.recovering = m.at = 0;
    return answer('Z', 0);
}

/* A cached word pointing to d becomes desired or expected, not dirty, by the persisted status (reading 32). */
static void recover_word(u64 d, const struct entry *e) {
    if (points_to(m.cached.word[e->address], d))
        m.cached.word[e->address] = by_status(m.persisted.status[d], e);
}

/* Kind 0C. The place is the descriptor and the steps done, not worked out anew (reading 15). */
static struct answer recovery_step(void) {
    u64 d = m.at, s = m.done, c = m.cached.body[d].count;
    if (s == 0 && m.cached.status[d] == FREE)
        return descriptor_done();
    if (s == 2 * c + 1) {
        write_back_status(d);
        return descriptor_done();
    }
    if (s == 2 * c)
        m.cached.status[d] = FREE;
    else if (s % 2 == 0)
        recover_word(d, &m.cached.body[d].entry[s / 2]);
    else
        write_back_word(m.cached.body[d].entry[s / 2].address);
    m.done++;
    return answer('A', 0);
}

/* ---- One record ---- */

/* Kinds 02 to 05 of a worker that builds: 10, 11, 13, 12, 14, 15, in that order. */
static u64 building_refusal(const struct record *r, const struct body *b) {
    switch (r->kind) {
    case 0x02:
        return r->second >= m.n ? 10 : r->expected >= PLAIN_LIMIT || r->desired >= PLAIN_LIMIT ? 11
             : find(b, r->second) >= 0 ? 13 : b->count == MAX_ENTRIES ? 12 : 0;
    case 0x03: return r->second >= m.n ? 10 : find(b, r->second) < 0 ? 14 : 0;
    case 0x04: return b->count == 0 ? 15 : 0;
    default:   return 0;
    }
}

/* Reading 20: for each kind its refusals, in the order of the order line. */
u64 refusal(const struct record *r) {
    switch (r->kind) {
    case 0x08: return r->first >= m.n ? 10 : 0;
    case 0x09:
    case 0x0A: return r->first >= m.k ? 17 : 0;
    case 0x0B: return 0;
    case 0x0C: return m.recovering ? 0 : 6;
    }
    if (r->first >= m.w)
        return 4;
    if (m.recovering)
        return 5;
    const struct worker *me = &m.worker[r->first];
    switch (r->kind) {
    case 0x01: return me->owns != NOTHING ? 7 : lowest_openable() < 0 ? 9 : 0;
    case 0x06: return me->owns != NOTHING ? 7 : r->second >= m.n ? 10 : 0;
    case 0x07: return runs(me) ? 0 : 16;
    default:   return me->owns != BUILDING ? 8 : building_refusal(r, &m.cached.body[me->own]);
    }
}

/* Answers: reading 34. */
struct answer perform(const struct record *r) {
    struct worker *me = &m.worker[r->kind <= 0x07 ? r->first : 0];
    struct entry word = { r->second, r->expected, r->desired };
    switch (r->kind) {
    case 0x01: return open_descriptor(me);
    case 0x02: add_word(&m.cached.body[me->own], word); break;
    case 0x03: remove_word(&m.cached.body[me->own], r->second); break;
    case 0x04: submit(me); break;
    case 0x05: become_idle(me); break;                      /* the body stays (reading 19) */
    case 0x06: begin_read(me, r->second); break;
    case 0x07: return step(me);
    case 0x08: write_back_word(r->first); break;
    case 0x09: write_back_status(r->first); break;
    case 0x0A: write_back_body(r->first); break;
    case 0x0B: crash(); break;
    default:   return recovery_step();
    }
    return answer('O', 0);
}
