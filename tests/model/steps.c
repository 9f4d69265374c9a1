/* Kind 07: the steps of an operation d, the worker's current job, and of a read. */
#include "machine.h"

/* One step taken: the next one is `next` of the current job. Answers M. */
static struct answer go(struct worker *me, u64 next, u64 entry, u64 noted) {
    me->step = next;
    me->entry = entry;
    me->noted = noted;
    return answer('M', 0);
}

/* The start of its own job: install 0, or the read (rule 7, reading 12). */
static struct answer go_to_own_start(struct worker *me) {
    me->job = me->owns == OPERATION ? me->own : 0;
    return go(me, me->owns == OPERATION ? INSTALL : READ_LOOK, 0, 0);
}

/* Rule 2 and read, "a pointer to e": the current job becomes e at its install 0; e may be its own operation (reading 1). */
static struct answer help(struct worker *me, u64 e) {
    if (e >= m.k)
        impossible("a cached pointer to no descriptor");
    me->job = e;
    go(me, INSTALL, 0, 0);
    return answer('H', e);
}

static const struct entry *entry_of(const struct worker *me) { return &m.cached.body[me->job].entry[me->entry]; }
static u64 *word_of(const struct worker *me) { return &m.cached.word[entry_of(me)->address]; }
static int last_entry(const struct worker *me) { return me->entry + 1 >= m.cached.body[me->job].count; }

/* Rule 2, "next entry": after the last one comes rule 3. */
static struct answer next_install(struct worker *me) {
    return last_entry(me) ? go(me, POINTER_BACK, 0, 0) : go(me, INSTALL, me->entry + 1, 0);
}

/* Rule 2, one entry; the tests in the order of reading 4. */
static struct answer install(struct worker *me) {
    u64 d = me->job, *word = word_of(me);
    if (m.cached.status[d] != UNDECIDED)                    /* reading 2: a step of its own */
        return go(me, STATUS_BACK, 0, 0);
    if (points_to(*word, d))
        return next_install(me);
    if (is_pointer(*word))                                  /* reading 5: dirty or not */
        return help(me, target(*word));
    if (*word & DIRTY) {
        write_back_word(entry_of(me)->address);
        return go(me, INSTALL_CLEAR, me->entry, *word & ~DIRTY);
    }
    if (*word != entry_of(me)->expected)
        return go(me, DECIDE, 0, FAILED);
    *word = d | POINTER | DIRTY;
    return next_install(me);
}

/* Rule 2, the step after a dirty plain word was written back; then this entry again (reading 3). */
static struct answer install_clear(struct worker *me) {
    u64 *word = word_of(me);
    if (*word == (me->noted | DIRTY))
        *word = me->noted;
    return go(me, INSTALL, me->entry, 0);
}

/* Rule 3, the second of an entry's two steps. */
static struct answer pointer_clear(struct worker *me) {
    u64 *word = word_of(me);
    if (*word == (me->job | POINTER | DIRTY))
        *word = me->job | POINTER;
    return last_entry(me) ? go(me, DECIDE, 0, SUCCEEDED) : go(me, POINTER_BACK, me->entry + 1, 0);
}

/* Rule 4. */
static struct answer decide(struct worker *me) {
    if (m.cached.status[me->job] == UNDECIDED)
        m.cached.status[me->job] = me->noted | DIRTY;
    return go(me, STATUS_BACK, 0, 0);
}

/* Rule 5: a dirty status takes two steps, a clean one this one step. */
static struct answer status_back(struct worker *me) {
    if (!(m.cached.status[me->job] & DIRTY))
        return go(me, SWAP, 0, 0);
    write_back_status(me->job);
    return go(me, STATUS_CLEAR, 0, 0);
}

/* Rule 6, what the entry's word becomes; the cached status picks it (reading 8). */
static u64 swapped(const struct worker *me) {
    u64 status = m.cached.status[me->job] & ~DIRTY;
    if (status != SUCCEEDED && status != FAILED)
        impossible("rule 6 on an operation that is not decided");
    return by_status(status, entry_of(me)) | DIRTY;
}

/* Rule 6, the first of an entry's three steps. */
static struct answer swap(struct worker *me) {
    u64 *word = word_of(me);
    if (points_to(*word, me->job))
        *word = swapped(me);
    return go(me, SWAP_BACK, me->entry, 0);
}

/* Rule 6, third step (reading 9); rule 7 for a helper's last one (reading 11). */
static struct answer swap_clear(struct worker *me) {
    u64 *word = word_of(me);
    if (*word == swapped(me))
        *word &= ~DIRTY;
    if (!last_entry(me))
        return go(me, SWAP, me->entry + 1, 0);
    return me->owns == OPERATION && me->own == me->job ? go(me, RELEASE, 0, 0) : go_to_own_start(me);
}

/* Rule 7, the owner stores Free, or waits (reading 10); the outcome is noted now (reading 13). */
static struct answer release(struct worker *me) {
    u64 d = me->job, outcome = m.cached.status[d] & ~DIRTY;
    for (u64 i = 0; i < m.w; i++)
        if (&m.worker[i] != me && at_operation(&m.worker[i]) && m.worker[i].job == d)
            return answer('W', 0);
    m.cached.status[d] = FREE;
    return go(me, ANSWER, 0, outcome);
}

static struct answer write_free_and_answer(struct worker *me) {
    char letter = me->noted == SUCCEEDED ? 'S' : 'F';
    write_back_status(me->job);
    become_idle(me);
    return answer(letter, 0);
}

static struct answer read_look(struct worker *me) {
    u64 word = m.cached.word[me->own];
    if (is_pointer(word))
        return help(me, target(word));
    if (word & DIRTY) {
        write_back_word(me->own);
        return go(me, READ_CLEAR, 0, word & ~DIRTY);
    }
    become_idle(me);
    return answer('V', word);
}

static struct answer read_clear(struct worker *me) {
    u64 *word = &m.cached.word[me->own], seen = me->noted;  /* the value first seen (reading 23) */
    if (*word == (seen | DIRTY))
        *word = seen;
    become_idle(me);
    return answer('V', seen);
}

/* Steps without a test are written out here. */
struct answer step(struct worker *me) {
    u64 d = me->job, i = me->entry;
    switch (me->step) {
    case READ_LOOK:     return read_look(me);
    case READ_CLEAR:    return read_clear(me);
    case OWN_BODY:      write_back_body(d); return go(me, OWN_UNDECIDED, 0, 0);                     /* rule 1 */
    case OWN_UNDECIDED: m.cached.status[d] = UNDECIDED; return go(me, OWN_STATUS, 0, 0);
    case OWN_STATUS:    write_back_status(d); return go(me, INSTALL, 0, 0);
    case INSTALL:       return install(me);                                                         /* rule 2 */
    case INSTALL_CLEAR: return install_clear(me);
    case POINTER_BACK:  write_back_word(entry_of(me)->address); return go(me, POINTER_CLEAR, i, 0); /* rule 3 */
    case POINTER_CLEAR: return pointer_clear(me);
    case DECIDE:        return decide(me);                                                          /* rule 4 */
    case STATUS_BACK:   return status_back(me);                                                     /* rule 5 */
    case STATUS_CLEAR:  m.cached.status[d] &= ~DIRTY; return go(me, SWAP, 0, 0);                    /* reading 7 */
    case SWAP:          return swap(me);                                                            /* rule 6 */
    case SWAP_BACK:     write_back_word(entry_of(me)->address); return go(me, SWAP_CLEAR, i, 0);
    case SWAP_CLEAR:    return swap_clear(me);
    case RELEASE:       return release(me);                                                         /* rule 7 */
    default:            return write_free_and_answer(me);
    }
}
