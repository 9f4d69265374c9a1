/* trace: what tick prints, and after each record what it changed, at the end the whole memory. The lines are those of docs/TRACE.md. */
#include "play.h"
#include <string.h>

/* ---- What a line shows ---- */

static void put_word(u64 word) {
    if (word & PLAIN_LIMIT) {                               /* bit 61 */
        put_text("neither ");
        put_number(word);
        return;
    }
    put_text(is_pointer(word) ? "pointer to " : "");
    put_number(target(word));
    put_text(word & DIRTY ? " dirty" : "");
}

static void put_status(u64 status) {
    static const char *const name[4] = { "Free", "Undecided", "Succeeded", "Failed" };
    u64 x = status & ~DIRTY;
    if (x > FAILED || (x != status && x < SUCCEEDED)) {
        put_text("bad ");
        put_number(status);
        return;
    }
    put_text(name[x]);
    if (x != status)
        put_text(" dirty");
}

static void put_body(const struct body *b) {
    if (b->count == 0)
        put_text("empty");
    for (u64 i = 0; i < b->count && i < MAX_ENTRIES; i++) {
        put_text(i == 0 ? "" : " ");
        put_number(b->entry[i].address);
        put_text(":");
        put_number(b->entry[i].expected);
        put_text(">");
        put_number(b->entry[i].desired);
    }
}

/* A step: its name, and what follows the entry or the value that it has. */
static void put_step(const struct worker *me) {
    const char *name = "", *entry = 0, *seen = 0;
    switch (me->step) {
    case READ_LOOK:     name = "read word"; break;
    case READ_CLEAR:    name = "read clear"; seen = " seen"; break;
    case OWN_BODY:      name = "1 write back body"; break;
    case OWN_UNDECIDED: name = "1 store Undecided"; break;
    case OWN_STATUS:    name = "1 write back status"; break;
    case INSTALL:       name = "2 install"; entry = " entry "; break;
    case INSTALL_CLEAR: name = "2 clear"; entry = " entry "; seen = " seen"; break;
    case POINTER_BACK:  name = "3 write back"; entry = " entry "; break;
    case POINTER_CLEAR: name = "3 clear"; entry = " entry "; break;
    case DECIDE:        name = me->noted == SUCCEEDED ? "4 store Succeeded" : "4 store Failed"; break;
    case STATUS_BACK:   name = "5 write back status"; break;
    case STATUS_CLEAR:  name = "5 clear status"; break;
    case SWAP:          name = "6 swap"; entry = " entry "; break;
    case SWAP_BACK:     name = "6 write back"; entry = " entry "; break;
    case SWAP_CLEAR:    name = "6 clear"; entry = " entry "; break;
    case RELEASE:       name = "7 store Free"; break;
    case ANSWER:        name = me->noted == SUCCEEDED ? "7 write back status, then S" : "7 write back status, then F"; break;
    }
    put_text(name);
    if (entry)
        put_text(entry), put_number(me->entry);
    if (seen)
        put_text(", "), put_number(me->noted), put_text(seen);
}

static void put_worker(const struct worker *me) {
    static const char *const owns[4] = { "idle", "building ", "operation ", "read " };
    put_text(owns[me->owns]);
    if (me->owns == NOTHING)
        return;
    put_number(me->own);
    if (!runs(me))
        return;
    if (at_operation(me) && !(me->owns == OPERATION && me->own == me->job))
        put_text("  helps "), put_number(me->job);
    put_text("  ");
    put_step(me);
}

/* ---- Lines ---- */

static void begin_line(const char *what, u64 number) {
    put_text("  ");
    put_text(what);
    put_number(number);
    put_text("  ");
}

/* `old` is the machine before the record; without it every line is shown. */
static void put_words(const struct machine *old) {
    for (u64 a = 0; a < m.n; a++) {
        if (old && old->cached.word[a] == m.cached.word[a] && old->persisted.word[a] == m.persisted.word[a])
            continue;
        begin_line("word ", a);
        put_text("cached ");
        put_word(m.cached.word[a]);
        put_text("  persisted ");
        put_word(m.persisted.word[a]);
        put_text("\n");
    }
}

static void put_statuses(const struct machine *old) {
    for (u64 d = 0; d < m.k; d++) {
        if (old && old->cached.status[d] == m.cached.status[d] && old->persisted.status[d] == m.persisted.status[d])
            continue;
        begin_line("status ", d);
        put_text("cached ");
        put_status(m.cached.status[d]);
        put_text("  persisted ");
        put_status(m.persisted.status[d]);
        put_text("\n");
    }
}

static int same_body(const struct body *a, const struct body *b) { return memcmp(a, b, sizeof *a) == 0; }

static void put_bodies(const struct machine *old) {
    for (u64 d = 0; d < m.k; d++) {
        const struct body *c = &m.cached.body[d], *p = &m.persisted.body[d];
        if (old && same_body(&old->cached.body[d], c) && same_body(&old->persisted.body[d], p))
            continue;
        begin_line("body ", d);
        put_text("cached ");
        put_body(c);
        put_text("  persisted ");
        put_body(p);
        put_text("\n");
    }
}

static void put_workers(const struct machine *old) {
    for (u64 i = 0; i < m.w; i++) {
        if (old && memcmp(&old->worker[i], &m.worker[i], sizeof m.worker[i]) == 0)
            continue;
        begin_line("worker ", i);
        put_worker(&m.worker[i]);
        put_text("\n");
    }
}

static void put_recovery(const struct machine *old) {
    if (old && old->recovering == m.recovering && old->at == m.at && old->done == m.done)
        return;
    put_text("  recovery  ");
    if (m.recovering)
        put_text("descriptor "), put_number(m.at), put_text(", "), put_number(m.done), put_text(" done");
    else
        put_text("outside");
    put_text("\n");
}

static void put_memory(const struct machine *old) {
    put_words(old);
    put_statuses(old);
    put_bodies(old);
    put_workers(old);
    put_recovery(old);
}

int main(void) {
    static struct machine old;
    struct answer a = { 'O', 0 };
    for (u64 number = 0; !ends_reading(a); number++) {
        old = m;
        if ((a = play_record()).letter == 0)
            break;
        put_answer(number, a);
        if (a.letter != 'R')
            put_memory(number == 0 ? 0 : &old);
    }
    put_values();
    if (m.n != 0)
        put_memory(0);
    return finish();
}
