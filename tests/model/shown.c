/* Reading the lines of docs/TRACE.md, to the letter: another space or a leading zero is not of the format. */
#include "shown.h"
#include <string.h>

static const char *rest;                /* of the line at hand */

static int text(const char *wanted) {
    size_t length = strlen(wanted);
    if (strncmp(rest, wanted, length) != 0)
        return 0;
    rest += length;
    return 1;
}

static int number(u64 *x) {
    const char *first = rest;
    *x = 0;
    for (; *rest >= '0' && *rest <= '9'; rest++) {
        u64 digit = (u64)(*rest - '0');
        if (*x > (UINT64_MAX - digit) / 10)
            return 0;
        *x = 10 * *x + digit;
    }
    return rest > first && (*first != '0' || rest == first + 1);
}

static int below(int top, int *x) {
    u64 big;
    if (!number(&big) || big >= (u64)top)
        return 0;
    *x = (int)big;
    return 1;
}

static int word(struct word *w) {       /* `neither X` is never to be met */
    w->pointer = text("pointer to ");
    if (!number(&w->number) || w->number >= UINT64_C(1) << 61 || (w->pointer && w->number >= 16))
        return 0;
    w->dirty = text(" dirty");
    return 1;
}

static int status(struct status *s) {   /* nor is `bad X` */
    static const char *const name[4] = { "Free", "Undecided", "Succeeded", "Failed" };
    for (s->kind = FREE; s->kind <= FAILED; s->kind++)
        if (text(name[s->kind])) {
            s->dirty = s->kind >= SUCCEEDED && text(" dirty");
            return 1;
        }
    return 0;
}

static int body(struct body *b) {
    memset(b, 0, sizeof *b);
    if (text("empty"))
        return 1;
    do {
        struct entry *e = &b->entry[b->count];
        if (b->count == 4 || !number(&e->address) || !text(":") || !number(&e->expected) || !text(">") || !number(&e->desired))
            return 0;
        if (e->address >= 64 || (b->count > 0 && e->address <= e[-1].address))
            return 0;
        b->count++;
    } while (rest[0] == ' ' && rest[1] != ' ' && text(" "));
    return 1;
}

static int step(struct worker *w) {
    static const struct { const char *text; int step; char then; } plain[] = {
        { "1 write back body", 11, 0 }, { "1 store Undecided", 12, 0 }, { "1 write back status", 13, 0 }, { "4 store Succeeded", 41, 'S' },
        { "4 store Failed", 41, 'F' }, { "5 write back status", 51, 0 }, { "5 clear status", 52, 0 }, { "7 store Free", 71, 0 },
        { "7 write back status, then S", 72, 'S' }, { "7 write back status, then F", 72, 'F' }, { "read word", 1, 0 }
    };
    static const struct { const char *text; int step; } entry[] = {
        { "2 install entry ", 21 }, { "2 clear entry ", 22 }, { "3 write back entry ", 31 }, { "3 clear entry ", 32 },
        { "6 swap entry ", 61 }, { "6 write back entry ", 62 }, { "6 clear entry ", 63 }
    };
    for (unsigned i = 0; i < sizeof plain / sizeof plain[0]; i++)
        if (strcmp(rest, plain[i].text) == 0) {
            w->step = plain[i].step;
            w->then = plain[i].then;
            return text(plain[i].text);
        }
    for (unsigned i = 0; i < sizeof entry / sizeof entry[0]; i++)
        if (text(entry[i].text)) {
            w->step = entry[i].step;
            return below(4, &w->entry) && (w->step != 22 || (text(", ") && number(&w->seen) && text(" seen")));
        }
    w->step = 2;
    return text("read clear, ") && number(&w->seen) && text(" seen");
}

static int worker(struct worker *w) {
    memset(w, 0, sizeof *w);
    w->job = -1;
    if (text("idle"))
        return 1;
    w->owns = text("building ") ? BUILDING : text("operation ") ? OPERATION : text("read ") ? READ : IDLE;
    if (w->owns == IDLE || !below(w->owns == READ ? 64 : 16, &w->own))
        return 0;
    if (w->owns == BUILDING)
        return 1;
    if (text("  helps ")) {
        if (!below(16, &w->job) || (w->owns == OPERATION && w->job == w->own))
            return 0;
    } else if (w->owns == OPERATION) {
        w->job = w->own;
    }
    if (!text("  ") || !step(w))
        return 0;
    return (w->job < 0) == (w->step < 10);      /* a read's steps are those of a worker at its own read */
}

static int recovery(struct state *s) {
    s->recovering = s->at = s->done = 0;
    if (text("outside"))
        return 1;
    s->recovering = 1;
    return text("descriptor ") && below(16, &s->at) && text(", ") && below(10, &s->done) && text(" done");
}

int read_line(struct state *s, const char *line) {
    int i = 0, good = 0, place = 400;
    rest = line;
    if (text("  word ")) {
        good = below(64, &i) && text("  cached ") && word(&s->cached.word[i]) && text("  persisted ") && word(&s->persisted.word[i]);
        place = i;
    } else if (text("  status ")) {
        good = below(16, &i) && text("  cached ") && status(&s->cached.status[i]) && text("  persisted ") && status(&s->persisted.status[i]);
        place = 100 + i;
    } else if (text("  body ")) {
        good = below(16, &i) && text("  cached ") && body(&s->cached.body[i]) && text("  persisted ") && body(&s->persisted.body[i]);
        place = 200 + i;
    } else if (text("  worker ")) {
        good = below(8, &i) && text("  ") && worker(&s->worker[i]);
        place = 300 + i;
    } else if (text("  recovery  ")) {
        good = recovery(s);
    }
    return good && *rest == 0 ? place : -1;
}

/* ---- Comparing ---- */

static int same_word(const struct word *a, const struct word *b) {
    return a->pointer == b->pointer && a->dirty == b->dirty && a->number == b->number;
}

static int same_status(const struct status *a, const struct status *b) { return a->kind == b->kind && a->dirty == b->dirty; }

int same_body(const struct body *a, const struct body *b) {
    return a->count == b->count && memcmp(a->entry, b->entry, sizeof a->entry) == 0;
}

static int same_worker(const struct worker *a, const struct worker *b) {
    return a->owns == b->owns && a->own == b->own && a->job == b->job && a->step == b->step && a->entry == b->entry && a->seen == b->seen
        && a->then == b->then;
}

int same_place(const struct state *a, const struct state *b, int place) {
    int i = place % 100;
    const struct copy *ac = &a->cached, *bc = &b->cached, *ap = &a->persisted, *bp = &b->persisted;
    switch (place / 100) {
    case 0: return same_word(&ac->word[i], &bc->word[i]) && same_word(&ap->word[i], &bp->word[i]);
    case 1: return same_status(&ac->status[i], &bc->status[i]) && same_status(&ap->status[i], &bp->status[i]);
    case 2: return same_body(&ac->body[i], &bc->body[i]) && same_body(&ap->body[i], &bp->body[i]);
    case 3: return same_worker(&a->worker[i], &b->worker[i]);
    default: return a->recovering == b->recovering && a->at == b->at && a->done == b->done;
    }
}
