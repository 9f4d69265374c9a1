/* The ledger: a list of n values, zeros at first. When the persisted status of a running operation becomes Succeeded from something
 * that was not, once for each submission, the ledger must equal all its expected values, and takes all its desired values at once;
 * nothing else changes it. */
#include "ledger.h"
#include <stdlib.h>
#include <string.h>

u64 changes;
static u64 ledger[64];

/* ---- Operations and reads under way, one for each worker ---- */

struct job {
    int owns, own;                      /* OPERATION and its descriptor, READ and its address; else none */
    struct body body;                   /* as submitted */
    int in, differed;                   /* it is in the ledger; the ledger has differed from one of its expected values */
    u64 *held;                          /* what the ledger had at the read's address */
    int held_count, held_room;
};
static struct job job[8];

static int had(const struct job *j, u64 x) {
    for (int i = 0; i < j->held_count; i++)
        if (j->held[i] == x)
            return 1;
    return 0;
}

static void hold(struct job *j, u64 x) {
    if (had(j, x))
        return;
    if (j->held_count == j->held_room) {
        j->held_room = 2 * j->held_room + 8;
        j->held = realloc(j->held, (size_t)j->held_room * sizeof *j->held);
        if (!j->held)
            exit(3);
    }
    j->held[j->held_count++] = x;
}

/* A worker has begun a read, submitted an operation, or ended what it had. */
static void begin_and_end(void) {
    for (int i = 0; i < w; i++) {
        const struct worker *p = &now.worker[i];
        int owns = p->owns == OPERATION || p->owns == READ ? p->owns : IDLE;
        if (job[i].owns == owns && (owns == IDLE || job[i].own == p->own))
            continue;
        job[i].owns = owns;
        job[i].own = p->own;
        job[i].in = job[i].differed = job[i].held_count = 0;
        if (owns == OPERATION)
            job[i].body = now.cached.body[p->own];
    }
}

/* A moment: what the ledger says to each that runs. */
static void moment(void) {
    for (int i = 0; i < w; i++) {
        if (job[i].owns == READ)
            hold(&job[i], ledger[job[i].own]);
        for (int e = 0; e < job[i].body.count && job[i].owns == OPERATION; e++)
            job[i].differed |= ledger[job[i].body.entry[e].address] != job[i].body.entry[e].expected;
    }
}

/* Worker i has answered S, F or V. */
static void check_answer(int i, char letter, u64 number) {
    const struct job *j = &job[i];
    const struct worker *p = &before.worker[i];
    if (now.worker[i].owns != IDLE)
        violation("S, F or V, and the worker is not idle");
    if (letter == 'V') {
        if (j->owns != READ || (p->step != 1 && !(p->step == 2 && p->seen == number)))
            violation("V by a worker that is not at the end of a read of that value");
        else if (!had(j, number))
            violation("V, but the ledger never had that value there since the read began");
    } else if (j->owns != OPERATION || p->step != 72 || p->then != letter) {
        violation("S or F by a worker that is not at the step that answers it");
    } else if (letter == 'S' && !j->in) {
        violation("S, but the operation is not in the ledger");
    } else if (letter == 'F' && j->in) {
        violation("F, but the operation is in the ledger");
    } else if (letter == 'F' && !j->differed) {
        violation("F, but the ledger never differed from its expected values");
    }
}

/* ---- The ledger ---- */

void fresh_ledger(void) {
    memset(ledger, 0, sizeof ledger);
    for (int i = 0; i < 8; i++)
        job[i].owns = IDLE;
}

u64 value(int a) {
    const struct word *x = &now.persisted.word[a];
    if (!x->pointer)
        return x->number;
    const struct body *b = &now.persisted.body[x->number];
    for (int i = 0; i < b->count; i++)
        if (b->entry[i].address == (u64)a)
            return now.persisted.status[x->number].kind == SUCCEEDED ? b->entry[i].desired : b->entry[i].expected;
    violation("a persisted pointer to a descriptor without that address");
    return 0;
}

/* Succeeded has reached persisted memory. */
static void take(int d) {
    struct job *j = NULL;
    for (int i = 0; i < w; i++)
        if (job[i].owns == OPERATION && job[i].own == d)
            j = &job[i];
    changes++;
    if (!j || j->in) {
        violation(j ? "Succeeded persisted twice for one submission" : "Succeeded persisted, but no operation of that descriptor runs");
        return;
    }
    if (!same_body(&j->body, &now.persisted.body[d]))
        violation("Succeeded persisted, but the persisted body is not the one submitted");
    j->in = 1;
    for (int i = 0; i < j->body.count; i++)
        if (ledger[j->body.entry[i].address] != j->body.entry[i].expected)
            violation("Succeeded persisted, but the ledger differs from expected");
    for (int i = 0; i < j->body.count; i++)
        ledger[j->body.entry[i].address] = j->body.entry[i].desired;
}

static void check_values(char letter) {
    for (int a = 0; a < n; a++)
        if (value(a) != ledger[a]) {
            violation(letter == 'Z' ? "Z, and a value differs from the ledger" : "a value differs from the ledger");
            return;
        }
}

static void check_bodies(void) {
    for (int i = 0; i < w; i++)
        if (job[i].owns == OPERATION && !same_body(&job[i].body, &now.cached.body[job[i].own]))
            violation("a body changed while its operation runs");
}

/* ---- Recovery ---- */

static void check_recovery(char letter) {
    static int taken, due;
    if (letter == 'O' && now.recovering && now.at == 0 && now.done == 0) {      /* a crash, or another event before the first step */
        taken = due = 0;
        for (int d = 0; d < k; d++)
            due += now.persisted.status[d].kind == FREE ? 1 : 2 * now.persisted.body[d].count + 2;
    }
    taken += letter == 'A' || letter == 'Z';
    if (letter == 'Z' && taken != due)
        violation("Z after another number of steps than 2c+2 and 1");
}

/* ---- One record ---- */

/* The ledger changes, then the moment after the record is seen, then who answered is judged, then who begins has the moment too. */
void follow(char letter, u64 number) {
    for (int d = 0; d < k; d++)
        if (now.persisted.status[d].kind == SUCCEEDED && before.persisted.status[d].kind != SUCCEEDED)
            take(d);
    moment();
    if (strchr("SFV", letter))
        for (int i = 0; i < w; i++)
            if (!same_place(&before, &now, 300 + i))
                check_answer(i, letter, number);
    begin_and_end();
    moment();
    check_bodies();
    check_values(letter);
    check_recovery(letter);
}
