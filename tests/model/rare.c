/* Counts of answers, refusals and rarer events. */
#include "rare.h"
#include <inttypes.h>
#include <stdio.h>
#include <string.h>

enum {
    H_OWN, H_NESTED, H_READER, H_OPERATION, W_READER, W_OPERATION, C22, C22_CHANGED, RCLEAR, RCLEAR_CHANGED, DECIDED_21, FAILED_21, PASSED_21,
    LATE_32, LATE_41, CLEAN_51, LATE_52, LATE_61, LATE_63, HELPER_61, CRASH, CRASH_RECOVERY, CRASH_LIVE, Z_LIVE, SUCC_09, EARLY_FREE, REUSE, EVENTS
};
static const char *const event_name[EVENTS] = {
    "H of its own operation", "H from helping (nested)", "H from a read", "H from its own operation", "W because of a read's helper",
    "W because of an operation's helper", "2 clear", "2 clear, word changed meanwhile", "read clear", "read clear, word changed meanwhile",
    "2 install: decided already, to 5", "2 install: to 4 with Failed", "2 install: passed over its own pointer", "3 clear: nothing to clear",
    "4: decided already", "5: clean", "5 clear: cleared already", "6 swap: nothing to swap", "6 clear: nothing to clear",
    "6 swap: by a helper", "crashes", "crashes during recovery", "crashes with a live descriptor", "Z after a live descriptor",
    "Succeeded persisted by kind 09", "Free persisted by kind 09", "descriptor opened again"
};
static u64 event[EVENTS], refusals[18], letters[128];
static int live_at_crash;

static int same_words(const struct copy *a, const struct copy *b) { return memcmp(a->word, b->word, sizeof a->word) == 0; }
static int same_statuses(const struct copy *a, const struct copy *b) { return memcmp(a->status, b->status, sizeof a->status) == 0; }

/* A worker took a step: from o to p. */
static void count_step(const struct seen *s, const struct worker *o, const struct worker *p, char letter) {
    int words = !same_words(&s->before->cached, &s->now->cached), statuses = !same_statuses(&s->before->cached, &s->now->cached);
    int own = o->owns == OPERATION && o->own == o->job;
    if (letter == 'H') {
        event[H_OWN] += p->owns == OPERATION && p->own == p->job;
        event[H_NESTED] += o->job >= 0 && !own;
        event[H_READER] += o->job < 0;
        event[H_OPERATION] += own;
    }
    if (o->step == 22)
        event[words ? C22 : C22_CHANGED]++;
    if (o->step == 2)
        event[words ? RCLEAR : RCLEAR_CHANGED]++;
    if (letter != 'M')
        return;
    if (o->step == 21) {
        event[DECIDED_21] += p->step == 51;
        event[FAILED_21] += p->step == 41;
        event[PASSED_21] += (p->step == 21 || p->step == 31) && !words;
    }
    event[LATE_32] += o->step == 32 && !words;
    event[LATE_41] += o->step == 41 && !statuses;
    event[CLEAN_51] += o->step == 51 && p->step == 61;
    event[LATE_52] += o->step == 52 && !statuses;
    event[LATE_61] += o->step == 61 && !words;
    event[LATE_63] += o->step == 63 && !words;
    event[HELPER_61] += o->step == 61 && words && !own;
}

int count_wait(const struct seen *s) {
    for (int i = 0; i < s->w; i++) {
        const struct worker *p = &s->now->worker[i];
        if (p->step != 71)
            continue;
        for (int j = 0; j < s->w; j++)
            if (j != i && s->now->worker[j].job == p->own) {
                event[s->now->worker[j].owns == READ ? W_READER : W_OPERATION]++;
                return 1;
            }
    }
    return 0;
}

static void count_crash(const struct seen *s) {
    live_at_crash = 0;
    for (int d = 0; d < s->k; d++)
        live_at_crash += s->now->persisted.status[d].kind != FREE;
    event[CRASH]++;
    event[CRASH_LIVE] += live_at_crash > 0;
    event[CRASH_RECOVERY] += s->before->recovering;
}

void count_record(const struct seen *s, char letter, int number) {
    letters[(int)letter]++;
    if (letter == 'R')
        refusals[number]++;
    if (letter == 'O' && s->now->recovering && s->now->at == 0 && s->now->done == 0 && !same_place(s->before, s->now, 400))
        count_crash(s);
    for (int d = 0; d < s->k && letter == 'O'; d++) {
        int was = s->before->persisted.status[d].kind, is = s->now->persisted.status[d].kind;
        event[SUCC_09] += is == SUCCEEDED && was != SUCCEEDED;
        event[EARLY_FREE] += is == FREE && was != FREE;
    }
    event[Z_LIVE] += letter == 'Z' && live_at_crash > 0;
    event[REUSE] += letter == 'D' && s->now->persisted.body[number].count > 0;
    for (int i = 0; i < s->w && strchr("MHSFV", letter); i++)
        if (!same_place(s->before, s->now, 300 + i))
            count_step(s, &s->before->worker[i], &s->now->worker[i], letter);
}

void print_counts(void) {
    for (const char *l = "ODMHWSFVAZ"; *l; l++)
        printf("%c%s %" PRIu64 "\n", *l, *l == 'O' ? "K" : "", letters[(int)*l]);
    for (int r = 1; r <= 17; r++)
        printf("R %d %" PRIu64 "\n", r, refusals[r]);
    for (int e = 0; e < EVENTS; e++)
        printf("%s: %" PRIu64 "\n", event_name[e], event[e]);
}
