/* Reading records and writing lines. */
#include "play.h"
#include <errno.h>
#include <stddef.h>
#include <string.h>
#include <unistd.h>

/* ---- Input ---- */

static unsigned char in[1 << 16];
static size_t in_next, in_end;

/* More input into the empty buffer; 0 at the end. */
static int more(void) {
    ssize_t got;
    do
        got = read(0, in, sizeof in);
    while (got < 0 && errno == EINTR);
    in_next = 0;
    in_end = got > 0 ? (size_t)got : 0;
    return got > 0;
}

static inline int next_byte(void) { return in_next < in_end || more() ? in[in_next++] : -1; }

/* ---- Records ---- */

const int body_length[13] = { 3, 1, 18, 2, 1, 1, 2, 1, 1, 1, 1, 0, 0 };

static u64 little_endian(const unsigned char *b) {
    u64 x = 0;
    for (int i = 7; i >= 0; i--)
        x = x << 8 | b[i];
    return x;
}

/* Refusal 3 before 2 before 1 (reading 21). */
struct answer play_record(void) {
    unsigned char b[18];
    int kind = next_byte(), first = m.n == 0;
    if (kind < 0)
        return first ? answer('R', 2) : answer(0, 0);
    if (kind > 0x0C || (kind == 0x00) != first)
        return answer('R', 3);
    for (int i = 0; i < body_length[kind]; i++) {
        int byte = next_byte();
        if (byte < 0)
            return answer('R', 2);
        b[i] = (unsigned char)byte;
    }
    if (kind == 0x00)
        return setup(b[0], b[1], b[2]);
    struct record r = { kind, 0, 0, 0, 0 };
    if (body_length[kind] > 0)
        r.first = b[0];
    if (body_length[kind] > 1)
        r.second = b[1];
    if (kind == 0x02) {
        r.expected = little_endian(b + 2);
        r.desired = little_endian(b + 10);
    }
    u64 refused = refusal(&r);
    return refused ? answer('R', refused) : perform(&r);
}

/* ---- Output ---- */

static char out[1 << 16];
static size_t out_end;
static int out_failed;

static void write_out(void) {
    size_t done = 0;
    while (done < out_end && !out_failed) {
        ssize_t put = write(1, out + done, out_end - done);
        if (put > 0)
            done += (size_t)put;
        else if (put == 0 || errno != EINTR)
            out_failed = 1;
    }
    out_end = 0;
}

static inline void put_char(char c) {
    if (out_end == sizeof out)
        write_out();
    out[out_end++] = c;
}

void put_text(const char *text) {
    while (*text)
        put_char(*text++);
}

void put_number(u64 x) {
    char digits[20];
    int i = 20;
    do
        digits[--i] = (char)('0' + x % 10);
    while ((x /= 10) != 0);
    if (sizeof out - out_end < 20)
        write_out();
    memcpy(out + out_end, digits + i, (size_t)(20 - i));
    out_end += (size_t)(20 - i);
}

void put_answer(u64 number, struct answer a) {
    put_number(number);
    put_char(' ');
    put_char(a.letter);
    switch (a.letter) {
    case 'O':
        put_char('K');
        break;
    case 'D': case 'H': case 'V': case 'R':
        put_char(' ');
        put_number(a.number);
    }
    put_char('\n');
}

/* Reading 24. */
void put_values(void) {
    if (m.n == 0)
        return;
    put_char('=');
    for (u64 a = 0; a < m.n; a++) {
        put_char(' ');
        put_number(value(a));
    }
    put_char('\n');
}

int finish(void) {
    write_out();
    return out_failed;
}
