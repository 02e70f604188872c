/* What walk and draw in C share: lines read where they lie in a large buffer, what a command line says, decimals, and a buffer for what is printed. */
#ifndef BENCH_LINES_H
#define BENCH_LINES_H
#include <stdlib.h>
#include <unistd.h>
#include "step/kernel.h"

/* ROOM is more than any line that is printed has; of a line that is read, ENOUGH bytes are enough to know that it is too long */
enum { PIECE = 65536, ROOM = 256, ENOUGH = 129 };

static char out[PIECE + ROOM];
static size_t used;

static void flush(void) {
    for (size_t at = 0; at < used;) {
        ssize_t n = write(1, out + at, used - at);
        if (n <= 0) exit(2);
        at += (size_t)n;
    }
    used = 0;
}

/* a text, and a line that ends at `to` in the buffer */
static void put_text(const char *text) {
    size_t n = strlen(text);
    memcpy(out + used, text, n);
    used += n;
}

static inline void put_line(char *to) {
    used = (size_t)(to - out);
    if (used >= PIECE) flush();
}

/* a decimal and the byte behind it */
static inline char *put(char *to, uint64_t n, char end) {
    if (n < 10) {
        *to++ = (char)('0' + n);
    } else {
        char digits[20], *from = digits + 20;
        for (; n; n /= 10) *--from = (char)('0' + n % 10);
        size_t k = (size_t)(digits + 20 - from);
        memcpy(to, from, k);
        to += k;
    }
    *to++ = end;
    return to;
}

/* the end of a line: what both show of the answer, and the clock */
static inline char *put_answer(char *to, answer r, uint64_t clock) {
    to = put(to, r & 255, ' ');
    to = put(to, r >> 8 & 255, ' ');
    to = put(to, r >> 16 & 255, ' ');
    return put(to, clock, '\n');
}

/* a blank and a decimal without needless zeros, up to most; a null pointer where there is none */
static inline const char *number(const char *p, const char *end, uint64_t most, uint64_t *value) {
    if (end - p < 2 || *p++ != ' ') return 0;
    uint64_t n = (uint64_t)(*p - '0');
    if (n > 9) return 0;
    if (n == 0) {
        *value = 0;
        return p + 1;
    }
    for (p++; p < end && *p != ' '; p++) {
        uint64_t d = (uint64_t)(*p - '0');
        if (d > 9 || n > UINT64_MAX / 10 || n * 10 > UINT64_MAX - d) return 0;
        n = n * 10 + d;
    }
    *value = n;
    return n <= most ? p : 0;
}

static inline unsigned named(const char *p, size_t n) {
    switch (n) {
    case 4: return !memcmp(p, "wake", 4) ? 5 : !memcmp(p, "open", 4) ? 7 : !memcmp(p, "done", 4) ? 11 : 0;
    case 5:
        if (!memcmp(p, "fail", 4)) return p[4] == 'p' ? 12 : p[4] == 'f' ? 13 : p[4] == 'e' ? 14 : p[4] == 'w' ? 15 : 0;
        return !memcmp(p, "delay", 5) ? 4 : !memcmp(p, "entry", 5) ? 10 : !memcmp(p, "start", 5) ? 3 : 0;
    case 6: return !memcmp(p, "closep", 6) ? 8 : !memcmp(p, "closef", 6) ? 9 : !memcmp(p, "create", 6) ? 1 : !memcmp(p, "object", 6) ? 2 : 0;
    case 7: return !memcmp(p, "advance", 7) ? 6 : 0;
    default: return 0;
    }
}

/* operands in use: a is 1, b is 2, value is 4 */
static const uint8_t uses[16] = { 0, 3, 3, 0, 4, 0, 4, 1, 3, 1, 3, 3, 3, 1, 3, 3 };

/* Whether the line says a command. */
static bool said(const char *p, const char *end, command *c) {
    if (end - p > 64) return false;
    const char *blank = p;
    while (blank < end && *blank != ' ') blank++;
    uint64_t a = 0, b = 0, value = 0;
    unsigned op = named(p, (size_t)(blank - p));
    if (!op) return false;
    p = blank;
    if (uses[op] & 1 && !(p = number(p, end, 255, &a))) return false;
    if (uses[op] & 2 && !(p = number(p, end, 255, &b))) return false;
    if (uses[op] & 4 && !(p = number(p, end, UINT64_MAX, &value))) return false;
    *c = (command){ (uint8_t)op, (uint8_t)a, (uint8_t)b, value };
    return p == end;
}

/* What a line says and how it is answered: a line that says no command is 14, and changes nothing. */
static inline answer carried_out(kernel *k, const char *p, const char *end, command *c) {
    if (said(p, end, c)) return step(k, *c);
    *c = (command){ 0, 0, 0, 0 };
    return 14 + 256u * (k->started ? k->ready[0] : 0);
}

/* Each line of the input, a last one without a line end too, until `line` wants no more. Inline, so that `line` is called by its name. */
static inline __attribute__((always_inline)) void each_line(bool (*line)(const char *, const char *)) {
    static char in[PIECE];
    size_t held = 0;
    ssize_t got;
    while ((got = read(0, in + held, sizeof in - held)) > 0) {
        const char *p = in, *end = in + held + got, *stop;
        while ((stop = memchr(p, '\n', (size_t)(end - p)))) {
            if (!line(p, stop)) return;
            p = stop + 1;
        }
        held = (size_t)(end - p);
        if (held == sizeof in) held = ENOUGH;
        memmove(in, p, held);
    }
    if (got < 0) exit(2);
    if (held) line(in, in + held);
}
#endif
