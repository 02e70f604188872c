/* The same salvage in C: measure first, then write. Taken from the same sentences as crates/salvage_marks/specs/Torn. */
#include <stddef.h>
#include <stdint.h>
#include <string.h>

typedef struct {
    size_t done, from, kept, cells;
} c_passed;

static inline int c_command(const uint8_t *p)
{
    return p[0] == 0x52 && p[1] == 0x56 && p[2] >= 1 && p[2] <= 15 && p[5] <= 13 && p[6] <= 31 && p[7] <= 31;
}

static int c_header(const uint8_t *p)
{
    uint64_t value = 0;
    if (p[0] != 0x52 || p[1] != 0x56 || p[2] != 0 || p[3] < 1 || p[3] > 2 || p[4] || p[5] || p[6] || p[7])
        return 0;
    for (int i = 7; i >= 0; i--)
        value = value << 8 | p[8 + i];
    return value >= 1 && value <= 4294967295u;
}

static inline size_t c_head(const uint8_t *s, size_t n, size_t place)
{
    return place == 0 && n >= 16 && c_header(s) ? 16 : 0;
}

static __attribute__((noinline)) c_passed c_measure(const uint8_t *s, size_t n, size_t place, size_t begin)
{
    size_t at = c_head(s, n, place), from = begin + at, kept = at, cells = 0;
    while (n - at >= 16) {
        if (c_command(s + at)) {
            cells += from < place + at ? 2 : 0;
            kept += 16;
            at += 16;
            from = place + at;
        } else {
            at++;
        }
    }
    return (c_passed){ at, from, kept, cells };
}

static __attribute__((noinline)) c_passed c_pass(const uint8_t *s, size_t n, size_t place, size_t begin, uint8_t *out, uint64_t *list)
{
    size_t at = c_head(s, n, place), from = begin + at, kept = at, cells = 0;
    memcpy(out, s, at);
    while (n - at >= 16) {
        if (c_command(s + at)) {
            if (from < place + at) {
                list[cells] = from;
                list[cells + 1] = place + at - from;
                cells += 2;
            }
            memcpy(out + kept, s + at, 16);
            kept += 16;
            at += 16;
            from = place + at;
        } else {
            at++;
        }
    }
    return (c_passed){ at, from, kept, cells };
}

static uint8_t c_salvage(const uint8_t *s, size_t n, uint8_t *out, size_t room, uint64_t *list, size_t numbers)
{
    c_passed p = c_measure(s, n, 0, 0);
    if (room < p.kept || numbers < p.cells + (p.from < n ? 2 : 0))
        return 16;
    p = c_pass(s, n, 0, 0, out, list);
    if (p.from < n) {
        list[p.cells] = p.from;
        list[p.cells + 1] = n - p.from;
    }
    return 0;
}
