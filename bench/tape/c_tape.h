/* The tape of document 01 in C: the same checks in the same order, for the benchmark beside the proved library. */
#include <stddef.h>
#include <stdint.h>

typedef struct {
    uint8_t op, a, b, code, running, released;
    uint64_t value;
} c_record;

enum { C_FOUND, C_END = 1 };

/* 0, 15 or 17 for fields at a place */
static inline int c_fault(size_t at, const c_record *r)
{
    if (at == 0) {
        if (r->op != 0 || r->a < 1 || r->a > 2 || r->b != 0 || r->code != 0 || r->running != 0 || r->released != 0)
            return 15;
        return r->value >= 1 && r->value <= 4294967295u ? 0 : 17;
    }
    return r->op >= 1 && r->op <= 15 && r->code <= 13 && r->running <= 31 && r->released <= 31 ? 0 : 15;
}

/* the fields of 16 bytes */
static inline void c_fields(const uint8_t *p, c_record *r)
{
    r->op = p[2];
    r->a = p[3];
    r->b = p[4];
    r->code = p[5];
    r->running = p[6];
    r->released = p[7];
    r->value = 0;
    for (int i = 7; i >= 0; i--)
        r->value = r->value << 8 | p[8 + i];
}

/* C_FOUND, C_END, 15 or 17 */
static inline int c_read_at(const uint8_t *tape, size_t n, size_t at, c_record *r)
{
    if (at % 16 != 0 || at > n)
        return 15;
    if (at == n)
        return n == 0 ? 15 : C_END;
    if (n - at < 16)
        return 15;
    const uint8_t *p = tape + at;
    if (p[0] != 0x52 || p[1] != 0x56)
        return 15;
    c_fields(p, r);
    return c_fault(at, r);
}

/* 0, 15, 17 or 16 */
static inline int c_write_at(uint8_t *out, size_t n, size_t at, const c_record *r)
{
    if (at % 16 != 0)
        return 15;
    int fault = c_fault(at, r);
    if (fault != 0)
        return fault;
    if (n < at || n - at < 16)
        return 16;
    uint8_t *p = out + at;
    p[0] = 0x52;
    p[1] = 0x56;
    p[2] = r->op;
    p[3] = r->a;
    p[4] = r->b;
    p[5] = r->code;
    p[6] = r->running;
    p[7] = r->released;
    for (int i = 0; i < 8; i++)
        p[8 + i] = (uint8_t)(r->value >> 8 * i);
    return 0;
}
