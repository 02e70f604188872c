/* The chip's delay queue and the delay line in C, by pointer, for the benchmark beside the proved ones: the same tables, the same work. */
#include <stdint.h>
#include <string.h>

/* the registers, and the table by task number; an age of 0 is none */
typedef struct {
    uint8_t task, age, ages[32];
    uint64_t time, times[32];
} c_chip;

static inline void c_chip_insert(c_chip *q, uint64_t n, unsigned t)
{
    if (q->task && n >= q->time) {
        q->age += q->time == n;
        for (int i = 0; i < 32; i++)
            q->ages[i] += q->ages[i] && q->times[i] == n;
        q->times[t] = n;
        q->ages[t] = 1;
        return;
    }
    if (q->task) {
        q->times[q->task] = q->time;
        q->ages[q->task] = q->age;
    }
    q->task = (uint8_t)t;
    q->time = n;
    q->age = 1;
}

/* the search: the least time, of equal times the greatest age */
static inline unsigned c_chip_find(const c_chip *q)
{
    unsigned best = 0;
    for (unsigned k = 1; k < 32; k++)
        if (q->ages[k] && (!q->ages[best] || q->times[k] < q->times[best] || (q->times[k] == q->times[best] && q->ages[k] > q->ages[best])))
            best = k;
    return best;
}

static inline void c_chip_wake(c_chip *q, uint64_t clock)
{
    if (!q->task || q->time > clock)
        return;
    unsigned s = c_chip_find(q);
    q->task = (uint8_t)s;
    q->time = q->times[s];
    q->age = q->ages[s];
    q->times[s] = 0;
    q->ages[s] = 0;
}

/* the delayed tasks, the soonest first, and the time of each */
typedef struct {
    uint8_t delayed[32];
    uint64_t until[32];
} c_line;

static inline void c_line_insert(c_line *l, uint64_t n, unsigned t)
{
    unsigned i = 0;
    while (i < 31 && l->delayed[i] && l->until[l->delayed[i]] <= n)
        i++;
    memmove(l->delayed + i + 1, l->delayed + i, 31 - i);
    l->delayed[i] = (uint8_t)t;
    l->until[t] = n;
}

static inline void c_line_wake(c_line *l, uint64_t clock)
{
    unsigned t = l->delayed[0];
    if (!t || l->until[t] > clock)
        return;
    memmove(l->delayed, l->delayed + 1, 31);
    l->delayed[31] = 0;
    l->until[t] = 0;
}
