/*
 * A hostile host of the judge: tapes of every length 0..4113, of random bytes and recorded from an image with the other library, whole, cut,
 * continued, and with bytes, answers and records spoilt; null where the length or the count is 0; other counts of numbers than four. Each
 * answer and every number and byte afterwards are held to a reading of its own, over reading.h's machine; the bytes stand between guard bytes, at
 * any alignment, and the numbers between guards too. The tape is lent read-only, and so are the numbers where none is to be written. The seed is
 * fixed, so that a run that fails once fails again. Prints one line of counts.
 */
#include "watched.h"
#include <inttypes.h>
#include "chance.h"
#include "reading.h"
#include "rvn_image.h"
#include "rvn_judge.h"

#define CALLS 300000
#define MOST_COMMANDS 255
#define LONGEST (16 * (MOST_COMMANDS + 1) + 17)
#define GUARD 64
#define MOST_NUMBERS 9

#define AREA (GUARD + 8 + LONGEST + GUARD)

/* The tape's pages and the numbers', as the host writes them and as they are lent to be read. */
static struct watched pages, number_pages;
static uint8_t *area, expected[AREA];
static uint8_t tape[LONGEST];
static uint64_t *lent, left[1 + MOST_NUMBERS + 1];
static unsigned long answers[256], agreed_codes[19], agreed_releases[16];

/* ---- a second reading of a tape */

struct finding {
    uint32_t answer;
    uint64_t numbers[4];
};

/* 0, 15 or 17 of 16 bytes. */
static uint32_t fault(const uint8_t *r, int is_first)
{
    static const uint8_t none[4] = {0};
    if (is_first) {
        int form = r[0] == 0x52 && r[1] == 0x56 && r[2] == 0 && ranged(r[3], 1, 2) && memcmp(r + 4, none, 4) == 0;
        return !form ? 15 : ranged(number_at(r + 8), 1, 4294967295u) ? 0 : 17;
    }
    return r[0] == 0x52 && r[1] == 0x56 && ranged(r[2], 1, 15) && r[5] <= 13 && r[6] <= 31 && r[7] <= 31 ? 0 : 15;
}

static uint64_t packed(unsigned code, unsigned running, unsigned released)
{
    return code | running << 8 | released << 16;
}

static struct finding finding_of(const uint8_t *bytes, size_t length)
{
    struct finding f = {15, {0, 0, 0, 0}};
    struct machine m;
    memset(&m, 0, sizeof m);
    m.ready_count = m.tasks[0].created = 1;
    for (const uint8_t *r = bytes; length >= 16; r += 16, length -= 16) {
        f.answer = fault(r, f.numbers[1] == 0);
        if (f.numbers[1] == 0 && f.answer != 15)
            f.numbers[0] = number_at(r + 8);
        if (f.answer)
            return f;
        if (f.numbers[1]++ == 0)
            continue;
        struct reply rules = step(&m, r[2], r[3], r[4], number_at(r + 8));
        f.numbers[2] = packed(r[5], r[6], r[7]);
        f.numbers[3] = packed(rules.code, rules.running, rules.released);
        if (f.numbers[2] != f.numbers[3]) {
            f.answer = 255;
            f.numbers[1]--;
            return f;
        }
        f.numbers[2] = f.numbers[3] = 0;
        agreed_codes[rules.code]++;
        if (rules.released)
            agreed_releases[r[2]]++;
    }
    if (length)
        f.answer = 15;
    else if (f.numbers[1])
        f.numbers[1]--;
    return f;
}

/* ---- the call */

static void fail(const char *what, size_t length, size_t count)
{
    printf("call %lu, a tape of %zu bytes and %zu numbers: %s\n", calls, length, count, what);
    exit(1);
}

/* Lends the bytes, and so many numbers; with count 0 null. The answer. */
static uint32_t try_judge(const uint8_t *bytes, size_t length, size_t count)
{
    struct finding want = finding_of(bytes, length);
    uint8_t *place = area + GUARD + below(8);
    memset(area, (int)below(256), AREA);
    if (length)
        memcpy(place, bytes, length);
    memcpy(expected, area, AREA);
    for (size_t i = 0; i < sizeof left / sizeof left[0]; i++)
        lent[i] = draw();
    memcpy(left, lent, sizeof left);
    uint64_t *numbers = (uint64_t *)number_pages.lent + 1;
    if (count == RVN_VERDICT_NUMBERS) {
        memcpy(left + 1, want.numbers, sizeof want.numbers);
        numbers = lent + 1;
    } else
        want.answer = 1;
    watch("a judged tape", length);
    uint32_t answer = rvn_judge(bytes ? pages.lent + (place - area) : NULL, length, count ? numbers : NULL, count);
    if (answer != want.answer) {
        printf("answer %" PRIu32 ", expected %" PRIu32 "\n", answer, want.answer);
        fail("another answer", length, count);
    }
    if (memcmp(lent, left, sizeof left) != 0)
        fail("other numbers than expected", length, count);
    if (memcmp(area, expected, AREA) != 0)
        fail("the tape was written to", length, count);
    calls++;
    answers[answer & 255]++;
    return answer;
}

/* ---- tapes */

/* Of edition 1 or 2. */
static void put_header(uint8_t *r)
{
    static const uint8_t header[8] = {0x52, 0x56, 0, 1, 0, 0, 0, 0};
    memcpy(r, header, 8);
    r[3] = (uint8_t)(1 + below(2));
    put_number(r + 8, 1 + below(4294967295u));
}

/* A closing command, or, in some cases, the one of 12..15 that moves tasks as it does: none is drawn. Another op is itself. */
static uint8_t or_failing(uint64_t op)
{
    uint64_t which = below(4);
    if (which == 0)
        return (uint8_t)op;
    return (uint8_t)(op == RVN_CLOSEP ? (which == 1 ? RVN_FAILW : RVN_FAILP) : op == RVN_CLOSEF ? RVN_FAILF : op == RVN_DONE ? RVN_FAILE : op);
}

/* A command that gets the machine of an image somewhere, drawn by the library after start; or any. */
static void put_command(const uint8_t *image, uint8_t *r)
{
    static const uint32_t weights[RVN_WEIGHTS] = {10, 15, 10, 10, 10, 10, 15, 10};
    uint32_t from = 1 + (uint32_t)below(4294967295u), drawn;
    uint64_t value = 0, op = image[8] ? 4 + below(12) : one_in(10) ? 3 : 1 + below(2);
    r[0] = 0x52;
    r[1] = 0x56;
    if (image[8] && !one_in(4)) {
        drawn = rvn_draw(image, RVN_IMAGE_BYTES, &from, 20, weights, RVN_WEIGHTS, &value);
        r[2] = or_failing(RVN_OP(drawn));
        r[3] = (uint8_t)RVN_A(drawn);
        r[4] = (uint8_t)RVN_B(drawn);
    } else {
        r[2] = (uint8_t)(one_in(12) ? 1 + below(15) : op);
        r[3] = (uint8_t)(one_in(20) ? draw() : r[2] == 1 ? 1 + below(31) : r[2] == 2 || r[2] >= 7 ? 1 + below(7) : 0);
        r[4] = (uint8_t)(one_in(20) ? draw() : r[2] <= 2 ? 1 + below(15) : r[2] == 8 || (r[2] >= 10 && r[2] != 13) ? below(2) : 0);
        value = one_in(20) ? draw() : r[2] == 4 || r[2] == 6 ? below(40) : 0;
    }
    put_number(r + 8, value);
}

/* A header and so many command records, with the answers of rvn_step. */
static size_t record(size_t commands)
{
    uint8_t image[RVN_IMAGE_BYTES];
    rvn_fresh(image, sizeof image);
    put_header(tape);
    for (size_t n = 1; n <= commands; n++) {
        uint8_t *r = tape + 16 * n;
        put_command(image, r);
        uint32_t answer = rvn_step(image, sizeof image, r[2], r[3], r[4], number_at(r + 8));
        r[5] = (uint8_t)RVN_CODE(answer);
        r[6] = (uint8_t)RVN_RUNNING(answer);
        r[7] = (uint8_t)RVN_RELEASED(answer);
    }
    return 16 * (commands + 1);
}

/* Spoils a recorded tape in one way, and gives its new length. What it draws is drawn one by one, so that every compiler draws the same. */
static size_t spoil(size_t length)
{
    size_t records = length / 16, n = below(records), at = below(length), field = below(3);
    uint64_t value = draw();
    uint8_t *r = tape + 16 * n, other[16];
    switch (below(10)) {
    case 0: return below(length + 1);
    case 1: return length + 1 + below(17);
    case 2: tape[at] = (uint8_t)value; break;
    case 3: tape[at] ^= (uint8_t)(1u << value % 8); break;
    case 4: r[5 + field] = (uint8_t)(value % (one_in(4) ? 256 : 14)); break;
    case 5: r[3 + field % 2] ^= (uint8_t)(1u << value % 4); break;
    case 6: put_number(tape + 8, one_in(2) ? 0 : (uint64_t)1 << (32 + value % 32)); break;
    case 7: memmove(r, r + 16, length - 16 * (n + 1)); return length - 16;
    case 8: put_number(r + 8, value >> below(64)); break;
    default:
        if (n + 1 < records) {
            memcpy(other, r, 16);
            memcpy(r, r + 16, 16);
            memcpy(r + 16, other, 16);
        }
    }
    return length;
}

static void fill(size_t from)
{
    for (size_t i = from; i < sizeof tape; i++)
        tape[i] = (uint8_t)draw();
}

/* 1 if every answer was given, and on records that agree every code that a run from the fresh machine has (not 1 and 11) and a release by each
 * op that can; else it says which was not. */
static int all_met(void)
{
    static const uint8_t all[] = {0, 1, 15, 17, 255};
    int met = 1;
    for (size_t i = 0; i < sizeof all; i++)
        if (answers[all[i]] == 0) {
            printf("%u was never answered\n", all[i]);
            met = 0;
        }
    for (unsigned code = 0; code < 14; code++)
        if (code != 1 && code != 11 && agreed_codes[code] == 0) {
            printf("no record with code %u agreed\n", code);
            met = 0;
        }
    for (unsigned op = 0; op < 16; op++)
        if ((op == RVN_WAKE || op == RVN_CLOSEP || op == RVN_DONE || op == RVN_FAILP || op == RVN_FAILE || op == RVN_FAILW) && agreed_releases[op] == 0) {
            printf("no record of op %u that releases a task agreed\n", op);
            met = 0;
        }
    return met;
}

int main(void)
{
    static const size_t counts[] = {0, 1, 2, 3, 4, 5, 8, MOST_NUMBERS};
    pages = watched_pages();
    number_pages = watched_pages();
    area = pages.own;
    lent = (uint64_t *)number_pages.own;
    for (size_t i = 0; i < sizeof counts / sizeof counts[0]; i++)
        try_judge(NULL, 0, counts[i]);
    /* every length: random bytes, and a recorded tape that is cut or continued */
    for (size_t length = 0; length <= LONGEST; length++) {
        fill(0);
        try_judge(tape, length, RVN_VERDICT_NUMBERS);
        put_header(tape);
        try_judge(tape, length, RVN_VERDICT_NUMBERS);
        fill(record(1 + below(MOST_COMMANDS)));
        try_judge(tape, length, counts[below(sizeof counts / sizeof counts[0])]);
        try_judge(tape, length, RVN_VERDICT_NUMBERS);
    }
    /* every byte of a recorded tape, with every value */
    record(31);
    for (size_t i = 0; i < 512; i++) {
        uint8_t was = tape[i];
        for (int value = 0; value < 256; value++) {
            tape[i] = (uint8_t)value;
            if (try_judge(tape, 512, RVN_VERDICT_NUMBERS) != RVN_TAPE_AGREES && value == was)
                fail("what rvn_step answered does not agree", 512, RVN_VERDICT_NUMBERS);
        }
        tape[i] = was;
    }
    /* recorded tapes, as they are and spoilt */
    while (calls < CALLS) {
        size_t length = record(below(one_in(20) ? MOST_COMMANDS + 1 : 50));
        if (try_judge(tape, length, RVN_VERDICT_NUMBERS) != RVN_TAPE_AGREES)
            fail("what rvn_step answered does not agree", length, RVN_VERDICT_NUMBERS);
        if (calls < CALLS) {
            length = spoil(length);
            try_judge(tape, length, one_in(50) ? counts[below(sizeof counts / sizeof counts[0])] : RVN_VERDICT_NUMBERS);
        }
    }
    printf("%lu calls, by answer:", calls);
    for (unsigned i = 0; i < 256; i++)
        if (answers[i])
            printf(" %u:%lu", i, answers[i]);
    printf("; records that agree, by code:");
    for (unsigned code = 0; code < 14; code++)
        if (agreed_codes[code])
            printf(" %u:%lu", code, agreed_codes[code]);
    printf("\n");
    return !all_met();
}
