/*
 * A hostile host: the table of kernel_cases, which is its argument, on images; then a million calls in all, with images of every length 0..1025,
 * random bytes, single spoilt bytes of good images, states that no command leads to, started and not, every bit of the pending exceptions, null
 * where the length is 0, operands of every width, seeds and profiles good and bad, at every entry point but rvn_draw_even. Each answer and every byte afterwards are
 * held to reading.h; the bytes stand between guard bytes, at any alignment, and what else is lent between guards too. Whatever a call may not write
 * is lent read-only: all of a refused call's, and an image that is only asked or drawn for. The seed is fixed, so that a run that fails once fails
 * again. Prints one line of counts by code.
 */
#include "watched.h"
#include <inttypes.h>
#include "chance.h"
#include "reading.h"
#include "rvn_image.h"

#define CALLS 1000000
#define LONGEST 1025
#define GUARD 64
#define AREA (GUARD + 8 + LONGEST + GUARD)

static struct watched pages, draw_pages;
static uint8_t *area, expected[AREA]; /* area: the pages' bytes, to be written */
static uint8_t good[512]; /* an image that is stepped all along */
static unsigned long counts[19], drawn_ops[12], releases[16], at_once[16], later, spoilt, sound;

/* ---- bytes to lend */

/* Where the host writes them; `at` is where the call finds them. */
static uint8_t *lend(const uint8_t *bytes, size_t length)
{
    uint8_t *image = area + GUARD + below(8);
    memset(area, (int)below(256), AREA);
    if (bytes)
        memcpy(image, bytes, length);
    else
        for (size_t i = 0; i < length; i++)
            image[i] = (uint8_t)draw();
    memcpy(expected, area, AREA);
    return image;
}

/* The bytes as a call is lent them: to be written, or read-only. Null stays null. */
static uint8_t *at(uint8_t *image, int written)
{
    return written || !image ? image : pages.lent + (image - area);
}

/* The seed, the weights and the value that a draw is lent, each between guards, and what they are to be afterwards. The host writes `lent`, and
 * `only_read` is the same numbers. */
#define MOST_WEIGHTS 17
struct lent {
    uint64_t value[3];
    uint32_t seed[3], weights[MOST_WEIGHTS + 2];
};
static struct lent *lent, *only_read, left;

static void judge_packed(const char *what, size_t length, uint64_t answer, uint64_t packed)
{
    if (answer != packed || memcmp(area, expected, AREA) != 0) {
        printf("call %lu, %s of %zu bytes: answer %" PRIu64 ", expected %" PRIu64 "%s\n", calls, what, length, answer, packed,
               memcmp(area, expected, AREA) ? ", other bytes than expected" : "");
        exit(1);
    }
    calls++;
    counts[packed & 255]++;
}

static void judge(const char *what, size_t length, uint32_t answer, struct reply want)
{
    judge_packed(what, length, answer, want.code + 256 * want.running + 65536 * want.released + want.exception * (uint64_t)RVN_EXCEPTION);
}

/* What an answer shows: an exception that was pending before the command, or the command's own. */
static void count_exception(uint64_t op, int was_pending)
{
    if (was_pending)
        later++;
    else
        at_once[op]++;
}

/* ---- the entry points, each on bytes that are there already */

static unsigned try_step(uint8_t *image, size_t length, uint64_t op, uint64_t a, uint64_t b, uint64_t value)
{
    struct machine m, before;
    struct reply want = {1, 0, 0, 0};
    if (read_image(&m, image, length)) {
        before = m;
        want = step(&m, op, a, b, value);
        if (want.code == 0)
            write_image(&m, expected + (image - area));
        if (want.released)
            releases[op]++;
        if (want.exception)
            count_exception(op, before.tasks[want.running].failed);
    }
    watch("step", length);
    judge("step", length, rvn_step(at(image, want.code == 0), length, op, a, b, value), want);
    return want.code;
}

static void try_fresh(uint8_t *image, size_t length)
{
    struct machine m;
    struct reply want = {length != 512, 0, 0, 0};
    memset(&m, 0, sizeof m);
    m.ready_count = 1;
    if (length == 512)
        write_image(&m, expected + (image - area));
    watch("fresh", length);
    judge("fresh", length, rvn_fresh(at(image, want.code == 0), length), want);
}

static void try_left(uint8_t *image, size_t length, uint64_t task)
{
    struct machine m;
    struct reply want = {1, 0, 0, 0};
    if (read_image(&m, image, length))
        want = wakes_left(&m, task);
    watch("wakes left", length);
    judge("wakes left", length, rvn_wakes_left(at(image, 0), length, task), want);
}

/* What is drawn is accepted: it steps the machine. */
static uint64_t carry_out(struct machine *m, struct draft d)
{
    struct reply done = step(m, d.op, d.a, d.b, d.value);
    if (done.code != 0) {
        printf("call %lu: a drawn command is refused\n", calls);
        exit(1);
    }
    if (done.released)
        releases[d.op]++;
    later += done.exception; /* no op above 11 is drawn: it was pending */
    return done.running * UINT64_C(256) + done.released * UINT64_C(65536) + done.exception * (uint64_t)RVN_EXCEPTION;
}

/* A draw, or a draw with its step. The seed is in `lent` already, and so are the weights, unless none are lent. */
static struct draft try_draw(uint8_t *image, size_t length, uint64_t span, size_t count, int carried)
{
    struct machine m;
    struct draft want = {1, 0, 0, 0, 0, lent->seed[1]};
    const uint32_t *weights = count ? only_read->weights + 1 : NULL;
    uint64_t stepped = 0, answer;
    memcpy(&left, lent, sizeof left);
    if (read_image(&m, image, length))
        want = drawn(&m, lent->seed[1], span, weights, count);
    if (want.code == 0) {
        left.value[1] = want.value;
        drawn_ops[want.op]++;
        if (carried) {
            stepped = carry_out(&m, want);
            write_image(&m, expected + (image - area));
        }
    }
    left.seed[1] = want.seed;
    struct lent *numbers = want.code == 0 ? lent : only_read;
    const char *what = carried ? "draw and step" : "draw";
    watch(what, length);
    if (carried)
        answer = rvn_draw_step(at(image, want.code == 0), length, &numbers->seed[1], span, weights, count, &numbers->value[1]);
    else
        answer = rvn_draw(at(image, 0), length, &numbers->seed[1], span, weights, count, &numbers->value[1]);
    judge_packed(what, length, answer, want.code + 256 * want.op + 65536 * want.a + 16777216 * want.b + (stepped << 32));
    if (memcmp(lent, &left, sizeof left) != 0) {
        printf("call %lu, %s of %zu bytes: another seed, weights or value than expected\n", calls, what, length);
        exit(1);
    }
    return want;
}

/* ---- numbers */

/* Mostly below n; sometimes just outside, or a number whose low byte is in range. */
static uint64_t operand(uint64_t n)
{
    switch (below(60)) {
    case 0: return n;
    case 1: return below(256);
    case 2: return 256 + below(n);
    case 3: {
        uint64_t low = below(n);
        return low | (uint64_t)1 << (8 + below(56));
    }
    case 4: return one_in(4) ? UINT64_MAX : draw();
    default: return below(n);
    }
}

/* An op that gets a machine somewhere: much set-up before start, and behind it more wakes and closings than delays. */
static uint64_t likely_op(const uint8_t *image)
{
    static const uint8_t before[] = {1, 1, 1, 1, 1, 1, 1, 1, 2, 2, 2, 2, 2, 2, 2, 3};
    static const uint8_t after[] = {4, 5, 5, 5, 6, 7, 7, 8, 9, 10, 10, 10, 11, 1, 2, 3, 12, 13, 14, 15};
    return one_in(12) ? operand(17) : image[8] ? after[below(sizeof after)] : before[below(sizeof before)];
}

/* An op that ends what the runner is inside of. */
static uint64_t closing_op(int is_entry)
{
    static const uint8_t of_entry[] = {RVN_DONE, RVN_FAILE}, of_open[] = {RVN_CLOSEP, RVN_CLOSEF, RVN_FAILP, RVN_FAILF, RVN_FAILW};
    return is_entry ? of_entry[below(sizeof of_entry)] : of_open[below(sizeof of_open)];
}

static int has_barrier(uint64_t op)
{
    return op == 8 || op == 10 || op == 11 || op == 12 || op == 14 || op == 15;
}

static void step_somehow(uint8_t *image, size_t length)
{
    uint64_t op = operand(17), a = 0, b = 0, value = 0, clock = 0;
    if (length == 512) {
        uint8_t runner = image[64] & 31, holds = image[128 + runner];
        op = likely_op(image);
        clock = number_at(image);
        if (image[8] && holds && one_in(2)) {
            uint64_t closing = closing_op(image[160 + runner] == 2), barrier = has_barrier(closing) ? below(2) : 0;
            try_step(image, length, closing, holds, barrier, 0);
            return;
        }
    }
    if (op == 1 || op == 2 || ranged(op, 7, 15) || one_in(80))
        a = operand(op == 1 ? 32 : 8);
    if (op == 1 || op == 2 || has_barrier(op) || one_in(80))
        b = operand(op <= 2 ? 16 : 2);
    if (op == 4 || op == 6 || one_in(80))
        value = one_in(200) ? draw() : op == 4 ? clock + below(12) - (clock > 3 ? 3 : 0) : below(6);
    try_step(image, length, op, a, b, value);
}

/* Mostly a good seed and a good profile, and guards that are anything. */
static struct draft draw_somehow(uint8_t *image, size_t length, int carried)
{
    uint64_t span = one_in(40) ? 1000001 + below(2) : one_in(40) ? 0 : one_in(20) ? 1000000 : one_in(60) ? draw() : 1 + below(100);
    size_t count = one_in(30) ? below(MOST_WEIGHTS + 1) : RVN_WEIGHTS;
    for (int i = 0; i < 3; i++) {
        lent->value[i] = draw();
        lent->seed[i] = (uint32_t)draw();
    }
    for (int i = 0; i < MOST_WEIGHTS + 2; i++)
        lent->weights[i] = one_in(6) ? 0 : one_in(6) ? 100 : (uint32_t)below(101);
    lent->weights[2] = one_in(40) ? 0 : 1 + (uint32_t)below(20);
    if (one_in(40)) {
        uint32_t heavy = one_in(2) ? 101 : (uint32_t)draw();
        lent->weights[1 + below(RVN_WEIGHTS)] = heavy;
    }
    if (one_in(40))
        lent->seed[1] = 0;
    return try_draw(image, length, span, count, carried);
}

/* What is drawn is accepted, as it was drawn: by a call of its own, or by the same. */
static void draw_and_step(uint8_t *image)
{
    int carried = one_in(2);
    struct draft d = draw_somehow(image, 512, carried);
    if (!carried && d.code == 0 && try_step(image, 512, d.op, d.a, d.b, d.value) != 0) {
        printf("call %lu: a drawn command is refused\n", calls);
        exit(1);
    }
}

static void call_somehow(uint8_t *image, size_t length)
{
    uint64_t which = below(12);
    if (which == 0)
        try_fresh(image, length);
    else if (which <= 2)
        try_left(image, length, operand(32));
    else if (which <= 5)
        draw_somehow(image, length, one_in(2));
    else
        step_somehow(image, length);
}

/* ---- states that no commands lead to */

/* What a state may have that a run has after Start only: a sound one has all of it after Start, and none before. */
enum { CLOCK = 1, DELAYS = 2, WAITERS = 4, HOLDERS = 8, EXCEPTIONS = 16, ALL = 31, KINDS = 5 };

static void delay_until(struct machine *m, int t, uint64_t until)
{
    int i = 0;
    while (i < m->delayed_count && m->tasks[m->delayed[i]].until <= until)
        i++;
    insert(m->delayed, &m->delayed_count, i, t);
    m->tasks[t].until = until;
    m->tasks[t].place = DELAYED;
}

/* A state that is sound, where it is started and has all, or is not and has nothing. */
static void forge(uint8_t *image, int started, int has)
{
    struct machine m;
    memset(&m, 0, sizeof m);
    m.started = started;
    if (has & CLOCK)
        m.clock = one_in(3) ? draw() : one_in(6) ? UINT64_MAX - below(120) : below(20);
    m.ready_count = 1;
    m.tasks[0].created = 1;
    for (int o = 1; o < 8; o++)
        m.ceiling[o] = one_in(4) ? 0 : 1 + (int)below(15);
    int holder[8] = {0};
    for (int t = 1; t < 32; t++) {
        struct task *k = &m.tasks[t];
        int o = 1 + (int)below(7);
        if (one_in(3))
            continue;
        k->created = 1;
        k->base = 1 + (int)below(15);
        k->failed = (has & EXCEPTIONS) && one_in(3);
        if ((has & DELAYS) && one_in(4)) {
            delay_until(&m, t, one_in(8) ? draw() : below(30));
        } else if ((has & WAITERS) && one_in(4) && m.ceiling[o] >= k->base && !m.waiter[o]) {
            m.waiter[o] = t;
            k->place = WAITING;
        } else {
            if ((has & HOLDERS) && one_in(2) && m.ceiling[o] >= k->base && !holder[o]++) {
                k->holds = o;
                k->way = 1 + (int)below(2);
            }
            at_tail(&m, active(&m, t) + (int)below(2), t);
        }
    }
    write_image(&m, image);
}

/* Sound, started or not; or not started and with one thing that a state has after Start only. */
static void forge_some(uint8_t *image)
{
    uint64_t which = below(4 + KINDS);
    if (which < 4)
        forge(image, 1, ALL);
    else
        forge(image, 0, one_in(2) ? 0 : 1 << (which - 4));
}

/* ---- pending exceptions, bytes 192..195, and the spare bytes behind them */

static void put_pending(uint8_t *image, uint32_t bits)
{
    for (int i = 0; i < 4; i++)
        image[192 + i] = (uint8_t)(bits >> 8 * i);
}

/* Each entry point (but rvn_draw_even) on the image with these bits, and each op: with an operand that fits, so that some are accepted where the state is sound. */
static void try_pending(const uint8_t *bytes, uint32_t bits)
{
    uint8_t image[512];
    memcpy(image, bytes, 512);
    put_pending(image, bits);
    uint8_t holds = image[128 + (image[64] & 31)];
    for (uint64_t op = 0; op <= 16; op++) {
        uint64_t a = ranged(op, 3, 6) ? 0 : ranged(op, 7, 15) && holds ? holds : 1;
        try_step(lend(image, 512), 512, op, a, op == 1 || op == 2 || has_barrier(op), 0);
    }
    try_left(lend(image, 512), 512, 1);
    draw_somehow(lend(image, 512), 512, 0);
    draw_somehow(lend(image, 512), 512, 1);
    try_fresh(lend(image, 512), 512);
}

/* A machine of all 31 tasks, the first of which runs and holds object 1, on which the last waits; or it is not started. */
static void all_tasks(uint8_t *image, int started, int way)
{
    struct machine m;
    memset(&m, 0, sizeof m);
    m.started = started;
    m.ready_count = m.tasks[0].created = 1;
    m.ceiling[1] = 15;
    for (int t = 1; t < 32; t++) {
        m.tasks[t].created = 1;
        m.tasks[t].base = 1 + t / 8;
        if (started && t == 31) {
            m.waiter[1] = t;
            m.tasks[t].place = WAITING;
            continue;
        }
        if (started && t == 1) {
            m.tasks[t].holds = 1;
            m.tasks[t].way = way;
        }
        at_tail(&m, active(&m, t), t);
    }
    write_image(&m, image);
}

/* Every bit alone, all of them, all but idle's, all but one: of no task but idle, of all tasks, of some; before Start and after it. */
static void try_all_pending(void)
{
    uint8_t images[6][512];
    memset(images[0], 0, 512);
    memset(images[1], 0, 512);
    images[1][8] = 1;
    all_tasks(images[2], 0, 0);
    all_tasks(images[3], 1, 1);
    all_tasks(images[4], 1, 2);
    forge(images[5], 1, ALL);
    for (int k = 0; k < 6; k++) {
        for (int t = 0; t < 32; t++) {
            try_pending(images[k], (uint32_t)1 << t);
            try_pending(images[k], ~((uint32_t)1 << t));
        }
        try_pending(images[k], 0);
        try_pending(images[k], 0xFFFFFFFFu);
        try_pending(images[k], 0xFFFFFFFEu);
    }
}

/* Null for each image and for the weights, which the header allows where the length is 0. */
static void call_with_null(void)
{
    uint8_t bytes[512];
    try_step(NULL, 0, RVN_WAKE, 0, 0, 0);
    try_fresh(NULL, 0);
    try_left(NULL, 0, 1);
    lent->seed[1] = 1;
    forge(bytes, 1, ALL);
    for (int carried = 0; carried < 2; carried++) {
        try_draw(NULL, 0, 100, 0, carried);
        try_draw(lend(bytes, 512), 512, 100, 0, carried);
    }
}

/* ---- the table of kernel_cases, which crates/kernel_cases/src/main.rt describes */

static void set_cell(uint8_t *image, const char *table, uint64_t i, uint64_t value)
{
    static const struct { const char *name; int at; } tables[] = {{"started", 8}, {"ceiling", 16}, {"waiter", 24}, {"base", 32}, {"ready", 64}, {"delayed", 96}, {"held", 128}, {"way", 160}};
    if (strcmp(table, "clock") == 0)
        put_number(image, value);
    if (strcmp(table, "until") == 0)
        put_number(image + 256 + 8 * i, value);
    if (strcmp(table, "pending") == 0) {
        uint8_t *byte = &image[192 + i % 32 / 8], bit = (uint8_t)(1u << i % 8);
        *byte = (uint8_t)(value % 2 ? *byte | bit : *byte & ~bit);
    }
    for (size_t k = 0; k < sizeof tables / sizeof tables[0]; k++)
        if (strcmp(table, tables[k].name) == 0)
            image[(uint64_t)tables[k].at + i] = (uint8_t)value;
}

/* A state of the table, at every entry point but rvn_draw_even. What its line says of it, reading.h says too. */
static void try_state(const uint8_t *bytes, int is_sound, const char *line)
{
    struct machine m;
    if (read_image(&m, bytes, 512) != is_sound) {
        printf("reading.h says otherwise of the state of: %s", line);
        exit(1);
    }
    is_sound ? sound++ : spoilt++;
    try_step(lend(bytes, 512), 512, RVN_ADVANCE, 0, 0, 0);
    try_step(lend(bytes, 512), 512, 0, 0, 0, 0);
    try_left(lend(bytes, 512), 512, 1);
    draw_somehow(lend(bytes, 512), 512, 0);
    draw_somehow(lend(bytes, 512), 512, 1);
    try_fresh(lend(bytes, 512), 512);
}

static void do_step(uint8_t *bytes, const uint64_t *n)
{
    uint8_t *image = lend(bytes, 512);
    try_step(image, 512, n[0], n[1], n[2], n[3]);
    memcpy(bytes, image, 512);
}

static void do_line(const char *line)
{
    static uint8_t hand[512], last[512], kept[5][512], other[512];
    char word[16] = "", table[16] = "", condition[64] = "";
    uint64_t n[4] = {0};
    sscanf(line, "%15s %" SCNu64 " %" SCNu64 " %" SCNu64 " %" SCNu64, word, &n[0], &n[1], &n[2], &n[3]);
    if (strcmp(word, "fresh") == 0)
        memset(hand, 0, 512);
    else if (strcmp(word, "do") == 0)
        do_step(hand, n);
    else if (strcmp(word, "ask") == 0)
        try_left(lend(hand, 512), 512, n[0]);
    else if (strcmp(word, "keep") == 0)
        memcpy(last, memcpy(kept[n[0] % 5], hand, 512), 512);
    else if (strcmp(word, "take") == 0)
        memcpy(last, memcpy(hand, kept[n[0] % 5], 512), 512);
    else if (strcmp(word, "each") == 0)
        for (int k = 1; k <= 4; k++)
            do_step(memcpy(other, kept[k], 512), n);
    else if (sscanf(line, "%15s %15s %" SCNu64 " %" SCNu64 " %63s", word, table, &n[0], &n[1], condition) >= 4)
        set_cell(hand, table, n[0], n[1]);
    if (strcmp(word, "spoil") == 0) {
        try_state(hand, strcmp(condition, "sound") == 0, line);
        memcpy(hand, last, 512);
    }
}

static void do_table(const char *name)
{
    char line[256];
    FILE *table = name ? fopen(name, "r") : NULL;
    if (!table) {
        printf("the table of kernel_cases, crates/kernel_cases/stdin, is the argument\n");
        exit(1);
    }
    while (fgets(line, sizeof line, table))
        if (line[0] != '#')
            do_line(line);
    fclose(table);
}

/* 1 if every code of these functions was answered, every kind drawn, a task released by each op that can, and an exception shown by each closing that
 * sets one and by another op; else it says which was not. */
static int all_met(void)
{
    int met = 1;
    for (unsigned code = 0; code < 19; code++)
        if ((code < 14 || code > 16) && counts[code] == 0) {
            printf("code %u was never answered\n", code);
            met = 0;
        }
    for (unsigned op = 4; op < 12; op++)
        if (drawn_ops[op] == 0) {
            printf("op %u was never drawn\n", op);
            met = 0;
        }
    for (unsigned op = 0; op < 16; op++)
        if ((op == RVN_WAKE || (has_barrier(op) && op != RVN_ENTRY)) && releases[op] == 0) {
            printf("op %u released nobody\n", op);
            met = 0;
        }
    for (unsigned op = RVN_FAILP; op <= RVN_FAILW; op++)
        if (at_once[op] == 0 || later == 0) {
            printf("op %u showed no exception at once, or none was shown later\n", op);
            met = 0;
        }
    if (spoilt == 0 || sound == 0) {
        printf("the table has no spoilt state, or no sound one\n");
        met = 0;
    }
    return met;
}

int main(int argc, char **argv)
{
    uint8_t bytes[LONGEST];
    pages = watched_pages();
    draw_pages = watched_pages();
    area = pages.own;
    lent = (struct lent *)draw_pages.own;
    only_read = (struct lent *)draw_pages.lent;
    call_with_null();
    do_table(argc == 2 ? argv[1] : NULL);
    try_all_pending();
    /* every length, with random bytes and with a good image that is cut or continued */
    for (size_t length = 0; length <= LONGEST; length++) {
        memset(bytes, 0, sizeof bytes);
        forge(bytes, 1, ALL);
        for (int random = 0; random < 2; random++) {
            const uint8_t *from = random ? NULL : bytes;
            try_step(lend(from, length), length, RVN_WAKE, 0, 0, 0);
            uint64_t task = 1 + below(31);
            try_left(lend(from, length), length, task);
            draw_somehow(lend(from, length), length, 0);
            draw_somehow(lend(from, length), length, 1);
            try_fresh(lend(from, length), length);
        }
    }
    /* every byte of a good image, spoilt, before Start and after it */
    for (size_t i = 0; i < 2 * 512; i++)
        for (int value = 0; value < 256; value++) {
            if (value == 0)
                forge(bytes, i < 512, i < 512 ? ALL : 0);
            memcpy(good, bytes, 512);
            good[i % 512] = (uint8_t)value;
            uint8_t *image = lend(good, 512);
            if (value % 4 == 0)
                try_left(image, 512, operand(32));
            else if (value % 4 == 1)
                draw_somehow(image, 512, value % 8 == 1);
            else
                step_somehow(image, 512);
        }
    /* a machine that is set up, run and now and then spoilt, forged, or made afresh */
    uint8_t *image = lend(bytes, 512);
    try_fresh(image, 512);
    memcpy(good, image, 512);
    while (calls < CALLS) {
        uint64_t which = below(20);
        if (which == 0) {
            size_t length = below(LONGEST + 1);
            call_somehow(lend(NULL, length), length);
        } else if (which <= 3) {
            memcpy(bytes, good, 512);
            uint8_t change = (uint8_t)(one_in(2) ? 1u << below(8) : draw());
            bytes[below(512)] ^= change;
            call_somehow(lend(bytes, 512), 512);
        } else if (which <= 5) {
            forge_some(bytes);
            call_somehow(lend(bytes, 512), 512);
        } else {
            image = lend(good, 512);
            if (one_in(2000))
                try_fresh(image, 512);
            else if (one_in(4) && calls + 2 <= CALLS) /* it makes two calls */
                draw_and_step(image);
            else
                step_somehow(image, 512);
            memcpy(good, image, 512);
        }
    }
    /* text and tape have the codes 14 to 16 */
    printf("%lu calls, by code:", calls);
    for (unsigned code = 0; code < 19; code++)
        if (code < 14 || code > 16)
            printf(" %u:%lu", code, counts[code]);
    printf("; states of the table: %lu sound, %lu spoilt", sound, spoilt);
    printf("; exceptions shown: %lu by the command that set them, %lu later\n",
           at_once[RVN_FAILP] + at_once[RVN_FAILF] + at_once[RVN_FAILE] + at_once[RVN_FAILW], later);
    return !all_met();
}
