/* Draws by even choices (edition 2) on an image. Without a word it makes the stored run of program generator_run_evenly, 100,000 draws, each carried
 * out by a step of its own, and prints what that program prints. With the word `lines` it reads the lines of second/bin/even_cases2
 * (second/README.md, "Edition 2"), and prints of each `draw` the code, op, a, b, value, the seed left and the draws spent. A `below` line asks for a
 * choice alone, which no call makes: it is skipped. */
#include <inttypes.h>
#include <stdio.h>
#include <stdlib.h>
#include <string.h>
#include "rvn_image.h"

#define DRAWS 25000
#define SHOWN 5000

static uint8_t image[RVN_IMAGE_BYTES];

/* ---- The run */

/* What is told of a run: the running task, the seed, the draws spent, and a number that changes with any command and any answer on the way. */
static uint32_t running, seed, sum;
static uint64_t spent;

static void mix(uint64_t x)
{
    sum = sum * 31u + (uint32_t)x + (uint32_t)(x >> 32);
}

static void step(uint64_t op, uint64_t a, uint64_t b, uint64_t value)
{
    uint32_t answer = rvn_step(image, sizeof image, op, a, b, value);
    uint64_t told[] = {op, a, b, value, RVN_CODE(answer), RVN_RUNNING(answer), RVN_RELEASED(answer)};
    for (size_t i = 0; i < sizeof told / sizeof told[0]; i++)
        mix(told[i]);
    running = RVN_RUNNING(answer);
}

static void draw(void)
{
    static const uint32_t weights[RVN_WEIGHTS] = {10, 30, 20, 10, 10, 10, 20, 10};
    uint64_t value = 0;
    uint64_t answer = rvn_draw_even(image, sizeof image, &seed, 1000000, weights, RVN_WEIGHTS, &value);
    uint32_t drawn = RVN_DRAWN(answer);
    mix(RVN_CODE(drawn));
    mix(RVN_SPENT(answer));
    spent += RVN_SPENT(answer);
    step(RVN_OP(drawn), RVN_A(drawn), RVN_B(drawn), value);
}

static void show(unsigned draws)
{
    uint64_t clock = 0;
    for (int i = 7; i >= 0; i--)
        clock = clock << 8 | image[i];
    printf("%u %" PRIu32 " %" PRIu64 " %" PRIu32 " %" PRIu64 " %" PRIu32 "\n", draws, running, clock, seed, spent, sum);
}

/* Eight tasks, five objects, and the start; then the draws. */
static void run_from(uint32_t first)
{
    static const unsigned tasks[][2] = {{1, 3}, {2, 5}, {3, 3}, {4, 9}, {5, 1}, {6, 15}, {7, 7}, {31, 5}};
    static const unsigned objects[][2] = {{1, 4}, {2, 9}, {3, 15}, {4, 5}, {7, 12}};
    rvn_fresh(image, sizeof image);
    seed = first;
    sum = 0;
    spent = 0;
    for (size_t i = 0; i < sizeof tasks / sizeof tasks[0]; i++)
        step(RVN_CREATE, tasks[i][0], tasks[i][1], 0);
    for (size_t i = 0; i < sizeof objects / sizeof objects[0]; i++)
        step(RVN_OBJECT, objects[i][0], objects[i][1], 0);
    step(RVN_START, 0, 0, 0);
    show(0);
    for (unsigned n = 1; n <= DRAWS; n++) {
        draw();
        if (n % SHOWN == 0)
            show(n);
    }
}

/* ---- The lines */

/* The numbers of a line behind its first word, at most `room`: how many there are. */
static int numbers(const char *line, uint64_t *to, int room)
{
    int count = 0;
    for (const char *p = strchr(line, ' '); p && count < room; p = strchr(p + 1, ' '))
        to[count++] = strtoull(p + 1, NULL, 10);
    return count;
}

/* 1 if the line is a command that is accepted. */
static int command(const char *line)
{
    static const char *const words[] = {"create", "object", "start", "delay", "wake", "advance", "open", "closep", "closef", "entry", "done",
                                        "failp", "failf", "faile", "failw"};
    uint64_t n[2] = {0, 0};
    size_t length = strcspn(line, " ");
    numbers(line, n, 2);
    for (uint64_t op = RVN_CREATE; op <= RVN_FAILW; op++) {
        const char *word = words[op - 1];
        if (strlen(word) != length || strncmp(line, word, length) != 0)
            continue;
        int timed = op == RVN_DELAY || op == RVN_ADVANCE;
        return RVN_CODE(rvn_step(image, sizeof image, op, timed ? 0 : n[0], timed ? 0 : n[1], timed ? n[0] : 0)) == RVN_ACCEPTED;
    }
    return 0;
}

/* 1 if the line is a draw, of a seed, a span and eight weights. */
static int drawn(const char *line)
{
    uint64_t n[2 + RVN_WEIGHTS], value = 0;
    uint32_t weights[RVN_WEIGHTS];
    if (numbers(line, n, 2 + RVN_WEIGHTS) != 2 + RVN_WEIGHTS)
        return 0;
    for (int i = 0; i < RVN_WEIGHTS; i++)
        weights[i] = (uint32_t)n[2 + i];
    seed = (uint32_t)n[0];
    uint64_t answer = rvn_draw_even(image, sizeof image, &seed, n[1], weights, RVN_WEIGHTS, &value);
    uint32_t what = RVN_DRAWN(answer);
    printf("%" PRIu32 " %" PRIu32 " %" PRIu32 " %" PRIu32 " %" PRIu64 " %" PRIu32 " %" PRIu32 "\n", RVN_CODE(what), RVN_OP(what), RVN_A(what),
           RVN_B(what), value, seed, RVN_SPENT(answer));
    return 1;
}

static int answered(const char *line)
{
    if (strcmp(line, "fresh") == 0)
        return rvn_fresh(image, sizeof image) == RVN_ACCEPTED;
    if (strncmp(line, "draw ", 5) == 0)
        return drawn(line);
    return strncmp(line, "below ", 6) == 0 || command(line);
}

static int read_lines(void)
{
    char line[256];
    rvn_fresh(image, sizeof image);
    while (fgets(line, sizeof line, stdin)) {
        line[strcspn(line, "\n")] = '\0';
        if (!answered(line)) {
            fprintf(stderr, "even: '%s' is no line, or a command that is refused\n", line);
            return 2;
        }
    }
    return 0;
}

int main(int argc, char **argv)
{
    if (argc == 2 && strcmp(argv[1], "lines") == 0)
        return read_lines();
    if (argc > 1) {
        fputs("usage: even [lines]\n", stderr);
        return 2;
    }
    puts("draws running clock seed spent sum");
    run_from(1);
    run_from(2147483649u);
    run_from(2159691842u);
    run_from(4294967295u);
    return 0;
}
