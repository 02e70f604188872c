/* Bodies that end in an exception, on an image: each line of standard input is a command in its text, and one line is printed for each answer, walk's columns
 * and behind them 1 where the answer shows the running task's exception. Of command lines it prints what second/bin/exceptions2 prints. It is no reader of
 * text: a word that is none ends it with 2, and operands are taken as they come (`failp 1` is stepped as `failp 1 0`, where walk answers 14). A read or a
 * write that fails is told, and ends it with 3. */
#include <inttypes.h>
#include <stdio.h>
#include <stdlib.h>
#include <string.h>
#include "rvn_image.h"

static uint8_t image[RVN_IMAGE_BYTES];

static uint64_t clock_now(void)
{
    uint64_t clock = 0;
    for (int i = 7; i >= 0; i--)
        clock = clock << 8 | image[i];
    return clock;
}

/* The op of a word, which ends at a blank or at the end of the line; 0 if there is none. */
static uint64_t op_of(const char *line)
{
    static const char *const words[] = {"create", "object", "start", "delay", "wake",  "advance", "open", "closep",
                                        "closef", "entry",  "done",  "failp", "failf", "faile",   "failw"};
    size_t length = strcspn(line, " ");
    for (uint64_t op = RVN_CREATE; op <= RVN_FAILW; op++)
        if (strlen(words[op - 1]) == length && strncmp(line, words[op - 1], length) == 0)
            return op;
    return 0;
}

/* Steps the image by a line. */
static uint32_t answer_to(uint64_t op, const char *line)
{
    uint64_t n[2] = {0, 0};
    const char *p = line;
    for (int i = 0; i < 2 && (p = strchr(p, ' ')) != NULL; i++)
        n[i] = strtoull(++p, NULL, 10);
    if (op == RVN_DELAY || op == RVN_ADVANCE)
        return rvn_step(image, sizeof image, op, 0, 0, n[0]);
    return rvn_step(image, sizeof image, op, n[0], n[1], 0);
}

int main(void)
{
    char line[128];
    if (rvn_fresh(image, sizeof image) != RVN_ACCEPTED)
        return 1;
    puts("n op code run rel clock exc");
    for (unsigned n = 1; fgets(line, sizeof line, stdin); n++) {
        line[strcspn(line, "\n")] = '\0';
        uint64_t op = op_of(line);
        if (op == 0) {
            fprintf(stderr, "exceptions: line %u, '%s', is no command\n", n, line);
            return 2;
        }
        uint32_t answer = answer_to(op, line);
        printf("%u %" PRIu64 " %" PRIu32 " %" PRIu32 " %" PRIu32 " %" PRIu64 " %d\n", n, op, RVN_CODE(answer), RVN_RUNNING(answer),
               RVN_RELEASED(answer), clock_now(), (answer & RVN_EXCEPTION) != 0);
    }
    if (ferror(stdin)) {
        fputs("exceptions: standard input could not be read to its end; what is printed ends where the reading failed\n", stderr);
        return 3;
    }
    if (fflush(stdout) != 0 || ferror(stdout)) {
        fputs("exceptions: standard output could not be written; what is printed is not whole\n", stderr);
        return 3;
    }
    return 0;
}
