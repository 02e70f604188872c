/* Judges a tape: the file that the first word names, or standard input if there is none. Prints the two lines that program judge prints: the
 * call tells which record differs and both answers, and the command is read off the tape at its place. Ends with 0 where the tape agrees, with
 * 1 where it does not, and with 2 where it could not be read. */
#include <errno.h>
#include <inttypes.h>
#include <stdio.h>
#include <stdlib.h>
#include <string.h>
#include "rvn_judge.h"

/* All bytes of a file, to be freed, and their count; null where they could not be read or kept. */
static uint8_t *all_of(FILE *file, size_t *length)
{
    size_t room = 65536;
    uint8_t *bytes = malloc(room);
    *length = 0;
    while (bytes) {
        *length += fread(bytes + *length, 1, room - *length, file);
        if (*length < room)
            break;
        uint8_t *more = room > SIZE_MAX / 2 ? NULL : realloc(bytes, 2 * room);
        if (!more)
            free(bytes);
        bytes = more;
        room *= 2;
    }
    if (bytes && ferror(file)) {
        free(bytes);
        bytes = NULL;
    }
    return bytes;
}

/* The command of a record: its line, and then all of its operands, used by its op or not. */
static void print_command(const uint8_t *record)
{
    static const char *const words[16] = {"",       "create", "object", "start", "delay", "wake",  "advance", "open",
                                          "closep", "closef", "entry",  "done",  "failp", "failf", "faile",   "failw"};
    unsigned op = record[2], a = record[3], b = record[4];
    uint64_t value = 0;
    for (int i = 15; i >= 8; i--)
        value = value << 8 | record[i];
    printf("%s", words[op]);
    if (op == 4 || op == 6)
        printf(" %" PRIu64, value);
    else if (op != 3 && op != 5)
        printf(" %u", a);
    if (op == 1 || op == 2 || op == 8 || (op >= 10 && op != 13))
        printf(" %u", b);
    printf(" (op %u, a %u, b %u, value %" PRIu64 ")", op, a, b, value);
}

static void print_answer(const char *whose, uint64_t answer)
{
    printf("; %s: code %" PRIu64 ", running %" PRIu64 ", released %" PRIu64, whose, answer & 255, answer >> 8 & 255, answer >> 16 & 255);
}

static void print_verdict(const uint8_t *tape, uint32_t answer, const uint64_t *verdict)
{
    uint64_t record = verdict[RVN_VERDICT_RECORD], place = RVN_TAPE_PLACE(record);
    printf("seed %" PRIu64 "\n", verdict[RVN_VERDICT_SEED]);
    if (answer == RVN_TAPE_AGREES) {
        printf("agrees: %" PRIu64 " command records", record);
    } else if (answer == RVN_TAPE_DIFFERS) {
        printf("differs at record %" PRIu64 ", byte %" PRIu64 ": ", record, place);
        print_command(tape + place);
        print_answer("tape", verdict[RVN_VERDICT_TAPE]);
        print_answer("rules", verdict[RVN_VERDICT_RULES]);
    } else {
        printf("refused %" PRIu32 " at record %" PRIu64 ", byte %" PRIu64, answer, record, place);
    }
    printf("\n");
}

int main(int argc, char **argv)
{
    if (argc > 2) {
        fputs("judge_tape: too many words\nusage: judge_tape [FILE]\n", stderr);
        return 2;
    }
    const char *name = argc > 1 ? argv[1] : "standard input";
    FILE *file = argc > 1 ? fopen(name, "rb") : stdin;
    size_t length = 0;
    uint8_t *tape = file ? all_of(file, &length) : NULL;
    if (!tape) {
        fprintf(stderr, "judge_tape: %s cannot be read: %s\n", name, strerror(errno));
        return 2;
    }
    uint64_t verdict[RVN_VERDICT_NUMBERS];
    uint32_t answer = rvn_judge(tape, length, verdict, RVN_VERDICT_NUMBERS);
    print_verdict(tape, answer, verdict);
    free(tape);
    return answer != RVN_TAPE_AGREES;
}
