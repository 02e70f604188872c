/* Document 01's draw on an image: its set-up commands, then as many drawn ones as the first word says (1 if there is none, at most 100000, as
 * for program draw), each carried out in the call that draws it. Prints what program draw prints. Beside it the same on a second image in two calls,
 * a draw and then its step: what is answered and left must be the same, byte for byte. */
#include <inttypes.h>
#include <stdio.h>
#include <stdlib.h>
#include <string.h>
#include "rvn_image.h"

static const uint32_t weights[RVN_WEIGHTS] = {10, 10, 10, 10, 10, 10, 10, 10};
static uint8_t image[RVN_IMAGE_BYTES], second[RVN_IMAGE_BYTES];
static uint32_t seed = 1, second_seed = 1;

static uint64_t clock_now(void)
{
    uint64_t clock = 0;
    for (int i = 7; i >= 0; i--)
        clock = clock << 8 | image[i];
    return clock;
}

static void print(unsigned n, uint64_t op, uint64_t a, uint64_t b, uint64_t value, uint32_t answer)
{
    printf("%u %" PRIu64 " %" PRIu64 " %" PRIu64 " %" PRIu64 " %" PRIu32 " %" PRIu32 " %" PRIu32 " %" PRIu64 "\n", n, op, a, b, value,
           RVN_CODE(answer), RVN_RUNNING(answer), RVN_RELEASED(answer), clock_now());
}

static void step(unsigned n, uint64_t op, uint64_t a, uint64_t b, uint64_t value)
{
    print(n, op, a, b, value, rvn_step(image, sizeof image, op, a, b, value));
}

/* Draws on the second image and steps it there, in two calls: 1 if all that is answered and left is what one call answered and left. */
static int same_in_two(uint64_t both, uint64_t value)
{
    uint64_t second_value;
    uint32_t drawn = rvn_draw(second, sizeof second, &second_seed, 100, weights, RVN_WEIGHTS, &second_value);
    uint32_t stepped = rvn_step(second, sizeof second, RVN_OP(drawn), RVN_A(drawn), RVN_B(drawn), second_value);
    return RVN_DRAWN(both) == drawn && RVN_STEPPED(both) == stepped && second_value == value && second_seed == seed && memcmp(second, image, sizeof image) == 0;
}

/* The count that the word says, or 0 if it says none of 1..100000. */
static unsigned count_of(const char *word)
{
    char *end;
    unsigned long count = strtoul(word, &end, 10);
    return word[0] >= '0' && word[0] <= '9' && *end == '\0' && count <= 100000 ? (unsigned)count : 0;
}

int main(int argc, char **argv)
{
    unsigned count = argc > 2 ? 0 : argc > 1 ? count_of(argv[1]) : 1;
    if (count == 0) {
        if (argc > 2)
            fputs("draw: too many words\n", stderr);
        else
            fprintf(stderr, "draw: '%s' is no count of commands, which is 1 to 100000\n", argv[1]);
        fputs("usage: draw [COUNT]\n", stderr);
        return 2;
    }
    if (rvn_fresh(image, sizeof image) != RVN_ACCEPTED)
        return 1;
    puts("n op a b value code run rel clock");
    step(1, RVN_CREATE, 1, 3, 0);
    step(2, RVN_CREATE, 2, 5, 0);
    step(3, RVN_CREATE, 3, 3, 0);
    step(4, RVN_OBJECT, 1, 4, 0);
    step(5, RVN_START, 0, 0, 0);
    memcpy(second, image, sizeof image);
    for (unsigned i = 0; i < count; i++) {
        uint64_t value;
        uint64_t both = rvn_draw_step(image, sizeof image, &seed, 100, weights, RVN_WEIGHTS, &value);
        uint32_t drawn = RVN_DRAWN(both);
        if (RVN_CODE(drawn) != RVN_ACCEPTED)
            return 1;
        print(6 + i, RVN_OP(drawn), RVN_A(drawn), RVN_B(drawn), value, RVN_STEPPED(both));
        if (!same_in_two(both, value)) {
            fprintf(stderr, "draw: command %u drawn and carried out in one call is not what two calls do\n", 6 + i);
            return 1;
        }
    }
    return 0;
}
