/* Document 01's walk on an image: the commands of its case, one line for each answer. The clock is read off the image, bytes 0..7. */
#include <inttypes.h>
#include <stdio.h>
#include "rvn_image.h"

struct command {
    uint64_t op, a, b, value;
};

static const struct command commands[] = {
    {RVN_CREATE, 1, 3, 0}, {RVN_CREATE, 2, 5, 0}, {RVN_CREATE, 3, 3, 0}, {RVN_OBJECT, 1, 4, 0},
    {RVN_START, 0, 0, 0},  {RVN_DELAY, 0, 0, 10}, {RVN_OPEN, 1, 0, 0},   {RVN_ADVANCE, 0, 0, 10},
    {RVN_WAKE, 0, 0, 0},   {RVN_OPEN, 1, 0, 0},   {RVN_DELAY, 0, 0, 20}, {RVN_CLOSEP, 1, 1, 0},
    {RVN_ENTRY, 1, 0, 0},  {RVN_ENTRY, 1, 0, 0},  {RVN_OPEN, 1, 0, 0},   {RVN_CLOSEP, 1, 1, 0},
};

static uint64_t clock_of(const uint8_t *image)
{
    uint64_t clock = 0;
    for (int i = 7; i >= 0; i--)
        clock = clock << 8 | image[i];
    return clock;
}

int main(void)
{
    uint8_t image[RVN_IMAGE_BYTES];
    if (rvn_fresh(image, sizeof image) != RVN_ACCEPTED)
        return 1;
    puts("n op code run rel clock");
    for (size_t i = 0; i < sizeof commands / sizeof commands[0]; i++) {
        const struct command *c = &commands[i];
        uint32_t answer = rvn_step(image, sizeof image, c->op, c->a, c->b, c->value);
        printf("%zu %" PRIu64 " %" PRIu32 " %" PRIu32 " %" PRIu32 " %" PRIu64 "\n", i + 1, c->op, RVN_CODE(answer),
               RVN_RUNNING(answer), RVN_RELEASED(answer), clock_of(image));
    }
    return 0;
}
