/* The program walk in C, for speed: what ./run walk prints, with the step of kernel.h. */
#include "../lines.h"

static kernel k;
static uint64_t n;

static bool line(const char *p, const char *end) {
    command c;
    answer r = carried_out(&k, p, end, &c);
    char *to = out + used;
    to = put(to, ++n, ' ');
    to = put(to, c.op, ' ');
    put_line(put_answer(to, r, k.clock));
    return true;
}

int main(void) {
    put_text("n op code run rel clock\n");
    each_line(line);
    flush();
    return 0;
}
