/* Puts what the fuzzer makes to tormukai_read_line, and compares all that comes back with the second program's judgement: the
   fault, which of the nine it is, its numbers, and the line, which nobody may change. A difference ends the run as a fault does. */

#include "common.h"

struct line { uint32_t fault, form, first, second, third; };

/* Returned through memory, as the answers in harness.c are. */
struct line *tormukai_read_line(struct line *, const uint8_t *, size_t);

/* fault, form, first, second, third */
void second_read_line(const uint8_t *line, size_t length, uint32_t *reply);

/* MISREAD 1 makes the second program's 41 a 40, 2 drops its third number, and 3 tells the reader of a byte more than the line has. */

static void differ(const char *what, const struct line *got, const uint32_t *want) {
    fprintf(stderr, "DIFFERENCE: line, %s: %u %u %u %u %u, the second program: %u %u %u %u %u\n", what, got->fault, got->form,
            got->first, got->second, got->third, want[0], want[1], want[2], want[3], want[4]);
    abort();
}

int LLVMFuzzerTestOneInput(const uint8_t *data, size_t size) {
    struct line got = {0, 0, 0, 0, 0};
    uint32_t want[5];
    uint8_t *line = copied(data, size);
    tormukai_read_line(&got, line, size + (MISREAD == 3 ? 1 : 0));
    second_read_line(data, size, want);
    if (MISREAD == 1 && want[0] == 41) want[0] = 40;
    if (MISREAD == 2) want[4] = 0;
    if (memcmp(&got, want, sizeof want)) differ("the reply", &got, want);
    if (memcmp(line, data, size)) differ("the line itself", &got, want);
    free(line);
    return 0;
}
