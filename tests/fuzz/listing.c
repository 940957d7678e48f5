/* Puts what the fuzzer makes to tormukai_read_listing, and compares all that comes back with the second program's judgement: the
   reply, the whole output, and the text, which nobody may change. A difference ends the run as a fault does. */

#include "common.h"

struct listing { uint32_t number, sheet; size_t row, count; };

/* Returned through memory, as the answers in harness.c are. */
struct listing *tormukai_read_listing(struct listing *, const uint8_t *, size_t, uint32_t *, size_t);

/* number, sheet, row, count */
void second_read_listing(const uint8_t *text, size_t length, uint32_t *out, size_t room, uint64_t *reply);

/* The fuzzer's bytes: the room in words, a word, and then the text. The longest sheet has 10,246 words. */
enum { PREFIX = 4, MOST_ROOM = 10300 };

/* MISREAD 1 makes the second program's 43 a line later, 2 makes its 42 a 41, and 3 tells the reader of a word more than the output
   has. */

static void differ(const char *what, const struct listing *got, const uint64_t *want) {
    fprintf(stderr, "DIFFERENCE: listing, %s: %u %u %zu %zu, the second program: %llu %llu %llu %llu\n", what, got->number,
            got->sheet, got->row, got->count, (unsigned long long)want[0], (unsigned long long)want[1],
            (unsigned long long)want[2], (unsigned long long)want[3]);
    abort();
}

static void put(const uint8_t *bytes, size_t length, size_t room) {
    struct listing got = {0, 0, 0, 0};
    uint64_t want[4];
    uint8_t *text = copied(bytes, length);
    uint32_t *out = filled(4 * room), *out_wanted = filled(4 * room);
    tormukai_read_listing(&got, text, length, out, room + (MISREAD == 3 ? 1 : 0));
    second_read_listing(bytes, length, out_wanted, room, want);
    if (MISREAD == 1 && want[0] == 43) want[2]++;
    if (MISREAD == 2 && want[0] == 42) want[0] = 41;
    if (got.number != want[0] || got.sheet != want[1] || got.row != want[2] || got.count != want[3])
        differ("the reply", &got, want);
    if (memcmp(out, out_wanted, 4 * room)) differ("the output", &got, want);
    if (memcmp(text, bytes, length)) differ("the text", &got, want);
    free(text), free(out), free(out_wanted);
}

int LLVMFuzzerTestOneInput(const uint8_t *data, size_t size) {
    if (size < PREFIX) return 0;
    put(data + PREFIX, size - PREFIX, word_at(data) % MOST_ROOM);
    return 0;
}
