/* Puts what the fuzzer makes to the functions that search for a row and add one, and compares all that comes back with the second
   program's judgement: the reply, the whole output, and the sheet, which nobody may change. A difference ends the run as a fault
   does. */

#include "common.h"

struct answer { uint32_t number, sheet, row, value, count; };

/* Returned through memory, as the answers in harness.c are. */
struct answer *tormukai_find_node(struct answer *, const uint32_t *, size_t, uint32_t, uint32_t, uint32_t);
struct answer *tormukai_find_edge(struct answer *, const uint32_t *, size_t, uint32_t, uint32_t, uint32_t);
struct answer *tormukai_add_node(struct answer *, const uint32_t *, size_t, uint32_t, uint32_t, uint32_t, uint32_t, uint32_t *,
                                 size_t);
struct answer *tormukai_add_edge(struct answer *, const uint32_t *, size_t, uint32_t, uint32_t, uint32_t, uint32_t, uint32_t *,
                                 size_t);

/* number, sheet, row, value, count */
void second_row(uint32_t operation, const uint32_t *sheet, size_t length, const uint32_t *row, uint32_t *out, size_t room,
                uint32_t *reply);

/* The fuzzer's bytes: the four words of a row and the room in words, a word each, and then the sheet's words. The longest sheet
   has 10,246 words. */
enum { ROW = 4, PREFIX = 4 * (ROW + 1), MOST_ROOM = 10300 };

enum { FIND_NODE, FIND_EDGE, ADD_NODE, ADD_EDGE, OPERATIONS };

/* MISREAD 1 makes the place that the second program tells a row later, 2 makes its 9 a 16, and 3 tells the functions that add of a
   word more than the output has. */

static struct answer entry(uint32_t operation, const uint32_t *sheet, size_t length, const uint32_t *r, uint32_t *out, size_t room) {
    struct answer a = {0, 0, 0, 0, 0};
    switch (operation) {
    case FIND_NODE: tormukai_find_node(&a, sheet, length, r[0], r[1], r[2]); break;
    case FIND_EDGE: tormukai_find_edge(&a, sheet, length, r[0], r[1], r[2]); break;
    case ADD_NODE: tormukai_add_node(&a, sheet, length, r[0], r[1], r[2], r[3], out, room); break;
    default: tormukai_add_edge(&a, sheet, length, r[0], r[1], r[2], r[3], out, room); break;
    }
    return a;
}

static void differ(uint32_t operation, const char *what, const struct answer *got, const uint32_t *want) {
    fprintf(stderr, "DIFFERENCE: row, function %u, %s: %u %u %u %u %u, the second program: %u %u %u %u %u\n", operation, what,
            got->number, got->sheet, got->row, got->value, got->count, want[0], want[1], want[2], want[3], want[4]);
    abort();
}

static void put(uint32_t operation, const uint8_t *bytes, size_t length, const uint32_t *row, size_t room) {
    uint32_t want[5];
    uint32_t *sheet = copied(bytes, 4 * length), *out = filled(4 * room), *out_wanted = filled(4 * room);
    uint32_t *kept = copied(bytes, 4 * length);
    struct answer got = entry(operation, sheet, length, row, out, room + (MISREAD == 3 ? 1 : 0));
    second_row(operation, kept, length, row, out_wanted, room, want);
    if (MISREAD == 1 && operation == FIND_NODE && want[0] == 0) want[4]++;
    if (MISREAD == 2 && operation == ADD_NODE && want[0] == 9) want[0] = 16;
    if (memcmp(&got, want, sizeof want)) differ(operation, "the reply", &got, want);
    if (memcmp(out, out_wanted, 4 * room)) differ(operation, "the output", &got, want);
    if (memcmp(sheet, kept, 4 * length)) differ(operation, "the sheet", &got, want);
    free(sheet), free(out), free(out_wanted), free(kept);
}

int LLVMFuzzerTestOneInput(const uint8_t *data, size_t size) {
    if (size < PREFIX) return 0;
    uint32_t row[ROW];
    for (int i = 0; i < ROW; i++) row[i] = word_at(data + 4 * i);
    for (uint32_t operation = 0; operation < OPERATIONS; operation++)
        put(operation, data + PREFIX, (size - PREFIX) / 4, row, word_at(data + 4 * ROW) % MOST_ROOM);
    return 0;
}
