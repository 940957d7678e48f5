/* Puts what the fuzzer makes to tormukai_trace, and compares all that comes back with the second program's judgement: the reply,
   the whole output, and the sheet and the rows, which nobody may change. Then the same rows go to tormukai_step, one after the
   other on one table, and have to come to the same. A difference ends the run as a fault does. */

#include "common.h"

struct answer { uint32_t number, sheet, row, value, count; };
struct reply { uint32_t number, sheet, row; size_t count; };

/* Returned through memory, as the answers in harness.c are. A table is 129 words. */
struct reply *tormukai_trace(struct reply *, const uint32_t *, size_t, uint32_t, const uint32_t *, size_t, uint32_t *, size_t);
struct answer *tormukai_step(struct answer *, uint32_t *, const uint32_t *, size_t, uint32_t, const uint32_t *, size_t);

/* number, sheet, row, value, count */
void second_trace(const uint32_t *sheet, size_t length, uint32_t timeout, const uint32_t *rows, size_t rows_length, uint32_t *out,
                  size_t room, uint32_t *reply);

/* The fuzzer's bytes: the timeout, the room in words and how many words the rows have, a word each; then the words of the rows, and
   those of the sheet. */
enum { PREFIX = 12, ROW = 5, TABLE = 129, MOST_ROOM = 10300, TOO_SHORT = 25 };

/* MISREAD 1 makes the second program's 51 a 54, 2 makes its first answer another, and 3 tells the trace of a word more than the
   output has. */

struct input {
    uint32_t timeout;
    const uint32_t *sheet, *rows;
    size_t length, rows_length, room;
};

static void differ(const char *what, const struct answer *got, const uint32_t *want) {
    fprintf(stderr, "DIFFERENCE: trace, %s: %u %u %u %u %u, and not %u %u %u %u %u\n", what, got->number, got->sheet, got->row,
            got->value, got->count, want[0], want[1], want[2], want[3], want[4]);
    abort();
}

/* One row after the other, up to the first that is refused. Returns how many were questions; the last answer is left. */
static uint32_t step_through(const struct input *in, const struct answer *got, const uint32_t *out, struct answer *last) {
    uint32_t *table = filled(4 * TABLE), count = 0;
    memset(table, 0, 4 * TABLE);
    for (size_t at = 0; at < in->rows_length && last->number == 0; at += ROW) {
        size_t length = in->rows_length - at < ROW ? in->rows_length - at : ROW;
        uint32_t *row = copied(in->rows + at, 4 * length);
        tormukai_step(last, table, in->sheet, in->length, in->timeout, row, length);
        if (last->count != 0 && got->number == 0 && (count >= got->count || out[count] != last->value))
            differ("an answer of the steps", got, &last->number);
        count += last->count != 0;
        free(row);
    }
    free(table);
    return count;
}

/* Where there is no row there is no step. 25 is the trace's alone, after all rows. */
static void compare_steps(const struct input *in, const struct answer *got, const uint32_t *out) {
    struct answer last = {0, 0, 0, 0, 0};
    uint32_t count = step_through(in, got, out, &last);
    if (in->rows_length == 0) return;
    uint32_t number = last.number != 0 ? last.number : count > in->room ? TOO_SHORT : 0;
    if (got->number != number || got->sheet != last.sheet || got->row != last.row)
        differ("the refusal of the steps", got, &last.number);
    if (number == 0 && got->count != count) differ("the count of the steps", got, &last.number);
}

/* As the second program writes it: a trace's value is 0, and no input has more questions than 32 bits count. */
static struct answer traced(const struct input *in, uint32_t *out, size_t room) {
    struct reply r = {0, 0, 0, 0};
    tormukai_trace(&r, in->sheet, in->length, in->timeout, in->rows, in->rows_length, out, room);
    if (r.count > UINT32_MAX) abort();
    return (struct answer){r.number, r.sheet, r.row, 0, (uint32_t)r.count};
}

static void put(const struct input *in) {
    uint32_t want[5], *out = filled(4 * in->room), *out_wanted = filled(4 * in->room);
    uint32_t *sheet = copied(in->sheet, 4 * in->length), *rows = copied(in->rows, 4 * in->rows_length);
    struct answer got = traced(in, out, in->room + (MISREAD == 3 ? 1 : 0));
    second_trace(sheet, in->length, in->timeout, rows, in->rows_length, out_wanted, in->room, want);
    if (MISREAD == 1 && want[0] == 51) want[0] = 54;
    if (MISREAD == 2 && want[4] != 0) out_wanted[0] ^= 1;
    if (memcmp(&got, want, sizeof want)) differ("the reply", &got, want);
    if (memcmp(out, out_wanted, 4 * in->room)) differ("the output", &got, want);
    compare_steps(in, &got, out);
    if (memcmp(in->sheet, sheet, 4 * in->length)) differ("the sheet", &got, want);
    if (memcmp(in->rows, rows, 4 * in->rows_length)) differ("the rows", &got, want);
    free(sheet), free(rows), free(out), free(out_wanted);
}

int LLVMFuzzerTestOneInput(const uint8_t *data, size_t size) {
    if (size < PREFIX) return 0;
    size_t words = (size - PREFIX) / 4, asked = word_at(data + 8), rows_length = asked < words ? asked : words;
    uint32_t *rows = copied(data + PREFIX, 4 * rows_length);
    uint32_t *sheet = copied(data + PREFIX + 4 * rows_length, 4 * (words - rows_length));
    put(&(struct input){word_at(data), sheet, rows, words - rows_length, rows_length, word_at(data + 4) % MOST_ROOM});
    free(rows), free(sheet);
    return 0;
}
