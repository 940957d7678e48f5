/* Puts what the fuzzer makes to tormukai_step, any table and a row, and compares all that comes back with the second program's
   judgement: the reply, the table, and the sheet and the row, which nobody may change. A difference ends the run as a fault
   does. */

#include "common.h"

struct answer { uint32_t number, sheet, row, value, count; };

/* Returned through memory, as the answers in harness.c are. A table is 129 words. */
struct answer *tormukai_step(struct answer *, uint32_t *, const uint32_t *, size_t, uint32_t, const uint32_t *, size_t);

/* number, sheet, row, value, count */
void second_step(uint32_t *table, const uint32_t *sheet, size_t length, uint32_t timeout, const uint32_t *row, size_t row_length,
                 uint32_t *reply);

/* The fuzzer's bytes: the timeout and how many words the row has, a word each; then the words of the table, of the row and of the
   sheet. */
enum { TABLE = 129, TABLE_AT = 8, PREFIX = TABLE_AT + 4 * TABLE };

/* MISREAD 1 makes the second program's 59 a 54, 2 makes its last minute another, and 3 tells the step of a fifth word where the row
   has four. */

static void differ(const char *what, const struct answer *got, const uint32_t *want) {
    fprintf(stderr, "DIFFERENCE: step, %s: %u %u %u %u %u, the second program: %u %u %u %u %u\n", what, got->number, got->sheet,
            got->row, got->value, got->count, want[0], want[1], want[2], want[3], want[4]);
    abort();
}

static void put(const uint8_t *bytes, uint32_t timeout, size_t row_length, size_t length) {
    struct answer got = {0, 0, 0, 0, 0};
    const uint8_t *row_at = bytes + 4 * TABLE, *sheet_at = row_at + 4 * row_length;
    uint32_t want[5], *table = copied(bytes, 4 * TABLE), *table_wanted = copied(bytes, 4 * TABLE);
    uint32_t *row = copied(row_at, 4 * row_length), *row_kept = copied(row_at, 4 * row_length);
    uint32_t *sheet = copied(sheet_at, 4 * length), *sheet_kept = copied(sheet_at, 4 * length);
    tormukai_step(&got, table, sheet, length, timeout, row, row_length + (MISREAD == 3 && row_length == 4 ? 1 : 0));
    second_step(table_wanted, sheet_kept, length, timeout, row_kept, row_length, want);
    if (MISREAD == 1 && want[0] == 59) want[0] = 54;
    if (MISREAD == 2) table_wanted[0] ^= want[0] == 0;
    if (memcmp(&got, want, sizeof want)) differ("the reply", &got, want);
    if (memcmp(table, table_wanted, 4 * TABLE)) differ("the table", &got, want);
    if (memcmp(row, row_kept, 4 * row_length)) differ("the row", &got, want);
    if (memcmp(sheet, sheet_kept, 4 * length)) differ("the sheet", &got, want);
    free(table), free(table_wanted), free(row), free(row_kept), free(sheet), free(sheet_kept);
}

int LLVMFuzzerTestOneInput(const uint8_t *data, size_t size) {
    if (size < PREFIX) return 0;
    size_t words = (size - PREFIX) / 4, asked = word_at(data + 4), row_length = asked < words ? asked : words;
    put(data + TABLE_AT, word_at(data), row_length, words - row_length);
    return 0;
}
