/* Puts what the fuzzer makes to the counter's entries on bytes, and compares all that comes back with the second program's
   judgement: the reply, the whole output, and the file, which nobody may change. A difference ends the run as a fault does. */

#include "common.h"

struct answer { uint32_t number, sheet, row, value, count; };
struct refusal { uint32_t number, sheet, row; };

/* An answer is returned through memory. On x86-64 that is this very call; on other machines, for which the kit's module was
   not made, only this form of it fits. */
struct answer *tormukai_answer(struct answer *, const uint8_t *, size_t, uint32_t, uint32_t, uint32_t, uint32_t);
struct answer *tormukai_joint_answer(struct answer *, const uint8_t *, size_t, uint32_t, uint32_t, uint32_t, uint32_t);
struct answer *tormukai_witness(struct answer *, const uint8_t *, size_t, uint32_t, uint32_t, uint32_t, uint32_t, uint32_t,
                                uint8_t *, size_t);
struct refusal tormukai_check_file(const uint8_t *, size_t);

void second_judge(uint32_t question, const uint8_t *file, size_t length, const uint32_t *numbers, uint8_t *out, size_t room,
                  uint32_t *reply);

/* The fuzzer's bytes: office or rule, kind, person, deed, folio and room, a word each, and then the file. */
enum { NUMBERS = 5, PREFIX = 4 * (NUMBERS + 1), MOST_ROOM = 4200 };

/* What each question's entry takes. The first two have no kind. */
static const int order[4][NUMBERS] = {{0, 1, 2, 3, 4}, {0, 2, 3, 4, 1}, {0, 2, 3, 4, 1}, {0, 1, 2, 3, 4}};

/* MISREAD 1 lets the second program see whole words alone, 2 makes its 17 a 16, and 3 tells the witness of four bytes more than
   the output has. */

static struct answer entry(uint32_t question, const uint8_t *file, size_t length, const uint32_t *n, uint8_t *out, size_t room) {
    struct answer a = {0, 0, 0, 0, 0};
    struct refusal r;
    switch (question) {
    case 0:
        r = tormukai_check_file(file, length);
        a.number = r.number, a.sheet = r.sheet, a.row = r.row;
        break;
    case 1: tormukai_answer(&a, file, length, n[0], n[1], n[2], n[3]); break;
    case 2: tormukai_joint_answer(&a, file, length, n[0], n[1], n[2], n[3]); break;
    default: tormukai_witness(&a, file, length, n[0], n[1], n[2], n[3], n[4], out, room + (MISREAD == 3 ? 4 : 0)); break;
    }
    return a;
}

static void differ(uint32_t question, const char *what, const struct answer *got, const uint32_t *want) {
    fprintf(stderr, "DIFFERENCE: question %u, %s: %u %u %u %u %u, the second program: %u %u %u %u %u\n", question, what,
            got->number, got->sheet, got->row, got->value, got->count, want[0], want[1], want[2], want[3], want[4]);
    abort();
}

/* The file and the output are pieces of memory of just their lengths, so that a byte beyond them is seen. */
static void put(uint32_t question, const uint8_t *bytes, size_t length, const uint32_t *words, size_t room) {
    uint32_t numbers[NUMBERS], want[5];
    for (int i = 0; i < NUMBERS; i++) numbers[i] = words[order[question][i]];
    uint8_t *file = copied(bytes, length), *out = filled(room), *out_wanted = filled(room);
    struct answer got = entry(question, file, length, numbers, out, room);
    second_judge(question, bytes, MISREAD == 1 ? length / 4 * 4 : length, numbers, out_wanted, room, want);
    if (MISREAD == 2 && want[0] == 17) want[0] = 16;
    if (memcmp(&got, want, sizeof want)) differ(question, "the reply", &got, want);
    if (memcmp(out, out_wanted, room)) differ(question, "the output", &got, want);
    if (memcmp(file, bytes, length)) differ(question, "the file", &got, want);
    free(file), free(out), free(out_wanted);
}

int LLVMFuzzerTestOneInput(const uint8_t *data, size_t size) {
    if (size < PREFIX) return 0;
    uint32_t words[NUMBERS + 1];
    for (int i = 0; i <= NUMBERS; i++) words[i] = word_at(data + 4 * i);
    for (uint32_t question = 0; question < 4; question++)
        put(question, data + PREFIX, size - PREFIX, words, words[NUMBERS] % MOST_ROOM);
    return 0;
}
