/* Calls every function of the header as a program in C would, and prints all that comes back; tests/desk/library.py has the
 * lines that it must print. A word after each output shows that a result writes no more than its own words. */
#include "tormukai.h"

#include <inttypes.h>
#include <stdio.h>
#include <string.h>

#define LENGTH(words) (sizeof(words) / sizeof *(words))

/* The sister ships' sheets A and B. */
static const uint32_t first[] = {1, 1, 8, 7, 6, 38, /* nodes */ 1, 11, 0, 1, 1, 12, 0, 1, 2, 21, 0, 1, 2, 22, 0, 1,
                                 3, 31, 1, 1, 3, 31, 2, 1, 4, 41, 0, 1, 4, 42, 0, 1, /* edges */ 1, 0, 2, 1, 1, 1, 3, 1,
                                 2, 2, 3, 1, 3, 3, 4, 1, 4, 2, 5, 1, 5, 4, 6, 1, 5, 5, 7, 1};
static const uint32_t second[] = {1, 1, 4, 3, 6, 22, /* nodes */ 1, 11, 0, 1, 2, 21, 0, 1, 3, 31, 2, 1, 4, 42, 0, 1,
                                  /* edges */ 1, 0, 1, 1, 3, 1, 2, 1, 5, 2, 3, 1};

/* Person 1 is in category 2 and in 3, which contains it. Deeds 4 and 5 are granted on folio 6, and deed 5 is banned too: by 2 and
 * by 3, so that edge row 6 is redundant. */
static const uint32_t third[] = {1, 1, 6, 9, 6, 30, /* nodes */ 1, 1, 0, 1, 2, 2, 0, 1, 2, 3, 0, 1, 3, 4, 0, 1, 3, 5, 0, 1,
                                 4, 6, 0, 1, /* edges */ 1, 0, 1, 1, 1, 0, 2, 1, 2, 1, 2, 1, 3, 2, 3, 1, 3, 2, 4, 1,
                                 4, 1, 4, 1, 4, 2, 4, 1, 5, 3, 5, 1, 5, 4, 5, 1};

/* The joint sheet of the first two, and the first with a node row of no type; made at the start. */
static uint32_t joint[70];
static uint32_t damaged[LENGTH(first)];

static const size_t n = LENGTH(first);
static const size_t m = LENGTH(third);
static uint32_t out[TORMUKAI_SHEET_WORDS + 2];
static uint8_t *const out_bytes = (uint8_t *)out;

static void say_words(size_t count)
{
    for (size_t i = 0; i < count; i++)
        printf(" %" PRIu32, out[i]);
    printf("\n");
    memset(out, 0xff, sizeof out);
}

static void say(const char *name, TormukaiAnswer a, size_t shown)
{
    printf("%s: %" PRIu32 " %" PRIu32 " %" PRIu32, name, a.number, a.sheet, a.row);
    printf(" %" PRIu32 " %" PRIu32 ";", a.value, a.count);
    say_words(shown);
}

static void say_refusal(const char *name, TormukaiRefusal r)
{
    printf("%s: %" PRIu32 " %" PRIu32 " %" PRIu32 "\n", name, r.number, r.sheet, r.row);
}

static void say_written(const char *name, TormukaiRefusal r, size_t shown)
{
    printf("%s: %" PRIu32 " %" PRIu32 " %" PRIu32 ";", name, r.number, r.sheet, r.row);
    say_words(shown);
}

static void say_joined(const char *name, TormukaiJoined j, size_t shown)
{
    printf("%s: %" PRIu32 " %" PRIu32 " %" PRIu32 " %" PRIu32, name, j.number, j.sheet, j.row, j.words);
    printf(" %" PRIu32 " %" PRIu32 " %" PRIu32 " %" PRIu32 ";", j.nodes, j.edges, j.sharednodes, j.sharededges);
    say_words(shown);
}

static void say_listing(const char *name, TormukaiListing l, size_t shown)
{
    printf("%s: %" PRIu32 " %" PRIu32 " %zu %zu;", name, l.number, l.sheet, l.row, l.count);
    say_words(shown);
}

/* The machine is x86-64, so a sheet's words in memory are the bytes of its file. */
static const uint8_t *bytes(const uint32_t *words)
{
    return (const uint8_t *)words;
}

static void questions_of_a_file(void)
{
    const uint8_t *file = bytes(first);
    say("answer", tormukai_answer(file, sizeof first, 1, 11, 31, 42), 1);
    say("joint_answer", tormukai_joint_answer(file, sizeof first, TORMUKAI_FIRST_APPLICABLE, 11, 31, 42), 1);
    say("witness", tormukai_witness(file, sizeof first, 1, TORMUKAI_GRANT, 11, 31, 41, out_bytes, 40), 11);
    say("witness of a ban", tormukai_witness(file, sizeof first, 1, 4294967295, 12, 31, 42, out_bytes, sizeof out), 11);
    say("witness, a byte short", tormukai_witness(file, sizeof first, 1, TORMUKAI_GRANT, 11, 31, 41, out_bytes, 39), 1);
    say_refusal("check_file", tormukai_check_file(file, sizeof first));
    say_refusal("check_file, cut", tormukai_check_file(file, sizeof first - 1));
}

static void files_and_words(void)
{
    static const uint8_t too_long[TORMUKAI_FILE_BYTES + 4];
    static const uint8_t no_sheet[] = {1, 2, 3, 4};
    static const uint32_t same_words[] = {0x04030201};
    const uint8_t *file = bytes(first);
    say_written("words_of_file", tormukai_words_of_file(file, sizeof first, out, n), n + 1);
    say_written("words_of_file, no bytes", tormukai_words_of_file(file, 0, out, 0), 1);
    say_written("words_of_file, no sheet", tormukai_words_of_file(no_sheet, 4, out, 1), 2);
    say_written("words_of_file, a byte cut off", tormukai_words_of_file(file, sizeof first - 1, out, n), 1);
    say_written("words_of_file, too long", tormukai_words_of_file(too_long, sizeof too_long, out, LENGTH(out)), 1);
    say_written("words_of_file, too long before too short", tormukai_words_of_file(too_long, sizeof too_long, out, 0), 1);
    say_written("words_of_file, a word short", tormukai_words_of_file(file, sizeof first, out, n - 1), 1);
    say_written("file_of_words", tormukai_file_of_words(first, n, out_bytes, sizeof first), n + 1);
    say_written("file_of_words, no words", tormukai_file_of_words(first, 0, out_bytes, 0), 1);
    say_written("file_of_words, no sheet", tormukai_file_of_words(same_words, 1, out_bytes, 4), 2);
    say_written("file_of_words, a byte short", tormukai_file_of_words(first, n, out_bytes, sizeof first - 1), 1);
}

static void joins_of_files(void)
{
    const uint8_t *a = bytes(first);
    const uint8_t *b = bytes(second);
    const uint8_t *bad = bytes(damaged);
    const uint8_t *two = bytes(joint);
    const size_t length = sizeof first;
    say_joined("join_files", tormukai_join_files(a, length, b, sizeof second, out_bytes, sizeof joint), 71);
    say_joined("join_files, the first cut", tormukai_join_files(a, 3, bad, length, out_bytes, sizeof out), 1);
    say_joined("join_files, the second cut", tormukai_join_files(two, sizeof joint, b, 7, out_bytes, sizeof out), 1);
    say_joined("join_files, the second damaged", tormukai_join_files(a, length, bad, length, out_bytes, 0), 1);
    say_joined("join_files, two offices", tormukai_join_files(a, length, two, sizeof joint, out_bytes, sizeof out), 1);
    say_joined("join_files, a byte short", tormukai_join_files(a, length, b, sizeof second, out_bytes, sizeof joint - 1), 1);
}

static void questions_of_a_sheet(void)
{
    say("sheet_answer", tormukai_sheet_answer(first, n, 1, 11, 31, 42), 1);
    say("sheet_answer, office 2", tormukai_sheet_answer(first, n, 2, 11, 31, 42), 1);
    say("sheet_joint_answer", tormukai_sheet_joint_answer(first, n, TORMUKAI_DENY_FIRST, 11, 31, 42), 1);
    say("sheet_joint_answer, rule 4", tormukai_sheet_joint_answer(first, n, 4, 11, 31, 42), 1);
    say("sheet_witness", tormukai_sheet_witness(first, n, 1, TORMUKAI_GRANT, 11, 31, 41, out, 10), 11);
    say("sheet_witness of a ban", tormukai_sheet_witness(first, n, 1, 4294967295, 12, 31, 42, out, LENGTH(out)), 11);
    say("sheet_witness, none", tormukai_sheet_witness(first, n, 1, TORMUKAI_GRANT, 11, 31, 42, out, 0), 1);
    say("sheet_witness, a word short", tormukai_sheet_witness(first, n, 1, TORMUKAI_GRANT, 11, 31, 41, out, 9), 1);
}

static void lists(void)
{
    const uint32_t path[] = {12, 0, 22, 0, 31, 1, 41, 0};
    say("is_path", tormukai_is_path(first, n, 1, TORMUKAI_GRANT, 12, 31, 41, path, LENGTH(path)), 0);
    say("is_path, a ban", tormukai_is_path(first, n, 1, TORMUKAI_BAN, 12, 31, 41, path, LENGTH(path)), 0);
    say("persons_in_category", tormukai_persons_in_category(first, n, 1, 22, out, 2), 3);
    say("persons_in_category, a word short", tormukai_persons_in_category(first, n, 1, 22, out, 1), 1);
    say("persons_with_grant", tormukai_persons_with_grant(first, n, 1, 31, 41, out, 2), 3);
    say("persons_with_grant, a word short", tormukai_persons_with_grant(first, n, 1, 31, 41, out, 1), 1);
    say("folios_out_of_reach", tormukai_folios_out_of_reach(first, n, 1, out, 1), 2);
    say("folios_out_of_reach, no room", tormukai_folios_out_of_reach(first, n, 1, out, 0), 1);
    say("least_triple", tormukai_least_triple(third, m, 1, out, 3), 4);
    say("least_triple, a word short", tormukai_least_triple(third, m, 1, out, 2), 1);
    say("least_holder", tormukai_least_holder(third, m, 1, 4, 5, out, 2), 3);
    say("least_holder, a word short", tormukai_least_holder(third, m, 1, 4, 5, out, 1), 1);
    say("redundant_edges", tormukai_redundant_edges(third, m, 1, out, 1), 2);
    say("redundant_edges, no room", tormukai_redundant_edges(third, m, 1, out, 0), 1);
}

static void two_sheets(void)
{
    const size_t b = LENGTH(second);
    say_joined("join", tormukai_join(first, n, second, b, out, 70), 71);
    say_joined("join, a word short", tormukai_join(first, n, second, b, out, 69), 1);
    say("take_out", tormukai_take_out(joint, 70, 2, out, 34), 35);
    say("take_out, a word short", tormukai_take_out(joint, 70, 2, out, 33), 1);
    say("look_up", tormukai_look_up(second, b, first, n, TORMUKAI_FOLIO, 41, 0), 1);
    say("look_up, in both", tormukai_look_up(second, b, first, n, TORMUKAI_DEED, 31, 2), 1);
    say("look_up, a person", tormukai_look_up(second, b, first, n, TORMUKAI_PERSON, 41, 0), 1);
    say("look_up, the second damaged", tormukai_look_up(first, n, damaged, n, TORMUKAI_PERSON, 11, 0), 1);
    say_refusal("look_up_refusal", tormukai_look_up_refusal(second, b, first, n, TORMUKAI_FOLIO, 41, 0));
    say_refusal("look_up_refusal, a person", tormukai_look_up_refusal(second, b, first, n, TORMUKAI_PERSON, 41, 0));
}

static void searches(void)
{
    const uint32_t most = 4294967295;
    say("find_node", tormukai_find_node(first, n, TORMUKAI_CATEGORY, 22, 0), 1);
    say("find_node, not there", tormukai_find_node(first, n, TORMUKAI_DEED, 31, 0), 1);
    say("find_node, before all", tormukai_find_node(first, n, 0, 0, 0), 1);
    say("find_node, behind all", tormukai_find_node(first, n, most, most, most), 1);
    say("find_edge", tormukai_find_edge(first, n, TORMUKAI_EDGE_GRANT, 3, 4), 1);
    say("find_edge, not there", tormukai_find_edge(first, n, TORMUKAI_EDGE_GRANT, 3, 5), 1);
    say("find_edge, before all", tormukai_find_edge(first, n, 0, most, most), 1);
    say("find_edge, behind all", tormukai_find_edge(first, n, TORMUKAI_EDGE_APPLIES, most, 0), 1);
}

static TormukaiAnswer add_node(uint32_t type, uint32_t number, uint32_t variant, uint32_t offices, size_t room)
{
    return tormukai_add_node(first, n, type, number, variant, offices, out, room);
}

static TormukaiAnswer add_edge(uint32_t kind, uint32_t from, uint32_t to, uint32_t offices, size_t room)
{
    return tormukai_add_edge(first, n, kind, from, to, offices, out, room);
}

/* Each refusal by a row that has the next fault too, and in an output that is too short. */
static void additions(void)
{
    say("add_node", add_node(TORMUKAI_PERSON, 13, 0, 1, n + 4), n + 5);
    say("add_node, a word short", add_node(TORMUKAI_PERSON, 13, 0, 1, n + 3), 1);
    say("add_node, no type", add_node(5, 0, 0, 0, 0), 1);
    say("add_node, no number", add_node(TORMUKAI_DEED, 0, 1, 0, 0), 1);
    say("add_node, no variant", add_node(TORMUKAI_FOLIO, 41, 1, 2, 0), 1);
    say("add_node, no office", add_node(TORMUKAI_PERSON, 11, 0, 0, 0), 1);
    say("add_node, office 2", add_node(TORMUKAI_PERSON, 11, 0, 2, 0), 1);
    say("add_node, already there", add_node(TORMUKAI_PERSON, 11, 0, 1, 0), 1);
    say("add_edge", add_edge(TORMUKAI_EDGE_GRANT, 3, 5, 1, n + 4), n + 5);
    say("add_edge, a word short", add_edge(TORMUKAI_EDGE_GRANT, 3, 5, 1, n + 3), 1);
    say("add_edge, no kind", add_edge(6, 8, 8, 0, 0), 1);
    say("add_edge, no row", add_edge(TORMUKAI_EDGE_MEMBER, 0, 8, 0, 0), 1);
    say("add_edge, no types", add_edge(TORMUKAI_EDGE_WITHIN, 0, 0, 0, 0), 1);
    say("add_edge, within itself", add_edge(TORMUKAI_EDGE_WITHIN, 2, 2, 0, 0), 1);
    say("add_edge, no office", add_edge(TORMUKAI_EDGE_MEMBER, 0, 2, 0, 0), 1);
    say("add_edge, office 2", add_edge(TORMUKAI_EDGE_MEMBER, 0, 2, 2, 0), 1);
    say("add_edge, already there", add_edge(TORMUKAI_EDGE_MEMBER, 0, 2, 1, 0), 1);
}

/* 256 persons and 256 categories, and each person in eight of them: as many nodes and edges as a sheet can have. */
static void additions_to_full(void)
{
    static uint32_t full[TORMUKAI_SHEET_WORDS] = {1, 1, TORMUKAI_NODES, TORMUKAI_EDGES, 6, 6 + 4 * TORMUKAI_NODES};
    const size_t length = LENGTH(full);
    for (uint32_t i = 0; i < TORMUKAI_NODES; i++)
        memcpy(full + 6 + 4 * i, (uint32_t[]){1 + i / 256, 1 + i % 256, 0, 1}, 16);
    for (uint32_t i = 0; i < TORMUKAI_EDGES; i++)
        memcpy(full + 6 + 4 * (TORMUKAI_NODES + i), (uint32_t[]){1, i / 8, 256 + i % 8, 1}, 16);
    say("add_node, full", tormukai_add_node(full, length, TORMUKAI_FOLIO, 1, 0, 1, out, 0), 1);
    say("add_node, full, already there", tormukai_add_node(full, length, TORMUKAI_PERSON, 1, 0, 1, out, 0), 1);
    say("add_edge, full", tormukai_add_edge(full, length, TORMUKAI_EDGE_WITHIN, 256, 257, 1, out, 0), 1);
    say("add_edge, full, already there", tormukai_add_edge(full, length, TORMUKAI_EDGE_MEMBER, 0, 256, 1, out, 0), 1);
}

/* The listing of the second sheet, from its end to its start: 80 bytes. */
static const char typed[] = "applies 31/2 42\ngrant 21 31/2\nin 11 21\nfolio 42\ndeed 31/2\ncategory 21\nperson 11\n";

static TormukaiListing read_text(const char *text, size_t length, size_t room)
{
    return tormukai_read_listing((const uint8_t *)text, length, out, room);
}

static TormukaiListing read_whole(const char *text)
{
    return read_text(text, strlen(text), 0);
}

static void listings(void)
{
    const size_t b = LENGTH(second);
    const size_t length = sizeof typed - 1;
    say_listing("read_listing", read_text(typed, length, b), b + 1);
    say_listing("read_listing, no bytes", read_text(typed, 0, 6), 7);
    say_listing("read_listing, no line feed", read_text(typed, length - 1, b), 1);
    say_listing("read_listing, a word short", read_text(typed, length, b - 1), 1);
    say_listing("read_listing, no line", read_whole("person 11\nperson 0x\n"), 1);
    say_listing("read_listing, no number", read_whole("person 11\nperson 0\nx\n"), 1);
    say_listing("read_listing, a row twice", read_whole("person 11\nperson 12\nperson 11\n"), 1);
    say_listing("read_listing, within itself", read_whole("category 21\nwithin 21 21\n"), 1);
    say_listing("read_listing, no node", read_whole("person 11\nin 11 21\n"), 1);
    say_listing("write_listing", tormukai_write_listing(second, b, out_bytes, 80), 21);
    say_listing("write_listing, a byte short", tormukai_write_listing(second, b, out_bytes, 79), 1);
    say_listing("write_listing, two offices", tormukai_write_listing(joint, 70, out_bytes, 0), 1);
    say_listing("write_listing, damaged", tormukai_write_listing(damaged, n, out_bytes, 0), 1);
}

static void say_line(const char *line, size_t length)
{
    TormukaiLine l = tormukai_read_line((const uint8_t *)line, length);
    printf("read_line, %zu bytes: %" PRIu32 " %" PRIu32, length, l.fault, l.form);
    printf(" %" PRIu32 " %" PRIu32 " %" PRIu32 "\n", l.first, l.second, l.third);
}

/* The last three: a line of which fewer bytes are lent, one with its line feed, and none. */
static void single_lines(void)
{
    static const char *const lines[] = {
        "person 11", "category 21", "deed 31/1", "folio 41",
        "in 11 21", "within 21 22", "grant 22 31/1", "ban 21 31/2", "applies 31/1 41",
        "deed 31/0", "applies 4294967295/4294967294 4294967293", "within 21 21",
        "person 0", "deed 31/4294967296", "grant 0 31", "x",
    };
    for (size_t i = 0; i < LENGTH(lines); i++)
        say_line(lines[i], strlen(lines[i]));
    say_line("person 11", 8);
    say_line("person 11\n", 10);
    say_line("person 11", 0);
}

/* One line more than a sheet can have of nodes. */
static void large_listing(void)
{
    static char text[512 * 12];
    size_t length = 0;
    for (int i = 1; i <= 513; i++)
        length += (size_t)snprintf(text + length, sizeof text - length, "folio %d\n", i);
    say_listing("read_listing, 513 nodes", read_text(text, length, LENGTH(out)), 1);
}

/* ---- The duty desk: the joint sheet, of which office 1 bans person 11 from deed 31 on folio 42, and office 2 grants it ---- */

enum { START = TORMUKAI_ROW_START, END = TORMUKAI_ROW_END, QUESTION = TORMUKAI_ROW_QUESTION, TIMEOUT = 60 };
static TormukaiWatch table;

/* The answer, the table's last minute, and each of its places that is not all zero with its number and its four words. */
static void say_step(const char *name, TormukaiAnswer a)
{
    printf("%s: %" PRIu32 " %" PRIu32 " %" PRIu32, name, a.number, a.sheet, a.row);
    printf(" %" PRIu32 " %" PRIu32 "; %" PRIu32, a.value, a.count, table.last);
    for (size_t i = 0; i < TORMUKAI_PLACES; i++) {
        const TormukaiEmergency *place = &table.places[i];
        if (place->mark == 0 && place->folio == 0 && place->latest == 0 && place->earlier == 0)
            continue;
        printf("; %zu: %" PRIu32 " %" PRIu32, i, place->mark, place->folio);
        printf(" %" PRIu32 " %" PRIu32, place->latest, place->earlier);
    }
    printf("\n");
}

static TormukaiAnswer step(uint32_t minute, uint32_t kind, uint32_t folio, uint32_t person, uint32_t deed)
{
    const uint32_t row[] = {minute, kind, folio, person, deed};
    return tormukai_step(&table, joint, LENGTH(joint), TIMEOUT, row, LENGTH(row));
}

/* The table is zero at first, as a static one is. */
static void steps(void)
{
    say_step("step, a question", step(10, QUESTION, 42, 11, 31));
    say_step("step, a start", step(20, START, 42, 0, 0));
    say_step("step, its own minute", step(20, QUESTION, 42, 11, 31));
    say_step("step, the next minute", step(21, QUESTION, 42, 11, 31));
    say_step("step, a second start", step(50, START, 42, 0, 0));
    say_step("step, the second start's minute", step(50, QUESTION, 42, 11, 31));
    say_step("step, unknown to office 2", step(50, QUESTION, 42, 12, 31));
    say_step("step, unknown to both", step(50, QUESTION, 42, 99, 31));
    say_step("step, folio 0", step(60, START, 0, 0, 0));
    say_step("step, an end", step(60, END, 42, 0, 0));
    say_step("step, the first empty place", step(60, START, 41, 0, 0));
    say_step("step, the last minute of two", step(119, QUESTION, 41, 11, 31));
    say_step("step, both expired", step(120, QUESTION, 41, 11, 31));
}

/* A refused row leaves the table as it was, whatever else is wrong with the row. */
static void refused_steps(void)
{
    static const uint32_t row[] = {130, START, 7, 0, 0, 0};
    say_step("step, held before", step(130, START, 5, 0, 0));
    say_step("step, a lower minute", step(129, START, 7, 0, 0));
    say_step("step, a lower minute and no kind", step(129, 4, 7, 0, 0));
    say_step("step, no kind", step(131, 0, 7, 0, 0));
    say_step("step, a start with a person", step(131, START, 7, 1, 0));
    say_step("step, an end with a deed", step(131, END, 5, 0, 1));
    say_step("step, no words", tormukai_step(&table, joint, LENGTH(joint), TIMEOUT, row, 0));
    say_step("step, four words", tormukai_step(&table, joint, LENGTH(joint), TIMEOUT, row, 4));
    say_step("step, six words", tormukai_step(&table, joint, LENGTH(joint), TIMEOUT, row, 6));
    say_step("step, one office", tormukai_step(&table, first, n, TIMEOUT, row, 5));
    say_step("step, damaged", tormukai_step(&table, damaged, n, TIMEOUT, row, 0));
}

/* Tables that no rows lead to: a folio in two places, a mark of its own, words in an empty place, a last minute above all. */
static void made_up_tables(void)
{
    table = (TormukaiWatch){200, {[3] = {1, 7, 150, 150}, [30] = {9, 7, 0, 0}, [31] = {0, 7, 8, 9}}};
    say_step("step, a folio twice", step(0, 9, 7, 1, 1));
    say_step("step, a folio twice, one office", tormukai_step(&table, first, n, TIMEOUT, first, 0));
    table.places[3].mark = 0;
    say_step("step, a folio once", step(300, START, 6, 0, 0));
    table = (TormukaiWatch){0, {[5] = {4294967295, 42, 500, 4294967295}}};
    say_step("step, a later minute", step(400, QUESTION, 42, 11, 31));
    table.places[5] = (TormukaiEmergency){8, 42, 500, 399};
    say_step("step, an earlier minute", step(400, START, 42, 0, 0));
    say_step("step, open by the earlier", step(400, QUESTION, 42, 11, 31));
    table.last = 4294967295;
    say_step("step, after the last minute", step(4294967294, END, 42, 0, 0));
}

/* 32 folios are held, and no more. */
static void full_tables(void)
{
    table = (TormukaiWatch){0, {{0, 0, 0, 0}}};
    for (uint32_t folio = 0; folio < TORMUKAI_PLACES; folio++)
        if (step(10, START, folio, 0, 0).number != 0)
            printf("folio %" PRIu32 " was refused\n", folio);
    const TormukaiWatch full = table;
    const TormukaiAnswer a = step(69, START, 32, 0, 0);
    printf("step, a 33rd folio: %" PRIu32 " %" PRIu32 " %" PRIu32, a.number, a.value, a.count);
    printf("; %d\n", memcmp(&full, &table, sizeof table));
    say_step("step, 32 expired", step(70, START, 32, 0, 0));
    printf("words of a table: %zu\n", sizeof table / sizeof table.last);
}

static void say_trace(const char *name, TormukaiTraceReply t, size_t shown)
{
    printf("%s: %" PRIu32 " %" PRIu32 " %" PRIu32 " %zu;", name, t.number, t.sheet, t.row, t.count);
    say_words(shown);
}

static TormukaiTraceReply trace(const uint32_t *rows, size_t length, size_t room)
{
    return tormukai_trace(joint, LENGTH(joint), TIMEOUT, rows, length, out, room);
}

static void traces(void)
{
    static const uint32_t rows[] = {10, QUESTION, 42, 11, 31, 20, START, 42, 0, 0, 21, QUESTION, 42, 11, 31,
                                    80, QUESTION, 41, 99, 31, 79, 4, 1, 1, 1, 90, START, 42, 1, 0};
    say_trace("trace", trace(rows, 20, 3), 4);
    say_trace("trace, more room", trace(rows, 20, LENGTH(out)), 4);
    say_trace("trace, a word short", trace(rows, 20, 2), 3);
    say_trace("trace, no rows", trace(rows, 0, 0), 1);
    say_trace("trace, no questions", trace(rows + 5, 5, 0), 1);
    say_trace("trace, a lower minute", trace(rows, 25, 0), 1);
    say_trace("trace, a spare word", trace(rows + 25, 5, 0), 1);
    say_trace("trace, a row cut short", trace(rows, 24, 0), 1);
    say_trace("trace, one office", tormukai_trace(first, n, TIMEOUT, rows, 1, out, 0), 1);
    say_trace("trace, damaged", tormukai_trace(damaged, n, TIMEOUT, rows, 1, out, 0), 1);
}

/* The damaged sheet is refused by each, before an output that is too short or a number that is not there. */
static void damages(void)
{
    say_refusal("check", tormukai_check(first, n));
    say_refusal("check, damaged", tormukai_check(damaged, n));
    say("sheet_answer, damaged", tormukai_sheet_answer(damaged, n, 9, 0, 0, 0), 1);
    say("sheet_joint_answer, damaged", tormukai_sheet_joint_answer(damaged, n, 9, 0, 0, 0), 1);
    say("sheet_witness, damaged", tormukai_sheet_witness(damaged, n, 9, TORMUKAI_BAN, 0, 0, 0, out, 0), 1);
    say("is_path, damaged", tormukai_is_path(damaged, n, 9, TORMUKAI_BAN, 0, 0, 0, first, 0), 1);
    say("persons_in_category, damaged", tormukai_persons_in_category(damaged, n, 9, 0, out, 0), 1);
    say("persons_with_grant, damaged", tormukai_persons_with_grant(damaged, n, 9, 0, 0, out, 0), 1);
    say("folios_out_of_reach, damaged", tormukai_folios_out_of_reach(damaged, n, 9, out, 0), 1);
    say("least_triple, damaged", tormukai_least_triple(damaged, n, 9, out, 0), 1);
    say("least_holder, damaged", tormukai_least_holder(damaged, n, 9, 0, 0, out, 0), 1);
    say("redundant_edges, damaged", tormukai_redundant_edges(damaged, n, 9, out, 0), 1);
    say("take_out, damaged", tormukai_take_out(damaged, n, 9, out, 0), 1);
    say("look_up, damaged", tormukai_look_up(damaged, n, damaged, 0, 9, 0, 0), 1);
    say("find_node, damaged", tormukai_find_node(damaged, n, 9, 0, 0), 1);
    say("find_edge, damaged", tormukai_find_edge(damaged, n, 9, 0, 0), 1);
    say("add_node, damaged", tormukai_add_node(damaged, n, 9, 0, 0, 0, out, 0), 1);
    say("add_edge, damaged", tormukai_add_edge(damaged, n, 9, 0, 0, 0, out, 0), 1);
    say_joined("join, damaged", tormukai_join(first, n, damaged, n, out, 0), 1);
    say_refusal("look_up_refusal, damaged", tormukai_look_up_refusal(first, n, damaged, n, 9, 0, 0));
}

static void texts(void)
{
    for (uint32_t number = 0; number <= 60; number++)
        printf("%" PRIu32 " %s\n", number, tormukai_refusal_text(number));
    printf("%" PRIu32 " %s\n", (uint32_t)4294967295, tormukai_refusal_text(4294967295));
}

#define SAY_CONSTANT(name) printf("%s %d\n", #name, TORMUKAI_REFUSED_##name)

static void constants(void)
{
    SAY_CONSTANT(LISTING_LINE);
    SAY_CONSTANT(LISTING_NUMBER);
    SAY_CONSTANT(LISTING_REPEATED);
    SAY_CONSTANT(LISTING_NO_NODE);
    SAY_CONSTANT(FILE_LENGTH);
    SAY_CONSTANT(UNDER_SIX_WORDS);
    SAY_CONSTANT(FORM);
    SAY_CONSTANT(OFFICE_COUNT);
    SAY_CONSTANT(COUNTS);
    SAY_CONSTANT(OFFSET_OR_LENGTH);
    SAY_CONSTANT(NODE_TYPE);
    SAY_CONSTANT(NUMBER_OR_VARIANT);
    SAY_CONSTANT(NODE_OFFICES);
    SAY_CONSTANT(NODE_REPEATED);
    SAY_CONSTANT(NODE_ORDER);
    SAY_CONSTANT(EDGE_KIND);
    SAY_CONSTANT(EDGE_END);
    SAY_CONSTANT(END_TYPES);
    SAY_CONSTANT(WITHIN_ITSELF);
    SAY_CONSTANT(EDGE_OFFICES);
    SAY_CONSTANT(EDGE_REPEATED);
    SAY_CONSTANT(EDGE_ORDER);
    SAY_CONSTANT(OFFICE);
    SAY_CONSTANT(RULE);
    SAY_CONSTANT(UNKNOWN_PERSON);
    SAY_CONSTANT(UNKNOWN_DEED);
    SAY_CONSTANT(UNKNOWN_CATEGORY);
    SAY_CONSTANT(UNKNOWN_FOLIO);
    SAY_CONSTANT(EQUAL_DEEDS);
    SAY_CONSTANT(IN_NEITHER_SHEET);
    SAY_CONSTANT(NOT_ONE_OFFICE);
    SAY_CONSTANT(UNION_NODES);
    SAY_CONSTANT(UNION_EDGES);
    SAY_CONSTANT(FOLIO_TWICE);
    SAY_CONSTANT(MINUTE);
    SAY_CONSTANT(TRACE_ROW);
    SAY_CONSTANT(HELD_FOLIOS);
    SAY_CONSTANT(NO_SUCH_PATH);
    SAY_CONSTANT(OUTPUT_TOO_SHORT);
}

int main(void)
{
    tormukai_join(first, n, second, LENGTH(second), joint, LENGTH(joint));
    memcpy(damaged, first, sizeof damaged);
    damaged[TORMUKAI_HEADER_WORDS + TORMUKAI_NODE_WORDS * 3] = 9;
    memset(out, 0xff, sizeof out);
    printf("version: %s\n", TORMUKAI_VERSION);
    questions_of_a_file();
    files_and_words();
    joins_of_files();
    questions_of_a_sheet();
    lists();
    two_sheets();
    searches();
    additions();
    additions_to_full();
    listings();
    single_lines();
    large_listing();
    steps();
    refused_steps();
    made_up_tables();
    full_tables();
    traces();
    damages();
    texts();
    constants();
    return fflush(stdout) == 0 ? 0 : 1;
}
