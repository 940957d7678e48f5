/* How much stack an entry of the header takes: stack NAME BYTES; without words it prints the names.
 * The entry is called on a stack of its own of just so many bytes, painted before, with a page below it that may not be touched:
 * an entry that needs more ends the program by a fault. It is called on full sheets, on one with room for a row and on damaged
 * ones, on their listings and on wrong ones, on a duty desk's full table, for what there is and for what there is not. Printed is
 * the most that any call changed of the paint, the call itself included, then how many calls were answered and how many refused. */
#define _DEFAULT_SOURCE /* MAP_ANONYMOUS */
#include "tormukai.h"

#include <stdbool.h>
#include <stdio.h>
#include <stdlib.h>
#include <string.h>
#include <sys/mman.h>

#define LENGTH(words) (sizeof(words) / sizeof *(words))
enum { MARK = 0xa5, GUARD = 65536, KINDS = 6 };

typedef enum { CHAIN, RING, STAR, DENSE } Shape;

typedef struct Sheet {
    uint32_t words[TORMUKAI_SHEET_WORDS + 1];
    size_t bytes; /* of its file; not always those of whole words */
} Sheet;

/* ---- Sheets ---- */

/* How many rows of each type a full sheet has, and where they begin. */
enum { PERSONS = 20, CATEGORIES = 470, DEEDS = 12, FOLIOS = 10 };
enum { CATEGORY = PERSONS, DEED = CATEGORY + CATEGORIES, FOLIO = DEED + DEEDS };
enum { FIRST = CATEGORY, LAST = DEED - 1 };

static bool drawn[KINDS][TORMUKAI_NODES][TORMUKAI_NODES];
static uint32_t edges;

static void draw(uint32_t kind, uint32_t from, uint32_t to)
{
    if (edges < TORMUKAI_EDGES && !drawn[kind][from][to]) {
        drawn[kind][from][to] = true;
        edges++;
    }
}

static void contain(Shape shape)
{
    for (uint32_t at = FIRST; at < LAST && shape != STAR; at++)
        draw(TORMUKAI_EDGE_WITHIN, at, at + 1);
    if (shape == RING)
        draw(TORMUKAI_EDGE_WITHIN, LAST, FIRST);
    for (uint32_t at = FIRST + 1; at <= LAST && shape == STAR; at++) {
        draw(TORMUKAI_EDGE_WITHIN, at, FIRST);
        draw(TORMUKAI_EDGE_WITHIN, FIRST, at);
    }
}

/* The first person's grants lead from end to end of the categories. Deeds 1 and 2 are both granted on folio 1, deed 1 is also
 * banned there, and the last folio is out of reach. */
static void give_rights(void)
{
    draw(TORMUKAI_EDGE_MEMBER, 0, FIRST);
    draw(TORMUKAI_EDGE_MEMBER, 1, LAST);
    for (uint32_t deed = DEED; deed < FOLIO; deed++) {
        draw(TORMUKAI_EDGE_GRANT, LAST, deed);
        draw(TORMUKAI_EDGE_APPLIES, deed, FOLIO + (deed - DEED) / 4);
    }
    draw(TORMUKAI_EDGE_BAN, FIRST, DEED);
}

/* The rows that are left: in a dense sheet containments that lead back, in the others members and bans all along the line. */
static void fill(Shape shape)
{
    for (uint32_t to = FIRST; to < LAST && shape == DENSE; to++)
        for (uint32_t from = to + 1; from <= LAST; from++)
            draw(TORMUKAI_EDGE_WITHIN, from, to);
    for (uint32_t category = FIRST; category <= LAST; category++) {
        draw(TORMUKAI_EDGE_MEMBER, 2 + category % (PERSONS - 2), category);
        for (uint32_t deed = DEED + 6; deed < FOLIO; deed++)
            draw(TORMUKAI_EDGE_BAN, category, deed);
    }
}

static size_t write_nodes(uint32_t *words, uint32_t base, uint32_t offices)
{
    for (uint32_t row = 0; row < TORMUKAI_NODES; row++, words += 4) {
        const uint32_t type = row < CATEGORY ? 1 : row < DEED ? 2 : row < FOLIO ? 3 : 4;
        words[0] = type;
        words[1] = base + (type == 3 ? (row - DEED) / 2 : row);
        words[2] = type == 3 ? (row - DEED) % 2 : 0;
        words[3] = offices;
    }
    return 4 * TORMUKAI_NODES;
}

static size_t write_edges(uint32_t *words, uint32_t offices)
{
    const uint32_t *const start = words;
    for (uint32_t kind = 1; kind < KINDS; kind++)
        for (uint32_t from = 0; from < TORMUKAI_NODES; from++)
            for (uint32_t to = 0; to < TORMUKAI_NODES; to++)
                if (drawn[kind][from][to]) {
                    const uint32_t row[] = {kind, from, to, offices};
                    memcpy(words, row, sizeof row);
                    words += LENGTH(row);
                }
    return (size_t)(words - start);
}

/* A sheet of 512 nodes, numbered from the base on, and 2,048 edges; with no rights there is nothing to be found. */
static void make_full(Sheet *sheet, Shape shape, uint32_t base, uint32_t office_count, bool rights)
{
    const uint32_t header[] = {1, office_count, TORMUKAI_NODES, TORMUKAI_EDGES, 6, 6 + 4 * TORMUKAI_NODES};
    const uint32_t offices = office_count == 2 ? 3 : 1;
    memset(drawn, 0, sizeof drawn);
    edges = 0;
    if (rights)
        give_rights();
    contain(shape);
    fill(shape);
    size_t length = LENGTH(header);
    memcpy(sheet->words, header, sizeof header);
    length += write_nodes(sheet->words + length, base, offices);
    length += write_edges(sheet->words + length, offices);
    if (length != TORMUKAI_SHEET_WORDS)
        exit(3);
    sheet->bytes = 4 * length;
}

/* A full sheet of one office without its last node, which no edge has for an end, and without its last edge: a row of each can
 * be added. */
static void make_short(Sheet *sheet, const Sheet *full)
{
    const uint32_t nodes = TORMUKAI_NODES - 1;
    const uint32_t header[] = {1, 1, nodes, TORMUKAI_EDGES - 1, 6, 6 + 4 * nodes};
    memcpy(sheet->words, header, sizeof header);
    memcpy(sheet->words + 6, full->words + 6, 16 * nodes);
    memcpy(sheet->words + 6 + 4 * nodes, full->words + 6 + 4 * TORMUKAI_NODES, 16 * (TORMUKAI_EDGES - 1));
    sheet->bytes = full->bytes - 2 * 16;
}

/* Each is a full sheet with one other word: wrong headers, nodes and edges, first rows and last ones. */
static const struct {
    size_t at;
    uint32_t word;
} damages[] = {{0, 2},     {1, 3},     {2, 513},    {4, 7},     {6, 9},     {7, 0},        {9, 4},     {11, 1},    {15, 1},
               {2050, 9},  {2051, 1},  {2054, 9},   {2055, 600}, {2056, 3}, {2057, 4},     {2059, 0},  {2060, 20}, {10242, 6},
               {10243, 511}, {10244, 1}, {10245, 4}, {10245, 0}};

/* The sister ships' sheets A and B, which can be joined and share a part of their rows. */
static const uint32_t sister_a[] = {1, 1, 8, 7, 6, 38, 1, 11, 0, 1, 1, 12, 0, 1, 2, 21, 0, 1, 2, 22, 0, 1, 3,
                                    31, 1, 1, 3, 31, 2, 1, 4, 41, 0, 1, 4, 42, 0, 1, 1, 0, 2, 1, 1, 1, 3, 1,
                                    2, 2, 3, 1, 3, 3, 4, 1, 4, 2, 5, 1, 5, 4, 6, 1, 5, 5, 7, 1};
static const uint32_t sister_b[] = {1, 1, 4, 3, 6, 22, 1, 11, 0, 1, 2, 21, 0, 1, 3, 31, 2,
                                    1, 4, 42, 0, 1, 1, 0, 1, 1, 3, 1, 2, 1, 5, 2, 3, 1};

#define HIGH 4294966000
enum { SHORT = 6, FULL = SHORT + 1, SISTER_A = FULL, SISTER_B, CUT, LENGTHS = 6, DAMAGED = CUT + LENGTHS };
enum { SHEETS = DAMAGED + LENGTH(damages) };
static Sheet sheets[SHEETS];

static void make_sheets(void)
{
    static const size_t lengths[LENGTHS] = {0, 20, 24, 40980, 40983, 40985};
    make_full(&sheets[0], CHAIN, 1, 1, true);
    make_full(&sheets[1], RING, 1, 2, true);
    make_full(&sheets[2], STAR, 1, 1, true);
    make_full(&sheets[3], DENSE, 1, 2, true);
    make_full(&sheets[4], RING, 1, 1, false);
    make_full(&sheets[5], CHAIN, HIGH, 1, true);
    make_short(&sheets[SHORT], &sheets[0]);
    memcpy(sheets[SISTER_A].words, sister_a, sizeof sister_a);
    sheets[SISTER_A].bytes = sizeof sister_a;
    memcpy(sheets[SISTER_B].words, sister_b, sizeof sister_b);
    sheets[SISTER_B].bytes = sizeof sister_b;
    for (size_t i = 0; i < LENGTHS; i++) {
        sheets[CUT + i] = sheets[0];
        sheets[CUT + i].bytes = lengths[i];
    }
    for (size_t i = 0; i < LENGTH(damages); i++) {
        Sheet *const damaged = &sheets[DAMAGED + i];
        *damaged = sheets[0];
        damaged->words[damages[i].at] = damages[i].word;
    }
}

/* ---- Listings ---- */

typedef struct Listing {
    uint8_t bytes[TORMUKAI_LISTING_BYTES + 64]; /* and a line or two more */
    size_t length;
} Listing;

/* One for each sheet, by its place: the sheet's own, and of a sheet that has none that of sister ship A or of the first full
 * sheet with something added. */
static Listing listings[SHEETS];

/* Put before a listing, or behind it: not a line, no number, a line cut short, a row twice, a category within itself, an end
 * without a node, the longest lines. A full sheet's listing gets a line too many by it; reading that takes long, so there are
 * few. */
static const struct {
    const char *before;
    const char *behind;
    size_t to;
} additions[] = {
    {"x\n", "", SISTER_A},
    {"\n", "", SISTER_A},
    {"person 0\n", "", SISTER_A},
    {"", "applies 31/1 42", SISTER_A},
    {"folio 42\n", "", SISTER_A},
    {"", "person 1\n", 0},
    {"within 4294967295 4294967295\n", "", SISTER_A},
    {"", "within 21 21\n", SISTER_A},
    {"in 4294967295 4294967295\n", "", SISTER_A},
    {"", "applies 4294967295/4294967295 4294967295\n", SISTER_A},
    {"person 4294967295\n", "", 0},
    {"", "deed 4294967295/4294967295\n", SISTER_A},
    {"", "grant 4294967295 4294967295/00000000000000000000\n", SISTER_A},
};

static void put(Listing *listing, const void *bytes, size_t length)
{
    memcpy(listing->bytes + listing->length, bytes, length);
    listing->length += length;
}

static void make_listings(void)
{
    for (size_t i = 0; i < SHEETS; i++)
        listings[i].length =
            tormukai_write_listing(sheets[i].words, sheets[i].bytes / 4, listings[i].bytes, TORMUKAI_LISTING_BYTES).count;
    for (size_t i = 0; i < SHEETS; i++) {
        Listing *const listing = &listings[i];
        const size_t which = i % LENGTH(additions);
        const Listing *const right = &listings[additions[which].to];
        if (listing->length != 0)
            continue;
        put(listing, additions[which].before, strlen(additions[which].before));
        put(listing, right->bytes, right->length);
        put(listing, additions[which].behind, strlen(additions[which].behind));
    }
}

/* ---- Questions ---- */

/* What is asked of a sheet: numbers of nodes that stand in it, or not. */
typedef struct Question {
    uint32_t office; /* or rule */
    uint32_t kind;
    uint32_t person;
    uint32_t deed;
    uint32_t other;
    uint32_t folio;
    uint32_t category;
    size_t room; /* words, or bytes of a file */
} Question;

static const Question questions[] = {
    {1, 0, 1, 1, 2, FOLIO + 1, LAST + 1, 50000},         {1, 1, 2, 1, 3, FOLIO + 1, FIRST + 1, 50000},
    {2, 1, 2, 1, 2, FOLIO + 1, FIRST + 1, 50000},        {3, 0, 1, 1, 6, FOLIO + 1, LAST + 1, 50000},
    {1, 0, 3, 4, 1, FOLIO + FOLIOS, 999, 50000},         {1, 0, 1, 1, 1, FOLIO + 1, LAST + 1, 0},
    {1, 0, 999, 1, 2, FOLIO + 1, LAST + 1, 3},           {1, 0, 1, 999, 2, FOLIO + 1, LAST + 1, 1},
    {1, 0, 1, 1, 999, 999, LAST + 1, 1},                 {1, 0, HIGH, HIGH, HIGH + 1, HIGH + FOLIO, HIGH + LAST, 50000},
};

/* ---- Traces ---- */

/* Made anew for each call, since a step changes the table. 31 folios that no sheet has are held, and the folio that is asked for
 * from two minutes: the table is full, and at minute 3 the folio is open. The trace's rows lead to that table and go on. */
enum { OTHERS = TORMUKAI_PLACES - 1, TIMEOUT = 60 };
static TormukaiWatch table;
static uint32_t rows[TORMUKAI_ROW_WORDS * (OTHERS + 8)];
static size_t rows_length;

static void put_row(uint32_t minute, uint32_t kind, uint32_t folio, uint32_t person, uint32_t deed)
{
    const uint32_t row[] = {minute, kind, folio, person, deed};
    memcpy(rows + rows_length, row, sizeof row);
    rows_length += LENGTH(row);
}

static void make_table(const Question *question)
{
    table.last = 2;
    for (uint32_t i = 0; i < OTHERS; i++)
        table.places[i] = (TormukaiEmergency){1, 2000 + i, 2, 2};
    table.places[OTHERS] = (TormukaiEmergency){1, question->folio, 2, 1};
}

static void make_trace(const Question *question)
{
    rows_length = 0;
    put_row(1, TORMUKAI_ROW_START, question->folio, 0, 0);
    for (uint32_t i = 0; i < OTHERS; i++)
        put_row(2, TORMUKAI_ROW_START, 2000 + i, 0, 0);
    put_row(2, TORMUKAI_ROW_START, question->folio, 0, 0);
    put_row(3, TORMUKAI_ROW_QUESTION, question->folio, question->person, question->deed);
    put_row(3, TORMUKAI_ROW_QUESTION, question->folio, question->person, 999);
    put_row(4, TORMUKAI_ROW_END, question->folio, 0, 0);
    put_row(5, TORMUKAI_ROW_QUESTION, question->folio, question->person, question->deed);
    put_row(6, TORMUKAI_ROW_START, 3000, 0, 0);
    put_row(6, TORMUKAI_ROW_START, question->kind == 0 ? 3000 : 3001, 0, 0);
}

/* The rows that a step is lent by turns, as places in the trace: a question that is open, an end, a folio too many. */
static const size_t turns[] = {OTHERS + 2, OTHERS + 4, OTHERS + 2, OTHERS + 6};

static const Sheet *first;
static const Sheet *second;
static const Question *asked;
static uint32_t path[2 * (TORMUKAI_NODES + 1)];
static size_t path_length;
static uint32_t out[50000];
static volatile uint32_t got;

/* The machine is x86-64, so a sheet's words in memory are the bytes of its file. */
#define FILE_OF(sheet) (const uint8_t *)(sheet)->words, (sheet)->bytes
#define WORDS_OF(sheet) (sheet)->words, (sheet)->bytes / 4
#define RIGHT asked->person, asked->deed, asked->folio
#define BYTES_OUT (uint8_t *)out, asked->room
#define WORDS_OUT out, asked->room
#define LISTING_OF(sheet) listings[(sheet) - sheets].bytes, listings[(sheet) - sheets].length
#define LISTING_OUT (uint8_t *)out, 2 * asked->room

#define ENTRY(name, ...) \
    static void call_##name(void) { got = tormukai_##name(__VA_ARGS__).number; }

ENTRY(words_of_file, FILE_OF(first), WORDS_OUT)
ENTRY(file_of_words, WORDS_OF(first), BYTES_OUT)
ENTRY(answer, FILE_OF(first), asked->office, RIGHT)
ENTRY(joint_answer, FILE_OF(first), asked->office, RIGHT)
ENTRY(witness, FILE_OF(first), asked->office, asked->kind, RIGHT, BYTES_OUT)
ENTRY(check_file, FILE_OF(first))
ENTRY(join_files, FILE_OF(first), FILE_OF(second), BYTES_OUT)
ENTRY(check, WORDS_OF(first))
ENTRY(sheet_answer, WORDS_OF(first), asked->office, RIGHT)
ENTRY(sheet_joint_answer, WORDS_OF(first), asked->office, RIGHT)
ENTRY(sheet_witness, WORDS_OF(first), asked->office, asked->kind, RIGHT, WORDS_OUT)
ENTRY(is_path, WORDS_OF(first), asked->office, asked->kind, RIGHT, path, path_length)
ENTRY(persons_in_category, WORDS_OF(first), asked->office, asked->category, WORDS_OUT)
ENTRY(persons_with_grant, WORDS_OF(first), asked->office, asked->deed, asked->folio, WORDS_OUT)
ENTRY(folios_out_of_reach, WORDS_OF(first), asked->office, WORDS_OUT)
ENTRY(least_triple, WORDS_OF(first), asked->office, WORDS_OUT)
ENTRY(least_holder, WORDS_OF(first), asked->office, asked->deed, asked->other, WORDS_OUT)
ENTRY(redundant_edges, WORDS_OF(first), asked->office, WORDS_OUT)
ENTRY(join, WORDS_OF(first), WORDS_OF(second), WORDS_OUT)
ENTRY(take_out, WORDS_OF(first), asked->office, WORDS_OUT)
ENTRY(look_up, WORDS_OF(first), WORDS_OF(second), 1, asked->person, 0)
ENTRY(look_up_refusal, WORDS_OF(first), WORDS_OF(second), 1, asked->person, 0)

/* A membership that no sheet has: row r of a full sheet has number r + 1. And a person whom no sheet has. */
#define MEMBERSHIP 1, asked->person - 1, asked->category - 1
ENTRY(find_node, WORDS_OF(first), 1, asked->person, 0)
ENTRY(find_edge, WORDS_OF(first), MEMBERSHIP)
ENTRY(add_node, WORDS_OF(first), 1, 1000 + asked->person, 0, 1, WORDS_OUT)
ENTRY(add_edge, WORDS_OF(first), MEMBERSHIP, 1, WORDS_OUT)

#define ROW_OF_TURN rows + TORMUKAI_ROW_WORDS * turns[(size_t)(asked - questions) % LENGTH(turns)], TORMUKAI_ROW_WORDS
ENTRY(step, &table, WORDS_OF(first), TIMEOUT, ROW_OF_TURN)
ENTRY(trace, WORDS_OF(first), TIMEOUT, rows, rows_length, WORDS_OUT)

ENTRY(read_listing, LISTING_OF(first), WORDS_OUT)
ENTRY(write_listing, WORDS_OF(first), LISTING_OUT)

/* A listing's first line and, where that is right, its last. */
static void call_read_line(void)
{
    const Listing *const listing = &listings[first - sheets];
    const uint8_t *const end = memchr(listing->bytes, '\n', listing->length);
    const size_t whole = listing->length - (listing->bytes[listing->length - 1] == '\n' ? 1 : 0);
    size_t last = whole;
    while (last > 0 && listing->bytes[last - 1] != '\n')
        last--;
    got = tormukai_read_line(listing->bytes, (size_t)(end - listing->bytes)).fault;
    if (got == 0)
        got = tormukai_read_line(listing->bytes + last, whole - last).fault;
}

static void call_refusal_text(void)
{
    const char *const text = tormukai_refusal_text(asked->person);
    got = strcmp(text, "not in the table of refusals") == 0 ? 0 : asked->person;
}

/* Takes 10,000 bytes and touches the lowest alone: what the test of this test measures. */
static volatile size_t lowest;
static void call_known(void)
{
    volatile uint8_t taken[10000];
    taken[lowest] = 1;
    got = taken[lowest];
}

#define LISTED(name) {"tormukai_" #name, call_##name}
static const struct {
    const char *name;
    void (*call)(void);
} entries[] = {
    LISTED(refusal_text), LISTED(words_of_file), LISTED(file_of_words), LISTED(answer), LISTED(joint_answer), LISTED(witness),
    LISTED(check_file), LISTED(join_files), LISTED(check), LISTED(sheet_answer), LISTED(sheet_joint_answer),
    LISTED(sheet_witness), LISTED(is_path), LISTED(persons_in_category), LISTED(persons_with_grant),
    LISTED(folios_out_of_reach), LISTED(least_triple), LISTED(least_holder), LISTED(redundant_edges), LISTED(join),
    LISTED(take_out), LISTED(look_up), LISTED(look_up_refusal), LISTED(find_node), LISTED(find_edge), LISTED(add_node),
    LISTED(add_edge), LISTED(read_listing), LISTED(write_listing), LISTED(read_line), LISTED(step), LISTED(trace),
    LISTED(known),
};

/* ---- The painted stack ---- */

static uint8_t *stack;
static size_t stack_bytes;

/* The stack ends where the pages that may not be touched begin, and so has just as many bytes as were asked for. */
static void make_stack(size_t bytes)
{
    const size_t pages = (bytes + 4095) / 4096 * 4096;
    uint8_t *const all = mmap(NULL, GUARD + pages, PROT_READ | PROT_WRITE, MAP_PRIVATE | MAP_ANONYMOUS, -1, 0);
    if (all == MAP_FAILED || mprotect(all, GUARD, PROT_NONE) != 0)
        exit(3);
    stack = all + GUARD;
    stack_bytes = bytes / 16 * 16;
    memset(stack, MARK, stack_bytes);
}

static void call_on_stack(void (*call)(void))
{
    __asm__ volatile("movq %%rsp, %%rbx\n\t"
                     "movq %0, %%rsp\n\t"
                     "call *%1\n\t"
                     "movq %%rbx, %%rsp"
                     :
                     : "r"(stack + stack_bytes), "r"(call)
                     : "rax", "rbx", "rcx", "rdx", "rsi", "rdi", "r8", "r9", "r10", "r11", "xmm0", "xmm1", "xmm2", "xmm3",
                       "xmm4", "xmm5", "xmm6", "xmm7", "xmm8", "xmm9", "xmm10", "xmm11", "xmm12", "xmm13", "xmm14", "xmm15",
                       "memory", "cc");
}

/* The paint is not renewed between calls, so that what is read at the end is the most of all of them. */
static size_t changed(void)
{
    size_t untouched = 0;
    while (untouched < stack_bytes && stack[untouched] == MARK)
        untouched++;
    return stack_bytes - untouched;
}

static unsigned answered;
static unsigned refused;

static void call_with(void (*call)(void), size_t one, size_t two, size_t question)
{
    first = &sheets[one];
    second = &sheets[two];
    asked = &questions[question];
    make_table(asked);
    make_trace(asked);
    call_on_stack(call);
    *(got == 0 ? &answered : &refused) += 1;
}

/* Every question of every full sheet and of that with room for a row; of the others the first question alone. Then every sheet
 * as the second of two, with what stands in the first sheet alone and what stands in the second alone. */
static void call_all(void (*call)(void))
{
    for (size_t i = 0; i < SHEETS; i++)
        for (size_t j = 0; j < (i < FULL ? LENGTH(questions) : 1); j++)
            call_with(call, i, i, j);
    for (size_t i = 0; i < SHEETS; i++) {
        call_with(call, 0, i, 0);
        call_with(call, 0, i, LENGTH(questions) - 1);
    }
    call_with(call, SISTER_A, SISTER_B, 0);
}

/* The list for question 4: the whole way along the chain's categories. */
static void make_path(void)
{
    path[0] = 1;
    for (uint32_t i = 0; i < CATEGORIES; i++)
        path[2 + 2 * i] = FIRST + 1 + i;
    path[2 + 2 * CATEGORIES] = 1;
    path[4 + 2 * CATEGORIES] = FOLIO + 1;
    path_length = 6 + 2 * CATEGORIES;
}

int main(int count, char **words)
{
    for (size_t i = 0; i < LENGTH(entries); i++)
        if (count == 1)
            printf("%s\n", entries[i].name);
        else if (count == 3 && strcmp(words[1], entries[i].name) == 0) {
            make_sheets();
            make_listings();
            make_path();
            make_stack((size_t)strtoul(words[2], NULL, 10));
            call_all(entries[i].call);
            return printf("%zu %u %u\n", changed(), answered, refused) < 0;
        }
    return count == 1 ? 0 : 2;
}
