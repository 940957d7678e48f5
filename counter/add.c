/* The verb that adds a row to a sheet. The row is typed as a line of a listing. */
#include "desk.h"
#include "help.h"

#include <string.h>

/* What each of the nine lines names: a node's type; or an edge's kind, and the types of its ends. */
static const struct {
    uint32_t kind; /* 0 where it is a node's line */
    uint32_t type; /* of the node, or of the edge's first end */
    uint32_t other_type;
} lines[] = {
    [TORMUKAI_LINE_PERSON] = {0, TORMUKAI_PERSON, 0},
    [TORMUKAI_LINE_CATEGORY] = {0, TORMUKAI_CATEGORY, 0},
    [TORMUKAI_LINE_DEED] = {0, TORMUKAI_DEED, 0},
    [TORMUKAI_LINE_FOLIO] = {0, TORMUKAI_FOLIO, 0},
    [TORMUKAI_LINE_IN] = {TORMUKAI_EDGE_MEMBER, TORMUKAI_PERSON, TORMUKAI_CATEGORY},
    [TORMUKAI_LINE_WITHIN] = {TORMUKAI_EDGE_WITHIN, TORMUKAI_CATEGORY, TORMUKAI_CATEGORY},
    [TORMUKAI_LINE_GRANT] = {TORMUKAI_EDGE_GRANT, TORMUKAI_CATEGORY, TORMUKAI_DEED},
    [TORMUKAI_LINE_BAN] = {TORMUKAI_EDGE_BAN, TORMUKAI_CATEGORY, TORMUKAI_DEED},
    [TORMUKAI_LINE_APPLIES] = {TORMUKAI_EDGE_APPLIES, TORMUKAI_DEED, TORMUKAI_FOLIO},
};

/* The row that a line names, by identities. A node is its own first end, and has no other. */
typedef struct TypedRow {
    uint32_t kind;
    Identity end;
    Identity other_end;
} TypedRow;

/* A deed has two numbers in a line, and every other node one. */
static Identity identity_in(const uint32_t *numbers, uint32_t type)
{
    return (Identity){type, numbers[0], type == TORMUKAI_DEED ? numbers[1] : 0};
}

static TypedRow row_of(TormukaiLine line)
{
    const uint32_t numbers[] = {line.first, line.second, line.third, 0};
    uint32_t type = lines[line.form].type;
    size_t taken = type == TORMUKAI_DEED ? 2 : 1;
    return (TypedRow){lines[line.form].kind, identity_in(numbers, type),
                      identity_in(numbers + taken, lines[line.form].other_type)};
}

/* An end that is not in the sheet is handed on as no row of it, so that the library refuses it in its own order. */
static uint32_t end_row(const Sheet *sheet, Identity end)
{
    TormukaiAnswer told = place_of(sheet, end);
    return told.value == 1 ? told.count : node_count(sheet);
}

static TormukaiAnswer add_row(const Sheet *sheet, TypedRow row, uint32_t offices, Sheet *added)
{
    Identity node = row.end;
    TormukaiAnswer told =
        row.kind == 0 ? tormukai_add_node(sheet->words, sheet->length, node.type, node.number, node.variant, offices,
                                          added->words, TORMUKAI_SHEET_WORDS)
                      : tormukai_add_edge(sheet->words, sheet->length, row.kind, end_row(sheet, row.end),
                                          end_row(sheet, row.other_end), offices, added->words, TORMUKAI_SHEET_WORDS);
    added->length = told.count;
    return told;
}

static int refuse_line(Desk *desk, uint32_t number)
{
    const char *line = desk->asked.line;
    tell_refusal(desk, (TormukaiRefusal){number, 0, 0});
    tell_line(&desk->out, (Line){(const uint8_t *)line, strlen(line), true});
    return end_refusal(desk);
}

static bool is_same(Identity one, Identity other)
{
    return one.type == other.type && one.number == other.number && one.variant == other.variant;
}

static void tell_missing(Writer *out, const char *before, Identity identity)
{
    say(out, before);
    open_object(out, NULL);
    tell_identity(out, identity);
    close_object(out);
}

/* The library knows an end by its row alone. Here it is told which identities have none, each once. */
static int refuse_ends(Desk *desk, TypedRow row, TormukaiRefusal refusal)
{
    Writer *out = &desk->out;
    bool first = place_of(&desk->sheet, row.end).value == 0;
    bool other = place_of(&desk->sheet, row.other_end).value == 0 && !is_same(row.end, row.other_end);
    tell_refusal(desk, refusal);
    say(out, "\n");
    open_list(out, "missing");
    if (first)
        tell_missing(out, "", row.end);
    if (other)
        tell_missing(out, first ? " and " : "", row.other_end);
    close_list(out);
    say(out, first && other ? " are not in the sheet" : " is not in the sheet");
    return end_refusal(desk);
}

static void tell_added(Desk *desk, const Sheet *added, uint32_t kind, uint32_t row)
{
    Writer *out = &desk->out;
    open_object(out, kind == 0 ? "node" : "edge");
    if (kind == 0)
        tell_node(out, node_at(added, row));
    else
        tell_edge(out, added, edge_at(added, row));
    close_object(out);
    say(out, "\n");
}

/* The row of the line, in a sheet that passed the check. */
static int add_line(Desk *desk, uint32_t offices)
{
    static Sheet added;
    TormukaiLine line = tormukai_read_line((const uint8_t *)desk->asked.line, strlen(desk->asked.line));
    if (line.fault != 0)
        return refuse_line(desk, line.fault);
    TypedRow row = row_of(line);
    TormukaiAnswer told = add_row(&desk->sheet, row, offices, &added);
    if (told.number == TORMUKAI_REFUSED_EDGE_END)
        return refuse_ends(desk, row, refusal_of(told));
    if (told.number != 0 && refused(desk, refusal_of(told)))
        return REFUSED;
    int status = write_sheet(desk, &added);
    if (status != ANSWERED)
        return status;
    tell_added(desk, &added, row.kind, told.value);
    tell_written_sheet(desk, &added);
    return ANSWERED;
}

/* Where a sheet has several offices, one that nobody named must not get a right. */
int add(Desk *desk)
{
    uint32_t offices = desk->asked.offices;
    TormukaiRefusal refusal = tormukai_check(desk->sheet.words, desk->sheet.length);
    if (refusal.number != 0 && refused(desk, refusal))
        return REFUSED;
    if (offices == 0 && office_count(&desk->sheet) != 1) {
        bad_usage(desk->verb, desk->verb->name, "needs OFFICES, since the sheet has more than one office");
        return BAD_USAGE;
    }
    return add_line(desk, offices == 0 ? 1 : offices);
}
