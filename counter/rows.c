/* A sheet's rows, read and in words. */
#include "rows.h"

#include <string.h>

/* Places in the header and in a row. */
enum { FORM = 0, OFFICE_COUNT = 1, NODE_COUNT = 2, EDGE_COUNT = 3 };
enum { TYPE = 0, NUMBER = 1, VARIANT = 2 };
enum { KIND = 0, FROM = 1, TO = 2, OFFICES = 3 };

static const char *const types[] = {
    [TORMUKAI_PERSON] = "person",
    [TORMUKAI_CATEGORY] = "category",
    [TORMUKAI_DEED] = "deed",
    [TORMUKAI_FOLIO] = "folio",
};

/* An edge's kind as JSON has it, and as it reads between the two ends. */
static const struct {
    const char *name;
    const char *phrase;
} kinds[] = {
    [TORMUKAI_EDGE_MEMBER] = {"in", "in"},
    [TORMUKAI_EDGE_WITHIN] = {"within", "within"},
    [TORMUKAI_EDGE_GRANT] = {"grants", "grants"},
    [TORMUKAI_EDGE_BAN] = {"bans", "bans"},
    [TORMUKAI_EDGE_APPLIES] = {"applies", "applies to"},
};

uint32_t form_of(const Sheet *sheet)
{
    return sheet->words[FORM];
}

uint32_t office_count(const Sheet *sheet)
{
    return sheet->words[OFFICE_COUNT];
}

uint32_t node_count(const Sheet *sheet)
{
    return sheet->words[NODE_COUNT];
}

uint32_t edge_count(const Sheet *sheet)
{
    return sheet->words[EDGE_COUNT];
}

Node node_at(const Sheet *sheet, uint32_t row)
{
    const uint32_t *words = sheet->words + TORMUKAI_HEADER_WORDS + TORMUKAI_NODE_WORDS * row;
    return (Node){row, {words[TYPE], words[NUMBER], words[VARIANT]}, words[OFFICES]};
}

Edge edge_at(const Sheet *sheet, uint32_t row)
{
    const uint32_t *edges = sheet->words + TORMUKAI_HEADER_WORDS + TORMUKAI_NODE_WORDS * node_count(sheet);
    const uint32_t *words = edges + TORMUKAI_EDGE_WORDS * row;
    return (Edge){row, words[KIND], words[FROM], words[TO], words[OFFICES]};
}

TormukaiAnswer place_of(const Sheet *sheet, Identity identity)
{
    return tormukai_find_node(sheet->words, sheet->length, identity.type, identity.number, identity.variant);
}

bool has_office(uint32_t offices, uint32_t office)
{
    return (offices >> (office - 1) & 1) != 0;
}

const char *type_name(uint32_t type)
{
    return types[type];
}

uint32_t type_of_name(const char *name)
{
    for (uint32_t type = TORMUKAI_PERSON; type <= TORMUKAI_FOLIO; type++)
        if (strcmp(name, types[type]) == 0)
            return type;
    return 0;
}

uint32_t type_at(size_t place, size_t nodes)
{
    if (place == 0)
        return TORMUKAI_PERSON;
    if (place + 1 == nodes)
        return TORMUKAI_FOLIO;
    if (place + 2 == nodes)
        return TORMUKAI_DEED;
    return TORMUKAI_CATEGORY;
}

const char *kind_phrase(uint32_t kind)
{
    return kinds[kind].phrase;
}

void tell_identity(Writer *out, Identity identity)
{
    tell_word(out, "type", type_name(identity.type));
    say(out, " ");
    tell_number(out, "number", identity.number);
    if (identity.type != TORMUKAI_DEED) {
        note_number(out, "variant", identity.variant);
        return;
    }
    say(out, "/");
    tell_number(out, "variant", identity.variant);
}

/* What stands before the next of several offices, by how many marks are left with it. */
static const char *before_office(bool first, uint32_t left)
{
    if (first)
        return "";
    return left >> 1 == 0 ? " and " : ", ";
}

static void tell_offices(Writer *out, uint32_t offices)
{
    bool one = (offices & (offices - 1)) == 0;
    bool first = true;
    say(out, one ? ", office " : ", offices ");
    open_list(out, "offices");
    for (uint32_t office = 1, left = offices; left != 0; office++, left >>= 1) {
        if ((left & 1) == 0)
            continue;
        say(out, before_office(first, left));
        tell_number(out, NULL, office);
        first = false;
    }
    close_list(out);
}

void tell_node(Writer *out, Node node)
{
    say(out, "node ");
    tell_number(out, "row", node.row);
    say(out, ": ");
    tell_identity(out, node.identity);
    tell_offices(out, node.offices);
}

static void tell_end(Writer *out, const char *name, const Sheet *sheet, uint32_t row)
{
    open_object(out, name);
    tell_identity(out, node_at(sheet, row).identity);
    close_object(out);
}

void tell_edge(Writer *out, const Sheet *sheet, Edge edge)
{
    say(out, "edge ");
    tell_number(out, "row", edge.row);
    say(out, ": ");
    note_word(out, "kind", kinds[edge.kind].name);
    tell_end(out, "from", sheet, edge.from);
    say(out, " ");
    say(out, kind_phrase(edge.kind));
    say(out, " ");
    tell_end(out, "to", sheet, edge.to);
    tell_offices(out, edge.offices);
}

void say_count(Writer *out, const char *plural, const char *singular, uint32_t count)
{
    say_number(out, count);
    say(out, " ");
    say(out, count == 1 ? singular : plural);
}

void tell_count(Writer *out, const char *plural, const char *singular, uint32_t count)
{
    note_number(out, plural, count);
    say_count(out, plural, singular, count);
}
