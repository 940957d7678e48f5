/* A picture in Graphviz's language. */
#include "picture.h"

/* No node row. */
enum { NONE = TORMUKAI_NODES };

static const char settings[] =
    "    graph [rankdir=LR, nodesep=0.22, ranksep=1, pad=0.25, bgcolor=white,\n"
    "        labelloc=t, labeljust=l, fontname=Helvetica, fontsize=16];\n"
    "    node [fontname=Helvetica, fontsize=13, height=0.4, style=filled, fillcolor=white, color=\"#333333\"];\n"
    "    edge [color=\"#333333\"];\n";

static const char *const shapes[] = {
    [TORMUKAI_PERSON] = "shape=ellipse, margin=\"0.05,0.03\"",
    [TORMUKAI_CATEGORY] = "shape=box, style=\"filled,rounded\", margin=\"0.14,0.07\"",
    [TORMUKAI_DEED] = "shape=hexagon, margin=\"0.04,0.02\"",
    [TORMUKAI_FOLIO] = "shape=note, margin=\"0.14,0.07\"",
};

/* The title's last line is empty, for room under it. It comes last, since what follows a label inherits it. */
static void write_title(Writer *out, const Picture *picture)
{
    const Asked *asked = picture->asked;
    say(out, "    label=\"Office ");
    say_number(out, asked->office);
    if (asked->kind_given) {
        say(out, ". Person ");
        say_number(out, asked->person);
        say(out, ", deed ");
        say_number(out, asked->deed);
        say(out, ", folio ");
        say_number(out, asked->folio);
        say(out, ": ");
        say(out, answer_name(picture->answer));
        say(out, ".\\lIn bold: the witness of the ");
        say(out, asked->kind == TORMUKAI_GRANT ? "grant." : "ban.");
    }
    say(out, "\\l \\l\";\n");
}

static void say_name(Writer *out, const Picture *picture, uint32_t row)
{
    say(out, "\"");
    tell_identity(out, node_at(picture->sheet, row).identity);
    say(out, "\"");
}

static bool stands_in(const Picture *picture, uint32_t row, uint32_t column)
{
    return picture->columns.of[row] == column &&
           has_office(node_at(picture->sheet, row).offices, picture->asked->office);
}

static uint32_t first_in(const Picture *picture, uint32_t column)
{
    for (uint32_t row = 0; row < node_count(picture->sheet); row++)
        if (stands_in(picture, row, column))
            return row;
    return NONE;
}

static void write_node(Writer *out, const Picture *picture, uint32_t row)
{
    say(out, "        ");
    say_name(out, picture, row);
    say(out, picture->steps[row] != 0 ? " [penwidth=3, fontname=\"Helvetica-Bold\"];\n" : ";\n");
}

static void write_column(Writer *out, const Picture *picture, uint32_t column, uint32_t first)
{
    say(out, "    subgraph {\n        graph [rank=same];\n        node [");
    say(out, shapes[node_at(picture->sheet, first).identity.type]);
    say(out, "];\n");
    for (uint32_t row = first; row < node_count(picture->sheet); row++)
        if (stands_in(picture, row, column))
            write_node(out, picture, row);
    say(out, "    }\n");
}

static bool joined_by_edge(const Picture *picture, uint32_t left, uint32_t right)
{
    const Columns *columns = &picture->columns;
    for (uint32_t row = 0; row < edge_count(picture->sheet); row++) {
        Edge edge = edge_at(picture->sheet, row);
        if (has_office(edge.offices, picture->asked->office) && columns->of[edge.from] == left &&
            columns->of[edge.to] == right)
            return true;
    }
    return false;
}

/* An edge between two columns keeps them in their order. Where there is none, an invisible one does, between these nodes. */
static void write_order(Writer *out, const Picture *picture, uint32_t left, uint32_t right)
{
    if (joined_by_edge(picture, picture->columns.of[left], picture->columns.of[right]))
        return;
    say(out, "    ");
    say_name(out, picture, left);
    say(out, " -> ");
    say_name(out, picture, right);
    say(out, " [style=invis, weight=0];\n");
}

static void write_columns(Writer *out, const Picture *picture)
{
    uint32_t before = NONE;
    for (uint32_t column = 0; column < picture->columns.count; column++) {
        uint32_t first = first_in(picture, column);
        if (first == NONE)
            continue;
        write_column(out, picture, column, first);
        if (before != NONE)
            write_order(out, picture, before, first);
        before = first;
    }
}

/* A ban's witness walks containments backwards. */
static bool in_witness(const Picture *picture, Edge edge)
{
    bool ban = picture->asked->kind != TORMUKAI_GRANT;
    uint32_t from = picture->steps[edge.from];
    uint32_t to = picture->steps[edge.to];
    if (edge.kind == (ban ? TORMUKAI_EDGE_GRANT : TORMUKAI_EDGE_BAN))
        return false;
    if (edge.kind == TORMUKAI_EDGE_WITHIN && ban)
        return to != 0 && from == to + 1;
    return from != 0 && to == from + 1;
}

static void write_edges(Writer *out, const Picture *picture, uint32_t kind)
{
    say(out, "    subgraph {\n        edge [");
    say(out, look_of(kind));
    say(out, "];\n");
    for (uint32_t row = 0; row < edge_count(picture->sheet); row++) {
        Edge edge = edge_at(picture->sheet, row);
        if (edge.kind != kind || !has_office(edge.offices, picture->asked->office))
            continue;
        say(out, "        ");
        say_name(out, picture, edge.from);
        say(out, " -> ");
        say_name(out, picture, edge.to);
        say(out, in_witness(picture, edge) ? " [penwidth=3, arrowsize=1.2];\n" : ";\n");
    }
    say(out, "    }\n");
}

/* Graphviz begins at the bottom, so that the legend, which is first, stands under the graph. */
void write_graph(Writer *out, const Picture *picture)
{
    say(out, "digraph \"office ");
    say_number(out, picture->asked->office);
    say(out, "\" {\n");
    say(out, settings);
    write_legend(out);
    write_columns(out, picture);
    for (uint32_t kind = TORMUKAI_EDGE_MEMBER; kind <= TORMUKAI_EDGE_APPLIES; kind++)
        write_edges(out, picture, kind);
    write_title(out, picture);
    say(out, "}\n");
}
