/* How the kinds of edges look in a picture, and the legend that says so. */
#include "picture.h"

/* Lines and arrow heads tell the kinds apart without colours. Grants are bluish and bans reddish, for the colour-blind. */
static const struct {
    uint32_t from;
    uint32_t to;
    const char *look;
} kinds[] = {
    [TORMUKAI_EDGE_MEMBER] = {TORMUKAI_PERSON, TORMUKAI_CATEGORY,
                              "style=solid, penwidth=0.8, arrowhead=vee, arrowsize=0.8"},
    [TORMUKAI_EDGE_WITHIN] = {TORMUKAI_CATEGORY, TORMUKAI_CATEGORY,
                              "style=dotted, penwidth=1.8, arrowhead=onormal, color=\"#56708c\""},
    [TORMUKAI_EDGE_GRANT] = {TORMUKAI_CATEGORY, TORMUKAI_DEED,
                             "style=solid, penwidth=1.6, arrowhead=normal, color=\"#00785a\""},
    [TORMUKAI_EDGE_BAN] = {TORMUKAI_CATEGORY, TORMUKAI_DEED,
                           "style=dashed, penwidth=1.6, arrowhead=tee, arrowsize=1.3, color=\"#c84e00\""},
    [TORMUKAI_EDGE_APPLIES] = {TORMUKAI_DEED, TORMUKAI_FOLIO, "style=solid, penwidth=0.8, arrowhead=dot, arrowsize=0.6"},
};

const char *look_of(uint32_t kind)
{
    return kinds[kind].look;
}

static void say_words(Writer *out, uint32_t kind)
{
    say(out, type_name(kinds[kind].from));
    say(out, " ");
    say(out, kind_phrase(kind));
    say(out, " ");
    say(out, type_name(kinds[kind].to));
}

/* A table of a row for each kind, with its words or empty; the lines run from one table to the other. */
static void write_legend_table(Writer *out, const char *name, bool words)
{
    say(out, "            \"");
    say(out, name);
    say(out, "\" [label=<<table border=\"0\" cellborder=\"0\" cellspacing=\"0\" cellpadding=\"3\">\n");
    for (uint32_t kind = TORMUKAI_EDGE_MEMBER; kind <= TORMUKAI_EDGE_APPLIES; kind++) {
        say(out, "                <tr><td align=\"left\" port=\"");
        say_number(out, kind);
        say(out, "\">");
        if (words)
            say_words(out, kind);
        else
            say(out, " ");
        say(out, "</td></tr>\n");
    }
    say(out, "            </table>>];\n");
}

/* The outer cluster is room around the inner one's frame. */
void write_legend(Writer *out)
{
    say(out, "    subgraph cluster_room {\n"
             "        graph [peripheries=0, margin=12];\n"
             "        subgraph cluster_legend {\n"
             "            graph [peripheries=1, margin=8, color=\"#999999\"];\n"
             "            node [shape=plaintext, style=solid, fontsize=12, margin=0, width=0, height=0];\n");
    write_legend_table(out, "legend", true);
    write_legend_table(out, "legend lines", false);
    for (uint32_t kind = TORMUKAI_EDGE_MEMBER; kind <= TORMUKAI_EDGE_APPLIES; kind++) {
        say(out, "            \"legend\":");
        say_number(out, kind);
        say(out, ":e -> \"legend lines\":");
        say_number(out, kind);
        say(out, ":w [");
        say(out, kinds[kind].look);
        say(out, "];\n");
    }
    say(out, "        }\n    }\n");
}
