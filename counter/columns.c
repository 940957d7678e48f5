/* Where the nodes of an office stand in its picture, from left to right.
 *
 * Graphviz would place the categories by itself, but it takes a ring of them apart at any of its containments, and lets a category
 * without a grant or a ban stand right of the deeds. */
#include "columns.h"

/* A set of node rows. */
enum { WORD_BITS = 64, SET_WORDS = TORMUKAI_NODES / WORD_BITS };
typedef uint64_t Set[SET_WORDS];

static bool has(const Set set, uint32_t row)
{
    return (set[row / WORD_BITS] >> row % WORD_BITS & 1) != 0;
}

static bool is_containment(Edge edge, uint32_t office)
{
    return edge.kind == TORMUKAI_EDGE_WITHIN && has_office(edge.offices, office);
}

/* For each row the categories that contain it, over one or more steps. The sets are empty before. */
static void find_containing(Set containing[], const Sheet *sheet, uint32_t office)
{
    uint32_t nodes = node_count(sheet);
    for (uint32_t row = 0; row < edge_count(sheet); row++) {
        Edge edge = edge_at(sheet, row);
        if (is_containment(edge, office))
            containing[edge.from][edge.to / WORD_BITS] |= (uint64_t)1 << edge.to % WORD_BITS;
    }
    for (uint32_t through = 0; through < nodes; through++)
        for (uint32_t row = 0; row < nodes; row++)
            if (has(containing[row], through))
                for (size_t word = 0; word < SET_WORDS; word++)
                    containing[row][word] |= containing[through][word];
}

/* One round over the containments: each lifts its containing category above the contained one, unless the two are equal.
 * Tells whether a category was lifted. */
static bool lift_categories(uint32_t heights[], Set containing[], const Sheet *sheet, uint32_t office)
{
    bool lifted = false;
    for (uint32_t row = 0; row < edge_count(sheet); row++) {
        Edge edge = edge_at(sheet, row);
        if (!is_containment(edge, office))
            continue;
        bool equal = has(containing[edge.to], edge.from);
        uint32_t least = heights[edge.from] + (equal ? 0 : 1);
        if (heights[edge.to] >= least)
            continue;
        heights[edge.to] = least;
        lifted = true;
    }
    return lifted;
}

static uint32_t column_of(uint32_t type, uint32_t height, uint32_t highest)
{
    uint32_t least = type - TORMUKAI_PERSON;
    if (type == TORMUKAI_CATEGORY)
        return least + height;
    return type < TORMUKAI_CATEGORY ? least : least + highest;
}

void place_nodes(Columns *columns, const Sheet *sheet, uint32_t office)
{
    static Set containing[TORMUKAI_NODES];
    static uint32_t heights[TORMUKAI_NODES];
    uint32_t highest = 0;
    find_containing(containing, sheet, office);
    while (lift_categories(heights, containing, sheet, office))
        continue;
    for (uint32_t row = 0; row < node_count(sheet); row++)
        if (heights[row] > highest)
            highest = heights[row];
    for (uint32_t row = 0; row < node_count(sheet); row++)
        columns->of[row] = column_of(node_at(sheet, row).identity.type, heights[row], highest);
    columns->count = column_of(TORMUKAI_FOLIO, 0, highest) + 1;
}
