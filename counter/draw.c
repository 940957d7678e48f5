/* An office's graph for Graphviz, and in it the witness of a question in bold. */
#include "picture.h"

static TormukaiAnswer ask_witness(const Desk *desk, uint32_t *path)
{
    const Asked *asked = &desk->asked;
    return tormukai_sheet_witness(desk->sheet.words, desk->sheet.length, asked->office, asked->kind, asked->person,
                                  asked->deed, asked->folio, path, TORMUKAI_WITNESS_WORDS);
}

/* Without a question nothing is asked of the library but whether it takes the sheet and the office. */
static TormukaiAnswer ask_office(const Desk *desk)
{
    static uint32_t folios[TORMUKAI_NODES];
    return tormukai_folios_out_of_reach(desk->sheet.words, desk->sheet.length, desk->asked.office, folios, TORMUKAI_NODES);
}

static bool is_node(Node node, Identity identity)
{
    return node.identity.type == identity.type && node.identity.number == identity.number &&
           node.identity.variant == identity.variant;
}

static void mark_step(Picture *picture, Identity identity, uint32_t step)
{
    for (uint32_t row = 0; row < node_count(picture->sheet); row++)
        if (is_node(node_at(picture->sheet, row), identity))
            picture->steps[row] = step;
}

static void mark_witness(Picture *picture, const uint32_t *path, uint32_t nodes)
{
    for (uint32_t place = 0; place < nodes; place++) {
        Identity identity = {type_at(place, nodes), path[2 * place], path[2 * place + 1]};
        mark_step(picture, identity, place + 1);
    }
}

int draw(Desk *desk)
{
    static Picture picture;
    static uint32_t path[TORMUKAI_WITNESS_WORDS];
    const Asked *asked = &desk->asked;
    bool question = asked->kind_given;
    TormukaiAnswer told = question ? ask_witness(desk, path) : ask_office(desk);
    if (refused(desk, refusal_of(told)))
        return REFUSED;
    picture.sheet = &desk->sheet;
    picture.asked = asked;
    place_nodes(&picture.columns, &desk->sheet, asked->office);
    if (question) {
        mark_witness(&picture, path, told.count / 2);
        picture.answer = tormukai_sheet_answer(desk->sheet.words, desk->sheet.length, asked->office, asked->person,
                                               asked->deed, asked->folio)
                             .value;
    }
    open_text(&desk->out, "graph");
    write_graph(&desk->out, &picture);
    close_text(&desk->out);
    return ANSWERED;
}
