/* The verbs on whole sheets: the check, every row in words, the lookup, joining and taking out. How a result is written. */
#include "desk.h"

/* The file of a result. */
static uint8_t bytes[TORMUKAI_FILE_BYTES];

int check(Desk *desk)
{
    if (refused(desk, tormukai_check(desk->sheet.words, desk->sheet.length)))
        return REFUSED;
    say(&desk->out, "accepted: ");
    tell_count(&desk->out, "offices", "office", office_count(&desk->sheet));
    say(&desk->out, ", ");
    tell_count(&desk->out, "nodes", "node", node_count(&desk->sheet));
    say(&desk->out, ", ");
    tell_count(&desk->out, "edges", "edge", edge_count(&desk->sheet));
    say(&desk->out, "\n");
    return ANSWERED;
}

static void tell_header(Writer *out, const Sheet *sheet)
{
    say(out, "form ");
    tell_number(out, "form", form_of(sheet));
    say(out, ", ");
    tell_count(out, "offices", "office", office_count(sheet));
    say(out, ", ");
    say_count(out, "nodes", "node", node_count(sheet));
    say(out, ", ");
    say_count(out, "edges", "edge", edge_count(sheet));
    say(out, "\n");
}

int show(Desk *desk)
{
    Writer *out = &desk->out;
    const Sheet *sheet = &desk->sheet;
    if (refused(desk, tormukai_check(sheet->words, sheet->length)))
        return REFUSED;
    tell_header(out, sheet);
    open_list(out, "nodes");
    for (uint32_t row = 0; row < node_count(sheet); row++) {
        open_object(out, NULL);
        tell_node(out, node_at(sheet, row));
        close_object(out);
        say(out, "\n");
    }
    close_list(out);
    open_list(out, "edges");
    for (uint32_t row = 0; row < edge_count(sheet); row++) {
        open_object(out, NULL);
        tell_edge(out, sheet, edge_at(sheet, row));
        close_object(out);
        say(out, "\n");
    }
    close_list(out);
    return ANSWERED;
}

/* A sheet's own refusals, 33 and 1 to 17, of the first or the second. */
static TormukaiRefusal open_and_check(const File *file, Sheet *sheet, uint32_t which)
{
    TormukaiRefusal refusal = open_sheet(file, sheet);
    if (refusal.number == 0)
        refusal = tormukai_check(sheet->words, sheet->length);
    if (refusal.number != 0)
        refusal.sheet = which;
    return refusal;
}

/* Neither sheet has the identity: where would each have it? */
static int refuse_unfound(Desk *desk, const Sheet *sheets, TormukaiRefusal refusal)
{
    Writer *out = &desk->out;
    tell_refusal(desk, refusal);
    open_list(out, "would_stand");
    say(out, "\nit would stand at node ");
    tell_number(out, NULL, place_of(&sheets[0], desk->asked.identity).count);
    say(out, " of the first sheet, node ");
    tell_number(out, NULL, place_of(&sheets[1], desk->asked.identity).count);
    say(out, " of the second");
    close_list(out);
    return end_refusal(desk);
}

/* The first sheet is checked wholly before the second, also before the second's 33. */
int find(Desk *desk)
{
    static Sheet sheets[FILES];
    Writer *out = &desk->out;
    Identity asked = desk->asked.identity;
    TormukaiAnswer told = {0, 0, 0, 0, 0};
    TormukaiRefusal refusal = open_and_check(&desk->files[0], &sheets[0], 1);
    if (refusal.number == 0)
        refusal = open_and_check(&desk->files[1], &sheets[1], 2);
    if (refusal.number == 0) {
        told = tormukai_look_up(sheets[0].words, sheets[0].length, sheets[1].words, sheets[1].length, asked.type,
                                asked.number, asked.variant);
        refusal = refusal_of(told);
    }
    if (refusal.number == TORMUKAI_REFUSED_IN_NEITHER_SHEET)
        return refuse_unfound(desk, sheets, refusal);
    if (refused(desk, refusal))
        return REFUSED;
    say(out, told.value == 1 ? "first sheet, " : "second sheet, ");
    note_number(out, "sheet", told.value);
    open_object(out, "node");
    tell_node(out, node_at(&sheets[told.value - 1], told.count));
    close_object(out);
    say(out, "\n");
    return ANSWERED;
}

static void tell_written(Desk *desk, size_t words)
{
    note_number(&desk->out, "bytes", 4 * words);
    say(&desk->out, "\nwritten: ");
    say(&desk->out, desk->asked.result);
    say(&desk->out, "\n");
}

/* A result is told only when it is written, since one that can't be written is no answer. */
int join(Desk *desk)
{
    Writer *out = &desk->out;
    const File *first = &desk->files[0];
    const File *second = &desk->files[1];
    TormukaiJoined told =
        tormukai_join_files(first->bytes, first->length, second->bytes, second->length, bytes, sizeof bytes);
    if (told.number == 0 && !write_result(desk->asked.result, bytes, 4 * told.words))
        return UNWRITTEN;
    if (refused(desk, (TormukaiRefusal){told.number, told.sheet, told.row}))
        return REFUSED;
    say(out, "nodes ");
    tell_number(out, "nodes", told.nodes);
    say(out, " shared ");
    tell_number(out, "shared_nodes", told.sharednodes);
    say(out, "\nedges ");
    tell_number(out, "edges", told.edges);
    say(out, " shared ");
    tell_number(out, "shared_edges", told.sharededges);
    tell_written(desk, told.words);
    return ANSWERED;
}

int write_sheet(Desk *desk, const Sheet *sheet)
{
    TormukaiRefusal refusal = tormukai_file_of_words(sheet->words, sheet->length, bytes, sizeof bytes);
    if (refusal.number == 0 && !write_result(desk->asked.result, bytes, 4 * sheet->length))
        return UNWRITTEN;
    return refused(desk, refusal) ? REFUSED : ANSWERED;
}

void tell_written_sheet(Desk *desk, const Sheet *sheet)
{
    Writer *out = &desk->out;
    say(out, "nodes ");
    tell_number(out, "nodes", node_count(sheet));
    say(out, "\nedges ");
    tell_number(out, "edges", edge_count(sheet));
    tell_written(desk, sheet->length);
}

int write_and_tell(Desk *desk, const Sheet *sheet)
{
    int status = write_sheet(desk, sheet);
    if (status == ANSWERED)
        tell_written_sheet(desk, sheet);
    return status;
}

int take(Desk *desk)
{
    static Sheet taken;
    TormukaiAnswer told = tormukai_take_out(desk->sheet.words, desk->sheet.length, desk->asked.office, taken.words,
                                            TORMUKAI_SHEET_WORDS);
    taken.length = told.count;
    if (told.number != 0 && refused(desk, refusal_of(told)))
        return REFUSED;
    return write_and_tell(desk, &taken);
}
