/* Questions 5 to 10: lists, a triple and a pair. */
#include "desk.h"

/* Room for the longest list, that of all edges. */
static uint32_t found[TORMUKAI_EDGES];

/* 'person 11'. Within a list the name is NULL. */
static void tell_numbered(Writer *out, const char *name, const char *type, uint32_t number)
{
    say(out, type);
    say(out, " ");
    tell_number(out, name, number);
}

static void tell_person(Desk *desk, uint32_t number)
{
    tell_numbered(&desk->out, NULL, "person", number);
}

static void tell_folio(Desk *desk, uint32_t number)
{
    tell_numbered(&desk->out, NULL, "folio", number);
}

static void tell_edge_row(Desk *desk, uint32_t row)
{
    open_object(&desk->out, NULL);
    tell_edge(&desk->out, &desk->sheet, edge_at(&desk->sheet, row));
    close_object(&desk->out);
}

/* A line for each that was found, or 'none'. */
static int tell_list(Desk *desk, const char *name, TormukaiAnswer told, void (*tell_one)(Desk *desk, uint32_t one))
{
    if (refused(desk, refusal_of(told)))
        return REFUSED;
    open_list(&desk->out, name);
    for (uint32_t i = 0; i < told.count; i++) {
        tell_one(desk, found[i]);
        say(&desk->out, "\n");
    }
    close_list(&desk->out);
    say(&desk->out, told.count == 0 ? "none\n" : "");
    return ANSWERED;
}

int persons(Desk *desk)
{
    TormukaiAnswer told = tormukai_persons_in_category(desk->sheet.words, desk->sheet.length, desk->asked.office,
                                                       desk->asked.category, found, TORMUKAI_EDGES);
    return tell_list(desk, "persons", told, tell_person);
}

int holders(Desk *desk)
{
    TormukaiAnswer told = tormukai_persons_with_grant(desk->sheet.words, desk->sheet.length, desk->asked.office,
                                                      desk->asked.deed, desk->asked.folio, found, TORMUKAI_EDGES);
    return tell_list(desk, "persons", told, tell_person);
}

int unreached(Desk *desk)
{
    TormukaiAnswer told = tormukai_folios_out_of_reach(desk->sheet.words, desk->sheet.length, desk->asked.office, found,
                                                       TORMUKAI_EDGES);
    return tell_list(desk, "folios", told, tell_folio);
}

int redundant(Desk *desk)
{
    TormukaiAnswer told =
        tormukai_redundant_edges(desk->sheet.words, desk->sheet.length, desk->asked.office, found, TORMUKAI_EDGES);
    return tell_list(desk, "edges", told, tell_edge_row);
}

/* The numbers that were found, each under its type's name. */
static int tell_together(Desk *desk, TormukaiAnswer told, const char *const *types)
{
    if (refused(desk, refusal_of(told)))
        return REFUSED;
    for (uint32_t i = 0; i < told.count; i++) {
        say(&desk->out, i == 0 ? "" : ", ");
        tell_numbered(&desk->out, types[i], types[i], found[i]);
    }
    say(&desk->out, "\n");
    return ANSWERED;
}

int conflict(Desk *desk)
{
    static const char *const types[] = {"person", "deed", "folio"};
    TormukaiAnswer told =
        tormukai_least_triple(desk->sheet.words, desk->sheet.length, desk->asked.office, found, TORMUKAI_EDGES);
    return tell_together(desk, told, types);
}

int duties(Desk *desk)
{
    static const char *const types[] = {"person", "folio"};
    TormukaiAnswer told = tormukai_least_holder(desk->sheet.words, desk->sheet.length, desk->asked.office, desk->asked.deed,
                                                desk->asked.other_deed, found, TORMUKAI_EDGES);
    return tell_together(desk, told, types);
}
