/* Questions 1 to 4: answers and paths. */
#include "desk.h"

const char *answer_name(uint32_t value)
{
    static const char *const names[] = {
        [TORMUKAI_UNDETERMINED] = "undetermined",
        [TORMUKAI_GRANTED] = "granted",
        [TORMUKAI_BANNED] = "banned",
        [TORMUKAI_BOTH] = "both",
    };
    return names[value];
}

void tell_answer(Writer *out, uint32_t value)
{
    tell_word(out, "answer", answer_name(value));
    say(out, " (");
    tell_number(out, "value", value);
    say(out, ")");
}

int answer(Desk *desk)
{
    const Asked *asked = &desk->asked;
    TormukaiAnswer told = tormukai_sheet_answer(desk->sheet.words, desk->sheet.length, asked->office, asked->person,
                                                asked->deed, asked->folio);
    if (refused(desk, refusal_of(told)))
        return REFUSED;
    tell_answer(&desk->out, told.value);
    say(&desk->out, "\n");
    return ANSWERED;
}

static void tell_deciding_office(Writer *out, uint32_t office)
{
    note_number(out, "office", office);
    say(out, ", decided by ");
    if (office == 0) {
        say(out, "no office\n");
        return;
    }
    say(out, "office ");
    say_number(out, office);
    say(out, "\n");
}

int joint(Desk *desk)
{
    const Asked *asked = &desk->asked;
    TormukaiAnswer told = tormukai_sheet_joint_answer(desk->sheet.words, desk->sheet.length, asked->rule, asked->person,
                                                      asked->deed, asked->folio);
    if (refused(desk, refusal_of(told)))
        return REFUSED;
    tell_answer(&desk->out, told.value);
    tell_deciding_office(&desk->out, told.count);
    return ANSWERED;
}

int witness(Desk *desk)
{
    static uint32_t nodes[TORMUKAI_WITNESS_WORDS];
    const Asked *asked = &desk->asked;
    TormukaiAnswer told =
        tormukai_sheet_witness(desk->sheet.words, desk->sheet.length, asked->office, asked->kind, asked->person,
                               asked->deed, asked->folio, nodes, TORMUKAI_WITNESS_WORDS);
    if (refused(desk, refusal_of(told)))
        return REFUSED;
    size_t count = told.count / 2;
    open_list(&desk->out, "path");
    for (size_t i = 0; i < count; i++) {
        say(&desk->out, i == 0 ? "" : " > ");
        open_object(&desk->out, NULL);
        tell_identity(&desk->out, (Identity){type_at(i, count), nodes[2 * i], nodes[2 * i + 1]});
        close_object(&desk->out);
    }
    close_list(&desk->out);
    say(&desk->out, "\n");
    return ANSWERED;
}

/* The library knows a path by its numbers alone. Types that were typed have to fit their places. */
static bool types_fit(const TypedPath *typed)
{
    for (size_t i = 0; i < typed->count; i++)
        if (typed->nodes[i].type != 0 && typed->nodes[i].type != type_at(i, typed->count))
            return false;
    return true;
}

int path(Desk *desk)
{
    static uint32_t list[2 * TYPED_NODES];
    const Asked *asked = &desk->asked;
    for (size_t i = 0; i < asked->path.count; i++) {
        list[2 * i] = asked->path.nodes[i].number;
        list[2 * i + 1] = asked->path.nodes[i].variant;
    }
    TormukaiAnswer told = tormukai_is_path(desk->sheet.words, desk->sheet.length, asked->office, asked->kind, asked->person,
                                           asked->deed, asked->folio, list, 2 * asked->path.count);
    if (refused(desk, refusal_of(told)))
        return REFUSED;
    tell_truth(&desk->out, "path", told.value == 1 && types_fit(&asked->path));
    say(&desk->out, "\n");
    return ANSWERED;
}
