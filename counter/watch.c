/* The verb of the duty desk: a trace's questions, each with its answer. */
#include "desk.h"

#include <errno.h>
#include <stdlib.h>
#include <string.h>

/* A question of the trace: the words of its row, the answer, and whether its folio's emergency was open. */
typedef struct Question {
    uint32_t minute;
    uint32_t folio;
    uint32_t person;
    uint32_t deed;
    uint32_t value;
    bool open;
} Question;

/* They are told only when the last row is taken, since a refused row makes a refused trace. */
typedef struct Questions {
    Question *all;
    size_t count;
    size_t room;
} Questions;

enum { ROOM = 1024 };

/* False, and the reason in errno, where there is no memory. */
static bool keep(Questions *questions, Question question)
{
    if (questions->count == questions->room) {
        size_t room = questions->room == 0 ? ROOM : 2 * questions->room;
        Question *grown = room > SIZE_MAX / sizeof *grown ? NULL : realloc(questions->all, room * sizeof *grown);
        if (grown == NULL) {
            errno = ENOMEM;
            return false;
        }
        questions->all = grown;
        questions->room = room;
    }
    questions->all[questions->count++] = question;
    return true;
}

/* An empty trace is one without questions. So a file that can't be read counts as nothing at all. */
static int no_trace(const Trace *trace)
{
    fprintf(stderr, "counter: %s: %s\n", trace->name, strerror(errno));
    return BAD_USAGE;
}

/* The text form is this command's own, so the table of refusals has no number for it. */
static int no_line(const Desk *desk)
{
    const Trace *trace = &desk->trace;
    fprintf(stderr, "counter: %s:%zu: not one of the three lines, or no line feed at its end: ", trace->name, trace->row + 1);
    show_line(stderr, line_of(trace));
    fprintf(stderr, "\nTry 'counter %s --help'.\n", desk->verb->name);
    return BAD_USAGE;
}

/* The row that was read last, on the table. */
static int take_row(Desk *desk, TormukaiWatch *table, Questions *questions)
{
    const uint32_t *row = desk->trace.words;
    TormukaiAnswer told = tormukai_step(table, desk->sheet.words, desk->sheet.length, desk->asked.timeout, row,
                                        desk->trace.length);
    if (told.number != 0)
        return refuse_trace(desk, told.number);
    if (told.count == 0 || keep(questions, (Question){row[0], row[2], row[3], row[4], told.value, told.count == 2}))
        return ANSWERED;
    return no_trace(&desk->trace);
}

static int take_rows(Desk *desk, Questions *questions)
{
    static TormukaiWatch table;
    for (;; desk->trace.row++) {
        int status = ANSWERED;
        switch (read_row(&desk->trace)) {
        case NO_MORE_ROWS: return ANSWERED;
        case UNREADABLE: return no_trace(&desk->trace);
        case NO_ROW: return no_line(desk);
        case CUT_WORD: return refuse_trace(desk, TORMUKAI_REFUSED_FILE_LENGTH);
        case ROW_READ: status = take_row(desk, &table, questions); break;
        }
        if (status != ANSWERED)
            return status;
    }
}

static void tell_question(Writer *out, Question question)
{
    open_object(out, NULL);
    say(out, "minute ");
    tell_number(out, "minute", question.minute);
    say(out, ": folio ");
    tell_number(out, "folio", question.folio);
    say(out, ", person ");
    tell_number(out, "person", question.person);
    say(out, ", deed ");
    tell_number(out, "deed", question.deed);
    say(out, ": ");
    tell_answer(out, question.value);
    note_truth(out, "open", question.open);
    say(out, question.open ? ", emergency open\n" : ", emergency not open\n");
    close_object(out);
}

static void tell_questions(Desk *desk, const Questions *questions)
{
    refused(desk, (TormukaiRefusal){0, 0, 0});
    open_list(&desk->out, "questions");
    for (size_t i = 0; i < questions->count; i++)
        tell_question(&desk->out, questions->all[i]);
    close_list(&desk->out);
    say(&desk->out, questions->count == 0 ? "none\n" : "");
}

/* A trace without rows is refused for its sheet alone. */
static TormukaiRefusal refusal_of_sheet(const Desk *desk)
{
    static const uint32_t no_rows[1];
    uint32_t no_answers[1];
    TormukaiTraceReply told =
        tormukai_trace(desk->sheet.words, desk->sheet.length, desk->asked.timeout, no_rows, 0, no_answers, 0);
    return (TormukaiRefusal){told.number, told.sheet, told.row};
}

int watch(Desk *desk)
{
    Questions questions = {NULL, 0, 0};
    TormukaiRefusal refusal = refusal_of_sheet(desk);
    if (refusal.number != 0 && refused(desk, refusal))
        return REFUSED;
    if (!open_trace(&desk->trace))
        return no_trace(&desk->trace);
    int status = take_rows(desk, &questions);
    close_trace(&desk->trace);
    if (status == ANSWERED)
        tell_questions(desk, &questions);
    free(questions.all);
    return status;
}
