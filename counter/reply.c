/* How every reply begins and ends: with the verb and the refusal, or with none. */
#include "desk.h"

#include <string.h>

/* Row 0 is a row for these numbers alone; for the others a row of 0 is no place. */
static bool is_of_row(uint32_t number)
{
    return TORMUKAI_REFUSED_NODE_TYPE <= number && number <= TORMUKAI_REFUSED_EDGE_ORDER;
}

/* A row that is to be added stands in no sheet yet, and has no place. */
static void say_place(Writer *out, TormukaiRefusal refusal)
{
    if (refusal.sheet == 0)
        return;
    say(out, " at sheet ");
    say_number(out, refusal.sheet);
    if (is_of_row(refusal.number)) {
        say(out, " row ");
        say_number(out, refusal.row);
    }
}

static void begin_reply(Desk *desk)
{
    open_object(&desk->out, NULL);
    note_word(&desk->out, "verb", desk->verb->name);
}

static void begin_refusal(Writer *out, uint32_t number)
{
    open_object(out, "refusal");
    say(out, "refused ");
    tell_number(out, "number", number);
}

/* The place as the library has it, which the text has said in words, and the sentence. */
static void tell_sentence(Writer *out, uint32_t number, uint32_t sheet, size_t row)
{
    note_number(out, "sheet", sheet);
    note_number(out, "row", row);
    say(out, ": ");
    tell_word(out, "text", tormukai_refusal_text(number));
}

void tell_refusal(Desk *desk, TormukaiRefusal refusal)
{
    Writer *out = &desk->out;
    begin_reply(desk);
    begin_refusal(out, refusal.number);
    say_place(out, refusal);
    tell_sentence(out, refusal.number, refusal.sheet, refusal.row);
}

int end_refusal(Desk *desk)
{
    say(&desk->out, "\n");
    close_object(&desk->out);
    return REFUSED;
}

bool refused(Desk *desk, TormukaiRefusal refusal)
{
    if (refusal.number == 0) {
        begin_reply(desk);
        note_null(&desk->out, "refusal");
        return false;
    }
    tell_refusal(desk, refusal);
    end_refusal(desk);
    return true;
}

/* The counts and the room are of the whole listing; every other number is of a line. */
static bool has_line(uint32_t number)
{
    return number != 0 && number != TORMUKAI_REFUSED_COUNTS && number != TORMUKAI_REFUSED_OUTPUT_TOO_SHORT;
}

/* What the quoted bytes do not show. Of a line that is cut nothing more is said: it may not have been read to its end. */
static void tell_note(Writer *out, const char *note)
{
    if (note == NULL) {
        note_null(out, "note");
        return;
    }
    say(out, " (");
    tell_word(out, "note", note);
    say(out, ")");
}

/* Of a longer line this much is shown. A line that is almost right is shorter. */
#define SHOWN 60
#define AS_TEXT(number) #number
#define FIRST_BYTES(number) "its first " AS_TEXT(number) " bytes"

static size_t shown_length(Line line)
{
    return line.length > SHOWN ? SHOWN : line.length;
}

static const char *note_on(Line line)
{
    if (line.length > SHOWN)
        return FIRST_BYTES(SHOWN);
    return line.has_line_feed ? NULL : "no line feed";
}

void tell_line(Writer *out, Line line)
{
    say(out, ": \"");
    tell_bytes(out, "shown", line.bytes, shown_length(line));
    say(out, "\"");
    tell_note(out, note_on(line));
}

void show_line(FILE *stream, Line line)
{
    const char *note = note_on(line);
    fputs("\"", stream);
    show_bytes(stream, line.bytes, shown_length(line));
    fputs("\"", stream);
    if (note != NULL)
        fprintf(stream, " (%s)", note);
}

/* A refusal of a text's line, by its number from 0. The line is shown. */
static int refuse_line(Desk *desk, uint32_t number, const char *file, size_t row, Line line)
{
    Writer *out = &desk->out;
    begin_reply(desk);
    begin_refusal(out, number);
    say(out, " at ");
    say(out, file);
    say(out, ":");
    say_number(out, row + 1);
    tell_sentence(out, number, 0, row);
    note_bytes(out, "file", file, strlen(file));
    note_number(out, "line", row + 1);
    tell_line(out, line);
    return end_refusal(desk);
}

bool refused_listing(Desk *desk, TormukaiListing told)
{
    if (!has_line(told.number))
        return refused(desk, (TormukaiRefusal){told.number, told.sheet, 0});
    refuse_line(desk, told.number, desk->listing.name, told.row, line_at(&desk->listing, told.row));
    return true;
}

/* The library names no row of a trace, since it was lent one row alone. Its bytes have none. */
static int refuse_row(Desk *desk, uint32_t number, const char *file, size_t row)
{
    Writer *out = &desk->out;
    bool of_row = number != TORMUKAI_REFUSED_FILE_LENGTH;
    begin_reply(desk);
    begin_refusal(out, number);
    say(out, " at ");
    say(out, file);
    if (of_row) {
        say(out, " row ");
        say_number(out, row);
    }
    tell_sentence(out, number, 0, of_row ? row : 0);
    note_bytes(out, "file", file, strlen(file));
    return end_refusal(desk);
}

int refuse_trace(Desk *desk, uint32_t number)
{
    const Trace *trace = &desk->trace;
    return trace->typed ? refuse_line(desk, number, trace->name, trace->row, line_of(trace))
                        : refuse_row(desk, number, trace->name, trace->row);
}

void end_reply(Desk *desk)
{
    close_object(&desk->out);
    note_line_end(&desk->out);
}

TormukaiRefusal refusal_of(TormukaiAnswer answer)
{
    return (TormukaiRefusal){answer.number, answer.sheet, answer.row};
}
