/* The rows of a trace's file. Only one is kept, so that a trace may have any length, and one that never ends is refused at its
 * first bad row. */
#include "trace.h"
#include "arguments.h"

#include <string.h>

enum { MINUTE, KIND, FOLIO_OF_ROW };

bool open_trace(Trace *trace)
{
    trace->stream = strcmp(trace->name, "-") == 0 ? stdin : fopen(trace->name, "rb");
    return trace->stream != NULL;
}

void close_trace(Trace *trace)
{
    if (trace->stream != stdin)
        fclose(trace->stream);
}

Line line_of(const Trace *trace)
{
    return (Line){(const uint8_t *)trace->line, trace->line_length, trace->has_line_feed};
}

static uint32_t word_at(const uint8_t *bytes)
{
    return bytes[0] | (uint32_t)bytes[1] << 8 | (uint32_t)bytes[2] << 16 | (uint32_t)bytes[3] << 24;
}

/* A row that is cut short within a word is no words at all. One that lacks whole words is the library's to refuse. */
static Reading read_words(Trace *trace)
{
    uint8_t bytes[4 * TORMUKAI_ROW_WORDS];
    size_t length = fread(bytes, 1, sizeof bytes, trace->stream);
    if (ferror(trace->stream))
        return UNREADABLE;
    trace->length = length / 4;
    for (size_t i = 0; i < trace->length; i++)
        trace->words[i] = word_at(bytes + 4 * i);
    if (length % 4 != 0)
        return CUT_WORD;
    return length == 0 ? NO_MORE_ROWS : ROW_READ;
}

/* The bytes up to the next line feed, but no more than one above the longest line. */
static void read_line(Trace *trace)
{
    int byte = 0;
    trace->line_length = 0;
    while (trace->line_length <= TRACE_LINE && (byte = getc(trace->stream)) != EOF && byte != '\n')
        trace->line[trace->line_length++] = (char)byte;
    trace->line[trace->line_length] = '\0';
    trace->has_line_feed = byte == '\n';
}

/* The text behind as many numbers, with a space before each; NULL where they are not there. */
static const char *after_numbers(const char *text, uint32_t *numbers, size_t count)
{
    for (size_t i = 0; i < count && text != NULL; i++)
        text = *text == ' ' ? after_number(text + 1, &numbers[i]) : NULL;
    return text;
}

/* Whether the line is one of the three; if so, its row. A zero within it ends no line. */
static bool read_typed_row(Trace *trace)
{
    static const struct {
        const char *word;
        uint32_t kind;
        size_t numbers;
    } lines[] = {
        {" start", TORMUKAI_ROW_START, 1},
        {" end", TORMUKAI_ROW_END, 1},
        {" ask", TORMUKAI_ROW_QUESTION, 3},
    };
    const char *rest = after_number(trace->line, &trace->words[MINUTE]);
    for (size_t i = 0; i < sizeof lines / sizeof *lines && rest != NULL; i++) {
        size_t length = strlen(lines[i].word);
        if (strncmp(rest, lines[i].word, length) != 0)
            continue;
        trace->words[KIND] = lines[i].kind;
        memset(trace->words + FOLIO_OF_ROW, 0, (TORMUKAI_ROW_WORDS - FOLIO_OF_ROW) * sizeof *trace->words);
        return after_numbers(rest + length, trace->words + FOLIO_OF_ROW, lines[i].numbers) == trace->line + trace->line_length;
    }
    return false;
}

static Reading read_typed(Trace *trace)
{
    read_line(trace);
    if (ferror(trace->stream))
        return UNREADABLE;
    if (trace->line_length == 0 && !trace->has_line_feed)
        return NO_MORE_ROWS;
    trace->length = TORMUKAI_ROW_WORDS;
    return trace->line_length <= TRACE_LINE && trace->has_line_feed && read_typed_row(trace) ? ROW_READ : NO_ROW;
}

Reading read_row(Trace *trace)
{
    return trace->typed ? read_typed(trace) : read_words(trace);
}
