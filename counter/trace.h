/* A duty desk's trace, read row by row: words, or lines that were typed. */
#ifndef TRACE_H
#define TRACE_H

#include "tormukai.h"

#include <stdbool.h>
#include <stdio.h>

/* A line of a text, without its line feed. */
typedef struct Line {
    const uint8_t *bytes;
    size_t length;
    bool has_line_feed;
} Line;

/* No longer line is one of the three, which need 47 bytes; so a line without end is no row either. */
enum { TRACE_LINE = 60 };

/* What is read of a trace's file. */
typedef struct Trace {
    const char *name;
    bool typed;
    FILE *stream;
    size_t row; /* the one that was read last, from 0 */
    uint32_t words[TORMUKAI_ROW_WORDS];
    size_t length;             /* of them: fewer than five where the last row is cut short */
    char line[TRACE_LINE + 2]; /* the row as it was typed: a byte more than a line has, and a zero */
    size_t line_length;
    bool has_line_feed;
} Trace;

/* What the reading of a row came to: a row, the end of the trace, a last word that is cut short, a line that is none of the
 * three, or a file that can't be read on, with the reason in errno. */
typedef enum Reading { ROW_READ, NO_MORE_ROWS, CUT_WORD, NO_ROW, UNREADABLE } Reading;

/* False, and the reason in errno, where it can't be opened. */
bool open_trace(Trace *trace);
Reading read_row(Trace *trace);
void close_trace(Trace *trace);

/* The typed row that was read last. */
Line line_of(const Trace *trace);

/* reply.c: a line in quotes, and behind it what the quotes do not show. */
void show_line(FILE *stream, Line line);

#endif
