/* One writer for text and JSON.
 *
 * A verb tells each fact once, under a name. As text the fact's value alone stands among the words that are said around it. As
 * JSON the fact stands under its name, and what is only said is left out. So a verb has one body for both. */
#ifndef WRITER_H
#define WRITER_H

#include <stdbool.h>
#include <stddef.h>
#include <stdint.h>
#include <stdio.h>

typedef struct Writer {
    bool json;
    bool quoting; /* within a JSON string whose content is told as text */
    bool comma;   /* a comma goes before the next JSON value */
} Writer;

/* In text only: what stands between the facts. */
void say(Writer *out, const char *words);
void say_number(Writer *out, uint64_t number);

/* In both: a fact. Within a list the name is NULL. A truth is 'yes' or 'no' in text. */
void tell_number(Writer *out, const char *name, uint64_t number);
void tell_word(Writer *out, const char *name, const char *word);
void tell_truth(Writer *out, const char *name, bool truth);

/* In both: bytes that may be anything. What is no printable ASCII character, a quote and a backslash stand as \x and two
 * hexadecimal digits, so that nothing is hidden and nothing reaches a terminal but letters. */
void tell_bytes(Writer *out, const char *name, const void *bytes, size_t length);

/* The same bytes on another stream. */
void show_bytes(FILE *stream, const void *bytes, size_t length);

/* In JSON only: a fact that the text has in other words, or not at all. */
void note_number(Writer *out, const char *name, uint64_t number);
void note_word(Writer *out, const char *name, const char *word);
void note_bytes(Writer *out, const char *name, const void *bytes, size_t length);
void note_truth(Writer *out, const char *name, bool truth);
void note_null(Writer *out, const char *name);
void note_line_end(Writer *out);

/* In JSON only: what is told in between stands in an object or in a list. */
void open_object(Writer *out, const char *name);
void close_object(Writer *out);
void open_list(Writer *out, const char *name);
void close_list(Writer *out);

/* What is said and told in between is the text of one JSON string. In text it stands as it is. */
void open_text(Writer *out, const char *name);
void close_text(Writer *out);

#endif
