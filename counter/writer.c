/* One writer for text and JSON. */
#include "writer.h"

#include <inttypes.h>

/* A string's content in JSON. Bytes from 128 on are passed through: what is told is ASCII. */
static void put_escaped(const char *text)
{
    for (; *text != '\0'; text++) {
        unsigned char byte = (unsigned char)*text;
        if (byte == '"' || byte == '\\')
            printf("\\%c", byte);
        else if (byte == '\n')
            fputs("\\n", stdout);
        else if (byte < ' ')
            printf("\\u%04x", byte);
        else
            putchar(byte);
    }
}

static void put_string(const char *text)
{
    putchar('"');
    put_escaped(text);
    putchar('"');
}

static bool as_json(const Writer *out)
{
    return out->json && !out->quoting;
}

/* What stands before a JSON value: the comma after the value before it, and its name. */
static void begin_value(Writer *out, const char *name)
{
    if (out->comma)
        putchar(',');
    out->comma = true;
    if (name != NULL) {
        put_string(name);
        putchar(':');
    }
}

void say(Writer *out, const char *words)
{
    if (out->quoting)
        put_escaped(words);
    else if (!out->json)
        fputs(words, stdout);
}

void say_number(Writer *out, uint64_t number)
{
    if (!as_json(out))
        printf("%" PRIu64, number);
}

void tell_number(Writer *out, const char *name, uint64_t number)
{
    note_number(out, name, number);
    say_number(out, number);
}

void tell_word(Writer *out, const char *name, const char *word)
{
    note_word(out, name, word);
    say(out, word);
}

void tell_truth(Writer *out, const char *name, bool truth)
{
    note_truth(out, name, truth);
    say(out, truth ? "yes" : "no");
}

void note_number(Writer *out, const char *name, uint64_t number)
{
    if (as_json(out)) {
        begin_value(out, name);
        printf("%" PRIu64, number);
    }
}

/* In a JSON string the backslash is doubled. */
static void put_bytes(FILE *stream, const unsigned char *bytes, size_t length, const char *backslash)
{
    for (size_t i = 0; i < length; i++) {
        if (bytes[i] < ' ' || bytes[i] > '~' || bytes[i] == '"' || bytes[i] == '\\')
            fprintf(stream, "%sx%02x", backslash, bytes[i]);
        else
            putc(bytes[i], stream);
    }
}

void show_bytes(FILE *stream, const void *bytes, size_t length)
{
    put_bytes(stream, bytes, length, "\\");
}

void tell_bytes(Writer *out, const char *name, const void *bytes, size_t length)
{
    note_bytes(out, name, bytes, length);
    if (!as_json(out))
        show_bytes(stdout, bytes, length);
}

void note_bytes(Writer *out, const char *name, const void *bytes, size_t length)
{
    if (as_json(out)) {
        begin_value(out, name);
        putchar('"');
        put_bytes(stdout, bytes, length, "\\\\");
        putchar('"');
    }
}

void note_word(Writer *out, const char *name, const char *word)
{
    if (as_json(out)) {
        begin_value(out, name);
        put_string(word);
    }
}

void note_truth(Writer *out, const char *name, bool truth)
{
    if (as_json(out)) {
        begin_value(out, name);
        fputs(truth ? "true" : "false", stdout);
    }
}

void note_null(Writer *out, const char *name)
{
    if (as_json(out)) {
        begin_value(out, name);
        fputs("null", stdout);
    }
}

void note_line_end(Writer *out)
{
    if (as_json(out))
        putchar('\n');
}

static void open_value(Writer *out, const char *name, char bracket)
{
    if (as_json(out)) {
        begin_value(out, name);
        putchar(bracket);
        out->comma = false;
    }
}

static void close_value(Writer *out, char bracket)
{
    if (as_json(out)) {
        putchar(bracket);
        out->comma = true;
    }
}

void open_object(Writer *out, const char *name)
{
    open_value(out, name, '{');
}

void close_object(Writer *out)
{
    close_value(out, '}');
}

void open_list(Writer *out, const char *name)
{
    open_value(out, name, '[');
}

void close_list(Writer *out)
{
    close_value(out, ']');
}

void open_text(Writer *out, const char *name)
{
    open_value(out, name, '"');
    out->quoting = out->json;
}

void close_text(Writer *out)
{
    out->quoting = false;
    close_value(out, '"');
}
