/* The text of a listing's file. It may have any length, so the room for it grows with it. */
#include "desk.h"

#include <errno.h>
#include <stdio.h>
#include <stdlib.h>
#include <string.h>

/* The room at first, and the longest right line. */
enum { ROOM = 65536, LONGEST_LINE = 41 };

/* What may still follow a line that has begun, if it is to be one of the nine: the rest of a number, of a deed, of an edge. */
static const char *const endings[] = {"\n", "1\n", "/1\n", " 1\n", "1 1\n", "1/1\n", "/1 1\n", " 1/1\n"};
enum { LONGEST_ENDING = sizeof " 1/1\n" - 1 };

static uint32_t fault_of(const uint8_t *bytes, size_t length)
{
    static uint32_t no_room[1];
    return tormukai_read_listing(bytes, length, no_room, 0).number;
}

/* Whether whole lines are refused by one of them, and so by the same whatever follows. */
static bool has_bad_line(const uint8_t *bytes, size_t length)
{
    uint32_t fault = fault_of(bytes, length);
    return fault == TORMUKAI_REFUSED_LISTING_LINE || fault == TORMUKAI_REFUSED_LISTING_NUMBER ||
           fault == TORMUKAI_REFUSED_LISTING_REPEATED || fault == TORMUKAI_REFUSED_WITHIN_ITSELF;
}

/* Whether a line that has begun is none of the nine whatever follows. Only of a line that is longer than a right one, and has
 * its first words therefore. The endings are tried behind it, where the text has room for one. */
static bool is_bad_beginning(uint8_t *line, size_t length)
{
    for (size_t i = 0; i < sizeof endings / sizeof *endings; i++) {
        size_t more = strlen(endings[i]);
        memcpy(line + length, endings[i], more);
        if (fault_of(line, length + more) != TORMUKAI_REFUSED_LISTING_LINE)
            return false;
    }
    return true;
}

/* Whether what was read decides already. So an endless file, as /dev/zero, is refused too. */
static bool is_decided(const Text *text)
{
    size_t whole = text->length;
    while (whole > 0 && text->bytes[whole - 1] != '\n')
        whole--;
    if (has_bad_line(text->bytes, whole))
        return true;
    size_t begun = text->length - whole;
    return begun > LONGEST_LINE && is_bad_beginning(text->bytes + whole, begun);
}

/* Doubles the room as long as it does not hold all. False, and the reason in errno, where reading fails or memory runs out. */
static bool fill(Text *text, FILE *stream)
{
    for (size_t room = ROOM; room > text->length; room *= 2) {
        uint8_t *grown = realloc(text->bytes, room + LONGEST_ENDING);
        if (grown == NULL)
            return false;
        text->bytes = grown;
        text->length += fread(grown + text->length, 1, room - text->length, stream);
        if (text->length < room || is_decided(text))
            return !ferror(stream);
    }
    errno = ENOMEM;
    return false;
}

bool read_text(Text *text)
{
    bool standard = strcmp(text->name, "-") == 0;
    FILE *stream = standard ? stdin : fopen(text->name, "rb");
    bool whole = stream != NULL && fill(text, stream);
    if (!whole)
        fprintf(stderr, "counter: %s: %s\n", text->name, strerror(errno));
    if (stream != NULL && !standard)
        fclose(stream);
    return whole;
}

Line line_at(const Text *text, size_t number)
{
    const uint8_t *start = text->bytes;
    const uint8_t *end = text->bytes + text->length;
    for (size_t i = 0; i < number; i++)
        start = (const uint8_t *)memchr(start, '\n', (size_t)(end - start)) + 1;
    const uint8_t *line_feed = memchr(start, '\n', (size_t)(end - start));
    return (Line){start, (size_t)((line_feed == NULL ? end : line_feed) - start), line_feed != NULL};
}
