/* Numbers, identities, offices and paths as a desk types them. */
#include "arguments.h"

#include <ctype.h>
#include <string.h>

/* By hand, since strtoul takes spaces, signs and, where a long is longer, numbers past the 32 bits. */
const char *after_number(const char *text, uint32_t *number)
{
    uint64_t read = 0;
    if (*text < '0' || *text > '9')
        return NULL;
    for (; '0' <= *text && *text <= '9'; text++) {
        read = 10 * read + (uint64_t)(*text - '0');
        if (read > UINT32_MAX)
            return NULL;
    }
    *number = (uint32_t)read;
    return text;
}

bool read_number(const char *word, uint32_t *number)
{
    const char *rest = after_number(word, number);
    return rest != NULL && *rest == '\0';
}

bool read_identity(const char *word, Identity *identity)
{
    const char *rest = after_number(word, &identity->number);
    identity->variant = 0;
    if (rest == NULL)
        return false;
    return *rest == '\0' || (*rest == '/' && read_number(rest + 1, &identity->variant));
}

/* A mark is a bit of a word, so there can be no more offices than bits. Which of them a sheet has is the library's to say. */
bool read_offices(const char *word, uint32_t *offices)
{
    *offices = 0;
    for (;;) {
        uint32_t office;
        word = after_number(word, &office);
        if (word == NULL || office < 1 || office > 32 || has_office(*offices, office))
            return false;
        *offices += UINT32_C(1) << (office - 1);
        if (*word != ',')
            return *word == '\0';
        word++;
    }
}

/* What may come next in a path: a node, with its type or without; only the number of a node whose type was typed; or, after a
 * whole node, an arrow or the next node. */
typedef enum Due { NODE, NUMBER_OF_NODE, ARROW_OR_NODE } Due;

typedef struct PathReader {
    TypedPath *path;
    Due due;
    Identity node;
    const char *last; /* the word that was taken last */
} PathReader;

static void add_node(PathReader *reader)
{
    if (reader->path->count < TYPED_NODES)
        reader->path->nodes[reader->path->count++] = reader->node;
    reader->node.type = 0;
    reader->due = ARROW_OR_NODE;
}

/* Takes an arrow, a type's name or an identity. False where none of them is due. */
static bool take_word(PathReader *reader, const char *word)
{
    uint32_t type = type_of_name(word);
    reader->last = word;
    if (strcmp(word, ">") == 0) {
        bool fits = reader->due == ARROW_OR_NODE;
        reader->due = NODE;
        return fits;
    }
    if (type != 0) {
        bool fits = reader->due != NUMBER_OF_NODE;
        reader->due = NUMBER_OF_NODE;
        reader->node.type = type;
        return fits;
    }
    if (!read_identity(word, &reader->node))
        return false;
    add_node(reader);
    return true;
}

/* Words end at white space and at arrows. */
static bool take_text(PathReader *reader, char *text)
{
    while (*text != '\0') {
        char *word = text;
        while (*text != '\0' && *text != '>' && !isspace((unsigned char)*text))
            text++;
        char end = *text;
        *text = '\0';
        if (*word != '\0' && !take_word(reader, word))
            return false;
        if (end == '>' && !take_word(reader, ">"))
            return false;
        if (end != '\0')
            text++;
    }
    return true;
}

const char *read_path(char **words, TypedPath *path)
{
    PathReader reader = {.path = path, .due = NODE, .last = ""};
    for (; *words != NULL; words++)
        if (!take_text(&reader, *words))
            return reader.last;
    return reader.due == ARROW_OR_NODE ? NULL : reader.last;
}
