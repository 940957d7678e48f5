/* The arguments of a verb: how each is called, and how it is read. */
#include "arguments.h"
#include "help.h"

#include <stddef.h>
#include <string.h>

static bool read_name(const char *word, void *name)
{
    *(const char **)name = word;
    return true;
}

/* Standard input can be read once. */
static bool read_second_name(const char *word, void *files)
{
    File *file = files;
    file[1].name = word;
    return strcmp(word, "-") != 0 || strcmp(file[0].name, "-") != 0;
}

static bool read_trace_name(const char *word, void *into)
{
    Desk *desk = into;
    desk->trace.name = word;
    return strcmp(word, "-") != 0 || strcmp(desk->files[0].name, "-") != 0;
}

static bool read_result_name(const char *word, void *name)
{
    return read_name(word, name) && *word != '\0' && strcmp(word, "-") != 0;
}

static bool read_any_number(const char *word, void *number)
{
    return read_number(word, number);
}

/* A rule's name or any number: what is no rule's is the library's to refuse. */
static bool read_rule(const char *word, void *rule)
{
    static const char *const names[] = {
        [TORMUKAI_GRANT_FIRST] = "grant-first",
        [TORMUKAI_DENY_FIRST] = "deny-first",
        [TORMUKAI_FIRST_APPLICABLE] = "first-applicable",
    };
    for (uint32_t i = TORMUKAI_GRANT_FIRST; i <= TORMUKAI_FIRST_APPLICABLE; i++) {
        if (strcmp(word, names[i]) == 0) {
            *(uint32_t *)rule = i;
            return true;
        }
    }
    return read_number(word, rule);
}

static bool read_kind(const char *word, void *into)
{
    Asked *asked = into;
    asked->kind_given = true;
    asked->kind = strcmp(word, "grant") == 0 ? TORMUKAI_GRANT : TORMUKAI_BAN;
    return asked->kind == TORMUKAI_GRANT || strcmp(word, "ban") == 0;
}

static bool read_type(const char *word, void *identity)
{
    uint32_t type = type_of_name(word);
    ((Identity *)identity)->type = type;
    return type != 0;
}

static bool read_number_and_variant(const char *word, void *identity)
{
    return read_identity(word, identity);
}

static bool read_marks(const char *word, void *offices)
{
    return read_offices(word, offices);
}

static const char typed_option[] = "--text";

static bool read_option(const char *word, void *typed)
{
    *(bool *)typed = true;
    return strcmp(word, typed_option) == 0;
}

static const char read_twice[] = "can be read only once";
static const char no_number[] = "is no number from 0 to 4294967295";
static const char no_node[] = "is no node: [person|category|deed|folio] NUMBER[/VARIANT]";

/* Each argument's name in a usage line, its reader, where in the desk it goes, and what is said where it can't be read. */
static const struct {
    const char *name;
    bool (*read)(const char *word, void *into);
    size_t into;
    const char *fault;
} arguments[] = {
    [SHEET] = {"FILE", read_name, offsetof(Desk, files[0].name), ""},
    [FIRST] = {"FIRST", read_name, offsetof(Desk, files[0].name), ""},
    [SECOND] = {"SECOND", read_second_name, offsetof(Desk, files), read_twice},
    [LISTING] = {"LISTING", read_name, offsetof(Desk, listing.name), ""},
    [RESULT] = {"OUT", read_result_name, offsetof(Desk, asked.result), "is no file's name for the result"},
    [OFFICE] = {"OFFICE", read_any_number, offsetof(Desk, asked.office), no_number},
    [RULE] = {"RULE", read_rule, offsetof(Desk, asked.rule),
              "is no rule: 1 grant-first, 2 deny-first, 3 first-applicable"},
    [KIND_OF_PATH] = {"grant|ban", read_kind, offsetof(Desk, asked), "is neither grant nor ban"},
    [PERSON] = {"PERSON", read_any_number, offsetof(Desk, asked.person), no_number},
    [CATEGORY] = {"CATEGORY", read_any_number, offsetof(Desk, asked.category), no_number},
    [DEED] = {"DEED", read_any_number, offsetof(Desk, asked.deed), no_number},
    [OTHER_DEED] = {"DEED", read_any_number, offsetof(Desk, asked.other_deed), no_number},
    [FOLIO] = {"FOLIO", read_any_number, offsetof(Desk, asked.folio), no_number},
    [TYPE_OF_NODE] = {"person|category|deed|folio", read_type, offsetof(Desk, asked.identity),
                      "is no type: person, category, deed or folio"},
    [IDENTITY] = {"NUMBER[/VARIANT]", read_number_and_variant, offsetof(Desk, asked.identity),
                  "is no identity: NUMBER or NUMBER/VARIANT"},
    [LINE] = {"LINE", read_name, offsetof(Desk, asked.line), ""},
    [OFFICES] = {"OFFICES", read_marks, offsetof(Desk, asked.offices),
                 "is no list of offices: numbers from 1 to 32 with commas, none twice"},
    [TIMEOUT] = {"TIMEOUT", read_any_number, offsetof(Desk, asked.timeout), no_number},
    [TRACE] = {"TRACE", read_trace_name, 0, read_twice},
    [TYPED] = {typed_option, read_option, offsetof(Desk, trace.typed), "is not the option --text"},
    [NODES] = {"NODE..", NULL, 0, no_node},
};

const char *argument_name(Argument argument)
{
    return arguments[argument].name;
}

size_t argument_count(const Verb *verb)
{
    size_t count = 0;
    while (count < ARGUMENTS && verb->arguments[count] != NO_ARGUMENT)
        count++;
    return count;
}

/* Why there can't be so many arguments, or NULL. */
static const char *fault_of_count(const Verb *verb, size_t count)
{
    size_t most = argument_count(verb);
    if (count > most)
        return verb->arguments[most - 1] == NODES ? NULL : "has too many arguments";
    return count == most || count == most - verb->optional ? NULL : "has too few arguments";
}

/* The option is the last argument, but many type options first. There it is moved to its place. */
static void move_option(const Verb *verb, char **words, size_t count)
{
    if (count != argument_count(verb) || verb->arguments[count - 1] != TYPED || strcmp(words[0], typed_option) != 0 ||
        strcmp(words[count - 1], typed_option) == 0)
        return;
    char *option = words[0];
    memmove(words, words + 1, (count - 1) * sizeof *words);
    words[count - 1] = option;
}

bool read_arguments(Desk *desk, char **words)
{
    size_t count = 0;
    while (words[count] != NULL)
        count++;
    const char *fault = fault_of_count(desk->verb, count);
    if (fault != NULL)
        return bad_usage(desk->verb, desk->verb->name, fault);
    move_option(desk->verb, words, count);
    for (size_t i = 0; i < count; i++) {
        Argument argument = desk->verb->arguments[i];
        if (argument == NODES) {
            const char *wrong = read_path(words + i, &desk->asked.path);
            return wrong == NULL || bad_usage(desk->verb, wrong, no_node);
        }
        if (!arguments[argument].read(words[i], (char *)desk + arguments[argument].into))
            return bad_usage(desk->verb, words[i], arguments[argument].fault);
    }
    return true;
}
