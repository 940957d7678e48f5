/* The counter program. It passes on the files' bytes, whatever they are, and adds nothing to the library's answers but their
 * words. docs/COUNTER.md says what it prints. */
#include "arguments.h"
#include "help.h"

#include <signal.h>
#include <stdio.h>
#include <string.h>

static const Verb *verb_named(const char *name)
{
    for (const Verb *verb = verbs; verb->name != NULL; verb++)
        if (strcmp(name, verb->name) == 0)
            return verb;
    return NULL;
}

/* The words of the verb's one sheet. A verb on two files has an order of refusals to keep, and opens them itself. */
static TormukaiRefusal open_one_sheet(Desk *desk)
{
    return desk->verb->arguments[0] == SHEET ? open_sheet(&desk->files[0], &desk->sheet) : (TormukaiRefusal){0, 0, 0};
}

static int ask(Desk *desk)
{
    for (size_t i = 0; i < FILES && desk->files[i].name != NULL; i++)
        read_file(&desk->files[i]);
    TormukaiRefusal unopened = open_one_sheet(desk);
    int status = unopened.number != 0 && refused(desk, unopened) ? REFUSED : desk->verb->serve(desk);
    if (status == ANSWERED || status == REFUSED)
        end_reply(desk);
    return status;
}

static bool is_alone(char **words, const char *word)
{
    return words[0] != NULL && strcmp(words[0], word) == 0 && words[1] == NULL;
}

static int serve_verb(Desk *desk, char **words)
{
    desk->verb = verb_named(*words);
    if (desk->verb == NULL) {
        unknown_verb(*words);
        return BAD_USAGE;
    }
    if (is_alone(words + 1, "--help")) {
        print_help_on(desk->verb);
        return ANSWERED;
    }
    return read_arguments(desk, words + 1) ? ask(desk) : BAD_USAGE;
}

static int serve(Desk *desk, char **words)
{
    if (*words != NULL && strcmp(*words, "--json") == 0) {
        desk->out.json = true;
        words++;
    }
    if (*words == NULL) {
        no_verb();
        return BAD_USAGE;
    }
    if (is_alone(words, "--help"))
        print_help();
    else if (is_alone(words, "--version"))
        print_version();
    else
        return serve_verb(desk, words);
    return ANSWERED;
}

/* An answer that does not reach its reader is none: a full disk or a closed pipe has a status of its own. So has a limit on
 * a file's size, which would otherwise kill the program half way through a result. */
int main(int count, char **words)
{
    static Desk desk;
    signal(SIGPIPE, SIG_IGN);
    signal(SIGXFSZ, SIG_IGN);
    int status = serve(&desk, count == 0 ? words : words + 1);
    if (status == BAD_USAGE || status == UNWRITTEN)
        return status;
    if (ferror(stdout) || fclose(stdout) != 0) {
        fputs("counter: the output can't be written\n", stderr);
        return UNWRITTEN;
    }
    return status;
}
