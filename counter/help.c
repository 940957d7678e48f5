/* What the counter says of itself. The table of verbs has the texts. */
#include "help.h"
#include "arguments.h"

#include <inttypes.h>
#include <stdio.h>

static const char usage[] = "usage: counter [--json] VERB ARGUMENT..\n";

/* 'counter draw FILE OFFICE [grant|ban PERSON DEED FOLIO]' and a line end. */
static void print_form(FILE *stream, const Verb *verb)
{
    size_t count = argument_count(verb);
    size_t fewest = count - verb->optional;
    fprintf(stream, "counter %s", verb->name);
    for (size_t i = 0; i < count; i++)
        fprintf(stream, " %s%s", i == fewest ? "[" : "", argument_name(verb->arguments[i]));
    fputs(fewest < count ? "]\n" : "\n", stream);
}

void print_help(void)
{
    fputs("Answers a desk's questions from the files of a ship register's rights sheets.\n\n", stdout);
    fputs(usage, stdout);
    fputs("       counter VERB --help\n"
          "       counter --help\n"
          "       counter --version\n"
          "\nVerbs:\n",
          stdout);
    for (const Verb *verb = verbs; verb->name != NULL; verb++) {
        fputs("  ", stdout);
        print_form(stdout, verb);
        printf("      %s\n", verb->summary);
    }
    fputs("\nFILE, FIRST and SECOND are sheets' files, LISTING is a text's, TRACE is a duty desk's; '-' is standard input. OUT is\n"
          "the file to write.\n"
          "OFFICE, PERSON, CATEGORY, DEED and FOLIO are numbers from 0 to 4294967295.\n"
          "RULE is 1 or grant-first, 2 or deny-first, 3 or first-applicable.\n"
          "LINE is a line of a listing, in quotes. OFFICES are office numbers with commas, as 1,2. TIMEOUT is in minutes.\n"
          "\nOptions:\n"
          "  --json     before the verb: print one JSON object instead of text\n"
          "  --help     print this, or after a verb what it tells, with an example\n"
          "  --version  print the version\n"
          "\nExit status: 0 an answer, 1 a refusal, 2 bad usage, or a listing or trace that can't be read, 3 the output can't be\n"
          "written.\n"
          "\nRead on: man counter, docs/COUNTER.md (each verb and its JSON), docs/RULES.md (the rules, the refusals).\n",
          stdout);
}

/* Every verb but one reads a sheet, so the sheet's own refusals go without saying in the table. */
static void print_refusals(const Verb *verb)
{
    fputs("\nRefusals:\n", stdout);
    if (verb->arguments[0] != LISTING)
        fputs("  33, 1 to 17: a file is no sheet; the sentence says why\n", stdout);
    for (size_t i = 0; i < REFUSALS && verb->refusals[i] != 0; i++)
        printf("  %" PRIu32 ": %s\n", verb->refusals[i], tormukai_refusal_text(verb->refusals[i]));
}

void print_help_on(const Verb *verb)
{
    fputs("usage: ", stdout);
    print_form(stdout, verb);
    printf("\n%s", verb->tells);
    print_refusals(verb);
    printf("\nExample:\n$ counter %s %s\n%s", verb->name, verb->example, verb->prints);
}

void print_version(void)
{
    puts("counter " TORMUKAI_VERSION);
}

bool bad_usage(const Verb *verb, const char *word, const char *fault)
{
    fprintf(stderr, "counter: '%s' %s\nusage: ", word, fault);
    print_form(stderr, verb);
    fprintf(stderr, "Try 'counter %s --help'.\n", verb->name);
    return false;
}

static void print_usage(void)
{
    fprintf(stderr, "%sTry 'counter --help'.\n", usage);
}

void no_verb(void)
{
    fputs("counter: no verb\n", stderr);
    print_usage();
}

void unknown_verb(const char *word)
{
    fprintf(stderr, "counter: '%s' is no verb\n", word);
    print_usage();
}
