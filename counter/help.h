/* What the counter says of itself. */
#ifndef HELP_H
#define HELP_H

#include "desk.h"

/* On standard output. */
void print_help(void);
void print_help_on(const Verb *verb);
void print_version(void);

/* On standard error: what is wrong with the word, the verb's usage line and where its help is. Always false. */
bool bad_usage(const Verb *verb, const char *word, const char *fault);

/* On standard error, where there is no verb, and where the word is none. */
void no_verb(void);
void unknown_verb(const char *word);

#endif
