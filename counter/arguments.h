/* The arguments of a verb, as they are typed. */
#ifndef ARGUMENTS_H
#define ARGUMENTS_H

#include "desk.h"

/* The argument in a usage line: 'OFFICE', 'grant|ban'. */
const char *argument_name(Argument argument);

size_t argument_count(const Verb *verb);

/* Reads all the verb's arguments, up to the NULL after them, into the desk. False, and bad usage told, where one is wrong. */
bool read_arguments(Desk *desk, char **words);

/* typed.c: the number that the digits from the text's start make, and the text after them; NULL where there is no digit or the
 * number is too great. */
const char *after_number(const char *text, uint32_t *number);

/* typed.c: whether the word is a number from 0 to 4294967295 in decimal digits and nothing else; if so, the number. */
bool read_number(const char *word, uint32_t *number);

/* typed.c: whether the word is NUMBER or NUMBER/VARIANT; if so, both, the variant 0 where it is left out. The type stays. */
bool read_identity(const char *word, Identity *identity);

/* typed.c: whether the word is office numbers with commas, each 1 to 32 and none twice; if so, the sum of their marks. */
bool read_offices(const char *word, uint32_t *offices);

/* typed.c: reads the words up to NULL as a path's nodes. Returns the word that is no node, or NULL. Cuts the words apart. */
const char *read_path(char **words, TypedPath *path);

#endif
