/* Puts tables that the second program makes up to tormukai_step, one after the other, until the input ends. The trial program lends
 * only tables that rows led to.
 * A request is words of 32 bits, low byte first: how many words the sheet has, how many the row has, the timeout, the 129 words of
 * the table (last, then of each place mark, folio, latest and earlier), the sheet's words, the row's words. The reply is the five
 * words of the answer and the 129 of the table after it. The machine is x86-64, so words lie in memory as they are sent.
 * Exit status: 0 at the end of the input, 2 where a request is cut short or too long, or a reply can't be written. */
#include "tormukai.h"

#include <stdbool.h>
#include <stdio.h>
#include <stdlib.h>

/* More than any sheet or row that is to be tried. */
enum { MOST_WORDS = 100000 };

static bool take(void *into, size_t bytes)
{
    return fread(into, 1, bytes, stdin) == bytes;
}

/* In a piece of memory of just their length. NULL where there are too many or too few. */
static uint32_t *take_words(uint32_t count)
{
    uint32_t *words = count <= MOST_WORDS ? malloc(count == 0 ? 1 : 4 * (size_t)count) : NULL;
    if (words == NULL || take(words, 4 * (size_t)count))
        return words;
    free(words);
    return NULL;
}

static bool reply(const TormukaiAnswer *answer, const TormukaiWatch *table)
{
    return fwrite(answer, sizeof *answer, 1, stdout) == 1 && fwrite(table, sizeof *table, 1, stdout) == 1 && fflush(stdout) == 0;
}

/* The rest of a request behind its three counts. */
static bool serve(uint32_t sheet_length, uint32_t row_length, uint32_t timeout)
{
    TormukaiWatch table;
    bool served = false;
    if (!take(&table, sizeof table))
        return false;
    uint32_t *sheet = take_words(sheet_length);
    uint32_t *row = sheet == NULL ? NULL : take_words(row_length);
    if (row != NULL) {
        TormukaiAnswer answer = tormukai_step(&table, sheet, sheet_length, timeout, row, row_length);
        served = reply(&answer, &table);
    }
    free(sheet);
    free(row);
    return served;
}

int main(void)
{
    uint32_t head[3];
    for (;;) {
        size_t length = fread(head, 1, sizeof head, stdin);
        if (length != sizeof head)
            return length == 0 && !ferror(stdin) ? 0 : 2;
        if (!serve(head[0], head[1], head[2]))
            return 2;
    }
}
