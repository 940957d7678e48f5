/* The sentences of the table of refusals (docs/RULES.md). They stand here and nowhere else: tools/join reads them from the
 * lines below, so each keeps to one line. */
#include "tormukai.h"

static const char *const sentences[] = {
    [1] = "under 6 words",
    [2] = "form not 1",
    [3] = "office count not 1 or 2, or no office 2 for the duty desk",
    [4] = "n above 512 or e above 2,048",
    [5] = "an offset or the length is wrong",
    [6] = "node type",
    [7] = "number 0, or variant on a non-deed",
    [8] = "node offices",
    [9] = "node identity equal to the row before, or already there",
    [10] = "node identity lower than the row before",
    [11] = "edge kind",
    [12] = "an end not below n",
    [13] = "end types don't fit the kind",
    [14] = "containment in itself",
    [15] = "edge offices",
    [16] = "edge equal to the row before, or already there",
    [17] = "edge lower than the row before",
    [20] = "office number not 1 to the count",
    [21] = "unknown person",
    [22] = "unknown deed",
    [23] = "unknown folio",
    [24] = "unknown category",
    [25] = "output shorter than the result",
    [26] = "no such path, triple or pair",
    [27] = "rule number",
    [28] = "joining or listing a sheet whose office count isn't 1",
    [29] = "union above 512 nodes",
    [30] = "union above 2,048 edges",
    [31] = "question 9 with equal deeds",
    [32] = "identity in neither sheet",
    [33] = "bytes: length not a multiple of 4, or above 40,984",
    [40] = "not one of the nine lines, or no line feed at its end",
    [41] = "a number that is 0, has a leading zero or is above 4,294,967,295",
    [42] = "a repeated row",
    [43] = "an edge whose end has no node line",
    [50] = "minute lower than the row before",
    [51] = "a start that would make 33 folios held",
    [54] = "a row of a trace with an unknown kind, a nonzero spare word or not five words",
    [59] = "a table that names a folio in two places",
};

const char *tormukai_refusal_text(uint32_t number)
{
    if (number < sizeof sentences / sizeof *sentences && sentences[number] != NULL)
        return sentences[number];
    return "not in the table of refusals";
}
