/* The bytes of a sheet's file, and its words. */
#include "desk.h"

#include <errno.h>
#include <stdio.h>
#include <string.h>

static void unreadable(File *file)
{
    fprintf(stderr, "counter: %s: %s; it counts as an empty file\n", file->name, strerror(errno));
    file->length = 0;
}

/* A folder opens, and fails only when it is read. What was read before a failure is no file, so none of it counts. Without a
 * buffer no more is taken from a pipe than is read. */
void read_file(File *file)
{
    bool standard = strcmp(file->name, "-") == 0;
    FILE *stream = standard ? stdin : fopen(file->name, "rb");
    if (stream == NULL) {
        unreadable(file);
        return;
    }
    setvbuf(stream, NULL, _IONBF, 0);
    file->length = fread(file->bytes, 1, sizeof file->bytes, stream);
    if (ferror(stream))
        unreadable(file);
    if (!standard)
        fclose(stream);
}

TormukaiRefusal open_sheet(const File *file, Sheet *sheet)
{
    TormukaiRefusal refusal = tormukai_words_of_file(file->bytes, file->length, sheet->words, TORMUKAI_SHEET_WORDS);
    sheet->length = refusal.number == 0 ? file->length / 4 : 0;
    return refusal;
}
