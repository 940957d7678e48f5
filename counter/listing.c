/* The verbs on listings: a typed text into a sheet's file, and a sheet as such a text. */
#include "desk.h"

#include <stdlib.h>

/* An empty listing is a sheet without rows. So a file that can't be read counts as nothing at all: what it would write is no
 * sheet that anyone typed. */
int read_listing(Desk *desk)
{
    static Sheet typed;
    Text *text = &desk->listing;
    if (!read_text(text))
        return BAD_USAGE;
    TormukaiListing told = tormukai_read_listing(text->bytes, text->length, typed.words, TORMUKAI_SHEET_WORDS);
    typed.length = told.count;
    int status = told.number != 0 && refused_listing(desk, told) ? REFUSED : write_and_tell(desk, &typed);
    free(text->bytes);
    return status;
}

int list(Desk *desk)
{
    static char text[TORMUKAI_LISTING_BYTES + 1];
    TormukaiListing told = tormukai_write_listing(desk->sheet.words, desk->sheet.length, (uint8_t *)text,
                                                  TORMUKAI_LISTING_BYTES);
    if (refused(desk, (TormukaiRefusal){told.number, told.sheet, (uint32_t)told.row}))
        return REFUSED;
    open_text(&desk->out, "listing");
    say(&desk->out, text);
    close_text(&desk->out);
    return ANSWERED;
}
