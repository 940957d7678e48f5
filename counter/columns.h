/* Where the nodes of an office stand in its picture, from left to right. */
#ifndef COLUMNS_H
#define COLUMNS_H

#include "rows.h"

/* Each node row's column, from 0, and how many columns there are. Rows that are not the office's have a column too; it means
 * nothing. A column may be empty. */
typedef struct Columns {
    uint32_t count;
    uint32_t of[TORMUKAI_NODES];
} Columns;

/* Persons, categories, deeds, folios. A category stands right of those contained in it; equal categories share a column. */
void place_nodes(Columns *columns, const Sheet *sheet, uint32_t office);

#endif
