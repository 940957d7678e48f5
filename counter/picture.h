/* What is drawn of an office. */
#ifndef PICTURE_H
#define PICTURE_H

#include "columns.h"
#include "desk.h"

typedef struct Picture {
    const Sheet *sheet;
    const Asked *asked;
    uint32_t answer; /* to the question that was asked with it, if one was */
    Columns columns;
    uint32_t steps[TORMUKAI_NODES]; /* a node row's place in the witness, from 1; 0 where it is not in it */
} Picture;

/* legend.c: the attributes of a kind's edges, and the frame that names each kind beside its line. */
const char *look_of(uint32_t kind);
void write_legend(Writer *out);

/* graph.c: the picture in Graphviz's language. */
void write_graph(Writer *out, const Picture *picture);

#endif
