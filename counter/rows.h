/* A sheet's rows, read and in words. Only of a sheet that passed the check. */
#ifndef ROWS_H
#define ROWS_H

#include "tormukai.h"
#include "writer.h"

typedef struct Sheet {
    size_t length;
    uint32_t words[TORMUKAI_SHEET_WORDS];
} Sheet;

typedef struct Identity {
    uint32_t type;
    uint32_t number;
    uint32_t variant;
} Identity;

typedef struct Node {
    uint32_t row;
    Identity identity;
    uint32_t offices; /* a sum of marks: 1 of office 1, 2 of office 2 */
} Node;

/* Its ends are node rows. */
typedef struct Edge {
    uint32_t row;
    uint32_t kind;
    uint32_t from;
    uint32_t to;
    uint32_t offices;
} Edge;

uint32_t form_of(const Sheet *sheet);
uint32_t office_count(const Sheet *sheet);
uint32_t node_count(const Sheet *sheet);
uint32_t edge_count(const Sheet *sheet);
Node node_at(const Sheet *sheet, uint32_t row);
Edge edge_at(const Sheet *sheet, uint32_t row);

/* Where the identity stands (value 1) or would stand (value 0): the node row is the count. */
TormukaiAnswer place_of(const Sheet *sheet, Identity identity);

/* Whether the sum of marks has the office's. Offices count from 1. */
bool has_office(uint32_t offices, uint32_t office);

/* 'person', 'category', 'deed', 'folio'. */
const char *type_name(uint32_t type);

/* The type of that name, or 0. */
uint32_t type_of_name(const char *name);

/* The type of a path's node at a place: a person, categories, a deed and a folio, so the path's length tells. */
uint32_t type_at(size_t place, size_t nodes);

/* The phrase of an edge's kind in text: 'in', 'within', 'grants', 'bans', 'applies to'. */
const char *kind_phrase(uint32_t kind);

/* Facts of an object that the caller opens and closes. An identity: 'person 11', a deed always with its variant, 'deed 31/0'.
 * A node: 'node 0: person 11, office 1'. An edge: 'edge 0: person 11 in category 21, offices 1 and 2'. No line end. */
void tell_identity(Writer *out, Identity identity);
void tell_node(Writer *out, Node node);
void tell_edge(Writer *out, const Sheet *sheet, Edge edge);

/* '1 node', '2 nodes': a count with its noun. Told, it is a fact under the plural's name. */
void say_count(Writer *out, const char *plural, const char *singular, uint32_t count);
void tell_count(Writer *out, const char *plural, const char *singular, uint32_t count);

#endif
