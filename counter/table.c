/* The verbs. A new one costs a row here and its function.
 *
 * A row: name, arguments, how many of the last may be left out, function, refusals beside a sheet's 33 and 1 to 17; then the
 * help: a line of `counter --help`, what the verb tells, an example's arguments and what it prints. desk.h has the struct. */
#include "desk.h"

const Verb verbs[] = {
    {"check", {SHEET}, 0, check, {0},
     "whether the file is a sheet, and how large it is",
     "Tells whether FILE is a sheet, with its counts of offices, nodes and edges.\n",
     "a.sheet",
     "accepted: 1 office, 8 nodes, 7 edges\n"},
    {"answer", {SHEET, OFFICE, PERSON, DEED, FOLIO}, 0, answer, {20, 21, 22, 23},
     "may the person do the deed on the folio, at one office",
     "Tells the office's answer: granted (1), banned (2), both (3) or undetermined (0). Any variant of the deed serves.\n",
     "a.sheet 1 12 31 42",
     "banned (2)\n"},
    {"joint", {SHEET, RULE, PERSON, DEED, FOLIO}, 0, joint, {27, 21, 22, 23},
     "the answer of all offices together, and the office that decides",
     "Tells the joint answer under RULE, and which office decides it:\n"
     "  1 grant-first       granted if some office grants, else banned if some office bans\n"
     "  2 deny-first        banned if some office bans, else granted if some office grants\n"
     "  3 first-applicable  the answer of the first office that is not undetermined\n",
     "joint.sheet deny-first 11 31 42",
     "banned (2), decided by office 1\n"},
    {"witness", {SHEET, OFFICE, KIND_OF_PATH, PERSON, DEED, FOLIO}, 0, witness, {20, 21, 22, 23, 26},
     "the shortest path that grants or bans",
     "Tells why it is granted or banned: the path with fewest nodes from the person to the folio, and among those the\n"
     "first in the order of numbers and variants.\n",
     "a.sheet 1 grant 11 31 41",
     "person 11 > category 21 > category 22 > deed 31/1 > folio 41\n"},
    {"path", {SHEET, OFFICE, KIND_OF_PATH, PERSON, DEED, FOLIO, NODES}, 0, path, {20},
     "whether the typed nodes are a path that grants or bans",
     "Tells yes if the nodes are a grant path (or ban path) for the question, shortest or not, and else no. A NODE is\n"
     "[person|category|deed|folio] NUMBER[/VARIANT]. What `counter witness` prints can be pasted, in quotes.\n",
     "a.sheet 1 grant 11 31 41 11 21 22 31/1 41",
     "yes\n"},
    {"persons", {SHEET, OFFICE, CATEGORY}, 0, persons, {20, 24},
     "who is in a category",
     "Tells the persons in the category, directly or through categories within it, by rising number.\n",
     "a.sheet 1 22",
     "person 11\nperson 12\n"},
    {"holders", {SHEET, OFFICE, DEED, FOLIO}, 0, holders, {20, 22, 23},
     "who has a grant for the deed on the folio",
     "Tells the persons with a grant path for the deed and the folio, banned or not, by rising number.\n",
     "b.sheet 1 31 42",
     "person 11\n"},
    {"unreached", {SHEET, OFFICE}, 0, unreached, {20},
     "the folios for which nobody has a grant",
     "Tells the folios to which no person has a grant path by any deed, by rising number.\n",
     "a.sheet 1",
     "folio 42\n"},
    {"conflict", {SHEET, OFFICE}, 0, conflict, {20, 26},
     "the first person, deed and folio that are granted and banned",
     "Tells the least person, deed and folio whose answer is both. Persons are compared first, then deeds.\n",
     "c.sheet 1",
     "person 11, deed 31, folio 42\n"},
    {"duties", {SHEET, OFFICE, DEED, OTHER_DEED}, 0, duties, {20, 22, 31, 26},
     "the first person who has a grant for both deeds on one folio",
     "Tells the least person and folio with a grant path for each of two different deeds. Persons are compared first.\n",
     "d.sheet 1 31 32",
     "person 11, folio 41\n"},
    {"redundant", {SHEET, OFFICE}, 0, redundant, {20},
     "the edges that others already imply",
     "Tells the redundant edges with their rows: memberships, containments, grants and bans that others already imply.\n"
     "Any one of them can be removed, and no answer changes; then ask again, since each may be the reason for another.\n"
     "docs/RULES.md says exactly when.\n",
     "d.sheet 1",
     "edge 4: category 21 grants deed 32/0, office 1\n"},
    {"find", {FIRST, SECOND, TYPE_OF_NODE, IDENTITY}, 0, find, {32},
     "where an identity stands in two sheets",
     "Tells which sheet has the identity, the first where both have it, with its row and its offices. Where neither has it,\n"
     "tells where it would stand in each. Without /VARIANT the variant is 0.\n",
     "b.sheet a.sheet deed 31/1",
     "second sheet, node 4: deed 31/1, office 1\n"},
    {"join", {FIRST, SECOND, RESULT}, 0, join, {28, 29, 30},
     "join two sheets of one office into one of two",
     "Writes the joint sheet to OUT, and tells how many nodes and edges it has and how many of them both sheets have. OUT\n"
     "is replaced only when the whole result is written. After a refusal it is as it was.\n",
     "a.sheet b.sheet out.sheet",
     "nodes 8 shared 4\nedges 8 shared 2\nwritten: out.sheet\n"},
    {"take", {SHEET, OFFICE, RESULT}, 0, take, {20},
     "take one office out of a sheet",
     "Writes the office's rows to OUT, as a sheet of one office. OUT is replaced only when the whole result is written.\n"
     "After a refusal it is as it was.\n",
     "joint.sheet 2 out.sheet",
     "nodes 4\nedges 3\nwritten: out.sheet\n"},
    {"add", {SHEET, RESULT, LINE, OFFICES}, 1, add, {40, 41, 8, 9, 12, 14, 15, 16, 4},
     "add one row to a sheet",
     "Writes the sheet with one row more to OUT, and tells where the row stands. LINE is a line of a listing, in quotes:\n"
     "`counter read --help` has the nine. An edge's ends have to be in the sheet. OFFICES are the offices that say so. On a\n"
     "sheet of one office they may be left out. OUT may be FILE: it is replaced only when the whole result is written. After\n"
     "a refusal it is as it was.\n",
     "a.sheet out.sheet 'grant 22 31/2'",
     "edge 4: category 22 grants deed 31/2, office 1\nnodes 8\nedges 8\nwritten: out.sheet\n"},
    {"read", {LISTING, RESULT}, 0, read_listing, {40, 41, 42, 14, 43, 4},
     "write the sheet of a typed listing",
     "Reads a listing, a text with one row a line in any order, and writes its sheet of one office to OUT. The nine lines:\n"
     "  person 11   category 21   deed 31/1   folio 41\n"
     "  in 11 21   within 21 22   grant 22 31/1   ban 21 31/2   applies 31/1 41\n"
     "Spaces are single, and a line feed ends each line. A line that is refused is shown, with its number from 1. OUT is\n"
     "replaced only when the whole result is written. After a refusal it is as it was.\n",
     "a.listing out.sheet",
     "nodes 8\nedges 7\nwritten: out.sheet\n"},
    {"list", {SHEET}, 0, list, {28},
     "a sheet of one office as a listing",
     "Prints the sheet as a listing, the nodes and then the edges, in the sheet's order. Reading it gives the same sheet.\n"
     "Of a joint sheet take an office out first.\n",
     "b.sheet",
     "person 11\n"
     "category 21\n"
     "deed 31/2\n"
     "folio 42\n"
     "in 11 21\n"
     "grant 21 31/2\n"
     "applies 31/2 42\n"},
    {"watch", {SHEET, TIMEOUT, TRACE, TYPED}, 1, watch, {3, 33, 50, 54, 51},
     "the answers of a duty desk's trace, and whether each emergency was open",
     "Tells the answer to each question of a trace, and whether its folio's emergency was open. While it is open the\n"
     "question goes to office 2, and to office 1 where that is undetermined; else it goes to office 1 alone. A start holds\n"
     "its folio for TIMEOUT minutes, or until an end. TRACE has rows of five words, low byte first: minute, kind (1 start,\n"
     "2 end, 3 question), folio, person, deed; of a start and an end the last two are 0. With --text it has a row a line:\n"
     "  MINUTE start FOLIO   MINUTE end FOLIO   MINUTE ask FOLIO PERSON DEED\n"
     "Spaces are single, and a line feed ends each line. Where a row is refused nothing else is printed; it is named by its\n"
     "number from 0, and a line by its number from 1.\n",
     "joint.sheet 60 night.text --text",
     "minute 10: folio 42, person 11, deed 31: banned (2), emergency not open\n"
     "minute 20: folio 42, person 11, deed 31: banned (2), emergency not open\n"
     "minute 21: folio 42, person 11, deed 31: granted (1), emergency open\n"
     "minute 21: folio 42, person 12, deed 31: banned (2), emergency open\n"
     "minute 50: folio 42, person 11, deed 31: granted (1), emergency open\n"
     "minute 109: folio 42, person 11, deed 31: granted (1), emergency open\n"
     "minute 110: folio 42, person 11, deed 31: banned (2), emergency not open\n"},
    {"show", {SHEET}, 0, show, {0},
     "every row of a sheet, in words",
     "Tells the sheet's header, and every node and edge with its row and its offices.\n",
     "b.sheet",
     "form 1, 1 office, 4 nodes, 3 edges\n"
     "node 0: person 11, office 1\n"
     "node 1: category 21, office 1\n"
     "node 2: deed 31/2, office 1\n"
     "node 3: folio 42, office 1\n"
     "edge 0: person 11 in category 21, office 1\n"
     "edge 1: category 21 grants deed 31/2, office 1\n"
     "edge 2: deed 31/2 applies to folio 42, office 1\n"},
    {"draw", {SHEET, OFFICE, KIND_OF_PATH, PERSON, DEED, FOLIO}, 4, draw, {20, 21, 22, 23, 26},
     "the office's graph in Graphviz's language, with the path of a question in bold",
     "Prints the office's graph for Graphviz: persons, categories, deeds and folios from left to right. With a question its\n"
     "witness is in bold, and what `counter witness` refuses is refused. Graphviz makes a picture of it:\n"
     "  counter draw a.sheet 1 ban 12 31 42 | dot -Tsvg >a.svg\n"
     "In the example there is no grant to draw.\n",
     "a.sheet 1 grant 12 31 42",
     "refused 26: no such path, triple or pair\n"},
    {0},
};
