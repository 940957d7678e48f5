/* The rights sheet of a ship register, from C and C++.
 *
 * The functions are those of the static library `libtormukai.a`. All but one are proved: for every input each returns, and its
 * result and what it writes are what its statement in docs/STATEMENTS.md says. The exception is `tormukai_refusal_text`, a
 * table in C. The library is x86-64 code.
 *
 * A FILE is a sheet's bytes as they stand on disk, each word four bytes, low byte first. A SHEET is its words. A LISTING is a
 * sheet of one office as a text that people can type, one row a line. A TRACE is a duty desk's rows, five words each. Any bytes
 * and any words may be passed, and any numbers: what is wrong with them is a refusal.
 *
 * A REFUSAL has the number of the table of refusals (docs/RULES.md) and a place. What is wrong with a sheet or its file, which
 * is 33, 1 to 17 and 28, has the sheet (1 where there is one sheet), and for 6 to 17 also the row's index in its table, from 0.
 * What is wrong with a line of a listing, which is 40 to 43 and there also 14, has sheet 0 and as row the line, counted from 0.
 * What is wrong with a row that is to be added, which is 6 to 9, 11 to 16 and 4, has no place: sheet 0 and row 0. So a row is
 * meant only where there is a sheet, or a line. What is wrong with a trace or a lent table, which is 50, 51, 54 and 59, has no
 * place either. Every other part of a refused result is 0, and nothing is written. Where several numbers apply, it is the first
 * in the table's order but for listings, additions and traces, and each comment below names them in the order in which they
 * are tried.
 *
 * A SUCCESS has number, sheet and row 0. It writes the words (or bytes) of its result from the output's start, and leaves
 * the rest of the output as it was. An empty list is a success of count 0.
 *
 * What a caller owes: after each pointer the length of what it points to, in words or bytes. No pointer is null, also where
 * the length is 0. An output, and a lent table is one too, overlaps no input, and nothing else writes either while the call
 * runs. The library keeps no pointer and no state, so calls on different outputs may run at once.
 */
#ifndef TORMUKAI_H
#define TORMUKAI_H

#include <stddef.h>
#include <stdint.h>

#ifdef __cplusplus
extern "C" {
#endif

/* The library's version. */
#define TORMUKAI_VERSION "0.6.0"

/* The longest sheet, in words and in bytes of its file: 6 + 4 * 512 + 4 * 2048 words. */
#define TORMUKAI_SHEET_WORDS 10246
#define TORMUKAI_FILE_BYTES 40984

/* No listing that is written is longer, in bytes: 512 lines of 27 bytes and 2048 of 41. One to be read may have any length. */
#define TORMUKAI_LISTING_BYTES 97792

/* Outputs that no result outgrows: a list of persons or of folios, a list of edge rows, and a witness of 512 nodes of two
 * words, in words and in bytes. With them 25 does not occur. */
#define TORMUKAI_NODES 512
#define TORMUKAI_EDGES 2048
#define TORMUKAI_WITNESS_WORDS 1024
#define TORMUKAI_WITNESS_BYTES 4096

/* The words of a header, of a node row (type, number, variant, offices) and of an edge row (kind, from row, to row, offices).
 * In a sheet that passed the check the node rows follow the header, and the edge rows follow the node rows. */
#define TORMUKAI_HEADER_WORDS 6
#define TORMUKAI_NODE_WORDS 4
#define TORMUKAI_EDGE_WORDS 4

/* Node types. */
#define TORMUKAI_PERSON 1
#define TORMUKAI_CATEGORY 2
#define TORMUKAI_DEED 3
#define TORMUKAI_FOLIO 4

/* Edge kinds: a person in a category, a category contained in another, a category's grant or ban of a deed, a deed that
 * applies to a folio. */
#define TORMUKAI_EDGE_MEMBER 1
#define TORMUKAI_EDGE_WITHIN 2
#define TORMUKAI_EDGE_GRANT 3
#define TORMUKAI_EDGE_BAN 4
#define TORMUKAI_EDGE_APPLIES 5

/* The nine lines of a listing. */
#define TORMUKAI_LINE_PERSON 1
#define TORMUKAI_LINE_CATEGORY 2
#define TORMUKAI_LINE_DEED 3
#define TORMUKAI_LINE_FOLIO 4
#define TORMUKAI_LINE_IN 5
#define TORMUKAI_LINE_WITHIN 6
#define TORMUKAI_LINE_GRANT 7
#define TORMUKAI_LINE_BAN 8
#define TORMUKAI_LINE_APPLIES 9

/* The words of a trace's row (minute, kind, folio, person, deed), and its kinds: an emergency of the folio starts, or it ends,
 * or the desk asks whether the person may do the deed on the folio. A start and an end have 0 for person and deed. */
#define TORMUKAI_ROW_WORDS 5
#define TORMUKAI_ROW_START 1
#define TORMUKAI_ROW_END 2
#define TORMUKAI_ROW_QUESTION 3

/* The places of a watch's table, and so the most folios that are held at once. */
#define TORMUKAI_PLACES 32

/* Answers. */
#define TORMUKAI_UNDETERMINED 0
#define TORMUKAI_GRANTED 1
#define TORMUKAI_BANNED 2
#define TORMUKAI_BOTH 3

/* Joint rules. */
#define TORMUKAI_GRANT_FIRST 1
#define TORMUKAI_DENY_FIRST 2
#define TORMUKAI_FIRST_APPLICABLE 3

/* The kinds of a path. Any number but 0 asks for a ban. */
#define TORMUKAI_GRANT 0
#define TORMUKAI_BAN 1

/* Refusal numbers, in the order in which they are tried. Of a listing each line is tried by itself, and 43, 4 and 25 come after
 * the last line. Of a row that is to be added 4 comes after all that is wrong with the row. Of a trace 3 comes once more, after
 * 17, where the sheet has no office 2; then each row is tried by itself, and one of other than five words gets 54 before 50. */
#define TORMUKAI_REFUSED_LISTING_LINE 40
#define TORMUKAI_REFUSED_LISTING_NUMBER 41
#define TORMUKAI_REFUSED_LISTING_REPEATED 42
#define TORMUKAI_REFUSED_LISTING_NO_NODE 43
#define TORMUKAI_REFUSED_FILE_LENGTH 33
#define TORMUKAI_REFUSED_UNDER_SIX_WORDS 1
#define TORMUKAI_REFUSED_FORM 2
#define TORMUKAI_REFUSED_OFFICE_COUNT 3
#define TORMUKAI_REFUSED_COUNTS 4
#define TORMUKAI_REFUSED_OFFSET_OR_LENGTH 5
#define TORMUKAI_REFUSED_NODE_TYPE 6
#define TORMUKAI_REFUSED_NUMBER_OR_VARIANT 7
#define TORMUKAI_REFUSED_NODE_OFFICES 8
#define TORMUKAI_REFUSED_NODE_REPEATED 9
#define TORMUKAI_REFUSED_NODE_ORDER 10
#define TORMUKAI_REFUSED_EDGE_KIND 11
#define TORMUKAI_REFUSED_EDGE_END 12
#define TORMUKAI_REFUSED_END_TYPES 13
#define TORMUKAI_REFUSED_WITHIN_ITSELF 14
#define TORMUKAI_REFUSED_EDGE_OFFICES 15
#define TORMUKAI_REFUSED_EDGE_REPEATED 16
#define TORMUKAI_REFUSED_EDGE_ORDER 17
#define TORMUKAI_REFUSED_OFFICE 20
#define TORMUKAI_REFUSED_RULE 27
#define TORMUKAI_REFUSED_UNKNOWN_PERSON 21
#define TORMUKAI_REFUSED_UNKNOWN_DEED 22
#define TORMUKAI_REFUSED_UNKNOWN_CATEGORY 24
#define TORMUKAI_REFUSED_UNKNOWN_FOLIO 23
#define TORMUKAI_REFUSED_EQUAL_DEEDS 31
#define TORMUKAI_REFUSED_IN_NEITHER_SHEET 32
#define TORMUKAI_REFUSED_NOT_ONE_OFFICE 28
#define TORMUKAI_REFUSED_UNION_NODES 29
#define TORMUKAI_REFUSED_UNION_EDGES 30
#define TORMUKAI_REFUSED_FOLIO_TWICE 59
#define TORMUKAI_REFUSED_MINUTE 50
#define TORMUKAI_REFUSED_TRACE_ROW 54
#define TORMUKAI_REFUSED_HELD_FOLIOS 51
#define TORMUKAI_REFUSED_NO_SUCH_PATH 26
#define TORMUKAI_REFUSED_OUTPUT_TOO_SHORT 25

/* A refusal's number and place; 0 throughout where nothing is refused. */
typedef struct TormukaiRefusal {
    uint32_t number;
    uint32_t sheet;
    uint32_t row;
} TormukaiRefusal;

/* A refusal's number and place, or number 0 with what the question tells. What a question does not tell is 0. */
typedef struct TormukaiAnswer {
    uint32_t number;
    uint32_t sheet;
    uint32_t row;
    uint32_t value;
    uint32_t count;
} TormukaiAnswer;

/* A refusal's number and place, or number 0 with the joint sheet's length in words, its node rows and edge rows, and how
 * many identities and relations were found in both inputs. */
typedef struct TormukaiJoined {
    uint32_t number;
    uint32_t sheet;
    uint32_t row;
    uint32_t words;
    uint32_t nodes;
    uint32_t edges;
    uint32_t sharednodes;
    uint32_t sharededges;
} TormukaiJoined;

/* A refusal's number and place, or number 0 with the length of what was written: the words of a sheet or the bytes of a
 * listing. The row is a line's number where a listing is read, and a text can have more lines than 32 bits count. */
typedef struct TormukaiListing {
    uint32_t number;
    uint32_t sheet;
    size_t row;
    size_t count;
} TormukaiListing;

/* What one line of a listing says: fault 0, which of the nine it is (TORMUKAI_LINE_PERSON to TORMUKAI_LINE_APPLIES), and its
 * numbers in the order in which they stand, 0 where there are fewer; or fault 40 or 41, and 0 throughout. */
typedef struct TormukaiLine {
    uint32_t fault;
    uint32_t form;
    uint32_t first;
    uint32_t second;
    uint32_t third;
} TormukaiLine;

/* One place of a watch's table: the emergency of a folio, four words.
 *   mark     0 where the place is empty, and then its other words mean nothing. Any other mark is that of a used place; 1 is
 *            written.
 *   folio    the folio that is held. Any number can be, 0 too, and one that is in no sheet.
 *   latest   the minute of the folio's latest start row.
 *   earlier  the latest minute below `latest` of a start row of the folio since the place was last empty; `latest` again where
 *            there is none. In the minute of a second start the folio is open by the first alone, so one minute would not be
 *            enough. */
typedef struct TormukaiEmergency {
    uint32_t mark;
    uint32_t folio;
    uint32_t latest;
    uint32_t earlier;
} TormukaiEmergency;

/* The duty desk's table, which its caller keeps from row to row: 129 words, and no pointer. All zero it is the empty table, as
 * before the first row: `TormukaiWatch watch = {0};`. It can be copied, kept in a file and compared as words.
 *   last     the minute of the last row.
 *   places   the folios that are held, each in one place, in no order. */
typedef struct TormukaiWatch {
    uint32_t last;
    TormukaiEmergency places[TORMUKAI_PLACES];
} TormukaiWatch;

/* A refusal's number and place, or number 0 with how many answers were written. A trace can have more questions than 32 bits
 * count. */
typedef struct TormukaiTraceReply {
    uint32_t number;
    uint32_t sheet;
    uint32_t row;
    size_t count;
} TormukaiTraceReply;

/* The sentence of the table of refusals for a number, as "unknown person" for 21; for a number that is not in the table a
 * sentence that says so. The text is English, has no line end, and lives as long as the program. Refuses nothing.
 * Stack: at most 128 bytes. */
const char *tormukai_refusal_text(uint32_t number);

/* ---- A file's bytes and a sheet's words ---- */

/* The words of a file's bytes. It does not check that they are a sheet: that is tormukai_check.
 * Answers: 0 throughout where they are written. Writes: file_length / 4 words.
 * Refuses with: 33, 25 (out_length is under file_length / 4).
 * Stack: at most 128 bytes. */
TormukaiRefusal tormukai_words_of_file(const uint8_t *file, size_t file_length, uint32_t *out, size_t out_length);

/* The bytes of words, as they stand in a file. It does not check that the words are a sheet.
 * Answers: 0 throughout where they are written. Writes: 4 * sheet_length bytes.
 * Refuses with: 25 (out_length is under 4 * sheet_length).
 * Stack: at most 128 bytes. */
TormukaiRefusal tormukai_file_of_words(const uint32_t *sheet, size_t sheet_length, uint8_t *out, size_t out_length);

/* ---- On a file's bytes ---- */

/* Question 1: may the person do the deed on the folio, at one office? Any variant of the deed serves.
 * Answers: value 0 undetermined, 1 granted, 2 banned, 3 both. Writes: nothing.
 * Refuses with: 33, 1 to 17, 20, 21, 22, 23.
 * Stack: at most 56,320 bytes. */
TormukaiAnswer tormukai_answer(const uint8_t *file, size_t file_length, uint32_t office, uint32_t person, uint32_t deed,
                               uint32_t folio);

/* Question 2: the joint answer of all the sheet's offices under rule 1 grant-first, 2 deny-first or 3 first-applicable.
 * Answers: value as in question 1; count the deciding office, 0 where undetermined. Writes: nothing.
 * Refuses with: 33, 1 to 17, 27, 21, 22, 23.
 * Stack: at most 56,832 bytes. */
TormukaiAnswer tormukai_joint_answer(const uint8_t *file, size_t file_length, uint32_t rule, uint32_t person, uint32_t deed,
                                     uint32_t folio);

/* Question 3: the witness of a grant (kind 0) or a ban (any other) at an office: the path with fewest nodes, and among those
 * the first in dictionary order of number and variant.
 * Answers: count the bytes written. Writes: the path, for each node its number and its variant, four bytes each, low byte
 * first: eight bytes a node, the person first, then the categories, the deed, the folio.
 * Refuses with: 33, 1 to 17, 20, 21, 22, 23, 26 (no such path), 25 (out_length is under the path's bytes).
 * Stack: at most 64,512 bytes. */
TormukaiAnswer tormukai_witness(const uint8_t *file, size_t file_length, uint32_t office, uint32_t kind, uint32_t person,
                                uint32_t deed, uint32_t folio, uint8_t *out, size_t out_length);

/* The check of a file: is it a sheet?
 * Answers: 0 throughout where it is. Writes: nothing. Refuses with: 33, 1 to 17.
 * Stack: at most 41,472 bytes. */
TormukaiRefusal tormukai_check_file(const uint8_t *file, size_t file_length);

/* Joins two files, each of a one-office sheet, into the file of their two-office sheet, as tormukai_join joins their words.
 * The two inputs may be the same.
 * Answers: as tormukai_join; words counts words, so 4 * words bytes are written. Writes: the joint sheet's file.
 * Refuses with: 33 and 1 to 17 of the first, then of the second; 28 of the first, then of the second; 29, 30, 25.
 * Stack: at most 128,512 bytes. */
TormukaiJoined tormukai_join_files(const uint8_t *first, size_t first_length, const uint8_t *second, size_t second_length,
                                   uint8_t *out, size_t out_length);

/* ---- On a sheet's words ---- */

/* The check of a sheet.
 * Answers: 0 throughout where it is one. Writes: nothing. Refuses with: 1 to 17.
 * Stack: at most 256 bytes. */
TormukaiRefusal tormukai_check(const uint32_t *sheet, size_t sheet_length);

/* Question 1, as tormukai_answer. Refuses with: 1 to 17, 20, 21, 22, 23.
 * Stack: at most 15,360 bytes. */
TormukaiAnswer tormukai_sheet_answer(const uint32_t *sheet, size_t sheet_length, uint32_t office, uint32_t person,
                                     uint32_t deed, uint32_t folio);

/* Question 2, as tormukai_joint_answer. Refuses with: 1 to 17, 27, 21, 22, 23.
 * Stack: at most 16,384 bytes. */
TormukaiAnswer tormukai_sheet_joint_answer(const uint32_t *sheet, size_t sheet_length, uint32_t rule, uint32_t person,
                                           uint32_t deed, uint32_t folio);

/* Question 3, as tormukai_witness, but the path comes as words.
 * Answers: count the words written. Writes: the path, for each node its number and its variant, the person first.
 * Refuses with: 1 to 17, 20, 21, 22, 23, 26 (no such path), 25.
 * Stack: at most 19,456 bytes. */
TormukaiAnswer tormukai_sheet_witness(const uint32_t *sheet, size_t sheet_length, uint32_t office, uint32_t kind,
                                      uint32_t person, uint32_t deed, uint32_t folio, uint32_t *out, size_t out_length);

/* Question 4: is the list some grant path (kind 0) or ban path (any other) for person, deed and folio at an office, shortest
 * or not? Two words a node, as question 3 writes them.
 * Answers: value 1 yes, 0 no. Writes: nothing. Refuses with: 1 to 17, 20; whatever else is wrong is a no.
 * Stack: at most 576 bytes. */
TormukaiAnswer tormukai_is_path(const uint32_t *sheet, size_t sheet_length, uint32_t office, uint32_t kind, uint32_t person,
                                uint32_t deed, uint32_t folio, const uint32_t *list, size_t list_length);

/* Question 5: who is in a category at an office, directly or through containment?
 * Answers: count the words written. Writes: the persons' numbers, rising. Refuses with: 1 to 17, 20, 24, 25.
 * Stack: at most 62,464 bytes. */
TormukaiAnswer tormukai_persons_in_category(const uint32_t *sheet, size_t sheet_length, uint32_t office, uint32_t category,
                                            uint32_t *out, size_t out_length);

/* Question 6: who has a grant path for the deed and the folio at an office?
 * Answers: count the words written. Writes: the persons' numbers, rising. Refuses with: 1 to 17, 20, 22, 23, 25.
 * Stack: at most 62,464 bytes. */
TormukaiAnswer tormukai_persons_with_grant(const uint32_t *sheet, size_t sheet_length, uint32_t office, uint32_t deed,
                                           uint32_t folio, uint32_t *out, size_t out_length);

/* Question 7: to which folios has no person a grant path by any deed, at an office?
 * Answers: count the words written. Writes: the folios' numbers, rising. Refuses with: 1 to 17, 20, 25.
 * Stack: at most 44,032 bytes. */
TormukaiAnswer tormukai_folios_out_of_reach(const uint32_t *sheet, size_t sheet_length, uint32_t office, uint32_t *out,
                                            size_t out_length);

/* Question 8: the least triple that is both granted and banned at an office; persons are compared first, then deeds.
 * Answers: count 3. Writes: person, deed, folio. Refuses with: 1 to 17, 20, 26 (there is none), 25.
 * Stack: at most 46,080 bytes. */
TormukaiAnswer tormukai_least_triple(const uint32_t *sheet, size_t sheet_length, uint32_t office, uint32_t *out,
                                     size_t out_length);

/* Question 9: the least person and folio with a grant path for each of two different deeds, at an office; persons are
 * compared first.
 * Answers: count 2. Writes: person, folio.
 * Refuses with: 1 to 17, 20, 22, 31 (the deeds are equal), 26 (there is none), 25.
 * Stack: at most 46,080 bytes. */
TormukaiAnswer tormukai_least_holder(const uint32_t *sheet, size_t sheet_length, uint32_t office, uint32_t deed,
                                     uint32_t other, uint32_t *out, size_t out_length);

/* Question 10: which edge rows are redundant at an office? Any one of them can be removed at that office, and no answer of any
 * office changes; two may each be the reason for the other, so ask again after each.
 * Answers: count the words written. Writes: their indices in the edge table, from 0, rising.
 * Refuses with: 1 to 17, 20, 25.
 * Stack: at most 46,080 bytes. */
TormukaiAnswer tormukai_redundant_edges(const uint32_t *sheet, size_t sheet_length, uint32_t office, uint32_t *out,
                                        size_t out_length);

/* Joins two one-office sheets into a two-office sheet, equal identities and relations once. The two inputs may be the same.
 * Answers: the joint sheet's counts and how much is shared. Writes: the joint sheet.
 * Refuses with: 1 to 17 of the first, then of the second; 28 of the first, then of the second; 29, 30, 25.
 * Stack: at most 5,632 bytes. */
TormukaiJoined tormukai_join(const uint32_t *first, size_t first_length, const uint32_t *second, size_t second_length,
                             uint32_t *out, size_t out_length);

/* Takes an office out of a sheet: its rows alone, their ends renumbered, as a sheet of one office.
 * Answers: count the words written. Writes: that sheet. Refuses with: 1 to 17, 20, 25.
 * Stack: at most 5,120 bytes. */
TormukaiAnswer tormukai_take_out(const uint32_t *sheet, size_t sheet_length, uint32_t office, uint32_t *out,
                                 size_t out_length);

/* Where does the identity of this type (1 person, 2 category, 3 deed, 4 folio), number and variant stand in two sheets? The
 * row itself is the caller's own: words 6 + 4 * count to 9 + 4 * count of that sheet.
 * Answers: value the sheet that has it, 1 the first or 2 the second, the first where both have it; count its node row, from 0.
 * Writes: nothing. Refuses with: 1 to 17 of the first, then of the second; 32 (neither has it).
 * Stack: at most 448 bytes. */
TormukaiAnswer tormukai_look_up(const uint32_t *first, size_t first_length, const uint32_t *second, size_t second_length,
                                uint32_t type, uint32_t number, uint32_t variant);

/* Does either of two sheets have the identity of this type (1 person, 2 category, 3 deed, 4 folio), number and variant?
 * Answers: 0 throughout where one has. Writes: nothing.
 * Refuses with: 1 to 17 of the first, then of the second; 32 (neither has it).
 * Stack: at most 384 bytes. */
TormukaiRefusal tormukai_look_up_refusal(const uint32_t *first, size_t first_length, const uint32_t *second,
                                         size_t second_length, uint32_t type, uint32_t number, uint32_t variant);

/* Where does the identity of this type (1 person, 2 category, 3 deed, 4 folio), number and variant stand in a sheet, or where
 * would it stand? Any numbers may be asked for, also those that no row can have.
 * Answers: value 1 where it stands and 0 where it does not; count the node row at which it stands or would stand, from 0, which
 * is the number of node rows with a lower identity. Writes: nothing. Refuses with: 1 to 17.
 * Stack: at most 384 bytes. */
TormukaiAnswer tormukai_find_node(const uint32_t *sheet, size_t sheet_length, uint32_t type, uint32_t number,
                                  uint32_t variant);

/* Where does the edge of this kind between two node rows stand in a sheet, or where would it stand? Any numbers may be asked
 * for, also those that no row can have.
 * Answers: value 1 where it stands and 0 where it does not; count the edge row at which it stands or would stand, from 0, which
 * is the number of edge rows that are lower by kind, from and to. Writes: nothing. Refuses with: 1 to 17.
 * Stack: at most 384 bytes. */
TormukaiAnswer tormukai_find_edge(const uint32_t *sheet, size_t sheet_length, uint32_t kind, uint32_t from, uint32_t to);

/* ---- Adding a row ---- */

/* Adds a node to a sheet, at the row that tormukai_find_node tells. The ends of the edges are renumbered, so that every other
 * row keeps its identity or its relation, and its offices. Offices is a sum of 1 (office 1) and 2 (office 2).
 * Answers: value the node row at which it stands; count the words written, four more than the sheet has. Writes: the sheet
 * with that row more. It passes tormukai_check.
 * Refuses with: 1 to 17 of the sheet, with their places; then, of the row and at no place, 6, 7, 8, 9 (its identity is already
 * there, whatever its offices), 4 (there are 512 nodes already), 25.
 * Stack: at most 5,632 bytes. */
TormukaiAnswer tormukai_add_node(const uint32_t *sheet, size_t sheet_length, uint32_t type, uint32_t number, uint32_t variant,
                                 uint32_t offices, uint32_t *out, size_t out_length);

/* Adds an edge to a sheet, at the row that tormukai_find_edge tells. Its ends are node rows of the sheet. Every other row stays
 * as it is. Offices is as for a node.
 * Answers: value the edge row at which it stands; count the words written, four more than the sheet has. Writes: the sheet
 * with that row more. It passes tormukai_check.
 * Refuses with: 1 to 17 of the sheet, with their places; then, of the row and at no place, 11, 12 (an end is no node row), 13,
 * 14, 15, 16 (it is already there, whatever its offices), 4 (there are 2,048 edges already), 25.
 * Stack: at most 5,632 bytes. */
TormukaiAnswer tormukai_add_edge(const uint32_t *sheet, size_t sheet_length, uint32_t kind, uint32_t from, uint32_t to,
                                 uint32_t offices, uint32_t *out, size_t out_length);

/* ---- Listings ---- */

/* The sheet of a listing. A line is one of these nine, with single spaces, and ends with a line feed:
 *   person 11   category 21   deed 31/1   folio 41
 *   in 11 21   within 21 22   grant 22 31/1   ban 21 31/2   applies 31/1 41
 * Numbers are decimal, and a deed has its variant after a slash. Lines may come in any order, an edge before its ends too. A
 * carriage return, a tab, a comment, an empty line or a space too many makes a line that is none of the nine. A text of no
 * bytes is the listing of the sheet without rows. The text is bytes and needs no zero at its end.
 * Answers: count the words written. Writes: a sheet of form 1 and one office, its rows in order. It passes tormukai_check.
 * Refuses with, line by line: 40 (none of the nine, or no line feed at its end), 41 (a number that is 0, has a leading zero or
 * is above 4,294,967,295; a variant may be 0), 42 (the row stands on an earlier line too), 14 (a category within itself). The
 * first line with a fault decides, and within it the first number in this order. After the last line: 43, at the first edge
 * line whose end has no node line; 4 (more than 512 nodes or 2,048 edges), 25. Sheet is 0; row is the line, from 0, and for
 * 4 and 25 it is 0 and no line. With an output of TORMUKAI_SHEET_WORDS words 25 does not occur.
 * Time: up to 2,560 lines, which is all that a sheet can have, it grows as sorting does. A text with more lines is refused in
 * the end, but its repeated rows are looked for line against line: ten times the lines take a hundred times as long. A caller
 * who reads from strangers should bound the text's lines.
 * Stack: at most 64,000 bytes. */
TormukaiListing tormukai_read_listing(const uint8_t *text, size_t text_length, uint32_t *out, size_t out_length);

/* The listing of a sheet of one office: a line for each node row, then a line for each edge row, in the sheet's order. Reading
 * it gives the same sheet, word for word.
 * Answers: count the bytes written. Writes: the text, every line with its line feed, and no zero at the end.
 * Refuses with: 1 to 17, 28 (at sheet 1: the sheet has two offices; take one out first), 25 (out_length is under the text's
 * bytes; with TORMUKAI_LISTING_BYTES it does not occur).
 * Stack: at most 704 bytes. */
TormukaiListing tormukai_write_listing(const uint32_t *sheet, size_t sheet_length, uint8_t *out, size_t out_length);

/* What does one line of a listing say? The line comes without its line feed: with one it is none of the nine.
 * Answers: `grant 22 31/1` is TORMUKAI_LINE_GRANT with 22, 31 and 1; a deed's variant follows its number. Writes: nothing.
 * Refuses, as fault, with: 40 (none of the nine), 41 (a number that is 0, has a leading zero or is above 4,294,967,295; a
 * variant may be 0).
 * Stack: at most 256 bytes. */
TormukaiLine tormukai_read_line(const uint8_t *line, size_t line_length);

/* ---- The duty desk ---- */

/* One row of the duty desk's trace, on a table that is lent. A start row of minute M holds its folio from that row on, at
 * minutes below M + timeout, until an end row of the folio; minute and timeout are added as whole numbers, so a sum may be
 * above 4,294,967,295. The folio's emergency is open at minute T where a start row of a minute below T holds it at T. A
 * question goes to office 1; while the emergency of its folio is open it goes to office 2 first, and to office 1 where that is
 * undetermined. A person, a deed or a folio that an office does not know makes it undetermined there, and is no refusal.
 * Answers: value, of a question, 0 undetermined, 1 granted, 2 banned, 3 both; count how many offices it goes to: 0 for a start
 * or an end, 1 for a question while its folio's emergency is not open, and 2 while it is open.
 * Writes: the table, so that it stands for this row too. A refused row leaves the table as it was. A place whose folio was
 * ended or has expired becomes 0, and is used again. One timeout serves all rows of a table.
 * Refuses with: 1 to 17, 3 (at sheet 1: there is no office 2), 59 (two used places have the same folio, expired or not), 54
 * (the row has other than five words), 50 (its minute is below the table's last), 54 (its kind is none of the three, or it is
 * no question and has a person or a deed other than 0), 51 (a start that would make 33 folios held at its minute).
 * Any table may be lent, also one that no rows lead to.
 * Time: every call checks the whole sheet. tormukai_trace checks it once for all its rows.
 * Stack: at most 18,432 bytes. */
TormukaiAnswer tormukai_step(TormukaiWatch *watch, const uint32_t *sheet, size_t sheet_length, uint32_t timeout,
                             const uint32_t *row, size_t row_length);

/* A whole trace, rows of five words each, on an empty table of its own: what tormukai_step answers row by row.
 * Answers: count the words written. Writes: a word for each question, in the order of the rows: 0 undetermined, 1 granted, 2
 * banned, 3 both.
 * Refuses with: 1 to 17, 3 (at sheet 1: there is no office 2), then row by row 50, 54, 51 as tormukai_step, but a last row
 * that is cut short gets 54 alone; then 25. With an output of rows_length / 5 words 25 does not occur.
 * Stack: at most 18,432 bytes. */
TormukaiTraceReply tormukai_trace(const uint32_t *sheet, size_t sheet_length, uint32_t timeout, const uint32_t *rows,
                                  size_t rows_length, uint32_t *out, size_t out_length);

#ifdef __cplusplus
}
#endif

#endif
