/* A desk's question: what is asked, of which files, and how the verbs answer. */
#ifndef DESK_H
#define DESK_H

#include "rows.h"
#include "trace.h"

/* The exit statuses. */
enum { ANSWERED = 0, REFUSED = 1, BAD_USAGE = 2, UNWRITTEN = 3 };

/* A typed path of more nodes than any path has is kept up to here: it is no path either. */
enum { TYPED_NODES = TORMUKAI_NODES + 1 };

/* A verb's most files, arguments and refusals. */
enum { FILES = 2, ARGUMENTS = 8, REFUSALS = 9 };

/* A file's bytes: one more than any sheet has, so that a longer file that is cut here gets 33, as it would whole. */
typedef struct File {
    const char *name;
    size_t length;
    uint8_t bytes[TORMUKAI_FILE_BYTES + 1];
} File;

/* A listing's text. It may have any length. */
typedef struct Text {
    const char *name;
    uint8_t *bytes;
    size_t length;
} Text;

/* The nodes that were typed for `path`. A type of 0 was left out. */
typedef struct TypedPath {
    size_t count;
    Identity nodes[TYPED_NODES];
} TypedPath;

/* What was typed. What a verb does not ask for is 0. */
typedef struct Asked {
    const char *result; /* OUT */
    uint32_t office;
    uint32_t rule;
    bool kind_given; /* `draw` can be asked without a question */
    uint32_t kind;
    uint32_t person;
    uint32_t category;
    uint32_t deed;
    uint32_t other_deed;
    uint32_t folio;
    Identity identity;
    TypedPath path;
    const char *line;
    uint32_t offices; /* a sum of marks */
    uint32_t timeout; /* in minutes */
} Asked;

/* All that a verb's function gets. The named files were read; where the verb has one FILE, the sheet has its words. */
typedef struct Desk {
    const struct Verb *verb;
    Asked asked;
    Writer out;
    File files[FILES];
    Sheet sheet;
    Text listing;
    Trace trace;
} Desk;

/* What an argument is. The table in arguments.c says how each is called in a usage line, and how it is read. */
typedef enum Argument {
    NO_ARGUMENT,
    SHEET,
    FIRST,
    SECOND,
    LISTING,
    RESULT,
    OFFICE,
    RULE,
    KIND_OF_PATH,
    PERSON,
    CATEGORY,
    DEED,
    OTHER_DEED,
    FOLIO,
    TYPE_OF_NODE,
    IDENTITY,
    LINE,
    OFFICES,
    TIMEOUT,
    TRACE,
    TYPED, /* an option: TRACE is a text */
    NODES /* as many as there are, at least one; always the last */
} Argument;

typedef struct Verb {
    const char *name;
    Argument arguments[ARGUMENTS];
    size_t optional; /* so many of the last arguments may be left out, all together */
    int (*serve)(Desk *desk);
    uint32_t refusals[REFUSALS]; /* what it can refuse, beside a sheet's 33 and 1 to 17, in the order in which it is tried */
    const char *summary;         /* one line of `counter --help` */
    const char *tells;           /* what `counter VERB --help` says under the usage line */
    const char *example;         /* arguments, run in the folder sheets/ */
    const char *prints;          /* all that the example prints */
} Verb;

/* table.c: the verbs, ended by one without a name. */
extern const Verb verbs[];

/* reply.c: begins the reply, so it prints first, once. Tells the refusal and returns true, or returns false where there is none
 * (number 0). */
bool refused(Desk *desk, TormukaiRefusal refusal);

/* reply.c: the same where the listing was read. The line at fault is shown. */
bool refused_listing(Desk *desk, TormukaiListing told);

/* reply.c: tells the refusal of the trace's row that was read last, or with 33 of its bytes. Returns the exit status. */
int refuse_trace(Desk *desk, uint32_t number);

/* reply.c: the same of a refusal with more facts than its number, its place and its sentence. They are told in between.
 * end_refusal returns the exit status. */
void tell_refusal(Desk *desk, TormukaiRefusal refusal);
int end_refusal(Desk *desk);

/* reply.c: such a fact: the line at fault. */
void tell_line(Writer *out, Line line);

void end_reply(Desk *desk);
TormukaiRefusal refusal_of(TormukaiAnswer answer);

/* file.c: reads the named file's bytes; none, and a line on standard error, where it can't be read. */
void read_file(File *file);

/* file.c: the file's words; 33 where it has none. */
TormukaiRefusal open_sheet(const File *file, Sheet *sheet);

/* text.c: reads the named file, as much of it as decides. False, and a line on standard error, where it can't be read. */
bool read_text(Text *text);

/* text.c: a line by its number from 0, which the text must have. */
Line line_at(const Text *text, size_t number);

/* result.c: writes the file whole or leaves it as it was. False, and a line on standard error, where it can't be written. */
bool write_result(const char *name, const uint8_t *bytes, size_t length);

/* sheets.c: writes the sheet's file to OUT and begins the reply. Returns the exit status. */
int write_sheet(Desk *desk, const Sheet *sheet);

/* sheets.c: tells how large the sheet is that was written, and where. */
void tell_written_sheet(Desk *desk, const Sheet *sheet);

/* sheets.c: both. */
int write_and_tell(Desk *desk, const Sheet *sheet);

/* questions.c: 'undetermined', 'granted', 'banned', 'both'. */
const char *answer_name(uint32_t value);

/* questions.c: 'granted (1)'. */
void tell_answer(Writer *out, uint32_t value);

/* One function a verb. Each returns the exit status. */
int check(Desk *desk);
int answer(Desk *desk);
int joint(Desk *desk);
int witness(Desk *desk);
int path(Desk *desk);
int persons(Desk *desk);
int holders(Desk *desk);
int unreached(Desk *desk);
int conflict(Desk *desk);
int duties(Desk *desk);
int redundant(Desk *desk);
int find(Desk *desk);
int join(Desk *desk);
int take(Desk *desk);
int add(Desk *desk);
int read_listing(Desk *desk);
int list(Desk *desk);
int watch(Desk *desk);
int show(Desk *desk);
int draw(Desk *desk);

#endif
