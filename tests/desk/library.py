"""Every function of the library called from C, by tests/library.c; and linked as docs/COUNTER.md says, on x86-64."""
import platform
import re
import struct
from functools import partial

from .drive import START, TOP, Finding, differs, held, run
from .expect import SENTENCES
from .model import lines_of
from .sheets import A, B, C, JOINT, sheet

ROOM = '4294967295'  # the word that stands where nothing was written


def words(of):
    return ' '.join(map(str, of.words()))


def text_words(text):
    """A text in an output that is shown as words; it fills whole words."""
    return ' '.join(map(str, struct.unpack(f'<{len(text) // 4}I', text.encode())))


def lines():
    """What tests/library.c prints. Of a result: number, sheet, row, value, count; what was written; the word after it.
    Where out is lent as bytes, it is shown as words: the machine is x86-64."""
    yield 'version: 0.6.0'
    yield 'answer: 0 0 0 2 0; 4294967295'
    yield 'joint_answer: 0 0 0 2 1; 4294967295'
    yield 'witness: 0 0 0 0 40; 11 0 21 0 22 0 31 1 41 0 4294967295'
    yield 'witness of a ban: 0 0 0 0 40; 12 0 22 0 21 0 31 2 42 0 4294967295'
    yield 'witness, a byte short: 25 0 0 0 0; 4294967295'
    yield 'check_file: 0 0 0'
    yield 'check_file, cut: 33 1 0'
    yield f'words_of_file: 0 0 0; {words(A)} {ROOM}'
    yield 'words_of_file, no bytes: 0 0 0; 4294967295'
    yield f'words_of_file, no sheet: 0 0 0; 67305985 {ROOM}'
    yield 'words_of_file, a byte cut off: 33 1 0; 4294967295'
    yield 'words_of_file, too long: 33 1 0; 4294967295'
    yield 'words_of_file, too long before too short: 33 1 0; 4294967295'
    yield 'words_of_file, a word short: 25 0 0; 4294967295'
    yield f'file_of_words: 0 0 0; {words(A)} {ROOM}'
    yield 'file_of_words, no words: 0 0 0; 4294967295'
    yield f'file_of_words, no sheet: 0 0 0; 67305985 {ROOM}'
    yield 'file_of_words, a byte short: 25 0 0; 4294967295'
    yield f'join_files: 0 0 0 70 8 8 4 2; {words(JOINT)} {ROOM}'
    yield 'join_files, the first cut: 33 1 0 0 0 0 0 0; 4294967295'
    yield 'join_files, the second cut: 33 2 0 0 0 0 0 0; 4294967295'
    yield 'join_files, the second damaged: 6 2 3 0 0 0 0 0; 4294967295'
    yield 'join_files, two offices: 28 2 0 0 0 0 0 0; 4294967295'
    yield 'join_files, a byte short: 25 0 0 0 0 0 0 0; 4294967295'
    yield 'sheet_answer: 0 0 0 2 0; 4294967295'
    yield 'sheet_answer, office 2: 20 0 0 0 0; 4294967295'
    yield 'sheet_joint_answer: 0 0 0 2 1; 4294967295'
    yield 'sheet_joint_answer, rule 4: 27 0 0 0 0; 4294967295'
    yield 'sheet_witness: 0 0 0 0 10; 11 0 21 0 22 0 31 1 41 0 4294967295'
    yield 'sheet_witness of a ban: 0 0 0 0 10; 12 0 22 0 21 0 31 2 42 0 4294967295'
    yield 'sheet_witness, none: 26 0 0 0 0; 4294967295'
    yield 'sheet_witness, a word short: 25 0 0 0 0; 4294967295'
    yield 'is_path: 0 0 0 1 0;'
    yield 'is_path, a ban: 0 0 0 0 0;'
    yield 'persons_in_category: 0 0 0 0 2; 11 12 4294967295'
    yield 'persons_in_category, a word short: 25 0 0 0 0; 4294967295'
    yield 'persons_with_grant: 0 0 0 0 2; 11 12 4294967295'
    yield 'persons_with_grant, a word short: 25 0 0 0 0; 4294967295'
    yield 'folios_out_of_reach: 0 0 0 0 1; 42 4294967295'
    yield 'folios_out_of_reach, no room: 25 0 0 0 0; 4294967295'
    yield 'least_triple: 0 0 0 0 3; 1 5 6 4294967295'
    yield 'least_triple, a word short: 25 0 0 0 0; 4294967295'
    yield 'least_holder: 0 0 0 0 2; 1 6 4294967295'
    yield 'least_holder, a word short: 25 0 0 0 0; 4294967295'
    yield 'redundant_edges: 0 0 0 0 1; 6 4294967295'
    yield 'redundant_edges, no room: 25 0 0 0 0; 4294967295'
    yield f'join: 0 0 0 70 8 8 4 2; {words(JOINT)} {ROOM}'
    yield 'join, a word short: 25 0 0 0 0 0 0 0; 4294967295'
    yield f'take_out: 0 0 0 0 34; {words(B)} {ROOM}'
    yield 'take_out, a word short: 25 0 0 0 0; 4294967295'
    yield 'look_up: 0 0 0 2 6; 4294967295'
    yield 'look_up, in both: 0 0 0 1 2; 4294967295'
    yield 'look_up, a person: 32 0 0 0 0; 4294967295'
    yield 'look_up, the second damaged: 6 2 3 0 0; 4294967295'
    yield 'look_up_refusal: 0 0 0'
    yield 'look_up_refusal, a person: 32 0 0'
    yield 'find_node: 0 0 0 1 3; 4294967295'
    yield 'find_node, not there: 0 0 0 0 4; 4294967295'
    yield 'find_node, before all: 0 0 0 0 0; 4294967295'
    yield 'find_node, behind all: 0 0 0 0 8; 4294967295'
    yield 'find_edge: 0 0 0 1 3; 4294967295'
    yield 'find_edge, not there: 0 0 0 0 4; 4294967295'
    yield 'find_edge, before all: 0 0 0 0 0; 4294967295'
    yield 'find_edge, behind all: 0 0 0 0 7; 4294967295'
    yield f'add_node: 0 0 0 2 70; {words(A_AND_13)} {ROOM}'
    yield 'add_node, a word short: 25 0 0 0 0; 4294967295'
    yield 'add_node, no type: 6 0 0 0 0; 4294967295'
    yield 'add_node, no number: 7 0 0 0 0; 4294967295'
    yield 'add_node, no variant: 7 0 0 0 0; 4294967295'
    yield 'add_node, no office: 8 0 0 0 0; 4294967295'
    yield 'add_node, office 2: 8 0 0 0 0; 4294967295'
    yield 'add_node, already there: 9 0 0 0 0; 4294967295'
    yield f'add_edge: 0 0 0 4 70; {words(C)} {ROOM}'
    yield 'add_edge, a word short: 25 0 0 0 0; 4294967295'
    yield 'add_edge, no kind: 11 0 0 0 0; 4294967295'
    yield 'add_edge, no row: 12 0 0 0 0; 4294967295'
    yield 'add_edge, no types: 13 0 0 0 0; 4294967295'
    yield 'add_edge, within itself: 14 0 0 0 0; 4294967295'
    yield 'add_edge, no office: 15 0 0 0 0; 4294967295'
    yield 'add_edge, office 2: 15 0 0 0 0; 4294967295'
    yield 'add_edge, already there: 16 0 0 0 0; 4294967295'
    yield 'add_node, full: 4 0 0 0 0; 4294967295'
    yield 'add_node, full, already there: 9 0 0 0 0; 4294967295'
    yield 'add_edge, full: 4 0 0 0 0; 4294967295'
    yield 'add_edge, full, already there: 16 0 0 0 0; 4294967295'
    yield f'read_listing: 0 0 0 34; {words(B)} {ROOM}'
    yield f'read_listing, no bytes: 0 0 0 6; 1 1 0 0 6 6 {ROOM}'
    yield 'read_listing, no line feed: 40 0 6 0; 4294967295'
    yield 'read_listing, a word short: 25 0 0 0; 4294967295'
    yield 'read_listing, no line: 40 0 1 0; 4294967295'
    yield 'read_listing, no number: 41 0 1 0; 4294967295'
    yield 'read_listing, a row twice: 42 0 2 0; 4294967295'
    yield 'read_listing, within itself: 14 0 1 0; 4294967295'
    yield 'read_listing, no node: 43 0 1 0; 4294967295'
    yield f'write_listing: 0 0 0 80; {text_words(lines_of(B))} {ROOM}'
    yield 'write_listing, a byte short: 25 0 0 0; 4294967295'
    yield 'write_listing, two offices: 28 1 0 0; 4294967295'
    yield 'write_listing, damaged: 6 1 3 0; 4294967295'
    for length, said in SINGLE_LINES:
        yield f'read_line, {length} bytes: {said}'
    yield 'read_listing, 513 nodes: 4 0 0 0; 4294967295'
    yield from duty_lines()
    yield 'check: 0 0 0'
    yield 'check, damaged: 6 1 3'
    for name in ('sheet_answer', 'sheet_joint_answer', 'sheet_witness', 'is_path', 'persons_in_category', 'persons_with_grant',
                 'folios_out_of_reach', 'least_triple', 'least_holder', 'redundant_edges', 'take_out', 'look_up', 'find_node',
                 'find_edge', 'add_node', 'add_edge'):
        yield f'{name}, damaged: 6 1 3 0 0; 4294967295'
    yield 'join, damaged: 6 2 3 0 0 0 0 0; 4294967295'
    yield 'look_up_refusal, damaged: 6 2 3'
    for number in [*range(61), 4294967295]:
        yield f"{number} {SENTENCES.get(number, 'not in the table of refusals')}"
    for name, number in CONSTANTS:
        yield f'{name} {number}'


# Of a step: number, sheet, row, value, count; the table's last minute; each place that is not all zero.
STEPS = [
    ('a question', '0 0 0 2 1; 10'),
    ('a start', '0 0 0 0 0; 20; 0: 1 42 20 20'),
    ('its own minute', '0 0 0 2 1; 20; 0: 1 42 20 20'),
    ('the next minute', '0 0 0 1 2; 21; 0: 1 42 20 20'),
    ('a second start', '0 0 0 0 0; 50; 0: 1 42 50 20'),
    ("the second start's minute", '0 0 0 1 2; 50; 0: 1 42 50 20'),
    ('unknown to office 2', '0 0 0 2 2; 50; 0: 1 42 50 20'),
    ('unknown to both', '0 0 0 0 2; 50; 0: 1 42 50 20'),
    ('folio 0', '0 0 0 0 0; 60; 0: 1 42 50 20; 1: 1 0 60 60'),
    ('an end', '0 0 0 0 0; 60; 1: 1 0 60 60'),
    ('the first empty place', '0 0 0 0 0; 60; 0: 1 41 60 60; 1: 1 0 60 60'),
    ('the last minute of two', '0 0 0 1 2; 119; 0: 1 41 60 60; 1: 1 0 60 60'),
    ('both expired', '0 0 0 1 1; 120'),
    ('held before', '0 0 0 0 0; 130; 0: 1 5 130 130'),
    ('a lower minute', '50 0 0 0 0; 130; 0: 1 5 130 130'),
    ('a lower minute and no kind', '50 0 0 0 0; 130; 0: 1 5 130 130'),
    ('no kind', '54 0 0 0 0; 130; 0: 1 5 130 130'),
    ('a start with a person', '54 0 0 0 0; 130; 0: 1 5 130 130'),
    ('an end with a deed', '54 0 0 0 0; 130; 0: 1 5 130 130'),
    ('no words', '54 0 0 0 0; 130; 0: 1 5 130 130'),
    ('four words', '54 0 0 0 0; 130; 0: 1 5 130 130'),
    ('six words', '54 0 0 0 0; 130; 0: 1 5 130 130'),
    ('one office', '3 1 0 0 0; 130; 0: 1 5 130 130'),
    ('damaged', '6 1 3 0 0; 130; 0: 1 5 130 130'),
    ('a folio twice', '59 0 0 0 0; 200; 3: 1 7 150 150; 30: 9 7 0 0; 31: 0 7 8 9'),
    ('a folio twice, one office', '3 1 0 0 0; 200; 3: 1 7 150 150; 30: 9 7 0 0; 31: 0 7 8 9'),
    ('a folio once', '0 0 0 0 0; 300; 0: 1 6 300 300'),
    ('a later minute', '0 0 0 2 1; 400; 5: 4294967295 42 500 4294967295'),
    ('an earlier minute', '0 0 0 0 0; 400; 5: 8 42 500 399'),
    ('open by the earlier', '0 0 0 1 2; 400; 5: 8 42 500 399'),
    ('after the last minute', '50 0 0 0 0; 4294967295; 5: 8 42 500 399'),
]
# Of a trace: number, sheet, row, count; what was written; the word after it.
TRACES = [
    ('', '0 0 0 3; 2 1 0 4294967295'),
    (', more room', '0 0 0 3; 2 1 0 4294967295'),
    (', a word short', '25 0 0 0; 4294967295 4294967295 4294967295'),
    (', no rows', '0 0 0 0; 4294967295'),
    (', no questions', '0 0 0 0; 4294967295'),
    (', a lower minute', '50 0 0 0; 4294967295'),
    (', a spare word', '54 0 0 0; 4294967295'),
    (', a row cut short', '54 0 0 0; 4294967295'),
    (', one office', '3 1 0 0; 4294967295'),
    (', damaged', '6 1 3 0; 4294967295'),
]


def duty_lines():
    for label, said in STEPS:
        yield f'step, {label}: {said}'
    yield 'step, a 33rd folio: 51 0 0; 0'
    yield 'step, 32 expired: 0 0 0 0 0; 70; 0: 1 32 70 70'
    yield 'words of a table: 129'
    for label, said in TRACES:
        yield f'trace{label}: {said}'


# Sheet A with person 13 at row 2: every end from row 2 on is one more.
A_AND_13 = sheet([(1, 11, 0), (1, 12, 0), (1, 13, 0), (2, 21, 0), (2, 22, 0), (3, 31, 1), (3, 31, 2), (4, 41, 0), (4, 42, 0)],
                 [(1, 0, 3), (1, 1, 4), (2, 3, 4), (3, 4, 5), (4, 3, 6), (5, 5, 7), (5, 6, 8)])

# Of the lines of tests/library.c: the bytes, and fault, form and numbers. A category within itself is a line by itself.
SINGLE_LINES = [
    (9, '0 1 11 0 0'), (11, '0 2 21 0 0'), (9, '0 3 31 1 0'), (8, '0 4 41 0 0'), (8, '0 5 11 21 0'), (12, '0 6 21 22 0'),
    (13, '0 7 22 31 1'), (11, '0 8 21 31 2'), (15, '0 9 31 1 41'), (9, '0 3 31 0 0'), (40, '0 9 4294967295 4294967294 4294967293'),
    (12, '0 6 21 21 0'), (8, '41 0 0 0 0'), (18, '41 0 0 0 0'), (10, '40 0 0 0 0'), (1, '40 0 0 0 0'), (8, '0 1 1 0 0'),
    (10, '40 0 0 0 0'), (0, '40 0 0 0 0')]

# Every refusal number has a name, and stands in the header in the table's order.
NAMES = ('LISTING_LINE', 'LISTING_NUMBER', 'LISTING_REPEATED', 'LISTING_NO_NODE', 'FILE_LENGTH',
         'UNDER_SIX_WORDS', 'FORM', 'OFFICE_COUNT', 'COUNTS', 'OFFSET_OR_LENGTH', 'NODE_TYPE',
         'NUMBER_OR_VARIANT', 'NODE_OFFICES', 'NODE_REPEATED', 'NODE_ORDER', 'EDGE_KIND', 'EDGE_END', 'END_TYPES',
         'WITHIN_ITSELF', 'EDGE_OFFICES', 'EDGE_REPEATED', 'EDGE_ORDER', 'OFFICE', 'RULE', 'UNKNOWN_PERSON', 'UNKNOWN_DEED',
         'UNKNOWN_CATEGORY', 'UNKNOWN_FOLIO', 'EQUAL_DEEDS', 'IN_NEITHER_SHEET', 'NOT_ONE_OFFICE', 'UNION_NODES',
         'UNION_EDGES', 'FOLIO_TWICE', 'MINUTE', 'TRACE_ROW', 'HELD_FOLIOS', 'NO_SUCH_PATH', 'OUTPUT_TOO_SHORT')
CONSTANTS = list(zip(NAMES, SENTENCES))


def wanted():
    return ''.join(line + '\n' for line in lines())


def built(room):
    """By the kit's compiler."""
    program = room.path / 'library'
    ran = run(['bash', 'tools/link', program, 'tests/library.c'], cwd=TOP)
    yield Finding('a program over the whole header is built', '' if ran.status == 0 else (ran.out + ran.err).decode())
    yield held('every function of the header', run([*START, program]), 0, wanted())
    header = (TOP / 'include' / 'tormukai.h').read_text()
    named = re.findall(r'^#define TORMUKAI_REFUSED_(\w+) (\d+)$', header, re.M)
    yield Finding("the header's refusal numbers", differs('names', CONSTANTS, [(name, int(number)) for name, number in named]))


def by_gcc(room):
    program = room.path / 'plain'
    ran = run(['gcc', '-O2', '-Wall', '-Wextra', '-Werror', '-Iinclude', '-o', program, 'tests/library.c',
               'target/library/libtormukai.a'], cwd=TOP)
    yield Finding('built by gcc', '' if ran.status == 0 else ran.err.decode())
    yield held('linked by gcc', run([program]), 0, wanted())


def by_rust(room):
    """The lines of docs/COUNTER.md under 'From Rust', within a program that prints the answer."""
    page = (TOP / 'docs' / 'COUNTER.md').read_text()
    section = page.partition('\n## From Rust\n')[2].partition('\n## ')[0]
    code = re.findall(r'^    (.*)$', section, re.M)
    source = '\n'.join([line for line in code if not line.startswith('let ')] + [
        'fn main() {', 'let file = std::fs::read(std::env::args().nth(1).unwrap()).unwrap();',
        *(line for line in code if line.startswith('let ')),
        'println!("{} {} {} {} {}", a.number, a.sheet, a.row, a.value, a.count);', '}', ''])
    (room.path / 'yours.rs').write_text(source)
    program = room.path / 'yours'
    ran = run(['rustc', '-O', '-D', 'warnings', '-L', 'native=target/library', '-o', program, room.path / 'yours.rs'], cwd=TOP)
    yield Finding('built by Rust', '' if ran.status == 0 else ran.err.decode())
    yield held('linked by Rust', run([program, room.file(A.file())]), 0, '0 0 0 1 0\n')


def tests(room):
    yield partial(built, room)
    if platform.machine() == 'x86_64':
        yield partial(by_gcc, room)
        yield partial(by_rust, room)
