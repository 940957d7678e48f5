"""The verb `add`: where a row goes, how the ends of edges are renumbered, every refusal of a row in its order, and OFFICES.

What is expected is reasoned by hand, and the model is held to it too.
"""
from functools import partial

from . import model
from .drive import Finding, ask, counter, differs, held, outcome_of, same
from .expect import NoEnd, Refused, RefusedTyping
from .listings import NO_LINES, NO_NUMBERS
from .model import edge_object, mark, node_object, size
from .outputs import writes
from .room import OLDER, contents
from .sheets import A, B, C, JOINT, Node, Sheet, crew, crowd, damaged, sheet
from .usage import bad

EMPTY = sheet([], [])
BOATS = crew(256, 8, 2048)
NEEDS = 'needs OFFICES, since the sheet has more than one office'


def with_node(of, row, *node):
    """The sheet with a node more at a row: what stood there and behind it stands one row further."""
    edges = [edge._replace(start=edge.start + (edge.start >= row), end=edge.end + (edge.end >= row)) for edge in of.edges]
    return Sheet(of.offices, of.nodes[:row] + (Node(*node),) + of.nodes[row:], tuple(edges))


def with_edge(of, row, *edge):
    return of._replace(edges=of.edges[:row] + sheet([], [edge]).edges + of.edges[row:])


# Two equal categories; a person and two categories; A with a folio; a person and a category that both offices have.
EQUALS = sheet([(2, 1, 0), (2, 3, 0)], [(2, 0, 1), (2, 1, 0)])
FIRST = sheet([(1, 1, 0), (2, 2, 0), (2, 3, 0)], [])
FOLIO_43 = with_node(A, 8, 4, 43, 0, 1)
BOTH = sheet([(1, 1, 0, 3), (2, 1, 0, 3)], [], 2)

# Label, sheet, line, OFFICES or None, row, the sheet with that row.
ADDED = [
    ('C is A with a grant', A, 'grant 22 31/2', None, 4, C),
    ('before all nodes', A, 'person 1', None, 0, with_node(A, 0, 1, 1, 0, 1)),
    ('behind its type', A, 'person 13', '1', 2, with_node(A, 2, 1, 13, 0, 1)),
    ('before its type', A, 'category 1', '01', 2, with_node(A, 2, 2, 1, 0, 1)),
    ('behind its type, by number and not as text', C, 'category 215', None, 4, with_node(C, 4, 2, 215, 0, 1)),
    ('between two of its type', EQUALS, 'category 2', None, 1, sheet([(2, 1, 0), (2, 2, 0), (2, 3, 0)], [(2, 0, 2), (2, 2, 0)])),
    ('before the variants', A, 'deed 31/0', None, 4, with_node(A, 4, 3, 31, 0, 1)),
    ('behind the variants', A, 'deed 31/4294967295', None, 6, with_node(A, 6, 3, 31, 4294967295, 1)),
    ('by number before variant', A, 'deed 30/9', None, 4, with_node(A, 4, 3, 30, 9, 1)),
    ('behind all nodes', A, 'folio 4294967295', None, 8, with_node(A, 8, 4, 4294967295, 0, 1)),
    ('the first node', EMPTY, 'folio 41', None, 0, sheet([(4, 41, 0)], [])),
    ('the first edge', FIRST, 'in 1 2', None, 0, sheet([(1, 1, 0), (2, 2, 0), (2, 3, 0)], [(1, 0, 1)])),
    ('before all edges', with_edge(FIRST, 0, 2, 1, 2), 'in 1 2', None, 0, with_edge(with_edge(FIRST, 0, 2, 1, 2), 0, 1, 0, 1)),
    ('behind the same person', A, 'in 11 22', None, 1, with_edge(A, 1, 1, 0, 3)),
    ('before the same person', A, 'in 12 21', None, 1, with_edge(A, 1, 1, 1, 2)),
    ('a ring', A, 'within 22 21', None, 3, with_edge(A, 3, 2, 3, 2)),
    ('before a grant', A, 'grant 21 31/2', None, 3, with_edge(A, 3, 3, 2, 5)),
    ('behind a ban', A, 'ban 22 31/1', None, 5, with_edge(A, 5, 4, 3, 4)),
    ('a ban beside its grant', B, 'ban 21 31/2', None, 2, with_edge(B, 2, 4, 1, 2)),
    ('before the last edge', A, 'applies 31/2 41', None, 6, with_edge(A, 6, 5, 5, 6)),
    ('behind all edges', FOLIO_43, 'applies 31/2 43', None, 7, with_edge(FOLIO_43, 7, 5, 5, 8)),
    ('at office 1 of two', JOINT, 'person 13', '1', 2, with_node(JOINT, 2, 1, 13, 0, 1)),
    ('at office 2 of two', JOINT, 'deed 31/3', '2', 6, with_node(JOINT, 6, 3, 31, 3, 2)),
    ('at both offices', JOINT, 'folio 40', '1,2', 6, with_node(JOINT, 6, 4, 40, 0, 3)),
    ('at both, the other way round', JOINT, 'folio 40', '2,1', 6, with_node(JOINT, 6, 4, 40, 0, 3)),
    ("an edge at its ends' office", JOINT, 'in 12 21', '1', 1, with_edge(JOINT, 1, 1, 1, 2, 1)),
    ('an edge at both offices', BOTH, 'in 1 1', '1,2', 0, with_edge(BOTH, 0, 1, 0, 1, 3)),
    ("an edge at one of its ends' offices", BOTH, 'in 1 1', '2', 0, with_edge(BOTH, 0, 1, 0, 1, 2)),
    ('the last of 512 nodes', crowd(511), 'person 512', None, 511, crowd(512)),
    ('the first of 512 nodes', crowd(511, 2), 'person 1', None, 0, crowd(512)),
    ('the last of 2,048 edges', crew(256, 8, 2047), 'in 256 8', None, 2047, BOATS),
    ('the last edge at 512 nodes', crew(504, 8, 2047), 'in 256 8', None, 2047, crew(504, 8, 2048)),
    ('a node to 2,048 edges', crew(255, 8, 2040), 'person 256', None, 255, crew(256, 8, 2040)),
]

PERSON_13, CATEGORY_23, DEED_31_3 = (1, 13, 0), (2, 23, 0), (3, 31, 3)
# Label, sheet, line, OFFICES or None, refusal. A row's own faults in their order, and the limits last.
REFUSED = [
    ('office 2 of one', A, 'person 13', '2', Refused(8)),
    ('offices 1 and 2 of one', A, 'person 13', '1,2', Refused(8)),
    ('office 3 of two', JOINT, 'person 13', '1,3', Refused(8)),
    ('the last office that has a mark', JOINT, 'person 13', '32', Refused(8)),
    ('every office that has a mark', A, 'person 13', ','.join(map(str, range(1, 33))), Refused(8)),
    ('offices before what is there', A, 'person 11', '2', Refused(8)),
    ('there already', A, 'person 11', None, Refused(9)),
    ('the last node is there already', A, 'folio 42', None, Refused(9)),
    ('a deed that is there already', A, 'deed 31/2', None, Refused(9)),
    ('there at the other office', JOINT, 'person 12', '2', Refused(9)),
    ('there at the same offices', JOINT, 'person 11', '1,2', Refused(9)),
    ('no first end', A, 'in 13 21', None, NoEnd(PERSON_13)),
    ('no other end', A, 'in 11 23', None, NoEnd(CATEGORY_23)),
    ('no end', A, 'in 13 23', None, NoEnd(PERSON_13, CATEGORY_23)),
    ('no variant of that number', A, 'ban 21 31/3', None, NoEnd(DEED_31_3)),
    ('neither category nor variant', A, 'grant 23 31/3', None, NoEnd(CATEGORY_23, DEED_31_3)),
    ('no deed and a folio', A, 'applies 31/3 41', None, NoEnd(DEED_31_3)),
    ('the number of another type', A, 'in 21 11', None, NoEnd((1, 21, 0), (2, 11, 0))),
    ('an end of the largest number', A, 'within 21 4294967295', None, NoEnd((2, 4294967295, 0))),
    ('no end, named twice', A, 'within 23 23', None, NoEnd(CATEGORY_23)),
    ('no end in an empty sheet', EMPTY, 'applies 1/0 1', None, NoEnd((3, 1, 0), (4, 1, 0))),
    ('ends before offices', A, 'in 11 23', '2', NoEnd(CATEGORY_23)),
    ('within itself', A, 'within 21 21', None, Refused(14)),
    ('within itself, before offices', A, 'within 22 22', '2', Refused(14)),
    ('an edge at office 2 of one', A, 'grant 22 31/2', '2', Refused(15)),
    ('an edge at office 3 of two', JOINT, 'applies 31/2 42', '3', Refused(15)),
    ('a first end that lacks the office', JOINT, 'in 12 21', '2', Refused(15)),
    ('another end that lacks the office', JOINT, 'in 11 22', '2', Refused(15)),
    ('an end that lacks one of two offices', JOINT, 'in 12 21', '1,2', Refused(15)),
    ('offices before the edge that is there', A, 'in 11 21', '1,2', Refused(15)),
    ('an edge that is there already', A, 'in 11 21', None, Refused(16)),
    ('the last edge is there already', A, 'applies 31/2 42', None, Refused(16)),
    ('an edge that is there at the other office', JOINT, 'grant 21 31/2', '1', Refused(16)),
    ('an edge that is there at one of two offices', JOINT, 'ban 21 31/2', '1,2', Refused(16)),
    ('513 nodes', crowd(512), 'person 513', None, Refused(4)),
    ('513 nodes, before all', crowd(512, 2), 'person 1', None, Refused(4)),
    ('513 nodes, and there already', crowd(512), 'person 512', None, Refused(9)),
    ('513 nodes, and no such office', crowd(512), 'person 513', '2', Refused(8)),
    ('2,049 edges', BOATS, 'within 1 2', None, Refused(4)),
    ('2,049 edges, and there already', BOATS, 'in 256 8', None, Refused(16)),
    ('2,049 edges, and no such office', BOATS, 'within 1 2', '2', Refused(15)),
    ('2,049 edges, and within itself', BOATS, 'within 1 1', None, Refused(14)),
    ('2,049 edges, and no end', BOATS, 'in 1 9', None, NoEnd((2, 9, 0))),
]

# Lines as arguments: with a line feed, and all that a listing refuses and an argument can be.
NO_ARGUMENTS = [b'person 13\n', b'person 13\nperson 14', b'\n', b'x' * 61] + [line for line in NO_LINES if b'\0' not in line]


def marks_of(offices):
    return sum(mark(int(office)) for office in (offices or '1').split(','))


def reply(line, row, of):
    """What is told of a row that was added: an edge is known by its word."""
    is_node = line.split()[0].encode() in model.NODE_LINES
    return {**({'node': node_object(of, row)} if is_node else {'edge': edge_object(of, row)}), **size(of)}


def told(outcome):
    return outcome.fields() if isinstance(outcome, Refused) else outcome


def model_agrees():
    """And a sheet's listing has one line more, whichever row it is."""
    for label, of, line, offices, row, result in ADDED:
        got = outcome_of(model.add, of, line.encode(), marks_of(offices))
        yield same(f'the model: {label}', (reply(line, row, result), result), got)
        before, after = (model.lines_of(each).splitlines() for each in (of, result))
        yield same(f'{label}: a line more', sorted(before + [line]), sorted(after))
        yield same(f'{label}: a right sheet', result, model.read(result.file()))
    for label, of, line, offices, refused in REFUSED:
        yield same(f'the model: {label}', told(refused), told(outcome_of(model.add, of, line.encode(), marks_of(offices))))
    for number, lines in (40, NO_ARGUMENTS), (41, NO_NUMBERS):
        for line in lines:
            yield same(f'the model: {line!r}', told(RefusedTyping(number, line)), told(outcome_of(model.add, A, line)))


# ---- The command

def adds(room, label, of, line, offices, outcome, result=None):
    behind = [line] if offices is None else [line, offices]
    yield from writes(room, label, 'add', [room.file(of.file())], outcome, result, behind=behind)


SAID = [
    ('a', ['person 13'], 0, 'node 2: person 13, office 1\nnodes 9\nedges 7\nwritten: out\n'),
    ('ab', ['in 12 21', '1'], 0, 'edge 1: person 12 in category 21, office 1\nnodes 8\nedges 9\nwritten: out\n'),
    ('ab', ['deed 31/0', '2,1'], 0, 'node 4: deed 31/0, offices 1 and 2\nnodes 9\nedges 8\nwritten: out\n'),
    ('a', ['person 11'], 1, 'refused 9: node identity equal to the row before, or already there\n'),
    ('a', ['in 11 21'], 1, 'refused 16: edge equal to the row before, or already there\n'),
    ('a', ['in 11 23'], 1, 'refused 12: an end not below n\ncategory 23 is not in the sheet\n'),
    ('a', ['grant 23 31/3'], 1, 'refused 12: an end not below n\ncategory 23 and deed 31/3 are not in the sheet\n'),
    ('a', ['person 013'], 1, 'refused 41: a number that is 0, has a leading zero or is above 4,294,967,295: "person 013"\n'),
    ('a', ['person 13\n'], 1, 'refused 40: not one of the nine lines, or no line feed at its end: "person 13\\x0a"\n'),
    ('a', ['x' * 61], 1, f'refused 40: not one of the nine lines, or no line feed at its end: "{"x" * 60}" (its first 60 bytes)\n'),
    ('bad', ['person 13'], 1, 'refused 15 at sheet 1 row 4: edge offices\n'),
]
SAID_IN_JSON = [
    ('a', ['grant 22 31/2'], 0, '"refusal":null,"edge":{"row":4,"kind":"grants","from":{"type":"category","number":22,"variant":0},'
     '"to":{"type":"deed","number":31,"variant":2},"offices":[1]},"nodes":8,"edges":8,"bytes":280'),
    ('ab', ['folio 43', '2'], 0, '"refusal":null,"node":{"row":8,"type":"folio","number":43,"variant":0,"offices":[2]},"nodes":9,'
     '"edges":8,"bytes":296'),
    ('a', ['in 13 23'], 1, '"refusal":{"number":12,"sheet":0,"row":0,"text":"an end not below n","missing":['
     '{"type":"person","number":13,"variant":0},{"type":"category","number":23,"variant":0}]}'),
    ('a', ['folio 0'], 1, '"refusal":{"number":41,"sheet":0,"row":0,"text":"a number that is 0, has a leading zero or is above '
     '4,294,967,295","shown":"folio 0","note":null}'),
]


def lines(room):
    """Text and JSON of each, word for word, so that not everything passes through expect.py."""
    cwd = room.folder()
    for name, data in ('a', A.file()), ('ab', JOINT.file()), ('bad', damaged(A, 57, 2)):
        (cwd / name).write_bytes(data)
    for name, behind, status, said in SAID:
        yield held(f'add {behind}', counter('add', name, 'out', *behind, cwd=cwd), status, said)
    for name, behind, status, said in SAID_IN_JSON:
        ran = counter('--json', 'add', name, 'out', *behind, cwd=cwd)
        yield held(f'--json add {behind}', ran, status, '{"verb":"add",' + said + '}\n')


def unnamed(room):
    """A sheet of two offices without OFFICES: no right is given at an office that nobody named, and the line is not looked at. What
    is no sheet is refused before."""
    cwd = room.folder()
    for name, data in ('ab', JOINT.file()), ('bad', damaged(JOINT, 9, 0)), ('out', OLDER):
        (cwd / name).write_bytes(data)
    before = contents(cwd)
    for line in 'person 13', 'in 12 21', 'person 11', 'person 0', 'x':
        for option in [], ['--json']:
            ran = counter(*option, 'add', 'ab', 'out', line, cwd=cwd)
            yield held(f'no OFFICES, {option} {line}', ran, 2, '', bad('add', 'add', NEEDS))
    yield from ask('no OFFICES, no sheet', 'add', ['bad', 'out', 'person 13'], Refused(8, 1, 0), cwd=cwd)
    yield same('no OFFICES: the folder is as it was', before, contents(cwd))


def one_by_one(room):
    """A sheet is made of nothing: its lines from the last node to the first, and then its edges, each into the same file."""
    for of in A, C:
        cwd = room.folder()
        (cwd / 'sheet').write_bytes(EMPTY.file())
        rows = model.lines_of(of).splitlines()
        for line in rows[:len(of.nodes)][::-1] + rows[len(of.nodes):][::-1]:
            ran = counter('add', 'sheet', 'sheet', line, cwd=cwd)
            yield Finding(f'one by one: {line}', differs('status', 0, ran.status) + differs('errors', b'', ran.err))
        yield same('one by one', {'sheet': of.file()}, contents(cwd))


def tests(room):
    yield model_agrees
    for label, of, line, offices, row, result in ADDED:
        yield partial(adds, room, label, of, line, offices, reply(line, row, result), result)
    for label, of, line, offices, refused in REFUSED:
        yield partial(adds, room, label, of, line, offices, refused)
    for number, wrong in (40, NO_ARGUMENTS), (41, NO_NUMBERS):
        for line in wrong:
            yield partial(adds, room, f'{line!r}', A, line, None, RefusedTyping(number, line))
    for group in lines, unnamed, one_by_one:
        yield partial(group, room)
