"""What each verb has to answer, from document 01 alone. A reply is the fields that `--json` prints.

Nothing here is fast or clever, and nothing is taken from the crates: paths are listed one by one, so that only small sheets can
be asked about them.
"""
import re
import struct

from .expect import KINDS, TYPES, NoEnd, Refused, RefusedLine, RefusedRow, RefusedTyping, Unfound, answered, identity_object
from .sheets import APPLIES, BAN, CATEGORY, DEED, FOLIO, GRANT, MEMBER, MOST_BYTES, MOST_EDGES, MOST_NODES, PERSON, WITHIN
from .sheets import Edge, Node, Sheet

ENDS = {MEMBER: (PERSON, CATEGORY), WITHIN: (CATEGORY, CATEGORY), GRANT: (CATEGORY, DEED), BAN: (CATEGORY, DEED),
        APPLIES: (DEED, FOLIO)}


# ---- The check

def read(data, place=1):
    """The sheet that a file holds, or its refusal at this place."""
    if len(data) % 4 or len(data) > MOST_BYTES:
        raise Refused(33, place)
    words = struct.unpack(f'<{len(data) // 4}I', data)
    if len(words) < 6:
        raise Refused(1, place)
    form, offices, n, e, nodes_at, edges_at = words[:6]
    if form != 1:
        raise Refused(2, place)
    if offices not in (1, 2):
        raise Refused(3, place)
    if n > MOST_NODES or e > MOST_EDGES:
        raise Refused(4, place)
    if (nodes_at, edges_at, len(words)) != (6, 6 + 4 * n, 6 + 4 * n + 4 * e):
        raise Refused(5, place)
    rows = [words[at:at + 4] for at in range(6, len(words), 4)]
    nodes, edges = [], []
    for row in rows[:n]:
        number = node_fault(Node(*row), nodes, offices)
        if number:
            raise Refused(number, place, len(nodes))
        nodes.append(Node(*row))
    for row in rows[n:]:
        number = edge_fault(Edge(*row), edges, nodes)
        if number:
            raise Refused(number, place, len(edges))
        edges.append(Edge(*row))
    return Sheet(offices, tuple(nodes), tuple(edges))


def node_fault(node, before, offices):
    if node.type not in TYPES:
        return 6
    if node.number == 0 or node.variant != 0 and node.type != DEED:
        return 7
    if node.marks not in ((1,) if offices == 1 else (1, 2, 3)):
        return 8
    if before and node.identity == before[-1].identity:
        return 9
    if before and node.identity < before[-1].identity:
        return 10
    return 0


def edge_fault(edge, before, nodes):
    if edge.kind not in ENDS:
        return 11
    if edge.start >= len(nodes) or edge.end >= len(nodes):
        return 12
    start, end = nodes[edge.start], nodes[edge.end]
    if (start.type, end.type) != ENDS[edge.kind]:
        return 13
    if edge.kind == WITHIN and edge.start == edge.end:
        return 14
    if edge.marks == 0 or edge.marks != edge.marks & start.marks & end.marks:
        return 15
    if before and edge[:3] == before[-1][:3]:
        return 16
    if before and edge[:3] < before[-1][:3]:
        return 17
    return 0


# ---- What an office sees

def mark(office):
    return 1 << office - 1


def need_office(sheet, office):
    if not 1 <= office <= sheet.offices:
        raise Refused(20)


def numbers(sheet, type_, office=None):
    """The numbers of this type, rising, at an office or (None) at any."""
    return sorted({node.number for node in sheet.nodes if node.type == type_ and (office is None or node.marks & mark(office))})


def need(sheet, type_, number, office=None):
    if number not in numbers(sheet, type_, office):
        raise Refused({PERSON: 21, DEED: 22, CATEGORY: 24, FOLIO: 23}[type_])


def pairs(sheet, office, kind):
    """The ends of the edges of a kind that an office sees, as identities."""
    return [(sheet.nodes[edge.start].identity, sheet.nodes[edge.end].identity)
            for edge in sheet.edges if edge.kind == kind and edge.marks & mark(office)]


def paths(sheet, office, ban, person, deed, folio):
    """Every grant path, or every ban path, each as the list of its identities."""
    member, within, gives, applies = (pairs(sheet, office, kind) for kind in (MEMBER, WITHIN, BAN if ban else GRANT, APPLIES))
    steps = [(end, start) for start, end in within] if ban else within

    def walks(path):
        yield path
        for start, end in steps:
            if start == path[-1] and end not in path:
                yield from walks(path + [end])

    return [walk + [given, place]
            for who, category in member if who[1] == person
            for walk in walks([who, category])
            for holder, given in gives if holder == walk[-1] and given[1] == deed
            for which, place in applies if which == given and place[1] == folio]


def value(sheet, office, person, deed, folio):
    return (1 if paths(sheet, office, False, person, deed, folio) else 0) + (
        2 if paths(sheet, office, True, person, deed, folio) else 0)


def above(within, category):
    """The categories that contain this one over one or more steps; itself too where it stands in a ring."""
    found, last = set(), {category}
    while last:
        last = {end for start, end in within if start in last} - found
        found |= last
    return found


# ---- The ten questions

def check(sheet):
    return {'offices': sheet.offices, 'nodes': len(sheet.nodes), 'edges': len(sheet.edges)}


def answer(sheet, office, person, deed, folio):
    need_triple(sheet, office, person, deed, folio)
    got = value(sheet, office, person, deed, folio)
    return {'answer': answered(got), 'value': got}


def need_triple(sheet, office, person, deed, folio):
    need_office(sheet, office)
    for type_, number in (PERSON, person), (DEED, deed), (FOLIO, folio):
        need(sheet, type_, number, office)


def joint(sheet, rule, person, deed, folio):
    if rule not in (1, 2, 3):
        raise Refused(27)
    for type_, number in (PERSON, person), (DEED, deed), (FOLIO, folio):
        need(sheet, type_, number)
    got, decider = decide(rule, [value(sheet, office, person, deed, folio) for office in range(1, sheet.offices + 1)])
    return {'answer': answered(got), 'value': got, 'office': decider}


def decide(rule, values):
    granting = [office for office, got in enumerate(values, 1) if got in (1, 3)]
    banning = [office for office, got in enumerate(values, 1) if got in (2, 3)]
    if rule == 3:
        return next(((got, office) for office, got in enumerate(values, 1) if got), (0, 0))
    facts = [(1, granting), (2, banning)]
    return next(((got, offices[0]) for got, offices in (facts if rule == 1 else facts[::-1]) if offices), (0, 0))


def witness(sheet, office, kind, person, deed, folio):
    need_triple(sheet, office, person, deed, folio)
    found = paths(sheet, office, kind == 'ban', person, deed, folio)
    if not found:
        raise Refused(26)
    best = min(found, key=lambda path: (len(path), [identity[1:] for identity in path]))
    return {'path': [identity_object(identity) for identity in best]}


def path(sheet, office, kind, person, deed, folio, nodes):
    """The nodes are (type or None, number, variant)."""
    need_office(sheet, office)
    listed = paths(sheet, office, kind == 'ban', person, deed, folio)
    return {'path': any(len(nodes) == len(found) and all(
        typed in (None, identity[0]) and (number, variant) == identity[1:]
        for (typed, number, variant), identity in zip(nodes, found)) for found in listed)}


def persons(sheet, office, category):
    need_office(sheet, office)
    need(sheet, CATEGORY, category, office)
    within, asked = pairs(sheet, office, WITHIN), (CATEGORY, category, 0)
    return {'persons': sorted({who[1] for who, place in pairs(sheet, office, MEMBER)
                               if place == asked or asked in above(within, place)})}


def holders(sheet, office, deed, folio):
    need_office(sheet, office)
    need(sheet, DEED, deed, office)
    need(sheet, FOLIO, folio, office)
    return {'persons': [who for who in numbers(sheet, PERSON, office) if paths(sheet, office, False, who, deed, folio)]}


def unreached(sheet, office):
    need_office(sheet, office)
    return {'folios': [folio for folio in numbers(sheet, FOLIO, office) if not any(
        paths(sheet, office, False, who, deed, folio)
        for who in numbers(sheet, PERSON, office) for deed in numbers(sheet, DEED, office))]}


def conflict(sheet, office):
    need_office(sheet, office)
    for who in numbers(sheet, PERSON, office):
        for deed in numbers(sheet, DEED, office):
            for folio in numbers(sheet, FOLIO, office):
                if value(sheet, office, who, deed, folio) == 3:
                    return {'person': who, 'deed': deed, 'folio': folio}
    raise Refused(26)


def duties(sheet, office, deed, other):
    need_office(sheet, office)
    need(sheet, DEED, deed, office)
    need(sheet, DEED, other, office)
    if deed == other:
        raise Refused(31)
    for who in numbers(sheet, PERSON, office):
        for folio in numbers(sheet, FOLIO, office):
            if all(paths(sheet, office, False, who, each, folio) for each in (deed, other)):
                return {'person': who, 'folio': folio}
    raise Refused(26)


def redundant(sheet, office):
    need_office(sheet, office)
    rows = [row for row, edge in enumerate(sheet.edges) if edge.marks & mark(office) and is_redundant(sheet, office, edge)]
    return {'edges': [edge_object(sheet, row) for row in rows]}


def is_redundant(sheet, office, edge):
    start, end = sheet.nodes[edge.start].identity, sheet.nodes[edge.end].identity
    within = pairs(sheet, office, WITHIN)
    alike = pairs(sheet, office, edge.kind)
    if edge.kind == MEMBER:
        others = [other for who, other in alike if who == start and other != end]
        contained, containing = (any(end in above(within, other) for other in others),
                                 any(other in above(within, end) for other in others))
        return contained and (containing or not pairs(sheet, office, BAN))
    if edge.kind == WITHIN:
        return longer_way(within, [start], end)
    if edge.kind == GRANT:
        return any(deed == end and other != start and other in above(within, start) for other, deed in alike)
    if edge.kind == BAN:
        return any(deed == end and other != start and start in above(within, other) for other, deed in alike)
    return False


def longer_way(within, path, end):
    """Whether two or more containments through distinct categories lead on to the end."""
    onward = [following for start, following in within if start == path[-1] and following not in path]
    return end in onward and len(path) > 1 or any(
        longer_way(within, path + [following], end) for following in onward if following != end)


# ---- Two sheets, and one office of a sheet

def find(first, second, type_, number, variant):
    for place, sheet in (1, first), (2, second):
        for row, node in enumerate(sheet.nodes):
            if node.identity == (type_, number, variant):
                return {'sheet': place, 'node': node_object(sheet, row)}
    raise Unfound(*(row_for(sheet, (type_, number, variant)) for sheet in (first, second)))


def row_for(sheet, identity):
    """The node row at which an identity stands or would stand: so many are lower."""
    return sum(node.identity < identity for node in sheet.nodes)


def size(sheet):
    """What is told of a sheet that is written."""
    return {'nodes': len(sheet.nodes), 'edges': len(sheet.edges), 'bytes': len(sheet.file())}


def relations(sheet):
    return {(edge.kind, sheet.nodes[edge.start].identity, sheet.nodes[edge.end].identity): edge.marks for edge in sheet.edges}


def rebuilt(offices, identities, edges):
    """The sheet of these identities and relations, each with its marks."""
    nodes = [Node(*identity, identities[identity]) for identity in sorted(identities)]
    row = {node.identity: at for at, node in enumerate(nodes)}
    return Sheet(offices, tuple(nodes), tuple(sorted(
        Edge(kind, row[start], row[end], marks) for (kind, start, end), marks in edges.items())))


def fused(first, second):
    """The keys of both, marked 1, 2 or 3."""
    return {key: (1 if key in first else 0) + (2 if key in second else 0) for key in {**first, **second}}


def join(first, second):
    """The reply and the joint sheet."""
    for place, sheet in (1, first), (2, second):
        if sheet.offices != 1:
            raise Refused(28, place)
    identities = fused(*({node.identity: 1 for node in sheet.nodes} for sheet in (first, second)))
    edges = fused(relations(first), relations(second))
    if len(identities) > MOST_NODES:
        raise Refused(29)
    if len(edges) > MOST_EDGES:
        raise Refused(30)
    result = rebuilt(2, identities, edges)
    return {'nodes': len(identities), 'shared_nodes': sum(marks == 3 for marks in identities.values()),
            'edges': len(edges), 'shared_edges': sum(marks == 3 for marks in edges.values()),
            'bytes': len(result.file())}, result


def take(sheet, office):
    """The reply and the office's sheet."""
    need_office(sheet, office)
    result = rebuilt(1, {node.identity: 1 for node in sheet.nodes if node.marks & mark(office)},
                     {key: 1 for key, marks in relations(sheet).items() if marks & mark(office)})
    return size(result), result


# ---- Listings

NODE_LINES = {b'person': PERSON, b'category': CATEGORY, b'deed': DEED, b'folio': FOLIO}
EDGE_LINES = {b'in': MEMBER, b'within': WITHIN, b'grant': GRANT, b'ban': BAN, b'applies': APPLIES}


def typed_row(line):
    """What a line says: its word, and for each node that it names the type and the digits of its numbers. None where the line
    is none of the nine."""
    word, *names = line.split(b' ')
    types = (NODE_LINES[word],) if word in NODE_LINES else ENDS.get(EDGE_LINES.get(word), ())
    forms = [rb'([0-9]+)/([0-9]+)' if type_ == DEED else rb'([0-9]+)' for type_ in types]
    matched = [re.fullmatch(form, name) for form, name in zip(forms, names)]
    if not types or len(names) != len(types) or not all(matched):
        return None
    return word, [(type_, *found.groups()) for type_, found in zip(types, matched)]


def no_number(digits, least):
    return len(digits) > 1 and digits.startswith(b'0') or len(digits) > 10 or not least <= int(digits) < 1 << 32


def line_alone(line):
    """What refuses a line by itself, or its row: the word and the identities."""
    row = typed_row(line)
    if row is None:
        return 40, None
    word, names = row
    if any(no_number(number, 1) or any(no_number(each, 0) for each in variant) for _, number, *variant in names):
        return 41, None
    return 0, (word, tuple((type_, int(number), *(int(each) for each in variant or [b'0'])) for type_, number, *variant in names))


def line_fault(line, ended, before):
    """The refusal of a listing's line, or its row."""
    number, row = line_alone(line) if ended else (40, None)
    if number:
        return number, None
    if row in before:
        return 42, None
    return (14 if row[0] == b'within' and row[1][0] == row[1][1] else 0), row


def read_listing(text, file='-'):
    """The sheet of a listing, or the refusal."""
    *whole, rest = text.split(b'\n')
    rows, before = [], set()
    for at, (line, ended) in enumerate([(line, True) for line in whole] + ([(rest, False)] if rest else [])):
        number, row = line_fault(line, ended, before)
        if number:
            raise RefusedLine(number, at, line, ended, file)
        rows.append(row)
        before.add(row)
    nodes = {names[0] for word, names in rows if word in NODE_LINES}
    for at, (word, names) in enumerate(rows):
        if word in EDGE_LINES and not set(names) <= nodes:
            raise RefusedLine(43, at, whole[at], True, file)
    edges = {(EDGE_LINES[word], *names): 1 for word, names in rows if word in EDGE_LINES}
    if len(nodes) > MOST_NODES or len(edges) > MOST_EDGES:
        raise Refused(4)
    return rebuilt(1, {node: 1 for node in nodes}, edges)


def read_in(text, file='-'):
    """The reply and the sheet."""
    result = read_listing(text, file)
    return size(result), result


def lines_of(sheet):
    """The listing of a sheet of one office."""
    def name(row):
        type_, number, variant = sheet.nodes[row].identity
        return f'{number}/{variant}' if type_ == DEED else str(number)
    words = {kind: word.decode() for word, kind in EDGE_LINES.items()}
    return ''.join([f'{TYPES[node.type]} {name(row)}\n' for row, node in enumerate(sheet.nodes)] +
                   [f'{words[edge.kind]} {name(edge.start)} {name(edge.end)}\n' for edge in sheet.edges])


def listing(sheet):
    if sheet.offices != 1:
        raise Refused(28, 1)
    return {'listing': lines_of(sheet)}


# ---- One row more

def add(sheet, line, marks=1):
    """The reply, and the sheet with the line's row more."""
    number, row = line_alone(line)
    if number:
        raise RefusedTyping(number, line)
    word, names = row
    identities, edges = {node.identity: node.marks for node in sheet.nodes}, relations(sheet)
    if word in NODE_LINES:
        refuse_node(sheet, names[0], marks)
        result = rebuilt(sheet.offices, {**identities, names[0]: marks}, edges)
        return {'node': node_object(result, row_for(result, names[0])), **size(result)}, result
    relation = EDGE_LINES[word], *names
    refuse_edge(sheet, relation, marks)
    result = rebuilt(sheet.offices, identities, {**edges, relation: marks})
    return {'edge': edge_object(result, list(relations(result)).index(relation)), **size(result)}, result


def refuse_node(sheet, identity, marks):
    number = node_fault(Node(*identity, marks), [], sheet.offices)
    if number:
        raise Refused(number)
    if identity in {node.identity for node in sheet.nodes}:
        raise Refused(9)
    if len(sheet.nodes) == MOST_NODES:
        raise Refused(4)


def refuse_edge(sheet, relation, marks):
    kind, start, end = relation
    marked = {node.identity: node.marks for node in sheet.nodes}
    missing = [each for each in dict.fromkeys((start, end)) if each not in marked]
    if missing:
        raise NoEnd(*missing)
    if kind == WITHIN and start == end:
        raise Refused(14)
    if marks == 0 or marks & marked[start] & marked[end] != marks:
        raise Refused(15)
    if relation in relations(sheet):
        raise Refused(16)
    if len(sheet.edges) == MOST_EDGES:
        raise Refused(4)


# ---- The duty desk

START, END, QUESTION = 1, 2, 3
MOST_FOLIOS = 32


def held(history, folio, minute, timeout):
    """The minutes of the start rows that hold the folio at this minute."""
    minutes = []
    for row_minute, kind, row_folio, *_ in history:
        if row_folio == folio and kind == END:
            minutes = []
        if row_folio == folio and kind == START:
            minutes.append(row_minute)
    return [start for start in minutes if minute < start + timeout]


def held_folios(history, minute, timeout):
    return [folio for folio in {row[2] for row in history} if held(history, folio, minute, timeout)]


def row_fault(row, history, timeout):
    if len(row) != 5:
        return 54
    minute, kind, _, person, deed = row
    if history and minute < history[-1][0]:
        return 50
    if kind not in (START, END, QUESTION) or kind != QUESTION and (person, deed) != (0, 0):
        return 54
    return 51 if kind == START and len(held_folios(history + [row], minute, timeout)) > MOST_FOLIOS else 0


def at_office(sheet, office, person, deed, folio):
    """An office that does not know one of them is undetermined."""
    known = all(number in numbers(sheet, type_, office) for type_, number in ((PERSON, person), (DEED, deed), (FOLIO, folio)))
    return value(sheet, office, person, deed, folio) if known else 0


def asked(sheet, row, history, timeout):
    minute, _, folio, person, deed = row
    opened = any(start < minute for start in held(history, folio, minute, timeout))
    answers = [at_office(sheet, office, person, deed, folio) for office in ((2, 1) if opened else (1,))]
    got = next((each for each in answers if each), 0)
    return {'minute': minute, 'folio': folio, 'person': person, 'deed': deed, 'answer': answered(got), 'value': got, 'open': opened}


def watch(sheet, timeout, words, file='-'):
    """The questions of a trace, by the whole history of each row."""
    if sheet.offices < 2:
        raise Refused(3, 1)
    rows = [list(words[at:at + 5]) for at in range(0, len(words), 5)]
    for at, row in enumerate(rows):
        number = row_fault(row, rows[:at], timeout)
        if number:
            raise RefusedRow(number, at, file)
    return {'questions': [asked(sheet, row, rows[:at], timeout) for at, row in enumerate(rows) if row[1] == QUESTION]}


# ---- The rows

def show(sheet):
    return {'form': 1, 'offices': sheet.offices, 'nodes': [node_object(sheet, row) for row in range(len(sheet.nodes))],
            'edges': [edge_object(sheet, row) for row in range(len(sheet.edges))]}


def offices_of(marks):
    return [office for office in (1, 2) if marks & mark(office)]


def node_object(sheet, row):
    node = sheet.nodes[row]
    return {'row': row, **identity_object(node.identity), 'offices': offices_of(node.marks)}


def edge_object(sheet, row):
    edge = sheet.edges[row]
    return {'row': row, 'kind': KINDS[edge.kind], 'from': identity_object(sheet.nodes[edge.start].identity),
            'to': identity_object(sheet.nodes[edge.end].identity), 'offices': offices_of(edge.marks)}
