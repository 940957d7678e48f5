"""The picture's text: it has the rows that an office sees and no others, tells kinds apart, and marks the witness."""
import re
import shutil
from collections import Counter
from functools import partial

from . import model
from .drive import SHOWN, Finding, ask, ask_json, ask_text, counter, differs, outcome_of, parsed, run, same, true
from .expect import Refused, identity
from .graph import lines, read_graph, rows
from .sheets import A, BAN, C, DEED, FOLIO, GRANT, HARBOUR, JOINT, PERSON, WITHIN, sheet


def wanted_nodes(of, office):
    return sorted(identity(model.identity_object(node.identity)) for node in of.nodes if node.marks & model.mark(office))


def wanted_edges(of, office):
    return sorted(ends(of, edge) for edge in of.edges if edge.marks & model.mark(office))


def ends(of, edge):
    return tuple(identity(model.identity_object(of.nodes[row].identity)) for row in (edge.start, edge.end))


def draw(label_, name, args):
    """The graph in text and in JSON, which has to be the same; as a graph, or what is wrong."""
    ran, other = counter('draw', name, *args), counter('--json', 'draw', name, *args)
    text, told = ran.out.decode(), parsed(other.out)
    graph = told.get('graph') if isinstance(told, dict) else told
    faults = differs('status', (0, 0), (ran.status, other.status)) + differs('errors', (b'', b''), (ran.err, other.err))
    faults += differs('graph in JSON', text.rstrip('\n'), str(graph).rstrip('\n'))
    faults += differs('object', {'verb': 'draw', 'refusal': None, 'graph': graph}, told)
    if not faults:
        SHOWN.update({('draw', 0, False, 'text'), ('draw', 0, False, 'JSON')})
    try:
        return Finding(label_, faults), read_graph(text)
    except (ValueError, KeyError) as fault:
        return Finding(label_, f'{faults}  {fault}: {text!r}\n'), None


def rows_drawn(label_, graph, of, office):
    yield same(f'{label_}: nodes', wanted_nodes(of, office), sorted(said for said, _ in rows(graph)))
    yield same(f'{label_}: edges', wanted_edges(of, office), sorted(line[:2] for line in lines(graph)))


def looks(graph):
    """Nodes and edges with their looks, counted: the names, then the attributes."""
    return Counter((*drawn_[:-1], tuple(sorted(drawn_[-1].items()))) for drawn_ in rows(graph) + lines(graph))


def marked(plain, bold):
    """The nodes and edges that look otherwise with the question than without it."""
    return sorted(entry[:-1] for entry in (looks(bold) - looks(plain)).elements())


def on_path(path, ban):
    """The nodes and edges of a path; a containment of a ban is walked against its edge."""
    names = [identity(each) for each in path]
    edges = [(end, start) if ban and start.startswith('category') and end.startswith('category') else (start, end)
             for start, end in zip(names, names[1:])]
    return sorted([(name,) for name in names] + edges)


def drawn(label_, name, file, office, rng):
    """A picture of a file that may be damaged, without and with a question."""
    of = outcome_of(model.read, file)
    if isinstance(of, Refused) or office > of.offices:
        refused = of if isinstance(of, Refused) else Refused(20)
        yield ask_text(label_, 'draw', [name, str(office)], refused)
        yield ask_json(label_, 'draw', [name, str(office), 'grant', '1', '1', '1'], refused)
        return
    finding, plain = draw(f'{label_} [draw]', name, [str(office)])
    yield finding
    if plain:
        yield from rows_drawn(f'{label_} [draw]', plain, of, office)
    kind = rng.choice(('grant', 'ban'))
    triple = [rng.choice(model.numbers(of, type_, office) or [1]) for type_ in (PERSON, DEED, FOLIO)]
    yield from with_question(label_, name, of, office, kind, triple, plain)


def with_question(label_, name, of, office, kind, triple, plain):
    got = outcome_of(model.witness, of, office, kind, *triple)
    args = [str(office), kind, *map(str, triple)]
    if isinstance(got, Refused):
        yield from ask(f'{label_}: {args}', 'draw', [name, *args], got)
        return
    finding, bold = draw(f'{label_} [draw {args}]', name, args)
    yield finding
    if plain and bold:
        yield from rows_drawn(f'{label_} [draw {args}]', bold, of, office)
        yield same(f'{label_} [draw {args}]: in bold', on_path(got['path'], kind == 'ban'), marked(plain, bold))


def told_apart(name, of, office):
    """Containments, grants and bans differ by colour, and without colours by their lines."""
    graph = draw('kinds', name, [str(office)])[1]
    by_colour, by_line = {}, {}
    for edge in of.edges:
        alike = [other for other in of.edges if other[1:3] == edge[1:3] and other.marks & model.mark(office)]
        if len(alike) != 1 or edge.kind not in (WITHIN, GRANT, BAN):
            continue
        look = next(looks_ for start, end, looks_ in lines(graph) if (start, end) == ends(of, edge))
        by_colour.setdefault(edge.kind, set()).add(look.get('color', 'black'))
        by_line.setdefault(edge.kind, set()).add((look.get('style', 'solid'), look.get('arrowhead', 'normal')))
    for what, found in ('colour', by_colour), ('line', by_line):
        yield true(f'kinds are told apart by {what}', len(found) == 3 and all(len(each) == 1 for each in found.values()) and
                   len(set.union(*found.values())) == 3, found)
    yield same('from left to right', 'LR', graph.frame.get('rankdir'))


def laid_out(label_, name, args):
    """Graphviz reads it without a word, and sets persons, categories, deeds and folios from left to right."""
    ran = run(['dot', '-Tplain'], stdin=counter('draw', name, *args).out)
    yield Finding(f'{label_}: Graphviz reads it', differs('status', 0, ran.status) + differs('errors', b'', ran.err))
    across = {}
    for type_, x in re.findall(r'^node "(person|category|deed|folio) [^"]*" ([0-9.]+)', ran.out.decode(), re.M):
        across.setdefault(type_, []).append(float(x))
    order = [across.get(type_, []) for type_ in ('person', 'category', 'deed', 'folio')]
    rises = all(order) and all(max(left) < min(right) for left, right in zip(order, order[1:]))
    yield true(f'{label_}: from left to right', rises, order)


# Label, sheet, office, question.
KNOWN = [
    ('case 2', A, 1, 'grant', (11, 31, 41)),
    ('case 5', A, 1, 'ban', (12, 31, 42)),
    ('case 10', C, 1, 'grant', (11, 31, 42)),
    ('office 1 of the joint sheet', JOINT, 1, 'ban', (11, 31, 42)),
    ('office 2 of the joint sheet', JOINT, 2, 'grant', (11, 31, 42)),
    ('the harbour', HARBOUR, 1, 'ban', (1, 5, 6)),
    ('no such path', A, 1, 'grant', (11, 31, 42)),
    ('no such person', A, 1, 'grant', (99, 99, 99)),
    ('no such deed', A, 1, 'ban', (11, 99, 99)),
    ('no such folio', A, 1, 'ban', (11, 31, 99)),
]


def known(room):
    """Known sheets: their rows, kinds told apart, and witnesses in bold."""
    for label_, of, office, kind, triple in KNOWN:
        name = room.file(of.file())
        finding, plain = draw(label_, name, [str(office)])
        yield finding
        yield from rows_drawn(label_, plain, of, office)
        yield from with_question(label_, name, of, office, kind, triple, plain)
    for office in '0', '3', '4294967295':
        yield from ask(f'office {office}', 'draw', [room.file(JOINT.file()), office], Refused(20))
        yield from ask(f'office {office}', 'draw', [room.file(JOINT.file()), office, 'grant', '11', '31', '42'], Refused(20))
    yield from told_apart(room.file(HARBOUR.file()), HARBOUR, 1)
    if shutil.which('dot'):
        for label_, of, office, kind, triple in KNOWN[:6]:
            yield from laid_out(label_, room.file(of.file()), [str(office), kind, *map(str, triple)])


def empty(room):
    """An office that sees nothing still has a picture."""
    name, of = room.file(sheet([], []).file()), sheet([], [])
    finding, graph = draw('an empty sheet', name, ['1'])
    yield finding
    yield from rows_drawn('an empty sheet', graph, of, 1)


def tests(room):
    yield partial(known, room)
    yield partial(empty, room)
