"""Random small sheets: every verb against the model, by a seed. DESK_SHEETS=N sets how many, SEED=N tries others."""
import os
import platform
import random
from functools import partial

from . import model
from .drawn import drawn
from .drive import ask, ask_json, ask_text, outcome_of
from .expect import TYPES, Refused
from .outputs import writes
from .sheets import APPLIES, BAN, CATEGORY, DEED, FOLIO, GRANT, MEMBER, PERSON, WITHIN, Edge, Node, Sheet

# Under an emulator a run takes some ten times as long.
SHEETS = int(os.environ.get('DESK_SHEETS') or (300 if platform.machine() == 'x86_64' else 60))
SEED = os.environ.get('SEED') or '14'


# How often two nodes that fit have an edge: each sheet takes one of these for each kind.
OFTEN = {MEMBER: (0.3, 0.6), WITHIN: (0.1, 0.25, 0.5), GRANT: (0.15, 0.4), BAN: (0.05, 0.3), APPLIES: (0.3, 0.7)}


def some_sheet(rng, offices=None):
    """A sheet of a few nodes out of few numbers, so that two of them share some."""
    offices = offices or rng.choice((1, 2))
    large = rng.random() < 0.1
    pool = {PERSON: (3, (0,)), CATEGORY: (5, (0,)), DEED: (3, (0, 1, 4294967295 if large else 2)), FOLIO: (3, (0,))}
    identities = {(type_, 4294967295 - i if large else i, variant)
                  for type_, (most, variants) in pool.items() for i in range(1, most + 1) for variant in variants
                  if rng.random() < (0.8 if type_ != DEED else 0.5)}
    marks = (1,) if offices == 1 else (1, 2, 3, 3, 3)
    nodes = [Node(*identity, rng.choice(marks)) for identity in sorted(identities)]
    return Sheet(offices, tuple(nodes), tuple(some_edges(rng, nodes)))


def some_edges(rng, nodes):
    """Edges between nodes that they fit, in their order."""
    for kind, (start, end) in model.ENDS.items():
        often = rng.choice(OFTEN[kind])
        for i, from_ in enumerate(nodes):
            for j, to in enumerate(nodes):
                within = [marks for marks in (1, 2, 3) if marks & from_.marks & to.marks == marks]
                if (from_.type, to.type) == (start, end) and i != j and within and rng.random() < often:
                    yield Edge(kind, i, j, rng.choice(within))


def some_damage(rng, file):
    """A file that may be no sheet: a word changed to one that occurs nearby, or a length that is not its own."""
    if rng.random() < 0.2:
        return file[:rng.randrange(len(file) + 1)]
    at = 4 * rng.randrange(len(file) // 4)
    word = rng.choice((0, 1, 2, 3, 4, 5, 6, 7, 8, 9, 513, 2049, 4294967295))
    return file[:at] + word.to_bytes(4, 'little') + file[at + 4:]


def some_number(rng, of, type_):
    """Mostly a number that the sheet has."""
    known = model.numbers(of, type_)
    return rng.choice(known) if known and rng.random() < 0.93 else rng.choice((0, 1, 2, 3, 9, 4294967295))


def some_nodes(rng, of, office, kind, triple):
    """A path that there is, or one that is near to it; with some types."""
    found = outcome_of(model.paths, of, office, kind == 'ban', *triple) if office in (1, 2) else []
    any_four = [(rng.choice((1, 2, 3, 4)), rng.randrange(1, 4), rng.randrange(2)) for _ in range(4)]
    nodes = list(rng.choice(found)) if found else any_four
    if rng.random() < 0.4:
        at = rng.randrange(len(nodes))
        change = rng.choice(('drop', 'double', 'number', 'variant', 'type', 'swap'))
        type_, number, variant = nodes[at]
        nodes[at:at + 1] = {'drop': [], 'double': [nodes[at]] * 2, 'number': [(type_, number % 4294967295 + 1, variant)],
                            'variant': [(type_, number, variant ^ 1)], 'type': [(type_ % 4 + 1, number, variant)],
                            'swap': [nodes[at], nodes[at - 1]]}[change]
    return [(type_ if rng.random() < 0.6 else None, number, variant) for type_, number, variant in nodes]


def typed(rng, nodes):
    """The nodes as a clerk may type them."""
    said = [(TYPES[type_] + ' ' if type_ else '') + str(number) + (f'/{variant}' if variant or rng.random() < 0.3 else '')
            for type_, number, variant in nodes]
    line = rng.choice((' > ', ' ')).join(said)
    return [line] if rng.random() < 0.5 else line.split(' ')


def questions(rng, of):
    """Verb, arguments after the file, and what the model is asked."""
    office = rng.choice((1, 1, of.offices, of.offices, of.offices, 3 if rng.random() < 0.3 else 1))
    triple = [some_number(rng, of, type_) for type_ in (PERSON, DEED, FOLIO)]
    rule, kind = rng.choice((1, 2, 3) * 9 + (0, 4, 4294967295)), rng.choice(('grant', 'ban'))
    other, category = some_number(rng, of, DEED), some_number(rng, of, CATEGORY)
    nodes = some_nodes(rng, of, office, kind, triple) or [(None, 1, 0)]
    yield 'check', [], []
    yield 'show', [], []
    for verb, args in (('answer', [office, *triple]), ('joint', [rule, *triple]), ('witness', [office, kind, *triple]),
                       ('persons', [office, category]), ('holders', [office, *triple[1:]]), ('unreached', [office]),
                       ('conflict', [office]), ('duties', [office, triple[1], other]), ('redundant', [office])):
        yield verb, args, args
    yield 'path', [office, kind, *triple, *typed(rng, nodes)], [office, kind, *triple, nodes]


def asked(model_verb, file, args):
    """What the model answers of a file, which may be damaged."""
    return outcome_of(lambda: getattr(model, model_verb)(model.read(file), *args))


def some_line(rng, of):
    """A line whose nodes the sheet may have or lack; now and then one with a fault."""
    def name(type_, often):
        known = [node.identity[1:] for node in of.nodes if node.type == type_]
        number, variant = rng.choice(known) if known and rng.random() < often else (rng.randrange(1, 7), rng.randrange(4))
        number = rng.choice((0, 4294967296, '01', '')) if rng.random() < 0.02 else number
        return f'{number}/{variant}' if type_ == DEED else str(number)
    if rng.random() < 0.4:
        word, type_ = rng.choice(list(model.NODE_LINES.items()))
        return f'{word.decode()} {name(type_, 0.3)}'
    word, kind = rng.choice(list(model.EDGE_LINES.items()))
    return ' '.join([word.decode(), *(name(type_, 0.9) for type_ in model.ENDS[kind])])


def some_offices(rng, of):
    """Mostly those that the sheet has."""
    if rng.random() < 0.1:
        return rng.choice(([2], [3], [1, 3], [3, 2, 1], [32]))
    return [1] if of.offices == 1 else rng.choice(([1], [2], [1, 2], [2, 1]))


def adds(room, label, rng, of, file, name):
    """A row more. OFFICES is left out only where a right sheet has one office."""
    line, offices = some_line(rng, of), some_offices(rng, of)
    got = asked('add', file, [line.encode(), sum(model.mark(office) for office in offices)])
    left_out = of.offices == 1 and offices == [1] and file == of.file() and rng.random() < 0.7
    yield from writes(room, f'{label}: {line}', 'add', [name], *((got, None) if isinstance(got, Refused) else got),
                      behind=[line] if left_out else [line, ','.join(map(str, offices))])


def one_sheet(room, seed, hurt):
    """All verbs of one file, each in text or in JSON."""
    rng = random.Random(seed)
    of = some_sheet(rng)
    file = some_damage(rng, of.file()) if hurt else of.file()
    name = room.file(file)
    for verb, args, to_model in questions(rng, of):
        how = rng.choice((ask_text, ask_json))
        yield how(f'sheet {seed}: {args}', verb, [name, *map(str, args)], asked(verb, file, to_model))
    office = rng.choice((1, 2, of.offices, of.offices))
    got = asked('take', file, [office])
    yield from writes(room, f'sheet {seed}', 'take', [name, office], *((got, None) if isinstance(got, Refused) else got))
    yield from drawn(f'sheet {seed}', name, file, office, rng)
    for _ in range(3):
        yield from adds(room, f'sheet {seed}', rng, of, file, name)


def two_sheets(room, seed, hurt):
    """The verbs of two files."""
    rng = random.Random(seed)
    sheets = [some_sheet(rng, 1 if rng.random() < 0.9 else 2) for _ in range(2)]
    files = [some_damage(rng, of.file()) if hurt and rng.random() < 0.6 else of.file() for of in sheets]
    names = [room.file(file) for file in files]
    got = outcome_of(lambda: model.join(*both_read(files)))
    yield from writes(room, f'sheets {seed}', 'join', names, *((got, None) if isinstance(got, Refused) else got))
    for _ in range(2):
        type_, number, variant = rng.choice([node.identity for of in sheets for node in of.nodes] or [(1, 1, 0)])
        if rng.random() < 0.3:
            near = (type_ % 4 + 1, number, variant), (type_, number % 9 + 1, variant), (type_, number, variant ^ 1)
            type_, number, variant = rng.choice(near)
        said = f'{number}/{variant}' if variant or rng.random() < 0.3 else str(number)
        got = outcome_of(lambda wanted=(type_, number, variant): model.find(*both_read(files), *wanted))
        yield rng.choice((ask_text, ask_json))(f'sheets {seed}', 'find', [*names, TYPES[type_], said], got)


def some_text(rng, text):
    """A listing in another order, and mostly with a fault or two: lines changed, doubled or left out, bytes put in."""
    lines = text.splitlines(keepends=True)
    rng.shuffle(lines)
    for _ in range(rng.choice((0, 1, 1, 2)) if lines else 0):
        at, line = rng.randrange(len(lines)), rng.choice(lines)
        place = rng.randrange(len(line) + 1)
        odd = rng.choice((b' ', b'0', b'9', b'/', b'\n', b'\r', b'\t', b'/0', b'4294967296', bytes([rng.randrange(256)])))
        lines[at:at + 1] = rng.choice(([], [lines[at], line], [line[:place] + odd + line[place:]],
                                       [line[:place] + line[place + 1:]], [b'within 1 1\n', lines[at]],
                                       [line.replace(b'1', b'0')], [lines[at]] * 2))
    return b''.join(lines)


def one_listing(room, seed):
    """A sheet as a listing, and listings that are almost right as sheets."""
    rng = random.Random(seed)
    of = some_sheet(rng, 1 if rng.random() < 0.8 else 2)
    yield from ask(f'listing {seed}', 'list', [room.file(of.file())], outcome_of(model.listing, of))
    right = model.lines_of(of).encode()
    for _ in range(3):
        name = room.file(some_text(rng, right))
        with open(name, 'rb') as file:
            got = outcome_of(model.read_in, file.read(), name)
        yield from writes(room, f'listing {seed}', 'read', [name], *((got, None) if isinstance(got, Refused) else got))


def both_read(files):
    return [model.read(file, place) for place, file in enumerate(files, 1)]


def tests(room):
    for i in range(SHEETS):
        yield partial(one_sheet, room, f'{SEED}.{i}', i % 5 == 4)
        yield partial(two_sheets, room, f'{SEED}.{i}', i % 4 == 3)
        yield partial(one_listing, room, f'{SEED}.{i}')
