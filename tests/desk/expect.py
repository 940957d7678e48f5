"""What the command prints: the sentences of the table of refusals, and the text that says the same as a JSON object."""

import os
import string

TYPES = {1: 'person', 2: 'category', 3: 'deed', 4: 'folio'}
KINDS = {1: 'in', 2: 'within', 3: 'grants', 4: 'bans', 5: 'applies'}
ANSWERS = ['undetermined', 'granted', 'banned', 'both']

# The table of refusals, in its order.
SENTENCES = {
    40: 'not one of the nine lines, or no line feed at its end',
    41: 'a number that is 0, has a leading zero or is above 4,294,967,295',
    42: 'a repeated row',
    43: 'an edge whose end has no node line',
    33: 'bytes: length not a multiple of 4, or above 40,984',
    1: 'under 6 words',
    2: 'form not 1',
    3: 'office count not 1 or 2, or no office 2 for the duty desk',
    4: 'n above 512 or e above 2,048',
    5: 'an offset or the length is wrong',
    6: 'node type',
    7: 'number 0, or variant on a non-deed',
    8: 'node offices',
    9: 'node identity equal to the row before, or already there',
    10: 'node identity lower than the row before',
    11: 'edge kind',
    12: 'an end not below n',
    13: "end types don't fit the kind",
    14: 'containment in itself',
    15: 'edge offices',
    16: 'edge equal to the row before, or already there',
    17: 'edge lower than the row before',
    20: 'office number not 1 to the count',
    27: 'rule number',
    21: 'unknown person',
    22: 'unknown deed',
    24: 'unknown category',
    23: 'unknown folio',
    31: 'question 9 with equal deeds',
    32: 'identity in neither sheet',
    28: "joining or listing a sheet whose office count isn't 1",
    29: 'union above 512 nodes',
    30: 'union above 2,048 edges',
    59: 'a table that names a folio in two places',
    50: 'minute lower than the row before',
    54: 'a row of a trace with an unknown kind, a nonzero spare word or not five words',
    51: 'a start that would make 33 folios held',
    26: 'no such path, triple or pair',
    25: 'output shorter than the result',
}


class Refused(Exception):
    """A refusal: its number, its sheet and its row, 0 where the table names none."""

    def __init__(self, number, sheet=0, row=0):
        super().__init__(number, sheet, row)
        self.number, self.sheet, self.row = number, sheet, row

    def fields(self):
        return {'number': self.number, 'sheet': self.sheet, 'row': self.row, 'text': SENTENCES[self.number]}


MOST_SHOWN = 60  # bytes of a line


class RefusedTyping(Refused):
    """A refused line, which is shown: an argument, or a listing's line at a row from 0. Its bytes have no line feed."""

    def __init__(self, number, line, row=0, ended=True):
        super().__init__(number, 0, row)
        self.line, self.ended = line, ended

    def note(self):
        if len(self.line) > MOST_SHOWN:
            return f'its first {MOST_SHOWN} bytes'
        return None if self.ended else 'no line feed'

    def where(self):
        return {}

    def fields(self):
        return {**super().fields(), **self.where(), 'shown': escaped(self.line[:MOST_SHOWN]), 'note': self.note()}


class RefusedLine(RefusedTyping):
    """A refused line of a listing's file."""

    def __init__(self, number, row, line, ended=True, file='-'):
        super().__init__(number, line, row, ended)
        self.file = file

    def where(self):
        return {'file': escaped(os.fsencode(self.file)), 'line': self.row + 1}


class RefusedRow(Refused):
    """A refused row of a trace's file, from 0; or 33, which is of no row."""

    def __init__(self, number, row, file='-'):
        super().__init__(number, 0, row)
        self.file = file

    def fields(self):
        return {**super().fields(), 'file': escaped(os.fsencode(self.file))}


class Unfound(Refused):
    """An identity that neither of two sheets has: the node rows at which it would stand."""

    def __init__(self, first, second):
        super().__init__(32)
        self.rows = [first, second]

    def fields(self):
        return {**super().fields(), 'would_stand': self.rows}


class NoEnd(Refused):
    """An edge that can't be added, since these identities are not in the sheet."""

    def __init__(self, *identities):
        super().__init__(12)
        self.identities = identities

    def fields(self):
        return {**super().fields(), 'missing': [identity_object(each) for each in self.identities]}


def identity_object(of):
    return {'type': TYPES[of[0]], 'number': of[1], 'variant': of[2]}


def escaped(data):
    """Printable ASCII as it is, but for quotes and backslashes; every other byte by its number."""
    return ''.join(chr(byte) if chr(byte) in PLAIN else f'\\x{byte:02x}' for byte in data)


PLAIN = set(string.ascii_letters + string.digits + string.punctuation + ' ') - set('"\\')


def answered(value):
    return ANSWERS[value]


def reply(verb, outcome):
    """The object that `--json` prints: of a refusal, or of a verb's own fields."""
    if isinstance(outcome, Refused):
        return {'verb': verb, 'refusal': outcome.fields()}
    return {'verb': verb, 'refusal': None, **outcome}


# ---- The same as text

def counted(count, noun):
    return f'{count} {noun}' if count == 1 else f'{count} {noun}s'


def identity(of):
    """A node by itself: a deed always has its variant."""
    return f"{of['type']} {of['number']}" + (f"/{of['variant']}" if of['type'] == 'deed' else '')


def offices(of):
    listed = [str(office) for office in of['offices']]
    if len(listed) == 1:
        return f'office {listed[0]}'
    return f"offices {', '.join(listed[:-1])} and {listed[-1]}"


def node(of):
    return f"node {of['row']}: {identity(of)}, {offices(of)}"


def edge(of):
    verb = 'applies to' if of['kind'] == 'applies' else of['kind']
    return f"edge {of['row']}: {identity(of['from'])} {verb} {identity(of['to'])}, {offices(of)}"


def listed(lines):
    return list(lines) or ['none']


def place(of):
    if 'line' in of:
        return f" at {of['file']}:{of['line']}"
    if 'file' in of:
        return f" at {of['file']}" + (f" row {of['row']}" if of['number'] != 33 else '')
    row = f" row {of['row']}" if 6 <= of['number'] <= 17 else ''
    return f" at sheet {of['sheet']}{row}" if of['sheet'] else ''


def shown_line(of):
    note = f" ({of['note']})" if of.get('note') else ''
    return f": \"{of['shown']}\"{note}" if 'shown' in of else ''


def refusal(of):
    """Its line, and what is told under it."""
    lines = [f"refused {of['number']}{place(of)}: {of['text']}{shown_line(of)}"]
    if 'would_stand' in of:
        lines.append('it would stand at node {} of the first sheet, node {} of the second'.format(*of['would_stand']))
    if 'missing' in of:
        names = [identity(each) for each in of['missing']]
        lines.append(f"{' and '.join(names)} {'is' if len(names) == 1 else 'are'} not in the sheet")
    return lines


def counts(of):
    return f"{counted(of['offices'], 'office')}, {counted(of['nodes'], 'node')}, {counted(of['edges'], 'edge')}"


def shown(of):
    sizes = {**of, 'nodes': len(of['nodes']), 'edges': len(of['edges'])}
    return [f"form {of['form']}, {counts(sizes)}"] + [node(row) for row in of['nodes']] + [edge(row) for row in of['edges']]


def sized(of):
    return [f"nodes {of['nodes']}", f"edges {of['edges']}"]


def decided(of):
    by = f"office {of['office']}" if of['office'] else 'no office'
    return f"{of['answer']} ({of['value']}), decided by {by}"


def question(of):
    asked = f"minute {of['minute']}: folio {of['folio']}, person {of['person']}, deed {of['deed']}"
    return f"{asked}: {of['answer']} ({of['value']}), emergency {'open' if of['open'] else 'not open'}"


TEXT = {
    'check': lambda of: ['accepted: ' + counts(of)],
    'answer': lambda of: [f"{of['answer']} ({of['value']})"],
    'joint': lambda of: [decided(of)],
    'witness': lambda of: [' > '.join(identity(each) for each in of['path'])],
    'path': lambda of: ['yes' if of['path'] else 'no'],
    'persons': lambda of: listed(f'person {each}' for each in of['persons']),
    'holders': lambda of: listed(f'person {each}' for each in of['persons']),
    'unreached': lambda of: listed(f'folio {each}' for each in of['folios']),
    'conflict': lambda of: [f"person {of['person']}, deed {of['deed']}, folio {of['folio']}"],
    'duties': lambda of: [f"person {of['person']}, folio {of['folio']}"],
    'redundant': lambda of: listed(edge(each) for each in of['edges']),
    'find': lambda of: [f"{('first', 'second')[of['sheet'] - 1]} sheet, {node(of['node'])}"],
    'join': lambda of: [f"nodes {of['nodes']} shared {of['shared_nodes']}", f"edges {of['edges']} shared {of['shared_edges']}"],
    'take': sized,
    'add': lambda of: [node(of['node']) if 'node' in of else edge(of['edge'])] + sized(of),
    'read': sized,
    'list': lambda of: of['listing'].split('\n')[:-1],
    'watch': lambda of: listed(question(each) for each in of['questions']),
    'show': shown,
}


def text(of, out=None):
    """The lines that say what the object says; OUT is named where a verb writes one."""
    written = [f'written: {out}'] if of['verb'] in ('join', 'take', 'add', 'read') else []
    lines = refusal(of['refusal']) if of['refusal'] else TEXT[of['verb']](of) + written
    return ''.join(line + '\n' for line in lines)
