"""The verbs `read` and `list`: right listings, every refusal with the line that is shown, odd bytes, long lines and texts, and
the samples of sheets/. What is expected of small listings is reasoned by hand, and the model is held to it too.
"""
import os
import subprocess
from functools import partial

from . import model
from .drive import TOP, Finding, ask, ask_text, counter, differs, held, held_json, outcome_of, same
from .expect import SENTENCES, Refused, RefusedLine
from .model import size
from .outputs import writes
from .room import contents
from .sheets import A, B, C, HARBOUR, JOINT, crew, crowd, sheet, wordy

MOST = 4294967295
EMPTY = sheet([], [])

# Label, listing, the sheet.
RIGHT = [
    ('no bytes', '', EMPTY),
    ('one node', 'folio 41\n', sheet([(4, 41, 0)], [])),
    ('A, edges first', 'applies 31/2 42\napplies 31/1 41\nban 21 31/2\ngrant 22 31/1\nwithin 21 22\nin 12 22\nin 11 21\n'
     'folio 42\nfolio 41\ndeed 31/2\ndeed 31/1\ncategory 22\ncategory 21\nperson 12\nperson 11\n', A),
    ('B, each edge before its ends', 'in 11 21\nperson 11\ngrant 21 31/2\ncategory 21\napplies 31/2 42\nfolio 42\n'
     'deed 31/2\n', B),
    ('a variant of 0', 'deed 31/0\nfolio 1\napplies 31/0 1\n', sheet([(3, 31, 0), (4, 1, 0)], [(5, 0, 1)])),
    ('the largest numbers', f'deed {MOST}/{MOST}\nfolio {MOST}\napplies {MOST}/{MOST} {MOST}\nperson {MOST}\n',
     sheet([(1, MOST, 0), (3, MOST, MOST), (4, MOST, 0)], [(5, 1, 2)])),
    ('one number in every type', 'folio 1\ndeed 1/1\ncategory 1\nperson 1\nin 1 1\ngrant 1 1/1\nban 1 1/1\napplies 1/1 1\n',
     sheet([(1, 1, 0), (2, 1, 0), (3, 1, 1), (4, 1, 0)], [(1, 0, 1), (3, 1, 2), (4, 1, 2), (5, 2, 3)])),
    ('sorted as numbers, not as text', 'person 10\nperson 9\nperson 100\n', sheet([(1, 9, 0), (1, 10, 0), (1, 100, 0)], [])),
    ('variants sorted as numbers', 'deed 1/10\ndeed 1/9\n', sheet([(3, 1, 9), (3, 1, 10)], [])),
    ('two equal categories', 'category 1\ncategory 2\nwithin 2 1\nwithin 1 2\n',
     sheet([(2, 1, 0), (2, 2, 0)], [(2, 0, 1), (2, 1, 0)])),
    ('a membership both ways is two rows', 'person 1\nperson 2\ncategory 1\ncategory 2\nin 1 2\nin 2 1\n',
     sheet([(1, 1, 0), (1, 2, 0), (2, 1, 0), (2, 2, 0)], [(1, 0, 3), (1, 1, 2)])),
]

# Lines that are none of the nine.
NO_LINES = [
    b'', b' ', b'person', b'person ', b'person  11', b' person 11', b'person 11 ', b'person\t11', b'person 11\r', b'Person 11',
    b'persons 11', b'person11', b'person 11 12', b'person 11/0', b'person -1', b'person +1', b'person 1.0', b'person 0x1',
    b'person 1,000', b'person eleven', b'person \xd9\xa1', b'person \xef\xbc\x91', b'\xef\xbb\xbfperson 11',
    b'person\xc2\xa011', b'person 11\0', b'\0', b'person 11\x85', b'in 11 21\x0bin 12 21', b'"person 11"', b'# person 11',
    b'person 11 # the mate', b'person 11;', b'office 1', b'11', b'node 0: person 11, office 1',
    b'deed 31', b'deed 31/', b'deed /1', b'deed 31 1', b'deed 31/1/1', b'deed 31 /1', b'deed 31/ 1', b'category 21/1',
    b'folio 41/0', b'in 11', b'in 11 21 22', b'in 11/0 21', b'in 11 21/0', b'within 21', b'within 21  22', b'grant 22 31',
    b'grant 22/0 31/1', b'grant 22 31/1 41', b'grants 22 31/1', b'ban 21 31', b'bans 21 31/2', b'applies 31 41',
    b'applies 31/1', b'applies 31/1 41/0', b'applies to 31/1 41',
    # What is no line is refused before its numbers are looked at.
    b'person 0 1', b'person 00/1', b'deed 4294967296', b'in 0', b'grant 0 31', b'applies 0/00 041/',
]
# Lines with a number that can't be.
NO_NUMBERS = [
    b'person 0', b'person 00', b'person 011', b'person 4294967296', b'person 4294967297', b'person 18446744073709551617',
    b'person 10000000000', b'person 99999999999999999999999999999', b'category 0', b'category 021', b'folio 0',
    b'folio 4294967296', b'deed 0/1', b'deed 031/1', b'deed 31/00', b'deed 31/01', b'deed 31/4294967296', b'deed 4294967296/0',
    b'in 0 21', b'in 11 0', b'in 011 21', b'in 11 021', b'within 0 0', b'within 01 1', b'within 1 01', b'grant 0 31/1',
    b'grant 22 0/1', b'grant 22 31/01', b'ban 21 31/00', b'ban 021 31/2', b'applies 0/0 41', b'applies 31/1 0',
    b'applies 31/1 4294967296', b'applies 31/001 41',
    # A number that can't be is refused before the row is compared.
    b'within 021 021', b'person 0000000000000011',
]

ROWS = b'person 11\ncategory 21\ndeed 31/1\nfolio 41\nin 11 21\ngrant 21 31/1\nban 21 31/1\napplies 31/1 41\n'
# Label, listing, number, line from 0.
WRONG = [
    ('a node twice', b'person 11\nperson 12\nperson 11\n', 42, 2),
    ('a deed twice', b'deed 31/1\ndeed 31/2\ndeed 31/2\n', 42, 2),
    ('every row twice', ROWS + ROWS, 42, 8),
    ('every row, and the last twice', ROWS + ROWS.splitlines(keepends=True)[-1], 42, 8),
    ('three times', b'folio 1\nfolio 1\nfolio 1\n', 42, 1),
    ('a membership twice', b'in 11 21\nin 11 21\n', 42, 1),
    ('a category within itself', b'category 21\nwithin 21 21\n', 14, 1),
    ('a category within itself, before it is repeated', b'within 21 21\nwithin 21 21\n', 14, 0),
    ('a category within itself that is not there', b'within 21 21\nx\n', 14, 0),
    ('a person in a category of its number', b'in 21 21\n', 43, 0),
    ('the first line decides', b'person 11\nperson 0\nx\nperson 11\nwithin 1 1\n', 41, 1),
    ('a line before the last without its line feed', b'within 1 1\nperson 11', 14, 0),
    ('no line feed at the end', b'person 11\nperson 12', 40, 1),
    ('no line feed, before its number', b'person 0', 40, 0),
    ('no line feed, before it is repeated', b'person 1\nperson 1', 40, 1),
    ('no line feed, before itself', b'within 1 1', 40, 0),
    ('a carriage return alone ends no line', b'person 11\rperson 12\r', 40, 0),
    ('one line feed', b'\n', 40, 0),
    ('an empty line at the end', b'person 11\n\n', 40, 1),
    ('no person', b'category 21\nin 11 21\n', 43, 1),
    ('no category', b'person 11\nin 11 21\n', 43, 1),
    ('no deed', b'category 21\nfolio 41\ndeed 31/2\napplies 31/2 41\nban 21 31/1\ngrant 21 31/1\n', 43, 4),
    ('another variant', b'deed 31/1\nfolio 41\napplies 31/2 41\n', 43, 2),
    ('no folio', b'deed 31/1\napplies 31/1 41\n', 43, 1),
    ('the number of another type', b'person 21\ncategory 11\nin 11 21\n', 43, 2),
    ('the first edge line, and not the first edge', b'person 1\nwithin 8 9\nin 8 9\n', 43, 1),
    ('any line before a missing end', b'in 11 21\nperson 01\n', 41, 1),
    ('a repeated row before a missing end', b'in 11 21\nin 11 21\n', 42, 1),
]


def numbered(lines):
    return ''.join(line + '\n' for line in lines).encode()


PERSONS = numbered(f'person {i}' for i in range(1, 514))
CREW = model.lines_of(crew(256, 9, 2049)).encode()
# Label, listing: too large, and nothing else is wrong.
LARGE = [
    ('513 nodes', PERSONS),
    ('2,049 edges', CREW),
    ('513 nodes and 2,049 edges', PERSONS[:-11] + CREW.partition(b'person 256\n')[2]),
]


def refused_line(text, number, row, file='-'):
    """The refusal of a line that stands in the text."""
    lines = text.split(b'\n')
    return RefusedLine(number, row, lines[row], row + 1 < len(lines), file)


def told(outcome):
    return outcome.fields() if isinstance(outcome, Refused) else outcome


def model_agrees():
    for label, text, of in RIGHT:
        yield same(f'the model: {label}', of, model.read_listing(text.encode()))
    for number, lines in (40, NO_LINES), (41, NO_NUMBERS):
        for line in lines:
            text = b'category 7\n' + line + b'\n'
            yield same(f'the model: {line!r}', told(refused_line(text, number, 1)), told(outcome_of(model.read_listing, text)))
    for label, text, number, row in WRONG:
        yield same(f'the model: {label}', told(refused_line(text, number, row)), told(outcome_of(model.read_listing, text)))
    for label, text in LARGE:
        yield same(f'the model: {label}', told(Refused(4)), told(outcome_of(model.read_listing, text)))
    for of in A, B, C, HARBOUR, EMPTY, crew(504, 8, 2048), wordy():
        yield same('the model: a sheet comes back', of, model.read_listing(model.lines_of(of).encode()))
    yield same('the model: the longest listing', 507 * 27 + 5 * 17 + 2048 * 41, len(model.lines_of(wordy())))


def read(room, label, text, outcome=None, result=None):
    """A listing in a file; where the outcome is not given it is the model's."""
    name = room.file(text)
    if outcome is None:
        got = outcome_of(model.read_in, text, name)
        outcome, result = (got, None) if isinstance(got, Refused) else got
    if isinstance(outcome, RefusedLine):
        outcome.file = name
    yield from writes(room, label, 'read', [name], outcome, result)


# ---- The lines as they are printed, so that not everything passes through expect.py

NO_LINE = 'refused 40 at typed:{}: not one of the nine lines, or no line feed at its end: '
NUMBER = 'refused 41 at typed:{}: a number that is 0, has a leading zero or is above 4,294,967,295: '
SAID = [
    (b'person 11\nperson 011\n', NUMBER.format(2) + '"person 011"\n'),
    (b'person 11\n\x1b[2Jperson\t12\\"\n', NO_LINE.format(2) + '"\\x1b[2Jperson\\x0912\\x5c\\x22"\n'),
    (b'person 11\r\n', NO_LINE.format(1) + '"person 11\\x0d"\n'),
    (b'person 11', NO_LINE.format(1) + '"person 11" (no line feed)\n'),
    (b'\n', NO_LINE.format(1) + '""\n'),
    (b'p\xc3\xa9rson 11\n', NO_LINE.format(1) + '"p\\xc3\\xa9rson 11"\n'),
    (b'x' * 60 + b'\n', NO_LINE.format(1) + f'"{"x" * 60}"\n'),
    (b'x' * 61 + b'\n', NO_LINE.format(1) + f'"{"x" * 60}" (its first 60 bytes)\n'),
    (b'\x7f' * 61, NO_LINE.format(1) + '"' + '\\x7f' * 60 + '" (its first 60 bytes)\n'),
    (b'person 1\nperson 1\n', 'refused 42 at typed:2: a repeated row: "person 1"\n'),
    (b'within 21 21\n', 'refused 14 at typed:1: containment in itself: "within 21 21"\n'),
    (b'person 11\nin 11 21\n', 'refused 43 at typed:2: an edge whose end has no node line: "in 11 21"\n'),
    (PERSONS, 'refused 4: n above 512 or e above 2,048\n'),
]


def lines(room):
    """Text and JSON of each, word for word."""
    cwd = room.folder()

    def says(text, args, status, said):
        (cwd / 'typed').write_bytes(text)
        return held(f'{said!r}', counter(*args, cwd=cwd), status, said)

    for text, said in SAID:
        yield says(text, ['read', 'typed', 'out'], 1, said)
    for text, said in (
            (b'person 11\nperson \x1b"\\', '"number":40,"sheet":0,"row":1,"text":"not one of the nine lines, or no line feed '
             'at its end","file":"typed","line":2,"shown":"person \\\\x1b\\\\x22\\\\x5c","note":"no line feed"'),
            (b'person 0\n', '"number":41,"sheet":0,"row":0,"text":"a number that is 0, has a leading zero or is above '
             '4,294,967,295","file":"typed","line":1,"shown":"person 0","note":null'),
            (PERSONS, '"number":4,"sheet":0,"row":0,"text":"n above 512 or e above 2,048"')):
        yield says(text, ['--json', 'read', 'typed', 'out'], 1, '{"verb":"read","refusal":{' + said + '}}\n')
    yield same('lines: nothing is written', {'typed': PERSONS}, contents(cwd))
    listing = 'person 11\ncategory 21\ndeed 31/2\nfolio 42\nin 11 21\ngrant 21 31/2\napplies 31/2 42\n'
    yield says(B.file(), ['list', 'typed'], 0, listing)
    quoted = listing.replace('\n', '\\n')
    yield says(B.file(), ['--json', 'list', 'typed'], 0, '{"verb":"list","refusal":null,"listing":"' + quoted + '"}\n')


def odd_names(room):
    """In text a file's name stands as it is, byte for byte, and in JSON as the line does."""
    cwd, name = room.folder(), b'\xffs\xc3\xbcd "ships"\n'
    with open(os.path.join(os.fsencode(cwd), name), 'wb') as file:
        file.write(b'person 0\n')
    said = b'refused 41 at ' + name + b':1: ' + SENTENCES[41].encode() + b': "person 0"\n'
    yield held('an odd name', counter('read', name, 'out', cwd=cwd), 1, said)
    refused = {'number': 41, 'sheet': 0, 'row': 0, 'text': SENTENCES[41], 'file': '\\xffs\\xc3\\xbcd \\x22ships\\x22\\x0a',
               'line': 1, 'shown': 'person 0', 'note': None}
    ran = counter('--json', 'read', name, 'out', cwd=cwd)
    yield held_json('an odd name in JSON', ran, 1, {'verb': 'read', 'refusal': refused})


# ---- Files

def unreadable(room):
    """A file that can't be read is no empty listing, of which a sheet would be made: nothing is said of it but why."""
    cwd, folder = room.folder(), str(room.folder())
    (cwd / 'out').write_bytes(b'older')
    for name, reason, before in (('gone', 'No such file or directory', ''), (folder, 'Is a directory', ''),
                                 ('', 'No such file or directory', ''), ('out/typed', 'Not a directory', ''),
                                 ('/proc/self/mem', 'Input/output error', ''), ('n' * 300, 'File name too long', ''),
                                 ('-', 'Bad file descriptor', 'exec <&-'), ('-', 'Is a directory', 'exec </')):
        for option in [], ['--json']:
            ran = counter(*option, 'read', name, 'out', cwd=cwd, before=before)
            yield held(f'unreadable: {name[:20]} {option}', ran, 2, '', f'counter: {name}: {reason}\n')
    yield same('unreadable: the folder is as it was', {'out': b'older'}, contents(cwd))


def streams(room):
    """Standard input, pipes and devices. What has no end is refused where a line decides it."""
    cwd, typed = room.folder(), model.lines_of(A).encode()
    for name in '-', '/dev/stdin':
        yield ask_text('standard input', 'read', [name, 'out'], size(A), out='out', cwd=cwd, stdin=typed)
    yield same('standard input: OUT', {'out': A.file()}, contents(cwd))
    yield ask_text('no bytes', 'read', ['/dev/null', 'out'], size(EMPTY), out='out', cwd=cwd)
    yield same('no bytes: OUT', {'out': EMPTY.file()}, contents(cwd))
    zeros = RefusedLine(40, 0, b'\0' * 61, False, '/dev/zero')
    yield from ask('an endless line', 'read', ['/dev/zero', 'out'], zeros, cwd=cwd)
    for line, refused in (b'y', RefusedLine(40, 0, b'y')), (b'person 1', RefusedLine(42, 1, b'person 1')):
        with subprocess.Popen(['yes', line], stdout=subprocess.PIPE) as endless:
            yield ask_text('endless lines', 'read', ['-', 'out'], refused, cwd=cwd, stdin=endless.stdout)
            endless.stdout.close()
    yield same('endless: OUT is as it was', {'out': EMPTY.file()}, contents(cwd))
    (cwd / '-').write_bytes(b'person 1\n')
    yield ask_text('a file named -', 'read', ['./-', 'out'], size(crowd(1)), out='out', cwd=cwd, stdin=b'x')


ROOM = 65536  # bytes that are read at once


def long_lines():
    """Label, listing: lines that no buffer holds. A number of many digits is still a number, wherever the reading stops: after
    the digits, or at any place of what follows them."""
    for head, tail in ((b'person ', b''), (b'category 0', b''), (b'deed ', b'/1'), (b'deed 1/', b''), (b'in ', b' 1'),
                       (b'within 1 ', b''), (b'grant ', b' 1/1'), (b'ban 1 ', b'/1'), (b'ban 1 1/', b''),
                       (b'applies ', b'/1 1'), (b'applies 1/', b' 1'), (b'applies 1/1 ', b'')):
        for digits in [30, 3 * ROOM] + [ROOM - len(head) - place for place in range(len(tail) + 2)]:
            yield f'{head + tail!r} with {digits} digits', head + b'2' * digits + tail + b'\n'
    for head, tail in ((b'person ', b'x'), (b'x', b''), (b'folio ', b'/1'), (b'in ', b''), (b'grant 1 ', b''),
                       (b'person 1 ', b'')):
        for digits in 30, ROOM, 3 * ROOM:
            line = head + b'2' * digits + tail
            yield f'no line: {head + tail!r} with {digits} digits', b'person 1\n' + line + b'\nperson 0\n'
    yield 'digits and no line feed', b'person ' + b'2' * 2 * ROOM


def padding(length):
    """So many bytes of right lines, each another node; 20 or more."""
    lines = []
    while length >= 40:
        lines.append(f'folio {MOST - len(lines)}')
        length -= len(lines[-1]) + 1
    first = length // 2
    return numbered(lines + ['person ' + '1' * (first - 8), 'person ' + '2' * (length - first - 8)])


def around_the_room():
    """Label, listing: what is wrong stands before or behind the bytes that are read at once. The lines are as long as a line
    can be, since the library takes long over more lines than a sheet has rows."""
    filler = numbered(f'applies {MOST}/{MOST - i} {MOST}' for i in range(ROOM // 41 - 1))
    for line in b'person 0\n', b'x\n', b'person 1\nperson 1\n', b'within 1 1\n', b'person 7':
        for before in 0, 1, len(line) - 1, len(line), len(line) + 1:
            yield f'{line!r}, {before} before the end', filler + padding(ROOM - before - len(filler)) + line
    yield 'behind many lines', filler + padding(99) + filler[:41]


def big(room, texts):
    for label, text in texts:
        got = outcome_of(model.read_in, text, 'typed')
        cwd = room.folder()
        (cwd / 'typed').write_bytes(text)
        yield ask_text(label, 'read', ['typed', 'out'], *(got[:1] if isinstance(got, tuple) else [got]), out='out', cwd=cwd)
        yield same(f'{label}: OUT', {'typed': text}, contents(cwd))


LITTLE = 'ulimit -v 250000'  # KiB; the emulator needs the most of it


def no_memory(room):
    """A line of digits without end can't be decided. Where memory runs out, that is said."""
    cwd, digits = room.folder(), 'printf "person "; tr "\\0" 1 </dev/zero'
    with subprocess.Popen(['bash', '-c', digits], stdout=subprocess.PIPE, stderr=subprocess.DEVNULL) as endless:
        ran = counter('read', '-', 'out', cwd=cwd, stdin=endless.stdout, before=LITTLE)
        endless.stdout.close()
    yield held('no memory', ran, 2, '', 'counter: -: Cannot allocate memory\n')
    yield same('no memory: nothing is written', {}, contents(cwd))


# ---- The samples of sheets/

def samples(room):
    """Each listing of sheets/ is its sheet's, both ways, byte for byte."""
    names = ['a', 'b', 'c', 'd', 'hospital']
    there = sorted(path.stem for path in (TOP / 'sheets').glob('*.listing'))
    yield same('the listings of sheets/', sorted(names + ['damaged']), there)
    name = str(TOP / 'sheets' / 'damaged.listing')
    yield from writes(room, 'damaged.listing', 'read', [name], RefusedLine(41, 6, b'folio 041', True, name), None)
    for name, of in ('a', A), ('b', B), ('c', C):
        yield same(f'{name}.sheet is the rules\' sheet', of.file(), (TOP / 'sheets' / f'{name}.sheet').read_bytes())
    for name in names:
        typed, words = ((TOP / 'sheets' / f'{name}.{kind}').read_bytes() for kind in ('listing', 'sheet'))
        yield from ask(f'{name}.sheet as a listing', 'list', [TOP / 'sheets' / f'{name}.sheet'], {'listing': typed.decode()})
        yield from writes(room, f'{name}.listing as a sheet', 'read', [TOP / 'sheets' / f'{name}.listing'],
                          *model.read_in(typed))
        yield same(f'{name}.listing: the model', words, model.read_listing(typed).file())


def pipeline(room):
    """What `list` prints, `read` reads."""
    cwd = room.folder()
    for of in A, C, HARBOUR, EMPTY, crew(504, 8, 2048), wordy():
        listed = counter('list', room.file(of.file()))
        yield Finding('listed', differs('status', 0, listed.status) + differs('errors', b'', listed.err))
        ran = counter('read', '-', 'out', cwd=cwd, stdin=listed.out)
        yield Finding('and read', differs('status', 0, ran.status) + differs('OUT', {'out': of.file()}, contents(cwd)))


def tests(room):
    yield model_agrees
    for label, text, of in RIGHT:
        yield partial(read, room, label, text.encode(), size(of), of)
    for number, wrong in (40, NO_LINES), (41, NO_NUMBERS):
        for line in wrong:
            text = b'category 7\n' + line + b'\n'
            yield partial(read, room, f'{line!r}', text, refused_line(text, number, 1))
    for label, text, number, row in WRONG:
        yield partial(read, room, label, text, refused_line(text, number, row))
    for label, text in LARGE:
        yield partial(read, room, label, text, Refused(4))
    for label, of in ('512 nodes', crowd(512)), ('the fullest sheet', crew(504, 8, 2048)), ('the longest listing', wordy()):
        lines_of = model.lines_of(of).encode().splitlines(keepends=True)
        yield partial(read, room, label, b''.join(reversed(lines_of)), size(of), of)
        yield partial(ask, label, 'list', [room.file(of.file())], model.listing(of))
    for of, outcome in (A, model.listing(A)), (EMPTY, {'listing': ''}), (JOINT, Refused(28, 1)):
        yield partial(ask, 'a listing', 'list', [room.file(of.file())], outcome)
    for texts in long_lines, around_the_room:
        made = list(texts())
        for i in range(0, len(made), 10):
            yield partial(big, room, made[i:i + 10])
    for group in lines, odd_names, unreadable, streams, no_memory, samples, pipeline:
        yield partial(group, room)
