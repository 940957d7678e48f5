"""Files of every kind before every verb: damaged, cut, empty, missing, over-long, endless, a folder, a pipe, standard input."""
import os
import threading
from functools import partial

from .drive import Finding, ask, ask_json, ask_text, counter, differs, same
from .expect import Refused
from .model import node_object
from .room import contents
from .sheets import A, B, DAMAGES, JOINT, MOST_BYTES, pack

# After the file: right arguments of each verb that reads one.
ONE_FILE = {
    'check': [],
    'answer': ['1', '11', '31', '41'],
    'joint': ['1', '11', '31', '41'],
    'witness': ['1', 'grant', '11', '31', '41'],
    'path': ['1', 'grant', '11', '31', '41', '11', '21', '22', '31/1', '41'],
    'persons': ['1', '21'],
    'holders': ['1', '31', '41'],
    'unreached': ['1'],
    'conflict': ['1'],
    'duties': ['1', '31', '31'],
    'redundant': ['1'],
    'take': ['1', 'out'],
    'add': ['out', 'person 13'],
    'list': [],
    'watch': ['60', 'none'],
    'show': [],
    'draw': ['1'],
}
# Arguments that are refused too, but after everything that is wrong with a file.
WRONG = {
    'answer': ['9', '0', '0', '0'],
    'joint': ['0', '0', '0', '0'],
    'witness': ['9', 'ban', '0', '0', '0'],
    'path': ['9', 'ban', '0', '0', '0', 'folio 0'],
    'persons': ['9', '0'],
    'holders': ['9', '0', '0'],
    'unreached': ['9'],
    'conflict': ['9'],
    'duties': ['9', '0', '0'],
    'redundant': ['9'],
    'take': ['9', 'out'],
    'add': ['out', 'x', '32'],
    'draw': ['9', 'ban', '0', '0', '0'],
}
EMPTY, LENGTH, FORM = Refused(1, 1), Refused(33, 1), Refused(2, 1)


def at(place, refused):
    return Refused(refused.number, place, refused.row)


def missing(name, reason='No such file or directory'):
    return f'counter: {name}: {reason}; it counts as an empty file\n'


def refuses(label, room, file, refused, err='', how=None, verbs=None):
    """Every verb refuses the file alike, in text and in JSON, whatever else is asked; verbs of two files, at its own place."""
    how, cwd = how or {}, room.folder()
    sheet = room.file(A.file())
    for verb, args in verbs or [*ONE_FILE.items(), *WRONG.items()]:
        yield from ask(label, verb, [file, *args], refused, err, cwd=cwd, **(how() if callable(how) else how))
    for verb, args in ('find', ['person', '99']), ('join', ['out']):
        for files, place in ([file, sheet], 1), ([sheet, file], 2):
            yield from ask(label, verb, [*files, *args], at(place, refused), err, cwd=cwd, **(how() if callable(how) else how))
    yield same(f'{label}: nothing is written', {}, contents(cwd))


def both(room):
    """Two bad files: the first is told. Two offices are refused after both checks, and an unknown identity last."""
    cwd, right, two = room.folder(), room.file(A.file()), room.file(JOINT.file())
    short, form, cut = room.file(b''), room.file(b'\0' * 24), room.file(b'xyz')
    for files, refused in (((short, form), Refused(1, 1)), ((form, short), Refused(2, 1)), ((form, cut), Refused(2, 1)),
                           ((cut, form), Refused(33, 1)), ((two, form), Refused(2, 2)), ((two, cut), Refused(33, 2)),
                           ((right, cut), Refused(33, 2)), ((form, two), Refused(2, 1))):
        yield from ask('two files', 'join', [*files, 'out'], refused, cwd=cwd)
        yield from ask('two files', 'find', [*files, 'folio', '99'], refused, cwd=cwd)
    gone = [str(room.path / 'gone'), str(room.path / 'lost')]
    err = missing(gone[0]) + missing(gone[1])
    yield from ask('two missing files', 'join', [*gone, 'out'], Refused(1, 1), err, cwd=cwd)
    yield from ask('two missing files', 'find', [*gone, 'folio', '99'], Refused(1, 1), err, cwd=cwd)
    yield same('two files: nothing is written', {}, contents(cwd))


def lengths():
    """Label, bytes, refusal: files of right and wrong lengths. A file of zeros has form 0."""
    yield 'an empty file', b'', EMPTY
    for n in 4, 20:
        yield f'the first {n} bytes', A.file()[:n], EMPTY
    for n in 1, 2, 3, 23, 263:
        yield f'the first {n} bytes', A.file()[:n], LENGTH
    yield 'the last word is cut off', A.file()[:-4], Refused(5, 1)
    yield 'one byte more', A.file() + b'\n', LENGTH
    yield 'one word more', A.file() + b'\0' * 4, Refused(5, 1)
    yield 'as many bytes as a sheet can have', b'\0' * MOST_BYTES, FORM
    for n in 1, 2, 4, 59016, 9959016:
        yield f'{MOST_BYTES + n} bytes', b'\0' * (MOST_BYTES + n), LENGTH
    yield 'a sheet and as many bytes as make it too long', A.file() + b'\0' * (MOST_BYTES + 4 - 264), LENGTH
    yield '513 nodes', pack([1, 1, 513, 0, 6, 2058] + [1, 1, 0, 1] * 513), Refused(4, 1)
    yield '2,049 edges', pack([1, 1, 0, 2049, 6, 6] + [1, 0, 0, 1] * 2049), Refused(4, 1)
    yield 'the largest counts', pack([1, 1, 4294967295, 4294967295, 6, 6]), Refused(4, 1)
    yield 'an offset that is right only as 32 bits', pack([1, 1, 512, 2048, 6, 2054]), Refused(5, 1)
    yield 'text', b'The sheet of the ship.\n\n', Refused(2, 1)


def unreadable(room):
    """Files that can't be read, by every verb; the reason stands on standard error."""
    gone, folder = str(room.path / 'gone'), str(room.folder())
    beneath = room.file(b'') + '/sheet'
    few = [(verb, ONE_FILE[verb]) for verb in ('check', 'answer', 'show', 'draw')]
    yield partial(refuses, 'a missing file', room, gone, EMPTY, missing(gone))
    yield partial(refuses, 'a folder', room, folder, EMPTY, missing(folder, 'Is a directory'))
    yield partial(refuses, 'beneath a file', room, beneath, EMPTY, missing(beneath, 'Not a directory'), verbs=few)
    yield partial(refuses, 'a file without a name', room, '', EMPTY, missing(''), verbs=few)
    yield partial(refuses, 'a file that fails', room, '/proc/self/mem', EMPTY, missing('/proc/self/mem', 'Input/output error'),
                  verbs=few)
    yield partial(refuses, 'too long a name', room, 'n' * 300, EMPTY, missing('n' * 300, 'File name too long'), verbs=few)
    yield partial(refuses, 'standard input is closed', room, '-', EMPTY, missing('-', 'Bad file descriptor'),
                  how={'before': 'exec <&-'}, verbs=few)
    yield partial(refuses, 'standard input is a folder', room, '-', EMPTY, missing('-', 'Is a directory'),
                  how={'before': 'exec </'}, verbs=few)


def streams(room):
    """Files that are not on a disk."""
    yield partial(refuses, 'a file without end', room, '/dev/zero', LENGTH)
    yield partial(refuses, 'standard input without end', room, '-', LENGTH, how={'before': 'exec </dev/zero'})
    yield partial(refuses, 'an empty device', room, '/dev/null', EMPTY)
    yield partial(refuses, 'empty standard input', room, '-', EMPTY)
    yield partial(refuses, 'damaged standard input', room, '-', Refused(15, 1, 4),
                  how={'stdin': next(file for number, _, file in DAMAGES if number == 15)})
    yield partial(read_from_input, room)
    yield partial(slow_pipe, room)
    yield partial(no_more_is_read, room)


def read_from_input(room):
    """Right sheets by `-` and by the name of standard input."""
    accepted = {'offices': 1, 'nodes': 8, 'edges': 7}
    for name in '-', '/dev/stdin':
        yield from ask('standard input', 'check', [name], accepted, stdin=A.file())
    ahead = room.file(A.file())
    for files, number, place in ([ahead, '-'], '11', 1), (['-', ahead], '12', 2):
        found = {'sheet': place, 'node': node_object(A, int(number) - 11)}
        yield from ask(f'standard input is one of {files}', 'find', [*files, 'person', number], found, stdin=B.file())
    cwd = room.folder()
    joined = {'nodes': 8, 'shared_nodes': 4, 'edges': 8, 'shared_edges': 2, 'bytes': 280}
    yield ask_text('from standard input', 'join', [ahead, '-', 'out'], joined, out='out', cwd=cwd, stdin=B.file())
    yield same('from standard input: OUT', {'out': JOINT.file()}, contents(cwd))
    yield ask_json('from standard input', 'join', ['-', ahead, 'out'], joined, cwd=cwd, stdin=B.file())
    named = cwd / 'a sheet named -'
    named.mkdir()
    (named / '-').write_bytes(B.file())
    yield from ask('a file named -', 'check', ['./-'], {'offices': 1, 'nodes': 4, 'edges': 3}, cwd=named, stdin=A.file())
    (named / '--help').write_bytes(B.file())
    yield from ask('a file named --help', 'check', ['./--help'], {'offices': 1, 'nodes': 4, 'edges': 3}, cwd=named)
    granted = {'answer': 'granted', 'value': 1}
    yield from ask('a file named --help', 'answer', ['--help', '1', '11', '31', '42'], granted, cwd=named)
    yield from ask('--json behind the verb is a file', 'check', ['--json'], EMPTY, missing('--json'), cwd=named)


def slow_pipe(room):
    """A sheet that comes in parts."""
    for parts in [A.file()[:100], A.file()[100:]], [bytes([byte]) for byte in A.file()]:
        read, write = os.pipe()

        def feed(write=write, parts=parts):
            for part in parts:
                os.write(write, part)
                threading.Event().wait(0.05 if len(parts) < 10 else 0.0005)
            os.close(write)
        feeder = threading.Thread(target=feed)
        feeder.start()
        yield ask_text(f'a pipe in {len(parts)} parts', 'check', ['-'], {'offices': 1, 'nodes': 8, 'edges': 7}, stdin=read)
        feeder.join()
        os.close(read)


def no_more_is_read(room):
    """Of a longer file no more is read than one byte above the longest sheet."""
    with open(room.file(b'\0' * 100000), 'rb', buffering=0) as file:
        ran = counter('check', '-', stdin=file)
        yield Finding('no more is read than 40,985 bytes', differs('status', 1, ran.status) +
                      differs('bytes read', True, os.lseek(file.fileno(), 0, os.SEEK_CUR) <= MOST_BYTES + 1))


def tests(room):
    for number, row, file in DAMAGES:
        yield partial(refuses, f'damage {number}', room, room.file(file), Refused(number, 1, row))
    for label, file, refused in lengths():
        few = [(verb, ONE_FILE[verb]) for verb in ('check', 'witness', 'redundant')]
        yield partial(refuses, label, room, room.file(file), refused, verbs=few)
    yield from unreadable(room)
    yield from streams(room)
    yield partial(both, room)
