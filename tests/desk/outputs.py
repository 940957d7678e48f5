"""What becomes of OUT and of standard output: what is written, what can't be written, and what is left beside it."""
import os
import stat
import subprocess
from concurrent.futures import ThreadPoolExecutor
from functools import partial

from . import model
from .drive import Finding, ask_json, ask_text, counter, differs, held, same, true
from .expect import SENTENCES, Refused
from .room import OLDER, contents
from .sheets import A, B, C, DAMAGES, JOINT, crew, crowd, wordy

UNWRITTEN = "counter: the output can't be written\n"
SAID = b'nodes 8 shared 4\nedges 8 shared 2\nwritten: '


def writes(room, label, verb, args, outcome, result, behind=()):
    """A verb that writes, in text over an older OUT and in JSON into a new one; refused, the folder is as it was. BEHIND are the
    arguments after OUT."""
    args = [str(each) for each in args]
    folder = room.folder()
    older, new = folder / 'older.sheet', folder / 'new.sheet'
    older.write_bytes(OLDER)
    yield ask_text(label, verb, [*args, str(older), *behind], outcome, out=older)
    yield ask_json(label, verb, [*args, str(new), *behind], outcome)
    wanted = {older.name: OLDER} if isinstance(outcome, Refused) else {new.name: result.file(), older.name: result.file()}
    yield same(f'{label} [{verb}]: in the folder of OUT', wanted, contents(folder))


class Place:
    """A folder with A, B, the joint sheet, a damaged one and two listings, in which a verb is to write."""

    def __init__(self, room):
        self.path = room.folder()
        self.lay('a', A.file())
        self.lay('b', B.file())
        self.lay('ab', JOINT.file())
        self.lay('typed', model.lines_of(B).encode())
        self.lay('typed wrong', b'person 11\nperson 11\n')
        self.lay('damaged', next(file for number, _, file in DAMAGES if number == 15))
        self.before = contents(self.path)

    def lay(self, name, data):
        (self.path / name).write_bytes(data)
        self.before = contents(self.path)

    def counter(self, *args, **how):
        return counter(*args, cwd=self.path, **how)

    def left(self, label, **changed):
        """The folder is as it was, but for these names."""
        wanted = {name: data for name, data in {**self.before, **changed}.items() if data is not None}
        return same(f'{label}: in the folder of OUT', wanted, contents(self.path))


def joins(place, out, label, wanted=None, **how):
    """A and B are joined into OUT."""
    yield held(label, place.counter('join', 'a', 'b', out, **how), 0, SAID + os.fsencode(out) + b'\n')
    yield place.left(label, **(wanted or {out: JOINT.file()}))


def cannot(place, out, label, reason, **how):
    """OUT can't be written, in text and in JSON, by each verb that writes it."""
    for option in [], ['--json']:
        for args in ('join', 'a', 'b', out), ('take', 'ab', '2', out), ('add', 'a', out, 'person 999'), ('read', 'typed', out):
            ran = place.counter(*option, *args, **how)
            yield held(f'{label}, {option} {args[0]}', ran, 3, '', f'counter: {out}: {reason}\n')
    yield place.left(label)


def files(room):
    """OUT as a file."""
    place = Place(room)
    yield from joins(place, 'new', 'a new OUT')
    place = Place(room)
    place.lay('out', OLDER * 10000)
    yield from joins(place, 'out', 'a longer OUT is replaced whole')
    place = Place(room)
    yield from joins(place, 'a', 'OUT is the first input')
    place = Place(room)
    yield from joins(place, 'b', 'OUT is the second input')
    place = Place(room)
    yield held('OUT is the only input', place.counter('take', 'ab', '2', 'ab'), 0, 'nodes 4\nedges 3\nwritten: ab\n')
    yield place.left('OUT is the only input', ab=B.file())
    place = Place(room)
    added = 'edge 4: category 22 grants deed 31/2, office 1\nnodes 8\nedges 8\nwritten: a\n'
    yield held('OUT is the sheet that is added to', place.counter('add', 'a', 'a', 'grant 22 31/2'), 0, added)
    yield place.left('OUT is the sheet that is added to', a=C.file())
    place = Place(room)
    yield held('OUT is the listing', place.counter('read', 'typed', 'typed'), 0, 'nodes 4\nedges 3\nwritten: typed\n')
    yield place.left('OUT is the listing', typed=B.file())
    place = Place(room)
    yield from joins(place, './-', 'OUT is named -', wanted={'-': JOINT.file()})
    place = Place(room)
    yield from joins(place, "the ships' \"joint\" sheet, ü\n", 'OUT has an odd name')
    place = Place(room)
    yield from joins(place, 'n' * 255, 'OUT has the longest name')
    place = Place(room)
    os.symlink(place.path, place.path / 'here')
    place.before = contents(place.path)
    yield from joins(place, 'here/out', 'OUT in a folder by a link', wanted={'out': JOINT.file()})


def names_of_bytes(room):
    """No byte of a name is lost or changed, in the arguments or in what is said."""
    place = Place(room)
    name = b'\xff\xfe\x01 "\\'
    os.rename(place.path / 'a', os.path.join(os.fsencode(place.path), name))
    yield held('a name that is no text, accepted', place.counter('check', name), 0, 'accepted: 1 office, 8 nodes, 7 edges\n')
    ran = place.counter('--json', 'check', name)
    yield held('a name that is no text, in JSON', ran, 0, '{"verb":"check","refusal":null,"offices":1,"nodes":8,"edges":7}\n')
    out = b'out\xff'
    yield held('OUT is no text', place.counter('join', name, 'b', out), 0, SAID + out + b'\n')
    yield true('OUT is no text: written', (place.path / os.fsdecode(out)).read_bytes() == JOINT.file())


def refused(room):
    """On a refusal OUT is as it was, there or not, and nothing is beside it."""
    for older in OLDER, None:
        for args, refusal in ((('join', 'a', 'damaged'), 'refused 15 at sheet 2 row 4: edge offices\n'),
                              (('join', 'damaged', 'none'), 'refused 15 at sheet 1 row 4: edge offices\n'),
                              (('join', 'ab', 'b'), f'refused 28 at sheet 1: {SENTENCES[28]}\n'),
                              (('read', 'typed wrong'), 'refused 42 at typed wrong:2: a repeated row: "person 11"\n'),
                              (('take', 'damaged', '1'), 'refused 15 at sheet 1 row 4: edge offices\n'),
                              (('take', 'ab', '3'), 'refused 20: office number not 1 to the count\n')):
            place = Place(room)
            if older:
                place.lay('out', older)
            err = '' if 'none' not in args else 'counter: none: No such file or directory; it counts as an empty file\n'
            yield held(f'refused, OUT as it was: {args}', place.counter(*args, 'out'), 1, refusal, err)
            yield place.left(f'refused, OUT as it was: {args}')
    place = Place(room)
    yield held('a refusal comes before a missing folder', place.counter('join', 'a', 'damaged', 'no/out'), 1,
               'refused 15 at sheet 2 row 4: edge offices\n')


def stands_in_the_way(room):
    place = Place(room)
    yield from cannot(place, 'no/out', 'OUT in a missing folder', 'No such file or directory')
    place = Place(room)
    yield from cannot(place, 'a/out', 'OUT in what is no folder', 'Not a directory')
    place = Place(room)
    (place.path / 'folder').mkdir()
    place.before = contents(place.path)
    yield from cannot(place, 'folder', 'OUT is a folder', 'Is a directory')
    yield same('OUT is a folder: it stays empty', {}, contents(place.path / 'folder'))
    place = Place(room)
    yield from cannot(place, 'n' * 300, 'OUT has too long a name', 'File name too long')


def no_room(room):
    """A file can't grow: as a full disk would have it."""
    place = Place(room)
    place.lay('out', OLDER)
    yield from cannot(place, 'out', 'no file may have a byte', 'File too large', before='ulimit -f 0')
    place = Place(room)
    yield from cannot(place, 'new', 'no file may have a byte, OUT is new', 'File too large', before='ulimit -f 0')
    place = Place(room)
    yield from joins(place, 'out', 'a file may have a thousand bytes', before='ulimit -f 1')
    place = Place(room)
    place.lay('a', crowd(400).file())
    place.lay('b', crowd(112, 401).file())
    place.lay('ab', model.join(crowd(512), crowd(512))[1].file())
    place.lay('typed', model.lines_of(crowd(512)).encode())
    place.lay('out', OLDER)
    yield from cannot(place, 'out', 'half of the result can be written', 'File too large', before='ulimit -f 5')


def rights(room):
    """OUT has the rights of any new file, whatever an older one had."""
    for umask, wanted in (0o022, 0o644), (0o077, 0o600), (0, 0o666), (0o027, 0o640):
        for older in None, 0o600, 0o777:
            place = Place(room)
            if older is not None:
                place.lay('out', OLDER)
                os.chmod(place.path / 'out', older)
            ran = place.counter('join', 'a', 'b', 'out', umask=umask)
            yield held(f'umask {umask:o}', ran, 0, SAID + b'out\n')
            got = stat.S_IMODE(os.stat(place.path / 'out').st_mode)
            yield same(f'umask {umask:o}: rights of OUT', f'{wanted:o}', f'{got:o}')


def no_file(room):
    """What is no file of its own is left alone: a link, which would lose what it leads to, and a pipe, as a device would be."""
    for target in 'target', 'nowhere', 'a':
        place = Place(room)
        if target == 'target':
            place.lay(target, OLDER)
        os.symlink(target, place.path / 'out')
        place.before = contents(place.path)
        yield from cannot(place, 'out', f'OUT is a link to {target}', 'not a regular file')
    place = Place(room)
    pipe = room.folder() / 'pipe'
    os.mkfifo(pipe)
    yield from cannot(place, str(pipe), 'OUT is a pipe', 'not a regular file')
    yield true('OUT is a pipe: it is still one', stat.S_ISFIFO(os.stat(pipe).st_mode) and os.listdir(pipe.parent) == ['pipe'])


def two_names(room):
    """A second name of the older OUT keeps the older bytes."""
    place = Place(room)
    place.lay('out', OLDER)
    os.link(place.path / 'out', place.path / 'second name')
    yield from joins(place, 'out', 'OUT has two names', wanted={'out': JOINT.file(), 'second name': OLDER})


def at_once(room):
    """Eight at a time into one OUT: each is whole, and nothing is left."""
    place = Place(room)
    with ThreadPoolExecutor(8) as pool:
        for ran in pool.map(lambda _: place.counter('join', 'a', 'b', 'out'), range(24)):
            yield held('many at once', ran, 0, SAID + b'out\n')
    yield place.left('many at once', out=JOINT.file())


# ---- Standard output

def verbs_of(place):
    """A run of each verb that prints an answer, refusals, and the two texts of help."""
    a, ab, wrong, out = (place.path / name for name in ('a', 'ab', 'typed wrong', 'out'))
    return [('check', a), ('answer', a, '1', '11', '31', '41'), ('joint', ab, '1', '11', '31', '42'),
            ('witness', a, '1', 'grant', '11', '31', '41'), ('path', a, '1', 'grant', '11', '31', '41', '11'),
            ('persons', a, '1', '22'), ('holders', a, '1', '31', '41'), ('unreached', a, '1'), ('conflict', a, '1'),
            ('duties', a, '1', '31', '31'), ('redundant', a, '1'), ('find', a, ab, 'person', '11'), ('show', a),
            ('list', a), ('--json', 'list', a), ('read', wrong, out), ('add', a, out, 'person 11'), ('add', a, out, 'in 1 1'),
            ('draw', a, '1'), ('--json', 'show', a),
            ('--json', 'check', a), ('--json', 'draw', a, '1'),
            ('--json', 'answer', a, '9', '1', '1', '1'), ('--help',), ('check', '--help'), ('--version',)]


def unwritable(room):
    place = Place(room)
    for args in verbs_of(place):
        with open('/dev/full', 'wb') as full:
            yield held(f'a full disk, {args[:2]}', counter(*args, stdout=full), 3, '', UNWRITTEN)
    for args in verbs_of(place)[:3] + [('--help',)]:
        yield held(f'no standard output, {args[:2]}', counter(*args, before='exec >&-'), 3, '', UNWRITTEN)
        yield held(f'a closed pipe, {args[:2]}', closed_pipe(args), 3, '', UNWRITTEN)
    with open(place.path / 'said', 'wb') as said:
        ran = counter('check', place.path / 'a', stdout=said, before='ulimit -f 0')
    yield held('standard output is a file that may have no byte', ran, 3, '', UNWRITTEN)


def closed_pipe(args, **how):
    read, write = os.pipe()
    os.close(read)
    try:
        return counter(*args, stdout=write, **how)
    finally:
        os.close(write)


def large_output(room):
    """Output that fails half way: more than a buffer and a pipe hold."""
    file = room.file(crew(504, 8, 2048).file())
    longest = room.file(wordy().file())
    for args in ('show', file), ('--json', 'show', file), ('draw', file, '1'), ('list', longest), ('--json', 'list', longest):
        read, write = os.pipe()
        child = subprocess.Popen(['head', '-c', '10'], stdin=read, stdout=subprocess.DEVNULL)
        os.close(read)
        try:
            yield held(f'a pipe that is closed half way, {args[:2]}', counter(*args, stdout=write), 3, '', UNWRITTEN)
        finally:
            os.close(write)
            child.wait()


def unsaid(room):
    """OUT is written, or as it was, where standard output fails; it never gets what was to be said."""
    for label, how in ('no standard output', {'before': 'exec >&-'}), ('no standard streams', {'before': 'exec <&- >&-'}):
        for verb in ('join', 'a', 'b', 'out'), ('--json', 'join', 'a', 'b', 'out'):
            place = Place(room)
            ran = place.counter(*verb, **how)
            yield held(f'{label}, {verb[:2]}', ran, 3, '', UNWRITTEN)
            yield in_place(place, f'{label}, {verb[:2]}')
    place = Place(room)
    with open('/dev/full', 'wb') as full:
        yield held('a full disk, join', place.counter('join', 'a', 'b', 'out', stdout=full), 3, '', UNWRITTEN)
    yield in_place(place, 'a full disk, join')


def in_place(place, label):
    got = contents(place.path)
    return true(f'{label}: OUT is whole or not there', got in (place.before, {**place.before, 'out': JOINT.file()}), got)


def bad_usage(room):
    """Bad usage says nothing on standard output, so that it does not matter where that goes."""
    wanted = "counter: no verb\nusage: counter [--json] VERB ARGUMENT..\nTry 'counter --help'.\n"
    with open('/dev/full', 'wb') as full:
        yield held('a full disk, bad usage', counter(stdout=full), 2, '', wanted)
    yield held('no standard output, bad usage', counter(before='exec >&-'), 2, '', wanted)
    yield Finding('no standard error, bad usage', differs('status', 2, counter(before='exec 2>&-').status))
    missing = str(room.path / 'none')
    ran = counter('check', missing, before='exec 2>&-')
    yield Finding('no standard error, a missing file', differs('output', b'refused 1 at sheet 1: under 6 words\n', ran.out))


def tests(room):
    for group in (files, names_of_bytes, refused, stands_in_the_way, no_room, rights, no_file, two_names, at_once,
                  unwritable, large_output, unsaid, bad_usage):
        yield partial(group, room)
