"""The tests can fail: what is known to be wrong has to be noticed."""
from .drive import Finding, Ran, ask, held, held_json, same
from .expect import NoEnd, Refused, RefusedLine, RefusedRow, RefusedTyping, Unfound
from .known import says
from .sheets import A, HARBOUR
from .watching import DUTY
from . import drawn


def noticed(label, findings):
    """A finding for each of these that was not noticed, or one that all were."""
    missed = [finding.label for finding in findings if not finding.fault]
    return Finding(f'wrong on purpose, and noticed: {label}', '' if not missed else f'  not noticed: {missed}\n')


def tests(room):
    yield lambda: runs(room)
    yield comparisons


def runs(room):
    """The command itself, held to answers that are wrong."""
    a = room.file(A.file())
    yield noticed('another answer', ask('wrong', 'answer', [a, 1, 11, 31, 41], says(2)))
    yield noticed('an answer for a refusal', ask('wrong', 'conflict', [a, 1], {'person': 11, 'deed': 31, 'folio': 42}))
    yield noticed('another place', ask('wrong', 'check', ['/dev/null'], Refused(1, 2)))
    yield noticed('a list that is too short', ask('wrong', 'persons', [a, 1, 22], {'persons': [11]}))
    accepted = {'offices': 1, 'nodes': 8, 'edges': 7}
    yield noticed('a line on standard error', ask('wrong', 'check', [a], accepted, 'counter: a: lost\n'))
    typed = room.file(b'person 11\nperson 0\n')
    for label, wrong in (('another line', RefusedLine(41, 0, b'person 0', True, typed)),
                         ('other bytes of a line', RefusedLine(41, 1, b'person 00', True, typed)),
                         ('no line feed', RefusedLine(41, 1, b'person 0', False, typed)),
                         ('a line of another file', RefusedLine(41, 1, b'person 0', True, 'typed')),
                         ('no line', Refused(41, 0, 1))):
        yield noticed(label, ask('wrong', 'read', [typed, 'out'], wrong))
    yield noticed('another listing', ask('wrong', 'list', [a], {'listing': 'person 11\n'}))
    for label, wrong in (('another row', Unfound(2, 1)), ('no row', Refused(32))):
        yield noticed(f'where it would stand: {label}', ask('wrong', 'find', [a, a, 'person', 13], wrong))
    for label, line, wrong in (('a place', 'person 11', Refused(9, 1, 0)), ('another number', 'person 11', Refused(16)),
                               ('another end', 'in 11 23', NoEnd((1, 11, 0))), ('no end', 'in 11 23', Refused(12)),
                               ('an end twice', 'within 23 23', NoEnd((2, 23, 0), (2, 23, 0))),
                               ('other bytes', 'person 0', RefusedTyping(41, b'person 00')), ('no bytes', 'person 0', Refused(41))):
        yield noticed(f'a refused row: {label}', ask('wrong', 'add', [a, 'out', line], wrong))
    yield from traces(room)
    graph = drawn.draw('', room.file(A.file()), ['1'])[1]
    yield noticed("another sheet's picture", drawn.rows_drawn('wrong', graph, HARBOUR, 1))


def traces(room):
    """A trace with another answer, another minute, another truth, and a refusal of another row, line or number."""
    duty, right, lower = room.file(DUTY.file()), room.file(b'1 ask 7 2 5\n'), room.file(b'1 end 7\n0 end 7\n')
    asked = {'minute': 1, 'folio': 7, 'person': 2, 'deed': 5, 'answer': 'granted', 'value': 1, 'open': False}
    for label, wrong in (('an answer', {**asked, **says(2)}), ('a minute', {**asked, 'minute': 2}),
                         ('a truth', {**asked, 'open': True})):
        yield noticed(f'a trace: {label}', ask('wrong', 'watch', [duty, 60, right, '--text'], {'questions': [wrong]}))
    yield noticed('a trace: no question', ask('wrong', 'watch', [duty, 60, right, '--text'], {'questions': []}))
    for label, wrong in (('a line', RefusedLine(50, 0, b'0 end 7', True, lower)), ('a row', RefusedRow(50, 1, lower)),
                         ('a number', RefusedLine(54, 1, b'0 end 7', True, lower)), ('an answer', {'questions': []})):
        yield noticed(f'a refused trace: {label}', ask('wrong', 'watch', [duty, 60, lower, '--text'], wrong))
    zeros = '/dev/zero'
    for label, wrong in (('a row', RefusedRow(54, 1, zeros)), ('a file', RefusedRow(54, 0, 'zeros')), ('no row', Refused(54))):
        yield noticed(f'a refused trace of words: {label}', ask('wrong', 'watch', [duty, 60, zeros], wrong))


def comparisons():
    """The comparing alone."""
    line = b'{"verb":"check","refusal":null,"offices":1}\n'
    right = {'verb': 'check', 'refusal': None, 'offices': 1}
    yield held_json('the right object', Ran(0, line, b''), 0, right)
    for label, wrong in (('another order', b'{"refusal":null,"verb":"check","offices":1}\n'),
                         ('a fraction', line.replace(b'1', b'1.0')), ('a truth', line.replace(b'1', b'true')),
                         ('a text', line.replace(b'1', b'"1"')), ('no line feed', line[:-1]), ('two lines', line + b'\n'),
                         ('a name twice', line.replace(b'}', b',"offices":1}')), ('cut', line[:-3]),
                         ('more', line.replace(b'}', b',"nodes":1}')), ('nothing', b'')):
        yield noticed(label, [held_json(label, Ran(0, wrong, b''), 0, right)])
    for label, ran in ('status', Ran(1, b'yes\n', b'')), ('output', Ran(0, b'yes', b'')), ('errors', Ran(0, b'yes\n', b'x')):
        yield noticed(label, [held(label, ran, 0, 'yes\n')])
    yield noticed('values', [same('values', 1, 2)])
