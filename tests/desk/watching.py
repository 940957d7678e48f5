"""The verb `watch`: when an emergency is open, to the minute and in the order of the rows, which office is asked, every refusal
with its row or its line, and that a trace of words and the same trace typed give the same.

What is expected is reasoned by hand from the request, and the model is held to it too.
"""
import os
import random
import struct
import subprocess
from functools import partial

from . import model
from .drive import TOP, ask, ask_text, counter, held, outcome_of, same
from .expect import Refused, RefusedLine, RefusedRow, answered
from .room import contents
from .sheets import A, JOINT, pack, sheet

MOST = 4294967295
KINDS = {'start': 1, 'end': 2, 'ask': 3}

# Deed 5 on folio 7. Office 1 grants it to persons 1, 2 and 3 and does not know 4. Office 2 grants and bans it for 1 and 4, bans it
# for 2, and says nothing of 3. Folio 8 is office 1's alone.
DUTY = sheet([(1, 1, 0, 3), (1, 2, 0, 3), (1, 3, 0, 3), (1, 4, 0, 2), (2, 1, 0, 3), (2, 2, 0, 3), (3, 5, 0, 3), (4, 7, 0, 3),
              (4, 8, 0, 1)],
             [(1, 0, 4, 3), (1, 1, 5, 3), (1, 2, 4, 1), (1, 3, 4, 2), (3, 4, 6, 3), (3, 5, 6, 1), (4, 4, 6, 2), (4, 5, 6, 2),
              (5, 6, 7, 3), (5, 6, 8, 1)], offices=2)


def words_of(text):
    """The words of right lines."""
    rows = [line.split(' ') for line in text.splitlines()]
    return [word for minute, kind, *rest in rows for word in (int(minute), KINDS[kind], *map(int, (rest + ['0', '0'])[:3]))]


def many(minute, folios):
    return ''.join(f'{minute} start {folio}\n' for folio in folios)


# Label, timeout, trace, and of each question whether the emergency was open. Folio 7, person 2: banned while it is open, and else
# granted.
OPEN = [
    ('no start', 60, '0 ask 7 2 5\n', [0]),
    ('not in its own minute', 60, '10 start 7\n10 ask 7 2 5\n11 ask 7 2 5\n', [0, 1]),
    ('not before its row', 60, '10 ask 7 2 5\n10 start 7\n', [0]),
    ('from minute 0', 60, '0 start 7\n0 ask 7 2 5\n1 ask 7 2 5\n', [0, 1]),
    ('to the last minute', 5, '10 start 7\n14 ask 7 2 5\n15 ask 7 2 5\n', [1, 0]),
    ('asked after a gap', 5, '10 start 7\n15 ask 7 2 5\n', [0]),
    ('asked twice', 5, '10 start 7\n14 ask 7 2 5\n14 ask 7 2 5\n', [1, 1]),
    ('timeout 0', 0, '10 start 7\n10 ask 7 2 5\n11 ask 7 2 5\n', [0, 0]),
    ('timeout 1 holds the start\'s minute alone', 1, '10 start 7\n10 ask 7 2 5\n11 ask 7 2 5\n', [0, 0]),
    ('timeout 2', 2, '10 start 7\n11 ask 7 2 5\n12 ask 7 2 5\n', [1, 0]),
    ('the longest timeout from minute 0', MOST, f'0 start 7\n{MOST - 1} ask 7 2 5\n{MOST} ask 7 2 5\n', [1, 0]),
    ('the longest timeout from minute 1', MOST, f'1 start 7\n{MOST - 1} ask 7 2 5\n{MOST} ask 7 2 5\n', [1, 1]),
    ('a sum above 32 bits', 10, f'{MOST - 5} start 7\n{MOST - 5} ask 7 2 5\n{MOST - 4} ask 7 2 5\n{MOST} ask 7 2 5\n', [0, 1, 1]),
    ('a start in the last minute', MOST, f'{MOST} start 7\n{MOST} ask 7 2 5\n', [0]),
    # In the minute of the second start it is open by the first alone.
    ('the second start\'s minute', 60, '10 start 7\n20 start 7\n20 ask 7 2 5\n', [1]),
    ('the second start\'s minute, the first just held', 11, '10 start 7\n20 start 7\n20 ask 7 2 5\n21 ask 7 2 5\n', [1, 1]),
    ('the second start\'s minute, the first just expired', 10, '10 start 7\n20 start 7\n20 ask 7 2 5\n21 ask 7 2 5\n', [0, 1]),
    ('a start twice in a minute', 60, '10 start 7\n10 start 7\n10 ask 7 2 5\n11 ask 7 2 5\n', [0, 1]),
    ('a second start twice in a minute', 60, '10 start 7\n20 start 7\n20 start 7\n20 ask 7 2 5\n', [1]),
    ('a first start twice, then a second', 60, '10 start 7\n10 start 7\n20 start 7\n20 ask 7 2 5\n', [1]),
    ('three starts: by the middle one', 11, '10 start 7\n20 start 7\n30 start 7\n30 ask 7 2 5\n', [1]),
    ('three starts: the middle one expired', 10, '10 start 7\n20 start 7\n30 start 7\n30 ask 7 2 5\n', [0]),
    ('a second start holds it longer', 60, '10 start 7\n50 start 7\n70 ask 7 2 5\n109 ask 7 2 5\n110 ask 7 2 5\n', [1, 1, 0]),
    ('an end', 60, '10 start 7\n20 end 7\n20 ask 7 2 5\n21 ask 7 2 5\n', [0, 0]),
    ('an end of the same minute is later by its row', 60, '10 start 7\n20 ask 7 2 5\n20 end 7\n20 ask 7 2 5\n', [1, 0]),
    ('an end in the start\'s minute', 60, '10 start 7\n10 end 7\n11 ask 7 2 5\n', [0]),
    ('an end before its start', 60, '10 end 7\n10 start 7\n11 ask 7 2 5\n', [1]),
    ('an end ends all its starts', 60, '10 start 7\n20 start 7\n21 end 7\n22 ask 7 2 5\n', [0]),
    ('an end between two starts', 60, '10 start 7\n15 end 7\n20 start 7\n20 ask 7 2 5\n21 ask 7 2 5\n', [0, 1]),
    ('an end between two starts of a minute', 60, '10 start 7\n20 start 7\n20 end 7\n20 start 7\n20 ask 7 2 5\n21 ask 7 2 5\n',
     [0, 1]),
    ('an end of another folio', 60, '10 start 7\n20 end 8\n21 ask 7 2 5\n', [1]),
    ('a start of another folio', 60, '10 start 8\n21 ask 7 2 5\n', [0]),
    ('an end of what is not held', 60, '10 end 7\n11 end 7\n12 ask 7 2 5\n', [0]),
    ('expired, and started again', 5, '10 start 7\n15 start 7\n15 ask 7 2 5\n16 ask 7 2 5\n19 ask 7 2 5\n20 ask 7 2 5\n',
     [0, 1, 1, 0]),
    ('folios by turns', 60, '10 start 8\n11 start 7\n12 end 8\n13 ask 7 2 5\n', [1]),
    ('between 31 others', 60, many(0, range(100, 131)) + '0 start 7\n1 ask 7 2 5\n', [1]),
]

# Label, sheet, timeout, trace, and of each question the answer and whether the emergency was open.
ASKED = [
    ('office 2 first: both', DUTY, 60, '0 ask 7 1 5\n0 start 7\n1 ask 7 1 5\n', [(1, 0), (3, 1)]),
    ('office 2 first: banned', DUTY, 60, '0 ask 7 2 5\n0 start 7\n1 ask 7 2 5\n', [(1, 0), (2, 1)]),
    ('office 2 undetermined: office 1', DUTY, 60, '0 ask 7 3 5\n0 start 7\n1 ask 7 3 5\n', [(1, 0), (1, 1)]),
    ('office 1 does not know the person', DUTY, 60, '0 ask 7 4 5\n0 start 7\n1 ask 7 4 5\n', [(0, 0), (3, 1)]),
    ('office 2 does not know the folio', DUTY, 60, '0 start 8\n1 ask 8 1 5\n', [(1, 1)]),
    ('office 2 grants what office 1 bans', JOINT, 60, '0 ask 42 11 31\n0 start 42\n1 ask 42 11 31\n', [(2, 0), (1, 1)]),
    ('office 2 does not know the person', JOINT, 60, '0 start 42\n1 ask 42 12 31\n', [(2, 1)]),
    ('nobody knows the person', JOINT, 60, '0 start 42\n1 ask 42 99 31\n1 ask 41 99 31\n', [(0, 1), (0, 0)]),
    ('nobody knows the deed', JOINT, 60, '0 start 42\n1 ask 42 11 99\n1 ask 41 11 0\n', [(0, 1), (0, 0)]),
    ('nobody knows the folio', JOINT, 60, '0 start 99\n1 ask 99 11 31\n1 ask 98 11 31\n', [(0, 1), (0, 0)]),
    ('folio 0', JOINT, 60, '0 ask 0 0 0\n0 start 0\n1 ask 0 11 31\n1 end 0\n1 ask 0 11 31\n', [(0, 0), (0, 1), (0, 0)]),
    ('the greatest numbers', JOINT, 60, f'0 start {MOST}\n1 ask {MOST} {MOST} {MOST}\n', [(0, 1)]),
    ('no rows', JOINT, 60, '', []),
    ('no questions', JOINT, 60, '0 start 1\n0 end 1\n', []),
    ('32 folios', DUTY, 60, many(0, range(1, 33)) + '1 ask 7 2 5\n1 ask 32 2 5\n1 ask 33 2 5\n', [(2, 1), (0, 1), (0, 0)]),
    ('a 33rd start of a folio that is held', DUTY, 60, many(0, range(1, 33)) + '0 start 1\n1 start 32\n2 ask 7 2 5\n', [(2, 1)]),
    ('a 33rd folio after an end', DUTY, 60, many(0, range(8, 40)) + '0 end 20\n0 start 7\n1 ask 7 2 5\n1 ask 20 2 5\n',
     [(2, 1), (0, 0)]),
    ('a 33rd folio after an expiry', DUTY, 10, many(0, range(8, 40)) + '10 start 7\n11 ask 7 2 5\n', [(2, 1)]),
    ('32 others after an expiry', DUTY, 10, many(0, range(100, 132)) + many(10, range(7, 39)) + '11 ask 7 2 5\n', [(2, 1)]),
    ('33 folios with timeout 0', DUTY, 0, many(0, range(1, 41)) + '1 ask 7 2 5\n', [(1, 0)]),
]

# Label, timeout, right lines, and the number that refuses the last.
TYPED_FAULTS = [
    ('a minute lower', 60, '10 start 7\n9 ask 7 2 5\n', 50),
    ('a minute lower than a question\'s', 60, '10 ask 7 2 5\n9 start 7\n', 50),
    ('a minute lower than an end\'s', 60, '10 end 7\n0 end 7\n', 50),
    ('a minute lower, from the last', 60, f'{MOST} end 7\n{MOST - 1} end 7\n', 50),
    ('33 folios', 60, many(0, range(1, 34)), 51),
    ('33 folios in the last minute of 32', 10, many(0, range(1, 33)) + '9 start 33\n', 51),
    ('33 folios with timeout 1', 1, many(5, range(1, 34)), 51),
    ('33 folios, of which one is 0', 60, many(5, range(0, 33)), 51),
    ('33 folios, one restarted and one still held', 10, many(0, range(1, 33)) + '5 start 1\n9 start 40\n', 51),
    ('a minute lower before 33 folios', 60, many(5, range(1, 33)) + '4 start 33\n', 50),
    ('33 folios by a sum above 32 bits', 10, many(MOST - 1, range(1, 33)) + f'{MOST} start 33\n', 51),
]
# Label, words, the number, and the row that is refused. Timeout 60.
WORD_FAULTS = [
    ('kind 0', [10, 0, 7, 0, 0], 54, 0),
    ('kind 4', [10, 1, 7, 0, 0, 10, 4, 7, 0, 0], 54, 1),
    ('the greatest kind', [10, MOST, 7, 2, 5], 54, 0),
    ('a start with a person', [10, 1, 7, 2, 0], 54, 0),
    ('a start with a deed', [10, 1, 7, 0, 5], 54, 0),
    ('an end with a person', [10, 2, 7, 1, 0], 54, 0),
    ('an end with a deed', [10, 2, 7, 0, MOST], 54, 0),
    ('a minute lower before an unknown kind', [10, 2, 7, 0, 0, 9, 4, 7, 0, 0], 50, 1),
    ('a minute lower before a spare word', [10, 2, 7, 0, 0, 9, 1, 7, 1, 0], 50, 1),
    ('a spare word before 33 folios', words_of(many(0, range(1, 33))) + [0, 1, 33, 1, 0], 54, 32),
    ('the first bad row', [10, 2, 7, 0, 0, 10, 4, 7, 0, 0, 9, 1, 7, 0, 0], 54, 1),
    ('a row cut after one word', [10, 2, 7, 0, 0, 11], 54, 1),
    ('a row cut after four words', [10, 2, 7, 0, 0, 11, 3, 7, 2], 54, 1),
    ('a cut row with a lower minute', [10, 2, 7, 0, 0, 9], 54, 1),
    ('the only row cut', [0], 54, 0),
    ('a bad row before a cut row', [10, 0, 7, 0, 0, 11], 54, 0),
    ('a lower minute before a cut row', [10, 2, 7, 0, 0, 9, 2, 7, 0, 0, 11], 50, 1),
]

# Lines that are none of the three. A number is written as an argument of the command is: leading zeros are no fault.
NO_LINES = [
    b'', b' ', b'10', b'10 ', b'start 7', b'10 start', b'10 start ', b'10 start 7 ', b' 10 start 7', b'10  start 7', b'10 start  7',
    b'10\tstart 7', b'10 start\t7', b'10 start 7\r', b'10 Start 7', b'10 starts 7', b'10 begin 7', b'10start 7', b'10 start7',
    b'10 1 7', b'10 start 7 0', b'10 start 7 0 0', b'10 end 7 2', b'10 end', b'10 ask 7', b'10 ask 7 2', b'10 ask 7 2 ',
    b'10 ask 7 2 5 1', b'10 ask 7/0 2 5', b'10 ask 7 2 5/1', b'10 question 7 2 5', b'-1 start 7', b'+1 start 7', b'1.5 start 7',
    b'0x1 start 7', b'1,000 start 7', b'ten start 7', b'10:20 start 7', b'4294967296 start 7', b'10 start 4294967296',
    b'10 ask 7 2 4294967296', b'10 ask 7 99999999999999999999 5', b'10 start -7', b'10 start x', b'# a comment',
    b'10 start 7 # a comment', b'10 start 7\0', b'10\0start 7', b'\0', b'10 start\xc2\xa07', b'\xef\xbb\xbf10 start 7',
    b'10 start 7;', b'"10 start 7"', b'10 ask 7 2 5' + b' ' * 60, b'0' * 52 + b' start 70',
]
UNREAD = 'not one of the three lines, or no line feed at its end'


def questions(text, told):
    """The fields of what is expected of a trace's questions."""
    rows = [row for row in zip(*[iter(words_of(text))] * 5) if row[1] == 3]
    return {'questions': [{'minute': minute, 'folio': folio, 'person': person, 'deed': deed, 'answer': answered(value),
                           'value': value, 'open': bool(opened)}
                          for (minute, _, folio, person, deed), (value, opened) in zip(rows, told, strict=True)]}


def opened_cases():
    for label, timeout, text, opened in OPEN:
        yield label, DUTY, timeout, text, questions(text, [(2 if each else 1, each) for each in opened])
    for label, of, timeout, text, told in ASKED:
        yield label, of, timeout, text, questions(text, told)


def refused_words():
    """Label, timeout, words, refusal of the file `-`."""
    for label, timeout, text, number in TYPED_FAULTS:
        yield label, timeout, words_of(text), RefusedRow(number, text.count('\n') - 1)
    for label, words, number, row in WORD_FAULTS:
        yield label, 60, words, RefusedRow(number, row)


def told(outcome):
    return outcome.fields() if isinstance(outcome, Refused) else outcome


def model_agrees():
    for label, of, timeout, text, wanted in opened_cases():
        yield same(f'the model: {label}', wanted, outcome_of(model.watch, of, timeout, words_of(text)))
    for label, timeout, words, refused in refused_words():
        yield same(f'the model: {label}', told(refused), told(outcome_of(model.watch, DUTY, timeout, words)))
    yield same('the model: one office', told(Refused(3, 1)), told(outcome_of(model.watch, A, 60, [])))


# ---- The command

def both_forms(room, label, of, timeout, text, outcome):
    """A trace of words, and the same trace typed."""
    file, words = room.file(of.file()), room.file(pack(words_of(text)))
    yield from ask(label, 'watch', [file, timeout, words], outcome)
    yield from ask(f'{label}, typed', 'watch', [file, timeout, room.file(text.encode()), '--text'], outcome)


def refused_row(room, label, timeout, words, refused):
    trace = room.file(pack(words))
    yield from ask(label, 'watch', [room.file(DUTY.file()), timeout, trace], RefusedRow(refused.number, refused.row, trace))


def refused_line(room, label, timeout, text, number):
    """The last line is refused, and shown."""
    trace, lines = room.file(text.encode()), text.encode().splitlines()
    refused = RefusedLine(number, len(lines) - 1, lines[-1], True, trace)
    yield from ask(f'{label}, typed', 'watch', [room.file(DUTY.file()), timeout, trace, '--text'], refused)


def cut_words(room):
    """A file that is no whole words: 33, behind the rows before it."""
    file, row = room.file(DUTY.file()), pack([10, 1, 7, 0, 0])
    for rest in b'x', b'xyz', b'wordx', pack([11, 3, 7, 2]) + b'xyz':
        for before in b'', row:
            trace = room.file(before + rest)
            yield from ask(f'{len(before + rest)} bytes', 'watch', [file, 60, trace], RefusedRow(33, 0, trace))
    for bad, refused in ([9, 1, 7, 0, 0], RefusedRow(50, 1)), ([10, 0, 7, 0, 0], RefusedRow(54, 1)):
        refused.file = room.file(row + pack(bad) + b'x')
        yield from ask('a bad row before a cut word', 'watch', [file, 60, refused.file], refused)


def unread(room):
    """A line that is none of the three is no refusal of the table's: nothing is on standard output. The line is shown."""
    cwd = room.folder()
    (cwd / 'duty').write_bytes(DUTY.file())
    for at, line in enumerate(NO_LINES):
        for row, before in (1, b''), (2, b'10 start 7\n'):
            (cwd / 'typed').write_bytes(before + line + b'\n10 ask 7 2 5\n')
            shown = RefusedLine(40, 0, line).fields()
            note = f" ({shown['note']})" if shown['note'] else ''
            said = f"counter: typed:{row}: {UNREAD}: \"{shown['shown']}\"{note}\nTry 'counter watch --help'.\n"
            ran = counter(*(['--json'] if at % 2 else []), 'watch', 'duty', '60', 'typed', '--text', cwd=cwd)
            yield held(f'no line: {line!r}', ran, 2, '', said)
    for text, said in ((b'10 start 7\n11 ask 7 2 5', '2: {}: "11 ask 7 2 5" (no line feed)'), (b'1', '1: {}: "1" (no line feed)'),
                       (b'x' * 60 + b'\n', '1: {}: "' + 'x' * 60 + '"'), (b'\n', '1: {}: ""'),
                       (b'x' * 61, '1: {}: "' + 'x' * 60 + '" (its first 60 bytes)')):
        (cwd / 'typed').write_bytes(text)
        ran = counter('watch', 'duty', '60', 'typed', '--text', cwd=cwd)
        yield held(f'no line: {text!r}', ran, 2, '', f"counter: typed:{said.format(UNREAD)}\nTry 'counter watch --help'.\n")
    (cwd / 'typed').write_bytes(b'10 start 7\n9 start 7\nx\n')
    refused = RefusedLine(50, 1, b'9 start 7', True, 'typed')
    yield from ask('a refused row before an unread line', 'watch', ['duty', 60, 'typed', '--text'], refused, cwd=cwd)


SAID = [
    (['60', 'right'], 0, 'minute 10: folio 7, person 2, deed 5: granted (1), emergency not open\n'
     'minute 11: folio 7, person 2, deed 5: banned (2), emergency open\n'
     'minute 11: folio 8, person 9, deed 5: undetermined (0), emergency not open\n'),
    (['60', 'none', '--text'], 0, 'none\n'),
    (['60', 'lower'], 1, 'refused 50 at lower row 2: minute lower than the row before\n'),
    (['60', 'lower.text', '--text'], 1, 'refused 50 at lower.text:2: minute lower than the row before: "9 end 7"\n'),
    (['60', 'cut'], 1, 'refused 54 at cut row 1: a row of a trace with an unknown kind, a nonzero spare word or not five words\n'),
    (['60', 'bytes'], 1, 'refused 33 at bytes: bytes: length not a multiple of 4, or above 40,984\n'),
    (['60', 'folios'], 1, 'refused 51 at folios row 32: a start that would make 33 folios held\n'),
]
SAID_IN_JSON = [
    (['60', 'right'], 0, '"refusal":null,"questions":['
     '{"minute":10,"folio":7,"person":2,"deed":5,"answer":"granted","value":1,"open":false},'
     '{"minute":11,"folio":7,"person":2,"deed":5,"answer":"banned","value":2,"open":true},'
     '{"minute":11,"folio":8,"person":9,"deed":5,"answer":"undetermined","value":0,"open":false}]'),
    (['60', 'none'], 0, '"refusal":null,"questions":[]'),
    (['60', 'lower'], 1, '"refusal":{"number":50,"sheet":0,"row":2,"text":"minute lower than the row before","file":"lower"}'),
    (['60', 'lower.text', '--text'], 1, '"refusal":{"number":50,"sheet":0,"row":1,"text":"minute lower than the row before",'
     '"file":"lower.text","line":2,"shown":"9 end 7","note":null}'),
    (['60', 'bytes'], 1, '"refusal":{"number":33,"sheet":0,"row":0,"text":"bytes: length not a multiple of 4, or above 40,984",'
     '"file":"bytes"}'),
]


def lines(room):
    """Text and JSON of each, word for word, so that not everything passes through expect.py; and where --text may stand."""
    cwd, right = room.folder(), '10 start 7\n10 ask 7 2 5\n11 ask 7 2 5\n11 ask 8 9 5\n'
    for name, data in (('duty', DUTY.file()), ('a', A.file()), ('right', pack(words_of(right))), ('right.text', right.encode()),
                       ('none', b''), ('lower', pack(words_of('5 start 7\n10 end 7\n9 end 7\n'))),
                       ('lower.text', b'10 end 7\n9 end 7\n'), ('cut', pack([10, 2, 7, 0, 0, 11])),
                       ('bytes', pack([10, 2, 7, 0, 0]) + b'x'), ('folios', pack(words_of(many(0, range(33)))))):
        (cwd / name).write_bytes(data)
    for args, status, said in SAID:
        yield held(f'watch {args}', counter('watch', 'duty', *args, cwd=cwd), status, said)
    for args, status, said in SAID_IN_JSON:
        ran = counter('--json', 'watch', 'duty', *args, cwd=cwd)
        yield held(f'--json watch {args}', ran, status, '{"verb":"watch",' + said + '}\n')
    for args in (['--text', 'duty', '60', 'right.text'], ['duty', '60', 'right.text', '--text'], ['duty', '060', 'right']):
        yield held(f'watch {args}', counter('watch', *args, cwd=cwd), 0, SAID[0][2])
    (cwd / '--text').write_bytes(DUTY.file())
    yield held('a sheet named --text', counter('watch', '--text', '60', 'right', cwd=cwd), 0, SAID[0][2])
    yield held('a sheet named --text, typed', counter('watch', '--text', '60', 'right.text', '--text', cwd=cwd), 0, SAID[0][2])
    yield from ask('one office', 'watch', ['a', '60', 'right'], Refused(3, 1), cwd=cwd)
    yield from ask('one office, before a trace that is missing', 'watch', ['a', '60', 'gone'], Refused(3, 1), cwd=cwd)
    yield from ask('one office, before a bad trace', 'watch', ['a', '60', 'bytes'], Refused(3, 1), cwd=cwd)


def numbers(room):
    """Leading zeros are no fault, as in an argument; and the longest line that is one."""
    text = '00010 start 007\n' + '0' * 48 + '11 ask 7 2 5'
    yield same('the longest line', 60, len(text.splitlines()[1]))
    file, wanted = room.file(DUTY.file()), questions('10 start 7\n11 ask 7 2 5\n', [(2, 1)])
    yield from ask('leading zeros', 'watch', [file, '0060', room.file(text.encode() + b'\n'), '--text'], wanted)


def unreadable(room):
    """A trace that can't be read is no empty one: nothing is said of it but why."""
    cwd, folder = room.folder(), str(room.folder())
    (cwd / 'duty').write_bytes(DUTY.file())
    for name, reason, before in (('gone', 'No such file or directory', ''), (folder, 'Is a directory', ''),
                                 ('', 'No such file or directory', ''), ('duty/trace', 'Not a directory', ''),
                                 ('/proc/self/mem', 'Input/output error', ''), ('n' * 300, 'File name too long', ''),
                                 ('-', 'Bad file descriptor', 'exec <&-'), ('-', 'Is a directory', 'exec </')):
        for option, typed in ([], []), (['--json'], ['--text']):
            ran = counter(*option, 'watch', 'duty', '60', name, *typed, cwd=cwd, before=before)
            yield held(f'unreadable: {name[:20]} {option}', ran, 2, '', f'counter: {name}: {reason}\n')
    yield same('unreadable: the folder is as it was', {'duty': DUTY.file()}, contents(cwd))


def streams(room):
    """Standard input and devices. What has no end is refused at its first bad row."""
    file, text = room.file(DUTY.file()), '10 start 7\n11 ask 7 2 5\n'
    wanted = questions(text, [(2, 1)])
    for name in '-', '/dev/stdin':
        yield ask_text('standard input', 'watch', [file, '60', name], wanted, stdin=pack(words_of(text)))
        yield ask_text('typed standard input', 'watch', [file, '60', name, '--text'], wanted, stdin=text.encode())
    trace = room.file(pack(words_of(text)))
    yield ask_text('the sheet is standard input', 'watch', ['-', '60', trace], wanted, stdin=DUTY.file())
    yield from ask('an empty device', 'watch', [file, '60', '/dev/null'], {'questions': []})
    yield from ask('zeros without end', 'watch', [file, '60', '/dev/zero'], RefusedRow(54, 0, '/dev/zero'))
    with subprocess.Popen(['yes', '10 start 7\n9 start 7'], stdout=subprocess.PIPE) as endless:
        refused = RefusedLine(50, 1, b'9 start 7')
        yield ask_text('lines without end', 'watch', [file, '60', '-', '--text'], refused, stdin=endless.stdout)
        endless.stdout.close()
    shown = '\\x00' * 60
    yield held('a line without end', counter('watch', file, '60', '/dev/zero', '--text'), 2, '',
               f"counter: /dev/zero:1: {UNREAD}: \"{shown}\" (its first 60 bytes)\nTry 'counter watch --help'.\n")


def long_traces(room):
    """More questions than are kept at first."""
    text = '0 start 7\n' + ''.join(f'{minute} ask 7 2 5\n' for minute in range(3000))
    wanted = questions(text, [(1, 0)] + [(2, 1)] * 59 + [(1, 0)] * 2940)
    yield from both_forms(room, 'a long trace', DUTY, 60, text, wanted)


def samples(room):
    """The samples of sheets/ are the same trace."""
    typed = (TOP / 'sheets' / 'night.text').read_text()
    yield same('sheets/night.trace is sheets/night.text', pack(words_of(typed)), (TOP / 'sheets' / 'night.trace').read_bytes())
    yield from both_forms(room, 'the samples', JOINT, 60, typed, model.watch(JOINT, 60, words_of(typed)))


# ---- Random traces

TRACES = int(os.environ.get('DESK_TRACES') or 150)
SEED = os.environ.get('SEED') or '4'


def some_trace(rng):
    """Few folios and near minutes, so that rows meet; now and then a fault."""
    timeout = rng.choice((0, 1, 2, 3, 5, 8, 60, MOST))
    minute, words = rng.choice((0, 0, 10, MOST - 12)), []
    folios = rng.choice(((7,), (7, 8), (0, 7, 8, 9), tuple(range(40))))
    for _ in range(rng.choice((1, 4, 12, 60))):
        minute = min(MOST, minute + rng.choice((0, 0, 1, 1, 2, 3, 5)))
        kind = rng.choice((1, 1, 2, 3, 3, 3) if len(folios) < 40 else (1, 1, 1, 1, 1, 2, 3))
        asked = [rng.choice((1, 2, 2, 3, 4, 9)), rng.choice((5, 5, 5, 6))] if kind == 3 else [0, 0]
        words += [minute, kind, rng.choice(folios), *asked]
    if rng.random() < 0.15:
        words[rng.randrange(len(words))] = rng.choice((0, 1, 2, 3, 4, MOST))
    return timeout, words[:rng.randrange(len(words) + 1)] if rng.random() < 0.1 else words


def some(number, room):
    rng = random.Random(f'{SEED} trace {number}')
    timeout, words = some_trace(rng)
    trace = room.file(struct.pack(f'<{len(words)}I', *words))
    outcome = outcome_of(model.watch, DUTY, timeout, words, trace)
    yield from ask(f'SEED={SEED}, trace {number}', 'watch', [room.file(DUTY.file()), timeout, trace], outcome)


def tests(room):
    yield model_agrees
    for label, of, timeout, text, wanted in opened_cases():
        yield partial(both_forms, room, label, of, timeout, text, wanted)
    for label, timeout, words, refused in refused_words():
        yield partial(refused_row, room, label, timeout, words, refused)
    for label, timeout, text, number in TYPED_FAULTS:
        yield partial(refused_line, room, label, timeout, text, number)
    for group in cut_words, unread, lines, numbers, unreadable, streams, long_traces, samples:
        yield partial(group, room)
    for number in range(TRACES):
        yield partial(some, number, room)
