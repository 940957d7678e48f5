"""Nothing was left out: each verb was seen to answer, and to give every refusal that it can, in text and in JSON.

25 is no verb's: the command lends outputs that no result outgrows.
"""
from .drive import SHOWN, same

OF_A_FILE = {33, *range(1, 18)}
PLACED = {28, 3}  # of those of a question: the sheet is told. A line, a trace and a row to be added have no sheet.
OF_A_QUESTION = {
    'check': set(),
    'answer': {20, 21, 22, 23},
    'joint': {27, 21, 22, 23},
    'witness': {20, 21, 22, 23, 26},
    'path': {20},
    'persons': {20, 24},
    'holders': {20, 22, 23},
    'unreached': {20},
    'conflict': {20, 26},
    'duties': {20, 22, 31, 26},
    'redundant': {20},
    'find': {32},
    'join': {28, 29, 30},
    'take': {20},
    'add': {40, 41, 8, 9, 12, 14, 15, 16, 4},
    'read': {40, 41, 42, 14, 43, 4},
    'list': {28},
    'watch': {3, 33, 50, 54, 51},
    'show': set(),
    'draw': {20, 21, 22, 23, 26},
}


def tests(_):
    yield whole


def whole():
    for verb, numbers in OF_A_QUESTION.items():
        for form in 'text', 'JSON':
            seen = {(number, placed) for shown, number, placed, how in SHOWN if (shown, how) == (verb, form)}
            of_a_file = set() if verb == 'read' else {(number, True) for number in OF_A_FILE}
            wanted = {(0, False)} | of_a_file | {(number, number in PLACED) for number in numbers}
            yield same(f'{verb}, what it was seen to give in {form}', sorted(wanted), sorted(seen))
