"""The hospital of the source, Examples 12, 22 and 26: every person, action and resource. docs/RULES.md has the numbers."""
from functools import partial

from .drive import TOP, ask, ask_text, true
from .expect import ANSWERS
from .known import rows, way
from .model import read

SHEET = TOP / 'sheets' / 'hospital.sheet'
PERSONS = {'J. Dorian': 11, 'C. Tuck': 12, 'P. Cox': 13, 'P. Flowers': 14, 'L. Roberts': 15, 'C. Espinosa': 16}
CATEGORIES = {'Patient': 21, 'Registered Nurse': 22, 'Nurse Practitioner': 23, 'Intern': 24, 'Resident': 25, 'Specialist': 26}
ACTIONS = {'Read': 31, 'Perform': 32, 'Cancel': 33, 'Create': 34}
RESOURCES = {'Lab result': 41, 'Specimen collection': 42, 'Lab order': 43, 'Prescription': 44}
MEMBERS = {'J. Dorian': 'Intern', 'C. Tuck': 'Resident', 'P. Cox': 'Specialist', 'P. Flowers': 'Nurse Practitioner',
           'L. Roberts': 'Registered Nurse', 'C. Espinosa': 'Registered Nurse'}
# Example 22 prints these eight.
GRANTED = {
    ('J. Dorian', 'Read', 'Lab result'), ('C. Tuck', 'Read', 'Lab result'), ('P. Cox', 'Read', 'Lab result'),
    ('L. Roberts', 'Perform', 'Specimen collection'), ('L. Roberts', 'Cancel', 'Lab order'),
    ('C. Espinosa', 'Perform', 'Specimen collection'), ('C. Espinosa', 'Cancel', 'Lab order'),
    ('P. Flowers', 'Perform', 'Specimen collection'),
}
# Example 26: what a registered nurse may not do, a nurse practitioner may not do either.
BANNED = {(nurse, 'Create', 'Prescription') for nurse in ('L. Roberts', 'C. Espinosa', 'P. Flowers')}


def rights_of(person):
    """Every action on every resource, for one person."""
    for action, deed in ACTIONS.items():
        for resource, folio in RESOURCES.items():
            right = person, action, resource
            value = 1 if right in GRANTED else 2 if right in BANNED else 0
            args = [str(SHEET), '1', str(PERSONS[person]), str(deed), str(folio)]
            yield ask_text(f'the hospital: {right}', 'answer', args, {'answer': ANSWERS[value], 'value': value})


def rows_of():
    """The members of Example 22 and no others; no redundant edge; and how a ban and a grant reach those whom they reach."""
    of = read(SHEET.read_bytes())
    members = {(PERSONS[person], CATEGORIES[category]) for person, category in MEMBERS.items()}
    got = {(of.nodes[edge.start].number, of.nodes[edge.end].number) for edge in of.edges if edge.kind == 1}
    yield true('the hospital: its members', got == members, got)
    numbers = {node.number for node in of.nodes}
    named = {number for names in (PERSONS, CATEGORIES, ACTIONS, RESOURCES) for number in names.values()}
    yield true('the hospital: every node has a name', numbers == named, numbers ^ named)
    yield from ask('the hospital', 'redundant', [SHEET, 1], rows(of))
    yield from ask("P. Flowers's ban", 'witness', [SHEET, 1, 'ban', 14, 34, 44], way(14, 23, 22, (34, 44), 44))
    yield from ask("P. Cox's grant", 'witness', [SHEET, 1, 'grant', 13, 31, 41], way(13, 26, 25, 24, (31, 41), 41))


def names():
    """The table of docs/RULES.md has these names and numbers."""
    page = (TOP / 'docs' / 'RULES.md').read_text()
    for table in PERSONS, CATEGORIES, ACTIONS, RESOURCES:
        for name, number in table.items():
            yield true(f'docs/RULES.md: {name} is {number}', f'| {number} | {name} |' in page, 'it is not in a table')


def tests(_):
    for person in PERSONS:
        yield partial(rights_of, person)
    yield rows_of
    yield names
