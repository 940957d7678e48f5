"""Answers that are known beforehand: document 01's table, and small sheets whose answers are reasoned here.

The model of model.py is held to the same answers, so that what it says of random sheets is worth something.
"""
from functools import partial

from . import model
from .drive import ask, counter, held, outcome_of, same
from .expect import Refused, Unfound, answered
from .model import edge_object, node_object
from .outputs import writes
from .sheets import A, B, C, HARBOUR, JOINT, chain, crew, crowd, sheet

EMPTY = sheet([], [])
# Nothing leads anywhere.
BARE = sheet([(1, 11, 0), (3, 31, 1), (4, 41, 0)], [])
# Person 1 is in category 1 of a ring: 1 within 2 within 3 within 1. Category 3 grants and category 2 bans. Forward from 1 stand
# 2 and 3, backward 3 and 2.
RING = sheet([(1, 1, 0), (2, 1, 0), (2, 2, 0), (2, 3, 0), (3, 1, 0), (4, 1, 0)],
             [(1, 0, 1), (2, 1, 2), (2, 2, 3), (2, 3, 1), (3, 3, 4), (4, 2, 4), (5, 4, 5)])
# Categories 1 and 2 are equal, and have the same member, the same grant and the same ban: each of those edges is redundant,
# since the other category both contains and is contained. Neither containment is: there is no third category to go through.
TWINS = sheet([(1, 1, 0), (2, 1, 0), (2, 2, 0), (3, 1, 0), (4, 1, 0)],
              [(1, 0, 1), (1, 0, 2), (2, 1, 2), (2, 2, 1), (3, 1, 3), (3, 2, 3), (4, 1, 3), (4, 2, 3), (5, 3, 4)])
# Request 2026-02: 11 is in 21 and in 22, 21 is within 22, and 22 bans. Without edge 1 the ban would not reach 11. Then the same
# without the ban; and two offices, of which only the second has it.
_PRUNED = [(1, 11, 0), (2, 21, 0), (2, 22, 0), (3, 31, 1), (4, 41, 0)], [(1, 0, 1), (1, 0, 2), (2, 1, 2), (4, 2, 3), (5, 3, 4)]
PRUNED = sheet(*_PRUNED)
UNBANNED = sheet(_PRUNED[0], _PRUNED[1][:3] + _PRUNED[1][4:])
ELSEWHERE = sheet([node + (3,) for node in _PRUNED[0]], [edge + (2 if edge[0] == 4 else 3,) for edge in _PRUNED[1]], 2)
# 21 within 22 within 23, 11 in all three, and 21 bans a deed that has no folio: only the middle membership has one on each side.
BETWEEN = sheet([(1, 11, 0), (2, 21, 0), (2, 22, 0), (2, 23, 0), (3, 31, 1)],
                [(1, 0, 1), (1, 0, 2), (1, 0, 3), (2, 1, 2), (2, 2, 3), (4, 1, 4)])
# Edge 1 goes from category 1 to 3, and edges 0 and 2 go there through 2.
SHORTCUT = sheet([(2, 1, 0), (2, 2, 0), (2, 3, 0)], [(2, 0, 1), (2, 0, 2), (2, 1, 2)])
# Person 1 reaches folio 1 by four paths of four nodes: through category 4 by deed 9/1 and 9/7, through 5 by 9/0 and 9/1. 4 is
# lower than 5, and then 1 is lower than 7. As bans, only 5 by 9/7.
TIES = sheet([(1, 1, 0), (2, 4, 0), (2, 5, 0), (3, 9, 0), (3, 9, 1), (3, 9, 7), (4, 1, 0)],
             [(1, 0, 1), (1, 0, 2), (3, 1, 4), (3, 1, 5), (3, 2, 3), (3, 2, 4), (4, 2, 5), (5, 3, 6), (5, 4, 6), (5, 5, 6)])
# Office 1 has the member and the grant, office 2 the deed's folio: no path stays within one office.
CHANGED = sheet([(1, 1, 0, 3), (2, 1, 0, 3), (3, 1, 0, 3), (4, 1, 0, 3)], [(1, 0, 1, 1), (3, 1, 2, 1), (5, 2, 3, 2)], 2)
LARGE = sheet([(1, 4294967295, 0), (2, 305419896, 0), (3, 2147483648, 0), (3, 2147483648, 4294967295), (4, 65536, 0)],
              [(1, 0, 1), (3, 1, 2), (4, 1, 3), (5, 2, 4), (5, 3, 4)])


def says(value):
    return {'answer': answered(value), 'value': value}


def decides(value, office):
    return {**says(value), 'office': office}


def way(*nodes):
    """A path: person, categories .., (deed, variant), folio."""
    person, *categories, deed, folio = nodes
    named = [('person', person, 0)] + [('category', each, 0) for each in categories] + [('deed', *deed), ('folio', folio, 0)]
    return {'path': [dict(zip(('type', 'number', 'variant'), each)) for each in named]}


def rows(of, *edges):
    return {'edges': [edge_object(of, row) for row in edges]}


def found(place, of, row):
    return {'sheet': place, 'node': node_object(of, row)}


NONE, NO_OFFICE = Refused(26), Refused(20)
YES, NO = {'path': True}, {'path': False}

# Label, sheet, verb, arguments after the file, outcome.
ASKED = [
    ('case 1', A, 'answer', (1, 11, 31, 41), says(1)),
    ('case 2', A, 'witness', (1, 'grant', 11, 31, 41), way(11, 21, 22, (31, 1), 41)),
    ('case 3', A, 'answer', (1, 12, 31, 41), says(1)),
    ('case 4', A, 'answer', (1, 11, 31, 42), says(2)),
    ('case 5', A, 'answer', (1, 12, 31, 42), says(2)),
    ('case 5, its witness', A, 'witness', (1, 'ban', 12, 31, 42), way(12, 22, 21, (31, 2), 42)),
    ('case 6', B, 'answer', (1, 11, 31, 42), says(1)),
    ('case 7', JOINT, 'joint', (1, 11, 31, 42), decides(1, 2)),
    ('case 8', JOINT, 'joint', (2, 11, 31, 42), decides(2, 1)),
    ('case 9', JOINT, 'joint', (3, 11, 31, 42), decides(2, 1)),
    ('case 10', C, 'answer', (1, 11, 31, 42), says(3)),
    ('case 10, the least triple', C, 'conflict', (1,), {'person': 11, 'deed': 31, 'folio': 42}),
    ('A', A, 'check', (), {'offices': 1, 'nodes': 8, 'edges': 7}),
    ('the joint sheet', JOINT, 'check', (), {'offices': 2, 'nodes': 8, 'edges': 8}),
    ('one edge', SHORTCUT._replace(nodes=SHORTCUT.nodes[:2], edges=SHORTCUT.edges[:1]), 'check', (),
     {'offices': 1, 'nodes': 2, 'edges': 1}),
    ('one node', crowd(1), 'check', (), {'offices': 1, 'nodes': 1, 'edges': 0}),
    ('the joint sheet at office 1', JOINT, 'answer', (1, 11, 31, 42), says(2)),
    ('the joint sheet at office 2', JOINT, 'answer', (2, 11, 31, 42), says(1)),
    ('the witness at office 2', JOINT, 'witness', (2, 'grant', 11, 31, 42), way(11, 21, (31, 2), 42)),
    ('a joint answer of one office', A, 'joint', (1, 12, 31, 41), decides(1, 1)),
    ('first-applicable, both', C, 'joint', (3, 11, 31, 42), decides(3, 1)),
    ('grant-first, both', C, 'joint', (1, 11, 31, 42), decides(1, 1)),
    ('deny-first, both', C, 'joint', (2, 11, 31, 42), decides(2, 1)),
    ('a person of one office', JOINT, 'joint', (1, 12, 31, 42), decides(2, 1)),
    ('a path that would change office', CHANGED, 'answer', (1, 1, 1, 1), says(0)),
    ('a path that would change office, jointly', CHANGED, 'joint', (1, 1, 1, 1), decides(0, 0)),
    ('no edges', BARE, 'answer', (1, 11, 31, 41), says(0)),
    ('no edges', BARE, 'joint', (2, 11, 31, 41), decides(0, 0)),
    ('leading zeros', A, 'answer', ('01', '011', '0031', '00000000000000000000041'), says(1)),
    ('large numbers', LARGE, 'witness', (1, 'grant', 4294967295, 2147483648, 65536),
     way(4294967295, 305419896, (2147483648, 0), 65536)),
    ('the largest variant', LARGE, 'witness', (1, 'ban', 4294967295, 2147483648, 65536),
     way(4294967295, 305419896, (2147483648, 4294967295), 65536)),
    ('ties, a grant', TIES, 'witness', (1, 'grant', 1, 9, 1), way(1, 4, (9, 1), 1)),
    ('ties, a ban', TIES, 'witness', (1, 'ban', 1, 9, 1), way(1, 5, (9, 7), 1)),
    ('a ring', RING, 'answer', (1, 1, 1, 1), says(3)),
    ('a ring, forward', RING, 'witness', (1, 'grant', 1, 1, 1), way(1, 1, 2, 3, (1, 0), 1)),
    ('a ring, backward', RING, 'witness', (1, 'ban', 1, 1, 1), way(1, 1, 3, 2, (1, 0), 1)),
    ('a shorter way', HARBOUR, 'witness', (1, 'grant', 1, 4, 6), way(1, 3, (4, 0), 6)),
    # Refusals of the question, in the table's order: 20, 27, 21, 22, 24, 23, 31, 26.
    ('office 0', A, 'answer', (0, 11, 31, 41), NO_OFFICE),
    ('office 2 of one', A, 'witness', (2, 'ban', 11, 31, 41), NO_OFFICE),
    ('office 3 of two', JOINT, 'answer', (3, 99, 99, 99), NO_OFFICE),
    ('the largest office', A, 'answer', (4294967295, 11, 31, 41), NO_OFFICE),
    ('rule 0, before the person', JOINT, 'joint', (0, 99, 99, 99), Refused(27)),
    ('rule 4', JOINT, 'joint', (4, 11, 31, 42), Refused(27)),
    ('rule 9', JOINT, 'joint', (9, 11, 31, 42), Refused(27)),
    ('person before deed', A, 'answer', (1, 99, 99, 99), Refused(21)),
    ('deed before folio', A, 'answer', (1, 11, 99, 99), Refused(22)),
    ('folio', A, 'answer', (1, 11, 31, 99), Refused(23)),
    ('a person of the other office', JOINT, 'answer', (2, 12, 31, 42), Refused(21)),
    ('a folio of the other office', JOINT, 'witness', (2, 'grant', 11, 31, 41), Refused(23)),
    ('jointly, person', JOINT, 'joint', (1, 0, 0, 0), Refused(21)),
    ('jointly, deed', JOINT, 'joint', (1, 11, 0, 0), Refused(22)),
    ('jointly, folio', JOINT, 'joint', (1, 11, 31, 0), Refused(23)),
    ("a category's number is no person's", A, 'witness', (1, 'ban', 21, 31, 42), Refused(21)),
    ('no such deed', A, 'witness', (1, 'ban', 11, 4294967295, 42), Refused(22)),
    ('no grant path', A, 'witness', (1, 'grant', 11, 31, 42), NONE),
    ('no ban path', A, 'witness', (1, 'ban', 11, 31, 41), NONE),
    # Questions 5 to 10.
    ('in category 21', A, 'persons', (1, 21), {'persons': [11]}),
    ('in category 22, 11 through 21', A, 'persons', (1, 22), {'persons': [11, 12]}),
    ('nobody is in category 4', HARBOUR, 'persons', (1, 4), {'persons': []}),
    ('no such category', A, 'persons', (1, 11), Refused(24)),
    ('a category of the other office', JOINT, 'persons', (2, 22), Refused(24)),
    ('office before category', A, 'persons', (2, 99), NO_OFFICE),
    ('in each category of a ring', RING, 'persons', (1, 3), {'persons': [1]}),
    ('who may on 41', A, 'holders', (1, 31, 41), {'persons': [11, 12]}),
    ('nobody may on 42', A, 'holders', (1, 31, 42), {'persons': []}),
    ('a ban takes nothing from the list', HARBOUR, 'holders', (1, 5, 6), {'persons': [1]}),
    ('office before deed', A, 'holders', (0, 99, 99), NO_OFFICE),
    ('deed before folio', A, 'holders', (1, 99, 99), Refused(22)),
    ('no such folio', A, 'holders', (1, 31, 99), Refused(23)),
    ('42 is out of reach', A, 'unreached', (1,), {'folios': [42]}),
    ('the joint sheet, 42 is in reach at office 2', JOINT, 'unreached', (2,), {'folios': []}),
    ('7 is out of reach', HARBOUR, 'unreached', (1,), {'folios': [7]}),
    ('no office 2', A, 'unreached', (2,), NO_OFFICE),
    ('no sheet has less', EMPTY, 'unreached', (1,), {'folios': []}),
    ('granted and banned', HARBOUR, 'conflict', (1,), {'person': 1, 'deed': 5, 'folio': 6}),
    ('granted at one office, banned at the other', JOINT, 'conflict', (1,), NONE),
    ('no conflict', A, 'conflict', (1,), NONE),
    ('no office 3', JOINT, 'conflict', (3,), NO_OFFICE),
    ('two deeds on one folio', HARBOUR, 'duties', (1, 4, 5), {'person': 1, 'folio': 6}),
    ('the other way round', HARBOUR, 'duties', (1, 5, 4), {'person': 1, 'folio': 6}),
    ('equal deeds', A, 'duties', (1, 31, 31), Refused(31)),
    ('equal deeds that are unknown', A, 'duties', (1, 99, 99), Refused(22)),
    ('the other deed is unknown', A, 'duties', (1, 31, 99), Refused(22)),
    ('office before deeds', A, 'duties', (2, 99, 99), NO_OFFICE),
    ('nobody has both', sheet([(3, 1, 0), (3, 2, 0)], []), 'duties', (1, 1, 2), NONE),
    ('a second membership beside a ban', HARBOUR, 'redundant', (1,), rows(HARBOUR)),
    ('the membership that must not be pruned', PRUNED, 'redundant', (1,), rows(PRUNED)),
    ('the ban that it leads to', PRUNED, 'answer', (1, 11, 31, 41), says(2)),
    ('a second membership', UNBANNED, 'redundant', (1,), rows(UNBANNED, 1)),
    ('the ban of the other office', ELSEWHERE, 'redundant', (1,), rows(ELSEWHERE, 1)),
    ('the ban of the office', ELSEWHERE, 'redundant', (2,), rows(ELSEWHERE)),
    ('a membership between two', BETWEEN, 'redundant', (1,), rows(BETWEEN, 1)),
    ('equal categories', TWINS, 'redundant', (1,), rows(TWINS, 0, 1, 4, 5, 6, 7)),
    ('a shortcut', SHORTCUT, 'redundant', (1,), rows(SHORTCUT, 1)),
    ('a ring', RING, 'redundant', (1,), rows(RING)),
    ('A has none', A, 'redundant', (1,), rows(A)),
    ('no office 0', A, 'redundant', (0,), NO_OFFICE),
    ('zero nodes', EMPTY, 'check', (), {'offices': 1, 'nodes': 0, 'edges': 0}),
    ('zero nodes', EMPTY, 'show', (), {'form': 1, 'offices': 1, 'nodes': [], 'edges': []}),
    ('zero nodes', EMPTY, 'conflict', (1,), NONE),
    ('zero nodes', EMPTY, 'redundant', (1,), rows(EMPTY)),
]

# Question 4: the nodes as they are typed, each word an argument.
TYPED = [
    ('as a witness prints it', A, (1, 'grant', 11, 31, 41),
     ['person 11 > category 21 > category 22 > deed 31/1 > folio 41'], YES),
    ('in many words', A, (1, 'grant', 11, 31, 41), 'person 11 > category 21 > category 22 > deed 31/1 > folio 41'.split(), YES),
    ('without arrows', A, (1, 'grant', 11, 31, 41), ['person 11', 'category 21 category 22', 'deed', '31/1 folio', '41'], YES),
    ('as numbers', A, (1, 'grant', 11, 31, 41), '11 21 22 31/1 41'.split(), YES),
    ('as numbers with arrows', A, (1, 'grant', 11, 31, 41), ['11 > 21 > 22 > 31/1 > 41'], YES),
    ('with every variant', A, (1, 'grant', 11, 31, 41), '11/0 21/0 22/00 31/01 041/0'.split(), YES),
    ('with more spaces', A, (1, 'grant', 11, 31, 41), ['  11   21', ' 22 ', '', '31/1  >  41 '], YES),
    ('a ban', A, (1, 'ban', 12, 31, 42), ['person 12 > category 22 > category 21 > deed 31/2 > folio 42'], YES),
    ('longer than the witness', HARBOUR, (1, 'grant', 1, 4, 6), '1 2 3 4 6'.split(), YES),
    ('the witness', HARBOUR, (1, 'grant', 1, 4, 6), '1 3 4 6'.split(), YES),
    ('a ban, longer than the witness', HARBOUR, (1, 'ban', 1, 5, 6),
     'person 1 > category 3 > category 2 > deed 5/0 > folio 6'.split(), YES),
    ('without its variant', A, (1, 'grant', 11, 31, 41), '11 21 22 31 41'.split(), NO),
    ('the other variant', A, (1, 'grant', 11, 31, 41), '11 21 22 31/2 41'.split(), NO),
    ('a variant on a folio', A, (1, 'grant', 11, 31, 41), '11 21 22 31/1 41/1'.split(), NO),
    ('the other kind', A, (1, 'ban', 11, 31, 41), '11 21 22 31/1 41'.split(), NO),
    ('another person', A, (1, 'grant', 12, 31, 41), '11 21 22 31/1 41'.split(), NO),
    ('an unknown person', A, (1, 'grant', 99, 99, 99), '11 21 22 31/1 41'.split(), NO),
    ('backwards', A, (1, 'grant', 11, 31, 41), '41 31/1 22 21 11'.split(), NO),
    ('a gap', A, (1, 'grant', 11, 31, 41), '11 21 31/1 41'.split(), NO),
    ('one node', A, (1, 'grant', 11, 31, 41), ['11'], NO),
    ('one node with its type', A, (1, 'grant', 11, 31, 41), ['folio 41'], NO),
    ('three nodes', A, (1, 'grant', 11, 31, 41), '11 31/1 41'.split(), NO),
    ('round the ring', RING, (1, 'grant', 1, 1, 1), '1 1 2 3 1 1'.split(), YES),
    ('twice round the ring', RING, (1, 'grant', 1, 1, 1), '1 1 2 3 1 2 3 1 1'.split(), NO),
    ('a wrong type first', A, (1, 'grant', 11, 31, 41), ['category 11 > category 21 > category 22 > deed 31/1 > folio 41'], NO),
    ('a wrong type between', A, (1, 'grant', 11, 31, 41), ['person 11 > category 21 > deed 22 > deed 31/1 > folio 41'], NO),
    ('a wrong type before the last', A, (1, 'grant', 11, 31, 41),
     ['person 11 > category 21 > category 22 > category 31/1 > folio 41'], NO),
    ('a wrong type last', A, (1, 'grant', 11, 31, 41), ['11 21 22 31/1 deed 41'], NO),
    ('a wrong type, after the refusal', A, (2, 'grant', 11, 31, 41), ['folio 11'], NO_OFFICE),
    ('office 0', A, (0, 'ban', 11, 31, 41), '11 21 22 31/1 41'.split(), NO_OFFICE),
    ('the path of the other office', JOINT, (2, 'grant', 11, 31, 41), '11 21 22 31/1 41'.split(), NO),
]

# First sheet, second sheet, type, identity as typed, outcome.
SOUGHT = [
    (A, B, 'person', '11', found(1, A, 0)),
    (B, A, 'person', '11', found(1, B, 0)),
    (B, A, 'person', '12', found(2, A, 1)),
    (A, B, 'deed', '31/2', found(1, A, 5)),
    (B, A, 'deed', '31/1', found(2, A, 4)),
    (B, A, 'folio', '041/0', found(2, A, 6)),
    (B, A, 'category', '22', found(2, A, 3)),
    (JOINT, A, 'person', '11', found(1, JOINT, 0)),
    (B, JOINT, 'folio', '42', found(1, B, 3)),
    (EMPTY, JOINT, 'folio', '42', found(2, JOINT, 7)),
    (LARGE, EMPTY, 'deed', '2147483648/4294967295', found(1, LARGE, 3)),
    (crowd(512), crowd(512, 2), 'person', '513', found(2, crowd(512, 2), 511)),
    # Where it would stand: before the deeds, between them and behind them; between persons and behind them; before the categories.
    (A, B, 'deed', '31', Unfound(4, 2)),
    (B, C, 'deed', '31/3', Unfound(3, 6)),
    (A, B, 'deed', '30/4294967295', Unfound(4, 2)),
    (A, B, 'person', '41', Unfound(2, 1)),
    (A, B, 'person', '11/1', Unfound(1, 1)),
    (JOINT, B, 'person', '10', Unfound(0, 0)),
    (A, B, 'category', '0', Unfound(2, 1)),
    (JOINT, EMPTY, 'folio', '43', Unfound(8, 0)),
    (EMPTY, EMPTY, 'folio', '4294967295/4294967295', Unfound(0, 0)),
    (crowd(512), crowd(512, 2), 'person', '514', Unfound(512, 512)),
]

BOATS, BERTHS = crew(256, 8, 2048), sheet([(2, 1, 0), (2, 2, 0)], [(2, 0, 1)])
FULL = {'nodes': 512, 'shared_nodes': 0, 'edges': 0, 'shared_edges': 0, 'bytes': 24 + 16 * 512}
# First sheet, second sheet, outcome. 256 persons and 8 categories have 2,048 member edges, and a containment is one more.
JOINED = [
    ('case 11', A, B, {'nodes': 8, 'shared_nodes': 4, 'edges': 8, 'shared_edges': 2, 'bytes': 280}),
    ('the other way round', B, A, {'nodes': 8, 'shared_nodes': 4, 'edges': 8, 'shared_edges': 2, 'bytes': 280}),
    ('with itself', A, A, {'nodes': 8, 'shared_nodes': 8, 'edges': 7, 'shared_edges': 7, 'bytes': 264}),
    ('nothing with nothing', EMPTY, EMPTY, {**FULL, 'nodes': 0, 'bytes': 24}),
    ('512 nodes', crowd(256), crowd(256, 257), FULL),
    ('513 nodes', crowd(256), crowd(257, 257), Refused(29)),
    ('512 nodes and themselves', crowd(512), crowd(512), {**FULL, 'shared_nodes': 512}),
    ('2,048 edges', crew(256, 8, 2047), BERTHS,
     {'nodes': 264, 'shared_nodes': 2, 'edges': 2048, 'shared_edges': 0, 'bytes': 24 + 16 * 2312}),
    ('2,049 edges', BOATS, BERTHS, Refused(30)),
    ('nodes before edges', BOATS, crew(256, 8, 2048, 1001), Refused(29)),
    ('the first has two offices', JOINT, B, Refused(28, 1)),
    ('the second has two offices', B, JOINT, Refused(28, 2)),
    ('both have two offices', JOINT, JOINT, Refused(28, 1)),
    ('two offices before the union', JOINT, crowd(512), Refused(28, 1)),
]

TAKEN = [
    ('office 1 of the joint sheet is A', JOINT, 1, {'nodes': 8, 'edges': 7, 'bytes': 264}, A),
    ('office 2 of the joint sheet is B', JOINT, 2, {'nodes': 4, 'edges': 3, 'bytes': 136}, B),
    ('the one office', A, 1, {'nodes': 8, 'edges': 7, 'bytes': 264}, A),
    ('nothing', EMPTY, 1, {'nodes': 0, 'edges': 0, 'bytes': 24}, EMPTY),
    ('office 0', JOINT, 0, NO_OFFICE, None),
    ('office 3', JOINT, 3, NO_OFFICE, None),
]

# Sheets as large as they get; the model would take too long over paths, so that only their rows and lists are asked.
LARGEST = [
    ('512 nodes', crowd(512), 'check', (), {'offices': 1, 'nodes': 512, 'edges': 0}),
    ('2,048 edges', BOATS, 'check', (), {'offices': 1, 'nodes': 264, 'edges': 2048}),
    ('the fullest sheet', crew(504, 8, 2048), 'show', (), model.show(crew(504, 8, 2048))),
    ('511 persons in a category', crew(511, 1, 511), 'persons', (1, 1), {'persons': list(range(1, 512))}),
    ('512 folios out of reach', sheet([(4, i, 0) for i in range(1, 513)], []), 'unreached', (1,),
     {'folios': list(range(1, 513))}),
    ('the longest path', chain(509), 'witness', (1, 'grant', 7, 8, 10), way(7, *range(1, 510), (8, 9), 10)),
    ('the longest path', chain(509), 'answer', (1, 7, 8, 10), says(1)),
    ('the longest path', chain(509), 'holders', (1, 8, 10), {'persons': [7]}),
]


def two_hundred_redundant():
    """200 persons are in categories 1 and 2, and 1 is within 2: of each person the second membership is redundant."""
    base = crew(200, 2, 400)
    return base._replace(edges=base.edges + sheet([], [(2, 200, 201)]).edges)


def model_agrees():
    """The model against the answers above."""
    for label, of, verb, args, outcome in ASKED:
        asked = [int(each) if isinstance(each, str) and each.isdigit() else each for each in args]
        yield same(f'the model: {label}', told(outcome), told(outcome_of(getattr(model, verb), of, *asked)))
    for label, of, args, words, outcome in TYPED:
        yield same(f'the model: {label}', told(outcome), told(outcome_of(model.path, of, *args, nodes_of(words))))
    for first, second, type_, typed, outcome in SOUGHT:
        got = outcome_of(model.find, first, second, *nodes_of([type_, typed])[0])
        yield same(f'the model: {type_} {typed}', told(outcome), told(got))
    for label, first, second, outcome in JOINED:
        got = outcome_of(model.join, first, second)
        yield same(f'the model: {label}', told(outcome), told(got if isinstance(got, Refused) else got[0]))
    yield same('the model: case 11', JOINT, model.join(A, B)[1])


def nodes_of(words):
    """The nodes in the words of a right line."""
    types, nodes, typed = {'person': 1, 'category': 2, 'deed': 3, 'folio': 4}, [], None
    for word in ' '.join(words).replace('>', ' ').split():
        if word in types:
            typed = types[word]
        else:
            number, _, variant = word.partition('/')
            nodes.append((typed, int(number), int(variant or 0)))
            typed = None
    return nodes


def told(outcome):
    return outcome.fields() if isinstance(outcome, Refused) else outcome


def tests(room):
    yield model_agrees
    files = {}

    def file(of):
        if of not in files:
            files[of] = room.file(of.file())
        return files[of]

    for label, of, verb, args, outcome in ASKED + LARGEST:
        yield partial(ask, label, verb, [file(of), *args], outcome)
    many = two_hundred_redundant()
    yield partial(ask, 'a long list', 'redundant', [file(many), 1], rows(many, *range(1, 400, 2)))
    for label, of, args, words, outcome in TYPED:
        yield partial(ask, label, 'path', [file(of), *args, *words], outcome)
    longest = [7, *range(1, 510), '8/9', 10]
    for label, words, outcome in (('512 nodes', longest, YES), ('513 nodes', longest + [10], NO),
                                  ('2,000 nodes', longest + [10] * 1488, NO), ('511 nodes', longest[:-1], NO)):
        yield partial(ask, label, 'path', [file(chain(509)), 1, 'grant', 7, 8, 10, ' > '.join(map(str, words))], outcome)
    for name, decided in ('grant-first', (1, 2)), ('deny-first', (2, 1)), ('first-applicable', (2, 1)):
        yield partial(ask, f'{name} by name', 'joint', [file(JOINT), name, 11, 31, 42], decides(*decided))
    for of in A, B, C, JOINT, HARBOUR, RING, TIES, LARGE:
        yield partial(ask, 'rows', 'show', [file(of)], model.show(of))
    for first, second, type_, typed, outcome in SOUGHT:
        yield partial(ask, f'{type_} {typed}', 'find', [file(first), file(second), type_, typed], outcome)
    for label, first, second, outcome in JOINED:
        result = None if isinstance(outcome, Refused) else model.join(first, second)[1]
        yield partial(writes, room, label, 'join', [file(first), file(second)], outcome, result)
    for label, of, office, outcome, result in TAKEN:
        yield partial(writes, room, label, 'take', [file(of), office], outcome, result)
    yield partial(lines, file)


def lines(file):
    """A few whole outputs as they stand in the specification, so that not everything passes through expect.py."""
    for args, out in (
            (('show', file(A)), 'form 1, 1 office, 8 nodes, 7 edges\nnode 0: person 11, office 1\nnode 1: person 12, office 1\n'
             'node 2: category 21, office 1\nnode 3: category 22, office 1\nnode 4: deed 31/1, office 1\n'
             'node 5: deed 31/2, office 1\nnode 6: folio 41, office 1\nnode 7: folio 42, office 1\n'
             'edge 0: person 11 in category 21, office 1\nedge 1: person 12 in category 22, office 1\n'
             'edge 2: category 21 within category 22, office 1\nedge 3: category 22 grants deed 31/1, office 1\n'
             'edge 4: category 21 bans deed 31/2, office 1\nedge 5: deed 31/1 applies to folio 41, office 1\n'
             'edge 6: deed 31/2 applies to folio 42, office 1\n'),
            (('check', file(A)), 'accepted: 1 office, 8 nodes, 7 edges\n'),
            (('check', file(crowd(1))), 'accepted: 1 office, 1 node, 0 edges\n'),
            (('witness', file(A), '1', 'grant', '11', '31', '41'),
             'person 11 > category 21 > category 22 > deed 31/1 > folio 41\n'),
            (('joint', file(JOINT), '2', '11', '31', '42'), 'banned (2), decided by office 1\n'),
            (('joint', file(BARE), '2', '11', '31', '41'), 'undetermined (0), decided by no office\n'),
            (('find', file(JOINT), file(A), 'person', '11'), 'first sheet, node 0: person 11, offices 1 and 2\n'),
            (('find', file(B), file(A), 'deed', '31/1'), 'second sheet, node 4: deed 31/1, office 1\n'),
            (('redundant', file(UNBANNED), '1'), 'edge 1: person 11 in category 22, office 1\n'),
            (('unreached', file(EMPTY), '1'), 'none\n'),
            (('duties', file(HARBOUR), '1', '4', '5'), 'person 1, folio 6\n'),
            (('conflict', file(C), '1'), 'person 11, deed 31, folio 42\n'),
            (('persons', file(A), '1', '22'), 'person 11\nperson 12\n')):
        yield held(f'{args[0]}, line by line', counter(*args), 0, out)
    unfound = 'find', file(A), file(B), 'person', '13'
    yield held('an identity in neither sheet', counter(*unfound), 1, 'refused 32: identity in neither sheet\n'
               'it would stand at node 2 of the first sheet, node 1 of the second\n')
    yield held('an identity in neither sheet, in JSON', counter('--json', *unfound), 1, '{"verb":"find","refusal":{"number":32,'
               '"sheet":0,"row":0,"text":"identity in neither sheet","would_stand":[2,1]}}\n')
