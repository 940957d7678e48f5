"""Sheets as the tests make them, and those whose answers are known beforehand."""
import struct
from typing import NamedTuple

PERSON, CATEGORY, DEED, FOLIO = 1, 2, 3, 4
MEMBER, WITHIN, GRANT, BAN, APPLIES = 1, 2, 3, 4, 5
MOST_NODES, MOST_EDGES, MOST_BYTES = 512, 2048, 40984


class Node(NamedTuple):
    type: int
    number: int
    variant: int
    marks: int

    @property
    def identity(self):
        return self[:3]


class Edge(NamedTuple):
    kind: int
    start: int
    end: int
    marks: int


class Sheet(NamedTuple):
    offices: int
    nodes: tuple
    edges: tuple

    def words(self):
        head = [1, self.offices, len(self.nodes), len(self.edges), 6, 6 + 4 * len(self.nodes)]
        return head + [word for row in self.nodes + self.edges for word in row]

    def file(self):
        return pack(self.words())


def pack(words):
    """Words as they stand in a file: four bytes each, low byte first."""
    return struct.pack(f'<{len(words)}I', *words)


def sheet(nodes, edges, offices=1):
    """A sheet of these rows; a row without offices is marked 1."""
    return Sheet(offices, tuple(Node(*(row + (1,))[:4]) for row in nodes), tuple(Edge(*(row + (1,))[:4]) for row in edges))


# The sister ships of document 01: A, B, C, and the joint sheet of A and B.
_SHIPS = [(1, 11, 0), (1, 12, 0), (2, 21, 0), (2, 22, 0), (3, 31, 1), (3, 31, 2), (4, 41, 0), (4, 42, 0)]
_RIGHTS = [(1, 0, 2), (1, 1, 3), (2, 2, 3), (3, 3, 4), (4, 2, 5), (5, 4, 6), (5, 5, 7)]
A = sheet(_SHIPS, _RIGHTS)
B = sheet([(1, 11, 0), (2, 21, 0), (3, 31, 2), (4, 42, 0)], [(1, 0, 1), (3, 1, 2), (5, 2, 3)])
C = sheet(_SHIPS, _RIGHTS[:4] + [(3, 3, 5)] + _RIGHTS[4:])
JOINT = sheet([ship + (marks,) for ship, marks in zip(_SHIPS, (3, 1, 3, 1, 1, 3, 1, 3))],
              [(1, 0, 2, 3), (1, 1, 3, 1), (2, 2, 3, 1), (3, 2, 5, 2), (3, 3, 4, 1), (4, 2, 5, 1), (5, 4, 6, 1), (5, 5, 7, 3)],
              offices=2)

# Person 1 is in category 2 and in 3, which contains it; without the ban, edge 1 would be redundant. Deeds 4 and 5 are granted on
# folio 6, and deed 5 is banned too. Nobody is granted anything on folio 7, and nobody is in category 4.
HARBOUR = sheet([(1, 1, 0), (2, 2, 0), (2, 3, 0), (2, 4, 0), (3, 4, 0), (3, 5, 0), (4, 6, 0), (4, 7, 0)],
                [(1, 0, 1), (1, 0, 2), (2, 1, 2), (3, 2, 4), (3, 2, 5), (4, 1, 5), (5, 4, 6), (5, 5, 6)])


def damaged(base, *changes):
    """The file of a sheet with other words: AT, WORD, AT, WORD .."""
    words = base.words()
    for at, word in zip(changes[::2], changes[1::2]):
        words[at] = word
    return pack(words)


# One damage of sheet A for each refusal of a sheet: number, row, file. Node rows start at word 6, edge rows at 38.
DAMAGES = [
    (33, 0, A.file() + b'x'),
    (1, 0, A.file()[:20]),
    (2, 0, damaged(A, 0, 2)),
    (3, 0, damaged(A, 1, 3)),
    (3, 0, damaged(A, 1, 0)),
    (4, 0, damaged(A, 2, 513)),
    (4, 0, damaged(A, 3, 2049)),
    (5, 0, damaged(A, 4, 7)),
    (5, 0, damaged(A, 5, 37)),
    (5, 0, A.file()[:-4]),
    (5, 0, A.file() + bytes(4)),
    (6, 3, damaged(A, 18, 9)),
    (6, 0, damaged(A, 6, 0)),
    (7, 0, damaged(A, 7, 0)),
    (7, 2, damaged(A, 16, 1)),
    (8, 7, damaged(A, 37, 2)),
    (8, 0, damaged(A, 9, 0)),
    (9, 1, damaged(A, 11, 11)),
    (10, 1, damaged(A, 11, 10)),
    (11, 2, damaged(A, 46, 6)),
    (12, 6, damaged(A, 64, 8)),
    (12, 0, damaged(A, 39, 8)),
    (13, 0, damaged(A, 40, 4)),
    (14, 2, damaged(A, 48, 2)),
    (15, 4, damaged(A, 57, 2)),
    (16, 1, damaged(A, 43, 0, 44, 2)),
    (17, 1, damaged(A, 39, 1, 40, 3, 43, 0, 44, 2)),
    # Two faults at once: the table's order decides, rows are tried one at a time, and nodes before edges.
    (33, 0, damaged(A, 0, 2) + b'xx'),
    (33, 0, b'x'),
    (2, 0, damaged(A, 0, 0, 1, 3)),
    (3, 0, damaged(A, 1, 3, 2, 513)),
    (4, 0, damaged(A, 2, 513, 4, 7)),
    (5, 0, damaged(A, 5, 37, 6, 9)),
    (6, 0, damaged(A, 6, 9, 7, 0)),
    (7, 1, damaged(A, 11, 0, 13, 2)),
    (8, 1, damaged(A, 13, 2, 11, 11)),
    (8, 0, damaged(A, 9, 2, 10, 9)),
    (9, 1, damaged(A, 11, 11, 14, 9)),
    (10, 1, damaged(A, 11, 10, 38, 9)),
    (11, 0, damaged(A, 38, 0, 39, 8)),
    (12, 0, damaged(A, 39, 4294967295, 41, 0)),
    (13, 2, damaged(A, 47, 0, 48, 0)),
    (14, 2, damaged(A, 48, 2, 49, 0)),
    (15, 1, damaged(A, 43, 0, 44, 2, 45, 2)),
]


def chain(categories):
    """Person 7, so many categories, each within the next, deed 8/9 and folio 10. 509 make the longest path of any sheet."""
    nodes = [(1, 7, 0)] + [(2, i, 0) for i in range(1, categories + 1)] + [(3, 8, 9), (4, 10, 0)]
    within = [(2, i, i + 1) for i in range(1, categories)]
    return sheet(nodes, [(1, 0, 1)] + within + [(3, categories, categories + 1), (5, categories + 1, categories + 2)])


def crowd(persons, first=1):
    """So many persons and nothing else."""
    return sheet([(1, first + i, 0) for i in range(persons)], [])


def crew(persons, categories, edges, first=1):
    """Persons and categories, and the first so many member edges between them; enough to fill a sheet."""
    nodes = [(1, first + i, 0) for i in range(persons)] + [(2, 1 + i, 0) for i in range(categories)]
    pairs = [(1, p, persons + c) for p in range(persons) for c in range(categories)]
    return sheet(nodes, pairs[:edges])


def wordy():
    """The sheet with the longest listing: 507 deeds and 5 folios, all numbers and variants of ten digits, and 2,048 edges."""
    most = 4294967295
    nodes = [(3, most, most - 506 + i) for i in range(507)] + [(4, most - 4 + i, 0) for i in range(5)]
    return sheet(nodes, [(5, deed, 507 + folio) for deed in range(507) for folio in range(5)][:MOST_EDGES])
