"""Reads as much of Graphviz's language as a picture of an office needs: nodes, edges, their attributes, and groups."""
import re
from typing import NamedTuple

# Space, a word in quotes, a label in Graphviz's HTML (as far as a table goes), an arrow, a sign, a bare word.
TOKEN = re.compile(r'\s+|("(?:[^"\\]|\\.)*"|<(?:[^<>]|<[^<>]*>)*>|->|[{}\[\];,=:]|[\w.\-]+)', re.S)
ROW = re.compile(r'(person|category|deed|folio) \d+(/\d+)?')


class Graph(NamedTuple):
    nodes: dict   # name -> attributes
    edges: list   # (from, to, attributes)
    frame: dict   # attributes of the whole


class Reader:
    """One pass over the words of a graph."""

    def __init__(self, text):
        self.words = list(words(text))
        self.at = 0
        self.graph = Graph({}, [], {})

    def peek(self):
        return self.words[self.at] if self.at < len(self.words) else ''

    def take(self, wanted=None):
        word = self.peek()
        if not word or wanted is not None and word != wanted:
            raise ValueError(f'wanted {wanted}, got {word!r} at word {self.at}')
        self.at += 1
        return word

    def name(self):
        word = self.take()
        if word in ('{', '}', '[', ']', ';', ',', '=', ':', '->'):
            raise ValueError(f'{word!r} is no name')
        return re.sub(r'\\(["\\])', r'\1', word[1:-1]) if word.startswith('"') else word

    def end(self):
        """A node's name; at which side of the node an edge ends does not matter here."""
        name = self.name()
        while self.peek() == ':':
            self.take()
            self.name()
        return name

    def attributes(self):
        found = {}
        while self.peek() == '[':
            self.take('[')
            while self.peek() != ']':
                name = self.name()
                self.take('=')
                found[name] = self.name()
                if self.peek() in (',', ';'):
                    self.take()
            self.take(']')
        return found

    def group(self, nodes, edges, frame):
        """What stands between braces; the defaults of the group hold within it."""
        self.take('{')
        nodes, edges = dict(nodes), dict(edges)
        while self.peek() != '}':
            self.statement(nodes, edges, frame)
            if self.peek() == ';':
                self.take()
        self.take('}')

    def statement(self, nodes, edges, frame):
        if self.peek() in ('subgraph', '{'):
            if self.take() == 'subgraph':
                if self.peek() != '{':
                    self.name()
            else:
                self.at -= 1
            self.group(nodes, edges, {})
            return
        quoted, name = self.peek().startswith('"'), self.end()
        if not quoted and name in ('node', 'edge', 'graph'):
            {'node': nodes, 'edge': edges, 'graph': frame}[name].update(self.attributes())
        elif self.peek() == '=':
            self.take()
            frame[name] = self.name()
        elif self.peek() == '->':
            self.arrows(name, nodes, edges)
        else:
            self.node(name, {**nodes, **self.attributes()})

    def node(self, name, attributes):
        self.graph.nodes[name] = {**self.graph.nodes.get(name, {}), **attributes}

    def arrows(self, name, nodes, edges):
        ends = [name]
        while self.peek() == '->':
            self.take()
            ends.append(self.end())
        attributes = {**edges, **self.attributes()}
        for start, end in zip(ends, ends[1:]):
            self.graph.edges.append((start, end, attributes))
        for end in ends:
            if end not in self.graph.nodes:
                self.node(end, nodes)


def words(text):
    at = 0
    while at < len(text):
        match = TOKEN.match(text, at)
        if not match:
            raise ValueError(f'{text[at:at + 20]!r} is nothing of a graph')
        if match.group(1):
            yield match.group(1)
        at = match.end()


def read_graph(text):
    reader = Reader(text)
    reader.take('digraph')
    if reader.peek() != '{':
        reader.name()
    reader.group({}, {}, reader.graph.frame)
    if reader.peek():
        raise ValueError(f'{reader.peek()!r} behind the graph')
    return reader.graph


def label(graph, name):
    """What is written at a node, its lines joined by spaces."""
    said = graph.nodes[name].get('label', name)
    return ' '.join(re.sub(r'\\[nlr]|\n', ' ', said).split())


def rows(graph):
    """The nodes that stand for a row: label and looks. What else is drawn, as a legend, is no row."""
    named = [(label(graph, name), looks) for name, looks in graph.nodes.items()]
    return [(said, looks) for said, looks in named if ROW.fullmatch(said)]


def lines(graph):
    """The edges between rows: label, label and looks."""
    named = [(label(graph, start), label(graph, end), looks) for start, end, looks in graph.edges]
    return [(start, end, looks) for start, end, looks in named
            if ROW.fullmatch(start) and ROW.fullmatch(end) and looks.get('style') != 'invis']
