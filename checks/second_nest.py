#!/usr/bin/env python3
"""A second writer of Turtle with brackets and collections, to compare owl with.

second_nest.py [--partial] NAME.. does what `owl translate --to ttl --nest [--partial] NAME..`
has to do, for documents in Functional-Style Syntax that read. The graphs are those of the
second mapping. It shares no code or table with owl.
"""

import sys

import second_mapping
from second_mapping import Document, TurtleWriter, drawn, full
from second_writer import OWL, RDF, RDFS, XSD

# The deepest level that is written inside of a line.
LEVELS = 500

TYPE, FIRST, REST, NIL = ((RDF + it).encode() for it in ("type", "first", "rest", "nil"))
INVERSE, LANG_RANGE = full("owl:inverseOf").encode(), (RDF + "langRange").encode()
TYPES = {"class": {(OWL + it).encode() for it in ("Class", "Restriction")}, "range": {(RDFS + "Datatype").encode()}}
WORDS = {
    "class": "intersectionOf unionOf oneOf complementOf onProperty onProperties someValuesFrom allValuesFrom hasValue hasSelf"
    " minCardinality maxCardinality cardinality minQualifiedCardinality maxQualifiedCardinality qualifiedCardinality onClass onDataRange",
    "range": "intersectionOf unionOf oneOf datatypeComplementOf onDatatype withRestrictions",
}
PREDICATES = {role: {(OWL + it).encode() for it in words.split()} for role, words in WORDS.items()}


def is_facet(predicate):
    return predicate.startswith(XSD.encode()) or predicate == LANG_RANGE


def role_of(own):
    """The role of a node by its own triples, if it is one that may be nested."""
    for _, predicate, value in own:
        if predicate in (FIRST, REST):
            return "list"
        if predicate == INVERSE and value[0] == 0:
            return "property"
        if is_facet(predicate):
            return "facet"
        for role, types in TYPES.items():
            if predicate == TYPE and value[1] in types:
                return role
    return None


def is_structural(role, triple):
    _, predicate, value = triple
    if role == "list":
        return predicate in (FIRST, REST)
    if role == "property":
        return predicate == INVERSE and value[0] == 0
    if role == "facet":
        return is_facet(predicate)
    return predicate in PREDICATES[role] or predicate == TYPE and value[1] in TYPES[role]


class Nests:
    """Which nodes of a graph stand inside of a line. A term is a pair, and that of a blank node begins with 1."""

    def __init__(self, triples):
        self.triples = sorted(triples)
        self.own, self.named = {}, {}
        for triple in self.triples:
            self.own.setdefault(triple[0], []).append(triple)
            self.named.setdefault(triple[2], []).append(triple)
        self.nestable = {it for it in self.own if it[0] == 1 and self.is_nestable(it)}
        self.round = set()
        for node in self.nestable:
            self.find_round(node)
        self.levels = {}
        for node in self.nestable:
            self.find_level(node)

    def is_nestable(self, node):
        role = role_of(self.own[node])
        return role is not None and len(self.named.get(node, [])) == 1 and all(is_structural(role, it) for it in self.own[node])

    def rest_of(self, node):
        """The rest of a cell with these two triples alone."""
        own = self.own[node]
        return own[1][2] if [it[1] for it in own] == [FIRST, REST] else None

    def find_round(self, node):
        """Finds from the last cell on which cells are round. A cell that is in a circle is none."""
        cells = []
        while node in self.nestable and node not in self.round and node not in cells:
            cells.append(node)
            node = self.rest_of(node)
        if node == (0, NIL) or node in self.round:
            self.round.update(cells)

    def find_level(self, node):
        above = []
        while node in self.nestable and node not in self.levels:
            above.append(node)
            node = self.named[node][0][0]
        for node in reversed(above):
            over, predicate, _ = self.named[node][0]
            level = self.levels.get(over, 0)
            inside = over in self.round and node in self.round and predicate == REST
            self.levels[node] = 1 if not 1 <= level <= LEVELS else level if inside else level + 1

    def is_nested(self, node):
        return 1 <= self.levels.get(node, 0) <= LEVELS


class NestedWriter(TurtleWriter):
    def __init__(self, prefixes, triples):
        super().__init__(prefixes)
        self.nests = Nests(triples)

    def written(self, term):
        if not self.nests.is_nested(term):
            return self.term(term)
        own = self.nests.own[term]
        if term not in self.nests.round:
            return f"[ {' ; '.join(self.pair(it) for it in own)} ]"
        elements = []
        while term != (0, NIL):
            first, rest = self.nests.own[term]
            elements.append(self.written(first[2]))
            term = rest[2]
        return f"( {' '.join(elements)} )"

    def pair(self, triple):
        return f"{self.iri(triple[1].decode())} {self.written(triple[2])}"

    def graph(self, triples):
        lines = [it for it in super().graph([]).split("\n") if it]
        for triple in self.nests.triples:
            if not self.nests.is_nested(triple[0]):
                lines.append(f"{self.term(triple[0])} {self.pair(triple)} .")
        return "\n".join([*lines, ""])


def translation(document):
    """The text, and the line of the note."""
    triples, line = drawn(document)
    return NestedWriter(document.prefixes, triples).graph(triples), line


def outcome(names_and_texts, partial=False):
    """The status, the output and the line for documents that read, the main one first."""
    status, output, line = second_mapping.outcome(names_and_texts, partial)
    return (status, *translation(Document(*names_and_texts[0]))) if status == 0 else (status, output, line)


def main(words):
    partial = words[:1] == ["--partial"]
    texts = []
    for name in words[partial:]:
        with open(name, encoding="utf-8", newline="") as file:
            texts.append((name, file.read()))
    status, output, line = outcome(texts, partial)
    sys.stdout.write(output)
    print(line, file=sys.stderr)
    return status


if __name__ == "__main__":
    sys.exit(main(sys.argv[1:]))
