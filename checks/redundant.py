#!/usr/bin/env python3
"""Compares what owl reads from graphs with and without types that tools of OWL 1 write.

redundant.py [COUNT [SEED [PROGRAM]]]: so many random documents that can be translated to
Turtle, 1000 if left out. The second mapping draws the graph of each, to which some types
are added that are redundant beside what stands there. The program, bin/owl if left out,
has to read both graphs alike: to the same status, output and line.
"""

import os
import random
import subprocess
import sys
import tempfile

import mapping
import second_mapping
from second_mapping import Document, Drawing, TurtleWriter, leaves, normal_form

PROGRAM = mapping.PROGRAM
RDF = b"http://www.w3.org/1999/02/22-rdf-syntax-ns#"
RDFS = b"http://www.w3.org/2000/01/rdf-schema#"
OWL = b"http://www.w3.org/2002/07/owl#"
TYPE = RDF + b"type"
IRI, BLANK = 0, 1

CLASSES = {OWL + b"Class", RDFS + b"Datatype", OWL + b"Restriction"}
PROPERTIES = {OWL + b"ObjectProperty", OWL + b"DatatypeProperty", OWL + b"AnnotationProperty"}


def redundant(triples):
    """All redundant types that the graph does not have, each beside triples of the graph itself."""
    predicates, types = {}, {}
    for subject, predicate, value in triples:
        predicates.setdefault(subject, set()).add((predicate, value[0]))
        if predicate == TYPE and value[0] == IRI:
            types.setdefault(subject, set()).add(value[1])
    for subject, found in predicates.items():
        own = types.get(subject, set())
        blank = subject[0] == BLANK
        if blank and any(predicate == RDF + b"first" for predicate, _ in found):
            yield subject, RDF + b"List"
        if own & CLASSES:
            yield subject, RDFS + b"Class"
        if own & PROPERTIES:
            yield subject, RDF + b"Property"
        if blank and OWL + b"Restriction" in own:
            yield subject, OWL + b"Class"
        if blank and (OWL + b"inverseOf", IRI) in found:
            yield subject, OWL + b"ObjectProperty"


def drawn(document):
    """The triples of the graph, and what writes them."""
    annotations, axioms, _ = normal_form(document)
    labels = {inside for tree in annotations + axioms for tag, inside in leaves(tree) if tag == second_mapping.ANONYMOUS}
    drawing = Drawing(labels)
    drawing.header(document.iris, document.imports, annotations)
    drawing.axioms(axioms)
    return set(drawing.triples), TurtleWriter(document.prefixes)


def answer(text, others):
    with open("m.ttl", "wb") as file:
        file.write(text.encode())
    done = subprocess.run([PROGRAM, "translate", "--to", "fss", "--partial", "m.ttl", *others], capture_output=True)
    return done.returncode, done.stdout, done.stderr


def agrees(given):
    """How many types were added, or none where the two graphs are read in two ways."""
    for name, text in given[1:]:
        with open(name, "wb") as file:
            file.write(text.encode())
    others = [name for name, _ in given[1:]]
    triples, writer = drawn(Document(*given[0]))
    found = sorted(redundant(triples))
    added = random.sample(found, random.randint(min(1, len(found)), len(found)))
    more = triples | {(subject, TYPE, (IRI, type)) for subject, type in added}
    wanted = answer(writer.graph(triples), others)
    told = answer(writer.graph(more), others)
    if told == wanted and told[0] == 0:
        return len(added)
    print(writer.graph(more), f"\n  wanted: {wanted}\n  owl:    {told}")
    return None


def main():
    count = int(sys.argv[1]) if len(sys.argv) > 1 else 1000
    random.seed(int(sys.argv[2]) if len(sys.argv) > 2 else 1)
    tried, added, wrong = 0, 0, 0
    with tempfile.TemporaryDirectory() as room:
        os.chdir(room)
        while tried < count:
            given = list(mapping.documents())
            if second_mapping.outcome(given, True)[0] != 0:
                continue
            tried += 1
            types = agrees(given)
            wrong += types is None
            added += types or 0
    print(f"{tried} graphs with {added} redundant types, {wrong} read in two ways")
    return wrong != 0


if __name__ == "__main__":
    sys.exit(main())
