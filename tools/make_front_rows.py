#!/usr/bin/env python3
"""Makes rows of all fronts of a document, the whole one left out.

The document has declarations and an axiom with an expression, and it reads. Each
front of it lacks something: what is told of it is what the second reader tells of
its tokens, which stand apart here. A token that isn't whole is a bad one.

    tools/make_front_rows.py > crates/owl_rows/data/fronts/rows
"""

import os
import re
import sys

sys.path.append(os.path.join(os.path.dirname(os.path.dirname(os.path.abspath(__file__))), "checks"))

from second_reader import Defect, SecondReader

DOCUMENT = (
    "Prefix(:=<http://e/>) Ontology(<http://e/o> Declaration(Class(:A)) Declaration(Class(:B)) Declaration(Class(:C)) "
    "SubClassOf(ObjectIntersectionOf(:A :B) :C))"
)
TOKEN = re.compile(r"(?P<space> +)|<(?P<iri>[^<>]*)>|(?P<prefix>[A-Za-z]*):(?P<local>[A-Za-z]*)|(?P<word>[A-Za-z]+)|(?P<sign>[()=])")


class FrontReader(SecondReader):
    """Tells a bad token as one, where it is the first that may not stand there."""

    def fail(self, reason="NotHere"):
        super().fail("BadToken" if self.kind() == "bad" else reason)


def tokens_of(text):
    """The tokens of a text, up to a bad one."""
    at = 0
    while at < len(text):
        found = TOKEN.match(text, at)
        if found is None:
            yield "bad", None, at
            return
        if found["iri"] is not None:
            yield "iri", found["iri"], at
        elif found["prefix"] is not None:
            yield "name", (found["prefix"], found["local"]), at
        elif found["word"] is not None:
            yield "word", found["word"], at
        elif found["sign"] is not None:
            yield found["sign"], None, at
        at = found.end()


def defect_of(text):
    """The first defect of a text, or nothing where it reads."""
    try:
        FrontReader([*tokens_of(text)], len(text)).document()
    except Defect as defect:
        return str(defect)
    return None


def main():
    assert defect_of(DOCUMENT) is None
    print("# The fronts of a document that reads, by their number of bytes. `tools/make_front_rows.py` makes them.")
    for size in range(len(DOCUMENT)):
        print()
        print(f"row front_of_{size}_bytes")
        print("words translate --to fss m.ofn")
        print("document m.ofn")
        if size > 0:
            print(f"= {DOCUMENT[:size]}")
        print("status 3")
        print(f"line m.ofn: {defect_of(DOCUMENT[:size])}")


main()
