#!/usr/bin/env python3
"""Makes the document of a trial: make_trial.py N writes it in Functional-Style Syntax, with N classes."""

import sys


def document(size):
    yield "Prefix(:=<http://t.example/>)"
    yield "Ontology(<http://t.example/o>"
    yield "Declaration(ObjectProperty(:p))"
    for number in range(size):
        yield f"Declaration(Class(:C{number}))"
    for number in range(size - 1):
        yield f"SubClassOf(:C{number + 1} :C{number})"
        yield f"SubClassOf(:C{number + 1} ObjectSomeValuesFrom(:p :C{number}))"
    yield ")"


if __name__ == "__main__":
    print("\n".join(document(int(sys.argv[1]))))
