#!/usr/bin/env python3
"""Makes rows of a text of which each write fails in turn.

The output takes 10 bytes at a time, and the text of an empty ontology has 220: its
22 writes fail one after another, and those in front of the one that fails were
written.

    tools/make_put_rows.py > crates/owl_rows/data/puts/rows
"""

PUT = 10
TEXT = """\
Prefix(owl:=<http://www.w3.org/2002/07/owl#>)
Prefix(rdf:=<http://www.w3.org/1999/02/22-rdf-syntax-ns#>)
Prefix(rdfs:=<http://www.w3.org/2000/01/rdf-schema#>)
Prefix(xsd:=<http://www.w3.org/2001/XMLSchema#>)
Ontology(
)
"""


def main():
    print("# Each write of a text fails in turn. `tools/make_put_rows.py` makes these rows.")
    for number in range(1, -(-len(TEXT) // PUT) + 1):
        *lines, rest = TEXT[: PUT * (number - 1)].split("\n")
        print()
        print(f"row write_{number}_fails")
        print("words translate --to fss m.ofn")
        print("document m.ofn")
        print("= Ontology()")
        print(f"out-piece {PUT}")
        print(f"fail-put {number}")
        if lines or rest:
            print("output")
        for line in lines:
            print(f"| {line}")
        if rest:
            print(f"= {rest}")
        print("status 7")
        print("line write")


main()
