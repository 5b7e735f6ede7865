#!/usr/bin/env python3
"""Makes rows of documents that are cut behind each of their tokens.

Each row of the topics `axioms` and `expressions` whose document reads, the first
for each keyword, is cut behind each token of its axiom but the last bracket. Such
a document lacks something at its end, and the item that lacks it is the axiom:

    tools/make_cut_rows.py > crates/owl_rows/data/cuts/rows
"""

import re
import sys

TOKEN = re.compile(r'''<[^>]*>|"(?:[^"\\]|\\.)*"|\^\^|@[A-Za-z0-9-]+|_:[A-Za-z0-9]+|[A-Za-z0-9]*:[A-Za-z0-9]*|[A-Za-z]+|[0-9]+|[()=]|\S''')


def documents(path):
    """The name and the document of each row that is translated."""
    for block in open(path, encoding="utf-8").read().split("\nrow ")[1:]:
        lines = block.split("\n")
        text = [line[2:] for line in lines if line.startswith("= ")]
        if "status 0" in lines and len(text) == 1 and text[0].isascii():
            yield lines[0], text[0]


def main():
    print("# Documents that are cut behind each token of an axiom: something lacks at the end, of the item")
    print("# that is begun. `tools/make_cut_rows.py` makes them of the rows of `axioms` and `expressions`.")
    seen = set()
    for topic in ("axioms", "expressions"):
        for name, text in documents(f"crates/owl_rows/data/{topic}/rows"):
            tokens = [(match.group(), match.end()) for match in TOKEN.finditer(text)]
            words = {token for token, _ in tokens if token.isalpha() and token not in ("Prefix", "Ontology", "Import")}
            if words <= seen:
                continue
            start = text.rfind("Ontology(")
            if start < 0:
                continue
            start += len("Ontology(")
            seen |= words
            ends = [end for _, end in tokens if end > start][:-2]
            for number, end in enumerate(ends, 1):
                print()
                print(f"row {name}_cut_behind_token_{number}")
                print("words show m.ofn")
                print("document m.ofn")
                print(f"= {text[:end]}")
                print("status 3")
                print(f"line m.ofn: item at {start}: NotHere at {end}")
    print(f"{len(seen)} keywords", file=sys.stderr)


main()
