#!/usr/bin/env python3
"""Makes rows of documents in Manchester Syntax that are cut behind each of their tokens.

Each row of the topics `manchester` and `manchester_forms` whose document reads and has a
keyword that none before it has is cut behind each token of its frames. Where something
lacks at the end, the row has what `checks/second_manchester.py` tells of it; a cut that
reads is left out, and so is one that was made of an earlier row:

    tools/make_manchester_cut_rows.py > crates/owl_rows/data/manchester_cuts/rows
"""

import os
import re
import sys

TOP = os.path.dirname(os.path.dirname(os.path.abspath(__file__)))
sys.path.append(os.path.join(TOP, "checks"))

from second_manchester import KEYWORDS, WORDS, Defect, read

TOKEN = re.compile(r'''<[^<>\s]*>|"(?:[^"\\]|\\.)*"|\^\^|@[A-Za-z0-9-]+|_:\w+|\w*:(?:[\w%:]|\.(?=\w)|\\.)*|[+-]?\d+(?:\.\d+)?|\w+(?:\.\w+)*|[<>]=|\S''')
HEADER = "Ontology: "


def documents(topic):
    """The name and the document of each row that is translated, if it stands on one line."""
    with open(os.path.join(TOP, "crates", "owl_rows", "data", topic, "rows"), encoding="utf-8") as file:
        blocks = file.read().split("\nrow ")[1:]
    for lines in (block.split("\n") for block in blocks):
        text = [line[2:] for line in lines if line.startswith("= ")]
        if "status 0" in lines and len(text) == 1 and text[0].isascii() and HEADER in text[0]:
            yield lines[0], text[0]


def keywords_of(tokens):
    """The keywords and signs among tokens."""
    return {it for it in tokens if it in WORDS or it.removesuffix(":") in KEYWORDS and it.endswith(":") or re.fullmatch(r"[^\w\s:\"]+", it)}


def defect_of(text):
    try:
        read(text.encode())
    except Defect as defect:
        return str(defect)
    return None


def main():
    print("# Documents that are cut behind each token of their frames: something lacks at the end, mostly of the item that")
    print("# is begun. `tools/make_manchester_cut_rows.py` makes them of the rows of `manchester` and `manchester_forms`.")
    seen, cut = set(), set()
    for topic in ("manchester", "manchester_forms"):
        for name, text in documents(topic):
            tokens = [(match.group(), match.end()) for match in TOKEN.finditer(text)]
            keywords = keywords_of(it for it, _ in tokens)
            if keywords <= seen:
                continue
            seen |= keywords
            for number, (_, end) in enumerate([it for it in tokens if it[1] > text.find(HEADER) + len(HEADER)][:-1], 1):
                told = defect_of(text[:end]) if text[:end] not in cut else None
                cut.add(text[:end])
                if told:
                    print(f"\nrow {name}_cut_behind_token_{number}")
                    print("words show m.omn")
                    print("document m.omn")
                    print(f"= {text[:end]}")
                    print("status 3")
                    print(f"line m.omn: {told}")
                    print("cuts")
    print(f"{len(seen)} keywords and signs", file=sys.stderr)


main()
