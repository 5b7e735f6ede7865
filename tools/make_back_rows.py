#!/usr/bin/env python3
"""Makes rows of graphs that are read back and written again.

Each text that a row of the topic `turtle` expects is the graph of a normal form, so
read as the main document and written again it is the same text:

    tools/make_back_rows.py > crates/owl_rows/data/back/rows
"""

import re

TOPIC = "crates/owl_rows/data/turtle/rows"


def sections(block):
    """The directives of a row, each with the lines of its text."""
    found = []
    for line in block.split("\n"):
        if found and line[:2] in ("= ", "| ", "* ", "< ") or line in ("|", "="):
            found[-1][1].append(line)
        elif line and not line.startswith("#"):
            found.append((line, []))
    return found


def from_below(line):
    """The line with the path of a file that stands in the other topic's folder."""
    if line.startswith("< ") and not line.startswith("< ../"):
        return f"< ../turtle/{line[2:]}"
    return line


def main():
    print("# The texts that rows of `turtle` expect, read back and written again. `tools/make_back_rows.py` makes them.")
    for block in open(TOPIC, encoding="utf-8").read().split("\nrow ")[1:]:
        name, *rest = sections(block)
        heads = [head for head, _ in rest]
        if "status 0" not in heads or not any(head.startswith("words translate --to ttl ") for head in heads):
            continue
        output = next((text for head, text in rest if head == "output"), None)
        if output is None or any(head.split()[0] not in ("words", "document", "output", "status", "line") for head in heads):
            continue
        print()
        print(f"row {name[0]}_back")
        for head, text in rest:
            if head.startswith("words "):
                print(head.replace(" m.ofn", " m.ttl"))
            elif head == "document m.ofn":
                print("document m.ttl")
                print("\n".join(from_below(line) for line in output))
            elif head.startswith("line "):
                print(re.sub(r"absorbed \d+", "absorbed 0", head))
            else:
                print(head)
                for line in text:
                    print(from_below(line))


main()
