#!/usr/bin/env python3
"""Compares `owl declare` with translations of documents that declare all, on random documents.

declared.py [COUNT [SEED [PROGRAM]]]: so many closures, 2000 if left out, of up to three
documents as `mapping.py` makes them, of which declarations were taken out. What is needed
is found here, by the leaves of the second writer's trees and the kinds of the second
mapping, and is put behind the axioms of main. With `declare --to T` the program, bin/owl
if left out, has to end with the status, the output and the line that the second writer,
the second mapping and the second writer of Manchester Syntax have for that, but for what
the line tells in front.
"""

import random
import re
import subprocess
import sys
import tempfile
import os

import mapping
import second_manchester_writer
import second_mapping
import second_writer
from second_mapping import Document, Kinds, leaves, reached
from second_writer import ENTITIES


def thinned(text):
    """The document without some of its declarations."""
    part = random.choice([0, 0.2, 0.5, 1])
    return re.sub(r" Declaration\(\w+\([^()]*\)\)", lambda it: "" if random.random() < part else it[0], text)


def needed(documents):
    """The kinds and names that stand in the main document and that its closure lacks, each once."""
    kinds = Kinds(reached(documents)[0])
    found = {it for tree in documents[0].annotations + documents[0].axioms for it in leaves(tree) if 1 <= it[0] <= 5}
    return [(tag, iri.decode()) for tag, iri in sorted(found) if not kinds.has(tag, iri.decode())]


def outcome(target, given, partial):
    """The status, the output and the line that `declare` has to have."""
    needs = needed([Document(*it) for it in given])
    name, text = given[0]
    whole = [(name, text[:-1] + "".join(f" Declaration({ENTITIES[tag - 1]}(<{iri}>))" for tag, iri in needs) + ")"), *given[1:]]
    if target == "omn":
        words = ["translate", "--to", "omn"] + ["--partial"] * partial
        status, output, line = second_manchester_writer.outcome(words, [(name, text.encode()) for name, text in whole])
    elif target == "ttl":
        status, output, line = second_mapping.outcome(whole, partial)
    else:
        documents = [Document(*it) for it in whole]
        found, missing = reached(documents)
        clash = Kinds(found).clash()
        if missing and not partial:
            status, output, line = 3, "", f"{missing[0]}: MissingImport <{missing[1]}>"
        elif clash:
            status, output, line = 4, "", f"typing: TwoKinds <{clash}>"
        else:
            status, output = 0, second_writer.text_of(whole[0][1])
            line = f"translated; axioms {len(documents[0].axioms)}; absorbed 0"
    return status, output, line.replace("translated; ", f"declared; added {len(needs)}; ") if status == 0 else line, len(needs)


def agrees(target):
    given = [(name, thinned(text)) for name, text in mapping.documents()]
    partial = random.random() < 0.2
    *wanted, added = outcome(target, given, partial)
    wanted[2] += "\n"
    for name, text in given:
        with open(name, "wb") as file:
            file.write(text.encode())
    words = ["declare", "--to", target] + ["--partial"] * partial + [name for name, _ in given]
    done = subprocess.run([mapping.PROGRAM, *words], capture_output=True)
    told = [done.returncode, done.stdout.decode(), done.stderr.decode()]
    right = told == wanted and "Undeclared " not in told[2]
    if not right:
        print(words, *(f"\n{name}: {text!r}" for name, text in given), f"\n  wanted: {wanted}\n  owl:    {told}")
    return right, wanted[0], added


def main():
    count = int(sys.argv[1]) if len(sys.argv) > 1 else 2000
    random.seed(int(sys.argv[2]) if len(sys.argv) > 2 else 1)
    wrong, statuses, some = 0, {}, 0
    with tempfile.TemporaryDirectory() as room:
        os.chdir(room)
        for _ in range(count):
            right, status, added = agrees(random.choice(["fss", "ttl", "omn"]))
            wrong += not right
            some += status == 0 and added > 0
            statuses[status] = statuses.get(status, 0) + 1
    print(f"{count} closures, {wrong} answered in two ways; {some} had something added; by status", dict(sorted(statuses.items())))
    return wrong != 0


if __name__ == "__main__":
    sys.exit(main())
