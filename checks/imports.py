#!/usr/bin/env python3
"""Compares owl with a closure of its own, on random documents that import each other.

imports.py [COUNT [SEED [PROGRAM]]]: so many calls, 2000 if left out, each of one to
six documents, some of them wrong or lost. The program, bin/owl if left out, has to
end with the status and the line that are worked out here, and where it translates,
with the text that the second writer makes of the main document.
"""

import os
import random
import subprocess
import sys
import tempfile

import second_writer

TOP = os.path.dirname(os.path.dirname(os.path.abspath(__file__)))
PROGRAM = os.path.abspath(sys.argv[3]) if len(sys.argv) > 3 else os.path.join(TOP, "bin", "owl")
IRIS = [f"http://e/{letter}" for letter in "abcdef"]


class Document:
    def __init__(self, name):
        self.name = name
        self.names = random.sample(IRIS, random.choice([0, 1, 1, 1, 2]))
        self.imports = random.choices(IRIS, k=random.choice([0, 0, 1, 1, 2, 3]))
        self.state = random.choice(["reads"] * 12 + ["wrong", "lost"])

    def text(self):
        parts = [f"<{iri}>" for iri in self.names] + [f"Import(<{iri}>)" for iri in self.imports]
        return "Ontology(" + " ".join(parts) + ("" if self.state == "wrong" else ")")

    def write(self):
        if os.path.exists(self.name):
            os.remove(self.name)
        if self.state != "lost":
            with open(self.name, "w") as file:
                file.write(self.text())


def reached(documents):
    """The documents that the first one reaches, in their order, and whom each import names."""
    names = lambda iri: next((it for it in documents if iri in it.names), None)
    found, todo = [], [documents[0]]
    while todo:
        document = todo.pop()
        if document not in found:
            found.append(document)
            todo += [names(iri) for iri in document.imports if names(iri)]
    return [it for it in documents if it in found], names


def wanted(documents, partial):
    """The status, and the line of the note where it is no success."""
    for it in documents:
        if it.state == "lost":
            return 6, f"read: {it.name}"
        if it.state == "wrong":
            end = len(it.text())
            items = end if it.names or it.imports else 9
            return 3, f"{it.name}: item at {items}: NotHere at {end}"
    found, names = reached(documents)
    for it in found:
        missing = sorted(iri for iri in it.imports if not names(iri))
        if missing and not partial:
            return 3, f"{it.name}: MissingImport <{missing[0]}>"
    return 0, None


def agrees():
    documents = [Document(f"{letter}.ofn") for letter in "mnopqr"[: random.randint(1, 6)]]
    for it in documents:
        it.write()
    partial = random.random() < 0.2
    words = random.choice([["translate", "--to", "fss"], ["show"]]) + ["--partial"] * partial + [it.name for it in documents]
    done = subprocess.run([PROGRAM, *words], capture_output=True, text=True)
    status, line = wanted(documents, partial)
    right = done.returncode == status and (line is None or done.stderr == line + "\n") and (status == 0 or not done.stdout)
    if right and status == 0 and words[0] == "translate":
        right = done.stdout == second_writer.text_of(documents[0].text())
    if not right:
        print(words, [it.text() for it in documents], f"\n  wanted: {status} {line}\n  owl:    {done.returncode} {done.stderr}")
    return right, status


def main():
    count = int(sys.argv[1]) if len(sys.argv) > 1 else 2000
    random.seed(int(sys.argv[2]) if len(sys.argv) > 2 else 1)
    wrong, statuses = 0, {}
    with tempfile.TemporaryDirectory() as room:
        os.chdir(room)
        for _ in range(count):
            right, status = agrees()
            wrong += not right
            statuses[status] = statuses.get(status, 0) + 1
    print(f"{count} calls, {wrong} answered in two ways; by status", dict(sorted(statuses.items())))
    return wrong != 0


if __name__ == "__main__":
    sys.exit(main())
