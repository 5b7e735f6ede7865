#!/usr/bin/env python3
"""Compares Turtle with brackets and collections with Turtle without, as other programs read both.

nested.py [PROGRAM]: the ontologies of examples/, of checks/real and of the rows of `owl_rows`
that are translated or declared, to whatever target, are written in Turtle with `--nest` and
without it, by the program, bin/owl if left out. Both calls have to end with one status and one
line. serdi and rapper (Debian's packages serdi and raptor2-utils), where they are there, have
to read the two texts to the same graph, up to the labels of blank nodes. Each line of a
text without `--nest` that has no bracket in it with `--nest` has to stand there too. The last
line counts the texts.
"""

import glob
import os
import re
import shutil
import subprocess
import sys
import tempfile

import turtle_suite
from second_canon import rows_of

TOP = os.path.dirname(os.path.dirname(os.path.abspath(__file__)))
READERS = {
    "serdi": ["serdi", "-q", "-i", "turtle", "-o", "ntriples"],
    "rapper": ["rapper", "-q", "-i", "turtle", "-o", "ntriples"],
}
# Graphs with at most so many blank nodes are compared label by label, and larger ones by what
# stands around each node.
MOST_NODES = 40


def documents_of_rows():
    """The words and the documents of rows that are translated or declared, to Turtle."""
    seen = set()
    for path in sorted(glob.glob(os.path.join(TOP, "crates/owl_rows/data/*/rows"))):
        for name, said, texts in rows_of(path):
            words = re.fullmatch(r"(translate|declare) --to (?:fss|ttl|omn)(?: --nest)?( .*)", said.get("words", ""))
            documents = tuple(sorted((it, text) for it, text in texts.items() if it != "output"))
            if words and said["status"] in "04" and (words.groups(), documents) not in seen:
                seen.add((words.groups(), documents))
                yield f"{os.path.basename(os.path.dirname(path))}/{name}", words[1], words[2].split(), dict(documents)


def documents_of_files():
    """The same for files, which may import what isn't there."""
    for path in sorted(glob.glob(os.path.join(TOP, "examples/*"))) + sorted(glob.glob(os.path.join(TOP, "checks/real/**/*.ttl"), recursive=True)):
        name = "m." + path.rsplit(".", 1)[1]
        with open(path, "rb") as file:
            text = file.read()
        yield os.path.relpath(path, TOP), "declare", ["--partial", "--guess", "--base", "http://example.org/m", name], {name: text}


def coloured(graph):
    """The triples with a colour in place of each blank node, which tells what stands around it."""
    colours, count = {term[1]: 0 for triple in graph for term in triple if term[0] == "blank"}, 0
    while len(set(colours.values())) > count or count == 0:
        count = len(set(colours.values()))
        around = {node: [] for node in colours}
        triples = [tuple(("blank", colours[term[1]]) if term[0] == "blank" else term for term in triple) for triple in graph]
        for triple, shown in zip(graph, triples):
            for place, term in enumerate(triple):
                if term[0] == "blank":
                    around[term[1]].append((place, shown))
        if not colours:
            break
        colours = {node: hash((colours[node], tuple(sorted(map(repr, seen))))) for node, seen in around.items()}
    return sorted(repr(tuple(("blank", colours[term[1]]) if term[0] == "blank" else term for term in triple)) for triple in graph)


def are_same(one, other):
    nodes = {term for triple in one for term in triple if term[0] == "blank"}
    if len(nodes) <= MOST_NODES:
        return turtle_suite.are_same(one, other)
    return coloured(one) == coloured(other)


def graph_of(reader, name):
    """The graph of a file as a program reads it. None where it doesn't."""
    done = subprocess.run([*READERS[reader], name, *(["http://example.org/"] if reader == "rapper" else [])], capture_output=True)
    if done.returncode != 0 or done.stderr:
        return None
    try:
        return turtle_suite.graph_of(done.stdout.decode())
    except (ValueError, KeyError):
        return None


def fault_of(program, readers, command, words, documents, counts):
    """What is not as it has to be, or nothing."""
    for name, text in documents.items():
        with open(name, "wb") as file:
            file.write(text)
    flat, nested = (
        subprocess.run([program, command, "--to", "ttl", *nest, *words], capture_output=True, stdin=subprocess.DEVNULL) for nest in ([], ["--nest"])
    )
    if (flat.returncode, flat.stderr) != (nested.returncode, nested.stderr):
        return f"{flat.stderr!r} without --nest, and {nested.stderr!r} with it"
    if flat.returncode != 0:
        return "" if not nested.stdout else "a refusal has an output"
    counts["texts"] += 1
    counts["shorter"] += nested.stdout.count(b"\n") < flat.stdout.count(b"\n")
    lines = {it for it in nested.stdout.split(b" .\n") if not re.search(rb" [\[(] ", it)}
    if not lines <= {*flat.stdout.split(b" .\n")}:
        return "a line without a bracket is another one"
    for name, done in ("flat.ttl", flat), ("nested.ttl", nested):
        with open(name, "wb") as file:
            file.write(done.stdout)
    for reader in readers:
        graph = graph_of(reader, "flat.ttl")
        counts[reader] += graph is not None
        if graph is not None and not are_same(graph, graph_of(reader, "nested.ttl") or set()):
            return f"{reader} reads two graphs"
    return ""


def main():
    program = os.path.abspath(sys.argv[1]) if len(sys.argv) > 1 else os.path.join(TOP, "bin", "owl")
    readers = [it for it in READERS if shutil.which(it)]
    counts, failed = dict.fromkeys(["texts", "shorter", *readers], 0), 0
    with tempfile.TemporaryDirectory() as room:
        os.chdir(room)
        for what, command, words, documents in [*documents_of_files(), *documents_of_rows()]:
            fault = fault_of(program, readers, command, words, documents, counts)
            if fault:
                failed += 1
                print(f"nested: {what}: {fault}")
    print(f"{counts['texts']} texts, of which {counts['shorter']} have fewer lines with --nest", *(f"; {it} reads {counts[it]}" for it in readers), sep="")
    print(f"{counts['texts']} passed, {failed} failed")
    return failed != 0


if __name__ == "__main__":
    sys.exit(main())
