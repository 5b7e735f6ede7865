#!/usr/bin/env python3
"""Runs the W3C's test suite of Turtle, which stands unchanged in checks/w3c-turtle.

turtle_suite.py PROGRAM: the program copies a document of Turtle from its input to its
output, a triple a line, or refuses it with the status 1 and a line on its standard
error. A document is fed behind a line that declares the base that the suite gives it.

A syntax test reads or is refused, as the manifest says, and an evaluation test has the
triples of its result, up to the labels of blank nodes. The last line counts the tests.
"""

import os
import re
import subprocess
import sys

SUITE = os.path.join(os.path.dirname(os.path.abspath(__file__)), "w3c-turtle")
BASE = "http://www.w3.org/2013/TurtleTests/"
XSD = "http://www.w3.org/2001/XMLSchema#"

TEST = re.compile(
    r'<#(?P<name>[^>]+)>\s+rdf:type rdft:Test(?P<kind>\w+) ;.*?mf:action\s+<(?P<action>[^>]+)>(?:\s*;\s*mf:result\s+<(?P<result>[^>]+)>)?',
    re.DOTALL,
)
IRI = r"<[^>]*>|[^\s<>\"@]*:[^\s<>\"@]*"
TERM = rf'_:\S+|{IRI}|"(?:[^"\\]|\\.)*"(?:@[A-Za-z0-9-]+|\^\^(?:{IRI}))?'
PREFIX = re.compile(r"@prefix (\S*): <([^>]*)> \.")
TRIPLE = re.compile(rf"\s*({TERM})\s+({TERM})\s+({TERM})\s*\.\s*")
LITERAL = re.compile(r'"((?:[^"\\]|\\.)*)"(?:@(.+)|\^\^(.+))?')
ESCAPE = re.compile(r"\\(?:u([0-9A-Fa-f]{4})|U([0-9A-Fa-f]{8})|(.))")
SHORT = {"t": "\t", "b": "\b", "n": "\n", "r": "\r", "f": "\f"}
REFUSED = re.compile(r"Error: (?:\w+ at byte \d+, in the item at byte \d+|too deep)\n")


def unescaped(text):
    def character(match):
        digits = match[1] or match[2]
        return chr(int(digits, 16)) if digits else SHORT.get(match[3], match[3])

    return ESCAPE.sub(character, text)


def iri_of(text, prefixes):
    if text.startswith("<"):
        return unescaped(text[1:-1])
    prefix, local = text.split(":", 1)
    return prefixes[prefix] + local


def term_of(text, prefixes):
    if text.startswith("_:"):
        return "blank", text[2:]
    if not text.startswith('"'):
        return "iri", iri_of(text, prefixes)
    form, tag, datatype = LITERAL.fullmatch(text).groups()
    datatype = iri_of(datatype, prefixes) if datatype else XSD + "string"
    return "literal", unescaped(form), tag.lower() if tag else datatype


def graph_of(text):
    """The triples of lines with one each, of N-Triples or as the program writes them."""
    prefixes, graph = {}, set()
    for line in text.split("\n"):
        declared = PREFIX.fullmatch(line)
        if declared:
            prefixes[declared[1]] = declared[2]
        elif line.strip() and not line.startswith("#"):
            triple = TRIPLE.fullmatch(line)
            if not triple:
                raise ValueError(f"no triple: {line}")
            graph.add(tuple(term_of(term, prefixes) for term in triple.groups()))
    return graph


def colours_of(graph):
    """A colour for each blank node that its label has no part in."""
    nodes = {term[1] for triple in graph for term in triple if term[0] == "blank"}
    colours = dict.fromkeys(nodes, 0)
    for _ in nodes:
        seen = {node: [] for node in nodes}
        for triple in graph:
            coloured = [("blank", colours[term[1]]) if term[0] == "blank" else term for term in triple]
            for place, term in enumerate(triple):
                if term[0] == "blank":
                    seen[term[1]].append(repr((place, coloured)))
        colours = {node: hash(tuple(sorted(seen[node]))) for node in nodes}
    return colours


def renamed(graph, names):
    return {tuple(("blank", names[term[1]]) if term[0] == "blank" else term for term in triple) for triple in graph}


def are_same(one, other):
    """Whether the graphs are the same up to the labels of blank nodes."""
    ones, others = colours_of(one), colours_of(other)

    def goes_on(names, left):
        if not left:
            return renamed(one, names) == other
        node, *rest = left
        free = [name for name in others if others[name] == ones[node] and name not in names.values()]
        return any(goes_on({**names, node: name}, rest) for name in free)

    return len(ones) == len(others) and goes_on({}, list(ones))


def copy(program, name):
    with open(os.path.join(SUITE, name), "rb") as file:
        document = f"@base <{BASE}{name}> .\n".encode() + file.read()
    return subprocess.run([program], input=document, capture_output=True, timeout=60)


def fault_of(program, kind, action, result):
    """What is not as the manifest says, or nothing."""
    done = copy(program, action)
    if done.returncode == 1 and not done.stdout and REFUSED.fullmatch(done.stderr.decode()):
        return "" if "Negative" in kind else "refused: " + done.stderr.decode().strip()
    if done.returncode != 0 or done.stderr:
        return f"status {done.returncode}, {done.stderr}"
    if "Negative" in kind:
        return "it reads"
    try:
        graph = graph_of(done.stdout.decode())
    except (ValueError, KeyError) as error:
        return f"an output that can't be read: {error}"
    if not result:
        return ""
    with open(os.path.join(SUITE, result), encoding="utf-8", newline="\n") as file:
        wanted = graph_of(file.read())
    return "" if are_same(graph, wanted) else f"other triples: {sorted(graph)}, and not {sorted(wanted)}"


def main():
    program = os.path.abspath(sys.argv[1])
    with open(os.path.join(SUITE, "manifest.ttl"), encoding="utf-8") as file:
        manifest = file.read()
    tests = list(TEST.finditer(manifest))
    failed = manifest.count("rdf:type rdft:Test") - len(tests)
    passed = 0
    for test in tests:
        fault = fault_of(program, test["kind"], test["action"], test["result"])
        if fault:
            failed += 1
            print(f"turtle: {test['name']}: {fault}")
        else:
            passed += 1
    print(f"{passed} passed, {failed} failed")
    return failed != 0


if __name__ == "__main__":
    sys.exit(main())
