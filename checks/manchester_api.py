#!/usr/bin/env python3
"""Compares the reading of Manchester Syntax with the OWL API, which has to be there (Debian's libowlapi-java).

manchester_api.py [TARBALL [PROGRAM]]: the tarball is the source of the OWL API (owl_suite.py says
where it is from), and the program bin/owl if left out; `second` in its place is the second reader.

1. The documents in Manchester Syntax among what the OWL API is tested with, each with what is told of
   it. The OWL API has to read what is read, and the program doesn't read some that it reads.
2. All that the OWL API is tested with, as it writes it in Manchester Syntax and in Functional-Style
   Syntax: both have to say the same.
3. The rows of the topics `manchester` and `manchester_forms` that read: where the OWL API reads the
   document too, it has to say the same as what the OWL API writes of it.

Documents that are refused, and that differ, are counted by why. KNOWN are the reasons; others make
the status 1.
"""

import collections
import os
import pathlib
import re
import subprocess
import sys
import tarfile
import tempfile

import owl_api
import owl_suite
import second_manchester
from second_writer import FIXED

MANCHESTER = re.compile(rb"^\s*(Prefix|Ontology):\s", re.MULTILINE)
ROWS = ("manchester", "manchester_forms")

# Why a document isn't read: what is told, what stands in its item up to the place and behind it, and the reason
REFUSED = [
    ("NotHere", r"[\s\S]*", r"Rule:", "rules of SWRL, which are no part of OWL 2"),
    ("NotHere", r"[\s\S]*[0-9]", r"f\b", "a floating literal with the letter f (Manchester Syntax, 2.1)"),
    ("BadToken", r"[\s\S]*", r"-INFf", "a floating literal with the letter f (Manchester Syntax, 2.1)"),
    ("NotHere", r"HasKey:[\s\S]*", r",", "commas between the properties of a key, which has none (2.5)"),
    ("NotHere", r"ObjectProperty:\s*", r"inverse\b", "a frame of an inverse, which has a name (2.5)"),
    ("NotHere", r"[\s\S]*", r"<", "a name that is no IRI"),
    ("TwoKinds", None, None, "a name with two kinds of properties, or of a class and a datatype (Structural Specification, 5.8.1)"),
    ("Untyped", None, None, "a name that has no kind in the document or what it imports"),
    ("NotHere", r"[\s\S]*DisjointUnion\([\s\S]*", r"\)", "a disjoint union of one class in Functional-Style Syntax"),
    ("BadLiteral", r"[\s\S]*", r"\S*PlainLiteral", "a form of rdf:PlainLiteral without an @ in Functional-Style Syntax"),
    ("PrefixTwice", None, None, "a prefix that is declared twice (2.1)"),
    ("UnknownPrefix", None, None, "a prefix that is declared nowhere (2.1)"),
]

# Why two documents differ: where lines of the one are not of the other, what these are, and the reason
PREFIX = re.compile(r"^Prefix\((\S*):=<(.*)>\)$", re.MULTILINE)
NAME = re.compile(r'''"(?:[^"\\]|\\.)*"|<[^<>]*>|([\w.-]*):([\w-]+)''')
FILLERS = re.compile(r"(Cardinality\(\d+ (?:ObjectInverseOf\([^()]*\)|[^() ]+)) (?:owl:Thing|rdfs:Literal)\)")
DIFFERENT = [
    ("", r"AnnotationAssertion\(", "an assertion about what has no frame is not written"),
    ("", r"SubClassOf\((Annotation\(.*\) )?(Object|Data)", "a subclass that is no name is not written"),
    ("", r"(Equivalent|Disjoint)Classes\((Annotation\(.*\) )?(Object|Data)", "an equivalence without a name is not written"),
    ("", r"Declaration\(Annotation\(", "annotations of declarations are not written"),
    ("", r"[A-Za-z]+\(Annotation\(", "annotations of some axioms are not written"),
    (r"[A-Za-z]+\(", r"", "annotations of some axioms are not written"),
]

# The same of rows: what is told of a document, and what the OWL API says in its place
OF_ROWS = [
    (r"_:", r"_:genid", "anonymous individuals get other labels"),
    (r"(<\S+>) \1\)", r"", "a set of one member is taken for none, or for the member"),
    (r'"@[a-z-]*[A-Z]', r'"@[a-z-]+', "tags are written in small letters"),
    (r'"[+0-9-]+"\^\^xsd:integer', r'"-?[0-9]+"\^\^', "numbers lose their signs and zeros, and large ones their datatype"),
    (r'"a"\)', r"langString", "a plain literal without a tag gets another datatype"),
    (r"xsd:integer", r"<http://e/integer>", "the word of a datatype names something else in a frame"),
]


def run_java(room, lines):
    """What the OWL API answers to each line."""
    subprocess.run(["javac", "-d", room, "-cp", owl_api.JARS, os.path.join(owl_suite.TOP, "checks", "OwlApiManchester.java")], check=True)
    words = ["java", *owl_api.NO_NETWORK, "-cp", owl_api.JARS, "OwlApiManchester"]
    done = subprocess.run(words, input="".join(lines).encode(), stdout=subprocess.PIPE, stderr=subprocess.DEVNULL, check=True)
    return done.stdout.decode().splitlines()


class Program:
    def __init__(self, name):
        self.name = None if name == "second" else os.path.abspath(name)

    def answer(self, words, names):
        """The status, the output and the line."""
        if self.name:
            done = subprocess.run([self.name, *words, *names], capture_output=True)
            return done.returncode, done.stdout.decode(), done.stderr.decode().removesuffix("\n")
        return second_manchester.outcome(words, [(name, pathlib.Path(name).read_bytes()) for name in names])

    def lines(self, name):
        """The lines of a document in Functional-Style Syntax, names in full, and cardinalities of everything without a filler."""
        _, output, _ = self.answer(["translate", "--to", "fss", "--partial"], [name])
        prefixes = dict(PREFIX.findall(output))
        full = lambda it: it[0] if it[0][0] in '"<' or it[1] not in prefixes or it[1] in FIXED else f"<{prefixes[it[1]]}{it[2]}>"
        return {FILLERS.sub(r"\1)", NAME.sub(full, line)) for line in output.splitlines() if not line.startswith("Prefix(")}


def why_refused(line, text):
    told = re.fullmatch(r"\S+: (?:item at (\d+): )?(\w+).*?(?: at (\d+))?", line)
    item, reason, at = told.groups() if told else (None, line, None)
    for known, front, back, why in REFUSED:
        if known == reason and (front is None or re.fullmatch(front, text[int(item) : int(at)]) and re.match(back, text[int(at) :])):
            return why
    return f"not known: {line}"


def why_different(program, own, other, table):
    """Each reason for lines that only one of two documents has."""
    ours, theirs = program.lines(own), program.lines(other)
    only_ours, only_theirs = ours - theirs, theirs - ours
    if not only_ours and not only_theirs:
        return {"cardinalities without a filler are written with owl:Thing or rdfs:Literal"}
    found = {why for left, right, why in table if has(left, only_ours) and has(right, only_theirs)}
    return found or {f"not known: {sorted(only_ours)[:2]} {sorted(only_theirs)[:2]}"}


def has(pattern, lines):
    return not pattern or any(re.search(pattern, line) for line in lines)


class Tally:
    def __init__(self):
        self.counts = collections.Counter()

    def add(self, kind, reasons=("",)):
        for why in reasons:
            self.counts[kind, why] += 1

    def text(self, title):
        lines = [f"{title}:"] + [f"{number:5} {kind}" + f": {why}" * bool(why) for (kind, why), number in sorted(self.counts.items())]
        return "\n".join(lines)

    def is_wrong(self):
        return any(why.startswith("not known") for _, why in self.counts)


def resources(place):
    """Paths and bytes of all that the OWL API is tested with."""
    with tarfile.open(place) as tarball:
        for member in tarball:
            if member.isfile() and owl_api.RESOURCES.fullmatch(member.name):
                yield member.name.split("/resources/", 1)[1], tarball.extractfile(member).read()


def list_documents(program, place):
    """The documents in Manchester Syntax, each with what it imports of the others."""
    found, tally = {}, Tally()
    for path, text in resources(place):
        if path.endswith(".omn") or MANCHESTER.match(text) and b"Ontology:" in text:
            name = re.sub(r"\.\w+$", "", path.replace("/", "_")) + ".omn"
            pathlib.Path(name).write_bytes(text)
            found[name] = path, text.decode()
    answers = dict(zip(found, run_java(".", [f"read {name}\n" for name in found])))
    for name, (path, text) in found.items():
        others = [it for it, (_, other) in found.items() for iri in re.findall(r"Ontology: (<\S+>)", other) if it != name and f"Import: {iri}" in text]
        status, output, line = program.answer(["show"], [name, *others])
        reason = "reads" if status == 0 else why_refused(line, text)
        api = answers[name].split()[0].replace("done", "reads").replace("unread", "does not read")
        print(f"{path}: {reason}; the OWL API {api} it")
        tally.add("read" if status == 0 else "not read", [""] if status == 0 else [reason])
    return tally


def compare_written(program, place):
    tally, names = Tally(), []
    for name, text in owl_api.resources(place):
        pathlib.Path(name).write_bytes(text)
        names.append(name)
    for name, answer in zip(names, run_java(".", [f"write {name}\n" for name in names])):
        if answer != "done":
            tally.add("not read by the OWL API")
            continue
        own, other = name + ".omn", name + ".ofn"
        status, _, line = program.answer(["show", "--partial"], [own])
        if status != 0:
            tally.add("not read", [why_refused(line, pathlib.Path(own).read_text("utf-8"))])
            continue
        status, output, line = program.answer(["same"], [own, other])
        if status > 1:
            tally.add("not read in Functional-Style Syntax", [re.sub(r"\S+: (?:item at \d+: )?(\w+).*", r"\1", line)])
        elif status == 1:
            tally.add("different", why_different(program, own, other, DIFFERENT))
        else:
            tally.add("the same")
    return tally


def rows():
    """The name and the document of each row that is translated, where it is one of text alone."""
    for topic in ROWS:
        path = os.path.join(owl_suite.TOP, "crates", "owl_rows", "data", topic, "rows")
        for block in pathlib.Path(path).read_text("utf-8").split("\nrow ")[1:]:
            front = re.search(r"document m.omn\n((?:[=|] ?.*\n)+)output\n", block)
            if front and "\nstatus 0\n" in block and "\nwords translate --to fss " in block:
                text = re.sub(r"(?m)^= ?(.*)\n", r"\1", re.sub(r"(?m)^\| ?(.*\n)", r"\1", front[1]))
                yield f"{topic}-{block.splitlines()[0]}.omn", text


def compare_rows(program):
    tally, names = Tally(), []
    for name, text in rows():
        pathlib.Path(name).write_bytes(text.encode())
        names.append(name)
    for name, answer in zip(names, run_java(".", [f"read {name}\n" for name in names])):
        if answer != "done":
            tally.add("not read by the OWL API")
            continue
        status, _, line = program.answer(["same"], [name, name + ".ofn"])
        if status > 1:
            tally.add("not read", [f"not known: {line}"])
        elif status == 1:
            tally.add("different", why_different(program, name, name + ".ofn", OF_ROWS))
        else:
            tally.add("the same")
    return tally


def main():
    defaults = ["owlapi_5.1.20.orig.tar.gz", os.path.join(owl_suite.TOP, "bin", "owl")]
    place, program = sys.argv[1:] + defaults[len(sys.argv) - 1 :]
    place, program = os.path.abspath(place), Program(program)
    with tempfile.TemporaryDirectory() as room:
        os.chdir(room)
        tallies = {
            "documents in Manchester Syntax": list_documents(program, place),
            "all documents, as the OWL API writes them": compare_written(program, place),
            "rows that read": compare_rows(program),
        }
    for title, tally in tallies.items():
        print(tally.text(title))
    return any(it.is_wrong() for it in tallies.values())


if __name__ == "__main__":
    sys.exit(main())
