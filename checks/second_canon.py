#!/usr/bin/env python3
"""A second writer and reader of canonical bytes, to compare owl with.

second_canon.py NAME           writes the bytes that `owl canon NAME` has to write
second_canon.py --digest NAME  writes the line that `owl digest NAME` has to write
second_canon.py --parts NAME   writes the bytes as parts of a row, as rows of `canon` have them
second_canon.py --check FILE.. says which rows of these files expect other bytes, or another digest

A document is one in Functional-Style Syntax that reads, or in canonical bytes, by its
suffix; imports are not looked at. The trees are those of the second writer. It shares
no code or table with owl.
"""

import hashlib
import os
import re
import sys

from second_writer import ENTITIES, NAMES, PARTS, RDF, TAGS, Trees, in_order

MARK = b"OWL2C1\n"
DEEPEST, HEAVIEST = 128, 2**24
ATOMS = [*ENTITIES, "Anonymous", "PlainIri", "Literal", "Number", "Facet"]
ANONYMOUS, LITERAL, NUMBER = 7, 9, 10


# Writing


def number(value):
    return value.to_bytes(8, "big")


def text(encoded):
    return number(len(encoded)) + encoded


def optional(encoded):
    return b"\0" if encoded is None else b"\1" + text(encoded)


def counted(trees):
    return number(len(trees)) + b"".join(map(tree_bytes, trees))


def atom_bytes(tag, atom):
    if tag == LITERAL:
        form, datatype, (is_tagged, language) = atom
        return text(form) + text(datatype) + optional(language if is_tagged else None)
    return number(atom) if tag == NUMBER else text(atom)


def tree_bytes(tree):
    tag, inside = tree
    return bytes([tag]) + (counted(inside) if isinstance(inside, list) else atom_bytes(tag, inside))


def canonical_bytes(names, imports, annotations, axioms):
    """The bytes of an ontology, all of which stands in order."""
    iri, version = [it.encode() for it in names] + [None] * (2 - len(names))
    head = MARK + optional(iri) + optional(version) + number(len(imports)) + b"".join(map(text, imports))
    return head + counted(annotations) + counted(axioms)


def bytes_of(document):
    """The bytes of a document in Functional-Style Syntax."""
    return canonical_bytes(*Trees(document).document())


def digest_line(encoded):
    return hashlib.sha256(encoded).hexdigest() + "\n"


# Reading


class NotCanon(Exception):
    pass


BASE = (
    "A-Za-z\u00c0-\u00d6\u00d8-\u00f6\u00f8-\u02ff\u0370-\u037d\u037f-\u1fff\u200c-\u200d\u2070-\u218f"
    "\u2c00-\u2fef\u3001-\ud7ff\uf900-\ufdcf\ufdf0-\ufffd\U00010000-\U000effff"
)
LABEL = re.compile(rf"[{BASE}_0-9](?:[{BASE}_0-9.\u00b7\u0300-\u036f\u203f-\u2040-]*[{BASE}_0-9\u00b7\u0300-\u036f\u203f-\u2040-])?")
IRI = re.compile(r'[A-Za-z][A-Za-z0-9+.-]*:[^\x00-\x20<>"{}|^`\\]*')
LANGUAGE = re.compile(r"[A-Za-z]+(?:-[A-Za-z0-9]+)*")
PLAIN, NO_DATATYPES = (RDF + "PlainLiteral").encode(), [(RDF + it).encode() for it in ("PlainLiteral", "langString")]

# The tags of each letter in the second writer's table.
SORTS = {
    "c": {1, *range(14, 31)},
    "d": {2, *range(31, 36)},
    "p": {3, 12},
    "q": {4},
    "a": {5},
    "i": {6, 7},
    "s": {7, 8},
    "v": {7, 8, 9},
    "l": {9},
    "n": {10},
    "f": {36},
    "r": {8},
    "C": {1},
    "D": {2},
    "P": {3},
    "e": {1, 2, 3, 4, 5, 6},
    "h": {3, 12, 13},
    "N": {40},
    "x": {39},
    "y": {11},
    "k": {37},
    "m": {38},
}
SHAPES = {**PARTS, "FacetPair": "yl", "ObjectKeys": "{p}0", "DataKeys": "{q}0", "Notes": "{x}0", "HasKey": "Nckm"}
AXIOMS = set(range(TAGS["Declaration"], TAGS["AnnotationPropertyRange"] + 1))


def parts_of(name):
    """The parts of a node: the tags of each, whether it is a set, and how many there may be."""
    for brace, sort, mark in re.findall(r"(\{?)(\w)(\}[01]?|\*|\?)?", SHAPES[name]):
        least = 0 if mark in ("}0", "?") else 1
        most = 2 if name == "InverseObjectProperties" and brace else 1 if mark in ("", "?") else None
        yield SORTS[sort], bool(brace), least, most


def is_shaped(tag, kids):
    """Whether a node of this tag may have these kids, and its set stands in order."""
    shape, at = [*parts_of(NAMES[tag])], 0
    for place, (tags, is_set, least, most) in enumerate(shape):
        behind = sum(it[2] for it in shape[place + 1 :])
        start = at
        while at < len(kids) - behind and kids[at][0] in tags and (most is None or at - start < most):
            at += 1
        if at - start < least or is_set and in_order(kids[start:at]) != kids[start:at]:
            return False
    return at == len(kids) and (NAMES[tag] != "HasKey" or bool(kids[2][1] or kids[3][1]))


def weight(tree):
    return 1 + (sum(map(weight, tree[1])) if isinstance(tree[1], list) else 0)


class Reader:
    def __init__(self, encoded):
        self.rest, self.at = encoded, 0

    def ask(self, holds):
        if not holds:
            raise NotCanon

    def take(self, count):
        self.ask(count <= len(self.rest) - self.at)
        self.at += count
        return self.rest[self.at - count : self.at]

    def number(self):
        return int.from_bytes(self.take(8), "big")

    def text(self, form=None):
        encoded = self.take(self.number())
        try:
            characters = encoded.decode()
        except UnicodeDecodeError:
            raise NotCanon from None
        self.ask(form is None or form.fullmatch(characters))
        return encoded

    def optional(self, form):
        mark = self.take(1)[0]
        self.ask(mark < 2)
        return self.text(form) if mark else None

    def literal(self):
        form, datatype, language = self.text(), self.text(IRI), self.optional(LANGUAGE)
        self.ask(datatype not in NO_DATATYPES if language is None else datatype == PLAIN)
        return form, datatype, (language is not None, language or b"")

    def trees(self, levels):
        found, count = [], self.number()
        while len(found) < count:
            found.append(self.tree(levels))
        return found

    def tree(self, levels):
        tag = self.take(1)[0]
        self.ask(levels > 0 and 1 <= tag <= max(AXIOMS))
        if tag == LITERAL:
            return tag, self.literal()
        if tag == NUMBER:
            return tag, self.number()
        if tag <= len(ATOMS):
            return tag, self.text(LABEL if tag == ANONYMOUS else IRI)
        kids = self.trees(levels - 1)
        self.ask(is_shaped(tag, kids))
        return tag, kids

    def document(self):
        self.ask(self.take(len(MARK)) == MARK)
        iri, version = self.optional(IRI), self.optional(IRI)
        self.ask(version is None or iri is not None)
        imports, count = [], self.number()
        while len(imports) < count:
            imports.append(self.text(IRI))
        annotations, axioms = self.trees(DEEPEST), self.trees(DEEPEST)
        self.ask(self.at == len(self.rest))
        self.ask(all(it == in_order(it) for it in (imports, annotations, axioms)))
        self.ask({it[0] for it in annotations} <= SORTS["x"] and {it[0] for it in axioms} <= AXIOMS)
        self.ask(sum(map(weight, annotations + axioms)) <= HEAVIEST)
        return [it.decode() for it in (iri, version) if it is not None], imports, annotations, axioms


def read(encoded):
    """The ontology with these canonical bytes, as `Trees.document` gives it. `NotCanon` where there is none."""
    return Reader(encoded).document()


# Rows


def parts(names, imports, annotations, axioms):
    """The bytes as parts of a row, a line for each."""
    yield "| OWL2C1"
    iri, version = [it.encode() for it in names] + [None] * (2 - len(names))
    yield from optional_parts(iri)
    yield from optional_parts(version)
    yield number_part(len(imports))
    for it in imports:
        yield from text_parts(it)
    yield from counted_parts(annotations)
    yield from counted_parts(axioms)


def number_part(value):
    return f"< number_{value}"


def text_parts(encoded):
    yield number_part(len(encoded))
    *lines, last = encoded.decode().split("\n")
    yield from (f"| {it}" if it else "|" for it in lines)
    if last:
        yield f"= {last}"


def optional_parts(encoded):
    if encoded is None:
        yield "< none"
    else:
        yield "< some"
        yield from text_parts(encoded)


def counted_parts(trees):
    yield number_part(len(trees))
    for it in trees:
        yield from tree_parts(it)


def tree_parts(tree):
    tag, inside = tree
    yield f"< {(ATOMS + [*TAGS])[tag - 1]}"
    if isinstance(inside, list):
        yield from counted_parts(inside)
    elif tag == LITERAL:
        yield from text_parts(inside[0])
        yield from text_parts(inside[1])
        yield from optional_parts(inside[2][1] if inside[2][0] else None)
    elif tag == NUMBER:
        yield number_part(inside)
    else:
        yield from text_parts(inside)


def rows_of(path):
    """The rows of a file: the name, what the lines without a text say, and the texts of the documents and the output."""
    for block in ("\n" + open(path, encoding="utf-8").read()).split("\nrow ")[1:]:
        name, *lines = block.split("\n")
        said, texts, into = {}, {}, None
        for line in filter(lambda it: it and not it.startswith("#"), lines):
            word, _, rest = line.partition(" ")
            if word in ("document", "output"):
                into = rest if word == "document" else word
                texts[into] = b""
            elif word == "<":
                with open(os.path.join(os.path.dirname(path), rest), "rb") as file:
                    texts[into] += file.read()
            elif word == "*":
                count, _, part = rest.partition(" ")
                texts[into] += part.encode() * int(count)
            elif word in ("=", "|"):
                texts[into] += rest.encode() + b"\n" * (word == "|")
            else:
                said[word] = rest
        yield name, said, texts


def ontology_in(name, document):
    """The ontology of a document, which `name` tells the syntax of. None of one in another syntax."""
    if name.endswith(".ofn"):
        return Trees(document.decode()).document()
    return read(document) if name.endswith(".owc") else None


def is_as_said(said, texts):
    """Whether a row expects what is found here. Of rows that ask for something else, nothing is."""
    command, *words = said.get("words", "").split() or [""]
    names = [it for it in words if it in texts]
    refused, _, reason = said.get("line", "").partition(": ")
    for name in names:
        try:
            ontology = ontology_in(name, texts[name]) if name.endswith(".owc") and said["status"] in "03" else None
        except NotCanon:
            return name == refused if reason == "NotCanon" else None if said["status"] == "3" else False
    if reason == "NotCanon":
        return False
    ontology = ontology_in(names[0], texts[names[0]]) if names and command in ("canon", "digest") and said["status"] == "0" else None
    if ontology is None:
        return None
    encoded = canonical_bytes(*ontology)
    return texts["output"] == (encoded if command == "canon" else digest_line(encoded).encode())


def check(paths):
    answers = []
    for path in paths:
        for name, said, texts in rows_of(path):
            answers.append(is_as_said(said, texts))
            if answers[-1] is False:
                print(f"{path}: {name} is not as it is said here")
    print(f"{answers.count(True)} rows are as they are said here, {answers.count(False)} are not, {answers.count(None)} ask for something else")
    return False in answers


def main(words):
    if words[:1] == ["--check"]:
        return check(words[1:])
    with open(words[-1], "rb") as file:
        ontology = ontology_in(words[-1], file.read())
    if words[0] == "--parts":
        print(*parts(*ontology), sep="\n")
    elif words[0] == "--digest":
        sys.stdout.write(digest_line(canonical_bytes(*ontology)))
    else:
        sys.stdout.buffer.write(canonical_bytes(*ontology))
    return 0


if __name__ == "__main__":
    sys.exit(main(sys.argv[1:]))
