#!/usr/bin/env python3
"""Compares owl with a second reader of Turtle, on random documents.

compare_turtle.py [--count N] [--seed N] [--jobs N] [--program PATH] [--copy PATH]: so many
documents, 2000 if left out, about half of them damaged. Each is given to the program,
bin/owl if left out, which has to refuse it at the item, the place and with the reason that
the second reader tells, or to read it. What reads and states no list, and no type that is
of RDF's or OWL's own, is an ontology with a header and declarations behind it: as such it
is translated to Turtle, which has to have its triples and theirs, labels and all, and its
prefixes. With --copy, any other document that reads is given to the program crate ttl_copy,
which has to write its triples and prefixes.

--cases takes other documents, in place of random ones: each reference against each base, all
lists of up to three tokens behind a prefix, and, in each place of a token, each character at
which a class of names begins or ends and each byte that is not of ASCII.

--only N tells document N alone, and --dry works all out and runs no program. The last lines
count what came of the documents.
"""

import argparse
import collections
import functools
import itertools
import multiprocessing
import os
import random
import re
import subprocess
import sys
import tempfile

import second_turtle
from second_turtle import FIRST, RDF, TYPE, XSD

TOP = os.path.dirname(os.path.dirname(os.path.abspath(__file__)))
RDFS, OWL = "http://www.w3.org/2000/01/rdf-schema#", "http://www.w3.org/2002/07/owl#"
FIXED = {"owl": OWL, "rdf": RDF, "rdfs": RDFS, "xsd": XSD}

PREFIXES = ["", "", "", "e", "e", "a.b", "\u00e9", "x-1", "a", "true", "prefix", "base", "rdf", "xsd", "owl", "\ufefff", "z\u00b7\u0301"]
STARTS = ["a", "b", "C", "_", "1", "07", ":", "%41", "\\~", "\\.", "\\-", "\\#", "\\%", "\\/", "\u00e9", "\U00010000", "-", "."]
OTHERS = ["a", "b", "Z", "_", "-", ".", "..", ":", "9", "%C3%a9", "\\,", "\\.", "\\;", "\\@", "\\'", "\\_", "\u00b7", "\u0300", "\u203f", "\u3042"]
LABELS = ["a", "b", "c", "a.b", "a-", "1", "_", "\u00e9", "x\u00b7", "gen", "gen0", "gen1", "gen2", "gen3", "gen7", "gen03", "gen1a"]
LABELS += ["gen" + "9" * 18, "gen1" + "0" * 18, "gen1" + "0" * 17 + "2", "gen" + "9" * 19]
ABSOLUTE = ["http://e/x", "http://e/", "http://e/p#", "http://e/\u00e9", "urn:x:y", "a:", "a:b", "http://a/b/../c", "http://a?q", "x+1-2.z:/..//c"]
ABSOLUTE += ["file:///a/./b", "mailto:a@b", "http://e/#f", "A:?#", "s://", "http://[::1]/", "http://e/'()$&;=,!*~%20"]
BASES = ["http://a/b/c/d;p?q", "http://a", "http://a/", "http://a?q", "http://a/b/../c/./d?q#f", "urn:x:y", "s:", "s:/a/../b/./c", "s:a/b", "s://"]
BASES += ["file:///a/b", "http://a/b/", "http://a//b//c", "http://\u00fc/\u03b2?\u03b3#\u03b4", "s:?q", "s:#f", "s:..", "s:a/..", "http://a/b:c"]
RELATIVE = ["", "#f", "?q", "?", "#", "g", "./g", "../g", "../../../g", "/g", "//h", "//h/p/../q", "//", ".", "..", "./", "../", "g;x=1/../y", "1x:y", ":x"]
RELATIVE += ["g?y/./x", "g#s/../x", "/./g", "/../g", "g.", ".g", "..g", "g..", "a/b:c", "///", "%2e%2e/x", "\u00fc/\u03b2", "//h?q", "//?", "/..//c", "+:x"]
SEGMENTS = ["", ".", "..", "...", "a", "b;c", "\u00e9", "1x:y", "%2E", ".a"]
DATATYPES = ["integer", "string", "boolean", "decimal", "date", "anyURI"]
TAGS = ["en", "de-AT", "EN", "zh-Hant-x-1", "prefix", "base", "a"]
NUMBERS = ["0", "1", "007", "+5", "-12", "1.5", "-.5", "+0.0", "10.", ".5", "1e5", "1.e-3", "-.5E+7", "12.5e0", "+1E0"]
CHARACTERS = ["a", "B", " ", ".", "#", "<", ">", "@en", "\u00e9", "\u2028", "\U0001f600", "\ufeff", "\x00", "\x7f", "\t", "\\t", "\\b", "\\n", "\\r", "\\f"]
CHARACTERS += ['\\"', "\\'", "\\\\", "\\u0041", "\\u00e9", "\\uD7ff", "\\uE000", "\\U0001F600", "\\U0010ffff", "\\u0000", "'", '"', "\n", "\r\n", "''", '""']
BROKEN = ["\\x", "\\u12", "\\uD800", "\\udfff", "\\U00110000", "\\U0000d800", "\\U1", "\\", "\\U0011", "\\ ", "'''", '"""']
BROKEN_IRI = ["\\u0020", "\\u003C", "\\u003e", "\\u005c", "\\U0000007B", "\\uD800", "\\U00110000", "\\u0000", "\\u0060", " ", '"', "{", "\\n", "\\u1", "^", "|"]
BAD_BYTES = [b"\xff", b"\xc3", b"\xe2\x82", b"\xed\xa0\x80", b"\xc0\x80", b"\xf4\x90\x80\x80", b"\xf0\x9f\x98", b"\x80", b"\xe0\x9f\xbf", b"\xef\xbb\xbf"]
GAPS = [" ", " ", " ", "\n", "\n", "\t", "\r\n", "\r", "  ", " # a comment\n", "#\r", " #\u00e9 <\"'''\n\t", "# .\n#\n"]
SIGNS = [".", ";", ",", "[", "]", "(", ")", "^^"]
TOKENS = [*SIGNS, "a", "true", "false", "@prefix", "@base", "PREFIX", "base", "@en", "1", "1.5", '"s"', "_:q", "<http://e/z>", "<z>", "zz:b", "e:", ":a"]
TOKENS += ["@Prefix", "@prefix-x", "@", "ab", "_:", "_:.a", "+", "^", "<", "''", '"""', "True", "rdf:nil", ":a\\", "-1.", "1e", ":%4", "[]", "()", "..", "\ufeff"]
TOKENS += [":a\\u0041", "rdf:langString", "<#>", "'''x'''", '"""y"""', "_:gen9", "#", "\u00e9", "PREFIX:", "base:a", "1e1", ".5", ";;"]


class Maker:
    """Makes random documents, as lists of the spellings of tokens."""

    def __init__(self, chance):
        self.chance = chance
        self.flaw = chance.choice([0, 0, 0, 0, 0.01, 0.04])
        self.lists = chance.choice([0, 0.1, 0.2])
        self.prefixes, self.has_base = [], False

    def happens(self, odds):
        return self.chance.random() < odds

    def some(self, part, least):
        """The tokens of so many parts or a few more."""
        return [token for _ in range(least + self.chance.choice([0, 0, 1, 1, 2, 4])) for token in part()]

    # IRIs and names

    def spelled_iri(self, text):
        """An IRI between `<` and `>`, with some of its characters as escapes."""
        spelled = ""
        for it in text:
            way = self.chance.randrange(120)
            form = ["\\u{:04x}", "\\u{:04X}", "\\U{:08X}"][way] if way < 3 else "{1}"
            spelled += form.format(ord(it), it) if ord(it) < 0x10000 else it
        if self.happens(self.flaw):
            at = self.chance.randrange(len(spelled) + 1)
            spelled = spelled[:at] + self.chance.choice(BROKEN_IRI) + spelled[at:]
        return f"<{spelled}>"

    def relative(self):
        """A reference without a scheme."""
        if self.happens(0.5):
            return self.chance.choice(RELATIVE)
        segments = "/".join(self.chance.choice(SEGMENTS) for _ in range(self.chance.randrange(1, 6)))
        behind = self.chance.choice(["", "", "", "?", "?q=/../a", "#f", "?q#f/..", "#"])
        return self.chance.choice(["", "", "", "/", "//", "//h:1/", "/../"]) + segments + behind

    def reference(self, absolute=tuple(ABSOLUTE)):
        """A reference: one without a scheme needs a base."""
        is_relative = self.happens(0.55) if self.has_base else self.happens(self.flaw)
        return self.spelled_iri(self.relative() if is_relative else self.chance.choice(absolute))

    def name(self):
        """A name, mostly of a prefix that is declared."""
        known = self.prefixes and not self.happens(self.flaw)
        prefix = self.chance.choice(self.prefixes if known else PREFIXES)
        if self.happens(0.08):
            return prefix + ":"
        local = self.chance.choice(STARTS[:3] if self.happens(0.6) else STARTS)
        while self.happens(0.3):
            local += self.chance.choice(OTHERS)
        if not self.happens(self.flaw):
            # A dot ends no name, and neither a dot nor a hyphen begins one.
            local = local.lstrip("-.") or "a"
            local = local if local.endswith("\\.") else local.rstrip(".")
        return f"{prefix}:{local}"

    def iri(self):
        may_have_name = self.prefixes or self.happens(self.flaw)
        return [self.name() if may_have_name and self.happens(0.7) else self.reference()]

    # Literals

    def content(self, quote, is_long):
        """What stands in a string between these quotes."""
        pieces = []
        for _ in range(self.chance.choice([0, 1, 2, 3, 5, 8])):
            it = self.chance.choice(BROKEN if self.happens(self.flaw) else [*CHARACTERS, *"'\"\n"] if is_long else CHARACTERS)
            if not is_long and (quote in it or "\n" in it) and not self.happens(4 * self.flaw):
                it = "\\" + quote if quote in it else "\\n"
            pieces.append(it)
        text = "".join(pieces)
        if is_long and not self.happens(self.flaw):
            text = re.sub(rf"{quote}{{3,}}", quote * 2, text)
            text += "x" if text.endswith(quote) else ""
        return text

    def string(self):
        """A string in one of its four spellings."""
        quote = self.chance.choice("\"'")
        quotes = quote * self.chance.choice([1, 1, 3])
        return quotes + self.content(quote, len(quotes) == 3) + quotes

    def of_rdf(self):
        """A string with a datatype that is another's form, or has no such one."""
        form = self.chance.choice(["x@en", "x@", "@", "a@b@de-AT", "@en\\u002Dx", "x@e\\u006E"])
        if self.happens(8 * self.flaw):
            form = self.chance.choice(["x", "", "x@1", "x@en-", "x@en_x", "x@en ", "x@en\\n", "@en@"])
        name = "langString" if self.happens(8 * self.flaw) else "PlainLiteral"
        return [f'"{form}"', "^^", "rdf:" + name if "rdf" in self.prefixes and self.happens(0.5) else self.spelled_iri(RDF + name)]

    def literal(self):
        """A literal of any form, as an object has it."""
        way = self.chance.randrange(12)
        if way < 3:
            return [self.chance.choice(NUMBERS)]
        if way < 4:
            return [self.chance.choice(["true", "false"])]
        if way < 6:
            return [self.string(), "@" + self.chance.choice(TAGS)]
        if way < 7:
            return [self.string(), "^^", *self.iri()]
        if way < 8:
            return [self.string(), "^^", self.spelled_iri(XSD + self.chance.choice(DATATYPES))]
        return self.of_rdf() if way < 9 else [self.string()]

    # Statements

    def node(self, depth):
        """What may be a subject, but for brackets."""
        way = self.chance.random()
        if way < self.lists:
            return ["(", *self.some(lambda: self.object(depth + 1), 0), ")"]
        if way < self.lists + 0.2:
            return ["_:" + self.chance.choice(LABELS if self.happens(0.4) else LABELS[:3])]
        return self.iri()

    def brackets(self, depth):
        """Brackets with predicates or with nothing in them."""
        return ["[", *([] if self.happens(0.35) else self.pairs(depth + 1)), "]"]

    def object(self, depth):
        way = self.chance.random()
        if way < 0.15 and depth < 5:
            return self.brackets(depth)
        if way < 0.5:
            return self.literal()
        return self.node(depth) if depth < 5 else self.iri()

    def pair(self, depth):
        """A predicate with its objects."""
        if self.happens(0.12):
            objects = self.iri() if self.happens(0.9) else self.object(depth)
            return ["a", *objects]
        objects = self.object(depth)
        while self.happens(0.25):
            objects += [",", *self.object(depth)]
        return [*self.iri(), *objects]

    def pairs(self, depth):
        """Predicates with their objects, and semicolons."""
        tokens = self.pair(depth)
        while self.happens(0.3):
            tokens += [";"] * self.chance.choice([1, 1, 1, 2]) + self.pair(depth)
        return tokens + [";"] * self.chance.choice([0, 0, 0, 0, 1, 2])

    def statement(self):
        """A statement with its dot."""
        if self.happens(0.12):
            inside = self.pairs(1)
            return ["[", *inside, "]", *([] if self.happens(0.4) else self.pairs(0)), "."]
        subject = ["[", "]"] if self.happens(0.06) else self.node(0)
        return [*subject, *([] if subject == ["[", "]"] and self.happens(4 * self.flaw) else self.pairs(0)), "."]

    def directive(self):
        """A directive, in one of its two spellings."""
        if self.happens(0.3):
            words, behind = ["base"], [self.reference(BASES)]
            self.has_base = True
        else:
            name = self.chance.choice(PREFIXES)
            iri = self.spelled_iri(FIXED[name]) if name in FIXED and self.happens(0.9) else self.reference()
            words, behind = ["prefix"], [name + ":", iri]
            self.prefixes.append(name)
        if self.happens(0.6):
            return ["@" + words[0], *behind, "."]
        word = "".join(it.upper() if self.happens(0.5) else it for it in words[0])
        return [self.chance.choice([words[0], words[0].upper(), word]), *behind]

    def deep(self):
        """A statement with about as many open brackets as there may be."""
        ends, tokens = [], ["<http://e/s>", "<http://e/p>"]
        for _ in range(self.chance.choice([510, 511, 512, 512, 513, 514])):
            if self.happens(0.5):
                tokens, ends = tokens + ["(", *self.chance.choice([[], ["1"]])], ends + [")"]
            else:
                tokens, ends = tokens + ["[", "<http://e/p>"], ends + ["]"]
        return [*tokens, *self.chance.choice([["()"], ["[]"], ["1"]]), *reversed(ends), "."]

    def document(self):
        """Directives and statements."""
        tokens = self.some(self.directive, self.chance.choice([0, 1, 2]))
        for _ in range(self.chance.choice([0, 1, 1, 2, 3, 5])):
            tokens += self.directive() if self.happens(0.15) else self.statement()
        return tokens + self.deep() if self.happens(0.004) else tokens

    # Texts and damage

    def text(self, tokens):
        """A text of the tokens. White space may be left out beside signs, and seldom elsewhere."""
        text, before = "\ufeff" * self.happens(0.02), ""
        for token in tokens:
            near = before in SIGNS or token in SIGNS or before.endswith((">", '"', "'")) or token.startswith(("<", '"', "'"))
            if not before or not self.happens(0.5 if near else 0.006):
                text += self.chance.choice(GAPS) if before or self.happens(0.2) else ""
            text, before = text + token, token
        return text + self.chance.choice(["", "\n", " ", " # the end"])

    def damaged_tokens(self, tokens):
        """The tokens with one left out, doubled, exchanged or put in, with two exchanged, or cut."""
        at = self.chance.randrange(len(tokens))
        way = self.chance.randrange(10)
        if way < 2:
            return tokens[:at] + tokens[at + 1 :]
        if way < 3:
            return tokens[:at] + tokens[at : at + 1] + tokens[at:]
        if way < 6:
            return tokens[:at] + [self.chance.choice(TOKENS)] + tokens[at + 1 :]
        if way < 8:
            return tokens[:at] + [self.chance.choice(TOKENS)] + tokens[at:]
        if way < 9:
            return tokens[:at] + tokens[at + 1 : at + 2] + tokens[at : at + 1] + tokens[at + 2 :]
        return tokens[:at]

    def damaged_bytes(self, text):
        """The bytes with one or some changed, put in, left out or doubled, or cut."""
        at, to = sorted(self.chance.randrange(len(text) + 1) for _ in range(2))
        some = bytes([self.chance.choice([*range(256), *b' "\':\\<>.#@'])])
        broken = self.chance.choice([it.encode() for it in BROKEN + BROKEN_IRI])
        here = min(at + self.chance.choice([1, 1, 2, 8]), len(text))
        return self.chance.choice([
            text[:at] + some + text[at + 1 :],
            text[:at] + some + text[at:],
            text[:at] + text[here:],
            text[:here] + text[at:],
            text[:at],
            text[:at] + self.chance.choice(BAD_BYTES) + text[at:],
            text[:at] + broken + text[at:],
            text[:at] + text[to:],
        ])


def document_of(seed, number):
    """The bytes of a document: a random one, or without a seed a case."""
    if seed is None:
        return cases()[number]
    maker = Maker(random.Random(f"{seed}/{number}"))
    tokens = maker.document()
    way = maker.chance.randrange(20)
    if way < 6 and tokens:
        for _ in range(maker.chance.choice([1, 1, 2])):
            tokens = maker.damaged_tokens(tokens) or tokens
    text = maker.text(tokens).encode()
    if way >= 16:
        for _ in range(maker.chance.choice([1, 1, 2])):
            text = maker.damaged_bytes(text)
    return text


# Cases

MORE_BASES = ["s:/..//b", "s:a/../b", "s:.", "s:./", "s:../..", "s://h/..", "s:///..", "s:/", "s:/a/", "s:a?b/c#d/e", "s:a:b/c", "a:b:c"]
SPELLINGS = [*SIGNS, *"a true :b e: _:l @en @prefix @base PREFIX BASE <i:j> <k> 1 z:y $".split(), '"s"']
BORDERS = [0xD6, 0xF6, 0x2FF, 0x36F, 0x37D, 0x1FFF, 0x200D, 0x2040, 0x218F, 0x2FEF, 0xD7FF, 0xFDCF, 0xFFFD, 0xEFFFF, 0x10FFFF]
BORDERS += [0xB7, 0xC0, 0xD8, 0xF8, 0x300, 0x370, 0x37F, 0x200C, 0x203F, 0x2070, 0x2C00, 0x3001, 0xE000, 0xF900, 0xFDF0, 0xFEFF, 0x10000]
PLACES = ["PREFIX {}: <p:>", "PREFIX a{}: <p:> a{}:x a{}:{} a{}:a{} .", *("PREFIX : <p:> :" + it + " :a 1 ." for it in ("{}", "a{}", "a{}b", "a\\{}"))]
PLACES += ["_:{} <p:> 1 .", "_:a{} <p:> 1 .", "_:a{}b <p:> 1 .", "<a:{}> <p:> 1 .", "<p:a>{}<p:> 1 .", "<p:a> <p:> 1 . #{}", "{}"]
PLACES += ["<p:a> <p:> " + it for it in ('"{}" .', "'{}' .", "'''{}''' .", '"""{}""" .', '"\\{}" .', '"a"@{} .', '"a"@a-{} .', "1{} .", "1{}2 .", "p:%{} .")]
BYTES = [b"|", b"<p:a> |", b"<p:a>| ", b"# |", b"<p:a> <p:> 'a|' .", b"<a|:> ", b"<p:a> <p:> '''a|''' .", b"_:a| ", b"\xef\xbb|", b"1|"]
BYTES += [b"\xe2|\x80", b"\xf0|\x80\x80", b"\xf4|\x80\x80", b"\xc2|", b"\xed|\x80", b"\xe0|\x80"]


@functools.cache
def cases():
    """The bytes of the documents that --cases takes."""
    paths = ["/".join(it) for count in (1, 2, 3) for it in itertools.product(["", ".", "..", "a", "b:c"], repeat=count)]
    references = [*RELATIVE, *paths]
    references = [front + it for front in ("", "/", "//") for it in references]
    texts = ["".join([f"@base <{base}> .\n", *(f"<{it}> <p:> {place} .\n" for place, it in enumerate(references))]) for base in BASES + MORE_BASES]
    texts += ["PREFIX : <p:> " + " ".join(it) for count in (1, 2, 3) for it in itertools.product(SPELLINGS, repeat=count)]
    numbers = {it + by for it in BORDERS for by in (-1, 0, 1)} | {*range(256)}
    numbers = sorted(it for it in numbers if it <= 0x10FFFF and not 0xD800 <= it <= 0xDFFF)
    texts += [place.replace("{}", chr(it)) for place in PLACES for it in numbers]
    texts += [f"<a:\\U{it:08x}> <p:> '\\U{it:08X}' ." for it in [*numbers, 0xD800, 0xDFFF, 0x110000]]
    return [it.encode() for it in texts] + [place.replace(b"|", bytes([it])) for place in BYTES for it in range(128, 256)]


# What is written

WRITTEN = r'<[^>]*>|[^\s<>"@_][^\s<>"@:]*:[A-Za-z0-9_-]+|:[A-Za-z0-9_-]+'
PREFIX_LINE = re.compile(r"@prefix (\S*): <([^>]*)> \.")
LINE = re.compile(rf'({WRITTEN}|_:\S+) ({WRITTEN}) (?:({WRITTEN}|_:\S+)|"((?:[^"\\\n\r]|\\["\\nr])*)"(?:@([A-Za-z0-9-]+)|\^\^({WRITTEN}))?) \.')


def written(text):
    """The prefixes and triples of a text that a program has written: a triple a line, in the forms that it has. None if it isn't one."""
    prefixes, graph = {}, set()

    def term(it):
        if it.startswith("_:"):
            return "blank", it[2:]
        name, _, local = it.partition(":")
        return "iri", it[1:-1] if it.startswith("<") else prefixes[name] + local

    for line in text.split("\n")[:-1]:
        declared = PREFIX_LINE.fullmatch(line)
        if declared and not graph:
            prefixes[declared[1]] = declared[2]
            continue
        found = LINE.fullmatch(line)
        if not found:
            return None
        subject, predicate, thing, form, tag, datatype = found.groups()
        if thing:
            thing = term(thing)
        else:
            form = re.sub(r"\\(.)", lambda it: {"n": "\n", "r": "\r"}.get(it[1], it[1]), form)
            datatype = RDF + "PlainLiteral" if tag else term(datatype)[1] if datatype else XSD + "string"
            thing = "literal", form, datatype, tag
        graph.add((term(subject), term(predicate), thing))
    return prefixes, graph


HEADER = ("iri", "urn:second:ontology")
KNOWN = {("iri", RDFS + "label"), ("iri", RDFS + "comment")}


def as_ontology(graph):
    """The triples of a header and of declarations by which a graph is an ontology of annotations and assertions of types, or none."""
    predicates = {predicate for _, predicate, _ in graph}
    typed = [triple for triple in graph if triple[1] == TYPE]
    classes = {kind for _, _, kind in typed}
    if any(kind[0] != "iri" for kind in classes):
        return None
    named = (predicates - KNOWN - {TYPE}) | classes | {subject for subject, _, _ in typed if subject[0] == "iri"}
    if any(it[1].startswith(tuple(FIXED.values())) for it in named) or HEADER in named:
        return None
    declared = {(it, TYPE, ("iri", OWL + "AnnotationProperty")) for it in predicates - KNOWN - {TYPE}}
    declared |= {(it, TYPE, ("iri", OWL + "Class")) for it in classes}
    return declared | {(HEADER, TYPE, ("iri", OWL + "Ontology"))}


def run(*words, given=None):
    """What a program ends with: its status, its output and its line."""
    done = subprocess.run(words, input=given, capture_output=True)
    return done.returncode, done.stdout.decode(), done.stderr.decode()


def told(program, text, *words):
    """What the program answers of a document."""
    with open("m.ttl", "wb") as file:
        file.write(text)
    return run(program, *words, "m.ttl")


READS = re.compile(r"shown\n|m\.ttl: (?!item at )[A-Z].*\n", re.DOTALL)


def fault_of(program, copy, text, counts):
    """What differs of a document, or nothing."""
    try:
        reader, line = second_turtle.read(text), None
    except second_turtle.Defect as defect:
        line, status = f"m.ttl: {defect}\n", 3
    except second_turtle.Limit as limit:
        line, status = f"limit: {limit}: m.ttl\n", 5
    counts[re.search(r"limit: \w+|\w+(?= at \d+\n)", line)[0] if line else "read"] += 1
    if line:
        answer = told(program, text, "show") if program else (status, "", line)
        return answer != (status, "", line) and f"wanted: {line!r}, owl: {answer}"
    graph = reader.graph()
    counts["triples"] += len(graph)
    prefixes = {**reader.prefixes, **FIXED}
    declared = as_ontology(graph)
    counts["read, and as an ontology"] += declared is not None
    counts["read, with a list"] += any(triple[1] == FIRST for triple in graph)
    counts["read, with new labels"] += reader.fresh > 0
    if program and declared is None:
        status, _, line = told(program, text, "show")
        if status not in (0, 3, 5) or not READS.fullmatch(line):
            return f"it reads, owl: {status}, {line!r}"
    elif program:
        behind = "".join(f"\n<{it}> a <{kind}> ." for (_, it), _, (_, kind) in sorted(declared))
        status, output, line = told(program, text + behind.encode(), "translate", "--to", "ttl")
        wanted = f"translated; axioms {len(graph) + len(declared) - 1}; absorbed 0\n"
        if (status, line) != (0, wanted) or written(output) != (prefixes, graph | declared):
            return f"wanted: {sorted(graph, key=repr)}, owl: {status}, {line!r}, {output}"
    if copy and declared is None:
        status, output, line = run(copy, given=text)
        counts["copied"] += 1
        if (status, line) != (0, "") or written(output) != (prefixes, graph):
            return f"wanted: {sorted(graph, key=repr)}, copy: {status}, {line!r}, {output}"
    return None


def agrees(program, copy, seed, number, counts, tell=False):
    """Counts what comes of a document, and tells what differs."""
    text = document_of(seed, number)
    fault = fault_of(program, copy, text, counts)
    counts["answered in two ways"] += bool(fault)
    if fault or tell:
        print(f"--only {number}: {text!r}\n  {fault or 'no difference'}", flush=True)


def job(program, copy, seed, numbers):
    """Counts what comes of the documents with these numbers, in a folder of its own."""
    counts = collections.Counter()
    with tempfile.TemporaryDirectory() as room:
        os.chdir(room)
        for number in numbers:
            agrees(program, copy, seed, number, counts, len(numbers) == 1)
        os.chdir(TOP)
    return counts


def main():
    options = argparse.ArgumentParser(allow_abbrev=False)
    for name, value in [("count", 2000), ("seed", 1), ("jobs", 2), ("only", None)]:
        options.add_argument("--" + name, type=int, default=value)
    options.add_argument("--program", default=os.path.join(TOP, "bin", "owl"))
    options.add_argument("--copy")
    for name in ("cases", "dry"):
        options.add_argument("--" + name, action="store_true")
    given = options.parse_args()
    if given.cases:
        given.seed, given.count = None, len(cases())
    program = None if given.dry else os.path.abspath(given.program)
    copy = os.path.abspath(given.copy) if given.copy and not given.dry else None
    if given.only is not None:
        return job(program, copy, given.seed, [given.only])["answered in two ways"] > 0
    parts = [(program, copy, given.seed, range(place, given.count, given.jobs)) for place in range(given.jobs)]
    if given.jobs == 1:
        counts = job(*parts[0])
    else:
        with multiprocessing.Pool(given.jobs) as pool:
            counts = sum(pool.starmap(job, parts), collections.Counter())
    different = counts.pop("answered in two ways", 0)
    print(f"{given.count} documents, {different} answered in two ways")
    for name, number in sorted(counts.items()):
        print(f"{number:8} {name}")
    return different > 0


if __name__ == "__main__":
    sys.exit(main())
