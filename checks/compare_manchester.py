#!/usr/bin/env python3
"""Compares owl with a second reader of Manchester Syntax, on random documents.

compare_manchester.py [--count N] [--seed N] [--jobs N] [--program PATH] [--only N] [--dry]:
so many calls, 2000 if left out, each of a document in Manchester Syntax with up to two
more, in any of the three syntaxes, that import each other. About half of them are
damaged: a token is dropped, doubled, exchanged or put in, or a byte is changed. The
program, bin/owl if left out, has to end with the status, the output and the line of the
second reader, byte for byte. What reads is translated to each of the three syntaxes, to
Manchester Syntax as the second writer does it, shown, checked in one of the profiles, and
compared with itself in another spelling and with its translation; what doesn't is given to
one of these commands.

--only N makes the call with this number alone, and tells what it is. --dry runs no
program, and tells what the second reader answers.
"""

import argparse
import collections
import multiprocessing
import os
import random
import re
import subprocess
import sys
import tempfile

from second_manchester import CHARACTERISTICS, DATATYPES, FACETS, FRAMES, KEYWORDS, MISC, PATTERNS, WORDS, XSD
from second_manchester_writer import outcome
from second_writer import ENTITIES, FIXED

TOP = os.path.dirname(os.path.dirname(os.path.abspath(__file__)))
HOME = "http://e/"
PREFIXES = {"": HOME, "e": HOME, "s": "http://e/s/", "a.b": "http://e/s", **FIXED}

# Names by the kind that each place asks for. Some have several kinds, which is no clash.

NAMES = {
    "Class": "A B X Y a.b owl:Thing owl:Nothing",
    "Datatype": "T U xsd:integer xsd:string xsd:decimal xsd:float rdfs:Literal xsd:other",
    "ObjectProperty": "p q X r~1 owl:topObjectProperty",
    "DataProperty": "d 1d owl:topDataProperty",
    "AnnotationProperty": "n Y rdfs:label rdfs:comment",
    "Individual": "i j A X s/k c:d é",
}


def in_full(name):
    prefix, colon, local = name.partition(":")
    return FIXED[prefix] + local if colon and prefix in FIXED else HOME + name


NAMES = {kind: [in_full(name) for name in names.split()] for kind, names in NAMES.items()}
OWN = [(kind, iri) for kind, iris in NAMES.items() for iri in iris if iri.startswith(HOME)]
CLASHES = [("Datatype", "A"), ("DataProperty", "p"), ("AnnotationProperty", "d"), ("DataProperty", "rdfs:label")]
STRINGS = ['""', '"a"', '"a b"', r'"a\"\\"', '"two\nlines"', '"# no comment"', '"é"', '"楽"', '"Class: A"']
TYPED = ['"1"^^xsd:integer', '"x"^^e:T', '"x"^^<http://e/U>', '"a@en"^^rdf:PlainLiteral', '"a@"^^rdf:PlainLiteral', '"x"^^xsd:string', '"x"^^:T']
SHORT = ["0", "1", "007", "+1", "-0", "-12", "1.5", "-0.50", "+00.0", "true", "false"]
FAULTY = ['"x"^^rdf:langString', '"x"^^rdf:PlainLiteral', '"x@a b"^^rdf:PlainLiteral', '"x"^^z:T', '"x"^^integer', "1.5f", '"x" ^^ T']
OTHERS = """$ ( ) { } [ ] , ^^ < <= > >= _:b @en "s" 7 -7 1.5 z:Q z: <e:z> A p d é = _""".split()
OTHERS += [f"{name}:" for name in sorted(KEYWORDS)] + sorted(WORDS)
GAPS = [" ", " ", " ", " ", "\n", "\t", "\r\n", "  ", " # a comment: Class: A\n", "#\r", "\n    "]


class Spelled(str):
    """An IRI that is to be spelled as a name, or with a mark in front as an IRI alone."""


class Maker:
    """Makes random documents, as lists of texts of tokens, and of names that are yet to be spelled."""

    def __init__(self, chance):
        self.chance = chance
        self.flaw = chance.choice([0, 0, 0, 0.01, 0.04])
        self.labels = chance.sample(["g", "gen9", "gen3", "b.1", "1"], 2)
        self.prefixes = dict(PREFIXES)
        if self.flaw and self.happens(0.2):
            del self.prefixes[chance.choice(["", "e", "s"])]

    def happens(self, odds):
        return self.chance.random() < odds

    def some(self, part, least=0, most=2):
        return [part() for _ in range(least + self.chance.choice([0] * 2 + [*range(most + 1)]))]

    # Names, individuals and literals

    def iri(self, kind):
        if self.happens(self.flaw):
            kind = self.chance.choice([*NAMES])
            return self.chance.choice([*NAMES[kind], HOME + "lost"])
        return self.chance.choice(NAMES[kind])

    def name(self, kind):
        return [Spelled(self.iri(kind))]

    def individual(self):
        return ["_:" + self.chance.choice(self.labels)] if self.happens(0.2) else self.name("Individual")

    def literal(self):
        if self.happens(self.flaw / 2):
            return [self.chance.choice(FAULTY)]
        way = self.chance.randrange(4)
        if way == 0:
            return [self.chance.choice(STRINGS)]
        if way == 1:
            return [self.chance.choice(STRINGS), self.chance.choice(["@en", "@de-AT-1996", "@EN"])]
        if way == 2:
            string, datatype = self.chance.choice(TYPED).rsplit("^^", 1)
            return [string, "^^", datatype]
        return [self.chance.choice(SHORT)]

    def value(self):
        return self.literal() if self.happens(0.5) else self.individual()

    def joined(self, parts, between=","):
        tokens = parts[0]
        for part in parts[1:]:
            tokens = tokens + [between] + part
        return tokens

    # Annotations

    def notes(self, odds=0.25, depth=0):
        if not self.happens(odds):
            return []
        notes = self.some(lambda: self.notes(0.3 if depth < 3 else 0, depth + 1) + self.name("AnnotationProperty") + self.value(), 1)
        return ["Annotations:", *self.joined(notes)]

    def assertions(self):
        return ["Annotations:", *self.joined(self.some(lambda: self.notes(0.3) + self.name("AnnotationProperty") + self.value(), 1))]

    # Expressions

    def object_property(self):
        if self.happens(0.75):
            return self.name("ObjectProperty")
        name = self.name("ObjectProperty")
        return ["inverse", *(["(", *name, ")"] if self.happens(0.4) else name)]

    def restriction(self, depth):
        is_data = self.happens(0.4)
        prop = self.name("DataProperty") if is_data else self.object_property()
        word = self.chance.choice(["some", "some", "only", "value", "min", "max", "exactly"] + ["Self"] * (not is_data))
        if word == "Self":
            return [*prop, word]
        is_wrong = self.happens(self.flaw)
        if word == "value":
            return [*prop, word, *(self.literal() if is_data != is_wrong else self.individual())]
        filler = lambda: self.primary(is_data != is_wrong, depth + 1)
        if word in ("some", "only"):
            return [*prop, word, *filler()]
        number = self.chance.choice(["0", "1", "2", "007", "18446744073709551615"] + ["18446744073709551616"] * self.happens(self.flaw))
        return [*prop, word, number, *(filler() if self.happens(0.5) else [])]

    def atom(self, is_range, depth):
        way = self.chance.randrange(12)
        if way < 2 and depth < 5:
            return ["(", *self.expression(is_range, depth + 1), ")"]
        if way < 4 and is_range:
            facets = self.some(lambda: [self.chance.choice([*FACETS]), *self.literal()], 1)
            return [*self.name("Datatype"), "[", *self.joined(facets), "]"]
        if way < 6:
            return ["{", *self.joined(self.some(self.literal if is_range else self.individual, 1)), "}"]
        return self.name("Datatype" if is_range else "Class")

    def restriction_or_atom(self, is_range, depth):
        if depth < 5 and not is_range and self.happens(0.45):
            return self.restriction(depth)
        return self.atom(is_range, depth)

    def primary(self, is_range, depth):
        is_range = is_range != self.happens(self.flaw / 2)
        return ["not"] * self.happens(0.15) + self.restriction_or_atom(is_range, depth)

    def conjunction(self, is_range, depth):
        if self.happens(0.1) and not is_range:
            return [*self.name("Class"), "that", *self.joined(self.some(lambda: ["not"] * self.happens(0.2) + self.restriction(depth), 1), "and")]
        if self.happens(self.flaw):
            return [*self.name("Datatype"), "that", *self.restriction(depth)]
        return self.joined(self.some(lambda: self.primary(is_range, depth + 1), 1, 1), "and")

    def expression(self, is_range=False, depth=0):
        if self.happens(0.003):
            return self.deep(is_range)
        return self.joined(self.some(lambda: self.conjunction(is_range, depth), 1, 1), "or")

    def deep(self, is_range):
        """What stands near one of the limits of depth."""
        inside = self.name("Datatype" if is_range else "Class")
        near = lambda count: count + self.chance.randint(-3, 3)
        way = self.chance.randrange(3)
        if way == 0:
            count = near(512)
            return ["("] * count + inside + [")"] * count
        if way == 1:
            count = near(126 if is_range else 125)
            return ["not", "("] * count + inside + [")"] * count
        return [*(token for _ in range(near(self.chance.choice([126, 512]))) for token in ("p", "some")), *inside]

    # Sections

    def each(self, part, most=1):
        return self.joined(self.some(lambda: self.notes(0.15) + part(), 1, most))

    def whole(self, part):
        return self.notes() + part()

    def list_of_classes(self):
        return self.each(self.expression)

    def list_of_properties(self):
        return self.each(self.object_property)

    def list_of_names(self, kind):
        return lambda: self.each(lambda: self.name(kind))

    def two_or_more(self, part):
        return lambda: self.whole(lambda: self.joined(self.some(part, 2, 1)))

    def key(self):
        prop = lambda: self.name("DataProperty") if self.happens(0.4) else self.object_property()
        return self.whole(lambda: [token for it in self.some(prop, 1) for token in it])

    def fact(self):
        is_data, is_wrong = self.happens(0.5), self.happens(self.flaw)
        value = self.literal if is_data != is_wrong else self.individual
        return ["not"] * self.happens(0.25) + self.name("DataProperty" if is_data else "ObjectProperty") + value()

    def word(self):
        return [self.chance.choice(CHARACTERISTICS)]

    def sections(self, heading):
        """The sections that a frame may have, by their keywords."""
        if heading == "Class":
            names = {it: self.list_of_classes for it in ("SubClassOf", "EquivalentTo", "DisjointWith")}
            return {**names, "DisjointUnionOf": self.two_or_more(self.expression), "HasKey": self.key}
        if heading == "Datatype":
            return {"EquivalentTo": lambda: self.whole(lambda: self.expression(True))}
        if heading == "ObjectProperty":
            names = {it: self.list_of_properties for it in ("SubPropertyOf", "EquivalentTo", "DisjointWith", "InverseOf")}
            chain = lambda: self.whole(lambda: self.joined(self.some(self.object_property, 2), "o"))
            names = {**names, "Domain": self.list_of_classes, "Range": self.list_of_classes}
            return {**names, "Characteristics": lambda: self.each(self.word), "SubPropertyChain": chain}
        if heading == "DataProperty":
            names = {it: self.list_of_names("DataProperty") for it in ("SubPropertyOf", "EquivalentTo", "DisjointWith")}
            ranges = lambda: self.each(lambda: self.expression(True))
            return {**names, "Domain": self.list_of_classes, "Range": ranges, "Characteristics": lambda: self.whole(lambda: ["Functional"])}
        if heading == "AnnotationProperty":
            return {"SubPropertyOf": self.list_of_names("AnnotationProperty"), **{it: self.list_of_names("Class") for it in ("Domain", "Range")}}
        individuals = lambda: self.each(self.individual)
        return {"Types": self.list_of_classes, "Facts": lambda: self.each(self.fact), "SameAs": individuals, "DifferentFrom": individuals}

    def frame(self, heading=None):
        heading = heading or self.chance.choice(FRAMES)
        name = self.individual() if heading == "Individual" else [Spelled(self.chance.choice([iri for kind, iri in OWN if kind == heading]))]
        choices, made = self.sections(heading), []
        for _ in range(self.chance.choice([1, 1, 2, 3])):
            section = self.chance.choice([*choices, "Annotations"])
            made.append(self.assertions() if section == "Annotations" else [section + ":", *choices[section]()])
            if heading == "Datatype" and section != "Annotations" and not self.happens(self.flaw):
                choices = {"Annotations": None}
        return [[heading + ":", *name], *made]

    def misc(self):
        heading = self.chance.choice(MISC)
        if heading.endswith("Classes"):
            members = self.two_or_more(self.expression)
        elif not heading.endswith("Properties"):
            members = self.two_or_more(self.individual)
        elif self.happens(0.4):
            members = self.two_or_more(lambda: self.object_property() if self.happens(self.flaw) else self.name("DataProperty"))
        else:
            members = self.two_or_more(lambda: self.name("DataProperty") if self.happens(self.flaw) else self.object_property())
        return [[heading + ":", *members()]]

    def header(self, iris, imports):
        tokens = ["Ontology:", *(Spelled("!" + it) for it in iris)]
        for it in imports:
            tokens += ["Import:", Spelled("!" + it)]
        while self.happens(0.15):
            tokens += self.notes(1)
        return tokens

    def prefix_lines(self):
        names = [*self.prefixes] if self.happens(0.1) else [name for name in self.prefixes if name not in FIXED]
        self.chance.shuffle(names)
        tokens = [token for name in names for token in ("Prefix:", name + ":", f"<{self.prefixes[name]}>")]
        if self.happens(self.flaw):
            tokens += ["Prefix:", self.chance.choice(["e:", "owl:", ":"]), "<http://e/x#>"]
        return tokens

    # Spelling

    def spelled(self, token):
        if not isinstance(token, Spelled):
            return token
        iri, is_name = token.removeprefix("!"), not token.startswith("!")
        ways = [f"<{iri}>"]
        for name, front in self.prefixes.items():
            if iri.startswith(front):
                local = self.local(iri[len(front) :])
                ways += [f"{name}:{local}"] * 2 * (local is not None)
                if name == "" and is_name and PATTERNS["word"].fullmatch(iri[len(front) :]) and iri[len(front) :] not in WORDS:
                    ways += [iri[len(front) :]] * 4
        if is_name and iri.startswith(XSD) and iri.removeprefix(XSD) in DATATYPES:
            ways += [iri.removeprefix(XSD)] * 4
        return self.chance.choice(ways)

    def local(self, local):
        """A local part as it is written, with escapes where they have to be, and sometimes elsewhere."""
        text = "".join("\\" + it if it in "~!$&'()*+,;=/?#@" or it in "-._" and self.happens(0.2) else it for it in local)
        for spelling in (text, re.sub(r"^([-.])", r"\\\1", re.sub(r"\.$", r"\\.", local))):
            if PATTERNS["name"].fullmatch(":" + spelling):
                return spelling
        return None

    def text(self, tokens):
        """A text of the tokens. White space may be left out beside brackets and commas."""
        text = "\ufeff" * self.happens(0.02)
        before = ""
        for token in tokens:
            token = self.spelled(token)
            signs = "(){}[],"
            if not text or before not in signs and token not in signs or self.happens(0.7):
                text += self.chance.choice(GAPS) if text else ""
            text, before = text + token, token
        return text + self.chance.choice(["", "\n", " ", " # the end"])

    # Damage

    def damaged_tokens(self, tokens):
        at = self.chance.randrange(len(tokens))
        way = self.chance.randrange(10)
        if way < 3:
            return tokens[:at] + tokens[at + 1 :]
        if way < 5:
            return tokens[:at] + tokens[at : at + 1] + tokens[at:]
        if way < 7:
            return tokens[:at] + [self.chance.choice(OTHERS)] + tokens[at + 1 :]
        if way < 8:
            return tokens[:at] + [self.chance.choice(OTHERS)] + tokens[at:]
        if way < 9:
            return tokens[:at] + tokens[at + 1 : at + 2] + tokens[at : at + 1] + tokens[at + 2 :]
        return tokens[:at]

    def damaged_bytes(self, text):
        at, some = self.chance.randrange(len(text)), bytes([self.chance.choice([*range(256), 0x20, 0x22, 0x3A, 0x5C])])
        return self.chance.choice([text[:at] + some + text[at + 1 :], text[:at] + some + text[at:], text[:at] + text[at + 1 :], text[:at]])


IRIS = [HOME + "o", HOME + "m1", HOME + "m2"]


def declarations(chance, flaw):
    """What is declared in all documents together: mostly all names, and now and then one too few, or with a clash."""
    declared = list(OWN)
    if flaw and chance.random() < 0.35:
        declared.remove(chance.choice(declared))
    if flaw and chance.random() < 0.12:
        kind, name = chance.choice(CLASHES)
        declared.append((kind, in_full(name)))
    return declared


def functional(maker, iris, imports, declared, _):
    parts = [f"<{it}>" for it in [*iris]] + [f"Import(<{it}>)" for it in imports]
    parts += [f"Declaration({ENTITIES[FRAMES.index(kind)]}(<{iri}>))" for kind, iri in declared]
    parts += maker.some(lambda: f"SubClassOf(<{HOME}A> ObjectSomeValuesFrom(<{HOME}p> <{HOME}B>))")
    return f"Ontology({' '.join(parts)})".encode()


def turtle(_, iris, imports, declared, __):
    types = dict(zip(FRAMES, "Class Datatype ObjectProperty DatatypeProperty AnnotationProperty NamedIndividual".split()))
    lines = [f"@prefix {name}: <{FIXED[name]}> ." for name in ("owl", "rdfs")] + [f"<{iris[0]}> a owl:Ontology ."]
    lines += [f"<{iris[0]}> owl:imports <{it}> ." for it in imports]
    lines += [f"<{iri}> a {'rdfs' if kind == 'Datatype' else 'owl'}:{types[kind]} ." for kind, iri in declared]
    return "\n".join([*lines, ""]).encode()


class Document:
    """A document in Manchester Syntax, in parts that may change their places."""

    def __init__(self, maker, iris, imports, declared, is_main):
        self.maker = maker
        frames = maker.some(lambda: maker.misc() if maker.happens(0.2) else maker.frame(), 1, 3 if is_main else 0)
        bare = [[[kind + ":", Spelled(iri)]] for kind, iri in declared]
        self.header, self.frames = maker.header(iris, imports), frames + bare
        maker.chance.shuffle(self.frames)

    def tokens(self):
        return self.maker.prefix_lines() + self.header + [token for frame in self.frames for section in frame for token in section]

    def moved(self):
        """The same with its frames and sections in another order, sometimes with one frame less."""
        frames = [[first, *self.maker.chance.sample(others, len(others))] for first, *others in self.frames]
        self.maker.chance.shuffle(frames)
        tokens = self.maker.prefix_lines() + self.header
        for frame in frames[self.maker.happens(0.3) :]:
            tokens = tokens + [token for section in frame for token in section]
        return tokens

    def text(self, tokens):
        return self.maker.text([self.maker.spelled(it) for it in tokens]).encode()


def manchester(maker, iris, imports, declared, is_main):
    document = Document(maker, iris, imports, declared, is_main)
    tokens = [maker.spelled(it) for it in document.tokens()]
    way = maker.chance.randrange(10) if is_main else maker.chance.randrange(40)
    if way < 4:
        for _ in range(maker.chance.choice([1, 1, 2])):
            tokens = maker.damaged_tokens(tokens) or tokens
    text = document.text(tokens)
    if way == 4:
        text = maker.damaged_bytes(text)
    return text, document


def call(seed, number):
    """The documents of a call, whether imports may be missing, and the main document's parts."""
    chance = random.Random(f"{seed}/{number}")
    maker = Maker(chance)
    count = chance.choice([1, 1, 1, 2, 3])
    declared = declarations(chance, maker.flaw)
    places = [chance.randrange(count) if maker.happens(0.4) else 0 for _ in declared]
    texts, document = [], None
    for place in range(count):
        names = chance.choice([[], IRIS[:1], IRIS[:1], [IRIS[0], HOME + "v"]]) if place == 0 else [IRIS[place]]
        imports = [it for it in IRIS[1:count] if it not in names and maker.happens(0.85)] + [HOME + "lost"] * maker.happens(0.03)
        suffix = "omn" if place == 0 and maker.happens(0.92) else chance.choice(["omn", "omn", "ofn", "ttl"])
        if suffix == "ttl" and not names:
            names = IRIS[:1]
        kinds = [it for it, at in zip(declared, places) if at == place]
        if suffix == "omn":
            text, made = manchester(maker, names, imports, kinds, place == 0)
            document = made if place == 0 else document
        else:
            text = {"ofn": functional, "ttl": turtle}[suffix](maker, names, imports, kinds, place == 0)
        texts.append((f"{'mik'[place]}.{suffix}", text))
    return chance, texts, maker.happens(0.15), document


PROFILES = ["dl", "el", "ql", "rl"]


def commands(chance, texts, partial, document):
    """The commands that the documents are given to, each with its documents, and what has to come of it."""
    flag = ["--partial"] * partial
    one_document = [["translate", "--to", target] for target in ("fss", "ttl", "omn")] + [["show"], ["check", "--profile", chance.choice(PROFILES)]]
    first = [*one_document[0], *flag]
    expected = outcome(first, texts)
    if expected[0] in (3, 5):
        words = [*chance.choice(one_document), *flag]
        yield words, texts, expected
        if chance.random() < 0.1:
            other = ("x.omn", b"Ontology:")
            pair = [texts[0], other] if chance.random() < 0.5 else [other, texts[0]]
            yield ["same"], pair, outcome(["same"], pair)
        return
    yield first, texts, expected
    for words in one_document[1:]:
        yield [*words, *flag], texts, outcome([*words, *flag], texts)
    others = [("t.ofn", expected[1].encode())]
    if document:
        others.append(("t.omn", document.text(document.moved())))
    for other in others:
        pair = [texts[0], other] if chance.random() < 0.5 else [other, texts[0]]
        yield ["same"], pair, outcome(["same"], pair)


def kind_of(status, line):
    """What is counted of an answer."""
    reason = re.match(r"\S+: (?:item at \d+: )?(\w+)|limit: (\w+)", line)
    return f"{status} {reason[1] or reason[2]}" if status in (3, 5) else f"{status} " + re.match(r"\w*(:? \w+)?", line)[0]


def run(program, words, texts):
    done = subprocess.run([program, *words, *(name for name, _ in texts)], capture_output=True)
    return done.returncode, done.stdout, done.stderr


def agrees(program, seed, number, counts, tell=False):
    chance, texts, partial, document = call(seed, number)
    counts["documents in Manchester Syntax"] += sum(name.endswith(".omn") for name, _ in texts)
    for place, (words, given, (status, output, line)) in enumerate(commands(chance, texts, partial, document)):
        if place == 0:
            counts[kind_of(status, line)] += 1
        counts["runs"] += 1
        wanted = status, output.encode(), (line + "\n").encode()
        if program:
            for name, text in given:
                with open(name, "wb") as file:
                    file.write(text)
        told = run(program, words, given) if program else wanted
        if told != wanted or tell:
            print(f"--only {number}:", *words, *(f"\n{name}: {text!r}" for name, text in given), f"\n  wanted: {wanted}\n  owl:    {told}", flush=True)
        if told != wanted:
            counts["answered in two ways"] += 1
            return


def job(agrees, program, seed, numbers):
    """Counts what comes of the calls with these numbers, in a folder of its own."""
    counts = collections.Counter()
    with tempfile.TemporaryDirectory() as room:
        os.chdir(room)
        for number in numbers:
            agrees(program, seed, number, counts)
        os.chdir(TOP)
    return counts


def main():
    options = argparse.ArgumentParser(allow_abbrev=False)
    for name, value in [("count", 2000), ("seed", 1), ("jobs", 2), ("only", None)]:
        options.add_argument("--" + name, type=int, default=value)
    options.add_argument("--program", default=os.path.join(TOP, "bin", "owl"))
    options.add_argument("--dry", action="store_true")
    given = options.parse_args()
    program = None if given.dry else os.path.abspath(given.program)
    if given.only is not None:
        with tempfile.TemporaryDirectory() as room:
            os.chdir(room)
            counts = collections.Counter()
            agrees(program, given.seed, given.only, counts, True)
        return counts["answered in two ways"] > 0
    parts = [(agrees, program, given.seed, range(place, given.count, given.jobs)) for place in range(given.jobs)]
    if given.jobs == 1:
        counts = job(*parts[0])
    else:
        with multiprocessing.Pool(given.jobs) as pool:
            counts = sum(pool.starmap(job, parts), collections.Counter())
    print(f"{given.count} calls, {counts['runs']} runs, {counts['answered in two ways']} calls answered in two ways")
    print(f"documents in Manchester Syntax: {counts['documents in Manchester Syntax']}")
    for name, number in sorted(counts.items()):
        if name[0].isdigit():
            print(f"{100 * number / given.count:6.2f} % {name}")
    return counts["answered in two ways"] > 0


if __name__ == "__main__":
    sys.exit(main())
