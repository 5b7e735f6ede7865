#!/usr/bin/env python3
"""Compares owl with a second mapping to graphs, on random documents.

mapping.py [COUNT [SEED [PROGRAM]]]: so many documents, 2000 if left out, each with up
to two that it may import. They read, and about half of them can be translated to
Turtle. The program, bin/owl if left out, has to end with the status, the output and
the line of the second mapping, byte for byte.
"""

import os
import random
import re
import subprocess
import sys
import tempfile

import second_mapping
from second_writer import PARTS, TAGS

TOP = os.path.dirname(os.path.dirname(os.path.abspath(__file__)))
PROGRAM = os.path.abspath(sys.argv[3]) if len(sys.argv) > 3 else os.path.join(TOP, "bin", "owl")

AXIOMS = [name for name, number in TAGS.items() if number >= TAGS["Declaration"]]
CLASSES = [name for name, number in TAGS.items() if TAGS["ObjectIntersectionOf"] <= number <= TAGS["DataExactCardinality"]]
RANGES = [name for name, number in TAGS.items() if TAGS["DataIntersectionOf"] <= number <= TAGS["DatatypeRestriction"]]

# Names of each sort, by the letter of the second writer. Few, so that things coincide.
NAMES = {
    "c": [":A", ":B", ":A", ":B", "owl:Thing"],
    "d": [":T", ":T", "xsd:integer", "rdfs:Literal"],
    "p": [":p", ":q", ":p", "owl:topObjectProperty"],
    "q": [":d", ":e"],
    "a": [":n", "rdfs:label", "rdfs:comment"],
    "i": [":i", ":j", ":A", "s:k"],
    "r": [":i", ":A", ":o", "s:o"],
    "f": ["xsd:minInclusive", "xsd:pattern", "rdf:langRange"],
}
SAME_NAMES = {"C": "c", "D": "d", "P": "p", "s": "r"}
DECLARED = "Class :A,Class :B,Datatype :T,ObjectProperty :p,ObjectProperty :q,DataProperty :d,DataProperty :e,AnnotationProperty :n"
DECLARED = [tuple(it.split()) for it in DECLARED.split(",")]
UNDECLARED = {"c": ":T", "d": ":A", "p": ":d", "q": ":n", "a": ":p"}
RESERVED = {"c": "owl:Class", "d": "rdf:List", "p": "owl:sameAs", "q": "rdfs:range", "a": "rdf:nil", "i": "owl:Nothing", "f": ":facet"}
KINDS = {"c": "Class", "d": "Datatype", "p": "ObjectProperty", "q": "DataProperty", "a": "AnnotationProperty", "i": "NamedIndividual"}
CLASHES = [[("DataProperty", ":p")], [("Datatype", ":B"), ("Datatype", ":A")], [("DataProperty", "rdfs:label")]]
LABELS = ["g", "gen9", "gen3", "gen007", "gen12x", "gen99999999999999999", "gen999999999999999999", "gen1000000000000000000"]
LABELS += ["gen1000000000000000001", "gen1234567890123456789"]
LITERALS = ['"a"', '"a"@en', '"a"@de', '"1"^^xsd:integer', '"1"^^:T', '"a@en"^^rdf:PlainLiteral', '"a"^^xsd:string', '"l\nf\r\\"\\\\"']


class Maker:
    """Makes random documents, some of them with a name that is not declared, or that can't be said."""

    def __init__(self):
        self.labels = random.sample(LABELS, 3)
        self.literals = random.sample(LITERALS, 3)
        self.kinds = random.sample(AXIOMS, random.choice([2, len(AXIOMS)]))
        self.blemish = random.choice([{}, {}, UNDECLARED, RESERVED])
        self.blemished = random.choice(list(self.blemish) or [None])

    def name(self, sort):
        sort = SAME_NAMES.get(sort, sort)
        if sort == self.blemished and random.random() < 0.25:
            return self.blemish[sort]
        return random.choice(NAMES[sort])

    def declared(self):
        """What is declared, by kinds and names."""
        extra = [(KINDS[self.blemished], RESERVED[self.blemished])] if self.blemish is RESERVED and self.blemished != "f" else []
        return DECLARED + extra + (random.choice(CLASHES) if random.random() < 0.06 else [])

    def some(self, sort, least, depth):
        return [self.part(sort, depth) for _ in range(least + random.choice([0, 0, 0, 1, 2]))]

    def construct(self, names, depth):
        name = random.choice(names)
        return f"{name}({' '.join(self.parts(name, depth + 1))})"

    def part(self, sort, depth):
        deeper = random.random() < 0.45 and depth < 4
        if sort == "e":
            return "{}({})".format(*random.choice(DECLARED))
        if sort == "n":
            return str(random.choice([0, 1, 2**64 - 1]))
        if sort == "l" or sort == "v" and deeper:
            return random.choice(self.literals)
        if sort == "f":
            return f"{self.name('f')} {random.choice(self.literals)}"
        if sort == "h" and deeper:
            return self.construct(["ObjectPropertyChain"], depth)
        if sort in "ph" and deeper:
            return self.construct(["ObjectInverseOf"], depth)
        if sort in "cd" and deeper:
            return self.construct(CLASSES if sort == "c" else RANGES, depth)
        if sort in "isv" and random.random() < 0.3:
            return f"_:{random.choice(self.labels)}"
        return self.name({"h": "p", "v": "r"}.get(sort, sort))

    def parts(self, name, depth):
        """What stands in the brackets of a construct, without annotations."""
        parts = []
        for brace, sort, mark in re.findall(r"(\{?)(\w)(\}1?|\*|\?)?", PARTS[name]):
            if sort == "K":
                objects, data = self.some("p", 0, depth), self.some("q", 0, depth)
                parts += [f"({' '.join(objects)})", f"({' '.join(data if objects or data else [':d'])})"]
            elif name == "InverseObjectProperties" and brace:
                parts += [self.part(sort, depth), self.part(sort, depth)]
            elif brace:
                parts += self.some(sort, 1 if mark == "}1" else 2, depth)
            elif mark == "*":
                parts += self.some(sort, 1, depth)
            elif sort != "N" and (mark != "?" or random.random() < 0.6):
                parts.append(self.part(sort, depth))
        return parts

    def annotations(self, depth=0):
        return [self.annotation(depth) for _ in range(random.choice([0, 0, 1, 1, 2]))]

    def rare_annotations(self):
        return self.annotations() if random.random() < 0.2 else []

    def annotation(self, depth=0):
        inner = self.annotations(depth + 1) if depth < 3 and random.random() < 0.5 else []
        return f"Annotation({' '.join([*inner, self.name('a'), self.part('v', 2)])})"

    def axioms(self):
        """Axioms, some of them once more with other annotations."""
        bare = [(name, self.parts(name, 1)) for name in random.choices(self.kinds, k=random.choice([0, 1, 2, 3, 6]))]
        bare += [("DatatypeDefinition", [":T", self.construct(["DatatypeRestriction"], 1)])] * (self.blemished == "f")
        bare += random.choices(bare, k=random.choice([0, 1, 2])) if bare else []
        random.shuffle(bare)
        return [f"{name}({' '.join([*(self.annotations() if random.random() < 0.5 else []), *parts])})" for name, parts in bare]


PREFIXES = "Prefix(:=<http://e/>) Prefix(s:=<http://e/s/>) Prefix(owl.b:=<http://e/s/>)"


def documents():
    """The main document, and up to two that it may import, and that import each other. What is declared stands in one of them."""
    maker = Maker()
    count = random.choice([1, 1, 2, 3])
    names = [":o", ":m1", ":m2"][:count]
    declared = maker.declared()
    places = [random.randrange(count) if random.random() < 0.3 else 0 for _ in declared]
    for place in range(count):
        header = random.choice([":o", ":o", ":o :v", "s:o", ""]) if place == 0 else names[place]
        imports = [it for it in names[1:] if random.random() < 0.7] + [random.choice([":o", ":lost"])] * (random.random() < 0.08)
        entities = [f"{kind}({name})" for (kind, name), at in zip(declared, places) if at == place]
        axioms = [f"Declaration({' '.join([*maker.rare_annotations(), it])})" for it in entities]
        axioms += maker.axioms() if place == 0 else []
        random.shuffle(axioms)
        items = [header, *(f"Import({it})" for it in imports), *maker.rare_annotations(), *axioms]
        yield f"{'mik'[place]}.ofn", f"{PREFIXES} Ontology({' '.join(items)})"


def agrees():
    given = list(documents())
    partial = random.random() < 0.2
    status, output, line = second_mapping.outcome(given, partial)
    for name, text in given:
        with open(name, "wb") as file:
            file.write(text.encode())
    words = ["translate", "--to", "ttl"] + ["--partial"] * partial + [name for name, _ in given]
    done = subprocess.run([PROGRAM, *words], capture_output=True)
    told = done.returncode, done.stdout.decode(), done.stderr.decode()
    right = told == (status, output, line + "\n")
    if not right:
        print(words, *(f"\n{name}: {text!r}" for name, text in given), f"\n  wanted: {(status, output, line)}\n  owl:    {told}")
    return right, status


def main():
    count = int(sys.argv[1]) if len(sys.argv) > 1 else 2000
    random.seed(int(sys.argv[2]) if len(sys.argv) > 2 else 1)
    wrong, statuses = 0, {}
    with tempfile.TemporaryDirectory() as room:
        os.chdir(room)
        for _ in range(count):
            right, status = agrees()
            wrong += not right
            statuses[status] = statuses.get(status, 0) + 1
    print(f"{count} documents, {wrong} answered in two ways; by status", dict(sorted(statuses.items())))
    return wrong != 0


if __name__ == "__main__":
    sys.exit(main())
