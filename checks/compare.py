#!/usr/bin/env python3
"""Compares owl with a second reader and a second writer, on random documents.

compare.py [COUNT [SEED [PROGRAM]]]: so many documents, 2000 if left out, three of
four of them with wrong tokens. For each, the program, bin/owl if left out, and the
second reader have to agree that it reads, or on the item, the place and the reason
of its first defect. What reads is translated, byte for byte to what the second
writer makes of it, and has to be the same as its translation.
"""

import os
import random
import subprocess
import sys
import tempfile

import second_reader
import second_writer

TOP = os.path.dirname(os.path.dirname(os.path.abspath(__file__)))
PROGRAM = os.path.abspath(sys.argv[3]) if len(sys.argv) > 3 else os.path.join(TOP, "bin", "owl")
OPEN, CLOSE = ("(", None), (")", None)


def word(text):
    return ("word", text)


def name(prefix, local):
    return ("name", (prefix, local))


def construct(keyword, parts):
    return [word(keyword), OPEN, *parts, CLOSE]


class Maker:
    """Makes random documents, as lists of tokens."""

    def __init__(self, chance):
        self.chance = chance

    def some(self, part, least):
        return [token for _ in range(least + self.chance.choice([0, 0, 1, 2])) for token in part()]

    def maybe(self, part, odds=0.5):
        return part() if self.chance.random() < odds else []

    def iri(self):
        return [self.chance.choice([name("", "A"), name("", "b"), name("e", "x1"), name("owl", "Thing"), ("iri", "http://e/q")])]

    def literal(self):
        return self.chance.choice([
            [("string", "a b")],
            [("string", "x"), ("tag", "en")],
            [("string", "1"), ("^^", None), name("xsd", "integer")],
        ])

    def individual(self):
        return [("blank", "g")] if self.chance.random() < 0.3 else self.iri()

    def object_property(self):
        return construct("ObjectInverseOf", self.iri()) if self.chance.random() < 0.25 else self.iri()

    def a_class(self, depth=0):
        if depth > 3 or self.chance.random() < 0.5:
            return self.iri()
        inner = lambda: self.a_class(depth + 1)
        keyword = self.chance.choice(sorted(second_reader.CLASSES))
        if keyword in ("ObjectIntersectionOf", "ObjectUnionOf"):
            parts = self.some(inner, 2)
        elif keyword == "ObjectComplementOf":
            parts = inner()
        elif keyword == "ObjectOneOf":
            parts = self.some(self.individual, 1)
        elif keyword in ("ObjectSomeValuesFrom", "ObjectAllValuesFrom"):
            parts = self.object_property() + inner()
        elif keyword == "ObjectHasValue":
            parts = self.object_property() + self.individual()
        elif keyword == "ObjectHasSelf":
            parts = self.object_property()
        elif keyword.startswith("Object"):
            parts = [("number", "3")] + self.object_property() + self.maybe(inner)
        elif keyword in ("DataSomeValuesFrom", "DataAllValuesFrom"):
            parts = self.some(self.iri, 1) + self.a_range(depth)
        elif keyword == "DataHasValue":
            parts = self.iri() + self.literal()
        else:
            parts = [("number", "2")] + self.iri() + self.maybe(lambda: self.a_range(depth))
        return construct(keyword, parts)

    def a_range(self, depth=0):
        if depth > 3 or self.chance.random() < 0.5:
            return self.iri()
        inner = lambda: self.a_range(depth + 1)
        keyword = self.chance.choice(sorted(second_reader.RANGES))
        if keyword == "DataComplementOf":
            parts = inner()
        elif keyword == "DataOneOf":
            parts = self.some(self.literal, 1)
        elif keyword == "DatatypeRestriction":
            parts = self.iri() + self.some(lambda: self.iri() + self.literal(), 1)
        else:
            parts = self.some(inner, 2)
        return construct(keyword, parts)

    def annotation_value(self):
        return self.chance.choice([self.literal, self.individual])()

    def annotation(self, depth=0):
        inner = self.maybe(lambda: self.some(lambda: self.annotation(depth + 1), 0), 0.2) if depth < 3 else []
        return construct("Annotation", inner + self.iri() + self.annotation_value())

    def axiom_parts(self, keyword):
        if keyword == "Declaration":
            return construct(self.chance.choice(second_reader.ENTITIES), self.iri())
        if keyword == "SubClassOf":
            return self.a_class() + self.a_class()
        if keyword in ("EquivalentClasses", "DisjointClasses"):
            return self.some(self.a_class, 2)
        if keyword == "DisjointUnion":
            return self.iri() + self.some(self.a_class, 2)
        if keyword == "SubObjectPropertyOf":
            chain = lambda: construct("ObjectPropertyChain", self.some(self.object_property, 2))
            return (self.maybe(chain) or self.object_property()) + self.object_property()
        if keyword in ("EquivalentObjectProperties", "DisjointObjectProperties"):
            return self.some(self.object_property, 2)
        if keyword == "InverseObjectProperties":
            return self.object_property() + self.object_property()
        if keyword in ("ObjectPropertyDomain", "ObjectPropertyRange"):
            return self.object_property() + self.a_class()
        if keyword in ("EquivalentDataProperties", "DisjointDataProperties"):
            return self.some(self.iri, 2)
        if keyword == "DataPropertyDomain":
            return self.iri() + self.a_class()
        if keyword in ("DataPropertyRange", "DatatypeDefinition"):
            return self.iri() + self.a_range()
        if keyword == "FunctionalDataProperty":
            return self.iri()
        if keyword == "HasKey":
            return self.a_class() + [OPEN, *self.some(self.object_property, 0), CLOSE, OPEN, *self.some(self.iri, 0), CLOSE]
        if keyword in ("SameIndividual", "DifferentIndividuals"):
            return self.some(self.individual, 2)
        if keyword == "ClassAssertion":
            return self.a_class() + self.individual()
        if keyword.endswith("ObjectPropertyAssertion"):
            return self.object_property() + self.individual() + self.individual()
        if keyword.endswith("DataPropertyAssertion"):
            return self.iri() + self.individual() + self.literal()
        if keyword == "AnnotationAssertion":
            return self.iri() + self.individual() + self.annotation_value()
        if keyword.endswith("ObjectProperty"):
            return self.object_property()
        return self.iri() + self.iri()

    def axiom(self):
        keyword = self.chance.choice(sorted(second_reader.AXIOMS))
        return construct(keyword, self.maybe(lambda: self.some(self.annotation, 0), 0.25) + self.axiom_parts(keyword))

    def document(self):
        tokens = construct("Prefix", [name("", ""), ("=", None), ("iri", "http://e/")])
        tokens += construct("Prefix", [name("e", ""), ("=", None), ("iri", "http://f/")])
        header = self.chance.choice([[], self.iri(), self.iri() + self.iri()])
        imports = self.maybe(lambda: self.some(lambda: construct("Import", self.iri()), 0), 0.2)
        items = imports + self.some(self.annotation, 0) + self.some(self.axiom, self.chance.choice([1, 2, 3]))
        return tokens + construct("Ontology", header + items)

    def other_token(self):
        words = [*second_reader.CLASSES, *second_reader.RANGES, *second_reader.AXIOMS, *second_reader.ENTITIES]
        words += ["Annotation", "Import", "Ontology", "Prefix", "ObjectInverseOf", "ObjectPropertyChain", "Foo"]
        tokens = [OPEN, CLOSE, ("=", None), ("^^", None), ("string", "s"), ("tag", "de"), ("number", "7"), ("blank", "h")]
        tokens += [name("z", "Q"), name("rdf", "langString"), name("", "C"), ("iri", "http://e/z")]
        return self.chance.choice(tokens) if self.chance.random() < 0.7 else word(self.chance.choice(words))

    def wrong(self, tokens):
        at = self.chance.randrange(len(tokens))
        way = self.chance.randrange(10)
        if way < 3:
            return tokens[:at] + tokens[at + 1:]
        if way < 6:
            return tokens[:at] + [self.other_token()] + tokens[at + 1:]
        if way < 8:
            return tokens[:at] + [self.other_token()] + tokens[at:]
        if way < 9:
            return tokens[:at] + tokens[at + 1:at + 2] + tokens[at:at + 1] + tokens[at + 2:]
        return tokens[:at]

    def text(self, tokens):
        """The text of the tokens, and the tokens with their places."""
        text, placed = "", []
        for kind, value in tokens:
            if not text.endswith(("(", ")", "\n")) or self.chance.random() < 0.9:
                text += self.chance.choice([" ", "\n", "  ", " # a comment\n"])
            placed.append((kind, value, len(text)))
            text += SHOWN[kind](value)
        return text, placed


SHOWN = {
    "word": str,
    "iri": lambda iri: f"<{iri}>",
    "name": lambda pair: f"{pair[0]}:{pair[1]}",
    "blank": lambda label: f"_:{label}",
    "string": lambda text: f'"{text}"',
    "tag": lambda tag: f"@{tag}",
    "number": str,
    "(": lambda _: "(",
    ")": lambda _: ")",
    "=": lambda _: "=",
    "^^": lambda _: "^^",
}


def owl(*words):
    done = subprocess.run([PROGRAM, *words], capture_output=True, text=True)
    return done.returncode, done.stdout, done.stderr.strip()


def answer():
    """What owl says of the document, and its translation if there is one."""
    status, text, line = owl("translate", "--to", "fss", "--partial", "m.ofn")
    if status == 0:
        return "reads", text
    line = line.removeprefix("m.ofn: ")
    return line, None


def agrees(text, placed):
    with open("m.ofn", "w") as document:
        document.write(text)
    wanted = second_reader.read(placed, len(text))
    told, translation = answer()
    if told != wanted:
        print(f"{text!r}\n  second reader: {wanted}\n  owl:           {told}")
        return False
    if translation is not None:
        again = second_writer.text_of(text)
        if translation != again:
            print(f"{text!r}\n  second writer: {again!r}\n  owl:           {translation!r}")
            return False
        with open("k.ofn", "w") as document:
            document.write(translation)
        if owl("same", "m.ofn", "k.ofn")[1] != "same\n":
            print(f"{text!r}\n  is not the same as its translation")
            return False
    return True


def main():
    count = int(sys.argv[1]) if len(sys.argv) > 1 else 2000
    maker = Maker(random.Random(int(sys.argv[2]) if len(sys.argv) > 2 else 1))
    wrong = 0
    with tempfile.TemporaryDirectory() as room:
        os.chdir(room)
        for _ in range(count):
            tokens = maker.document()
            for _ in range(maker.chance.choice([0, 1, 1, 2])):
                tokens = maker.wrong(tokens) or tokens
            wrong += not agrees(*maker.text(tokens))
    print(f"{count} documents, {wrong} answered in two ways")
    sys.exit(wrong != 0)


if __name__ == "__main__":
    main()
