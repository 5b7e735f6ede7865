#!/usr/bin/env python3
"""A second reader of Manchester Syntax, to compare owl with.

second_manchester.py COMMAND NAME.. does what `owl COMMAND NAME..` has to do, for the
commands `translate --to fss`, `translate --to ttl`, `check --profile PROFILE`, `show` and
`same`, over documents in Manchester Syntax and, beside them, documents in Functional-Style
Syntax that read and documents in Turtle that are a header and declarations, each statement
on a line of its own.

It goes by the OWL 2 Manchester Syntax (Second Edition, 2012), sections 2.1 to 2.6, with
owl's own choices, by recursive descent, and shares no code or table with owl. What frames
mean is given as the trees of the second writer, so that this writes them in
Functional-Style Syntax, and the second mapping draws them.

A token is a triple (kind, value, place). The kinds are "iri", "name", "blank", "string",
"tag", "word", "integer", "decimal", "keyword" (with its colon) and "sign"; the value of a
name is the pair of its prefix and its local part. What is read is an `Expression`: what it
is, its place, and its parts.
"""

import collections
import re
import sys

import second_mapping
import second_sorts
from second_mapping import ANNOTATION_PROPERTY, ANONYMOUS, CLASS, DATA_PROPERTY, DATATYPE, FACET, INDIVIDUAL, LITERAL, OBJECT_PROPERTY
from second_mapping import Document, Kinds, reached
from second_writer import DATA_KEYS, FACET_PAIR, FIXED, NOTES, OBJECT_KEYS, RDF, TAGS, XSD, Writer, in_order

PLAIN_IRI, NUMBER = 8, 10

MOST_NESTS, MOST_LEVELS, MOST_WEIGHT, MOST_BYTES, MOST_BYTES_IN_ALL = 512, 128, 2**24, 2**27, 2**28


class Defect(Exception):
    """Why the text of a document doesn't read, as a line has it."""


class Limit(Exception):
    """What there is too much of."""


class Fault(Exception):
    """Why frames mean no ontology, as a line has it."""


# Tokens. A byte at which no character begins is decoded as a lone surrogate, which stands in no token.

BASE = "A-Za-z\u00c0-\u00d6\u00d8-\u00f6\u00f8-\u02ff\u0370-\u037d\u037f-\u1fff\u200c-\u200d\u2070-\u218f\u2c00-\u2fef\u3001-\ud7ff"
BASE += "\uf900-\ufdcf\ufdf0-\ufffd\U00010000-\U000effff"
START = "_" + BASE
PART = START + "0-9\u00b7\u0300-\u036f\u203f-\u2040-"
NO_BYTES = "\ud800-\udfff"
ESCAPE = r"%[0-9A-Fa-f]{2}|\\[_~.\-!$&'()*+,;=/?#@%]"
PATTERNS = {
    "iri": rf'<[A-Za-z][A-Za-z0-9+.-]*:[^\x00-\x20<>"{{}}|^`\\{NO_BYTES}]*>',
    "name": rf"(?:[{BASE}](?:[{PART}.]*[{PART}])?)?:(?:(?:[{START}:0-9]|{ESCAPE})(?:(?:[{PART}.:]|{ESCAPE})*(?:[{PART}:]|{ESCAPE}))?)?",
    "blank": rf"_:[{START}0-9](?:[{PART}.]*[{PART}])?",
    "string": rf'"(?:[^"\\{NO_BYTES}]|\\["\\])*"',
    "tag": "@[A-Za-z]+(?:-[A-Za-z0-9]+)*",
    "word": rf"[{START}](?:[{PART}.]*[{PART}])?",
    "integer": "[+-]?[0-9]+",
    "decimal": r"[+-]?[0-9]+\.[0-9]+",
    "sign": r"[(){}\[\],]|\^\^|[<>]=?",
}
PATTERNS = {kind: re.compile(pattern) for kind, pattern in PATTERNS.items()}
BETWEEN = re.compile(rf"(?:[ \t\n\r]|#[^\n\r{NO_BYTES}]*)*")

FRAMES = ("Class", "Datatype", "ObjectProperty", "DataProperty", "AnnotationProperty", "Individual")
MISC = ("EquivalentClasses", "DisjointClasses", "EquivalentProperties", "DisjointProperties", "SameIndividual", "DifferentIndividuals")
KEYWORDS = {
    *("Prefix", "Ontology", "Import", "Annotations", *FRAMES, *MISC, "SubClassOf", "EquivalentTo", "DisjointWith", "DisjointUnionOf", "HasKey"),
    *("Domain", "Range", "Characteristics", "SubPropertyOf", "InverseOf", "SubPropertyChain", "Types", "Facts", "SameAs", "DifferentFrom"),
}
CHARACTERISTICS = ("Functional", "InverseFunctional", "Reflexive", "Irreflexive", "Symmetric", "Asymmetric", "Transitive")
DATATYPES = ("integer", "decimal", "float", "string")
FACETS = {
    "<=": XSD + "maxInclusive",
    "<": XSD + "maxExclusive",
    ">=": XSD + "minInclusive",
    ">": XSD + "minExclusive",
    **{name: XSD + name for name in ("length", "minLength", "maxLength", "pattern")},
    "langRange": RDF + "langRange",
}
WORDS = {"and", "or", "not", "that", "some", "only", "value", "Self", "min", "max", "exactly", "inverse", "o", "true", "false"}
WORDS |= {*DATATYPES, *CHARACTERISTICS, *(name for name in FACETS if name.isalpha())}


def value_of(kind, text):
    if kind in ("iri", "string"):
        text = text[1:-1]
        return re.sub(r"\\(.)", r"\1", text, flags=re.DOTALL) if kind == "string" else text
    if kind == "name":
        prefix, _, local = text.partition(":")
        return prefix, re.sub(r"\\(.)", r"\1", local)
    return text[2:] if kind == "blank" else text[1:] if kind == "tag" else text


def tokens_of(document):
    """The tokens of the bytes of a document, and how they end: a reason, or none at the end of the document, and a place."""
    text, tokens = document.decode("utf-8", "surrogateescape"), []
    ascii_only = text.isascii()
    at = here = 1 if text.startswith("\ufeff") else 0
    place = 3 * here
    while True:
        at = BETWEEN.match(text, at).end()
        place, here = place + (at - here if ascii_only else len(text[here:at].encode("utf-8", "surrogateescape"))), at
        if at == len(text):
            return tokens, (None, place)
        ends = {kind: found.end() for kind, pattern in PATTERNS.items() if (found := pattern.match(text, at))}
        if not ends:
            return tokens, ("BadUtf8" if "\udc80" <= text[at] <= "\udcff" else "BadToken", place)
        kind = max(ends, key=ends.get)
        value = value_of(kind, text[at : ends[kind]])
        kind = "keyword" if kind == "name" and value[1] == "" and value[0] in KEYWORDS else kind
        tokens.append((kind, value[0] + ":" if kind == "keyword" else value, place))
        at = ends[kind if kind != "keyword" else "name"]


# Reading

Expression = collections.namedtuple("Expression", "what at parts")
Note = collections.namedtuple("Note", "notes property value")
Part = collections.namedtuple("Part", "section notes body")
Item = collections.namedtuple("Item", "heading name parts")


class Raw:
    """What a document in Manchester Syntax has, before its names have kinds."""

    def __init__(self):
        self.prefixes, self.iris, self.imports, self.notes, self.items = dict(FIXED), [], [], [], []

    def declared(self):
        """The kinds and IRIs of the frames of names."""
        return {(FRAMES.index(it.heading) + 1, it.name.parts) for it in self.items if it.heading in FRAMES and it.name.what == "name"}


class Reader:
    def __init__(self, document):
        self.tokens, self.ending = tokens_of(document)
        self.next, self.item, self.open = 0, None, 0
        self.raw, self.declared = Raw(), set()

    # Tokens

    def peek(self):
        return self.tokens[self.next] if self.next < len(self.tokens) else (None, None, self.ending[1])

    def kind(self):
        return self.peek()[0]

    def at(self):
        return self.peek()[2]

    def fail(self, reason="NotHere", whole=False):
        """A defect at the next token. An item that is whole ends in front of a keyword that may begin one, and at the end."""
        kind, value, at = self.peek()
        if kind is None and self.ending[0]:
            reason, whole = self.ending[0], False
        ends = kind is None or kind == "keyword" and value != "Annotations:"
        item = at if self.item is None or whole and ends else self.item
        raise Defect(f"item at {item}: {reason} at {at}")

    def sees(self, kind, *values):
        token, value, _ = self.peek()
        return token == kind and value in values

    def take(self, kind, *values):
        """The value of the next token, which has to be of this kind and, where values are given, one of these."""
        token, value, _ = self.peek()
        if token != kind or values and value not in values:
            self.fail()
        self.next += 1
        return value

    def may_take(self, kind, *values):
        return self.take(kind) if self.sees(kind, *values) else None

    def nest(self, kind, *values):
        """Takes a token behind which something is open."""
        if self.sees(kind, *values) and self.open == MOST_NESTS:
            raise Limit("Depth")
        value = self.take(kind, *values)
        self.open += 1
        return value

    def unnest(self, kind=None, *values):
        if kind:
            self.take(kind, *values)
        self.open -= 1

    def keyword(self, *names):
        """The keyword that stands next, if it is one of these, which begins an item."""
        if not self.sees("keyword", *(f"{name}:" for name in names)):
            return None
        self.item = self.at()
        return self.take("keyword")[:-1]

    def list_of(self, part):
        parts = [part()]
        while self.may_take("sign", ","):
            parts.append(part())
        return parts

    # Names, individuals and literals

    def expanded(self, prefix, local):
        if prefix not in self.raw.prefixes:
            self.fail("UnknownPrefix")
        return self.raw.prefixes[prefix] + local

    def iri(self):
        kind, value, _ = self.peek()
        if kind not in ("iri", "name"):
            self.fail()
        value = value if kind == "iri" else self.expanded(*value)
        self.next += 1
        return value

    def is_name(self):
        kind, value, _ = self.peek()
        return kind in ("iri", "name") or kind == "word" and (value in DATATYPES or value not in WORDS)

    def name(self):
        kind, value, at = self.peek()
        if not self.is_name():
            self.fail()
        if kind == "word":
            iri = XSD + value if value in DATATYPES else self.expanded("", value)
            self.next += 1
        else:
            iri = self.iri()
        return Expression("name", at, iri)

    def individual(self):
        at = self.at()
        return Expression("blank", at, self.take("blank")) if self.kind() == "blank" else self.name()

    def is_literal(self):
        return self.kind() in ("string", "integer", "decimal") or self.sees("word", "true", "false")

    def literal(self):
        """A literal, with its lexical form, its datatype and its tag, or none."""
        kind, value, at = self.peek()
        if not self.is_literal():
            self.fail()
        self.next += 1
        if kind != "string":
            return Expression("literal", at, (value, XSD + ("boolean" if kind == "word" else kind), None))
        if self.kind() == "tag":
            return Expression("literal", at, (value, RDF + "PlainLiteral", self.take("tag")))
        if not self.may_take("sign", "^^"):
            return Expression("literal", at, (value, XSD + "string", None))
        stands = self.next
        datatype, tag = self.iri(), None
        if datatype == RDF + "PlainLiteral":
            # A form with a tag behind its last `@`, or with nothing there
            parted = re.fullmatch("(.*)@([A-Za-z]+(?:-[A-Za-z0-9]+)*)?", value, re.DOTALL)
            if parted:
                value, tag = parted.groups()
                datatype = datatype if tag else XSD + "string"
        if datatype == RDF + "langString" or datatype == RDF + "PlainLiteral" and tag is None:
            self.next = stands
            self.fail("BadLiteral")
        return Expression("literal", at, (value, datatype, tag))

    def value(self):
        """An individual or a literal."""
        return self.literal() if self.is_literal() else self.individual()

    # Annotations

    def notes(self):
        """The annotations in front of something, if there are any."""
        if not self.sees("keyword", "Annotations:"):
            return []
        self.nest("keyword", "Annotations:")
        notes = self.list_of(self.note)
        self.unnest()
        return notes

    def note(self):
        return Note(self.notes(), self.name(), self.value())

    # Expressions, section 2.3

    def is_property(self):
        return self.is_name() or self.sees("word", "inverse")

    def property(self):
        at = self.at()
        if not self.may_take("word", "inverse"):
            return self.name()
        if self.sees("sign", "("):
            self.nest("sign", "(")
            name = self.name()
            self.unnest("sign", ")")
        else:
            name = self.name()
        return Expression("inverse", at, name)

    def expression(self):
        return self.joined("or", self.conjunction)

    def joined(self, word, part):
        at, parts = self.at(), [part()]
        while self.may_take("word", word):
            parts.append(part())
        return Expression(word, at, parts) if len(parts) > 1 else parts[0]

    def conjunction(self):
        at = self.at()
        if not self.is_name():
            return self.joined("and", self.primary)
        first = self.name()
        if self.may_take("word", "that"):
            parts = [first, self.restriction_or_its_complement()]
            while self.may_take("word", "and"):
                parts.append(self.restriction_or_its_complement())
            return Expression("that", at, parts)
        parts = [self.behind_name(first)]
        while self.may_take("word", "and"):
            parts.append(self.primary())
        return Expression("and", at, parts) if len(parts) > 1 else parts[0]

    def complement(self, part):
        at = self.at()
        self.nest("word", "not")
        inner = part()
        self.unnest()
        return Expression("not", at, inner)

    def restriction_or_its_complement(self):
        return self.complement(self.restriction) if self.sees("word", "not") else self.restriction()

    def primary(self):
        return self.complement(self.restriction_or_atom) if self.sees("word", "not") else self.restriction_or_atom()

    def restriction_or_atom(self):
        at = self.at()
        if self.is_name():
            return self.behind_name(self.name())
        if self.sees("word", "inverse"):
            return self.restriction()
        if self.sees("sign", "{"):
            self.nest("sign", "{")
            if self.is_literal():
                members = Expression("literals", at, self.list_of(self.literal))
            else:
                members = Expression("individuals", at, self.list_of(self.individual))
            self.unnest("sign", "}")
            return members
        self.nest("sign", "(")
        inner = self.expression()
        self.unnest("sign", ")")
        return Expression("bracket", at, inner)

    def behind_name(self, name):
        """What begins with a name: a restriction, a datatype with facets, or the name alone."""
        if self.sees("sign", "["):
            self.nest("sign", "[")
            facets = self.list_of(self.facet)
            self.unnest("sign", "]")
            return Expression("restricted", name.at, [name, *facets])
        if self.sees("word", "some", "only", "value", "Self", "min", "max", "exactly"):
            return self.restricted(name)
        return name

    def facet(self):
        kind, value, _ = self.peek()
        if kind not in ("word", "sign") or value not in FACETS:
            self.fail()
        self.next += 1
        return FACETS[value], self.literal()

    def restriction(self):
        return self.restricted(self.property())

    def restricted(self, prop):
        if self.may_take("word", "value"):
            return Expression("value", prop.at, [prop, self.value()])
        if self.may_take("word", "Self"):
            return Expression("Self", prop.at, [prop])
        word = self.nest("word", "some", "only", "min", "max", "exactly")
        if word in ("some", "only"):
            parts = [prop, self.primary()]
        else:
            parts = [prop, self.digits()]
            if self.is_name() or self.sees("word", "not", "inverse") or self.sees("sign", "(", "{"):
                parts.append(self.primary())
        self.unnest()
        return Expression(word, prop.at, parts)

    def digits(self):
        kind, value, _ = self.peek()
        if kind != "integer" or not value.isdigit():
            self.fail()
        number = int(value)
        if number >= 2**64:
            raise Limit("Cardinality")
        self.next += 1
        return number

    # Frames, section 2.5, and miscellaneous items, section 2.6

    def noted(self, section, body):
        return Part(section, self.notes(), body())

    def whole(self, section, body):
        """A section with annotations in front of it as a whole."""
        return [self.noted(section, body)]

    def each(self, section, body):
        """A section that is a list, with annotations in front of each of its parts."""
        return self.list_of(lambda: self.noted(section, body))

    def two_or_more(self, part):
        at, parts = self.at(), [part()]
        self.take("sign", ",")
        return Expression("list", at, parts + self.list_of(part))

    def key(self):
        at, parts = self.at(), [self.property()]
        while self.is_property():
            parts.append(self.property())
        return Expression("list", at, parts)

    def chain(self):
        at, parts = self.at(), [self.property()]
        self.take("word", "o")
        parts.append(self.property())
        while self.may_take("word", "o"):
            parts.append(self.property())
        return Expression("list", at, parts)

    def characteristic(self, *names):
        at = self.at()
        return Expression("word", at, self.take("word", *names))

    def assertion(self):
        at = self.at()
        return Expression("assertion", at, [self.name(), self.value()])

    def fact(self):
        at = self.at()
        if self.sees("word", "not"):
            return Expression("no fact", at, self.complement(self.assertion).parts.parts)
        return Expression("fact", at, self.assertion().parts)

    def annotations_section(self):
        """An `Annotations:` section of a frame: an assertion for each part, which is no item of its own."""
        self.nest("keyword", "Annotations:")
        parts = self.each("Annotations", self.assertion)
        self.unnest()
        return parts

    def frame(self, heading):
        name = self.individual() if heading == "Individual" else self.name()
        sections, parts = dict(SECTIONS[heading]), []
        while True:
            if self.sees("keyword", "Annotations:"):
                parts += self.annotations_section()
                continue
            section = self.keyword(*sections)
            if section is None:
                return Item(heading, name, parts)
            parts += sections[section](self, section)
            if heading == "Datatype":
                del sections[section]

    def misc(self, heading):
        members = {"Classes": self.expression, "Properties": self.property}.get(re.sub("Equivalent|Disjoint", "", heading), self.individual)
        return Item(heading, None, self.whole("Members", lambda: self.two_or_more(members)))

    # Documents, section 2.4

    def declaration(self):
        kind, value, _ = self.peek()
        if kind != "name" or value[1] != "":
            self.fail()
        prefix = value[0]
        if prefix in self.declared:
            self.fail("PrefixTwice")
        self.next += 1
        if self.kind() != "iri":
            self.fail()
        iri = self.peek()[1]
        if FIXED.get(prefix, iri) != iri:
            self.fail("PrefixFixed")
        self.next += 1
        self.raw.prefixes[prefix] = iri
        self.declared.add(prefix)

    def document(self):
        while self.keyword("Prefix"):
            self.declaration()
        if not self.keyword("Ontology"):
            self.fail(whole=True)
        while self.kind() in ("iri", "name") and len(self.raw.iris) < 2:
            self.raw.iris.append(self.iri())
        while self.keyword("Import"):
            self.raw.imports.append(self.iri())
        while self.sees("keyword", "Annotations:"):
            self.raw.notes += self.notes()
        while heading := self.keyword(*FRAMES, *MISC):
            self.raw.items.append(self.frame(heading) if heading in FRAMES else self.misc(heading))
        if self.kind() is not None or self.ending[0]:
            self.fail(whole=True)
        return self.raw


R = Reader
CLASSES = lambda r, section: r.each(section, r.expression)
PROPERTIES = lambda r, section: r.each(section, r.property)
NAMES = lambda r, section: r.each(section, r.name)
INDIVIDUALS = lambda r, section: r.each(section, r.individual)
SECTIONS = {
    "Class": {
        "SubClassOf": CLASSES,
        "EquivalentTo": CLASSES,
        "DisjointWith": CLASSES,
        "DisjointUnionOf": lambda r, section: r.whole(section, lambda: r.two_or_more(r.expression)),
        "HasKey": lambda r, section: r.whole(section, r.key),
    },
    "Datatype": {"EquivalentTo": lambda r, section: r.whole(section, r.expression)},
    "ObjectProperty": {
        "Domain": CLASSES,
        "Range": CLASSES,
        "Characteristics": lambda r, section: r.each(section, lambda: r.characteristic(*CHARACTERISTICS)),
        "SubPropertyOf": PROPERTIES,
        "EquivalentTo": PROPERTIES,
        "DisjointWith": PROPERTIES,
        "InverseOf": PROPERTIES,
        "SubPropertyChain": lambda r, section: r.whole(section, r.chain),
    },
    "DataProperty": {
        "Domain": CLASSES,
        "Range": CLASSES,
        "Characteristics": lambda r, section: r.whole(section, lambda: r.characteristic("Functional")),
        "SubPropertyOf": NAMES,
        "EquivalentTo": NAMES,
        "DisjointWith": NAMES,
    },
    "AnnotationProperty": {"Domain": NAMES, "Range": NAMES, "SubPropertyOf": NAMES},
    "Individual": {
        "Types": CLASSES,
        "Facts": lambda r, section: r.each(section, r.fact),
        "SameAs": INDIVIDUALS,
        "DifferentFrom": INDIVIDUALS,
    },
}


def read(document):
    """What the bytes of a document are read as. A defect or a limit is raised."""
    if len(document) > MOST_BYTES:
        raise Limit("DocumentBytes")
    return Reader(document).document()


# What frames mean, under the kinds of a closure


def leaf(tag, text):
    return tag, text.encode()


def node(name, *kids):
    return TAGS[name], list(kids)


def with_set(name, front, members):
    return TAGS[name], [*front, *in_order(members)]


def literal_leaf(form, datatype, tag):
    return LITERAL, (form.encode(), datatype.encode(), (tag is not None, (tag or "").encode()))


class Meaning:
    """Trees of what was read, left to right, up to the first name or form that its place doesn't take."""

    def __init__(self, raw, kinds):
        self.raw, self.kinds = raw, kinds

    # Names

    def fault(self, name):
        """Of a name that has none of the kinds that its place takes."""
        others = [kind for kind in range(CLASS, INDIVIDUAL) if self.kinds.has(kind, name.parts)]
        raise Fault(f"{'WrongKind' if others else 'Untyped'} <{name.parts}> at {name.at}")

    def wrong_form(self, expression):
        raise Fault(f"WrongForm at {expression.at}")

    def of_kind(self, kind, name):
        if not self.kinds.has(kind, name.parts):
            self.fault(name)
        return leaf(kind, name.parts)

    def individual(self, expression):
        return leaf(ANONYMOUS if expression.what == "blank" else INDIVIDUAL, expression.parts)

    def literal(self, expression):
        return literal_leaf(*expression.parts)

    def annotation_value(self, expression):
        if expression.what == "literal":
            return self.literal(expression)
        return leaf(ANONYMOUS if expression.what == "blank" else PLAIN_IRI, expression.parts)

    def notes(self, notes):
        trees = [node("Annotation", self.notes(it.notes), self.annotation_property(it.property), self.annotation_value(it.value)) for it in notes]
        return NOTES, in_order(trees)

    def annotation_property(self, name):
        return self.of_kind(ANNOTATION_PROPERTY, name)

    def data_property(self, expression):
        if expression.what != "name":
            self.wrong_form(expression)
        return self.of_kind(DATA_PROPERTY, expression)

    def object_property(self, expression):
        if expression.what == "inverse":
            return node("ObjectInverseOf", self.of_kind(OBJECT_PROPERTY, expression.parts))
        return self.of_kind(OBJECT_PROPERTY, expression)

    def is_data(self, prop):
        """Whether a property of either kind is a data property."""
        return prop.what == "name" and self.kinds.has(DATA_PROPERTY, prop.parts)

    def either_property(self, prop):
        return self.data_property(prop) if self.is_data(prop) else self.object_property(prop)

    # Expressions

    def of_class(self, it):
        if it.what == "name":
            return self.of_kind(CLASS, it)
        if it.what == "bracket":
            return self.of_class(it.parts)
        if it.what in ("and", "that", "or"):
            return with_set("ObjectUnionOf" if it.what == "or" else "ObjectIntersectionOf", [], [self.of_class(part) for part in it.parts])
        if it.what == "not":
            return node("ObjectComplementOf", self.of_class(it.parts))
        if it.what == "individuals":
            return with_set("ObjectOneOf", [], [self.individual(part) for part in it.parts])
        if it.what in ("restricted", "literals"):
            self.wrong_form(it)
        return self.of_restriction(it)

    def of_restriction(self, it):
        prop, *rest = it.parts
        if it.what == "Self":
            return node("ObjectHasSelf", self.object_property(prop))
        sort, filler = ("Data", self.of_range) if self.is_data(prop) else ("Object", self.of_class)
        tree = self.either_property(prop)
        if it.what == "value":
            return node(f"{sort}HasValue", tree, self.value(sort == "Data", *rest))
        if it.what in ("some", "only"):
            return node(sort + {"some": "Some", "only": "All"}[it.what] + "ValuesFrom", tree, filler(*rest))
        number, *fillers = rest
        word = {"min": "Min", "max": "Max", "exactly": "Exact"}[it.what]
        return node(f"{sort}{word}Cardinality", (NUMBER, number), tree, *map(filler, fillers))

    def value(self, is_data, expression):
        """The value of a data property, or of an object property."""
        if (expression.what == "literal") != is_data:
            self.wrong_form(expression)
        return self.literal(expression) if is_data else self.individual(expression)

    def of_range(self, it):
        if it.what == "name":
            return self.of_kind(DATATYPE, it)
        if it.what == "bracket":
            return self.of_range(it.parts)
        if it.what in ("and", "that", "or"):
            return with_set("DataUnionOf" if it.what == "or" else "DataIntersectionOf", [], [self.of_range(part) for part in it.parts])
        if it.what == "not":
            return node("DataComplementOf", self.of_range(it.parts))
        if it.what == "literals":
            return with_set("DataOneOf", [], [self.literal(part) for part in it.parts])
        if it.what == "restricted":
            name, *facets = it.parts
            datatype = self.of_kind(DATATYPE, name)
            return with_set("DatatypeRestriction", [datatype], [(FACET_PAIR, [leaf(FACET, facet), self.literal(value)]) for facet, value in facets])
        return self.wrong_form(it)

    # Parts of frames and miscellaneous items

    def axioms_of(self, item):
        if item.heading in MISC:
            (part,) = item.parts
            notes = self.notes(part.notes)
            yield self.of_misc(item.heading, notes, part.body.parts)
            return
        kind = FRAMES.index(item.heading) + 1
        if item.name.what == "name":
            yield node("Declaration", (NOTES, []), leaf(kind, item.name.parts))
        for part in item.parts:
            notes = self.notes(part.notes)
            if part.section == "Annotations":
                yield self.annotation(notes, item.name, part.body)
            else:
                yield OF_FRAMES[item.heading](self, part.section, notes, self.subject(kind, item.name), part.body)

    def subject(self, kind, name):
        return leaf(ANONYMOUS if name.what == "blank" else kind, name.parts)

    def annotation(self, notes, name, body):
        about = leaf(ANONYMOUS if name.what == "blank" else PLAIN_IRI, name.parts)
        prop, value = body.parts
        return node("AnnotationAssertion", notes, self.annotation_property(prop), about, self.annotation_value(value))

    def of_class_frame(self, section, notes, subject, body):
        if section == "SubClassOf":
            return node(section, notes, subject, self.of_class(body))
        if section == "DisjointUnionOf":
            return with_set("DisjointUnion", [notes, subject], [self.of_class(it) for it in body.parts])
        if section == "HasKey":
            keys = [self.either_property(it) for it in body.parts]
            data = in_order(it for it in keys if it[0] == DATA_PROPERTY)
            return node(section, notes, subject, (OBJECT_KEYS, in_order(it for it in keys if it not in data)), (DATA_KEYS, data))
        name = {"EquivalentTo": "EquivalentClasses", "DisjointWith": "DisjointClasses"}[section]
        return with_set(name, [notes], [subject, self.of_class(body)])

    def of_datatype_frame(self, _, notes, subject, body):
        return node("DatatypeDefinition", notes, subject, self.of_range(body))

    def of_object_frame(self, section, notes, subject, body):
        if section in ("Domain", "Range"):
            return node("ObjectProperty" + section, notes, subject, self.of_class(body))
        if section == "Characteristics":
            return node(body.parts + "ObjectProperty", notes, subject)
        if section == "SubPropertyChain":
            chain = node("ObjectPropertyChain", *(self.object_property(it) for it in body.parts))
            return node("SubObjectPropertyOf", notes, chain, subject)
        other = self.object_property(body)
        if section == "SubPropertyOf":
            return node("SubObjectPropertyOf", notes, subject, other)
        name = {"EquivalentTo": "EquivalentObjectProperties", "DisjointWith": "DisjointObjectProperties", "InverseOf": "InverseObjectProperties"}[section]
        return with_set(name, [notes], [subject, other])

    def of_data_frame(self, section, notes, subject, body):
        if section == "Domain":
            return node("DataPropertyDomain", notes, subject, self.of_class(body))
        if section == "Range":
            return node("DataPropertyRange", notes, subject, self.of_range(body))
        if section == "Characteristics":
            return node("FunctionalDataProperty", notes, subject)
        other = self.data_property(body)
        if section == "SubPropertyOf":
            return node("SubDataPropertyOf", notes, subject, other)
        name = {"EquivalentTo": "EquivalentDataProperties", "DisjointWith": "DisjointDataProperties"}[section]
        return with_set(name, [notes], [subject, other])

    def of_annotation_frame(self, section, notes, subject, body):
        if section == "SubPropertyOf":
            return node("SubAnnotationPropertyOf", notes, subject, self.annotation_property(body))
        return node("AnnotationProperty" + section, notes, subject, leaf(PLAIN_IRI, body.parts))

    def of_individual_frame(self, section, notes, subject, body):
        if section == "Types":
            return node("ClassAssertion", notes, self.of_class(body), subject)
        if section == "Facts":
            prop, value = body.parts
            is_data = self.is_data(prop)
            tree = self.either_property(prop)
            name = ("Negative" if body.what == "no fact" else "") + ("Data" if is_data else "Object") + "PropertyAssertion"
            return node(name, notes, tree, subject, self.value(is_data, value))
        name = {"SameAs": "SameIndividual", "DifferentFrom": "DifferentIndividuals"}[section]
        return with_set(name, [notes], [subject, self.individual(body)])

    def of_misc(self, heading, notes, members):
        if heading.endswith("Classes"):
            return with_set(heading, [notes], [self.of_class(it) for it in members])
        if heading.endswith("Properties"):
            # The first one decides for all. An inverse is of an object property.
            sort, take = ("Data", self.data_property) if self.is_data(members[0]) else ("Object", self.object_property)
            return with_set(heading.replace("Properties", f"{sort}Properties"), [notes], [take(it) for it in members])
        name = {"SameIndividual": "SameIndividual", "DifferentIndividuals": "DifferentIndividuals"}[heading]
        return with_set(name, [notes], [self.individual(it) for it in members])

    def document(self):
        """The IRIs, imports, annotations and axioms of the ontology, as the second writer takes them."""
        clash = self.kinds.clash()
        if clash:
            raise Fault(f"TwoKinds <{clash}>")
        _, annotations = self.notes(self.raw.notes)
        axioms = in_order(axiom for item in self.raw.items for axiom in self.axioms_of(item))
        trees = annotations + axioms
        if any(depth_of(it) > MOST_LEVELS for it in trees):
            raise Limit("Depth")
        if sum(map(weight_of, trees)) > MOST_WEIGHT:
            raise Limit("Weight")
        return self.raw.iris, in_order(it.encode() for it in self.raw.imports), annotations, axioms


OF_FRAMES = {
    "Class": Meaning.of_class_frame,
    "Datatype": Meaning.of_datatype_frame,
    "ObjectProperty": Meaning.of_object_frame,
    "DataProperty": Meaning.of_data_frame,
    "AnnotationProperty": Meaning.of_annotation_frame,
    "Individual": Meaning.of_individual_frame,
}


def kids_of(tree):
    return tree[1] if isinstance(tree[1], list) else []


def depth_of(tree):
    return 1 + max(map(depth_of, kids_of(tree)), default=0)


def weight_of(tree):
    return 1 + sum(map(weight_of, kids_of(tree)))


def subtrees_of(tree):
    yield tree
    for kid in kids_of(tree):
        yield from subtrees_of(kid)


# Documents of the three syntaxes, and what is told of them


class ManchesterDocument(Document):
    """A document in Manchester Syntax, which has its axioms once the kinds of its closure are known."""

    def __init__(self, name, document):
        self.name, self.raw = name, read(document)
        self.iris, self.imports, self.prefixes = self.raw.iris, in_order(it.encode() for it in self.raw.imports), self.raw.prefixes

    def declared(self):
        return self.raw.declared()

    def mean(self, kinds):
        _, _, self.annotations, self.axioms = Meaning(self.raw, kinds).document()


class FunctionalDocument(Document):
    def __init__(self, name, document):
        super().__init__(name, document.decode())

    def declared(self):
        return Kinds([self]).declared

    def mean(self, kinds):
        pass


class TurtleDocument(Document):
    """A document in Turtle of lines `@prefix NAME: <IRI> .` and `SUBJECT PREDICATE OBJECT .`, which declare and import."""

    TYPES = {second_mapping.full(name): kind for kind, name in second_mapping.TYPES_OF_ENTITIES.items()}

    def __init__(self, name, document):
        self.name, self.prefixes, self.iris, self.imports, self.annotations, self.axioms = name, {}, [], [], [], []
        for line in document.decode().splitlines():
            first, *others = line.split(" ")[:-1]
            if first == "@prefix":
                self.prefixes[others[0][:-1]] = others[1][1:-1]
            else:
                self.add(*map(self.full, (first, *others)))
        self.imports, self.axioms = in_order(self.imports), in_order(self.axioms)

    def full(self, name):
        prefix, _, local = name.partition(":")
        return RDF + "type" if name == "a" else name[1:-1] if name.startswith("<") else self.prefixes[prefix] + local

    def add(self, subject, predicate, value):
        if value == second_mapping.full("owl:Ontology"):
            self.iris.append(subject)
        elif predicate == second_mapping.full("owl:imports"):
            self.imports.append(value.encode())
        else:
            self.axioms.append(node("Declaration", (NOTES, []), leaf(self.TYPES[value], subject)))

    def declared(self):
        return Kinds([self]).declared

    def mean(self, kinds):
        clash = kinds.clash()
        if clash:
            raise Fault(f"TwoKinds <{clash}>")


SYNTAXES = {".ofn": FunctionalDocument, ".ttl": TurtleDocument, ".omn": ManchesterDocument}


class Refusal(Exception):
    """The status and the line of documents that don't read."""


def document_of(name, text):
    try:
        return SYNTAXES[name[-4:]](name, text)
    except Defect as defect:
        raise Refusal(3, f"{name}: {defect}") from None
    except Limit as limit:
        raise Refusal(5, f"limit: {limit}: {name}") from None


def documents_of(texts):
    read_bytes, documents = 0, []
    for name, text in texts:
        read_bytes += len(text)
        if len(text) <= MOST_BYTES and read_bytes > MOST_BYTES_IN_ALL:
            raise Refusal(5, f"limit: AllBytes: {name}")
        documents.append(document_of(name, text))
    return documents


def kinds_of(documents):
    kinds = Kinds([])
    kinds.declared = set().union(*(it.declared() for it in documents))
    return kinds


def mean(document, kinds):
    try:
        document.mean(kinds)
    except Fault as fault:
        raise Refusal(3, f"{document.name}: {fault}") from None
    except Limit as limit:
        raise Refusal(5, f"limit: {limit}: {document.name}") from None


def closure_of(documents, partial):
    """The documents that the first one reaches, each with its axioms, and their kinds."""
    found, missing = reached(documents)
    if missing and not partial:
        raise Refusal(3, f"{missing[0]}: MissingImport <{missing[1]}>")
    kinds = kinds_of(found)
    for document in found:
        mean(document, kinds)
    return found, kinds


def translation(target, documents, kinds):
    document = documents[0]
    if target != "fss" or not isinstance(document, FunctionalDocument):
        clash = kinds.clash()
        refusal = f"typing: TwoKinds <{clash}>" if clash else second_mapping.undeclared(document, kinds)
        refusal = refusal or target == "ttl" and second_mapping.unsayable(document)
        if refusal:
            raise Refusal(4, refusal)
    if target == "ttl":
        return 0, *second_mapping.translation(document)
    text = Writer(document.prefixes).document(document.iris, document.imports, document.annotations, document.axioms)
    return 0, text, f"translated; axioms {len(document.axioms)}; absorbed 0"


def shown(document):
    trees = document.annotations + document.axioms
    names = [f"<{it}>" for it in document.iris] + ["none"] * (2 - len(document.iris))
    distinct = len({repr(it) for tree in trees for it in subtrees_of(tree)})
    counts = [("imports", len(document.imports)), ("annotations", len(document.annotations)), ("axioms", len(document.axioms))]
    counts += [("distinct", distinct), ("weight", sum(map(weight_of, trees)))]
    lines = [f"ontology {names[0]}", f"version {names[1]}", *(f"{name} {number}" for name, number in counts)]
    return 0, "\n".join([*lines, ""]), "shown"


def compared(documents):
    for document in documents:
        mean(document, kinds_of([document]))
    a, b = ((it.iris, it.imports, it.annotations, it.axioms) for it in documents)
    word = "same" if a == b else "different"
    return int(a != b), word + "\n", word


def checked(profile, documents, given):
    found = second_sorts.breaches(profile.upper(), given)
    verdict = f"no; breaches {len(found)}" if found else "yes"
    return int(bool(found)), ("no\n" if found else "yes\n") + second_sorts.lines_of(found), f"profile {profile}: {verdict}"


def outcome(words, texts):
    """The status, the output and the line of a command, its words without names, for names with their bytes."""
    partial = words[-1] == "--partial"
    try:
        documents = documents_of(texts)
        if words[0] == "same":
            return compared(documents)
        found, kinds = closure_of(documents, partial)
        if words[0] == "show":
            return shown(documents[0])
        if words[0] == "check":
            return checked(words[2], found, documents)
        return translation(words[2], documents, kinds)
    except Refusal as refusal:
        status, line = refusal.args
        return status, "", line


sys.setrecursionlimit(20000)


def main(words, outcome=outcome):
    named = [word for word in words if word[-4:] in SYNTAXES]
    texts = []
    for name in named:
        with open(name, "rb") as file:
            texts.append((name, file.read()))
    status, output, line = outcome(words[: len(words) - len(named)], texts)
    sys.stdout.buffer.write(output.encode())
    print(line, file=sys.stderr)
    return status


if __name__ == "__main__":
    sys.exit(main(sys.argv[1:]))
