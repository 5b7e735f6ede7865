#!/usr/bin/env python3
"""A second writer of Functional-Style Syntax, to compare owl with.

second_writer.py NAME writes the text that `owl translate --to fss NAME` has to
write, for a document that is one and has no imports: the trees of the OWL 2
Structural Specification by a table of its own, put in owl's order and written by
owl's rules. It shares no code or table with owl, and asks little of what it reads.
"""

import re
import sys

RDF = "http://www.w3.org/1999/02/22-rdf-syntax-ns#"
RDFS = "http://www.w3.org/2000/01/rdf-schema#"
XSD = "http://www.w3.org/2001/XMLSchema#"
OWL = "http://www.w3.org/2002/07/owl#"
FIXED = {"rdf": RDF, "rdfs": RDFS, "xsd": XSD, "owl": OWL}

# Keywords in the order of the numbers of their tags, from 12 on. What stands in
# brackets is a letter for each part; a part in braces is a set that has to be
# written with two members (or, behind a digit, with so many).
#
# c class expression, d data range, p object property expression, q data property,
# a annotation property, i individual, s subject, v value, l literal, n number,
# f facet pair, r plain IRI, C class, D datatype, P object property, e entity,
# h object property or chain, N annotations
ROWS = """
ObjectInverseOf P|ObjectPropertyChain pp*|ObjectIntersectionOf {c}|ObjectUnionOf {c}|ObjectComplementOf c|ObjectOneOf {i}1
ObjectSomeValuesFrom pc|ObjectAllValuesFrom pc|ObjectHasValue pi|ObjectHasSelf p
ObjectMinCardinality npc?|ObjectMaxCardinality npc?|ObjectExactCardinality npc?
DataSomeValuesFrom q*d|DataAllValuesFrom q*d|DataHasValue ql|DataMinCardinality nqd?|DataMaxCardinality nqd?|DataExactCardinality nqd?
DataIntersectionOf {d}|DataUnionOf {d}|DataComplementOf d|DataOneOf {l}1|DatatypeRestriction D{f}1
FacetPair -|ObjectKeys -|DataKeys -|Annotation Nav|Notes -
Declaration Ne|SubClassOf Ncc|EquivalentClasses N{c}|DisjointClasses N{c}|DisjointUnion NC{c}
SubObjectPropertyOf Nhp|EquivalentObjectProperties N{p}|DisjointObjectProperties N{p}|InverseObjectProperties N{p}
ObjectPropertyDomain Npc|ObjectPropertyRange Npc|FunctionalObjectProperty Np|InverseFunctionalObjectProperty Np
ReflexiveObjectProperty Np|IrreflexiveObjectProperty Np|SymmetricObjectProperty Np|AsymmetricObjectProperty Np|TransitiveObjectProperty Np
SubDataPropertyOf Nqq|EquivalentDataProperties N{q}|DisjointDataProperties N{q}|DataPropertyDomain Nqc|DataPropertyRange Nqd|FunctionalDataProperty Nq
DatatypeDefinition NDd|HasKey NcK|SameIndividual N{i}|DifferentIndividuals N{i}|ClassAssertion Nci
ObjectPropertyAssertion Npii|NegativeObjectPropertyAssertion Npii|DataPropertyAssertion Nqil|NegativeDataPropertyAssertion Nqil
AnnotationAssertion Nasv|SubAnnotationPropertyOf Naa|AnnotationPropertyDomain Nar|AnnotationPropertyRange Nar
""".replace("\n", "|").strip("|").split("|")
TAGS = {row.split()[0]: number for number, row in enumerate(ROWS, 12)}
PARTS = {row.split()[0]: row.split()[1] for row in ROWS}
NAMES = {number: name for name, number in TAGS.items()}
LEAVES = {"c": 1, "C": 1, "d": 2, "D": 2, "p": 3, "P": 3, "h": 3, "q": 4, "a": 5, "i": 6, "s": 8, "v": 8, "r": 8, "f": 11}
ENTITIES = ("Class", "Datatype", "ObjectProperty", "DataProperty", "AnnotationProperty", "NamedIndividual")
FACET_PAIR, OBJECT_KEYS, DATA_KEYS, NOTES = TAGS["FacetPair"], TAGS["ObjectKeys"], TAGS["DataKeys"], TAGS["Notes"]

TOKEN = re.compile(
    r'(?P<space>\s+|#[^\n\r]*)|(?P<iri><[^<>"{}|^`\\\s]*>)|(?P<string>"(?:[^"\\]|\\["\\])*")|(?P<caret>\^\^)|(?P<at>@[A-Za-z]+(?:-[A-Za-z0-9]+)*)'
    r"|(?P<blank>_:[\w.-]*[\w-])|(?P<name>[\w.-]*:(?:[\w.:-]*[\w:-])?)|(?P<number>\d+)|(?P<word>\w+)|(?P<sign>[()=])"
)


def tokens_of(text):
    at = 0
    while at < len(text):
        found = TOKEN.match(text, at)
        at = found.end()
        if found.lastgroup != "space":
            yield found.lastgroup, found.group()


class Trees:
    """Makes trees of tokens. A leaf is its tag and its atom, a node its tag and its kids, both as they are compared."""

    def __init__(self, text):
        self.tokens, self.next, self.prefixes = [*tokens_of(text.removeprefix("\ufeff"))], 0, dict(FIXED)

    def see(self, ahead=0):
        return self.tokens[self.next + ahead][1]

    def take(self):
        self.next += 1
        return self.tokens[self.next - 1]

    def iri(self):
        kind, text = self.take()
        if kind == "iri":
            return text[1:-1]
        prefix, _, local = text.partition(":")
        return self.prefixes[prefix] + local

    def literal(self):
        form = re.sub(r"\\(.)", r"\1", self.take()[1][1:-1])
        datatype, tag = XSD + "string", None
        if self.tokens[self.next][0] == "at":
            datatype, tag = RDF + "PlainLiteral", self.take()[1][1:]
        elif self.see() == "^^":
            self.take()
            datatype = self.iri()
            if datatype == RDF + "PlainLiteral":
                form, _, tag = form.rpartition("@")
                datatype, tag = (datatype, tag) if tag else (XSD + "string", None)
        return 9, (form.encode(), datatype.encode(), (tag is not None, (tag or "").encode()))

    def part(self, sort):
        kind, text = self.tokens[self.next]
        if kind == "string":
            return self.literal()
        if kind == "number":
            return 10, int(self.take()[1])
        if kind == "blank":
            return 7, self.take()[1][2:].encode()
        if sort == "e":
            tag = ENTITIES.index(self.take()[1]) + 1
            self.take()
            leaf = tag, self.iri().encode()
            self.take()
            return leaf
        if kind == "word":
            return self.construct()
        if sort == "f":
            return FACET_PAIR, [(11, self.iri().encode()), self.literal()]
        return LEAVES[sort], self.iri().encode()

    def rest(self, sort):
        parts = []
        while self.see() != ")":
            parts.append(self.part(sort))
        return parts

    def group(self, tag, sort):
        self.take()
        members = self.rest(sort)
        self.take()
        return tag, in_order(members)

    def notes(self):
        notes = []
        while self.see() == "Annotation":
            notes.append(self.construct())
        return NOTES, in_order(notes)

    def construct(self):
        name = self.take()[1]
        self.take()
        kids = []
        for sort, mark in re.findall(r"\{?(\w)(\}1?|\*|\?)?", PARTS[name]):
            if sort == "N":
                kids.append(self.notes())
            elif sort == "K":
                kids += [self.group(OBJECT_KEYS, "p"), self.group(DATA_KEYS, "q")]
            elif mark.startswith("}"):
                kids += in_order(self.rest(sort))
            elif mark == "*":
                kids += self.rest(sort)
                if sort == "q" and kids[-1][0] == 4:
                    kids[-1] = 2, kids[-1][1]
            elif mark == "?" or sort == "d" and name.endswith("ValuesFrom"):
                kids += self.rest(sort)
            else:
                kids.append(self.part(sort))
        self.take()
        return TAGS[name], kids

    def document(self):
        while self.see() == "Prefix":
            name = self.see(2)[:-1]
            self.prefixes[name] = self.see(4)[1:-1]
            self.next += 6
        self.next += 2
        names = []
        while self.tokens[self.next][0] in ("iri", "name"):
            names.append(self.iri())
        imports = []
        while self.see() == "Import":
            self.next += 2
            imports.append(self.iri().encode())
            self.take()
        items = self.rest("")
        return names, in_order(imports), in_order([it for it in items if it[0] == TAGS["Annotation"]]), in_order([it for it in items if it[0] >= 41])


def in_order(trees):
    kept = []
    for tree in sorted(trees):
        if not kept or kept[-1] != tree:
            kept.append(tree)
    return kept


class Writer:
    def __init__(self, prefixes):
        self.prefixes = {**{name: iri for name, iri in prefixes.items() if name not in FIXED}, **FIXED}

    def iri(self, iri):
        fits = [(-len(at), name, iri[len(at) :]) for name, at in self.prefixes.items() if iri.startswith(at)]
        fits = sorted((length, name.encode(), local) for length, name, local in fits if re.fullmatch(r"[A-Za-z_][A-Za-z0-9_-]*", local))
        return f"{fits[0][1].decode()}:{fits[0][2]}" if fits else f"<{iri}>"

    def literal(self, form, datatype, tag):
        text = '"' + re.sub(r'(["\\])', r"\\\1", form.decode()) + '"'
        if tag[0]:
            return text + "@" + tag[1].decode()
        datatype = datatype.decode()
        return text if datatype == XSD + "string" else f"{text}^^{self.iri(datatype)}"

    def tree(self, tree):
        tag, inside = tree
        if tag == 7:
            return "_:" + inside.decode()
        if tag == 9:
            return self.literal(*inside)
        if tag == 10:
            return str(inside)
        if tag < 12:
            return self.iri(inside.decode())
        if tag in (OBJECT_KEYS, DATA_KEYS):
            return f"({' '.join(self.tree(it) for it in inside)})"
        if tag in (NOTES, FACET_PAIR):
            return " ".join(self.tree(it) for it in inside)
        name = NAMES[tag]
        parts = [self.tree(it) for it in inside]
        if name == "Declaration":
            parts[1] = f"{ENTITIES[inside[1][0] - 1]}({parts[1]})"
        twice = re.search(r"\{\w\}(?!1)", PARTS[name])
        if twice and len(parts) == len(PARTS[name]) - 2:
            parts.append(parts[-1])
        return f"{name}({' '.join(filter(None, parts))})"

    def document(self, names, imports, annotations, axioms):
        lines = [f"Prefix({name}:=<{self.prefixes[name]}>)" for name in sorted(self.prefixes, key=str.encode)]
        lines.append("Ontology(" + " ".join(f"<{it}>" for it in names))
        lines += [f"Import(<{it.decode()}>)" for it in imports]
        lines += [self.tree(it) for it in annotations + axioms]
        return "\n".join([*lines, ")", ""])


def text_of(document):
    trees = Trees(document)
    parts = trees.document()
    return Writer(trees.prefixes).document(*parts)


if __name__ == "__main__":
    with open(sys.argv[1], encoding="utf-8", newline="") as file:
        sys.stdout.write(text_of(file.read()))
