#!/usr/bin/env python3
"""Compares owl with a second reading of the rules of OWL 2 DL, EL, QL and RL, on random closures.

profiles.py [COUNT [SEED [PROGRAM]]]: so many calls, 500 if left out, each of one to three
documents and for one of the four profiles, made for what its rules look at, and behind a
few that have each literal, facet and built-in name, for each profile. Some name a document
that is not reached, or miss an import, with --partial or without, and some documents are
in Turtle, as the second mapping draws them. The program, bin/owl if left out, has to end
with the status, the output and the line of the second readings.

profiles.py --axioms COUNT [SEED [PROGRAM]] does the same with at least so many axioms, in
documents of some 500 that each are checked for EL, QL or RL in turn.

profiles.py --cases FOLDER COUNT SEED writes single documents into FOLDER, and into
FOLDER.expected what has to be told of each by the rules of DL: a line for each breach, and
their number. profiles.py --compare FOLDER OUTPUT compares what was told, each behind a
line `== NAME`.
"""

import copy
import itertools
import os
import random
import re
import shutil
import subprocess
import sys
import tempfile

import second_rules
import second_sorts
from mapping import AXIOMS, CLASSES, KINDS, RANGES, RESERVED, Maker
from second_mapping import NAMES_BUILT_IN, Document, Kinds, normal_form, reached, translation, undeclared, unsayable

TOP = os.path.dirname(os.path.dirname(os.path.abspath(__file__)))

# Axioms that go together. A kind that stands more often is made more often.

PROPERTIES = "EquivalentObjectProperties InverseObjectProperties SymmetricObjectProperty TransitiveObjectProperty ReflexiveObjectProperty".split()
PROPERTIES += ["SubObjectPropertyOf"] * 4
HIERARCHY = PROPERTIES + ["SubObjectPropertyOf"] * 9 + ["FunctionalObjectProperty", "AsymmetricObjectProperty", "DisjointObjectProperties"]
ASKING = """FunctionalObjectProperty InverseFunctionalObjectProperty IrreflexiveObjectProperty AsymmetricObjectProperty
    DisjointObjectProperties SubClassOf ObjectPropertyDomain TransitiveObjectProperty SubObjectPropertyOf HasKey""".split()
DATATYPES = "DatatypeDefinition DatatypeDefinition DataPropertyRange DataPropertyAssertion SubClassOf Declaration AnnotationAssertion".split()
DATA = """SubDataPropertyOf EquivalentDataProperties DisjointDataProperties DataPropertyDomain FunctionalDataProperty HasKey SubClassOf
    SubClassOf DataPropertyAssertion NegativeDataPropertyAssertion DataPropertyRange ClassAssertion""".split()
WALKS = ["ObjectPropertyAssertion"]
INDIVIDUALS = "ClassAssertion SameIndividual DifferentIndividuals NegativeObjectPropertyAssertion".split() + WALKS * 4
EXPRESSIONS = """SubClassOf ClassAssertion ObjectPropertyRange DataPropertyDomain DataPropertyRange DataPropertyAssertion
    EquivalentClasses DisjointUnion""".split()
NOTES = "Declaration AnnotationAssertion SubAnnotationPropertyOf AnnotationPropertyDomain AnnotationPropertyRange".split()
THEMES = [PROPERTIES, ASKING, DATATYPES, DATATYPES, DATATYPES, DATA, DATA, INDIVIDUALS, WALKS, EXPRESSIONS, NOTES, AXIOMS]

# Class expressions that some documents have alone

NESTS = "ObjectIntersectionOf ObjectComplementOf ObjectSomeValuesFrom "
SHAPES = "DataSomeValuesFrom DataAllValuesFrom DataHasValue DataMinCardinality DataMaxCardinality DataExactCardinality"
SHAPES = [SHAPES, SHAPES + " ObjectUnionOf", NESTS + "ObjectHasSelf ObjectMinCardinality ObjectMaxCardinality ObjectExactCardinality"]
SHAPES = [it.split() for it in [*SHAPES, NESTS + "ObjectOneOf ObjectHasValue"]] + [CLASSES]

# Names by the letter of the second writer: what a document may declare, and what is built in

OWN = {"c": [":A", ":B"], "p": [":p", ":q", ":r", ":s", ":t"], "q": [":d", ":e"], "a": [":n"], "i": [":i", ":j"], "d": [":T", ":U", ":V"]}
BUILT_IN = {
    "c": ["owl:Thing", "owl:Nothing"],
    "p": ["owl:topObjectProperty", "owl:bottomObjectProperty"],
    "q": ["owl:bottomDataProperty"],
    "a": ["rdfs:label", "owl:versionInfo"],
    "i": [],
    "d": ["xsd:integer", "xsd:string", "rdfs:Literal", "owl:real", "rdf:PlainLiteral", "rdf:XMLLiteral", "xsd:boolean", "xsd:anyURI"],
    "f": ["xsd:minInclusive", "xsd:maxExclusive", "xsd:pattern", "xsd:length", "rdf:langRange", "xsd:totalDigits", ":f"],
    "r": [":i", ":A", ":o", "owl:Class"],
}
MISPLACED = {
    "c": [RESERVED["c"], "xsd:integer", "rdfs:Literal", "owl:topObjectProperty", "rdf:List"],
    "p": [RESERVED["p"], "owl:topDataProperty", "rdfs:label", "owl:Thing"],
    "q": [RESERVED["q"], "owl:topObjectProperty", "xsd:d"],
    "a": [RESERVED["a"], "owl:topDataProperty", "rdfs:range"],
    "i": [RESERVED["i"], "owl:Thing", "xsd:integer", "rdf:nil"],
    "d": ["rdf:langString", "xsd:date", "owl:Thing", "rdfs:Datatype", "xsd:"],
}
SAME_NAMES = {"C": "c", "D": "d", "P": "p", "s": "r", "h": "p", "v": "r"}
CLASHES = [("DataProperty", ":p"), ("AnnotationProperty", ":p"), ("AnnotationProperty", ":d"), ("ObjectProperty", ":n"), ("Datatype", ":A")]
CLASHES += [("Class", ":T"), ("DataProperty", "rdfs:label"), ("Class", "xsd:integer"), ("ObjectProperty", "owl:topDataProperty")]
CLASHES += [("DataProperty", "owl:topDataProperty"), ("Class", "owl:Thing"), ("ObjectProperty", "owl:topObjectProperty"), ("Datatype", "xsd:int")]
CLASHES += [("Datatype", "owl:Thing"), ("NamedIndividual", ":A"), ("Class", ":p"), ("Datatype", ":d"), ("AnnotationProperty", ":i")]

# Lexical forms by the local names of their datatypes

RIGHT = {
    "integer": "1 +0 -00 123456789012345678901234567890",
    "nonNegativeInteger": "-0 7",
    "nonPositiveInteger": "+0 -7",
    "positiveInteger": "1",
    "negativeInteger": "-1",
    "long": "9223372036854775807 -9223372036854775808",
    "int": "2147483647 -2147483648",
    "short": "32767 -32768",
    "byte": "+007 127 -128",
    "unsignedLong": "18446744073709551615 -0",
    "unsignedInt": "4294967295",
    "unsignedShort": "0000000000000000000065535",
    "unsignedByte": "255 +0",
    "decimal": "1 1. -.5 +00.10",
    "boolean": "0 1 true false",
    "double": "a",
    "dateTime": "a",
    "anyURI": "a",
}
WRONG = {
    "integer": "a 1.0 + - 1e1 0x1 --1 \u0663 1\u00a0",
    "nonNegativeInteger": "-1",
    "nonPositiveInteger": "1",
    "positiveInteger": "0 -0",
    "negativeInteger": "0 -0",
    "long": "9223372036854775808 -9223372036854775809",
    "int": "2147483648 -2147483649",
    "short": "32768 -32769",
    "byte": "128 -129",
    "unsignedLong": "18446744073709551616 -1",
    "unsignedInt": "4294967296",
    "unsignedShort": "65536 123456789012345678901234567890",
    "unsignedByte": "256 -1",
    "decimal": ". - +. 1.2.3 1e1 1,5",
    "boolean": "TRUE 00 yes",
}


def literals_of(forms):
    return [f'"{form}"^^xsd:{name}' for name, row in forms.items() for form in row.split(" ")]


RIGHT_FORMS = ['"a"', '"a"@en', '"x@de"^^rdf:PlainLiteral', '"a"^^rdf:XMLLiteral', '"q"^^owl:rational', '"l\\"\n"', *literals_of(RIGHT)]
WRONG_FORMS = ['""^^xsd:integer', '" 1"^^xsd:integer', '"1\n"^^xsd:integer', '""^^xsd:decimal', '"true "^^xsd:boolean', *literals_of(WRONG)]
WRONG_TYPES = [f'"1"^^{name}' for name in ("xsd:date", ":T", ":U", "rdfs:Literal", "owl:Thing", ":undeclared")]
FITTING = ["xsd:integer xsd:minInclusive", "xsd:string xsd:length", "rdf:PlainLiteral rdf:langRange"]
FITTING += ["owl:real xsd:maxExclusive", "xsd:anyURI xsd:pattern", "xsd:hexBinary xsd:maxLength"]

# What EL, QL and RL let stand, by words for what their grammars tell apart. The first of each is a name.

VALUES = "ObjectHasValue({p} {i})|DataHasValue({q} {literal})"
ABOVE = "ObjectPropertyDomain({p} {above})|ObjectPropertyRange({p} {above})|DataPropertyDomain({q} {above})"
COMMON = """Declaration({entity})|SubObjectPropertyOf({p} {p})|EquivalentObjectProperties({p} {p})|SubDataPropertyOf({q} {q})
    EquivalentDataProperties({q} {q})|DataPropertyRange({q} {range})|DataPropertyRange({q} {range})|AnnotationAssertion({a} {i} {v})
    DifferentIndividuals(:i :j)|ObjectPropertyAssertion({p} {i} {i})|DataPropertyAssertion({q} {i} {literal})"""
GRAMMARS = {
    "EL": {
        "axiom": f"""SubClassOf({{below}} {{below}})|SubClassOf({{below}} {{below}})|EquivalentClasses({{below}} {{below}})
            DisjointClasses({{below}} {{below}})|{ABOVE.replace("above", "below")}|HasKey({{below}} ({{p}}) ({{q}}))|SameIndividual(:i :j)
            ClassAssertion({{below}} {{i}})|{COMMON}|ReflexiveObjectProperty({{p}})|TransitiveObjectProperty({{p}})
            FunctionalDataProperty({{q}})|NegativeObjectPropertyAssertion({{p}} :i :j)|NegativeDataPropertyAssertion({{q}} :i {{literal}})""",
        "below": f"""{{class}}|ObjectIntersectionOf({{below}} {{below}})|ObjectOneOf({{i}})|ObjectSomeValuesFrom({{p}} {{below}})
            ObjectHasSelf({{p}})|DataSomeValuesFrom({{q}} {{range}})|{VALUES}""",
        "range": "{datatype}|DataIntersectionOf({range} {range})|DataOneOf({literal})",
    },
    "QL": {
        "axiom": f"""SubClassOf({{below}} {{above}})|SubClassOf({{below}} {{above}})|EquivalentClasses({{below}} {{below}})
            DisjointClasses({{below}} {{below}})|{ABOVE}|ClassAssertion({{class}} {{i}})|{COMMON}|InverseObjectProperties({{p}} {{p}})
            ReflexiveObjectProperty({{p}})|SymmetricObjectProperty({{p}})|DisjointDataProperties({{q}} {{q}})|AsymmetricObjectProperty({{p}})
            IrreflexiveObjectProperty({{p}})|DisjointObjectProperties({{p}} {{p}})""",
        "below": "{class}|ObjectSomeValuesFrom({p} owl:Thing)|DataSomeValuesFrom({q} {range})",
        "above": """{class}|ObjectIntersectionOf({above} {above})|ObjectComplementOf({below})|ObjectSomeValuesFrom({p} {class})
            DataSomeValuesFrom({q} {range})""",
        "range": "{datatype}|DataIntersectionOf({range} {range})",
    },
    "RL": {
        "axiom": f"""SubClassOf({{below}} {{above}})|SubClassOf({{below}} {{above}})|EquivalentClasses({{equivalent}} {{equivalent}})
            DisjointClasses({{below}} {{below}})|{ABOVE}|ClassAssertion({{above}} {{i}})|{COMMON}|HasKey({{below}} ({{p}}) ())
            InverseObjectProperties({{p}} {{p}})|SymmetricObjectProperty({{p}})|FunctionalDataProperty({{q}})|TransitiveObjectProperty({{p}})
            FunctionalObjectProperty({{p}})|InverseFunctionalObjectProperty({{p}})|SameIndividual(:i :j)""",
        "below": f"""{{class}}|ObjectIntersectionOf({{below}} {{below}})|ObjectUnionOf({{below}} {{below}})|ObjectOneOf({{i}} {{i}})
            ObjectSomeValuesFrom({{p}} {{below}})|ObjectSomeValuesFrom({{p}} owl:Thing)|DataSomeValuesFrom({{q}} {{range}})|{VALUES}""",
        "above": f"""{{class}}|ObjectIntersectionOf({{above}} {{above}})|ObjectComplementOf({{below}})|ObjectAllValuesFrom({{p}} {{above}})
            ObjectMaxCardinality(1 {{p}} {{below}})|ObjectMaxCardinality(0 {{p}} owl:Thing)|ObjectMaxCardinality(1 {{p}})
            DataAllValuesFrom({{q}} {{range}})|DataMaxCardinality(1 {{q}} {{range}})|DataMaxCardinality(0 {{q}})|{VALUES}""",
        "equivalent": f"{{class}}|ObjectIntersectionOf({{equivalent}} {{equivalent}})|{VALUES}",
        "range": "{datatype}|DataIntersectionOf({range} {range})",
    },
}


def shapes_in(text):
    return [it.strip() for it in text.replace("\n", "|").split("|")]


GRAMMARS = {profile: {word: shapes_in(text) for word, text in grammar.items()} for profile, grammar in GRAMMARS.items()}
OTHER_SHAPES = shapes_in(
    f"""ObjectUnionOf({{below}} {{above}})|ObjectUnionOf({{below}} {{below}})|ObjectIntersectionOf({{below}} {{below}})
        ObjectComplementOf({{below}})|ObjectComplementOf({{above}})|ObjectOneOf(:i :j)|ObjectSomeValuesFrom({{p}} {{above}})
        ObjectHasSelf({{p}})|ObjectSomeValuesFrom({{p}} {{other}})|ObjectSomeValuesFrom({{p}} {{below}})|owl:Thing|{VALUES}
        ObjectAllValuesFrom({{p}} {{below}})|ObjectAllValuesFrom({{p}} {{above}})|ObjectMinCardinality(1 {{p}} {{below}})
        ObjectExactCardinality(1 {{p}})|ObjectMaxCardinality(1 {{p}} {{above}})|ObjectMaxCardinality(2 {{p}})
        DataSomeValuesFrom({{q}} {{range}})|DataAllValuesFrom({{q}} {{range}})|DataMinCardinality(1 {{q}} {{range}})
        DataMaxCardinality(2 {{q}})|DataMaxCardinality(1 {{q}} {{range}})|DataExactCardinality(1 {{q}})"""
)
PLAIN_DATATYPES = ["xsd:string", "xsd:integer", "rdfs:Literal", "rdf:PlainLiteral", "xsd:anyURI", "xsd:dateTime", ":T", ":U"]
OTHER_DATATYPES = ["xsd:int", "xsd:boolean", "xsd:double", "xsd:language", "owl:real", "owl:rational", "owl:rational"]
PLAIN_LITERALS = ['"a"', '"a"@en', '"1"^^xsd:integer', '"1.5"^^xsd:decimal', '"a"^^rdf:XMLLiteral', '"a"^^:T']
OTHER_LITERALS = ['"1"^^xsd:int', '"1"^^xsd:boolean', '"1"^^xsd:double', '"1"^^owl:real', '"1"^^owl:rational']
FLAWS = ["kind", "shape", "range", "datatype", "inverse", "anonymous", "top"]

HEADERS = ["", ":o", ":o", ":o :v", "s:o", "owl:o", ":o rdf:v", "xsd:o rdfs:v"]
HEADERS += ["<http://www.w3.org/2002/07/owl>", ":o <http://www.w3.org/2001/XMLSchema#>"]
PREFIXES = "Prefix(:=<http://e/>) Prefix(s:=<http://e/s/>)"


def seldom(*rates):
    """A rate that is 0 for most documents."""
    return random.choice([0, 0, 0, *rates])


class RulesMaker(Maker):
    """Makes axioms of one theme over a few names, for documents of which some break a rule here and there."""

    def __init__(self, labels="xyzwuv"):
        self.labels = random.sample(labels, random.randint(2, len(labels)))
        self.own = {sort: random.sample(names, random.randint(1, len(names))) for sort, names in OWN.items()}
        if random.random() < 0.25:
            self.own["d"] = []
        self.built_in, self.wrong, self.tops = random.choice([0, 0.1, 0.3]), seldom(0.15), random.choice([0, 0.3])
        self.anonymous, self.double, self.forgotten = random.choice([0, 0, 0.3, 0.8, 0.8]), random.choice([0, 0.4]), seldom(0.2)
        self.literals = random.sample(RIGHT_FORMS, 3) + random.sample(WRONG_FORMS, random.choice([0, 2, 5]))
        self.literals += random.sample(WRONG_TYPES, seldom(1))
        self.deep, self.chained, self.shapes = random.choice([0.2, 0.5, 1]), random.choice([0.2, 0.8]), random.choice(SHAPES)
        self.noted, self.ranked, self.blemished = random.choice([0.1, 0.1, 0.6]), random.choice([True, True, False]), None
        self.themes = random.sample(THEMES, random.choice([1, 1, 2, 3]))
        if random.random() < self.anonymous:
            self.themes.append(random.choice([WALKS, INDIVIDUALS]))
        if random.random() < 0.3:
            self.themes, self.own["p"], self.deep, self.wrong = [HIERARCHY] * 4, OWN["p"], 0.2, 0
        self.clashes = seldom(1, 2)
        if random.random() < 0.25:
            self.calm()

    def calm(self):
        """From now on little is made that breaks a rule by itself."""
        self.built_in = self.wrong = self.tops = self.anonymous = self.double = self.forgotten = self.clashes = 0
        self.literals = RIGHT_FORMS

    def name(self, sort):
        sort = SAME_NAMES.get(sort, sort)
        if random.random() < self.wrong and sort in MISPLACED:
            return random.choice(MISPLACED[sort])
        if sort == "q" and random.random() < self.tops:
            return "owl:topDataProperty"
        own, built_in = self.own.get(sort, []), BUILT_IN.get(sort, [])
        return random.choice(built_in if built_in and (not own or random.random() < self.built_in) else own)

    def part(self, sort, depth):
        if sort == "e":
            kind = random.choice("cdpqai")
            return f"{KINDS[kind]}({random.choice(self.own[kind] or ['xsd:int'])})"
        if sort in "is" and random.random() < self.anonymous:
            return f"_:{random.choice(self.labels)}"
        if sort == "v" and random.random() < 0.7:
            return random.choice(RIGHT_FORMS + WRONG_FORMS + WRONG_TYPES + ["_:x", "_:y"] * 8)
        if sort in "is" or sort in "chpd" and random.random() > self.deep:
            return self.name(sort)
        if sort in "cd" and depth < 4 and random.random() < 0.6:
            return self.construct(self.shapes if sort == "c" else [*RANGES, "DatatypeRestriction", "DatatypeRestriction"], depth)
        return super().part(sort, depth)

    def parts(self, name, depth):
        if name == "DatatypeRestriction" and random.random() < 0.7:
            return [random.choice(FITTING), random.choice(self.literals)]
        if name == "DatatypeDefinition" and self.own["d"] and random.random() < 0.9:
            return [random.choice(self.own["d"]), self.part("d", depth)]
        if name in ("DataSomeValuesFrom", "DataAllValuesFrom") and random.random() > self.double:
            return [self.name("q"), self.part("d", depth)]
        if name == "SubObjectPropertyOf" and random.random() < self.chained:
            return self.chain()
        if name == "SubObjectPropertyOf" and self.ranked and random.random() < 0.8:
            return [self.property(it) for it in sorted(random.choices(self.own["p"], k=2))]
        if name == "SubDataPropertyOf" and random.random() < 0.2:
            return [self.name("q"), "owl:topDataProperty"]
        return super().parts(name, depth)

    def annotations(self, depth=0):
        return super().annotations(depth) if random.random() < self.noted else []

    def property(self, name):
        return f"ObjectInverseOf({name})" if random.random() < self.deep / 2 else name

    def chain(self):
        """A chain that often begins or ends with its super property, of names below it where they are ranked."""
        above = max(self.name("p"), self.name("p")) if self.ranked else self.name("p")
        below = [it for it in self.own["p"] if self.ranked and it < above] or self.own["p"] + [self.name("p")]
        above = self.property(above)
        chain = [self.property(random.choice(below)) for _ in range(random.choice([2, 2, 3, 4]))]
        for place in 0, -1:
            if random.random() < 0.25:
                chain[place] = above
        return [f"ObjectPropertyChain({' '.join(chain)})", above]

    def of_themes(self):
        axioms = []
        for self.kinds in self.themes:
            for _ in range(random.choice([1, 1, 2])):
                axioms += self.axioms()
        return axioms

    def definitions(self, text):
        """One for each datatype of a text, for the most part: of those behind it, so that there is no cycle."""
        own = [it for it in self.own["d"] if it in text]
        for place, name in enumerate(own):
            parts = f"{name} {random.choice(own[place + 1 :] + BUILT_IN['d'])})"
            if random.random() > self.forgotten:
                yield "DatatypeDefinition(" + parts
            if random.random() < 0.1:
                yield f"DatatypeDefinition({self.annotation()} " + parts
        if random.random() < 0.1:
            yield f"DatatypeDefinition({random.choice(MISPLACED['d'] + BUILT_IN['d'])} xsd:int)"

    def declarations(self, text):
        """Those of the names in a text, for the most part."""
        own = [(KINDS[sort], name) for sort, names in self.own.items() for name in names if re.search(name + r"\b", text)]
        entities = [it for it in own if random.random() > self.forgotten]
        entities += random.sample(CLASHES, self.clashes)
        return [f"Declaration({' '.join([*self.rare_annotations(), f'{kind}({name})'])})" for kind, name in entities]

    def header(self):
        return random.choice(HEADERS[: random.choice([5, 5, len(HEADERS)])])


class ProfileMaker(RulesMaker):
    """Makes axioms of EL, QL or RL, some of them with a flaw that the profile may look at, and chains with ranges."""

    def __init__(self, profile, labels="xyzwuv"):
        super().__init__(labels)
        self.calm()
        self.grammar, self.inverses = GRAMMARS[profile], 0 if profile == "EL" else 0.3
        self.deep, self.shapes, self.ranked, self.noted = 0.8, CLASSES, random.random() < 0.9, random.choice([0, 0.1, 0.5])
        self.flaws = {it: random.choice([0, 0, 0, 0.1, 0.3]) for it in FLAWS}
        self.chains = random.choice([0, 1, 2, 4]) if profile == "EL" else random.choice([0, 0, 1])

    def has(self, flaw):
        return random.random() < self.flaws[flaw]

    def property(self, name):
        return f"ObjectInverseOf({name})" if random.random() < self.inverses or self.has("inverse") else name

    def fill(self, text, depth):
        return re.sub(r"\{(\w+)\}", lambda it: self.word(it[1], depth), text)

    def word(self, word, depth):
        if word == "range" and self.has("range"):
            return self.construct(RANGES, depth)
        if word in ("class", "below", "above", "equivalent") and self.has("shape"):
            return self.part("c", depth) if random.random() < 0.3 else self.word("other", depth)
        if word == "other":
            return self.fill(random.choice(OTHER_SHAPES), depth + 1)
        word = "below" if word == "above" and "above" not in self.grammar else word
        if word in self.grammar:
            return self.fill(random.choice(self.grammar[word][: 1 if depth > 3 else None]), depth + 1)
        if word == "p":
            return self.property(random.choice(BUILT_IN["p"]) if self.has("top") else self.name("p"))
        if word == "q" and self.has("top"):
            return random.choice(["owl:topDataProperty", "owl:bottomDataProperty"])
        if word == "class" and (self.has("top") or random.random() < 0.1):
            return random.choice(BUILT_IN["c"])
        if word == "datatype":
            return random.choice(OTHER_DATATYPES if self.has("datatype") else PLAIN_DATATYPES)
        if word == "literal":
            return random.choice(OTHER_LITERALS if self.has("datatype") else PLAIN_LITERALS)
        if word == "i" and self.has("anonymous"):
            return f"_:{random.choice(self.labels)}"
        if word == "entity" and self.has("top"):
            return random.choice(["ObjectProperty(owl:topObjectProperty)", "DataProperty(owl:bottomDataProperty)", "Datatype(owl:real)"])
        return self.name("c") if word == "class" else self.part("e" if word == "entity" else word, depth)

    def noted_axiom(self, axiom):
        name, _, parts = axiom.partition("(")
        return f"{name}({' '.join([*self.annotations(), parts])}"

    def of_grammar(self):
        if self.has("kind"):
            self.kinds = AXIOMS
            return self.axioms()
        return [self.noted_axiom(self.fill("{axiom}", 0))]

    def ranges(self):
        """Chains, ranges of what they imply and of their last properties, and steps between properties."""
        first, last = self.name("c"), self.name("c")
        kinds = [first, "owl:Thing", f"ObjectIntersectionOf({first} {last})", f"ObjectIntersectionOf({last} {first} {last})", self.fill("{below}", 1)]
        kinds, axioms = random.sample(kinds, 3), []
        for _ in range(self.chains):
            chain, implied = self.chain()
            last = re.search(r"(\S+)\)$", chain)[1].removeprefix("ObjectPropertyChain(")
            axioms.append(f"SubObjectPropertyOf({chain} {implied})")
            for on, rate in (implied, 0.7), (last, 0.6):
                for kind in kinds[: random.choice([1, 1, 2])]:
                    if random.random() < rate:
                        above = max(self.own["p"]) if random.random() < 0.3 else on
                        axioms.append(f"ObjectPropertyRange({above} {kind})")
                        axioms += [f"SubObjectPropertyOf({on} {above})"] * (above != on)
        for _ in range(random.choice([0, 0, 1, 2])):
            axioms.append("SubObjectPropertyOf({} {})".format(*sorted(random.choices(self.own["p"], k=2))))
        return [self.noted_axiom(it) for it in axioms]

    def of_themes(self):
        axioms = self.ranges() if self.chains else []
        for _ in range(random.choice([0, 2, 4, 8])):
            axioms += self.of_grammar()
        return axioms


def makers_of(profile, count):
    """A maker for each document of a closure that is checked for a profile. What they have in common is that of the first."""
    is_shaped = profile != "DL" and random.random() < 0.8
    made = [ProfileMaker(profile, labels) if is_shaped else RulesMaker(labels) for labels in ["xyzwuv"] + ["xyz"] * (count - 1)]
    for maker in made[1:]:
        vars(maker).update({key: it for key, it in vars(made[0]).items() if key not in ("labels", "themes")})
    return made


def spread(items, count):
    """Items over so many documents, most of them in the first."""
    places = [random.randrange(count) if random.random() < 0.5 else 0 for _ in items]
    return [[it for it, at in zip(items, places) if at == place] for place in range(count)]


def closure(most=3, lost=0, profile="DL"):
    """Names and texts of documents, the main one first. Their imports are all there, but for some by this rate."""
    count = random.randint(1, most)
    makers = makers_of(profile, count)
    axioms = [maker.of_themes() for maker in makers]
    definitions = [*makers[0].definitions(str(axioms))]
    common = spread(definitions + makers[0].declarations(str(axioms + definitions)), count)
    for place, maker in enumerate(makers):
        header = maker.header() if place == 0 else f":m{place}{random.choice(['', '', ' :v', ' rdf:v'])}"
        imports = [f"Import(:m{other})" for other in range(1, count) if random.random() < 0.8]
        imports += ["Import(:lost)"] * (lost > 0 and random.random() < lost)
        items = common[place] + axioms[place]
        random.shuffle(items)
        items = [header, *imports, *maker.rare_annotations(), *items]
        yield f"{'mik'[place]}.ofn", f"{PREFIXES} Ontology({' '.join(items)})"


NAMING = {
    "c": "SubClassOf({} :A)",
    "d": "DataPropertyRange(:d {})",
    "p": "ObjectPropertyDomain({} :A)",
    "q": "DataPropertyDomain({} :A)",
    "a": "SubAnnotationPropertyOf({} :n)",
    "i": "ClassAssertion(:A {})",
}


def table():
    """An axiom for each literal, for each datatype with each facet, and for each name that is built in, as each kind."""
    for it in RIGHT_FORMS + WRONG_FORMS + WRONG_TYPES:
        yield f"DataPropertyAssertion(:d :i {it})"
    datatypes, facets = (" ".join(row[column] for row in second_rules.ROWS).split() for column in (0, 1))
    for datatype in datatypes + MISPLACED["d"] + ["rdfs:Literal", ":T"]:
        yield f"DataPropertyRange(:d {datatype})"
        for facet in sorted({*facets, *BUILT_IN["f"]}):
            yield f'DataPropertyRange(:d DatatypeRestriction({datatype} {facet} "1"))'
    for name in sorted({it for names in [*NAMES_BUILT_IN.values(), *map(" ".join, MISPLACED.values())] for it in names.split()}):
        yield from (axiom.format(name) for axiom in NAMING.values())


def table_documents(size=40):
    """The table in pieces, each a closure of one document."""
    axioms = [*table()]
    declared = "Declaration(Class(:A)) Declaration(DataProperty(:d)) Declaration(AnnotationProperty(:n)) Declaration(Datatype(:T))"
    for start in range(0, len(axioms), size):
        yield [("m.ofn", f"{PREFIXES} Ontology({declared} DatatypeDefinition(:T xsd:int) {' '.join(axioms[start : start + size])})")]


class Tally:
    """How many closures broke each rule of the profiles that they were checked for, by how many lines, and how many were of other sorts."""

    def __init__(self):
        self.closures, self.broken, self.lines, self.sorts = {}, {}, {}, {}

    def add(self, profile, found):
        rules = [rule for rule, *_ in found]
        for rule in second_sorts.names_of_rules(profile):
            self.closures[rule] = self.closures.get(rule, 0) + 1
            self.broken[rule] = self.broken.get(rule, 0) + (rule in rules)
            self.lines[rule] = self.lines.get(rule, 0) + rules.count(rule)

    def count(self, *sorts):
        for it in sorts:
            self.sorts[it] = self.sorts.get(it, 0) + 1

    def text(self):
        order = [rule for profile in second_sorts.RULES for rule in second_sorts.names_of_rules(profile) if rule in self.closures]
        order = list(dict.fromkeys(order))
        rules = [f"  {it}: broken by {self.broken[it]}, kept by {self.closures[it] - self.broken[it]}, {self.lines[it]} lines" for it in order]
        sorts = [f"  {name}: {self.sorts[name]}" for name in sorted(self.sorts)]
        return "\n".join([f"{self.closures['DL-1']} closures, {sum(self.lines.values())} breaches", *rules, *sorts])


def write(folder, name, text):
    with open(os.path.join(folder, name), "wb") as file:
        file.write(text.encode())


def contents(folder, name):
    with open(os.path.join(folder, name), encoding="utf-8", newline="") as file:
        return file.read()


def stranger():
    """The name and the text of a document that no other one imports, unless its name is that of one which is imported."""
    maker = RulesMaker()
    axioms = maker.of_themes()
    items = [random.choice([":u", ":u :v", "", "owl:u", ":m1", ":o"]), f"Import({random.choice([':o', ':lost'])})"]
    items += [*maker.rare_annotations(), *maker.declarations(str(axioms)), *axioms]
    return "u.ofn", f"{PREFIXES} Ontology({' '.join(items)})"


class Call:
    """Documents in the order of the words, the profile, and whether imports may be missing."""

    def __init__(self, given, profile="DL", partial=False):
        self.texts = [text for _, text in given]
        self.documents = [Document(*it) for it in given]
        self.profile, self.partial = profile, partial

    def draw(self, rate):
        """Puts documents into Turtle, by this rate, where a graph says them under the kinds of the closure."""
        found = reached(self.documents)[0]
        kinds = Kinds(found)
        for place, it in enumerate(self.documents):
            if random.random() < rate and not unsayable(it) and not (it in found and undeclared(it, kinds)):
                self.texts[place] = translation(it)[0]
                graph = self.documents[place] = copy.copy(it)
                graph.name = it.name.replace(".ofn", ".ttl")
                graph.annotations, graph.axioms, _ = normal_form(it)

    def outcome(self):
        """The breaches, and the status, the output and the line that the program has to give."""
        found, missing = reached(self.documents)
        if missing and not self.partial:
            return [], (3, "", f"{missing[0]}: MissingImport <{missing[1]}>\n")
        clash, graphs = Kinds(found).clash(), [it.name for it in found if it.name.endswith(".ttl")]
        if clash and graphs:
            return [], (3, "", f"{graphs[0]}: TwoKinds <{clash}>\n")
        breaches = second_sorts.breaches(self.profile, self.documents)
        verdict, line = ("no\n", f"no; breaches {len(breaches)}") if breaches else ("yes\n", "yes")
        return breaches, (int(bool(breaches)), verdict + second_sorts.lines_of(breaches), f"profile {self.profile.lower()}: {line}\n")

    def words(self):
        return ["check", "--profile", self.profile.lower(), *["--partial"] * self.partial, *(it.name for it in self.documents)]

    def sorts(self):
        """What of this call is counted beside its status."""
        found = reached(self.documents)[0]
        yield f"a check of {self.profile}"
        yield from ["a document that is not reached"] * (len(found) < len(self.documents))
        yield from ["a graph that is reached"] * any(it.name.endswith(".ttl") for it in found)
        yield from ["imports over two documents or more"] * (len(found) > 1)
        yield from ["imports that may be missing"] * self.partial


def random_call():
    lost = random.choice([0, 0, 0, 0.3])
    profile = random.choice([*second_sorts.RULES])
    main, *others = closure(lost=lost, profile=profile)
    others += [stranger()] * (random.random() < 0.3)
    random.shuffle(others)
    call = Call([main, *others], profile, random.random() < (0.7 if lost else 0.1))
    call.draw(random.choice([0, 0, 0.4, 1]))
    return call


def agrees(program, call, tally):
    found, expected = call.outcome()
    if expected[0] < 2:
        tally.add(call.profile, found)
        tally.count(*[f"{call.profile}: yes"] * (expected[0] == 0))
    tally.count(f"status {expected[0]}", *call.sorts())
    folder = tempfile.mkdtemp(prefix="profiles.")
    for it, text in zip(call.documents, call.texts):
        write(folder, it.name, text)
    words = [program, *call.words()]
    done = subprocess.run(words, capture_output=True, cwd=folder)
    told = done.returncode, done.stdout.decode(), done.stderr.decode()
    if told == expected:
        shutil.rmtree(folder)
        return True
    print(f"in {folder}: {' '.join(words)}\n  wanted: {expected}\n  owl:    {told}")
    return False


def compare_program(count=500, seed=1, program=os.path.join(TOP, "bin", "owl")):
    random.seed(int(seed))
    tables = (Call(it, profile) for profile in second_sorts.RULES for it in table_documents())
    return compare_calls(itertools.chain(tables, (random_call() for _ in range(int(count)))), program)


def compare_calls(calls, program):
    tally = Tally()
    right = all(agrees(os.path.abspath(program), it, tally) for it in calls)
    print(tally.text())
    print("all answered in one way" if right else "the last was answered in two ways")
    return not right


def large_document(profile, size=500):
    """A document with so many different axioms, of makers whose flaws differ."""
    axioms, maker = {}, ProfileMaker(profile)
    maker.own = {**OWN, "p": [*OWN["p"], *(f":p{number}" for number in range(20))]}
    while len(axioms) < size:
        other = ProfileMaker(profile)
        other.own, other.labels = maker.own, maker.labels
        other.flaws = {it: random.choice([0, 0.1, 0.4]) for it in FLAWS}
        made = itertools.chain(other.ranges(), *(other.of_grammar() for _ in range(20)))
        axioms.update(dict.fromkeys(made))
    items = [*axioms, *maker.definitions(str(axioms)), *maker.declarations(str(axioms))]
    random.shuffle(items)
    return [("m.ofn", f"{PREFIXES} Ontology(:o {' '.join(items)})")]


def compare_axioms(count, seed=1, program=os.path.join(TOP, "bin", "owl")):
    random.seed(int(seed))
    made = dict.fromkeys(GRAMMARS, 0)

    def calls():
        for profile in itertools.cycle(GRAMMARS):
            if sum(made.values()) >= int(count):
                return
            call = Call(large_document(profile), profile)
            made[profile] += len(call.documents[0].axioms)
            yield call

    wrong = compare_calls(calls(), program)
    print(f"{sum(made.values())} axioms:", *(f"{count} for {profile}" for profile, count in made.items()))
    return wrong


def write_cases(folder, count, seed):
    random.seed(int(seed))
    tally = Tally()
    for each in folder, folder + ".expected":
        os.makedirs(each)
    closures = itertools.chain(table_documents(), (closure(1) for _ in range(int(count))))
    for number, [(name, text)] in enumerate(closures):
        found = second_sorts.breaches("DL", [Document(name, text)])
        tally.add("DL", found)
        write(folder, f"c{number:04}", text)
        write(folder + ".expected", f"c{number:04}", second_sorts.lines_of(found) + f"breaches {len(found)}\n")
    print(tally.text())
    return 0


def compare_cases(folder, output):
    told = {}
    for part in ("\n" + contents("", output)).split("\n== ")[1:]:
        name, _, text = part.partition("\n")
        told[name] = text.rstrip("\n")
    names, wrong = sorted(os.listdir(folder)), 0
    for name in filter(told.get, names):
        expected = contents(folder + ".expected", name).rstrip("\n")
        if told[name] != expected:
            wrong += 1
            print(f"{name}: {contents(folder, name)}\n  wanted:\n{expected}\n  told:\n{told[name]}")
    print(f"{len(told)} of {len(names)} cases told, {wrong} answered in two ways")
    return wrong > 0 or len(told) < len(names)


def main(words):
    modes = {"--axioms": compare_axioms, "--cases": write_cases, "--compare": compare_cases}
    return modes[words[0]](*words[1:]) if words[:1] and words[0] in modes else compare_program(*words)


if __name__ == "__main__":
    sys.exit(main(sys.argv[1:]))
