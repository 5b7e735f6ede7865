#!/usr/bin/env python3
"""Compares owl with a second writer of Manchester Syntax, around the circle of the three syntaxes.

circle.py [--jobs N] [--only N] [--dry] [COUNT [SEED [PROGRAM]]]: so many random ontologies in
Functional-Style Syntax, 2000 if left out, each with up to two that it may import. More than half of
them can be said in Manchester Syntax. The program, bin/owl if left out, has to translate them to
Manchester Syntax with the status, the output and the line of the second writer, byte for byte. Of what
is said

- the text is translated to itself, since it is in its own normal form;
- to Functional-Style Syntax it is the normal form for Manchester Syntax, as the second writer writes it;
- to Turtle it is the graph of this normal form, as the second mapping draws it, where a graph can say it;
- and the graph is, in Functional-Style Syntax and in Manchester Syntax, its normal form for graphs.

--only N makes the ontology with this number alone, and tells each translation. --dry runs no program:
it asks the second reader and the second writer whether the text says the normal form.

--api makes ontologies without imports, most of them such as the OWL API reads, which has to be there
(Debian's libowlapi-java). It has to read each text in Manchester Syntax, and what it writes then has to
say what it writes of the normal form in Functional-Style Syntax. UNREAD are the reasons for which it
doesn't read a text; others, and each difference, make the status 1.
"""

import argparse
import collections
import multiprocessing
import os
import random
import re
import subprocess
import sys
import tempfile

import compare_manchester
import manchester_api
import mapping
import second_manchester
import second_manchester_writer
import second_mapping
from second_manchester import KEYWORDS
from second_mapping import Kinds
from second_writer import ENTITIES, Trees, Writer

TOP = os.path.dirname(os.path.dirname(os.path.abspath(__file__)))
HOME = "http://e/"

# Names of each sort, by the letter of the second writer. All but some individuals are declared.
NAMES = {
    "c": ":A :B :A :B :C :some s:K owl:Thing <http://e/1.5>",
    "d": ":T :T :U xsd:integer rdfs:Literal",
    "p": ":p :q :p :r owl:topObjectProperty",
    "q": ":d :e :d <http://e/s/>",
    "a": ":n :n rdfs:label rdfs:comment",
    "i": ":i :j :k :A s:k",
    "r": ":i :A :o s:o :p :T :n rdfs:label :lost",
    "f": "xsd:length xsd:minLength xsd:maxLength xsd:pattern rdf:langRange xsd:minInclusive xsd:maxInclusive xsd:minExclusive xsd:maxExclusive",
}
NAMES = {sort: names.split() for sort, names in NAMES.items()}
OTHER_FACETS = ["xsd:totalDigits", ":facet"]

# Axioms that may hold what can't be said
DOUBTFUL = "SubClassOf HasKey SubObjectPropertyOf InverseObjectProperties SymmetricObjectProperty ObjectPropertyRange ObjectPropertyAssertion"
DOUBTFUL += " NegativeObjectPropertyAssertion DatatypeDefinition DataPropertyRange EquivalentClasses ClassAssertion Declaration AnnotationAssertion"
DOUBTFUL = DOUBTFUL.split()
DECLARED = [(kind, name) for kind, names in zip(ENTITIES, map(NAMES.get, "cdpqai")) for name in dict.fromkeys(names) if not name.startswith(("owl", "xsd", "rdf"))]
LITERALS = mapping.LITERALS + ['""', '"é"', '"楽, and"@de-AT-1996', '"-1.50"^^xsd:decimal', '"true"^^xsd:boolean', '"x"^^<http://e/9>']

HOME_PREFIX = "Prefix(:=<http://e/>) "
OTHER_PREFIXES = ["owl.b:=<http://e/s/>", "Class:=<http://e/s/>", "Facts:=<http://e/>", "z:=<http://e/>", "xsd:=<http://www.w3.org/2001/XMLSchema#>"]
OTHER_PREFIXES += ["o:=<http://e/o>", "r:=<http://www.w3.org/2002/07/owl#>", "inverse:=<http://e/in/>", "a-b.9:=<http://e/s>"]


class Maker(mapping.Maker):
    """Makes random documents, most of them with hardly an axiom that can't be said in Manchester Syntax."""

    def __init__(self):
        super().__init__()
        self.literals = random.sample(LITERALS, 4)
        self.blemish = random.choice([{}] * 9 + [mapping.UNDECLARED, mapping.RESERVED])
        self.blemished = random.choice([it for it in self.blemish if it != "f"] or [None])
        self.care = random.choice([0, 0, 0, 0.9, 1, 1, 1, 1])
        if self.care == 0:
            self.kinds = random.sample(DOUBTFUL, 2)
        self.individuals = random.sample(NAMES["i"], random.randrange(len(NAMES["i"]) + 1))
        self.kinds_of_names = Kinds([])
        declared = [f"Declaration({kind}({name}))" for kind, name in self.declared()]
        self.kinds_of_names.declared = Kinds([Axioms(declared)]).declared

    def name(self, sort):
        sort = mapping.SAME_NAMES.get(sort, sort)
        if sort == self.blemished and random.random() < 0.1:
            return self.blemish[sort]
        if sort == "f" and random.random() < 0.3 * (1 - self.care):
            return random.choice(OTHER_FACETS)
        return random.choice(NAMES[sort])

    def declared(self):
        declared = [it for it in DECLARED if it[0] != "NamedIndividual"] + [("NamedIndividual", name) for name in self.individuals]
        if self.blemish is mapping.RESERVED and self.blemished:
            declared.append((mapping.KINDS[self.blemished], mapping.RESERVED[self.blemished]))
        return declared

    def part(self, sort, depth):
        if sort == "e":
            return "{}({})".format(*random.choice(DECLARED))
        if sort == "d" and random.random() < 0.2:
            return self.construct(["DatatypeRestriction"], depth)
        return super().part(sort, depth)

    def is_said(self, name, parts):
        (axiom,) = Axioms([f"{name}({' '.join(parts)})"]).axioms
        return not any(second_manchester_writer.reasons(axiom, self.kinds_of_names))

    def parts_of_axiom(self, name):
        """What stands in the brackets of an axiom, for some more times where that can't be said."""
        parts = self.parts(name, 1)
        for _ in range(10):
            if random.random() >= self.care or self.is_said(name, parts):
                break
            parts = self.parts(name, 1)
        return parts

    def axioms(self):
        """Axioms, some of them once more with other annotations."""
        bare = [(name, self.parts_of_axiom(name)) for name in random.choices(self.kinds, k=random.choice([0, 1, 3, 6, 12]))]
        bare += random.choices(bare, k=random.choice([0, 1, 2])) if bare else []
        random.shuffle(bare)
        return [self.annotated(name, parts) for name, parts in bare]

    def annotated(self, name, parts):
        notes = self.annotations() if random.random() < (0.01 * (1 - self.care) if name == "Declaration" else 0.5) else []
        return f"{name}({' '.join([*notes, *parts])})"


class PlainMaker(Maker):
    """Makes documents of one or two kinds of axioms, hardly with what the OWL API doesn't read."""

    def __init__(self):
        super().__init__()
        self.blemish, self.blemished, self.care = {}, None, 1
        self.kinds = random.sample(mapping.AXIOMS, 2)
        self.literals = random.sample([it for it in LITERALS if "/9" not in it], 4)
        self.individuals = NAMES["i"]

    def name(self, sort):
        name = super().name(sort)
        return ":q" if name == "owl:topObjectProperty" else name

    def part(self, sort, depth):
        """Parts of which values of annotations are literals or IRIs in full, and numbers are small."""
        if sort == "n":
            return random.choice("012")
        if sort in "rv":
            return random.choice([*self.literals, "<http://x/v>"] if sort == "v" else ["<http://x/r>"])
        return super().part(sort, depth)


class Axioms(second_mapping.Document):
    """Axioms by themselves."""

    def __init__(self, axioms):
        super().__init__("", f"{HOME_PREFIX}Prefix(s:=<http://e/s/>) Ontology({' '.join(axioms)})")


def in_full(text):
    """The text with names in full that have the empty prefix."""
    return re.sub(r'(?<=[( ^]):(\w+)(?=[ )])', rf"<{HOME}\1>", text)


def documents(maker, most):
    """The main document, and up to two that it may import, and that import each other. What is declared stands in one of them."""
    count = random.choice([1, 1, 2, 3][:most])
    names = [":o", ":m1", ":m2"][:count]
    declared = maker.declared() + (random.choice(mapping.CLASHES) if random.random() < 0.02 else [])
    places = [random.randrange(count) if random.random() < 0.3 else 0 for _ in declared]
    prefixes = "".join(f"Prefix({it}) " for it in random.sample(OTHER_PREFIXES, random.choice([0, 0, 1, 2, 4])))
    for place in range(count):
        header = random.choice([":o", ":o", ":o :v", "s:o", ""]) if place == 0 else names[place]
        imports = [it for it in names[1:] if random.random() < 0.9] + [random.choice([":o", ":lost"])] * (most > 1 and random.random() < 0.04)
        axioms = [maker.annotated("Declaration", [f"{kind}({name})"]) for (kind, name), at in zip(declared, places) if at == place]
        axioms += maker.axioms() if place == 0 else []
        random.shuffle(axioms)
        items = [header, *(f"Import({it})" for it in imports), *maker.rare_annotations(), *axioms]
        text = f"Prefix(s:=<http://e/s/>) {prefixes}Ontology({' '.join(items)} )"
        yield f"{'mik'[place]}.ofn", (in_full(text) if random.random() < 0.1 else HOME_PREFIX + text).encode()


def ontology(seed, number):
    """The documents with this number, and whether imports may be missing."""
    random.seed(f"{seed}/{number}")
    given = list(documents(Maker(), 4))
    return given, random.random() < 0.1


# What has to come of the translations


class Normal:
    """A document in a normal form, with the prefixes that are written."""

    def __init__(self, document, annotations, axioms):
        self.name, self.iris, self.imports, self.annotations, self.axioms = "", document.iris, document.imports, annotations, axioms
        self.prefixes = {name: iri for name, iri in document.prefixes.items() if name not in KEYWORDS}
        self.items = lambda: second_mapping.Document.items(self)

    def functional(self):
        text = Writer(self.prefixes).document(self.iris, self.imports, self.annotations, self.axioms)
        return 0, text, f"translated; axioms {len(self.axioms)}; absorbed 0"

    def turtle(self):
        refusal = second_mapping.unsayable(self)
        return (4, "", refusal) if refusal else (0, *second_mapping.translation(self))


def normal_form(given):
    """The main document in its normal form for Manchester Syntax, and the kinds of its closure."""
    found = [second_mapping.Document(name, text.decode()) for name, text in given]
    kinds = Kinds(second_mapping.reached(found)[0])
    return Normal(found[0], found[0].annotations, second_manchester_writer.normal_form(found[0], kinds)), kinds


def translations(given, partial):
    """Each translation around the circle: its words, its documents, and the status, the output and the line that it has to end with."""
    words = lambda target: ["translate", "--to", target] + ["--partial"] * partial
    said = second_manchester_writer.outcome(words("omn"), given)
    yield words("omn"), given, said
    if said[0] != 0:
        return
    normal, kinds = normal_form(given)
    frames = [("m.omn", said[1].encode()), *given[1:]]
    yield words("omn"), frames, said
    yield words("fss"), frames, normal.functional()
    drawn = normal.turtle()
    yield words("ttl"), frames, drawn
    if drawn[0] != 0:
        return
    graph = [("m.ttl", drawn[1].encode()), *given[1:]]
    annotations, axioms, _ = second_mapping.normal_form(normal)
    normal = Normal(normal, annotations, axioms)
    yield words("fss"), graph, normal.functional()
    yield words("omn"), graph, (0, *second_manchester_writer.translation(normal, kinds))


def answer(program, words, given):
    """The status, the output and the line, of the program or else of the second reader and writer, which read no graph."""
    if program is None:
        return None if given[0][0] == "m.ttl" else second_manchester_writer.outcome(words, given)
    for name, text in given:
        with open(name, "wb") as file:
            file.write(text)
    done = subprocess.run([program, *words, *(name for name, _ in given)], capture_output=True)
    return done.returncode, done.stdout.decode(), done.stderr.decode().removesuffix("\n")


def why(line):
    """What is counted of a refusal."""
    return re.match(r"(?:typing|target): \w+|\S+ \w+", line)[0]


def agrees(program, seed, number, counts, tell=False):
    given, partial = ontology(seed, number)
    for place, (words, documents_given, wanted) in enumerate(translations(given, partial)):
        told = answer(program, words, documents_given)
        if place == 0:
            counts["said" if wanted[0] == 0 else why(wanted[2])] += 1
        elif wanted[0] != 0:
            counts["said, but in Turtle " + why(wanted[2])] += 1
        counts["translations"] += told is not None
        is_wrong = told is not None and told != wanted
        if is_wrong or tell:
            print(f"--only {number}:", *words, *(f"\n{name}: {text.decode()}" for name, text in documents_given), f"\n  wanted: {wanted}\n  owl:    {told}", flush=True)
        if is_wrong:
            counts["answered in two ways"] += 1
            return


# The OWL API

# Why it doesn't read a text: the section up to what it didn't expect, what that is, and the reason
NAME = r"(?:[\w.-]*:[\w-]+|<[^<>]*>)"
UNREAD = [
    (r".*(?:rdfs:label|rdfs:comment|rdf:nil|:n|<http://e/n>)", rf"{NAME}|_:.*", "an annotation has a value that is a label, or a name that isn't written in full (2.2)"),
    (r"    (?:Domain|Range):(?: Annotations: .*)?", NAME, "an annotation property has a domain or range that isn't written in full (2.5)"),
    (r"    HasKey: .*", rf"{NAME}|inverse", "there are no commas between the properties of a key, which has none (2.5)"),
    (r"    EquivalentTo: Annotations: .*", r".*", "annotations stand in front of the range of a datatype (2.5)"),
    (r".* value(?: _)?", r"_?:.*", "an anonymous individual is the value of a restriction (2.4)"),
    (r".*", r"owl:\w+", "a name that is built in is not declared"),
    (r".*\^<?", NAME, "the datatype of a literal is not declared"),
    (r".*", r"[\w.-]*:[ijkA]|<http://e/(?:s/)?[ijkA]>", "an individual is not declared"),
]
UNREAD_AT_ALL = {
    "NumberFormatException": "a number is larger than 2^31 - 1",
    "DisjointClasses(owl:Thing) cannot be created": "owl:Thing is disjoint with itself",
}


def why_unread(answer, text):
    told = re.fullmatch(r"unread \w+ Encountered (.*) at line (\d+) column (\d+)\. Expected one of:", answer)
    if told is None:
        return next((why for part, why in UNREAD_AT_ALL.items() if part in answer), f"not known: {answer}")
    lines = re.split("(?<=[\n\r])", text)[: int(told[2])]
    front = "".join(lines[:-1]) + lines[-1][: int(told[3]) - 1]
    section = re.split(r"\n(?=(?:    )?[A-Z][A-Za-z]+:)", front)[-1].rstrip()
    fits = (why for before, at, why in UNREAD if re.fullmatch(before, section, re.DOTALL) and re.fullmatch(at, told[1]))
    return next(fits, f"not known: {section} <<>> {told[1]}")


# A union or an intersection of one name alone
ALONE = re.compile(r"(?:Object|Data)(?:Union|Intersection)Of\(([^\s()]+) \1\)")

SAME_BUT = [
    (False, False, "the same"),
    (True, False, "the same, but a cardinality of a union or intersection of owl:Thing or rdfs:Literal alone has no filler"),
    (False, True, "the same, but a union or intersection of one name alone within another is that name"),
]


def trees_of(name, labels, fillers, alone):
    """What the OWL API wrote of a document, with line feeds for carriage returns, and these labels for those that it gives.
    It writes a comment in front of what there is of a name, in which a label may end the line. Where they are to be left
    out, cardinalities have no fillers that say nothing, and a union or an intersection of one name alone is that name."""
    with open(name, encoding="utf-8", newline="") as file:
        text = re.sub(r"(?m)^# [A-Z][A-Za-z ]+: [\s\S]*?\n\n", "", file.read().replace("\r", "\n"))
    given = sorted(set(re.findall(r"_:(genid\d+)", text)), key=lambda it: int(it[5:]))
    names = dict(zip(given, labels))
    text = re.sub(r"_:(genid\d+)", lambda it: "_:" + names.get(it[1], it[1]), text)
    text = manchester_api.FILLERS.sub(r"\1)", text) if fillers else text
    while alone and ALONE.search(text):
        text = ALONE.sub(r"\1", text)
    return Trees(text).document()


def how_read(name, frames):
    """How what the OWL API reads in Manchester Syntax says what it reads in Functional-Style Syntax."""
    labels = dict.fromkeys(value for kind, value, _ in second_manchester.tokens_of(frames)[0] if kind == "blank")
    with open(f"{name}.ofn.ofn", encoding="utf-8", newline="") as file:
        text = file.read()
    labels = [it for it in labels if f"_:{it} " in text or f"_:{it})" in text]
    for fillers, alone, told in SAME_BUT:
        if trees_of(f"{name}.omn.ofn", labels, fillers, alone) == trees_of(f"{name}.ofn.ofn", [], fillers, alone):
            return told
    return "not known: another ontology"


def compare_with_the_api(program, count, seed):
    """Counts what the OWL API reads of the texts, and how."""
    counts, texts = collections.Counter(), {}
    words = ["translate", "--to", "omn"]
    for number in range(count):
        random.seed(f"{seed}/{number}/api")
        given = list(documents(Maker() if number % 8 == 0 else PlainMaker(), 1))
        status, text, line = answer(program, words, given)
        if (status, text, line) != second_manchester_writer.outcome(words, given):
            counts["not known: the text is another one"] += 1
        if status == 0:
            texts[f"t{number}"] = text
            for name, form in ((f"t{number}.omn", text), (f"t{number}.ofn", normal_form(given)[0].functional()[1])):
                with open(name, "w", encoding="utf-8", newline="") as file:
                    file.write(form)
    lines = [f"{word} {name}.{suffix}\n" for name in texts for word, suffix in (("read", "omn"), ("again", "ofn"))]
    answers = dict(zip(lines, manchester_api.run_java(".", lines)))
    for name, text in texts.items():
        read, again = answers[f"read {name}.omn\n"], answers[f"again {name}.ofn\n"]
        unread = [it for it in (again, read) if it != "done"]
        told = "not read: " + why_unread(unread[0], text) if unread else how_read(name, text.encode())
        counts[told] += 1
        if "not known" in told:
            print(f"{name}: {told}\n{text}", flush=True)
    return counts


def main():
    options = argparse.ArgumentParser(allow_abbrev=False)
    for name, value in [("count", 2000), ("seed", 1)]:
        options.add_argument(name, type=int, nargs="?", default=value)
    options.add_argument("program", nargs="?", default=os.path.join(TOP, "bin", "owl"))
    for name, value in [("jobs", 2), ("only", None)]:
        options.add_argument("--" + name, type=int, default=value)
    options.add_argument("--dry", action="store_true")
    options.add_argument("--api", action="store_true")
    given = options.parse_args()
    program = None if given.dry or given.program == "second" else os.path.abspath(given.program)
    if given.only is not None:
        with tempfile.TemporaryDirectory() as room:
            os.chdir(room)
            counts = collections.Counter()
            agrees(program, given.seed, given.only, counts, True)
        return counts["answered in two ways"] > 0
    if given.api:
        with tempfile.TemporaryDirectory() as room:
            os.chdir(room)
            counts = compare_with_the_api(program, given.count, given.seed)
        print(f"{sum(counts.values())} texts in Manchester Syntax, read by the OWL API")
        for name, number in sorted(counts.items()):
            print(f"{number:6} {name}")
        return any("not known" in it for it in counts)
    with multiprocessing.Pool(given.jobs) as pool:
        parts = [(agrees, program, given.seed, range(place, given.count, given.jobs)) for place in range(given.jobs)]
        counts = sum(pool.starmap(compare_manchester.job, parts), collections.Counter())
    print(f"{given.count} ontologies, {counts.pop('translations')} translations, {counts['answered in two ways']} ontologies answered in two ways")
    for name, number in sorted(counts.items()):
        print(f"{number:6} {name}")
    return counts["answered in two ways"] > 0


if __name__ == "__main__":
    sys.exit(main())
