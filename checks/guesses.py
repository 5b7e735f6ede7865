#!/usr/bin/env python3
"""Compares what owl guesses, and reads against a base, with documents in which this stands.

guesses.py [COUNT [SEED [PROGRAM]]]: so many random closures, 1000 if left out, each of one
to three documents in the three syntaxes, most of them in Turtle. Properties of annotations
are declared where they are used, in another document, as another kind, or nowhere; some
documents are not imported. The script works out which names are to be guessed. For two
actions the program, bin/owl if left out, has to end with --guess as it does without for the
documents with a triple behind them for each name that is guessed of them, which declares it:
with this status, output and line, byte for byte. With --guess it has to do so for these
documents too, of which nothing is guessed any more.

In half of the closures main is given a base by --base. Where it is in Turtle, some of its
IRIs are relative references, and what is wanted is the answer for main with the base in a
line in front. The answer for main with all IRIs in full has to be this one too.

In two cases a triple that declares a name does more than a guess of it, so these are not
made: a reification of this very triple, which would lack it, and a type rdf:Property of the
name, which is passed over where a type of OWL 2 stands beside it.
"""

import os
import random
import re
import subprocess
import sys
import tempfile

import circle
import mapping
import redundant
import second_manchester_writer
import second_turtle
from second_manchester import FunctionalDocument, ManchesterDocument
from second_mapping import ANNOTATION_PROPERTY, DATA_PROPERTY, OBJECT_PROPERTY, TYPES_OF_ENTITIES, Document, Kinds, TurtleWriter, full, reached
from second_turtle import TYPE
from second_writer import FIXED

PROGRAM = mapping.PROGRAM
HOMES = ["http://e/", "http://e/", "http://e/o#"]
IRIS = ["http://e/o", "http://e/m1", "http://e/m2"]
BASES = ["http://e/o", "http://e/o", "http://e/", "http://e", "http://e/o#", "http://e/o?q#f", "http://e/s/t/u", "http://e/x/../s/k?x", "http://x/y/z"]
BASES += ["http://\u00e9/\u00fc", "urn:x:y", "file:///a/b", "e:"]

# Properties of annotations. Some are other things too, are reserved, or nearly so.
PROPERTIES = ":n :m :note :o9 s:n s:title <http://x/title> <http://x/y/z#n> <http://\u00e9/\u00fc#\u00f6> <urn:x:n> <e:n>".split()
DOUBTFUL = ":A :T :i :p :q :d s:K <http://e/o> <http://e/m1> <http://www.w3.org/2002/07/owl> <http://www.w3.org/2002/07/owl2#n>".split()
RESERVED = "owl:note rdf:value rdfs:member xsd:length <http://www.w3.org/2002/07/owl#> owl:topObjectProperty".split()
# As what such a name is declared, each time in any document
DECLARED_AS = [[]] * 10 + [["AnnotationProperty"]] * 4 + [["AnnotationProperty"] * 2, ["ObjectProperty"], ["DataProperty"]]
DECLARED_AS += [["Class"], ["Datatype"], ["NamedIndividual"], ["Class", "AnnotationProperty"]]
OF_PROPERTIES = ["AnnotationAssertion"] * 4 + ["SubAnnotationPropertyOf", "AnnotationPropertyDomain", "AnnotationPropertyRange"]

ACTIONS = [["translate", "--to", it] for it in ("fss", "ttl", "omn")] + [["show"]] + [["check", "--profile", it] for it in ("dl", "el", "ql", "rl")]


def happens(odds):
    return random.random() < odds


# Closures


class Maker(circle.Maker):
    """Makes random axioms, hardly one that can't be said in Manchester Syntax."""

    def __init__(self):
        super().__init__()
        self.blemish, self.blemished, self.care = {}, None, 1
        self.datatypes = happens(0.4)
        others = ["Declaration"] if self.datatypes else ["Declaration", "DatatypeDefinition"]
        self.kinds = random.sample([it for it in mapping.AXIOMS if it not in others], random.choice([1, 2, 4]))
        self.kinds += random.choices(OF_PROPERTIES, k=random.choice([2, 4]))
        self.literals = [it for it in self.literals if self.datatypes or not re.search(":T|/9", it)] + ['"b"']
        self.own = random.sample(PROPERTIES, random.choice([1, 2, 3])) + random.sample(DOUBTFUL, happens(0.3))
        self.properties = self.own + random.choice([[], ["rdfs:label"], ["rdfs:comment", "owl:versionInfo"]]) + random.sample(RESERVED, happens(0.02))

    def name(self, sort):
        if sort in "dD" and not self.datatypes:
            return random.choice(["xsd:integer", "xsd:string", "rdfs:Literal"])
        return random.choice(self.properties) if sort == "a" else super().name(sort)

    def declarations(self, places, found):
        """What is declared at each of these places. What is no property of annotations stands where it is found, but seldom for one of it."""
        declared = [[] for _ in places]
        kept = [it for it in self.declared() if it[0] != "AnnotationProperty" and (it[0] != "Datatype" or self.datatypes)]
        for entity in random.sample(kept, len(kept) - happens(0.1)):
            declared[random.choice(found) if happens(0.2) else 0].append(entity)
        for name in self.own:
            for kind in random.choice(DECLARED_AS):
                declared[random.choice(places)].append((kind, name))
        return declared


def headers(count):
    """The names and the imports of so many documents, and the places of those that are found from the first one."""
    names = [random.choice([IRIS[:1]] * 3 + [[IRIS[0], "http://e/v"], ["http://e/s/o"], []])]
    names += [[it, it + "/1"][: random.choice([1, 1, 2])] for it in IRIS[1:count]]
    imports, found = [[] for _ in names], [0]
    for place in range(1, count):
        if happens(0.75):
            imports[random.choice(found)].append(random.choice(names[place]))
            found.append(place)
    for it in imports:
        it += random.sample([*IRIS[:count], "http://e/lost"], happens(0.06))
    return names, imports, found


def functional_texts(maker, prefixes):
    """The documents in Functional-Style Syntax."""
    names, imports, found = headers(random.choice([1, 1, 2, 2, 3]))
    declared = maker.declarations(range(len(names)), found)
    for place, own in enumerate(names):
        entities = [f"{kind}({name})" for kind, name in declared[place]]
        axioms = [f"Declaration({' '.join([*(maker.annotations() if happens(0.02) else []), it])})" for it in entities]
        axioms += maker.axioms() if place == 0 or happens(0.7) else []
        random.shuffle(axioms)
        notes = maker.annotations() if happens(0.4) else []
        items = [*(f"<{it}>" for it in own), *(f"Import(<{it}>)" for it in imports[place]), *notes, *axioms]
        yield f"{prefixes} Ontology({' '.join(items)} )"


def manchester_text(document, kinds):
    """The document in Manchester Syntax, where that can say it."""
    if second_manchester_writer.unsayable(document, kinds):
        return None
    axioms = second_manchester_writer.normal_form(document, kinds)
    writer = second_manchester_writer.Text(document.prefixes, kinds)
    return writer.document(document.iris, document.imports, document.annotations, axioms).encode()


# Turtle


def references(base, iri):
    """Relative references that stand for the IRI against the base."""
    ends = [iri[at:] for at in range(1, len(iri)) if iri[at] in "/?#" or iri[at - 1] in "/:"]
    found = ["", *(front + it for it in ends for front in ("", "./", "../"))]
    return [it for it in found if not second_turtle.IRI.match(it) and second_turtle.resolved(base, it) == iri]


class GraphText(TurtleWriter):
    """Writes graphs, with relative references where there is a base."""

    def __init__(self, prefixes, base):
        super().__init__(prefixes)
        self.base = base

    def reference(self, iri):
        found = references(self.base, iri) if self.base and happens(0.7) else []
        return f"<{random.choice(found)}>" if found else f"<{iri}>"

    def iri(self, iri):
        name = super().iri(iri)
        return self.reference(iri) if name.startswith("<") or happens(0.4) else name

    def directive(self, form, name, iri):
        """A directive in one of its two spellings."""
        parts = [*name, self.reference(iri)]
        return " ".join(["@" + form, *parts, "."] if happens(0.7) else [form.upper(), *parts])

    def own_base(self):
        """The directive of a base that is the document's own."""
        iri = random.choice(BASES)
        line = self.directive("base", [], iri)
        self.base = iri
        return line

    def text(self, triples):
        lines = [self.own_base()] if happens(0.15) else []
        names = random.sample(sorted(self.prefixes.items()), len(self.prefixes))
        lines += [self.directive("prefix", [name + ":"], iri) for name, iri in names]
        before = None
        for subject, predicate, value in random.sample(sorted(triples), len(triples)) if happens(0.5) else sorted(triples):
            if happens(0.01):
                lines.append(self.own_base())
                before = None
            pair = f"{'a' if predicate == redundant.TYPE and happens(0.5) else self.iri(predicate.decode())} {self.term(value)} ."
            if subject == before and happens(0.5):
                lines[-1] = f"{lines[-1][:-2]} ;\n    {pair}"
            else:
                lines.append(f"{self.term(subject)} {pair}")
            before = subject
        return "\n".join(lines).encode()


def in_full(name, prefixes):
    prefix, _, local = name.partition(":")
    return name[1:-1] if name.startswith("<") else {**FIXED, **prefixes}[prefix] + local


def more_triples(maker, triples, prefixes):
    """The triples of a graph with some more: types of OWL 1, and annotations, some of which say nothing."""
    found = sorted(redundant.redundant(triples))
    types = random.sample(found, random.randint(0, len(found)) if happens(0.3) else 0)
    more = {(subject, redundant.TYPE, (0, kind)) for subject, kind in types}
    terms = sorted({subject for subject, _, _ in triples})
    for _ in range(random.choice([1, 1, 2]) if happens(0.15) else 0):
        predicate = in_full(random.choice(maker.own * 9 + RESERVED), prefixes)
        more.add((random.choice(terms), predicate.encode(), random.choice(terms)))
    return triples | more


def closure():
    """Documents with their names, the base of main or none, and main with all IRIs in full, if it is in Turtle."""
    home = random.choice(HOMES)
    prefixes = {"": home, "s": "http://e/s/", **({"z": "http://e/"} if happens(0.3) else {})}
    maker = Maker()
    texts = [*functional_texts(maker, " ".join(f"Prefix({name}:=<{iri}>)" for name, iri in prefixes.items()))]
    documents = [Document("", it) for it in texts]
    kinds = Kinds(documents)
    base = random.choice(BASES) if happens(0.5) else None
    given, plain = [], None
    for place, (text, document) in enumerate(zip(texts, documents)):
        syntax = random.choices(["ttl", "ofn", "omn"], [8, 1, 1] if place == 0 else [6, 2, 2])[0]
        written = manchester_text(document, kinds) if syntax == "omn" else None
        if syntax == "ttl":
            triples = more_triples(maker, redundant.drawn(document)[0], prefixes)
            written = GraphText(document.prefixes, base if place == 0 else None).text(triples)
            if place == 0:
                plain = TurtleWriter(document.prefixes).graph(triples).encode()
        given.append((f"{'mik'[place]}.{syntax if written else 'ofn'}", written or text.encode()))
    return given, base, plain


# What is guessed


class GraphRead:
    """A document in Turtle as the second reader reads it."""

    KINDS = {full(name): kind for kind, name in TYPES_OF_ENTITIES.items()}

    def __init__(self, name, text):
        self.name, self.graph = name, second_turtle.read(text).graph()
        (header,) = (subject for subject, predicate, value in self.graph if predicate == TYPE and value == ("iri", full("owl:Ontology")))
        said = lambda name: [value[1] for subject, predicate, value in self.graph if subject == header and predicate == ("iri", full(name))]
        self.iris = [header[1], *said("owl:versionIRI")] if header[0] == "iri" else []
        self.imports = [it.encode() for it in said("owl:imports")]

    def declared(self):
        typed = [(subject, value[1]) for subject, predicate, value in self.graph if predicate == TYPE and value[0] == "iri" and subject[0] == "iri"]
        return {(self.KINDS[kind], subject[1]) for subject, kind in typed if kind in self.KINDS}

    def predicates(self):
        return {iri for _, (_, iri), _ in self.graph}


READERS = {".ofn": FunctionalDocument, ".omn": ManchesterDocument, ".ttl": GraphRead}


def guesses(given):
    """The names that are guessed of each document, by its name."""
    found, _ = reached([READERS[name[-4:]](name, text) for name, text in given])
    declared = set().union(*(it.declared() for it in found))
    properties = {iri for kind, iri in declared if kind in (OBJECT_PROPERTY, DATA_PROPERTY, ANNOTATION_PROPERTY)}
    graphs = [it for it in found if isinstance(it, GraphRead)]
    return {it.name: sorted(iri for iri in it.predicates() - properties if not iri.startswith(tuple(FIXED.values()))) for it in graphs}


def with_guesses(given, guessed):
    """The documents with the declarations of what is guessed."""
    line = f"\n<%s> a <{full('owl:AnnotationProperty')}> ."
    return [(name, text + "".join(line % iri for iri in guessed.get(name, [])).encode()) for name, text in given]


# Comparison


def call(words, given):
    for name, text in given:
        with open(name, "wb") as file:
            file.write(text)
    done = subprocess.run([PROGRAM, *words, *(name for name, _ in given)], capture_output=True)
    return done.returncode, done.stdout, done.stderr


def agrees(counts):
    given, base, plain = closure()
    guess = happens(0.85) or not base
    (main, text), *others = given
    is_based = base is not None and plain is not None
    documents = [(main, f"@base <{base}> .\n".encode() + text if is_based else text), *others]
    guessed = guesses(documents) if guess else {}
    wanted_of = with_guesses(documents, guessed)
    ways = [(["--guess"] * guess + (["--base", base] if base else []), given)]
    if guess:
        ways.append((["--guess"], wanted_of))
    if is_based:
        ways.append(([], with_guesses([(main, plain), *others], guessed)))
    partial = ["--partial"] * happens(0.15)
    for action in random.sample(ACTIONS, 2):
        wanted = call([*action, *partial], wanted_of)
        counts["with a guess"] += any(guessed.values())
        counts["done with a guess"] += any(guessed.values()) and wanted[0] < 2
        counts["against a base"] += is_based
        counts[wanted[0]] = counts.get(wanted[0], 0) + 1
        for words, texts in ways:
            words = [*action, *partial, *words]
            told = call(words, texts)
            if told != wanted:
                print(words, *(f"\n{name}: {text.decode()}" for name, text in texts), f"\n  guessed: {guessed}\n  wanted: {wanted}\n  owl:    {told}")
                return False
    return True


def main():
    count = int(sys.argv[1]) if len(sys.argv) > 1 else 1000
    random.seed(int(sys.argv[2]) if len(sys.argv) > 2 else 1)
    counts = {"with a guess": 0, "done with a guess": 0, "against a base": 0}
    with tempfile.TemporaryDirectory() as room:
        os.chdir(room)
        wrong = sum(not agrees(counts) for _ in range(count))
    statuses = {it: counts[it] for it in range(9) if it in counts}
    told = ", ".join(f"{counts[it]} {it}" for it in counts if it not in statuses)
    print(f"{count} closures, {wrong} answered in two ways; {sum(statuses.values())} calls, {told}; by status", statuses)
    return wrong != 0


if __name__ == "__main__":
    sys.exit(main())
