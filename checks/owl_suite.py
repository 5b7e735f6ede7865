#!/usr/bin/env python3
"""Compares `check` in each profile with the marks of the W3C's test suite of OWL 2.

owl_suite.py [FOLDER-OR-TARBALL [PROGRAM]]: the suite is the file all.rdf in the source of
owlapi 5.1.20, the tarball that `apt-get source --download-only owlapi` gives on Debian. A
folder, the current one if left out, holds the tarball or what was unpacked of it. The
program is bin/owl if left out.

Each test is marked as of OWL 2 DL, EL, QL and RL, or as not of it, and each document of it
is checked with what the test imports behind it. Where the test is marked as of a profile,
all documents have to be in it, and where not, at least one has to be outside. A document
that is not read is counted by its reason. KNOWN are the documents that are answered
otherwise, each with its reason; others make the status 1, and so does one that isn't any more.

Documents in RDF/XML are turned into triples by Debian's python3-rdflib, so call this with
/usr/bin/python3. Where rdflib isn't there, the script says so and skips them.
"""

import collections
import glob
import itertools
import os
import re
import subprocess
import sys
import tarfile
import tempfile
from urllib.parse import urljoin
from xml.etree import ElementTree

try:
    import rdflib

    rdflib.NORMALIZE_LITERALS = False
except ImportError:
    rdflib = None

TOP = os.path.dirname(os.path.dirname(os.path.abspath(__file__)))
SUITE = "contract/src/test/resources/all.rdf"
TARBALL = "owlapi_*.orig.tar.gz"
RDF = "{http://www.w3.org/1999/02/22-rdf-syntax-ns#}"
OWL = "{http://www.w3.org/2002/07/owl#}"
TEST = "{http://www.w3.org/2007/OWL/testOntology#}"
MARKS = {name: "http://www.w3.org/2007/OWL/testOntology#" + name for name in ("DL", "EL", "QL", "RL")}
BASE = "{http://www.w3.org/XML/1998/namespace}base"
NOWHERE = "http://example.org/suite"

PART = re.compile(r"\{.*\}((?:fs|rdfXml)(?:Premise|Conclusion|NonConclusion|Input)Ontology)")
REASON = re.compile(r"\S+: (?:item at \d+: )?(\w+)")
SAID = ("yes", "no")
WORDS = {"yes": "", "no": "not "}

# What is answered otherwise than marked: profiles, test, documents and why, with sections of
# the Structural Specification for DL, and of OWL 2 Profiles for the others. In the last group
# the mark is of another document of the test, which is not read.
KNOWN = [
    ("DL EL", "New-Feature-Keys-007", "fsNonConclusion", "the class Man has to be declared (5.8.1)"),
    ("EL", "bnode2somevaluesfrom", "rdfXmlPremise", "an anonymous individual (2.2.1)"),
    ("EL QL", "WebOnt-Nothing-001", "rdfXmlPremise", "an anonymous individual (2.2.1, 3.2.1)"),
    ("QL", "WebOnt-description-logic-104", "rdfXmlPremise", "an anonymous individual (3.2.1)"),
    ("EL", "Plus and Minus Zero are Distinct", "fsPremise", "xsd:float is not of EL (2.2.1)"),
    ("RL", "New-Feature-ReflexiveProperty-001", "fsPremise rdfXmlPremise", "ReflexiveObjectProperty is not of RL (4.2.5)"),
    ("EL", "functionality-clash", "fsPremise", "FunctionalDataProperty and DataHasValue are of EL (2.2.3, 2.2.5)"),
    ("EL", "WebOnt-I4.6-004", "rdfXmlPremise rdfXmlNonConclusion", "EquivalentClasses and SameIndividual are of EL (2.2.5)"),
    ("QL", "New-Feature-IrreflexiveProperty-001", "fsPremise rdfXmlPremise", "IrreflexiveObjectProperty is of QL (3.2.5)"),
    ("RL", "consistent-integer-filler", "fsPremise", "DataAllValuesFrom may stand above (4.2.3)"),
    ("RL", "inconsistent-integer-filler", "fsPremise", "DataHasValue and ObjectComplementOf may stand above (4.2.3)"),
    ("DL EL RL", "WebOnt-InverseFunctionalProperty-001", "rdfXmlConclusion", "the premise has a property of an older form"),
    ("DL EL QL", "WebOnt-SymmetricProperty-003", "rdfXmlConclusion", "the premise has a property of an older form"),
    ("EL QL RL", "WebOnt-I4.5-001", "rdfXmlConclusion", "the premise has a class that is owl:oneOf of six"),
    ("EL QL RL", "WebOnt-I5.21-002", "rdfXmlConclusion", "the premise has owl:cardinality"),
    ("EL QL RL", "WebOnt-I5.26-009", "rdfXmlPremise", "the conclusion has owl:minCardinality"),
    ("EL QL RL", "WebOnt-equivalentClass-004", "rdfXmlConclusion", "the premise has owl:cardinality"),
    ("EL QL", "WebOnt-description-logic-661", "rdfXmlConclusion", "the premise has owl:cardinality"),
    ("EL QL", "WebOnt-description-logic-665", "rdfXmlConclusion", "the premise has owl:cardinality"),
    ("EL QL", "WebOnt-description-logic-667", "rdfXmlConclusion", "the premise has owl:cardinality"),
    ("EL QL", "WebOnt-oneOf-004", "rdfXmlConclusion", "the premise has owl:minCardinality"),
]


def known():
    """The profile, the test and the document of each row of KNOWN, but for those that rdflib is wanted for."""
    for profiles, test, documents, _ in KNOWN:
        parts = [it + "Ontology" for it in documents.split() if rdflib or it.startswith("fs")]
        yield from itertools.product(profiles.split(), [test], parts)


def suite_in(place):
    """The bytes of all.rdf, from the tarball or the folder."""
    if os.path.isdir(place):
        inside = [os.path.join(glob.escape(place), name) for name in (SUITE, "*/" + SUITE, TARBALL)]
        found = [name for pattern in inside for name in glob.glob(pattern)]
        if not found:
            sys.exit(f"owl_suite: neither {SUITE} nor {TARBALL} is in {place}")
        place = found[0]
    if place.endswith(".rdf"):
        with open(place, "rb") as file:
            return file.read()
    with tarfile.open(place) as tarball:
        name = next(name for name in tarball.getnames() if name.endswith(SUITE))
        return tarball.extractfile(name).read()


def named_by(element, name):
    return [each.get(RDF + "resource") for each in element.findall(name)]


def denials(suite):
    """Each test with what is denied of it."""
    for each in suite.iter(OWL + "NegativePropertyAssertion"):
        yield from itertools.product(named_by(each, OWL + "sourceIndividual"), named_by(each, OWL + "targetIndividual"))


def marked_tests(suite):
    """Each test, and the answer that its mark asks for in each profile."""
    denied = set(denials(suite))
    for test in suite.iter(TEST + "TestCase"):
        given = named_by(test, TEST + "species") + named_by(test, TEST + "profile")
        marked = [(name, mark) for name, mark in MARKS.items() if mark in given or (test.get(RDF + "about"), mark) in denied]
        yield test, {name: "yes" if mark in given else "no" for name, mark in marked}


def documents_of(element):
    """The ontology documents of a test, or of what a test imports: which they are, and their text."""
    parts = [(PART.fullmatch(each.tag), each.text) for each in element]
    return [(part[1], text) for part, text in parts if part and (rdflib or part[1].startswith("fs"))]


def triples_of(text):
    """The triples of RDF/XML. rdflib leaves the IRI of a datatype relative, so it is resolved here."""
    base = ElementTree.fromstring(text).get(BASE, NOWHERE)
    read, graph = rdflib.Graph(), rdflib.Graph()
    read.parse(data=text, format="xml", publicID=base)
    for subject, predicate, node in read:
        if isinstance(node, rdflib.Literal) and node.datatype:
            node = rdflib.Literal(str(node), datatype=rdflib.URIRef(urljoin(base, node.datatype)))
        graph.add((subject, predicate, node))
    return graph.serialize(format="nt")


def write(stem, part, text):
    """Writes the document into a file that the program reads, and gives its name."""
    name, text = (stem + ".ofn", text) if part.startswith("fs") else (stem + ".ttl", triples_of(text))
    with open(name, "w", encoding="utf-8", newline="") as file:
        file.write(text)
    return name


def closures(suite):
    """Each test with its marks, and its documents: which it is, and the names of it and of what is imported."""
    imported = {each.get(RDF + "about"): documents_of(each) for each in suite}
    for number, (test, marks) in enumerate(marked_tests(suite)):
        behind = [imported[name][0] for name in named_by(test, TEST + "importedOntology") if imported.get(name)]
        imports = [write(f"test{number}-import{place}", *document) for place, document in enumerate(behind)]
        documents = [(part, [write(f"test{number}-{part}", part, text), *imports]) for part, text in documents_of(test)]
        yield test.findtext(TEST + "identifier"), marks, documents


def check(program, profile, names, *flags):
    done = subprocess.run([program, "check", "--profile", profile.lower(), *flags, *names], capture_output=True, text=True)
    return done.returncode, done.stdout, done.stderr


def answer(program, profile, names):
    """`yes` or `no`, or the reason why a document is not read, and what is written."""
    status, output, line = check(program, profile, names)
    if ": MissingImport " in line:
        status, output, line = check(program, profile, names, "--partial")
    if status == 3:
        return REASON.match(line)[1], line
    if status not in (0, 1):
        sys.exit(f"owl_suite: status {status}: {line}")
    return SAID[status], output


def answers(program, names):
    """What is answered in each profile. What is not read in one is read in none."""
    first = answer(program, "DL", names)
    return {name: first if name == "DL" or first[0] not in SAID else answer(program, name, names) for name in MARKS}


def otherwise(mark, given):
    """The documents of a test that are answered otherwise than it is marked, by the answers to all of them."""
    if mark == "no" and "no" in given.values():
        return []
    return [part for part, it in given.items() if it in SAID and it != mark]


def listed(reasons):
    return ", ".join(f"{count} {reason}" for reason, count in reasons.most_common())


def main():
    program = os.path.abspath(sys.argv[2]) if len(sys.argv) > 2 else os.path.join(TOP, "bin", "owl")
    suite = ElementTree.fromstring(suite_in(sys.argv[1] if len(sys.argv) > 1 else "."))
    if not rdflib:
        print("owl_suite: rdflib is not there, so documents in RDF/XML are skipped")
    counts = {(name, mark): collections.Counter() for name in MARKS for mark in SAID}
    expected, others, outside = set(known()), set(), collections.Counter()
    with tempfile.TemporaryDirectory() as room:
        os.chdir(room)
        for identifier, marks, documents in closures(suite):
            told = {part: answers(program, names) for part, names in documents}
            for name, mark in marks.items():
                given = {part: it[name][0] for part, it in told.items()}
                counts[name, mark].update(given.values())
                outside[name] += mark == "no" and "no" in given.values()
                for part in otherwise(mark, given):
                    others.add((name, identifier, part))
                    if (name, identifier, part) not in expected:
                        print(f"{identifier}, {part}: marked {WORDS[mark]}{name}, and the answer is\n{told[part][name][1]}", end="")
    for (name, mark), each in counts.items():
        read = {given: each.pop(given, 0) for given in SAID}
        tests = f" in {outside[name]} tests" if mark == "no" else ""
        print(f"marked {WORDS[mark]}{name}: {read['yes']} yes, {read['no']} no{tests}, {each.total()} not read: {listed(each)}")
    for name, identifier, part in sorted(expected - others):
        print(f"{identifier}, {part}: answered as marked for {name}, which is known to be wrong")
    print(f"{len(others)} answers are otherwise than marked, {len(others - expected)} of them in a way that is not known")
    return others != expected


if __name__ == "__main__":
    sys.exit(main())
