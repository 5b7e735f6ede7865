#!/usr/bin/env python3
"""Compares `check` in OWL 2 EL, QL and RL with the OWL API, which has to be there (Debian's libowlapi-java).

owl_api.py [TARBALL [COUNT [SEED [PROGRAM]]]]: the documents are those of the W3C's test suite
(owl_suite.py, which says where the tarball is from), all that the OWL API is tested with, as
it writes them in Functional-Style Syntax, and so many random ones, 500 if left out.

A document on which the two differ in OWL 2 DL is counted, and not compared any further.
KNOWN are the ways in which the OWL API differs from OWL 2 Profiles; others make the status 1.
"""

import collections
import glob
import os
import pathlib
import random
import re
import subprocess
import sys
import tarfile
import tempfile
from xml.etree import ElementTree

import owl_suite

RESOURCES = re.compile(r".*/contract/src/test/resources/(?:.*/)?([^/]+)")
JARS = ":".join([*sorted(glob.glob("/usr/share/java/*.jar")), "."])
NO_NETWORK = [f"-D{protocol}.{it}" for protocol in ("http", "https") for it in ("proxyHost=localhost", "proxyPort=9")]

# Profiles, what one of the two tells of a document, what it has then, and what OWL 2 Profiles says
KNOWN = [
    ("EL QL RL", "UseOfIllegalDataRange", r'"@[a-z]', "a string with a tag is of rdf:PlainLiteral (2.2.1, 3.2.1, 4.2.1)"),
    ("EL QL RL", "UseOfIllegalDataRange UseOfIllegalAxiom", "DatatypeDefinition", "a datatype may be defined and used (2.2.5, 3.2.5, 4.2.5)"),
    ("RL", "UseOfIllegalDataRange", "unsigned(Int|Short)", "xsd:unsignedInt and xsd:unsignedShort are of RL (4.2.1)"),
    ("RL", "UseOfNonSubClassExpression", "DisjointClasses", "members of DisjointClasses are sub expressions (4.2.5)"),
    ("RL", "RL-5", "(top|bottom)(Object|Data)Property", "the top and bottom properties are not of RL (4.2.1)"),
    ("EL", "LastPropertyInChainNotInImposedRange", r"PropertyOf\([:<]|EquivalentObject", "SubObjectPropertyOf alone imposes ranges (2.2.6)"),
    ("EL QL RL", "EL-4 QL-4 RL-4", r"Declaration\(Datatype\(", "a datatype that is left out may not be declared (2.2.1, 3.2.1, 4.2.1)"),
]

# Random documents: each name in angles stands for one of its alternatives.
GRAMMAR = {
    "axiom": """SubClassOf(<c> <c>)|SubClassOf(<c> <c>)|EquivalentClasses(<c> <c>)|DisjointClasses(<c> <c>)|DisjointUnion(:A <c> <c>)
        |SubObjectPropertyOf(<p> <p>)|EquivalentObjectProperties(<p> <p>)|DisjointObjectProperties(<p> <p>)|InverseObjectProperties(<p> <p>)
        |ObjectPropertyDomain(<p> <c>)|ObjectPropertyRange(<p> <c>)|FunctionalObjectProperty(:p)|InverseFunctionalObjectProperty(:p)
        |ReflexiveObjectProperty(<p>)|IrreflexiveObjectProperty(:p)|SymmetricObjectProperty(<p>)|AsymmetricObjectProperty(:p)
        |TransitiveObjectProperty(<p>)|SubDataPropertyOf(<q> <q>)|EquivalentDataProperties(<q> <q>)|DisjointDataProperties(<q> <q>)
        |DataPropertyDomain(<q> <c>)|DataPropertyRange(<q> <d>)|FunctionalDataProperty(<q>)|DatatypeDefinition(:U <d>)|HasKey(<c> (<p>) (<q>))
        |SameIndividual(:i :j)|DifferentIndividuals(:i :j)|ClassAssertion(<c> <i>)|ObjectPropertyAssertion(<p> <i> :j)
        |NegativeObjectPropertyAssertion(<p> :i :j)|DataPropertyAssertion(<q> <i> <l>)|NegativeDataPropertyAssertion(<q> :i <l>)
        |AnnotationAssertion(rdfs:label :A <l>)|Declaration(Datatype(<D>))|<ranges>|<ranges>|<ranges>|<ranges>""",
    "c": ":A|:B|:A|:B|owl:Thing|owl:Nothing|<E>|<E>|<E>|<E>",
    "E": """<S>|<S>|<S>|<S>|<S>|ObjectComplementOf(<c>)|ObjectOneOf(:i :j)|ObjectAllValuesFrom(<p> <c>)|ObjectHasSelf(<p>)
        |ObjectMinCardinality(1 <p>)|ObjectMaxCardinality(<n> <p>)|ObjectMaxCardinality(<n> <p> <c>)|ObjectExactCardinality(<n> <p> <c>)
        |DataAllValuesFrom(<q> <d>)|DataMinCardinality(<n> <q>)|DataMaxCardinality(<n> <q> <d>)|DataExactCardinality(1 <q> <d>)""",
    "S": """ObjectIntersectionOf(<c> <c>)|ObjectUnionOf(<c> <c>)|ObjectOneOf(:i)|ObjectSomeValuesFrom(<p> <c>)|ObjectHasValue(<p> :i)
        |DataSomeValuesFrom(<q> <d>)|DataHasValue(<q> <l>)""",
    "p": ":p|:q|:p|:q|:p|:q|owl:topObjectProperty|ObjectInverseOf(:p)",
    "d": """<D>|<D>|<D>|DataIntersectionOf(<d> <d>)|DataUnionOf(<d> <d>)|DataComplementOf(<d>)|DataOneOf(<l>)|DataOneOf(<l> <l>)
        |DatatypeRestriction(xsd:integer xsd:minInclusive "1"^^xsd:integer)""",
    "D": """:T|rdfs:Literal|owl:real|owl:rational|rdf:PlainLiteral|rdf:XMLLiteral|xsd:integer|xsd:string|xsd:decimal|xsd:boolean|xsd:int
        |xsd:unsignedInt|xsd:unsignedShort|xsd:unsignedByte|xsd:double|xsd:language|xsd:anyURI|xsd:nonNegativeInteger|xsd:hexBinary|xsd:NCName""",
    "l": """"a"|"a"@en|"1/2"^^owl:rational|"en"^^xsd:language|"true"^^xsd:boolean|"1"^^xsd:integer|"1"^^xsd:int|"1"^^xsd:unsignedShort""",
    "ranges": "SubObjectPropertyOf(ObjectPropertyChain(<r> <r>) <r>) ObjectPropertyRange(<r> :A) <step>|<ranges> <step>",
    "step": """SubObjectPropertyOf(<r> <r>)|SubObjectPropertyOf(<r> <r>)|EquivalentObjectProperties(<r> <r>)|ObjectPropertyRange(<r> :A)
        |ObjectPropertyRange(<r> :B)""",
    **{"q": ":d|:e|:d|:e|owl:bottomDataProperty", "i": ":i|:j|:i|:j|_:x", "n": "0|1|2", "r": ":p|:q|:r|:s"},
}
NAMES = {"AB": "Class", "TU": "Datatype", "de": "DataProperty", "pqrs": "ObjectProperty"}


def random_document():
    text = "<axiom>"
    while "<" in text:
        text = re.sub("<(.*?)>", lambda it: random.choice(GRAMMAR[it[1]].split("|")).strip(), text)
    text += " DatatypeDefinition(:T xsd:integer)" * (":T" in text)
    names = [(kind, name) for names, kind in NAMES.items() for name in names if re.search(rf":{name}\b", text)]
    return f"Prefix(:=<http://e/>) Ontology(:o {' '.join(f'Declaration({kind}(:{name}))' for kind, name in names)} {text})"


def resources(place):
    """What the OWL API is tested with. The files of its tests of profiles have many texts, with an empty line between them."""
    with tarfile.open(place) as tarball:
        for number, member in enumerate(it for it in tarball if it.isfile() and RESOURCES.fullmatch(it.name)):
            name, text = RESOURCES.fullmatch(member.name)[1], tarball.extractfile(member).read()
            parts = re.split(rb"\n\s*\n", text.strip()) if re.fullmatch(r"profile\w+TestCases.txt", name) else [text]
            if not re.fullmatch(r"all\.rdf|.*\.(zip|jar|properties)", name):
                yield from ((f"api{number}-{part}.txt", it) for part, it in enumerate(parts))


def documents(place, count):
    """Names of documents, each in front of what it imports, by where they are from."""
    suite = ElementTree.fromstring(owl_suite.suite_in(place))
    yield "the suite", [names for _, _, each in owl_suite.closures(suite) for _, names in each]
    made = ((f"random{number}.ofn", random_document().encode()) for number in range(count))
    for source, texts in ("the OWL API's tests", resources(place)), ("random", made):
        yield source, [[name] for name, text in texts if pathlib.Path(name).write_bytes(text)]


def other_answers(given):
    """What the OWL API tells of each document, by profile, and nothing of what it doesn't read."""
    lines = "".join(" ".join(reversed(names)) + "\n" for names in given).encode()
    words = ["java", *NO_NETWORK, "-cp", JARS, "OwlApiProfiles"]
    done = subprocess.run(words, input=lines, stdout=subprocess.PIPE, stderr=subprocess.DEVNULL, check=True)
    for line in done.stdout.decode().splitlines():
        yield {} if line.startswith("unread ") else dict(zip(owl_suite.MARKS, line.split(" ")))


def compared(program, names, other):
    """How a document is counted, and each difference: the profile, what one of the two tells, and why if that is known."""
    names[0] += "" if re.search(r"\.(ofn|ttl)$", names[0]) else ".ofn"
    own = owl_suite.answers(program, names) if other else {"DL": ["", ""]}
    if own["DL"][0] not in owl_suite.SAID:
        return "not read by both", []
    others = [name for name, (given, _) in own.items() if (given == "yes") != (other[name] == "yes")]
    if "DL" in others:
        return "different in DL", []
    text, found = pathlib.Path(names[0]).read_text("utf-8"), []
    for name in others:
        given, output = own[name]
        for kind in other[name].split(",") if given == "yes" else sorted(set(re.findall(r"^[EQR]L-\d+", output, re.MULTILINE))):
            reasons = [why for profiles, known, has, why in KNOWN if name in profiles and kind in known.split() and re.search(has, text)]
            found.append((name, kind, reasons[0] if reasons else "not known"))
            print(end="" if reasons else f"{name}: {kind} of {names[0]} is not known:\n{text}\n")
    return "different" if found else "equal", found


def main():
    defaults = ["owlapi_5.1.20.orig.tar.gz", "500", "1", os.path.join(owl_suite.TOP, "bin", "owl")]
    place, count, seed, program = sys.argv[1:] + defaults[len(sys.argv) - 1 :]
    place, program, classes = os.path.abspath(place), os.path.abspath(program), collections.Counter()
    random.seed(int(seed))
    with tempfile.TemporaryDirectory() as room:
        os.chdir(room)
        subprocess.run(["javac", "-d", ".", "-cp", JARS, os.path.join(owl_suite.TOP, "checks", "OwlApiProfiles.java")], check=True)
        for source, given in documents(place, int(count)):
            counts = collections.Counter()
            for names, other in zip(given, other_answers(given)):
                state, found = compared(program, names, other)
                counts[state] += 1
                classes.update(found)
            print(f"{source}: " + ", ".join(f"{number} {name}" for name, number in sorted(counts.items())))
    for (profile, kind, why), number in sorted(classes.items()):
        print(f"{number:5} {profile} {kind}: {why}")
    return any(why == "not known" for _, _, why in classes)


if __name__ == "__main__":
    sys.exit(main())
