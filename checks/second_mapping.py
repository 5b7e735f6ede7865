#!/usr/bin/env python3
"""A second way from Functional-Style Syntax to Turtle, to compare owl with.

second_mapping.py [--partial] NAME.. does what `owl translate --to ttl [--partial] NAME..`
has to do, for documents that read: the closure of imports and its kinds, what is not
declared or can't be said, the normal form, the graph by the tables of the OWL 2
Mapping to RDF Graphs, and its text. The trees are those of the second writer. It
shares no code or table with owl, and knows of no limit.
"""

import re
import sys

from second_writer import ENTITIES, FIXED, NAMES, NOTES, OWL, RDF, RDFS, TAGS, XSD, Trees, Writer, in_order

CLASS, DATATYPE, OBJECT_PROPERTY, DATA_PROPERTY, ANNOTATION_PROPERTY, INDIVIDUAL = range(1, 7)
ANONYMOUS, LITERAL, FACET = 7, 9, 11
ANNOTATION = TAGS["Annotation"]


def full(name):
    prefix, _, local = name.partition(":")
    return FIXED[prefix] + local


# Kinds

NAMES_BUILT_IN = {
    CLASS: "owl:Thing owl:Nothing",
    DATATYPE: "rdfs:Literal rdf:PlainLiteral rdf:XMLLiteral rdf:langString owl:real owl:rational",
    OBJECT_PROPERTY: "owl:topObjectProperty owl:bottomObjectProperty",
    DATA_PROPERTY: "owl:topDataProperty owl:bottomDataProperty",
    ANNOTATION_PROPERTY: "rdfs:label rdfs:comment rdfs:seeAlso rdfs:isDefinedBy owl:deprecated owl:versionInfo owl:priorVersion"
    " owl:backwardCompatibleWith owl:incompatibleWith",
    INDIVIDUAL: "",
}
BUILT_IN = {(kind, full(name)) for kind, names in NAMES_BUILT_IN.items() for name in names.split()}


def is_built_in(kind, iri):
    return (kind, iri) in BUILT_IN or kind == DATATYPE and iri.startswith(XSD)


class Kinds:
    def __init__(self, documents):
        self.declared = {(it[1][1][0], it[1][1][1].decode()) for document in documents for it in document.axioms if it[0] == TAGS["Declaration"]}

    def has(self, kind, iri):
        return (kind, iri) in self.declared or is_built_in(kind, iri)

    def is_twice(self, iri):
        properties = [kind for kind in (OBJECT_PROPERTY, DATA_PROPERTY, ANNOTATION_PROPERTY) if self.has(kind, iri)]
        return len(properties) > 1 or self.has(CLASS, iri) and self.has(DATATYPE, iri)

    def clash(self):
        return min((iri for _, iri in self.declared if self.is_twice(iri)), key=str.encode, default=None)


# Documents and their closure


class Document:
    def __init__(self, name, text):
        trees = Trees(text)
        self.name = name
        self.iris, self.imports, self.annotations, self.axioms = trees.document()
        self.prefixes = trees.prefixes

    def items(self):
        """What lines call by a name, and its trees: the header, and the axioms in their order."""
        yield "header", self.annotations
        for axiom in self.axioms:
            yield InFull({}).tree(axiom), [axiom]


class InFull(Writer):
    def iri(self, iri):
        return f"<{iri}>"


def reached(documents):
    """The documents that the first one reaches, in their order, and the name and import of the first that lacks one."""
    names = lambda iri: next((it for it in documents if iri.decode() in it.iris), None)
    found, todo = [], [documents[0]]
    while todo:
        document = todo.pop()
        if document not in found:
            found.append(document)
            todo += filter(None, map(names, document.imports))
    found = [it for it in documents if it in found]
    missing = [(it.name, iri.decode()) for it in found for iri in it.imports if not names(iri)]
    return found, next(iter(missing), None)


def leaves(tree):
    tag, inside = tree
    if isinstance(inside, list):
        for kid in inside:
            yield from leaves(kid)
    else:
        yield tag, inside


def undeclared(document, kinds):
    for item, trees in document.items():
        for tag, inside in (leaf for tree in trees for leaf in leaves(tree)):
            if tag < INDIVIDUAL and not kinds.has(tag, inside.decode()):
                return f"typing: Undeclared {ENTITIES[tag - 1]} <{inside.decode()}>: {item}"
    return None


def unsayable(document):
    for item, trees in document.items():
        for tag, inside in (leaf for tree in trees for leaf in leaves(tree)):
            if tag <= INDIVIDUAL and inside.decode().startswith((RDF, RDFS, XSD, OWL)) and not is_built_in(tag, inside.decode()):
                return f"target: Reserved <{inside.decode()}>: {item}"
            if tag == FACET and not inside.decode().startswith(XSD) and inside.decode() != RDF + "langRange":
                return f"target: FacetName <{inside.decode()}>: {item}"
    return None


# The normal form


def of_names(*names):
    return {TAGS[name] for name in names}


LINKED_IN_PAIRS = of_names("EquivalentClasses", "EquivalentObjectProperties", "EquivalentDataProperties", "SameIndividual")
SETS_WITH_NODE = of_names("DisjointClasses", "DisjointObjectProperties", "DisjointDataProperties", "DifferentIndividuals")
NEGATIVE = of_names("NegativeObjectPropertyAssertion", "NegativeDataPropertyAssertion")


def notes_of(tree):
    return tree[1][0][1]


def with_notes(tree, notes):
    return tree[0], [(NOTES, notes), *tree[1][1:]]


def bare(tree):
    return with_notes(tree, [])


def has_node(axiom):
    return axiom[0] in NEGATIVE or axiom[0] in SETS_WITH_NODE and len(axiom[1]) > 3


def spread(axiom):
    """The axioms that stand for one: pairs of neighbours, and no assertion by an inverse."""
    tag, (notes, *operands) = axiom
    if tag in LINKED_IN_PAIRS and len(operands) > 2:
        return [(tag, [notes, *pair]) for pair in zip(operands, operands[1:])]
    if tag == TAGS["ObjectPropertyAssertion"] and operands[0][0] == TAGS["ObjectInverseOf"]:
        (_, (direct,)), start, end = operands
        return [(tag, [notes, direct, end, start])]
    return [axiom]


def needed(trees, may_go):
    """Trees with needed annotations alone, in order, but for bare ones that stand beside an annotated one."""
    trees = in_order(with_notes(it, needed(notes_of(it), lambda _: True)) for it in trees)
    annotated = [bare(it) for it in trees if notes_of(it)]
    return [it for it in trees if notes_of(it) or not may_go(it) or it not in annotated]


def normal_form(document):
    """The annotations, the axioms, and how many were absorbed."""
    axioms = in_order(it for axiom in document.axioms for it in spread(axiom))
    own = [(8, iri.encode()) for iri in document.iris[:1]]
    about_itself = [it for it in axioms if it[0] == TAGS["AnnotationAssertion"] and it[1][2] in own]
    annotations = [(ANNOTATION, [notes, name, value]) for _, (notes, name, _, value) in about_itself]
    axioms = [it for it in axioms if it not in about_itself]
    kept = needed(axioms, lambda it: not has_node(it))
    return needed(document.annotations + annotations, lambda _: True), kept, len(axioms) - len(kept)


# The graph. A term is 0 and an IRI, 1 and a label, or 2 and what a literal is, and so terms and triples stand in order.


def iri_term(name):
    return 0, full(name).encode()


def literal_term(form, datatype):
    return 2, (form.encode(), full(datatype).encode(), (False, b""))


TYPES_OF_ENTITIES = {
    CLASS: "owl:Class",
    DATATYPE: "rdfs:Datatype",
    OBJECT_PROPERTY: "owl:ObjectProperty",
    DATA_PROPERTY: "owl:DatatypeProperty",
    ANNOTATION_PROPERTY: "owl:AnnotationProperty",
    INDIVIDUAL: "owl:NamedIndividual",
}
TYPES_OF_PROPERTIES = {
    TAGS[name]: re.sub("Object|Data", "", "owl:" + name)
    for name in NAMES.values()
    if re.fullmatch("(Functional|InverseFunctional|Reflexive|Irreflexive|Symmetric|Asymmetric|Transitive)(Object|Data)Property", name)
}
TYPES_OF_SETS = {
    TAGS["DisjointClasses"]: "owl:AllDisjointClasses",
    TAGS["DisjointObjectProperties"]: "owl:AllDisjointProperties",
    TAGS["DisjointDataProperties"]: "owl:AllDisjointProperties",
    TAGS["DifferentIndividuals"]: "owl:AllDifferent",
}
PREDICATES = {
    TAGS[name]: row.split()[0]
    for row in """
        rdfs:subClassOf SubClassOf
        owl:equivalentClass EquivalentClasses DatatypeDefinition
        owl:disjointWith DisjointClasses
        owl:disjointUnionOf DisjointUnion
        rdfs:subPropertyOf SubObjectPropertyOf SubDataPropertyOf SubAnnotationPropertyOf
        owl:equivalentProperty EquivalentObjectProperties EquivalentDataProperties
        owl:propertyDisjointWith DisjointObjectProperties DisjointDataProperties
        owl:inverseOf InverseObjectProperties
        rdfs:domain ObjectPropertyDomain DataPropertyDomain AnnotationPropertyDomain
        rdfs:range ObjectPropertyRange DataPropertyRange AnnotationPropertyRange
        owl:hasKey HasKey
        owl:sameAs SameIndividual
        owl:differentFrom DifferentIndividuals
        owl:intersectionOf ObjectIntersectionOf DataIntersectionOf
        owl:unionOf ObjectUnionOf DataUnionOf
        owl:oneOf ObjectOneOf DataOneOf
        owl:complementOf ObjectComplementOf
        owl:datatypeComplementOf DataComplementOf
        owl:someValuesFrom ObjectSomeValuesFrom DataSomeValuesFrom
        owl:allValuesFrom ObjectAllValuesFrom DataAllValuesFrom
        owl:hasValue ObjectHasValue DataHasValue
        """.strip().splitlines()
    for name in row.split()[1:]
}


class Drawing:
    """The triples of what was drawn. Nodes get labels in the order in which they are drawn."""

    def __init__(self, labels):
        self.triples = set()
        self.taken = labels
        counted = [int(it[3:]) for it in labels if re.fullmatch(b"gen(0|[1-9][0-9]{0,17})", it)]
        self.last = max(counted, default=0)

    def node(self):
        self.last += 1
        label = b"gen%d" % self.last
        return self.node() if label in self.taken else (1, label)

    def state(self, subject, name, value):
        self.triples.add((subject, full(name).encode(), value))

    def typed_node(self, name):
        node = self.node()
        self.state(node, "rdf:type", iri_term(name))
        return node

    def list_of(self, members, least=0):
        """A list of trees. What stands for a set of one is drawn once, and stands in as many cells as are written."""
        if not members:
            return iri_term("rdf:nil")
        first = cell = self.node()
        term = self.term(members[0])
        self.state(cell, "rdf:first", term)
        for place in range(1, max(len(members), least)):
            cell, before = self.node(), cell
            self.state(before, "rdf:rest", cell)
            if place < len(members):
                term = self.term(members[place])
            self.state(cell, "rdf:first", term)
        self.state(cell, "rdf:rest", iri_term("rdf:nil"))
        return first

    def term(self, tree):
        """The term of an operand."""
        tag, inside = tree
        if tag < FACET:
            return {ANONYMOUS: 1, LITERAL: 2}.get(tag, 0), inside
        name = NAMES[tag]
        if name == "ObjectInverseOf":
            node = self.node()
            self.state(node, "owl:inverseOf", self.term(inside[0]))
        elif name == "DatatypeRestriction":
            node = self.typed_node("rdfs:Datatype")
            self.state(node, "owl:onDatatype", self.term(inside[0]))
            self.state(node, "owl:withRestrictions", self.list_of(inside[1:]))
        elif name == "FacetPair":
            node = self.node()
            self.triples.add((node, inside[0][1], self.term(inside[1])))
        elif re.fullmatch("(Object|Data)(IntersectionOf|UnionOf|ComplementOf|OneOf)", name):
            node = self.typed_node("owl:Class" if name.startswith("Object") else "rdfs:Datatype")
            least = 1 if name.endswith("OneOf") else 2
            self.state(node, PREDICATES[tag], self.term(inside[0]) if name.endswith("ComplementOf") else self.list_of(inside, least))
        else:
            node = self.typed_node("owl:Restriction")
            self.restrict(node, name, inside)
        return node

    def restrict(self, node, name, kids):
        cardinality = re.fullmatch("(Object|Data)(Min|Max|Exact)Cardinality", name)
        if cardinality:
            (_, number), *properties = kids[:2]
            filler = kids[2:]
        elif name == "ObjectHasSelf":
            properties, filler = kids, []
        else:
            properties, filler = kids[:-1], kids[-1:]
        if len(properties) > 1:
            self.state(node, "owl:onProperties", self.list_of(properties))
        else:
            self.state(node, "owl:onProperty", self.term(properties[0]))
        if cardinality:
            words = {"Min": "min", "Max": "max", "Exact": ""}[cardinality[2]] + "Qualified" * len(filler) + "Cardinality"
            self.state(node, "owl:" + words[0].lower() + words[1:], literal_term(str(number), "xsd:nonNegativeInteger"))
            for tree in filler:
                self.state(node, "owl:onClass" if cardinality[1] == "Object" else "owl:onDataRange", self.term(tree))
        elif name == "ObjectHasSelf":
            self.state(node, "owl:hasSelf", literal_term("true", "xsd:boolean"))
        else:
            self.state(node, PREDICATES[TAGS[name]], self.term(filler[0]))

    # Annotations

    def annotate(self, subject, annotations):
        for _, (notes, (_, name), value) in annotations:
            triple = subject, name, self.term(value)
            self.triples.add(triple)
            if notes[1]:
                self.reify(triple, notes[1], "owl:Annotation")

    def reify(self, triple, annotations, name):
        node = self.typed_node(name)
        self.state(node, "owl:annotatedSource", triple[0])
        self.state(node, "owl:annotatedProperty", (0, triple[1]))
        self.state(node, "owl:annotatedTarget", triple[2])
        self.annotate(node, annotations)

    # Axioms

    def main_triple(self, axiom):
        tag, (_, *operands) = axiom
        name = NAMES[tag]
        is_type = full("rdf:type").encode()
        if name == "Declaration":
            return self.term(operands[0]), is_type, iri_term(TYPES_OF_ENTITIES[operands[0][0]])
        if tag in TYPES_OF_PROPERTIES:
            return self.term(operands[0]), is_type, iri_term(TYPES_OF_PROPERTIES[tag])
        if name == "ClassAssertion":
            kind = self.term(operands[0])
            return self.term(operands[1]), is_type, kind
        if name in ("ObjectPropertyAssertion", "DataPropertyAssertion", "AnnotationAssertion"):
            return self.term(operands[1]), operands[0][1], self.term(operands[2])
        if operands[0][0] == TAGS["ObjectPropertyChain"]:
            chain = self.list_of(operands[0][1])
            return self.term(operands[1]), full("owl:propertyChainAxiom").encode(), chain
        first = self.term(operands[0])
        if name == "DisjointUnion":
            last = self.list_of(operands[1:], 2)
        elif name == "HasKey":
            last = self.list_of(operands[1][1] + operands[2][1])
        else:
            last = self.term(operands[1]) if len(operands) > 1 else first
        return first, full(PREDICATES[tag]).encode(), last

    def main_node(self, axiom):
        tag, (_, *operands) = axiom
        if tag in SETS_WITH_NODE:
            node = self.typed_node(TYPES_OF_SETS[tag])
            self.state(node, "owl:members", self.list_of(operands))
        else:
            node = self.typed_node("owl:NegativePropertyAssertion")
            target = "owl:targetIndividual" if NAMES[tag] == "NegativeObjectPropertyAssertion" else "owl:targetValue"
            for name, tree in zip(("owl:assertionProperty", "owl:sourceIndividual", target), operands):
                self.state(node, name, self.term(tree))
        return node

    def axioms(self, axioms):
        """All axioms, those that differ in their annotations alone together."""
        for statement in in_order(map(bare, axioms)):
            same = [it for it in axioms if bare(it) == statement]
            if has_node(statement):
                for axiom in same:
                    self.annotate(self.main_node(axiom), notes_of(axiom))
            else:
                triple = self.main_triple(statement)
                self.triples.add(triple)
                for axiom in filter(notes_of, same):
                    self.reify(triple, notes_of(axiom), "owl:Axiom")

    def header(self, iris, imports, annotations):
        node = (0, iris[0].encode()) if iris else self.node()
        self.state(node, "rdf:type", iri_term("owl:Ontology"))
        for iri in iris[1:]:
            self.state(node, "owl:versionIRI", (0, iri.encode()))
        for iri in imports:
            self.state(node, "owl:imports", (0, iri))
        self.annotate(node, annotations)


# The text


class TurtleWriter(Writer):
    def term(self, term):
        sort, inside = term
        if sort == 2:
            return self.literal(*inside).replace("\n", "\\n").replace("\r", "\\r")
        return self.iri(inside.decode()) if sort == 0 else "_:" + inside.decode()

    def graph(self, triples):
        lines = [f"@prefix {name}: <{self.prefixes[name]}> ." for name in sorted(self.prefixes, key=str.encode)]
        for subject, predicate, value in sorted(triples):
            lines.append(f"{self.term(subject)} {self.iri(predicate.decode())} {self.term(value)} .")
        return "\n".join([*lines, ""])


def drawn(document):
    """The triples of the normal form, and the line of the note."""
    annotations, axioms, absorbed = normal_form(document)
    labels = {inside for tree in annotations + axioms for tag, inside in leaves(tree) if tag == ANONYMOUS}
    drawing = Drawing(labels)
    drawing.header(document.iris, document.imports, annotations)
    drawing.axioms(axioms)
    return drawing.triples, f"translated; axioms {len(axioms)}; absorbed {absorbed}"


def translation(document):
    """The text, and the line of the note."""
    triples, line = drawn(document)
    return TurtleWriter(document.prefixes).graph(triples), line


def outcome(names_and_texts, partial=False):
    """The status, the output and the line for documents that read, the main one first."""
    documents = [Document(*it) for it in names_and_texts]
    found, missing = reached(documents)
    if missing and not partial:
        return 3, "", f"{missing[0]}: MissingImport <{missing[1]}>"
    kinds = Kinds(found)
    clash = kinds.clash()
    refusal = f"typing: TwoKinds <{clash}>" if clash else undeclared(documents[0], kinds) or unsayable(documents[0])
    return (4, "", refusal) if refusal else (0, *translation(documents[0]))


def main(words):
    partial = words[:1] == ["--partial"]
    texts = []
    for name in words[partial:]:
        with open(name, encoding="utf-8", newline="") as file:
            texts.append((name, file.read()))
    status, output, line = outcome(texts, partial)
    sys.stdout.write(output)
    print(line, file=sys.stderr)
    return status


if __name__ == "__main__":
    sys.exit(main(sys.argv[1:]))
