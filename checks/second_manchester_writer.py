#!/usr/bin/env python3
"""A second writer of Manchester Syntax, to compare owl with.

second_manchester_writer.py translate --to omn [--partial] NAME.. does what `owl` has to
do with these words, for documents that read: the closure of imports and its kinds, what
is not declared or can't be said, the normal form, and its text. The documents are those
of the second reader, in Manchester Syntax, in Functional-Style Syntax, or in Turtle of a
header and declarations, and so are the answers to all other words.

It goes by the OWL 2 Manchester Syntax (Second Edition, 2012), sections 2.1 to 2.6, with
owl's own choices, over the trees of the second writer. It shares no code or table with
owl, and knows of no limit of what is written.
"""

import re
import sys

import second_manchester
import second_mapping
from second_manchester import FACETS, FRAMES, KEYWORDS, PLAIN_IRI, Refusal
from second_mapping import ANNOTATION_PROPERTY, ANONYMOUS, CLASS, DATA_PROPERTY, DATATYPE, FACET, INDIVIDUAL, OBJECT_PROPERTY, InFull, leaves
from second_writer import NAMES, NOTES, TAGS, Writer, in_order

KINDS = (CLASS, DATATYPE, OBJECT_PROPERTY, DATA_PROPERTY, ANNOTATION_PROPERTY, INDIVIDUAL)
SPELLINGS_OF_FACETS = {iri: spelling for spelling, iri in FACETS.items()}

# Axioms that stand in a frame, by the section: of which operand the frame is
SECTIONS = {
    name: (section, place)
    for section, place, names in [
        ("SubClassOf", 0, "SubClassOf"),
        ("DisjointUnionOf", 0, "DisjointUnion"),
        ("HasKey", 0, "HasKey"),
        ("EquivalentTo", 0, "DatatypeDefinition"),
        ("SubPropertyOf", 0, "SubObjectPropertyOf SubDataPropertyOf SubAnnotationPropertyOf"),
        ("InverseOf", 0, "InverseObjectProperties"),
        ("Domain", 0, "ObjectPropertyDomain DataPropertyDomain AnnotationPropertyDomain"),
        ("Range", 0, "ObjectPropertyRange DataPropertyRange AnnotationPropertyRange"),
        ("Characteristics", 0, "FunctionalObjectProperty InverseFunctionalObjectProperty ReflexiveObjectProperty IrreflexiveObjectProperty"),
        ("Characteristics", 0, "SymmetricObjectProperty AsymmetricObjectProperty TransitiveObjectProperty FunctionalDataProperty"),
        ("Types", 1, "ClassAssertion"),
        ("Facts", 1, "ObjectPropertyAssertion NegativeObjectPropertyAssertion DataPropertyAssertion NegativeDataPropertyAssertion"),
        ("Annotations", 1, "AnnotationAssertion"),
    ]
    for name in names.split()
}

# Axioms that are an item without a frame
MISC = {
    "EquivalentClasses": "EquivalentClasses",
    "DisjointClasses": "DisjointClasses",
    "EquivalentObjectProperties": "EquivalentProperties",
    "EquivalentDataProperties": "EquivalentProperties",
    "DisjointObjectProperties": "DisjointProperties",
    "DisjointDataProperties": "DisjointProperties",
    "SameIndividual": "SameIndividual",
    "DifferentIndividuals": "DifferentIndividuals",
}

WORDS_OF_RESTRICTIONS = {"SomeValuesFrom": "some", "AllValuesFrom": "only", "HasValue": "value"}
WORDS_OF_CARDINALITIES = {"MinCardinality": "min", "MaxCardinality": "max", "ExactCardinality": "exactly"}


def name_of(tree):
    """The name of a construct, and none of a leaf."""
    return NAMES.get(tree[0])


def sort_of(tree):
    """The name of an expression, without the sort that it is of."""
    return re.sub("^(Object|Data)(?=[A-Z])", "", name_of(tree))


def is_chain(axiom):
    return name_of(axiom[1][1]) == "ObjectPropertyChain"


def subtrees_of(tree):
    yield tree
    if isinstance(tree[1], list):
        for kid in tree[1]:
            yield from subtrees_of(kid)


# What can't be said


def reasons(axiom, kinds):
    """Why an axiom can't be said, each reason as a line has it, in the order in which they are told."""
    name, (notes, *operands) = name_of(axiom), axiom[1]
    if name in ("SubClassOf", "HasKey") and operands[0][0] != CLASS:
        yield "UnnamedSubject"
    if SECTIONS.get(name, (None,))[0] in ("Domain", "Range", "Characteristics", "SubPropertyOf") and "Object" in name:
        subject = operands[1] if is_chain(axiom) else operands[0]
        if subject[0] != OBJECT_PROPERTY:
            yield "InverseSubject"
    if name == "InverseObjectProperties" and all(it[0] != OBJECT_PROPERTY for it in operands):
        yield "TwoInverses"
    if name in ("ObjectPropertyAssertion", "NegativeObjectPropertyAssertion") and operands[0][0] != OBJECT_PROPERTY:
        yield "InverseAssertion"
    if any(name_of(it) in ("DataSomeValuesFrom", "DataAllValuesFrom") and len(it[1]) > 2 for it in subtrees_of(axiom)):
        yield "ManyProperties"
    for tag, inside in leaves(axiom):
        if tag == FACET and inside.decode() not in SPELLINGS_OF_FACETS:
            yield f"FacetName <{inside.decode()}>"
    if name == "Declaration" and notes[1]:
        yield "AnnotatedDeclaration"
    if name == "AnnotationAssertion" and operands[1][0] == PLAIN_IRI and kind_of(operands[1], kinds) is None:
        yield f"UndeclaredSubject <{operands[1][1].decode()}>"


def unsayable(document, kinds):
    for axiom in document.axioms:
        for reason in reasons(axiom, kinds):
            return f"target: {reason}: {InFull({}).tree(axiom)}"
    return None


# The normal form


def kind_of(iri, kinds):
    """The first kind of an IRI that is annotated."""
    return next((kind for kind in KINDS if kinds.has(kind, iri[1].decode())), None)


def subject_of(axiom, kinds):
    """What the frame of an axiom is of, which has the tag of its kind."""
    name, (_, *operands) = name_of(axiom), axiom[1]
    subject = operands[1] if is_chain(axiom) else operands[SECTIONS[name][1]]
    return (kind_of(subject, kinds), subject[1]) if subject[0] == PLAIN_IRI else subject


def normal_form(document, kinds):
    """The axioms, and a declaration of each name that has a frame."""
    subjects = [subject_of(axiom, kinds) for axiom in document.axioms if name_of(axiom) in SECTIONS]
    return in_order(document.axioms + [(TAGS["Declaration"], [(NOTES, []), it]) for it in subjects if it[0] != ANONYMOUS])


# The text


class Text(Writer):
    def __init__(self, prefixes, kinds):
        super().__init__({name: iri for name, iri in prefixes.items() if name not in KEYWORDS})
        self.kinds = kinds

    def annotations(self, trees):
        """The body of `Annotations:`, each annotation with its own in front of it."""
        return ", ".join(f"{self.notes(notes)}{self.tree(prop)} {self.tree(value)}" for _, (notes, prop, value) in trees)

    def notes(self, notes):
        return f"Annotations: {self.annotations(notes[1])} " if notes[1] else ""

    def all(self, trees, least=1):
        """Expressions one by one, and that of a set of one twice where two have to be there."""
        texts = [self.expression(it) for it in trees]
        return texts * 2 if len(texts) < least else texts

    def operand(self, tree):
        text = self.expression(tree)
        stands_alone = name_of(tree) is None or sort_of(tree) in ("OneOf", "DatatypeRestriction", "InverseOf")
        return text if stands_alone else f"({text})"

    def expression(self, tree):
        if name_of(tree) is None:
            return self.tree(tree)
        sort, kids = sort_of(tree), tree[1]
        if name_of(tree) == "ObjectInverseOf":
            return f"inverse {self.tree(kids[0])}"
        if name_of(tree) == "DatatypeRestriction":
            pairs = [f"{SPELLINGS_OF_FACETS[facet.decode()]} {self.tree(value)}" for _, ((_, facet), value) in kids[1:]]
            return f"{self.tree(kids[0])}[{', '.join(pairs)}]"
        if sort in ("IntersectionOf", "UnionOf"):
            operands = [self.operand(it) for it in kids]
            return {"IntersectionOf": " and ", "UnionOf": " or "}[sort].join(operands * 2 if len(operands) == 1 else operands)
        if sort == "ComplementOf":
            return f"not {self.operand(kids[0])}"
        if sort == "OneOf":
            return f"{{{', '.join(self.all(kids))}}}"
        if sort == "HasSelf":
            return f"{self.operand(kids[0])} Self"
        if sort in WORDS_OF_CARDINALITIES:
            number, prop, *fillers = map(self.operand, kids)
            return " ".join([prop, WORDS_OF_CARDINALITIES[sort], number, *fillers])
        prop, filler = map(self.operand, kids)
        return f"{prop} {WORDS_OF_RESTRICTIONS[sort]} {filler}"

    def element(self, axiom):
        """What stands in the section of an axiom."""
        name, (_, *operands) = name_of(axiom), axiom[1]
        section, place = SECTIONS[name]
        if section == "DisjointUnionOf":
            return ", ".join(self.all(operands[1:], 2))
        if section == "HasKey":
            return " ".join(self.all(operands[1][1] + operands[2][1]))
        if section == "Characteristics":
            return name.removesuffix("Property").removesuffix("Object").removesuffix("Data")
        if section in ("Facts", "Annotations"):
            prop, _, value = map(self.tree, operands)
            return f"{'not ' * name.startswith('Negative')}{prop} {value}"
        if is_chain(axiom):
            return " o ".join(self.all(operands[0][1]))
        return self.expression(operands[-1 if place == 0 else 0])

    def block(self, axiom):
        name, (notes, *operands) = name_of(axiom), axiom[1]
        if name == "Declaration":
            return self.frame(operands[0])
        if name in MISC:
            return f"{MISC[name]}: {self.notes(notes)}{', '.join(self.all(operands, 2))}"
        section = "SubPropertyChain" if is_chain(axiom) else SECTIONS[name][0]
        return f"{self.frame(subject_of(axiom, self.kinds))}\n    {section}: {self.notes(notes)}{self.element(axiom)}"

    def frame(self, subject):
        return f"{'Individual' if subject[0] == ANONYMOUS else FRAMES[subject[0] - 1]}: {self.tree(subject)}"

    def document(self, names, imports, annotations, axioms):
        lines = [f"Prefix: {name}: <{self.prefixes[name]}>" for name in sorted(self.prefixes, key=str.encode)]
        lines.append(" ".join(["Ontology:", *(f"<{it}>" for it in names)]))
        lines += [f"Import: <{it.decode()}>" for it in imports]
        lines += [f"Annotations: {self.annotations(annotations)}"] * bool(annotations)
        lines += map(self.block, axioms)
        return "\n".join([*lines, ""])


def refusal(document, kinds):
    """Why a document isn't written, if it isn't."""
    clash = kinds.clash()
    return f"typing: TwoKinds <{clash}>" if clash else second_mapping.undeclared(document, kinds) or unsayable(document, kinds)


def translation(document, kinds):
    """The text, and the line of the note."""
    axioms = normal_form(document, kinds)
    text = Text(document.prefixes, kinds).document(document.iris, document.imports, document.annotations, axioms)
    return text, f"translated; axioms {len(axioms)}; absorbed 0"


def outcome(words, texts):
    """The status, the output and the line of a command, its words without names, for names with their bytes."""
    if words[:3] != ["translate", "--to", "omn"]:
        return second_manchester.outcome(words, texts)
    try:
        documents = second_manchester.documents_of(texts)
        _, kinds = second_manchester.closure_of(documents, words[-1] == "--partial")
        line = refusal(documents[0], kinds)
        return (4, "", line) if line else (0, *translation(documents[0], kinds))
    except Refusal as told:
        status, line = told.args
        return status, "", line


if __name__ == "__main__":
    sys.exit(second_manchester.main(sys.argv[1:], outcome))
