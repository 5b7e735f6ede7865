#!/usr/bin/env python3
"""A second reading of the rules of OWL 2 DL, to compare owl with.

second_rules.py NAME.. writes what `owl check --profile dl NAME..` has to write, for
documents in Functional-Style Syntax that read and whose imports are all there: `yes`
or `no`, and a line for each item that breaks a rule. The restrictions are those of
the OWL 2 Structural Specification, sections 3, 5.8, 9 and 11, with owl's own choices,
searched for in the plainest way. It shares no code or table with owl.
"""

import re
import sys

from second_mapping import ANNOTATION, ANNOTATION_PROPERTY, ANONYMOUS, CLASS, DATA_PROPERTY, DATATYPE, INDIVIDUAL, LITERAL, OBJECT_PROPERTY
from second_mapping import Document, Kinds, bare, full, is_built_in, of_names, reached
from second_writer import OWL, RDF, RDFS, TAGS, XSD

INVERSE, CHAIN = TAGS["ObjectInverseOf"], TAGS["ObjectPropertyChain"]
RULES = range(1, 14)


def iris(text):
    return {full(name).encode() for name in text.split()}


# The datatype map, by the facets of its datatypes

ORDERED = """owl:real owl:rational xsd:decimal xsd:integer xsd:nonNegativeInteger xsd:nonPositiveInteger xsd:positiveInteger
    xsd:negativeInteger xsd:long xsd:int xsd:short xsd:byte xsd:unsignedLong xsd:unsignedInt xsd:unsignedShort xsd:unsignedByte
    xsd:double xsd:float xsd:dateTime xsd:dateTimeStamp"""
STRINGS = "xsd:string xsd:normalizedString xsd:token xsd:language xsd:Name xsd:NCName xsd:NMTOKEN xsd:anyURI"
LENGTHS = "xsd:length xsd:minLength xsd:maxLength"
ROWS = [
    (ORDERED, "xsd:minInclusive xsd:maxInclusive xsd:minExclusive xsd:maxExclusive"),
    (STRINGS, LENGTHS + " xsd:pattern"),
    ("rdf:PlainLiteral", LENGTHS + " xsd:pattern rdf:langRange"),
    ("xsd:hexBinary xsd:base64Binary", LENGTHS),
    ("xsd:boolean rdf:XMLLiteral", ""),
]
FACETS = {datatype: iris(facets) for datatypes, facets in ROWS for datatype in iris(datatypes)}
KNOWN = iris("rdfs:Literal") | set(FACETS)

# The least and the greatest of each kind of integers, where there is one

BOUNDS = {
    "integer": (None, None),
    "nonNegativeInteger": (0, None),
    "nonPositiveInteger": (None, 0),
    "positiveInteger": (1, None),
    "negativeInteger": (None, -1),
    **{name: (-(2 ** (bits - 1)), 2 ** (bits - 1) - 1) for name, bits in [("long", 64), ("int", 32), ("short", 16), ("byte", 8)]},
    **{f"unsigned{name}": (0, 2**bits - 1) for name, bits in [("Long", 64), ("Int", 32), ("Short", 16), ("Byte", 8)]},
}


def is_right(form, datatype):
    """Whether a literal has a lexical form of its datatype. Those whose forms owl doesn't look at have all."""
    name = datatype.removeprefix(XSD) if datatype.startswith(XSD) else None
    if name == "boolean":
        return form in ("true", "false", "1", "0")
    if name == "decimal":
        return re.fullmatch(r"[+-]?([0-9]+(\.[0-9]*)?|\.[0-9]+)", form) is not None
    if name in BOUNDS:
        least, most = BOUNDS[name]
        return re.fullmatch("[+-]?[0-9]+", form) is not None and (least is None or least <= int(form)) and (most is None or int(form) <= most)
    return True


def is_reserved(iri):
    return iri.decode().startswith((RDF, RDFS, XSD, OWL))


# What is counted

OF_ANNOTATIONS = {ANNOTATION, TAGS["AnnotationAssertion"]}


def counted(tree):
    """A tree and all below it, without the literals and anonymous individuals of annotations."""
    yield tree
    tag, inside = tree
    for kid in inside if isinstance(inside, list) else []:
        if tag not in OF_ANNOTATIONS or kid[0] not in (ANONYMOUS, LITERAL):
            yield from counted(kid)


def datatypes_in(tree):
    return {inside for tag, inside in counted(tree) if tag == DATATYPE}


def property_of(tree):
    """An object property expression as its property and whether it is the inverse."""
    tag, inside = tree
    return (inside[0][1], True) if tag == INVERSE else (inside, False)


def inverse(expression):
    iri, is_inverse = expression
    return iri, not is_inverse


def is_chain_axiom(axiom):
    return axiom[0] == TAGS["SubObjectPropertyOf"] and axiom[1][1][0] == CHAIN


def chain_of(axiom):
    """The properties of a chain axiom's chain, and its super property."""
    _, (_, (_, chain), above) = axiom
    return [property_of(it) for it in chain], property_of(above)


def found_from(start, edges):
    """All that edges lead to in zero or more steps."""
    found, size = {start}, 0
    while len(found) > size:
        size = len(found)
        found |= {after for before, after in edges if before in found}
    return found


# The hierarchy of object properties

TOP, BOTTOM = [(iri, False) for name in ("owl:topObjectProperty", "owl:bottomObjectProperty") for iri in iris(name)]


def steps_of(axiom):
    """What an axiom has lead to what in one step, without the steps between the inverses."""
    tag, (_, *operands) = axiom
    if tag == TAGS["SubObjectPropertyOf"] and not is_chain_axiom(axiom):
        below, above = map(property_of, operands)
        return {(below, above)}
    if tag == TAGS["EquivalentObjectProperties"]:
        members = [property_of(it) for it in operands]
        return {(one, other) for one in members for other in members}
    if tag == TAGS["InverseObjectProperties"]:
        first, last = property_of(operands[0]), inverse(property_of(operands[-1]))
        return {(first, last), (last, first)}
    if tag == TAGS["SymmetricObjectProperty"]:
        one = property_of(operands[0])
        return {(one, inverse(one))}
    return set()


def needed_of(axiom):
    """The pairs that a chain axiom needs in the order."""
    chain, above = chain_of(axiom)
    if above == TOP or chain == [above, above]:
        return set()
    if chain[0] == above:
        chain = chain[1:]
    elif chain[-1] == above:
        chain = chain[:-1]
    return {(it, above) for it in chain}


def least_order(pairs):
    """The least transitive relation with these pairs that has the inverse of what is below below as well."""
    order, size = set(pairs), -1
    while len(order) > size:
        size = len(order)
        order |= {(inverse(low), high) for low, high in order}
        order |= {(low, high) for low, middle in order for it, high in order if it == middle}
    return order


class Hierarchy:
    def __init__(self, axioms):
        steps = {it for axiom in axioms for it in steps_of(axiom)}
        self.steps = steps | {(inverse(below), inverse(above)) for below, above in steps}
        chains = [it for it in axioms if is_chain_axiom(it)]
        composite = [chain_of(it)[1] for it in chains]
        composite += [property_of(it[1][1]) for it in axioms if it[0] == TAGS["TransitiveObjectProperty"]]
        self.composite = {TOP, BOTTOM, *composite, *map(inverse, composite)}
        self.order = least_order({it for axiom in chains for it in needed_of(axiom)})

    def is_simple(self, expression):
        return all(expression not in found_from(it, self.steps) for it in self.composite)

    def has_breach(self, low, high):
        lows = {low, inverse(low)}
        lows |= {below for below, above in self.order if above in (low, inverse(low))}
        highs = {high} | {above for below, above in self.order if below == high}
        return any(found_from(it, self.steps) & lows for it in highs)


# What the rules look at in an axiom

ASKING_AXIOMS = of_names(
    "FunctionalObjectProperty", "InverseFunctionalObjectProperty", "IrreflexiveObjectProperty", "AsymmetricObjectProperty", "DisjointObjectProperties"
)
CARDINALITIES = of_names("ObjectMinCardinality", "ObjectMaxCardinality", "ObjectExactCardinality")
QUANTIFIERS = of_names("DataSomeValuesFrom", "DataAllValuesFrom")
NAMED_ALONE_AXIOMS = of_names("SameIndividual", "DifferentIndividuals", "NegativeObjectPropertyAssertion", "NegativeDataPropertyAssertion")
NAMED_ALONE = of_names("ObjectOneOf", "ObjectHasValue")
TOP_DATA = (DATA_PROPERTY, OWL.encode() + b"topDataProperty")


def asked_to_be_simple(tree):
    """The object property expressions that stand where a simple one has to."""
    for tag, inside in counted(tree):
        if tag in ASKING_AXIOMS:
            yield from map(property_of, inside[1:])
        elif tag in CARDINALITIES:
            yield property_of(inside[1])
        elif tag == TAGS["ObjectHasSelf"]:
            yield property_of(inside[0])


def has_wrong_facet(tree):
    return any(
        pair[1][0][1] not in FACETS.get(inside[0][1], ())
        for tag, inside in counted(tree)
        if tag == TAGS["DatatypeRestriction"]
        for pair in inside[1:]
    )


def has_two_properties(tree):
    return any(tag in QUANTIFIERS and len(inside) > 2 for tag, inside in counted(tree))


def has_top_data(axiom):
    tag, inside = axiom
    if tag == TAGS["Declaration"]:
        return False
    looked_at = inside[:2] if tag == TAGS["SubDataPropertyOf"] else inside
    return any(TOP_DATA in counted(it) for it in looked_at)


def has_anonymous(trees):
    return any(part[0] == ANONYMOUS for tree in trees for part in counted(tree))


def has_misplaced_anonymous(axiom):
    tag, inside = axiom
    return tag in NAMED_ALONE_AXIOMS and has_anonymous(inside) or any(it[0] in NAMED_ALONE and has_anonymous(it[1]) for it in counted(axiom))


def joined(axiom):
    """The two anonymous individuals that an object property assertion is between, or None."""
    tag, inside = axiom
    if tag == TAGS["ObjectPropertyAssertion"] and inside[2][0] == inside[3][0] == ANONYMOUS:
        return inside[2][1], inside[3][1]
    return None


def closes_ring(axiom, axioms):
    """Whether the individuals of an assertion are joined without it as well."""
    ends = joined(axiom)
    if ends is None:
        return False
    edges = [joined(it) for it in axioms if joined(it) and bare(it) != bare(axiom)]
    return ends[1] in found_from(ends[0], edges + [(last, first) for first, last in edges])


# The rules


class Rules:
    """The rules over the documents of a closure: each tells whether an item breaks it, by the trees that are in the item."""

    def __init__(self, documents):
        axioms = [it for document in documents for it in document.axioms]
        self.kinds = Kinds(documents)
        self.hierarchy = Hierarchy(axioms)
        self.definitions = []
        for it in axioms:
            if it[0] == TAGS["DatatypeDefinition"] and it[1][1:] not in self.definitions:
                self.definitions.append(it[1][1:])
        self.definition_steps = {(subject, it) for (_, subject), of in self.definitions for it in datatypes_in(of)}

    def is_wrong_datatype(self, datatype):
        count = sum(subject == datatype for (_, subject), _ in self.definitions)
        return count > 0 if datatype in KNOWN else is_reserved(datatype) or count != 1

    def leaves_of_kinds(self, trees, kinds):
        return [it for tree in trees for it in counted(tree) if it[0] in kinds]

    def rule_1(self, trees, _):
        kinds = (CLASS, DATATYPE, OBJECT_PROPERTY, DATA_PROPERTY, ANNOTATION_PROPERTY)
        return any(not self.kinds.has(tag, iri.decode()) for tag, iri in self.leaves_of_kinds(trees, kinds))

    def rule_2(self, trees, _):
        return any(it[0] == TAGS["Declaration"] and self.kinds.is_twice(it[1][1][1].decode()) for it in trees)

    def rule_3(self, trees, _):
        kinds = (CLASS, OBJECT_PROPERTY, DATA_PROPERTY, ANNOTATION_PROPERTY, INDIVIDUAL)
        return any(is_reserved(iri) and not is_built_in(tag, iri.decode()) for tag, iri in self.leaves_of_kinds(trees, kinds))

    def rule_4(self, trees, _):
        datatypes = [it[1] for it in self.leaves_of_kinds(trees, (DATATYPE,))]
        datatypes += [it[1][1] for it in self.leaves_of_kinds(trees, (LITERAL,))]
        return any(map(self.is_wrong_datatype, datatypes))

    def rule_5(self, trees, _):
        definitions = [it[1][1:] for it in trees if it[0] == TAGS["DatatypeDefinition"]]
        return any(subject in found_from(it, self.definition_steps) for (_, subject), of in definitions for it in datatypes_in(of))

    def rule_6(self, trees, _):
        return any(not is_right(form.decode(), datatype.decode()) for _, (form, datatype, _) in self.leaves_of_kinds(trees, (LITERAL,)))

    def rule_7(self, trees, _):
        return any(has_wrong_facet(it) or has_two_properties(it) for it in trees)

    def rule_8(self, trees, _):
        return any(map(has_top_data, trees))

    def rule_9(self, trees, _):
        return any(not self.hierarchy.is_simple(it) for tree in trees for it in asked_to_be_simple(tree))

    def rule_10(self, trees, _):
        return any(self.hierarchy.has_breach(*pair) for it in trees if is_chain_axiom(it) for pair in needed_of(it))

    def rule_11(self, trees, _):
        return any(map(has_misplaced_anonymous, trees))

    def rule_12(self, trees, document):
        return any(closes_ring(it, document.axioms) for it in trees)

    def rule_13(self, trees, document):
        return trees is document.annotations and any(is_reserved(it.encode()) for it in document.iris)


def breaches(documents):
    """The rules that items of the closure of the first document break: number, the document's place from 1, item."""
    closure = reached(documents)[0]
    rules = Rules(closure)
    items = [(documents.index(it) + 1, it, name, trees) for it in closure for name, trees in it.items()]
    asks = [(number, getattr(rules, f"rule_{number}")) for number in RULES]
    return [(number, place, name) for number, ask in asks for place, document, name, trees in items if ask(trees, document)]


def lines_of(found):
    return "".join(f"DL-{number} {place} {item}\n" for number, place, item in found)


def document_of(name):
    with open(name, encoding="utf-8", newline="") as file:
        return Document(name, file.read())


def main(names):
    found = breaches([document_of(it) for it in names])
    sys.stdout.write(("no\n" if found else "yes\n") + lines_of(found))
    print(f"profile dl: no; breaches {len(found)}" if found else "profile dl: yes", file=sys.stderr)
    return bool(found)


if __name__ == "__main__":
    sys.exit(main(sys.argv[1:]))
