#!/usr/bin/env python3
"""A second reading of the rules of OWL 2 EL, QL and RL, to compare owl with.

second_sorts.py PROFILE NAME.. writes what `owl check --profile PROFILE NAME..` has to
write, for documents in Functional-Style Syntax that read and whose imports are all
there: `yes` or `no`, and a line for each item that breaks a rule, those of OWL 2 DL by
the second reading of them in front. The rules of el, ql and rl are those of OWL 2
Profiles, sections 2.2, 3.2 and 4.2, numbered as owl does, each asked for in the plainest
way. It shares no code or table with owl.
"""

import functools
import sys

import second_rules
from second_mapping import ANONYMOUS, CLASS, DATA_PROPERTY, DATATYPE, LITERAL, OBJECT_PROPERTY, of_names, reached
from second_rules import FACETS, chain_of, counted, document_of, found_from, iris, is_chain_axiom, property_of
from second_writer import NAMES, TAGS

NUMBER = 10
THING = (CLASS, *iris("owl:Thing"))


# What stands in an axiom


def inside_of(axiom):
    """The axiom and all in it, but for what stands in its annotations."""
    tag, (_, *operands) = axiom
    yield axiom
    for it in operands:
        yield from counted(it)


def logical(axiom):
    """All in the axiom that means something: nothing of an assertion that annotates."""
    return [] if axiom[0] == TAGS["AnnotationAssertion"] else list(inside_of(axiom))


def class_expressions(axiom):
    return [it for it in logical(axiom) if it[0] == CLASS or it[0] in CLASS_EXPRESSIONS]


def data_ranges(axiom):
    return [it for it in logical(axiom) if it[0] == DATATYPE or it[0] in DATA_RANGES]


def datatypes(axiom):
    """The datatypes in the axiom, those of its literals too."""
    found = {inside for tag, inside in logical(axiom) if tag == DATATYPE}
    return found | {inside[1] for tag, inside in logical(axiom) if tag == LITERAL}


def has_anonymous(axiom):
    return any(tag == ANONYMOUS for tag, _ in logical(axiom))


CLASS_EXPRESSIONS = of_names(
    *"ObjectIntersectionOf ObjectUnionOf ObjectComplementOf ObjectOneOf ObjectSomeValuesFrom ObjectAllValuesFrom".split(),
    *"ObjectHasValue ObjectHasSelf ObjectMinCardinality ObjectMaxCardinality ObjectExactCardinality DataSomeValuesFrom".split(),
    *"DataAllValuesFrom DataHasValue DataMinCardinality DataMaxCardinality DataExactCardinality".split(),
)
DATA_RANGES = of_names("DataIntersectionOf", "DataUnionOf", "DataComplementOf", "DataOneOf", "DatatypeRestriction")

# Kinds of axioms

ANNOTATING = "AnnotationAssertion SubAnnotationPropertyOf AnnotationPropertyDomain AnnotationPropertyRange"
ASSERTIONS = """SameIndividual DifferentIndividuals ClassAssertion ObjectPropertyAssertion NegativeObjectPropertyAssertion
    DataPropertyAssertion NegativeDataPropertyAssertion"""
IN_BOTH = f"""Declaration {ANNOTATING} SubClassOf EquivalentClasses DisjointClasses SubObjectPropertyOf EquivalentObjectProperties
    ObjectPropertyDomain ObjectPropertyRange ReflexiveObjectProperty SubDataPropertyOf EquivalentDataProperties DataPropertyDomain
    DataPropertyRange DatatypeDefinition"""
IN_EL = of_names(*f"{IN_BOTH} {ASSERTIONS} TransitiveObjectProperty FunctionalDataProperty HasKey".split())
IN_QL = of_names(
    *IN_BOTH.split(),
    *"DisjointObjectProperties InverseObjectProperties SymmetricObjectProperty IrreflexiveObjectProperty".split(),
    *"AsymmetricObjectProperty DisjointDataProperties DifferentIndividuals ClassAssertion".split(),
    *"ObjectPropertyAssertion DataPropertyAssertion".split(),
)

# Datatypes

ALLOWED = iris(
    """rdf:PlainLiteral rdf:XMLLiteral rdfs:Literal owl:real owl:rational xsd:decimal xsd:integer xsd:nonNegativeInteger xsd:string
    xsd:normalizedString xsd:token xsd:Name xsd:NCName xsd:NMTOKEN xsd:hexBinary xsd:base64Binary xsd:anyURI xsd:dateTime
    xsd:dateTimeStamp"""
)
REALS = iris("owl:real owl:rational")
MAPPED = set(FACETS)


def has_barred_datatype(axiom):
    return any(it in MAPPED and it not in ALLOWED for it in datatypes(axiom))


# EL


def is_el_class(tree):
    tag, inside = tree
    if tag == TAGS["ObjectOneOf"]:
        return len(inside) == 1
    names = "ObjectIntersectionOf ObjectSomeValuesFrom ObjectHasValue ObjectHasSelf DataSomeValuesFrom DataHasValue"
    return tag == CLASS or tag in of_names(*names.split())


def is_el_range(tree):
    tag, inside = tree
    return tag in (DATATYPE, TAGS["DataIntersectionOf"]) or tag == TAGS["DataOneOf"] and len(inside) == 1


def el_1(axiom):
    return axiom[0] not in IN_EL


def el_2(axiom):
    return not all(map(is_el_class, class_expressions(axiom)))


def el_3(axiom):
    return not all(map(is_el_range, data_ranges(axiom)))


def el_4(axiom):
    return has_barred_datatype(axiom)


def el_5(axiom):
    return any(tag == TAGS["ObjectInverseOf"] for tag, _ in logical(axiom))


def el_6(axiom):
    return has_anonymous(axiom)


# EL over a closure (section 2.2.6)


def steps_up(axioms):
    """The pairs of properties of which axioms put the first below the second, without a chain."""
    found = [it for it in axioms if it[0] == TAGS["SubObjectPropertyOf"] and not is_chain_axiom(it)]
    return {(property_of(below), property_of(above)) for _, (_, below, above) in found}


def imposed(axioms, on):
    """The class expressions that axioms impose as range on a property."""
    above = found_from(on, steps_up(axioms))
    return [kind for _, (_, of, kind) in (it for it in axioms if it[0] == TAGS["ObjectPropertyRange"]) if property_of(of) in above]


def el_7(axioms, axiom):
    if not is_chain_axiom(axiom):
        return False
    chain, implied = chain_of(axiom)
    ranges = imposed(axioms, chain[-1])
    return any(kind not in ranges for kind in imposed(axioms, implied))


# QL


def is_ql_sub(tree):
    tag, inside = tree
    return tag in (CLASS, TAGS["DataSomeValuesFrom"]) or tag == TAGS["ObjectSomeValuesFrom"] and inside[1] == THING


def is_ql_super(tree):
    tag, inside = tree
    if tag == TAGS["ObjectIntersectionOf"]:
        return all(map(is_ql_super, inside))
    if tag == TAGS["ObjectComplementOf"]:
        return is_ql_sub(inside[0])
    if tag == TAGS["ObjectSomeValuesFrom"]:
        return inside[1][0] == CLASS
    return tag in (CLASS, TAGS["DataSomeValuesFrom"])


def is_ql_range(tree):
    return tree[0] in (DATATYPE, TAGS["DataIntersectionOf"])


def classes_kept(axiom, is_sub, is_super, is_equivalent, is_typed, is_keyed):
    """Whether the class expressions of an axiom are such as the profile lets stand in their places."""
    tag, (_, *operands) = axiom
    name = NAMES[tag]
    if name == "SubClassOf":
        return is_sub(operands[0]) and is_super(operands[1])
    if name == "EquivalentClasses":
        return all(map(is_equivalent, operands))
    if name == "DisjointClasses":
        return all(map(is_sub, operands))
    if name in ("ObjectPropertyDomain", "ObjectPropertyRange", "DataPropertyDomain"):
        return is_super(operands[1])
    if name == "ClassAssertion":
        return is_typed(operands[0])
    if name == "HasKey":
        return is_keyed(operands[0])
    return True


def ql_1(axiom):
    tag, inside = axiom
    return tag not in IN_QL or tag == TAGS["SubObjectPropertyOf"] and inside[1][0] == TAGS["ObjectPropertyChain"]


def ql_2(axiom):
    return not classes_kept(axiom, is_ql_sub, is_ql_super, is_ql_sub, lambda it: it[0] == CLASS, lambda it: True)


def ql_3(axiom):
    return not all(map(is_ql_range, data_ranges(axiom)))


def ql_4(axiom):
    return has_barred_datatype(axiom)


def ql_5(axiom):
    return has_anonymous(axiom)


# RL

EXTREMES = {(OBJECT_PROPERTY, it) for it in iris("owl:topObjectProperty owl:bottomObjectProperty")}
EXTREMES |= {(DATA_PROPERTY, it) for it in iris("owl:topDataProperty owl:bottomDataProperty")}


def is_other_class(tree):
    return tree[0] == CLASS and tree != THING


def is_small(tree):
    return tree[0] == NUMBER and tree[1] in (0, 1)


def is_rl_sub(tree):
    tag, inside = tree
    if tag in of_names("ObjectIntersectionOf", "ObjectUnionOf"):
        return all(map(is_rl_sub, inside))
    if tag == TAGS["ObjectSomeValuesFrom"]:
        return inside[1] == THING or is_rl_sub(inside[1])
    return is_other_class(tree) or tag in of_names("ObjectOneOf", "ObjectHasValue", "DataSomeValuesFrom", "DataHasValue")


def is_rl_super(tree):
    tag, inside = tree
    if tag == TAGS["ObjectIntersectionOf"]:
        return all(map(is_rl_super, inside))
    if tag == TAGS["ObjectComplementOf"]:
        return is_rl_sub(inside[0])
    if tag == TAGS["ObjectAllValuesFrom"]:
        return is_rl_super(inside[1])
    if tag == TAGS["ObjectMaxCardinality"]:
        return is_small(inside[0]) and all(it == THING or is_rl_sub(it) for it in inside[2:])
    if tag == TAGS["DataMaxCardinality"]:
        return is_small(inside[0])
    return is_other_class(tree) or tag in of_names("ObjectHasValue", "DataAllValuesFrom", "DataHasValue")


def is_rl_equivalent(tree):
    tag, inside = tree
    if tag == TAGS["ObjectIntersectionOf"]:
        return all(map(is_rl_equivalent, inside))
    return is_other_class(tree) or tag in of_names("ObjectHasValue", "DataHasValue")


def rl_1(axiom):
    return axiom[0] in of_names("DisjointUnion", "ReflexiveObjectProperty")


def rl_2(axiom):
    return not classes_kept(axiom, is_rl_sub, is_rl_super, is_rl_equivalent, is_rl_super, is_rl_sub)


def rl_3(axiom):
    return not all(map(is_ql_range, data_ranges(axiom)))


def rl_4(axiom):
    return bool(REALS & datatypes(axiom))


def rl_5(axiom):
    return any(tag in (OBJECT_PROPERTY, DATA_PROPERTY) and (tag, inside) in EXTREMES for tag, inside in logical(axiom))


# All of them

RULES = {
    "DL": [],
    "EL": [el_1, el_2, el_3, el_4, el_5, el_6],
    "QL": [ql_1, ql_2, ql_3, ql_4, ql_5],
    "RL": [rl_1, rl_2, rl_3, rl_4, rl_5],
}


def rules_of(profile, axioms):
    """The rules of a profile besides those of OWL 2 DL, for the axioms of a closure."""
    return RULES[profile] + [functools.partial(el_7, axioms)] * (profile == "EL")


def names_of_rules(profile):
    """How the rules of a profile are called, those of OWL 2 DL in front."""
    own = len(rules_of(profile, []))
    return [f"DL-{number}" for number in second_rules.RULES] + [f"{profile}-{number}" for number in range(1, own + 1)]


def breaches(profile, documents):
    """The rules that items of the closure of the first document break: rule, the document's place from 1, item."""
    found = [(f"DL-{number}", place, item) for number, place, item in second_rules.breaches(documents)]
    closure = reached(documents)[0]
    axioms = [it for document in closure for it in document.axioms]
    items = [(documents.index(it) + 1, item, trees) for it in closure for item, trees in it.items() if trees is not it.annotations]
    for number, breaks in enumerate(rules_of(profile, axioms), 1):
        found += [(f"{profile}-{number}", place, item) for place, item, [axiom] in items if breaks(axiom)]
    return found


def lines_of(found):
    return "".join(f"{rule} {place} {item}\n" for rule, place, item in found)


def main(profile, *names):
    found = breaches(profile.upper(), [document_of(it) for it in names])
    sys.stdout.write(("no\n" if found else "yes\n") + lines_of(found))
    print(f"profile {profile}: no; breaches {len(found)}" if found else f"profile {profile}: yes", file=sys.stderr)
    return bool(found)


if __name__ == "__main__":
    sys.exit(main(*sys.argv[1:]))
