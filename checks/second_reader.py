"""A second reader of Functional-Style Syntax, to compare owl with.

It goes by the grammar of the OWL 2 Structural Specification, by recursive
descent, and shares no code or table with owl. It tells the first defect of a list
of tokens by owl's rules: the item in which it stands, its place, and its reason.

A token is a triple (kind, value, place). The kinds are "word", "iri", "name",
"blank", "string", "tag", "number", "(", ")", "=" and "^^"; the value of a name is
the pair of its prefix and its local part.
"""

BEFOREHAND = {
    "rdf": "http://www.w3.org/1999/02/22-rdf-syntax-ns#",
    "rdfs": "http://www.w3.org/2000/01/rdf-schema#",
    "xsd": "http://www.w3.org/2001/XMLSchema#",
    "owl": "http://www.w3.org/2002/07/owl#",
}

ENTITIES = ("Class", "Datatype", "ObjectProperty", "DataProperty", "AnnotationProperty", "NamedIndividual")


class Defect(Exception):
    pass


class SecondReader:
    def __init__(self, tokens, end):
        self.tokens = tokens
        self.end = end
        self.next = 0
        self.item = 0
        self.prefixes = dict(BEFOREHAND)
        self.declared = set()

    # Tokens

    def peek(self):
        return self.tokens[self.next] if self.next < len(self.tokens) else (None, None, self.end)

    def kind(self):
        return self.peek()[0]

    def fail(self, reason="NotHere"):
        raise Defect(f"item at {self.item}: {reason} at {self.peek()[2]}")

    def is_word(self, words):
        kind, value, _ = self.peek()
        return kind == "word" and value in words

    def take(self, kind):
        if self.kind() != kind:
            self.fail()
        self.next += 1

    def keyword(self, words):
        if not self.is_word(words):
            self.fail()
        self.next += 1
        return self.tokens[self.next - 1][1]

    def in_brackets(self, part):
        self.take("(")
        part()
        self.take(")")

    def some(self, part, starts, least):
        for _ in range(least):
            part()
        while starts():
            part()

    # IRIs, literals and individuals

    def is_iri(self):
        return self.kind() in ("iri", "name")

    def iri(self):
        kind, value, _ = self.peek()
        if kind == "name":
            prefix, local = value
            if prefix not in self.prefixes:
                self.fail("UnknownPrefix")
            value = self.prefixes[prefix] + local
        elif kind != "iri":
            self.fail()
        self.next += 1
        return value

    def is_literal(self):
        return self.kind() == "string"

    def literal(self):
        self.take("string")
        if self.kind() == "tag":
            self.next += 1
        elif self.kind() == "^^":
            self.next += 1
            datatype_stands = self.next
            if self.iri() == BEFOREHAND["rdf"] + "langString":
                self.next = datatype_stands
                self.fail("BadLiteral")

    def is_individual(self):
        return self.is_iri() or self.kind() == "blank"

    def individual(self):
        if self.kind() == "blank":
            self.next += 1
        else:
            self.iri()

    # Expressions

    def is_object_property(self):
        return self.is_iri() or self.is_word(("ObjectInverseOf",))

    def object_property(self):
        if self.is_word(("ObjectInverseOf",)):
            self.next += 1
            self.in_brackets(self.iri)
        else:
            self.iri()

    def sub_object_property(self):
        if self.is_word(("ObjectPropertyChain",)):
            self.next += 1
            self.in_brackets(lambda: self.some(self.object_property, self.is_object_property, 2))
        else:
            self.object_property()

    def is_class(self):
        return self.is_iri() or self.is_word(CLASSES)

    def a_class(self):
        if self.is_iri():
            self.iri()
        else:
            word = self.keyword(CLASSES)
            self.in_brackets(lambda: CLASSES[word](self))

    def is_range(self):
        return self.is_iri() or self.is_word(RANGES)

    def a_range(self):
        if self.is_iri():
            self.iri()
        else:
            word = self.keyword(RANGES)
            self.in_brackets(lambda: RANGES[word](self))

    def classes(self):
        self.some(self.a_class, self.is_class, 2)

    def ranges(self):
        self.some(self.a_range, self.is_range, 2)

    def properties_and_range(self):
        self.iri()
        count = 1
        while self.is_iri():
            self.iri()
            count += 1
        if self.is_range():
            self.a_range()
        elif count < 2:
            self.fail()

    def object_cardinality(self):
        self.take("number")
        self.object_property()
        if self.is_class():
            self.a_class()

    def data_cardinality(self):
        self.take("number")
        self.iri()
        if self.is_range():
            self.a_range()

    def facet(self):
        self.iri()
        self.literal()

    def restriction(self):
        self.iri()
        self.some(self.facet, self.is_iri, 1)

    # Annotations and axioms

    def annotations(self):
        while self.is_word(("Annotation",)):
            self.annotation()

    def annotation(self):
        self.keyword(("Annotation",))
        self.in_brackets(lambda: (self.annotations(), self.iri(), self.annotation_value()))

    def annotation_value(self):
        if self.is_literal():
            self.literal()
        else:
            self.individual()

    def entity(self):
        self.keyword(ENTITIES)
        self.in_brackets(self.iri)

    def key(self):
        self.a_class()
        self.take("(")
        first = self.next
        self.some(self.object_property, self.is_object_property, 0)
        self.take(")")
        self.take("(")
        self.some(self.iri, self.is_iri, 0)
        self.take(")")
        if self.next == first + 3 and self.kind() == ")":
            self.fail("EmptyKey")

    def axiom(self):
        word = self.keyword(AXIOMS)
        self.in_brackets(lambda: (self.annotations(), AXIOMS[word](self)))

    # Documents

    def begin_item(self):
        self.item = self.peek()[2]

    def declaration(self):
        self.keyword(("Prefix",))
        self.take("(")
        kind, value, _ = self.peek()
        if kind != "name" or value[1] != "":
            self.fail()
        prefix = value[0]
        if prefix in self.declared:
            self.fail("PrefixTwice")
        self.next += 1
        self.take("=")
        kind, iri, _ = self.peek()
        if kind != "iri":
            self.fail()
        if BEFOREHAND.get(prefix, iri) != iri:
            self.fail("PrefixFixed")
        self.next += 1
        self.take(")")
        self.prefixes[prefix] = iri
        self.declared.add(prefix)

    def header(self):
        self.keyword(("Ontology",))
        self.take("(")
        for _ in range(2):
            if self.is_iri():
                self.iri()

    def document(self):
        self.begin_item()
        while self.is_word(("Prefix",)):
            self.declaration()
            self.begin_item()
        self.header()
        self.begin_item()
        while self.is_word(("Import",)):
            self.next += 1
            self.in_brackets(self.iri)
            self.begin_item()
        while self.is_word(("Annotation",)):
            self.annotation()
            self.begin_item()
        while self.is_word(AXIOMS):
            self.axiom()
            self.begin_item()
        self.take(")")
        self.begin_item()
        if self.next < len(self.tokens):
            self.fail()


R = SecondReader

CLASSES = {
    "ObjectIntersectionOf": R.classes,
    "ObjectUnionOf": R.classes,
    "ObjectComplementOf": R.a_class,
    "ObjectOneOf": lambda r: r.some(r.individual, r.is_individual, 1),
    "ObjectSomeValuesFrom": lambda r: (r.object_property(), r.a_class()),
    "ObjectAllValuesFrom": lambda r: (r.object_property(), r.a_class()),
    "ObjectHasValue": lambda r: (r.object_property(), r.individual()),
    "ObjectHasSelf": R.object_property,
    "ObjectMinCardinality": R.object_cardinality,
    "ObjectMaxCardinality": R.object_cardinality,
    "ObjectExactCardinality": R.object_cardinality,
    "DataSomeValuesFrom": R.properties_and_range,
    "DataAllValuesFrom": R.properties_and_range,
    "DataHasValue": lambda r: (r.iri(), r.literal()),
    "DataMinCardinality": R.data_cardinality,
    "DataMaxCardinality": R.data_cardinality,
    "DataExactCardinality": R.data_cardinality,
}

RANGES = {
    "DataIntersectionOf": R.ranges,
    "DataUnionOf": R.ranges,
    "DataComplementOf": R.a_range,
    "DataOneOf": lambda r: r.some(r.literal, r.is_literal, 1),
    "DatatypeRestriction": R.restriction,
}

AXIOMS = {
    "Declaration": R.entity,
    "SubClassOf": lambda r: (r.a_class(), r.a_class()),
    "EquivalentClasses": R.classes,
    "DisjointClasses": R.classes,
    "DisjointUnion": lambda r: (r.iri(), r.classes()),
    "SubObjectPropertyOf": lambda r: (r.sub_object_property(), r.object_property()),
    "EquivalentObjectProperties": lambda r: r.some(r.object_property, r.is_object_property, 2),
    "DisjointObjectProperties": lambda r: r.some(r.object_property, r.is_object_property, 2),
    "InverseObjectProperties": lambda r: (r.object_property(), r.object_property()),
    "ObjectPropertyDomain": lambda r: (r.object_property(), r.a_class()),
    "ObjectPropertyRange": lambda r: (r.object_property(), r.a_class()),
    "FunctionalObjectProperty": R.object_property,
    "InverseFunctionalObjectProperty": R.object_property,
    "ReflexiveObjectProperty": R.object_property,
    "IrreflexiveObjectProperty": R.object_property,
    "SymmetricObjectProperty": R.object_property,
    "AsymmetricObjectProperty": R.object_property,
    "TransitiveObjectProperty": R.object_property,
    "SubDataPropertyOf": lambda r: (r.iri(), r.iri()),
    "EquivalentDataProperties": lambda r: r.some(r.iri, r.is_iri, 2),
    "DisjointDataProperties": lambda r: r.some(r.iri, r.is_iri, 2),
    "DataPropertyDomain": lambda r: (r.iri(), r.a_class()),
    "DataPropertyRange": lambda r: (r.iri(), r.a_range()),
    "FunctionalDataProperty": R.iri,
    "DatatypeDefinition": lambda r: (r.iri(), r.a_range()),
    "HasKey": R.key,
    "SameIndividual": lambda r: r.some(r.individual, r.is_individual, 2),
    "DifferentIndividuals": lambda r: r.some(r.individual, r.is_individual, 2),
    "ClassAssertion": lambda r: (r.a_class(), r.individual()),
    "ObjectPropertyAssertion": lambda r: (r.object_property(), r.individual(), r.individual()),
    "NegativeObjectPropertyAssertion": lambda r: (r.object_property(), r.individual(), r.individual()),
    "DataPropertyAssertion": lambda r: (r.iri(), r.individual(), r.literal()),
    "NegativeDataPropertyAssertion": lambda r: (r.iri(), r.individual(), r.literal()),
    "AnnotationAssertion": lambda r: (r.iri(), r.individual(), r.annotation_value()),
    "SubAnnotationPropertyOf": lambda r: (r.iri(), r.iri()),
    "AnnotationPropertyDomain": lambda r: (r.iri(), r.iri()),
    "AnnotationPropertyRange": lambda r: (r.iri(), r.iri()),
}


def read(tokens, end):
    """"reads", or the first defect of the tokens of a text with so many bytes."""
    try:
        SecondReader(tokens, end).document()
    except Defect as defect:
        return str(defect)
    return "reads"
