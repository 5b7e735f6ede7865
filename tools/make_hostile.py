#!/usr/bin/env python3
"""Makes documents that a hand would not write, and that a program may take too long for.

make_hostile.py SHAPE COUNT writes the document of that shape, with so many of what
the shape is named for. Its suffix is that of the shape.
"""

import sys

HEAD = """\
@prefix : <http://e/> .
@prefix owl: <http://www.w3.org/2002/07/owl#> .
@prefix rdf: <http://www.w3.org/1999/02/22-rdf-syntax-ns#> .
@prefix rdfs: <http://www.w3.org/2000/01/rdf-schema#> .
:o a owl:Ontology .
"""


def letters(count):
    """One letter, which is a word by itself."""
    yield "a" * count


def letters_and_dots(count):
    yield "a." * count


def words_and_dots(count):
    yield "true." * count


def words(count):
    yield "prefix" * count


def name_and_dots(count):
    """A name may have dots, but ends with none."""
    yield ":x" + "." * count + " "


def doublings(count):
    """Unions of two copies of the one before: a set of one, whose text has 2^count leaves."""
    yield HEAD
    yield ":A a owl:Class . :B a owl:Class ; rdfs:subClassOf _:u%d .\n" % count
    for i in range(1, count + 1):
        below = ":A" if i == 1 else "_:u%d" % (i - 1)
        yield f"_:u{i} a owl:Class ; owl:unionOf ( {below} {below} ) .\n"


def complements(count):
    """Unions of the one before and its complement: as a tree the last one has 3 * 2^count - 2 nodes and leaves."""
    yield HEAD
    yield ":A a owl:Class . :B a owl:Class ; rdfs:subClassOf _:u%d .\n" % count
    for i in range(1, count + 1):
        below = ":A" if i == 1 else "_:u%d" % (i - 1)
        yield f"_:u{i} a owl:Class ; owl:unionOf ( {below} [ a owl:Class ; owl:complementOf {below} ] ) .\n"


def cells(count):
    """The cells `_:l1`, `_:l2` .. of one list of classes."""
    for i in range(1, count + 1):
        rest = "rdf:nil" if i == count else f"_:l{i + 1}"
        yield f":A{i} a owl:Class . _:l{i} rdf:first :A{i} ; rdf:rest {rest} .\n"


def tails(count):
    """Unions, each of a tail of one list, and each above a class: they say the square of what they take."""
    yield HEAD
    for i in range(1, count + 1):
        yield f":A{i} rdfs:subClassOf _:u{i} . _:u{i} a owl:Class ; owl:unionOf _:l{i} .\n"
    yield from cells(count + 1)


def disjoint(count):
    """So many axioms, each over one list of so many classes: all say the same."""
    yield HEAD
    for i in range(count):
        yield f"_:d{i} a owl:AllDisjointClasses ; owl:members _:l1 .\n"
    yield from cells(count)


def disjoint_unions(count):
    """So many axioms that differ, each over one list of so many classes: they say the square of what they take."""
    yield HEAD
    for i in range(1, count + 1):
        yield f":B{i} a owl:Class ; owl:disjointUnionOf _:l1 .\n"
    yield from cells(count)


def noted_disjoint(count):
    """The same, by nodes with annotations that differ."""
    yield HEAD
    for i in range(1, count + 1):
        yield f'_:d{i} a owl:AllDisjointClasses ; owl:members _:l1 ; rdfs:comment "{i}" .\n'
    yield from cells(count)


def fronts(count):
    """Prefixes whose IRIs are fronts of each other, and names that begin with all of them and end with a slash."""
    for i in range(1, count + 1):
        yield f"Prefix(p{i}:=<http://e/{'a' * i}>)\n"
    yield "Ontology(<http://e/o>\n"
    for i in range(count):
        yield f"Declaration(Class(<http://e/{'a' * count}{i}/>))\n"
    yield ")\n"


def subjects(count):
    """So many classes, each with a label, a comment, and an individual that is not declared."""
    yield "Prefix(:=<http://e/>) Ontology(:o\n"
    for i in range(count):
        yield f'Declaration(Class(:A{i:07})) AnnotationAssertion(rdfs:label :A{i:07} "a") AnnotationAssertion(rdfs:comment :A{i:07} "b")\n'
        yield f"ClassAssertion(:A{i:07} :i{i:07})\n"
    yield ")\n"


def bases(count):
    """Bases, each below the one before."""
    yield HEAD
    yield "@base <http://e/> .\n"
    yield "@base <a/> .\n" * count


def repeats(count):
    """One triple, time after time."""
    yield HEAD
    yield ":t a owl:DatatypeProperty .\n:A :t 1"
    yield ",1" * (count - 1)
    yield " .\n"


def open_list(count):
    """A list without an end."""
    yield HEAD
    yield ":A :t ("
    yield " 1" * count


FRAMES_HEAD = "Prefix: : <http://e/> Ontology: :o\n"


def open_brackets(count):
    """Brackets that are never closed, of which 512 may be open."""
    yield FRAMES_HEAD + "Class: A SubClassOf: "
    yield "(" * count


def complements_in_a_row(count):
    """A complement has to have brackets around another one."""
    yield FRAMES_HEAD + "Class: A SubClassOf: "
    yield "not " * count


def commas(count):
    yield FRAMES_HEAD + "Class: A SubClassOf: A"
    yield "," * count


def facets(count):
    """Signs that may begin an IRI, each with a word or a number."""
    yield FRAMES_HEAD + "DataProperty: d Range: integer[<true"
    for i in range(count):
        yield f",<true,<{i:07}"
    yield "]"


def parts(count):
    """One frame whose one section has so many parts."""
    yield FRAMES_HEAD + "Individual: i SameAs: i"
    for i in range(count):
        yield f", i{i:07}"


def sections(count):
    """One frame with so many sections."""
    yield FRAMES_HEAD + "Individual: i\n"
    for i in range(count):
        yield f"SameAs: i{i:07}\n"


def frames(count):
    """So many frames of one name, each with another part."""
    yield FRAMES_HEAD
    for i in range(count):
        yield f"Individual: i SameAs: i{i:07}\n"


def operands(count):
    """One conjunction of so many."""
    yield FRAMES_HEAD + "Class: A SubClassOf: A"
    for i in range(count):
        yield f" and {{i{i:07}}}"


def links(count):
    """A chain of so many properties, which weighs seven more with its frame."""
    yield FRAMES_HEAD + "ObjectProperty: p SubPropertyChain: p"
    yield " o p" * (count - 1)


def prefixed_frames(count):
    """So many prefixes, each with a frame."""
    for i in range(count):
        yield f"Prefix: p{i:07}: <http://e/{i:07}/>\n"
    yield FRAMES_HEAD
    for i in range(count):
        yield f"Class: p{i:07}:A\n"


def main():
    shape, count = sys.argv[1:]
    for part in SHAPES[shape](int(count)):
        sys.stdout.write(part)


SHAPES = {
    shape.__name__: shape
    for shape in (
        letters, letters_and_dots, words_and_dots, words, name_and_dots,
        doublings, complements, tails, disjoint, disjoint_unions, noted_disjoint, fronts, subjects, bases, repeats, open_list,
        open_brackets, complements_in_a_row, commas, facets, parts, sections, frames, operands, links, prefixed_frames,
    )
}

main()
