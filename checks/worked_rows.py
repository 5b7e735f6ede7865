#!/usr/bin/env python3
"""Lists worked cases, each in words, with the rows or tests that have it.

worked_rows.py               prints the table, as docs/TESTING.md has it
worked_rows.py --write FILE  writes anew what stands between the two marks of the file
worked_rows.py --check FILE  prints the lines between the marks that should be others, and ends with the status 1 if
                             there are any

The marks are lines, `<!-- worked cases -->` and `<!-- end of worked cases -->`. In each way it ends with the status 1
where a row or a test that the table names isn't there. That they pass is for `./check`.
"""

import difflib
import functools
import os
import re
import sys

TOP = os.path.dirname(os.path.dirname(os.path.abspath(__file__)))

# Behind `=` stands what the next cases are of. A case has behind `|` where it stands: a folder or a file, a colon, and the
# names of rows or of tests. A topic of `owl_rows` goes by its name alone, and a script has names with `_` for a space. `{1-8}`
# in a name stands for each of these numbers.
CASES = """
= documents
an ontology of nothing | translate: nothing
an axiom and a declaration, which comes first | translate: two_axioms
one axiom twice | translate: an_axiom_twice
pairs of three equivalent classes, and read back | turtle: pairs_of_three_equivalent_classes; graphs: pairs_of_three_equivalent_classes_back
a union of one class thrice, which is not declared | translate: a_union_of_one_by_a_prefix; turtle: an_undeclared_class
a bare axiom absorbed by an annotated one, read back, and counted | turtle: a_bare_and_an_annotated_axiom; graphs: a_bare_and_an_annotated_axiom_back; show: four_axioms
an assertion by an inverse property | turtle: a_positive_assertion_by_an_inverse; manchester_text: an_assertion_by_an_inverse
a property and an inverse that are inverse, and read back | turtle: inverses_of_a_property; graphs: inverses_of_a_property_back
two inverses that are inverse, and read back | turtle: inverses_of_inverses; graphs: inverses_of_inverses_back
three disjoint classes with an annotated annotation, and read back | turtle: three_disjoint_classes_with_a_nested_annotation; graphs: three_disjoint_classes_with_a_nested_annotation_back
frames with a conjunction of restrictions | manchester: frames_and_an_expression; manchester_text: operands_in_brackets
a prefix with the name of a keyword | manchester_text: a_prefix_with_the_name_of_a_frame
a class expression as a subclass, which no frame can say | manchester_text: a_subclass_without_a_name
individuals with and without a label | graphs: individuals_without_a_label
a document of Turtle with brackets, a list and labels | ttl_rows/data/statements: brackets_a_list_and_labels
a document of Turtle of no bytes | ttl_rows/data/statements: nothing
a menu through all three syntaxes, and checked for EL | graphs: a_menu; manchester_text: a_menu a_menu_to_turtle a_menu_says_the_same a_menu_drawn_again_says_the_same; el_ql_rl: a_menu_in_el
= a trial
one of three classes | trials: classes_3; checks/program.sh: a_trial_of_three_classes
one of one class, and one of 20,000 | trials: classes_1 classes_20000; checks/program.sh: a_trial_of_20,000_classes
its document, translated four times | checks/program.sh: four_translations_of_the_document_of_a_trial
= imports and profiles
an import that is missing, may be missing, and is there | imports: missing missing_where_it_may there
a chain with its property at both ends, and of its property twice | profiles: a_chain_with_its_property_at_both_ends a_chain_of_its_property_twice
a property both transitive and asymmetric | profiles: a_transitive_and_asymmetric_property
two anonymous individuals in a ring | profiles: a_ring_of_two_individuals
a deprecated class in EL | el_ql_rl: a_deprecated_class_in_el
= words
a suffix that there is not | words: translate_to_ttl_of_another_suffix
a flag in front of the target | words: partial_before_the_target_ttl another_flag_before_the_target
one name twice | words: same_of_one_name_twice
a trial of a number with a leading zero | words: trial; trials: leading_zero
no words | words: none
= texts that are refused
an axiom that lacks a class | refusals: second_axiom
a word in place of a class, and at the end | refusals: word_as_a_class word_as_a_class_and_no_more
a prefix that is not declared | refusals: unknown_prefix
a word behind the ontology | refusals: behind_the_ontology
an ontology and a string without their ends | refusals: ontology_without_its_end string_without_its_end
a byte that begins no character, alone | refusals: byte_alone
each front of a document | fronts: front_of_{0-155}_bytes
a relative reference without a base | ttl_rows/data/refusals: a_relative_subject
a property of no kind, of another kind, and a literal as a class | manchester_kinds: a_property_that_is_nothing a_property_that_is_an_annotation_property a_literal_as_a_class
= types of OWL 1
types beside those of OWL 2, with a restriction that is a class | thinned: types_beside_those_of_OWL_2
a list with its type | thinned: a_list_with_its_type
a class of RDF Schema alone | thinned: a_class_of_RDF_Schema_alone
= guesses and bases
a property that nothing declares, not guessed and guessed | guesses: an_undeclared_property_where_nothing_is_guessed an_undeclared_property
a reserved property, which is not guessed | guesses: a_reserved_property
the word for guesses in front of the target | guesses: the_word_before_the_target
a guessed property through all three syntaxes | guesses: a_guess_to_turtle a_guess_to_turtle_back a_guess_to_manchester_syntax
a base of a document without a base, and of one that sets its own | bases: a_header_that_is_the_base a_base_of_main a_relative_base_of_main
an import without a base beside a document that has one | bases: an_import_without_a_base
= declarations that are added
a restriction of which nothing is declared | declare: a_restriction_to_functional_style_syntax a_restriction_to_turtle a_restriction_to_manchester_syntax
a property of objects and of data | declare: two_kinds_of_properties
a class that an import declares | declare: an_import_that_declares_a_class_to_functional_style_syntax
all kinds, in order | declare: by_kind_and_by_bytes
= brackets and collections
a union | nested: a_union
a complement that an annotation names | nested: the_target_of_an_annotation
a complement that is equivalent to itself | nested: both_ends_of_a_triple
= canonical bytes
those of an ontology of nothing, and of a declaration | canon: nothing a_declaration
a digest of a union, and of the same in another order with a repeat | canon: a_digest a_digest_of_a_union_in_another_order
a declaration of bytes, which types itself | owc: a_declaration_to_functional_style_syntax
the same bytes less the last | owc: less_the_last_byte
kids out of order | owc: members_of_a_union_out_of_order annotations_of_an_axiom_out_of_order
= graphs that are refused
no header, and two | graphs: no_header two_headers
a list in a circle | graphs: a_list_in_a_circle
a list with two rests | graphs: a_cell_with_two_rests
a class that is its own complement | graphs: its_own_complement
a class that nothing reaches | graphs: a_class_that_nothing_reaches
a node of two roles | graphs: a_node_of_two_roles
reifications of each other, and of nothing | graphs: reifications_of_each_other a_reification_of_nothing
a reserved type, and a property that is not declared | graphs: a_reserved_type an_undeclared_property
= limits and devices
128 levels, and 129 | limits: depth_128 depth_129
cardinalities of 2^64 - 1 and 2^64 | limits: cardinality_2_to_64_less_1 cardinality_2_to_64
512 open brackets, and 513 | graphs: brackets_that_are_not_too_deep brackets_that_are_too_deep
classes that double their weight | graphs: classes_that_double_their_weight; node_tests/src/nodes.rt: classes_that_double_are_too_heavy
a letter of two bytes, however cut | devices: reads_a_letter_of_two_bytes_in_pieces; tokens: a_letter_of_two_bytes_in_a_document
a read that fails, and a name that is not there | devices: second_read_fails no_such_name
each read of two documents fails | devices: read_{1-8}_of_two_documents_fails
each write of a text fails | devices: third_write_fails; puts: write_{1-22}_fails
a note fails | devices: note_of_a_text_fails
= single calls
IRIs without a scheme and with a space | value_tests/src/atoms.rt: an_iri_has_a_scheme_and_no_space; tokens: iris_of_some_schemes no_iri_without_a_scheme no_space_in_an_iri
references against a base with a query | ttl_rows/data/references: references_against_a_base_with_a_query
plain literals with and without a tag, and with no mark | value_tests/src/atoms.rt: a_plain_literal_has_a_mark; leaves: literals_of_plain_literal_with_and_without_a_tag literal_of_plain_literal_with_no_mark
labels, and one that ends in a dot | value_tests/src/atoms.rt: a_label_ends_in_no_dot; tokens: labels_of_blank_nodes no_label_ends_in_a_dot
a prefix declared beforehand, twice and with another IRI | value_tests/src/prefixes.rt: a_prefix_is_declared_once_and_as_what_it_stands_for; manchester_refusals: owl_twice rdf_with_another_iri
an unknown prefix | value_tests/src/prefixes.rt: an_unknown_prefix_is_not_expanded
the longest prefix that fits, and none | value_tests/src/prefixes.rt: an_iri_is_cut_at_its_longest_prefix_or_not; translate: prefix_that_is_longest_beside_the_empty_one
forms of datatypes | value_tests/src/datatypes.rt: forms_of_datatypes
a union in two orders, and of nothing | tree_tests/src/arena.rt: a_union_in_two_orders_is_one_tree; show: union_that_stands_twice; expressions: object_union_of_none
a union with a complement, as a node | graphs: a_union_with_a_complement; node_tests/src/nodes.rt: a_union_is_weighed
a million leaves, and the same again | tree_tests/src/arena.rt: a_million_leaves_are_found_again
a name of two kinds | turtle: an_object_and_a_data_property
an axiom twice, and a class in its place | tree_tests/src/builder.rt: an_axiom_is_new_once_and_a_class_is_none
the weight of a declaration, and an import given twice | tree_tests/src/builder.rt: a_declaration_is_counted_and_an_import_is_one; show: one_declaration; imports: an_import_given_twice
a triple twice | rdf_graph/src/tests.rt: a_triple_that_is_added_twice_is_one
copies of names, labels, literals, atoms and tables of prefixes | value_tests/src/atoms.rt: copies_are_equal; tree_tests/src/arena.rt: a_copy_of_an_atom_is_equal; value_tests/src/prefixes.rt: a_copy_has_the_same_names_and_iris
a document that is as long as its limit, and one byte longer | value_tests/src/shelves.rt: a_document_is_as_long_as_its_limit_and_not_longer
tokens that white space ends at once | tokens: white_space_gives_tokens_at_once
"""


@functools.cache
def text_of(path):
    with open(f"{TOP}/crates/{path}", encoding="utf-8") as file:
        return file.read()


def names_of(name):
    """The names that one with a range stands for."""
    found = re.fullmatch(r"(.*)\{(\d+)-(\d+)\}(.*)", name)
    if not found:
        return [name]
    return [f"{found[1]}{number}{found[4]}" for number in range(int(found[2]), int(found[3]) + 1)]


def is_there(path, name):
    """Whether a file has a row, a test, or a call of the program, of this name."""
    if path.endswith(".sh"):
        shape = rf"^(call|shell) '{name.replace('_', ' ')}'"
    else:
        shape = rf"^ *#\[test\]\n *fn {name}\(" if path.endswith(".rt") else rf"^row {name}$"
    return re.search(shape, text_of(path), re.M) is not None


def places_of(text):
    """The files of a case as the table names them, each with its path and names."""
    for place in text.split(";"):
        file, _, names = (it.strip() for it in place.partition(":"))
        path = f"owl_rows/data/{file}/rows"
        if "/" in file:
            path = file if file.endswith(".rt") else f"../{file}" if file.endswith(".sh") else f"{file}/rows"
        yield file, path, names.split()


def missing():
    """What the table names and is not there."""
    for _, _, where in (it.partition(" | ") for it in CASES.splitlines()):
        for _, path, names in places_of(where) if where else ():
            for name in (one for it in names for one in names_of(it)):
                if not os.path.exists(f"{TOP}/crates/{path}") or not is_there(path, name):
                    yield f"{path} has no {name}"


def in_words(name):
    names = names_of(name)
    return f"`{name}`" if len(names) == 1 else f"`{names[0]}` to `{names[-1]}`"


def table():
    yield from ("| Of | Case | Where it stands |", "|---|---|---|")
    for line in filter(None, CASES.splitlines()):
        case, _, where = line.partition(" | ")
        if line.startswith("= "):
            of = line[2:]
        else:
            places = (f"`{file}`: {', '.join(map(in_words, names))}" for file, _, names in places_of(where))
            yield f"| {of} | {case} | {'; '.join(places)} |"


def main():
    way, *paths = sys.argv[1:] or [None]
    if way not in (None, "--write", "--check") or len(paths) != (way is not None):
        raise SystemExit(__doc__)
    lost = list(missing())
    print("\n".join(lost), end="\n" * bool(lost), file=sys.stderr)
    wanted = "\n".join(table()) + "\n"
    if not way:
        print(wanted, end="")
        return bool(lost)
    with open(paths[0], encoding="utf-8") as file:
        text = file.read()
    found = re.fullmatch(r"(.*^<!-- worked cases -->\n)(.*)(^<!-- end of worked cases -->\n.*)", text, re.S | re.M)
    if not found:
        raise SystemExit(f"{paths[0]} has not the two marks")
    front, held, back = found.groups()
    if way == "--write":
        with open(paths[0], "w", encoding="utf-8") as file:
            file.write(front + wanted + back)
        return bool(lost)
    differing = list(difflib.unified_diff(
        held.splitlines(), wanted.splitlines(), paths[0], "as it should be", lineterm="", n=0))
    print("\n".join(differing), end="\n" * bool(differing))
    return bool(differing or lost)


if __name__ == "__main__":
    sys.exit(main())
