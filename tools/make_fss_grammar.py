#!/usr/bin/env python3
"""Prints the grammar of Functional-Style Syntax, as `make_grammar.py` takes it.

make_fss_grammar.py OWL_TREE reads the rows, sorts and names of tags from the definitions
of the crate (specs/Rows.antt and specs/Tags.antt), so that no construct is listed again.
The rules are those of specs/Page.antt in fss_grammar. What is made of the output is not
trusted: the proofs hold it against that page.
"""

import re
import sys

PUNCTUATION = "Iri Name Alone Label Text Language Digits Opening Closing Equals Carets Other"
ACTS = """Shut Plain Tagged Typed Hold HeldProperty HeldDatatype DeclareName DeclareIri
    OntologyIri VersionIri ImportIri AddAnnotation AddAxiom EndItem"""
ATOMS = {
    "Iri": "iri",
    "Label": "Label",
    "Literal": "Text suffix",
    "Number": "Digits",
}


class Definitions:
    """The tags by their numbers, the row of each, and the tags of each sort."""

    def __init__(self, folder):
        with open(f"{folder}/specs/Tags.antt", encoding="utf-8") as it:
            tags = it.read()
        with open(f"{folder}/specs/Rows.antt", encoding="utf-8") as it:
            rows = it.read()
        self.tags = re.findall(r"^number_of (\w+) = \d+$", tags, re.M)
        self.rows = dict(re.findall(r"^row_of tag\.(\w+) = (.+)$", rows, re.M))
        tests = re.findall(r"^(?:admits )?(\w+) t = (is_.+)$", rows, re.M)
        self.tests = {name: self.passing(test) for name, test in tests}
        self.sorts = [name for name in self.tests if not name.startswith("is_")]

    def passing(self, test):
        ranges = re.findall(r"is_tag tag\.(\w+)()|is_from_to tag\.(\w+) tag\.(\w+)", test)
        found = set()
        for one, _, first, last in ranges:
            found |= set(self.tags[self.tags.index(one or first) : self.tags.index(one or last) + 1])
        return [tag for tag in self.tags if tag in found]

    def is_leaf(self, tag):
        return self.rows[tag].startswith("Leaf")


def snake(name):
    return re.sub(r"(?<!^)([A-Z])", r"_\1", name).lower()


def atom(definitions, tag):
    return ATOMS[definitions.rows[tag].removeprefix("Leaf atom.")]


def parts(definitions, tag):
    front, kind, words = re.fullmatch(r"Node (.+?|\[\]) \(?(Nothing|Optional|AtLeast|SomeThen|Set)(.*?)\)?", definitions.rows[tag]).groups()
    found = [f"one_{snake(name)}" for name in re.findall(r"\w+", front)]
    words = words.split()
    if kind == "Optional":
        found.append(f"maybe_{snake(words[0])}")
    if kind == "SomeThen":
        found += [f"one_{snake(words[0])}", "after"]
    if kind in ("AtLeast", "Set"):
        found += [f"one_{snake(words[0])}"] * int(words[1])
        if tag != "InverseObjectProperties":
            found.append(f"many_{snake(words[0])}")
    return found


def node(definitions, tag, added):
    is_bare = tag in definitions.tests["is_bare"]
    opening = [] if is_bare else ["Opening"] if tag in definitions.tests["is_group"] else [f"K{tag}", "Opening"]
    closing = [] if is_bare else ["Closing"]
    return " ".join([f"@{tag}", *opening, *parts(definitions, tag), "@Shut", *added, *closing])


def tree(definitions, sort, tag):
    if not definitions.is_leaf(tag):
        return node(definitions, tag, [])
    leaf = f"@{tag} {atom(definitions, tag)}"
    return f"K{tag} Opening {leaf} Closing" if sort == "Entity" else leaf


def item(definitions, tag, add):
    return node(definitions, tag, [f"@{add}", "@EndItem"])


def alternatives(bodies):
    return "\n    | ".join(bodies)


def used(definitions, kind):
    names = {name for tag in definitions.tags if not definitions.is_leaf(tag) for name in parts(definitions, tag)}
    return [sort for sort in definitions.sorts if f"{kind}_{snake(sort)}" in names]


def grammar(definitions):
    axioms = definitions.tags[definitions.tags.index("Declaration") :]
    constructs = [tag for tag in definitions.tests["DataRange"] if not definitions.is_leaf(tag)]
    lines = [
        f"classes OtherWord {' '.join(f'K{tag}' for tag in definitions.tags)} Prefix Ontology Import {PUNCTUATION}",
        f"acts NoAct {' '.join(definitions.tags)} {' '.join(ACTS.split())}",
        "document ::= prefixes Ontology @EndItem Opening header imports annotations axioms @EndItem Closing",
        "prefixes ::= % | Prefix Opening @DeclareName Alone Equals @DeclareIri Iri @EndItem Closing prefixes",
        "header ::= % | @OntologyIri @EndItem iri version",
        "version ::= % | @VersionIri @EndItem iri",
        "imports ::= % | Import Opening @ImportIri iri @EndItem Closing imports",
        f"annotations ::= % | {item(definitions, 'Annotation', 'AddAnnotation')} annotations",
        "axioms ::= % | axiom axioms",
        f"axiom ::= {alternatives(item(definitions, tag, 'AddAxiom') for tag in axioms)}",
        "iri ::= Iri | Name | Alone",
        "suffix ::= @Plain | @Tagged Language | Carets @Typed iri",
        f"after ::= {alternatives(['@Hold iri behind', *(tree(definitions, 'DataRange', tag) for tag in constructs)])}",
        "behind ::= @HeldDatatype | @HeldProperty after",
    ]
    for sort in definitions.sorts:
        lines.append(f"one_{snake(sort)} ::= {alternatives(tree(definitions, sort, tag) for tag in definitions.tests[sort])}")
    for sort in used(definitions, "many"):
        lines.append(f"many_{snake(sort)} ::= % | one_{snake(sort)} many_{snake(sort)}")
    for sort in used(definitions, "maybe"):
        lines.append(f"maybe_{snake(sort)} ::= % | one_{snake(sort)}")
    return "\n".join(lines)


def main():
    if len(sys.argv) != 2:
        sys.exit(__doc__)
    print(grammar(Definitions(sys.argv[1])))


if __name__ == "__main__":
    main()
