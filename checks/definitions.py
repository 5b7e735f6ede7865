#!/usr/bin/env python3
"""Counts what has to be believed: the definitions that the clauses of owl_top::run rest on, in ten steps.

definitions.py                   prints the steps, as docs/PROOFS.md has them
definitions.py --write FILE..    writes anew what stands between the two marks of each file
definitions.py --check FILE..    prints the lines between the marks that should be others, and ends with the
                                 status 1 if there are any

The marks are lines, `<!-- definitions: PART -->` and `<!-- end of definitions -->`. The part `steps` is what is printed
without words: the steps, and the files and definitions of each. The part `sums` has a few of the sums for README.md.

A step has the definitions that its first ones lead to, but for those of the steps before. A definition takes its own
lines and those of the comment right above it, and leads to each definition that it names. A variable, a label, and a
field behind a dot lead nowhere; a constructor leads to its type, a name in a block `mutual` to the block. What stands
in a block `module` has the line of that block too, and leads to what the line names.

This goes by words and knows no types: where a clause binds a variable with the name of a definition, that definition is
not led to from there. Names of std lead nowhere. A Rust type that is named is counted, and leads nowhere either; so are
the constants of a file of Rust, together.
"""

import difflib
import os
import re
import sys

TOP = os.path.dirname(os.path.dirname(os.path.abspath(__file__)))

# Each step: its title, what it says, and the definitions that it begins with.
STEPS = [
    (
        "Functional-Style Syntax, and sameness",
        "Which bytes are a document, with which prefixes and which ontology; what trees are, and when two trees or two"
        " ontologies are structurally equivalent.",
        ["fss_terms.specs.Functional.ReadsFunctional", "owl_tree.specs.Ontologies.IsSameOntology"],
    ),
    (
        "Turtle",
        "Which bytes are a document of Turtle, with which prefixes and which graph: tokens by patterns after the W3C's"
        " productions, and what each act along a derivation does to the state of a parser.",
        ["ttl_grammar.specs.Documents.ReadsTurtle"],
    ),
    (
        "What a graph says",
        "What each term of a graph denotes under some kinds, by the rows of the W3C's mapping; which head, annotations"
        " and axioms the graph states; and that nothing of it is passed over but redundant types of OWL 1.",
        ["rdf_meaning.specs.Statements.Says", "rdf_thin.specs.Thinned.thinned"],
    ),
    (
        "Manchester Syntax",
        "Which bytes are a document of Manchester Syntax, with which prefixes and which frames: a page of rules after the"
        " W3C's productions, and what each act along a derivation does; and which ontology the frames mean under some"
        " kinds: what each word and each name stands for at its place.",
        ["man_grammar.specs.Documents.ReadsManchester", "man_resolve.specs.Resolved.FramesMean"],
    ),
    (
        "Imports, kinds and types",
        "Which documents main reaches, and which import is the first that is missing; of which kinds the documents"
        " declare IRIs, and which annotation properties are guessed; and whether all that an ontology names is declared as what"
        " it stands for there.",
        [
            "owl_close.specs.Imports.IsFirstMissing",
            "owl_answer.specs.KindsAt.AreClosureKinds",
            "owl_answer.specs.Guessing.AreGuessed",
            "owl_answer.specs.Typing.AllAreWellTyped",
        ],
    ),
    (
        "Normal forms",
        "The normal forms that an ontology has for a graph and for Manchester Syntax, and the first part of an ontology that"
        " can't be said in one of them.",
        [
            "rdf_normal.specs.NormalForms.normal_form",
            "rdf_sayable.specs.Sayable.IsFirstUnsayable",
            "man_text.specs.Blocks.normal_form",
            "man_sayable.specs.Sayable.IsFirstUnsayable",
        ],
    ),
    (
        "What is written",
        "Which of the many graphs and texts that say an ontology is the one that is written.",
        [
            "rdf_mapping.specs.Graphs.graph_of",
            "fss_write.specs.Text.text_of",
            "ttl_write.specs.Text.turtle_text",
            "man_text.specs.Text.manchester_text",
        ],
    ),
    (
        "Refusals",
        "The first defect of bytes that are no document, with its reason and its places, and the first fault of a graph"
        " or of frames that say no ontology.",
        [
            "fss_defects.specs.FirstDefects.IsFirstDefect",
            "ttl_grammar.specs.Documents.IsFirstDefect",
            "rdf_reverse.specs.Reverse.IsUnsaid",
            "man_grammar.specs.Documents.IsFirstDefect",
            "man_resolve.specs.Resolved.IsUnresolved",
        ],
    ),
    (
        "OWL 2 DL",
        "Which parts of the ontologies of an import closure break which of the thirteen rules of OWL 2 DL, and when the"
        " closure is in OWL 2 DL.",
        ["dl_rules.specs.Rules.AreDlBreaches", "dl_rules.specs.Rules.IsInDL"],
    ),
    (
        "OWL 2 EL, QL and RL",
        "Which axioms of an import closure break which of the seventeen rules that the three profiles have besides those"
        " of OWL 2 DL: sorts of trees by the grammars of the W3C, and the restriction on ranges of EL.",
        ["owl_profiles.specs.Rules.AreAxiomBreaches", "owl_profiles.specs.Rules.KeepsRules"],
    ),
]
# The last step begins with what the clauses of these name: a file, and how the line begins from which they stand.
LAST_STEP = (
    "The answer, and the rest",
    "What words ask for, what is answered, with which status, text and line, and what is told of the devices: all that"
    " the clauses of `run`, `Shelf` and `Sink` name beside the steps before.",
)
CLAUSES = [
    ("owl_top/src/program.rt", "pub fn run<"),
    ("owl_port/src/outside.rt", "pub trait Shelf"),
    ("owl_port/src/outside.rt", "pub trait Sink"),
]
# The sums that README.md has: up to which step, and in which words.
SUMS = [
    (1, "say what a document in Functional-Style Syntax says, and which ontologies are the same;"),
    (3, "say this, what a document of Turtle says as a graph, and what a graph says as an ontology;"),
    (4, "say this, what a document of Manchester Syntax says as frames, and what frames mean as an ontology;"),
    (11, "say all of it, down to every byte that is written and every refusal;"),
]

WORDS_IN_FRONT = r"(?:(?:pub|abbrev|unfoldable|opaque)\s+)*"
NAME = r"[^\s:(){},.]+"
HEAD = re.compile(rf"{WORDS_IN_FRONT}(?:data |record )?({NAME})\s*[:({{]")
BEGINS = re.compile(r"(?:pub|abbrev|unfoldable|opaque|data|record)\s")
MUTUAL = re.compile(rf"{WORDS_IN_FRONT}mutual$")
TYPE = re.compile(rf" *{WORDS_IN_FRONT}(data|record)\s")
INNER = re.compile(rf" +{WORDS_IN_FRONT}(?:data |record )?({NAME})[^:]* :")
NAMES_FROM = re.compile(r"\buse\s+Rattle\.([\w.]+)\.\{([^}]*)\}")
WHOLE_AS = re.compile(r"\buse\s+Rattle\.([\w.]+) as ([\w-]+)")

WORD = re.compile(r"[^\s(){}\[\],;]+")
COMMENT = re.compile(r"(?:^|(?<=\s))--(?=\s|$).*", re.M)
STRING = re.compile(r'"(?:[^"\\]|\\.)*"')
LABEL = re.compile(r"(?<=[{;])\s*[^\s(){};=]+\s*=(?=\s)")
BINDER = re.compile(r"[({]\s*([^\s(){}:;,.=]+(?:\s+[^\s(){}:;,.=]+)*)\s*:(?=\s)")
LAMBDA = re.compile(r"λ([^.:]*)[^.]*\.")
LET = re.compile(r"\blet\s+([^\s(){}:;,.=]+)")
CASE = re.compile(r"\|([^|↦]*)↦")


def indent(line):
    return len(line) - len(line.lstrip(" "))


def imports_of(text):
    """The names that a text imports, each with its module and its name there. An operator goes by its word too."""
    found = {}
    for module, names in NAMES_FROM.findall(text):
        for name in filter(None, (it.strip() for it in names.split(","))):
            there, _, here = (it.strip() for it in name.partition(" as "))
            found[here or there] = found[(here or there).strip("◌")] = (module, there)
    return found


def modules_of(text):
    """The modules that a text imports whole, by the names that they have there."""
    return {here: module for module, here in WHOLE_AS.findall(text)}


class Definition:
    """A definition, or a block `mutual` under the first name in it."""

    def __init__(self, name, blocks):
        self.name = name
        self.blocks = blocks  # the numbers and the lines of the blocks `module` around it
        self.numbers = []  # of its lines and those of its comments
        self.text = []  # its lines without those of comments

    def parts(self):
        """Its lines, each with its part in a type and the word for that type: the head, an item (a constructor or a
        field) or more of one. A line that stands in no type has neither."""
        word, depth = None, 0
        for line in self.text:
            here, begins = indent(line), TYPE.match(line)
            if begins:
                word, depth = begins[1], here
                yield "head", word, line
            elif word and here > depth:
                yield "item" if here == depth + 2 else "more", word, line
            else:
                word = None
                yield None, None, line

    def inner(self):
        """The names in it that lead to it: constructors, and what a block defines."""
        return [INNER.match(line)[1] for part, word, line in self.parts()
                if INNER.match(line) and part != "more" and (part, word) != ("item", "record")]

    def fields(self):
        return [INNER.match(line)[1] for part, word, line in self.parts()
                if INNER.match(line) and (part, word) == ("item", "record")]

    def scopes(self):
        """Its text in pieces that share no variables: signatures, clauses, and constructors behind the head of
        their type."""
        outermost = 2 if MUTUAL.match(self.text[0]) else 0
        pieces, head = [], ""
        for part, word, line in self.parts():
            if part == "head":
                head = line + "\n"
                pieces.append(head)
            elif part == "item" and word == "data":
                pieces.append(head + line + "\n")
            elif not pieces or not part and indent(line) <= outermost:
                pieces.append(line + "\n")
            else:
                pieces[-1] += line + "\n"
        return pieces


def definitions_of(text):
    """The definitions of a text in their order. What stands in a block `module` is taken as if it stood outside."""
    found, comment, blocks = [], [], []
    for number, whole in enumerate(text.split("\n"), 1):
        if not whole.strip():
            comment = []
            continue
        while blocks and indent(whole) <= indent(blocks[-1][1]):
            blocks.pop()
        line = whole[indent(blocks[-1][1]) + 2 :] if blocks else whole
        if line.startswith("module "):
            blocks.append((number, whole))
            found.append(Definition(None, []))
            comment = []
        elif line.startswith("use "):
            comment = []
        elif line.startswith(("--", "infix")):
            comment.append(number)
        else:
            head = None if line[0] in " }" else HEAD.match(line)
            if MUTUAL.match(line):
                found.append(Definition(None, list(blocks)))
            elif head and (" : " in line or line.endswith(" :") or BEGINS.match(line)):
                if not found or found[-1].name != head[1]:
                    found.append(Definition(head[1], list(blocks)))
            elif found and not found[-1].name and INNER.match(line):
                found[-1].name = INNER.match(line)[1]
            if found:
                found[-1].numbers += [*comment, number]
                found[-1].text.append(line)
            comment = []
    return [it for it in found if it.name]


class File:
    """A file of definitions with what it imports."""

    def __init__(self, text):
        self.imports, self.modules = imports_of(text), modules_of(text)
        self.definitions, self.inner, self.operators = {}, {}, {}
        for it in definitions_of(text):
            first = self.definitions.setdefault(it.name, it)
            if first is not it:
                first.numbers += it.numbers
                first.text += it.text
        for it in self.definitions.values():
            for name in it.inner():
                self.inner.setdefault(name, it.name)
        for name in (*self.definitions, *self.inner):
            if "◌" in name:
                self.operators[name.strip("◌")] = name

    def home(self, name):
        """The definition that a name leads to here, if any."""
        return name if name in self.definitions else self.inner.get(name)


class Project:
    """The definitions of all crates by their modules, such as owl_tree.specs.Trees."""

    def __init__(self):
        with open(f"{TOP}/crates.txt", encoding="utf-8") as lines:
            self.crates = [it.split(":")[0].strip() for it in lines if it.strip() and not it.startswith("#")]
        self.files = {}
        for crate in self.crates:
            for folder in ("specs", "proofs"):
                for at, _, names in os.walk(f"{TOP}/crates/{crate}/{folder}"):
                    for name in filter(lambda it: it.endswith(".antt"), names):
                        path = os.path.relpath(f"{at}/{name[: -len('.antt')]}", f"{TOP}/crates")
                        self.files[path.replace("/", ".")] = File(self.source(f"{path}.antt"))

    def source(self, path):
        with open(f"{TOP}/crates/{path}", encoding="utf-8") as file:
            return file.read()

    def named_in_clauses(self):
        """What the clauses of the last step name."""
        for path, begins in CLAUSES:
            text = self.source(path)
            at = text.index("\n" + begins)
            end = min(it for it in (text.find("\n{\n", at), text.find("\n}\n", at)) if it >= 0)
            imports, modules = imports_of(text), modules_of(text)
            for word in WORD.findall(re.sub(r"//.*", "", text[at:end])):
                first, *behind = word.split(".")
                if first in imports:
                    yield imports[first]
                elif first in modules and behind:
                    yield modules[first], behind[0]

    def named_in(self, module, name):
        """What a definition names, as modules and names."""
        file = self.files[module]
        it = file.definitions[name]
        blocks = "\n".join(line for _, line in it.blocks)
        around = {*it.fields(), *self.bound_in(file, blocks)}
        for piece in (*it.scopes(), blocks):
            text = LABEL.sub(" ", STRING.sub(" ", COMMENT.sub("", piece)))
            bound = around | self.bound_in(file, text)
            for word in WORD.findall(text):
                first, *behind = word.split(".")
                here = file.operators.get(first, first)
                if first == "Rattle":
                    yield from self.named_by_path(behind)
                elif first in bound:
                    pass
                elif first in file.modules and behind:
                    yield file.modules[first], behind[0]
                elif first in file.imports:
                    yield file.imports[first]
                elif file.home(here):
                    yield module, here

    def named_by_path(self, parts):
        for end in range(len(parts) - 1, 0, -1):
            if ".".join(parts[:end]) in self.files:
                yield ".".join(parts[:end]), parts[end]

    def bound_in(self, file, text):
        """The variables of a piece of text."""
        bound = set(LET.findall(text))
        for names in (*BINDER.findall(text), *LAMBDA.findall(text)):
            bound |= set(WORD.findall(names))
        patterns = CASE.findall(text)
        left, equals, _ = text.partition(" =")
        if equals and " : " not in left and "\n" not in left:
            patterns.append(left.strip().partition(" ")[2])
        for pattern in patterns:
            bound |= {it for it in WORD.findall(pattern) if "." not in it and self.is_variable(file, it)}
        return bound

    def is_variable(self, file, name):
        """Whether a name in a pattern is a variable: it is none where it may be a constructor."""
        name = file.operators.get(name, name)
        module, there = file.imports.get(name, (None, name))
        home = self.files.get(module) if module else file
        return home is not None and there not in home.inner

    def reach(self, first):
        """The definitions that these lead to, and the modules of the Rust types that are named on the way."""
        reached, types, wanted = set(), set(), list(first)
        while wanted:
            module, name = wanted.pop()
            file = self.files.get(module)
            if not file and ".specs.declared." in module:
                types.add(module)
            home = file and file.home(name)
            if home and (module, home) not in reached:
                reached.add((module, home))
                wanted += self.named_in(module, home)
        return reached, types

    def numbers_of(self, module, names):
        """The numbers of the lines that definitions of a file take."""
        numbers = set()
        for it in map(self.files[module].definitions.get, names):
            numbers |= {*it.numbers, *(number for number, _ in it.blocks)}
        return numbers

    def rust_type(self, module):
        """The file, the name and the number of lines of the Rust type that a module declares, or of its constants, unless
        std has it."""
        crate, _, path = module.partition(".specs.declared.")
        if crate not in self.crates:
            return None
        *folders, name = (it for it in path.split(".") if it not in ("TheVariants", "TheInside"))
        source = f"{crate}/src/{'/'.join(folders)}.rt"
        if name == "TheConstants":
            return source, "const", len(re.findall("^pub const ", self.source(source), re.M))
        found = re.search(rf"^( *)pub (?:enum|struct) {name}\b(?:[^;{{]*;|.*?^\1}})", self.source(source), re.S | re.M)
        if not found:
            raise SystemExit(f"{source} has no type {name}")
        return source, name, found[0].count("\n") + 1


class Step:
    def __init__(self, title, says, files):
        self.title, self.says = title, says
        self.files = files  # by the module: how many lines there are that no step before has, and the definitions
        self.lines = sum(lines for lines, _ in files.values())


def first_of(project, names):
    """The definitions of these names, each of which has to be there."""
    first = [tuple(it.rsplit(".", 1)) for it in names]
    for module, name in first:
        if module not in project.files or name not in project.files[module].definitions:
            raise SystemExit(f"a step begins with {module}.{name}, which is not there")
    return first


def steps_of(project):
    """The steps, and the Rust types as rust_type tells them."""
    begun = [(title, says, first_of(project, names)) for title, says, names in STEPS]
    begun.append((*LAST_STEP, list(project.named_in_clauses())))
    steps, before, counted, types = [], set(), {}, set()
    for title, says, first in begun:
        reached, named = project.reach(first)
        files = {}
        for module, name in reached - before:
            files.setdefault(module, set()).add(name)
        for module, names in files.items():
            numbers = project.numbers_of(module, names) - counted.setdefault(module, set())
            counted[module] |= numbers
            files[module] = len(numbers), [it for it in project.files[module].definitions if it in names]
        steps.append(Step(title, says, files))
        before |= reached
        types |= named
    return steps, sorted({it for it in map(project.rust_type, types) if it})


def list_steps(project, steps, types):
    of_types = sum(lines for _, _, lines in types)
    yield from ("| Step | What it says | Lines | So far |", "|---|---|---|---|")
    so_far = 0
    for number, step in enumerate(steps, 1):
        so_far += step.lines
        yield f"| {number}. {step.title} | {step.says} | {step.lines:,} | {so_far:,} |"
    yield f"| Rust types | Those that the definitions speak of, and constants. | {of_types:,} | {so_far + of_types:,} |"
    for number, step in enumerate(steps, 1):
        yield from ("", f"### {number}. {step.title}", "", "| File | Lines | Definitions |", "|---|---|---|")
        for module in sorted(step.files, key=lambda it: (project.crates.index(it.split(".")[0]), it)):
            lines, names = step.files[module]
            yield f"| `{module.replace('.', '/')}.antt` | {lines} | {', '.join(f'`{it}`' for it in names)} |"
    yield from ("", "### Rust types", "", "| File | Lines | Type |", "|---|---|---|")
    yield from (f"| `{source}` | {lines} | `{name}` |" for source, name, lines in types)


def list_sums(project, steps, types):
    for last, words in SUMS:
        yield f"- {sum(it.lines for it in steps[:last]):,} lines {words}"
    yield f"- {sum(lines for _, _, lines in types):,} more are the Rust types and constants that these speak of."


PARTS = {"steps": list_steps, "sums": list_sums}


def cut(path):
    """A file up to the first mark, the part that the mark names, what stands between the marks, and the rest."""
    with open(path, encoding="utf-8") as file:
        text = file.read()
    found = re.fullmatch(r"(.*^<!-- definitions: (\w+) -->\n)(.*)(^<!-- end of definitions -->\n.*)", text, re.S | re.M)
    if not found or found[2] not in PARTS:
        raise SystemExit(f"{path} has not the two marks")
    return found.groups()


def main():
    way, *paths = sys.argv[1:] or [None]
    if way not in (None, "--write", "--check") or bool(way) != bool(paths):
        raise SystemExit(__doc__)
    project = Project()
    steps, types = steps_of(project)
    if not way:
        print("\n".join(list_steps(project, steps, types)))
    differs = False
    for path in paths:
        front, part, held, back = cut(path)
        wanted = "\n".join(PARTS[part](project, steps, types)) + "\n"
        if way == "--write":
            with open(path, "w", encoding="utf-8") as file:
                file.write(front + wanted + back)
        else:
            held, wanted = held.split("\n"), wanted.split("\n")
            for line in difflib.unified_diff(held, wanted, path, "as it should be", lineterm="", n=0):
                print(line)
                differs = True
    return differs


if __name__ == "__main__":
    sys.exit(main())
