#!/usr/bin/env python3
"""Makes the classes, the acts and the page of the grammar of Manchester Syntax.

make_page.py GRAMMAR CRATE writes, of a grammar as make_grammar.py takes it, the enums
of classes and acts with their numbers (src/class.rt, src/act.rt, specs/ClassNumbers.antt,
specs/Acts.antt), the page (specs/Page.antt), and the proof that the table is that of the
page (proofs/PageTable.antt). With --check in front nothing is written: it fails where
a file is not what would be written.

A page is the grammar by names, and is to be read. That the table has the alternatives of
the page is proved.
"""

import os
import re
import sys

sys.path.insert(0, os.path.dirname(os.path.abspath(__file__)))
from make_grammar import Grammar, Table, write

WIDTH = 118

# A class that has one spelling, by it: a keyword in front of a colon, a word, or a sign.
COLON = 31
SPELLED = {"Composed": "o", "SelfWord": "Self"}
CAPITALS = ("Functional", "InverseFunctional", "Reflexive", "Irreflexive", "Symmetric", "Asymmetric", "Transitive")
SIGNS = {
    "OpenParenthesis": "(",
    "CloseParenthesis": ")",
    "OpenBrace": "{",
    "CloseBrace": "}",
    "OpenBracket": "[",
    "CloseBracket": "]",
    "Comma": ",",
    "Carets": "^^",
    "AtMost": "<=",
    "LessThan": "<",
    "AtLeast": ">=",
    "MoreThan": ">",
    "Equals": "=",
}
OTHERS = {
    "PlainWord": "A word that is no keyword.",
    "IriRef": "An IRI between `<` and `>`.",
    "Prefixed": "A prefixed name with a local part.",
    "Namespace": "A prefixed name without a local part that is no keyword, or the name of a prefix.",
    "Blank": "The label of an anonymous individual.",
    "Text": "A string.",
    "Language": "A language tag.",
    "Digits": "Digits without a sign.",
    "Signed": "Digits behind a sign.",
    "Decimal": "A decimal.",
}
ACTS = {
    "NamePrefix": "The name of a prefix comes.",
    "DeclarePrefix": "The IRI of the prefix comes.",
    "OntologyIri": "The IRI of the ontology comes.",
    "VersionIri": "The IRI of its version comes.",
    "ImportIri": "The IRI of what is imported comes.",
    "HeadNotes": "The piece that was read is annotations of the ontology.",
    "Open": "A piece begins.",
    "Subject": "The piece that was read is what the frame is of.",
    "Part": "The piece that was read is a part of the section, behind its annotations.",
    "Nest": "A nest begins.",
    "Unnest": "A nest ends.",
    "NoNotes": "There are no annotations.",
    "Wrap": "The piece that was read last is the first part of a piece.",
    "Number": "A number comes.",
    "Name": "A name comes.",
    "TypeName": "The name of a datatype comes, as a word.",
    "Label": "The label of an anonymous individual comes.",
    "Text": "The string that comes is the form of a literal.",
    "Plain": "The literal has the form alone.",
    "Tagged": "The language tag of the literal comes.",
    "Typed": "The datatype of the literal comes.",
    "Shorthand": "What is short for a literal comes.",
    "Item": "An item begins.",
    "Section": "A section begins.",
    "Word": "A characteristic comes.",
    "Facet": "A facet comes.",
    "Shut": "The piece ends.",
}
# An act of a family carries what its keyword means.
FAMILIES = {
    "Item": ("Heading", "heading"),
    "Section": ("Section", "heading"),
    "Word": ("Characteristic", "form"),
    "Facet": ("Facet", "form"),
    "Shut": ("Form", "form"),
}


def filled(words, indent):
    """The words in lines of at most WIDTH characters."""
    lines, line = [], indent
    for word in words:
        if len(line) + len(word) + 1 > WIDTH:
            lines.append(line.rstrip())
            line = indent
        line += word + " "
    return "\n".join([*lines, line.rstrip()])


class Names:
    """The classes and acts of a grammar, as Rust and Antt write them."""

    def __init__(self, grammar):
        self.grammar = grammar
        self.colons = grammar.classes[:COLON]
        self.words = [it for it in grammar.classes[COLON:] if it not in SIGNS and it not in OTHERS]
        self.acts = [self.act(it) for it in grammar.acts]

    def spelling(self, name):
        if name in SPELLED:
            return SPELLED[name]
        if name in self.colons or name in CAPITALS:
            return name
        return name[0].lower() + re.sub("Word$", "", name)[1:]

    def doc(self, name):
        if name in OTHERS:
            return OTHERS[name]
        if name in SIGNS:
            return f"`{SIGNS[name]}`"
        return f"`{self.spelling(name)}{':' if name in self.colons else ''}`"

    @staticmethod
    def act(name):
        for family in FAMILIES:
            if name.startswith(family) and name != family:
                return family, name[len(family) :]
        return name, None

    @staticmethod
    def rust_act(act):
        family, value = act
        return f"Act::{family}({FAMILIES[family][0]}::{value})" if value else f"Act::{family}"

    @staticmethod
    def antt_act(act):
        family, value = act
        return f"{family} {FAMILIES[family][0].lower()}.{value}" if value else family


def class_source(names):
    every = names.grammar.classes
    spelled = names.colons + names.words
    arms = "".join(f"            Class::{it} => {n},\n" for n, it in enumerate(every))
    words = "".join(f'            Class::{it} => "{names.spelling(it)}",\n' for it in spelled)
    variants = "".join(f"    /// {names.doc(it)}\n    {it},\n" for it in every)

    def listed(some):
        return filled([f"Class::{it}," for it in some], "    ")

    return f"""//! The classes of tokens, made by `tools/make_page.py`.

ghost use Rattle.std.specs.Prelude.{{◌≡◌}};
ghost use Rattle.man_grammar.specs.ClassNumbers.{{class_number, colon_keywords, word_keywords, word_of}};

/// What the grammar tells of a token (Manchester Syntax, section 2.1).
#[derive(Clone, Copy, Debug, PartialEq, Eq)]
pub enum Class {{
{variants}}}

/// The keywords that stand in front of a colon.
#[rattlefmt::skip]
const COLON_KEYWORDS: [Class; {len(names.colons)}] = [
{listed(names.colons)}
];

/// The keywords that are words.
#[rattlefmt::skip]
const WORD_KEYWORDS: [Class; {len(names.words)}] = [
{listed(names.words)}
];

/// The keywords that stand in front of a colon.
pub fn colon_keywords() -> &'static [Class]
    ensures {{ result.now ≡ colon_keywords }}
{{
    &COLON_KEYWORDS
}}

/// The keywords that are words.
pub fn word_keywords() -> &'static [Class]
    ensures {{ result.now ≡ word_keywords }}
{{
    &WORD_KEYWORDS
}}

impl Class {{
    /// The number of the class, by which tables have it.
    pub fn number(self) -> u8
        ensures {{ result ≡ class_number self }}
    {{
        match self {{
{arms}        }}
    }}

    /// The word of a keyword. Other classes have none.
    #[tactic(auto, using(crate::proofs::Words::own_characters), unfolding(crate::specs::ClassNumbers::word_of))]
    pub fn word(self) -> &'static str
        ensures {{ chars result.now ≡ word_of self }}
    {{
        match self {{
{words}            _ => "",
        }}
    }}
}}
""".replace("ghost use Rattle.man_grammar", "ghost use Rattle.std.specs.Str.{chars};\nghost use Rattle.man_grammar", 1)


def class_numbers(names):
    every = names.grammar.classes
    numbers = "".join(f"class_number class.{it} = {n}\n" for n, it in enumerate(every))
    words = "".join(f'word_of class.{it} = codes "{names.spelling(it)}"\n' for it in names.colons + names.words)

    def listed(some):
        return filled([f"class.{it} ∷" for it in some] + ["[]"], "    ")

    return f"""-- The classes of tokens of Manchester Syntax (sections 2.1 and 2.3 to 2.6), and the words of those that are keywords;
-- `tools/make_page.py` made it.
use Rattle.std.specs.Prelude.{{ℕ, List, [], ◌∷◌, codes}}
use Rattle.man_grammar.specs.declared.class.Class.{{Class}}
use Rattle.man_grammar.specs.declared.class.Class.TheVariants as class

abbrev pub class_number : Class → ℕ
{numbers}
-- the word of a keyword
unfoldable pub word_of : Class → List ℕ
{words}word_of _ = []

-- the keywords in front of a colon
abbrev pub colon_keywords : List Class
colon_keywords =
{listed(names.colons)}

-- the keywords that are words
abbrev pub word_keywords : List Class
word_keywords =
{listed(names.words)}
"""


def plain_acts(names):
    return [act[0] for act in names.acts if act[1] is None]


def act_source(names):
    plain = plain_acts(names)
    variants = "".join(f"    /// {ACTS[it]}\n    {it},\n" for it in plain)
    variants += "".join(f"    /// {ACTS[it]}\n    {it}({FAMILIES[it][0]}),\n" for it in FAMILIES)
    arms = "".join(f"            {n} => Some({names.rust_act(act)}),\n" for n, act in enumerate(names.acts))
    return f"""//! What is done on the way along a derivation, made by `tools/make_page.py`.

ghost use Rattle.std.specs.Prelude.{{◌≡◌}};
ghost use Rattle.man_grammar.specs.Acts.{{act_numbered}};

use man_raw::{{Characteristic, Facet, Form, Heading, Section}};

/// What a reader does in front of a token (Manchester Syntax, sections 2.1 to
/// 2.6). An act carries what the keyword behind it means.
#[derive(Clone, Copy, Debug, PartialEq, Eq)]
pub enum Act {{
{variants}}}

impl Act {{
    /// The act with this number, if there is one.
    pub fn numbered(number: u8) -> Option<Act>
        ensures {{ result ≡ act_numbered number }}
    {{
        match number {{
{arms}            _ => None,
        }}
    }}
}}
"""


def acts_definition(names):
    numbers = "".join(
        f"act_number ({it}) = {n}\n" if " " in it else f"act_number {it} = {n}\n"
        for n, it in enumerate(map(names.antt_act, names.acts))
    )
    every = ["(" + it + ") ∷" if " " in it else f"{it} ∷" for it in map(names.antt_act, names.acts)] + ["[]"]
    uses = "".join(
        f"use Rattle.man_raw.specs.declared.{module}.{name}.TheVariants as {name.lower()}\n"
        for name, module in FAMILIES.values()
    )
    return f"""-- The numbers of acts; `tools/make_page.py` made it.
use Rattle.std.specs.Prelude.{{ℕ, List, [], ◌∷◌, Option}}
use Rattle.std.specs.List.{{slice_get}}
{uses}use Rattle.man_grammar.specs.declared.act.Act.{{Act}}
use Rattle.man_grammar.specs.declared.act.Act.TheVariants.{{{", ".join([*plain_acts(names), *FAMILIES])}}}

abbrev pub act_number : Act → ℕ
{numbers}
-- the acts in the order of their numbers
abbrev pub all_acts : List Act
all_acts =
{filled(every, "    ")}

-- the act with this number
abbrev pub act_numbered : ℕ → Option Act
act_numbered n = slice_get all_acts n
"""


def page(names, sections):
    grammar = names.grammar
    rules = list(grammar.rules)

    def symbol(word):
        if word.startswith("@"):
            family, value = names.act(word[1:])
            return f"action (act.{family} {FAMILIES[family][0].lower()}.{value})" if value else f"action act.{family}"
        return f"part {word}" if word[0].islower() else f"token class.{word}"

    def alternative(text):
        return " ∷ ".join([*(symbol(it) for it in text.split() if it != "%"), "[]"])

    body = ""
    for rule, alternatives in zip(rules, grammar.bodies):
        if rule in sections:
            body += f"-- {sections[rule]}\n"
        some = [alternative(it) for it in alternatives.split("|")]
        some = [it if it == "[]" else f"({it})" for it in some]
        short = f"alternatives {rule} = " + " ∷ ".join([*some, "[]"])
        if len(short) <= WIDTH:
            body += short + "\n"
        else:
            body += f"alternatives {rule} =\n    " + "\n    ∷ ".join([*some, "[]"]) + "\n"
    numbers = "".join(f"rule_number {it} = {n}\n" for n, it in enumerate(rules))
    uses = "".join(
        f"use Rattle.man_raw.specs.declared.{module}.{name}.TheVariants as {name.lower()}\n"
        for name, module in FAMILIES.values()
    )
    return f"""-- The grammar of Manchester Syntax (sections 2.1 to 2.6), left-factored: each alternative of a rule begins with other tokens.
-- Acts stand in front of the tokens that they concern. `tools/make_page.py` made it.
use Rattle.std.specs.Prelude.{{ℕ, List, [], ◌∷◌}}
use Rattle.grammar.specs.Grammars.{{Entry}}
use Rattle.grammar.specs.Pages.{{Named, Page, grammar_of}}
use Rattle.grammar.specs.Pages.Named.{{action, part, token}}
{uses}use Rattle.man_grammar.specs.Acts.{{act_number}}
use Rattle.man_grammar.specs.ClassNumbers.{{class_number}}
use Rattle.man_grammar.specs.declared.act.Act.{{Act}}
use Rattle.man_grammar.specs.declared.act.Act.TheVariants as act
use Rattle.man_grammar.specs.declared.class.Class.{{Class}}
use Rattle.man_grammar.specs.declared.class.Class.TheVariants as class

-- the parts of a document
pub data Rule : Type 0 where
  {" ".join(rules)} : Rule

abbrev pub Names : Type 0
Names = List (Named Class Rule Act)

abbrev pub alternatives : Rule → List Names
{body}
abbrev pub rule_number : Rule → ℕ
{numbers}
-- the rules in the order of their numbers
abbrev pub rules : List Rule
rules =
{filled([f"{it} ∷" for it in rules] + ["[]"], "    ")}

abbrev pub page : Page Class Rule Act
page = record {{
  class_number = class_number;
  rule_number = rule_number;
  act_number = act_number;
  alternatives = alternatives;
  rules = rules;
}}

-- the same as a list of rules, from which documents derive
unfoldable pub manchester_page : List Entry
manchester_page = grammar_of page
"""


def page_table(names):
    files = Table(names.grammar).files("manchester", "Table")
    entries = [it for some in files.values() for it in some]
    uses = "".join(f"use Rattle.man_grammar.specs.{file}.{{{', '.join(some)}}}\n" for file, some in files.items())
    return f"""-- The table of Manchester Syntax has the alternatives of its page; `tools/make_page.py` made it.
use Rattle.std.proofs.Common.{{refl}}
use Rattle.grammar.specs.Pages.{{IsTableOf}}
use Rattle.man_grammar.specs.Page.{{page}}
use Rattle.man_grammar.specs.Table.{{manchester}}
{uses}
pub stands_for_page : IsTableOf page manchester
unfolding manchester {" ".join(entries)}
stands_for_page = record {{ lists = refl; numbers = refl }}
"""


def sections_of(text):
    """The comment line in front of a rule, by the rule."""
    found, last = {}, None
    for line in text.splitlines():
        if line.startswith("# section"):
            last = line[2:]
        elif last and "::=" in line:
            found[line.split()[0]] = last
            last = None
    return found


def main():
    words = sys.argv[1:]
    check = words[:1] == ["--check"]
    words = words[1:] if check else words
    if len(words) != 2:
        sys.exit(__doc__)
    with open(words[0], encoding="utf-8") as it:
        text = it.read()
    names = Names(Grammar(text))
    folder = words[1]
    write(f"{folder}/src/class.rt", class_source(names), check)
    write(f"{folder}/src/act.rt", act_source(names), check)
    write(f"{folder}/specs/ClassNumbers.antt", class_numbers(names), check)
    write(f"{folder}/specs/Acts.antt", acts_definition(names), check)
    write(f"{folder}/specs/Page.antt", page(names, sections_of(text)), check)
    write(f"{folder}/proofs/PageTable.antt", page_table(names), check)


if __name__ == "__main__":
    main()
