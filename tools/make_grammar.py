#!/usr/bin/env python3
"""Makes the table of a grammar for a predictive parser.

make_grammar.py GRAMMAR tells the size of the table of a grammar, or where one token
does not tell which alternative of a rule to take.

make_grammar.py GRAMMAR NAME CRATE DEFINITION MODULE writes the table: as the definition
NAME in specs/DEFINITION.antt of the crate, a function in src/MODULE.rt, and what its
proof wants. The entries of a long table stand in files of their own, DEFINITION1.antt and
so on. With --check in front nothing is written: it fails where a file is not what would
be written.

A grammar is lines `rule ::= alternative | alternative`. `%` derives nothing, `@x` is an
act, a word with a small first letter a rule, any other a class of tokens. A line that
begins with white space goes on with the rule above, and `#` begins a comment. Numbers
come in the order of rules, and of `classes` and `acts` in lines of these names, which then
have to list all of them, or else in the order in which they stand first.

What it makes is not trusted: the proofs test the table.
"""

import os
import re
import sys

END = 127
LONGEST = 100
MOST_RULES = 50  # in a file


class Grammar:
    """The alternatives of each rule, as symbols: ("Need", 3), ("Rule", 0), ("Act", 1)."""

    def __init__(self, text):
        self.classes, self.acts, self.rules = [], [], {}
        lines = []
        for line in re.sub(r"#.*", "", text).splitlines():
            if line[:1].isspace() and line.strip():
                lines[-1] += " " + line.strip()
            elif line.strip():
                lines.append(line.strip())
        bodies = []
        for line in lines:
            words = line.split()
            if words[0] in ("classes", "acts"):
                getattr(self, words[0]).extend(words[1:])
            elif words[1] != "::=" or words[0] in self.rules:
                sys.exit(f"make_grammar: not one rule: {line}")
            else:
                self.rules[words[0]] = len(bodies)
                bodies.append(" ".join(words[2:]))
        self.listed = {"classes": bool(self.classes), "acts": bool(self.acts)}
        self.bodies = bodies
        self.rows = [[self.symbols(alternative) for alternative in body.split("|")] for body in bodies]
        if len(self.classes) > END:
            sys.exit("make_grammar: too many classes")

    def symbols(self, alternative):
        return [self.symbol(word) for word in alternative.split() if word != "%"]

    def symbol(self, word):
        if word.startswith("@"):
            return "Act", self.number("acts", word[1:])
        if word[0].islower():
            if word not in self.rules:
                sys.exit(f"make_grammar: no rule {word}")
            return "Rule", self.rules[word]
        return "Need", self.number("classes", word)

    def number(self, kind, name):
        names = getattr(self, kind)
        if name not in names:
            if self.listed[kind]:
                sys.exit(f"make_grammar: {name} is not among the {kind}")
            names.append(name)
        return names.index(name)

    def name(self, rule):
        return list(self.rules)[rule]


def bits(numbers):
    return sum(1 << number for number in numbers)


class Table:
    """The columns of a grammar, each the least that the tests take."""

    def __init__(self, grammar):
        self.grammar = grammar
        self.rows = grammar.rows
        rules = range(len(self.rows))
        self.empty = [False for _ in rules]
        self.first = [set() for _ in rules]
        self.follow = [{END} for _ in rules]
        self.grow(self.grow_first)
        self.grow(self.grow_follow)
        self.cost = [None for _ in rules]
        for rule in rules:
            self.rule_cost(rule, [])
        self.rank = self.ranks()
        self.masks = [[self.starts(self.follow[rule], row) for row in self.rows[rule]] for rule in rules]

    def grow(self, grow_rule):
        while any([grow_rule(rule) for rule in range(len(self.rows))]):
            pass

    def empties(self, symbols):
        return all(kind == "Act" or kind == "Rule" and self.empty[number] for kind, number in symbols)

    def starts(self, more, symbols):
        found = set()
        for kind, number in symbols:
            if kind == "Need":
                return found | {number}
            if kind == "Rule":
                found |= self.first[number]
                if not self.empty[number]:
                    return found
        return found | more

    def grow_first(self, rule):
        before = len(self.first[rule]), self.empty[rule]
        for row in self.rows[rule]:
            self.first[rule] |= self.starts(set(), row)
            self.empty[rule] = self.empty[rule] or self.empties(row)
        return before != (len(self.first[rule]), self.empty[rule])

    def grow_follow(self, rule):
        grown = False
        for row in self.rows[rule]:
            for place, (kind, number) in enumerate(row):
                if kind == "Rule":
                    behind = self.starts(self.follow[rule], row[place + 1 :])
                    grown = grown or not behind <= self.follow[number]
                    self.follow[number] |= behind
        return grown

    def rule_cost(self, rule, within):
        if rule in within:
            names = " ".join(map(self.grammar.name, [*within[within.index(rule) :], rule]))
            sys.exit(f"make_grammar: left recursion: {names}")
        if self.cost[rule] is None:
            self.cost[rule] = 1 + max(self.row_cost(row, [*within, rule]) for row in self.rows[rule])
        return self.cost[rule]

    def row_cost(self, row, within):
        cost = 0
        for kind, number in row:
            if kind == "Need":
                break
            cost += 1 if kind == "Act" else self.rule_cost(number, within)
            if kind == "Rule" and not self.empty[number]:
                break
        return cost

    def ranks(self):
        ranks = [None for _ in self.rows]
        for rank in range(len(ranks)):
            ranked = [rule for rule, other in enumerate(ranks) if other is None and self.has_rank(rule, ranks)]
            for rule in ranked:
                ranks[rule] = rank
        for rule, rank in enumerate(ranks):
            if rank is None:
                sys.exit(f"make_grammar: {self.grammar.name(rule)} derives nothing")
        return ranks

    def has_rank(self, rule, ranks):
        return any(all(kind != "Rule" or ranks[number] is not None for kind, number in row) for row in self.rows[rule])

    def conflicts(self):
        names = {**dict(enumerate(self.grammar.classes)), END: "the end"}
        for rule, masks in enumerate(self.masks):
            for other in range(len(masks)):
                for one in range(other):
                    for number in sorted(masks[one] & masks[other]):
                        yield f"{self.grammar.name(rule)}: {names[number]} begins {one + 1} and {other + 1}"

    def entries(self, name):
        return [f"{name}_{rule}" for rule in self.grammar.rules]

    def files(self, name, definition):
        """The entries of the table by the file that they stand in."""
        entries = self.entries(name)
        if len(entries) <= MOST_RULES:
            return {definition: entries}
        starts = range(0, len(entries), MOST_RULES)
        return {f"{definition}{k}": entries[start : start + MOST_RULES] for k, start in enumerate(starts, 1)}

    def entry(self, name, rule):
        rows = "\n      ∷ ".join(
            f"record {{ mask = {hex(bits(mask))}; symbols = {listed(row)} }}"
            for mask, row in zip(self.masks[rule], self.rows[rule])
        )
        return f"""
{self.comment("--", rule)}
unfoldable pub {name} : Entry
{name} = record {{
  rows =
      {rows}
      ∷ [];
  first = {hex(bits(self.first[rule]))};
  follow = {hex(bits(self.follow[rule]))};
  empty = {str(self.empty[rule]).lower()};
  cost = {self.cost[rule]};
  rank = {self.rank[rule]};
}}
"""

    def entries_in(self, name, entries):
        every = self.entries(name)
        return "".join(self.entry(it, every.index(it)) for it in entries)

    def rules(self, name, entries):
        return f"""-- Rules of a grammar as entries of its table; `tools/make_grammar.py` made it.
use Rattle.std.specs.Prelude.{{true, false, [], ◌∷◌}}
use Rattle.grammar.specs.Grammars.{{Entry}}
use Rattle.grammar.specs.declared.symbol.Symbol.TheVariants.{{Act, Need, Rule}}
{self.entries_in(name, entries)}"""

    def definition(self, name, crate, definition):
        entries = self.entries(name)
        files = self.files(name, definition)
        own = definition in files
        uses = "" if own else "".join(
            f"use Rattle.{crate}.specs.{file}.{{{', '.join(some)}}}\n" for file, some in files.items()
        )
        symbols = "use Rattle.grammar.specs.declared.symbol.Symbol.TheVariants.{Act, Need, Rule}\n" if own else ""
        text = f"""-- The table of a grammar; `tools/make_grammar.py` made it.
use Rattle.std.specs.Prelude.{{◌≡◌, ℕ, ◌≤◌, true, {"false, " if own else ""}List, [], ◌∷◌, refl}}
use Rattle.grammar.proofs.GrammarLaws.{{beyond}}
use Rattle.grammar.specs.Grammars.{{Entry, entry}}
use Rattle.grammar.specs.Predicting.{{is_predictive, is_productive}}
{symbols}{uses}{self.entries_in(name, entries) if own else ""}
unfoldable pub {name} : List Entry
{name} =
    {" ∷ ".join([*entries, "[]"])}

pub {name}_beyond : (r : ℕ) → {len(entries)} ≤ r → [] ≡ (entry {name} r).rows
unfolding {name}
{name}_beyond r h = beyond {name} r h
"""
        for test in ("is_predictive", "is_productive"):
            text += f"""
pub {name}_{test} : {test} {name} ≡ true
unfolding {test} {name} {" ".join(entries)}
{name}_{test} = refl
"""
        return text

    def rust(self, name, crate, definition):
        files = {definition: [name], **self.files(name, definition)}
        if definition in self.files(name, definition):
            files[definition] = [name, *files[definition]]
        unfolding = ", ".join(f"crate::specs::{file}::{it}" for file, some in files.items() for it in some)
        arms, indent = "", " " * 8
        for rule, rows in enumerate(self.rows):
            arms += f"        {self.comment('//', rule, indent)}\n        {rule} => &[\n"
            for mask, row in zip(self.masks[rule], rows):
                symbols = ", ".join(f"{kind}({number})" for kind, number in row)
                arms += f"            Row {{ mask: {hex(bits(mask))}, symbols: &[{symbols}] }},\n"
            arms += "        ],\n"
        return f"""//! The table of a grammar, made by `tools/make_grammar.py`.

ghost use Rattle.std.specs.Prelude.{{◌≡◌}};
ghost use Rattle.grammar.specs.Grammars.{{entry}};
ghost use Rattle.grammar.specs.Tables.{{rows_seen}};
ghost use Rattle.{crate}.specs.{definition}.{{{name}}};

use grammar::Row;
use grammar::Symbol::{{Act, Need, Rule}};

/// The alternatives of each rule.
#[rattlefmt::skip]
#[tactic(auto, unfolding({unfolding}))]
pub fn rows(rule: u16) -> &'static [Row]
    ensures {{ rows_seen result.now ≡ (entry {name} rule).rows }}
{{
    match rule {{
{arms}        _ => &[],
    }}
}}
"""

    def answers(self, name, crate, definition, module):
        return f"""-- No rule stands behind the last; `tools/make_grammar.py` made it.
use Rattle.std.proofs.Common.{{arith}}
use Rattle.{crate}.specs.{definition}.{{{name}_beyond}}
use Rattle.{crate}.proofs.{module}.rows.Goals as goal

pub returns-in_default : goal.returns-in_default
returns-in_default c =
    let others = c.in_default in
    {name}_beyond c.args.rule (omega arith)
"""

    def comment(self, mark, rule, indent=""):
        body = self.grammar.bodies[rule]
        if len(body) > LONGEST:
            body = body.replace(" | ", f"\n{indent}{mark}     | ")
        return f"{mark} {self.grammar.name(rule)} ::= {body}"


def listed(symbols):
    return " ∷ ".join([*(f"{kind} {number}" for kind, number in symbols), "[]"])


def write(path, text, check):
    if not check:
        os.makedirs(os.path.dirname(path), exist_ok=True)
        with open(path, "w", encoding="utf-8") as it:
            it.write(text)
        return
    with open(path, encoding="utf-8") as it:
        if it.read() != text:
            sys.exit(f"make_grammar: {path} is not what would be written")


def main():
    words = sys.argv[1:]
    check = words[:1] == ["--check"]
    words = words[1:] if check else words
    if len(words) not in (1, 5):
        sys.exit(__doc__)
    with open(words[0], encoding="utf-8") as it:
        grammar = Grammar(it.read())
    table = Table(grammar)
    conflicts = list(table.conflicts())
    if conflicts:
        sys.exit("\n".join(f"make_grammar: {conflict}" for conflict in conflicts))
    if len(words) == 5:
        name, folder, definition, module = words[1:]
        crate = os.path.basename(os.path.abspath(folder))
        for file, entries in table.files(name, definition).items():
            if file != definition:
                write(f"{folder}/specs/{file}.antt", table.rules(name, entries), check)
        write(f"{folder}/specs/{definition}.antt", table.definition(name, crate, definition), check)
        write(f"{folder}/src/{module}.rt", table.rust(name, crate, definition), check)
        write(f"{folder}/proofs/{module}/rows/Answers.antt", table.answers(name, crate, definition, module), check)
    rows = [row for rows in table.rows for row in rows]
    print(
        f"{words[0]}: {len(table.rows)} rules, {len(rows)} alternatives, {sum(map(len, rows))} symbols,"
        f" {len(grammar.classes)} classes, {len(grammar.acts)} acts"
    )


if __name__ == "__main__":
    main()
