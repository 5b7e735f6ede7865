#!/usr/bin/env python3
"""Makes the table of a grammar of lexemes.

make_table.py NAME TABLE.rt ORIGIN.antt SOURCE.. writes the table of the grammar NAME
as constants of Rust, and how it came about as a definition. The sources are the files
of specs/ that define the grammar and what it cites, and the file of Rust that has the
numbers of the kinds. With --check in front nothing is written: it fails where a file
is not what would be written.

What it makes is not trusted: the proofs test the table against the grammar. It reads
the patterns as the definitions write them, and mirrors `rests`, `join` and
`grow_states` of owl_lexer, and the words of TurtleGrammar.antt for characters.
"""

import re
import sys

EMPTY = ("empty",)
ESCAPES = {"0": "\0", "n": "\n", "r": "\r", "t": "\t"}
NO_STATE = 255
ASCII = 128
LINE_WIDTH = 92
TITLES = {"functional": "Functional-Style Syntax", "manchester": "Manchester Syntax", "turtle": "Turtle"}


class Reader:
    """Reads the definitions of patterns and grammars, and the numbers of kinds."""

    def __init__(self, texts):
        self.bodies = {}
        self.numbers = {}
        self.patterns = {}
        self.sets = []
        for text in texts:
            self.read(text)

    def read(self, text):
        for name, number in re.findall(r"^pub const (\w+): u8 = (\d+);", text, re.M):
            self.numbers[name] = int(number)
        text = "\n".join(re.sub(r"(^|\s)-- .*", "", line) for line in text.splitlines())
        for found in re.finditer(r"^(\w+) =((?:.*\n?)(?:[ \t}].*\n?|\n(?=[ \t}]))*)", text, re.M):
            self.bodies[found.group(1)] = found.group(2)

    def words(self, text):
        return re.findall(r'"(?:[^"\\]|\\.)*"|\w+|\+\+|[(){};,=\[\]∷]', text)

    def body(self, name):
        if name not in self.bodies:
            sys.exit(f"make_table: {name} is not defined")
        return Words(self.words(self.bodies[name]), name)

    def number(self, word):
        if word in self.bodies:
            return int(self.bodies[word], 0)
        return self.numbers[word] if word in self.numbers else int(word, 0)

    def whole(self, name, read):
        words = self.body(name)
        answer = read(words)
        words.end()
        return answer

    # patterns

    def pattern(self, name):
        if name not in self.patterns:
            self.patterns[name] = self.whole(name, self.either)
        return self.patterns[name]

    def either(self, words):
        left = self.both(words)
        return ("either", left, self.either(words)) if words.take("or") else left

    def both(self, words):
        left = self.applied(words)
        return ("both", left, self.both(words)) if words.take("then") else left

    def applied(self, words):
        if words.take("one"):
            return ("one", self.number(words.next()))
        for word, outside in (("any_of", False), ("none_of", True)):
            if words.take(word):
                return self.one_of((outside, ranges_of(quoted(words))))
        if words.take("one_of"):
            if not words.take("("):
                return self.one_of(self.whole(words.next(), self.set))
            leaf = self.one_of(self.set(words))
            words.want(")")
            return leaf
        for word, make in (("text", only), ("any_case", either_case)):
            if words.take(word):
                return in_turn([self.one_of(make(c)) for c in quoted(words)])
        if words.take("many"):
            return ("many", self.atom(words))
        if words.take("maybe"):
            return ("either", self.atom(words), EMPTY)
        if words.take("some"):
            inner = self.atom(words)
            return ("both", inner, ("many", inner))
        return self.atom(words)

    def atom(self, words):
        if words.take("("):
            inner = self.either(words)
            words.want(")")
            return inner
        return EMPTY if words.take("empty") else self.pattern(words.next())

    def one_of(self, one_set):
        if one_set not in self.sets:
            sys.exit(f"make_table: {one_set} is not among the sets")
        return ("one", self.sets.index(one_set))

    # lists, of which an item is read as told, or is the name of a list

    def items(self, words, read):
        """Items before `∷`, and lists before `++`, up to the end of a list."""
        if words.take("["):
            words.want("]")
            return []
        found = read(words)
        if found is None:
            bracket = words.take("(")
            found = self.items(words, read) if bracket else self.named(words, read)
            if bracket:
                words.want(")")
            return found + self.items(words, read) if words.take("++") else found
        words.want("∷")
        return [found, *self.items(words, read)]

    def named(self, words, read):
        if words.take("each_of"):
            return [(c, c) for c in self.characters(words)]
        if words.take("map"):
            make = {"only": only, "either_case": either_case}[words.next()]
            return [make(c) for c in self.characters(words)]
        return self.whole(words.next(), lambda body: self.items(body, read))

    def characters(self, words):
        words.want("(")
        if words.take("codes"):
            found = quoted(words)
        else:
            found = self.items(words, lambda it: self.number(it.next()) if it.ahead()[0].isdigit() else None)
        words.want(")")
        return found

    def range(self, words):
        if words.ahead() != "(" or not words.ahead(1)[0].isdigit():
            return None
        words.want("(")
        first = self.number(words.next())
        words.want(",")
        last = self.number(words.next())
        words.want(")")
        return (first, last)

    def set(self, words):
        """Whether the set is a complement, and the ranges."""
        for word, outside in (("these", False), ("all_but", True)):
            if words.take(word):
                return (outside, ranges_of(quoted(words)))
        if words.ahead() in self.bodies and words.ahead(1) == "∷":
            return self.whole(words.next(), self.set)
        if words.ahead() not in ("inside", "outside"):
            return None
        outside = words.next() == "outside"
        if words.take("("):
            ranges = self.items(words, self.range)
            words.want(")")
        else:
            ranges = self.named(words, self.range)
        return (outside, ranges)

    def terminal(self, words):
        if words.ahead(2) == "is":
            words.want("(")
            kind = self.number(words.next())
            words.want("is")
            pattern = self.either(words)
            words.want(")")
            return (kind, pattern)
        if not words.take("record"):
            return None
        for word in ("{", "kind", "="):
            words.want(word)
        kind = self.number(words.next())
        for word in (";", "pattern", "="):
            words.want(word)
        pattern = self.either(words)
        words.take(";")
        words.want("}")
        return (kind, pattern)

    def grammar(self, name):
        words = self.body(name)
        for word in ("record", "{", "sets", "="):
            words.want(word)
        self.sets = self.items(words, self.set)
        for word in (";", "terminals", "="):
            words.want(word)
        terminals = self.items(words, self.terminal)
        words.take(";")
        words.want("}")
        words.end()
        return self.sets, terminals


class Words:
    """The words of a definition, one after another."""

    def __init__(self, words, name):
        self.words = words
        self.name = name
        self.at = 0

    def ahead(self, count=0):
        place = self.at + count
        return self.words[place] if place < len(self.words) else "the end"

    def next(self):
        word = self.ahead()
        self.at += 1
        return word

    def take(self, word):
        found = self.ahead() == word
        self.at += found
        return found

    def want(self, word):
        if not self.take(word):
            sys.exit(f"make_table: {self.name}: {word} is missing before {self.ahead()}")

    def end(self):
        if self.at < len(self.words):
            sys.exit(f"make_table: {self.name}: {self.ahead()} is not understood")


def quoted(words):
    """The characters of a text between quotes."""
    found = re.findall(r"\\u\{(\w+)\}|\\(.)|(.)", words.next()[1:-1])
    return [int(point, 16) if point else ord(ESCAPES.get(escaped, escaped) or plain) for point, escaped, plain in found]


def ranges_of(chars):
    if len(chars) > 2 and chars[1] == ord("-"):
        return [(chars[0], chars[2]), *ranges_of(chars[3:])]
    return [(chars[0], chars[0]), *ranges_of(chars[1:])] if chars else []


def only(c):
    return (False, [(c, c)])


def either_case(c):
    return (False, [(c + 32, c + 32), (c, c)])


def in_turn(patterns):
    return patterns[0] if len(patterns) == 1 else ("both", patterns[0], in_turn(patterns[1:]))


def is_nullable(pattern):
    sort = pattern[0]
    if sort in ("empty", "many"):
        return True
    if sort == "one":
        return False
    if sort == "both":
        return is_nullable(pattern[1]) and is_nullable(pattern[2])
    return is_nullable(pattern[1]) or is_nullable(pattern[2])


def join(first, second):
    return second if first == EMPTY else ("both", first, second)


def rests(bits, pattern):
    sort = pattern[0]
    if sort == "empty":
        return []
    if sort == "one":
        return [EMPTY] if bits[pattern[1]] else []
    if sort == "both":
        front = [join(rest, pattern[2]) for rest in rests(bits, pattern[1])]
        return front + (rests(bits, pattern[2]) if is_nullable(pattern[1]) else [])
    if sort == "either":
        return rests(bits, pattern[1]) + rests(bits, pattern[2])
    return [join(rest, pattern) for rest in rests(bits, pattern[1])]


def has(one_set, c):
    complement, ranges = one_set
    return any(first <= c <= last for first, last in ranges) != complement


class Table:
    def __init__(self, sets, terminals):
        self.sets = sets
        self.terminals = terminals
        self.make_classes()
        self.make_states()

    def make_classes(self):
        firsts = {0}
        for _, ranges in self.sets:
            for first, last in ranges:
                firsts.update((first, last + 1))
        firsts = sorted(firsts)
        numbers = {}
        self.characters = []
        self.bits = []
        self.intervals = []

        def class_of(c):
            bits = tuple(has(one_set, c) for one_set in self.sets)
            if bits not in numbers:
                numbers[bits] = len(numbers)
                self.characters.append(c)
                self.bits.append(bits)
            return numbers[bits]

        for first, behind in zip(firsts, firsts[1:]):
            self.intervals.append((behind - 1, class_of(first)))
        self.others = class_of(firsts[-1])

    def class_in(self, c):
        return next((number for last, number in self.intervals if c <= last), self.others)

    def make_states(self):
        first = frozenset(self.terminals)
        numbers = {first: 0}
        states = [first]
        self.parents = []
        self.rows = []
        self.kinds = []
        for state in states:
            row = []
            for number, bits in enumerate(self.bits):
                left = frozenset((kind, rest) for kind, pattern in state for rest in rests(bits, pattern))
                if not left:
                    row.append(NO_STATE)
                    continue
                if left not in numbers:
                    numbers[left] = len(states)
                    states.append(left)
                    self.parents.append((numbers[state], number))
                row.append(numbers[left])
            self.rows.append(row)
            kinds = {kind for kind, pattern in state if is_nullable(pattern)}
            if len(kinds) > 1:
                sys.exit(f"make_table: characters are of the kinds {sorted(kinds)}")
            self.kinds.append(kinds.pop() if kinds else 0)
        if len(states) > NO_STATE or len(self.bits) > 256:
            sys.exit("make_table: too many states or classes")

    def rust(self, language):
        rows = "".join(f"    [{', '.join(map(str, row))}],\n" for row in self.rows)
        return f"""//! The table of the automaton of {TITLES[language]}, made by `tools/make_table.py`.

/// The class of each ASCII character.
#[rattlefmt::skip]
pub const ASCII: [u8; {ASCII}] = [
{filled(map(self.class_in, range(ASCII)))}];

/// The last character of each interval, and the class of its characters.
#[rattlefmt::skip]
pub const INTERVALS: [(u32, u8); {len(self.intervals)}] = [
{filled([f"({last}, {number})" for last, number in self.intervals])}];

/// The class of the characters behind the last interval.
pub const OTHERS: u8 = {self.others};

/// For each state and class the state to which the class leads.
#[rattlefmt::skip]
pub const ROWS: [[u8; {len(self.bits)}]; {len(self.rows)}] = [
{rows}];

/// The kind of lexeme that is whole at each state.
#[rattlefmt::skip]
pub const KINDS: [u8; {len(self.kinds)}] = [
{filled(self.kinds)}];
"""

    def origin(self, language):
        characters = " ∷ ".join([*map(str, self.characters), "[]"])
        parents = " ∷ ".join([*(f"({state}, {number})" for state, number in self.parents), "[]"])
        return f"""-- How the table of {TITLES[language]} came about; `tools/make_table.py` made it.
use Rattle.std.specs.Prelude.{{[], ◌∷◌}}
use Rattle.owl_lexer.proofs.TableCheckLaws.{{Origin}}

unfoldable pub {language}_origin : Origin
{language}_origin = record {{
  characters = {characters};
  parents = {parents};
}}
"""


def filled(items):
    """As many items a line as stand in it."""
    text, line = "", ""
    for item in items:
        if line and len(line) + len(f" {item},") > LINE_WIDTH:
            text += "    " + line + "\n"
            line = ""
        line += f"{' ' if line else ''}{item},"
    return text + "    " + line + "\n"


def main():
    words = sys.argv[1:]
    check = words[:1] == ["--check"]
    if check:
        words = words[1:]
    if len(words) < 4:
        sys.exit(__doc__)
    name, table_file, origin_file, *sources = words
    texts = []
    for source in sources:
        with open(source, encoding="utf-8") as it:
            texts.append(it.read())
    table = Table(*Reader(texts).grammar(name))
    language = name.removesuffix("_grammar")
    for path, text in ((table_file, table.rust(language)), (origin_file, table.origin(language))):
        if not check:
            with open(path, "w", encoding="utf-8") as it:
                it.write(text)
            continue
        with open(path, encoding="utf-8") as it:
            if it.read() != text:
                sys.exit(f"make_table: {path} is not the table of {name}")
    print(f"{name}: {len(table.rows)} states, {len(table.bits)} classes, {len(table.intervals)} intervals")


if __name__ == "__main__":
    main()
