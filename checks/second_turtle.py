#!/usr/bin/env python3
"""A second reader of Turtle, to compare owl with.

second_turtle.py does what the program crate ttl_copy does, without prefixes: it copies a
document from its input to its output, a triple a line, or tells on its standard error why it
doesn't read, with the status 1. So checks/turtle_suite.py can be run over it too.

It goes by RDF 1.1 Turtle (2014), sections 6.3 to 6.5 and 7, with owl's own choices, by
recursive descent, and by section 5 of RFC 3986 for relative references. It shares no code
or table with owl.

A token is a triple (kind, value, place). The kinds are "iri", "name", "blank", "string",
"at", "integer", "decimal", "double", "word" and "sign"; the value of a name is the pair of
its prefix and its local part. A term is ("iri", IRI), ("blank", label) or
("literal", form, datatype, tag), where the tag may be none.
"""

import re
import sys

RDF = "http://www.w3.org/1999/02/22-rdf-syntax-ns#"
XSD = "http://www.w3.org/2001/XMLSchema#"
TYPE, FIRST, REST, NIL = (("iri", RDF + name) for name in ("type", "first", "rest", "nil"))

MOST_OPEN, MOST_TRIPLES, MOST_BYTES = 512, 2**24, 2**27

sys.setrecursionlimit(20 * MOST_OPEN)


class Defect(Exception):
    """Why a document doesn't read: the place of its item, its reason and its place."""

    def __str__(self):
        item, reason, at = self.args
        return f"item at {item}: {reason} at {at}"


class Limit(Exception):
    """What there is too much of."""


# Tokens, section 6.5. A byte at which no character begins is decoded as a lone surrogate, which stands in no token.

BASE = "A-Za-z\u00c0-\u00d6\u00d8-\u00f6\u00f8-\u02ff\u0370-\u037d\u037f-\u1fff\u200c-\u200d\u2070-\u218f\u2c00-\u2fef\u3001-\ud7ff"
BASE += "\uf900-\ufdcf\ufdf0-\ufffd\U00010000-\U000effff"
START = "_" + BASE
PART = START + "0-9\u00b7\u0300-\u036f\u203f-\u2040-"
NO_BYTES = "\ud800-\udfff"
HEX = "[0-9A-Fa-f]"
# A numeric escape, and one that stands for a character.
NUMERIC = rf"\\u{HEX}{{4}}|\\U{HEX}{{8}}"
OF_A_CHARACTER = rf"\\(?:u|U0000)(?:[0-9A-CE-Fa-ce-f]{HEX}|[Dd][0-7]){HEX}{{2}}|\\U00(?:0[1-9A-Fa-f]|10){HEX}{{4}}"
ESCAPED = rf"\\[tbnrf\"'\\]|{OF_A_CHARACTER}"
LOCAL_ESCAPE = rf"%{HEX}{{2}}|\\[_~.\-!$&'()*+,;=/?#@%]"
EXPONENT = "[eE][+-]?[0-9]+"
PREFIX_NAME = rf"(?:[{BASE}](?:[{PART}.]*[{PART}])?)?"
LOCAL = rf"(?:[{START}:0-9]|{LOCAL_ESCAPE})(?:(?:[{PART}.:]|{LOCAL_ESCAPE})*(?:[{PART}:]|{LOCAL_ESCAPE}))?"
PATTERNS = [
    ("iri", rf'<(?:[^\x00-\x20<>"{{}}|^`\\{NO_BYTES}]|{NUMERIC})*>'),
    ("name", rf"{PREFIX_NAME}:(?:{LOCAL})?"),
    ("blank", rf"_:[{START}0-9](?:[{PART}.]*[{PART}])?"),
    ("string", rf'"(?:[^"\\\n\r{NO_BYTES}]|{ESCAPED})*"'),
    ("string", rf"'(?:[^'\\\n\r{NO_BYTES}]|{ESCAPED})*'"),
    ("string", rf'"""(?:"{{0,2}}(?:[^"\\{NO_BYTES}]|{ESCAPED}))*"""'),
    ("string", rf"'''(?:'{{0,2}}(?:[^'\\{NO_BYTES}]|{ESCAPED}))*'''"),
    ("at", "@[A-Za-z]+(?:-[A-Za-z0-9]+)*"),
    ("integer", "[+-]?[0-9]+"),
    ("decimal", r"[+-]?[0-9]*\.[0-9]+"),
    ("double", rf"[+-]?(?:[0-9]+\.[0-9]*|\.?[0-9]+){EXPONENT}"),
    ("word", "a|true|false|[Pp][Rr][Ee][Ff][Ii][Xx]|[Bb][Aa][Ss][Ee]"),
    ("sign", r"[.;,\[\]()]|\^\^"),
]
PATTERNS = [(kind, re.compile(pattern)) for kind, pattern in PATTERNS]
BETWEEN = re.compile(rf"(?:[ \t\n\r]|#[^\n\r{NO_BYTES}]*)*")
ESCAPES = re.compile(r"\\(?:u(.{4})|U(.{8})|(.))", re.DOTALL)
SHORT = {"t": "\t", "b": "\b", "n": "\n", "r": "\r", "f": "\f"}


def unescaped(text):
    """A text with the characters that its escapes stand for, or none where one stands for no character."""

    def character(escape):
        digits = escape[1] or escape[2]
        number = int(digits, 16) if digits else 0
        # What is no character becomes a lone surrogate.
        return chr(number if number < 0x110000 else 0xD800) if digits else SHORT.get(escape[3], escape[3])

    text = ESCAPES.sub(character, text)
    return None if re.search(f"[{NO_BYTES}]", text) else text


def value_of(kind, text):
    """The value of a token that is spelled so."""
    if kind == "iri":
        return unescaped(text[1:-1])
    if kind == "string":
        quotes = 3 if len(text) > 5 and text[0] == text[1] else 1
        return unescaped(text[quotes:-quotes])
    if kind == "name":
        prefix, _, local = text.partition(":")
        return prefix, re.sub(r"\\(.)", r"\1", local)
    return text[2:] if kind == "blank" else text[1:] if kind == "at" else text


def tokens_of(document):
    """The tokens of the bytes of a document, and how they end: a reason, or none at the end of the document, and a place."""
    text, tokens = document.decode("utf-8", "surrogateescape"), []
    at = here = 1 if text.startswith("\ufeff") else 0
    place = 3 * here
    while True:
        at = BETWEEN.match(text, at).end()
        place, here = place + len(text[here:at].encode("utf-8", "surrogateescape")), at
        if at == len(text):
            return tokens, (None, place)
        ends = [(found.end(), kind) for kind, pattern in PATTERNS if (found := pattern.match(text, at))]
        if not ends:
            return tokens, ("BadUtf8" if "\udc80" <= text[at] <= "\udcff" else "BadToken", place)
        end, kind = max(ends)
        tokens.append((kind, value_of(kind, text[at:end]), place))
        at = end


# IRIs, section 6.3 and RFC 3986

IRI = re.compile(r'[A-Za-z][A-Za-z0-9+.-]*:[^\x00-\x20<>"{}|^`\\]*')
NO_IRI = re.compile(r'[\x00-\x20<>"{}|^`\\]')
PARTS = re.compile(r"(?://([^/?#]*))?([^?#]*)(?:\?([^#]*))?(?:#(.*))?", re.DOTALL)


def without_dots(path):
    """A path without dot segments, RFC 3986, section 5.2.4."""
    output = ""
    while path:
        if path.startswith(("../", "./")):
            path = path[path.index("/") + 1 :]
        elif path.startswith("/./") or path == "/.":
            path = "/" + path[3:]
        elif path.startswith("/../") or path == "/..":
            path, output = "/" + path[4:], output[: max(output.rfind("/"), 0)]
        elif path in (".", ".."):
            path = ""
        else:
            end = path.find("/", 1) if "/" in path[1:] else len(path)
            path, output = path[end:], output + path[:end]
    return output


def resolved(base, reference):
    """The IRI that a reference stands for, RFC 3986, sections 5.2.2, 5.2.3 and 5.3. One that has a scheme stands for itself."""
    if IRI.match(reference):
        return reference
    scheme, rest = base.split(":", 1)
    base_authority, base_path, base_query, _ = PARTS.fullmatch(rest).groups()
    authority, path, query, fragment = PARTS.fullmatch(reference).groups()
    if authority is not None:
        path = without_dots(path)
    else:
        authority = base_authority
        if path == "":
            path, query = base_path, base_query if query is None else query
        elif path.startswith("/"):
            path = without_dots(path)
        elif base_authority is not None and base_path == "":
            path = without_dots("/" + path)
        else:
            path = without_dots(base_path[: base_path.rfind("/") + 1] + path)
    whole = scheme + ":"
    for sign, part in (("//", authority), ("", path), ("?", query), ("#", fragment)):
        whole += "" if part is None else sign + part
    return whole


# Reading, sections 6.5 and 7


class Reader:
    """What was read of a document. A node without a label is a number until the document has ended."""

    def __init__(self, document):
        self.tokens, self.ending = tokens_of(document)
        self.next, self.item, self.open, self.fresh = 0, None, 0, 0
        self.prefixes, self.base, self.triples, self.labels = {}, None, [], set()

    # Tokens

    def peek(self):
        """The next token; at the end of the tokens its place alone."""
        return self.tokens[self.next] if self.next < len(self.tokens) else (None, None, self.ending[1])

    def kind(self):
        return self.peek()[0]

    def fail(self, reason="NotHere"):
        """A defect at the next token."""
        kind, _, at = self.peek()
        if kind is None and self.ending[0]:
            reason = self.ending[0]
        raise Defect(self.item, reason, at)

    def sees(self, kind, *values):
        token, value, _ = self.peek()
        return token == kind and (not values or value in values)

    def take(self, kind, *values):
        """The value of the next token, which has to be of this kind and, where values are given, one of these."""
        if not self.sees(kind, *values):
            self.fail()
        self.next += 1
        return self.tokens[self.next - 1][1]

    def may_take(self, kind, *values):
        return self.sees(kind, *values) and self.take(kind) is not None

    def enter(self, bracket):
        """Takes a bracket or parenthesis behind which something is open."""
        if self.sees("sign", bracket) and self.open == MOST_OPEN:
            raise Limit("Depth")
        self.take("sign", bracket)
        self.open += 1

    def leave(self, bracket):
        self.take("sign", bracket)
        self.open -= 1

    # Documents and directives

    def document(self):
        """Reads all statements."""
        while self.kind() or self.ending[0]:
            self.item = self.peek()[2]
            if self.kind() == "at" or self.is_word("prefix") or self.is_word("base"):
                self.directive()
            else:
                self.statement()
        if len(set(self.triples)) > MOST_TRIPLES:
            raise Limit("Triples")

    def is_word(self, word):
        kind, value, _ = self.peek()
        return kind == "word" and value.lower() == word

    def directive(self):
        """A prefix or a base, in one of its two spellings."""
        with_dot = self.kind() == "at"
        if with_dot and not self.sees("at", "prefix", "base"):
            self.fail()
        word = self.take(self.kind()).lower()
        if word == "prefix":
            if self.kind() != "name" or self.peek()[1][1] != "":
                self.fail()
            name = self.take("name")[0]
            self.prefixes[name] = self.reference()
        else:
            self.base = self.reference()
        if with_dot:
            self.take("sign", ".")

    def reference(self):
        """The IRI of the next token, which has to be a reference between `<` and `>`."""
        if self.kind() != "iri":
            self.fail()
        text = self.peek()[1]
        if text is None or NO_IRI.search(text):
            self.fail("BadIri")
        if self.base is None and not IRI.match(text):
            self.fail("RelativeWithoutBase")
        self.next += 1
        return resolved(self.base, text)

    # Statements

    def statement(self):
        """Triples with their dot."""
        if self.sees("sign", "["):
            subject, has_pairs = self.brackets()
            if not has_pairs or not self.sees("sign", "."):
                self.pairs(subject)
        else:
            self.pairs(self.node())
        self.take("sign", ".")

    def pairs(self, subject):
        """One or more predicates with their objects. Semicolons may be repeated, and stand at the end."""
        self.predicate_and_objects(subject)
        while self.may_take("sign", ";"):
            if self.sees("iri") or self.sees("name") or self.sees("word", "a"):
                self.predicate_and_objects(subject)

    def predicate_and_objects(self, subject):
        """A predicate with one or more objects."""
        predicate = TYPE if self.may_take("word", "a") else self.iri()
        self.triples.append((subject, predicate, self.object()))
        while self.may_take("sign", ","):
            self.triples.append((subject, predicate, self.object()))

    def iri(self):
        """The term of an IRI, written in full or as a name."""
        kind, value, _ = self.peek()
        if kind != "name":
            return "iri", self.reference()
        if value[0] not in self.prefixes:
            self.fail("UnknownPrefix")
        self.next += 1
        return "iri", self.prefixes[value[0]] + value[1]

    def new_node(self):
        """A node without a label, numbered as nodes appear."""
        self.fresh += 1
        return "blank", self.fresh

    def brackets(self):
        """A node in brackets, and whether there are predicates in them."""
        self.enter("[")
        node = self.new_node()
        has_pairs = not self.sees("sign", "]")
        if has_pairs:
            self.pairs(node)
        self.leave("]")
        return node, has_pairs

    def node(self):
        """What may be a subject, and an object, and does not begin with a bracket."""
        if self.sees("sign", "("):
            return self.collection()
        if self.kind() == "blank":
            self.labels.add(self.peek()[1])
            return "blank", self.take("blank")
        return self.iri()

    def collection(self):
        """The first node of a list, or rdf:nil. A node of it appears before its element."""
        self.enter("(")
        first = before = None
        while not self.sees("sign", ")"):
            cell = self.new_node()
            if before is None:
                first = cell
            else:
                self.triples.append((before, REST, cell))
            before = cell
            self.triples.append((cell, FIRST, self.object()))
        self.leave(")")
        if first is None:
            return NIL
        self.triples.append((before, REST, NIL))
        return first

    def object(self):
        """A node, brackets or a literal."""
        if self.sees("sign", "["):
            return self.brackets()[0]
        if self.kind() in ("string", "integer", "decimal", "double") or self.sees("word", "true", "false"):
            return self.literal()
        return self.node()

    def literal(self):
        """A literal, which has its form, its datatype and its tag, or none."""
        kind = self.kind()
        form = self.take(kind)
        if kind != "string":
            return "literal", form, XSD + ("boolean" if kind == "word" else kind), None
        if self.kind() == "at":
            return "literal", form, RDF + "PlainLiteral", self.take("at")
        if not self.may_take("sign", "^^"):
            return "literal", form, XSD + "string", None
        stands = self.next
        datatype, tag = self.iri()[1], None
        if datatype == RDF + "PlainLiteral":
            # A form with a tag behind its last `@`, or with nothing there
            parted = re.fullmatch("(.*)@([A-Za-z]+(?:-[A-Za-z0-9]+)*)?", form, re.DOTALL)
            if parted:
                form, tag = parted.groups()
                datatype = datatype if tag else XSD + "string"
        if datatype == RDF + "langString" or datatype == RDF + "PlainLiteral" and tag is None:
            self.next = stands
            self.fail("BadLiteral")
        return "literal", form, datatype, tag

    # Labels

    def names(self):
        """The labels of the nodes without one: `gen` and a number, above those that stand in the document."""
        counted = [int(label[3:]) for label in self.labels if re.fullmatch("gen[1-9][0-9]{0,17}", label)]
        number, names = max(counted, default=0), {}
        for node in range(1, self.fresh + 1):
            number += 1
            while f"gen{number}" in self.labels:
                number += 1
            names["blank", node] = ("blank", f"gen{number}")
        return names

    def graph(self):
        """The triples, with labels for all blank nodes."""
        names = self.names()
        return {tuple(names.get(term, term) for term in triple) for triple in self.triples}


def read(document):
    """The reader of a document that reads. Else a `Defect` or a `Limit` is raised."""
    if len(document) > MOST_BYTES:
        raise Limit("DocumentBytes")
    reader = Reader(document)
    reader.document()
    return reader


def spelled(term):
    """A term with its IRIs in full."""
    if term[0] != "literal":
        return f"_:{term[1]}" if term[0] == "blank" else f"<{term[1]}>"
    _, form, datatype, tag = term
    for character, escape in (("\\", "\\\\"), ('"', '\\"'), ("\n", "\\n"), ("\r", "\\r")):
        form = form.replace(character, escape)
    return f'"{form}"' + (f"@{tag}" if tag else "" if datatype == XSD + "string" else f"^^<{datatype}>")


def main():
    try:
        lines = [" ".join([*map(spelled, triple), ".\n"]) for triple in read(sys.stdin.buffer.read()).graph()]
    except Defect as defect:
        item, reason, at = defect.args
        print(f"Error: {reason} at byte {at}, in the item at byte {item}", file=sys.stderr)
        return 1
    except Limit as limit:
        print({"Depth": "Error: too deep"}.get(str(limit), f"Error: {limit}"), file=sys.stderr)
        return 1
    sys.stdout.buffer.write("".join(sorted(lines)).encode())
    return 0


if __name__ == "__main__":
    sys.exit(main())
