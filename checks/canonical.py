#!/usr/bin/env python3
"""Compares `owl canon` and `owl digest`, and what is read of canonical bytes, with a second writer and reader of them.

canonical.py [COUNT [SEED [PROGRAM]]]: so many closures, 2000 if left out, of up to three
documents as `mapping.py` makes them. Main is spelled in two ways: as it was made, or in
another order, with repeats and other prefixes, or, where it can be said there, in Turtle
or Manchester Syntax; and in canonical bytes, as some of the imports are. Of both the
program, bin/owl if left out, has to write the bytes of the second writer, and their
digest. What it translates the bytes to has to be the second writer's text, or the
refusal of the second mapping, and to have the same bytes again. Where a byte is
changed, put in or left out, it has to refuse what the second reader refuses, and to
read the rest.
"""

import os
import random
import subprocess
import sys
import tempfile

import mapping
import second_canon
import second_manchester_writer
import second_mapping
from second_canon import SHAPES, NotCanon, canonical_bytes, digest_line, parts_of
from second_mapping import Document, Kinds, reached, undeclared
from second_writer import NAMES, XSD, Writer

PREFIXES = [{}, {"": "http://e/"}, {"e": "http://e/", "s.1": "http://e/s/", "": "http://e/s"}, {"x-y": "http://"}]
SPACES = [" ", " ", " ", "\n", "\t \r\n", " # and so on\n"]


class AnyWriter(Writer):
    """Writes a document in any order, with repeats and with IRIs and literals in any form."""

    def iri(self, iri):
        return super().iri(iri) if random.random() < 0.8 else f"<{iri}>"

    def literal(self, form, datatype, tag):
        if random.random() < 0.7 or not (tag[0] or datatype.decode() == XSD + "string"):
            return super().literal(form, datatype, tag)
        if tag[0] or random.random() < 0.5:
            return super().literal(form + b"@" + tag[1], b"", (False, b"")).partition("^^")[0] + "^^" + self.iri(second_canon.PLAIN.decode())
        return f"{super().literal(form, datatype, tag)}^^{self.iri(XSD + 'string')}"

    def tree(self, tree):
        tag, inside = tree
        return super().tree((tag, members_in_any_order(NAMES[tag], inside)) if isinstance(inside, list) else tree)

    def document(self, names, imports, annotations, axioms):
        items = [f"Prefix({name}:=<{iri}>)" for name, iri in self.prefixes.items() if name not in second_mapping.FIXED]
        items += ["Ontology("] + [f"<{it}>" for it in names]
        items += [f"Import(<{it.decode()}>)" for it in in_any_order(imports)]
        items += [self.tree(it) for it in in_any_order(annotations)] + [self.tree(it) for it in in_any_order(axioms)]
        return "".join(it + random.choice(SPACES) for it in [*items, ")"])


def in_any_order(members):
    members = members + random.choices(members, k=random.choice([0, 0, 1, 2])) if members else []
    return random.sample(members, len(members))


def members_in_any_order(name, kids):
    """The kids with those of the set among them, if there is one, in any order."""
    if "{" not in SHAPES[name]:
        return kids
    front = len([*parts_of(name)]) - 1
    members = kids[front:]
    return kids[:front] + (random.sample(members, len(members)) if name == "InverseObjectProperties" else in_any_order(members))


def changed(encoded):
    """The bytes with one of them changed, put in or left out."""
    at, byte = random.randrange(len(encoded)), random.choice([0, 1, 2, 255, random.randrange(256)])
    return random.choice([encoded[:at] + bytes([byte]) + encoded[at + 1 :], encoded[:at] + bytes([byte]) + encoded[at:], encoded[:at] + encoded[at + 1 :]])


class Case:
    """A closure: its documents, and what has to come of them."""

    def __init__(self):
        self.given = [*mapping.documents()]
        self.partial = random.random() < 0.2
        self.documents = [Document(*it) for it in self.given]
        self.main = self.documents[0]
        self.found, self.missing = reached(self.documents)
        self.kinds = Kinds(self.found)
        self.ontology = self.main.iris, self.main.imports, self.main.annotations, self.main.axioms
        self.encoded = canonical_bytes(*self.ontology)
        self.wrong = 0
        self.imports = [(name, text.encode()) for name, text in self.given[1:]]
        for place, document in enumerate(self.documents[1:]):
            if random.random() < 0.3:
                encoded = canonical_bytes(document.iris, document.imports, document.annotations, document.axioms)
                self.imports[place] = document.name.replace(".ofn", ".owc"), encoded

    def lost(self, name):
        """The refusal of a missing import, if one is missing and may not be."""
        if not self.missing or self.partial:
            return None
        names = {self.main.name: name, **{it.name: new for it, (new, _) in zip(self.documents[1:], self.imports)}}
        return 3, b"", f"{names[self.missing[0]]}: MissingImport <{self.missing[1]}>"

    def told(self, words, wanted, main, imports=None):
        """What a command tells with this main document. It is wrong where it isn't what is wanted."""
        imports = self.imports if imports is None else imports
        for name, document in [main, *imports]:
            with open(name, "wb") as file:
                file.write(document)
        words = [*words, *["--partial"] * self.partial, main[0], *(name for name, _ in imports)]
        done = subprocess.run([mapping.PROGRAM, *words], capture_output=True)
        told = done.returncode, done.stdout, done.stderr.decode()
        status, output, line = wanted
        if told != (status, output, line + "\n"):
            self.wrong += 1
            print(words, *(f"\n{name}: {document!r}" for name, document in [main, *imports]), f"\n  wanted: {wanted}\n  owl:    {told}")
        return told

    def spelled(self):
        """Main in some syntax, and the bytes that it has to have there."""
        way = random.choice(["ofn", "any", "any", "ttl", "omn"])
        if way == "ttl" and second_mapping.outcome(self.given, self.partial)[0] == 0:
            annotations, axioms, _ = second_mapping.normal_form(self.main)
            text, _ = second_mapping.translation(self.main)
            return ("m.ttl", text.encode()), canonical_bytes(self.main.iris, self.main.imports, annotations, axioms)
        if way == "omn" and not (self.missing and not self.partial) and not second_manchester_writer.refusal(self.main, self.kinds):
            axioms = second_manchester_writer.normal_form(self.main, self.kinds)
            text, _ = second_manchester_writer.translation(self.main, self.kinds)
            return ("m.omn", text.encode()), canonical_bytes(self.main.iris, self.main.imports, self.main.annotations, axioms)
        text = self.given[0][1] if way == "ofn" else AnyWriter(random.choice(PREFIXES)).document(*self.ontology)
        return ("m.ofn", text.encode()), self.encoded

    def compare_bytes(self, main, encoded):
        lost = self.lost(main[0])
        self.told(["canon"], lost or (0, encoded, "canonical"), main)
        self.told(["digest"], lost or (0, digest_line(encoded).encode(), "digested"), main)

    def compare_translation(self):
        """What the bytes are translated to has the same bytes."""
        clash = self.kinds.clash()
        refusal = f"typing: TwoKinds <{clash}>" if clash else undeclared(self.main, self.kinds)
        text = Writer({}).document(*self.ontology).encode()
        wanted = (4, b"", refusal) if refusal else (0, text, f"translated; axioms {len(self.main.axioms)}; absorbed 0")
        status, text, _ = self.told(["translate", "--to", "fss"], self.lost("m.owc") or wanted, ("m.owc", self.encoded))
        if status == 0:
            self.told(["canon"], (0, self.encoded, "canonical"), ("again.ofn", text))
        return status

    def compare_changed(self):
        """Bytes of which one is another are refused, or those of another ontology."""
        encoded = changed(self.encoded)
        try:
            second_canon.read(encoded)
            wanted = 0, encoded, "canonical"
        except NotCanon:
            wanted = 3, b"", "c.owc: NotCanon"
        partial, self.partial = self.partial, True
        self.told(["canon"], wanted, ("c.owc", encoded), [])
        self.partial = partial
        return wanted[0] == 0


def main():
    count = int(sys.argv[1]) if len(sys.argv) > 1 else 2000
    random.seed(int(sys.argv[2]) if len(sys.argv) > 2 else 1)
    wrong, statuses, ways, others = 0, {}, {}, 0
    with tempfile.TemporaryDirectory() as room:
        os.chdir(room)
        for _ in range(count):
            case = Case()
            form, encoded = case.spelled()
            case.compare_bytes(form, encoded)
            case.compare_bytes(("m.owc", case.encoded), case.encoded)
            status = case.compare_translation()
            others += case.compare_changed()
            wrong += case.wrong > 0
            statuses[status] = statuses.get(status, 0) + 1
            ways[form[0][2:]] = ways.get(form[0][2:], 0) + 1
    print(f"{count} closures, {wrong} answered in two ways; the other spelling", dict(sorted(ways.items())), "translations by status", dict(sorted(statuses.items())))
    print(f"{others} of {count} changed bytes are those of another ontology")
    return wrong != 0


if __name__ == "__main__":
    sys.exit(main())
