#!/usr/bin/env python3
"""Counts how many Turtle files that others wrote are read, as they are found.

real_files.py [--names] FOLDER [PROGRAM]: each file below the folder whose name ends in .ttl, once
for each content, is shown by itself: as it is, with --partial, with a base of its name
too, and with a guess besides. PROGRAM is bin/owl if left out. It prints, for each of
these ways, how many are read, and by the word of each refusal how many get it, with
--names also which.

What reads has to be shown in the same way with more words in front of it, and what is
written of it in Functional-Style Syntax and in Turtle has to be written again, byte for
byte, without a guess and without a base. The status is 1 where one is not, or where a
call ends as none should.
"""

import hashlib
import os
import re
import subprocess
import sys
import tempfile
import urllib.parse

TOP = os.path.dirname(os.path.dirname(os.path.abspath(__file__)))
BASE = "http://example.org/"

# What stands in front of the name, in each way: whether imports may be missing, whether
# a base is given, and whether properties are guessed.
WAYS = [
    ("as they are", False, False, False),
    ("with --partial", True, False, False),
    ("with --partial --base IRI", True, True, False),
    ("with --partial --guess --base IRI", True, True, True),
]
# The line of a refusal in which the word stands, and the word.
REFUSALS = [
    re.compile(r".*: item at \d+: (\w+) at \d+"),
    re.compile(r"(?:typing|target|limit): (\w+).*", re.DOTALL),
    re.compile(r".*\.ttl: ([A-Z]\w+).*", re.DOTALL),
    re.compile(r"(words|memory|write)"),
    re.compile(r"(read): .*"),
]


def files(folder):
    """The names of the files, from the folder on, the first one of each content."""
    seen, names = set(), []
    for place, folders, inside in os.walk(folder):
        folders.sort()
        for name in sorted(inside):
            path = os.path.join(place, name)
            if not name.endswith(".ttl") or not os.path.isfile(path):
                continue
            with open(path, "rb") as file:
                content = hashlib.sha256(file.read()).digest()
            if content not in seen:
                seen.add(content)
                names.append(os.path.relpath(path, folder))
    return names


def call(program, folder, words):
    """The status, the output and the line of a call."""
    done = subprocess.run([program, *words], cwd=folder, stdin=subprocess.DEVNULL, capture_output=True, check=False)
    return done.returncode, done.stdout, done.stderr.decode("utf-8", "replace").rstrip("\n")


def options(name, partial, base, guess):
    words = ["--partial"] if partial else []
    words += ["--guess"] if guess else []
    words += ["--base", BASE + urllib.parse.quote(name)] if base else []
    return words


def word_of(line):
    """The word of a refusal, or the whole line."""
    for pattern in REFUSALS:
        match = pattern.fullmatch(line)
        if match:
            return match[1]
    return line


def not_written_again(program, folder, name, words):
    """In which syntaxes what is written of a file is not written again, byte for byte."""
    wrong = []
    for target, suffix in ("fss", "ofn"), ("ttl", "ttl"):
        status, text, line = call(program, folder, ["translate", "--to", target, *words, name])
        if status != 0:
            # A limit may be passed, or something may not be said in the target.
            if status not in (4, 5):
                wrong.append(f"to {target}: {line}")
            continue
        with tempfile.TemporaryDirectory() as room:
            with open(os.path.join(room, f"again.{suffix}"), "wb") as file:
                file.write(text)
            again = call(program, room, ["translate", "--to", target, "--partial", f"again.{suffix}"])
        if again[:2] != (0, text):
            wrong.append(f"to {target} and again: {again[2]}")
    return wrong


def main():
    words = sys.argv[1:]
    tells_names = words[:1] == ["--names"]
    words = words[1:] if tells_names else words
    if not 1 <= len(words) <= 2:
        sys.exit(__doc__)
    folder = words[0]
    program = os.path.abspath(words[1]) if len(words) == 2 else os.path.join(TOP, "bin", "owl")
    names = files(folder)
    if not names:
        sys.exit(f"no file below {folder} ends in .ttl")
    wrong = []
    shown = {}
    for title, *way in WAYS:
        refused = {}
        for name in names:
            # A name that begins with a hyphen would be a word.
            path = f"./{name}"
            words = options(name, *way)
            status, output, line = call(program, folder, ["show", *words, path])
            if status == 0:
                if shown.setdefault(name, output) != output:
                    wrong.append(f"{name}: it is shown otherwise {title}")
                wrong += [f"{name}: {what}" for what in not_written_again(program, folder, path, words)]
                continue
            if name in shown:
                wrong.append(f"{name}: it is no longer read {title}: {line}")
            if status not in (2, 3, 5):
                wrong.append(f"{name}: status {status}, {line}")
            refused.setdefault(word_of(line), []).append(name)
        count = sum(map(len, refused.values()))
        print(f"{title}: {len(names) - count} of {len(names)} are read")
        for word, inside in sorted(refused.items(), key=lambda item: (-len(item[1]), item[0])):
            print(f"  {word} {len(inside)}" + (f": {', '.join(inside)}" if tells_names else ""))
    for what in wrong:
        print(f"wrong: {what}")
    sys.exit(1 if wrong else 0)


if __name__ == "__main__":
    main()
