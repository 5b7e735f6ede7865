#!/usr/bin/env python3
"""Has each device and each allocation of the program fail in turn.

failing.py [PROGRAM]: the program is bin/owl if left out. ROWS are calls, over small documents in a
folder that has to be the same afterwards. Each is made without a fault first. Then there fail

- its calls of the system, with each error that strace puts in their place (CALLS);
- its allocations, by a library in front of the system's that gives none (SHIM): each one alone,
  and each one with all later ones;
- its streams, which are full, closed, or such that nobody reads them, and its room for files;
- over a document of AXIOMS axioms, its address space in steps.

A read that fails has to end with the status 6, a write of the text with 7 and a front of the text,
and want of memory with 8, each with its line, or as without a fault. Where a signal interrupts it a
read or a write is tried again. A refusal writes nothing, and a line that can't be written changes
nothing else. What can't be tried without strace or gcc is told and skipped. Root
lets nobody run the program. The last line counts what passed.
"""

import collections
import fcntl
import os
import shutil
import signal
import subprocess
import sys
import tempfile

TOP = os.path.dirname(os.path.dirname(os.path.abspath(__file__)))
NOBODY = 65534
AXIOMS, STEP = 2000, 16  # The step is in kilobytes.
# A text that takes two reads of 4096 bytes, and more than a pipe of a page has room for.
LABEL = "s" * 6000
OWL, RDFS = "http://www.w3.org/2002/07/owl#", "http://www.w3.org/2000/01/rdf-schema#"
TURTLE = f"@prefix : <http://e/> . @prefix owl: <{OWL}> . @prefix rdfs: <{RDFS}> . "
DOCUMENTS = {
    "m.ofn": "Prefix(:=<http://e/>) Ontology(:m Import(:k) Declaration(Class(:A))"
    f' SubClassOf(:A ObjectSomeValuesFrom(:p :B)) AnnotationAssertion(rdfs:label :A "{LABEL}"))',
    "m.ttl": f'{TURTLE}:m a owl:Ontology ; owl:imports :k . :A a owl:Class ; rdfs:label "{LABEL}" ;'
    " rdfs:subClassOf [ a owl:Restriction ; owl:onProperty :p ; owl:someValuesFrom :B ] .",
    "m.omn": "Prefix: : <http://e/> Ontology: <http://e/m> Import: <http://e/k>"
    f' Class: A Annotations: rdfs:label "{LABEL}" SubClassOf: p some B',
    "k.ofn": "Prefix(:=<http://e/>) Ontology(:k Declaration(Class(:B)) Declaration(ObjectProperty(:p)))",
    "k.ttl": TURTLE + ":k a owl:Ontology . :B a owl:Class . :p a owl:ObjectProperty .",
    "k.omn": "Prefix: : <http://e/> Ontology: <http://e/k> Class: B ObjectProperty: p",
    "wrong.ofn": "Ontology(SubClassOf(<http://e/A>))",
    "wrong.ttl": TURTLE + ':k a owl:Ontology . _:x :p "1" .',
    "wrong.omn": "Prefix: : <http://e/> Ontology: Class: A SubClassOf: B",
    "bare.ofn": "Ontology(SubClassOf(<http://e/A> <http://e/B>))",
    "unnamed.ofn": f"Ontology(SubClassOf(ObjectComplementOf(<{OWL}Thing>) <{OWL}Nothing>))",
    "large.ofn": f"Ontology(SubClassOf(<http://e/A> ObjectMinCardinality({2**64} <http://e/p>)))",
    "many.ofn": "Prefix(:=<http://e/>) Ontology(:m Import(:k)"
    f"{''.join(f' Declaration(Class(:A{n})) SubClassOf(:A{n} :B)' for n in range(AXIOMS // 2))})",
}
SMALL = [f"translate --to {to} m.{of} k.{of}" for to in ("fss", "ttl", "omn") for of in ("ofn", "ttl", "omn")]
LARGE = [f"translate --to {to} many.ofn k.ofn" for to in ("fss", "ttl", "omn")]
# The words of each call, by the status that it has without a fault.
ROWS = {
    0: [*SMALL, *LARGE, "check --profile dl m.ofn k.ofn", "check --profile el m.ttl k.ttl",
        "check --profile ql m.omn k.omn", "show m.omn k.ttl", "same k.ofn k.ttl", "trial 1"],
    1: ["check --profile rl m.ofn k.ttl", "same m.ofn k.omn"],
    3: ["translate --to fss wrong.ofn k.ofn", "show wrong.ttl k.ttl", "translate --to ttl wrong.omn k.omn",
        "check --profile dl m.ofn"],
    4: ["translate --to ttl bare.ofn", "translate --to omn unnamed.ofn"],
    2: ["show"], 5: ["show large.ofn"], 6: ["same k.ofn lost.ofn"],
}
# The calls of the system that are made to fail, with the errors that they are given.
CALLS = {
    "openat": ("error=EIO", "error=ENOMEM", "error=ENOSPC", "error=EMFILE", "error=EINTR"),
    "read": ("error=EIO", "error=ENOMEM", "error=ENOSPC", "error=EAGAIN", "error=EINTR"),
    "write": ("error=EIO", "error=ENOMEM", "error=ENOSPC", "error=EPIPE", "error=EAGAIN", "error=EINTR", "retval=0"),
    "close": ("error=EIO", "error=EINTR"),
    # The kernel says so that it gives no more.
    "brk": ("retval=0",),
    "mmap": ("error=ENOMEM",),
}
# The first call of the system that is the program's, and none of the loader's.
BEGINS = "rt_sigaction(SIGPIPE,"
SHIM = r"""
#include <fcntl.h>
#include <stdio.h>
#include <stdlib.h>
void *__libc_malloc(size_t), *__libc_realloc(void *, size_t);
static long count, first, last;
static int fails(void) { return count += 1, first <= count && count <= last; }
void *malloc(size_t size) { return fails() ? 0 : __libc_malloc(size); }
void *realloc(void *old, size_t size) { return fails() ? 0 : __libc_realloc(old, size); }
__attribute__((constructor)) static void begin(void) {
    count = 0, first = atol(getenv("FIRST")), last = atol(getenv("LAST"));
}
__attribute__((destructor)) static void end(void) {
    if (last == 0) dprintf(open("../count", O_WRONLY | O_CREAT | O_TRUNC, 0600), "%ld", count);
}
"""
MEMORY = (8, b"", b"memory\n")
passed = failed = 0
told = collections.Counter()


def judge(what, good, got):
    """Counts a call, and tells it where it is not as it has to be."""
    global passed, failed
    passed += bool(good)
    failed += not good
    if not good:
        print(f"failing: {what}: status {got[0]}, {len(got[1])} bytes of output, line {got[2][:200]}")


def judge_fault(kind, what, wanted, got, base):
    """Judges what comes of a fault, one of what is wanted, and counts it by its kind too."""
    judge(f"{kind}: {what}", got in wanted, got)
    unnoted = got == (*base[:2], b"")
    told[kind, "as without a fault" if got == base else "without the line" if unnoted else f"with status {got[0]}"] += 1


def late(*_):
    raise TimeoutError


def call(words, before=(), more={}, output=None, note=None, restore_signals=True):
    """Runs the program: its status, what is in its output, and what in its note, unless these are others."""
    command = [*before, "../owl", *words.split()]
    with open("../output", "w+b") as mine, open("../note", "w+b") as line:
        signal.alarm(60)
        try:
            status = subprocess.run(command, stdin=subprocess.DEVNULL, stdout=output or mine, stderr=note or line,
                                    env=ENV | more, close_fds=False, restore_signals=restore_signals).returncode
        except TimeoutError:
            status = "none after a minute"
        signal.alarm(0)
        return status, mine.seek(0) or mine.read(), line.seek(0) or line.read()


def bash(script):
    """What stands before the program so that bash calls it behind this script."""
    return "bash", "-c", script + '; exec "$@"', "bash"


def calls_of(words):
    """The program's calls of the system: the name, which of this name, and of which file."""
    call(words, ("strace", "-f", "-qq", "-o", "../trace"))
    found, of, seen, begun = [], {"1": "output", "2": "note"}, collections.Counter(), False
    for line in open("../trace", encoding="ascii", errors="replace"):
        text = line.split(maxsplit=1)[1]
        name, rest = text.split("(", 1)
        seen[name] += 1
        begun = begun or text.startswith(BEGINS)
        if begun and name == "openat":
            of[line.split()[-1]] = rest.split('"')[1]
            found.append((name, seen[name], rest.split('"')[1]))
        elif begun and name in CALLS and not text.startswith("brk(NULL"):
            found.append((name, seen[name], of.get(rest[0])))
    judge(f"{words}: the calls of the system", begun and found, (None, b"", b"where do they begin?"))
    return found


def fail_calls(words, base):
    found = calls_of(words)
    for place, (name, number, of) in enumerate(found):
        for error in CALLS[name]:
            for later in ("", "+") if error == CALLS[name][0] else ("",):
                faults = [f"inject={name}:{error}:when={number}{later}"]
                if name in ("brk", "mmap"):
                    wanted = MEMORY, base
                    # Where one of them gives nothing, the C library asks the other.
                    for other in ({"brk", "mmap"} - {name}) if later else ():
                        after = next((n for c, n, _ in found[place:] if c == other), number + 1000)
                        faults.append(f"inject={other}:{CALLS[other][0]}:when={after}+")
                elif name == "close" or error == "error=EINTR":
                    wanted = [base]
                elif name == "write" and of == "output":
                    wanted = [(7, b"", b"" if later else b"write\n")]
                elif name == "write":
                    wanted = [(*base[:2], b"")]
                else:
                    wanted = [(6, b"", f"read: {of}\n".encode())]
                before = ["strace", "-f", "-qq", "-o", "/dev/null", *(w for f in faults for w in ("-e", f))]
                kind = {"output": "write of the text", "note": "write of the line"}.get(of, name)
                judge_fault(kind, f"{words}: {' '.join(faults)}", wanted, call(words, before), base)


def fail_allocations(words, base):
    def allot(first, last):
        return call(words, more={"LD_PRELOAD": os.path.abspath("../shim.so"), "FIRST": str(first), "LAST": str(last)})

    judge(f"{words}: the library, without a fault", allot(1, 0) == base, base)
    count = int(open("../count", encoding="ascii").read())
    for number in range(1, count + 1):
        judge_fault("one allocation alone", f"{words}: {number}", (MEMORY, base), allot(number, number), base)
        judge_fault("one and all later ones", f"{words}: {number}", (MEMORY, base), allot(number, 2**62), base)
    judge(f"{words}: past the last allocation", allot(count + 1, 2**62) == base, base)


def fail_streams(words, base):
    full, (reader, gone) = os.open("/dev/full", os.O_WRONLY), os.pipe()
    os.close(reader)
    text = base[0] < 2
    unwritten, unnoted = (7, b"", b"write\n") if text else base, (*base[:2], b"")
    neither, front = (unwritten[0], b"", b""), (7, base[1][:4096], b"write\n")
    streams = [
        ("a full output", unwritten, {"output": full}),
        ("an output that nobody reads", unwritten, {"output": gone}),
        ("such an output, its signal ignored", unwritten, {"output": gone, "restore_signals": False}),
        ("no output", unwritten, {"before": bash("exec >&-")}),
        ("a full note", unnoted, {"note": full}),
        ("a note that nobody reads", unnoted, {"note": gone}),
        ("such a note, its signal ignored", unnoted, {"note": gone, "restore_signals": False}),
        ("no note", unnoted, {"before": bash("exec 2>&-")}),
        ("both are full", neither, {"output": full, "note": full}),
        ("no input", base, {"before": bash("exec <&-")}),
        ("no stream", neither, {"before": bash("exec <&- >&- 2>&-")}),
    ]
    if text and not words.startswith("trial"):
        # The second document is one too many.
        last = (6, b"", f"read: {words.split()[-1]}\n".encode())
        streams.append(("four files", last, {"before": bash("ulimit -n 4")}))
    if len(base[1]) > 4096:
        streams.append(("4096 bytes of a file", front, {"before": bash("trap '' XFSZ; ulimit -f 4")}))
        reader, short = os.pipe()
        fcntl.fcntl(short, fcntl.F_SETPIPE_SZ, 4096)
        os.set_blocking(short, False)
        got = call(words, output=short)
        os.close(short)
        with open(reader, "rb") as file:
            got = (got[0], file.read(), got[2])
        judge_fault("streams", f"{words}: 4096 bytes of a pipe that doesn't wait", [front], got, base)
    for what, wanted, how in streams:
        judge_fault("streams", f"{words}: {what}", [wanted], call(words, **how), base)
    os.close(full)
    os.close(gone)


def fail_space(words, base):
    """Limits of the address space, from where the loader gets through to where eight in a row are enough."""
    low, limit, enough = 256, 65536, 0
    while limit - low > 4:
        middle = (low + limit) // 8 * 4
        low, limit = (low, middle) if call("show", bash(f"ulimit -v {middle}"))[0] in (2, 8) else (middle, limit)
    while enough < 8 and limit < 2**18:
        got = call(words, bash(f"ulimit -v {limit}"))
        judge_fault("address space", f"{words}: {limit} kB", (MEMORY, base), got, base)
        enough, limit = enough + 1 if got == base else 0, limit + STEP
    judge(f"{words}: enough of the address space", enough == 8, got)


def run():
    strace = shutil.which("strace")
    compile = ["gcc", "-shared", "-fPIC", "-fno-builtin", "-x", "c", "-", "-o", "../shim.so"]
    made = shutil.which("gcc") and subprocess.run(compile, input=SHIM.encode(), check=False).returncode == 0
    if not strace:
        print("failing: strace is not there, so no call of the system was made to fail")
    if not made:
        print("failing: gcc is not there, or made no library, so no allocation was made to fail")
    texts = {}
    for words, status in ((words, status) for status in ROWS for words in ROWS[status]):
        base = call(words)
        judge(words, base[0] == status and bool(base[1]) == (status < 2) and base[2].count(b"\n") == 1, base)
        if words in SMALL:
            judge(f"{words}: the same from each syntax", texts.setdefault(words.split()[2], base) == base, base)
        if strace:
            fail_calls(words, base)
        if words in LARGE:
            fail_space(words, base)
            continue
        fail_streams(words, base)
        if made:
            fail_allocations(words, base)
    folder = {name: open(name, encoding="ascii").read() for name in os.listdir(".")}
    judge("the folder is the same", folder == DOCUMENTS, (None, b"", b""))
    for (kind, how), count in sorted(told.items()):
        print(f"{kind}: {count} {how}")


program = os.path.abspath(sys.argv[1]) if len(sys.argv) > 1 else os.path.join(TOP, "bin", "owl")
if not os.access(program, os.X_OK):
    print(f"failing: there is no program {program}\n0 passed, 1 failed")
    sys.exit(1)
ENV = {"PATH": os.environ.get("PATH", "/usr/bin:/bin"), "LC_ALL": "C"}
room = tempfile.mkdtemp()
try:
    os.mkdir(f"{room}/work")
    shutil.copy(program, f"{room}/owl")
    os.chdir(f"{room}/work")
    for name, text in DOCUMENTS.items():
        with open(name, "w", encoding="ascii") as file:
            file.write(text)
    if os.geteuid() == 0:
        for name in ("..", ".", "../owl", *DOCUMENTS):
            os.chown(name, NOBODY, NOBODY)
        os.setgroups([])
        os.setgid(NOBODY)
        os.setuid(NOBODY)
    signal.signal(signal.SIGALRM, late)
    run()
finally:
    os.chdir("/")
    shutil.rmtree(room)
print(f"{passed} passed, {failed} failed")
sys.exit(failed > 0)
