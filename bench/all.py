#!/usr/bin/env python3
"""Times each translation, each check and the other commands, beside the OWL API where it is installed.

all.py [--write FILE] [--classes N] [PROGRAM]: prints a table of times and memory, of bin/owl if no program is named,
and of a trial's document of 20,000 classes if N is left out (tools/make_trial.py). With --write it stands
between the two marks of the file then, which are lines, `<!-- each call -->` and `<!-- end of each call -->`.

The program is called five times, of which the quickest counts, or fewer times if they take three seconds. The OWL API
is called once in a JVM of its own (OwlApiBench.java), with all that Java takes to begin. When it is warm is when one
JVM does all of its jobs five times in turn, of which the quickest counts. It is told where it answers a check in
another way than the program, and where what it writes is not the same ontology.
"""

import argparse
import os
import re
import sys
import tempfile

from measuring import best, call, call_api, machine, owl_api, program_at, taken, tell, write_document

SYNTAXES = {"fss": "ofn", "ttl": "ttl", "omn": "omn"}
ROUNDS = 5
MARKED = re.compile(r"(.*^<!-- each call -->\n)(.*)(^<!-- end of each call -->\n.*)", re.S | re.M)


def calls(classes):
    """The words of each call, and the OWL API's job where it has such a one."""
    for source in SYNTAXES.values():
        for target, suffix in SYNTAXES.items():
            yield ["translate", "--to", target, f"m.{source}"], ("write", f"m.{source}", f"api.{suffix}")
    for profile in ("dl", "el", "ql", "rl"):
        yield ["check", "--profile", profile, "m.ofn"], ("check", profile, "m.ofn")
    yield ["show", "m.ofn"], None
    yield ["same", "m.ofn", "m.ttl"], None
    yield ["trial", str(classes)], None


def write_documents(program, classes):
    write_document("m.ofn", classes)
    for target in ("ttl", "omn"):
        best(program, ["translate", "--to", target, "m.ofn"], f"m.{target}", runs=1)


def told():
    """What the OWL API has told of each job: the seconds, and what came of it."""
    with open("told", encoding="utf-8") as lines:
        return [(float(seconds), answer) for seconds, _, answer in (it.rstrip().partition(" ") for it in lines)]


def warm_times(api, jobs):
    """The seconds of each job, where one JVM does all of them in turn."""
    if not call_api(api, jobs, "told", ROUNDS):
        return {}
    seconds = [it for it, _ in told()]
    return {job: min(seconds[at :: len(jobs)]) for at, job in enumerate(jobs)}


def agrees(program, job, status):
    """Whether what the OWL API has just done is what the program does, which ended with this status."""
    if job[0] == "write":
        return call([program, "same", *job[1:]]).status == 0
    return told()[0][1].partition(";")[0] == ("yes", "no")[status]


def cold_call(program, api, job, status):
    """The OWL API's call. None where it fails."""
    once = call_api(api, [job], "told")
    if once and not agrees(program, job, status):
        tell(f"the OWL API does not do the same: {' '.join(job)}")
    return once


def row(cells):
    return f"| {' | '.join(cells)} |"


def table(program, api, classes):
    """The table, and behind it what measured, and what the OWL API's calls took by the clock."""
    begun = taken()
    head = ["Call", "Time", "Memory"] + ["OWL API: time", "memory", "time when warm"] * bool(api)
    yield from (row(head), "|---" * len(head) + "|")
    warm = warm_times(api, [job for _, job in calls(classes) if job]) if api else {}
    others = []
    for words, job in calls(classes):
        one = best(program, words, "output")
        if not one:
            continue
        cells = [f"`{' '.join(words)}`", f"{one.seconds:.2f} s", f"{one.kilobytes / 1000:.0f} MB"]
        other = cold_call(program, api, job, one.status) if api and job else None
        if other:
            others.append(other)
            cells += [f"{other.seconds:.1f} s", f"{other.kilobytes / 1000:.0f} MB", f"{warm[job]:.1f} s" if warm else "–"]
        yield row(cells + ["–"] * (len(head) - len(cells)))
    yield from ("", f"{classes:,} classes; {machine(api, begun)}.")
    if others:
        seconds, clock = sum(it.seconds for it in others), sum(it.clock for it in others)
        yield f"The {len(others)} calls of the OWL API in JVMs of their own took {seconds:.0f} s of the processor, and {clock:.0f} s by the clock."


def measured(program, classes):
    """The table, of which each line is printed as it comes."""
    lines = []
    with tempfile.TemporaryDirectory() as room:
        os.chdir(room)
        write_documents(program, classes)
        for line in table(program, owl_api(), classes):
            print(line, flush=True)
            lines.append(line)
        os.chdir("/")
    return "\n".join(lines) + "\n"


def main():
    options = argparse.ArgumentParser(allow_abbrev=False, usage=__doc__)
    options.add_argument("--write")
    options.add_argument("--classes", type=int, default=20000)
    options.add_argument("program", nargs="?")
    given = options.parse_args()
    program = program_at(given.program)
    if not given.write:
        measured(program, given.classes)
        return
    path = os.path.abspath(given.write)
    with open(path, encoding="utf-8") as file:
        found = MARKED.fullmatch(file.read())
    if not found:
        raise SystemExit(f"{given.write} has not the two marks")
    text = measured(program, given.classes)
    with open(path, "w", encoding="utf-8") as file:
        file.write(found[1] + text + found[3])


if __name__ == "__main__":
    sys.exit(main())
