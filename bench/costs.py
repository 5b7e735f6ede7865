#!/usr/bin/env python3
"""Tells what the proofs of each crate cost, as bench/COSTS.md has it: costs.py COMMAND.., such as costs.py rt ci --anew.

The command runs, and its lines are passed on. Behind them stands a table of the processor minutes that its calls of the
prover took: for a crate itself, for its tests, and for its edits, which the gate tries in folders of their own. A crate
that is kept from an earlier run takes none, so a whole table wants a run from nothing.

Processes are looked at some times a second, and what a process does between the last look and its end is not counted.
The last line has all that the command took, by the clock and by the system's own count, to compare the table with.
"""

import os
import resource
import subprocess
import sys
import threading
import time

TOP = os.path.dirname(os.path.dirname(os.path.abspath(__file__)))
TICKS = os.sysconf("SC_CLK_TCK")
KINDS = ("proof", "tests", "edits")
LOOKS = 0.2  # seconds from one look to the next


def read(path):
    with open(path, "rb") as file:
        return file.read()


class Processes:
    """What the processes below one of them have taken, by crate and kind."""

    def __init__(self, root):
        self.root = root
        self.known = {}  # what a process is for, by its number and its start
        self.ticks = {}  # what it had taken when it was looked at last

    def look(self):
        parents, found = {}, {}
        for pid in filter(str.isdigit, os.listdir("/proc")):
            try:
                # the name in front may hold spaces and brackets
                fields = read(f"/proc/{pid}/stat").rpartition(b")")[2].split()
            except OSError:
                continue
            parents[int(pid)] = int(fields[1])
            found[int(pid)] = (int(fields[19]), int(fields[11]) + int(fields[12]))
        for pid, (start, ticks) in found.items():
            if (pid, start) not in self.known and self.is_below(pid, parents):
                self.known[pid, start] = self.use_of(pid, parents)
            if self.known.get((pid, start)):
                self.ticks[pid, start] = ticks

    def is_below(self, pid, parents):
        while pid in parents and pid != self.root:
            pid = parents[pid]
        return pid == self.root

    def use_of(self, pid, parents):
        """The crate and the kind of what a process does, or what calls it. None if it is no call of the prover."""
        while pid in parents and pid != self.root:
            try:
                words = read(f"/proc/{pid}/cmdline").decode(errors="replace").split("\0")
                folder = os.readlink(f"/proc/{pid}/cwd")
            except OSError:
                return None
            if "--crate-name" in words[:-1]:
                kind = "edits" if "/rt-edit-" in folder else "tests" if "--test" in words else "proof"
                return words[words.index("--crate-name") + 1], kind
            pid = parents[pid]
        return None

    def sums(self):
        """The minutes of each crate and kind."""
        sums = {}
        for key, ticks in self.ticks.items():
            sums[self.known[key]] = sums.get(self.known[key], 0) + ticks / TICKS / 60
        return sums


def table(sums):
    with open(f"{TOP}/crates.txt", encoding="utf-8") as lines:
        order = [it.split(":")[0].strip() for it in lines if it.strip() and not it.startswith("#")]
    crates = {crate for crate, _ in sums}
    shown = lambda minutes: f"{minutes:.1f}" if minutes else "–"
    yield from ("| Crate | Proof | Tests | Edits |", "|---|---|---|---|")
    for crate in sorted(crates, key=lambda it: order.index(it) if it in order else len(order)):
        yield f"| `{crate}` | {' | '.join(shown(sums.get((crate, kind))) for kind in KINDS)} |"
    all_of = [sum(minutes for (_, it), minutes in sums.items() if it == kind) for kind in KINDS]
    yield f"| all | {' | '.join(map(shown, all_of))} |"


def main():
    if not sys.argv[1:]:
        raise SystemExit(__doc__)
    begun = time.monotonic()
    run = subprocess.Popen(sys.argv[1:], stdout=subprocess.PIPE)
    processes, ended = Processes(run.pid), threading.Event()

    def watch():
        while not ended.wait(LOOKS):
            processes.look()

    watcher = threading.Thread(target=watch)
    watcher.start()
    try:
        for line in run.stdout:
            sys.stdout.buffer.write(line)
            sys.stdout.flush()
        status = run.wait()
    finally:
        ended.set()
        watcher.join()
    usage = resource.getrusage(resource.RUSAGE_CHILDREN)
    minutes = (usage.ru_utime + usage.ru_stime) / 60
    print("", *table(processes.sums()), "", sep="\n")
    print(f"{minutes:.1f} processor minutes in all, {(time.monotonic() - begun) / 60:.1f} minutes by the clock")
    return status


if __name__ == "__main__":
    sys.exit(main())
