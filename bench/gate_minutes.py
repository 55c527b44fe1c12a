#!/usr/bin/env python3
"""Runs the gate, or any command, and prints what it cost by crate: processor seconds of the proof, the tests and the must-fail
edits. Each second it reads from /proc what the processes below the command have used; what a process uses after its last
reading, a second at most, is counted as not seen. A process is identified by its number and its start, since numbers are used again.

    bench/gate_minutes.py [COMMAND..]      rt ci --anew, or this command, for example: bench/gate_minutes.py rt ci chacha_stream
    bench/gate_minutes.py --budget         runs nothing; prints what each crate may cost, and which rules of docs/GATE.md it breaks

What a run passed before is kept on the machine, so only a run of --anew, or one on a new machine, shows the whole cost. The
table comes after what the command prints; the status is the command's. The last column is what the crate may cost, in minutes of a
quiet machine, by docs/GATE.md; `above` marks a crate that took more. With all processors busy the same work takes 1.6 to 2 times as
many processor seconds, so compare such a run with `--busy 1.6` before the command."""
import glob
import os
import re
import subprocess
import sys
import time

TICKS = os.sysconf("SC_CLK_TCK")
KINDS = ("proof", "tests", "edits", "other")
NO_CRATE = "no crate"
TOP = os.path.dirname(os.path.dirname(os.path.abspath(__file__)))

# What a crate may cost, in processor minutes of a quiet machine: proof, tests and edits. The table of docs/GATE.md has the same numbers.
LAWS, LOW, MIDDLE, UPPER, PROGRAM, TESTS = "definitions and laws", "low", "middle, with edits", "upper, without edits", "program", "tests"
BUDGET = {LAWS: (0.5, 0, 0), LOW: (1.5, 0, 2.3), MIDDLE: (1.5, 0, 2.7), UPPER: (2.5, 0, 0), PROGRAM: (1.2, 0, 0), TESTS: (0.1, 2.9, 0)}
# up to this level a crate is low
LOW_LEVEL = 3
# how many functions a crate has at most: up to LOW_LEVEL, above it with edits, and above it without
MOST_LOW, MOST_MIDDLE, MOST_UPPER = 60, 35, 50
# how many edits a crate has, if it has any; a crate with more for a reason that docs/GATE.md gives
EDITS = range(3, 6)
MANY_EDITS = {"sse_journal": 8}


def parents():
    """By process, its parent, the processor seconds that it has used, and its start."""
    found = {}
    for pid in filter(str.isdigit, os.listdir("/proc")):
        try:
            with open(f"/proc/{pid}/stat", encoding="utf-8", errors="replace") as file:
                fields = file.read().rpartition(")")[2].split()
        except OSError:
            continue
        found[int(pid)] = int(fields[1]), (int(fields[11]) + int(fields[12])) / TICKS, fields[19]
    return found


def asked(pid):
    """The crate that a process works at and the kind of its work, by its words and its folder; nothing where they don't say."""
    try:
        with open(f"/proc/{pid}/cmdline", encoding="utf-8", errors="replace") as file:
            words = file.read().split("\0")
        folder = os.readlink(f"/proc/{pid}/cwd")
    except OSError:
        return None
    if "--crate-name" not in words[:-1]:
        return None
    crate = words[words.index("--crate-name") + 1]
    if "/rt-edit" in folder:
        return crate, "edits"
    return crate, "tests" if "--test" in words else "proof"


class Spent:
    """What was seen: by process its last reading, and whose work it did."""

    def __init__(self, top):
        self.top, self.seconds, self.work = top, {}, {}

    def read(self):
        found = parents()
        below = {self.top}
        grown = True
        while grown:
            more = {pid for pid, (parent, _, _) in found.items() if parent in below} - below
            below |= more
            grown = bool(more)
        for pid in below - {self.top}:
            _, seconds, start = found[pid]
            self.seconds[pid, start] = seconds
            self.work[pid, start] = asked(pid) or self.work.get((pid, start)) or self.inherited(pid, found)

    def inherited(self, pid, found):
        """The work of the nearest process above that says its own: a kernel's is the prover's that started it."""
        while pid in found and pid != self.top:
            pid = found[pid][0]
            work = self.work.get((pid, found[pid][2])) if pid in found else None
            if work:
                return work
        return None

    def by_crate(self):
        table = {}
        for process, seconds in self.seconds.items():
            crate, kind = self.work[process] or (NO_CRATE, "other")
            row = table.setdefault(crate, dict.fromkeys(KINDS, 0.0))
            row[kind] += seconds
        return table


class Crate:
    """What the tree says of a crate, and so what it may cost."""

    def __init__(self, name, level, is_used):
        text = "".join(read(path) for path in glob.glob(f"{TOP}/crates/{name}/src/**/*.rt", recursive=True))
        self.name, self.level = name, level
        self.functions = len(re.findall(r"^\s*(?:pub(?:\(\w+\))? )?(?:const )?fn \w+", text, re.M))
        self.tests = text.count("#[test]")
        self.edits = len(glob.glob(f"{TOP}/crates/{name}/must-fail/*.edit"))
        self.kind = self.kind_of(os.path.exists(f"{TOP}/crates/{name}/src/main.rt"), is_used)
        proof, tests, edits = BUDGET[self.kind]
        self.minutes = proof + tests + (edits if self.edits else 0)

    def kind_of(self, is_program, is_used):
        if is_program:
            return PROGRAM
        if not self.functions:
            return LAWS
        if self.tests and not is_used:
            return TESTS
        if self.level <= LOW_LEVEL:
            return LOW
        return MIDDLE if self.edits else UPPER

    def broken_rules(self):
        """The rules of docs/GATE.md that numbers show as broken, in words."""
        found = []
        if self.edits and self.kind in (LAWS, PROGRAM, TESTS):
            found.append("has edits")
        elif self.edits and self.edits not in EDITS and MANY_EDITS.get(self.name) != self.edits:
            found.append(f"{self.edits} edits")
        most = MOST_LOW if self.level <= LOW_LEVEL else MOST_MIDDLE if self.edits else MOST_UPPER
        if self.kind in (LOW, MIDDLE, UPPER) and self.functions > most:
            found.append(f"more than {most} functions")
        if self.tests and self.kind != TESTS:
            found.append("has tests beside functions")
        return found


def read(path):
    with open(path, encoding="utf-8") as file:
        return file.read()


def crates():
    """By name, the crates of crates.txt, the lowest first."""
    lines = [line.partition("#")[0] for line in read(f"{TOP}/crates.txt").split("\n")]
    below = {line.partition(":")[0].strip(): line.partition(":")[2].split() for line in lines if ":" in line}
    used, levels = {name for names in below.values() for name in names}, {}
    for name, names in below.items():
        levels[name] = 1 + max((levels.get(one, 0) for one in names), default=0)
    return {name: Crate(name, levels[name], name in used) for name in below}


def print_budget():
    found = crates()
    print("| Crate | Kind | Level | Functions | Edits | May cost, minutes | Rules it breaks |\n|---|---|---|---|---|---|---|")
    for crate in sorted(found.values(), key=lambda one: (one.level, one.name)):
        print(
            f"| {crate.name} | {crate.kind} | {crate.level} | {crate.functions} | {crate.edits or ''} | {crate.minutes:.1f}"
            f" | {', '.join(crate.broken_rules())} |"
        )
    minutes, edited = sum(crate.minutes for crate in found.values()), sum(bool(crate.edits) for crate in found.values())
    print(f"\n{len(found)} crates, {edited} of them with edits; all may cost {minutes:.0f} minutes.")
    return 0


def main():
    command, busy, known = sys.argv[1:], 1.0, crates()
    if command == ["--budget"]:
        return print_budget()
    if command[:1] == ["--busy"] and len(command) > 1:
        busy, command = float(command[1]), command[2:]
    command = command or ["rt", "ci", "--anew"]
    before, start = os.times(), time.time()
    ran = subprocess.Popen(command)
    spent = Spent(ran.pid)
    while ran.poll() is None:
        spent.read()
        time.sleep(1)
    after = os.times()
    used = after.children_user + after.children_system - before.children_user - before.children_system
    table = spent.by_crate()
    seen = sum(sum(row.values()) for row in table.values())
    print(f"\n| Crate | {' | '.join(kind.capitalize() for kind in KINDS)} | Minutes | May cost |\n|---{'|---' * len(KINDS)}|---|---|")
    for crate, row in sorted(table.items(), key=lambda one: -sum(one[1].values())):
        minutes = sum(row.values()) / 60
        may = f"{known[crate].minutes * busy:.1f}" if crate in known else ""
        mark = " above" if may and minutes > known[crate].minutes * busy else ""
        print(f"| {crate} | {' | '.join(f'{row[kind]:.0f}' for kind in KINDS)} | {minutes:.1f} | {may}{mark} |")
    print(
        f"\nProcessor seconds; {used / 60:.1f} minutes in all, {max(used - seen, 0) / 60:.1f} of them not seen;"
        f" {(time.time() - start) / 60:.1f} minutes by the clock."
    )
    return ran.returncode


sys.exit(main())
