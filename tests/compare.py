"""Runs the program on a script and compares its lines and its status with those of the model; and the program tool_leak_bytes on many."""
import os
import subprocess

import script_model

TOP = os.path.dirname(os.path.dirname(os.path.abspath(__file__)))
PROGRAM = os.path.join(TOP, "crates", "sse_local", "out", "sse_local")
BYTES = os.path.join(TOP, "crates", "tool_leak_bytes", "out", "tool_leak_bytes")
PARTING, SIDES = "----\n", "====\n"
# tool_leak_bytes takes a second or two for all
SECONDS = 120


def difference(program, script):
    """How the run of a script differs from the model, in words, or None; and the model's lines."""
    wanted, status = script_model.answer(script)
    ended = subprocess.run([program, "run"], input=script, stdout=subprocess.PIPE, check=False)
    return in_words(ended.stdout, ended.returncode, wanted, status), wanted.decode().splitlines()


def in_words(printed, ended, wanted, status):
    """The first line that differs, else the status that does, else None."""
    got, due = printed.split(b"\n"), wanted.split(b"\n")
    for number, (one, other) in enumerate(zip(got, due), 1):
        if one != other:
            return f"printed line {number} is {shortened(one)}, wanted {shortened(other)}"
    if len(got) != len(due):
        return f"{len(got) - 1} lines are printed, wanted {len(due) - 1}"
    return f"status {ended}, wanted {status}" if ended != status else None


def shortened(line):
    text = line.decode(errors="replace")
    return repr(text if len(text) <= 100 else text[:60] + ".." + text[-30:])


def told_by_bytes(scripts):
    """The lines that tool_leak_bytes prints of each of these scripts."""
    given = b"".join(script + b"\n" * (script[-1:] != b"\n" and len(script) > 0) + PARTING.encode() for script in scripts)
    ran = subprocess.run([BYTES], input=given, stdout=subprocess.PIPE, check=True, timeout=SECONDS)
    told = [part.splitlines() for part in ran.stdout.decode().split(PARTING)]
    if len(told) != len(scripts) + 1 or told[-1]:
        raise ValueError(f"tool_leak_bytes tells of {len(told) - 1} scripts, wanted {len(scripts)}")
    return told[:-1]


def rows(path):
    """Each row of a table of scripts with what is told of them: the script, what is printed for a person, and the lines of tool_leak_bytes."""
    with open(path, encoding="utf-8") as file:
        for row in file.read().split(PARTING)[1:]:
            script, printed, lines = row.split(SIDES)
            yield script.encode(), printed.splitlines(), lines.splitlines()


def first_difference(made, wanted):
    """The first line that differs, in words, or None."""
    for number, (one, other) in enumerate(zip(made, wanted), 1):
        if one != other:
            return f"line {number} is {shortened(one.encode())}, wanted {shortened(other.encode())}"
    return None if len(made) == len(wanted) else f"{len(made)} lines, wanted {len(wanted)}"
