#!/usr/bin/env python3
"""Runs the gate, and prints the processor seconds of each crate as a table.

    tools/gate_cost.py [NAME ..]

It runs `rt ci NAME ..` and looks twice a second at the prover's processes, each with all that it began: one in a crate's own folder
proves the crate or, with `--test`, the crate with its tests; one in another folder tries a must-fail edit, or makes what these begin
with. So the numbers are short by at most half a second for each process. What an earlier run on this machine passed is not proved
again and costs nothing: for the whole cost begin with nothing kept.
"""
import collections
import os
import subprocess
import sys
import time

KINDS = ("proof", "tests", "edits")
TICKS = os.sysconf("SC_CLK_TCK")


def read(path):
    with open(path, "rb") as it:
        return it.read()


class Process:
    """A process as it is seen now: its parent, and the processor seconds of it and of its ended children."""

    def __init__(self, pid):
        numbers = read(f"/proc/{pid}/stat").rpartition(b")")[2].split()
        self.pid, self.parent = pid, int(numbers[1])
        self.seconds = sum(map(int, numbers[11:15])) / TICKS


def processes():
    found = {}
    for name in filter(str.isdigit, os.listdir("/proc")):
        try:
            found[int(name)] = Process(int(name))
        except (OSError, ValueError, IndexError):
            # (it has ended)
            pass
    return found


def work_of(pid):
    """Returns which crate and kind of work a process of the prover serves, or None."""
    try:
        words = read(f"/proc/{pid}/cmdline").decode(errors="replace").split("\0")
        if not words[0].endswith("/rattle") or "--crate-name" not in words:
            return None
        crate, folder = words[words.index("--crate-name") + 1], os.readlink(f"/proc/{pid}/cwd")
    except (OSError, IndexError):
        return None
    if "rt-edit-" in folder:
        return crate, "edits"
    return crate, "tests" if "--test" in words else "proof"


def look(top):
    """Returns the processor seconds of each work of the prover below a process, by the process that does it."""
    found, seconds = processes(), collections.Counter()
    works = {pid: work_of(pid) for pid in found}
    for pid, it in found.items():
        first, at = None, pid
        while at in found and at != top:
            first, at = (at if works[at] else first), found[at].parent
        if at == top and first:
            seconds[first, works[first]] += it.seconds
    return seconds


def watch(process):
    """Returns the processor seconds of each crate and kind until the process ends."""
    most = {}
    while process.poll() is None:
        for key, seconds in look(process.pid).items():
            most[key] = max(seconds, most.get(key, 0))
        time.sleep(0.5)
    costs = collections.Counter()
    for (_, work), seconds in most.items():
        costs[work] += seconds
    return costs


def table(costs):
    """Returns the lines of the table, the dearest crate first."""
    crates = {crate for crate, _ in costs}
    whole = {it: sum(costs[it, kind] for kind in KINDS) for it in crates}
    row = lambda name, numbers: f"| {name} | " + " | ".join(f"{it:.0f}" for it in numbers) + " |"
    lines = ["| crate | proof | tests | edits | together |", "|---|---|---|---|---|"]
    for it in sorted(crates, key=lambda it: -whole[it]):
        lines.append(row(it, [*(costs[it, kind] for kind in KINDS), whole[it]]))
    sums = [sum(costs[it, kind] for it in crates) for kind in KINDS]
    return [*lines, row("all", [*sums, sum(sums)])]


def main():
    top = os.path.dirname(os.path.dirname(os.path.abspath(__file__)))
    process = subprocess.Popen(["rt", "ci", *sys.argv[1:]], cwd=top, stdin=subprocess.DEVNULL)
    began = time.time()
    costs = watch(process)
    print(f"\n{time.time() - began:.0f} seconds on {len(os.sched_getaffinity(0))} processors\n")
    print("\n".join(table(costs)))
    return process.returncode


if __name__ == "__main__":
    sys.exit(main())
