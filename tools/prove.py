#!/usr/bin/env python3
"""Proves a program and the crates below it side by side, and says on standard error which one begins and how many are left.

    tools/prove.py PROGRAM

`rt` proves one crate of a copy of the repository at a time, since it locks all that the crate stands on. So each processor gets a
copy of its own (a lane). A crate is begun, in a free lane, as soon as all that it stands on are proved. Those with the most work
behind them come first: the first of all gets the jobs for which processors are free, at least two, and the others one each and a
lower priority, so that they do not hold up what the program waits for. `rt` takes the libraries below a crate from the lanes that proved them, as it does
among all checkouts of a machine; so does `rt run`, which ends it in the program's own folder.
"""
import concurrent.futures
import os
import shutil
import subprocess
import sys
import tempfile

PARTS = ("src", "specs", "proofs")
# How many jobs the crate with the most work behind it gets at least.
FIRST = 2
LEAST_PRIORITY = 19


def read_crates(top):
    """Returns what each crate stands on, as crates.txt has it, without the libraries of the kit."""
    said = {}
    with open(f"{top}/crates.txt", encoding="utf-8") as lines:
        for line in lines:
            head, colon, deps = line.split("#")[0].partition(":")
            if colon:
                said[head.split()[0]] = deps.split()
    return {name: [it for it in deps if it in said] for name, deps in said.items()}


def below(name, crates):
    """Returns the crates that one stands on, at once or by others."""
    found = set()
    for it in crates[name]:
        found |= {it} | below(it, crates)
    return found


def lines_of(folder):
    """Returns how many lines of code a crate has, on which the time of its check hangs most."""
    count = 0
    for at, _, files in os.walk(f"{folder}/src"):
        for file in files:
            with open(f"{at}/{file}", "rb") as text:
                count += text.read().count(b"\n")
    return count


def chains(crates, lines):
    """Returns for each crate the lines of the longest chain that it begins."""
    above = {name: [it for it in crates if name in crates[it]] for name in crates}
    found = {}

    def chain(name):
        if name not in found:
            found[name] = lines[name] + max([chain(it) for it in above[name]], default=0)
        return found[name]

    for name in crates:
        chain(name)
    return found


def make_lane(top, lane):
    """Copies what a check reads."""
    os.makedirs(lane)
    for file in ("crates.txt", "HANDLES"):
        shutil.copy(f"{top}/{file}", lane)
    for name in os.listdir(f"{top}/crates"):
        for part in PARTS:
            if os.path.isdir(f"{top}/crates/{name}/{part}"):
                shutil.copytree(f"{top}/crates/{name}/{part}", f"{lane}/crates/{name}/{part}")


def call(folder, niceness, *words):
    """Calls rt in a crate's folder at a priority, and returns what it said where it failed."""
    done = subprocess.run(
        ["nice", "-n", str(niceness), "rt", *words],
        cwd=folder,
        stdin=subprocess.DEVNULL,
        stdout=subprocess.PIPE,
        stderr=subprocess.STDOUT,
        text=True,
        errors="replace",
    )
    return done.stdout if done.returncode else None


def tell(what):
    print(f"transforms: {what}", file=sys.stderr, flush=True)


def prove_all(crates, weights, lanes):
    """Proves the crates, each after those that it stands on, and returns what was said of one that failed."""
    waiting = sorted(crates, key=lambda it: -weights[it])
    proved, running, free = set(), {}, list(lanes)
    with concurrent.futures.ThreadPoolExecutor(len(lanes)) as pool:
        while waiting or running:
            ready = [it for it in waiting if proved.issuperset(crates[it])]
            beside = len(ready) + len(running) - 1
            most = max(weights[it] for it in ready + [name for name, _ in running.values()])
            for name in ready[: len(free)]:
                waiting.remove(name)
                jobs = max(FIRST, len(lanes) - beside) if weights[name] == most else 1
                lane, niceness = free.pop(), round(LEAST_PRIORITY * (1 - weights[name] / most))
                tell(f"proving {name} ({len(waiting) + 1} left)")
                running[pool.submit(call, f"{lane}/crates/{name}", niceness, "lib", "--jobs", str(jobs))] = name, lane
            done = concurrent.futures.wait(running, return_when=concurrent.futures.FIRST_COMPLETED).done
            for it in done:
                name, lane = running.pop(it)
                if it.result() is not None:
                    return f"{name} is not proved:\n{it.result()}"
                proved.add(name)
                free.append(lane)
    return None


def main():
    top, program = os.path.dirname(os.path.dirname(os.path.abspath(__file__))), sys.argv[1]
    every, folder = read_crates(top), f"{top}/crates/{program}"
    crates = {it: every[it] for it in below(program, every)}
    weights = chains(crates, {it: lines_of(f"{top}/crates/{it}") for it in crates})
    os.makedirs(f"{folder}/out", exist_ok=True)
    with tempfile.TemporaryDirectory(prefix="lanes-", dir=f"{folder}/out") as room:
        lanes = [f"{room}/{number}" for number in range(len(os.sched_getaffinity(0)))]
        for lane in lanes:
            make_lane(top, lane)
        failed = prove_all(crates, weights, lanes)
        if not failed:
            tell(f"proving and building the program {program}")
            # (with no words it only says that there are none)
            said = call(folder, 0, "run")
            failed = None if os.path.isfile(f"{folder}/out/{program}") else said
    if failed:
        print(failed, file=sys.stderr)
    return 1 if failed else 0


if __name__ == "__main__":
    sys.exit(main())
