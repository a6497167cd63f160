#!/usr/bin/env python3
"""Runs the gate, and tells what each crate took and what is over the budget of CONTRIBUTING.

    python3 tools/gate.py              rt ci
    python3 tools/gate.py --anew       rt ci --anew, which proves all, also what an earlier run kept
    python3 tools/gate.py NAME..       rt ci NAME..

The output of the gate is written as it comes. Behind it stands a line for each crate: the seconds of a processor of its
first proof, of its edits, and of tests, programs and all else, and its functions. They are read off the processes of the
gate twice a second, so a crate's seconds are good to one for each process. What a run takes over from an earlier one is
not counted, nor compared with the budget.

tools/budget.txt has the budget, and the crates that are over it today with what they take. The status is that of the
gate, or 1 where it is 0 and something is over the budget."""
import os
import re
import subprocess
import sys
import threading
import time

TOP = os.path.dirname(os.path.dirname(os.path.abspath(__file__)))
TICKS = os.sysconf("SC_CLK_TCK")
PROOF, EDITS, OTHER = "proof", "edits", "other"


def read(path):
    with open(f"{TOP}/{path}", encoding="utf-8") as file:
        return file.read()


def budget():
    """The limits by name, and what is let through of a crate: its seconds and its functions."""
    limits, let_through = {}, {}
    for line in read("tools/budget.txt").splitlines():
        words = line.split("#")[0].split()
        if len(words) == 2:
            limits[words[0]] = int(words[1])
        elif words:
            let_through[words[0]] = (int(words[1]), int(words[2]))
    return limits, let_through


def processes():
    """The parent, the seconds and the words of each process."""
    found = {}
    for pid in filter(str.isdigit, os.listdir("/proc")):
        try:
            with open(f"/proc/{pid}/stat", encoding="utf-8", errors="replace") as file:
                fields = file.read().rsplit(")", 1)[1].split()
            with open(f"/proc/{pid}/cmdline", "rb") as file:
                words = file.read().decode(errors="replace").split("\0")
        except OSError:
            continue
        found[int(pid)] = (int(fields[1]), (int(fields[11]) + int(fields[12])) / TICKS, words)
    return found


def below(root, found):
    """The processes that a process has started, and those that these have."""
    children = {}
    for pid, (parent, _, _) in found.items():
        children.setdefault(parent, []).append(pid)
    left, behind = [root], []
    while left:
        pid = left.pop()
        behind.append(pid)
        left += children.get(pid, [])
    return behind


def job_of(words, parent):
    """The crate and the sort of work of a process, or those of its parent where its words do not tell."""
    if "--crate-name" not in words:
        return parent
    name = words[words.index("--crate-name") + 1]
    line = " ".join(words).replace(TOP, "")
    if "must-fail" in line or "/edit" in line or "seed" in line:
        return name, EDITS
    return name, PROOF if words[1:2] == ["build"] and "--test" not in words else OTHER


class Meter:
    """What the processes below one took, by crate and sort of work."""

    def __init__(self, root):
        self.root, self.jobs, self.seconds = root, {}, {}

    def look(self):
        found = processes()
        for pid in below(self.root, found):
            parent, seconds, words = found.get(pid, (0, 0, []))
            job = job_of(words, self.jobs.get(parent)) or self.jobs.get(pid)
            self.jobs[pid] = job
            if job is not None:
                self.seconds[pid] = (job, max(seconds, self.seconds.get(pid, (job, 0))[1]))

    def sums(self):
        sums = {}
        for (name, sort), seconds in self.seconds.values():
            sums.setdefault(name, {PROOF: 0, EDITS: 0, OTHER: 0})[sort] += seconds
        return sums


def functions_in(log):
    """The functions of each crate that the gate proved, and the crates that it took over."""
    counts, name = {}, None
    for line in log:
        if head := re.match(r"== (\w+)", line):
            name = head[1]
        elif count := re.search(r"\bfunctions=(\d+)", line):
            counts.setdefault(name, int(count[1]))
    return counts


def crates_with(part):
    return sorted(it for it in os.listdir(f"{TOP}/crates") if os.path.exists(f"{TOP}/crates/{it}/{part}"))


def over_budget(sums, counts):
    limits, let_through = budget()
    said = []
    for name, seconds in sorted(sums.items()):
        most, functions = let_through.get(name, (limits["seconds"], limits["functions"]))
        if seconds[PROOF] > most:
            said.append(f"{name}: its first proof took {seconds[PROOF]:.0f} s of a processor, and has {most}")
        if counts.get(name, 0) > functions:
            said.append(f"{name}: it has {counts[name]} functions, and may have {functions}")
    tests = sum(sum(it.values()) for name, it in sums.items() if name.endswith("_tests"))
    if tests > limits["test_seconds"]:
        said.append(f"the crates of tests took {tests:.0f} s of a processor, and have {limits['test_seconds']}")
    sorts = {
        "tests": [it for it in os.listdir(f"{TOP}/crates") if it.endswith("_tests")],
        "programs": crates_with("src/main.rt"),
        "crates_with_edits": crates_with("must-fail"),
        "edits": [it for name in crates_with("must-fail") for it in os.listdir(f"{TOP}/crates/{name}/must-fail")],
        "crates": os.listdir(f"{TOP}/crates"),
    }
    return said + [f"{sort}: {len(it)}, and at most {limits[sort]}" for sort, it in sorts.items() if len(it) > limits[sort]]


def run(words):
    """Runs the gate, writes on what it writes, and gives its status, its lines and what was measured."""
    gate = subprocess.Popen(["rt", "ci", *words], cwd=TOP, stdout=subprocess.PIPE, stderr=subprocess.STDOUT, text=True)
    meter, log = Meter(gate.pid), []

    def watch():
        while gate.poll() is None:
            meter.look()
            time.sleep(0.5)

    watcher = threading.Thread(target=watch)
    watcher.start()
    for line in gate.stdout:
        print(line, end="", flush=True)
        log.append(line)
    status = gate.wait()
    watcher.join()
    return status, log, meter.sums()


def main(words):
    began = time.monotonic()
    status, log, sums = run(words)
    counts = functions_in(log)
    print(f"\n{'crate':30} {'proof':>7} {'edits':>7} {'other':>7} {'functions':>9}")
    for name, it in sorted(sums.items(), key=lambda it: -sum(it[1].values())):
        print(f"{name:30} {it[PROOF]:7.0f} {it[EDITS]:7.0f} {it[OTHER]:7.0f} {counts.get(name, ''):>9}")
    processor = sum(sum(it.values()) for it in sums.values())
    print(f"{time.monotonic() - began:.0f} s of wall on {len(os.sched_getaffinity(0))} processors, {processor:.0f} s of a processor")
    said = over_budget(sums, counts)
    print("\n".join(said) if said else "nothing is over the budget")
    return status or int(bool(said))


sys.exit(main(sys.argv[1:]))
