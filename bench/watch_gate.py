#!/usr/bin/env python3
"""Runs the gate and measures what it takes: for each crate the processor seconds of its proof, its tests' proof and its wrong bodies.

Usage: bench/watch_gate.py [--write] [--log FILE]      (rt ci in this repository; its output is shown as it comes)
       bench/watch_gate.py [--write] --from FILE ..    (what earlier runs logged: of a check that several have, the last counts)

Once a second it looks which checks of the toolchain run below /proc, and how many processor seconds each has used. What a check is for
stands in its words: a library, its tests, the proof that the wrong bodies of a crate begin with, or one of these. The
last lines are the table of docs/gate.md, and what all took. --write writes the table to the page, between its two marks.
Checks that take less than a second may be missed; what the gate does beside checks, it copies files, is not counted.
"""
import collections
import json
import os
import re
import subprocess
import sys
import tempfile
import threading
import time

import gate

TICKS = os.sysconf("SC_CLK_TCK")


def look(seen):
    """Notes each running check with the processor seconds that it has used, and gives back those that have ended."""
    running = set()
    for process in filter(str.isdigit, os.listdir("/proc")):
        try:
            with open(f"/proc/{process}/cmdline", encoding="utf-8", errors="replace") as it:
                words = it.read().split("\0")
            if not words[0].endswith("/rattle") or len(words) < 2 or words[1] not in ("check", "build"):
                continue
            with open(f"/proc/{process}/stat", encoding="utf-8") as it:
                stat = it.read().rsplit(")", 1)[1].split()
            key = process, stat[19]
            used = sum(map(int, stat[11:15])) / TICKS
            seen[key] = {"cmd": " ".join(words), "cwd": os.readlink(f"/proc/{process}/cwd"), "cpu": used}
            running.add(key)
        except (OSError, ValueError, IndexError):
            # (it has ended meanwhile)
            continue
    return [seen.pop(key) for key in [*seen] if key not in running]


def watch(log, has_ended):
    """Logs each check as it ends, a line of JSON each, until the gate has ended."""
    seen = {}
    with open(log, "a", encoding="utf-8") as out:
        while True:
            is_last = has_ended.wait(1)
            for check in look(seen):
                out.write(json.dumps(check) + "\n")
                out.flush()
            if is_last:
                return


def kind_of(check):
    """Of which crate a check is, what for, and the folder of the wrong body that it tries, or None."""
    name = re.search(r"--crate-name (\w+)", check["cmd"])
    over = re.search(r"rt-edits-[^/\s]*/(\w+)", check["cmd"])
    if not name:
        return None
    if "--test" in check["cmd"].split():
        return name[1], "tests", None
    if "rt-edit-" not in check["cwd"]:
        return name[1], "link" if "--backend" in check["cmd"] else "proof", None
    if not over:
        return name[1], "anew", check["cwd"]
    return (name[1], "seed", None) if over[1] == "seed" else (name[1], "edits", check["cwd"])


def figures(logs):
    """The rows of the table, and the seconds of each kind of check."""
    last, spent = {}, collections.Counter()
    for log in logs:
        with open(log, encoding="utf-8") as it:
            for check in map(json.loads, it):
                kind = kind_of(check)
                if kind and kind[1] == "seed" and kind in last:
                    # (once all wrong bodies were tried, the crate has to be proved again over what they began with)
                    kind = kind[0], "sound", None
                if kind:
                    spent[kind[1]] += check["cpu"]
                    last[kind] = max(check["cpu"], last.get(kind, 0)) if kind[1] == "proof" else check["cpu"]
    rows = []
    for name in sorted({kind[0] for kind in last}):
        if os.path.isdir(f"crates/{name}"):
            edits = [seconds for kind, seconds in last.items() if kind[0] == name and kind[1] in ("edits", "anew")]
            rows.append((name, last.get((name, "proof", None), 0), last.get((name, "tests", None), 0), edits))
    return rows, spent


def run(log):
    """Runs the gate, watched, and gives back its status."""
    has_ended = threading.Event()
    watcher = threading.Thread(target=watch, args=(log, has_ended))
    watcher.start()
    began = time.time()
    status = subprocess.run(["rt", "ci"], check=False).returncode
    has_ended.set()
    watcher.join()
    print(f"rt ci ended with {status} after {(time.time() - began) / 60:.0f} minutes")
    return status


def main(words):
    os.chdir(gate.ROOT)
    status, logs = 0, words[words.index("--from") + 1:] if "--from" in words else []
    if not logs:
        log = words[words.index("--log") + 1] if "--log" in words else os.path.join(tempfile.mkdtemp(prefix="gate-"), "checks.jsonl")
        status, logs = run(log), [log]
    rows, spent = figures(logs)
    table = gate.table_of(rows)
    told = {
        "proof": "proofs", "tests": "tests", "seed": "what wrong bodies begin with", "edits": "wrong bodies",
        "anew": "those tried from nothing", "sound": "what they began with, once more", "link": "programs",
    }
    parts = ", ".join(f"{what} {spent[kind] / 60:.0f}" for kind, what in told.items() if spent[kind])
    print(f"{table}\nprocessor minutes of checks: {sum(spent.values()) / 60:.0f} ({parts})")
    if "--write" in words and not status:
        gate.write(table)
    return status


if __name__ == "__main__":
    sys.exit(main(sys.argv[1:]))
