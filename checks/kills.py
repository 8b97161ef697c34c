#!/usr/bin/env python3
"""The program killed at every step that reaches the disk: checks/kills.py [POINTS]

A run of 18 deliveries over a file is stopped by SIGKILL at each system call that writes, syncs, truncates, renames or
removes, in turn: once before the call and once after it. The calls are met by ptrace. After each kill the file is
opened again, every delivery is sent again, and the replies, both tables and every row are compared with those of a run
that nobody killed. What was answered before the kill must be in the file by then. A store of the older schema, which the
program migrates as it opens it, is stopped in the same way, and so is `renew`.

Where there are more than POINTS points (400 where none is given), an even choice of them is taken. Several runs go side
by side. Nothing but Python's standard library is used; Linux on x86-64 or aarch64.
"""
import json
import os
import shutil
import sqlite3
import sys
from concurrent.futures import ProcessPoolExecutor
from pathlib import Path

from common import MANY, Checks, fault, has, lines, message, run, rows_of, scratch
from tables import OLDER, make_older
from tracing import run_traced, traced

# What is sent, by whether the file is one of the older schema.
SENT = {False: MANY, True: [*OLDER, (24, message(7, "rebalance", seed=7)), (24, message(8, "publish"))]}


def state(file):
    """What is kept: both tables and every row."""
    return run("table", file, "object"), rows_of(file)


def killed(task):
    """Kills one run, and looks at what is left of it: why it is wrong, or nothing, and how many requests were kept."""
    is_older, stop, want, whole = task
    sent = lines(*SENT[is_older])
    with scratch() as room:
        file, answers = f"{room}/rings.db", f"{room}/answers"
        if is_older:
            make_older(file)
        traced(["run", "--file", file], answers, SENT[is_older], stop)
        told = Path(answers).read_bytes()
        if not want.startswith(told):
            return f"it was answered {told!r}", 0
        kept = count_kept(file, room)
        answered = len(numbers_of(SENT[is_older][:told.count(b"\n")]))
        if kept < answered:
            return f"{answered} requests were answered and {kept} kept", kept
        again = run("run", "--file", file, given=sent)
        if again != (0, want, b""):
            return f"sent again, it was answered {again}", kept
        if state(file) != whole:
            return "the tables or the rows differ", kept
        return None, kept


def numbers_of(deliveries):
    """The numbers that are decided of these deliveries."""
    return {json.loads(text)["number"] for _, text in deliveries}


def count_kept(file, room):
    """How many requests sqlite3 finds in what a kill left."""
    if not os.path.exists(file):
        return 0
    os.mkdir(f"{room}/left")
    for end in ("", "-wal"):
        if os.path.exists(f"{file}{end}"):
            shutil.copyfile(f"{file}{end}", f"{room}/left/rings.db{end}")
    # opening makes the tables where the kill came before they were there
    run("table", f"{room}/left/rings.db", "object")
    return len(rows_of(f"{room}/left/rings.db").get("request", []))


def chosen_of(calls, most):
    """The points at which a run is killed: before and after each call, or before and after an even choice of the calls."""
    counts = {name: calls.count(name) for name in sorted(set(calls))}
    print(f"        {len(calls)} calls: " + ", ".join(f"{count} {name}" for name, count in counts.items()))
    places = min(len(calls), most // 2)
    return [(at * len(calls) // places, is_before) for at in range(places) for is_before in (True, False)]


def killed_at_each(checks, calls, chosen, look, tasks):
    """Kills a run at each of the points, several side by side, and shows what became of them."""
    wrong, found = 0, set()
    with ProcessPoolExecutor(max(2, os.cpu_count() or 1)) as workers:
        for point, (why, seen) in zip(chosen, workers.map(look, tasks)):
            found.add(seen)
            if why:
                wrong += 1
                when = "before" if point[1] else "after"
                checks.show(f"killed {when} call {point[0]}, {calls[point[0]]}", False, why)
    even = "" if len(chosen) == 2 * len(calls) else f", an even choice of {2 * len(calls)}"
    checks.show(f"{len(chosen)} kills{even}, before and after each call: {wrong} went wrong", not wrong)
    return found


def kills(checks, is_older, most):
    """SIGKILL at each call of a run that reaches the disk."""
    sent = SENT[is_older]
    with scratch() as room:
        file, answers = f"{room}/rings.db", f"{room}/answers"
        if is_older:
            make_older(file)
            make_older(f"{room}/plain.db")
        calls = traced(["run", "--file", file], answers, sent)
        want, whole = Path(answers).read_bytes(), state(file)
        plain = run("run", "--file", f"{room}/plain.db", given=lines(*sent))
    if not checks.show("a run that is traced ends well", calls is not None and want.count(b"\n") == len(sent), want):
        return
    checks.same("and answers as one that is not", plain, (0, want, b""))
    moved = [line for line in want.splitlines() if b'"changed":' in line and b'"changed":0' not in line]
    checks.show(f"{len(sent)} deliveries, {len(moved)} rebalances that move seats", len(moved) >= 2, want)
    chosen = chosen_of(calls, most)
    kept = killed_at_each(checks, calls, chosen, killed, [(is_older, point, want, whole) for point in chosen])
    print(f"        what was kept at a kill: {min(kept)} to {max(kept)} requests")


def new_file(checks):
    """A run over a new file."""
    kills(checks, False, MOST)


def older_file(checks):
    """A run over a file of the older schema, which is migrated."""
    kills(checks, True, MOST // 2)


def left_of(new):
    """The rows of a new file, none where there is no file or it has no whole first page yet, which is no database."""
    try:
        return rows_of(new) if os.path.exists(new) else {}
    except sqlite3.DatabaseError:
        return {}


def killed_renewal(task):
    """Kills one `renew`, and looks at what is left of both files: why it is wrong, or nothing, and what NEW is."""
    stop, before, after = task
    with scratch() as room:
        file, new = f"{room}/rings.db", f"{room}/new.db"
        run("run", "--file", file, given=lines(*MANY))
        traced(["renew", file, new], f"{room}/answers", [], stop)
        if rows_of(file) != before:
            return "the old file has other rows", "?"
        left = left_of(new)
        if left and left != after:
            return f"the new file is a store, and has not all of it: {left}", "part"
        shown = run("table", new, "object")
        if shown != (run("table", file, "object") if left else fault("NoRing", 1)):
            return f"the new file is opened as neither all nor nothing: {shown}", "part"
        for end in ("", "-wal"):
            if os.path.exists(f"{new}{end}"):
                os.remove(f"{new}{end}")
        if run("renew", file, new) != (0, b"", b"") or rows_of(new) != after:
            return "begun again, it does not make the same", "?"
        return None, "whole" if left else "nothing"


def renewal(checks):
    """A file that is renewed: the new one is whole or nothing, and the old one as it was."""
    if not has("renew"):
        return checks.skip("renew", "the program has none")
    with scratch() as room:
        file, new = f"{room}/rings.db", f"{room}/new.db"
        run("run", "--file", file, given=lines(*MANY))
        before = rows_of(file)
        calls = traced(["renew", file, new], f"{room}/answers", [])
        after = rows_of(new)
    if not checks.show("a renewal that is traced ends well", calls is not None and after.get("ring") == before["ring"], after):
        return
    chosen = chosen_of(calls, MOST // 4)
    found = killed_at_each(checks, calls, chosen, killed_renewal, [(point, before, after) for point in chosen])
    print(f"        what the new file was at a kill: {', '.join(sorted(found))}")


MOST = int(sys.argv[1]) if len(sys.argv) > 1 else 400


def main():
    return run_traced(Checks("kills.py", 900), new_file, older_file, renewal)


if __name__ == "__main__":
    sys.exit(main())
