#!/usr/bin/env python3
"""Measures what the gate costs: for each crate the processor seconds of its proof, its tests' proof and its wrong bodies.

Usage: bench/gate.py [--edits | --write] [CRATE ..]      (all crates where none is named)

--edits tries and times the wrong bodies of must-fail alone, each by itself. bench/wrong_bodies.py tries the others.

The crates have to be checked before (`rt all check`): a wrong body is then tried over a copy of what that check kept, as `rt ci`
tries it over its own. A proof from nothing is timed in a copy. One line a crate, and one for each wrong body that takes over 20
seconds; the last lines are the table of docs/gate.md. --write writes that table to the page, between its two marks, and takes
all crates.
"""
import importlib.machinery
import importlib.util
import os
import resource
import shutil
import statistics
import subprocess
import sys
import tempfile
import time

from program import machine

ROOT = os.path.dirname(os.path.dirname(os.path.abspath(__file__)))
PAGE = os.path.join(ROOT, "docs", "gate.md")
MARKS = "<!-- measured -->", "<!-- end -->"
DEAR = 20


def tool():
    """The toolchain's own script, as a module: its functions try a wrong body as the gate does."""
    path = os.path.realpath(shutil.which("rt"))
    sys.path.insert(0, os.path.dirname(path))
    loader = importlib.machinery.SourceFileLoader("rt_tool", path)
    spec = importlib.util.spec_from_loader("rt_tool", loader)
    module = importlib.util.module_from_spec(spec)
    loader.exec_module(module)
    return module


def timed(act):
    """What `act` answers, the processor seconds of its children, and the seconds that passed."""
    used, began = resource.getrusage(resource.RUSAGE_CHILDREN), time.time()
    answer = act()
    now = resource.getrusage(resource.RUSAGE_CHILDREN)
    return answer, now.ru_utime + now.ru_stime - used.ru_utime - used.ru_stime, time.time() - began


def proof(crate, room, *flags):
    """The processor seconds of a check from nothing in the copy `room` of the repository."""
    folder = f"{room}/crates/{crate.name}"
    shutil.rmtree(f"{folder}/out/incremental", ignore_errors=True)
    command = ["rt", "check", *flags, "--jobs", "1"]
    quiet = {"stdout": subprocess.DEVNULL, "stderr": subprocess.DEVNULL}
    ran, used, _ = timed(lambda: subprocess.run(command, cwd=folder, **quiet))
    return used if ran.returncode == 0 else None


def edits(rt, crate, good):
    """For each wrong body its name, whether it is refused, and the processor seconds."""
    rows = []
    for edit in good:
        with tempfile.TemporaryDirectory(prefix="gate-") as room:
            rt.linked(f"{crate.folder}/out/incremental", f"{room}/kept")
            (kind, text), used, _ = timed(lambda: rt.must_fail(crate, edit, ["--jobs", "1"], f"{room}/kept"))
        name, refused = os.path.basename(edit)[: -len(".edit")], kind in (rt.REFUSED, rt.AT_LIMIT)
        rows.append((name, refused, used))
        by_names = "only because a proof file names" in text
        said = f", NOT REFUSED: {text}" if not refused else ", refused by names alone" if by_names else ""
        if said or used > DEAR:
            print(f"  {crate.name}/{name}: {used:.0f} s{said}", flush=True)
    return rows


def table_of(rows):
    """The table, the dearest crates first, with what it was measured on."""
    lines = [f"{machine()}.", "",
             "| crate | proof | tests | wrong bodies | median | dearest |", "|---|---|---|---|---|---|"]
    for name, proved, tested, spent in sorted(rows, key=lambda row: -(row[1] + row[2])):
        told = [f"{it:.0f}" if it else "" for it in (proved, tested)]
        edited = [str(len(spent)), f"{statistics.median(spent):.0f}", f"{max(spent):.0f}"] if spent else ["", "", ""]
        lines.append(f"| {' | '.join([f'`{name}`', *told, *edited])} |")
    return "\n".join(lines)


def write(table):
    """Puts the table between the marks of the page."""
    with open(PAGE, encoding="utf-8") as page:
        text = page.read()
    before, _, rest = text.partition(MARKS[0])
    _, mark, after = rest.partition(MARKS[1])
    if not mark:
        sys.exit(f"{PAGE} has not both marks")
    with open(PAGE, "w", encoding="utf-8") as page:
        page.write(f"{before}{MARKS[0]}\n{table}\n{mark}{after}")


def main(words):
    only_edits, writes = "--edits" in words, "--write" in words
    names = [it for it in words if not it.startswith("--")]
    if writes and (names or only_edits):
        sys.exit("bench/gate.py: --write takes all crates, with their proofs")
    rt = tool()
    os.chdir(ROOT)
    table, failed, passed = [], [], []
    for crate in rt.rtlib.crates_below(ROOT):
        if names and crate.name not in names:
            continue
        proved = tested = 0
        if not only_edits:
            with tempfile.TemporaryDirectory(prefix="gate-") as room:
                shutil.copytree(ROOT, room, dirs_exist_ok=True, symlinks=True)
                proved = proof(crate, room)
                tested = proof(crate, room, "--test") if crate.has_tests() else 0
        rows = edits(rt, crate, rt.edits_of(crate)[0])
        failed += [crate.name] if None in (proved, tested) else []
        table.append((crate.name, proved or 0, tested or 0, [it[2] for it in rows]))
        print(table_of(table[-1:]).splitlines()[-1], flush=True)
        left = [it[0] for it in rows if not it[1]]
        passed += left
        if left:
            print(f"  not refused: {' '.join(left)}", flush=True)
    print("\n" + table_of(table))
    if passed:
        sys.exit(f"not refused: {len(passed)}")
    if failed:
        sys.exit(f"not proved: {' '.join(failed)}")
    if writes:
        write(table_of(table))


if __name__ == "__main__":
    main(sys.argv[1:])
