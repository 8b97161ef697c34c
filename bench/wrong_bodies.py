#!/usr/bin/env python3
"""Tries wrong bodies together: each has to be refused for a goal of the very function that it turns.

Usage: bench/wrong_bodies.py [--gate] [--minutes N] [CRATE ..]     (all crates where none is named)
       bench/wrong_bodies.py --apply

It tries those of must-fail-together, which `rt ci` leaves out, and with --gate those of must-fail as well. Those of a crate that
turn different functions are put into one copy of its text, and that is checked once, over what `rt check` kept, or else over a
check from nothing. A function is proved over the contracts of those that it calls, so a wrong body beside it changes none of its
goals. So one is refused where the check finds an error in the function that it turns, in its text or at an answer to one of its
goals, other than that a name is gone. One that is not told so, or that turns more than bodies, is tried alone, as `rt ci` does.

The libraries below a crate have to be built (by `rt ci` or `rt all check`). One line a crate, and one for each wrong body that is
still proved, that can't be applied, that is refused for a name alone, or of which nothing came to be known. The first two fail the
run. With --minutes no crate is begun after so many minutes, and those that are left are named. --apply looks whether each of
must-fail-together fits its text, which takes a second.
"""
import glob
import os
import re
import shutil
import sys
import tempfile
import time
import zlib

from gate import ROOT, tool

HEAD = re.compile(r"(?m)^[ \t]*(?:pub(?:\([a-z]+\))? )?(?:const )?fn (\w+)")
ERROR = re.compile(r"(?:\./)?((?:src|proofs)/\S+?):(\d+):\d+: error: (.*)")
# What is said of a proof that names what is gone, or that rests on another one that was refused.
OF_NAMES = re.compile(r"has no field|is not in scope|has no `|was not admitted")
MOST_AT_ONCE = 12
# A crate of more lines is begun before all others.
LARGE = 2000
FLAGS = ["--jobs", "1"]


def together(crate):
    """The wrong bodies that `rt ci` leaves out."""
    return sorted(glob.glob(f"{crate.folder}/must-fail-together/*.edit"))


def apply(rt):
    """Fails where a wrong body no longer fits its text."""
    tried = [(it, crate.folder) for crate in rt.rtlib.crates_below(ROOT) for it in together(crate)]
    bad = [f"{os.path.relpath(it, ROOT)}: {why}" for it, folder in tried for _, why in [rt.read_edit(it, folder)] if why]
    print("\n".join([*bad, f"{len(tried) - len(bad)} wrong bodies that are tried together can be applied, {len(bad)} cannot"]))
    return 1 if bad else 0


def pairs_of(edit):
    """The changes of a wrong body: the file, what stands there, and what takes its place."""
    pairs, path, old = [], "", ""
    with open(edit, encoding="utf-8") as it:
        for line in it.read().split("\n"):
            if line.startswith("file: "):
                path = line[len("file: "):].strip()
            elif line.startswith("old: "):
                old = line[len("old: "):]
            elif line.startswith("new:"):
                pairs.append((path, old, line[len("new:"):].removeprefix(" ")))
    return pairs


def text_of(folder, path):
    with open(f"{folder}/{path}", encoding="utf-8") as it:
        return it.read()


def function_at(text, place):
    """The name of the function in whose text this place is, or none above the first."""
    heads = [it[1] for it in HEAD.finditer(text) if it.start() <= place]
    return heads[-1] if heads else ""


def turned_by(edit, folder):
    """The functions that a wrong body turns, each by its file and name, or None where it turns more than bodies."""
    found = set()
    for path, old, _ in pairs_of(edit):
        if not path.startswith("src/") or text_of(folder, path).count(old) != 1:
            return None
        text = text_of(folder, path)
        place = text.index(old)
        line = text[text.rfind("\n", 0, place) + 1:].partition("\n")[0]
        if line.startswith("use "):
            continue
        if not line.startswith(" ") or line.strip().startswith(("const ", "static ")):
            return None
        found.add((path, function_at(text, place)))
    return found


class Batch:
    """Wrong bodies of a crate that turn different functions, and the texts with all of them."""

    def __init__(self, folder):
        self.folder, self.texts, self.turned, self.edits = folder, {}, set(), []

    def takes(self, edit, turned):
        """Adds a wrong body where nothing in the batch turns its functions, and its changes fit."""
        if turned & self.turned or len(self.edits) == MOST_AT_ONCE:
            return False
        texts = dict(self.texts)
        for path, old, new in pairs_of(edit):
            text = texts[path] if path in texts else text_of(self.folder, path)
            if text.count(old) != 1:
                return False
            texts[path] = text.replace(old, new)
        self.texts, self.turned = texts, self.turned | turned
        self.edits.append((edit, turned))
        return True

    def function_of(self, path, line):
        """The function to which a line of its text, or an answer to one of its goals, belongs."""
        if path in self.texts:
            lines = self.texts[path].split("\n")
            return path, function_at(self.texts[path], len("\n".join(lines[:line])))
        words = path.split("/")[1:-1]
        files = [f"src/{'/'.join(words[:count])}.rt" for count in range(len(words), 0, -1)]
        return next((it for it in files if it in self.texts), "src/lib.rt"), words[-1] if words else ""

    def refused(self, told):
        """Those that have an error in a function of theirs."""
        errors = [it for it in map(ERROR.match, told.split("\n")) if it and not OF_NAMES.search(it[3])]
        wrong = {self.function_of(it[1], int(it[2])) for it in errors}
        return [edit for edit, turned in self.edits if turned & wrong]


def batches_of(crate, edits):
    """The wrong bodies of a crate in as few batches as hold them, and those that are to be tried alone."""
    batches, alone = [], []
    for edit in edits:
        turned = turned_by(edit, crate.folder)
        if not turned:
            alone.append(edit)
        elif not any(it.takes(edit, turned) for it in batches):
            batches.append(Batch(crate.folder))
            batches[-1].takes(edit, turned)
    return batches, alone


class Seed:
    """The work of a check of a crate as it stands: what `rt check` kept, or that of a check from nothing."""

    def __init__(self, rt, crate):
        self.at, self.room = f"{crate.folder}/out/incremental", None
        if not os.path.isdir(self.at):
            self.room = rt.seeded(crate, FLAGS)
            self.at = self.room and f"{self.room}/seed"

    def over(self, rt, act):
        """What `act` answers of a copy of the work."""
        with tempfile.TemporaryDirectory(prefix="wrong-bodies-") as room:
            rt.linked(self.at, f"{room}/kept")
            return act(f"{room}/kept")

    def end(self):
        if self.room:
            shutil.rmtree(self.room, ignore_errors=True)


def try_alone(rt, crate, seed, edit):
    """Whether a wrong body that was tried alone fails the run, and what is to be said of it, if anything."""
    kind, said = seed.over(rt, lambda kept: rt.must_fail(crate, edit, FLAGS, kept))
    is_quiet = kind in (rt.REFUSED, rt.AT_LIMIT) and "only because a proof file names" not in said
    return kind in (rt.MISSED, rt.BAD), "" if is_quiet else said


def try_all(rt, crate, edits):
    """How many wrong bodies of a crate were refused beside others, how many were tried alone, and what is to be said."""
    seed = Seed(rt, crate)
    if not seed.at:
        return 0, 0, [(False, f"{crate.name}: the check that its wrong bodies begin with did not end well, so none was tried")]
    batches, alone = batches_of(crate, edits)
    beside = 0
    for batch in batches:
        ran = seed.over(rt, lambda kept: rt.checked(crate, batch.texts, FLAGS, kept))
        refused = batch.refused(ran.stdout)
        beside += len(refused)
        alone += [edit for edit, _ in batch.edits if edit not in refused]
    said = [it for it in (try_alone(rt, crate, seed, edit) for edit in alone) if it[1]]
    seed.end()
    return beside, len(alone), said


def told(crate, found, began):
    """Says what came of the wrong bodies of a crate."""
    beside, alone, said = found
    line = f"{crate.name}: {beside} refused beside others, {alone} tried alone, {len(said)} of these not plainly refused"
    print("\n".join([f"{line} (minute {(time.time() - began) / 60:.0f})", *[text for _, text in said]]), flush=True)


def rank(crate):
    """The greater it is, the sooner a crate is begun: large ones first, the others each day in another order, so none is always left."""
    lines = crate.count(b"\n")
    return lines if lines > LARGE else zlib.crc32(f"{crate.name} {time.strftime('%Y-%m-%d')}".encode()) % LARGE


def main(words):
    rt = tool()
    os.chdir(ROOT)
    if "--apply" in words:
        return apply(rt)
    rt.rtlib.guarded()
    at = words.index("--minutes") if "--minutes" in words else len(words)
    minutes = int(words[at + 1]) if words[at:] else None
    names = [it for it in [*words[:at], *words[at + 2:]] if not it.startswith("--")]
    crates = [it for it in rt.rtlib.crates_below(ROOT) if not names or it.name in names]
    given = {it.name: together(it) + (rt.edits_of(it)[0] if "--gate" in words else []) for it in crates}
    began = time.time()

    def tried(crate):
        if minutes is not None and time.time() - began > 60 * minutes:
            return None
        found = try_all(rt, crate, given[crate.name])
        told(crate, found, began)
        return found

    tasks = {
        (it.name, "proof"): ([], rank(it), rt.need(it), lambda given, jobs, it=it: tried(it)) for it in crates if given[it.name]
    }
    found = rt.in_lanes(tasks)
    left = sorted(name for (name, _), it in found.items() if it is None)
    said = [it for of_crate in filter(None, found.values()) for it in of_crate[2]]
    refused = sum(beside + alone for beside, alone, _ in filter(None, found.values())) - len(said)
    bad = sum(fails for fails, _ in said)
    took = f"in {(time.time() - began) / 60:.0f} minutes"
    print(f"{refused} wrong bodies refused, {bad} not refused, {len(said) - bad} not plainly, {took}")
    if left:
        print(f"there was no time for those of {' '.join(left)}")
    return 1 if bad else 0


if __name__ == "__main__":
    sys.exit(main(sys.argv[1:]))
