#!/usr/bin/env python3
"""Writes answers to goals that a proof of a crate finds late: bench/answers.py CRATE [SECONDS]

A goal without an answer in proofs/ is tried by the calls below, one after another, and one that fails may take five seconds, in each
proof and in each wrong body that is tried. In each function whose goals took SECONDS (1 where none is given) in the last check, this
looks which call proves each goal that has no answer, and writes it as the answer where it isn't the first. A goal that none of
them proves alone, with no lemma of the crate's own, keeps none.

The crate has to be checked before by `rt check --jobs 1`, since the times of the files that it kept tell which functions are slow.
Afterwards `rt fmt` and `rt check`.
"""
import os
import re
import shutil
import subprocess
import sys
import tempfile

from gate import ROOT, tool

CALLS = ["search rules", "grind (arith, common_steps)", "grind (arith, elements)", "grind (arith, common_steps, rows)",
         "grind (arith, moves)", "search (pieces, arith)"]
COMMON = ("rules", "arith")
FLAGS = ["--jobs", "1"]
GOAL = re.compile(r"(?m)^pub (\S+) : goal\.\S+\n((?:\1) ?.*?) = \?", re.S)
ERROR = re.compile(r"(?:note: )?(?:\./)?(proofs/\S*Answers\.antt):(\d+):\d+: error")


def slow_functions(crate, least):
    """The functions whose goals took so many seconds, by the times of the files that the last check kept."""
    files = [(os.lstat(f"{at}/{name}").st_mtime, name) for at, _, names in os.walk(f"{crate.folder}/out/incremental") for name in names]
    ends = sorted(files)
    module = re.compile(rf"Rattle-{crate.name}-proofs\.([^+]*)\.Proof(?:\.decls)?\.oantt")
    found = [(module.fullmatch(name), end - before) for (before, _), (end, name) in zip(ends, ends[1:])]
    return sorted({it[1] for it, took in found if it and took >= least})


def path_of(function):
    return f"proofs/{function.replace('.', '/')}/Answers.antt"


def read(path):
    if not os.path.exists(path):
        return ""
    with open(path, encoding="utf-8") as it:
        return it.read()


def goals_of(rt, crate, functions):
    """The goals of functions that have no answer, each as it begins an answer: (function, name, the name and what it takes)."""
    with tempfile.TemporaryDirectory() as room:
        for part in rt.rtlib.PARTS:
            if os.path.isdir(f"{crate.folder}/{part}"):
                shutil.copytree(f"{crate.folder}/{part}", f"{room}/{part}")
        for function in functions:
            if os.path.exists(f"{room}/{path_of(function)}"):
                os.remove(f"{room}/{path_of(function)}")
        starts = [word for function in functions for word in ("--start", function.replace(".", "::"))]
        command = [rt.rtlib.RATTLE, "check", *crate.words(FLAGS, keeps=False), "--generated", f"{room}/made", *starts]
        subprocess.run(command, cwd=room, stdin=subprocess.DEVNULL, stdout=subprocess.DEVNULL, stderr=subprocess.DEVNULL)
        made = f"{room}/made/Rattle-{crate.name}-proofs"
        offered = {it: read(f"{made}/{it.replace('.', '/')}/AnswersOffered.antt") for it in functions}
    answered = {it: re.findall(r"(?m)^pub (\S+) :", read(f"{crate.folder}/{path_of(it)}")) for it in functions}
    return [(it, goal[1], " ".join(goal[2].split())) for it in functions for goal in GOAL.finditer(offered[it])
            if goal[1] not in answered[it]]


def with_answers(crate, function, answers):
    """The file of a function's answers with these beside those that it has: (name, how it begins, the call)."""
    have = read(f"{crate.folder}/{path_of(function)}")
    known = {name.strip() for names in re.findall(r"use [^;{]*?\{([^}]*)\}", have) for name in names.split(",")}
    needed = {word for _, _, call in answers for word in re.findall(r"\w+", call)[1:]} - known
    lines = []
    for module, names in (("Common", needed & {*COMMON}), ("lemmas.Grind", needed - {*COMMON})):
        if names:
            lines.append(f"use Rattle.std.proofs.{module}.{{{', '.join(sorted(names))}}}\n")
    if " as goal" not in have:
        lines.append(f"use Rattle.{crate.name}.proofs.{function}.Goals as goal\n")
    return "".join([*lines, have.rstrip("\n"), "\n", *(f"\npub {name} : goal.{name}\n{begin} = {call}\n" for name, begin, call in answers)])


def texts_of(crate, calls):
    """The files of answers where each goal is answered by its call."""
    by_function = {}
    for (function, name, begin), call in calls.items():
        by_function.setdefault(function, []).append((name, begin, CALLS[call]))
    return {path_of(function): with_answers(crate, function, answers) for function, answers in by_function.items()}


def refused(told, texts):
    """Which answers a check refused: (the file, the goal)."""
    found = set()
    for path, line in ERROR.findall(told):
        above = texts.get(path, "").split("\n")[:int(line)]
        names = [it[1] for it in map(re.compile(r"pub (\S+) :").match, above) if it]
        found |= {(path, names[-1])} if names else set()
    return found


def settle(rt, crate, calls, kept):
    """Moves each goal on to the next call until a check refuses none; one that no call proves goes."""
    while calls:
        texts = texts_of(crate, calls)
        for path in texts:
            os.makedirs(os.path.dirname(f"{crate.folder}/{path}"), exist_ok=True)
        ran = rt.checked(crate, texts, FLAGS, kept)
        bad = {goal for goal in calls if (path_of(goal[0]), goal[1]) in refused(ran.stdout, texts)}
        if not bad:
            return ran.returncode == 0
        for goal in bad:
            calls[goal] += 1
            if calls[goal] == len(CALLS):
                del calls[goal]
    return True


def main():
    name, least = sys.argv[1], float(sys.argv[2]) if len(sys.argv) > 2 else 1.0
    rt = tool()
    os.chdir(ROOT)
    rt.rtlib.guarded()
    rt.rtlib.Crate = rt.Crate
    crate = next(it for it in rt.rtlib.crates_below(ROOT) if it.name == name)
    goals = goals_of(rt, crate, slow_functions(crate, least))
    calls = {goal: 0 for goal in goals}
    with tempfile.TemporaryDirectory(prefix="ringd-answers-", dir=ROOT) as room:
        rt.linked(f"{crate.folder}/out/incremental", f"{room}/kept")
        if not settle(rt, crate, calls, f"{room}/kept"):
            sys.exit(f"{name}: refused for another reason than an answer")
    late = {goal: call for goal, call in calls.items() if call}
    for at, *_ in os.walk(f"{crate.folder}/proofs", topdown=False):
        if not os.listdir(at):
            os.rmdir(at)
    for path, text in texts_of(crate, late).items():
        os.makedirs(os.path.dirname(f"{crate.folder}/{path}"), exist_ok=True)
        with open(f"{crate.folder}/{path}", "w", encoding="utf-8") as it:
            it.write(text)
    for (function, goal, _), call in late.items():
        print(f"{function}: {goal}: {CALLS[call]}")
    print(f"{name}: of {len(goals)} goals without an answer {len(late)} have one now, {len(goals) - len(calls)} are proved by none of the calls")


if __name__ == "__main__":
    main()
