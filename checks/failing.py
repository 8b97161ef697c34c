#!/usr/bin/env python3
"""Each call that reaches the disk fails once: checks/failing.py [CALLS]

A run of deliveries of every command over a file is met by ptrace, and each call by which it opens, looks at, reads, writes,
syncs or cuts its file and its log fails in a run of its own: with no room left where it writes, and with a fault of the
device else. Whichever call it was, the run has answered each request rightly up to one that is told as 24, and those behind
it as 25; or it could not open the file or close it, and says so. Then every delivery is sent again, and the replies, both
tables and every row are those of a run in which nothing failed: so each number was decided once. The same is done with a
store of the older schema, which is migrated, and with `renew`.

Where there are more than CALLS calls (300 where none is given), an even choice of them is taken. Several runs go side by
side. Nothing but Python's standard library is used; Linux on x86-64.
"""
import collections
import ctypes
import errno
import os
import signal
import sys
from concurrent.futures import ProcessPoolExecutor
from pathlib import Path

from common import MANY, Checks, fault, has, lines, run, rows_of, scratch, without_meanings
from kills import SENT, state
from losses import read_memory
from store import is_cut_off, is_named
from tables import make_older
from tracing import CALLS, GENERAL_REGISTERS, GETREGSET, MACHINE, NUMBER_AT, SYSCALL, Span, call_of, ptrace, start

SETREGSET = 0x4205
ANSWER_AT = 10
# The calls that open and look at files, and read them. They stand beside those of a kill.
LOOKS = {"read": 0, "fstat": 5, "lseek": 8, "pread64": 17, "fcntl": 72, "flock": 73, "openat": 257, "newfstatat": 262, "statx": 332}
WRITES = {"write", "pwrite64", "writev", "pwritev", "ftruncate", "fallocate"}
BY_PATH = {"openat": 1, "newfstatat": 1, "statx": 1, "unlinkat": 1, "unlink": 0}
NAMES = {number: name for name, number in {**CALLS.get("x86_64", {}), **LOOKS}.items()}


def text_at(process, place):
    """The text that ends with NUL at a place of a process's memory."""
    return read_memory(process, place, 4096 - place % 4096).partition(b"\0")[0].decode(errors="replace")


def meant(process, name, arguments):
    """The file that a call is about."""
    if name in BY_PATH:
        return text_at(process, arguments[BY_PATH[name]])
    try:
        return os.readlink(f"/proc/{process}/fd/{arguments[0]}")
    except OSError:
        return ""


def set_register(process, at, value):
    words = (ctypes.c_ulong * 64)()
    span = Span(ctypes.addressof(words), ctypes.sizeof(words))
    ptrace(GETREGSET, process, GENERAL_REGISTERS, ctypes.addressof(span))
    words[at] = value & (1 << 64) - 1
    ptrace(SETREGSET, process, GENERAL_REGISTERS, ctypes.addressof(span))


def run_failing(words, room, sent, place=None):
    """Runs the program; the call at this place of those that are about files of the store fails. Answers its status, what it
    answered and told, and the calls."""
    answers, errors = f"{room}/answers", f"{room}/errors"
    held = os.dup(2)
    told = os.open(errors, os.O_WRONLY | os.O_CREAT | os.O_TRUNC)
    os.dup2(told, 2)
    process = start(words, answers, sent)
    os.dup2(held, 2)
    os.close(told)
    os.close(held)
    seen, is_inside, failed, passing = [], False, 0, 0
    while True:
        ptrace(SYSCALL, process, 0, passing)
        _, status = os.waitpid(process, 0)
        passing = 0
        if os.WIFEXITED(status) or os.WIFSIGNALED(status):
            break
        if os.WSTOPSIG(status) != signal.SIGTRAP | 0x80:
            passing = 0 if os.WSTOPSIG(status) == signal.SIGTRAP else os.WSTOPSIG(status)
            continue
        is_inside = not is_inside
        if not is_inside and failed:
            set_register(process, ANSWER_AT, -failed)
            failed = 0
        if is_inside:
            number, arguments = call_of(process)
            name = NAMES.get(number)
            file = meant(process, name, arguments) if name else ""
            if file.startswith(f"{room}/") and file not in (answers, errors):
                if len(seen) == place:
                    failed = errno.ENOSPC if name in WRITES else errno.EIO
                    set_register(process, NUMBER_AT[MACHINE], -1)
                seen.append(f"{name} {os.path.basename(file)}")
    status = os.WEXITSTATUS(status) if os.WIFEXITED(status) else -os.WTERMSIG(status)
    return (status, Path(answers).read_bytes(), without_meanings(Path(errors).read_bytes())), seen


def after_failure(task):
    """Fails one call of a run, and looks at what it answered and what is left: why it is wrong, or nothing, and what came."""
    is_older, place, want, whole = task
    sent = lines(*SENT[is_older])
    with scratch() as room:
        file = f"{room}/rings.db"
        if is_older:
            make_older(file)
        limited, _ = run_failing(["run", "--file", file], room, SENT[is_older], place)
        if not is_named(limited) or not is_cut_off(limited[1], want):
            return f"it ended with {limited}", "?"
        again = run("run", "--file", file, given=sent)
        if again != (0, want, b""):
            return f"sent again, it was answered {again}", "?"
        if state(file) != whole:
            return "the tables or the rows differ", "?"
        if limited == (0, want, b""):
            return None, "nothing was lost"
        if not limited[1]:
            return None, "the file wasn't opened"
        return None, "told at the close" if limited[1] == want else "told in an answer"


def each_in_turn(checks, seen, look, tasks):
    """Fails the calls in turn, several runs side by side, and shows what became of them."""
    wrong, found = 0, collections.Counter()
    with ProcessPoolExecutor(max(2, os.cpu_count() or 1)) as workers:
        for task, (why, what) in zip(tasks, workers.map(look, tasks)):
            found[what] += 1
            if why:
                wrong += 1
                checks.show(f"call {task[1]} failed, {seen[task[1]]}", False, why)
    even = "" if len(tasks) == len(seen) else f", an even choice of {len(seen)}"
    checks.show(f"{len(tasks)} calls failed in turn{even}: {wrong} went wrong", not wrong)
    print("        " + ", ".join(f"{what}: {count}" for what, count in sorted(found.items())))


def chosen_of(seen, most):
    count = min(len(seen), most)
    return [at * len(seen) // count for at in range(count)]


def calls_fail(checks, is_older, most):
    with scratch() as room:
        file = f"{room}/rings.db"
        if is_older:
            make_older(file)
        (status, want, errors), seen = run_failing(["run", "--file", file], room, SENT[is_older])
        whole = state(file)
    names = collections.Counter(call.split()[0] for call in seen)
    print(f"        {len(seen)} calls: " + ", ".join(f"{count} {name}" for name, count in sorted(names.items())))
    if checks.show("a run that is traced ends well", status == 0 and not errors and want.count(b"\n") == len(SENT[is_older]), want):
        each_in_turn(checks, seen, after_failure, [(is_older, place, want, whole) for place in chosen_of(seen, most)])


def new_file(checks):
    """A run over a new file."""
    done = {text.partition('"do":"')[2].partition('"')[0] for _, text in MANY}
    commands = {"create", "add", "import", "set_weight", "remove", "keep", "set_hours", "pretend_passed", "rebalance", "rebalance_as", "publish",
                "raise_power"}
    checks.same("its deliveries are of every command", done, commands)
    calls_fail(checks, False, MOST)


def older_file(checks):
    """A run over a file of the older schema, which is migrated."""
    calls_fail(checks, True, MOST // 2)


def after_renewal(task):
    """Fails one call of `renew`, and looks at both files: why that is wrong, or nothing, and what came."""
    before, place, after = task
    with scratch() as room:
        file, new = f"{room}/rings.db", f"{room}/new.db"
        run("run", "--file", file, given=lines(*MANY))
        told, _ = run_failing(["renew", file, new], room, [], place)
        if told not in ((0, b"", b""), fault("StoreFault", 24)):
            return f"it ended with {told}", "?"
        if rows_of(file) != before:
            return "the old file has other rows", "?"
        if not told[0] and rows_of(new) != after:
            return "it was told as done, and is not", "?"
        for end in ("", "-wal"):
            if os.path.exists(f"{new}{end}"):
                os.remove(f"{new}{end}")
        if run("renew", file, new) != (0, b"", b"") or rows_of(new) != after:
            return "begun again, it does not make the same", "?"
        return None, "told" if told[0] else "nothing was lost"


def renewal(checks):
    """A file that is renewed."""
    if not has("renew"):
        return checks.skip("renew", "the program has none")
    with scratch() as room:
        file, new = f"{room}/rings.db", f"{room}/new.db"
        run("run", "--file", file, given=lines(*MANY))
        before = rows_of(file)
        told, seen = run_failing(["renew", file, new], room, [])
        after = rows_of(new)
    if checks.same("a renewal that is traced ends well", told, (0, b"", b"")):
        each_in_turn(checks, seen, after_renewal, [(before, place, after) for place in chosen_of(seen, MOST // 2)])


MOST = int(sys.argv[1]) if len(sys.argv) > 1 else 300


def main():
    checks = Checks("failing.py", 900)
    if sys.platform == "linux" and MACHINE == "x86_64":
        return checks.run(new_file, older_file, renewal)
    checks.skip(checks.name, f"calls are made to fail on Linux on x86-64, not on {sys.platform} on {MACHINE}")
    print("0 passed, 0 failed")
    return 0


if __name__ == "__main__":
    sys.exit(main())
