#!/usr/bin/env python3
"""Requests for memory are refused, each in turn: checks/memory.py [RUNS]

A library that stands before malloc and realloc refuses one request of a run, or three hundred in a row (five over HTTP), so that
memory is wanted over several answers and is there again behind them. Whichever request it is, each answer is that of a run in which
none was refused, or `503 {"fault":"NoMemory","rule":23}`; or the program tells `NoMemory 23` before its first answer or at
the close of its file, and ends with status 1. No store is told as failed, and none is closed to what comes later. Then all is
sent again, and every answer is right: so each number was decided once.

All is sent twice. Where several are refused in a row, what is lost first is sent as often: each copy that is lost takes one of
them at least, so memory is there again before the next comes, and what comes next finds what it would have found. Over HTTP
all is sent once then, and five times what is lost first: `loop` writes at most 32,768 bytes.

Lines of every command and every question are sent in memory, over a new file and over one of the older schema; requests of
every route over HTTP; and a file is renewed. RUNS requests of each run (30 where none is given) are refused, an even choice
of them; `checks/memory.py all` refuses each. Several runs go side by side. Nothing but Python's standard library is used, and
the C compiler `cc`, which makes the library.
"""
import collections
import itertools
import os
import shutil
import subprocess
import sys
from concurrent.futures import ThreadPoolExecutor
from pathlib import Path

from common import FAULT, MANY, TOP, Checks, lines, program, rows_of, run, scratch
from kills import SENT
from tables import make_older

REFUSING = r"""
#include <errno.h>
#include <stdio.h>
#include <stdlib.h>
extern void *__libc_malloc(size_t);
extern void *__libc_realloc(void *, size_t);
static long count, first = -1, last;
static int is_refused(void) {
    if (!count++) { char *s = getenv("REFUSE"); char *n = getenv("LASTING"); first = s ? atol(s) : 0; last = first + (n ? atol(n) : 1); }
    int is_in = first > 0 && count >= first && count < last;
    if (is_in) errno = ENOMEM;
    return is_in;
}
void *malloc(size_t n) { return is_refused() ? 0 : __libc_malloc(n); }
void *realloc(void *p, size_t n) { return is_refused() ? 0 : __libc_realloc(p, n); }
__attribute__((destructor)) static void tell(void) {
    char *name = getenv("COUNT");
    FILE *out = name ? fopen(name, "w") : 0;
    if (out) { fprintf(out, "%ld\n", count); fclose(out); }
}
"""
LASTING = 300
LASTING_OVER_HTTP = 5
LOST = '503 {"fault":"NoMemory","rule":23}'
WANTED = b"ringd: NoMemory 23\n"
FILES = [TOP / "examples" / "rebalance.jsonl", TOP / "bench" / "more.jsonl"]
TABLE = (TOP / "examples" / "disks.csv").read_text()


def runs_of(count):
    """So many places among those that are counted, evenly chosen."""
    words = sys.argv[1:]
    most = count if words == ["all"] else min(count, int(words[0]) if words else 30)
    return [1 + at * count // most for at in range(most)]


class Refusing:
    """Runs the program with requests for memory refused."""

    def __init__(self, room):
        self.room, self.library, self.numbers = room, f"{room}/refusing.so", itertools.count()
        source = Path(room, "refusing.c")
        source.write_text(REFUSING)
        subprocess.run(["cc", "-shared", "-fPIC", "-O1", "-o", self.library, source], check=True)

    def run(self, words, given=b"", at=0, lasting=1):
        """Status, standard output and standard error of a run, and how many requests it made."""
        count = f"{self.room}/count-{next(self.numbers)}"
        settings = {**os.environ, "LD_PRELOAD": self.library, "REFUSE": str(at), "LASTING": str(lasting), "COUNT": count}
        done = subprocess.run([*program(), *map(str, words)], input=given, capture_output=True, env=settings, timeout=60)
        made = 0
        if os.path.exists(count):  # not where there was no memory for it
            made = int(Path(count).read_text())
            os.remove(count)
        # Want of memory for the words of the command line has no second line.
        told = FAULT.fullmatch(done.stderr)
        return (done.returncode, done.stdout, told[1] if told else done.stderr), made

    def file(self):
        return f"{self.room}/rings-{next(self.numbers)}.db"


def twice(items):
    """Each of them twice."""
    return [each for each in items for _ in range(2)]


def with_copies(items, place, lasting):
    """The items, with so many more of the one at a place as requests are refused in a row."""
    return items if place is None else [*items[:place], *[items[place]] * lasting, *items[place:]]


def answers(told):
    """The answers to lines, in order: a table is one of them. A log is asked for an entry, so that each has one."""
    found = []
    for line in told.decode().splitlines():
        if line[:3].isdigit() and line[3:5] == " {" or line.startswith(("   id ", '{"')):
            found.append(line)
        else:
            found[-1] += "\n" + line
    return found


def http_answers(told):
    """The status and the body of each answer over HTTP, as lines of `run` have them."""
    found, rest = [], told
    while rest:
        head, _, rest = rest.partition(b"\r\n\r\n")
        fields = dict(line.split(": ", 1) for line in head.decode().split("\r\n")[1:])
        length = int(fields["Content-Length"])
        found.append(f"{head.split(b' ', 2)[1].decode()} {rest[:length].decode(errors='surrogateescape')}")
        rest = rest[length:]
    return found


def judged(told, want, answers_of=answers):
    """What became of a run, or None where it is not as it should be; and the place of the first answer that was lost."""
    status, output, errors = told
    got = answers_of(output)
    if status == 1 and errors == WANTED and got in ([], want):
        return ("told at the close" if got and want else "told before the first answer"), None
    others = [place for place, (one, other) in enumerate(zip(got, want)) if one != other]
    lost = others[0] if others and got[others[0]] == LOST else None
    if (status, errors) != (0, b"") or len(got) != len(want) or any(got[place] != LOST for place in others):
        return None, lost
    return ("no difference", "one answer lost")[len(others)] if len(others) < 2 else "several answers lost", lost


def each_in_turn(checks, what, count, judge):
    """Has a run judged for each place at which requests begin to be refused."""
    places, found, wrong = runs_of(count), collections.Counter(), []
    with ThreadPoolExecutor(max(2, os.cpu_count() or 1)) as workers:
        for at, became in zip(places, workers.map(judge, places)):
            found[became] += 1
            if became is None:
                wrong.append(at)
    even = "" if len(places) == count else f", an even choice of {count}"
    checks.show(f"{what}: {len(places)} requests refused in turn{even}", not wrong, wrong)
    print("        " + ", ".join(f"{became}: {times}" for became, times in sorted(found.items(), key=str)))


def each_alone(checks, what, count, look):
    """Refuses the requests in turn, each alone."""
    each_in_turn(checks, what, count, lambda at: look(at, 1, None)[0])


def several_in_a_row(checks, what, count, look, lasting=LASTING):
    """Refuses so many requests in a row, from each of them on in turn. What is lost first is found with fewer."""
    def judge(at):
        fewer, became, place = 1, "no difference", None
        while (became, place) == ("no difference", None) and fewer < lasting:
            (became, place), fewer = look(at, fewer, None), 2 * fewer
        return look(at, lasting, place)[0]

    each_in_turn(checks, f"{what}, {lasting} in a row", count, judge)


def in_memory(checks, refusing):
    """Lines of every command and every question, in memory."""
    sent = twice(each for file in FILES for each in file.read_text().splitlines())
    whole, count = refusing.run(["run"], lines(*sent))
    want = answers(whole[1])

    def look(at, lasting, place):
        told, _ = refusing.run(["run"], lines(*with_copies(sent, place, lasting)), at, lasting)
        return judged(told, with_copies(want, place, lasting))

    each_alone(checks, "in memory", count, look)
    several_in_a_row(checks, "in memory", count, look)


def over_files(checks, refusing, what, sent, made):
    """Lines over a file; then they are sent again, and once more."""
    def three(at=0, lasting=1, place=None):
        file = refusing.file()
        made(file)
        told, count = refusing.run(["run", "--file", file], lines(*with_copies(sent, place, lasting)), at, lasting)
        after = [answers(run("run", "--file", file, given=lines(*sent))[1]) for _ in range(2)]
        rows = rows_of(file)
        for end in ("", "-wal"):
            Path(file + end).unlink(missing_ok=True)
        return told, count, after, rows

    whole, count, whole_after, whole_rows = three()
    want = answers(whole[1])
    requests = [place for place, each in enumerate(sent) if not isinstance(each, str) or not each.startswith("?")]

    def look(at, lasting, place):
        told, _, after, rows = three(at, lasting, place)
        # a question in the first of the runs behind it may come before what was not decided
        again = [after[0][request] for request in requests if request < len(after[0])]
        right = again == [whole_after[0][request] for request in requests]
        became, lost = judged(told, with_copies(want, place, lasting))
        return became if right and after[1] == whole_after[1] and rows == whole_rows else None, lost

    each_alone(checks, what, count, look)
    several_in_a_row(checks, what, count, look)


def over_a_new_file(checks, refusing):
    """Lines of every command and every question, over a new file."""
    sent = twice(each for file in FILES for each in file.read_text().splitlines())
    over_files(checks, refusing, "over a new file", sent, lambda file: None)


def over_an_older_file(checks, refusing):
    """Lines over a file of the older schema, which is migrated."""
    over_files(checks, refusing, "over an older file", twice(SENT[True]), make_older)


def renewal(checks, refusing):
    """A file that is renewed."""
    old = refusing.file()
    run("run", "--file", old, given=lines(*MANY))
    before = rows_of(old)

    def renewed(at=0, lasting=1):
        file, new = refusing.file(), refusing.file()
        for end in ("", "-wal"):
            shutil.copy(old + end, file + end)
        told, count = refusing.run(["renew", file, new], b"", at, lasting)
        return told, count, file, new

    _, count, _, new = renewed()
    after = rows_of(new)

    def look(at, lasting, place):
        told, _, file, new = renewed(at, lasting)
        done = told == (0, b"", b"")
        right = (done or told == (1, b"", WANTED)) and rows_of(file) == before and (not done or rows_of(new) == after)
        for end in ("", "-wal"):
            Path(new + end).unlink(missing_ok=True)
        right = right and run("renew", file, new) == (0, b"", b"") and rows_of(new) == after
        for name in (file, file + "-wal", new, new + "-wal"):
            Path(name).unlink(missing_ok=True)
        return ("no difference" if done else "told") if right else None, None

    each_alone(checks, "a renewal", count, look)
    several_in_a_row(checks, "a renewal", count, look)


def post(target, body):
    return f"POST {target} HTTP/1.1\r\nHost: a\r\nContent-Length: {len(body)}\r\n\r\n{body}"


def message(number, do, more=""):
    return post("/v1/requests", f'{{"caller":"ops","number":{number},"ring":"disks","do":"{do}"{more}}}')


READS = ["rings", "status", "log?from=1&most=2", "metrics", "rings/disks", "rings/disks/preview?seed=7&hour=1", "rings/disks/moves?from=2&to=2",
         "rings/disks/devices", "rings/disks/balance", "rings/disks/locks", "rings/disks/nodes?account=alice&container=cats", "rings/disks/text/2",
         "rings/disks/swift/2", "rings/none/text/2", "none"]
REQUESTS = [
    message(1, "create", ',"power":4,"replicas":3,"min_hours":1'),
    post("/v1/import/disks?caller=ops&number=2", TABLE),
    message(3, "rebalance", ',"seed":7'),
    message(4, "publish"),
    message(5, "remove", ',"id":60000'),
    message(6, "keep", ',"id":0'),
    message(7, "rebalance_as", ',"seed":7,"version":3,"hour":9'),
    *(f"GET /v1/{target} HTTP/1.1\r\nHost: a\r\n\r\n" for target in READS),
]


def over_http(checks, refusing):
    """Requests of every route but the page's over HTTP."""
    def looped(sent, at=0, lasting=1, place=None):
        file = refusing.file()

        def words(requests):
            written = Path(f"{file}-requests")
            written.write_text("".join(requests), newline="")
            return ["loop", file, written, "--hour", 5]

        told, count = refusing.run(words(with_copies(sent, place, lasting)), b"", at, lasting)
        run(*words(sent))
        after = run(*words(sent))
        for end in ("", "-wal", "-requests"):
            Path(file + end).unlink(missing_ok=True)
        return told, count, after

    def looking(sent):
        """How many requests a run makes, and what is looked at where some are refused."""
        whole, count, whole_after = looped(sent)
        want = http_answers(whole[1])

        def look(at, lasting, place):
            told, _, after = looped(sent, at, lasting, place)
            became, lost = judged(told, with_copies(want, place, lasting), http_answers)
            return became if after == whole_after else None, lost

        return count, look

    each_alone(checks, "over HTTP, each twice", *looking(twice(REQUESTS)))
    several_in_a_row(checks, "over HTTP", *looking(REQUESTS), LASTING_OVER_HTTP)


def main():
    checks = Checks("memory.py", 36000 if sys.argv[1:] == ["all"] else 600)
    if not shutil.which("cc"):
        checks.skip(checks.name, "there is no C compiler cc")
        print("0 passed, 0 failed")
        return 0
    with scratch() as room:
        refusing = Refusing(room)

        def with_it(part):
            def shown(checks):
                part(checks, refusing)
            shown.__doc__ = part.__doc__
            return shown

        return checks.run(*map(with_it, [in_memory, over_a_new_file, over_an_older_file, renewal, over_http]))


if __name__ == "__main__":
    sys.exit(main())
