#!/usr/bin/env python3
"""Checks what `ringd found` and `ringd version` do, what the second line of each fault says, and the help: checks/programs.py

Rings whose texts and rows are known whole are founded, and refused: what is told, what is in the new file, and that there is none
where anything was refused. The faults of all programs are made, but for want of memory, and both of their lines are compared.
"""
import os
import re
import socket
import subprocess
import sys
import time
from pathlib import Path

import common
from common import FIRST, TINY, TINY_TEXT, TOP, Checks, add, fault, files_of, has, lines, message, rows_of, run, run_whole, scratch

STORE_FAULT = "another program has it, or it can't be opened, read or written: look who has it (fuser), whether it is a plain file " \
              "of one name in a folder that is there, at the rights of both, and whether the disk is full"
NEW_FAULT = f"a NEW that is there already is not written over; or {STORE_FAULT}"
FORMS = "a name or a number is not of its form: names of rings and callers are 1 to 32 of a to z, 0 to 9 and -, a letter first; numbers are " \
        "0 to 4294967295, without leading zeros"
NO_MEMORY = "there was not enough memory: look at the limits of the unit or the shell, and try again"
# What the second line of a fault says behind the file of which it tells. `NoMemory 23` is not made here.
MEANINGS = {
    "NoRing 1": "it has no ring of this name: look at the spelling of both, since a FILE that is missing is made, without rings",
    "RingExists 2": "two rings have one name: give one of them another, in the second line of its text",
    "TooManyRings 3": "a file holds 16 rings at most: found some of them in a file of their own",
    "TooFewDevices 9": "fewer of the ring's devices take seats than a partition has replicas: add devices, or give some a weight above 0",
    "NotAssigned 10": "the ring was never rebalanced, so no device holds any of it: rebalance it first",
    "Unreadable 20": FORMS,
    "StoreFault 24": STORE_FAULT,
    "BadStore 26": "it is no store of ringd, one of a later version, or damaged: look at its name and at 'ringd version' before you put a backup "
                   "in its place",
    "NoFile 27": "it can't be opened: look at its name and its rights",
    "NetFailed 28": "the port can't be had: look who has it (ss -ltnp); where it was served already, no more connections can be had: start again",
    "TooLong 29": "it is too long: a CSV table may have 65536 bytes, an INPUT 32768, and the text of a ring 1048576",
    "BadPath 30": "this is no path: an account and a container are 1 to 256 bytes without a slash, and an object is 1 to 1024 bytes and in a container",
    "BadText 31": "a TEXT is not the text of a ring: the line before the fault says which TEXT, and its first line that is wrong",
    "NoVersion 32": "the ring was not published under this version: the reply to publish names it",
    "ClockAhead 33": "look at this machine's clock; where it is right, start once with --hour-ok",
    "ReadFailed 50": "it could not be read to its end: look at the file or the pipe",
    "WriteFailed 51": "the output could not be written: its reader is gone, or the disk is full; what was decided stays decided",
}


def text_of(name, *changes):
    """The text of a ring of this name, which is else that of `tiny`, with texts in it changed."""
    text = TINY_TEXT.replace(b"ring tiny\n", f"ring {name}\n".encode())
    for old, new in changes:
        text = text.replace(old, new)
    return text


class Room:
    """A folder with texts of rings, and a new file that is to be made in it."""

    def __init__(self, room):
        self.room, self.new = room, f"{room}/new.db"

    def put(self, **texts):
        """Writes texts, each in a file of its name."""
        for name, text in texts.items():
            Path(self.room, name).write_bytes(text)

    def found(self, names, *more, hours=3, hour=100):
        """Founds the new file of the texts of these names."""
        return run("found", self.new, *(f"{self.room}/{name}" for name in names.split()), "--min-hours", hours, "--hour", hour, *more)

    def made(self):
        return [end for end in ("", "-wal") if os.path.exists(f"{self.new}{end}")]

    def removed(self):
        for end in self.made():
            os.remove(f"{self.new}{end}")


def as_it_stands(checks):
    """A ring comes in as its text has it."""
    with scratch() as folder:
        room = Room(folder)
        numbers = ((b"\n0 1 1 10.0.0.1 6200", b"\n7 1 1 10.0.0.1 6200"), (b"present", b"removed"), (b"seats\n0\n0\n", b"seats\n7\n7\n"))
        room.put(tiny=TINY_TEXT, marked=text_of("marked", *numbers))
        checks.same("two rings", room.found("tiny marked"), (0, b"", b""))
        rows = rows_of(room.new)
        checks.same("with power, replicas, hours, the number behind the greatest, and version", rows["ring"],
                    [("marked", 1, 1, 3, 8, 2), ("tiny", 1, 1, 3, 1, 2)])
        checks.same("their devices, by number, and the mark", [(row[0], row[1], row[8]) for row in rows["device"]], [("marked", 7, 1), ("tiny", 0, 0)])
        checks.same("each seat, moved at the hour", rows["part"],
                    [(ring, part, seat, 100) for ring, seat in (("marked", b"\0\7"), ("tiny", b"\0\0")) for part in (0, 1)])
        checks.same("nothing published, no request, and the hour", (rows["published"], rows["request"], rows["meta"]), ([], [], [(1, 2, 100)]))
        told = run("run", "--file", room.new, given=lines((100, message(1, "publish", ring="tiny"))))
        checks.same("it is published under its version", told, (0, b'200 {"done":"publish","version":2}\n', b""))
        checks.same("as the text that came in", run("export", room.new, "tiny", "2"), (0, TINY_TEXT, b""))
        room.removed()
        checks.same("at the clock's hour, where none is given", run("found", room.new, f"{folder}/tiny", "--min-hours", "0"), (0, b"", b""))
        checks.show("which is that of this machine", 0 <= time.time() // 3600 - rows_of(room.new)["meta"][0][2] <= 1, rows_of(room.new)["meta"])


def rests(checks):
    """A founded ring moves nothing before its hours have passed."""
    with scratch() as folder:
        room, file = Room(folder), f"{folder}/rings.db"
        run("run", "--file", file, given=lines(*FIRST, (0, message(5, "publish"))))
        room.put(object=run("export", file, "object", "3")[1])
        checks.same("a ring of two devices", room.found("object", hours=24, hour=1000), (0, b"", b""))
        asked = [(0, add(1, 5)), (1023, message(2, "rebalance", seed=1)), (1024, message(3, "rebalance", seed=1))]
        told = run("run", "--file", room.new, given=lines(*asked))[1].decode()
        checks.show("its next device gets the next number", '"id":2' in told, told)
        checks.same("an hour too early nothing moves, then a seat does", re.findall(r'"changed":(\d+)', told), ["0", "1"])


def beside(checks):
    """Rings come in beside those of a file, which stays as it was."""
    with scratch() as folder:
        room, file = Room(folder), f"{folder}/rings.db"
        run("run", "--file", file, given=lines(*TINY, (30, message(5, "set_hours", ring="tiny", min_hours=9))))
        room.put(other=text_of("other"), tiny=TINY_TEXT)
        before, held = rows_of(file), files_of(file)[""]
        for hour, greatest in ((10, 30), (50, 50)):
            checks.same(f"beside a file of hour 30, at hour {hour}", room.found("other", "--from", file, hour=hour), (0, b"", b""))
            rows = rows_of(room.new)
            checks.same("both rings are there", [row[0] for row in rows["ring"]], ["other", "tiny"])
            checks.same("that of the file as it was", [row for row in rows["ring"] if row[0] == "tiny"], before["ring"])
            checks.same("with its published text, no request, and the greater hour", (rows["published"], rows["request"], rows["meta"]),
                        (before["published"], [], [(1, 2, greatest)]))
            checks.same("and the file has the bytes that it had", files_of(file)[""], held)
            room.removed()
        checks.same("a name that both have", room.found("tiny", "--from", file), fault("RingExists", 2))
        checks.same("a file that is no store", room.found("other", "--from", f"{folder}/tiny"), fault("BadStore", 26))
        checks.same("a file that is in a missing folder", room.found("other", "--from", f"{folder}/away/rings.db"), fault("NoFile", 27))
        checks.same("a file that is not there", room.found("other", "--from", f"{folder}/none.db"), fault("NoFile", 27))
        checks.same("is not made", files_of(f"{folder}/none.db"), {"": None, "-wal": None})
        checks.same("no new file was made", room.made(), [])


# Texts that are no ring's, each with the line where it stops being one.
STOPS = {
    "an empty text": (b"", 1),
    "another kind of text": (TINY_TEXT.replace(b"text 1", b"text 2"), 1),
    "ends of lines that are CR LF": (TINY_TEXT.replace(b"\n", b"\r\n"), 1),
    "a power that no ring has": (TINY_TEXT.replace(b"power 1\n", b"power 15\n"), 4),
    "more devices than a ring has": (TINY_TEXT.replace(b"devices 1\n", b"devices 257\n"), 6),
    "a weight without its digits": (TINY_TEXT.replace(b"100.00", b"100"), 7),
    "a seat of no device": (TINY_TEXT.replace(b"seats\n0\n0\n", b"seats\n0\n1\n"), 10),
    "a text that ends too early": (TINY_TEXT[:-4], 11),
    "one whose last line has no end": (TINY_TEXT[:-1], 11),
    "something behind the end": (TINY_TEXT + b"end\n", 12),
    "bytes that are no UTF-8": (TINY_TEXT.replace(b"present d0", b"present \xff"), 7),
}


def refusals(checks):
    """What is refused, and that no file is made then."""
    with scratch() as folder:
        room = Room(folder)
        room.put(tiny=TINY_TEXT, again=TINY_TEXT, long=TINY_TEXT.ljust(1048577, b"\n"), **{f"t{n}": text_of(f"r{n}") for n in range(17)})
        for what, (text, at) in STOPS.items():
            room.put(bad=text)
            stop = f"ringd: {folder}/bad: line {at} is missing, or not what the text of a ring has there\nringd: BadText 31\n".encode()
            checks.same(f"{what}: where it stops is told", room.found("tiny bad t1"), (1, b"", stop))
        checks.same("a text that is not there", room.found("tiny none"), fault("NoFile", 27))
        checks.same("a folder", room.found("tiny ."), fault("ReadFailed", 50))
        checks.same("a text of 1048577 bytes", room.found("long"), fault("TooLong", 29))
        checks.same("one name twice", room.found("tiny again"), fault("RingExists", 2))
        names = [f"t{n}" for n in range(17)]
        checks.same("17 rings", room.found(" ".join(names)), fault("TooManyRings", 3))
        full = f"{folder}/full.db"
        run("found", full, *(f"{folder}/{name}" for name in names[:16]), "--min-hours", 1, "--hour", 1)
        checks.same("a 17th ring beside 16 of a file", room.found("t16", "--from", full), fault("TooManyRings", 3))
        checks.same("the first text decides", room.found("none bad"), fault("NoFile", 27))
        checks.same("no new file was made", room.made(), [])
        checks.same("16 rings", room.found(" ".join(names[:16])), (0, b"", b""))
        held = files_of(room.new)
        checks.same("a new file that is there already", room.found("tiny"), fault("StoreFault", 24))
        checks.same("and a text that is refused before it", room.found("none"), fault("NoFile", 27))
        checks.same("it stays as it was", files_of(room.new), held)


def version(checks):
    """The version, which files are opened, and the toolchain, as the repository has them."""
    newest = re.search(r"(?m)^## (\S+)$", (TOP / "CHANGELOG.md").read_text())[1]
    toolchain = re.search(r"(?m)^    (rattle-kit\S* logic \S+)$", (TOP / "README.md").read_text())[1]
    want = f"ringd {newest}\nopens files of schema 1 and 2, writes schema 2\nproved with {toolchain}\n"
    checks.same("ringd version", run("version"), (0, want.encode(), b""))


def faults(room):
    """Words that come to each fault, the file of which it tells, if of one, and the streams that it needs."""
    file, bad, text, away = f"{room}/rings.db", f"{room}/bad", f"{room}/tiny", f"{room}/away/rings.db"
    terms = ["--min-hours", 1]
    yield "NoRing 1", ["table", file, "none"], file, {}
    yield "NoRing 1", ["show", file, "none"], file, {}
    yield "NoRing 1", ["show", file, "none", "locks"], file, {}
    yield "RingExists 2", ["found", f"{room}/new.db", text, text, *terms], None, {}
    yield "TooManyRings 3", ["found", f"{room}/new.db", *(f"{room}/t{n}" for n in range(17)), *terms], None, {}
    yield "TooFewDevices 9", ["preview", file, "empty", "--seed", 1], file, {}
    yield "NotAssigned 10", ["nodes", file, "empty", "a"], file, {}
    yield "Unreadable 20", ["export", file, "tiny", "02"], None, {}
    yield "StoreFault 24", ["table", away, "tiny"], away, {}
    yield "StoreFault 24", ["show", away, "tiny"], away, {}
    yield "StoreFault 24", ["show", away], away, {}
    yield "BadStore 26", ["show", bad, "--status"], bad, {}
    yield "StoreFault 24", ["renew", file, file], "FILE or NEW", {}
    yield "BadStore 26", ["table", bad, "tiny"], bad, {}
    yield "NoFile 27", ["import", file, "tiny", "ops", 9, away], away, {}
    yield "NoFile 27", ["loop", file, away], away, {}
    yield "StoreFault 24", ["found", file, text, *terms], file, {}
    yield "StoreFault 24", ["found", file, f"{room}/t0", *terms, "--from", file], "FILE or NEW", {}
    yield "BadStore 26", ["renew", bad, f"{room}/new.db"], bad, {}
    yield "NoFile 27", ["found", f"{room}/new.db", away, *terms], away, {}
    yield "NoFile 27", ["found", f"{room}/new.db", text, away, *terms], "TEXT", {}
    yield "NoFile 27", ["found", f"{room}/new.db", text, *terms, "--from", away], "TEXT or FILE", {}
    yield "TooLong 29", ["loop", file, f"{room}/long"], f"{room}/long", {}
    yield "BadPath 30", ["nodes", file, "tiny", "a/b"], None, {}
    yield "BadText 31", ["found", f"{room}/new.db", bad, *terms], None, {}
    yield "NoVersion 32", ["export", file, "tiny", "99"], file, {}
    yield "ClockAhead 33", ["service", file, common.free_port()], None, {}
    yield "ReadFailed 50", ["loop", file, room], room, {}
    yield "ReadFailed 50", ["run", "--file", file], "standard input", {"stdin": os.open(room, os.O_RDONLY)}
    yield "WriteFailed 51", ["version"], None, {"stdout": os.open("/dev/full", os.O_WRONLY)}


def meanings(checks):
    """What each fault means stands in one line behind its own."""
    with scratch() as room, socket.socket() as taken:
        run("run", "--file", f"{room}/rings.db", given=lines(*TINY, (0, message(5, "create", ring="empty", power=1, replicas=1, min_hours=0))))
        Room(room).put(tiny=TINY_TEXT, bad=b"no store and no ring\n" * 400, long=b"x" * 40000, **{f"t{n}": text_of(f"r{n}") for n in range(17)})
        taken.bind(("127.0.0.1", 0))
        taken.listen()
        net = ("NetFailed 28", ["serve", f"{room}/rings.db", taken.getsockname()[1], 1], None, {})
        met = set()
        for name, words, file, streams in (*faults(room), net):
            done = subprocess.run([*common.program(), *map(str, words)], stderr=subprocess.PIPE, timeout=60,
                                  **{"stdin": subprocess.DEVNULL, "stdout": subprocess.DEVNULL, **streams})
            for stream in streams.values():
                os.close(stream)
            means = NEW_FAULT if name == "StoreFault 24" and words[0] in ("renew", "found") else MEANINGS[name]
            want = [f"ringd: {name}", f"ringd: {file}: {means}" if file else f"ringd: {means}"]
            checks.same(f"{name}, by {words[0]}", done.stderr.decode().splitlines()[-2:], want)
            met.add(name)
        checks.same("these are all that the program has, but for want of memory", met, set(MEANINGS))
        refused = run_whole("import", f"{room}/rings.db", "none", "ops", 9, "/dev/null")
        checks.same("an import that is refused tells no fault, and so means nothing", refused, (1, b'400 {"fault":"BadHeader","rule":40}\n', b""))


def on_the_page(checks):
    """docs/commands.md shows what each fault means, in these words."""
    rows = re.findall(r"^\| (`\w+ \d+`.*?) \| (.+) \|$", (TOP / "docs/commands.md").read_text(), re.M)
    want = {f"`{name}`": means for name, means in {**MEANINGS, "NoMemory 23": NO_MEMORY}.items()}
    checks.same("each fault has its row, and no other stands there", dict(rows), {**want, "`StoreFault 24` of `renew` and `found`": NEW_FAULT})


def help_of(checks):
    """The help of each program has words for each of its arguments, and shows how many there are."""
    told = run_whole("--help")[2].decode()
    names = re.findall(r"^  (\w+)  ", told[told.index("Commands:"):], re.M)
    names = [name for name in names if name != "help"]
    checks.same("all fifteen programs are named", len(names), 15)
    found = {}
    for name in names:
        told = re.sub(r"\n {10}(?=\S)", " ", run_whole(name, "--help")[2].decode())
        found[name] = re.findall(r"^ +(?:-h, )?([<[]\w+[>\]](?:\.\.\.)?|--[\w-]+(?: <[\w-]+>)?) *(.*)$", told, re.M)
    checks.same("each argument has its words", [(name, written) for name in names for written, words in found[name] if not words], [])
    checks.same("as many as there are", {name: len(found[name]) for name in names},
                {"run": 2, "serve": 7, "service": 7, "loop": 6, "import": 7, "table": 3, "show": 6, "preview": 5, "moves": 6, "log": 4, "nodes": 8,
                 "export": 5, "renew": 3, "found": 6, "version": 1})


def main():
    checks = Checks("programs.py", 300)
    if not has("found"):
        checks.skip("all of it", "the program has no found")
        print("0 passed, 0 failed")
        return 0
    return checks.run(as_it_stands, rests, beside, refusals, version, meanings, on_the_page, help_of)


if __name__ == "__main__":
    sys.exit(main())
