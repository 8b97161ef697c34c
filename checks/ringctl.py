#!/usr/bin/env python3
"""tools/ringctl against the built program: checks/ringctl.py

Every command by URL and over a file, with the words that people are told; refusals; words that are not of their form;
lost and broken answers, by a stand-in between ringctl and the service; ringctl killed at every step of a request, and
then each thing done exactly once; several at once; journals that are torn, damaged, copied or lost. It takes under a
minute.
"""
import fcntl
import json
import os
import re
import shlex
import socket
import subprocess
import sys
import threading
import time
from concurrent.futures import ThreadPoolExecutor
from pathlib import Path

import common
from common import TOP, Checks, free_port, lines, message, run, scratch
from service import Server

HOUR = 480000
STEPS = range(1, 9)
TABLE = """region,zone,address,port,name,weight
1,1,10.0.0.1,6200,sda,50.00
1,2,10.0.0.3,6200,sda,100.00
1,2,10.0.0.4,6200,sda,100.00
"""
DEVICES = """   id region  zone address          port     weight state   name
    0      1     1 10.0.0.1         6200      50.00 open    sda
    1      1     1 10.0.0.2         6200       0.50 open    sdb
    2      1     2 10.0.0.3         6200     100.00 open    sda
    3      1     2 10.0.0.4         6200     100.00 open    sda
"""
# What `finish` tells where nothing was left.
NOTHING_LEFT = (0, "nothing was left without an answer\n", "")


class Ctl:
    """ringctl with a folder of its own, where its journal lies, and the same options each time."""

    def __init__(self, room, *options):
        self.room, self.options, self.begun = room, [str(it) for it in options], 0
        self.journal = Path(room, "state/ringctl/journal")

    def start(self, *words, stop=None):
        kept = {name: text for name, text in os.environ.items() if not name.startswith("RINGCTL_")}
        settings = {**kept, "HOME": self.room, "XDG_STATE_HOME": f"{self.room}/state"}
        if stop:
            settings["RINGCTL_STOP_AT"] = str(stop)
        command = [sys.executable, str(TOP / "tools/ringctl"), *self.options, *map(str, words)]
        pipes = {name: subprocess.PIPE for name in ("stdout", "stderr")}
        return subprocess.Popen(command, env=settings, cwd=self.room, text=True, **pipes)

    def __call__(self, *words, stop=None):
        """The status, standard output, and standard error without the line on a journal that begins: it is counted."""
        made = self.start(*words, stop=stop)
        try:
            told, errors = made.communicate(timeout=50)
        finally:
            made.kill()  # where it has not ended by itself
        errors, begun = re.subn(BEGINS, "", errors, flags=re.M)
        self.begun += begun
        return made.returncode, told, errors

    def entries(self):
        return [json.loads(line) for line in self.journal.read_text().splitlines()]


BEGINS = (r"^ringctl: begins the journal \S+, with the caller [a-z0-9-]+; "
          r'if there was one before, see "A lost journal" in ringctl --help\n')


def url(port):
    return f"http://127.0.0.1:{port}"


def program_file(room):
    """The program as one path."""
    start = Path(room, "ringd-program")
    start.write_text(f'#!/bin/sh\nexec {shlex.join(common.program())} "$@"\n')
    start.chmod(0o755)
    return start


def done(text):
    return 0, f"{text}\n", ""


def refused(text):
    return 1, "", f"ringctl: {text}\n"


SHOWN = """   id region  zone address          port     weight state   wanted    has balance name
    0      1     1 10.0.0.1         6200     100.00 open         8      8    0.00 sda
    1      1     1 10.0.0.2         6200     100.00 open         8      8    0.00 sdb
    2      1     2 10.0.0.3         6200     100.00 open         8      8    0.00 sda
    3      1     2 10.0.0.4         6200     100.00 open         8      8    0.00 sda
balance 0.00 dispersion 0.00 version 7
"""
SHOWN_JSON = common.compact({
    "ring": "photos", "version": 7, "balance": 0, "dispersion": 0, "hour": HOUR, "locked": 16, "min_hours": 24, "next_id": 4,
    "power": 4, "published": [], "replicas": 2, "rests": 24, "seats": 32,
    "devices": [{"id": place, "region": 1, "zone": 1 + place // 2, "address": f"10.0.0.{place + 1}", "port": 6200,
                 "name": name, "weight": "100.00", "state": "open", "wanted": 8, "has": 8}
                for place, name in enumerate(["sda", "sdb", "sda", "sda"])]}) + "\n"
FORM = "rREGIONzZONE-ADDRESS:PORT/NAME, as r1z1-10.0.0.1:6200/sda"
# Every command, and what people are told of it.
SESSION = [
    ("devices photos", refused("there is no ring photos")),
    ("publish photos", refused("there is no ring photos")),
    ("create photos 4 2 24", done("photos: version 0, created")),
    ("create photos 4 2 24", refused("there is a ring photos already")),
    ("add photos r1z1-10.0.0.1:6200/sda 4000", done("photos: version 1, added d0")),
    ("add photos r2z1-10.0.0.1:6200/sda 4000", refused("photos has a device 10.0.0.1:6200/sda already")),
    ("rebalance photos", refused("photos: there are fewer open devices than replicas")),
    ("preview photos --seed 1", refused("photos: there are fewer open devices than replicas")),
    ("preview photos --seed 1 --json", (1, '{"refused":"TooFewDevices","rule":9}\n', "")),
    ("publish photos", refused("photos was never rebalanced")),
    ("nodes photos alice", refused("photos was never rebalanced")),
    ("add photos r1z1-10.0.0.2:6200/sdb 0.5", done("photos: version 2, added d1")),
    ("import photos rows.csv", done("photos: version 3, added 2, reweighted 1")),
    ("import photos moved.csv",
     refused("photos: row 2 is refused: the ring has the device in another region or zone; no row was imported")),
    ("import photos head.csv", refused("the first line of the CSV file is not region,zone,address,port,name,weight")),
    ("import photos field.csv",
     refused("row 1 of the CSV file: the weight is not of its form; "
             "it is a number from 0.00 to 1000000.00 with two decimals, as 100.00")),
    ("import photos short.csv", refused("row 1 of the CSV file has not six fields")),
    ("import photos none.csv", refused("none.csv cannot be read: No such file or directory")),
    ("devices photos", (0, DEVICES, "")),
    ("set_weight photos d1 100", done("photos: version 4, d1 weighs 100.00")),
    ("set_weight photos r1z1-10.0.0.1:6200/sda 100.5", done("photos: version 5, d0 weighs 100.50")),
    ("set_weight photos 0 100", done("photos: version 6, d0 weighs 100.00")),
    ("set_weight photos d7 50", refused("photos has no device 7")),
    ("set_weight photos r1z1-10.0.0.9:6200/sda 50", refused("photos has no device r1z1-10.0.0.9:6200/sda")),
    ("remove photos r9z1-10.0.0.2:6200/sdb",
     refused("photos has no device r9z1-10.0.0.2:6200/sdb, but d1 is r1z1-10.0.0.2:6200/sdb")),
    ("rebalance photos --seed 1", done("photos: version 7, 32 seats changed, balance 0.00 %, dispersion 0.00 %")),
    ("show photos", (0, SHOWN, "")),
    ("show photos --json", (0, SHOWN_JSON, "")),
    ("remove photos d3", done("photos: version 8, d3 is marked and leaves at the next rebalance")),
    ("remove photos r1z2-10.0.0.4:6200/sda", refused("photos: device 3 is marked and leaves at the next rebalance")),
    ("set_hours photos 0", done("photos: version 9, a partition that moved stays for 0 hours")),
    ("pretend_passed photos", done("photos: version 10, each partition may move")),
    ("raise_power photos", done("photos: version 11, each partition is split in two")),
    ("publish photos", done("photos: version 11, published")),
    ("--json publish photos", done('{"done":"publish","version":11}')),
    ("publish pictures --json", (1, '{"refused":"NoRing","rule":1}\n', "")),
    ("text photos 7", refused("photos was not published as version 7; it was as 11")),
    ("nodes photos a/b",
     refused("this is no path: an account and a container are 1 to 256 bytes without /, an object 1 to 1024")),
    ("balance pictures", refused("there is no ring pictures")),
    ("show pictures", refused("there is no ring pictures")),
    ("preview pictures", refused("there is no ring pictures")),
    ("locks pictures", refused("there is no ring pictures")),
    ("moves photos 7 11", refused("photos was not published as version 7; it was as 11")),
    ("rings", done(f"{'photos':<32} version 11")),
    ("rings --json", done('{"rings":[{"ring":"photos","version":11}]}')),
    ("balance photos --json", (2, "", "ringctl: balance is a text: show --json has the ring as JSON\n")),
    ("moves photos 11 11", done("0 seats in 0 partitions moved from version 11 to 11")),
    ("preview photos --seed x", (2, "", "ringctl: the seed is x; it is a whole number from 0 to 4294967295\n")),
    ("finish", NOTHING_LEFT),
    ("create cold 1 1 0", done("cold: version 0, created")),
    ("add cold r1z1-10.0.0.1:6200/sda 100", done("cold: version 1, added d0")),
    (f"rebalance_as cold 7 2 {HOUR}",
     done("cold: version 2, 2 seats changed as it was foretold, balance 0.00 %, dispersion 0.00 %")),
    (f"rebalance_as cold 7 2 {HOUR}",
     refused("cold was changed since the preview: it would not have version 2. Nothing was moved; look at a new preview")),
    ("rebalance_as cold 7 3 7",
     refused("cold: it is not hour 7, so other partitions may move. Nothing was moved; look at a new preview")),
    ("keep cold d9", refused("cold has no device 9: it has left, or never was; add makes a new one")),
    ("keep cold d0", refused("cold: device 0 is not marked: there is nothing to take back")),
    ("remove cold d0", done("cold: version 3, d0 is marked and leaves at the next rebalance")),
    ("keep cold r1z1-10.0.0.1:6200/sda", done("cold: version 4, d0 is marked no more, and stays")),
]
READS = ["status", "status --json", "balance photos", "nodes photos alice", "nodes photos alice --json", "nodes photos alice cats",
         "text photos 11", "nodes photos alice cats tom+&kitty.jpg", "preview photos --seed 3",
         "preview photos --seed 3 --json"]


def write_tables(room):
    Path(room, "rows.csv").write_text(TABLE)
    Path(room, "moved.csv").write_text(TABLE.replace("1,2,10.0.0.3", "1,1,10.0.0.3"))
    Path(room, "head.csv").write_text(TABLE[1:])
    Path(room, "field.csv").write_text(TABLE.replace("50.00", "50"))
    Path(room, "short.csv").write_text(TABLE.replace(",50.00", ""))
    Path(room, "ports.csv").write_text(TABLE.replace("6200,sda,50.00", "6201,sda,50.00"))


def session(checks):
    """Every command, by URL and over a file."""
    with scratch() as one, scratch() as other, Server(f"{one}/rings.db", hour=HOUR) as server:
        by_url = Ctl(one, "--url", url(server.port))
        by_file = Ctl(other, "--file", "rings.db", "--hour", HOUR, "--ringd", program_file(other))
        for room in (one, other):
            write_tables(room)
        none = refused("there is no file rings.db; create makes one")
        checks.same("a file that is not there", by_file("devices", "photos"), none)
        run("run", "--file", f"{other}/rings.db")
        with ThreadPoolExecutor(2) as workers:
            told = list(workers.map(lambda ctl: [ctl(*words.split()) for words, _ in SESSION], (by_url, by_file)))
            reads = list(workers.map(lambda ctl: [ctl(*words.split()) for words in READS], (by_url, by_file)))
        for place, (words, want) in enumerate(SESSION):
            checks.same(f"{words}: by URL", told[0][place], want)
            checks.same(f"{words}: over a file", told[1][place], want)
        for words, one_told, other_told in zip(READS, *reads):
            checks.same(f"{words}: the same both ways", one_told, other_told)
            checks.show(f"{words}: something", one_told[0] == 0 and one_told[1] and not one_told[2], one_told)
        told, reads = [it[:2] for it in reads], [it[2:] for it in reads]
        status = json.loads(told[0][1][1])
        kept = f"{status['kept']} of 100000 numbers are kept, 2 rings; the greatest hour is {status['hour']}\n"
        checks.same("the status is a line", told[0][0], (0, kept, ""))
        checks.show("balance is a table", reads[0][0][1].startswith("   id "), reads[0][0])
        nodes = r"partition \d+\nd\d r1z\d-10\.0\.0\.\d:6200/sd[ab]\nd\d r1z\d-10\.0\.0\.\d:6200/sd[ab]\n"
        checks.show("nodes are a line each", re.fullmatch(nodes, reads[0][1][1]), reads[0][1])
        text = reads[0][4][1]
        checks.show("text is the published text", text.startswith("swift-ring-text 1\nring photos\nversion 11\n"), text)
        shown = json.loads(by_url("preview", "photos", "--seed", "3", "--json")[1])
        moving = [device for device in shown["devices"] if device["gives"] or device["takes"]]
        lines_told = reads[0][6][1].splitlines()
        checks.show("a preview is a line of figures, one for each device that gives or takes, and what does it",
                    lines_told[0].startswith(f"{shown['changed']} seats would change in {shown['partitions']} partitions")
                    and len(lines_told) == 2 + len(moving) + (1 if moving else 0)
                    and lines_told[-1] == f"ringctl rebalance_as photos 3 12 {shown['hour']}", reads[0][6])
        logs = [re.sub("ctl-[a-z0-9]{8}", "ctl", ctl("log", "--from", "3")[1]).splitlines() for ctl in (by_url, by_file)]
        checks.same("a log is the same both ways", *logs)
        first = f"     3  {time.strftime('%Y-%m-%d %H:00', time.gmtime(int(HOUR) * 3600))} UTC  ctl 4"
        checks.show("and has a line for each request", logs[0][0].startswith(first) and logs[0][0].endswith(": done id 0 version 1"), logs[0][:1])
        checks.same("with each command", len({line.split("  ")[-1].split()[0] for line in logs[0] if line}), 12)
        later = json.loads(by_url("preview", "photos", "--seed", "3", "--hour", HOUR + 50, "--json")[1])
        checks.same("a preview of a later hour, by URL", later["hour"], HOUR + 50)
        why = "ringctl: --hour is for --file: a service decides at the hour of its own clock\n"
        checks.same("an hour for a change, by URL", by_url("publish", "photos", "--hour", HOUR), (2, "", why))
        first, second = (ctl.entries()[0]["caller"] for ctl in (by_url, by_file))
        are_made = re.fullmatch("ctl-[a-z0-9]{8}", first) and first != second
        checks.show("the caller is made at random", are_made, (first, second))
        warned = by_url("add", "photos", "r1z1-10.0.0.2:6201/sdb", "1")
        want = "ringctl: photos has d1, r1z1-10.0.0.2:6200/sdb, which differs in its port: is it the same disk?\n"
        checks.same("a disk that is there under another port", warned, (0, "photos: version 12, added d4\n", want))
        warned = by_file("import", "photos", "ports.csv")
        want = ("ringctl: row 1: photos has d0, r1z1-10.0.0.1:6200/sda, which differs in its port: "
                "is it the same disk?\n"
                "ringctl: photos: row 3 is refused: the device is marked and leaves at the next rebalance; "
                "no row was imported\n")
        checks.same("one in a file", warned, (1, "", want))
        run("run", "--file", f"{other}/rings.db", given=lines(*((HOUR, message(n, "publish", "many", "none")) for n in range(250))))
        places = [json.loads(line)["place"] for line in by_file("log", "--json")[1].splitlines()]
        checks.show("a log of several parts is told to its end", len(places) > 250 and places == list(range(len(places))), places[-3:])
        checks.same("a journal that begins is told once", (by_url.begun, by_file.begun), (1, 1))


def whole(what, text, least, most):
    return f"{what} is {text}; it is a whole number from {least} to {most}"


WEIGHT = "a number from 0 to 1000000.00 with at most two decimals, as 100 or 0.50"
DEVICE = "r1z1-10.0.0.1:6200/sda"
# Words that are not of their form, and what they should be.
BAD = [
    *((f"add photos {DEVICE} {text}", f"the weight is {text}; it is {WEIGHT}")
      for text in ("0.005", "-1", "1e3", "1000000.01", "10000000", "007", ".5", "5.", "x", "٣")),
    ("create photos 15 3 24", whole("the power", 15, 1, 14)),
    ("create photos 0 3 24", whole("the power", 0, 1, 14)),
    ("create photos 8 6 24", whole("the number of replicas", 6, 1, 5)),
    ("create photos 8 3 65536", whole("the number of hours", 65536, 0, 65535)),
    ("create Photos 8 3 24", "the ring is Photos; it is 1 to 32 of a to z, 0 to 9 and -, the first a letter"),
    ("set_hours photos 1.5", whole("the number of hours", "1.5", 0, 65535)),
    ("rebalance photos --seed 4294967296", whole("the seed", 4294967296, 0, 4294967295)),
    ("add photos r65536z1-10.0.0.1:6200/sda 1", whole("the region", 65536, 0, 65535)),
    ("add photos r1z65536-10.0.0.1:6200/sda 1", whole("the zone", 65536, 0, 65535)),
    ("add photos r1z1-10.0.0.1:0/sda 1", whole("the port", 0, 1, 65535)),
    ("add photos r1z1-10.0.0.256:6200/sda 1",
     "the address is 10.0.0.256; it is four numbers from 0 to 255 without leading zeros, as 10.0.0.1"),
    ("add photos r1z1-10.0.0.1:6200/s.a 1", "the name is s.a; it is 1 to 32 letters, digits, _ and -"),
    ("add photos 10.0.0.1:6200/sda 1", f"the device is 10.0.0.1:6200/sda; it is {FORM}"),
    ("remove photos x3", f"the device is x3; it is its number, as d3, or {FORM}"),
    ("remove photos d65536", whole("the device", 65536, 0, 65535)),
    ("text photos 08", whole("the version", "08", 0, 4294967295)),
    ("publish photos --caller 9", "the caller is 9; it is 1 to 32 of a to z, 0 to 9 and -, the first a letter"),
    ("publish photos --url ftp://a", "the URL is ftp://a; it is as http://127.0.0.1:8642, without a login, ? and #"),
    ("publish photos --file a.db --url http://a", "--url and --file: give only one of them"),
    ("publish photos --file a.db --ringd nothing", "there is no program nothing: --ringd PATH names it"),
    ("rebalance photos --until-done --hour 480000", "--until-done waits by the clock, and --hour holds it"),
]


def locks(checks):
    """The locks of a ring, a line for each hour at which some end."""
    with scratch() as room:
        with Server(f"{room}/rings.db", hour=HOUR) as server:
            ctl = Ctl(room, "--url", url(server.port))
            told = [ctl(*words.split()) for words in ("create photos 4 1 24", "add photos r1z1-10.0.0.1:6200/sda 100", "locks photos",
                                                      "rebalance photos --seed 1", "locks photos", "locks photos --json")]
        hour = int(HOUR)
        checks.same("where none is locked it is a line of figures", told[2], done(f"0 of 16 partitions are locked at hour {hour}"))
        want = f"16 of 16 partitions are locked at hour {hour}\nhours       hour partitions\n   24 {hour + 24:>10} {16:>10}"
        checks.same("and one for each hour", told[4], done(want))
        ends = [{"hours": 24, "partitions": 16}]
        checks.same("as JSON it is the service's", told[5], done(common.compact(
            {"hour": hour, "locked": 16, "min_hours": 24, "partitions": 16, "rests": ends, "ring": "photos"})))
        by_file = Ctl(room, "--file", "rings.db", "--ringd", program_file(room))
        now = [done(f"0 of 16 partitions are locked at hour {hour}") for hour in common.machine_hours()]
        told = by_file("locks", "photos")
        checks.show("over a file it is of the machine's hour", told in now, told)


def bad_words(checks):
    """Words that are not of their form: nothing is sent, and no journal is made."""
    with scratch() as room:
        ctl = Ctl(room)
        with ThreadPoolExecutor(4) as workers:
            told = list(workers.map(lambda it: ctl(*it[0].split()), BAD))
        for (words, want), got in zip(BAD, told):
            checks.same(words, got, (2, "", f"ringctl: {want}\n"))
        status, shown, errors = ctl("publish", "photos", "--hour", int(time.time()))
        is_told = status == 2 and "it is in whole hours since 1970, which are" in errors
        checks.show("seconds for hours", is_told, (status, shown, errors))
        status, shown, errors = ctl("dance", "photos")
        checks.show("a command that is none", status == 2 and not shown and "dance" in errors, (status, shown, errors))
        status, shown, errors = ctl("--help")
        teaches = status == 0 and "ringctl add photos r1z1" in shown and "A lost journal." in shown
        checks.show("help teaches", teaches, shown)
        checks.show("no journal was made", not ctl.journal.exists())


def dry(checks):
    """A dry run shows the message, sends nothing and writes no journal."""
    with scratch() as room:
        write_tables(room)
        ctl = Ctl(room, "--url", url(free_port()), "--dry-run")
        note = "ringctl: there is no journal yet, and ctl-xxxxxxxx stands for the name that it will make\n"
        body = '{"caller":"ctl-xxxxxxxx","do":"set_weight","id":3,"number":1,"ring":"photos","weight":"0.50"}\n'
        checks.same("a request", ctl("set_weight", "photos", "d3", "0.5"), (0, f"POST /v1/requests\n{body}", note))
        want = f"POST /v1/import/photos?caller=me&number=1\n{TABLE}"
        checks.same("an import", ctl("import", "photos", "rows.csv", "--caller", "me"), (0, want, ""))
        want = "GET /v1/rings/photos/nodes?account=a%20b&container=%2B\n"
        checks.same("a read", ctl("nodes", "photos", "a b", "+"), (0, want, ""))
        want = "GET /v1/rings/photos/balance\nGET /v1/rings/photos/devices\n"
        checks.same("a read of both tables", ctl("show", "photos"), (0, want, ""))
        asks = "ringctl: a dry run asks nobody: name the device by its number, as d3\n"
        checks.same("a device by its words", ctl("remove", "photos", DEVICE, "--caller", "me"), (2, "", asks))
        program = program_file(room)
        over = Ctl(room, "--file", "rings.db", "--hour", 7, "--ringd", program, "--dry-run", "--caller", "me")
        line = '7 {"caller":"me","do":"publish","number":1,"ring":"photos"}\n'
        checks.same("over a file", over("publish", "photos"), (0, f"{program} run --file {room}/rings.db\n{line}", ""))
        checks.show("no journal and no file was made", not ctl.journal.exists() and not Path(room, "rings.db").exists())


def until_done(checks):
    """Rebalances that are repeated until nothing is left to move."""
    row = "region,zone,address,port,name,weight\n1,1,10.0.0.1,6200,sda,{}\n1,2,10.0.0.2,6200,sda,100.00\n"
    with scratch() as room, Server(f"{room}/rings.db") as server:
        ctl = Ctl(room, "--url", url(server.port))
        Path(room, "even.csv").write_text(row.format("100.00"))
        Path(room, "heavy.csv").write_text(row.format("300.00"))
        ctl("create", "even", 3, 1, 24)
        ctl("import", "even", "even.csv")
        want = (0, "even: version 2, 8 seats changed, balance 0.00 %, dispersion 0.00 %\n",
                "ringctl: even: done, each device has what it wants\n")
        checks.same("at once, where no device lacks a seat", ctl("rebalance", "even", "--until-done"), want)
        ctl("create", "heavy", 2, 2, 24)  # device 0 wants 6 of 8 seats, and 4 partitions give it 4
        ctl("import", "heavy", "heavy.csv")
        ctl("set_hours", "heavy", 0)
        want = (0, "heavy: version 3, 8 seats changed, balance 100.00 %, dispersion 0.00 %\n"
                   "heavy: version 4, 0 seats changed, balance 100.00 %, dispersion 0.00 %\n",
                "ringctl: heavy: done, nothing moves any more; devices still lack 2 of their seats "
                "(docs/placement.md says why)\n")
        checks.same("at last, where nothing moves any more", ctl("rebalance", "heavy", "--until-done"), want)
        ctl("create", "late", 2, 2, 24)
        ctl("import", "late", "heavy.csv")
        made = ctl.start("rebalance", "late", "--until-done")
        try:
            said = made.stdout.readline(), made.stderr.readline()
            waits = (r"ringctl: late: publish version 2 and distribute it now; devices still lack 2 of their seats: "
                     r"waits until \d{4}-\d\d-\d\d \d\d:\d\d \S+, 2[34] h \d+ min\n")
            is_told = said[0].startswith("late: version 2, 8 seats changed") and re.fullmatch(waits, said[1])
            checks.show("it says what is to come, and how long it waits", is_told, said)
            checks.same("meanwhile others change rings", ctl("set_hours", "late", 23)[0], 0)
            Path(room, "other").mkdir()
            other = Ctl(f"{room}/other", "--url", url(server.port))
            again = other.start("rebalance", "late", "--until-done")
            said = again.stdout.readline(), again.stderr.readline(), again.stderr.readline()
            again.kill()
            again.communicate()
            is_told = said[0].startswith("late: version 4, 0 seats changed") and "2 of their seats: waits until" in said[-1]
            checks.show("where all is locked it waits, though its journal has set no hours", is_told, said)
        finally:
            made.kill()
            made.communicate()
        checks.same("nothing is left where it was killed", ctl("finish"), NOTHING_LEFT)
        refusal = refused("late: there are fewer open devices than replicas")
        ctl("set_weight", "late", "d0", 0)
        checks.same("a refusal ends it", ctl("rebalance", "late", "--until-done"), refusal)


# ---- ringctl is killed

def ready(caller, ring):
    """What makes a ring of version 2 with two devices."""
    row = {"region": 1, "zone": 1, "port": 6200, "name": "sda", "weight": "100.00"}
    return [
        (HOUR, message(1, "create", caller, ring, power=2, replicas=1, min_hours=24)),
        (HOUR, message(2, "add", caller, ring, address="10.0.0.1", **row)),
        (HOUR, message(3, "add", caller, ring, address="10.0.0.2", **row)),
    ]


KILLED = {"add": ["r1z1-10.0.0.3:6200/sda", "100"], "rebalance": [], "rebalance_as": [7, 3, HOUR], "import": ["new.csv"]}
# What finishes what was left: a call that does nothing else, or a read.
FINISHES = {"add": lambda ring: ["finish"], "rebalance": lambda ring: ["devices", ring], "rebalance_as": lambda ring: ["show", ring],
            "import": lambda ring: ["finish"]}
NEW_ROW = "region,zone,address,port,name,weight\n1,1,10.0.0.3,6200,sda,100.00\n"


def state(ctl, ring):
    """How many devices a ring has, and its version."""
    devices, balance = ctl("devices", ring), ctl("balance", ring)
    return devices[1].count("\n") - 1, int(balance[1].split()[-1])


def one_kill(ctl, do, ring, stop):
    """Kills a request at a step, and finishes it: what is wrong, none where nothing is."""
    Path(ctl.room, "new.csv").write_text(NEW_ROW)
    killed = ctl(do, ring, *KILLED[do], stop=stop)
    if killed != (-9, "", ""):
        return f"it was not killed: {killed}"
    status, _, errors = ctl(*FINISHES[do](ring))
    was_left = "was left without an answer" in errors
    if status != 0 or was_left != (3 <= stop <= 7):
        return f"what was left: {status}, {errors}"
    new = 1 if do in ("add", "import") else 0
    before, want = (2, 2), (2 + new, 3)
    told = state(ctl, ring)
    if told != (before if stop < 3 else want):
        return f"devices and version after it was finished: {told}"
    if stop < 3:
        again = ctl(do, ring, *KILLED[do])
        told = state(ctl, ring)
        if again[0] or told != want:
            return f"devices and version after it was given again: {told}, {again}"
    if ctl("finish") != NOTHING_LEFT:
        return "something was left at last"
    return None


def killed_by_url(checks):
    """ringctl killed at each step of a request by URL: afterwards it is done exactly once."""
    kinds = list(KILLED)
    for some in (kinds[:2], kinds[2:]):  # a file holds 16 rings
        with scratch() as room:
            kill_by_url(checks, room, [(do, f"{do}-{stop}".replace("_", "-"), stop) for do in some for stop in STEPS])


def kill_by_url(checks, room, cases):
    """Each case over a ring of its own in one file: the command, the ring and the step."""
    first = lines(*(it for _, ring, _ in cases for it in ready(ring, ring)))
    run("run", "--file", f"{room}/rings.db", given=first)
    with Server(f"{room}/rings.db", hour=HOUR) as server, ThreadPoolExecutor(5) as workers:
        def one(case):
            do, ring, stop = case
            os.mkdir(f"{room}/{ring}")
            return one_kill(Ctl(f"{room}/{ring}", "--url", url(server.port)), do, ring, stop)

        for (do, _, stop), wrong in zip(cases, workers.map(one, cases)):
            checks.show(f"{do}, step {stop}", wrong is None, wrong)


def killed_over_file(checks):
    """ringctl killed at each step of a request over a file: afterwards it is done exactly once."""
    cases = [(do, stop) for do in KILLED for stop in STEPS]
    with scratch() as top, ThreadPoolExecutor(5) as workers:
        program = program_file(top)

        def one(case):
            do, stop = case
            room = f"{top}/{do}-{stop}"
            os.mkdir(room)
            run("run", "--file", f"{room}/rings.db", given=lines(*ready("ops", "photos")))
            return one_kill(Ctl(room, "--file", "rings.db", "--hour", HOUR, "--ringd", program), do, "photos", stop)

        for (do, stop), wrong in zip(cases, workers.map(one, cases)):
            checks.show(f"{do}, step {stop}", wrong is None, wrong)


# ---- Answers that are lost

class Between:
    """Stands between ringctl and a service, and does to each connection what its plan says, at last nothing.

    A part of the plan is given the request and what asks the service, and answers the bytes to send back.
    """

    def __init__(self, port, plan=()):
        self.to, self.plan, self.seen = port, list(plan), []
        self.listener = socket.create_server(("127.0.0.1", 0))
        self.port = self.listener.getsockname()[1]
        threading.Thread(target=self.serve, daemon=True).start()

    def serve(self):
        while True:
            try:
                one, _ = self.listener.accept()
            except OSError:
                return
            with one:
                try:
                    given = read_request(one)
                    self.seen.append(given)
                    act = self.plan.pop(0) if self.plan else lambda given, ask: ask()
                    one.sendall(act(given, lambda: self.ask(given)))
                except OSError:
                    pass

    def ask(self, given):
        with socket.create_connection(("127.0.0.1", self.to), timeout=20) as one:
            one.sendall(given)
            told = b""
            while True:
                more = one.recv(65536)
                if not more:
                    return told
                told += more

    def posts(self):
        return [given.split(b"\r\n\r\n", 1)[1] for given in self.seen if given.startswith(b"POST")]

    def __enter__(self):
        return self

    def __exit__(self, *_):
        self.listener.shutdown(socket.SHUT_RDWR)
        self.listener.close()


def read_request(one):
    """The bytes of one request."""
    given = b""
    while b"\r\n\r\n" not in given:
        given += one.recv(65536) or b"\r\n\r\n"
    head, _, body = given.partition(b"\r\n\r\n")
    length = int((re.search(rb"(?i)content-length: (\d+)", head) or [0, 0])[1])
    while len(body) < length:
        more = one.recv(65536)
        if not more:
            break
        body += more
    return head + b"\r\n\r\n" + body


def plain(status, body, kind="text/html"):
    return f"HTTP/1.1 {status} X\r\nContent-Type: {kind}\r\nContent-Length: {len(body)}\r\n\r\n{body}".encode()


# What may happen to the first answer, and what ringctl says that it waits for.
LOST = {
    "an answer that is lost": (lambda given, ask: ask() and b"", "Remote end closed connection without response"),
    "a request that is lost": (lambda given, ask: b"", "Remote end closed connection without response"),
    "half an answer": (lambda given, ask: ask()[:-5], "IncompleteRead"),
    "half a head": (lambda given, ask: ask()[:20], ""),
    "503": (lambda given, ask: plain(503, '{"fault":"StoreFault","rule":24}'), "503 StoreFault"),
    "502 of a proxy": (lambda given, ask: ask() and plain(502, "<html>"), "502"),
    "504 of a proxy": (lambda given, ask: ask() and plain(504, "<html>"), "504"),
    "200 with other words": (lambda given, ask: ask() and plain(200, "<html>"), "an answer that is broken"),
}


def lost_answers(checks):
    """Answers that are lost or broken: the same is sent again, and done once."""
    with scratch() as room:
        rings = {what: f"r{place}" for place, what in enumerate(LOST)}
        first = lines(*(it for ring in rings.values() for it in ready(ring, ring)))
        run("run", "--file", f"{room}/rings.db", given=first)
        with Server(f"{room}/rings.db", hour=HOUR) as server, ThreadPoolExecutor(len(LOST)) as workers:
            def one(what):
                ring = rings[what]
                os.mkdir(f"{room}/{ring}")
                with Between(server.port, [LOST[what][0]]) as between:
                    told = Ctl(f"{room}/{ring}", "--url", url(between.port))("set_hours", ring, 5)
                    return told, between.posts(), url(between.port)

            for what, (told, posts, where) in zip(LOST, workers.map(one, LOST)):
                said = f"ringctl: waits for {where}: {LOST[what][1]}"
                is_done = told[:2] == (0, f"{rings[what]}: version 3, a partition that moved stays for 5 hours\n")
                is_said = said in told[2] and told[2].count("\n") == 1
                checks.show(f"{what}: done once, and told", is_done and is_said, told)
                checks.show(f"{what}: the same was sent twice", len(posts) == 2 and posts[0] == posts[1], posts)


def restarted(checks):
    """The service killed and started again between send and answer."""
    with scratch() as room:
        file = f"{room}/rings.db"
        run("run", "--file", file, given=lines(*ready("ops", "photos")))
        port, servers = free_port(), []

        def start():
            servers.append(Server(file, hour=HOUR, port=port))

        def kill_after(_given, ask):
            ask()
            servers[-1].stop()
            threading.Timer(0.7, start).start()
            return b""

        def kill_before(_given, _ask):
            servers[-1].stop()
            threading.Timer(0.7, start).start()
            return b""

        start()
        ctl = Ctl(room, "--url", url(port))
        for what, act, version in [("after it was decided", kill_after, 3), ("before it was decided", kill_before, 4)]:
            with Between(port, [act]) as between:
                status, told, errors = Ctl(room, "--url", url(between.port))("rebalance", "photos", "--seed", version)
                is_told = told.startswith(f"photos: version {version}, ") and "ringctl: waits for" in errors
                checks.show(f"{what}: done, and told", status == 0 and is_told, (status, told, errors))
                checks.show(f"{what}: the same was sent", len(set(between.posts())) == 1, between.posts())
            checks.same(f"{what}: done once", state(ctl, "photos"), (2, version))
        servers[-1].stop()
        at = f"no answer from {url(port)} within 1 seconds (Connection refused)"
        kept = (f"the request is in the journal {ctl.journal} as number 3, and the next call finishes it; "
                "to give it up, move the journal away")
        want = f"ringctl: {at}; {kept}\n"
        status, told, errors = ctl("set_hours", "photos", 3, "--wait", 1)
        checks.same("no service", (status, told, errors.splitlines(True)[-1]), (4, "", want))
        start()
        said = "ringctl: number 3, set_hours photos, was left without an answer: sent again\n"
        want = (0, "number 3: photos: version 5, a partition that moved stays for 3 hours\n", said)
        checks.same("and the next call finishes it", ctl("finish"), want)
        servers[-1].stop()


def strangers(checks):
    """Answers that are not the service's, and faults of the service."""
    for what, status, body, want in [
        ("404 of another server", 404, "<html>", "answers 404, and not in the words of ringd; nothing was done"),
        ("507", 507, '{"fault":"BookFull","rule":22}', "`ringd renew FILE NEW`"),
        ("409", 409, '{"fault":"NumberReused","rule":21}', "somebody else uses this caller's name, or the journal was"),
        ("400", 400, '{"fault":"Unreadable","rule":20}', "the service does not understand this: Unreadable"),
    ]:
        with scratch() as room, Between(0, [lambda given, ask: plain(status, body)]) as between:
            ctl = Ctl(room, "--url", url(between.port))
            told = ctl("publish", "photos")
            checks.show(what, told[:2] == (1, "") and want in told[2] and told[2].count("\n") == 1, told)
            checks.same(f"{what}: nothing is left", ctl("finish"), NOTHING_LEFT)
    with scratch() as room, Between(0, [lambda given, ask: plain(200, "<html>")] * 2) as between:
        ctl = Ctl(room, "--url", url(between.port))
        want = refused(f"{url(between.port)} answers 200, and not in the words of ringd")
        checks.same("a read of another server's page", ctl("devices", "photos"), want)
        checks.same("and of its nodes", ctl("nodes", "photos", "alice"), want)
    with scratch() as room:
        plan = [lambda given, ask: b"", lambda given, ask: plain(401, "<html>")]
        with Between(0, plan) as between:
            ctl = Ctl(room, "--url", url(between.port))
            told = ctl("publish", "photos")
            stays = told[0] == 4 and "as number 1" in told[2]
            checks.show("401 after an answer that was lost: it stays in the journal", stays, told)
    with scratch() as room, Between(0, [lambda given, ask: plain(401, "<html>")] * 2) as between:
        ctl = Ctl(room, "--url", url(between.port))
        where = f"{url(between.port)} answers 401: it asks for another login than ~/.netrc has for 127.0.0.1"
        checks.same("a login that is wanted", ctl("publish", "photos"), refused(f"{where}; nothing was done"))
        Path(room, ".netrc").write_text("machine 127.0.0.1 login ops password secret\n")
        Path(room, ".netrc").chmod(0o600)
        ctl("publish", "photos")
        logins = [b"Authorization: Basic b3BzOnNlY3JldA==" in given for given in between.seen]
        checks.same("a login is given where ~/.netrc has one", logins, [False, True])


# ---- Journals

def at_once(checks):
    """Several at once wait for one another."""
    with scratch() as room, Server(f"{room}/rings.db", hour=HOUR) as server:
        ctl = Ctl(room, "--url", url(server.port))
        ctl("create", "photos", 2, 1, 24)
        started = [ctl.start("add", "photos", f"r1z1-10.0.0.{place}:6200/sda", "1") for place in range(6)]
        told = [(made.communicate(timeout=50), made.returncode)[1] for made in started]
        entries = ctl.entries()[1:]
        checks.same("six add a device each", (told, state(ctl, "photos")), ([0] * 6, (6, 6)))
        order = [(entry["number"], "to" in entry) for entry in entries]
        want = [(number, is_request) for number in range(1, 8) for is_request in (True, False)]
        checks.same("each is answered before the next is written", order, want)
        with open(ctl.journal, "rb") as held:
            fcntl.flock(held, fcntl.LOCK_EX)
            made = ctl.start("publish", "photos")
            said = made.stderr.readline()
            want = f"ringctl: waits for another ringctl, which has the journal {ctl.journal}\n"
            checks.same("one says that it waits", said, want)
            time.sleep(0.2)
            checks.show("and waits", made.poll() is None)
            late = ctl("publish", "photos", "--wait", 0)
            want = f"ringctl: another ringctl has the journal {ctl.journal}; nothing was sent\n"
            checks.same("but not for ever", (late[0], late[2].splitlines(True)[-1]), (4, want))
        told = (made.communicate(timeout=50)[1], made.returncode)
        checks.same("until it is its turn", told, ("ringctl: photos was never rebalanced\n", 1))


def torn(checks):
    """Lines of a journal that are torn, and journals that are damaged."""
    with scratch() as room, Server(f"{room}/rings.db", hour=HOUR) as server:
        ctl = Ctl(room, "--url", url(server.port))
        ctl("create", "photos", 2, 1, 24)
        whole_text, hours = ctl.journal.read_bytes(), 0  # the version is as often raised as the hours are set
        for what, more in [("half a request", b'{"body":"{\\"caller'),
                           ("half a line that ends", b'{"body":"\0\0\0\0"\n'),
                           ("nothing but zeros", b"\0" * 50), ("half an answer", b'{"answer":"{\\"done')]:
            held = whole_text if what != "half an answer" else whole_text[:whole_text.rindex(b'{"answer')]
            ctl.journal.write_bytes(held + more)
            hours += 1
            told = ctl("set_hours", "photos", hours)
            is_left = "was left without an answer: sent again\n" in told[2]
            want = (0, f"photos: version {hours}, a partition that moved stays for {hours} hours\n")
            checks.same(f"{what}: the call is done", told[:2], want)
            checks.show(f"{what}: and only a request is finished before", is_left == (what == "half an answer"), told)
            whole_text = ctl.journal.read_bytes()
            checks.same(f"{what}: the journal is whole", len(ctl.entries()), 2 * hours + 3)
        for what, text in [("a torn first line", b'{"caller":"ct'), ("an empty file", b"")]:
            ctl.journal.write_bytes(text)
            hours += 1
            checks.same(what, ctl("set_hours", "photos", hours)[0], 0)
        damaged = whole_text.replace(b'"number"', b'"numbe', 1)
        for what, text in [("no journal", b"some words"), ("one line of words", b"some words\n"),
                           ("a line that is damaged", damaged),
                           ("a line of another kind", whole_text + b'{"new":1}\n')]:
            ctl.journal.write_bytes(text)
            want = f"{ctl.journal} is no journal of ringctl, or is damaged: --journal names another one"
            checks.same(what, ctl("publish", "photos"), refused(want))
            checks.same(f"{what}: stays as it was", ctl.journal.read_bytes(), text)


def callers(checks):
    """A journal of another caller, one that was copied, one that is lost, and a request to another place."""
    with scratch() as room, Server(f"{room}/rings.db") as server, Server(f"{room}/other.db") as other:
        ctl = Ctl(room, "--url", url(server.port))
        checks.same("a caller that is named", ctl("create", "photos", 2, 1, 24, "--caller", "desk-1")[0], 0)
        checks.same("the first line", ctl.entries()[0], {"caller": "desk-1"})
        checks.same("named again", ctl("set_hours", "photos", 1, "--caller", "desk-1")[0], 0)
        want = f"ringctl: the journal {ctl.journal} is that of the caller desk-1: --caller is for a new one\n"
        checks.same("another one", ctl("set_hours", "photos", 2, "--caller", "desk-2"), (2, "", want))
        copy = ctl.journal.read_bytes()
        ctl("set_hours", "photos", 3)
        ctl.journal.write_bytes(copy)
        status, _, errors = ctl("set_hours", "photos", 4)
        is_told = status == 1 and "somebody else uses this caller's name" in errors
        checks.show("a journal that was put back", is_told, (status, errors))
        ctl.journal.unlink()
        checks.same("a journal that is lost: a new caller", ctl("set_hours", "photos", 5)[0], 0)
        checks.show("with a name of its own", ctl.entries()[0]["caller"].startswith("ctl-"), ctl.entries()[0])
        killed = ctl("create", "videos", 2, 1, 24, stop=3)
        told = Ctl(room, "--url", url(other.port))("create", "videos", 3, 1, 24)
        is_sent = killed[0] == -9 and told[0] == 0 and "number 2: videos: version 0" in told[2]
        checks.show("what was left goes to where it was meant for", is_sent, told)
        statuses = [it.ask("GET", "/v1/rings/videos/devices")[0] for it in (server, other)]
        checks.same("and it is there", statuses, [200, 200])
        mode = (ctl.journal.stat().st_mode & 0o777, ctl.journal.parent.stat().st_mode & 0o777)
        checks.same("nobody else reads the journal", mode, (0o600, 0o700))


def used_caller(checks):
    """A journal that begins with a caller who has sent requests before: no old answer is told as that of a new request."""
    with scratch() as room, scratch() as other, Server(f"{room}/rings.db") as server:
        to = ["--url", url(server.port)]
        first, second = Ctl(room, *to), Ctl(other, *to)
        for words in ("create photos 2 1 0", "add photos r1z1-10.0.0.1:6200/sda 100", "rebalance photos --seed 7"):
            first(*words.split(), "--caller", "carol")
        told = second("rebalance", "photos", "--seed", 7, "--caller", "carol")
        checks.show("it goes on behind the last number of its caller", told[0] == 0 and told[1].startswith("photos: version 3, 0 seats changed")
                    and "with the caller carol, which has used numbers up to 3; " in told[2], told)
        checks.same("and keeps from where", second.entries()[0], {"caller": "carol", "first": 4})
        checks.same("its request has the next number", [it["number"] for it in second.entries() if "to" in it], [4])
        checks.same("and the one behind it the next", second("set_hours", "photos", 3)[0], 0)
        third = Ctl(room, *to, "--journal", f"{room}/third")
        killed, told = third("set_hours", "photos", 4, "--caller", "carol", stop=1), third("set_hours", "photos", 4)
        is_done = killed[0] == -9 and told[0] == 0 and told[1].startswith("photos: version 5, ")
        checks.show("killed before its first request, too", is_done, (killed, told))
    with scratch() as room, scratch() as other:
        over = ["--file", f"{room}/rings.db", "--hour", HOUR]
        one, two = (Ctl(it, *over, "--ringd", program_file(room)) for it in (room, other))
        one("create", "photos", 2, 1, 0, "--caller", "carol")
        checks.show("over a file", "numbers up to 1; " in two("set_hours", "photos", 2, "--caller", "carol")[2], two.entries()[0])


def busy_file(checks):
    """A file that a service has: it waits until the service has gone."""
    with scratch() as room:
        run("run", "--file", f"{room}/rings.db", given=lines(*ready("ops", "photos")))
        ctl = Ctl(room, "--file", "rings.db", "--ringd", program_file(room))
        with Server(f"{room}/rings.db", hour=HOUR) as server:
            made = ctl.start("rebalance", "photos")
            begun, said = made.stderr.readline(), made.stderr.readline()
            checks.show("it says that it begins a journal", re.fullmatch(BEGINS, begun), begun)
            why = "StoreFault 24: another program has the file, or it cannot be read and written"
            checks.same("it says what it waits for", said, f"ringctl: waits for {room}/rings.db: {why}\n")
            server.stop()
        told, _ = made.communicate(timeout=50)
        checks.show("and goes on", made.returncode == 0 and told.startswith("photos: version 3, 4 seats changed"), told)
        Path(room, "bad.db").write_bytes(b"no database")
        told = Ctl(room, "--file", "bad.db", "--ringd", program_file(room))("publish", "photos")
        checks.same("a file that is no store", told, refused(f"{room}/bad.db: BadStore 26; nothing was done"))


def main():
    checks = Checks("ringctl.py", 900)
    return checks.run(session, locks, used_caller, bad_words, dry, until_done, killed_by_url, killed_over_file, lost_answers, restarted,
                      strangers, at_once, torn, callers, busy_file)


if __name__ == "__main__":
    sys.exit(main())
