#!/usr/bin/env python3
"""Times commits of one row or two: bench/commits.py [--small] [--write] [FOLDER]

Three programs put the same rows in the same order, each in a transaction of its own, in turns, each time into a new file: `run
--file`, which reads a numbered request for each and answers it; a program that does nothing else by the kit's `sqlite` (see
bench/kit.py); and Python's sqlite3, in WAL mode with synchronous=FULL. So the second tells what the first can't do better.
FOLDER is where the files lie (the current one where none is given).

A disk's pace changes from second to second. So a turn is short, there are many, and each ratio is the median of those of the
turns. The table has the processor's microseconds for a commit beside it, of the program and of the system for it; where valgrind
is there, a second one counts instructions, which are the same each time.
"""
import os
import re
import resource
import shutil
import sqlite3
import statistics
import subprocess
import sys
import tempfile
import time

from kit import built
from program import message, program, tell

SMALL = "--small" in sys.argv
COMMITS, TURNS, COUNTED = (100, 3, 50) if SMALL else (1500, 21, 500)
MICRO = 1000000

TABLES = [
    "CREATE TABLE meta (one INTEGER NOT NULL, schema INTEGER NOT NULL, hour INTEGER NOT NULL, UNIQUE (one)) STRICT",
    "CREATE TABLE ring (name TEXT NOT NULL, power INTEGER NOT NULL, replicas INTEGER NOT NULL, min_hours INTEGER NOT NULL, "
    "next_id INTEGER NOT NULL, version INTEGER NOT NULL, PRIMARY KEY (name)) STRICT",
    "CREATE TABLE request (caller TEXT NOT NULL, number INTEGER NOT NULL, place INTEGER NOT NULL, hour INTEGER NOT NULL, "
    "command TEXT NOT NULL, reply TEXT NOT NULL, PRIMARY KEY (caller, number), UNIQUE (place)) STRICT",
    "INSERT INTO meta VALUES (1, 2, 0)",
    "INSERT INTO ring VALUES ('object', 4, 2, 0, 0, 0)",
]
RING = "UPDATE ring SET power = 4, replicas = 2, min_hours = ?1, next_id = 0, version = ?1 WHERE name = 'object'"
REQUEST = "INSERT INTO request VALUES ('bench', ?1, ?1, 0, ?2, ?3)"
HOUR = "UPDATE meta SET schema = 2, hour = ?1 WHERE one = 1"

# What is put beside the request, and the line that has `run --file` put it.
KINDS = [
    ("a request", "alone", lambda number: message(number, "remove", id=60000)),
    ("a request and the hour", "hour", lambda number: message(number, "remove", hour=number, id=60000)),
    ("a request and the row of a ring", "ring", lambda number: message(number, "set_hours", min_hours=number % 1000)),
]

SOURCE = """// Puts rows into kit.db, each in a transaction of its own: kit_commits alone|hour|ring COUNT COMMAND REPLY
#![tactic(auto)]

use sqlite::{Connection, Error, FileStore, Transaction, params};
use sqlite_std_file::File;
use std::env;
use std::process::ExitCode;

#[derive(Clone, Copy)]
enum Also {
    Alone,
    Hour,
    Ring,
}

fn open(rt: &HostRuntime) -> Result<Connection<FileStore<File>>, Error> {
    let mut conn = Connection::open(rt, "kit.db")?;
TABLES    Ok(conn)
}

fn put_ring(tx: &mut Transaction<'_, FileStore<File>>, number: i64) -> Result<(), Error> {
    tx.execute("RING", params![&number])?;
    Ok(())
}

fn put_hour(tx: &mut Transaction<'_, FileStore<File>>, number: i64) -> Result<(), Error> {
    tx.execute("HOUR", params![&number])?;
    Ok(())
}

fn put_request(
    tx: &mut Transaction<'_, FileStore<File>>,
    number: i64,
    command: &str,
    reply: &str,
) -> Result<(), Error> {
    tx.execute("REQUEST", params![&number, command, reply])?;
    Ok(())
}

fn put(
    tx: &mut Transaction<'_, FileStore<File>>,
    also: Also,
    number: i64,
    command: &str,
    reply: &str,
) -> Result<(), Error> {
    match also {
        Also::Alone => put_request(tx, number, command, reply),
        Also::Hour => {
            put_request(tx, number, command, reply)?;
            put_hour(tx, number)
        }
        Also::Ring => {
            put_ring(tx, number)?;
            put_request(tx, number, command, reply)
        }
    }
}

fn add(
    conn: &mut Connection<FileStore<File>>,
    also: Also,
    number: i64,
    command: &str,
    reply: &str,
) -> Result<(), Error> {
    if !conn.is_autocommit() {
        return Ok(());
    }
    let mut tx = conn.transaction();
    put(&mut tx, also, number, command, reply)?;
    tx.commit()
}

fn add_all(
    rt: &HostRuntime,
    also: Also,
    count: i64,
    command: &str,
    reply: &str,
) -> Result<(), Error> {
    let mut conn = open(rt)?;
    for number in 1..=count {
        add(&mut conn, also, number, command, reply)?;
    }
    Ok(())
}

fn also_of(word: &str) -> Also {
    match word {
        "hour" => Also::Hour,
        "ring" => Also::Ring,
        _ => Also::Alone,
    }
}

fn main(rt: HostRuntime) -> ExitCode {
    let Ok(mut words) = env::args(&rt) else {
        return ExitCode::FAILURE;
    };
    let _ = words.next();
    let (Some(also), Some(count), Some(command), Some(reply)) =
        (words.next(), words.next(), words.next(), words.next())
    else {
        return ExitCode::FAILURE;
    };
    let count = count.as_str().parse().unwrap_or(0);
    match add_all(&rt, also_of(also.as_str()), count, command.as_str(), reply.as_str()) {
        Ok(()) => ExitCode::SUCCESS,
        Err(_) => ExitCode::FAILURE,
    }
}
"""


def quoted(text):
    return text.replace('"', '\\"')


def kit_program():
    """The program that puts the rows by the kit's sqlite."""
    made = "".join(f'    conn.execute("{quoted(table)}", &[])?;\n' for table in TABLES)
    source = SOURCE.replace("TABLES", made)
    for word, text in (("RING", RING), ("HOUR", HOUR), ("REQUEST", REQUEST)):
        source = source.replace(f'"{word}"', f'"{quoted(text)}"')
    return built("kit_commits", source, "alone", "0", "", "")


def empty(room):
    """A name for a new file, with nothing left of one that had it."""
    for end in ("", "-wal", "-shm"):
        if os.path.exists(f"{room}/kit.db{end}"):
            os.remove(f"{room}/kit.db{end}")
    return f"{room}/kit.db"


def made_store(room):
    """A new file with a ring."""
    file = empty(room)
    subprocess.run([*program(), "run", "--file", file], input=message(0, "create", power=4, replicas=2, min_hours=0).encode(),
                   stdout=subprocess.DEVNULL, check=True)
    return file


def timed(command, room, given=b""):
    """The seconds that a program takes to its end, those of the processor for it, and what it told."""
    before, begun = resource.getrusage(resource.RUSAGE_CHILDREN), time.perf_counter()
    done = subprocess.run(command, cwd=room, input=given, stdout=subprocess.PIPE, check=True)
    took, after = time.perf_counter() - begun, resource.getrusage(resource.RUSAGE_CHILDREN)
    return took, after.ru_utime + after.ru_stime - before.ru_utime - before.ru_stime, done.stdout


def by_ringd(room, line, count, before=()):
    """`run --file` over lines of so many requests: seconds, and the processor's."""
    file = made_store(room)
    given = "".join(line(number) for number in range(1, count + 1)).encode()
    took, used, told = timed([*before, *program(), "run", "--file", file], room, given)
    if told.count(b"\n") != count or b"fault" in told:
        raise SystemExit(f"not each of them was decided: {told[-200:]}")
    return took, used


def by_kit(room, made, also, count, texts, before=()):
    """The kit's sqlite over so many rows: seconds, and the processor's."""
    file = empty(room)
    took, used, _ = timed([*before, made, also, str(count), *texts], room)
    held = sqlite3.connect(file)
    if held.execute("SELECT count(*) FROM request").fetchone() != (count,):
        raise SystemExit("not each row is there")
    held.close()
    return took, used


def by_sqlite(room, also, texts):
    """Python's sqlite3 over the rows of a turn: seconds, and the processor's."""
    held = sqlite3.connect(empty(room), isolation_level=None)
    for mode in ("journal_mode = WAL", "synchronous = FULL", "locking_mode = EXCLUSIVE"):
        held.execute(f"PRAGMA {mode}")
    for table in TABLES:
        held.execute(table)
    used, begun = time.process_time(), time.perf_counter()
    for number in range(1, COMMITS + 1):
        held.execute("BEGIN")
        if also == "ring":
            held.execute(RING, (number,))
        held.execute(REQUEST, (number, *texts))
        if also == "hour":
            held.execute(HOUR, (number,))
        held.execute("COMMIT")
    took, used = time.perf_counter() - begun, time.process_time() - used
    held.close()
    return took, used


def texts_of(room, line):
    """The command and the reply that `run --file` puts for a line."""
    file = made_store(room)
    subprocess.run([*program(), "run", "--file", file], input=line(7).encode(), stdout=subprocess.DEVNULL, check=True)
    held = sqlite3.connect(file)
    found = held.execute("SELECT command, reply FROM request WHERE number = 7").fetchone()
    held.close()
    return found


def less_idle(busy, idle):
    """What the commits took: without the start, the opening and the end of the program."""
    return [(many - none) / COMMITS for many, none in zip(busy, idle)]


def instructions(act):
    """The instructions of a run under callgrind, where valgrind is there: `act` takes what stands before the command."""
    with tempfile.NamedTemporaryFile(prefix="ringd-callgrind-") as out:
        act(["valgrind", "--tool=callgrind", "-q", f"--callgrind-out-file={out.name}"])
        return int(re.search(r"(?m)^(?:summary|totals): (\d+)", open(out.name).read())[1])


def counted(run):
    """The instructions of a commit, from runs of few and of more."""
    few, more = (instructions(lambda before: run(count, before)) for count in (COUNTED, 3 * COUNTED))
    return (more - few) / (2 * COUNTED)


def in_turns(room, made, also, line, texts):
    """For each turn what a commit took of each of the three: seconds, and the processor's."""
    told = []
    for _ in range(TURNS):
        ours = less_idle(by_ringd(room, line, COMMITS), by_ringd(room, line, 0))
        kits = less_idle(by_kit(room, made, also, COMMITS, texts), by_kit(room, made, also, 0, texts))
        theirs = [spent / COMMITS for spent in by_sqlite(room, also, texts)]
        told.append((ours, kits, theirs))
    return told


def ratios(turns):
    """How many commits `run --file` makes of those of sqlite3, and of those of the kit, and the kit of those of sqlite3."""
    pairs = ((2, 0), (1, 0), (2, 1))
    return [f"{statistics.median(turn[over][0] / turn[under][0] for turn in turns):.2f}" for over, under in pairs]


def main():
    folder = next((word for word in sys.argv[1:] if not word.startswith("--")), ".")
    made = kit_program()
    times, counts = [], []
    with tempfile.TemporaryDirectory(prefix="ringd-bench-", dir=folder) as room:
        for what, also, line in KINDS:
            texts = texts_of(room, line)
            turns = in_turns(room, made, also, line, texts)
            paces = [statistics.median(1 / turn[side][0] for turn in turns) for side in range(3)]
            spent = [statistics.median(MICRO * turn[side][1] for turn in turns) for side in range(3)]
            times.append([what, *(f"{pace:.0f}" for pace in paces), *ratios(turns), *(f"{each:.0f}" for each in spent)])
            if shutil.which("valgrind"):
                ours = counted(lambda count, before: by_ringd(room, line, count, before))
                kits = counted(lambda count, before: by_kit(room, made, also, count, texts, before))
                counts.append([what, f"{ours:.0f}", f"{kits:.0f}", f"{kits / ours:.2f}"])
    tell("Commits a second", "bench/commits.py",
         ["rows of a commit", "`run --file`", "the kit's sqlite", "Python's sqlite3", "ours of sqlite3", "ours of the kit", "the kit of sqlite3",
          "µs of the processor, ours", "the kit's", "of sqlite3"], times)
    if counts:
        tell("Instructions of a commit", "bench/commits.py",
             ["rows of a commit", "`run --file`", "the kit's sqlite", "the kit's of ours"], counts)
    else:
        print("no valgrind: instructions are not counted")


if __name__ == "__main__":
    main()
