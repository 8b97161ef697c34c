#!/usr/bin/env python3
"""Times the least that the toolchain takes on this machine: bench/least.py

A crate with one function of a line, one with a hundred of them, and a program of ten lines that makes a table in a file by the
kit's sqlite: each from nothing, in a scratch folder. docs/gate.md sets our crates beside them. It takes some six minutes, and
says nothing while other work runs on the machine.
"""
import resource
import subprocess
import sys
import tempfile
import time
from pathlib import Path

FUNCTION = """
/// The number, and {most} at most.
pub fn at_most_{most}(number: u32) -> u32
    ensures {{ result ≤ {most} }}
{{
    if number > {most} {{ {most} }} else {{ number }}
}}
"""
LIBRARY = """//! Numbers that are bounded.
#![tactic(auto)]
ghost use Rattle.std.specs.Prelude.{◌≤◌};
"""
PROGRAM = """//! Makes a table in a file.
#![tactic(auto)]

use sqlite::{Connection, Unknown};
use std::process::ExitCode;

fn main(rt: HostRuntime) -> ExitCode {
    let Ok(mut conn) = Connection::open_from(&rt, "notes", true, Unknown) else {
        return ExitCode::from(1);
    };
    match conn.execute_batch("CREATE TABLE note (id INTEGER PRIMARY KEY, title TEXT NOT NULL) STRICT") {
        Ok(()) => ExitCode::SUCCESS,
        Err(_) => ExitCode::from(2),
    }
}
"""


def functions(count):
    return LIBRARY + "".join(FUNCTION.format(most=number) for number in range(1, count + 1))


def timed(told, room, crate, uses, file, text, command):
    """Writes a repository of this one crate and runs a command in it."""
    source = room / "crates" / crate / "src"
    source.mkdir(parents=True)
    (source / file).write_text(text)
    (room / "crates.txt").write_text(f"{crate}: {uses}\n")
    (room / "HANDLES").write_text("Handles allowed: none.\n")
    subprocess.run(["git", "init", "-q", room], check=True)
    subprocess.run(["rt", "fmt"], cwd=source.parent, check=True, stdout=subprocess.DEVNULL)
    before, began = resource.getrusage(resource.RUSAGE_CHILDREN), time.monotonic()
    where = room if command == ["rt", "ci"] else source.parent
    ran = subprocess.run(command, cwd=where, stdin=subprocess.DEVNULL, stdout=subprocess.PIPE, stderr=subprocess.STDOUT, text=True)
    passed, after = time.monotonic() - began, resource.getrusage(resource.RUSAGE_CHILDREN)
    used = after.ru_utime + after.ru_stime - before.ru_utime - before.ru_stime
    if ran.returncode:
        sys.exit(f"{told}: not proved\n{ran.stdout[-2000:]}")
    print(f"{told}: {passed:.0f} seconds, {used:.0f} of a processor", flush=True)


def main():
    check = ["rt", "check", "--jobs", "1"]
    with tempfile.TemporaryDirectory() as scratch:
        room = Path(scratch)
        timed("a crate with one function", room / "one", "one", "", "lib.rt", functions(1), check)
        timed("a crate with a hundred", room / "hundred", "hundred", "", "lib.rt", functions(100), check)
        timed("a program of ten lines over sqlite, by rt ci", room / "program", "one_table", "sqlite", "main.rt", PROGRAM, ["rt", "ci"])


main()
