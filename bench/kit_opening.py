#!/usr/bin/env python3
"""Times the opening of a store by the kit's `sqlite` alone: bench/kit_opening.py [--small] [--write] [FOLDER]

A store can be opened in no less time and memory than a program takes that opens its file and does nothing else. This script makes
that program (see bench/kit.py), and has it and `run --file` open the same files in turns: one of the largest rings, sixteen of them,
and sixteen with 1,000 published texts and 99,900 numbers. FOLDER is where the files lie.
"""
import os
import shutil
import statistics
import sys
import tempfile
import time

from kit import built
from program import tell
from store import MILLI, ROUNDS, SMALL, opening, with_texts

SIZES = [(1, 0, 0), (2, 10, 1000)] if SMALL else [(1, 0, 0), (16, 0, 0), (16, 1000, 99900)]

SOURCE = """// Opens kit.db, and ends.
#![tactic(auto)]

use sqlite::{Connection, Error};
use std::process::ExitCode;

fn open(rt: &HostRuntime) -> Result<(), Error> {
    let _conn = Connection::open(rt, "kit.db")?;
    Ok(())
}

fn main(rt: HostRuntime) -> ExitCode {
    match open(&rt) {
        Ok(()) => ExitCode::SUCCESS,
        Err(_) => ExitCode::FAILURE,
    }
}
"""


def opening_of_kit(program, room, file):
    """The seconds that the kit takes to open a copy of a file and to end, and its memory in MB."""
    shutil.copy(file, f"{room}/kit.db")
    begun = time.perf_counter()
    child = os.posix_spawn("/usr/bin/env", ["env", "-C", room, str(program)], os.environ)
    _, status, used = os.wait4(child, 0)
    took = time.perf_counter() - begun
    if status:
        raise SystemExit(f"the kit's opening ended with status {status}")
    return took, used.ru_maxrss / 1024


def main():
    folder = next((word for word in sys.argv[1:] if not word.startswith("--")), ".")
    program = built("kit_opening", SOURCE)
    told = []
    with tempfile.TemporaryDirectory(prefix="ringd-bench-", dir=folder) as room:
        for rings, texts, numbers in SIZES:
            file = f"{room}/{rings}-{texts}-{numbers}.db"
            with_texts(file, rings, texts, numbers)
            ours, kits = [], []
            for _ in range(ROUNDS):
                ours.append(opening(file))
                kits.append(opening_of_kit(program, room, file))
            mine, alone = (statistics.median(it[0] for it in found) for found in (ours, kits))
            told.append([rings, texts, numbers or "few", f"{os.path.getsize(file) / 1e6:.0f} MB", f"{MILLI * mine:.0f} ms", f"{MILLI * alone:.0f} ms",
                         f"{alone / mine:.2f}", f"{max(it[1] for it in ours):.0f} MB", f"{max(it[1] for it in kits):.0f} MB"])
    tell("Opening a store by the kit's sqlite alone", "bench/kit_opening.py",
         ["rings", "texts", "numbers", "file", "`run --file`", "the kit's sqlite", "of it", "memory of `run --file`", "of the kit's"], told)


if __name__ == "__main__":
    main()
