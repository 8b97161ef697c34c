#!/usr/bin/env python3
"""Runs every benchmark of the built program, and writes the tables of docs/speed.md: bench/all.py [--small] [FOLDER]

FOLDER is where the files of the stores lie (the current one where none is given). What lies between `<!-- measured -->`
and the end of the page is written anew; what stands above stays. --small takes small sizes and writes nothing. The service
is timed only where the program has `serve`.
"""
import subprocess
import sys
from pathlib import Path

import program
from common import has

MARK = "<!-- measured -->"


def main():
    small = "--small" in sys.argv
    folder = next((word for word in sys.argv[1:] if not word.startswith("--")), ".")
    page = program.SPEED
    if not small and page.exists() and MARK in page.read_text():
        page.write_text(page.read_text().partition(MARK)[0] + MARK + "\n")
    scripts = ["rings.py", "growth.py", "store.py", "commits.py", "kit_opening.py"] + (["service.py", "reads.py"] if has("serve") else [])
    flags = ["--small"] if small else ["--write"]
    for script in scripts:
        done = subprocess.run([sys.executable, str(Path(__file__).parent / script), *flags, folder])
        if done.returncode:
            sys.exit(f"{script}: status {done.returncode}")


if __name__ == "__main__":
    main()
