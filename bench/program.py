"""Starts the built program and asks it line by line, with times; and writes figures into docs/speed.md."""
import json
import os
import platform
import re
import subprocess
import sys
import time
from pathlib import Path

TOP = Path(__file__).resolve().parent.parent
sys.path.append(str(TOP / "checks"))
from common import program  # noqa: E402

SPEED = TOP / "docs" / "speed.md"


def message(number, do, hour=0, **more):
    """The line of a numbered request at an hour on the ring `object`."""
    body = {"caller": "bench", "number": number, "do": do, "ring": "object", **more}
    return f"{hour} " + json.dumps(body, separators=(",", ":")) + "\n"


def rows(places):
    """The rows of an import of devices at these places: in 3 regions, 24 in each zone number, 4 at each address."""
    return [[1 + place % 3, place // 24, f"10.0.{place // 4}.1", 6200, f"disk{place}", "100.00"] for place in places]


def start(file=None):
    """A run of `ringd run` of its own, over memory or over a file."""
    over = ["--file", str(file)] if file else []
    return subprocess.Popen([*program(), "run", *over], stdin=subprocess.PIPE, stdout=subprocess.PIPE)


def ask(program, line):
    """The answer to a line, and the seconds from the line's last byte written to the answer's last byte read."""
    program.stdin.write(line.encode())
    begun = time.perf_counter()
    program.stdin.flush()
    answer = program.stdout.readline().decode().rstrip("\n")
    return answer, time.perf_counter() - begun


def ask_balance(program):
    """The last line of the table of balances of the ring `object`, and the seconds until it was read."""
    program.stdin.write(b"? balance object\n")
    begun = time.perf_counter()
    program.stdin.flush()
    line = ""
    while not line.startswith("balance "):
        line = program.stdout.readline().decode().rstrip("\n")
    return line, time.perf_counter() - begun


def timed_run(*words, given=b""):
    """Runs the program to its end: its standard output, and the seconds."""
    begun = time.perf_counter()
    done = subprocess.run([*program(), *map(str, words)], input=given, stdout=subprocess.PIPE)
    seconds = time.perf_counter() - begun
    if done.returncode:
        raise SystemExit(f"{words}: status {done.returncode}")
    return done.stdout, seconds


def most_memory(process):
    """The most memory that a running process had so far, in MB."""
    found = re.search(r"(?m)^VmHWM:\s+(\d+) kB$", Path(f"/proc/{process.pid}/status").read_text())
    return int(found[1]) / 1024


def machine():
    """The processor, the date and the commit, in a line."""
    names = re.findall(r"(?m)^model name\s*: (.*)$", Path("/proc/cpuinfo").read_text())
    commit = subprocess.run(["git", "rev-parse", "--short", "HEAD"], cwd=TOP, capture_output=True, text=True).stdout.strip()
    changed = subprocess.run(["git", "status", "--porcelain", "crates"], cwd=TOP, capture_output=True, text=True).stdout
    name = names[0] if names else platform.processor() or platform.machine()
    return f"{os.cpu_count()} x {name}, {time.strftime('%Y-%m-%d')}, commit {commit}{' with changes' if changed else ''}"


def tell(title, made_by, columns, rows):
    """Prints a table, and with --write puts it in place of the section of this title in docs/speed.md."""
    table = [f"| {' | '.join(columns)} |", "|" + "---|" * len(columns)]
    table += [f"| {' | '.join(map(str, row))} |" for row in rows]
    section = f"## {title}\n\n`{made_by}` on {machine()}.\n\n" + "\n".join(table) + "\n"
    print(section)
    if "--write" in sys.argv:
        text = SPEED.read_text() if SPEED.exists() else "# Speed\n\nFigures that scripts under `bench/` have measured.\n"
        found = re.search(rf"(?ms)^## {re.escape(title)}\n.*?(?=^## |\Z)", text)
        text = text[:found.start()] + section + "\n" + text[found.end():] if found else text.rstrip() + "\n\n" + section
        SPEED.write_text(text.rstrip() + "\n")
