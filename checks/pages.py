#!/usr/bin/env python3
"""Runs every command that a page shows: checks/pages.py [--write] [PAGE ..]

In README.md and docs/*.md a fenced block of the kind `console` shows a session. A line that begins with `$ ` is a
command, a line that begins with `> ` goes on with it, and what follows is what it prints, standard error included. The
commands of a page are run by one `sh`, in a new folder of its own, with `ringd`, `ringctl` and the folder `examples`
there. What they print is compared exactly; a line `...` alone stands for any lines. A page that shows something else fails.

A page that uses `sqlite3` is passed over where that is not there.

A page writes the port 8642; the check takes a free one in its place. After a command that ends with `&` it waits until
somebody listens there. At the end of a page all that it started is stopped. A fenced block of the kind `file NAME` is a
file of the folder, which stands there before the first command of the page.

Where no page is named, the files of deploy/ are tried as well: each stands on a page, and systemd, nft and nginx take
them, where they are on this machine.

--write puts what the program prints in place of what a page shows, where the two differ. Read the difference before you
keep it: the page then says what the program does, right or wrong.
"""
import os
import re
import shlex
import shutil
import signal
import subprocess
import sys
import time
from pathlib import Path

import common
import deploy
from common import TOP, Checks, free_port, has, is_listening, scratch, wait_until

PORT = "8642"
END = "--- that was all of it ---"


def blocks(text):
    """The fenced blocks of a page: their kind, the line at which they begin, and their lines."""
    found, kind, at, held = [], None, 0, []
    for number, line in enumerate(text.splitlines(), 1):
        fence = re.match(r"^```(.*)$", line)
        if fence and kind is None:
            kind, at, held = fence[1].strip(), number, []
        elif fence:
            found.append((kind, at, held))
            kind = None
        elif kind is not None:
            held.append(line)
    return found


def commands(at, held):
    """The commands of a session: the line of each, its text, and the lines that it prints."""
    found = []
    for number, line in enumerate(held, at + 1):
        if line.startswith("$ "):
            found.append((number, line[2:], []))
        elif line.startswith("> ") and found and not found[-1][2]:
            found[-1] = (found[-1][0], found[-1][1] + "\n" + line[2:], [])
        elif found:
            found[-1][2].append(line)
        else:
            raise ValueError(f"line {number} shows an answer before the first command")
    return found


def is_as_shown(printed, want):
    """Whether lines are those that a page shows, `...` standing for any lines."""
    if not want:
        return not printed
    if want[0] == "...":
        return any(is_as_shown(printed[skip:], want[1:]) for skip in range(len(printed) + 1))
    return bool(printed) and printed[0] == want[0] and is_as_shown(printed[1:], want[1:])


class Session:
    """One `sh` in a folder of its own."""

    def __init__(self, room):
        self.port = str(free_port())
        os.makedirs(f"{room}/bin")
        os.makedirs(f"{room}/here")
        shutil.copytree(TOP / "examples", f"{room}/here/examples")
        start = f"{room}/bin/ringd"
        Path(start).write_text(f'#!/bin/sh\nexec {shlex.join(common.program())} "$@"\n')
        os.chmod(start, 0o755)
        os.symlink(TOP / "tools/ringctl", f"{room}/bin/ringctl")
        settings = {**os.environ, "PATH": f"{room}/bin:{os.environ['PATH']}", "LC_ALL": "C.UTF-8", "HOME": room,
                    "XDG_STATE_HOME": f"{room}/state"}
        self.here = f"{room}/here"
        self.shell = subprocess.Popen(
            ["sh"], cwd=self.here, env=settings, stdin=subprocess.PIPE, stdout=subprocess.PIPE, stderr=subprocess.STDOUT,
            start_new_session=True)
        os.set_blocking(self.shell.stdout.fileno(), False)

    def do(self, text, seconds=60):
        """Runs a command, and answers the lines that it printed."""
        text = text.replace(PORT, self.port)
        self.shell.stdin.write(f"{text}\nprintf '\\n%s\\n' '{END}'\n".encode())
        self.shell.stdin.flush()
        printed, end = b"", time.monotonic() + seconds
        while not printed.endswith(f"\n{END}\n".encode()):
            more = self.shell.stdout.read()
            if more:
                printed += more
            elif more == b"" or time.monotonic() > end:
                return [*printed.decode(errors="replace").splitlines(), "(the command did not end)"]
            else:
                time.sleep(0.005)
        if text.rstrip().endswith("&"):
            wait_until(lambda: is_listening(int(self.port)), 30)
        told = printed[:-len(END) - 2].decode(errors="replace").replace(self.port, PORT)
        return (told[:-1] if told.endswith("\n") else told).split("\n") if told else []

    def close(self):
        os.killpg(self.shell.pid, signal.SIGKILL)
        self.shell.communicate()


def check_page(checks, page):
    """Runs the sessions of one page."""
    name, found = page.relative_to(TOP), blocks(page.read_text())
    sessions = [commands(at, held) for kind, at, held in found if kind == "console"]
    if not sessions:
        return
    missing = [word for word in ("serve", "service", "renew", "found", "version") if re.search(rf"(?m)^\$ ringd {word}\b", page.read_text()) and not has(word)]
    if missing:
        return checks.skip(str(name), f"the program has no {' and no '.join(missing)}")
    if "$ sqlite3 " in page.read_text() and not shutil.which("sqlite3"):
        return checks.skip(str(name), "sqlite3 is not on this machine")
    count, wrong, changes = sum(map(len, sessions)), 0, []
    with scratch() as room:
        session = Session(room)
        try:
            for kind, _, held in found:
                if kind.startswith("file "):
                    Path(session.here, kind[5:]).write_text("".join(f"{line}\n" for line in held).replace(PORT, session.port))
            for number, text, want in (it for held in sessions for it in held):
                printed = session.do(text)
                if not is_as_shown(printed, want):
                    wrong += 1
                    changes.append((number + text.count("\n"), len(want), printed))
                    told = "\n    ".join(["", f"$ {text}", *printed, "--- and the page shows", *want])
                    checks.show(f"{name}, line {number}", False, told)
        finally:
            session.close()
    if "--write" in sys.argv:
        write(page, changes)
    checks.show(f"{name}: {count} commands print what the page shows", not wrong, f"{wrong} do not")


def write(page, changes):
    """Puts what was printed behind the command that ends at a line, in place of so many lines."""
    held = page.read_text().splitlines()
    for number, count, printed in reversed(changes):
        held[number:number + count] = printed
    page.write_text("".join(f"{line}\n" for line in held))


def main():
    pages = [Path(name).resolve() for name in sys.argv[1:] if name != "--write"] or [TOP / "README.md", *sorted((TOP / "docs").glob("*.md"))]
    checks = Checks("pages.py", 60 + 60 * len(pages))

    def of(page):
        def part(checks):
            check_page(checks, page)
        part.__doc__ = str(page.relative_to(TOP))
        return part

    parts = [of(page) for page in pages if "```console" in page.read_text()]
    if len(pages) > 1:
        parts += [deploy.are_shown, deploy.guard, deploy.probing, deploy.units, deploy.firewall, deploy.proxy]
    return checks.run(*parts)


if __name__ == "__main__":
    sys.exit(main())
