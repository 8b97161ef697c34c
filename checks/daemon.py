#!/usr/bin/env python3
"""Checks `ringd service`, the program that is run as a service: checks/daemon.py

Starts the built program on free ports and looks at what it tells when it begins and why it ends, whom it hears, over which
hours it begins, and that it goes on. What its answers are, checks/service.py shows of `serve`; the two are one service.
"""
import os
import signal
import socket
import subprocess
import sys
import time

import common
from common import FIRST_REPLIES, Checks, compact, free_port, has, is_listening, lines, message, run, scratch, wait_until
from service import CREATE, answer, read_all, refused, request, ruled
from store import within

NOT_ALLOWED = refused(403, "Forbidden", "NotAllowed")
NO_RING = ruled(422, "Unprocessable Entity", "refused", "NoRing", 1)
DEVICES = "/v1/rings/object/devices"


class Daemon:
    """`service` over a file, on a port of its own."""

    def __init__(self, file, *words, port=None, **more):
        self.file, self.port = file, port or free_port()
        given = [*common.program(), "service", file, str(self.port), *words]
        self.process = subprocess.Popen(given, stdout=subprocess.PIPE, stderr=subprocess.PIPE, **more)
        self.is_up = wait_until(lambda: is_listening(self.port) or self.process.poll() is not None, 30)

    def __enter__(self):
        return self

    def __exit__(self, *_):
        if self.process.poll() is None:
            self.process.kill()
        self.process.communicate()

    def raw(self, given):
        """Sends bytes, ends the sending side, and answers all that comes back."""
        with socket.create_connection(("127.0.0.1", self.port), timeout=30) as one:
            one.sendall(given)
            one.shutdown(socket.SHUT_WR)
            return read_all(one)

    def post(self, text):
        return self.raw(request("POST", "/v1/requests", text, "Host: localhost\r\n"))

    def stopped(self, number=signal.SIGTERM):
        """Its status, what it wrote, and what it told, once it was stopped."""
        self.process.send_signal(number)
        return self.ended()

    def ended(self):
        """The same once it has ended by itself."""
        told, errors = self.process.communicate(timeout=30)
        return self.process.returncode, told, common.without_meanings(errors).decode()


def serving(daemon, numbers, rings):
    """The line that tells that it begins to serve."""
    return f"ringd: serving {daemon.file} on 127.0.0.1:{daemon.port}, numbers kept: {numbers} of 100000, rings: {rings}\n"


def begins(checks):
    """What it tells when it begins, and that it may be stopped at any time."""
    with scratch() as room:
        file = f"{room}/rings.db"
        with Daemon(file) as daemon:
            checks.same("a request on its own port", daemon.post(CREATE), answer(200, "OK", FIRST_REPLIES[0]))
            checks.same("it listens on 127.0.0.1 alone", common.addresses_of(daemon.port), {common.HERE})
            checks.same("it is stopped by SIGTERM, and told one line", daemon.stopped(), (-signal.SIGTERM, b"", serving(daemon, 0, 0)))
        with Daemon(file) as daemon:
            checks.same("a repeat after a start", daemon.post(CREATE), answer(200, "OK", FIRST_REPLIES[0]))
            checks.same("killed, and what it found is told", daemon.stopped(signal.SIGKILL), (-signal.SIGKILL, b"", serving(daemon, 1, 1)))
        with Daemon(file, stdin=subprocess.DEVNULL) as daemon:
            daemon.process.stderr.close()
            checks.same("it serves though nobody reads what it tells", daemon.post(CREATE), answer(200, "OK", FIRST_REPLIES[0]))


def heads():
    """Heads of requests, and whether they are heard: by a service that is given the names a.example and b.example."""
    yield "GET", "Host: 127.0.0.1\r\n", True
    yield "GET", "Host: LocalHost:8642\r\n", True
    yield "GET", "Host: a.example\r\n", True
    yield "GET", "Host: b.example:443\r\n", True
    yield "GET", "Host: c.example\r\n", False
    yield "GET", "Host: a.example.evil.example\r\n", False
    yield "GET", "Host: 127.0.0.1.evil.example\r\n", False
    yield "POST", "Host: evil.example\r\n", False
    yield "GET", "Host: localhost\r\nSec-Fetch-Site: none\r\n", True
    yield "GET", "Host: localhost\r\nSec-Fetch-Site: same-origin\r\n", True
    yield "GET", "Host: localhost\r\nSec-Fetch-Site: same-site\r\n", False
    yield "GET", "Host: localhost\r\nSec-Fetch-Site: cross-site\r\n", False
    yield "GET", "Host: localhost\r\nOrigin: http://localhost\r\n", True
    yield "POST", "Host: localhost\r\n", True
    yield "POST", "Host: localhost\r\nOrigin: http://localhost\r\n", False
    yield "POST", "Host: localhost\r\nOrigin: null\r\n", False
    yield "POST", "Host: localhost\r\nSec-Fetch-Site: same-origin\r\n", False
    yield "POST", "Host: localhost\r\nsec-fetch-site: none\r\n", False


def hears(checks):
    """Programs are heard, and pages and other names are not: nothing is decided for them, and nothing shown."""
    make = {"power": 1, "replicas": 1, "min_hours": 0}
    with scratch() as room, Daemon(f"{room}/rings.db", "--host", "a.example", "--host", "b.example") as daemon:
        for method, fields, is_heard in heads():
            message_of = message(2, "create", ring="late", **make) if is_heard else message(3, "create", ring="later", **make)
            body = message_of if method == "POST" else None
            told = daemon.raw(request(method, DEVICES if body is None else "/v1/requests", body, fields))
            want = NO_RING if body is None else answer(200, "OK", FIRST_REPLIES[0])
            what = compact(fields.replace("\r\n", ", ").removesuffix(", "))
            checks.same(f"{method}, {what}: {'heard' if is_heard else 'not heard'}", told, want if is_heard else NOT_ALLOWED)
        page = "Host: localhost\r\nOrigin: http://evil.example\r\n"
        big = request("POST", "/v1/requests", None, page + "Content-Length: 100000\r\n")
        checks.same("a page's POST is refused before its body is looked at", daemon.raw(big), NOT_ALLOWED)
        two = request("POST", "/v1/requests", message(4, "create", ring="never", **make), page)
        behind = request("GET", DEVICES, None, "Host: localhost\r\n")
        checks.same("and it is the last of its connection", daemon.raw(two + behind), NOT_ALLOWED)
        checks.same("what came before it is answered", daemon.raw(behind + two), NO_RING + NOT_ALLOWED)
        for ring in ("later", "never"):
            told = daemon.raw(request("GET", f"/v1/rings/{ring}/devices", None, "Host: localhost\r\n"))
            checks.same(f"the ring {ring} was never made", told, NO_RING)
        checks.same("two lines are not told for it", daemon.stopped()[2], serving(daemon, 0, 0))


def guard(checks):
    """It begins with no clock that is more than a day ahead of the greatest hour that its file keeps."""
    with scratch() as room:
        for ahead, begins_so in ((0, True), (24, True), (25, False), (1000, False), (-500, True)):
            if time.time() % 3600 > 3590:
                time.sleep(11)
            now = int(time.time()) // 3600
            file = f"{room}/{ahead}.db"
            run("run", "--file", file, given=lines((now - ahead, CREATE)))
            held = common.files_of(file)
            with Daemon(file) as daemon:
                what = f"a clock that is {ahead} hours ahead"
                if begins_so:
                    checks.show(f"{what}: it begins", daemon.is_up and daemon.process.poll() is None, daemon.process.poll())
                    continue
                line = f"ringd: this machine's clock says hour {now}, and the greatest hour in {file} is {now - ahead}; --hour-ok serves all the same\n"
                checks.same(f"{what}: it tells both hours, and ends with status 3", daemon.ended(), (3, b"", line + "ringd: ClockAhead 33\n"))
            checks.same(f"{what}: the file is as it was", common.files_of(file)[""], held[""])
            with Daemon(file, "--hour-ok") as daemon:
                checks.same(f"{what}, and --hour-ok: it serves", daemon.post(CREATE), answer(200, "OK", FIRST_REPLIES[0]))
        run("renew", f"{room}/1000.db", f"{room}/new.db")
        with Daemon(f"{room}/new.db") as daemon:
            checks.same("a renewed store goes on from the old hour", daemon.ended()[0], 3)


def ends(checks):
    """Why it ends by itself, and with which status."""
    with scratch() as room:
        file = f"{room}/rings.db"
        with socket.socket() as taken:
            taken.bind(("127.0.0.1", 0))
            taken.listen()
            with Daemon(file, port=taken.getsockname()[1]) as daemon:
                checks.same("a port that is taken", daemon.ended(), (3, b"", "ringd: NetFailed 28\n"))
        with open(f"{room}/none.db", "wb") as held:
            held.write(b"no database at all\n" * 500)
        with Daemon(f"{room}/none.db") as daemon:
            checks.same("a file that is no store", daemon.ended(), (3, b"", "ringd: BadStore 26\n"))
        with Daemon(f"{room}/away/rings.db") as daemon:
            checks.same("a folder that is not there", daemon.ended(), (1, b"", "ringd: StoreFault 24\n"))
        with Daemon(file) as first, Daemon(file) as second:
            checks.same("a file that is in use", second.ended(), (1, b"", "ringd: StoreFault 24\n"))
            checks.same("and who has it goes on", first.post(CREATE), answer(200, "OK", FIRST_REPLIES[0]))
        for bad in ([], ["0"], ["65536"], ["8642", "x"], ["8642", "--hour", "1"], ["8642", "--host"], ["8642", "--hour-ok", "yes"]):
            status, told, errors = run("service", file, *bad)
            checks.show(f"service FILE {' '.join(bad)} ends with status 2", status == 2 and not told and errors, (status, told, errors))


def store_fails(checks):
    """A store that fails is told, the rest of its connection is answered, and the program ends with status 1."""
    count = 15
    with scratch() as room:
        file = f"{room}/rings.db"
        # the log has so many bytes when it is made, and grows once they are full
        with Daemon(file, **within(270000)) as daemon:
            sent = [message(number, "create", ring=f"r{number}", power=7, replicas=1, min_hours=0) for number in range(1, count + 1)]
            told = daemon.raw(b"".join(request("POST", "/v1/requests", text, "Host: localhost\r\n") for text in sent))
            statuses = [int(part[:3]) for part in told.split(b"HTTP/1.1 ")[1:]]
            done = statuses.count(200)
            checks.show("some are done, one finds no room", 0 < done < count and statuses == [200] * done + [503] * (count - done), statuses)
            checks.same("the first is told as 24, those behind it as closed", [told.count(b'"rule":24'), told.count(b'"rule":25')], [1, count - 1 - done])
            checks.same("it ends with status 1 and says why", daemon.ended(), (1, b"", serving(daemon, 0, 0) + "ringd: StoreFault 24\n"))
        with Daemon(file) as daemon:
            again = [daemon.post(text) for text in sent]
            right = all(given.startswith(b"HTTP/1.1 200 OK") for given in again)
            checks.show("with room again all are done, each once", right, again)
            checks.same("and it is stopped", daemon.stopped()[0], -signal.SIGTERM)
        with Daemon(file) as daemon:
            checks.same("each number is kept once", daemon.stopped()[2], serving(daemon, count, count))


def goes_on(checks):
    """It serves more connections than a COUNT may be."""
    count = 65600
    with scratch() as room, Daemon(f"{room}/rings.db") as daemon:
        begun = time.monotonic()
        for _ in range(count):
            with socket.create_connection(("127.0.0.1", daemon.port), timeout=30) as one:
                one.shutdown(socket.SHUT_WR)
                one.recv(1)
        seconds = time.monotonic() - begun
        checks.same(f"after {count} connections ({seconds:.0f} s) it answers", daemon.post(CREATE), answer(200, "OK", FIRST_REPLIES[0]))
        checks.same("and has told nothing more", daemon.stopped(), (-signal.SIGTERM, b"", serving(daemon, 0, 0)))


def main():
    checks = Checks("daemon.py", 600)
    if not has("service"):
        checks.skip("the service", "the program has no service")
        print("0 passed, 0 failed")
        return 0
    return checks.run(begins, hears, guard, ends, store_fails, goes_on)


if __name__ == "__main__":
    sys.exit(main())
