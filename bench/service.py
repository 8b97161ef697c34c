#!/usr/bin/env python3
"""Times the service: bench/service.py [--small] [--write] [FOLDER]

Requests a second over one connection, one at a time and many at once in flight, and over many connections: node lookups,
a device table of 256 devices, repeats, and new requests that are stored; and how long the server computes for an answer
of one connection, by itself and in the kernel: what is left of the time is the client's, and waiting. Beside it in the same run: `wrk`, where it is
there; nginx, where it is there, with a file of the same size; Python's http.server with a lookup by MD5 in a list behind
it. FOLDER is where the file lies. --small takes small sizes, --write puts the tables into docs/speed.md.
"""
import contextlib
import hashlib
import http.server
import json
import multiprocessing
import os
import pathlib
import re
import shutil
import socket
import subprocess
import sys
import tempfile
import threading
import time

from program import message, tell, timed_run
from common import free_port, is_listening, program, wait_until  # program has put its folder on the path

SMALL = "--small" in sys.argv
SECONDS = 0.3 if SMALL else 3
POWER, DEVICES = (6 if SMALL else 14), 256
AT_ONCE = 64
NODES = "/v1/rings/object/nodes?account=a&container=c&object=o"
TABLE = "/v1/rings/object/devices"


def rows():
    return [[1 + place % 3, place // 24, f"10.0.{place // 4}.1", 6200, f"disk{place}", "100.00"] for place in range(DEVICES)]


def get(target):
    return f"GET {target} HTTP/1.1\r\nHost: localhost\r\n\r\n".encode()


def post(body):
    return f"POST /v1/requests HTTP/1.1\r\nHost: localhost\r\nContent-Length: {len(body)}\r\n\r\n{body}".encode()


def body_of(line):
    return line.partition(" ")[2].rstrip("\n")


def read_answer(one, held):
    """One whole answer, its status, and what came behind it."""
    while b"\r\n\r\n" not in held:
        more = one.recv(1 << 20)
        if not more:
            raise SystemExit(f"the service ended the connection after {held!r}")
        held += more
    head, _, rest = held.partition(b"\r\n\r\n")
    length = int(re.search(rb"(?i)\r\ncontent-length: (\d+)", head)[1])
    while len(rest) < length:
        rest += one.recv(1 << 20)
    return int(head[9:12]), rest[:length], rest[length:]


def connect(port):
    one = socket.create_connection(("127.0.0.1", port), timeout=30)
    one.setsockopt(socket.IPPROTO_TCP, socket.TCP_NODELAY, 1)
    return one


def one_at_a_time(port, asked):
    """Answers a second on one connection, each waited for before the next is asked for."""
    with connect(port) as one:
        one.sendall(next(asked))
        status, _, _ = read_answer(one, b"")
        count, begun = 0, time.perf_counter()
        while time.perf_counter() - begun < SECONDS:
            one.sendall(next(asked))
            told = one.recv(1 << 20)
            while not is_whole(told):
                told += one.recv(1 << 20)
            count += 1
        return status, count / (time.perf_counter() - begun)


def is_whole(told):
    head, mark, body = told.partition(b"\r\n\r\n")
    at = head.lower().find(b"\r\ncontent-length: ")
    return bool(mark) and len(body) >= int(head[at + 18:].split(b"\r", 1)[0])


def many_in_flight(port, asked):
    """Answers a second on one connection with many requests in flight: the same request, so answers of one length."""
    given = next(asked)
    with connect(port) as one:
        one.sendall(given)
        status, body, _ = read_answer(one, b"")
        one.sendall(given)
        length, got = 0, b""
        while not is_whole(got):
            got += one.recv(1 << 20)
        length = len(got)
        batch, count, begun = given * AT_ONCE, 0, time.perf_counter()
        while time.perf_counter() - begun < SECONDS:
            one.sendall(batch)
            left = length * AT_ONCE
            while left:
                left -= len(one.recv(min(left, 1 << 20)))
            count += AT_ONCE
        return status, count / (time.perf_counter() - begun)


def new_in_flight(port, asked):
    """Answers a second on one connection with many requests in flight, each another one."""
    with connect(port) as one:
        count, held, begun = 0, b"", time.perf_counter()
        while time.perf_counter() - begun < SECONDS:
            one.sendall(b"".join(next(asked) for _ in range(AT_ONCE)))
            for _ in range(AT_ONCE):
                status, _, held = read_answer(one, held)
            count += AT_ONCE
        return status, count / (time.perf_counter() - begun)


def processor_seconds(server):
    """Seconds that a server and its children computed so far, by themselves and in the kernel."""
    found = [0.0, 0.0]
    for stat in pathlib.Path("/proc").glob("[0-9]*/stat"):
        with contextlib.suppress(OSError):
            fields = stat.read_text().rpartition(") ")[2].split()
            if server in (int(stat.parent.name), int(fields[1])):
                found[0] += int(fields[11]) / os.sysconf("SC_CLK_TCK")
                found[1] += int(fields[12]) / os.sysconf("SC_CLK_TCK")
    return found


def alone_and_spent(server, port, asked):
    """One at a time: the status, the answers a second, and the server's microseconds for each, its own and the kernel's."""
    before = processor_seconds(server)
    status, alone = one_at_a_time(port, asked)
    after = processor_seconds(server)
    return status, figure(alone), *(f"{1e6 * (late - early) / max(1, alone * SECONDS):.0f}" for early, late in zip(before, after))


def by_connections(port, asked, clients):
    """Answers a second over a connection for each request, by so many clients at once."""
    counts, end = [0] * clients, time.perf_counter() + SECONDS
    lock = threading.Lock()

    def work(place):
        while time.perf_counter() < end:
            with lock:
                given = next(asked)
            with connect(port) as one:
                one.sendall(given)
                read_answer(one, b"")
            counts[place] += 1

    workers = [threading.Thread(target=work, args=(place,)) for place in range(clients)]
    begun = time.perf_counter()
    for worker in workers:
        worker.start()
    for worker in workers:
        worker.join()
    return sum(counts) / (time.perf_counter() - begun)


def by_wrk(port, target):
    """Answers a second that wrk counts on one connection, or nothing where it is not there."""
    if not shutil.which("wrk"):
        return None
    done = subprocess.run(["wrk", "-t1", "-c1", f"-d{max(1, int(SECONDS))}s", f"http://127.0.0.1:{port}{target}"], capture_output=True, text=True)
    found = re.search(r"Requests/sec:\s+([\d.]+)", done.stdout)
    return float(found[1]) if found else None


def again(given):
    while True:
        yield given


def new_ones(first):
    """Requests that change the hours of the ring, each under a number of its own."""
    number = first
    while True:
        yield post(body_of(message(number, "set_hours", min_hours=number % 1000)))
        number += 1


class Lookup(http.server.BaseHTTPRequestHandler):
    """What people would write in Python: a lookup by MD5 in a list of partitions."""

    protocol_version, disable_nagle_algorithm = "HTTP/1.1", True
    parts = [[(part + replica) % DEVICES for replica in range(5)] for part in range(1 << POWER)]

    def do_GET(self):
        part = int.from_bytes(hashlib.md5(b"/a/c/o").digest()[:4], "big") >> (32 - POWER)
        nodes = [{"address": "10.0.0.1", "device": "disk0", "id": id, "port": 6200, "region": 1, "zone": 1} for id in self.parts[part]]
        body = json.dumps({"nodes": nodes, "partition": part}).encode()
        self.send_response(200)
        self.send_header("Content-Type", "application/json")
        self.send_header("Content-Length", str(len(body)))
        self.end_headers()
        self.wfile.write(body)

    def log_message(self, *_):
        pass


class QuietServer(http.server.HTTPServer):
    def handle_error(self, *_):
        pass


def serve_python(port):
    QuietServer(("127.0.0.1", port), Lookup).serve_forever()


def start_nginx(room, port, size):
    """nginx with a file of this size, or nothing where it is not there."""
    if not shutil.which("nginx"):
        return None
    with open(f"{room}/file", "wb") as held:
        held.write(b"x" * size)
    with open(f"{room}/nginx.conf", "w") as held:
        places = "".join(f"{kind}_temp_path {room}/{kind}; " for kind in ("client_body", "proxy", "fastcgi", "uwsgi", "scgi"))
        held.write(f"worker_processes 1; daemon off; pid {room}/pid; error_log /dev/null;\nevents {{}}\n"
                   f"http {{ {places}access_log off; keepalive_requests 1000000000;\n"
                   f"server {{ listen 127.0.0.1:{port}; root {room}; }} }}\n")
    return subprocess.Popen(["nginx", "-c", f"{room}/nginx.conf"], stderr=subprocess.DEVNULL)


def figure(number):
    return "" if number is None else f"{number:,.0f}"


@contextlib.contextmanager
def service(file):
    """The process and the port of a service over a file."""
    port = free_port()
    server = subprocess.Popen([*program(), "service", file, str(port), "--hour-ok"], stderr=subprocess.DEVNULL)
    try:
        wait_until(lambda: is_listening(port))
        yield server.pid, port
    finally:
        server.kill()
        server.wait()


def ours(room):
    """The service itself; the length of an answer of nodes."""
    file, told = f"{room}/rings.db", []
    lines = [message(1, "create", power=POWER, replicas=5, min_hours=0), message(2, "import", rows=rows()), message(3, "rebalance", seed=1)]
    timed_run("run", "--file", file, given="".join(lines).encode())
    repeat = post(body_of(lines[0]))
    for what, given, target in [("nodes of a path", get(NODES), NODES), (f"device table of {DEVICES}", get(TABLE), TABLE), ("repeat", repeat, None)]:
        with service(file) as (server, port):
            alone = alone_and_spent(server, port, again(given))
            _, flight = many_in_flight(port, again(given))
            told.append([what, *alone, figure(flight), figure(target and by_wrk(port, target)),
                         figure(by_connections(port, again(given), 1)), figure(by_connections(port, again(given), 16))])
    with service(file) as (server, port):
        alone = alone_and_spent(server, port, new_ones(10))
        _, flight = new_in_flight(port, new_ones(3000000))
        told.append(["new request, stored", *alone, figure(flight), "",
                     figure(by_connections(port, new_ones(1000000), 1)), figure(by_connections(port, new_ones(2000000), 16))])
        with connect(port) as one:
            one.sendall(get(NODES))
            return told, len(read_answer(one, b"")[1])


def others(room, size):
    """What people would use instead."""
    told, port = [], free_port()
    python = multiprocessing.Process(target=serve_python, args=(port,), daemon=True)
    python.start()
    wait_until(lambda: is_listening(port))
    alone = alone_and_spent(python.pid, port, again(get("/nodes")))
    told.append(["Python's http.server, a lookup", *alone, "", figure(by_wrk(port, "/nodes")),
                 figure(by_connections(port, again(get("/nodes").replace(b"\r\n\r\n", b"\r\nConnection: close\r\n\r\n")), 1)), ""])
    python.kill()
    port = free_port()
    nginx = start_nginx(room, port, size)
    if nginx and not wait_until(lambda: is_listening(port) or nginx.poll() is not None) or nginx and nginx.poll() is not None:
        print("nginx did not start", file=sys.stderr)
    elif nginx:
        alone = alone_and_spent(nginx.pid, port, again(get("/file")))
        _, flight = many_in_flight(port, again(get("/file")))
        told.append([f"nginx, a file of {size} bytes", *alone, figure(flight), figure(by_wrk(port, "/file")),
                     figure(by_connections(port, again(get("/file")), 1)), figure(by_connections(port, again(get("/file")), 16))])
        nginx.terminate()
        nginx.wait()
    return told


def main():
    folder = next((word for word in sys.argv[1:] if not word.startswith("--")), ".")
    with tempfile.TemporaryDirectory(prefix="ringd-bench-", dir=folder) as room:
        os.chmod(room, 0o755)
        told, size = ours(room)
        tell("Requests a second over HTTP", "bench/service.py",
             ["what is asked", "status", "one connection, one at a time", "µs of the server for each", "of the kernel", f"{AT_ONCE} in flight", "wrk, one connection",
              "a connection each", "by 16 clients"], told + others(room, size))


if __name__ == "__main__":
    main()
