#!/usr/bin/env python3
"""The page of `GET /v1/page` in headless Chromium: checks/page.py [--pictures FOLDER | --policy | --mend]

Lets Chromium load the page from the service over rings of 24 and of 256 devices, and from page_mock.py, which also has answers that are
slow, broken or hostile; and compares the figures that stand in the page with those of the routes. Chromium is driven by the DevTools protocol over a pipe, so nothing but Python's standard library
is needed. Where no Chromium is there it says that it skips. --pictures keeps pictures of the page in FOLDER. --policy checks nothing:
it prints the Content-Security-Policy that fits the page, as a header would have it. --mend does so too, and first puts into the page the
hashes of its script and its style as they stand; use it after a change of either.
"""
import argparse
import base64
import contextlib
import fcntl
import hashlib
import http.client
import json
import os
import re
import select
import shutil
import signal
import subprocess
import sys
import tempfile
import threading
import time
from pathlib import Path

import page_mock as mock
from common import TOP, Checks, free_port, is_listening, message, program, run, scratch, wait_until

# The page stands in this file, between the signs of a raw string.
PAGE = TOP / "crates/ring_page/src/lib.rt"
BEGINS, ENDS = 'r##"', '"##;'
MOST_BYTES, SECONDS = 35500, 600
LOG_ROWS = 20
DIRECTIVES = (
    "default-src 'none'; script-src {script}; style-src {style}; img-src data:; connect-src 'self'; base-uri 'none'; form-action 'none'; "
    "require-trusted-types-for 'script'; trusted-types 'none'"
)
FRAMES = "; frame-ancestors 'none'"  # this one counts in a header alone
POLICY = re.compile('(Content-Security-Policy" content=")([^"]*)')


def policy_of(text):
    """The policy that fits a page: its one script and its one style by their hashes, and nothing else."""

    def hashed(tag):
        (inside,) = re.findall(f"<{tag}>(.*?)</{tag}>", text, re.S)
        return "'sha256-" + base64.b64encode(hashlib.sha256(inside.encode()).digest()).decode() + "'"

    return DIRECTIVES.format(script=hashed("script"), style=hashed("style"))


def page_text():
    """The page as it stands in its crate."""
    return PAGE.read_text().partition(BEGINS)[2].partition(ENDS)[0]


def chromium():
    """The Chromium that is there, or None."""
    named = os.environ.get("CHROMIUM")
    return named or next(filter(None, map(shutil.which, ("chromium", "chromium-browser", "google-chrome"))), None)


class Browser:
    """A headless Chromium with one page, driven over the pipe of --remote-debugging-pipe: JSON messages, each ended by a NUL byte."""

    def __init__(self):
        self.room = tempfile.TemporaryDirectory(prefix="ringd-page-", ignore_cleanup_errors=True)
        theirs_in, self.to = os.pipe()
        self.back, theirs_out = os.pipe()
        # 3 and 4 are what Chromium reads and writes: the ends are first taken out of their way
        ends = [fcntl.fcntl(end, fcntl.F_DUPFD, 10) for end in (theirs_in, theirs_out)]
        words = [
            chromium(), "--headless=new", "--remote-debugging-pipe", f"--user-data-dir={self.room.name}", "--no-sandbox", "--disable-gpu",
            "--disable-dev-shm-usage", "--no-first-run", "--disable-background-networking", "--disable-component-update", "--disable-sync",
            "--disable-extensions", "--disable-default-apps", "--hide-scrollbars", "--force-device-scale-factor=1", "--lang=en", "about:blank",
        ]
        errors = os.open(f"{self.room.name}/errors", os.O_CREAT | os.O_WRONLY)
        moves = [(os.POSIX_SPAWN_DUP2, ends[0], 3), (os.POSIX_SPAWN_DUP2, ends[1], 4), (os.POSIX_SPAWN_DUP2, errors, 1), (os.POSIX_SPAWN_DUP2, errors, 2)]
        self.process = os.posix_spawn(words[0], words, os.environ, file_actions=moves, setpgroup=0)
        for end in (theirs_in, theirs_out, *ends, errors):
            os.close(end)
        self.number, self.held, self.session = 0, b"", None
        self.sent, self.messages = [], []
        target = self.ask("Target.createTarget", url="about:blank")["targetId"]
        self.session = self.ask("Target.attachToTarget", targetId=target, flatten=True)["sessionId"]
        for domain in ("Page", "Runtime", "Log", "Network"):
            self.ask(f"{domain}.enable")

    def __enter__(self):
        return self

    def __exit__(self, *_):
        with contextlib.suppress(Exception):
            self.session = None
            self.ask("Browser.close", seconds=5)
        for end in (self.to, self.back):
            os.close(end)
        with contextlib.suppress(ProcessLookupError):
            os.killpg(self.process, signal.SIGKILL)
        os.waitpid(self.process, 0)
        self.room.cleanup()

    def ask(self, method, seconds=30, **given):
        """Sends a command, and waits for its answer. Events that come before it are noted."""
        self.number += 1
        message = {"id": self.number, "method": method, "params": given, **({"sessionId": self.session} if self.session else {})}
        os.write(self.to, json.dumps(message).encode() + b"\0")
        end = time.monotonic() + seconds
        while True:
            told = self.next(end - time.monotonic())
            if told is None:
                raise TimeoutError(f"{method} was not answered")
            if told.get("id") == self.number:
                if "error" in told:
                    raise RuntimeError(f"{method}: {told['error']}")
                return told["result"]

    def next(self, seconds):
        """The next message, None where none comes in time."""
        end = time.monotonic() + seconds
        while b"\0" not in self.held:
            ready, _, _ = select.select([self.back], [], [], max(0, end - time.monotonic()))
            if not ready:
                return None
            part = os.read(self.back, 1 << 20)
            if not part:
                raise EOFError("Chromium has ended")
            self.held += part
        one, _, self.held = self.held.partition(b"\0")
        told = json.loads(one)
        self.note(told.get("method"), told.get("params"))
        return told

    def note(self, event, about):
        if event == "Network.requestWillBeSent":
            self.sent.append((about["request"]["method"], about["request"]["url"]))
        elif event == "Runtime.exceptionThrown":
            self.messages.append(("exception", about["exceptionDetails"].get("exception", {}).get("description") or about["exceptionDetails"]["text"]))
        elif event == "Runtime.consoleAPICalled":
            self.messages.append((about["type"], json.dumps(about["args"])))
        elif event == "Log.entryAdded":
            entry = about["entry"]
            self.messages.append((f"{entry['source']} {entry['level']}", f"{entry['text']} {entry.get('url', '')}"))

    def run(self, script):
        """The value of an expression in the page; a promise is waited for."""
        told = self.ask("Runtime.evaluate", expression=script, returnByValue=True, awaitPromise=True)
        if "exceptionDetails" in told:
            raise RuntimeError(f"{script[:200]}: {told['exceptionDetails']['exception'].get('description')}")
        return told["result"].get("value")

    def until(self, script, seconds=20):
        """Waits until an expression holds."""
        end = time.monotonic() + seconds
        while not self.run(script):
            if time.monotonic() > end:
                return False
            time.sleep(0.05)
        return True

    def window(self, width, height=900, scheme="light"):
        self.ask("Emulation.setDeviceMetricsOverride", width=width, height=height, deviceScaleFactor=1, mobile=False)
        features = {"prefers-color-scheme": scheme, "prefers-reduced-motion": "reduce"}
        self.ask("Emulation.setEmulatedMedia", features=[{"name": name, "value": value} for name, value in features.items()])

    def open(self, server, name="", seconds=20):
        """Loads the page afresh, and waits until it has read all. What was sent and told before is forgotten."""
        self.ask("Page.navigate", url="about:blank")
        self.sent.clear()
        self.messages.clear()
        self.ask("Page.navigate", url=f"http://127.0.0.1:{server.port}/v1/page" + (f"#ring={name}" if name else ""))
        return self.until(SETTLED, seconds)

    def tells(self, name, part):
        """Waits until the text of an element has this part, and all is read."""
        return self.until(f"document.getElementById({json.dumps(name)}).textContent.includes({json.dumps(part)}) && {SETTLED}")

    def press(self, key, code, text=None, shift=False):
        about = {"key": key, "code": key, "windowsVirtualKeyCode": code, "modifiers": 8 if shift else 0}
        self.ask("Input.dispatchKeyEvent", type="keyDown", **about, **({"text": text} if text else {}))
        self.ask("Input.dispatchKeyEvent", type="keyUp", **about)

    def picture(self, file):
        size = self.ask("Page.getLayoutMetrics")["cssContentSize"]
        clip = {"x": 0, "y": 0, "width": size["width"], "height": min(size["height"], 12000), "scale": 1}
        told = self.ask("Page.captureScreenshot", format="png", captureBeyondViewport=True, clip=clip)
        Path(file).write_bytes(base64.b64decode(told["data"]))


SETTLED = "/^(Read|Tried) at/.test(document.getElementById('read')?.textContent ?? '')"
SHOWN = """({
  title: document.title, name: document.getElementById("name").textContent, ring: document.getElementById("ring").value,
  hidden: [document.getElementById("of-ring").hidden, document.getElementById("file").hidden],
  figures: Object.fromEntries([...document.querySelectorAll("dt")].map((each) => [each.textContent, each.nextSibling.firstChild.textContent])),
  told: Object.fromEntries(["ring-told", "devices-told", "preview-told", "published", "moves-told", "file-told", "log-told", "read"].map(
    (id) => [id, document.getElementById(id).textContent])),
  faults: [...document.getElementById("faults").children].map((each) => each.textContent),
  rings: [...document.getElementById("ring").options].map((each) => each.textContent),
  picked: [document.getElementById("from").value, document.getElementById("to").value],
  devices: [...document.querySelectorAll("#devices tbody tr:has(td)")].map((row) => ({
    ...Object.fromEntries(["id", "", "weight", "wanted", "has", "off"].map((key, place) => [key, row.cells[place].textContent]).filter(([key]) => key)),
    name: row.querySelector(".name").textContent, state: row.querySelector(".tag")?.textContent ?? "open",
    port: row.querySelector("th .soft").textContent,
    server: row.parentElement.querySelector(".server").textContent.split(": ")[0],
    zone: row.closest("details").querySelector("strong").textContent, region: row.closest(".zones").previousSibling.firstChild.data,
    pieces: [...row.querySelectorAll(".bar i")].map((piece) => [piece.className, parseFloat(piece.style.left), parseFloat(piece.style.width || 0)]),
  })),
  locks: [document.getElementById("locks-told").textContent, document.querySelector("#locks-rows .hours")?.ariaLabel ?? "",
    [...document.querySelectorAll("#locks-rows i")].map((piece) => [piece.title, parseFloat(piece.style.height)])],
  preview: [...document.querySelectorAll("#preview-rows tbody tr")].map((row) => [0, 3, 4, 5, 6, 7].map((place) => row.cells[place].textContent)),
  moves: [...document.querySelectorAll("#moves-rows tbody tr")].map((row) => [0, 3, 4].map((place) => row.cells[place].textContent)),
  log: [...document.querySelectorAll("#log tbody tr")].map((row) => [...row.cells].map((cell) => cell.textContent)),
})"""


class Asked:
    """What is served at a port, asked as a program asks."""

    def get(self, target):
        """What a program is answered: the text of a read."""
        one = http.client.HTTPConnection("127.0.0.1", self.port, timeout=30)
        try:
            one.request("GET", target, headers={"Connection": "close"})
            return one.getresponse().read().decode()
        finally:
            one.close()

    def json(self, target):
        return json.loads(self.get(target))

    def log(self, target):
        return [json.loads(line) for line in self.get(target).splitlines()]


def rows_of(devices, zones):
    """So many devices, in servers of four, in so many zones of two regions."""
    return [[1 + place % zones // 2, place % zones, f"10.{place % zones}.0.{1 + place // zones // 4}", 6200, f"d{place // zones % 4}", "100.00"]
            for place in range(devices)]


def history(now):
    """The lines of two rings: some devices drained and marked, some partitions locked, two versions published."""
    asked = []
    for ring, power, devices, zones in (("archive", 10, 256, 8), ("photos", 8, 24, 6)):
        begins = [("create", {"power": power, "replicas": 3, "min_hours": 24}), ("import", {"rows": rows_of(devices, zones)}), ("rebalance", {"seed": 1})]
        changes = [("set_weight", {"id": 3, "weight": "0.00"}), ("remove", {"id": 5}), ("keep", {"id": 5}), ("remove", {"id": 7}), ("remove", {"id": 700})]
        later = [("rebalance", {"seed": 2}), ("publish", {}), ("set_weight", {"id": 1, "weight": "250.00"}), ("remove", {"id": 11})]
        asked += [(now - 60, ring, each) for each in [*begins, ("publish", {}), *changes]] + [(now - 2, ring, each) for each in later]
    asked.sort(key=lambda one: one[0])
    return "".join(f"{hour} {message(number, do, ring=ring, **fields)}\n" for number, (hour, ring, (do, fields)) in enumerate(asked, 1)).encode()


class Service(Asked):
    """`service` over a file with the two rings."""

    def __init__(self, room):
        told = run("run", "--file", f"{room}/rings.db", given=history(int(time.time()) // 3600))
        assert told[0] == 0 and told[1].count(b"200 ") == 24, told
        self.port = free_port()
        self.process = subprocess.Popen([*program(), "service", f"{room}/rings.db", str(self.port)], stderr=subprocess.DEVNULL)
        wait_until(lambda: is_listening(self.port), 30)

    def __enter__(self):
        return self

    def __exit__(self, *_):
        self.process.terminate()
        self.process.wait()


class Served(Asked):
    """A mock that serves a scene in a thread of its own."""

    def __init__(self, scene="good"):
        text = page_text()
        self.server = mock.Mock(0, scene, text, policy_of(text) + FRAMES)
        self.port = self.server.server_address[1]
        self.thread = threading.Thread(target=self.server.serve_forever, kwargs={"poll_interval": 0.05}, daemon=True)
        self.thread.start()

    def __enter__(self):
        return self

    def __exit__(self, *_):
        self.server.stopping.set()
        self.server.shutdown()
        self.thread.join()
        self.server.server_close()


def percent(hundredths):
    return f"{hundredths // 100}.{hundredths % 100:02} %"


def signed(number):
    return f"+{number}" if number > 0 else str(number)


def by_place(devices):
    """Devices worst first, and each region, zone and server where its worst device stands."""
    for key in ((), ("region",), ("region", "zone"), ("region", "zone", "address")):
        places = list(dict.fromkeys(tuple(device[each] for each in key) for device in devices))
        if not key:
            devices = sorted(devices, key=lambda device: (-abs(device["has"] - device["wanted"]), device["id"]))
        else:
            devices = sorted(devices, key=lambda device: places.index(tuple(device[each] for each in key)))
    return devices


def busy(told, *more):
    """The rows of the devices that give or take, the most first."""
    some = [one for one in told["devices"] if one["gives"] or one["takes"]]
    some.sort(key=lambda one: (-one["gives"] - one["takes"], one["id"]))
    return [[str(one[key]) for key in ("id", "gives", "takes", *more)] for one in some]


def is_quiet(checks, browser, server, what, network=False):
    """No error in the console, and nothing but GET was sent, and that to the service alone."""
    told = [one for one in browser.messages if not (network and one[0] == "network error")]
    checks.same(f"{what}: nothing in the console", told, [])
    origin = f"http://127.0.0.1:{server.port}/v1/"
    elsewhere = [one for one in browser.sent if one[0] != "GET" or not (one[1].startswith(origin) or one[1].startswith("data:"))]
    checks.same(f"{what}: nothing but GET, and nothing from elsewhere", (elsewhere, len(browser.sent) > 1), ([], True))


def one_file(checks):
    """The page is one small file of ASCII, without HTML made of texts, and its policy fits it"""
    text = page_text()
    checks.show(f"it has {len(text)} bytes", len(text) <= MOST_BYTES)
    checks.show("it is ASCII", text.isascii() and "\r" not in text)
    words = r"innerHTML|outerHTML|insertAdjacent|document\.write|eval\(|Function\(|XMLHttpRequest|WebSocket|localStorage|method:"
    bad = re.findall(words + r"|\son[a-z]+=|style=|src=|@import|url\(|font-face", text)
    checks.same("it has nothing of what it should not use", bad, [])
    checks.same("it names no other place", re.findall(r"https?://[^'\"\s]*", text), [])
    checks.same("its policy is that of its text", POLICY.search(text)[2], policy_of(text))


def of_the_service(checks):
    """The service tells the page, and the figures in it are those of its routes"""
    with scratch() as room, Service(room) as server:
        checks.same("its bytes are those of the page", server.get("/v1/page"), page_text())
        if not chromium():
            return
        with Browser() as browser:
            browser.window(1600)
            for name in ("photos", "archive"):
                begun = time.monotonic()
                checks.show(f"{name}: the page has read all", browser.open(server, name))
                print(f"        after {time.monotonic() - begun:.1f} seconds")
                has_figures(checks, server, browser, name)
                is_quiet(checks, browser, server, name)


def figures(checks):
    """The figures in the page are those of the routes"""
    with Served() as server, Browser() as browser:
        browser.window(1600)
        for name in ("photos", "archive", "fresh", "settled"):
            begun = time.monotonic()
            checks.show(f"{name}: the page has read all", browser.open(server, name))
            print(f"        after {time.monotonic() - begun:.1f} seconds")
            has_figures(checks, server, browser, name)
            is_quiet(checks, browser, server, name)
        browser.open(server)
        checks.same("without a name it shows the first ring", browser.run(SHOWN)["name"], "archive")
        checks.show("empty: the page has read all", browser.open(server, "empty"))
        shown = browser.run(SHOWN)
        checks.same("a ring without devices says so", shown["told"]["devices-told"], "The ring has no devices yet.")
        refused = "The answer to rings/empty/preview?seed=1 was 422 TooFewDevices (rule 9): the ring has fewer devices"
        checks.show("and the refusal of its preview is told", refused in shown["told"]["preview-told"], shown["told"])
        is_quiet(checks, browser, server, "empty", network=True)
        checks.same("the mock got GET alone", {method for method, _ in server.server.sent}, {"GET"})


def has_figures(checks, server, browser, name):
    ring, status = server.json(f"/v1/rings/{name}"), server.json("/v1/status")
    shown = browser.run(SHOWN)
    names = {"Locked partitions": "locked", "Hours until none is locked": "rests", "Seats on devices": "seats", "Version": "version"}
    want = {name: str(ring[key]) for name, key in names.items()} | {name: percent(ring[name.lower()]) for name in ("Balance", "Dispersion")}
    want |= {"Numbers kept": str(status["kept"]), "Hour": str(status["hour"]), "Rings": str(status["rings"])}
    checks.same(f"{name}: figures", shown["figures"], want)
    checks.same(f"{name}: names", (shown["name"], shown["ring"], shown["title"]), (name, name, f"{name} - rings"))
    checks.same(f"{name}: locks", shown["locks"], locks_of(checks, server, ring))
    most = max([1] + [max(device["wanted"], device["has"]) for device in ring["devices"]])
    rows = []
    for device in by_place(ring["devices"]):
        wanted, has = device["wanted"], device["has"]
        pieces = [("fill", 0, min(wanted, has)), ("over", wanted, has), ("miss", has, wanted), ("mark", wanted, wanted)]
        rows.append({
            "id": str(device["id"]), "name": device["name"], "state": device["state"], "weight": device["weight"], "wanted": str(wanted), "has": str(has),
            "off": signed(has - wanted), "port": f" :{device['port']}", "server": f"Server {device['address']}", "zone": f"Zone {device['zone']}",
            "region": f"Region {device['region']} ", "pieces": [[kind, a, b - a] for kind, a, b in pieces if b > a or kind == "mark"],
        })
    for row in shown["devices"]:
        row["pieces"] = [[kind, round(left * most / 100, 2), round(width * most / 100, 2)] for kind, left, width in row["pieces"]]
    checks.same(f"{name}: {len(rows)} devices, worst first", shown["devices"], rows)
    seed = int(browser.run("document.getElementById('seed').value"))
    preview = server.json(f"/v1/rings/{name}/preview?seed={seed}")
    checks.same(f"{name}: the preview's devices", shown["preview"], busy(preview, "has", "then", "wanted"))
    told = shown["told"]["preview-told"]
    checks.show(f"{name}: the preview's figures", all(word in told for word in (
        f"version {preview['version']} ", f"seed {seed} ", f"{preview['changed']} seat", f"in {preview['partitions']} partition",
        f"balance {percent(preview['balance'])}", f"dispersion {percent(preview['dispersion'])}", f"hour {preview['hour']}:",
        f"{preview['locked']} partition")), told)
    if len(ring["published"]) > 1:
        old, new = map(int, shown["picked"])
        checks.same(f"{name}: the last two versions are compared", [old, new], ring["published"][-2:])
        has_moves(checks, server, shown, name, old, new)
    lines = server.log(f"/v1/log?from={max(0, status['kept'] - LOG_ROWS)}&most={LOG_ROWS}")[::-1]
    when = [time.strftime("%Y-%m-%d %H:%M", time.gmtime(one["hour"] * 3600)) for one in lines]
    want = []
    for hour, one in zip(when, lines):
        asked, is_refused = one["request"], "refused" in one["reply"]
        want.append([hour, asked["caller"], str(asked["number"]), asked["ring"], asked["do"], f"{one['status']} {'refused' if is_refused else 'done'}"])
    checks.same(f"{name}: the log", [[*row[:4], row[4].partition(":")[0], row[5]] for row in shown["log"]], want)
    for row, one in zip(shown["log"], lines):
        values = [str(value) for key, value in one["reply"].items() if key not in ("balance", "dispersion", "done")]
        if not all(value in row[6] for value in values):
            checks.show(f"{name}: the answer at {one['place']} of the log", False, row)


def count(number, one):
    return f"{number} {one}{'' if number == 1 else 's'}"


def locks_of(checks, server, ring):
    """What the page shows of a ring's locks: what it says, the same for who listens, and the bars."""
    told = server.json(f"/v1/rings/{ring['ring']}/locks")
    ends = {end["hours"]: end["partitions"] for end in told["rests"]}
    figures = [told[key] for key in ("hour", "locked", "min_hours", "partitions", "ring")], sum(ends.values()), max(ends, default=0)
    want = [ring["hour"], ring["locked"], ring["min_hours"], 1 << ring["power"], ring["ring"]], ring["locked"], ring["rests"]
    checks.same(f"{ring['ring']}: the locks are those of the whole ring", figures, want)
    if not ends:
        return ["", "", []]
    last = max(ends)
    step = -(-last // 24)
    spans = [range(first, first + step) for first in range(1, last + 1, step)]
    bars = [sum(ends.get(hours, 0) for hours in span) for span in spans]
    titles = [f"{count(bar, 'partition')} in {f'{span[0]} to ' if step > 1 else ''}{count(span[-1], 'hour')}" for bar, span in zip(bars, spans)]
    half = next(hours for hours in sorted(ends) if 2 * sum(number for other, number in ends.items() if other <= hours) >= told["locked"])
    first, half, last = (count(hours, "hour") for hours in (min(ends), half, last))
    begin = "" if first == last else f"the first in {first}, half in {half}, "
    return [f"Locked partitions are free: {begin}all in {last}.",
            "Locked partitions that are free: " + ", ".join(title for title, bar in zip(titles, bars) if bar),
            [[title, float(f"{100 * bar / max(bars):.6g}")] for title, bar in zip(titles, bars)]]


def has_moves(checks, server, shown, name, old, new):
    moves = server.json(f"/v1/rings/{name}/moves?from={old}&to={new}")
    checks.same(f"{name}: moves of devices from {old} to {new}", shown["moves"], busy(moves))
    told = f"From version {old} to version {new}, {moves['changed']} seat"
    checks.show(f"{name}: moves from {old} to {new}", shown["told"]["moves-told"].startswith(told), shown["told"]["moves-told"])


CHOOSE = "(() => { const select = document.getElementById('%s'); select.value = '%s'; select.dispatchEvent(new Event('change', { bubbles: true })); })()"


def choices(checks):
    """What a user chooses is shown, and stays through refreshes"""
    with Served() as server, Browser() as browser:
        browser.window(1000)
        browser.open(server, "archive")
        browser.run(CHOOSE % ("ring", "photos"))
        checks.show("another ring", browser.tells("name", "photos"))
        checks.same("stands in the address", browser.run("location.hash"), "#ring=photos")
        ring = server.json("/v1/rings/photos")
        browser.run("document.getElementById('seed').value = '12345'")
        browser.run("document.querySelector('#seeds button').click()")
        checks.show("another seed", browser.tells("preview-told", "seed 12345 "))
        has_figures(checks, server, browser, "photos")
        first, last = ring["published"][0], ring["published"][-1]
        browser.run(CHOOSE % ("from", first))
        checks.show("another version", browser.tells("moves-told", f"From version {first} to version {last},"))
        has_moves(checks, server, browser.run(SHOWN), "photos", first, last)
        browser.run("document.querySelectorAll('#devices summary')[1].click(); document.querySelectorAll('#devices summary')[1].focus()")
        browser.run(CHOOSE % ("which", "closed"))
        shown = browser.run(SHOWN)
        closed = {str(one["id"]) for one in ring["devices"] if one["state"] != "open"}
        checks.same("removed and drained ones alone", {row["id"] for row in shown["devices"]}, closed)
        browser.run(CHOOSE % ("which", "share"))
        checks.same("by the part of the share, a marked one is first", browser.run(SHOWN)["devices"][0]["state"], "removed")
        browser.run(CHOOSE % ("which", "id"))
        checks.same("by id the first is 0", browser.run(SHOWN)["devices"][0]["id"], "0")
        browser.run(CHOOSE % ("which", "seats"))
        open_zones = "[...document.querySelectorAll('#devices details')].map((box) => box.open)"
        before = browser.run(open_zones)
        checks.same("one zone is closed", before.count(False), 1)
        browser.run("document.querySelector('#devices summary').focus()")
        held = "document.activeElement.dataset.zone"
        was = browser.run(held)
        # the ring changes: the devices are drawn anew
        changed = dict(server.server.rings)
        server.server.rings["photos"] = server.server.rings["photos"].__class__("photos", 10, 3, 24, server.server.hour)
        server.server.rings["photos"].__dict__.update(changed["photos"].__dict__)
        server.server.rings["photos"].version += 7
        browser.run("refresh()")
        checks.show("a refresh", browser.tells("ring-rows", f"Version{ring['version'] + 7}"))
        server.server.rings.update(changed)
        shown = browser.run(SHOWN)
        kept = (shown["name"], shown["picked"], browser.run(open_zones))
        checks.same("it keeps ring, versions and zones", kept, ("photos", [str(first), str(last)], before))
        checks.show("it keeps the seed", "seed 12345 " in shown["told"]["preview-told"])
        checks.same("it keeps the focus", (was is not None, browser.run(held)), (True, was))
        browser.run("document.getElementById('fold').click()")
        checks.show("all zones are closed by a button", browser.tells("fold", "Open all zones") and True not in browser.run(open_zones))
        browser.run("location.hash = '#ring=nothing'")
        told = "The answer to rings/nothing was 422 NoRing (rule 1): no ring has this name."
        checks.show("a ring that is not there", browser.tells("ring-told", told))
        browser.run("location.hash = '#ring=' + encodeURIComponent('../../<b>')")
        checks.show("a name that is none", browser.tells("ring-told", "No ring has this name."))
        checks.same("the ring's parts are hidden, the file's not", browser.run(SHOWN)["hidden"], [True, False])
        names = ["archive", "fresh", "settled"] * 5
        browser.run("".join(f"location.hash = '#ring={name}';" for name in names))
        checks.show("who chooses fast gets the last", browser.tells("name", "settled"))
        has_figures(checks, server, browser, "settled")
        browser.run("history.go(-2 - %d)" % len(names))
        checks.show("the way back", browser.tells("name", "photos") and browser.until("!document.getElementById('of-ring').hidden"))
        is_quiet(checks, browser, server, "all choices", network=True)


def refreshes(checks):
    """It reads again every 60 seconds while it is visible, and 10 after a fault"""
    noted = """window.waits = [];
    const set = setTimeout;
    window.setTimeout = (what, time, ...more) => { waits.push(time); window.fire = what; return set(what, time, ...more); };"""
    with Served() as server, Browser() as browser:
        browser.window(1000)
        browser.ask("Page.addScriptToEvaluateOnNewDocument", source=noted)
        browser.open(server, "photos")
        checks.same("a timer of 60 seconds", browser.run("waits"), [60000])
        reads = len(server.server.sent)
        browser.run("Object.defineProperty(document, 'hidden', { get: () => window.away === true }); window.away = true; fire()")
        time.sleep(0.5)
        checks.same("nothing is read while it is hidden", len(server.server.sent), reads)
        browser.run("window.away = false; document.dispatchEvent(new Event('visibilitychange'))")
        checks.show("it reads once it is seen again", browser.until("waits.length === 2 && " + SETTLED))
        checks.same("with seven reads", [target.partition("?")[0] for _, target in server.server.sent[reads:]],
                    ["/v1/status", "/v1/rings", "/v1/rings/photos", "/v1/rings/photos/locks", "/v1/rings/photos/preview", "/v1/rings/photos/moves",
                     "/v1/log"])
        browser.run("window.kept = document.querySelector('#devices table'); fire()")
        checks.show("it reads when the time has come", browser.until("waits.length === 3 && " + SETTLED))
        checks.show("what is the same is not drawn again", browser.run("kept.isConnected"))
        is_quiet(checks, browser, server, "refreshes")
        server.server.scene = "failed"
        server.server.reads = 0
        browser.run("fire()")
        checks.show("a fault", browser.tells("read", "Tried at"))
        checks.same("then a timer of 10 seconds", browser.run("waits").pop(), 10000)
        told = browser.run(SHOWN)
        want = r"^Fault: The answer to status was 503 StoreFault \(rule 24\): the store failed\..* What stands below was read at \d\d:\d\d:\d\d\.$"
        checks.show("it says what stands below", re.search(want, told["faults"][0]), told["faults"])
        checks.same("and what was read stays", (told["name"], len(told["devices"]), told["hidden"]), ("photos", 24, [False, False]))
        server.server.scene = "good"
        browser.run("fire()")
        checks.show("a fault that is over", browser.tells("read", "Read at"))
        checks.same("is told no more", browser.run(SHOWN)["faults"], [])


def faults(checks):
    """Faults and warnings are told in words"""
    want = {
        "bare": [], "near": [r"^Look: The file is nearly full: it keeps 97412 of 100000 numbers\. \"ringd renew\" makes a new file\.$"],
        "full": [r"^Look: The file is full: it keeps 100000 of 100000 numbers\. .* New requests are answered 507 BookFull"],
        "ahead": [r"^Look: The hour of the service is (1000|999) hours ahead"],
        "failed": [r"^Fault: The answer to status was 503 StoreFault \(rule 24\): the store failed\. Look at the disk"],
        "memory": [r"^Fault: The answer to status was 503 NoMemory \(rule 23\): the service found no memory"],
        "older": [r"^Fault: The answer to rings was 404 NoRoute: the service does not have this route"],
        "proxy": [r"^Fault: The answer to status was 502: a proxy got no whole answer from the service\.$"],
        "words": [r"^Fault: The answer to rings is no JSON\. Do the service and this page fit\?$"],
    }
    with Browser() as browser:
        browser.window(1000)
        for scene, texts in want.items():
            with Served(scene) as server:
                browser.open(server, "" if scene == "bare" else "photos")
                shown = browser.run(SHOWN)
                held = len(shown["faults"]) == len(texts) and all(map(re.search, texts, shown["faults"]))
                checks.show(f"{scene}: {(shown['faults'] or shown['told']['ring-told'] or [''])[0]}", held, shown["faults"])
                is_quiet(checks, browser, server, scene, network=True)
                if scene == "bare":
                    checks.same("a file without rings says so", (shown["told"]["ring-told"], shown["told"]["log-told"], shown["rings"]),
                                ("This file has no rings yet. The command create makes one.", "No request was decided yet.", ["none yet"]))
        with Served() as server:
            browser.open(server, "photos")
        browser.run("refresh()")
        checks.show("a service that has ended", browser.tells("faults", "Fault: The service does not answer. It may be stopped"))
        checks.same("what was read stays", browser.run(SHOWN)["name"], "photos")
        fast = """const slow = AbortSignal.timeout;
        AbortSignal.timeout = (time) => { window.patience = time; return slow.call(AbortSignal, time / 30); };"""
        browser.ask("Page.addScriptToEvaluateOnNewDocument", source=fast)
        with Served("late") as server:
            browser.open(server, "photos")
            checks.same("a service that hangs", (browser.run("patience"), browser.run(SHOWN)["faults"]),
                        (30000, ["Fault: The service did not answer within 30 seconds. It may be busy, or hang."]))


# Elements that a text may have made, scripts, and attributes that are scripts.
EVIL = """[document.querySelectorAll("b, img, main script, #evil, iframe, object").length, document.scripts.length,
  [...document.querySelectorAll("*")].flatMap((each) => each.getAttributeNames()).filter((name) => name.startsWith("on")).length]"""

# What a script that got in all the same would try: an element of a text, a script, an event, another place.
TRIES = """(async () => {
  const broken = [], tried = [];
  document.addEventListener("securitypolicyviolation", (event) => broken.push(event.effectiveDirective));
  const box = document.createElement("div");
  try { box.innerHTML = "<i>text</i>"; tried.push("innerHTML"); } catch {}
  const script = document.createElement("script");
  try { script.text = "window.got = 1"; document.body.append(script); } catch {}
  const style = document.createElement("style");
  style.textContent = "body { display: none }";
  document.head.append(style);
  try { await fetch("http://127.0.0.1:1/"); tried.push("fetch"); } catch {}
  new Image().src = "http://127.0.0.1:1/";
  await new Promise((done) => setTimeout(done, 200));
  style.remove();
  return [tried, window.got ?? 0, getComputedStyle(document.body).display, [...new Set(broken)].sort()];
})()"""


def hostile(checks):
    """A hostile answer does no harm"""
    with Served("hostile") as server, Browser() as browser:
        for width in (1600, 400):
            browser.window(width)
            for name in ("photos", "archive", "fresh"):
                checks.show(f"{name}: the page has read all", browser.open(server, name))
                checks.same(f"{name}: no element or script came of a text", browser.run(EVIL), [0, 1, 0])
                checks.show(f"{name}: the title is its own", browser.run("document.title").endswith("rings"))
                shown = browser.run(SHOWN)
                checks.show(f"{name}: tags stand as texts", '<b id="evil">bold</b>' in browser.run("document.getElementById('log-rows').textContent"))
                odd = any("missing or not of their form" in one for one in shown["faults"])
                checks.show(f"{name}: it says that members are not of their form", odd, shown["faults"])
                checks.show(f"{name}: the page itself did not fail", not any("This page failed" in one for one in shown["faults"]), shown["faults"])
                checks.show(f"{name}: nothing sticks out", browser.run("document.scrollingElement.scrollWidth") <= width)
                is_quiet(checks, browser, server, name, network=True)
        browser.sent.clear()
        want = [[], 0, "block", ["connect-src", "img-src", "require-trusted-types-for", "style-src-elem"]]
        checks.same("the policy holds against a script that got in all the same", browser.run(TRIES), want)


# The contrast of each text with what lies behind it, and the least of them.
CONTRAST = """(() => {
  const part = (value) => (value /= 255) <= 0.03928 ? value / 12.92 : ((value + 0.055) / 1.055) ** 2.4;
  const light = ([r, g, b]) => 0.2126 * part(r) + 0.7152 * part(g) + 0.0722 * part(b);
  const colour = (text) => text.match(/[0-9.]+/g).map(Number);
  let least = [99, ""];
  for (const each of document.querySelectorAll("body *")) {
    if (![...each.childNodes].some((node) => node.nodeType === 3 && node.data.trim()) || !each.checkVisibility()) continue;
    let behind = each;
    while (behind && colour(getComputedStyle(behind).backgroundColor)[3] === 0) behind = behind.parentElement;
    const paint = getComputedStyle(behind ?? document.body).backgroundColor;
    const two = [light(colour(getComputedStyle(each).color)), light(colour(paint))].sort((a, b) => b - a);
    const ratio = (two[0] + 0.05) / (two[1] + 0.05);
    if (ratio < least[0]) least = [ratio, each.tagName + "." + each.className + " " + each.textContent.slice(0, 40)];
  }
  return least;
})()"""


# Where the focus is, and how that is seen.
STOP = """(() => {
  const here = document.activeElement, style = getComputedStyle(here);
  return [here.id || here.tagName + " " + here.textContent.slice(0, 30), style.outlineStyle + style.outlineWidth];
})()"""


def keyboard(checks):
    """It is used by keyboard, and read by those who listen"""
    with Served() as server, Browser() as browser:
        browser.window(1000)
        browser.open(server, "photos")
        browser.ask("Page.bringToFront")
        browser.press("Tab", 9)
        checks.same("first comes the link that skips", browser.run("document.activeElement.id"), "skip")
        checks.show("and it is seen", browser.run("document.activeElement.getBoundingClientRect().left >= 0"))
        browser.press("Enter", 13, "\r")
        checks.same("it leads to the ring, and the address stays", browser.run("[document.activeElement.id, location.hash]"), ["main", "#ring=photos"])
        browser.open(server, "photos")
        stops, outlines = [], []
        for _ in range(40):
            browser.press("Tab", 9)
            stop, outline = browser.run(STOP)
            if stop.startswith("BODY"):
                break
            stops.append(stop)
            outlines.append(outline)
        print("        " + ", ".join(stops))
        checks.show("all that can be used is reached", {"skip", "ring", "refresh", "which", "fold", "seed", "from", "to"} <= set(stops), stops)
        checks.same("the focus is always seen", set(outlines), {"solid3px"})
        browser.run("document.querySelector('nav a[href=\"#moves\"]').focus()")
        browser.press("Enter", 13, "\r")
        checks.same("a link of the page leads to its part, and the address stays",
                    browser.run("[document.activeElement.closest('section').id, location.hash]"), ["moves", "#ring=photos"])
        browser.run("document.getElementById('seed').focus(); document.getElementById('seed').select()")
        browser.press("9", 57, "9")
        browser.press("Enter", 13, "\r")
        checks.show("Enter asks for another seed", browser.tells("preview-told", "seed 9 "))
        names = browser.run("[...document.querySelectorAll('select, input')].filter((each) => !each.labels.length).length")
        checks.same("each choice has a label", names, 0)
        heads = browser.run("[...document.querySelectorAll('h1, h2, h3')].map((each) => each.tagName).join(' ')")
        checks.same("headings in their order", heads, "H1 H2 H2 H3 H3 H2 H2 H2")
        is_quiet(checks, browser, server, "by keyboard")


def looks(checks, folder):
    """It is readable at 400 and at 1600 pixels, light and dark"""
    with Served() as server, Browser() as browser:
        for scheme in ("light", "dark"):
            for width in (400, 1600):
                browser.window(width, scheme=scheme)
                for name in ("photos", "archive", "fresh"):
                    browser.open(server, name)
                    what = f"{name}, {width} pixels, {scheme}"
                    wide = browser.run("document.scrollingElement.scrollWidth")
                    checks.show(f"{what}: nothing sticks out", wide <= width, wide)
                    ratio, where = browser.run(CONTRAST)
                    checks.show(f"{what}: the least contrast is {ratio:.1f}", ratio >= 4.5, where)
                    if folder:
                        browser.picture(f"{folder}/{name}-{width}-{scheme}.png")
    if folder:
        with Browser() as browser:
            for scene in ("failed", "near", "hostile", "bare"):
                for width, scheme in ((1600, "light"), (400, "dark")):
                    browser.window(width, scheme=scheme)
                    with Served(scene) as server:
                        browser.open(server, "photos" if scene != "bare" else "")
                        browser.picture(f"{folder}/{scene}-{width}-{scheme}.png")


def main():
    words = argparse.ArgumentParser(description=__doc__, formatter_class=argparse.RawDescriptionHelpFormatter)
    words.add_argument("--pictures")
    words.add_argument("--policy", action="store_true")
    words.add_argument("--mend", action="store_true")
    words.add_argument("--only")
    given = words.parse_args()
    if given.mend:
        PAGE.write_text(POLICY.sub(lambda found: found[1] + policy_of(page_text()), PAGE.read_text()))
    if given.policy or given.mend:
        print(policy_of(page_text()) + FRAMES)
        return 0
    parts = [one_file, of_the_service]
    if chromium():
        if given.pictures:
            Path(given.pictures).mkdir(parents=True, exist_ok=True)

        def seen(checks):
            looks(checks, given.pictures)

        seen.__doc__ = looks.__doc__
        parts += [figures, choices, refreshes, faults, hostile, keyboard, seen]
    else:
        print("skipped the page in a browser: no Chromium is here (CHROMIUM names one)")
    if given.only:
        parts = [part for part in parts if part.__name__ in given.only.split(",")]
    return Checks("page", SECONDS).run(*parts)


if __name__ == "__main__":
    sys.exit(main())
