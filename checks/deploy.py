"""The files of deploy/: each is shown by a page, and tried with the system's own tools, where this machine has them."""
import os
import re
import shutil
import subprocess
from pathlib import Path

from common import TOP, free_port, message, program, scratch, wait_until, is_listening

FOLDER = TOP / "deploy"
NAME = "rings.example.org"
# how long systemd waits for a program that is to stop, where a unit says nothing of it
MOST_TO_STOP = 90
LOGINS = {"ops": "secret", "reader": "password"}


def are_shown(checks):
    """Each file that is to be installed stands on a page as it is."""
    pages = "\n".join(page.read_text() for page in [TOP / "README.md", *sorted((TOP / "docs").glob("*.md"))])
    for file in sorted(FOLDER.iterdir()):
        block = re.search(rf"(?ms)^```\w+ deploy/{re.escape(file.name)}\n(.*?)^```$", pages)
        checks.same(f"deploy/{file.name} stands on a page", block and block[1], file.read_text())


def guard(checks):
    """The unit begins with no clock that is far ahead, unless a file beside it says so."""
    started = {name: re.findall(r"(?m)^ExecStart=(.*)$", (FOLDER / name).read_text()) for name in ("ringd.service", "ringd-hour-ok.conf")}
    unit = started["ringd.service"]
    checks.show("the unit does not give --hour-ok", len(unit) == 1 and "--hour-ok" not in unit[0], unit)
    checks.same("ringd-hour-ok.conf starts the same with it", started["ringd-hour-ok.conf"], ["", *(f"{one} --hour-ok" for one in unit)])


def probing(checks):
    """The probe's unit waits as long as clients may, and starts nothing that was stopped."""
    unit, probe = (FOLDER / "ringd-probe.service").read_text(), (FOLDER / "ringd-probe").read_text()
    checks.same("it has no plain restart", re.findall(r"systemctl (\S+)", unit), ["try-restart"])
    first = re.search(r"(?m)^ExecStart=/bin/sh -c '(.*)'$", unit)[1]
    with scratch() as room:
        Path(f"{room}/systemctl").write_text('#!/bin/sh\necho "$@"\n')
        os.chmod(f"{room}/systemctl", 0o755)
        for what, ends, want in [("an answer: nothing is done", "true", b""), ("no answer: what runs is started again", "false", b"try-restart ringd\n")]:
            text = first.replace("/usr/local/bin/ringd-probe", ends)
            told = subprocess.run(["/bin/sh", "-c", text], capture_output=True, timeout=60, env={"PATH": f"{room}:/usr/bin:/bin"})
            checks.same(what, (told.returncode, told.stdout), (0, want))
    in_line = int(re.search(r"line cost the next client (\d+)\.", (TOP / "docs/http.md").read_text())[1])
    waits = {name: int(re.search(rf"--{name} (\d+)", probe)[1]) for name in ("max-time", "retry-max-time")}
    checks.show(f"the probe waits longer than the {in_line} seconds of the page", waits["max-time"] > in_line, waits)
    most = 60 * int(re.search(r"(?m)^TimeoutStartSec=(\d+)min$", unit)[1])
    checks.show(f"its unit has {most} seconds for that and for the stop", most > sum(waits.values()) + MOST_TO_STOP, waits)


def units(checks):
    """The units, as systemd reads them."""
    if not shutil.which("systemd-analyze"):
        return checks.skip("systemd-analyze verify", "it is not on this machine")

    def verify(room, file, what):
        told = subprocess.run(["systemd-analyze", "verify", f"{room}/{file}"], capture_output=True, timeout=60)
        wrong = [line for line in told.stderr.decode().splitlines() if room in line or file in line]
        checks.show(f"systemd-analyze verify {what}", told.returncode == 0 and not wrong, told)

    installed = lambda file: re.sub(r"/usr/local/bin/\S+", "/bin/true", file.read_text())
    with scratch() as room:
        files = sorted([*FOLDER.glob("*.service"), *FOLDER.glob("*.timer")])
        for file in files:
            Path(f"{room}/{file.name}").write_text(installed(file))
        for file in files:
            verify(room, file.name, file.name)
        os.mkdir(f"{room}/ringd.service.d")
        Path(f"{room}/ringd.service.d/hour-ok.conf").write_text(installed(FOLDER / "ringd-hour-ok.conf"))
        verify(room, "ringd.service", "ringd.service with ringd-hour-ok.conf")


def firewall(checks):
    """The rule of the firewall, as nft reads it."""
    if not shutil.which("nft"):
        return checks.skip("nft --check", "nft is not on this machine")
    told = subprocess.run(["nft", "--check", "--file", str(FOLDER / "ringd.nft")], capture_output=True, timeout=60)
    if b"not permitted" in told.stderr:
        return checks.skip("nft --check", "it may not look at this machine's rules")
    checks.show("nft --check ringd.nft", told.returncode == 0, told)


def proxy_files(room, port, tls):
    """What nginx needs, in a folder: its configuration, a certificate and the files of users."""
    made = ["openssl", "req", "-x509", "-newkey", "rsa:2048", "-nodes", "-days", "2", "-subj", f"/CN={NAME}",
            "-keyout", f"{room}/key", "-out", f"{room}/certificate"]
    subprocess.run(made, capture_output=True, check=True, timeout=60)
    coded = {name: subprocess.run(["openssl", "passwd", "-apr1", word], capture_output=True, check=True, text=True).stdout.strip()
             for name, word in LOGINS.items()}
    for kind, names in (("readers", ["ops", "reader"]), ("operators", ["ops"])):
        Path(f"{room}/{kind}").write_text("".join(f"{name}:{coded[name]}\n" for name in names))
    text = (FOLDER / "nginx.conf").read_text().replace("8642", str(port)).replace("listen 443", f"listen 127.0.0.1:{tls}")
    text = text.replace("/etc/ssl/rings.pem", f"{room}/certificate").replace("/etc/ssl/rings.key", f"{room}/key")
    text = text.replace("/etc/nginx/rings.", f"{room}/")
    Path(f"{room}/ringd.conf").write_text(text)
    places = "".join(f"{kind}_temp_path {room}/{kind};\n" for kind in ("client_body", "proxy", "fastcgi", "uwsgi", "scgi"))
    Path(f"{room}/nginx.conf").write_text(
        f"daemon off;\npid {room}/pid;\nerror_log {room}/errors;\nevents {{}}\nhttp {{\naccess_log off;\n{places}include {room}/ringd.conf;\n}}\n")


def asked(tls, path, *words, name=NAME):
    """The status that the proxy answers with, 000 where there is no connection."""
    words = ["curl", "-sk", "-o", os.devnull, "-w", "%{http_code}", "--max-time", "20", "--resolve", f"{name}:{tls}:127.0.0.1", *words]
    return subprocess.run([*words, f"https://{name}:{tls}{path}"], capture_output=True, text=True, timeout=60).stdout


def try_proxy(checks, tls):
    """What the proxy lets through, and what not."""
    ops, reader = ["-u", "ops:secret"], ["-u", "reader:password"]
    create = ["-d", message(1, "create", ring="photos", power=4, replicas=1, min_hours=1)]
    late = ["-d", message(2, "set_hours", ring="photos", min_hours=2)]
    table = ["--data-binary", "region,zone,address,port,name,weight\n1,1,10.0.0.1,6200,d0,100.00\n"]
    site = lambda where: ["-H", f"Sec-Fetch-Site: {where}"]
    rows = [
        ("a request without a login", "401", "/v1/requests", create),
        ("an operator's request", "200", "/v1/requests", [*ops, *create]),
        ("a reader's request", "401", "/v1/requests", [*reader, *late]),
        ("a read without a login", "401", "/v1/rings/photos/devices", []),
        ("a reader's read", "200", "/v1/rings/photos/devices", reader),
        ("which rings there are", "200", "/v1/rings", reader),
        ("the status", "200", "/v1/status", reader),
        ("the status without a login", "401", "/v1/status", []),
        ("what is behind the status", "404", "/v1/status/x", reader),
        ("an operator's log", "200", "/v1/log", ops),
        ("a reader's log", "403", "/v1/log", reader),
        ("a reader's page", "200", "/v1/page", reader),
        ("the page without a login", "401", "/v1/page", []),
        ("the metrics", "200", "/v1/metrics", reader),
        ("the metrics without a login", "401", "/v1/metrics", []),
        ("a read by hand in a browser", "200", "/v1/rings/photos/devices", [*reader, *site("none")]),
        ("a read by a foreign page", "403", "/v1/rings/photos/devices", [*reader, *site("cross-site")]),
        ("a request by a page, told by Origin", "403", "/v1/requests", [*ops, *late, "-H", "Origin: http://evil.example"]),
        ("a request by a foreign page", "403", "/v1/requests", [*ops, *late, *site("cross-site")]),
        ("a request by a page of the same origin", "403", "/v1/requests", [*ops, *late, *site("same-origin")]),
        ("an import under another's name", "403", "/v1/import/photos?caller=other&number=2", [*ops, *table]),
        ("an import under one's own", "200", "/v1/import/photos?caller=ops&number=2", [*ops, *table]),
        ("another path", "404", "/", ops),
    ]
    for what, want, path, words in rows:
        checks.same(what, asked(tls, path, *words), want)
    checks.same("another name", asked(tls, "/v1/rings/photos/devices", *reader, name="evil.example"), "000")
    other = asked(tls, "/v1/rings/photos/devices", *reader, "-H", "Host: evil.example")
    checks.same("another Host than the name of the connection", other, "000")


def try_behind(checks, port):
    """Whom the service hears that comes by no proxy."""
    for host, want in [(NAME, "200"), ("evil.example", "403")]:
        words = ["curl", "-s", "-o", os.devnull, "-w", "%{http_code}", "--max-time", "20", "-H", f"Host: {host}"]
        told = subprocess.run([*words, f"http://127.0.0.1:{port}/v1/rings/photos/devices"], capture_output=True, text=True, timeout=60)
        checks.same(f"beside the proxy, a request to {host}", told.stdout, want)


def proxy(checks):
    """The proxy in front of the program, over TLS."""
    lacking = [tool for tool in ("nginx", "openssl", "curl") if not shutil.which(tool)]
    if lacking:
        return checks.skip("the proxy", f"{', '.join(lacking)} is not on this machine")
    with scratch() as room:
        os.chmod(room, 0o755)
        port, tls = free_port(), free_port()
        proxy_files(room, port, tls)
        told = subprocess.run(["nginx", "-t", "-c", f"{room}/nginx.conf"], capture_output=True, timeout=60)
        if not checks.show("nginx -t", told.returncode == 0, told):
            return
        probe = [str(FOLDER / "ringd-probe"), str(port)]
        served = subprocess.Popen([*program(), "service", f"{room}/rings.db", str(port), "--host", NAME], stderr=subprocess.DEVNULL)
        passed = subprocess.Popen(["nginx", "-c", f"{room}/nginx.conf"], stderr=subprocess.DEVNULL)
        try:
            if checks.show("both listen", wait_until(lambda: is_listening(port) and is_listening(tls))):
                try_proxy(checks, tls)
                try_behind(checks, port)
                checks.same("the probe of a service that runs", subprocess.run(probe, capture_output=True, timeout=60).returncode, 0)
        finally:
            for one in (passed, served):
                one.terminate()
                one.wait(timeout=20)
        checks.same("and of one that is gone", subprocess.run(probe, capture_output=True, timeout=60).returncode, 1)
