#!/usr/bin/env python3
"""Tries udp_server and udp_client against other STUN programs over loopback, and prints a Markdown
table of what was seen.

    interop.py [--install] [--server PROGRAM --client PROGRAM]

The peers are Debian's packages coturn, libnice-dev, python3-aioice, golang-github-pion-stun-dev,
stun-client and stun-server. With --install those that are missing, and what builds them, are
installed by apt-get; without it a line after the table names them. The programs are those of
examples/c, or others that take the same words, such as those of rust/examples; rows that need
`--any-method` are left out then. docs/INTEROP.md has the table of a run. Status 0 where each row
that could be tried came out as it should.
"""
import contextlib
import os
import pathlib
import re
import signal
import socket
import subprocess
import sys
import tempfile
import time

import harness
from harness import stun

REALM, NAME, PASSWORD = harness.USER


def named(option, default):
    """What follows an option, or what there is without it."""
    words = dict(zip(sys.argv, sys.argv[1:]))
    return pathlib.Path(words.get(option, harness.TOP / "examples/c/out" / default))


SERVER, CLIENT = named("--server", "udp_server"), named("--client", "udp_client")
IS_IN_C = "--server" not in sys.argv
# Options that only the server in C has.
ANY, AHEAD = (("--any-method",), ("--ahead", "300")) if IS_IN_C else ((), ())
PYTHON = "/usr/bin/python3"  # Debian's, for which Debian packages aioice
PACKAGES = ("coturn", "libnice-dev", "pkg-config", "python3-aioice", "golang-github-pion-stun-dev",
            "golang-go", "stun-client", "stun-server")
ROWS = []


def version(package):
    """The version of an installed package, without Debian's epoch and revision; or None."""
    asked = subprocess.run(["dpkg-query", "-W", "-f", "${db:Status-Status} ${Version}", package],
                           capture_output=True, text=True)
    status, _, number = asked.stdout.partition(" ")
    return number.split(":")[-1].rsplit("-", 1)[0] if status == "installed" else None


def run(*words, timeout=40):
    """What a program printed, on either output, and its status, or None where it was ended after so
    many seconds."""
    with subprocess.Popen([str(word) for word in words], stdout=subprocess.PIPE,
                          stderr=subprocess.STDOUT, text=True) as started:
        try:
            return started.communicate(timeout=timeout)[0].strip(), started.returncode
        except subprocess.TimeoutExpired:
            started.kill()
            return started.communicate()[0].strip(), None


def row(peer, what, judge, algorithm, trial):
    """Tries, and keeps a row: the peer, what is done, who validated whose signature, by which
    algorithm, and what came of it."""
    try:
        came = trial()
    except NotOffered:
        return
    except Exception as error:
        came = f"FAILED: {type(error).__name__}: {error}"
    ROWS.append((peer, what, judge, algorithm, came))


class NotOffered(Exception):
    """The server has no option for this row."""


def wants(condition, seen):
    assert condition, f"saw {seen!r}"


def free_port():
    with socket.socket(socket.AF_INET, socket.SOCK_DGRAM) as one:
        one.bind(("127.0.0.1", 0))
        return one.getsockname()[1]


class Peer:
    """A server of another program, which is ended at the end."""

    def __init__(self, *words, port=None):
        self.out = tempfile.TemporaryFile("w+")
        self.process = subprocess.Popen([str(word) for word in words], stdout=self.out,
                                        stderr=subprocess.STDOUT, text=True)
        until = time.monotonic() + 15
        while time.monotonic() < until and not self.is_up(port):
            time.sleep(0.1)
        self.port = port or int(self.told().split()[1])

    def told(self):
        self.out.flush()
        with open(f"/proc/self/fd/{self.out.fileno()}") as again:
            return again.read()

    def is_up(self, port):
        if port is None:
            return "\n" in self.told()
        with harness.Peer(port) as peer:
            peer.socket.settimeout(0.2)
            try:
                return bool(peer.ask(stun.message(stun.REQUEST)))
            except OSError:
                return False

    def __enter__(self):
        return self

    def __exit__(self, *_):
        self.process.terminate()
        self.process.wait(20)
        self.out.close()


@contextlib.contextmanager
def turnserver(*words):
    port = free_port()
    here = ("--listening-ip=127.0.0.1", "--listening-ip=::1", "--relay-ip=127.0.0.1", "-p", port)
    with tempfile.TemporaryDirectory() as folder:
        files = f"--pidfile={folder}/pid", f"--userdb={folder}/db"
        with Peer("turnserver", "-n", *here, "--no-tls", "--no-dtls", "--no-cli",
                  "--log-file=stdout", *files, *words, port=port) as peer:
            yield peer


# ---- Their clients against udp_server


def until(condition):
    """Whether it holds, now or within ten seconds: what a server prints comes when it comes."""
    end = time.monotonic() + 10
    while not condition() and time.monotonic() < end:
        time.sleep(0.02)
    return condition()


def without_cause(line):
    """A line of a server without the cause of a refusal, which stands at its end."""
    return re.sub(r"( 4\d\d) [A-Z]\w+$", r"\1", line)


def ended(server, *ends):
    """The lines that a server printed which end so, or have a cause after it."""
    return [line for line in server.lines[1:] if without_cause(line).endswith(ends)]


def stunclient(host, *words):
    with harness.Server(SERVER, "-v") as server:
        out, _ = run("turnutils_stunclient", "-p", server.port, *words, host, timeout=6)
        wants(until(lambda: ended(server, " 200")), (out, server.lines))
        address = ended(server, " 200")[0].split()[0]
        wants(address.replace("[", "").replace("]", "") in out, (out, server.lines))
        if words:
            wants(until(lambda: ended(server, " 420")), server.lines)
            return "prints the address; its CHANGE-REQUEST draws 420"
        return "prints the address that the server saw"


def old_stun():
    with harness.Server(SERVER, "-v") as server:
        run("stun", f"127.0.0.1:{server.port}", timeout=60)
        until(lambda: server.lines[1:])
        wants(all(" dropped: " in line for line in server.lines[1:]) and len(server.lines) > 1,
              server.lines)
        return "not answered: RFC 3489 has no magic cookie"


def asks(words, wanted, line, *offered):
    """Their client prints what it should, and the server's last line says that it validated the
    request."""
    if not IS_IN_C:
        line = line.removesuffix(f" SHA1 {NAME}")
        if line.endswith("420"):
            raise NotOffered
    with harness.Server(SERVER, *harness.USER, *ANY, "-v", *offered) as server:
        out, _ = run(*(str(server.port) if word == "PORT" else word for word in words))
        wants(wanted in out and until(lambda: without_cause(server.lines[-1]).endswith(line)),
              (out, server.lines))
        return f"prints `{wanted}`; the server's log has `{line.strip()}`"


def refused(words):
    if not IS_IN_C and words[0] == "turnutils_uclient":
        raise NotOffered
    with harness.Server(SERVER, *harness.USER, *ANY, "-v") as server:
        out, _ = run(*(str(server.port) if word == "PORT" else word for word in words))
        wants(until(lambda: server.lines[1:]) and ended(server, " 401") == server.lines[1:]
              and server.lines[-1].endswith(" WrongCredentials"), (out, server.lines))
        return "401 each time"


def natdiscovery():
    with harness.Server(SERVER, "-v") as server:
        out, _ = run("turnutils_natdiscovery", "-m", "-p", server.port, "127.0.0.1", timeout=20)
        wants(until(lambda: ended(server, " 200")), (out, server.lines))
        wants(ended(server, " 200")[0].split()[0] in out, (out, server.lines))
        return "prints the address that the server saw, and no more: OTHER-ADDRESS is not there"


def starts_anew(relay, first, second):
    first.process.terminate()
    relay.target = ("127.0.0.1", second.port)


def forgets(relay, first, second):
    """The clock moves on by so much that the nonce is not accepted any more."""
    first.process.send_signal(signal.SIGUSR2)
    time.sleep(0.1)


def goes_on(words, way, codes, *offered):
    """The server starts anew, or forgets the client's address, when the answer to its challenge is
    on the way. The client then draws these codes first; the last tells whether it went on."""
    if not IS_IN_C and (way is forgets or codes[-1] != 200):
        raise NotOffered
    settings = (*harness.USER, *ANY, "--expiry", "30", *AHEAD, "-v", *offered)
    with harness.Server(SERVER, *settings) as first, harness.Server(SERVER, *settings) as second:
        moved = []

        def rule(relay, is_request, number, data):
            if is_request and harness.is_signed(data) and not moved:
                moved.append(number)
                way(relay, first, second)
            return [data]

        with harness.Relay(first, rule) as relay:
            out, _ = run(*(str(relay.port) if word == "PORT" else word for word in words))
            drawn = harness.codes(relay)
            if codes[-1] == 438:
                wants(drawn == codes and out.startswith("438"), (drawn, out))
                return f"codes {codes}: it gives up"
            wants(drawn[:len(codes)] == codes, (drawn, out))
            is_named = IS_IN_C and codes[-1] == 200
            last = f" {codes[-1]} SHA1 {NAME}" if is_named else f" {codes[-1]}"
            wants(until(lambda: any(without_cause(line).endswith(last)
                                    for line in first.lines + second.lines)), out)
            return f"codes {codes}: it goes on"


WAYS = ((starts_anew, "that starts anew"), (forgets, "that forgets its address"))


def going_on(peer, what, words, codes):
    """Rows of a client in mid-session."""
    for way, told in WAYS:
        for offered in ((), ("--sha256",)):
            judge = "nobody" if codes[-1] == 438 else f"udp_server validated {peer.split()[0]}"
            row(peer, " ".join((what, "→ udp_server", *offered, told)), judge, "HMAC-SHA1",
                lambda: goes_on(words, way, codes, *offered))


# ---- udp_client against their servers


def client_prints(peer, host, *words):
    """It prints its own address, which a relay knows."""
    with harness.Relay(peer, host=host) as relay:
        harness.succeeds(harness.ask(CLIENT, host, relay.port, *words), relay.address())
        codes = harness.codes(relay)
        if not words:
            return f"prints its address; codes {codes}"
        key = stun.key_of(stun.SHA1, NAME, REALM, PASSWORD)
        wants(stun.verifies(relay.requests[-1], stun.SHA1, key)
              and stun.verifies(relay.responses[-1], stun.SHA1, key), codes)
        return f"prints its address; codes {codes}"


def client_is_refused(peer, *words):
    asked = harness.ask(CLIENT, "127.0.0.1", peer.port, *words, within="5")
    wants(asked.status == 1 and not asked.out, asked)
    return f"`{asked.err}`"


def stale(peer):
    """The signed request is held back until coturn's nonce expires."""

    def rule(relay, is_request, number, data):
        if is_request and harness.is_signed(data) and number == 2:
            time.sleep(3.5)
        return [data]

    with harness.Relay(peer, rule) as relay:
        harness.succeeds(harness.ask(CLIENT, "127.0.0.1", relay.port, NAME, PASSWORD),
                         relay.address())
        codes = harness.codes(relay)
        wants(438 in codes and 200 in codes, codes)
        return f"prints its address; codes {codes}"


# ---- All rows


def with_coturn(number):
    peer = f"coturn {number}"
    for host in ("127.0.0.1", "::1"):
        kind = "IPv6" if ":" in host else "IPv4"
        row(peer, f"`turnutils_stunclient` → udp_server, {kind}", "nobody", "none",
            lambda: stunclient(host))
    row(peer, "`turnutils_stunclient -f` → udp_server", "nobody", "none",
        lambda: stunclient("127.0.0.1", "-f"))
    for offered in ((), ("--sha256",)):
        words = ("turnutils_uclient", "-p", "PORT", "-u", NAME, "-w", PASSWORD, "-n", "1", "-m",
                 "1", "-y", "127.0.0.1")
        row(peer, " ".join(("`turnutils_uclient` (Allocate) → udp_server --any-method", *offered)),
            "udp_server validated coturn", "HMAC-SHA1",
            lambda: asks(words, "error 420", " 420", *offered))
    row(peer, "`turnutils_natdiscovery -m` → udp_server", "nobody", "none", natdiscovery)
    going_on(peer, "`turnutils_uclient` (Allocate)", words, [401, 438, 420])
    wrong = ("turnutils_uclient", "-p", "PORT", "-u", NAME, "-w", "wrong", "-n", "1", "-m", "1",
             "-y", "127.0.0.1")
    row(peer, "the same, wrong password", "udp_server refused coturn", "HMAC-SHA1",
        lambda: refused(wrong))
    with turnserver("--stun-only") as server:
        for host in ("127.0.0.1", "::1"):
            kind = "IPv6" if ":" in host else "IPv4"
            row(peer, f"udp_client → `turnserver --stun-only`, {kind}", "nobody", "none",
                lambda: client_prints(server, host))
    secure = ("--lt-cred-mech", "--secure-stun", "-r", REALM, "-u", f"{NAME}:{PASSWORD}")
    with turnserver(*secure) as server:
        for host in ("127.0.0.1", "::1"):
            for words in ((), ("--sha256",)):
                kind = "IPv6" if ":" in host else "IPv4"
                row(peer, " ".join(("udp_client", *words,
                                    "→ `turnserver --lt-cred-mech --secure-stun`,", kind)),
                    "each validated the other", "HMAC-SHA1",
                    lambda: client_prints(server, host, NAME, PASSWORD, *words))
        row(peer, "the same, wrong password", "coturn refused udp_client", "HMAC-SHA1",
            lambda: client_is_refused(server, NAME, "wrong"))
    with turnserver(*(word for word in secure if word != "--secure-stun")) as server:
        row(peer, "udp_client with a name → `turnserver --lt-cred-mech`, which signs no Binding",
            "nobody", "none", lambda: client_is_refused(server, NAME, PASSWORD))
    with turnserver(*secure, "--stale-nonce=1") as server:
        row(peer, "udp_client → the same with `--stale-nonce=1`, request held back",
            "each validated the other", "HMAC-SHA1", lambda: stale(server))


def with_libnice(number, folder):
    peer, program = f"libnice {number}", folder / "libnice_peer"
    flags = run("pkg-config", "--cflags", "--libs", "nice")
    source = harness.HERE / "libnice_peer.c"
    built = run(*harness.compiler(), "-O1", source, "-o", program, *flags[0].split())
    assert built[1] == 0, built
    for offered in ((), ("--sha256",)):
        row(peer, " ".join(("StunAgent → udp_server", *offered)), "each validated the other",
            "HMAC-SHA1", lambda: asks((program, "client", "127.0.0.1", "PORT", NAME, PASSWORD),
                                      "signed", f" 200 SHA1 {NAME}", *offered))
    for offered in ((), ("--sha256",)):
        row(peer, " ".join(("its ICE agent (Allocate) → udp_server --any-method", *offered)),
            "udp_server validated libnice", "HMAC-SHA1",
            lambda: asks((program, "gather", "127.0.0.1", "PORT", NAME, PASSWORD), "gathered",
                         " 420", *offered))
    going_on(peer, "StunAgent", (program, "client", "127.0.0.1", "PORT", NAME, PASSWORD),
             [401, 438, 200])
    going_on(peer, "its ICE agent (Allocate)",
             (program, "gather", "127.0.0.1", "PORT", NAME, PASSWORD), [401, 438, 420])
    row(peer, "StunAgent → udp_server, wrong password", "udp_server refused libnice", "HMAC-SHA1",
        lambda: refused((program, "client", "127.0.0.1", "PORT", NAME, "wrong")))
    with Peer(program, "server", *harness.USER) as server:
        for words in ((), ("--sha256",)):
            row(peer, " ".join(("udp_client", *words, "→ StunAgent")), "each validated the other",
                "HMAC-SHA1", lambda: client_prints(server, "127.0.0.1", NAME, PASSWORD, *words))
        row(peer, "the same, wrong password", "libnice refused udp_client", "HMAC-SHA1",
            lambda: client_is_refused(server, NAME, "wrong"))


def with_aioice(number):
    peer, program = f"aioice {number}", (PYTHON, harness.HERE / "aioice_peer.py")
    for host in ("127.0.0.1", "::1"):
        kind = "IPv6" if ":" in host else "IPv4"
        row(peer, f"stun.Message → udp_server, {kind}", "each validated the other", "HMAC-SHA1",
            lambda: asks((*program, "client", host, "PORT", NAME, PASSWORD), "signed", f" 200 SHA1 {NAME}"))
    row(peer, "its TURN client (Allocate) → udp_server --any-method", "udp_server validated aioice",
        "HMAC-SHA1", lambda: asks((*program, "turn", "127.0.0.1", "PORT", NAME, PASSWORD),
                                  "420 signed", " 420"))
    going_on(peer, "its TURN client (Allocate)",
             (*program, "turn", "127.0.0.1", "PORT", NAME, PASSWORD), [401, 438])
    row(peer, "stun.Message → udp_server, wrong password", "udp_server refused aioice", "HMAC-SHA1",
        lambda: refused((*program, "client", "127.0.0.1", "PORT", NAME, "wrong")))
    with Peer(*program, "server", *harness.USER) as server:
        for words in ((), ("--sha256",)):
            row(peer, " ".join(("udp_client", *words, "→ stun.parse_message")),
                "each validated the other", "HMAC-SHA1",
                lambda: client_prints(server, "127.0.0.1", NAME, PASSWORD, *words))
        row(peer, "the same, wrong password", "aioice refused udp_client", "HMAC-SHA1",
            lambda: client_is_refused(server, NAME, "wrong"))


def with_pion(number, folder):
    peer, program = f"pion {number}", folder / "pion_peer"
    go = {**os.environ, "GO111MODULE": "off", "GOPATH": "/usr/share/gocode",
          "GOCACHE": str(folder / "cache"), "GOFLAGS": ""}
    subprocess.run(["go", "build", "-o", program, harness.HERE / "pion_peer.go"], env=go,
                   check=True)
    for host in ("127.0.0.1", "::1"):
        kind = "IPv6" if ":" in host else "IPv4"
        row(peer, f"stun.Message → udp_server --sha256, {kind}", "each validated the other",
            "HMAC-SHA1", lambda: asks((program, "client", host, "PORT", NAME, PASSWORD), "signed",
                                      f" 200 SHA1 {NAME}", "--sha256"))
    row(peer, "the same, wrong password", "udp_server refused pion", "HMAC-SHA1",
        lambda: refused((program, "client", "127.0.0.1", "PORT", NAME, "wrong")))
    with Peer(program, "server", *harness.USER) as server:
        for words in ((), ("--sha256",)):
            row(peer, " ".join(("udp_client", *words, "→ stun.Message")),
                "each validated the other", "HMAC-SHA1",
                lambda: client_prints(server, "127.0.0.1", NAME, PASSWORD, *words))
        row(peer, "the same, wrong password", "pion refused udp_client", "HMAC-SHA1",
            lambda: client_is_refused(server, NAME, "wrong"))


def with_stund(number):
    """A server of RFC 3489: its success has SOURCE-ADDRESS and CHANGED-ADDRESS."""
    here = ("-h", "127.0.0.1", "-a", "127.0.0.2", "-p", port := free_port(), "-o", free_port())
    with Peer("/usr/sbin/stund", *here, port=port) as server:
        row(f"stund {number}", "udp_client → stund", "nobody", "none",
            lambda: client_prints(server, "127.0.0.1"))


def install():
    """Installs the packages that are missing."""
    missing = [package for package in PACKAGES if version(package) is None]
    for words in (["update"],
                  ["install", "-y", "--no-install-recommends", *missing]) if missing else ():
        environment = {**os.environ, "DEBIAN_FRONTEND": "noninteractive"}
        subprocess.run(["apt-get", "-q", *words], stdout=sys.stderr, env=environment, check=True)


def main():
    if "--install" in sys.argv:
        install()
    if IS_IN_C:
        subprocess.run(["make", "-s", "-C", harness.TOP / "examples/c", "udp",
                        f"ENDPOINT={harness.ENDPOINT}",
                        f"LIBRARY={harness.STATELESS}", f"SYSTEM={harness.BESIDE}"], check=True)
    versions = {package: version(package) for package in PACKAGES}
    if versions["coturn"]:
        with_coturn(versions["coturn"])
    if versions["libnice-dev"] and versions["pkg-config"]:
        with tempfile.TemporaryDirectory() as folder:
            with_libnice(versions["libnice-dev"], pathlib.Path(folder))
    if versions["python3-aioice"]:
        with_aioice(versions["python3-aioice"])
    if versions["golang-github-pion-stun-dev"] and versions["golang-go"]:
        with tempfile.TemporaryDirectory() as folder:
            with_pion(versions["golang-github-pion-stun-dev"], pathlib.Path(folder))
    if versions["stun-client"]:
        row(f"stun-client {versions['stun-client']}", "`stun` → udp_server", "nobody", "none",
            old_stun)
    if versions["stun-server"]:
        with_stund(versions["stun-server"])
    print("| Peer | What | Who validated whose digest | Algorithm | Seen |\n|---|---|---|---|---|")
    for one in ROWS:
        print("| " + " | ".join(one) + " |")
    for package in PACKAGES:
        if versions[package] is None:
            print(f"\nNot installed, so not tried: {package}")
    return any("FAILED" in one[-1] for one in ROWS)


if __name__ == "__main__":
    sys.exit(main())
