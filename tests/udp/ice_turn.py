#!/usr/bin/env python3
"""Tries ice_check against itself and the agents of libnice and aioice, and turn_client against
coturn and pion, over loopback, and prints a Markdown table of what was seen.

    ice_turn.py [--install] [--turn-client PROGRAM]..

The peers are Debian's packages libnice-dev, python3-aioice, coturn and
golang-github-pion-turn.v2-dev. With --install those that are missing are installed by apt-get;
without it what needs them is left out. The programs of examples/c are built with all warnings, and
with sanitizers where the compiler has them. Programs that are named take the words of turn_client,
such as that of rust/examples, and are tried with coturn and pion too. docs/INTEROP.md has the table
of a run. Status 0 where each row came out as it should; the last line says with whom.
"""
import concurrent.futures
import contextlib
import os
import pathlib
import re
import shutil
import socket
import subprocess
import sys
import threading
import time

import harness
import interop
from harness import NAME, PASSWORD, REALM, stun
from meeting import CONTROLLED, CONTROLLING, PRIORITY, USE_CANDIDATE
from meeting import Side, everything, fails, is_message, met, met_over, role_of

PACKAGES = ("libnice-dev", "pkg-config", "python3-aioice", "coturn", "golang-go",
            "golang-github-pion-turn.v2-dev")
LARGEST = str((1 << 64) - 1)
UNKNOWN = 0x7777  # a type that must be understood
CREATE_PERMISSION = 0x0008
OURS, LOOPBACK = "ice_check", "--allow-loopback-peers"
OTHER = {"controlling": "controlled", "controlled": "controlling"}


# ---- Two of ours


def two_of_ours(program, host):
    """Each is nominated as it was told, and seen at its candidate."""
    first, second = (Side(program, role, "--at", host) for role in ("controlling", "controlled"))
    addresses = first.address, second.address
    ends = met(first, second)
    assert [role_of(end) for end in ends] == ["controlling", "controlled"], ends
    for end, address in zip(ends, addresses):
        text = f"[{host}]:{address[1]}" if ":" in host else f"{host}:{address[1]}"
        assert any(line.endswith(f"seen as {text}") for line in end.lines), (end, text)
    return "both nominated, data both ways"


def many(program):
    """Each side checks each of 5,041 pairs, as paced, and none is lost."""
    words = "--candidates", "71", "--pace", "0.0002"
    ends = met(*(Side(program, role, *words) for role in ("controlling", "controlled")))
    assert [role_of(end) for end in ends] == ["controlling", "controlled"], ends
    told = r"checked 5041 pairs in (\S+) s, 5041 valid, 0 failed, (\d+) requests sent again"
    found = [re.fullmatch(told, end.lines[-1]) for end in ends]
    assert all(found), [end.lines for end in ends]
    seconds, again = (" and ".join(one[group] for one in found) for group in (1, 2))
    return f"all valid on both sides in {seconds} s, none lost; {again} requests sent again"


def conflict(program, role, words, wanted):
    """Both begin in one role, with these tie-breakers; a 487 repairs it. The first datagrams cross,
    since otherwise a side may take the other role before it has sent a check."""
    held = []

    def rule(wire, is_of_first, number, data):
        of = 0 if is_of_first else 1
        if all(other == of for other, _ in wire.seen):
            held.append(data)
            return []
        while held:
            wire.ends[of].sendto(held.pop(0), wire.sides[of].address)
        return [data]

    sides = [Side(program, role, "--tie-breaker", word) for word in words]
    *ends, wire = met_over(*sides, rule)
    roles = [role_of(end) for end in ends]
    assert wanted is None or roles == wanted, (roles, wire.codes())
    assert sorted(roles) == ["controlled", "controlling"], roles
    refused = [of for of, code in wire.codes() if code == 487]
    assert refused, wire.codes()
    return f"487 by the {'first' if refused[0] == 0 else 'second'}; nominated as {', '.join(roles)}"


def lost(program):
    """The first two datagrams of each are lost, and then each third."""
    rule = lambda wire, is_of_first, number, data: [data] if number > 2 and number % 3 else []
    *ends, wire = met_over(Side(program, "controlling"), Side(program, "controlled"), rule)
    assert [role_of(end) for end in ends] == ["controlling", "controlled"], ends
    return "both nominated, data both ways"


def repeated(program):
    twice = lambda wire, is_of_first, number, data: [data, data]
    *ends, wire = met_over(Side(program, "controlling"), Side(program, "controlled"), twice)
    assert [role_of(end) for end in ends] == ["controlling", "controlled"], ends
    return "both nominated, data both ways"


def briefly(program, role):
    return Side(program, role, "--within", "3")


def changes(number, data):
    """A datagram in 40 ways, each with another bit turned, and others the next time."""
    bits = [(37 * number + 11 * i) % (8 * len(data)) for i in range(40)]
    return [data[:bit // 8] + bytes([data[bit // 8] ^ 1 << bit % 8]) + data[bit // 8 + 1:]
            for bit in bits]


def changed(program):
    rule = lambda wire, is_of_first, number, data: changes(number, data)
    sides = briefly(program, "controlling"), briefly(program, "controlled")
    *ends, wire = met_over(*sides, rule, is_right=False)
    for end in ends:
        fails(end, "no time left")
    assert not wire.codes(), wire.codes()
    return "nothing answered, nobody nominated"


def wrong_password(program):
    sides = briefly(program, "controlling"), briefly(program, "controlled")
    sides[1].password = "0123456789abcdefghijklmn"
    *ends, wire = met_over(*sides, is_right=False)
    for end in ends:
        fails(end, "no time left")
    assert (1, 401) in wire.codes() and (0, 200) in wire.codes(), wire.codes()
    return "401, which nobody signs; nobody nominated"


def another_address(program):
    """Each answer comes from another port than was asked."""

    def rule(wire, is_of_first, number, data):
        if not stun.read(data)[0] & 0x100:
            return [data]
        wire.stranger.sendto(data, wire.sides[is_of_first].address)
        return []

    sides = briefly(program, "controlling"), briefly(program, "controlled")
    *ends, wire = met_over(*sides, rule, is_right=False)
    for end in ends:
        fails(end, "a response from another address" if "address" in end.err else "no time left")
    assert all(code == 200 for _, code in wire.codes()) and wire.codes(), wire.codes()
    return "the check fails, nobody nominated"


class Them:
    """The other side of one program, message by message."""

    NAME, PASSWORD = "them", "theirPasswordOf24Letters"

    def __init__(self, program, role):
        self.side = Side(program, role)
        self.socket = socket.socket(socket.AF_INET, socket.SOCK_DGRAM)
        self.socket.bind(("127.0.0.1", 0))
        self.socket.settimeout(20)
        self.side.meet(self.socket.getsockname(), self.NAME, self.PASSWORD)

    def check(self, *extra, name=None, password=None):
        """A check of theirs, who control, without FINGERPRINT."""
        name = f"{self.side.ufrag}:{self.NAME}" if name is None else name
        attributes = [(stun.USERNAME, name.encode())] if name else []
        attributes += [(PRIORITY, b"\x6e\xff\xff\xff"), (CONTROLLING, bytes(8)), *extra]
        message = stun.message(stun.REQUEST, attributes)
        return stun.signed(message, stun.SHA1, (password or self.side.password).encode())

    def send(self, message):
        self.socket.sendto(message, self.side.address)

    def receive(self, wanted):
        """The next message of which this holds."""
        while True:
            data = self.socket.recv(4096)
            if is_message(data) and wanted(data):
                assert stun.has_right_fingerprint(data), data
                return data

    def answer_to(self, message):
        self.send(message)
        return self.receive(lambda data: data[8:20] == message[8:20])

    def their_check(self, *but):
        """A check of the program's, signed under the password here, other than these."""
        data = self.receive(lambda data: stun.read(data)[0] == stun.REQUEST and data not in but)
        assert stun.verifies(data, stun.SHA1, self.PASSWORD.encode()), data
        return data

    def answer(self, check, *attributes, kind=stun.SUCCESS, password=PASSWORD):
        message = stun.message(kind, attributes, check[8:20])
        self.send(stun.fingerprinted(stun.signed(message, stun.SHA1, password.encode())))

    def seen(self, check):
        return stun.XOR_MAPPED_ADDRESS, stun.hidden_address(check, *self.side.address)


def judges(program):
    """What a controlled program answers, and what it drops."""
    them = Them(program, "controlled")
    right, nominating = them.check(), them.check((USE_CANDIDATE, b""))
    whole = stun.fingerprinted(right)
    for dropped in (right, whole[:-1] + bytes([whole[-1] ^ 1]), whole[:30]):
        them.send(dropped)
    them.send(stun.fingerprinted(stun.message(stun.INDICATION)))
    for check, code in ((stun.message(stun.REQUEST), 400), (them.check(name=""), 400),
                        (them.check(name="them:us"), 401), (them.check(password="wrong"), 401),
                        (them.check((UNKNOWN, b"")), 420), (right, 200), (nominating, 200)):
        answer = them.answer_to(stun.fingerprinted(check))
        is_signed = stun.verifies(answer, stun.SHA1, them.side.password.encode())
        assert stun.code_of(answer) == code and is_signed == (code in (420, 200)), (code, answer)
        if code == 420:
            assert stun.value_of(answer, stun.UNKNOWN) == UNKNOWN.to_bytes(2, "big"), answer
        if code == 200:
            own = socket.inet_aton("127.0.0.1"), them.socket.getsockname()[1]
            assert stun.mapped_address(answer) == own, answer
    check = them.their_check()
    them.answer(check, (stun.XOR_MAPPED_ADDRESS, bytes(8)), password="wrong")
    them.answer(check, them.seen(check))
    them.send(b"data")
    end = them.side.ended()
    assert end.status == 0 and not end.err and end.lines[0].startswith("nominated"), end
    return "400, 401, 420 and 200; no answer without a right FINGERPRINT"


def asks(program):
    """What a controlling program makes of answers: a success, a role conflict, an error."""
    them = Them(program, "controlling")
    first = them.their_check()
    assert stun.value_of(first, USE_CANDIDATE) is None, first
    them.answer(first, them.seen(first))
    second = them.their_check(first)
    assert stun.value_of(second, USE_CANDIDATE) == b"", second
    them.answer(second, (stun.ERROR_CODE, b"\0\0\4\x57"), kind=stun.ERROR)
    third = them.their_check(first, second)
    tie_breakers = stun.value_of(first, CONTROLLING), stun.value_of(third, CONTROLLED)
    assert tie_breakers[1] not in (None, tie_breakers[0]), third
    assert stun.value_of(third, USE_CANDIDATE) is None, third
    them.answer(third, (stun.ERROR_CODE, b"\0\0\5\0"), kind=stun.ERROR)
    fails(them.side.ended(), "an error response")
    return "USE-CANDIDATE in the second check; after 487 the other role, another tie-breaker"


def not_taken(program):
    """A success without an address, and one that is not understood."""
    them = Them(program, "controlling")
    them.answer(them.their_check())
    fails(them.side.ended(), "no mapped address")
    them = Them(program, "controlling")
    check = them.their_check()
    them.answer(check, them.seen(check), (UNKNOWN, b""))
    fails(them.side.ended(), "a response that is not understood")
    return "the pair fails"


def wrong_words(*programs):
    for program in programs:
        for words in ((), ("x",), ("controlling", "x"), ("controlled", "--tie-breaker", "0"),
                      ("::1", "1", "name", "password", "::1"), ("controlling", "--what")):
            run = subprocess.run([program, *words], capture_output=True, text=True, timeout=45)
            assert run.returncode == 2 and run.stderr.startswith("usage"), (program, words, run)
    return "status 2"


# ---- With other agents


def with_agent(program, agent, our_role, their_role=None, words=()):
    """Both are nominated, where they begin in one role too, and each message is judged."""
    theirs = their_role or OTHER[our_role]
    *ends, wire = met_over(Side(program, our_role, *words), Side(*agent, theirs))
    assert ends[1].status == 0 and role_of(ends[1]) and not ends[1].err, ends
    if their_role is None:
        assert role_of(ends[0]) == our_role, ends
        return "both nominated, data both ways"
    is_larger = words[1] == LARGEST
    wanted = "controlling" if is_larger else "controlled"
    assert role_of(ends[0]) == wanted, ends
    refused = {("us", "them")[of] for of, code in wire.codes() if code == 487}
    return f"487 by {' and '.join(sorted(refused)) or 'nobody'}; we are {wanted}, both nominated"


def with_agent_itself(program, agent, our_role):
    """The same without a wire: each sees the other at its candidate."""
    side = Side(program, our_role)
    ends = met(side, Side(*agent, OTHER[our_role]))
    assert [role_of(end) for end in ends] == [our_role, OTHER[our_role]], ends
    assert any(line.endswith(f":{side.address[1]}") for line in ends[0].lines), ends
    return "both nominated, data both ways"


# ---- TURN


class Echo:
    """A peer that sends back what comes, or nothing."""

    def __init__(self, host, is_silent=False):
        family = socket.AF_INET6 if ":" in host else socket.AF_INET
        self.socket, self.is_silent = socket.socket(family, socket.SOCK_DGRAM), is_silent
        self.socket.bind((host, 0))
        self.port = self.socket.getsockname()[1]
        threading.Thread(target=self.serve, daemon=True).start()

    def serve(self):
        while True:
            data, peer = self.socket.recvfrom(4096)
            if not self.is_silent:
                self.socket.sendto(data, peer)


def session(program, server, peer, *words, name=NAME, password=PASSWORD, within="30"):
    where = (server[0], str(server[1]), name, password, peer[0], str(peer[1]))
    command = [program, *where, *words, "--within", within]
    run = subprocess.run(command, capture_output=True, text=True, timeout=60)
    return run.returncode, run.stdout.splitlines(), run.stderr.strip()


RELAYED = ["came back: by indication", "came back: on the channel", "ended"]


def judged(relay):
    """Each request but the first is signed under the user's key, and so is each answer but a 401
    and a 438; data came by indication and on the channel. The code that answers each transaction
    ID."""
    key = stun.key_of(stun.SHA1, NAME, REALM, PASSWORD)
    codes = {}
    for one in filter(is_message, relay.requests + relay.responses):
        kind = stun.read(one)[0]
        is_indication, is_first = kind & 0x110 == 0x010, one == relay.requests[0]
        if kind & 0x100:
            codes.setdefault(one[8:20], stun.code_of(one))
        is_free = is_indication or is_first or codes.get(one[8:20]) in (401, 438)
        assert stun.verifies(one, stun.SHA1, key) or is_free, one
    for way in (relay.requests, relay.responses):
        assert any(one[0] == 0x40 for one in way), "no ChannelData"
        assert any(is_message(one) and stun.read(one)[0] in (0x0016, 0x0017) for one in way)
    return codes


def codes_of_session(program, server, host, peer, rule):
    """The whole session: what came back each way, and the end."""
    with harness.Relay(server, rule, host=host) as relay:
        status, lines, err = session(program, (host, relay.port), peer)
        assert (status, lines[1:], err) == (0, RELAYED, ""), (status, lines, err)
        return judged(relay)


def relayed(program, server, host, peer, rule=everything):
    codes = list(codes_of_session(program, server, host, peer, rule).values())
    assert codes == [401, 200, 200, 200, 200], codes
    return f"data came back each way; codes {codes}"


def refreshed(program, server, peer):
    """The permission is asked for under a nonce that has expired by then. On a busy machine a nonce
    expires before another request as well, which the client signs again."""
    held = []

    def rule(relay, is_request, number, data):
        if is_message(data) and stun.read(data)[0] == CREATE_PERMISSION and not held:
            held.append(data[8:20])
            time.sleep(3.5)
        return [data]

    codes = codes_of_session(program, server, "127.0.0.1", peer, rule)
    assert codes[held[0]] == 438, codes
    others = [code for code in codes.values() if code != 438]
    assert others == [401, 200, 200, 200, 200], codes
    return "data came back each way; 438 to the permission, which is signed again"


def with_address(program, server, peer):
    """One client asks for its address by requests that are not signed, and neither are their
    responses, before and after the allocation."""
    with harness.Relay(server, everything) as relay:
        status, lines, err = session(program, ("127.0.0.1", relay.port), peer, "--address")
        kinds = [stun.read(one)[0] for one in filter(is_message, relay.responses)]
        unsigned = [one for one in relay.requests + relay.responses
                    if is_message(one) and stun.read(one)[0] in (0x0001, 0x0101)]
        assert len(unsigned) == 4 and kinds[0] == 0x0101, kinds
        signatures = stun.INTEGRITY, stun.INTEGRITY_SHA256, stun.USERNAME
        for one in unsigned:
            assert all(stun.value_of(one, kind) is None for kind in signatures), one
    words = [line.split()[0] for line in lines]
    assert (status, words, err) == (0, ["address", "relayed", "address", "came", "came", "ended"], "")
    assert lines[0] == lines[2], lines
    return "Binding, Allocate, Binding and a session by one client"


def with_fingerprints(program, server, peer):
    """The server ends each message with FINGERPRINT, and one that is wrong is dropped."""

    def rule(relay, is_request, number, data):
        if is_request or not is_message(data):
            return [data]
        assert stun.has_right_fingerprint(data), data
        return [data[:-1] + bytes([data[-1] ^ 1]), data]

    return f"{relayed(program, server, '127.0.0.1', peer, rule)}; a wrong one is dropped"


def loses(relay, is_request, number, data):
    """The first two datagrams each way are lost."""
    return [data] if number > 2 else []


def forges(relay, is_request, number, data):
    """Before each answer but the challenge, and before data, come 40 that are changed."""
    return [data] if is_request or number == 1 else [*changes(number, data), data]


def is_refused(program, server, peer, why, lines, **words):
    """It says why, and ended what was allocated."""
    status, printed, err = session(program, ("127.0.0.1", server.port), peer, **words)
    printed = [line.split()[0] for line in printed]
    assert (status, printed) == (1, lines) and err.startswith(why), (status, printed, err)
    return f"`{err}`" + ("; ended" if lines else "")


def is_refused_at(program, server, peer, why):
    """Each answer comes from another port than was asked."""

    def rule(relay, is_request, number, data):
        if is_request:
            return [data]
        relay.stranger.sendto(data, relay.client)
        return []

    with harness.Relay(server, rule) as relay:
        seen = is_refused(program, relay, peer, why, [], within="3")
        assert relay.responses, "the server was not asked"
        return seen


# ---- All rows


def of_ours(ice_check, turn_client, udp_server):
    run = lambda what, *words: lambda: what(ice_check, *words)
    hosts = {"IPv4": "127.0.0.1", "IPv6": "::1"} if harness.has_ipv6() else {"IPv4": "127.0.0.1"}
    for kind, host in hosts.items():
        yield OURS, f"controlling and controlled, {kind}", run(two_of_ours, host)
    yield OURS, "71 candidates each, 5,041 pairs, a check each 0.2 ms", run(many)
    for role in OTHER:
        for words, first in ((("9", "5"), "controlling"), (("5", "9"), "controlled"),
                             (("7", "7"), None)):
            wanted = [first, OTHER[first]] if first else None
            yield (OURS, f"both {role}, tie-breakers {' and '.join(words)}",
                   run(conflict, role, words, wanted))
    for what, trial in (("the first two datagrams of each lost, then each third", lost),
                        ("each datagram twice", repeated),
                        ("each datagram with a bit turned", changed),
                        ("one has a wrong password of the other", wrong_password),
                        ("answers of another port", another_address),
                        ("checks, right and wrong, of a socket", judges),
                        ("answers of a socket", asks),
                        ("successes that cannot be taken, of a socket", not_taken)):
        yield OURS, what, run(trial)
    yield "both programs", "wrong words", lambda: wrong_words(ice_check, turn_client)
    yield "udp_server --any-method", "turn_client", lambda: no_turn(turn_client, udp_server)


def no_turn(turn_client, udp_server):
    """A server with users that knows no REQUESTED-TRANSPORT: its 420 is signed."""
    with harness.Server(udp_server, *harness.USER, "--any-method") as server:
        return is_refused(turn_client, server, ("127.0.0.1", 9), "Allocate: refused 420", [])


def of_agent(name, agent, ice_check):
    run = lambda what, *words: lambda: what(ice_check, agent, *words)
    for role in OTHER:
        yield name, f"we are {role}", run(with_agent_itself, role)
        yield name, f"we are {role}, behind a NAT", run(with_agent, role)
        for word, size in (("1", "smallest"), (LARGEST, "largest")):
            yield (name, f"both {role}, ours the {size} tie-breaker",
                   run(with_agent, role, role, ("--tie-breaker", word)))


def started(*words, port=None):
    """A program of coturn's on a port, which is ended at the end."""
    return interop.Peer(*words, "-p", port, port=port)


def turnserver(folder, *words):
    port = interop.free_port()
    here = ["--listening-ip=127.0.0.1", *(["--listening-ip=::1"] if harness.has_ipv6() else [])]
    files = f"--pidfile={folder}/{port}.pid", f"--userdb={folder}/{port}.db"
    users = "--lt-cred-mech", "-r", REALM, "-u", f"{NAME}:{PASSWORD}", "--relay-ip=127.0.0.1"
    return started("turnserver", "-n", *here, "--no-tls", "--no-dtls", "--no-cli",
                   "--log-file=stdout", *files, *users, *words, port=port)


def of_coturn(name, turn_client, folder, start):
    """Rows at servers that `start` keeps until the end."""
    at = lambda *words: start(turnserver(folder, *words))
    run = lambda what, *words, **more: lambda: what(turn_client, *words, **more)
    server, echo, port = at(LOOPBACK), Echo("127.0.0.1"), interop.free_port()
    start(started("turnutils_peer", "-L", "127.0.0.1", port=port))
    yield name, "peer turnutils_peer", run(relayed, server, "127.0.0.1", ("127.0.0.1", port))
    peer = "127.0.0.1", echo.port
    if harness.has_ipv6():
        both, six = at(LOOPBACK, "--relay-ip=::1"), Echo("::1")
        yield name, "server over IPv6", run(relayed, server, "::1", peer)
        yield name, "server and peer over IPv6", run(relayed, both, "::1", ("::1", six.port))
    fingerprints, short = at(LOOPBACK, "--fingerprint"), at(LOOPBACK, "--stale-nonce=1")
    yield name, "`--fingerprint`", run(with_fingerprints, fingerprints, peer)
    yield (name, "the first two datagrams each way lost",
           run(relayed, server, "127.0.0.1", peer, loses))
    yield (name, "before each signed answer 40 with a bit turned",
           run(relayed, server, "127.0.0.1", peer, forges))
    yield name, "`--address`", run(with_address, server, peer)
    yield (name, "answers of another port",
           run(is_refused_at, server, peer, "Allocate: no answer"))
    yield (name, "`--stale-nonce=1`, the permission held back", run(refreshed, short, peer))
    yield (name, "wrong password",
           run(is_refused, server, peer, "Allocate: refused", [], password="wrong"))
    strict, silent = at(), Echo("127.0.0.1", is_silent=True)
    ended = ["relayed", "ended"]
    yield (name, "a peer on loopback, where none is allowed",
           run(is_refused, strict, peer, "CreatePermission: refused 403", ended))
    yield (name, "a peer that is silent",
           run(is_refused, server, ("127.0.0.1", silent.port),
               "by indication: nothing came back", ended, within="3"))


def built_pion(folder):
    """pion's TURN server."""
    go = {**os.environ, "GO111MODULE": "off", "GOPATH": "/usr/share/gocode",
          "GOCACHE": str(folder / "cache"), "GOFLAGS": ""}
    program = folder / "pion_turn"
    subprocess.run(["go", "build", "-o", program, harness.HERE / "pion_turn.go"], env=go,
                   check=True)
    return program


def of_pion(name, turn_client, pion, start):
    """A session over each family, and a wrong password, for which pion signs no refusal."""
    run = lambda what, *words, **more: lambda: what(turn_client, *words, **more)
    for host in ("127.0.0.1", "::1") if harness.has_ipv6() else ("127.0.0.1",):
        server, echo = start(interop.Peer(pion, host, REALM, NAME, PASSWORD)), Echo("127.0.0.1")
        kind, peer = "IPv6" if ":" in host else "IPv4", ("127.0.0.1", echo.port)
        yield name, f"server over {kind}", run(relayed, server, host, peer)
        if host == "127.0.0.1":
            yield (name, "wrong password",
                   run(is_refused, server, peer, "Allocate: no answer; ", [], password="wrong",
                       within="3"))


def installed():
    """The versions of the packages, or None of those that are not there."""
    if "--install" in sys.argv:
        interop.PACKAGES = PACKAGES
        interop.install()
    has_packages = shutil.which("dpkg-query") is not None
    return {package: interop.version(package) if has_packages else None for package in PACKAGES}


def named():
    """The programs after each --turn-client."""
    words = zip(sys.argv, sys.argv[1:])
    return [pathlib.Path(path) for option, path in words if option == "--turn-client"]


def cases(folder, versions, start):
    ice_check, turn_client = folder / "ice_check", folder / "turn_client"
    yield from of_ours(ice_check, turn_client, folder / "udp_server")
    if versions["libnice-dev"] and shutil.which("pkg-config"):
        libnice, source = folder / "libnice_ice", harness.HERE / "libnice_ice.c"
        flags = interop.run("pkg-config", "--cflags", "--libs", "nice")[0].split()
        built = interop.run(*harness.compiler(), source, "-o", libnice, *flags)
        assert built[1] == 0, built
        yield from of_agent(f"libnice {versions['libnice-dev']}", [libnice], ice_check)
    if versions["python3-aioice"]:
        aioice = [interop.PYTHON, harness.HERE / "aioice_ice.py"]
        yield from of_agent(f"aioice {versions['python3-aioice']}", aioice, ice_check)
    if versions["coturn"]:
        name = f"coturn {versions['coturn']}"
        yield from of_coturn(name, turn_client, folder, start)
        for program in named():
            yield from of_coturn(f"{name}, {program.name} in Rust", program, folder, start)
    if versions["golang-github-pion-turn.v2-dev"] and versions["golang-go"]:
        name, pion = f"pion {versions['golang-github-pion-turn.v2-dev']}", built_pion(folder)
        yield from of_pion(name, turn_client, pion, start)
        for program in named():
            yield from of_pion(f"{name}, {program.name} in Rust", program, pion, start)


def tried(case):
    """A row: the peer, what was tried, and what came of it."""
    peer, what, trial = case
    try:
        return peer, what, trial()
    except Exception as error:
        return peer, what, f"FAILED: {type(error).__name__}: {error}"


def main():
    with contextlib.ExitStack() as stack:
        folder = stack.enter_context(harness.scratch())
        is_sanitized, missing = harness.build(folder)
        if missing:
            print(f"ice and turn: nothing checked: {missing}")
            return 0
        versions = installed()
        harness.end_within()
        all_cases = list(cases(folder, versions, stack.enter_context))
        with concurrent.futures.ThreadPoolExecutor(6) as pool:
            rows = list(pool.map(tried, all_cases))
    print("| With | What | Seen |\n|---|---|---|")
    for row in rows:
        print("| " + " | ".join(row) + " |")
    failed = [row for row in rows if row[2].startswith("FAILED")]
    for row in failed:
        print(": ".join(row), file=sys.stderr)
    peers = ("libnice", "aioice", "coturn", "pion")
    others = {row[0].split(",")[0]: None for row in rows if row[0].split()[0] in peers}
    with_whom = ", ".join(["our own", *others])
    sanitizers = "with" if is_sanitized else "without"
    print(f"ice and turn: {len(rows) - len(failed)} passed, {len(failed)} failed, with "
          f"{with_whom}, {sanitizers} sanitizers")
    return 1 if failed else 0


if __name__ == "__main__":
    sys.exit(main())
