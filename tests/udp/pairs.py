"""Cases of a client and a server, through relays that lose, repeat and change, and of a client."""
import hashlib
import pathlib
import random
import select
import signal
import socket
import subprocess
import tempfile
import threading
import time

from harness import NAME, PASSWORD, REALM, USER, Asked, Relay, Server, stun
from harness import ask, codes, fails, is_signed, scaled, succeeds


def open_server(server, client, host):
    with Server(server) as running, Relay(running, host=host) as relay:
        succeeds(ask(client, host, relay.port), relay.address())
        assert codes(relay) == [200] and not is_signed(relay.responses[0])


def long_term(server, client, host, offered, supported):
    """401, then a success that both sides signed, by the strongest algorithm that both have."""
    algorithm = stun.SHA256 if offered and supported else stun.SHA1
    key = stun.key_of(algorithm, NAME, REALM, PASSWORD)
    with Server(server, *USER, *offered, "-v") as running, Relay(running, host=host) as relay:
        succeeds(ask(client, host, relay.port, NAME, PASSWORD, *supported), relay.address())
        assert codes(relay) == [401, 200], codes(relay)
        challenge, success, request = relay.responses[0], relay.responses[-1], relay.requests[-1]
        assert not is_signed(challenge) and stun.value_of(challenge, stun.REALM) == REALM.encode()
        assert stun.asks_for_a_choice(challenge) == bool(offered)
        assert stun.verifies(request, algorithm, key) and stun.verifies(success, algorithm, key)
        assert stun.value_of(request, stun.NONCE) == stun.value_of(challenge, stun.NONCE)
        hidden = hashlib.sha256(f"{NAME}:{REALM}".encode()).digest()
        is_named = stun.value_of(request, stun.USERNAME) == NAME.encode()
        assert is_named or stun.value_of(request, stun.USERHASH) == hidden
        octets, port = stun.mapped_address(success)
        seen = socket.inet_pton(relay.back.family, relay.address()[0]), relay.address()[1]
        assert (octets, port) == seen


def unsigned_answer(server, client):
    """A client that has a password accepts no answer that nobody signed, and says so."""
    with Server(server) as running:
        asked = ask(client, "127.0.0.1", running.port, NAME, PASSWORD, within="1")
        fails(asked, "no answer; 2 dropped")


def unsigned_error(client):
    """Nor an error, of which it prints the code."""
    bad = [(stun.ERROR_CODE, b"\0\0\4\0")]
    with Answers(lambda request, peer: [stun.message(stun.ERROR, bad, request[8:20])]) as server:
        asked = ask(client, "127.0.0.1", server.port, NAME, PASSWORD, within="1")
        fails(asked, "no answer; 2 dropped")
        assert "error 400" in asked.err, asked


def older_types(client):
    """It ignores the reserved types that older servers send: SOURCE-ADDRESS, CHANGED-ADDRESS and
    BANDWIDTH."""
    older = [(kind, bytes(8)) for kind in (0x0004, 0x0005, 0x0010)]
    with Answers(lambda request, peer: [success(request, RIGHT, extra=older)]) as server:
        succeeds(ask(client, "127.0.0.1", server.port), RIGHT)


def no_name(server, client):
    with Server(server, *USER) as running:
        fails(ask(client, "127.0.0.1", running.port), "refused")


def wrong_password(server, client, words):
    with Server(server, *USER, *words) as running, Relay(running) as relay:
        asked = ask(client, "127.0.0.1", relay.port, NAME, "another", *words, within="3")
        assert asked.status == 1 and asked.out == "" and 200 not in codes(relay), asked


def nobody_there(client):
    with socket.socket(socket.AF_INET, socket.SOCK_DGRAM) as silent:
        silent.bind(("127.0.0.1", 0))
        fails(ask(client, "127.0.0.1", silent.getsockname()[1], within="1.2"), "no answer")


def two_lost(server, client):
    """The requests at 0 and 500 ms are lost, and that at 1,500 ms is answered."""

    def rule(relay, is_request, number, data):
        return [] if is_request and number <= 2 else [data]

    with Server(server) as running, Relay(running, rule) as relay:
        succeeds(ask(client, "127.0.0.1", relay.port), relay.address())
        waits = [later - relay.times[0] for later in relay.times]
        assert 0.3 < waits[1] < 1.3 and 1.3 < waits[2] < 3.0, waits
        assert relay.requests[0] == relay.requests[1] == relay.requests[2]


def all_repeated(server, client, words):
    twice = lambda relay, is_request, number, data: [data, data]
    with Server(server, *USER, *words) as running, Relay(running, twice) as relay:
        succeeds(ask(client, "127.0.0.1", relay.port, NAME, PASSWORD, *words), relay.address())


def changed(data, chance):
    """The datagram with one bit turned."""
    bit = chance.randrange(8 * len(data))
    return data[:bit // 8] + bytes([data[bit // 8] ^ 1 << bit % 8]) + data[bit // 8 + 1:]


def changed_response(server, client, words):
    """Each signed response comes 40 times, each time with another bit turned: none is believed."""
    chance = random.Random(8489)

    def rule(relay, is_request, number, data):
        if is_request or not is_signed(data):
            return [data]
        return [changed(data, chance) for _ in range(40)]

    with Server(server, *USER, *words) as running, Relay(running, rule) as relay:
        fails(ask(client, "127.0.0.1", relay.port, NAME, PASSWORD, *words, within="2"), "no answer")
        assert 200 in codes(relay)


def changed_request(server, client, words):
    """Each signed request comes 40 times, each time with another bit turned: none draws a
    success."""
    chance = random.Random(5389)

    def rule(relay, is_request, number, data):
        if not is_request or not is_signed(data):
            return [data]
        return [changed(data, chance) for _ in range(40)]

    with Server(server, *USER, *words) as running, Relay(running, rule) as relay:
        asked = ask(client, "127.0.0.1", relay.port, NAME, PASSWORD, *words, within="2")
        assert asked.status == 1 and asked.out == "" and 200 not in codes(relay), asked


def another_port(server, client, words):
    """A right answer counts only from the address that was asked."""

    def rule(relay, is_request, number, data):
        if is_request:
            return [data]
        relay.stranger.sendto(data, relay.client)
        return []

    with Server(server, *words) as running, Relay(running, rule) as relay:
        fails(ask(client, "127.0.0.1", relay.port, *words[1:], within="2"), "no answer")
        assert len(relay.responses) >= 2


def dealt_in_turn(server, client, words):
    """Two servers that get the datagrams of one address in turn challenge each other's requests,
    until the client gives up."""
    with Server(server, *USER, *words) as first, Server(server, *USER, *words) as second:

        def rule(relay, is_request, number, data):
            if is_request:
                relay.target = ("127.0.0.1", (first, second)[number % 2].port)
            return [data]

        with Relay(first, rule) as relay:
            asked = ask(client, "127.0.0.1", relay.port, NAME, PASSWORD, *words, within="3")
            assert asked.status == 1 and asked.out == "", asked
            assert codes(relay)[:2] == [401, 438] and 200 not in codes(relay), codes(relay)


def reflected(server, client):
    """A client's own request, sent back to it, is no answer."""

    def rule(relay, is_request, number, data):
        if is_request and is_signed(data):
            relay.front.sendto(data, relay.client)
            return []
        return [data]

    with Server(server, *USER) as running, Relay(running, rule) as relay:
        fails(ask(client, "127.0.0.1", relay.port, NAME, PASSWORD, within="1.5"), "no answer")
        assert len(relay.requests) >= 2


def expired(server, client, words, ahead):
    """The nonce expires while the signed request is on its way: 438 with a new one, and a
    success."""

    def rule(relay, is_request, number, data):
        if is_request and number == 2:
            relay.server.process.send_signal(signal.SIGUSR2)
            time.sleep(0.1)
        return [data]

    words_of_server = (*USER, "--expiry", "30", "--ahead", ahead, *words)
    with Server(server, *words_of_server) as running, Relay(running, rule) as relay:
        succeeds(ask(client, "127.0.0.1", relay.port, NAME, PASSWORD, *words), relay.address())
        assert codes(relay) == [401, 438, 200], codes(relay)
        stale = next(one for one in relay.responses if stun.code_of(one) == 438)
        assert stun.value_of(relay.responses[0], stun.NONCE) != stun.value_of(stale, stun.NONCE)


# ---- A server that does not know the address: it says 438, which a client takes up, and not 400


def restarted(server, client, words):
    """The server starts anew between the challenge and the signed request."""
    with Server(server, *USER, *words) as first, Server(server, *USER, *words) as second:

        def rule(relay, is_request, number, data):
            if is_request and number == 2:
                first.process.terminate()
                relay.target = ("127.0.0.1", second.port)
            return [data]

        with Relay(first, rule) as relay:
            succeeds(ask(client, "127.0.0.1", relay.port, NAME, PASSWORD, *words), relay.address())
            assert codes(relay) == [401, 438, 200], codes(relay)


def new_port(server, client, words):
    """The client has another port when it sends the signed request, as a NAT that rebinds has
    it."""

    def rule(relay, is_request, number, data):
        if is_request and number == 2:
            relay.back.close()
            relay.back = socket.socket(socket.AF_INET, socket.SOCK_DGRAM)
            relay.back.bind(("127.0.0.1", 0))
        return [data]

    with Server(server, *USER, *words) as running, Relay(running, rule) as relay:
        succeeds(ask(client, "127.0.0.1", relay.port, NAME, PASSWORD, *words), relay.address())
        assert codes(relay) == [401, 438, 200], codes(relay)


# ---- A client alone


class Answers:
    """A server that sends to each request what `answers` makes of it."""

    def __init__(self, answers):
        self.socket, self.answers = socket.socket(socket.AF_INET, socket.SOCK_DGRAM), answers
        self.socket.bind(("127.0.0.1", 0))
        self.port = self.socket.getsockname()[1]
        self.is_over = threading.Event()
        self.thread = threading.Thread(target=self.serve, daemon=True)
        self.thread.start()

    def serve(self):
        while not self.is_over.is_set():
            if select.select([self.socket], [], [], 0.05)[0]:
                data, peer = self.socket.recvfrom(4096)
                for answer in self.answers(data, peer):
                    self.socket.sendto(answer, peer)

    def __enter__(self):
        return self

    def __exit__(self, *_):
        self.is_over.set()
        self.thread.join(10)
        self.socket.close()


FALSE, RIGHT = ("192.0.2.1", 1), ("192.0.2.2", 2)


def success(request, address, kind=stun.SUCCESS, extra=()):
    told = (stun.XOR_MAPPED_ADDRESS, stun.hidden_address(request, *address))
    return stun.message(kind, [told, *extra], request[8:20])


def discards(client):
    """What has a wrong FINGERPRINT is no answer, nor is what has another method."""

    def answers(request, peer):
        wrong = stun.fingerprinted(success(request, FALSE))
        wrong = wrong[:-1] + bytes([wrong[-1] ^ 1])
        other_method = success(request, FALSE, stun.SUCCESS + 2)
        return [wrong, other_method, stun.fingerprinted(success(request, RIGHT))]

    with Answers(answers) as server:
        succeeds(ask(client, "127.0.0.1", server.port), RIGHT)


def not_understood(client):
    """A response with an unknown attribute that must be understood ends the request unanswered."""
    with Answers(lambda request, peer: [success(request, FALSE, extra=[(0x7777, b"")])]) as server:
        fails(ask(client, "127.0.0.1", server.port), "failed")
    with Answers(lambda request, peer: [success(request, RIGHT, extra=[(0x8777, b"")])]) as server:
        succeeds(ask(client, "127.0.0.1", server.port), RIGHT)


def no_code(client):
    """So does an error without ERROR-CODE."""
    with Answers(lambda request, peer: [stun.message(stun.ERROR, (), request[8:20])]) as server:
        fails(ask(client, "127.0.0.1", server.port), "failed")


def closed_port(client):
    """ICMP tells that nobody will answer."""
    with socket.socket(socket.AF_INET, socket.SOCK_DGRAM) as none:
        none.bind(("127.0.0.1", 0))
        port = none.getsockname()[1]
    begun = time.monotonic()
    fails(ask(client, "127.0.0.1", port), "no answer")
    assert time.monotonic() - begun < scaled(5), "the client waited on"


def nobody_in_the_file(client):
    """A file without a user is no leave to take an unsigned answer."""
    fails(ask(client, "127.0.0.1", 9, "--user", "/dev/null"), "failed: nobody in the file")
    # A line that is cut off would be another password.
    with tempfile.NamedTemporaryFile("w") as file:
        file.write(f"{NAME} {'p' * 3000} x\n")
        file.flush()
        asked = ask(client, "127.0.0.1", 9, "--user", file.name, within="1")
        assert asked.status != 0 and not asked.out, asked


def many(server, program, words):
    """200 threads share one client: each request is answered, the first ones after a challenge to
    each. Nobody is answered without a name."""
    with Server(server, *USER, *words) as running:
        where = (program, "127.0.0.1", str(running.port))
        run = subprocess.run([*where, "200", "5", NAME, PASSWORD], capture_output=True, text=True,
                             timeout=scaled(60))
        assert run.returncode == 0 and run.stdout.startswith("answered 1000 of 1000"), run
        run = subprocess.run([*where, "2", "2"], capture_output=True, text=True, timeout=scaled(60))
        refused = [line.startswith("refused 401") for line in run.stderr.splitlines()]
        assert (run.returncode, refused) == (1, [True] * 4), run


def in_flight(server, program, words):
    """A client on tokio has 200 requests unanswered at the same time: the relay passes none on until
    all have come. With a user, each is challenged then, and succeeds when it is signed."""
    held = {}

    def hold(_relay, is_request, _number, data):
        if not is_request or len(held) == 200:
            return [data]
        held[data[8:20]] = data
        return list(held.values()) if len(held) == 200 else []

    with Server(server, *words) as running, Relay(running, hold) as relay:
        user = words[1:3]
        run = subprocess.run([program, "127.0.0.1", str(relay.port), "200", *user],
                             capture_output=True, text=True, timeout=scaled(60))
        assert run.returncode == 0 and run.stdout.startswith("answered 200 of 200"), run
        first = [stun.code_of(answer) for answer in relay.responses[:200]]
        assert first == [401 if words else 200] * 200, first
    with Server(server, *USER) as running:
        wrong = [program, "127.0.0.1", str(running.port), "2", NAME, "wrong"]
        run = subprocess.run(wrong, capture_output=True, text=True, timeout=scaled(60))
        assert run.returncode == 1 and run.stdout.startswith("answered 0 of 2"), run


def password_of_a_file(server, client):
    """Name and password come by files, and by standard input; no list of processes shows them."""
    with tempfile.NamedTemporaryFile("w") as file:
        file.write(f"bob builder of houses\r\n\n{NAME} {PASSWORD}\r\n")
        file.flush()
        with Server(server, REALM, "--users", file.name) as running, Relay(running) as relay:
            with open(file.name) as lines:
                words = [client, "127.0.0.1", str(relay.port), "--user", "-"]
                run = subprocess.run(words, stdin=lines, capture_output=True, text=True, timeout=scaled(45))
            succeeds(Asked(run.returncode, run.stdout.strip(), run.stderr.strip()), relay.address())
        words = (REALM, "bob", "builder", "--users", file.name)
        with Server(server, *words) as running, Relay(running) as relay:
            succeeds(ask(client, "127.0.0.1", relay.port, NAME, PASSWORD), relay.address())
