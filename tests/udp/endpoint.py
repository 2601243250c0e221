"""Cases of a server that stores nothing about an address: its nonces are a function of a secret,
the address and the time (examples/c/udp_server.c, rust/examples/udp_server.rs)."""
import contextlib
import datetime
import hashlib
import os
import pathlib
import re
import resource
import shutil
import signal
import socket
import subprocess
import tempfile
import time

from alone import answering
from harness import NAME, PASSWORD, REALM, USER, Peer, Server, has_ipv6, scaled, stun

CLIENTS = 20
COUNTERS = [
    "answered", "refused_400", "refused_401", "refused_420", "refused_438", "dropped_NotStun",
    "dropped_Malformed", "dropped_WrongFingerprint", "dropped_UnknownAttribute",
    "dropped_OutOfMemory", "dropped_Other", "cause_NoSignature", "cause_Incomplete",
    "cause_OtherAlgorithms", "cause_OtherFeatures", "cause_StaleNonce", "cause_WrongCredentials",
    "cause_UnknownAttribute", "not_binding"]


@contextlib.contextmanager
def file_of(content):
    with tempfile.NamedTemporaryFile() as file:
        file.write(content if isinstance(content, bytes) else content.encode())
        file.flush()
        yield file.name


def algorithm_of(words):
    return stun.SHA256 if "--sha256" in words else stun.SHA1


def challenged(peers, algorithm):
    """A signed request for the challenge of each of these, who ask for the first time."""
    challenges = [peer.ask(stun.message(stun.REQUEST)) for peer in peers]
    assert all(stun.code_of(one) == 401 for one in challenges)
    return [answering(one, algorithm) for one in challenges]


def are_served(peers, requests):
    """Each of these requests draws a success at once."""
    codes = [stun.code_of(peer.ask(request)) for peer, request in zip(peers, requests)]
    assert codes == [200] * len(peers), codes


def peers_of(held, port):
    return [held.enter_context(Peer(port)) for _ in range(CLIENTS)]


# ---- One secret


def restarted(server, words):
    """A server that starts anew with its secret accepts the nonces of before: raw or in
    hexadecimal, it is one secret."""
    secret, algorithm = os.urandom(32), algorithm_of(words)
    with file_of(secret) as raw, file_of(f"{secret.hex()}\n") as digits:
        with Server(server, *USER, *words, "--secret", raw) as first, contextlib.ExitStack() as held:
            peers = peers_of(held, first.port)
            requests = challenged(peers, algorithm)
            first.process.terminate()
            first.process.wait(20)
            with Server(server, *USER, *words, "--secret", digits, port=first.port):
                are_served(peers, requests)
    with file_of(b"short") as short:
        run = subprocess.run([server, "0", *USER, "--secret", short], capture_output=True, text=True)
        assert run.returncode == 1 and "a secret is 32 bytes" in run.stderr, run


def rotated(server, words):
    """A new secret beside the one before costs no client a 438, also where another machine has made
    the exchange already; without the one before each client gets one."""
    algorithm = algorithm_of(words)
    with contextlib.ExitStack() as held:
        old, new = (held.enter_context(file_of(os.urandom(32))) for _ in range(2))
        start = lambda *secrets, port=0: Server(server, *USER, *words, *secrets, port=port)
        with start("--secret", old, "--previous", new) as first:
            peers = peers_of(held, first.port)
            requests = challenged(peers, algorithm)
        for secrets in (("--secret", new, "--previous", old), ("--secret", old, "--previous", new)):
            with start(*secrets, port=first.port):
                are_served(peers, requests)
                requests = challenged(peers, algorithm)  # those of the next one are of this secret
        with start("--secret", new, port=first.port):
            codes = {stun.code_of(peer.ask(one)) for peer, one in zip(peers, requests)}
            assert codes == {438}, codes
        for wrong, status in ((("--previous", old), 2), (("--secret", old, "--previous", old), 1)):
            run = subprocess.run([server, "0", *USER, *wrong], capture_output=True, timeout=scaled(20))
            assert run.returncode == status and run.stdout == b"", run


def bound(port=0):
    one = socket.socket(socket.AF_INET, socket.SOCK_DGRAM)
    one.setsockopt(socket.SOL_SOCKET, socket.SO_REUSEPORT, 1)
    one.bind(("127.0.0.1", port))
    return one


def behind_one_port(server, words):
    """Two processes behind one port, by SO_REUSEPORT: a client whose datagrams go from one to the
    other is served by either. Which process gets an address is the kernel's choice, and once one is
    gone, all get the other."""
    algorithm = algorithm_of(words)
    with file_of(os.urandom(32)) as secret, contextlib.ExitStack() as held:
        first = bound()
        second = bound(first.getsockname()[1])
        words = (*USER, *words, "--secret", secret, "--at", "-", "--counts", "1")
        one = Server(server, *words, stdin=first)
        other = held.enter_context(Server(server, *words, stdin=second))
        first.close()
        second.close()
        peers = peers_of(held, one.port)
        with one:
            requests = challenged(peers, algorithm)
            are_served(peers, requests)
            have_both = [until(running, r"refused_401=[1-9]") for running in (one, other)]
            assert all(have_both), "the kernel gave one process all"
        are_served(peers, requests)


def one_socket(server, words):
    """So do processes that read one socket, any of which gets any datagram."""
    algorithm = algorithm_of(words)
    with file_of(os.urandom(32)) as secret, contextlib.ExitStack() as held:
        shared = bound()
        words = (*USER, *words, "--secret", secret, "--at", "-")
        for _ in range(2):
            held.enter_context(Server(server, *words, stdin=shared))
        peers = peers_of(held, shared.getsockname()[1])
        for _ in range(3):
            are_served(peers, challenged(peers, algorithm))


# ---- Options


def until(running, pattern, seconds=10):
    """Whether a line of a server comes to match."""
    end = time.monotonic() + scaled(seconds)
    while time.monotonic() < end:
        if any(re.search(pattern, line) for line in running.lines):
            return True
        time.sleep(0.05)
    return False


def tells(server):
    for word, wanted in (("--help", "usage: udp_server PORT"), ("--version", "udp_server ")):
        run = subprocess.run([server, word], capture_output=True, text=True, timeout=scaled(20))
        assert run.returncode == 0 and run.stdout.startswith(wanted) and run.stderr == "", run


def counters(server):
    with Server(server, *USER, "--counts", "1") as running, Peer(running.port) as peer:
        challenge = peer.ask(stun.message(stun.REQUEST))
        assert stun.code_of(peer.ask(answering(challenge))) == 200
        assert stun.code_of(peer.ask(answering(challenge, password="wrong"))) == 401
        assert stun.code_of(peer.ask(answering(challenge, extra=[(0x7777, b"")]))) == 420
        with Peer(running.port) as other:
            assert stun.code_of(other.ask(answering(challenge))) == 438
        peer.is_dropped(b"none", stun.message(stun.INDICATION), stun.message(0x0003))
        wanted = {**dict.fromkeys(COUNTERS, 0), "answered": 1, "refused_401": 3, "refused_420": 1,
                  "refused_438": 1, "dropped_NotStun": 1, "cause_NoSignature": 2,
                  "cause_StaleNonce": 1, "cause_WrongCredentials": 1, "cause_UnknownAttribute": 1,
                  "not_binding": 2}
        line = " ".join(f"{name}={number}" for name, number in wanted.items())
        assert until(running, f"^{line}$"), running.lines
        now = datetime.datetime.now(datetime.timezone.utc)
        for time_of_line in running.times[1:]:
            age = now - datetime.datetime.fromisoformat(f"{time_of_line[1]}+00:00")
            assert datetime.timedelta(0) <= age < datetime.timedelta(minutes=5), age


def metrics(server):
    """The file for Prometheus has the counters of the line, and is whole whenever it is read. A
    server that cannot write it does not start, and one that cannot any more says so once."""
    with tempfile.TemporaryDirectory() as folder:
        inner = pathlib.Path(folder) / "metrics"
        inner.mkdir()
        file = inner / "stun.prom"
        told = f"udp_server: {file}: No such file or directory"
        with Server(server, *USER, "--metrics", str(file), "--counts", "1", told=None) as running:
            with Peer(running.port) as peer:
                challenge = peer.ask(stun.message(stun.REQUEST))
                assert stun.code_of(peer.ask(answering(challenge))) == 200
            found, end = {}, time.monotonic() + scaled(20)
            while found.get("answered") != 1:
                found = counters_of(file.read_text())
                assert list(found) == COUNTERS and time.monotonic() < end, found
            assert until(running, " ".join(f"{name}={found[name]}" for name in COUNTERS))
            assert [one.name for one in inner.iterdir()] == [file.name]
            shutil.rmtree(inner)
            while not running.told():
                assert time.monotonic() < end, "it does not say that it cannot write"
                time.sleep(0.1)
            time.sleep(6)
            assert running.told().startswith(told) and running.told().count("\n") == 1
        run = subprocess.run([server, "0", "--metrics", str(file)], capture_output=True, text=True)
        assert run.returncode == 1 and "stun.prom: No such file" in run.stderr, run
        does_not_follow(server, pathlib.Path(folder))


def does_not_follow(server, folder):
    """A link in the place of the file that becomes the one for Prometheus is not followed."""
    other, link = folder / "other", folder / "stun.prom.new"
    other.write_text("as it was")
    link.symlink_to(other)
    words = [server, "0", "--metrics", str(link.with_suffix(""))]
    pipes = dict(stdout=subprocess.PIPE, stderr=subprocess.DEVNULL)
    with subprocess.Popen(words, **pipes) as running:
        running.stdout.readline()  # it serves, or it has ended
        running.terminate()
    assert other.read_text() == "as it was", "the link is followed"


def counters_of(text):
    """The counters of a file in the text format of Prometheus, by the names of the line."""
    found, kind = {}, None
    for line in text.splitlines(keepends=True):
        comment = re.fullmatch(r"# (HELP|TYPE) (stun_[a-z_]+_total) (counter|\w[\w ,]*\.)\n", line)
        sample = re.fullmatch(r'(stun_([a-z_]+)_total)(?:\{[a-z]+="(\w+)"\})? (\d+)\n', line)
        assert comment or sample and sample[1] == kind, line
        if sample:
            found["_".join(filter(None, sample.group(2, 3)))] = int(sample[4])
        else:
            kind = comment[2]
    return found


def addresses(server):
    """It serves each address that is named, of both families, over UDP and TCP, and no other."""
    hosts = ("127.0.0.2", "127.0.0.3", "::1")[:2 + has_ipv6()]
    with Server(server, "--tcp", *(word for host in hosts for word in ("--at", host))) as running:
        for host in hosts:
            with Peer(running.port, host) as peer, connected(running, host) as stream:
                assert stun.code_of(peer.ask(stun.message(stun.REQUEST))) == 200
                assert stun.code_of(asked_over(stream, stun.message(stun.REQUEST))) == 200
        with Peer(running.port) as peer:
            peer.socket.settimeout(0.3)
            for ask in (lambda: peer.ask(stun.message(stun.REQUEST)), lambda: connected(running)):
                try:
                    ask()
                except (TimeoutError, ConnectionRefusedError):
                    continue
                raise AssertionError("it serves 127.0.0.1")
    for wrong in ("here", "127.0.0.256", "192.0.2.1"):
        run = subprocess.run([server, "0", "--at", wrong], capture_output=True, timeout=scaled(20))
        assert run.returncode == 1 and run.stdout == b"", run


def one_port(server):
    """A second server on the port is refused, over UDP and over TCP."""
    for held, words in (((), ()), (("--tcp",), ("--tcp",))):
        with Server(server, *held) as running:
            run = subprocess.run([server, str(running.port), *words], capture_output=True,
                                 text=True, timeout=scaled(20))
            assert run.returncode == 1 and run.stderr and run.stdout == "", run


# ---- TCP


def read_messages(stream, number):
    """So many messages, and nothing after them."""
    found, head = [], b""
    while len(found) < number:
        length = 20 + int.from_bytes(head[2:4], "big")
        if len(head) < length:
            more = stream.recv(4096)
            assert more, "the connection ended"
            head += more
        else:
            found.append(head[:length])
            head = head[length:]
    assert head == b"", "more than was asked for"
    return found


def asked_over(stream, request):
    stream.sendall(request)
    return read_messages(stream, 1)[0]


def connected(running, host="127.0.0.1"):
    return socket.create_connection((host, running.port), scaled(10))


def has_ended(stream):
    with contextlib.suppress(ConnectionResetError):
        assert stream.recv(4096) == b"", "the connection goes on"


def streams(server, words):
    """A connection has any number of requests, in any pieces: one byte by byte, two in one segment,
    and one in two segments. What is no request gets no answer, and ends nothing."""
    algorithm = algorithm_of(words)
    hosts = [("127.0.0.1", socket.AF_INET), ("::1", socket.AF_INET6)][:1 + has_ipv6()]
    with Server(server, *USER, *words, "--tcp") as running:
        for host, family in hosts:
            with connected(running, host) as stream:
                stream.setsockopt(socket.IPPROTO_TCP, socket.TCP_NODELAY, 1)
                challenge = asked_over(stream, stun.message(stun.REQUEST))
                assert stun.code_of(challenge) == 401
                request, other = answering(challenge, algorithm), answering(challenge, algorithm)
                for byte in request:
                    stream.sendall(bytes([byte]))
                success = read_messages(stream, 1)[0]
                own = (socket.inet_pton(family, host), stream.getsockname()[1])
                assert stun.code_of(success) == 200 and stun.mapped_address(success) == own
                stream.sendall(request + stun.message(stun.INDICATION) + other)
                answers = read_messages(stream, 2)
                assert [one[8:20] for one in answers] == [request[8:20], other[8:20]]
                assert [stun.code_of(one) for one in answers] == [200, 200]
                stream.sendall(request + other[:30])
                assert stun.code_of(read_messages(stream, 1)[0]) == 200
                assert stun.code_of(asked_over(stream, other[30:])) == 200
                stream.sendall(request)
                stream.shutdown(socket.SHUT_WR)
                assert stun.code_of(read_messages(stream, 1)[0]) == 200
                has_ended(stream)


def no_streams(server):
    """A connection ends where no STUN begins or a message is too long, and if nothing whole comes in
    time, though a byte does; the others go on."""
    plain = stun.message(stun.REQUEST)
    with Server(server, "--tcp", "--idle", "2") as running, connected(running) as good:
        for wrong in (b"GET / HTTP/1.1\r\n", b"\0\1\xff\xfc" + plain[4:], plain + b"\x80"):
            with connected(running) as stream:
                stream.sendall(wrong)
                if wrong.startswith(plain):
                    assert stun.code_of(read_messages(stream, 1)[0]) == 200
                has_ended(stream)
        with connected(running) as silent, connected(running) as slow:
            end = time.monotonic() + scaled(3.5)
            for byte in plain[:7]:
                slow.sendall(bytes([byte]))
                assert stun.code_of(asked_over(good, stun.message(stun.REQUEST))) == 200
                time.sleep(0.2)
            for stream in (silent, slow):
                has_ended(stream)
                assert time.monotonic() < end, "it ended late"
                assert stun.code_of(asked_over(good, stun.message(stun.REQUEST))) == 200


def stopped_streams(server):
    """A server that was stopped and goes on still has its connections."""
    with Server(server, "--tcp") as running, connected(running) as stream:
        for _ in range(2):
            assert stun.code_of(asked_over(stream, stun.message(stun.REQUEST))) == 200
            time.sleep(0.2)  # so that it waits in a read
            os.kill(running.process.pid, signal.SIGSTOP)
            time.sleep(0.2)
            os.kill(running.process.pid, signal.SIGCONT)
            time.sleep(0.2)
        assert stun.code_of(asked_over(stream, stun.message(stun.REQUEST))) == 200


def many_streams(server):
    """One connection more than there is room for ends the one that has been silent for longest; and a
    client that does not read its answers is cut off."""
    with Server(server, "--tcp") as running, contextlib.ExitStack() as held:
        first, second = (held.enter_context(connected(running)) for _ in range(2))
        for stream in (second, first):  # so the second is the one that is silent for longest
            assert stun.code_of(asked_over(stream, stun.message(stun.REQUEST))) == 200
        for _ in range(255):
            stream = held.enter_context(connected(running))
            assert stun.code_of(asked_over(stream, stun.message(stun.REQUEST))) == 200
        has_ended(second)
        assert stun.code_of(asked_over(first, stun.message(stun.REQUEST))) == 200
        deaf = held.enter_context(connected(running))
        many = b"".join(stun.message(stun.REQUEST) for _ in range(1000))
        with contextlib.suppress(ConnectionResetError, BrokenPipeError):
            for _ in range(2000):
                deaf.sendall(many)
            raise AssertionError("it is served without end")
        assert stun.code_of(asked_over(first, stun.message(stun.REQUEST))) == 200


# ---- NAT behavior discovery (RFC 5780)

CHANGE_REQUEST, PADDING, RESPONSE_PORT = 0x0003, 0x0026, 0x0027
RESPONSE_ORIGIN, OTHER_ADDRESS = 0x802B, 0x802C


def after_the_last_port(server):
    """The other port is one for both addresses, also where there is none after the first."""
    words = ("--at", "127.0.0.2", "--other", "127.0.0.3")
    with Server(server, *words, port=65535) as running, Peer(running.port, "127.0.0.2") as peer:
        other = stun.value_of(peer.ask(stun.message(stun.REQUEST)), OTHER_ADDRESS)
        change_port = stun.message(stun.REQUEST, [(CHANGE_REQUEST, bytes([0, 0, 0, 2]))])
        peer.socket.sendto(change_port, peer.target)
        source = peer.socket.recvfrom(4096)[1]
        assert source[0] == "127.0.0.2" and source[1].to_bytes(2, "big") == other[2:4], source


def four_sockets(server, words):
    """A response leaves from the address and the port that the request asks for, and says which ones
    those are, and which are the others. It goes to the port that is asked for, with as much padding
    as the request had."""
    spoken = lambda host, port: b"\0\1" + port.to_bytes(2, "big") + socket.inet_aton(host)
    with Server(server, *words, "--at", "127.0.0.2", "--other", "127.0.0.3") as running:
        ports, hosts = (running.port, running.port + 1), ("127.0.0.2", "127.0.0.3")
        with Peer(0) as peer, Peer(0) as second:
            second.socket.bind(("0.0.0.0", 0))

            def asked(host, port, attributes, reader=peer):
                peer.target = (hosts[host], ports[port])
                request = stun.message(stun.REQUEST, attributes)
                if words:
                    challenge = peer.ask(stun.message(stun.REQUEST))
                    request = answering(challenge, stun.SHA1, attributes)
                peer.socket.sendto(request, peer.target)
                answer, source = reader.socket.recvfrom(4096)
                assert answer[8:20] == request[8:20]
                return answer, source

            for place in range(16):
                host, port, change_host, change_port = (place >> bit & 1 for bit in range(4))
                change = bytes([0, 0, 0, change_host << 2 | change_port << 1])
                answer, source = asked(host, port, [(CHANGE_REQUEST, change), (PADDING, bytes(20))])
                wanted = (hosts[host ^ change_host], ports[port ^ change_port])
                assert stun.code_of(answer) == 200 and source == wanted, (source, wanted)
                assert stun.value_of(answer, RESPONSE_ORIGIN) == spoken(*wanted)
                others = spoken(hosts[host ^ 1], ports[port ^ 1])
                assert stun.value_of(answer, OTHER_ADDRESS) == others
                assert stun.value_of(answer, PADDING) == bytes(20)
            there = second.socket.getsockname()[1].to_bytes(2, "big")
            answer, source = asked(0, 0, [(RESPONSE_PORT, there + b"\0\0")], second)
            assert stun.code_of(answer) == 200 and source == (hosts[0], ports[0])
            for bad in ([(CHANGE_REQUEST, b"\0")], [(RESPONSE_PORT, b"\0")],
                        [(RESPONSE_PORT, there + b"\0\0"), (PADDING, bytes(4))]):
                answer, source = asked(1, 1, bad)
                assert stun.code_of(answer) == 400 and source == (hosts[1], ports[1]), bad
            answer, _ = asked(0, 1, [(0x7FFF, b"")])
            assert stun.code_of(answer) == 420
    for wrong in (("--other", "127.0.0.3"), ("--at", "::1", "--other", "here"),
                  ("--at", "127.0.0.2", "--other", "127.0.0.3", "--tcp")):
        run = subprocess.run([server, "0", *wrong], capture_output=True, timeout=scaled(20))
        assert run.returncode == 2 and run.stdout == b"", run


# ---- The file of users


def bad_lines(server):
    """Each line that is no user is told by its number, and nobody is served."""
    text = f"# who may ask\n{NAME} {PASSWORD}\nbob\n\n x\n{'n' * 514} p\n"
    with file_of(text) as file:
        words = [server, "0", REALM, "--users", file]
        run = subprocess.run(words, capture_output=True, text=True, timeout=scaled(20))
        numbers = re.findall(r"line (\d+)", run.stderr)
        assert run.returncode == 1 and numbers == ["3", "5", "6"] and run.stdout == "", run
    with file_of(b"a b\n\xff c\n") as file:
        words = [server, "0", REALM, "--users", file]
        run = subprocess.run(words, capture_output=True, text=True, timeout=scaled(20))
        assert run.returncode == 1 and "line 2" in run.stderr, run


def stored_keys(server, words):
    """A line may have keys in the place of a password."""
    algorithm = algorithm_of(words)
    keys = [stun.key_of(one, NAME, REALM, PASSWORD) for one in (stun.SHA1, stun.SHA256)]
    line = f"{NAME} 0x{keys[0].hex()} 0x{keys[1].hex()}\nbob 0x12\n"
    with file_of(line) as file, Server(server, REALM, "--users", file, *words) as running:
        with Peer(running.port) as peer:
            are_served([peer], challenged([peer], algorithm))
            challenge = peer.ask(stun.message(stun.REQUEST))
            bob = answering(challenge, algorithm, (), "bob", "0x12")
            assert stun.code_of(peer.ask(bob)) == 200, "a password may begin so"


def many_users(server):
    """A file of any size: the last of 20,000 is served."""
    lines = "".join(f"user{number} pass{number}\n" for number in range(20000))
    with file_of(lines) as file, Server(server, REALM, "--users", file) as running:
        with Peer(running.port) as peer:
            challenge = peer.ask(stun.message(stun.REQUEST))
            request = answering(challenge, stun.SHA1, (), "user19999", "pass19999")
            assert stun.code_of(peer.ask(request)) == 200


def reloaded(server):
    """The file is read again when it changes; a bad one changes nothing."""
    read_again(server, (), lambda running: None)


def written_slowly(server):
    """While the file is being written in pieces, the users are those of before."""
    with tempfile.TemporaryDirectory() as folder:
        path = pathlib.Path(folder) / "users"
        path.write_text(f"{NAME} {PASSWORD}\n")
        with Server(server, REALM, "--users", str(path)) as running, Peer(running.port) as peer:
            alice = answering(peer.ask(stun.message(stun.REQUEST)))
            with open(path, "w") as file:
                for number in range(12):
                    assert stun.code_of(peer.ask(alice)) == 200, number
                    file.write("# a line more\n" if number else "")
                    file.flush()
                    time.sleep(0.25)
            end = time.monotonic() + scaled(10)
            while stun.code_of(peer.ask(alice)) != 401:
                assert time.monotonic() < end, "no 401"
                time.sleep(0.1)


def reloaded_at_a_signal(server):
    """The same at SIGHUP, by each worker."""
    for words in ((), ("--workers", "2")):
        hang_up = lambda running: running.process.send_signal(signal.SIGHUP)
        read_again(server, words, hang_up)


def read_again(server, words, signalled):
    with tempfile.TemporaryDirectory() as folder:
        file = pathlib.Path(folder) / "users"
        file.write_text(f"{NAME} {PASSWORD}\n")
        told = (f"udp_server: {file}, line 1: expected `NAME PASSWORD`\n"
                f"udp_server: the users are unchanged: {file}: bad lines: 1\n")
        number = 2 if words else 1  # each worker tells it
        with Server(server, REALM, "--users", str(file), *words,
                    told=None if words else told) as running:
            with Peer(running.port) as peer:
                challenge = peer.ask(stun.message(stun.REQUEST))
                alice = answering(challenge)
                bob = answering(challenge, stun.SHA1, (), "bob", "builder")

                def become(request, code):
                    end = time.monotonic() + scaled(10)
                    while stun.code_of(peer.ask(request)) != code:
                        assert time.monotonic() < end, f"no {code}"
                        time.sleep(0.1)

                become(alice, 200)
                become(bob, 401)
                file.write_text("bob builder\n# and nobody else\n")
                signalled(running)
                become(bob, 200)
                become(alice, 401)
                file.write_text("nobody\n")
                signalled(running)
                end = time.monotonic() + scaled(10)
                while sorted(running.told()) != sorted(told * number):
                    assert time.monotonic() < end, running.told()
                    time.sleep(0.1)
                become(bob, 200)


# ---- Memory that ends (exhausted.c)


def asked_again(peer, request):
    """The code of the answer; a datagram for which there is no memory just then is dropped, so the
    request is sent again as a client sends it."""
    peer.socket.settimeout(0.5)
    for _ in range(20):
        peer.socket.sendto(request, peer.target)
        with contextlib.suppress(TimeoutError):
            while (answer := peer.socket.recv(4096))[8:20] != request[8:20]:
                pass
            return stun.code_of(answer)
    raise TimeoutError("not answered")


def too_many_users(server):
    """A file of more users than there is memory for changes nothing."""
    with tempfile.TemporaryDirectory() as folder:
        file = pathlib.Path(folder) / "users"
        file.write_text(f"{NAME} {PASSWORD}\n")
        told = f"udp_server: the users are unchanged: {file}, line "
        with Server(server, REALM, "--users", str(file), told=None) as running:
            with Peer(running.port) as peer:
                challenge = peer.ask(stun.message(stun.REQUEST))
                pid = running.process.pid
                pages = int(pathlib.Path(f"/proc/{pid}/statm").read_text().split()[0])
                most = pages * os.sysconf("SC_PAGE_SIZE") + (16 << 20)
                resource.prlimit(pid, resource.RLIMIT_AS, (most, most))
                lines = (f"user{number} pass{number}\n" for number in range(200000))
                file.write_text("".join(lines))
                end = time.monotonic() + scaled(60)
                while not running.told().endswith("an allocation failed\n"):
                    assert time.monotonic() < end, running.told()
                    assert asked_again(peer, answering(challenge)) == 200
                    time.sleep(0.1)
                assert running.told().startswith(told), running.told()
                assert asked_again(peer, answering(challenge)) == 200


def no_memory(server, library):
    """Where no memory is left a datagram is dropped, and the server goes on."""
    with tempfile.TemporaryDirectory() as folder:
        file = pathlib.Path(folder) / "exhausted"
        environment = {"LD_PRELOAD": library, "EXHAUSTED": str(file)}
        with Server(server, *USER, "--counts", "1", environment=environment) as running:
            with Peer(running.port) as peer:
                challenge = peer.ask(stun.message(stun.REQUEST))
                assert until(running, "answered=0 .*refused_401=1 "), "its threads run"
                file.touch()
                peer.socket.settimeout(0.5)
                for request in (stun.message(stun.REQUEST), answering(challenge)):
                    try:
                        peer.ask(request)
                        raise AssertionError("it has memory")
                    except TimeoutError:
                        pass
                file.unlink()
                peer.socket.settimeout(scaled(10))
                assert stun.code_of(peer.ask(answering(challenge))) == 200
                assert until(running, "OutOfMemory=2 "), running.lines
