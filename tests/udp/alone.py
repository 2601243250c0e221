"""Cases of a server alone, which is asked by messages of the test's own."""
import contextlib
import pathlib
import random
import re
import signal
import socket
import struct
import subprocess
import tempfile
import time

from harness import NAME, PASSWORD, REALM, USER, Peer, Server, is_signed, scaled, stun


def answering(challenge, algorithm=stun.SHA1, extra=(), name=NAME, password=PASSWORD):
    """A signed request that answers a challenge."""
    return stun.answered(stun.REQUEST, challenge, name, REALM, password, algorithm, extra)


def unknown_attributes(server):
    asked = [(0x7777, b"what"), (0x0003, bytes(4)), (0x8777, b"optional")]
    with Server(server) as running, Peer(running.port) as peer:
        answer = peer.ask(stun.message(stun.REQUEST, asked))
        assert stun.code_of(answer) == 420
        assert stun.value_of(answer, stun.UNKNOWN) == b"\x77\x77\0\3", answer
        assert stun.code_of(peer.ask(stun.message(stun.REQUEST, asked[2:]))) == 200


def many_attributes(server):
    """70 unknown types that need not be understood, and 40 that must be: each of these is named."""
    optional = [(0x9000 + number, b"") for number in range(70)]
    required = [(0x7000 + number, b"") for number in range(40)]
    with Server(server) as running, Peer(running.port) as peer:
        assert stun.code_of(peer.ask(stun.message(stun.REQUEST, optional))) == 200
        answer = peer.ask(stun.message(stun.REQUEST, required))
        assert stun.code_of(answer) == 420
        named = struct.pack(">40H", *(kind for kind, _ in required))
        assert stun.value_of(answer, stun.UNKNOWN) == named, answer


def unknown_and_signed(server, words, algorithm):
    """Who asks is judged first, and the 420 is signed."""
    with Server(server, *USER, *words) as running, Peer(running.port) as peer:
        challenge = peer.ask(stun.message(stun.REQUEST, [(0x7777, b"")]))
        assert stun.code_of(challenge) == 401
        answer = peer.ask(answering(challenge, algorithm, [(0x7777, b"")]))
        assert stun.code_of(answer) == 420
        assert stun.value_of(answer, stun.UNKNOWN) == b"\x77\x77", answer
        assert stun.verifies(answer, algorithm, stun.key_of(algorithm, NAME, REALM, PASSWORD))


def malformed(server, words, algorithm):
    """An Allocate of a known user without REQUESTED-TRANSPORT draws a signed 400 (RFC 8656, section
    7.2; RFC 8489, section 9.2.4)."""
    allocate = stun.REQUEST & ~0xF | 3
    settings = (*USER, "--any-method", *words)
    with Server(server, *settings) as running, Peer(running.port) as peer:
        challenge = peer.ask(stun.message(allocate))
        assert stun.code_of(challenge) == 401
        request = stun.answered(allocate, challenge, NAME, REALM, PASSWORD, algorithm)
        answer = peer.ask(request)
        assert stun.code_of(answer) == 400
        assert stun.verifies(answer, algorithm, stun.key_of(algorithm, NAME, REALM, PASSWORD))
        key = stun.key_of(algorithm, NAME, REALM, PASSWORD)
        nameless = stun.message(allocate, [(stun.USERNAME, NAME.encode())])
        answer = peer.ask(stun.signed(nameless, algorithm, key))
        assert stun.code_of(answer) == 400 and not is_signed(answer)


def fingerprints(server):
    with Server(server) as running, Peer(running.port) as peer:
        plain = stun.message(stun.REQUEST)
        assert stun.value_of(peer.ask(plain), stun.FINGERPRINT) is None
        asked = stun.fingerprinted(plain)
        assert stun.has_right_fingerprint(peer.ask(asked))
        peer.is_dropped(asked[:-1] + bytes([asked[-1] ^ 1]))
    with Server(server, *USER) as running, Peer(running.port) as peer:
        challenge = peer.ask(stun.fingerprinted(stun.message(stun.REQUEST)))
        assert stun.code_of(challenge) == 401 and stun.has_right_fingerprint(challenge)
        answer = peer.ask(stun.fingerprinted(answering(challenge)))
        assert stun.code_of(answer) == 200 and stun.has_right_fingerprint(answer)
        unprinted = stun.stating(answer[:-8], len(answer) - 28)
        assert stun.verifies(unprinted, stun.SHA1, stun.key_of(stun.SHA1, NAME, REALM, PASSWORD))


def challenges(server, words, algorithm):
    """400, 401 and 438 as section 9.2.4 says, and two users."""
    with Server(server, *USER, "bob", "builder", *words) as running, Peer(running.port) as peer:
        key = stun.key_of(algorithm, NAME, REALM, PASSWORD)
        challenge = peer.ask(stun.message(stun.REQUEST))
        nameless = stun.message(stun.REQUEST, [(stun.USERNAME, NAME.encode())])
        bad = peer.ask(stun.signed(nameless, algorithm, key))
        assert stun.code_of(bad) == 400 and not is_signed(bad)
        assert stun.value_of(bad, stun.NONCE) is None and stun.value_of(bad, stun.REALM) is None
        for name, password in ((NAME, PASSWORD), ("bob", "builder")):
            answer = peer.ask(answering(challenge, algorithm, (), name, password))
            assert stun.code_of(answer) == 200
            assert stun.verifies(answer, algorithm, stun.key_of(algorithm, name, REALM, password))
        for name, password in ((NAME, "builder"), ("mallory", PASSWORD)):
            answer = peer.ask(answering(challenge, algorithm, (), name, password))
            assert stun.code_of(answer) == 401 and not is_signed(answer)
        nonce = stun.value_of(challenge, stun.NONCE)
        old = challenge.replace(nonce, nonce[:-1] + (b"A" if nonce[-1:] != b"A" else b"B"))
        answer = peer.ask(answering(old, algorithm))
        assert stun.code_of(answer) == 438 and stun.value_of(answer, stun.NONCE) is not None
        assert stun.code_of(peer.ask(answering(answer, algorithm))) == 200


def choices(server):
    """Where two algorithms are offered, a request repeats the offer with its choice, or it has
    neither, which is HMAC-SHA1."""
    offer, sha1, sha256 = b"\0\2\0\0\0\1\0\0", b"\0\1\0\0", b"\0\2\0\0"
    kinds = (stun.PASSWORD_ALGORITHMS, stun.PASSWORD_ALGORITHM)
    with Server(server, *USER, "--sha256") as running, Peer(running.port) as peer:
        challenge = peer.ask(stun.message(stun.REQUEST))
        assert stun.value_of(challenge, stun.PASSWORD_ALGORITHMS) == offer
        nonce = stun.value_of(challenge, stun.NONCE)
        named = [(stun.USERNAME, NAME.encode()), (stun.REALM, REALM.encode()), (stun.NONCE, nonce)]
        right = [(None, None, 200), (offer, sha1, 200)]
        wrong = [(None, sha1, 400), (offer, None, 400), (sha1, sha1, 400),
                 (offer, b"\0\3\0\0", 400), (offer[4:] + offer[:4], sha256, 400)]
        for offered, chosen, code in right + wrong:
            algorithm = stun.SHA256 if chosen == sha256 else stun.SHA1
            values = zip(kinds, (offered, chosen))
            repeated = [(kind, value) for kind, value in values if value is not None]
            request = stun.message(stun.REQUEST, named + repeated)
            key = stun.key_of(algorithm, NAME, REALM, PASSWORD)
            answer = peer.ask(stun.signed(request, algorithm, key))
            assert stun.code_of(answer) == code, (offered, chosen, answer)


def hostile(server, words):
    """What is no request draws nothing, and the server lives on."""
    chance = random.Random(3489)
    plain = stun.message(stun.REQUEST)
    noise = lambda: bytes(chance.randrange(256) for _ in range(chance.randrange(100)))
    wrong = [b"", b"\0", plain[:19], plain + b"\0", stun.stating(plain, 4), b"\x80" + plain[1:],
             plain[:4] + bytes(4) + plain[8:], bytes(2000), stun.message(stun.INDICATION),
             stun.message(stun.SUCCESS), stun.message(stun.ERROR), stun.message(0x0003),
             stun.message(0x0101, [(stun.XOR_MAPPED_ADDRESS, bytes(8))])]
    wrong += [noise() for _ in range(200)]
    with Server(server, *words) as running, Peer(running.port) as peer:
        for start in range(0, len(wrong), 50):
            peer.is_dropped(*wrong[start:start + 50])


def another_address(server):
    """A server with many addresses answers from the one that was asked."""
    with Server(server) as running, Peer(running.port, "127.0.0.2") as peer:
        answer = peer.ask(stun.message(stun.REQUEST))
        assert stun.mapped_address(answer) == (b"\x7f\0\0\1", peer.socket.getsockname()[1])


# ---- Many addresses


def crowd(running, *hosts):
    """An unsigned request of each of these hosts. The last is waited for, so that none is lost."""
    with contextlib.ExitStack() as held:
        for left, host in zip(reversed(range(len(hosts))), hosts):
            peer = held.enter_context(Peer(running.port, here=host))
            if left == 0:
                assert stun.code_of(peer.ask(stun.message(stun.REQUEST))) == 401
            else:
                peer.socket.sendto(stun.message(stun.REQUEST), peer.target)


def many_addresses(server, words, algorithm):
    """While a flood of addresses comes, who is new is served, and nobody loses a nonce."""
    flood = [f"127.1.{i // 200}.{i % 200 + 1}" for i in range(600)]
    few = (flood[i:i + 20] for i in range(0, len(flood), 20))
    with Server(server, *USER, *words) as running:
        client, stranger = (Peer(running.port, here=f"127.0.0.{host}") for host in (2, 3))
        with client, stranger:
            challenge = client.ask(stun.message(stun.REQUEST))
            assert stun.code_of(client.ask(answering(challenge, algorithm))) == 200
            early = stranger.ask(stun.message(stun.REQUEST))
            for number, hosts in enumerate(few):
                with Peer(running.port, here=f"127.2.0.{number + 1}") as new:
                    told = new.ask(stun.message(stun.REQUEST))
                    crowd(running, *hosts)
                    assert stun.code_of(new.ask(answering(told, algorithm))) == 200
            assert stun.code_of(client.ask(answering(challenge, algorithm))) == 200
            assert stun.code_of(stranger.ask(answering(early, algorithm))) == 200


def workers(server):
    """Each worker accepts the nonces of all, so nobody is challenged twice."""
    with Server(server, *USER, "--workers", "2") as running:
        for _ in range(20):
            with Peer(running.port) as peer:
                challenge = peer.ask(stun.message(stun.REQUEST))
                for _ in range(3):
                    answer = peer.ask(answering(challenge))
                    assert stun.code_of(answer) == 200


def wrong_words(program, *lines):
    for words in lines:
        status = subprocess.run([program, *words], capture_output=True, timeout=scaled(20)).returncode
        assert status == 2, f"{words}: status {status}"


def begins_again(server):
    """A client that starts anew at an address where one was validated is told all that it needs, by
    a 401 that nobody signed."""
    with Server(server, *USER, "--sha256") as running, Peer(running.port) as peer:
        challenge = peer.ask(stun.message(stun.REQUEST))
        assert stun.code_of(peer.ask(answering(challenge, stun.SHA256))) == 200
        again = peer.ask(stun.message(stun.REQUEST))
        assert stun.code_of(again) == 401 and not is_signed(again)
        assert stun.value_of(again, stun.PASSWORD_ALGORITHMS) is not None


def new_address(server):
    """From an address that is not known, too, what lacks a name is a bad request; but not what
    repeats an offer."""
    with Server(server, *USER, "--sha256") as running:
        with Peer(running.port) as peer:
            challenge = peer.ask(stun.message(stun.REQUEST))
        key = stun.key_of(stun.SHA256, NAME, REALM, PASSWORD)
        offer = stun.value_of(challenge, stun.PASSWORD_ALGORITHMS)
        chosen = [(stun.PASSWORD_ALGORITHMS, offer), (stun.PASSWORD_ALGORITHM, b"\0\2\0\0")]
        with Peer(running.port) as peer:
            nameless = stun.signed(stun.message(stun.REQUEST, chosen), stun.SHA256, key)
            answer = peer.ask(nameless)
            assert stun.code_of(answer) == 400 and not is_signed(answer)
            assert stun.value_of(answer, stun.NONCE) is None
            answer = peer.ask(answering(challenge, stun.SHA256))
            assert stun.code_of(answer) == 438 and stun.asks_for_a_choice(answer)
            answer = peer.ask(answering(answer, stun.SHA256))
            assert stun.code_of(answer) == 200 and stun.verifies(answer, stun.SHA256, key)


def burst(server):
    """A burst that comes while the server is busy waits for it, as far as the machine lets a socket
    keep it."""
    most = int(pathlib.Path("/proc/sys/net/core/rmem_max").read_text())
    number = min(4000, max(200, most // 800))
    with Server(server) as running, Peer(running.port) as peer:
        peer.socket.setsockopt(socket.SOL_SOCKET, socket.SO_RCVBUF, 4 << 20)
        assert stun.code_of(peer.ask(stun.message(stun.REQUEST))) == 200
        running.process.send_signal(signal.SIGSTOP)
        asked = [stun.message(stun.REQUEST) for _ in range(number)]
        for one in asked:
            peer.socket.sendto(one, peer.target)
        running.process.send_signal(signal.SIGCONT)
        peer.socket.settimeout(scaled(2))
        answered = set()
        try:
            while len(answered) < number:
                answered.add(peer.socket.recv(4096)[8:20])
        except TimeoutError:
            pass
        assert len(answered) == number, f"{number - len(answered)} of {number} were lost"


def both_families(server):
    """What waits at the socket of one family does not keep that of the other one waiting."""
    with Server(server, *USER) as running, socket.socket(socket.AF_INET6, socket.SOCK_DGRAM) as peer:
        peer.setsockopt(socket.IPPROTO_IPV6, socket.IPV6_V6ONLY, 0)
        peer.settimeout(scaled(10))
        for many, one in ("::1", "::ffff:127.0.0.1"), ("::ffff:127.0.0.1", "::1"):
            running.process.send_signal(signal.SIGSTOP)
            for _ in range(150):
                peer.sendto(stun.message(stun.REQUEST), (many, running.port))
            last = stun.message(stun.REQUEST)
            peer.sendto(last, (one, running.port))
            running.process.send_signal(signal.SIGCONT)
            answers = [peer.recv(4096)[8:20] for _ in range(151)]
            assert answers.index(last[8:20]) < 149, "it is answered after all others"


def stopped_reader(server):
    """A server whose lines nobody reads, nobody can read, or without a terminal serves on."""
    with Server(server, "-v", is_read=False) as running, Peer(running.port) as peer:
        hang_up = lambda: running.process.send_signal(signal.SIGHUP)
        for ending, number in ((int, 4000), (running.process.stdout.close, 100), (hang_up, 100)):
            ending()
            for _ in range(number):
                assert stun.code_of(peer.ask(stun.message(stun.REQUEST))) == 200


def wiped(server):
    """A password is overwritten when its memory is given back (wiped.c)."""
    program = pathlib.Path(server).parent / "wiped"
    run = subprocess.run([program], capture_output=True, text=True, timeout=scaled(20))
    found = re.fullmatch("([0-9]+) copies while in use, 0 later\n", run.stdout)
    assert found and int(found[1]) > 0, run


def hidden_words(server):
    """The words of a running server show no password."""
    with Server(server, *USER) as running, Peer(running.port) as peer:
        assert stun.code_of(peer.ask(stun.message(stun.REQUEST))) == 401
        words = pathlib.Path(f"/proc/{running.process.pid}/cmdline").read_bytes()
        assert NAME.encode() in words and PASSWORD.encode() not in words, words


# ---- A machine with faults (faults.c)


def with_fault(server, *words, library=None, **faults):
    told = faults.pop("told", "")
    library = library or str(pathlib.Path(server).parent / "faults.so")
    loaded = {"LD_PRELOAD": library, "ASAN_OPTIONS": "verify_asan_link_order=0"}
    return Server(server, *words, told=told, environment={**loaded, **faults})


def failing_reads(server):
    """A socket whose reads fail for a while neither ends a server, nor has it spin or complain on
    and on."""
    told = "recvmsg: No buffer space available\n"
    failing = with_fault(server, FAILING_READS="150", told=told)
    with failing as running, Peer(running.port) as peer:
        assert stun.code_of(peer.ask(stun.message(stun.REQUEST))) == 200
        assert running.seconds() < 0.8, f"{running.seconds()} s of processor"


def no_ipv6(server):
    """Where there is no IPv6 the answer leaves from the address that was asked, too."""
    with with_fault(server, NO_IPV6="1") as running:
        for host in ("127.0.0.1", "127.0.0.2"):
            with Peer(running.port, host) as peer:
                assert stun.code_of(peer.ask(stun.message(stun.REQUEST))) == 200


def slept(server, library):
    """A nonce ends though the machine slept, if only a second later."""
    with tempfile.TemporaryDirectory() as folder:
        sleep = pathlib.Path(folder) / "slept"
        words = (*USER, "--expiry", "30")
        sleepy = with_fault(server, *words, library=library, SLEPT=str(sleep))
        with sleepy as running, Peer(running.port) as peer:
            challenge = peer.ask(stun.message(stun.REQUEST))
            signed = answering(challenge)
            assert stun.code_of(peer.ask(signed)) == 200
            up = float(pathlib.Path("/proc/uptime").read_text().split()[0])
            told = sleep.with_suffix(".told")
            told.write_text(f"{up + 60} 0\n")
            told.rename(sleep)
            end = time.monotonic() + scaled(5)
            while stun.code_of(peer.ask(signed)) != 438:
                assert time.monotonic() < end, "the nonce goes on"
                time.sleep(0.1)


# ---- One port


def one_server(server):
    """A second server on the same port is refused, also where both have workers, unless it is asked
    for."""
    for words in ((), ("--workers", "2")):
        with Server(server, *words) as running:
            told = "socket: Address already in use\n"
            for others in ((), ("--workers", "2")):
                run = subprocess.run([server, str(running.port), *others], capture_output=True,
                                     text=True, timeout=scaled(20))
                assert (run.returncode, run.stdout, run.stderr) == (1, "", told), run
    with Server(server, "--shared") as running:
        with Server(server, "--shared", "--workers", "2", port=running.port) as second:
            assert second.port == running.port
            with Peer(running.port) as peer:
                assert stun.code_of(peer.ask(stun.message(stun.REQUEST))) == 200


def counted(server):
    """SIGUSR1 has it print what all its workers counted."""
    for words in ((), ("--workers", "3")):
        with Server(server, *words) as running:
            for _ in range(20):
                with Peer(running.port) as peer:
                    assert stun.code_of(peer.ask(stun.message(stun.REQUEST))) == 200
            running.process.send_signal(signal.SIGUSR1)
            end = time.monotonic() + scaled(10)
            while not any(line.startswith("answered=20 ") for line in running.lines):
                assert time.monotonic() < end, running.lines
                time.sleep(0.05)
