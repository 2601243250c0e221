"""Two programs that check each other by ICE: their lines brought across, a wire between them, and
what went over it judged by stun.py."""
import collections
import re
import select
import socket
import subprocess
import threading

import harness
from harness import stun

PRIORITY, USE_CANDIDATE, CONTROLLED, CONTROLLING = 0x0024, 0x0025, 0x8029, 0x802A


def is_message(data):
    """Whether a datagram is one of STUN, and no data."""
    return data[4:8] == stun.COOKIE.to_bytes(4, "big")


Ended = collections.namedtuple("Ended", "status lines err")


class Side:
    """A running program, whose first line is `HOST PORT[,PORT].. UFRAG PASSWORD`."""

    def __init__(self, *words):
        pipes = dict(stdin=subprocess.PIPE, stdout=subprocess.PIPE, stderr=subprocess.PIPE)
        self.process = subprocess.Popen([str(word) for word in words], text=True, **pipes)
        line = self.process.stdout.readline().split()
        assert len(line) == 4, f"{words}: {line} {self.process.stderr.read()}"
        self.host, self.ports, self.ufrag, self.password = line
        self.address = (self.host, int(self.ports.split(",")[0]))

    def meet(self, address, ufrag, password):
        self.process.stdin.write(f"{address[0]} {address[1]} {ufrag} {password}\n")
        self.process.stdin.flush()

    def ended(self):
        out, err = self.process.communicate(timeout=60)
        return Ended(self.process.returncode, out.splitlines(), err.strip())


def everything(wire, is_of_first, number, data):
    return [data]


class Wire:
    """Passes datagrams on between two sides, each of which takes it for the other: `rule(wire,
    is_of_first, number, data)` says what is passed on in the place of each, which has its number
    among those of its direction."""

    def __init__(self, first, second, rule=everything):
        self.sides, self.rule, self.seen, self.is_over = (first, second), rule, [], False
        opened = [socket.socket(socket.AF_INET, socket.SOCK_DGRAM) for _ in range(3)]
        for one in opened:
            one.bind(("127.0.0.1", 0))
        # What the first side has for the second, and the other way round.
        self.ends, self.stranger = opened[:2], opened[2]
        self.thread = threading.Thread(target=self.pass_on, daemon=True)
        self.thread.start()

    def pass_on(self):
        counts = [0, 0]
        while not self.is_over:
            for ready in select.select(self.ends, [], [], 0.05)[0]:
                data = ready.recv(4096)
                of = self.ends.index(ready)
                counts[of] += 1
                self.seen.append((of, data))
                for out in self.rule(self, of == 0, counts[of], data):
                    self.ends[1 - of].sendto(out, self.sides[1 - of].address)

    def __enter__(self):
        for side, end, other in zip(self.sides, self.ends, self.sides[::-1]):
            side.meet(end.getsockname(), other.ufrag, other.password)
        return self

    def __exit__(self, *_):
        self.is_over = True
        self.thread.join(10)
        for one in (*self.ends, self.stranger):
            one.close()

    def messages(self):
        """Who sent each message of STUN, and the message."""
        return [(of, data) for of, data in self.seen if is_message(data)]

    def codes(self):
        """The codes of the answers, with the number of the side that gave them."""
        return [(of, stun.code_of(one)) for of, one in self.messages() if stun.read(one)[0] & 0x100]

    def judge(self):
        """Each message ends with a right FINGERPRINT, and is signed under the password of the side
        that is asked, but an indication; each check has what RFC 8445 wants (section 7.1)."""
        nominated = False
        for of, data in self.messages():
            kind, asked = stun.read(data)[0], self.sides[1 - of]
            assert stun.has_right_fingerprint(data), (of, data)
            if kind == stun.INDICATION:
                continue
            password = (asked if kind == stun.REQUEST else self.sides[of]).password
            assert stun.verifies(data, stun.SHA1, password.encode()), (of, data)
            if kind != stun.REQUEST:
                continue
            name = f"{asked.ufrag}:{self.sides[of].ufrag}".encode()
            assert stun.value_of(data, stun.USERNAME) == name, (of, data)
            values = [stun.value_of(data, one) for one in (PRIORITY, CONTROLLING, CONTROLLED)]
            assert len(values[0]) == 4 and (values[1] is None) != (values[2] is None), (of, data)
            if stun.value_of(data, USE_CANDIDATE) is not None:
                assert values[1] is not None, (of, data)
                nominated = True
        assert nominated, "nobody said USE-CANDIDATE"


def met(first, second):
    """How two sides end that have each other's own addresses."""
    first.meet((second.host, second.ports), second.ufrag, second.password)
    second.meet((first.host, first.ports), first.ufrag, first.password)
    return first.ended(), second.ended()


def met_over(first, second, rule=everything, is_right=True):
    """How two sides end over a wire, and the wire."""
    with Wire(first, second, rule) as wire:
        ends = first.ended(), second.ended()
    if is_right:
        wire.judge()
    return *ends, wire


def role_of(end):
    """The role in which a program ended, which took data too."""
    told = [re.match(r"nominated .*\bas (controlling|controlled)", line) for line in end.lines]
    roles = [one[1] for one in told if one]
    assert end.status == 0 and len(roles) == 1 and not end.err, end
    assert any(line.startswith("data from ") for line in end.lines), end
    return roles[0]


def fails(end, reason):
    """A program printed no nomination, and this reason."""
    is_silent = not any(line.startswith("nominated") for line in end.lines)
    assert end.status == 1 and is_silent and end.err == f"failed: {reason}", end
