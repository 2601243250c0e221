"""aioice as a subject: stun.py for levels 0 and 1, and ice.StunProtocol for level 3.

One call of stun.py reads a whole message and verifies MESSAGE-INTEGRITY and FINGERPRINT on the way.
StunProtocol runs under a clock that the player sets. It claims RFC 5389."""

import asyncio
import struct

from aioice import ice, stun

CLASSES = ("request", "indication", "success", "error")
BITS = (0x000, 0x010, 0x100, 0x110)
TURNS = 5  # of the event loop, until nothing more follows
TEXTS, ADDRESSES = (6, 0x14, 0x8022), (1, 0x12, 0x16, 0x20)


def plain(word):
    return b"" if word == "-" else bytes.fromhex(word)


def parsed(word, key=None):
    return stun.parse_message(plain(word), integrity_key=key)


def place(word):
    host, _, port = word.rpartition(":")
    return host.strip("[]"), int(port)


def shown(kind, value):
    if kind in TEXTS:
        return value.encode().hex() or "-"
    if kind in ADDRESSES:
        return "[%s]:%d" % value if ":" in value[0] else "%s:%d" % value
    if kind == 9:
        return "%d:%s" % (value[0], value[1].encode().hex() or "-")
    if kind == 0x19:  # it reads the protocol with the three unused bytes
        return str(value >> 24)
    if isinstance(value, bytes):
        return value.hex() or "-"
    return "-" if value is None else str(value)


def given(kind, word):
    """A value as it is passed to aioice."""
    if kind in TEXTS:
        return plain(word).decode()
    if kind in ADDRESSES:
        return place(word)
    if kind == 9:
        code, _, phrase = word.partition(":")
        return int(code), plain(phrase).decode()
    if kind == 0x25:
        return None
    if kind == 0x19:
        return int(word) << 24
    return plain(word) if kind in (8, 0x15) else int(word)


def call(method):
    """Turns a ValueError of aioice, and the struct.error of a short value, into `refused`."""

    def answer(self, *words):
        try:
            return method(self, *words)
        except (ValueError, struct.error) as error:
            return "lacks" if "is not a valid Method" in str(error) else "refused"

    return answer


class Clock(asyncio.SelectorEventLoop):
    """An event loop whose time is set, and that runs what is due."""

    now = 0.0

    def time(self):
        return self.now

    def run_until(self, nanoseconds):
        self.now = int(nanoseconds) / 10**9
        for _ in range(TURNS):
            self.call_soon(self.stop)
            self.run_forever()

    def next_timer(self):
        return min((one.when() for one in self._scheduled if not one.cancelled()), default=None)


class Agent:
    """A StunProtocol, and what it sends and hands to its receiver."""

    def __init__(self):
        self.clock, self.sent, self.received, self.tasks = Clock(), [], [], {}
        asyncio.set_event_loop(self.clock)
        self.protocol = ice.StunProtocol(self)
        self.protocol.connection_made(self)

    def sendto(self, data, _to):
        self.sent.append(int.from_bytes(data[8:20], "big"))

    def request_received(self, message, *_rest):
        self.received.append(message)

    def data_received(self, *_rest):
        pass

    def timed_out(self):
        for number, task in sorted(self.tasks.items()):
            if task.done() and isinstance(task.exception(), stun.TransactionTimeout):
                del self.tasks[number]
                return number
        return None


class Transactions:
    agent = None

    def at(self, now):
        self.agent = self.agent or Agent()
        self.agent.clock.run_until(now)
        return self.agent

    def agent_new(self, transport):
        self.agent = None
        return "done" if transport == "udp" else "lacks"

    @call
    def agent_asks(self, now, peer, word):
        agent, message = self.at(now), parsed(word)
        if message.transaction_id in agent.protocol.transactions:
            return "refused"  # an assertion of StunProtocol.request
        number = int.from_bytes(message.transaction_id, "big")
        agent.tasks[number] = agent.clock.create_task(
            agent.protocol.request(message, place(peer)))
        agent.clock.run_until(now)
        agent.sent.remove(number)
        return "done"

    def agent_transmit(self, now):
        agent = self.at(now)
        if not agent.sent:
            return "none"
        # Those that are due at the same time may be sent in any order.
        agent.sent.sort()
        return str(agent.sent.pop(0))

    def agent_poll(self, now):
        agent = self.at(now)
        number, timer = agent.timed_out(), agent.clock.next_timer()
        if number is not None:
            return f"timed out {number}"
        if agent.sent:
            return f"wait {now}"
        return "idle" if timer is None else f"wait {round(timer * 10**9)}"

    @call
    def agent_takes(self, now, peer, word):
        agent = self.at(now)
        before, identity = len(agent.received), plain(word)[8:20]
        is_awaited = identity in agent.protocol.transactions
        agent.protocol.datagram_received(plain(word), place(peer))
        agent.clock.run_until(now)
        is_ended = is_awaited and identity not in agent.protocol.transactions
        return "yes" if is_ended or len(agent.received) > before else "no"


class Subject(Transactions):
    def claims(self):
        return "rfc5389 fingerprint-first raw-texts"

    @call
    def read(self, word):
        message = parsed(word)
        return "%s 0x%03x 0x%s" % (CLASSES[BITS.index(message.message_class)],
                                   message.message_method, message.transaction_id.hex())

    @call
    def attribute(self, kind, word):
        entry = stun.ATTRIBUTES_BY_TYPE.get(int(kind, 16))
        if entry is None:
            return "lacks"
        attributes = parsed(word).attributes
        return shown(entry[0], attributes[entry[1]]) if entry[1] in attributes else "none"

    @call
    def verify(self, key, word):
        if "MESSAGE-INTEGRITY" not in parsed(word).attributes:
            return "none"
        parsed(word, plain(key))
        return "sha1"

    @call
    def fingerprint(self, word):
        try:
            return "valid" if "FINGERPRINT" in parsed(word).attributes else "none"
        except ValueError as error:
            if "fingerprint" in str(error):
                return "invalid"
            raise

    @call
    def begin(self, name, method, identity):
        return bytes(stun.Message(stun.Method(int(method, 16)),
                                  stun.Class(BITS[CLASSES.index(name)]),
                                  bytes.fromhex(identity[2:]))).hex()

    def added(self, word, name, value):
        message = parsed(word)
        message.attributes[name] = value
        return bytes(message).hex()

    @call
    def add(self, word, kind, value):
        entry = stun.ATTRIBUTES_BY_TYPE.get(int(kind, 16))
        return self.added(word, entry[1], given(entry[0], value)) if entry else "lacks"

    @call
    def sign(self, word, name, key):
        if name != "sha1":
            return "lacks"
        return self.added(word, "MESSAGE-INTEGRITY",
                          stun.message_integrity(bytes(parsed(word)), plain(key)))

    @call
    def add_fingerprint(self, word):
        return self.added(word, "FINGERPRINT", stun.message_fingerprint(bytes(parsed(word))))
