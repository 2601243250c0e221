"""The model of the RFC as a subject (model/): what each call of the suite asks of it."""

import struct

from model.asking import Asking
from model.checks import Checker
from model.credentials import Client, OpenServer, Server, ShortClient, ShortServer
from model.transactions import Agent
from model.values import decoded, encoded, plain, types_of
from model.wire import (FINGERPRINT, INTEGRITY, INTEGRITY_SHA256, Message, Refused, appended, begun,
                        check_fingerprint, fingerprinted, framed, long_term_key, refusal_420,
                        signed, unknown_types, userhash, verified)


def call(method):
    """A call of the suite: what the RFC refuses is answered `refused`."""

    def answer(self, *words):
        try:
            came = method(self, *words)
        except (Refused, UnicodeDecodeError, struct.error, IndexError, KeyError):
            return "refused"
        if isinstance(came, bytes):
            return came.hex() or "-"
        return "done" if came is None else came

    return answer


class Reading:
    @call
    def read(self, data):
        one = Message(plain(data))
        return f"{one.klass} 0x{one.method:03x} 0x{one.id.hex()}"

    @call
    def attributes(self, data):
        return " ".join(f"0x{kind:04x}@{place}:{len(value)}"
                        for kind, place, value in Message(plain(data)).visible()) or "none"

    @call
    def attribute(self, kind, data):
        one = Message(plain(data))
        value = one.value(int(kind, 16))
        return "none" if value is None else decoded(int(kind, 16), value, one.id)

    @call
    def verify(self, key, data):
        return verified(Message(plain(data)), plain(key))

    @call
    def fingerprint(self, data):
        return check_fingerprint(Message(plain(data)))

    @call
    def unknown(self, known, data):
        types = unknown_types(Message(plain(data)), types_of(known))
        return ",".join(f"0x{kind:04x}" for kind in types) or "none"

    @call
    def frame(self, kind, data):
        size = framed(kind, plain(data))
        return str(size) if len(plain(data)) >= size else "more"

    @call
    def key(self, name, *words):
        user, realm, password = map(plain, words)
        for one in (user, realm, password):
            one.decode("utf-8")
        return long_term_key(name, user, realm, password)

    @call
    def userhash(self, user, realm):
        return userhash(plain(user), plain(realm))


class Writing:
    @call
    def begin(self, klass, method, identity):
        if int(method, 16) > 0xFFF:
            raise Refused
        return begun(klass, int(method, 16), bytes.fromhex(identity[2:]))

    @call
    def add(self, data, kind, word):
        one, number = Message(plain(data)), int(kind, 16)
        if any(kind in (INTEGRITY, INTEGRITY_SHA256, FINGERPRINT) for kind, _, _ in one.all):
            raise Refused
        return appended(one.data, number, encoded(number, word, one.id))

    @call
    def sign(self, data, name, key):
        one = Message(plain(data))
        present = {kind for kind, _, _ in one.all}
        later = {INTEGRITY_SHA256, FINGERPRINT} | ({INTEGRITY} if name == "sha1" else set())
        if present & later:
            raise Refused
        return signed(one.data, name, plain(key))

    @call
    def add_fingerprint(self, data):
        one = Message(plain(data))
        if one.value(FINGERPRINT) is not None:
            raise Refused
        return fingerprinted(one.data)

    @call
    def refuse_unknown(self, known, data):
        one = Message(plain(data))
        types = unknown_types(one, types_of(known))
        return refusal_420(one, types) if types and one.klass == "request" else "none"


class Credentials:
    @call
    def server_new(self, realm):
        self.server = Server(plain(realm))

    @call
    def server_algorithms(self, names):
        self.server.algorithms = names.split(",")

    @call
    def server_hashes(self, word):
        self.server.hashes = word == "yes"

    @call
    def server_lifetime(self, seconds):
        self.server.lifetime = int(seconds)

    @call
    def server_add_user(self, name, password):
        self.server.users[plain(name)] = plain(password)

    @call
    def server_remove_user(self, name):
        self.server.users.pop(plain(name), None)

    @call
    def server_fingerprint(self):
        self.server.fingerprints = ("valid",)

    def server_hears(self, source, seconds, data):
        try:
            came = self.server.hears(source, int(seconds), plain(data))
        except (Refused, struct.error):
            return "none"
        return "none" if came is None else came.hex()

    @call
    def short_server_new(self):
        self.short_server = ShortServer()

    @call
    def short_server_add_user(self, name, password):
        self.short_server.users[plain(name)] = plain(password)

    def short_server_hears(self, source, data):
        try:
            came = self.short_server.hears(source, plain(data))
        except (Refused, struct.error):
            return "none"
        return "none" if came is None else came.hex()

    @call
    def server_redirects(self, *places):
        self.server.places = places

    @call
    def short_server_redirects(self, *places):
        self.short_server.places = places

    @call
    def open_server_new(self):
        self.open_server = OpenServer()

    @call
    def open_server_fingerprint(self):
        self.open_server.fingerprints = ("valid",)

    def open_server_hears(self, source, data):
        try:
            came = self.open_server.hears(source, plain(data))
        except (Refused, struct.error):
            return "none"
        return "none" if came is None else came.hex()

    @call
    def client_new(self):
        self.client = Client()
        self.asking = Asking(self.client)

    @call
    def client_asks(self, now, data):
        return self.asking.ask(int(now), Message(plain(data)))

    @call
    def client_takes(self, now, data):
        return self.asking.takes(int(now), Message(plain(data)))

    @call
    def client_next(self, now):
        return self.asking.next(int(now))

    @call
    def client_user(self, name, password):
        self.client.user, self.client.password = plain(name), plain(password)

    @call
    def client_short_term(self, name, password):
        self.client = ShortClient(plain(name), plain(password), self.client.algorithms)
        self.asking.client = self.client

    @call
    def client_stream(self):
        self.asking.is_stream = True

    @call
    def client_fingerprint(self):
        self.client.fingerprints = ("valid",)

    @call
    def client_algorithms(self, names):
        self.client.algorithms = names.split(",")

    @call
    def client_hashes(self, word):
        self.client.hashes = word

    @call
    def client_signs(self, data):
        return self.client.signs(plain(data))

    @call
    def client_hears(self, data):
        return self.client.hears(Message(plain(data)))


class Transactions:
    @call
    def agent_new(self, transport):
        self.agent = Agent(transport)

    @call
    def agent_asks(self, now, peer, data):
        self.agent.ask(int(now), peer, Message(plain(data)))

    @call
    def agent_takes(self, now, peer, data):
        return self.agent.takes(peer, Message(plain(data)))

    @call
    def agent_transmit(self, now):
        return self.agent.transmit(int(now))

    @call
    def agent_poll(self, now):
        return self.agent.poll(int(now))

    @call
    def agent_configure(self, identity, initial, count, last, longest):
        request = self.agent.requests.get(int(identity).to_bytes(12, "big"))
        if request is None:
            return "none"
        request.wait(int(initial), int(count), int(last), int(longest))

    @call
    def agent_cancel(self, identity):
        request = self.agent.requests.get(int(identity).to_bytes(12, "big"))
        if request is None:
            return "none"
        request.ended = "cancelled"

    @call
    def agent_cancel_retransmissions(self, identity):
        request = self.agent.requests.get(int(identity).to_bytes(12, "big"))
        if request is None:
            return "none"
        request.is_silent = True


class Checks:
    @call
    def ice_new(self, role, number, *names):
        self.checker = Checker(role, int(number), [plain(name) for name in names])

    @call
    def ice_checks(self, to, priority, word):
        return self.checker.check(to, int(priority), word == "yes")

    def ice_hears(self, source, data):
        try:
            came = self.checker.hears(source, plain(data))
        except (Refused, struct.error):
            return "none"
        return "none" if came is None else came.hex()

    def ice_takes(self, source, data):
        try:
            return self.checker.takes(source, Message(plain(data)))
        except (Refused, struct.error):
            return "none"

    def ice_role(self):
        return self.checker.role

    def ice_nominated(self):
        return "yes" if self.checker.is_nominated else "no"


class Subject(Reading, Writing, Credentials, Transactions, Checks):
    def __init__(self):
        self.server, self.client, self.agent = Server(b""), Client(), Agent("udp")
        self.short_server = ShortServer()
