"""A second model, written from the text of RFC 8489, that shares no code with model/: a MUST line
that both answer as it is written was read from the RFC in the same way twice. It has sections 5 to
7, 9 and 14 without timers, and makes no effort to choose as this library does."""

from second.messages import (FINGERPRINT, NUMBER_OF, SHA1, SHA256, UNKNOWN, No, Stun, check,
                             hash_of, header, long_key, mark, marked, octets, plus, shown, sign,
                             spelled, types_of, u16)
from second.parties import Client, Server, reply


def call(method):
    def answer(self, *words):
        try:
            came = method(self, *words)
        except (No, ValueError, IndexError, OverflowError):
            return "refused"
        return "done" if came is None else came.hex() or "-" if isinstance(came, bytes) else came
    return answer


def silent(method):
    """A call of a server, which answers nothing to what it cannot read."""
    def answer(self, *words):
        try:
            came = method(self, *words)
        except (No, ValueError, IndexError):
            return "none"
        return came.hex() if came else "none"
    return answer


class Subject:
    def __init__(self):
        self.client = Client()
        self.servers = {"long": Server("long"), "short": Server("short"), "none": Server("none")}

    @call
    def read(self, data):
        one = Stun(octets(data))
        return f"{one.kind} 0x{one.method:03x} 0x{one.id.hex()}"

    @call
    def attributes(self, data):
        return " ".join(f"0x{kind:04x}@{at}:{len(value)}"
                        for kind, at, value in Stun(octets(data)).counting()) or "none"

    @call
    def attribute(self, kind, data):
        one, kind = Stun(octets(data)), int(kind, 16)
        value = one.get(kind)
        return "none" if value is None else shown(kind, value, one.id)

    @call
    def verify(self, key, data):
        return check(Stun(octets(data)), octets(key))

    @call
    def fingerprint(self, data):
        return marked(Stun(octets(data)))

    @call
    def unknown(self, known, data):
        found = Stun(octets(data)).unknown(types_of(known))
        return ",".join(f"0x{kind:04x}" for kind in found) or "none"

    @call
    def key(self, name, *words):
        for word in words:
            octets(word).decode()
        return long_key(NUMBER_OF[name], *map(octets, words))

    @call
    def userhash(self, *words):
        return hash_of(*map(octets, words))

    @call
    def begin(self, kind, method, identity):
        return header(kind, int(method, 16), bytes.fromhex(identity[2:]))

    @call
    def add(self, data, kind, word):
        one, kind = Stun(octets(data)), int(kind, 16)
        if {SHA1, SHA256, FINGERPRINT} & {kind for kind, _, _ in one.attributes}:
            raise No("it would be ignored")
        return plus(one.data, kind, spelled(kind, word, one.id))

    @call
    def sign(self, data, name, key):
        one = Stun(octets(data))
        before = {kind for kind, _, _ in one.attributes}
        if before & {SHA256, FINGERPRINT} or name == "sha1" and SHA1 in before:
            raise No("it would be ignored")
        return sign(one.data, octets(key), SHA1 if name == "sha1" else SHA256)

    @call
    def add_fingerprint(self, data):
        one = Stun(octets(data))
        if marked(one) != "none":
            raise No("it is there")
        return mark(one.data)

    @call
    def refuse_unknown(self, known, data):
        one = Stun(octets(data))
        types = one.unknown(types_of(known))
        if not types or one.kind != "request":
            return "none"
        return plus(reply(one, 420), UNKNOWN, b"".join(map(u16, types)))

    # -- Servers.

    @call
    def server_new(self, realm):
        self.servers["long"] = Server("long", octets(realm))

    @call
    def server_algorithms(self, names):
        self.servers["long"].algorithms = [NUMBER_OF[name] for name in names.split(",")]

    @call
    def server_hashes(self, word):
        self.servers["long"].hashes = word == "yes"

    @call
    def server_lifetime(self, seconds):
        self.servers["long"].life = int(seconds)

    @call
    def server_fingerprint(self):
        self.servers["long"].must_mark = True

    @call
    def server_add_user(self, name, password):
        self.servers["long"].users[octets(name)] = octets(password)

    @call
    def server_remove_user(self, name):
        self.servers["long"].users.pop(octets(name), None)

    @call
    def server_redirects(self, *places):
        self.servers["long"].others = places

    @silent
    def server_hears(self, source, seconds, data):
        return self.servers["long"].hear(source, int(seconds), octets(data))

    @call
    def short_server_new(self):
        self.servers["short"] = Server("short")

    @call
    def short_server_add_user(self, name, password):
        self.servers["short"].users[octets(name)] = octets(password)

    @call
    def short_server_redirects(self, *places):
        self.servers["short"].others = places

    @silent
    def short_server_hears(self, source, data):
        return self.servers["short"].hear(source, 0, octets(data))

    @call
    def open_server_new(self):
        self.servers["none"] = Server("none")

    @call
    def open_server_fingerprint(self):
        self.servers["none"].must_mark = True

    @silent
    def open_server_hears(self, source, data):
        return self.servers["none"].hear(source, 0, octets(data))

    # -- Clients.

    @call
    def client_new(self):
        self.client = Client()

    @call
    def client_user(self, name, password):
        self.client.name, self.client.password = octets(name), octets(password)

    @call
    def client_short_term(self, name, password):
        self.client.name, self.client.password = octets(name), octets(password)
        self.client.is_short = True

    @call
    def client_algorithms(self, names):
        self.client.supported = [NUMBER_OF[name] for name in names.split(",")]

    @call
    def client_hashes(self, word):
        self.client.hashes = word

    @call
    def client_fingerprint(self):
        self.client.must_mark = True

    @call
    def client_signs(self, data):
        return self.client.form(octets(data))

    @call
    def client_hears(self, data):
        return self.client.hear(Stun(octets(data)))

    @call
    def client_asks(self, now, data):
        return self.client.ask(Stun(octets(data)))

    @call
    def client_takes(self, now, data):
        return self.client.take(Stun(octets(data)))

    @call
    def client_next(self, now):
        # Without timers it does not know what is due later.
        return "lacks" if int(now) >= 500 * 10**6 and self.client.request else self.client.next()
