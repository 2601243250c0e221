"""This library's endpoints as a subject, through stunp_endpoint.h: the servers of each kind of
credentials, the client, and the checks of ICE.

Binding requests are answered inside, but by a server that redirects: there this shim is the
application, which answers each accepted request with 300."""

import ctypes
from ctypes import byref, c_bool, c_size_t, c_uint16, c_uint32, c_uint64, c_uint8

from subjects.library import (ALGORITHMS, FEATURES, LIBRARY, PEER, SECRET, Address, Handle, Refused,
                              address, address_text, ask, buffer, call, changed, octets_of, plain)

# Numbers of the header: kinds of what came, classes of messages, why something is dropped.
ANSWER, IS_REQUEST, IS_RESPONSE, ERROR, NOT_VERIFIED = 1, 2, 4, 3, 9
ICE_VALID, ICE_CONFLICT = 4, 5
ALTERNATE_SERVER = 0x8023


class Reply(ctypes.Structure):
    _fields_ = [("id", c_uint8 * 12), ("key", c_uint8 * 64), ("method", c_uint16),
                ("key_length", c_uint8), ("integrity", c_uint8), ("has_fingerprint", c_bool)]


class Received(ctypes.Structure):
    _fields_ = [("size", c_size_t), ("kind", c_uint32), ("why", c_uint32), ("code", c_uint32),
                ("method", c_uint16), ("algorithm", c_uint16), ("length", c_size_t),
                ("needed", c_size_t), ("name_length", c_size_t), ("reply", Reply),
                ("name", c_uint8 * 516), ("is_hash", c_bool)]


class Options(ctypes.Structure):
    _fields_ = [("initial", c_uint64), ("longest", c_uint64), ("last", c_uint64),
                ("transmissions", c_uint32), ("challenges", c_uint32), ("credentials", c_uint32),
                ("algorithms", c_uint32), ("anonymous_username", c_uint32), ("is_stream", c_bool),
                ("accepts_unsigned", c_bool), ("has_fingerprint", c_bool),
                ("requires_fingerprint", c_bool)]


class Event(ctypes.Structure):
    _fields_ = [("size", c_size_t), ("kind", c_uint32), ("result", c_uint32),
                ("request", c_uint64), ("until", c_uint64), ("length", c_size_t),
                ("needed", c_size_t), ("code", c_uint32), ("not_understood", c_uint16),
                ("signed_by", c_uint16), ("dropped", c_uint32 * 3),
                ("round_trip", c_uint64)]


class Check(ctypes.Structure):
    _fields_ = [("id", c_uint8 * 12), ("to", Address), ("is_controlling", c_bool),
                ("nominates", c_bool)]


class Judged(ctypes.Structure):
    """stunp_ice_received."""
    _fields_ = [("size", c_size_t), ("kind", c_uint32), ("why", c_uint32), ("outcome", c_uint32),
                ("code", c_uint32), ("priority", c_uint32), ("not_understood", c_uint16),
                ("nominated", c_bool), ("switched", c_bool), ("length", c_size_t),
                ("needed", c_size_t), ("mapped", Address)]


def chosen_for(source, places):
    """The first address of the family of the source (section 10)."""
    family = len(octets_of(source)[0])
    return [octets_of(place) for place in places if len(octets_of(place)[0]) == family][:1]


def redirection(reply, source, places):
    """A 300, as an application writes it: begun, with its attributes, and ended as
    stunp_reply_finish ends a reply."""
    out = buffer()
    length = ask("begin", c_uint32(ERROR), c_uint32(reply.method), bytes(reply.id), out)
    answer = changed("add_error", bytes(out[:length]), c_uint32(300), b"Try Alternate")
    for octets, port in chosen_for(source, places):
        answer = changed("add_address", answer, c_uint32(ALTERNATE_SERVER), octets, c_uint32(port))
    if reply.integrity in (1, 2):  # 3: the response is not signed
        key = bytes(reply.key[:reply.key_length])
        answer = changed("sign", answer, c_uint32(reply.integrity), key)
    return changed("add_fingerprint", answer) if reply.has_fingerprint else answer


class Server:
    """stunp_endpoint_server: made of its settings when the first datagram comes."""

    has_users = True

    def __init__(self, realm=b""):
        self.realm, self.names, self.hashes = realm, {}, 0
        self.algorithms, self.lifetime, self.has_fingerprint = 1, 3600, False
        self.places, self.handle, self.table = (), Handle(), Handle()

    def make(self):
        ask("endpoint_server_new_with", byref(self.handle), self.realm, None, c_size_t(0), SECRET,
            SECRET, c_bool(False), None, c_size_t(0), c_uint64(self.lifetime),
            c_uint32(self.algorithms), c_uint32(self.hashes), *self.flags())

    def flags(self):
        """answers_binding and requires_fingerprint."""
        return c_bool(not self.places), c_bool(self.has_fingerprint)

    def build(self):
        self.make()
        if self.has_users:
            ask("endpoint_users_new_own", byref(self.table), byref(self.handle))
        for name, password in self.names.items():
            ask("endpoint_users_add", byref(self.table), name, password)

    def add(self, name, password):
        self.names[name] = password
        if self.table.is_full:
            ask("endpoint_users_add", byref(self.table), name, password)

    def remove(self, name):
        self.names.pop(name, None)
        if self.table.is_full:
            ask("endpoint_users_remove", byref(self.table), name)

    def hears(self, source, seconds, data):
        if not self.handle.is_full:
            self.build()
        out, received = buffer(), Received(size=ctypes.sizeof(Received))
        kind = ask("endpoint_server_receive_own", byref(self.handle), byref(self.table), data,
                   address(source), c_uint64(seconds), out, byref(received))
        if kind == IS_REQUEST and self.places and received.method == 1:
            return redirection(received.reply, source, self.places)
        # An accepted request of another method is the application's, which has none.
        return bytes(out[:received.length]) if kind == ANSWER else "none"

    def end(self):
        LIBRARY.stunp_endpoint_users_clear(byref(self.table))
        LIBRARY.stunp_endpoint_server_clear(byref(self.handle))


class ShortServer(Server):
    """With short-term credentials."""

    def make(self):
        ask("endpoint_server_new_short_term", byref(self.handle), None, c_size_t(0), None,
            c_size_t(0), *self.flags())


class OpenServer(Server):
    """Without credentials."""

    has_users = False

    def make(self):
        ask("endpoint_server_new_open", byref(self.handle), None, c_size_t(0), None, c_size_t(0),
            *self.flags())


class Servers:
    @call
    def server_new(self, realm):
        self.server = self.kept(Server(plain(realm)))

    @call
    def short_server_new(self):
        self.short_server = self.kept(ShortServer())

    @call
    def open_server_new(self):
        self.open_server = self.kept(OpenServer())

    @call
    def server_algorithms(self, names):
        self.server.algorithms = sum(ALGORITHMS[one] for one in names.split(","))

    @call
    def server_hashes(self, word):
        self.server.hashes = FEATURES["auto" if word == "yes" else "disabled"]

    @call
    def server_lifetime(self, seconds):
        self.server.lifetime = int(seconds)

    @call
    def server_fingerprint(self):
        self.server.has_fingerprint = True

    @call
    def open_server_fingerprint(self):
        self.open_server.has_fingerprint = True

    @call
    def server_redirects(self, *places):
        self.server.places = places

    @call
    def short_server_redirects(self, *places):
        self.short_server.places = places

    @call
    def server_add_user(self, name, password):
        self.server.add(plain(name), plain(password))

    @call
    def server_remove_user(self, name):
        self.server.remove(plain(name))

    @call
    def short_server_add_user(self, name, password):
        self.short_server.add(plain(name), plain(password))

    @call
    def server_hears(self, source, seconds, data):
        return self.server.hears(source, int(seconds), plain(data))

    @call
    def short_server_hears(self, source, data):
        return self.short_server.hears(source, 0, plain(data))

    @call
    def open_server_hears(self, source, data):
        return self.open_server.hears(source, 0, plain(data))


class Asking:
    """stunp_endpoint_client: made of its settings when the first request is asked."""

    def __init__(self):
        self.handle, self.options, self.user = Handle(), Options(algorithms=1), (b"", b"")

    def asks(self, now, message):
        if not self.handle.is_full:
            ask("endpoint_client_new_with", byref(self.handle), address(PEER), SECRET, *self.user,
                None, c_size_t(0), None, c_size_t(0), byref(self.options))
        body, number = message[20:], c_uint64()
        ask("endpoint_client_request_with", byref(self.handle), c_uint32(ask("method", message)),
            body, c_uint64(now), byref(number))
        return self.next(now)

    def takes(self, now, message):
        why = c_uint32()
        kind = ask("endpoint_client_receive_with", byref(self.handle), message, address(PEER),
                   c_uint64(now), byref(why))
        return "yes" if kind == IS_RESPONSE else "no"

    def next(self, now):
        out, event = buffer(), Event(size=ctypes.sizeof(Event))
        ask("endpoint_client_poll_with", byref(self.handle), c_uint64(now), out, byref(event))
        if event.kind == 1:
            return bytes(out[:event.length])
        if event.kind == 0:
            return "none"
        if event.result == 3:
            return redirected(bytes(out[:event.length]))
        is_violated = event.dropped[0] and event.dropped[1] == NOT_VERIFIED
        ends = {1: "success", 2: f"error {event.code}",
                4: "violated" if is_violated else "timed out"}
        return "result " + ends.get(event.result, "failed")

    def end(self):
        LIBRARY.stunp_endpoint_client_clear(byref(self.handle))


def redirected(message):
    """How a request ends by a 300."""
    octets, port, length = (c_uint8 * 16)(), c_uint16(), c_size_t()
    try:
        place = ask("find", message, c_uint32(ALTERNATE_SERVER), byref(length))
        size = ask("read_address", message, c_size_t(place), octets, byref(port))
    except Refused:
        return "result error 300"
    return "result redirected " + address_text(octets[:size], port.value)


class Client:
    @call
    def client_new(self):
        self.asking = self.kept(Asking())

    @call
    def client_user(self, name, password):
        self.asking.user = plain(name), plain(password)

    @call
    def client_short_term(self, name, password):
        self.asking.user = plain(name), plain(password)
        self.asking.options.credentials = 1

    @call
    def client_stream(self):
        self.asking.options.is_stream = True

    @call
    def client_fingerprint(self):
        self.asking.options.has_fingerprint = self.asking.options.requires_fingerprint = True

    @call
    def client_algorithms(self, names):
        self.asking.options.algorithms = sum(ALGORITHMS[one] for one in names.split(","))

    @call
    def client_hashes(self, word):
        self.asking.options.anonymous_username = FEATURES[word]

    @call
    def client_asks(self, now, message):
        return self.asking.asks(int(now), plain(message))

    @call
    def client_takes(self, now, message):
        return self.asking.takes(int(now), plain(message))

    @call
    def client_next(self, now):
        return self.asking.next(int(now))


class Checker:
    """stunp_ice_checker, and its last check."""

    def __init__(self, role, number, words):
        self.handle, self.check, self.count, self.is_nominated = Handle(), None, 0, False
        ask("ice_checker_new_with", byref(self.handle), *map(plain, words), c_uint64(int(number)),
            c_bool(role == "controlling"))

    def checks(self, to, priority, nominates):
        self.count += 1
        out, self.check = buffer(), Check()
        identity = ctypes.c_char_p(bytes([self.count] * 12))
        length = ask("ice_checker_check_with", byref(self.handle), identity, address(to),
                     c_uint32(priority), c_bool(nominates), out, byref(self.check))
        return bytes(out[:length])

    def receive(self, source, data):
        out, judged = buffer(), Judged(size=ctypes.sizeof(Judged))
        check = byref(self.check or Check())
        ask("ice_checker_receive_with", byref(self.handle), data, address(source),
            c_bool(self.check is not None), check, out, byref(judged))
        return judged, bytes(out[:judged.length])

    def hears(self, source, data):
        judged, answer = self.receive(source, data)
        self.is_nominated = bool(judged.nominated)
        return answer if judged.kind == ANSWER else "none"

    def takes(self, source, data):
        judged, _ = self.receive(source, data)
        if judged.kind != IS_RESPONSE:
            return "none"
        self.check = None
        if judged.outcome == ICE_CONFLICT:
            self.count += 1
            ask("ice_checker_set_tie_breaker", byref(self.handle), c_uint64(7919 * self.count))
        if judged.outcome == ICE_VALID:
            mapped = judged.mapped
            return "valid " + address_text(mapped.octets[:mapped.length], mapped.port)
        return "conflict" if judged.outcome == ICE_CONFLICT else "failed"

    def end(self):
        LIBRARY.stunp_ice_checker_clear(byref(self.handle))


class Checks:
    @call
    def ice_new(self, role, number, *words):
        self.checker = self.kept(Checker(role, number, words))

    @call
    def ice_checks(self, to, priority, word):
        return self.checker.checks(to, int(priority), word == "yes")

    @call
    def ice_hears(self, source, data):
        return self.checker.hears(source, plain(data))

    @call
    def ice_takes(self, source, data):
        return self.checker.takes(source, plain(data))

    @call
    def ice_role(self):
        is_controlling = ask("ice_checker_is_controlling", byref(self.checker.handle))
        return "controlling" if is_controlling else "controlled"

    @call
    def ice_nominated(self):
        return "yes" if self.checker.is_nominated else "no"


class Subject(Servers, Client, Checks):
    def __init__(self):
        self.made = []
        self.asking = self.kept(Asking())

    def kept(self, one):
        """An endpoint that is freed with the subject."""
        self.made.append(one)
        return one

    def __del__(self):
        for one in self.made:
            one.end()
