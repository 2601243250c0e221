"""This library's messages as a subject, through its header for C, stunp.h. endpoint.py has the
endpoints. What the header does not have is left out."""

import ctypes
import struct
from ctypes import byref, c_size_t, c_uint16, c_uint32, c_uint64, c_uint8

from subjects.library import (ALGORITHMS, CLASSES, NAMES, Refused, address_text, ask, buffer, call,
                              changed, octets_of, plain)

FINGERPRINTS = ("none", "valid", "invalid", "invalid")
MISSING, NO_INTEGRITY = -15, -4
TEXTS, XORED, PLAIN = (6, 0x14, 0x15, 0x8022, 0x8003), (0x20, 0x12, 0x16), (1, 0x8023)
# Attributes that are numbers: their bytes, and how many bits at their end are unused.
NUMBERS = {0x24: (4, 0), 0x0D: (4, 0), 0x8029: (8, 0), 0x802A: (8, 0), 0x0C: (4, 16), 0x19: (4, 24),
           0x18: (1, 7)}
EVEN_PORT = 0x18
# Values that the headers have no call for: they are left out.
WITHOUT_CALLS = (0x08, 0x1C, 0x1D, 0x8002, 0x1E, 0x17, 0x8000)


def types_of(word):
    numbers = [] if word == "-" else [int(one, 16) for one in word.split(",")]
    return (c_uint16 * len(numbers))(*numbers)


class Reading:
    @call
    def read(self, word):
        message, out = plain(word), (c_uint8 * 12)()
        ask("parse", message)
        ask("id", message, out)
        return (f"{CLASSES[ask('class', message)]} 0x{ask('method', message):03x} "
                f"0x{bytes(out).hex()}")

    @call
    def attributes(self, word):
        message, found, place = plain(word), [], 0
        kind, length = c_uint16(), c_size_t()
        while (place := ask("next", message, c_size_t(place), byref(kind), byref(length))) > 0:
            found.append(f"0x{kind.value:04x}@{place - 4}:{length.value}")
        return " ".join(found) or "none"

    @call
    def attribute(self, word, message):
        kind, message, length = int(word, 16), plain(message), c_size_t()
        if kind in WITHOUT_CALLS:
            return "lacks"
        try:
            place = ask("find", message, c_uint32(kind), byref(length))
        except Refused as refused:
            return "none" if refused.args[0] == MISSING else "refused"
        return self.value(kind, message, place, message[place:place + length.value])

    def value(self, kind, message, place, value):
        place, out, port = c_size_t(place), (c_uint8 * 16)(), c_uint16()
        if kind in TEXTS:
            length = c_size_t()
            start = ask("read_text", message, place, byref(length))
            return message[start:start + length.value]
        if kind in XORED + PLAIN:
            name = "read_xor_address" if kind in XORED else "read_address"
            length = ask(name, message, place, out, byref(port))
            return address_text(out[:length], port.value)
        if kind in NUMBERS:
            return self.number(kind, message, place)
        if kind == 0x0A:
            types = (c_uint16 * 1000)()
            count = ask("read_types", message, place, types)
            return ",".join(f"0x{one:04x}" for one in types[:count]) or "-"
        if kind == 9:
            return f"{ask('error_code', message)}:{value[4:].hex() or '-'}"
        return value

    def number(self, kind, message, place):
        size, unused = NUMBERS[kind]
        number = c_uint64()
        if ask("read_number", message, place, byref(number)) != size:
            raise Refused
        value = number.value >> unused
        return ("no", "yes")[value] if kind == EVEN_PORT else str(value)

    @call
    def verify(self, key, message):
        try:
            return NAMES[ask("verify", plain(message), plain(key))]
        except Refused as refused:
            return "none" if refused.args[0] == NO_INTEGRITY else "refused"

    @call
    def fingerprint(self, message):
        return FINGERPRINTS[ask("check_fingerprint", plain(message))]

    @call
    def unknown(self, known, message):
        types = (c_uint16 * 1000)()
        count = ask("unknown_types", plain(message), types_of(known), types)
        return ",".join(f"0x{one:04x}" for one in types[:count]) or "none"

    @call
    def frame(self, kind, word):
        data = plain(word)
        wanted = ask({"stun": "next_frame", "turn": "next_turn_frame",
                      "packet": "next_packet_frame"}[kind], data)
        return str(wanted) if len(data) >= wanted else "more"

    @call
    def key(self, name, *words):
        out = (c_uint8 * 32)()
        length = ask("long_term_key", c_uint32(ALGORITHMS[name]), *map(plain, words), out)
        return bytes(out[:length])

    @call
    def userhash(self, *words):
        out = (c_uint8 * 32)()
        ask("userhash", *map(plain, words), out)
        return bytes(out)


class Writing:
    @call
    def begin(self, name, method, identity):
        out = buffer()
        length = ask("begin", c_uint32(CLASSES.index(name)), c_uint32(int(method, 16)),
                     bytes.fromhex(identity[2:]), out)
        return bytes(out[:length])

    @call
    def add(self, message, word, value):
        message, kind = plain(message), int(word, 16)
        if kind == 9:
            code, _, phrase = value.partition(":")
            return changed("add_error", message, c_uint32(int(code)), plain(phrase))
        if kind in XORED + PLAIN:
            octets, port = octets_of(value)
            name = "add_xor_address" if kind in XORED else "add_address"
            return changed(name, message, c_uint32(kind), octets, c_uint32(port))
        if kind in NUMBERS:
            size, unused = NUMBERS[kind]
            number = value == "yes" if kind == EVEN_PORT else int(value)
            return changed("add_number", message, c_uint32(kind), c_uint64(number << unused),
                           c_size_t(size))
        if kind in WITHOUT_CALLS and kind != 0x1E:
            return "lacks"
        if kind == 0x0A:
            value = b"".join(struct.pack(">H", one) for one in types_of(value))
        else:
            value = plain(value)
        return changed("add", message, c_uint32(kind), value)

    @call
    def sign(self, message, name, key):
        return changed("sign", plain(message), c_uint32(ALGORITHMS[name]), plain(key))

    @call
    def add_fingerprint(self, message):
        return changed("add_fingerprint", plain(message))

    @call
    def refuse_unknown(self, known, request):
        out = buffer()
        length = ask("refuse_unknown", plain(request), types_of(known), out)
        return bytes(out[:length]) if length else "none"


class Subject(Reading, Writing):
    pass
