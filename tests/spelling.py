"""Words of transcripts (docs/maintainers/TRANSCRIPTS.md), and the messages that they spell, byte by
byte. Digests are Python's own."""

import hashlib
import ipaddress
import struct

import stun

COOKIE = bytes.fromhex("2112a442")
CLASSES = {"request": 0, "indication": 1, "success": 2, "error": 3}
TYPES = {
    "USERNAME": 0x0006, "MESSAGE-INTEGRITY": 0x0008, "ERROR-CODE": 0x0009, "REALM": 0x0014,
    "NONCE": 0x0015, "MESSAGE-INTEGRITY-SHA256": 0x001C, "PASSWORD-ALGORITHM": 0x001D,
    "USERHASH": 0x001E, "XOR-MAPPED-ADDRESS": 0x0020, "PASSWORD-ALGORITHMS": 0x8002,
    "SOFTWARE": 0x8022, "FINGERPRINT": 0x8028,
}
PHRASES = {"400": "Bad Request", "401": "Unauthorized", "438": "Stale Nonce",
           "420": "Unknown Attribute", "487": "Role Conflict"}
ALGORITHMS = {"MD5": b"\0\1\0\0", "SHA256": b"\0\2\0\0"}
FOREVER = 2**64 - 1


class Words(Exception):
    """A line that is not understood: it is answered `?`."""


# ---- Single words.


def number(word):
    digits = word.replace("_", "")
    if not digits.isdecimal():
        raise Words(word)
    return int(digits)


def begins_with_digit(word):
    return word[:1].isdecimal()


def nanos(word):
    """Nanoseconds; `max` is all that a uint64_t holds."""
    if word == "max":
        return FOREVER
    for suffix, unit in (("ns", 1), ("ms", 10**6), ("s", 10**9)):
        if word.endswith(suffix):
            return number(word[: -len(suffix)]) * unit
    return number(word)


def unhex(digits):
    try:
        return bytes.fromhex(digits)
    except ValueError:
        raise Words(digits) from None


def drawn(octets):
    """A secret or a seed: 32 bytes, or the first of them, which zeros follow."""
    return octets + bytes(31) if len(octets) == 1 else octets


def text(word):
    """`WORD`, `WORD*NUMBER` or `-`, as bytes."""
    part, star, count = word.partition("*")
    if star and begins_with_digit(count):
        return part.encode() * number(count)
    return b"" if word == "-" else word.encode()


def blob(word):
    """Bytes of `digest`: `0xHEX`, `0xHEX*NUMBER`, `pattern:LENGTH:STEP:FIRST`, or a text."""
    if word.startswith("0x"):
        digits, star, count = word[2:].partition("*")
        return unhex(digits) * (number(count) if star else 1)
    if word.startswith("pattern:"):
        length, step, first = (number(part) for part in word[8:].split(":"))
        return bytes((first + i * step) % 256 for i in range(length))
    return text(word)


def attribute_type(word):
    if word in TYPES:
        return TYPES[word]
    if not word.startswith("0x") or len(word) != 6:
        raise Words(word)
    return int.from_bytes(unhex(word[2:]), "big")


def address(word):
    """`IP:PORT` or `[IP]:PORT`, as octets and a port."""
    host, colon, port = word.rpartition(":")
    try:
        return ipaddress.ip_address(host.strip("[]")).packed, number(port)
    except ValueError:
        raise Words(word) from None


def address_text(octets, port):
    ip = ipaddress.ip_address(octets)
    if ip.version == 4:
        return f"{ip}:{port}"
    return f"[::ffff:{ip.ipv4_mapped}]:{port}" if ip.ipv4_mapped else f"[{ip}]:{port}"


def id_of(word):
    identity = unhex(word[2:]) if word.startswith("0x") else number(word).to_bytes(12, "big")
    if len(identity) != 12:
        raise Words(word)
    return identity


# ---- Messages.


def long_term_key(algorithm, user, realm, password):
    """The key of section 9.2.2 for 1 (MD5) or 2 (SHA-256)."""
    digest = hashlib.md5 if algorithm == 1 else hashlib.sha256
    return digest(b":".join((user, realm, password))).digest()


def key_of(word, algorithm):
    """`key:HEX`, `USER:REALM:PASSWORD` or a password."""
    first, colon, rest = word.partition(":")
    if not colon:
        return text(word)
    if first == "key":
        return unhex(rest)
    realm, colon, password = rest.partition(":")
    if not colon:
        raise Words(word)
    return long_term_key(algorithm, *(part.encode() for part in (first, realm, password)))


def attributes_of(message):
    """Type, place and value of each attribute that a message has, hidden ones too."""
    place = 20
    while place + 4 <= len(message):
        kind, length = struct.unpack_from(">HH", message, place)
        yield kind, place, message[place + 4 : place + 4 + length]
        place += 4 + length + -length % 4


def visible(message):
    """Those that sections 14.5 to 14.7 let a reader see."""
    hidden = lambda kind: False
    for kind, place, value in attributes_of(message):
        if hidden(kind):
            continue
        yield kind, place, value
        if kind == TYPES["FINGERPRINT"]:
            return
        if kind == TYPES["MESSAGE-INTEGRITY-SHA256"]:
            hidden = lambda kind: kind != TYPES["FINGERPRINT"]
        elif kind == TYPES["MESSAGE-INTEGRITY"]:
            hidden = lambda kind: kind not in (TYPES["FINGERPRINT"],
                                               TYPES["MESSAGE-INTEGRITY-SHA256"])


class Spelling:
    """A message in the making: a Binding message of a class with id 1, or one that is there
    already."""

    def __init__(self, class_number=0, message=None):
        kind = 0x0001 | (class_number & 1) << 4 | (class_number & 2) << 7
        self.kind = kind if message is None else int.from_bytes(message[:2], "big")
        self.id = id_of("1") if message is None else message[8:20]
        self.attributes = b"" if message is None else message[20:]

    def header(self, more=0):
        length = len(self.attributes) + more
        if length > 0xFFFF:
            raise Words("too long")
        return struct.pack(">HH", self.kind, length) + COOKIE + self.id

    def finish(self):
        return self.header() + self.attributes

    def add(self, kind, value):
        if len(value) > 0xFFFF:
            raise Words("too long")
        self.attributes += stun.attribute(kind, value)

    def sign(self, algorithm, secret, size):
        key = key_of(secret, algorithm)
        self.attributes = stun.signed(self.header(size) + self.attributes, algorithm, key)[20:]

    def add_words(self, words, meanings):
        for word in words:
            if word.startswith("@"):
                if word not in meanings:
                    raise Words(word)
                self.add_words(meanings[word], {})
            else:
                self.add_word(word)

    def add_word(self, word):
        if word == "FP":
            self.attributes = stun.fingerprinted(self.finish())[20:]
            return
        name, equals, value = word.partition("=")
        if not equals:
            raise Words(word)
        if name == "ID":
            self.id = id_of(value)
        elif name == "TYPE":
            self.kind = attribute_type(value)
        elif name == "MI":
            self.sign(stun.SHA1, value, 24)
        elif name == "MI256":
            self.sign(stun.SHA256, value, 36)
        else:
            self.add(attribute_type(name),
                     unhex(value[2:]) if value.startswith("0x") else self.value_of(name, value))

    def value_of(self, name, value):
        if name in ("USERNAME", "REALM", "NONCE", "SOFTWARE"):
            return text(value)
        if name == "ERROR-CODE":
            code, colon, phrase = value.partition(":")
            phrase = text(phrase if colon else PHRASES.get(code, "-"))
            return struct.pack(">HBB", 0, *divmod(number(code), 100)) + phrase
        if name == "PASSWORD-ALGORITHM" or name == "PASSWORD-ALGORITHMS":
            words = [] if value == "-" else value.split(",")
            if any(word not in ALGORITHMS for word in words):
                raise Words(value)
            return b"".join(ALGORITHMS[word] for word in words)
        if name == "XOR-MAPPED-ADDRESS":
            octets, port = address(value)
            shown = bytes(one ^ other for one, other in zip(octets, COOKIE + self.id))
            return struct.pack(">BBH", 0, 1 if len(octets) == 4 else 2, port ^ 0x2112) + shown
        return unhex(value)


def message(words, kept, meanings):
    """The message that words spell; `kept` are those with names."""
    if not words:
        raise Words("no message")
    first, words = words[0], words[1:]
    if first == "bytes":
        return unhex("".join(words))
    if first in CLASSES:
        spelling = Spelling(CLASSES[first])
        spelling.add_words(words, meanings)
        return spelling.finish()
    if first not in kept:
        raise Words(first)
    return changed(kept[first], words, meanings)


def changed(old, words, meanings):
    if not words:
        return old
    way, words = words[0], words[1:]
    if way == "bytes":
        new = bytearray(old)
        for word in words:
            place, equals, digits = word.partition("=")
            if not equals or number(place) >= len(new) or len(digits) != 2:
                raise Words(word)
            new[number(place)] = unhex(digits)[0]
        return bytes(new)
    if len(old) < 20:
        raise Words("no header")
    spelling = Spelling(message=old)
    if way == "with":
        spelling.add_words(words, meanings)
    elif way == "without":
        for kind in (attribute_type(word) for word in words):
            attributes = attributes_of(bytes(20) + spelling.attributes)
            spelling.attributes = b""
            for other, _, value in list(attributes):
                if other != kind:
                    spelling.add(other, value)
    else:
        raise Words(way)
    return spelling.finish()
