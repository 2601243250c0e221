"""Messages, digests and FINGERPRINT of the model, written from RFC 8489 (sections without an RFC).

The model shares no code with any implementation. `plants.py` plants bugs in it, which the suite
must find."""

import hashlib
import hmac
import struct
import zlib

COOKIE = bytes.fromhex("2112a442")
CLASSES = ("request", "indication", "success", "error")
INTEGRITY, INTEGRITY_SHA256, FINGERPRINT = 0x0008, 0x001C, 0x8028
ERROR_CODE, UNKNOWN = 0x0009, 0x000A
DIGESTS = {"sha1": (INTEGRITY, hashlib.sha1), "sha256": (INTEGRITY_SHA256, hashlib.sha256)}


class Refused(Exception):
    """A message or a value that is refused."""


class Message:
    """A message that is well-formed (sections 5 and 14)."""

    def __init__(self, data):
        if len(data) < 20 or data[0] & 0xC0 or data[4:8] != COOKIE:
            raise Refused
        self.kind, length = struct.unpack_from(">HH", data)
        if length % 4 or length != len(data) - 20:
            raise Refused
        self.data, self.id = data, data[8:20]
        self.klass = CLASSES[self.kind >> 7 & 2 | self.kind >> 4 & 1]
        self.method = self.kind & 0xF | self.kind >> 1 & 0x70 | self.kind >> 2 & 0xF80
        self.all = list(self.walk())

    def walk(self):
        place = 20
        while place < len(self.data):
            kind, length = struct.unpack_from(">HH", self.data, place)
            end = place + 4 + length + -length % 4
            if end > len(self.data):
                raise Refused
            yield kind, place, self.data[place + 4:place + 4 + length]
            place = end

    def visible(self):
        """Yields what a receiver may not ignore (sections 14.5 to 14.7)."""
        stage = 0
        for kind, place, value in self.all:
            if stage == 1 and kind not in (INTEGRITY_SHA256, FINGERPRINT):
                continue
            if stage == 2 and kind != FINGERPRINT:
                continue
            yield kind, place, value
            if kind == FINGERPRINT:
                return
            if kind == INTEGRITY:
                stage = 1
            if kind == INTEGRITY_SHA256:
                stage = 2

    def find(self, wanted):
        """The first visible attribute of a type: its offset and its value."""
        for kind, place, value in self.visible():
            if kind == wanted:
                return place, value
        return None, None

    def value(self, wanted):
        return self.find(wanted)[1]


def stated(data, length):
    """The bytes with another number in the length field."""
    return data[:2] + struct.pack(">H", length) + data[4:]


def digest(data, place, hash_of, key):
    """Sections 14.5 and 14.6: up to the attribute, with a length that ends after it."""
    size = hash_of().digest_size
    return hmac.new(key, stated(data[:place], place - 20 + 4 + size), hash_of).digest()


def crc(data, place):
    """Section 14.7."""
    return zlib.crc32(stated(data[:place], place - 20 + 8)) ^ 0x5354554E


def attribute(kind, value):
    return struct.pack(">HH", kind, len(value)) + value + bytes(-len(value) % 4)


def appended(data, kind, value):
    data += attribute(kind, value)
    return stated(data, len(data) - 20)


def verified(message, key):
    """The algorithm of the integrity attribute that decides, the stronger if both are there."""
    for name in ("sha256", "sha1"):
        kind, hash_of = DIGESTS[name]
        place, value = message.find(kind)
        if value is not None:
            if not hmac.compare_digest(value, digest(message.data, place, hash_of, key)):
                raise Refused
            return name
    return "none"


def long_term_key(name, user, realm, password):
    """Section 9.2.2."""
    hash_of = hashlib.md5 if name == "sha1" else hashlib.sha256
    return hash_of(b":".join((user, realm, password))).digest()


def userhash(user, realm):
    """Section 14.4."""
    return hashlib.sha256(user + b":" + realm).digest()


def unknown_types(message, known):
    """Section 6.3: the comprehension-required types that are not known, each once."""
    found = []
    for kind, _, _ in message.visible():
        if kind < 0x8000 and kind not in known and kind not in found:
            found.append(kind)
    return found


def begun(klass, method, identity):
    number = CLASSES.index(klass)
    kind = (method & 0xF80) << 2 | (method & 0x70) << 1 | method & 0xF \
        | (number & 2) << 7 | (number & 1) << 4
    return struct.pack(">HH", kind, 0) + COOKIE + identity


def response(request, code=None, phrase=""):
    """A response to a request: a success, or an error with a code."""
    made = begun("error" if code else "success", request.method, request.id)
    if code:
        value = struct.pack(">HBB", 0, *divmod(code, 100)) + phrase.encode()
        made = appended(made, ERROR_CODE, value)
    return made


def refusal_420(request, types):
    made = response(request, 420, "Unknown Attribute")
    return appended(made, UNKNOWN, b"".join(struct.pack(">H", kind) for kind in types))


def signed(data, name, key):
    kind, hash_of = DIGESTS[name]
    return appended(data, kind, digest(data, len(data), hash_of, key))


def fingerprinted(data):
    return appended(data, FINGERPRINT, struct.pack(">I", crc(data, len(data))))


def check_fingerprint(message):
    place, value = message.find(FINGERPRINT)
    if value is None:
        return "none"
    is_last = place + 8 == len(message.data) and len(value) == 4
    right = is_last and int.from_bytes(value, "big") == crc(message.data, place)
    return "valid" if right else "invalid"


def framed(kind, data):
    """The length of the first message of a stream, or more than there is (section 6.2.2; RFC 8656,
    sections 12.4 and 12.5; RFC 4571, section 2)."""
    if kind == "packet":
        return 2 + struct.unpack(">H", data[:2])[0] if len(data) >= 2 else 2
    if kind == "turn" and 0x40 <= data[0] < 0x80:
        if len(data) < 4:
            return 4
        length = struct.unpack_from(">H", data, 2)[0]
        return 4 + length + -length % 4
    if data[0] & 0xC0 or data[4:8] != COOKIE[:len(data[4:8])]:
        raise Refused
    if len(data) < 4:
        return 20
    length = struct.unpack_from(">H", data, 2)[0]
    if length % 4:
        raise Refused
    return 20 + length
