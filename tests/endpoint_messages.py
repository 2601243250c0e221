"""What the models of the endpoints share (endpoint_model.py): messages in the words of transcripts,
how datagrams are read, and how all servers respond. It is written from RFC 8489 over Python's
hashlib, hmac and zlib, and shares no code with the library."""

import base64
import struct

import spelling
import stun
from spelling import PHRASES, TYPES, Words

NAMES = {number: name for name, number in TYPES.items()
         if name not in ("PASSWORD-ALGORITHM", "USERHASH")}
PASSWORD_ALGORITHM_NAMES = {bytes([0, 1, 0, 0]): "MD5", bytes([0, 2, 0, 0]): "SHA256"}
# STUN's own attributes that must be understood (RFC 8489, section 14).
OWN = {0x0001, 0x0006, 0x0008, 0x0009, 0x000A, 0x0014, 0x0015, 0x001C, 0x001D, 0x001E, 0x0020}
LIMIT = 763
SIGNED = {stun.SHA1: "Sha1", stun.SHA256: "Sha256"}
REFUSALS = {400: "BadRequest", 401: "Unauthenticated", 420: "UnknownAttribute", 438: "StaleNonce"}


class Refused(Exception):
    """A request gets an error response with this code."""


# ---- Messages in words.


def shown_text(value):
    """A text in a word: `a*764` is 764 letters, `-` is empty."""
    word = value.decode() or "-"
    return f"{word[0]}*{len(word)}" if len(word) > 40 and word == word[0] * len(word) else word


def shown(name, value, identity):
    """The value of an attribute in the words of its type."""
    if name in ("REALM", "NONCE", "SOFTWARE", "USERNAME"):
        return shown_text(value)
    if name == "ERROR-CODE":
        code, phrase = value[2] * 100 + value[3], value[4:]
        has_own = PHRASES.get(str(code), "").encode() == phrase != b""
        return f"{code}" if has_own else f"{code}:{shown_text(phrase)}"
    if name == "PASSWORD-ALGORITHMS":
        names = [PASSWORD_ALGORITHM_NAMES.get(value[at:at + 4]) for at in range(0, len(value), 4)]
        return ",".join(names) if all(names) else "0x" + value.hex()
    if name == "XOR-MAPPED-ADDRESS":
        port = struct.unpack(">H", value[2:4])[0] ^ 0x2112
        octets = bytes(a ^ b for a, b in zip(value[4:], spelling.COOKIE + identity))
        return spelling.address_text(octets, port)
    return value.hex()


def told(message):
    """A message in the words that spell it."""
    kind, identity = int.from_bytes(message[:2], "big"), message[8:20]
    classes = {0x0001: "request", 0x0011: "indication", 0x0101: "success", 0x0111: "error"}
    words = [classes.get(kind, f"request TYPE=0x{kind:04x}")]
    if identity != spelling.id_of("1"):
        words.append("ID=0x" + identity.hex())
    for number, _, value in spelling.attributes_of(message):
        name = NAMES.get(number)
        words.append(f"{name}={shown(name, value, identity)}" if name
                     else f"0x{number:04x}={value.hex()}")
    return " ".join(words)


# ---- Reading.


def octets_of(host):
    """An address as sixteen octets, IPv4 as IPv6 maps it (RFC 4291, section 2.5.5.2)."""
    return bytes(10) + b"\xff\xff" + host if len(host) == 4 else host


def canonical(host):
    """IPv4 in either spelling as four octets."""
    return host[12:] if host[:12] == bytes(10) + b"\xff\xff" and len(host) == 16 else host


def bits_of(nonce):
    """The security bits of a nonce, if it has them (section 9.2)."""
    if not nonce.startswith(b"obMatJos2") or len(nonce) < 13:
        return None
    try:
        return base64.b64decode(nonce[9:13], validate=True)
    except ValueError:
        return None


def integrity_of(message):
    """The algorithm of the integrity attribute that decides: the stronger, if it is visible."""
    kinds = {kind for kind, _, _ in spelling.visible(message)}
    if stun.INTEGRITY_SHA256 in kinds:
        return stun.SHA256
    return stun.SHA1 if stun.INTEGRITY in kinds else None


def is_message(datagram):
    """Whether bytes are a message, and whether they begin with a header (section 5)."""
    if len(datagram) < 20 or datagram[0] & 0xC0 or datagram[4:8] != spelling.COOKIE:
        return False, False
    length = struct.unpack(">H", datagram[2:4])[0]
    if length % 4:
        return False, False
    if length != len(datagram) - 20:
        return False, True
    place = 20
    while place < len(datagram):
        if place + 4 > len(datagram):
            return False, True
        size = struct.unpack_from(">H", datagram, place + 2)[0]
        place += 4 + size + -size % 4
    return place == len(datagram), True


def fingerprint_fault(message, is_required):
    """Why a message is dropped for its FINGERPRINT, or None. The first one must be the last
    attribute, have 4 bytes, and be right (section 14.7); there must be one if it is required
    (section 7.3)."""
    place, value = next(((place, value) for kind, place, value in spelling.visible(message)
                         if kind == stun.FINGERPRINT), (None, None))
    if place is None:
        return "MissingFingerprint" if is_required else None
    in_place = len(value) == 4 and place + 8 == len(message)
    return None if in_place and stun.has_right_fingerprint(message) else "WrongFingerprint"


# ---- Responses.


class Responder:
    """What all servers do alike (sections 6.3 and 7)."""

    def __init__(self):
        self.known, self.software, self.binding = set(), None, False
        self.requires_fingerprint = False

    def end(self, response, request, key=None):
        if self.software is not None:
            response = stun.added(response, stun.SOFTWARE, self.software.encode())
        if key:
            response = stun.signed(response, integrity_of(request), key)
        return stun.fingerprinted(response) if stun.has_right_fingerprint(request) else response

    def begun(self, request, response_class):
        kind = int.from_bytes(request[:2], "big") | response_class
        return stun.message(kind, (), request[8:20])

    def error(self, request, code, phrase, key=None, extra=()):
        response = self.begun(request, 0x110)
        value = struct.pack(">HBB", 0, *divmod(code, 100)) + phrase.encode()
        for kind, value in [(stun.ERROR_CODE, value), *extra]:
            response = stun.added(response, kind, value)
        return self.end(response, request, key)

    def unknown(self, message):
        return unknown_in(message, OWN | self.known)

    def answered(self, request, source, key=None):
        """The words of the response to an accepted request, or None if it is for the caller."""
        unknown = self.unknown(request)
        if unknown:
            types = b"".join(struct.pack(">H", one) for one in unknown)
            return refusal(420, self.error(request, 420, "Unknown Attribute", key,
                                           [(stun.UNKNOWN, types)]))
        if not self.binding or request[:2] != b"\0\1":
            return None
        response = stun.added(self.begun(request, 0x100), stun.XOR_MAPPED_ADDRESS,
                              xored(source, request[8:20]))
        return "answer: " + told(self.end(response, request, key))


def responded(stage, reply, words):
    """The response that the caller writes to the last request that was handed out: `success`, or a
    code and a phrase, and attributes."""
    if reply is None:
        raise Words("no request")
    server, request, key = reply
    first, *words = words
    if first == "success":
        response = server.begun(request, 0x100)
    else:
        phrase, *words = words
        phrase = spelling.text(phrase)
        if not 300 <= int(first) <= 699:
            return "NotAllowed"
        if len(phrase) > LIMIT:
            return "TooLarge"
        value = struct.pack(">HBB", 0, *divmod(int(first), 100)) + phrase
        response = stun.added(server.begun(request, 0x110), stun.ERROR_CODE, value)
    carrier = stage.message(["request", *words])
    own = [] if server.software is None else [stun.SOFTWARE]
    kinds = [kind for kind, _, _ in spelling.attributes_of(carrier)] + own
    twice = [kind for at, kind in enumerate(kinds) if kind in kinds[:at]]
    if twice:
        return f"AttributeExists 0x{twice[0]:04x}"
    for kind, _, value in spelling.attributes_of(carrier):
        response = stun.added(response, kind, value)
    return told(server.end(response, request, key))


def refusal(code, response):
    return f"{code} {REFUSALS[code]}: {told(response)}"


def xored(source, identity):
    """The value of XOR-MAPPED-ADDRESS (section 14.2)."""
    host, port = canonical(source[0]), source[1]
    hidden = bytes(a ^ b for a, b in zip(host, spelling.COOKIE + identity))
    return struct.pack(">BBH", 0, 1 if len(host) == 4 else 2, port ^ 0x2112) + hidden


def is_same(one, other):
    """Whether two addresses are one, IPv4 in either spelling."""
    return (octets_of(one[0]), one[1]) == (octets_of(other[0]), other[1])


def first_of(message, kind):
    """The value of the first visible attribute of a type."""
    return next((value for one, _, value in spelling.visible(message) if one == kind), None)


def mapped_in(message):
    """The address in XOR-MAPPED-ADDRESS, if that is well formed."""
    value = first_of(message, stun.XOR_MAPPED_ADDRESS)
    if value is None or len(value) != {1: 8, 2: 20}.get(value[1] if len(value) > 1 else 0):
        return None
    port = struct.unpack(">H", value[2:4])[0] ^ 0x2112
    octets = bytes(a ^ b for a, b in zip(value[4:], spelling.COOKIE + message[8:20]))
    return spelling.address_text(octets, port)


def code_in(message):
    """The code of ERROR-CODE, if that is well formed (section 14.8)."""
    value = first_of(message, stun.ERROR_CODE)
    if value is None or not 4 <= len(value) <= 4 + LIMIT:
        return None
    hundreds, rest = value[2] & 7, value[3]
    if not 3 <= hundreds <= 6 or rest > 99:
        return None
    return hundreds * 100 + rest


def unknown_in(message, known):
    """The visible types that must be understood and are not known (section 14), each once."""
    seen = []
    for kind, _, _ in spelling.visible(message):
        if kind < 0x8000 and kind not in known and kind not in seen:
            seen.append(kind)
    return seen


def verified(message, key):
    """The algorithm of the integrity attribute that decides, if it is right under a key."""
    algorithm = integrity_of(message)
    return algorithm if algorithm and stun.verifies(message, algorithm, key) else None


def dropped(datagram, is_required):
    """Why a datagram is dropped before anybody judges it, or None."""
    is_one, has_header = is_message(datagram)
    if not is_one:
        return "dropped Malformed" if has_header else "dropped NotStun"
    fault = fingerprint_fault(datagram, is_required)
    return f"dropped {fault}" if fault else None
