"""Messages and values of the second model (RFC 8489, sections 5 and 14)."""

import base64
import binascii
import hashlib
import hmac
import ipaddress

COOKIE = b"\x21\x12\xa4\x42"
CLASSES = ["request", "indication", "success", "error"]
USERNAME, REALM, NONCE, ERROR, UNKNOWN = 0x0006, 0x0014, 0x0015, 0x0009, 0x000A
SHA1, SHA256, FINGERPRINT = 0x0008, 0x001C, 0x8028
USERHASH, CHOICE, LIST = 0x001E, 0x001D, 0x8002
MAPPED, XOR_MAPPED, SOFTWARE, ALTERNATE, DOMAIN = 0x0001, 0x0020, 0x8022, 0x8023, 0x8003
# What is understood of the attributes that must be (section 18.3.1).
UNDERSTOOD = {MAPPED, USERNAME, SHA1, ERROR, UNKNOWN, REALM, NONCE, SHA256, CHOICE, USERHASH,
              XOR_MAPPED}
NUMBER_OF = {"MD5": 1, "SHA256": 2, "sha1": 1, "sha256": 2}


class No(Exception):
    """What the RFC does not let pass."""


def u16(number):
    return number.to_bytes(2, "big")


def padded(value):
    return value + bytes(-len(value) % 4)


class Stun:
    """A message (section 5), whose attributes are triples of type, offset and value."""

    def __init__(self, data):
        self.data = data
        if len(data) < 20 or data[0] >> 6 or data[4:8] != COOKIE:
            raise No("header")
        if int.from_bytes(data[2:4], "big") != len(data) - 20 or len(data) % 4:
            raise No("length")
        bits = f"{int.from_bytes(data[:2], 'big'):014b}"
        # Figure 3: the class is in the bits 7 and 11 of the fourteen.
        self.kind = CLASSES[int(bits[5] + bits[9], 2)]
        self.method = int(bits[:5] + bits[6:9] + bits[10:], 2)
        self.id, self.attributes = data[8:20], []
        at = 20
        while at < len(data):
            kind, size = (int.from_bytes(data[at + i:at + i + 2], "big") for i in (0, 2))
            if len(padded(bytes(size))) > len(data) - at - 4:
                raise No("attribute")
            self.attributes.append((kind, at, data[at + 4:at + 4 + size]))
            at += 4 + len(padded(bytes(size)))

    def counting(self):
        """The attributes that are not to be ignored (sections 14.5 to 14.7)."""
        allowed = None
        for one in self.attributes:
            if allowed is None or one[0] in allowed:
                yield one
                if one[0] in (SHA1, SHA256, FINGERPRINT):
                    after = {SHA1: {SHA256, FINGERPRINT}, SHA256: {FINGERPRINT}, FINGERPRINT: set()}
                    allowed = after[one[0]] & (allowed or after[one[0]])

    def get(self, kind):
        return next((value for one, _, value in self.counting() if one == kind), None)

    def offset(self, kind):
        return next((at for one, at, _ in self.counting() if one == kind), None)

    def unknown(self, known):
        types = (kind for kind, _, _ in self.counting() if kind < 0x8000 and kind not in known)
        return list(dict.fromkeys(types))

    def code(self):
        value = self.get(ERROR)
        return None if value is None or len(value) < 4 else (value[2] & 7) * 100 + value[3]


def header(kind, method, identity, size=0):
    c, m = CLASSES.index(kind), f"{method:012b}"
    bits = m[:5] + str(c >> 1) + m[5:8] + str(c & 1) + m[8:]
    return u16(int(bits, 2)) + u16(size) + COOKIE + identity


def resized(data, size):
    return data[:2] + u16(size) + data[4:]


def plus(data, kind, value):
    data += u16(kind) + u16(len(value)) + padded(value)
    return resized(data, len(data) - 20)


def mac(data, at, key, kind):
    """The HMAC of what stands before the offset, as if the message ended after the attribute."""
    name = "sha1" if kind == SHA1 else "sha256"
    size = 20 if kind == SHA1 else 32
    return hmac.new(key, resized(data[:at], at + 4 + size - 20), name).digest()


def sign(data, key, kind):
    return plus(data, kind, mac(data, len(data), key, kind))


def check(message, key):
    """Which signature is right: the one of SHA-256 if it is there (sections 9.1.3 and 9.2.4)."""
    for kind, name in ((SHA256, "sha256"), (SHA1, "sha1")):
        value = message.get(kind)
        if value is not None:
            if mac(message.data, message.offset(kind), key, kind) != value:
                raise No("signature")
            return name
    return "none"


def crc(data):
    return (binascii.crc32(resized(data, len(data) - 20 + 8)) ^ 0x5354554E).to_bytes(4, "big")


def mark(data):
    return plus(data, FINGERPRINT, crc(data))


def marked(message):
    """`valid`, `invalid` or `none` (section 14.7)."""
    places = [(at, value) for kind, at, value in message.attributes if kind == FINGERPRINT]
    if not places:
        return "none"
    at, value = places[0]
    return "valid" if at + 8 == len(message.data) and value == crc(message.data[:at]) else "invalid"


def long_key(number, user, realm, password):
    name = "md5" if number == 1 else "sha256"
    return hashlib.new(name, b":".join([user, realm, password])).digest()


def hash_of(user, realm):
    return hashlib.sha256(user + b":" + realm).digest()


def entries(value):
    """The entries of a list of algorithms (section 14.11): a number, and its parameters."""
    while value:
        number, size = (int.from_bytes(value[i:i + 2], "big") for i in (0, 2))
        if len(value) < 4 + size:
            raise No("list")
        yield number, value[4:4 + size]
        value = value[4 + len(padded(bytes(size))):]


def features(nonce):
    """The security features of a nonce (sections 9.2 and 18.1), as a number of 24 bits; or None."""
    if nonce is None or nonce[:9] != b"obMatJos2" or len(nonce) < 13:
        return None
    try:
        return int.from_bytes(base64.b64decode(nonce[9:13], validate=True), "big")
    except binascii.Error:
        return None


def asks_for_choice(nonce):
    return bool((features(nonce) or 0) & 1 << 23)


def asks_for_hash(nonce):
    return bool((features(nonce) or 0) & 1 << 22)


# ---- Values between player and subject.

TEXTS = (USERNAME, REALM, NONCE, SOFTWARE, DOMAIN)
ADDRESSES, XORED = (MAPPED, ALTERNATE), (XOR_MAPPED, 0x12, 0x16)
# Numbers: their bytes, and how many unused ones follow.
NUMBERS = {0x24: (4, 0), 0x0D: (4, 0), 0x8029: (8, 0), 0x802A: (8, 0), 0x0C: (2, 2), 0x19: (1, 3)}


def address_out(value, mask):
    if len(value) not in (8, 20) or {1: 8, 2: 20}.get(value[1]) != len(value):
        raise No("address")
    plain = bytes(a ^ b for a, b in zip(value[2:], mask[:2] + mask))
    host = ipaddress.ip_address(plain[2:])
    port = int.from_bytes(plain[:2], "big")
    return f"{host}:{port}" if host.version == 4 else f"[{host}]:{port}"


def address_in(word, mask):
    host, port = word.rsplit(":", 1)
    host = ipaddress.ip_address(host.strip("[]"))
    plain = u16(int(port)) + host.packed
    family = 1 if host.version == 4 else 2
    return bytes((0, family)) + bytes(a ^ b for a, b in zip(plain, mask[:2] + mask))


def mask_of(kind, identity):
    return COOKIE + identity if kind in XORED else bytes(16)


def shown(kind, value, identity):
    if kind in TEXTS:
        value.decode()
        if len(value) > 763:
            raise No("text")
    if kind == ERROR:
        if len(value) < 4 or not 3 <= value[2] & 7 <= 6 or value[3] > 99 or len(value) > 767:
            raise No("code")
        value[4:].decode()
        return f"{(value[2] & 7) * 100 + value[3]}:{value[4:].hex() or '-'}"
    if kind in ADDRESSES + XORED:
        return address_out(value, mask_of(kind, identity))
    if kind in NUMBERS:
        size, unused = NUMBERS[kind]
        if len(value) != size + unused:
            raise No("number")
        return str(int.from_bytes(value[:size], "big"))
    if kind in (0x17, 0x8000):
        if len(value) != 4 or value[0] not in (1, 2):
            raise No("family")
        return "IPv4" if value[0] == 1 else "IPv6"
    if kind in (0x25, 0x1A) and value or kind == 0x18 and len(value) != 1:
        raise No("flag")
    if kind == 0x18:
        return "yes" if value[0] & 0x80 else "no"
    if kind == UNKNOWN:
        if len(value) % 2:
            raise No("types")
        return ",".join(f"0x{value[i:i + 2].hex()}" for i in range(0, len(value), 2)) or "-"
    if kind in (LIST, CHOICE):
        found = list(entries(value))
        if kind == CHOICE and len(found) != 1 or any(n not in (1, 2) or more for n, more in found):
            raise No("algorithms")
        return ",".join({1: "MD5", 2: "SHA256"}[number] for number, _ in found) or "-"
    sizes = {USERHASH: 32, SHA1: 20, SHA256: 32, FINGERPRINT: 4, 0x22: 8}
    if len(value) != sizes.get(kind, len(value)):
        raise No("size")
    return value.hex() or "-"


def spelled(kind, word, identity):
    if kind == ERROR:
        code, phrase = word.split(":")
        if not 300 <= int(code) <= 699:
            raise No("code")
        return bytes((0, 0, int(code) // 100, int(code) % 100)) + octets(phrase)
    if kind in ADDRESSES + XORED:
        return address_in(word, mask_of(kind, identity))
    if kind in NUMBERS:
        return int(word).to_bytes(NUMBERS[kind][0], "big") + bytes(NUMBERS[kind][1])
    if kind in (0x17, 0x8000):
        return bytes((1 if word == "IPv4" else 2, 0, 0, 0))
    if kind == 0x18:
        return b"\x80" if word == "yes" else b"\x00"
    if kind == UNKNOWN:
        return b"".join(map(u16, types_of(word)))
    if kind in (LIST, CHOICE):
        return b"".join(u16(NUMBER_OF[one]) + u16(0) for one in word.split(",") if one != "-")
    return octets(word)


def octets(word):
    return b"" if word == "-" else bytes.fromhex(word)


def types_of(word):
    return [] if word == "-" else [int(one, 16) for one in word.split(",")]
