"""STUN messages of RFC 8489 for the tests in Python, written from the RFC over Python's hashlib,
hmac and zlib."""
import base64
import hashlib
import hmac
import os
import struct
import zlib

COOKIE = 0x2112A442
REQUEST, INDICATION, SUCCESS, ERROR = 0x0001, 0x0011, 0x0101, 0x0111
USERNAME, INTEGRITY, ERROR_CODE, UNKNOWN = 0x0006, 0x0008, 0x0009, 0x000A
REALM, NONCE, INTEGRITY_SHA256, PASSWORD_ALGORITHM = 0x0014, 0x0015, 0x001C, 0x001D
USERHASH, XOR_MAPPED_ADDRESS, PASSWORD_ALGORITHMS, FINGERPRINT = 0x001E, 0x0020, 0x8002, 0x8028
SOFTWARE = 0x8022
SHA1, SHA256 = 1, 2
DIGESTS = {SHA1: (INTEGRITY, hashlib.sha1), SHA256: (INTEGRITY_SHA256, hashlib.sha256)}


def message(kind, attributes=(), transaction=None):
    """A message of a class and method, of (type, value) pairs."""
    start = struct.pack(">HHI", kind, 0, COOKIE) + (transaction or os.urandom(12))
    for kind, value in attributes:
        start = added(start, kind, value)
    return start


def attribute(kind, value):
    """An attribute with its padding."""
    return struct.pack(">HH", kind, len(value)) + value + bytes(-len(value) % 4)


def added(message, kind, value):
    """The message with one attribute more, which its length field counts."""
    more = attribute(kind, value)
    return stating(message, len(message) - 20 + len(more)) + more


def stating(message, length):
    """The message with another number in its length field."""
    return message[:2] + struct.pack(">H", length) + message[4:]


def read(message):
    """The class and method, the id, and (type, value, place) of each attribute, whatever is
    visible."""
    kind, length, cookie = struct.unpack_from(">HHI", message)
    assert cookie == COOKIE and length == len(message) - 20, "no STUN message"
    found, place = [], 20
    while place < len(message):
        one, length = struct.unpack_from(">HH", message, place)
        found.append((one, message[place + 4:place + 4 + length], place))
        place += 4 + length + -length % 4
    return kind, message[8:20], found


def value_of(message, wanted):
    """The value of the first attribute of a type, or None."""
    return next((value for kind, value, _ in read(message)[2] if kind == wanted), None)


def code_of(message):
    """200 of a success, the code of an error."""
    if read(message)[0] & 0x110 == 0x100:
        return 200
    value = value_of(message, ERROR_CODE)
    return value[2] * 100 + value[3]


def key_of(algorithm, name, realm, password):
    """The long-term key of section 9.2.2."""
    text = f"{name}:{realm}:{password}".encode()
    return (hashlib.md5 if algorithm == SHA1 else hashlib.sha256)(text).digest()


def signed(message, algorithm, key):
    """The message with the integrity attribute of an algorithm."""
    kind, hash_of = DIGESTS[algorithm]
    size = hash_of().digest_size
    stated = stating(message, len(message) - 16 + size)
    return added(message, kind, hmac.new(key, stated, hash_of).digest())


def verifies(message, algorithm, key):
    """Whether the message has the integrity attribute of an algorithm, under this key."""
    kind, hash_of = DIGESTS[algorithm]
    for one, value, place in read(message)[2]:
        if one == kind:
            stated = stating(message[:place], place - 16 + len(value))
            return hmac.compare_digest(value, hmac.new(key, stated, hash_of).digest())
    return False


def fingerprinted(message):
    """The message with FINGERPRINT."""
    stated = stating(message, len(message) - 12)
    return added(message, FINGERPRINT, struct.pack(">I", zlib.crc32(stated) ^ 0x5354554E))


def has_right_fingerprint(message):
    """Whether the message ends with FINGERPRINT, and it is right."""
    if message[-8:-4] != b"\x80\x28\0\4":
        return False
    return fingerprinted(stating(message[:-8], len(message) - 28)) == message


def mapped_address(message):
    """The octets and the port of XOR-MAPPED-ADDRESS."""
    value = value_of(message, XOR_MAPPED_ADDRESS)
    mask = message[4:20]
    port = struct.unpack(">H", value[2:4])[0] ^ (COOKIE >> 16)
    return bytes(a ^ b for a, b in zip(value[4:], mask)), port


def hidden_address(request, host, port):
    """The value of XOR-MAPPED-ADDRESS, of an IPv4 address, in an answer to a request."""
    octets = bytes(a ^ b for a, b in zip(map(int, host.split(".")), request[4:8]))
    return struct.pack(">BBH", 0, 1, port ^ COOKIE >> 16) + octets


def asks_for_a_choice(challenge):
    """Whether the nonce of a challenge has the security bit of password algorithms (section
    9.2)."""
    nonce = value_of(challenge, NONCE)
    return nonce[:9] == b"obMatJos2" and base64.b64decode(nonce[9:13])[0] & 0x80 != 0


def answered(request, challenge, name, realm, password, algorithm=SHA1, extra=()):
    """A request of this kind and these extra attributes that answers a 401 or a 438."""
    attributes = [(USERNAME, name.encode()), (REALM, realm.encode()),
                  (NONCE, value_of(challenge, NONCE)), *extra]
    if asks_for_a_choice(challenge):
        offer = value_of(challenge, PASSWORD_ALGORITHMS)
        attributes += [(PASSWORD_ALGORITHMS, offer),
                       (PASSWORD_ALGORITHM, struct.pack(">HH", algorithm, 0))]
    return signed(message(request, attributes), algorithm, key_of(algorithm, name, realm, password))
