"""The values of attributes in the model: those of STUN (RFC 8489, section 14), TURN (RFC 8656,
section 18) and ICE (RFC 8445, section 16.1)."""

import ipaddress
import struct

from model.wire import COOKIE, ERROR_CODE, UNKNOWN, Refused

USERNAME, REALM, NONCE = 0x0006, 0x0014, 0x0015
PASSWORD_ALGORITHM, USERHASH, XOR_MAPPED, PASSWORD_ALGORITHMS = 0x001D, 0x001E, 0x0020, 0x8002
ALTERNATE_SERVER = 0x8023
# The most bytes of a text that is written, and of one that is read (sections 14.3, 14.9, 14.10 and
# 14.14).
LIMITS = {USERNAME: 513, REALM: 763, NONCE: 763, 0x8022: 763, 0x8003: 255}
READ_LIMITS = {**LIMITS, USERNAME: 763}
# The forms of values.
TEXTS, XORED, PLAIN = (6, 0x14, 0x15, 0x8022, 0x8003), (0x20, 0x12, 0x16), (1, 0x8023)
UNSIGNED = {0x24: (4, 0), 0x0D: (4, 0), 0x8029: (8, 0), 0x802A: (8, 0), 0x0C: (2, 2), 0x19: (1, 3)}
FAMILIES = (0x17, 0x8000)


def decoded_text(kind, value):
    value.decode("utf-8")
    if len(value) > READ_LIMITS[kind]:
        raise Refused
    return value.hex() or "-"


def decoded_error(value):
    """Section 14.8."""
    number, code = value[2] & 7, value[3]
    if len(value) < 4 or not 3 <= number <= 6 or code > 99 or len(value) > 767:
        raise Refused
    value[4:].decode("utf-8")
    return f"{number * 100 + code}:{value[4:].hex() or '-'}"


def decoded_address(value, mask):
    """Sections 14.1 and 14.2."""
    family = {1: 4, 2: 16}.get(value[1])
    if family is None or len(value) != 4 + family:
        raise Refused
    port = struct.unpack(">H", value[2:4])[0] ^ int.from_bytes(mask[:2], "big")
    host = ipaddress.ip_address(bytes(a ^ b for a, b in zip(value[4:], mask)))
    return f"{host}:{port}" if family == 4 else f"[{host}]:{port}"


def decoded_algorithms(kind, value):
    """Sections 14.11 and 14.12, of the two algorithms without parameters."""
    names = []
    if len(value) % 4 or kind == PASSWORD_ALGORITHM and len(value) != 4:
        raise Refused
    for number, length in struct.iter_unpack(">HH", value):
        if number not in (1, 2) or length != 0:
            raise Refused
        names.append({1: "MD5", 2: "SHA256"}[number])
    return ",".join(names) or "-"


def decoded(kind, value, identity):
    if kind in TEXTS:
        return decoded_text(kind, value)
    if kind == ERROR_CODE:
        return decoded_error(value)
    if kind in XORED + PLAIN:
        return decoded_address(value, COOKIE + identity if kind in XORED else bytes(16))
    if kind in (PASSWORD_ALGORITHM, PASSWORD_ALGORITHMS):
        return decoded_algorithms(kind, value)
    if kind == UNKNOWN:
        return ",".join(f"0x{one:04x}" for one, in struct.iter_unpack(">H", value)) or "-"
    if kind in UNSIGNED:
        size, unused = UNSIGNED[kind]
        if len(value) != size + unused:
            raise Refused
        return str(int.from_bytes(value[:size], "big"))
    if kind in FAMILIES:
        if len(value) != 4 or value[0] not in (1, 2):
            raise Refused
        return {1: "IPv4", 2: "IPv6"}[value[0]]
    if kind == 0x18:
        if len(value) != 1:
            raise Refused
        return "yes" if value[0] & 0x80 else "no"
    if kind == USERHASH and len(value) != 32:
        raise Refused
    return value.hex() or "-"


def encoded_address(word, mask):
    host, _, port = word.rpartition(":")
    host = ipaddress.ip_address(host.strip("[]"))
    port = int(port) ^ int.from_bytes(mask[:2], "big")
    octets = bytes(a ^ b for a, b in zip(host.packed, mask))
    return struct.pack(">BBH", 0, 1 if host.version == 4 else 2, port) + octets


def encoded(kind, word, identity):
    if kind == ERROR_CODE:
        code, _, phrase = word.partition(":")
        phrase = plain(phrase)
        if not 300 <= int(code) <= 699 or len(phrase) > 763:
            raise Refused
        return struct.pack(">HBB", 0, *divmod(int(code), 100)) + phrase
    if kind in XORED + PLAIN:
        return encoded_address(word, COOKIE + identity if kind in XORED else bytes(16))
    if kind in (PASSWORD_ALGORITHM, PASSWORD_ALGORITHMS):
        return b"".join(struct.pack(">HH", {"MD5": 1, "SHA256": 2}[one], 0)
                        for one in word.split(",") if one != "-")
    if kind == UNKNOWN:
        return b"".join(struct.pack(">H", one) for one in types_of(word))
    if kind in UNSIGNED:
        size, unused = UNSIGNED[kind]
        return int(word).to_bytes(size, "big") + bytes(unused)
    if kind in FAMILIES:
        return bytes(({"IPv4": 1, "IPv6": 2}[word], 0, 0, 0))
    if kind == 0x18:
        return b"\x80" if word == "yes" else b"\0"
    value = plain(word)
    if kind in LIMITS and len(value) > LIMITS[kind]:
        raise Refused
    return value


def plain(word):
    return b"" if word == "-" else bytes.fromhex(word)


def types_of(word):
    return [] if word == "-" else [int(one, 16) for one in word.split(",")]
