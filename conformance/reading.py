"""How the player itself reads what a subject wrote, so that it can be compared by its meaning."""

import struct

import grammar
import spelling
import stun
from grammar import Words

BY_NAME = {kind: name for name, kind in grammar.TYPES.items()}
INTEGRITY = {0x0008: ("sha1", stun.SHA1), 0x001C: ("sha256", stun.SHA256)}


def is_message(data):
    """Whether the bytes are a message of whole attributes (sections 5 and 14)."""
    if len(data) < 20 or data[0] & 0xC0 or data[4:8] != spelling.COOKIE:
        return False
    if struct.unpack(">H", data[2:4])[0] != len(data) - 20 or len(data) % 4:
        return False
    place = 20
    while place < len(data):
        place += 4 + -(-struct.unpack_from(">H", data, place + 2)[0] // 4) * 4
    return place == len(data)


def class_of(data):
    kind = struct.unpack(">H", data[:2])[0]
    return grammar.CLASSES[(kind & 0x100) >> 7 | (kind & 0x10) >> 4]


def value_in(data, kind):
    """The value of the first visible attribute of a type, or None."""
    return next((value for one, _, value in spelling.visible(data) if one == kind), None)


def told(data):
    """A message in a few words: its class, and the code of an error."""
    if data is None:
        return "none"
    if not is_message(data):
        return "malformed"
    code = value_in(data, stun.ERROR_CODE)
    if class_of(data) == "error":
        return f"error {code[2] * 100 + code[3]}" if code and len(code) >= 4 else "malformed"
    return class_of(data)


def shown_address(value, mask):
    octets = bytes(one ^ other for one, other in zip(value[4:], mask))
    port = struct.unpack(">H", value[2:4])[0] ^ int.from_bytes(mask[:2], "big")
    return spelling.address_text(octets, port)


def shown(kind, value, data):
    """A value in the words of a file."""
    form = grammar.FORM_OF.get(kind, "bytes")
    if form == "text":
        return grammar.shown_text(value)
    if form == "error":
        phrase = value[4:]
        code = value[2] * 100 + value[3]
        return f"{code} {grammar.shown_text(phrase)}" if phrase else str(code)
    if form == "types":
        return ",".join(f"0x{one:04x}" for one, in struct.iter_unpack(">H", value)) or "-"
    if form in ("address", "hidden"):
        return shown_address(value, data[4:20] if form == "hidden" else bytes(16))
    if form == "algorithms":
        return ",".join(grammar.ALGORITHMS.get(one >> 16, f"{one >> 16}")
                        for one, in struct.iter_unpack(">I", value)) or "-"
    if form in grammar.SIZES:
        return str(int.from_bytes(value[:grammar.SIZES[form][0]], "big"))
    if form == "family":
        return {1: "IPv4", 2: "IPv6"}.get(value[0], "?")
    if form == "parity":
        return "yes" if value[0] & 0x80 else "no"
    return grammar.hexadecimal(value)


def key_for(word, kind):
    return spelling.key_of(word, INTEGRITY[kind][1])


def verified(data, word):
    """Which integrity attribute is right under a secret: the stronger, if both are visible."""
    present = {kind for kind, _, _ in spelling.visible(data)} & set(INTEGRITY)
    if not present:
        return "none"
    name, algorithm = INTEGRITY[max(present)]
    return name if stun.verifies(data, algorithm, key_for(word, max(present))) else "refused"


def fingerprint(data):
    if stun.has_right_fingerprint(data):
        return "valid"
    return "none" if value_in(data, stun.FINGERPRINT) is None else "invalid"


def parts(data):
    """The attributes without their padding; of digests and FINGERPRINT the type alone."""
    computed = (*INTEGRITY, stun.FINGERPRINT)
    return [(kind, None if kind in computed else value)
            for kind, _, value in spelling.attributes_of(data)]


def difference(came, wanted, word):
    """Why two messages say different things, or None. The secret is that of both."""
    if not is_message(came):
        return "malformed"
    if came[:2] + came[8:20] != wanted[:2] + wanted[8:20]:
        return f"header {came[:20].hex()}"
    if parts(came) != parts(wanted):
        if sorted(parts(came), key=str) != sorted(parts(wanted), key=str):
            return "attributes " + " ".join(f"0x{kind:04x}" for kind, _ in parts(came))
        present = [kind for kind, _ in parts(came)]
        if present != sorted(present, key=lambda kind: kind in (*INTEGRITY, stun.FINGERPRINT)):
            return "an attribute after MESSAGE-INTEGRITY"
    if word is not None and verified(came, word) != verified(wanted, word):
        return f"integrity {verified(came, word)}"
    if fingerprint(came) != fingerprint(wanted):
        return f"FINGERPRINT {fingerprint(came)}"
    return None


def with_zeros(data):
    """The message with zeros as padding (section 14)."""
    made = bytearray(data)
    for _, place, value in spelling.attributes_of(data):
        end = place + 4 + len(value)
        made[end:end + -len(value) % 4] = bytes(-len(value) % 4)
    return bytes(made)


def name_of(kind):
    return BY_NAME.get(kind, f"0x{kind:04x}")


def type_word(word):
    try:
        return grammar.type_of(word)
    except ValueError:
        raise Words(word) from None
