"""How transcripts word what the archives for C answer: refusals, verdicts, addresses, times and
types."""

import struct
import sys

from spelling import *

HOUR = 3600 * 10**9

# Refusals of stunp.h in the words of transcripts. STUNP_CLOSED comes before all other refusals of a
# call that writes, and also where nothing would be written. There the transcripts have
# MessageIntegrityExists, or another reason, or no refusal. Which type is in the way or missing C
# does not say. Two numbers are one word where the library tells TooLarge of a text and of a
# message, and IntegrityFailed of a message that is read and of one that is to be signed.
REFUSALS = {
    -1: "Truncated", -2: "NotStun", -3: "TooLarge", -4: "MissingAttribute",
    -5: "InvalidAttributeData", -6: "IntegrityFailed", -7: "NotAllowed", -8: "none", -9: "TooLarge",
    -10: "TooSmall", -11: "NotAllowed", -12: "Closed", -13: "AttributeExists", -14: "TooLarge",
    -15: "MissingAttribute", -16: "InvalidAttributeData", -17: "OutOfMemory", -18: "empty handle",
    -19: "full handle", -20: "AlreadyInProgress", -21: "ProtocolViolation", -22: "Unauthorized",
    -23: "BadRequest", -24: "StaleNonce", -25: "UnsupportedFeature",
    -28: "IntegrityFailed", -29: "wrong handle",
}
NO_MESSAGE = (-1, -2, -3)
VERDICTS = {1: "Sha1", 2: "Sha256", 3: "resend", 4: "resend Sha1", 5: "resend Sha256"}


class Left(Exception):
    """A call that the archives lack."""


def wide(address):
    """An address as play.c reads it."""
    octets, port = address
    return f"{octets.hex()}:{port}"


def address_in(raw):
    """The address in the bytes of a stunp_address."""
    port, length = struct.unpack_from("=HH", raw, 16)
    return raw[:length], port


def native(raw):
    return int.from_bytes(raw, sys.byteorder)


def span_text(count):
    return f"{count // 10**6}ms" if count % 10**6 == 0 else f"{count}ns"


def moment_text(moment):
    return "max" if moment == FOREVER else span_text(moment)


def shown(value):
    """A text as transcripts show it."""
    letters = value.decode("utf-8", "replace")
    if len(value) > 40 and value[0] < 128 and value == value[:1] * len(value):
        return f"{letters[0]}*{len(value)}"
    return letters or "-"


def name_of(words):
    return words[0] if words[:1] == ["memory"] else " ".join(words[:2])


def type_text(class_number, method):
    """The type of a message: its number, its class and its method (section 5)."""
    bits = (method & 0xF) | (method & 0x70) << 1 | (method & 0xF80) << 2
    bits |= (class_number & 1) << 4 | (class_number & 2) << 7
    response = " response" if class_number >= 2 else ""
    return f"0x{bits:04x} {list(CLASSES)[class_number]}{response} 0x{method:03x}"


def fits(name, came, written, now):
    """Whether an answer of the archives is the written one, as far as C says it."""
    if came == written or came == "Closed":
        return True
    if came in ("AttributeExists", "MissingAttribute"):
        return written.split()[0] == came
    if name == "agent request":
        return written.split(",")[0] == came
    if name == "agent poll" and written.startswith("wait "):
        # C polls again within an hour.
        return came == f"wait {moment_text(min(nanos(written[5:]), now + HOUR))}"
    if name == "agent counts":
        return came == (" ".join(part for part in written.split()
                                 if not part.startswith("outstanding=")) or "nothing")
    # `header,` says that the first twenty bytes are one, which C does not read alone.
    return name == "message reads" and written == f"header, {came}"
