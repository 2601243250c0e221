"""The answers of tests/transcripts in the words of the suite: no names of refusals, one
spelling of an algorithm, and signed messages by their meaning."""

import reading
from grammar import shown_time, unhex
from spelling import begins_with_digit
from stage import TELLING

REFUSALS = {
    "Truncated", "NotStun", "TooLarge", "TooSmall", "TooShort", "IntegrityFailed", "NotAllowed",
    "InvalidAttributeData", "AttributeExists", "MessageIntegrityExists", "Unauthorized",
    "BadRequest", "StaleNonce", "UnsupportedFeature", "ProtocolViolation", "AlreadyInProgress",
    "WrongAttributeImplementation", "Closed", "header,",
}
# Calls that only tell what a peer has no word for.
OURS = TELLING + (
    "agent built", "agent is-validated", "agent peers", "agent request", "agent sends",
    "client algorithm", "client signs-in", "client signs-length", "short-term credentials",
    "short-term key", "short-term signs-in", "short-term signs-length", "short-term size",
)
# Calls that tell a setting, and change it if they have a word more.
SETTINGS = ("client hashes", "client user", "server expiry", "server hashes")
FAMILIES = ("message", "attribute", "digest", "reply", "nonce", "secret", "write")
WORDS = {"true": "yes", "false": "no"}


def name_of(words):
    """The two words of a call, without its time."""
    words = words[1:] if begins_with_digit(words[0]) or words[0] == "max" else words
    return " ".join(words[:2])


def is_telling(words):
    """Whether a call changes nothing that is played on."""
    name = name_of(words)
    if name in SETTINGS and words[-1] != name.split()[-1]:
        return False
    return name in OURS or name.split()[0] in FAMILIES


def plainly(answer):
    """An answer without the names of this library."""
    first = answer.split()[0] if answer else ""
    if first == "MissingAttribute":
        return "none"
    if first in REFUSALS:
        return "refused"
    answer = answer.replace("Sha256", "sha256").replace("Sha1", "sha1")
    return "resend" if answer.startswith("resend") else WORDS.get(answer, answer)


def merged(pairs):
    """`20 Truncated; 88 header, Truncated` as `108 refused`."""
    counted = []
    for count, answer in pairs:
        answer = plainly(answer)
        if counted and counted[-1][1] == answer:
            counted[-1][0] += int(count)
        else:
            counted.append([int(count), answer])
    return "; ".join(f"{count} {answer}" for count, answer in counted)


def wanted_of(stage, line, came):
    """What a subject is to answer. Of a message that means what is written, what came."""
    if line.answer is None or line.answer == "":
        return came if came in (None, "done") else line.answer
    if name_of(line.words) in ("client signs", "short-term signs") and len(line.answer) >= 40:
        found = reading.difference(stage.reply or b"", unhex(line.answer), stage.secret)
        return came if found is None else f"a message without: {found}"
    if name_of(line.words) in ("message prefixes", "message tails"):
        return merged([one.split(" ", 1) for one in line.answer.split("; ")])
    plain = plainly(line.answer)
    if name_of(line.words) in ("digest key", "message type") and plain == "none":
        return "refused"
    # The library asks for a poll in an hour where nothing is awaited.
    if came == "idle" and plain == "wait " + shown_time(stage.now + 3600 * 10**9):
        return came
    # Whether a value is refused or is none of a type is one thing to a reader of that type.
    if name_of(line.words) == "attribute reads" and {plain, came} == {"none", "refused"}:
        return came
    return plain
