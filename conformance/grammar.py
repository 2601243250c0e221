"""The words of the suite's files (GRAMMAR.md): paragraphs, messages, and the values of attributes.

What transcripts and the suite have in common comes from tests/spelling.py. All bytes are spelled by
Python alone: hashlib, hmac and zlib."""

import os
import re
import struct
import sys

TOP = os.path.dirname(os.path.dirname(os.path.abspath(__file__)))
sys.path.append(os.path.join(TOP, "tests"))

import spelling
import stun
from spelling import Words, address, address_text, attribute_type, id_of, nanos, number, text, unhex

# The form of a value, by the type of its attribute (GRAMMAR.md, "Values").
FORMS = {
    "text": {"USERNAME": 0x0006, "REALM": 0x0014, "NONCE": 0x0015, "ALTERNATE-DOMAIN": 0x8003,
             "SOFTWARE": 0x8022},
    "error": {"ERROR-CODE": 0x0009},
    "algorithms": {"PASSWORD-ALGORITHM": 0x001D, "PASSWORD-ALGORITHMS": 0x8002},
    "types": {"UNKNOWN-ATTRIBUTES": 0x000A},
    "address": {"MAPPED-ADDRESS": 0x0001, "ALTERNATE-SERVER": 0x8023},
    "hidden": {"XOR-MAPPED-ADDRESS": 0x0020, "XOR-PEER-ADDRESS": 0x0012,
               "XOR-RELAYED-ADDRESS": 0x0016},
    "channel": {"CHANNEL-NUMBER": 0x000C},
    "number": {"PRIORITY": 0x0024, "LIFETIME": 0x000D},
    "tiebreaker": {"ICE-CONTROLLED": 0x8029, "ICE-CONTROLLING": 0x802A},
    "protocol": {"REQUESTED-TRANSPORT": 0x0019},
    "family": {"REQUESTED-ADDRESS-FAMILY": 0x0017, "ADDITIONAL-ADDRESS-FAMILY": 0x8000},
    "parity": {"EVEN-PORT": 0x0018},
    "nothing": {"USE-CANDIDATE": 0x0025, "DONT-FRAGMENT": 0x001A},
    "bytes": {"MESSAGE-INTEGRITY": 0x0008, "MESSAGE-INTEGRITY-SHA256": 0x001C, "USERHASH": 0x001E,
              "DATA": 0x0013, "RESERVATION-TOKEN": 0x0022, "FINGERPRINT": 0x8028},
}
TYPES = {name: kind for form in FORMS.values() for name, kind in form.items()}
FORM_OF = {kind: form for form, names in FORMS.items() for kind in names.values()}
CLASSES = ("request", "indication", "success", "error")
ALGORITHMS = {1: "MD5", 2: "SHA256"}
FAMILIES = {"IPv4": 1, "IPv6": 2}
# How many bytes the number of a form has, and how many that are not used follow it.
SIZES = {"channel": (2, 2), "number": (4, 0), "tiebreaker": (8, 0), "protocol": (1, 3)}


# ---- Words.


def type_of(word):
    return TYPES[word] if word in TYPES else attribute_type(word)


def types_of(word):
    return [] if word == "-" else [type_of(one) for one in word.split(",")]


def yes_or_no(word):
    if word not in ("yes", "no"):
        raise Words(word)
    return word


def shown_text(value):
    """A text in a word, or in several if it has spaces."""
    words = value.decode()
    if len(words) > 3 and words == words[0] * len(words):
        return f"{words[0]}*{len(words)}"
    return words or "-"


def shown_time(moment):
    if moment >= spelling.FOREVER:
        return "max"
    return f"{moment // 10**6}ms" if moment % 10**6 == 0 else f"{moment}ns"


def hexadecimal(value):
    return value.hex() or "-"


def from_hexadecimal(word):
    return b"" if word == "-" else unhex(word)


# ---- The value of an attribute: from a file to a subject, and back.


def plain(form, word):
    """A file's word for a value, as the word that a subject is given."""
    if form == "text":
        return hexadecimal(text(word))
    if form == "error":
        code, colon, phrase = word.partition(":")
        phrase = text(phrase if colon else spelling.PHRASES.get(code, "-"))
        return f"{number(code)}:{hexadecimal(phrase)}"
    if form == "types":
        return ",".join(f"0x{kind:04x}" for kind in types_of(word)) or "-"
    return word


def readable(kind, came):
    """What a subject says of a value, in the words of a file."""
    form = FORM_OF.get(kind, "bytes")
    if form == "text":
        return shown_text(from_hexadecimal(came))
    if form == "error":
        code, _, phrase = came.partition(":")
        phrase = from_hexadecimal(phrase)
        return f"{code} {shown_text(phrase)}" if phrase else code
    return came


# ---- Messages.


class Spelling(spelling.Spelling):
    """A message in the making, with each attribute of the suite. `kept` are the values that `$NAME`
    stands for."""

    def __init__(self, kept, class_number=0, message=None):
        super().__init__(class_number, message)
        self.kept = kept

    def add_word(self, word):
        name, equals, value = word.partition("=")
        if word == "FP":
            self.attributes = stun.fingerprinted(self.header() + self.attributes)[20:]
        elif name == "ID" and value.startswith("$"):
            self.id = self.kept_value(value[1:])
        elif value.startswith("$"):
            self.add(type_of(name), self.kept_value(value[1:]))
        elif name == "METHOD":
            method = int.from_bytes(unhex(value[2:].zfill(4)), "big")
            self.kind = self.kind & 0x0110 | type_bits(method)
        elif equals and name in TYPES:
            is_spelled = not value.startswith("0x") or name == "UNKNOWN-ATTRIBUTES" and "," in value
            self.add(TYPES[name], self.value_of(name, value) if is_spelled else unhex(value[2:]))
        else:
            super().add_word(word)

    def kept_value(self, name):
        if name not in self.kept:
            raise Words("$" + name)
        return self.kept[name]

    def value_of(self, name, value):
        form = FORM_OF.get(TYPES.get(name), "bytes")
        if form == "hidden":
            return super().value_of("XOR-MAPPED-ADDRESS", value)
        if form == "address":
            octets, port = address(value)
            return struct.pack(">BBH", 0, 1 if len(octets) == 4 else 2, port) + octets
        if form == "types":
            return b"".join(struct.pack(">H", kind) for kind in types_of(value))
        if form in SIZES:
            size, unused = SIZES[form]
            return number(value).to_bytes(size, "big") + bytes(unused)
        if form == "family":
            return bytes((FAMILIES[value], 0, 0, 0))
        if form == "parity":
            return b"\x80" if yes_or_no(value) == "yes" else b"\0"
        if form in ("text", "bytes"):
            return text(value) if form == "text" else from_hexadecimal(value)
        return b"" if form == "nothing" else super().value_of(name, value)


def type_bits(method):
    """The bits of a method in a message type (section 5)."""
    return (method & 0xF80) << 2 | (method & 0x70) << 1 | method & 0xF


def message(words, kept, meanings):
    """The message that the words spell."""
    if words[:1] and words[0] in CLASSES:
        spelled = Spelling(kept, CLASSES.index(words[0]))
        spelled.add_words(words[1:], meanings)
        return spelled.finish()
    if words[1:2] == ["with"] and words[0] in kept:
        spelled = Spelling(kept, message=kept[words[0]])
        spelled.add_words(words[2:], meanings)
        return spelled.finish()
    if words[1:2] == ["cut"] and words[0] in kept:
        return kept[words[0]][:number(words[2])]
    return spelling.message(words, kept, meanings)


def read_words(words, meanings):
    """The words with each `@NAME` replaced by what it stands for."""
    for word in words:
        if word.startswith("@") and word not in meanings:
            raise Words(word)
        yield from meanings[word] if word.startswith("@") else [word]


# ---- Files.

MARK = re.compile(r"(MUST|CHOICE) \S.*")


class Line:
    """A call, and its answer if one is written."""

    def __init__(self, at, raw):
        self.at, self.raw = at, raw
        call, arrow, answer = raw.partition(" ->")
        self.words, self.answer = call.split(), answer.strip() if arrow else None


class Paragraph:
    def __init__(self, at):
        self.at, self.name, self.mark, self.title, self.lines = at, None, None, "", []

    def add(self, at, raw):
        if raw.startswith("#"):
            self.title = self.title or raw.lstrip("# ")
        elif MARK.fullmatch(raw):
            self.mark = raw
        elif raw.endswith(":") and not self.lines and self.name is None:
            self.name = raw[:-1]
            self.title = self.title or self.name
        else:
            self.lines.append(Line(at, raw))


class File:
    """The paragraphs of a file, and the names that it defines."""

    def __init__(self, path, whole):
        self.path, self.paragraphs, self.meanings = path, [], {}
        now = None
        for at, raw in enumerate(whole.split("\n"), 1):
            if not raw.strip():
                now = None
                continue
            if now is None:
                now = Paragraph(at)
                self.paragraphs.append(now)
            if raw.startswith("@"):
                name, *words = raw.split()
                self.meanings[name] = words
            else:
                now.add(at, raw)
        # One without a title goes on with that of the one before.
        for before, paragraph in zip(self.paragraphs, self.paragraphs[1:]):
            paragraph.title = paragraph.title or before.title

    def named(self, name):
        for paragraph in self.paragraphs:
            if paragraph.name == name:
                return paragraph
        raise Words(f"like {name}")


def read_file(path):
    with open(path, encoding="utf-8") as file:
        return File(path, file.read())
