"""The calls of the suite's files: what each asks of a subject, and how its answer is written."""

import base64

import grammar
import reading
import spelling
from grammar import Words, from_hexadecimal, hexadecimal, nanos, number, text
from sessions import Checks, Transactions
from subject import Left, Ours, Refused

HERE = "10.0.0.1:12345"
ALGORITHM_WORDS = {"sha1": 1, "sha256": 2}
# What RFC 8489 added to RFC 5389.
NEW_TYPES = (0x001C, 0x001D, 0x001E, 0x8002, 0x8003)
FEATURES = ("auto", "required", "disabled")


def algorithm(word):
    if word not in ALGORITHM_WORDS:
        raise Words(word)
    return word


def runs(answers):
    """Equal answers in a row, counted."""
    counted = []
    for answer in answers:
        if counted and counted[-1][1] == answer:
            counted[-1][0] += 1
        else:
            counted.append([1, answer])
    return "; ".join(f"{count} {answer}" for count, answer in counted)


class Messages:
    """Level 0: what is read, and keys."""

    def message_reads(self, *words):
        return self.read(self.message(words))

    def read(self, data):
        try:
            words = self.ask("read", hexadecimal(data))
        except Refused:
            return "refused"
        name, method, identity = words.split()
        response = " response" if name in ("success", "error") else ""
        return f"0x{data[:2].hex()} {name}{response} {method} id {identity}, {len(data)} bytes"

    def message_prefixes(self, *words):
        data = self.message(words)
        return runs(self.read(data[:end]) for end in range(len(data)))

    def message_tails(self, count, *words):
        data = self.message(words)
        return runs(self.read(data + bytes(more)) for more in range(1, number(count) + 1))

    def message_attributes(self, *words):
        return self.ask("attributes", hexadecimal(self.message(words)))

    def message_attribute(self, name, *words):
        return self.attribute(name, self.message(words))

    def attribute(self, name, data):
        kind = reading.type_word(name)
        came = self.ask("attribute", f"0x{kind:04x}", hexadecimal(data))
        try:
            is_raw = came == "none" or name.startswith("0x")
            return came if is_raw else grammar.readable(kind, came)
        except UnicodeDecodeError:
            if "raw-texts" in self.claims:
                raise Left("a text that is not UTF-8") from None
            raise

    def message_verifies(self, secret, *words):
        data = self.message(words)
        present = {kind for kind, _, _ in spelling.visible(data)}
        key = reading.key_for(secret, 0x001C if 0x001C in present else 0x0008)
        return self.ask("verify", hexadecimal(key), hexadecimal(data))

    def message_fingerprint(self, *words):
        data = self.spelled(words)
        try:
            return self.ask("fingerprint", hexadecimal(data))
        except Refused:
            # Who checks FINGERPRINT while reading refuses a message with a wrong one whole.
            return "invalid" if reading.is_message(data) else "refused"

    def message_unknown(self, known, *words):
        return self.ask("unknown", grammar.plain("types", known),
                        hexadecimal(self.message(words)))

    def message_frame(self, kind, *words):
        """The length of the first message in the bytes of a stream: `stun`, `turn` or `packet`."""
        if kind not in ("stun", "turn", "packet"):
            raise Words(kind)
        return self.ask("frame", kind, hexadecimal(self.message(words)))

    def digest_key(self, name, *words):
        name = algorithm(name)
        return self.ask("key", name, *(hexadecimal(spelling.blob(word)) for word in words))

    def digest_userhash(self, *words):
        return self.ask("userhash", *(hexadecimal(text(word)) for word in words))

    def attribute_reads(self, name, *words):
        return self.attribute(name, self.message(["request", *words]))


class Writing:
    """Level 1: what is written."""

    def message_type(self, name, method):
        method = "0x001" if method == "binding" else method
        data = self.written("begin", name, method, "0x" + "00" * 11 + "01")
        told = self.read(data).partition(" id ")[0]
        return told + (", binding" if int(method, 16) == 1 else "")

    def written(self, call, *words):
        return from_hexadecimal(self.ask(call, *words))

    def added(self, data, word):
        """The message with the attribute of a word."""
        name, _, value = word.partition("=")
        if word == "FP":
            return self.written("add-fingerprint", hexadecimal(data))
        if name in ("MI", "MI256"):
            kind, used = (0x0008, "sha1") if name == "MI" else (0x001C, "sha256")
            self.secret = value
            return self.written("sign", hexadecimal(data), used,
                                hexadecimal(reading.key_for(value, kind)))
        kind = reading.type_word(name)
        value = value if name.startswith("0x") else self.value(kind, value)
        return self.written("add", hexadecimal(data), f"0x{kind:04x}", value)

    def value(self, kind, word):
        """A file's word for a value, as a subject is given it."""
        if kind == grammar.TYPES["USERHASH"] and ":" in word:
            return self.digest_userhash(*word.split(":"))
        if word.startswith("$"):
            return hexadecimal(self.kept[word[1:]])
        form = grammar.FORM_OF.get(kind, "bytes")
        if word.startswith("0x") and form != "types":
            return word[2:] or "-"
        return grammar.plain(form, word)

    def begun(self, wanted):
        kind = int.from_bytes(wanted[:2], "big")
        method = kind & 0xF | kind >> 1 & 0x70 | kind >> 2 & 0xF80
        return self.written("begin", reading.class_of(wanted), f"0x{method:03x}",
                            "0x" + wanted[8:20].hex())

    def write_message(self, *words):
        """What the subject writes, against what the player spells."""
        wanted, self.secret, self.lacking = self.message(words), None, None
        data = self.begun(wanted)
        for word in grammar.read_words(words[1:], self.meanings):
            if word.partition("=")[0] not in ("ID", "METHOD"):
                data = self.added(data, word)
        self.reply = data
        found = reading.difference(data, wanted, self.secret)
        if found is None and not self.is_padded_well(data):
            found = "padding that is not zeros"
        return f"differs: {found}" if found else "equal"

    def is_padded_well(self, data):
        """RFC 8489 asks for zeros, RFC 5389 for any bytes."""
        return "rfc8489" not in self.claims or reading.with_zeros(data) == data

    def write_420(self, known, *words):
        """The response to a request with unknown attributes. A subject that refuses a message that
        is no request has no response to it."""
        try:
            came = self.ask("refuse-unknown", grammar.plain("types", known),
                            hexadecimal(self.message(words)))
        except Refused:
            came = "none"
        return self.answered(came)

    def one_attribute(self, words):
        """A request with one attribute, and its type. `ID=` may stand before it and after it."""
        words = sorted(grammar.read_words(words, self.meanings),
                       key=lambda word: not word.startswith("ID="))
        data = self.begun(self.message(["request", *words[:-1]]))
        return self.added(data, words[-1]), reading.type_word(words[-1].partition("=")[0])

    def attribute_writes(self, *words):
        data = self.one_attribute(words)[0]
        return (data if "rfc8489" in self.claims else reading.with_zeros(data))[20:].hex()

    def attribute_makes(self, *words):
        """The value that is read back from what the subject wrote."""
        data, kind = self.one_attribute(words)
        value = reading.value_in(data, kind)
        is_raw = words[-1].startswith("0x")
        return hexadecimal(value) if is_raw else reading.shown(kind, value, data)

    # ---- Short-term credentials (section 9.1).

    def short_term_new(self):
        self.password = None

    def short_term_password(self, name, *words):
        self.password = algorithm(name), " ".join(text(word).decode() for word in words)

    def short_term_hears(self, *words):
        if self.password is None:
            raise Ours("short-term hears without a password")
        return self.ask("verify", hexadecimal(self.password[1].encode()),
                        hexadecimal(self.message(words)))

    def short_term_signs(self, *words):
        if self.password is None:
            raise Ours("short-term signs without a password")
        key = self.password[1].encode()
        self.secret = "key:" + key.hex()
        return self.answered(self.ask("sign", hexadecimal(self.message(words)), self.password[0],
                                      hexadecimal(key)))


class Replies:
    """What the player reads in the last message that the subject wrote."""

    def answered(self, came):
        self.lacking = None
        self.reply = None if came == "none" else from_hexadecimal(came)
        return reading.told(self.reply)

    def last(self):
        if self.lacking is not None:
            raise Left(self.lacking)
        if self.reply is None or not reading.is_message(self.reply):
            raise Words("reply")
        return self.reply

    def reply_has(self, *names):
        """The value of an attribute. Of several names, whether all are there."""
        if "other-address" in self.claims and "XOR-MAPPED-ADDRESS" in names:
            raise Left("the address that it is asked from")
        values = [reading.value_in(self.last(), reading.type_word(name)) for name in names]
        if len(names) > 1:
            return "no" if None in values else "yes"
        kind = reading.type_word(names[0])
        return "none" if values == [None] else reading.shown(kind, values[0], self.last())

    def reply_verifies(self, secret):
        return reading.verified(self.last(), secret)

    def reply_fingerprint(self):
        return reading.fingerprint(self.last())

    def reply_is_for(self, *words):
        """Whether it has the transaction id and the method of a request."""
        request = self.message(words)
        is_same = [one[8:20] + bytes((one[0] & 0x3E, one[1] & 0xEF)) for one in
                   (self.last(), request)]
        return "yes" if is_same[0] == is_same[1] else "no"

    def reply_ends_with(self):
        kinds = [kind for kind, _, _ in spelling.attributes_of(self.last())]
        return reading.name_of(kinds[-1]) if kinds else "none"

    def reply_equals(self, *words):
        """Whether it has the bytes of a message."""
        return "yes" if self.last() == self.message(words) else "no"

    def reply_bits(self):
        """The security bits of its nonce, as sent (section 9.2): those of features 0 and 1."""
        nonce = reading.value_in(self.last(), grammar.TYPES["NONCE"]) or b""
        bits = security_bits(nonce)
        number = int.from_bytes(bits or b"", "big")
        named = [name for name, mask in FEATURE_BITS.items() if number & mask]
        return " ".join(named) or "none"

    def reply_cookie(self):
        """Whether its nonce begins with the nonce cookie (section 9.2)."""
        if "rfc8489" not in self.claims:
            raise Left("RFC 8489")
        nonce = reading.value_in(self.last(), grammar.TYPES["NONCE"]) or b""
        return "no" if security_bits(nonce) is None else "yes"

    def reply_repeats(self, name, kept):
        """Whether it has an attribute with a value that was kept."""
        if kept not in self.kept:
            raise Words(kept)
        value = reading.value_in(self.last(), reading.type_word(name))
        return "yes" if value == self.kept[kept] else "no"


# The security features of a nonce (section 18.1): bit 0, bit 1, and the rest.
FEATURE_BITS = {"algorithms": 0x800000, "hashes": 0x400000, "others": 0x3FFFFF}


def security_bits(nonce):
    """The three bytes after the nonce cookie, or None."""
    if not nonce.startswith(b"obMatJos2") or len(nonce) < 13:
        return None
    try:
        return base64.b64decode(nonce[9:13], validate=True)
    except ValueError:
        return None


def with_bits(nonce, names):
    """The nonce with other security bits, by their names, or `none`."""
    if security_bits(nonce) is None:
        raise Left("a nonce without security bits")
    number = 0
    for name in names:
        if name != "none" and name not in FEATURE_BITS:
            raise Words(name)
        number |= FEATURE_BITS.get(name, 0)
    return nonce[:9] + base64.b64encode(number.to_bytes(3, "big")) + nonce[13:]


class Credentials:
    """Level 2: a server and a client with long-term credentials."""

    def supports(self, who, word, more):
        listed = self.supported.get(who, ["sha1"]) if more else []
        self.supported[who] = sorted({*listed, algorithm(word)})
        return self.done(f"{who}-algorithms", ",".join(self.supported[who]))

    def done(self, call, *words):
        came = self.ask(call, *words)
        return None if came == "done" else came

    def server_new(self, *words):
        return self.done("server-new", hexadecimal(b" ".join(map(text, words))))

    def server_support(self, word):
        return self.supports("server", word, True)

    def server_support_only(self, word):
        return self.supports("server", word, False)

    def server_hashes(self, word):
        return self.done("server-hashes", "no" if word == "disabled" else "yes")

    def server_lifetime(self, word):
        return self.done("server-lifetime", nanos(word) // 10**9)

    def server_add_user(self, name, password):
        return self.done("server-add-user", hexadecimal(text(name)), hexadecimal(text(password)))

    def server_remove_user(self, name):
        return self.done("server-remove-user", hexadecimal(text(name)))

    def server_hears(self, *words):
        """Its response to a datagram."""
        came = self.ask("server-hears", self.here, self.now // 10**9,
                        hexadecimal(self.message(words)))
        return self.answered(came)

    def server_accepts(self, *words):
        """Whether its response is a success, whatever else it is."""
        return "yes" if self.server_hears(*words) == "success" else "no"

    def server_fingerprint(self):
        return self.done("server-fingerprint")

    def client_fingerprint(self):
        return self.done("client-fingerprint")

    # ---- A server of short-term credentials (section 9.1.3).

    def short_server_new(self):
        return self.done("short-server-new")

    def short_server_add_user(self, name, password):
        return self.done("short-server-add-user", hexadecimal(text(name)),
                         hexadecimal(text(password)))

    def short_server_hears(self, *words):
        return self.answered(self.ask("short-server-hears", self.here,
                                      hexadecimal(self.message(words))))

    def short_server_redirects(self, *places):
        return self.redirects("short-server", places)

    def server_redirects(self, *places):
        return self.redirects("server", places)

    def redirects(self, who, places):
        """From now on each accepted request is sent to another server (section 10)."""
        for place in places:
            spelling.address(place)
        return self.done(who + "-redirects", *places)

    # ---- A server without credentials.

    def open_server_new(self):
        return self.done("open-server-new")

    def open_server_fingerprint(self):
        return self.done("open-server-fingerprint")

    def open_server_hears(self, *words):
        return self.answered(self.ask("open-server-hears", self.here,
                                      hexadecimal(self.message(words))))

    def client_new(self):
        self.user = None
        return self.done("client-new")

    def client_user(self, name=None, password=None):
        if name is None:
            raise Ours("client user")
        self.user = name, password
        return self.done("client-user", hexadecimal(text(name)), hexadecimal(text(password)))

    def client_short_term(self, name, password):
        return self.done("client-short-term", hexadecimal(text(name)),
                         hexadecimal(text(password)))

    def client_stream(self):
        return self.done("client-stream")

    def client_hashes(self, word=None):
        if word is None:
            raise Ours("client hashes")
        if word not in FEATURES:
            raise Words(word)
        return self.done("client-hashes", word)

    def client_support(self, word):
        return self.supports("client", word, True)

    def client_support_only(self, word):
        return self.supports("client", word, False)

    # ---- A client that sends its own requests, with transaction IDs of its own.

    def client_asks(self, *words):
        """The first message that it sends for a request, whose ID it chooses."""
        return self.sent(self.ask("client-asks", self.now, hexadecimal(self.message(words))))

    def client_takes(self, *words):
        return self.ask("client-takes", self.now, hexadecimal(self.message(words)))

    def client_sends(self):
        """Whether it has a message to send now."""
        return "yes" if self.client_next() == "request" else "no"

    def client_next(self):
        """The next message that it sends, or how its request has ended."""
        came = self.ask("client-next", self.now)
        if not came.startswith("result "):
            return self.sent(came)
        self.lacking = self.reply = None
        return came

    def sent(self, came):
        told = self.answered(came)
        if self.reply is not None:
            self.kept["id"] = self.reply[8:20]
        return told

    def client_hears(self, *words):
        return self.ask("client-hears", hexadecimal(self.message(words)))

    def client_signs(self, *words):
        told = self.answered(self.ask("client-signs", hexadecimal(self.message(words))))
        realm = self.reply and reading.value_in(self.reply, grammar.TYPES["REALM"])
        if self.user and realm is not None:
            name, password = (text(word).decode() for word in self.user)
            self.secret = f"{name}:{realm.decode()}:{password}"
        return told


class Stage(Messages, Writing, Replies, Credentials, Transactions, Checks):
    """What a paragraph is played on: the subject, the time, an address, and what is kept."""

    def __init__(self, asker, meanings):
        self.ask, self.claims, self.meanings = asker.ask, asker.claims, meanings
        self.now, self.here = 0, HERE
        self.kept, self.supported = {}, {}
        self.reply = self.user = self.password = self.secret = None
        self.lacking = None  # the call that the subject lacks, by which `reply` is left out
        asker.subject.reset()

    def message(self, words):
        """The message that the words spell, if the subject reads it with a FINGERPRINT like its."""
        data = self.spelled(words)
        if "fingerprint-first" in self.claims and reading.is_message(data):
            if reading.fingerprint(data) == "invalid":
                raise Left("a wrong FINGERPRINT")
        return data

    def spelled(self, words):
        """The message that the words spell, if the subject claims to know what is in it."""
        data = grammar.message(list(words), self.kept, self.meanings)
        if "rfc8489" not in self.claims and reading.is_message(data):
            if any(kind in NEW_TYPES for kind, _, _ in spelling.attributes_of(data)):
                raise Left("RFC 8489")
        return data

    def answer(self, words):
        """What a call answers, or None if it answers nothing."""
        words = list(words)
        if spelling.begins_with_digit(words[0]) or words[0] == "max":
            self.now = nanos(words.pop(0))
        if words[1:2] == ["="]:
            return self.keep(words[0], words[2:])
        if words[0] == "from":
            self.here = words[1]
            return None
        method = getattr(self, "_".join(words[:2]).replace("-", "_"), None)
        if method is None or len(words) < 2:
            raise Ours(" ".join(words[:2]))
        try:
            return method(*words[2:])
        except Refused:
            return "refused"
        except Left as left:
            if words[0] not in ("message", "attribute", "digest", "reply"):
                self.lacking = str(left)
            raise
        except TypeError as error:
            if "positional argument" not in str(error):
                raise
            raise Words(" ".join(words)) from None

    def keep(self, name, words):
        """Keeps a message, or a value of the last one that the subject wrote."""
        if words == ["reply"]:
            self.kept[name] = self.last()
        elif words[:1] == ["reply"]:
            value = reading.value_in(self.last(), reading.type_word(words[1]))
            if value is None:
                raise Words(words[1])
            if words[2:3] == ["bits"] and words[3:]:
                value = with_bits(value, words[3:])
            elif words[2:]:
                raise Words(" ".join(words))
            self.kept[name] = value
        elif words[0] in ("client", "server", "short-term", "agent", "write", "meet"):
            raise Ours("a kept answer of " + words[0])
        else:
            self.kept[name] = self.message(words)
