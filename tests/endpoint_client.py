"""A model of a client as one value (RFC 8489, sections 6.2.1, 9.1 and 9.2.5). It is written as
endpoint_model.py says."""

import collections
import hashlib
import hmac
import struct

import spelling
import stun
from endpoint_messages import *
from spelling import Words
from wording import span_text

ALTERNATE_SERVER, ALTERNATE_DOMAIN = 0x8023, 0x8003
PEER = 0x0012
# What a client writes itself, what depends on the ID, and ERROR-CODE: no body has it.
RESERVED = {0x0006, 0x0008, 0x0009, 0x0012, 0x0014, 0x0015, 0x0016, 0x001C, 0x001D, 0x001E, 0x0020,
            0x8002, 0x8022, 0x8028}
# What must be understood and can be read: RFC 8489, 8656, 8445, 5780 and 6062.
READ = OWN | {0x000C, 0x000D, 0x0012, 0x0013, 0x0016, 0x0017, 0x0018, 0x0019, 0x001A, 0x0022,
              0x0024, 0x0025, 0x0003, 0x0026, 0x0027, 0x001B, 0x002A}
NUMBERS = {"sha1": stun.SHA1, "sha256": stun.SHA256}
FOREVER = 2**63

# A challenge: what decides how a request is signed.
Challenge = collections.namedtuple("Challenge", "realm nonce algorithms algorithm is_hashed")
# What a response comes to: believed and signed by; a challenge, which is answered; a refusal, by the
# challenge of the message (None) or by another one that asks for the same; a doubt, or else dropped
# because; or dropped because.
Believed = collections.namedtuple("Believed", "algorithm")
Anew = collections.namedtuple("Anew", "challenge")
Refused = collections.namedtuple("Refused", "challenge")
Doubted = collections.namedtuple("Doubted", "why")
Dropped = collections.namedtuple("Dropped", "why")
# For how many doubts, and for how many refusals by another challenge, a request turns to another
# message.
DOUBTS, OTHERS = 3, 2


class Message:
    """What is sent of a request under one ID."""

    def __init__(self, identity, signed_for, octets):
        self.identity, self.signed_for, self.octets = identity, signed_for, octets
        self.is_doubted = False
        # When it was sent, and how often it became the current one.
        self.sent, self.begun = [], 0

    def round_trip(self, now):
        """The time to a response now. Of a message that was sent again nobody knows which transmission
        is answered (RFC 6298, section 3), and so it is of one that the request has gone back to."""
        return now - self.sent[0] if len(self.sent) == self.begun == 1 else None


class Options:
    """How a request is sent that is not sent as its client says, and the address that answers it."""

    def __init__(self):
        self.is_signed, self.waits, self.source = True, None, None


class Request:
    def __init__(self, number, method, body, options):
        self.number, self.method, self.body = number, method, body
        self.options = options
        # The messages in the order in which they were sent first, the one that is sent again, the waits
        # that are left of that one, and when the first of them ends.
        self.messages, self.current = [], None
        self.waits, self.at = [], 0
        # How often another message became the current one, at all and for doubts, and what was dropped.
        self.turns, self.doubts, self.drops = 0, 0, []
        # Whether the current message was sent since it became the current one, whether it was refused
        # since it was sent last, and before, and how often a 401 by another challenge was answered.
        self.is_sent = self.is_refused = self.was_refused = False
        self.others = 0
        # When the first plan ends.
        self.until = 0

    def note_sending(self):
        """A refusal counts once for each time that the current message is sent."""
        self.was_refused |= self.is_refused
        self.is_sent, self.is_refused = True, False

    def note_turn(self):
        """What was refused before another message became the current one does not count."""
        self.is_sent = self.is_refused = self.was_refused = False

    def end_for(self, code):
        """How a challenge with this code ends the request: by a 401 the server refuses a signature."""
        is_signed = self.current.signed_for is not None
        return "Unauthorized" if is_signed and code == 401 else "TooManyChallenges"


class Settings:
    def __init__(self, server):
        self.server, self.kind, self.name, self.password = server, None, None, None
        self.algorithm, self.algorithms, self.hashes = None, {stun.SHA1, stun.SHA256}, "auto"
        self.waits, self.is_stream = (500 * 10**6, FOREVER, 7, 8 * 10**9), False
        self.most, self.accepts_unsigned, self.known = 6, False, set()
        self.software, self.has_fingerprint = None, False
        self.requires_fingerprint = False


def reading(message):
    """The first visible attribute of each type."""
    values = {}
    for kind, _, value in spelling.visible(message):
        values.setdefault(kind, value)
    return values


def entries_of(algorithms):
    """The entries of a list (section 14.11): number and parameters. None if they do not fill it."""
    entries, at = [], 0
    while at < len(algorithms):
        number, length = struct.unpack_from(">HH", algorithms.ljust(at + 4, b"\0"), at)
        end = at + 4 + length + -length % 4
        if end > len(algorithms):
            return None
        entries.append((number, algorithms[at + 4:at + 4 + length]))
        at = end
    return entries


def known_in(algorithms):
    """The numbers of a list that have no parameters."""
    return [number for number, parameters in entries_of(algorithms) if not parameters]


def security_bits(nonce):
    """The bits for password algorithms and for hashed names."""
    bits = bits_of(nonce)
    return 0 if bits is None else bits[0] & 0xC0


def is_weaker(challenge, other):
    """Whether one asks for less than the other: HMAC-SHA1 for HMAC-SHA256, or a name for its hash."""
    return (other.algorithm == stun.SHA256 and challenge.algorithm == stun.SHA1
            or other.is_hashed and not challenge.is_hashed)


def plain_address(value):
    """The address in a value that is not XORed (section 14.1)."""
    if value is None:
        return "none"
    return spelling.address_text(value[4:], int.from_bytes(value[2:4], "big"))


class ClientStage:
    """The lines `endpoint client ..`."""

    def __init__(self, stage):
        self.stage, self.settings, self.built = stage, None, None

    def call(self, name, words):
        if name == "server":
            self.settings = Settings(spelling.address(words[0]))
        elif self.settings is None:
            raise Words("no settings")
        elif name == "build":
            return self.build(words[0])
        elif name in ("options", "request", "hears", "polls", "round-trip", "cancel", "dropped",
                      "outstanding"):
            if self.built is None:
                raise Words("no client")
            return getattr(self, name.replace("-", "_"))(*words)
        else:
            self.set(name, words)
        return None

    def set(self, name, words):
        settings = self.settings
        if name == "long-term":
            settings.kind = "long"
            settings.name, settings.password = (spelling.text(word).decode() for word in words)
        elif name == "short-term":
            settings.kind, settings.algorithm = "short", NUMBERS[words[2]]
            settings.name, settings.password = (spelling.text(word).decode() for word in words[:2])
        elif name == "algorithms":
            settings.algorithms = {NUMBERS[one] for one in words[0].split(",") if one != "-"}
        elif name == "hashes":
            settings.hashes = words[0]
        elif name == "stream":
            settings.is_stream = True
        elif name == "retransmission":
            first, longest, sends, last = words
            settings.waits = (spelling.nanos(first), spelling.nanos(longest),
                              spelling.number(sends), spelling.nanos(last))
        elif name == "challenges":
            settings.most = spelling.number(words[0])
        elif name == "accepts-unsigned":
            settings.accepts_unsigned = True
        elif name == "understands":
            settings.known = {spelling.attribute_type(one) for one in words[0].split(",")}
        elif name == "software":
            settings.software = spelling.text(words[0])
        elif name == "fingerprint":
            settings.has_fingerprint = True
        elif name == "requires-fingerprint":
            settings.requires_fingerprint = True
        else:
            raise Words(name)

    def build(self, word):
        settings = self.settings
        if len((settings.name or "").encode()) > 513:
            return "NameTooLong"
        if len(settings.software or b"") > LIMIT:
            return "SoftwareTooLong"
        if not settings.algorithms:
            return "NoAlgorithm"
        seed = bytes.fromhex(word)
        self.built, self.seed = settings, spelling.drawn(seed)
        self.next_id, self.next_number = 0, 1
        # The outstanding requests, what is not sent yet of them, and how others have ended, by the
        # number of the request. The round trip of the end that was told last.
        self.requests, self.unsent, self.ended = {}, {}, {}
        self.trip = None
        # How the next request is sent.
        self.next_options = Options()
        # The challenge that new requests are signed for, whether a success has confirmed it, and
        # the one before that was confirmed.
        self.current, self.is_confirmed, self.confirmed = None, False, None
        return None

    # ---- Sending.

    def new_id(self):
        """The first 96 bits of the HMAC-SHA1 of a number under the seed."""
        number, self.next_id = self.next_id, self.next_id + 1
        return hmac.new(self.seed, struct.pack(">Q", number), hashlib.sha1).digest()[:12]

    def options(self, name, *words):
        """Of the next request."""
        if name == "unsigned":
            self.next_options.is_signed = False
        elif name == "retransmission":
            first, longest, sends, last = words
            self.next_options.waits = (spelling.nanos(first), spelling.nanos(longest),
                                       spelling.number(sends), spelling.nanos(last))
        elif name == "from":
            self.next_options.source = spelling.address(words[0])
        else:
            raise Words(name)

    def request(self, method, *words):
        options = self.next_options
        body, carrier = [], self.stage.message(["request", *words])
        for kind, _, value in spelling.attributes_of(carrier):
            # XOR-PEER-ADDRESS is written anew for each ID.
            if kind in RESERVED and kind != PEER:
                return "NotAllowed"
            body.append((kind, value))
        request = Request(self.next_number, int(method, 16), body, options)
        # After the first plan nothing is sent.
        request.until = self.stage.now + sum(self.waits(request))
        message = self.new_message(request, self.current if options.is_signed else None)
        if message is None:
            return "TooLarge"
        self.next_number += 1
        self.next_options = Options()
        self.requests[request.number] = request
        self.begin(request, message)
        return f"request {request.number}"

    def new_message(self, request, challenge):
        """Writes a message that is signed for a challenge, or None if it is too large."""
        before = self.next_id
        identity = self.new_id()
        octets = self.written(request, identity, challenge)
        if octets is None:
            self.next_id = before
            return None
        request.messages.append(Message(identity, challenge, octets))
        return request.messages[-1]

    def begin(self, request, message):
        """This message is the current one now. Its plan begins."""
        request.current, message.is_doubted = message, False
        message.begun += 1
        request.waits = self.waits(request)
        request.at = self.stage.now + request.waits[0]
        request.note_turn()
        self.unsent[request.number] = message.octets

    def waits(self, request):
        """How long a request waits after each of its transmissions (section 6.2.1). Over a stream it
        is sent once, and waits as long as all that together (section 6.2.2)."""
        first, longest, sends, last = request.options.waits or self.built.waits
        waits = [min(first << i, longest) for i in range(sends - 1)] + [last]
        return [sum(waits)] if self.built.is_stream else waits

    def written(self, request, identity, challenge):
        method = request.method
        kind = (method & 0xF) | (method & 0x70) << 1 | (method & 0xF80) << 2
        attributes = list(request.body)
        attributes = [(kind, self.peer(value, identity) if kind == PEER else value)
                      for kind, value in attributes]
        if self.built.software is not None:
            attributes.append((stun.SOFTWARE, self.built.software))
        key = algorithm = None
        if self.kind_of(request) == "short":
            attributes.append((stun.USERNAME, self.built.name.encode()))
            key, algorithm = self.built.password.encode(), self.built.algorithm
        elif challenge is not None:
            attributes += self.identity(challenge)
            key, algorithm = self.key_of(challenge), challenge.algorithm
        length = sum(4 + len(value) + -len(value) % 4 for _, value in attributes)
        length += 0 if key is None else {stun.SHA1: 24, stun.SHA256: 36}[algorithm]
        if length + 8 * self.built.has_fingerprint > 0xFFFF:
            return None
        message = stun.message(kind, attributes, identity)
        message = stun.signed(message, algorithm, key) if key is not None else message
        return stun.fingerprinted(message) if self.built.has_fingerprint else message

    def kind_of(self, request):
        """The kind of credentials that a request has."""
        return self.built.kind if request.options.is_signed else None

    def peer(self, value, identity):
        """The words of a body spell the address for ID 1."""
        octets = bytes(a ^ b for a, b in zip(value[4:], spelling.COOKIE + spelling.id_of("1")))
        return value[:4] + bytes(a ^ b for a, b in zip(octets, spelling.COOKIE + identity))

    def identity(self, challenge):
        name = self.built.name.encode()
        userhash = hashlib.sha256(name + b":" + challenge.realm).digest()
        attributes = [(stun.NONCE, challenge.nonce), (stun.REALM, challenge.realm),
                      (stun.USERHASH, userhash) if challenge.is_hashed else (stun.USERNAME, name)]
        if challenge.algorithms:
            attributes += [(stun.PASSWORD_ALGORITHMS, challenge.algorithms),
                           (stun.PASSWORD_ALGORITHM, struct.pack(">HH", challenge.algorithm, 0))]
        return attributes

    def key_of(self, challenge):
        return spelling.long_term_key(challenge.algorithm, self.built.name.encode(),
                                      challenge.realm, self.built.password.encode())

    # ---- What is to be done.

    def polls(self):
        """New messages come first, then those that are sent again, then ends: of several new ones
        or ends the one whose request was started first. After its first plan nothing is sent of a
        request: it ends instead."""
        if self.unsent:
            number = min(self.unsent)
            return self.hand_out(self.requests[number], self.unsent.pop(number))
        for request in self.by_identity():
            if len(request.waits) > 1 and request.at <= self.stage.now:
                # The next wait begins now, even if this transmission is late.
                request.waits.pop(0)
                request.at = self.stage.now + request.waits[0]
                return self.hand_out(request, request.current.octets)
        if self.ended:
            number = min(self.ended)
            how, self.trip = self.ended.pop(number)
            return f"{number} {how}"
        for request in self.by_identity():
            if request.at <= self.stage.now:
                return self.time_out(request)
        if not self.requests:
            return "wait"
        until = min(request.at for request in self.requests.values())
        return f"wait {span_text(until)}"

    def by_identity(self):
        return sorted(self.requests.values(), key=lambda request: request.current.identity)

    def hand_out(self, request, octets):
        if self.stage.now > request.until:
            return self.time_out(request)
        request.note_sending()
        request.current.sent.append(self.stage.now)
        return "sends " + told(octets)

    def time_out(self, request):
        self.step_back([message.signed_for for message in request.messages])
        self.take(request)
        self.trip = None
        return f"{request.number} timed out, {self.drops_of(request)} dropped"

    def take(self, request):
        del self.requests[request.number]
        self.unsent.pop(request.number, None)

    def end(self, request, how, trip=None):
        self.take(request)
        self.ended[request.number] = how, trip

    def round_trip(self):
        """Of the response that ended the request whose end was told last."""
        return "none" if self.trip is None else span_text(self.trip)

    def asked(self, word):
        """The outstanding request with this number, or None."""
        return self.requests.get(int(word))

    def cancel(self, word):
        request = self.asked(word)
        if request is None:
            return "no"
        self.end(request, "Cancelled")
        return "yes"

    def dropped(self, word):
        request = self.asked(word)
        return "none" if request is None else self.drops_of(request)

    def drops_of(self, request):
        if not request.drops:
            return "0"
        why, code = request.drops[-1]
        return f"{len(request.drops)} {why}" + (f" {code}" if code else "")

    def outstanding(self):
        return str(len(self.requests))

    # ---- What arrives.

    def hears(self, *words):
        message = self.stage.message(words)
        if not is_message(message)[0]:
            return "not ours"
        kind, identity = int.from_bytes(message[:2], "big"), message[8:20]
        if not kind & 0x110:
            return "not ours"
        if not kind & 0x100:
            is_ours = is_same(self.stage.source, self.built.server)
            return "indication" if is_ours else "not ours"
        method = (kind & 0xF) | (kind & 0xE0) >> 1 | (kind & 0x3E00) >> 2
        request, answered = self.answered(identity)
        if request is None or request.method != method:
            return "not ours"
        if not is_same(self.stage.source, request.options.source or self.built.server):
            return "not ours"
        judged = self.judged(request, answered, message)
        if isinstance(judged, Doubted):
            judged = self.doubted(request, judged.why)
        elif isinstance(judged, Refused) and judged.challenge is None:
            judged = self.refused(request, code_in(message))
        elif isinstance(judged, (Anew, Refused)):
            judged = self.anew(request, judged.challenge, isinstance(judged, Refused),
                               code_in(message))
        if isinstance(judged, Dropped):
            code = code_in(message) if kind & 0x10 else None
            request.drops.append((judged.why, code))
            return f"dropped {judged.why}"
        if isinstance(judged, Believed):
            if not kind & 0x10:
                self.confirm(answered.signed_for)
            is_current = answered is request.current
            trip = answered.round_trip(self.stage.now) if is_current else None
            self.end(request, self.result(message, judged.algorithm), trip)
        return "consumed"

    def answered(self, identity):
        """The request and the message with this ID."""
        for request in self.requests.values():
            for message in request.messages:
                if message.identity == identity:
                    return request, message
        return None, None

    def judged(self, request, message, response):
        built, before = self.built, message.signed_for
        fault = fingerprint_fault(response, built.requires_fingerprint)
        if fault:
            return Dropped(fault)
        kind = self.kind_of(request)
        if kind is None:
            return Believed(None)
        if kind == "short":
            algorithm = verified(response, built.password.encode())
            return Believed(algorithm) if algorithm == built.algorithm else Dropped("NotVerified")
        code = code_in(response) if response[1] & 0x10 else None
        if message is not request.current:
            return self.judged_earlier(before, response, code)
        if code not in (401, 438):
            return self.by_signature(before, response, code, "NotVerified")
        challenge = self.challenge_in(before, response, code)
        if challenge is None:
            return self.by_signature(before, response, code, "UnanswerableChallenge")
        if challenge == before:
            return Refused(None)
        if self.is_too_weak(challenge):
            return Dropped("WeakerChallenge")
        if before and code == 401 and challenge.realm == before.realm:
            if security_bits(challenge.nonce) == security_bits(before.nonce):
                return Refused(challenge)
        return Anew(challenge)

    def judged_earlier(self, before, response, code):
        """A response to an earlier message counts by its signature alone. No challenge counts."""
        algorithm = before and verified(response, self.key_of(before))
        if algorithm and code not in (401, 438):
            return Believed(algorithm)
        return Dropped("NotVerified")

    def by_signature(self, before, response, code, why):
        if before is None:
            if self.built.accepts_unsigned:
                return Believed(None)
            return Doubted(why) if code == 437 else Dropped(why)
        algorithm = verified(response, self.key_of(before))
        if algorithm:
            return Believed(algorithm)
        return Doubted(why) if code in (400, 437, 441) else Dropped(why)

    def is_too_weak(self, challenge):
        """Whether a challenge is weaker than what a success has confirmed."""
        confirmed = self.last_confirmed()
        return confirmed is not None and challenge is not None and is_weaker(challenge, confirmed)

    def challenge_in(self, before, response, code):
        """The challenge by the rule of section 9.2.5, or None if it is ignored."""
        values = reading(response)
        realm, nonce = values.get(stun.REALM), values.get(stun.NONCE)
        if any(text is None or len(text) > LIMIT for text in (realm, nonce)):
            return None
        algorithms = values.get(stun.PASSWORD_ALGORITHMS)
        if entries_of(algorithms or b"") is None:
            algorithms = None
        if algorithms is None and before and code == 438:
            if verified(response, self.key_of(before)):
                algorithms = before.algorithms
        bits = bits_of(nonce)
        may_hash = bits is not None and bits[0] & 0x40 != 0
        if self.built.hashes == "required" and not may_hash:
            return None
        if bits is not None and bits[0] & 0x80:
            listed = known_in(algorithms or b"")
            algorithm = next((one for one in listed if one in self.built.algorithms), None)
        else:
            algorithm = stun.SHA1 if stun.SHA1 in self.built.algorithms else None
            algorithms = b""
        if algorithm is None:
            return None
        return Challenge(realm, nonce, algorithms, algorithm,
                         may_hash and self.built.hashes != "disabled")

    def refused(self, request, code):
        """The challenge that the current message is signed for is dropped. The second one that counts
        ends the request, and so does the first if nothing is sent again."""
        if self.built.is_stream or request.was_refused:
            self.end(request, request.end_for(code))
            return None
        request.is_refused |= request.is_sent
        return Dropped("Refused")

    def anew(self, request, challenge, is_refusal, code):
        """Sends a request by its message for a challenge, or ends it if that was done too often. After
        the first plan of the request the challenge is dropped."""
        if self.stage.now > request.until:
            return Dropped("LateChallenge")
        if request.turns >= self.built.most or is_refusal and request.others >= OTHERS:
            self.end(request, request.end_for(code))
            return None
        message = next((one for one in request.messages if one.signed_for == challenge), None)
        message = message or self.new_message(request, challenge)
        if message is None:
            return Dropped("UnanswerableChallenge")
        request.others += is_refusal
        self.turn(request, message)
        return None

    def doubted(self, request, why):
        """An error without a signature casts doubt on the current message: another one takes its
        place, if there is one."""
        is_over = self.stage.now > request.until or request.turns >= self.built.most
        if is_over or request.doubts >= DOUBTS:
            return Dropped(why)
        before = request.current
        before.is_doubted = True
        message = self.undoubted(request) or self.instead(request)
        if message is None:
            before.is_doubted = False
            return Dropped(why)
        request.doubts += 1
        self.turn(request, message)
        return None

    def undoubted(self, request):
        """The last message that is neither in doubt nor too weak."""
        for message in reversed(request.messages):
            if not message.is_doubted and not self.is_too_weak(message.signed_for):
                return message
        return None

    def instead(self, request):
        """If there is none: an unsigned message in place of a signed one, or the last signed one,
        without all doubts."""
        if request.current.signed_for is not None:
            unsigned = (one for one in request.messages if one.signed_for is None)
            return next(unsigned, None) or self.new_message(request, None)
        for message in reversed(request.messages):
            if message.signed_for is not None and not self.is_too_weak(message.signed_for):
                for one in request.messages:
                    one.is_doubted = False
                return message
        return None

    def turn(self, request, message):
        """Another message of a request becomes the current one, and what it is signed for becomes what
        new requests are signed for."""
        request.turns += 1
        self.begin(request, message)
        if message.signed_for not in (None, self.current):
            if self.is_confirmed:
                self.confirmed = self.current
            self.current, self.is_confirmed = message.signed_for, False

    def last_confirmed(self):
        return self.current if self.is_confirmed else self.confirmed

    def confirm(self, challenge):
        """A success confirms the challenge of its message if new requests are signed for that one, or
        if it is stronger than what was confirmed. What new requests are signed for gives way to it
        if it is weaker."""
        if challenge is None:
            return
        if challenge == self.current:
            self.is_confirmed, self.confirmed = True, None
            return
        before = self.last_confirmed()
        if before and (is_weaker(challenge, before) or not is_weaker(before, challenge)):
            return
        if self.current is None or is_weaker(self.current, challenge):
            self.current, self.is_confirmed, self.confirmed = challenge, True, None
        else:
            self.is_confirmed, self.confirmed = False, challenge

    def step_back(self, challenges):
        """A request that times out may have a message that is signed for a forged challenge."""
        if self.current is not None and self.current in challenges:
            self.current, self.confirmed = self.confirmed, None
            self.is_confirmed = self.current is not None

    def result(self, message, algorithm):
        signed = SIGNED.get(algorithm, "unsigned")
        unknown = unknown_in(message, READ | self.built.known)
        if unknown:
            return f"NotUnderstood 0x{unknown[0]:04x}"
        if not message[1] & 0x10:
            return f"success {signed}: {told(message)}"
        code = code_in(message)
        if code is None:
            return "MalformedResponse"
        if code != 300:
            return f"refused {code} {signed}: {told(message)}"
        values = reading(message)
        domain = values.get(ALTERNATE_DOMAIN, b"none").decode()
        return f"redirected {plain_address(values.get(ALTERNATE_SERVER))} {domain} {signed}"
