"""A server and a client of the model, with long-term credentials (RFC 8489, section 9.2)."""

import base64
import hashlib
import hmac
import struct

from model.values import (ALTERNATE_SERVER, NONCE, PASSWORD_ALGORITHM, PASSWORD_ALGORITHMS, REALM,
                          USERHASH, USERNAME, XOR_MAPPED, decoded_text, encoded_address)
from model.wire import (COOKIE, DIGESTS, ERROR_CODE, FINGERPRINT, Message, Refused, appended,
                        check_fingerprint, fingerprinted, long_term_key, refusal_420, response,
                        signed, unknown_types, userhash, verified)

NUMBERS = {"sha1": 1, "sha256": 2}
KNOWN = {1, 6, 8, 9, 10, 0x14, 0x15, 0x1C, 0x1D, 0x1E, 0x20}
NONCE_COOKIE = b"obMatJos2"


def algorithm_numbers(offered):
    """The numbers of a list of algorithms, without their parameters (section 14.11)."""
    while offered:
        number, length = struct.unpack_from(">HH", offered)
        yield number
        offered = offered[4 + length + -length % 4:]


def bits_of(nonce):
    """The security bits of a nonce, or zeros."""
    if nonce.startswith(NONCE_COOKIE) and len(nonce) >= 13:
        try:
            return base64.b64decode(nonce[9:13], validate=True)[0]
        except ValueError:
            return 0
    return 0


def answered(message, source, places=()):
    """The response to a request that is accepted: a success, a 420, or another server (section 10)
    of the family of the source."""
    types = unknown_types(message, KNOWN)
    if types:
        return refusal_420(message, types)
    if places:
        made = response(message, 300, "Try Alternate")
        mine = [place for place in places if place.startswith("[") == source.startswith("[")]
        return appended(made, ALTERNATE_SERVER, encoded_address(mine[0], bytes(16)))
    return appended(response(message), XOR_MAPPED, encoded_address(source, COOKIE + message.id))


class Server:
    """Section 9.2.4, for Binding requests."""

    def __init__(self, realm):
        self.realm, self.users, self.hashes = realm, {}, True
        self.algorithms, self.lifetime = ["sha1"], 3600
        self.fingerprints, self.places = ("none", "valid"), ()

    def nonce(self, source, epoch):
        text = f"{source} {epoch} {self.algorithms}".encode()
        words = hmac.new(b"secret", text, hashlib.sha256).hexdigest()[:20].encode()
        bits = 0x80 * ("sha256" in self.algorithms) + 0x40 * self.hashes
        return NONCE_COOKIE + base64.b64encode(bytes((bits, 0, 0))) + words

    def offer(self):
        """The list of password algorithms, the strongest first."""
        return b"".join(struct.pack(">HH", NUMBERS[one], 0)
                        for one in sorted(self.algorithms, reverse=True))

    def hears(self, source, now, data):
        """The response to a datagram, or None."""
        message = Message(data)
        if message.klass != "request" or message.method != 1:
            return None
        if check_fingerprint(message) not in self.fingerprints:
            return None
        epoch = now // self.lifetime
        current = self.nonce(source, epoch)
        is_fresh = message.value(NONCE) in (current, self.nonce(source, epoch - 1))
        code, key = self.judged(message)
        if code is None and not is_fresh:
            code = 438
        if code is not None:
            return self.end(message, self.refusal(message, code, current))
        answer = answered(message, source, self.places)
        name = "sha1" if message.value(PASSWORD_ALGORITHM) is None else "sha256"
        return self.end(message, signed(answer, name, key))

    def end(self, request, answer):
        return fingerprinted(answer) if request.value(FINGERPRINT) is not None else answer

    def judged(self, message):
        """The code of a refusal, or the key."""
        names = [name for name, (kind, _) in DIGESTS.items() if message.value(kind) is not None]
        if not names:
            return 401, None
        if message.value(REALM) is None or message.value(NONCE) is None:
            return 400, None
        if message.value(USERNAME) is None and message.value(USERHASH) is None:
            return 400, None
        algorithm = self.agreed(message)
        if algorithm is None:
            return 400, None
        name = self.named(message)
        if name not in self.users or algorithm not in self.algorithms:
            return 401, None
        key = long_term_key(algorithm, name, self.realm, self.users[name])
        try:
            verified(message, key)
        except Refused:
            return 401, None
        return None, key

    def named(self, message):
        wanted = message.value(USERHASH)
        if wanted is None:
            return message.value(USERNAME)
        found = [name for name in self.users if userhash(name, self.realm) == wanted]
        return found[0] if found and self.hashes else None

    def agreed(self, message):
        """The password algorithm, or None if it is not one of the offered list, sent back whole."""
        if not bits_of(message.value(NONCE)) & 0x80:
            return "sha1"
        offered, chosen = message.value(PASSWORD_ALGORITHMS), message.value(PASSWORD_ALGORITHM)
        if offered is None and chosen is None:
            return "sha1"
        if offered != self.offer() or chosen is None:
            return None
        names = {struct.pack(">HH", NUMBERS[one], 0): one for one in self.algorithms}
        return names.get(chosen)

    def refusal(self, message, code, nonce):
        phrase = {400: "Bad Request", 401: "Unauthenticated", 438: "Stale Nonce"}[code]
        answer = response(message, code, phrase)
        if code != 400:
            answer = appended(answer, REALM, self.realm)
            answer = appended(answer, NONCE, nonce)
            if "sha256" in self.algorithms:
                answer = appended(answer, PASSWORD_ALGORITHMS, self.offer())
        return answer


class ShortServer:
    """Section 9.1.3, for Binding requests."""

    def __init__(self):
        self.users, self.places = {}, ()

    def hears(self, source, data):
        """The response to a datagram, or None."""
        message = Message(data)
        if message.method != 1 or message.klass != "request":
            return None
        if check_fingerprint(message) == "invalid":
            return None
        code = self.refusal(message)
        if code is not None:
            phrase = {400: "Bad Request", 401: "Unauthenticated"}[code]
            return self.end(message, response(message, code, phrase))
        answer = answered(message, source, self.places)
        key = self.users[message.value(USERNAME)]
        return self.end(message, signed(answer, verified(message, key), key))

    def end(self, request, answer):
        return fingerprinted(answer) if request.value(FINGERPRINT) is not None else answer

    def refusal(self, message):
        """The code of a request that is refused, or None."""
        kinds = [kind for kind, _ in DIGESTS.values() if message.value(kind) is not None]
        if not kinds or message.value(USERNAME) is None:
            return 400
        if message.value(USERNAME) not in self.users:
            return 401
        try:
            verified(message, self.users[message.value(USERNAME)])
        except Refused:
            return 401
        return None


class OpenServer:
    """Section 6.3.1, for Binding requests of anybody."""

    def __init__(self):
        self.fingerprints = ("none", "valid")

    def hears(self, source, data):
        """The response to a datagram, or None."""
        message = Message(data)
        if message.method != 1 or message.klass != "request":
            return None
        if check_fingerprint(message) not in self.fingerprints:
            return None
        answer = answered(message, source)
        return fingerprinted(answer) if message.value(FINGERPRINT) is not None else answer


class ShortClient:
    """Sections 9.1.2, 9.1.4 and 9.1.5."""

    realm = None

    def __init__(self, name, password, algorithms):
        self.user, self.password, self.algorithms = name, password, list(algorithms)

    def signs(self, data):
        """By all algorithms that the server may support: the weaker first (section 9.1.2)."""
        data = appended(data, USERNAME, self.user)
        for name in sorted(self.algorithms):
            data = signed(data, name, self.password)
        return data

    def hears(self, message):
        came = verified(message, self.password)
        if came not in self.algorithms:
            raise Refused
        self.algorithms = [came]
        return came


class Client:
    """Sections 9.2.3 and 9.2.5."""

    def __init__(self):
        self.user = self.password = self.realm = self.nonce = self.algorithm = None
        self.algorithms, self.hashes, self.offered = ["sha1"], "auto", None
        self.is_known, self.fingerprints = False, ("none", "valid", "invalid")

    def key(self, algorithm):
        return long_term_key(algorithm, self.user, self.realm, self.password)

    def signs(self, data):
        if self.nonce is None or self.user is None:
            return self.end(data)
        hashed = self.hashes != "disabled" and bits_of(self.nonce) & 0x40
        who = (USERHASH, userhash(self.user, self.realm)) if hashed else (USERNAME, self.user)
        for kind, value in (who, (REALM, self.realm), (NONCE, self.nonce)):
            data = appended(data, kind, value)
        if self.offered is not None:
            data = appended(data, PASSWORD_ALGORITHMS, self.offered)
            data = appended(data, PASSWORD_ALGORITHM,
                            struct.pack(">HH", NUMBERS[self.algorithm], 0))
        name = self.algorithm if self.offered is None else "sha256"
        return self.end(signed(data, name, self.key(self.algorithm)))

    def end(self, data):
        """With FINGERPRINT, if its messages are to have it (section 7.1)."""
        return fingerprinted(data) if self.fingerprints == ("valid",) else data

    def hears(self, message):
        if check_fingerprint(message) not in self.fingerprints:
            raise Refused
        code = message.value(ERROR_CODE)
        number = code[2] * 100 + code[3] if code and len(code) > 3 else None
        is_error = message.klass == "error"
        if is_error and number == 401 and not self.is_known:
            return self.challenged(message)
        if is_error and number == 438 and message.value(REALM) is not None:
            return self.stale(message)
        if message.klass not in ("success", "error") or self.nonce is None:
            raise Refused
        came = verified(message, self.key(self.algorithm))
        if came == "none" or self.is_stripped(message):
            raise Refused
        self.is_known = self.is_known or message.klass == "success"
        return came

    def is_stripped(self, message):
        """Whether the nonce says that a list of algorithms is there, and it is not."""
        nonce = message.value(NONCE)
        return (nonce is not None and bits_of(nonce) & 0x80
                and message.value(PASSWORD_ALGORITHMS) is None)

    def given(self, message):
        """The realm and the nonce of a challenge, which are well-formed."""
        for kind, _, value in message.visible():
            if kind in (REALM, NONCE):
                decoded_text(kind, value)
        realm, nonce = message.value(REALM), message.value(NONCE)
        if realm is None or nonce is None or self.user is None:
            raise Refused
        return realm, nonce

    def challenged(self, message):
        realm, nonce = self.given(message)
        if self.realm == realm:
            raise Refused
        algorithm, offered = self.chosen(message, nonce)
        if self.hashes == "required" and not bits_of(nonce) & 0x40:
            raise Refused
        self.realm, self.nonce = realm, nonce
        self.algorithm, self.offered = algorithm, offered
        return "resend"

    def stale(self, message):
        realm, nonce = self.given(message)
        if self.is_stripped(message):
            raise Refused
        if self.nonce is not None:
            self.realm, self.nonce = realm, nonce
        return "resend"

    def chosen(self, message, nonce):
        """The first algorithm of the list that is supported (section 9.2.5)."""
        offered = message.value(PASSWORD_ALGORITHMS)
        if offered is None:
            is_plain = not nonce.startswith(NONCE_COOKIE)
            if bits_of(nonce) & 0x80 or is_plain and "sha1" not in self.algorithms:
                raise Refused
            return "sha1", None
        for number in algorithm_numbers(offered):
            name = {1: "sha1", 2: "sha256"}.get(number)
            if name in self.algorithms:
                return name, offered
        raise Refused
