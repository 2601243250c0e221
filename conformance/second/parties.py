"""Servers and a client of the second model (RFC 8489, sections 6, 9.1 and 9.2)."""

import base64
import hmac
import itertools

from second.messages import (ALTERNATE, CHOICE, COOKIE, ERROR, LIST, NONCE, REALM, SHA1, SHA256,
                             UNDERSTOOD, UNKNOWN, USERHASH, USERNAME, XOR_MAPPED, NUMBER_OF, No,
                             Stun, address_in, address_out, asks_for_choice, asks_for_hash, check,
                             entries, hash_of, header, long_key, mark, marked, plus, resized, sign,
                             u16)

# ---- Servers (sections 6.3.1, 9.1.3 and 9.2.4).

PHRASES = {300: b"Try Alternate", 400: b"Bad Request", 401: b"Unauthenticated",
           420: b"Unknown Attribute", 438: b"Stale Nonce"}


def reply(request, code=None):
    data = header("error" if code else "success", request.method, request.id)
    if code is None:
        return data
    return plus(data, ERROR, bytes((0, 0, code // 100, code % 100)) + PHRASES[code])


class Server:
    """Credentials are `long`, `short` or `none`."""

    def __init__(self, credentials, realm=b""):
        self.credentials, self.realm, self.users, self.others = credentials, realm, {}, ()
        self.algorithms, self.hashes, self.life, self.must_mark = [1], True, 3600, False

    def hear(self, source, now, data):
        message = Stun(data)
        # Section 6.3: what is supported is Binding, and it has requests.
        if message.method != 1 or message.kind != "request":
            return None
        if marked(message) == "invalid" or self.must_mark and marked(message) == "none":
            return None
        step = {"long": self.long, "short": self.short, "none": lambda *_: (None, None, None)}
        code, key, kind = step[self.credentials](source, now, message)
        answer = self.refuse(message, code, source, now) if code else self.serve(message, source)
        if key is not None:
            answer = sign(answer, key, kind)
        return mark(answer) if marked(message) != "none" else answer

    def serve(self, message, source):
        types = message.unknown(UNDERSTOOD)
        if types:
            return plus(reply(message, 420), UNKNOWN, b"".join(map(u16, types)))
        if self.others:
            ours = [one for one in self.others if (one[0] == "[") == (source[0] == "[")]
            return plus(reply(message, 300), ALTERNATE, address_in(ours[0], bytes(16)))
        return plus(reply(message), XOR_MAPPED, address_in(source, COOKIE + message.id))

    def short(self, source, now, message):
        name = message.get(USERNAME)
        kinds = [kind for kind in (SHA256, SHA1) if message.get(kind) is not None]
        if name is None or not kinds:
            return 400, None, None
        if name not in self.users:
            return 401, None, None
        try:
            check(message, self.users[name])
        except No:
            return 401, None, None
        return None, self.users[name], kinds[0]

    # -- Section 9.2.4.

    def nonce(self, source, epoch):
        bits = (2 in self.algorithms) << 23 | self.hashes << 22
        seal = hmac.new(b"of the server", f"{source}|{epoch}|{bits}".encode(), "sha256").digest()
        return b"obMatJos2" + base64.b64encode(bits.to_bytes(3, "big")) + seal.hex()[:24].encode()

    def offer(self):
        return b"".join(u16(one) + u16(0) for one in sorted(self.algorithms, reverse=True))

    def refuse(self, message, code, source, now):
        answer = reply(message, code)
        if self.credentials == "long" and code in (401, 438):
            answer = plus(answer, REALM, self.realm)
            answer = plus(answer, NONCE, self.nonce(source, now // self.life))
            if 2 in self.algorithms:
                answer = plus(answer, LIST, self.offer())
        return answer

    def user(self, message):
        digest = message.get(USERHASH)
        if digest is None:
            return message.get(USERNAME)
        same = [name for name in self.users if hash_of(name, self.realm) == digest and self.hashes]
        return same[0] if same else None

    def long(self, source, now, message):
        if message.get(SHA1) is None and message.get(SHA256) is None:
            return 401, None, None
        has_name = message.get(USERNAME) is not None or message.get(USERHASH) is not None
        if not has_name or message.get(REALM) is None or message.get(NONCE) is None:
            return 400, None, None
        nonce, listed, chosen = message.get(NONCE), message.get(LIST), message.get(CHOICE)
        is_old = listed is None and chosen is None
        number = 1
        if asks_for_choice(nonce) and not is_old:
            if chosen is None or listed != self.offer():
                return 400, None, None
            choices = list(entries(chosen))
            if len(choices) != 1 or choices[0] not in list(entries(listed)):
                return 400, None, None
            number = choices[0][0]
        name = self.user(message)
        if name not in self.users or number not in self.algorithms:
            return 401, None, None
        key = long_key(number, name, self.realm, self.users[name])
        try:
            check(message, key)
        except No:
            return 401, None, None
        epoch = now // self.life
        if nonce not in (self.nonce(source, epoch), self.nonce(source, epoch - 1)):
            return 438, None, None
        return None, key, SHA1 if is_old else SHA256


# ---- Clients (sections 9.1.2 to 9.1.5 and 9.2.3 to 9.2.5).

class Client:
    def __init__(self):
        self.name = self.password = self.realm = self.nonce = self.listed = None
        self.number, self.supported, self.hashes, self.must_mark = 1, [1], "auto", False
        self.is_short, self.is_authenticated = False, False
        self.ids, self.request, self.end = itertools.count(1), None, None

    def key(self):
        return long_key(self.number, self.name, self.realm, self.password)

    def form(self, data):
        if self.is_short:
            data = plus(data, USERNAME, self.name)
            for number in sorted(self.supported):
                data = sign(data, self.password, SHA1 if number == 1 else SHA256)
        elif self.nonce is not None:
            if asks_for_hash(self.nonce) and self.hashes != "disabled":
                data = plus(data, USERHASH, hash_of(self.name, self.realm))
            else:
                data = plus(data, USERNAME, self.name)
            data = plus(plus(data, REALM, self.realm), NONCE, self.nonce)
            if self.listed is not None:
                data = plus(plus(data, LIST, self.listed), CHOICE, u16(self.number) + u16(0))
            data = sign(data, self.key(), SHA1 if self.listed is None else SHA256)
        return mark(data) if self.must_mark else data

    def hear(self, message):
        """`resend`, or which signature is right. Raises No for what is discarded."""
        if marked(message) == "invalid" or self.must_mark and marked(message) == "none":
            raise No("FINGERPRINT")
        if message.kind not in ("success", "error"):
            raise No("class")
        if self.is_short:
            name = check(message, self.password)
            if NUMBER_OF.get(name) not in self.supported:
                raise No("algorithm")
            self.supported = [NUMBER_OF[name]]
            return name
        code = message.code() if message.kind == "error" else None
        is_bare = asks_for_choice(message.get(NONCE)) and message.get(LIST) is None
        if code in (401, 438) and (code == 438 or not self.is_authenticated):
            if is_bare or self.name is None or None in (message.get(REALM), message.get(NONCE)):
                raise No("challenge")
            return self.challenge(message, code)
        if is_bare or self.nonce is None:
            raise No("nobody's")
        name = check(message, self.key())
        if name == "none":
            raise No("unsigned")
        self.is_authenticated |= message.kind == "success"
        return name

    def challenge(self, message, code):
        realm, listed, number = message.get(REALM), message.get(LIST), 1
        realm.decode(), message.get(NONCE).decode()
        if code == 401 and realm == self.realm:
            raise No("the same again")
        if listed is not None:
            known = [number for number, _ in entries(listed) if number in self.supported]
            if not known:
                raise No("no algorithm")
            number = known[0]
        elif code == 401 and 1 not in self.supported:
            raise No("no algorithm")
        if self.hashes == "required" and not asks_for_hash(message.get(NONCE)):
            raise No("no hashes")
        if code == 438 and listed is None:
            listed, number = self.listed, self.number
        if code == 401 or self.nonce is not None:
            self.realm, self.nonce = realm, message.get(NONCE)
            self.listed, self.number = listed, number
        return "resend"

    # -- A request with an ID of the client's own. There are no timers here.

    def ask(self, message):
        self.request, self.end = message, None
        return self.begin()

    def begin(self):
        identity = next(self.ids).to_bytes(12, "big")
        body = header("request", self.request.method, identity) + self.request.data[20:]
        self.sent, self.is_due = self.form(resized(body, len(body) - 20)), False
        return self.sent

    def take(self, message):
        if self.request is None or self.end or message.id != self.sent[8:20] \
                or message.kind not in ("success", "error"):
            return "no"
        try:
            came = "none" if self.name is None else self.hear(message)
        except (No, UnicodeDecodeError):
            if message.kind == "error" and message.code() == 401 and self.realm is not None \
                    and message.get(REALM) == self.realm:
                self.end = "failed"
                return "yes"
            return "no"
        if came == "resend":
            self.begin()
            self.is_due = True
            return "yes"
        code = message.code()
        if message.unknown(UNDERSTOOD) or message.kind == "error" and code is None:
            self.end = "failed"
        elif message.kind == "success":
            self.end = "success"
        elif code == 300 and message.get(ALTERNATE) is not None:
            self.end = "redirected " + address_out(message.get(ALTERNATE), bytes(16))
        else:
            self.end = f"error {code}"
        return "yes"

    def next(self):
        if self.end:
            end, self.end, self.request = self.end, None, None
            return "result " + end
        if self.request is not None and self.is_due:
            self.is_due = False
            return self.sent
        return "none"
