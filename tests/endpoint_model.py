#!/usr/bin/env python3
"""endpoint_model.py [--write] FILE ..: plays transcripts of endpoints (docs/maintainers/
TRANSCRIPTS.md) by models of them, and compares the answers.

The models are written from RFC 8489 and RFC 8445, and of nonces from specs/Nonces.antt of
stun_endpoint, over Python's hashlib, hmac and zlib. They share no code with the library, so the
answers come from outside it. This file has the server with long-term credentials; endpoint_open.py,
endpoint_ice.py and endpoint_client.py have the others. With --write it fills in the answers that
are empty. The status is 1 if an answer is wrong."""

import base64
import hashlib
import hmac
import struct
import sys

import spelling
import stun
from endpoint_client import ClientStage
from endpoint_ice import IceStage
from endpoint_messages import *
from endpoint_open import OpenStage, ShortTermStage
from spelling import Words


class Waits(Exception):
    """A request waits for this user."""


class Settings:
    def __init__(self, realm=""):
        self.realm, self.secret, self.previous = realm, spelling.drawn(b"\1"), None
        self.algorithms, self.hashes, self.lifetime = {stun.SHA1, stun.SHA256}, True, 3600
        self.known, self.software, self.binding = set(), None, False
        self.requires_fingerprint = False

    def refusal(self):
        if len(self.realm.encode()) > LIMIT:
            return "RealmTooLong"
        if len((self.software or "").encode()) > LIMIT:
            return "SoftwareTooLong"
        if self.lifetime < 30:
            return "NonceLifetime"
        return None if self.algorithms else "NoAlgorithm"


class Table:
    """Users by name, each with a key for an algorithm, or without one."""

    def __init__(self, realm):
        self.realm, self.keys = realm, {}

    def add(self, name, password):
        self.keys[name] = {algorithm: stun.key_of(algorithm, name, self.realm, password)
                           for algorithm in SIGNED}

    def by_hash(self, digest):
        """Section 14.4."""
        for name in self.keys:
            if hashlib.sha256(f"{name}:{self.realm}".encode()).digest() == digest:
                return name
        return None


class Server(Responder):
    def __init__(self, settings):
        self.__dict__.update(settings.__dict__)

    # ---- Nonces.

    def nonce_of(self, secret, source, epoch):
        host, port = source
        number = sum(self.algorithms)
        text = octets_of(host) + struct.pack(">HQB", port, epoch, number)
        words = hmac.new(secret, text, hashlib.sha1).digest()[:16]
        letters = b"ABCDEFGHIJKLMNOPQRSTUVWXYZabcdefghijklmnopqrstuvwxyz0123456789"
        nonce = bytes(letters[word % 62] for word in words)
        bits = 0x80 * (stun.SHA256 in self.algorithms) + 0x40 * self.hashes
        return b"obMatJos2" + base64.b64encode(bytes((bits, 0, 0))) + nonce

    def nonces(self, source, now):
        """The nonces that are accepted, the current one first."""
        epoch = now // self.lifetime
        secrets = [self.secret, self.previous] if self.previous else [self.secret]
        return [self.nonce_of(secret, source, at)
                for secret in secrets for at in (epoch, epoch - 1) if at >= 0]

    # ---- Judging a request (section 9.2.4).

    def agreed(self, values):
        """The algorithm that both sides agree on, or None."""
        both = (values.get(stun.PASSWORD_ALGORITHMS), values.get(stun.PASSWORD_ALGORITHM))
        if stun.SHA256 not in self.algorithms and both != (None, None):
            # A server of HMAC-SHA1 alone offers no list.
            return None
        bits = bits_of(values[stun.NONCE])
        if bits is None or not bits[0] & 0x80:
            return stun.SHA1
        if both == (None, None):
            return stun.SHA1
        choices = {b"\0\1\0\0": stun.SHA1, b"\0\2\0\0": stun.SHA256}
        if both[0] != self.offer() or both[1] not in choices:
            return None
        return choices[both[1]] if choices[both[1]] in self.algorithms else None

    def offer(self):
        """The list of password algorithms, the strongest first."""
        return b"".join(struct.pack(">HH", one, 0)
                        for one in sorted(self.algorithms, reverse=True))

    def judged(self, message, source, now, users, waits=False):
        """The user, the algorithm and the key of an accepted request. One that `waits` for a user
        names that user in the exception."""
        values = {}
        for kind, _, value in spelling.visible(message):
            values.setdefault(kind, value)
        nonces = self.nonces(source, now)
        current = values.get(stun.NONCE) == nonces[0]
        if integrity_of(message) is None:
            raise Refused(401)
        if stun.REALM not in values or stun.NONCE not in values:
            raise Refused(400)
        if stun.USERHASH not in values and stun.USERNAME not in values:
            raise Refused(400)
        algorithm = self.agreed(values)
        if algorithm is None:
            raise Refused(400 if current else 438)
        ours, theirs = bits_of(nonces[0]), bits_of(values[stun.NONCE])
        if values[stun.NONCE] not in nonces:
            raise Refused(401 if None not in (ours, theirs) and ours != theirs else 438)
        if waits and (self.hashes or stun.USERHASH not in values):
            raise Waits("0x" + values[stun.USERHASH].hex() if stun.USERHASH in values
                        else values[stun.USERNAME].decode())
        name = self.named(values, users)
        key = users.keys.get(name, {}).get(algorithm)
        is_right = (key is not None and algorithm in self.algorithms
                    and stun.verifies(message, integrity_of(message), key))
        if not is_right:
            # An old nonce under which nobody is accepted is stale.
            raise Refused(401 if current else 438)
        return name, algorithm, key

    def named(self, values, users):
        if stun.USERHASH in values:
            return users.by_hash(values[stun.USERHASH]) if self.hashes else None
        return values[stun.USERNAME].decode()

    def refused(self, request, source, now, code):
        """400, 401 or 438, the last two with what a client needs to sign."""
        if code == 400:
            return self.error(request, 400, "Bad Request")
        extra = [(stun.NONCE, self.nonces(source, now)[0]), (stun.REALM, self.realm.encode())]
        if stun.SHA256 in self.algorithms:
            extra.append((stun.PASSWORD_ALGORITHMS, self.offer()))
        return self.error(request, code, {401: "Unauthenticated", 438: "Stale Nonce"}[code],
                          extra=extra)


# ---- Lines.


class Stage:
    def __init__(self, meanings):
        self.meanings, self.kept = meanings, {}
        self.now, self.source = 0, (bytes((10, 0, 0, 1)), 12345)
        self.settings, self.server, self.users, self.user = Settings(), None, None, None
        self.waits, self.waiting = False, None
        self.reply = None
        self.others = {"open": OpenStage(self), "short-term": ShortTermStage(self),
                       "ice": IceStage(self), "client": ClientStage(self)}

    def message(self, words):
        return spelling.message(words, self.kept, self.meanings)

    def answer(self, call):
        words = call.split()
        if spelling.begins_with_digit(words[0]) or words[0] == "max":
            self.now, words = spelling.nanos(words[0]), words[1:]
        if words[1:2] == ["="]:
            self.kept[words[0]] = self.message(words[2:])
            return ""
        if words[:1] == ["from"]:
            self.source = spelling.address(words[1])
            return ""
        if words[0] != "endpoint" or len(words) < 3:
            raise Words(call)
        if words[1] in self.others:
            return self.others[words[1]].call(words[2], words[3:]) or ""
        if words[1] != "server":
            raise Words(call)
        return self.call(words[2], words[3:]) or ""

    def call(self, name, words):
        if self.server is None and name in ("hears", "nonce", "responds"):
            raise Words("no server")
        if name == "build":
            refusal = self.settings.refusal()
            if refusal is None:
                self.server = Server(self.settings)
                self.users = Table(self.server.realm)
            return refusal
        if name == "add-user":
            return self.users.add(spelling.text(words[0]).decode(), words[1])
        if name == "remove-user":
            self.users.keys.pop(words[0], None)
            return None
        if name == "nonce":
            return self.server.nonces(self.source, self.seconds())[0].decode()
        if name == "hears":
            return self.hears(self.message(words), self.users)
        if name == "hears-for":
            return self.hears(self.message(words), self.user or Table(self.server.realm))
        if name == "looks-up":
            self.user = None if words == ["none"] else Table(self.server.realm)
            return self.user and self.user.add(*words)
        if name == "looks-up-keys":
            self.user = Table(self.server.realm)
            self.user.keys[words[0]] = {
                algorithm: bytes.fromhex(word)
                for algorithm, word in zip((stun.SHA1, stun.SHA256), words[1:]) if word != "-"}
            return None
        if name == "identifies":
            return self.identifies(self.message(words))
        if name == "resumes":
            return self.resumes()
        if name == "responds":
            return self.responds(words)
        return self.set(name, words[0])

    def set(self, name, word):
        settings = self.settings
        if name == "realm":
            self.settings = Settings(spelling.text(word).decode())
        elif name in ("secret", "previous-secret"):
            secret = bytes.fromhex(word)
            setattr(settings, name.split("-")[0], spelling.drawn(secret))
        elif name == "algorithms":
            settings.algorithms = {{"sha1": 1, "sha256": 2}[one] for one in word.split(",")
                                   if one != "-"}
        elif name == "hashes":
            settings.hashes = word == "yes"
        elif name == "lifetime":
            settings.lifetime = spelling.nanos(word) // 10**9
        elif name == "understands":
            settings.known = {spelling.attribute_type(one) for one in word.split(",")}
        elif name == "software":
            settings.software = spelling.text(word).decode()
        elif name == "binding":
            settings.binding = {"yes": True, "no": False}.get(word)
            if settings.binding is None:
                raise Words(word)
        elif name == "requires-fingerprint":
            settings.requires_fingerprint = {"yes": True, "no": False}[word]
        else:
            raise Words(name)

    def seconds(self):
        return self.now // 10**9

    def identifies(self, datagram):
        """A request that waits for its user is stored, with its source and the time."""
        self.waits = True
        came = self.hears(datagram, Table(self.server.realm))
        self.waits = False
        if came.startswith("looks up "):
            self.waiting = datagram, self.source, self.now
        return came

    def resumes(self):
        """Judges the request that waits, as of when it arrived."""
        if self.waiting is None:
            raise Words("nothing waits")
        source, now = self.source, self.now
        datagram, self.source, self.now = self.waiting
        came = self.hears(datagram, self.user or Table(self.server.realm))
        self.waiting, self.source, self.now = None, source, now
        return came

    def hears(self, datagram, users):
        why = dropped(datagram, self.server.requires_fingerprint)
        if why:
            return why
        kind = int.from_bytes(datagram[:2], "big")
        if kind & 0x100:
            return "response"
        if kind & 0x10:
            return "dropped UnknownAttribute" if self.server.unknown(datagram) else "indication"
        return self.requested(datagram, users)

    def requested(self, request, users):
        server = self.server
        try:
            name, algorithm, key = server.judged(request, self.source, self.seconds(), users,
                                                 self.waits)
        except Refused as refused:
            code = refused.args[0]
            return refusal(code, server.refused(request, self.source, self.seconds(), code))
        except Waits as waits:
            return "looks up " + waits.args[0]
        answer = server.answered(request, self.source, key)
        if answer is None:
            self.reply = server, request, key
        return answer or f"request {name} {SIGNED[algorithm]}"

    def responds(self, words):
        return responded(self, self.reply, words)


def played(path, writes):
    with open(path, encoding="utf-8") as file:
        text = file.read()
    paragraphs = [lines.split("\n") for lines in text.rstrip("\n").split("\n\n")]
    named = {lines[0][:-1]: lines for lines in paragraphs if lines[0].endswith(":")}
    meanings = {name: meaning for lines in paragraphs for line in lines if line.startswith("@")
                for name, *meaning in [line.split()]}
    right, out = True, []
    for lines in paragraphs:
        stage = Stage(meanings)
        for at, line in enumerate(lines):
            if not line or line.startswith(("#", "@")) or line.endswith(":"):
                continue
            if line.startswith("like "):
                for other in named[line[5:]]:
                    if other and not other.startswith(("#", "@")) and not other.endswith(":"):
                        stage.answer(other.partition("->")[0].strip())
                continue
            call, arrow, written = line.partition("->")
            try:
                came = stage.answer(call.strip())
            except Words:
                came = "?"
            if writes and arrow and not written.strip():
                lines[at] = call + "-> " + came
            elif came != written.strip():
                right = False
                print(f"{path}: {line}\n  came: {came}")
        out.append("\n".join(lines))
    if writes:
        with open(path, "w", encoding="utf-8") as file:
            file.write("\n\n".join(out) + "\n")
    return right


def main(words):
    writes = words[:1] == ["--write"]
    return 0 if all([played(path, writes) for path in words[writes:]]) else 1


if __name__ == "__main__":
    sys.exit(main(sys.argv[1:]))
