"""An agent of the model that checks pairs of candidates, and answers checks (RFC 8445, section 7).
"""

import hashlib
import struct

from model.credentials import KNOWN, ShortServer
from model.values import USERNAME, XOR_MAPPED, decoded, encoded_address
from model.wire import (COOKIE, Message, Refused, appended, begun, check_fingerprint, fingerprinted,
                        refusal_420, response, signed, unknown_types, verified)

PRIORITY, USE_CANDIDATE = 0x0024, 0x0025
ROLES = {"controlled": 0x8029, "controlling": 0x802A}
OTHER = {"controlled": "controlling", "controlling": "controlled"}
ERROR_CODE, KNOWN_TYPES = 0x0009, KNOWN | {PRIORITY, USE_CANDIDATE}


class Checker(ShortServer):
    def __init__(self, role, number, names):
        self.role, self.number = role, number
        self.name, self.password, self.peer, self.peer_password = names
        self.count, self.sent, self.is_nominated = 0, None, False

    # ---- Checks of its own (sections 7.1 and 7.2).

    def check(self, to, priority, nominates):
        self.count += 1
        data = begun("request", 1, hashlib.sha256(b"ice %d" % self.count).digest()[:12])
        data = appended(data, USERNAME, self.peer + b":" + self.name)
        data = appended(data, PRIORITY, struct.pack(">I", priority))
        data = appended(data, ROLES[self.role], struct.pack(">Q", self.number))
        if nominates and self.role == "controlling":
            data = appended(data, USE_CANDIDATE, b"")
        data = fingerprinted(signed(data, "sha1", self.peer_password))
        self.sent = data[8:20], to, self.role
        return data

    def takes(self, source, message):
        """What its check comes to by a response, or `none` if that is discarded (section 7.2.5)."""
        if self.sent is None or message.klass not in ("success", "error") or message.method != 1:
            return "none"
        identity, to, role = self.sent
        if message.id != identity or check_fingerprint(message) != "valid":
            return "none"
        try:
            if verified(message, self.peer_password) != "sha1":
                return "none"
        except Refused:
            return "none"
        self.sent = None
        if source != to or unknown_types(message, KNOWN_TYPES):
            return "failed"
        if message.klass == "error":
            return self.refused(message.value(ERROR_CODE), role)
        mapped = message.value(XOR_MAPPED)
        return "failed" if mapped is None else "valid " + decoded(XOR_MAPPED, mapped, message.id)

    def refused(self, value, role):
        """Section 7.2.5.1: a 487 switches the role that the check was sent in."""
        if value is None or value[2:4] != bytes((4, 87)):
            return "failed"
        self.role, self.number = OTHER[role], self.number + 1
        return "conflict"

    # ---- Checks of the peer (section 7.3).

    def hears(self, source, data):
        message = Message(data)
        if message.klass != "request" or message.method != 1:
            return None
        if check_fingerprint(message) != "valid":
            return None
        self.is_nominated = False
        self.users = {self.named(message): self.password}
        code = self.refusal(message)
        if code is None and message.value(PRIORITY) is None:
            code = 400
        if code is not None:
            phrase = {400: "Bad Request", 401: "Unauthenticated"}[code]
            return fingerprinted(response(message, code, phrase))
        name = verified(message, self.password)
        return fingerprinted(signed(self.answer(source, message), name, self.password))

    def named(self, message):
        """The name of a check, if its first half is the agent's."""
        name = message.value(USERNAME)
        first, colon, _ = (name or b"").partition(b":")
        return name if colon and first == self.name else b""

    def answer(self, source, message):
        types = unknown_types(message, KNOWN_TYPES)
        if types:
            return refusal_420(message, types)
        if not self.agrees(message.value(ROLES[self.role])):
            return response(message, 487, "Role Conflict")
        self.is_nominated = message.value(USE_CANDIDATE) is not None and self.role == "controlled"
        return appended(response(message), XOR_MAPPED,
                        encoded_address(source, COOKIE + message.id))

    def agrees(self, value):
        """Section 7.3.1.1: whether the peer may keep its role, which is the value's. The agent with
        the larger number controls."""
        if value is None:
            return True
        is_larger = self.number >= struct.unpack(">Q", value)[0]
        if is_larger == (self.role == "controlling"):
            return False
        self.role = OTHER[self.role]
        return True
