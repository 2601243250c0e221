"""Models of the servers without a realm: of one without credentials, and of one with short-term
credentials (RFC 8489, sections 6.3 and 9.1.3). They are written as endpoint_model.py says."""

import spelling
import stun
from endpoint_messages import *
from spelling import Words


class OpenStage:
    """The lines `endpoint open ..`."""

    def __init__(self, stage):
        self.stage, self.settings, self.server, self.reply = stage, Responder(), None, None

    def call(self, name, words):
        settings = self.settings
        if name == "software":
            settings.software = spelling.text(words[0]).decode()
        elif name == "binding":
            settings.binding = {"yes": True, "no": False}[words[0]]
        elif name == "requires-fingerprint":
            settings.requires_fingerprint = {"yes": True, "no": False}[words[0]]
        elif name == "understands":
            settings.known = {spelling.attribute_type(one) for one in words[0].split(",")}
        elif name == "build":
            return self.build()
        elif name in ("hears", "responds") and self.server is None:
            raise Words("no server")
        elif name == "hears":
            return self.hears(self.stage.message(words))
        elif name == "responds":
            return responded(self.stage, self.reply, words)
        else:
            raise Words(name)
        return None

    def build(self):
        if len((self.settings.software or "").encode()) > LIMIT:
            return "SoftwareTooLong"
        self.server = Responder()
        self.server.__dict__.update(self.settings.__dict__)
        return None

    def hears(self, datagram):
        why = dropped(datagram, self.server.requires_fingerprint)
        if why:
            return why
        kind = int.from_bytes(datagram[:2], "big")
        if kind & 0x100:
            return "response"
        return self.indicated(datagram) if kind & 0x10 else self.requested(datagram)

    def indicated(self, indication):
        return "dropped UnknownAttribute" if self.server.unknown(indication) else "indication"

    def requested(self, request):
        answer = self.server.answered(request, self.stage.source)
        if answer is None:
            self.reply = self.server, request, None
        return answer or "request"


class ShortTermStage(OpenStage):
    """The lines `endpoint short-term ..`."""

    def __init__(self, stage):
        super().__init__(stage)
        self.users = {}

    def call(self, name, words):
        if name == "add-user":
            self.users[spelling.text(words[0]).decode()] = spelling.text(words[1])
        elif name == "remove-user":
            self.users.pop(words[0], None)
        else:
            return super().call(name, words)
        return None

    def judged(self, message):
        """The user, the algorithm and the key of a signed message (section 9.1.3)."""
        name = first_of(message, stun.USERNAME)
        if integrity_of(message) is None or name is None:
            raise Refused(400)
        key = self.users.get(name.decode("utf-8", "replace"))
        algorithm = verified(message, key) if key is not None else None
        if algorithm is None:
            raise Refused(401)
        return name.decode(), algorithm, key

    def indicated(self, indication):
        try:
            name, algorithm, _ = self.judged(indication)
        except Refused as refused:
            return f"dropped NotSigned {REFUSALS[refused.args[0]]}"
        came = super().indicated(indication)
        return f"{came} {name} {SIGNED[algorithm]}" if came == "indication" else came

    def requested(self, request):
        try:
            name, algorithm, key = self.judged(request)
        except Refused as refused:
            code = refused.args[0]
            phrase = {400: "Bad Request", 401: "Unauthenticated"}[code]
            return refusal(code, self.server.error(request, code, phrase))
        answer = self.server.answered(request, self.stage.source, key)
        if answer is None:
            self.reply = self.server, request, key
        return answer or f"request {name} {SIGNED[algorithm]}"
