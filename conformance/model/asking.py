"""A client of the model that sends requests with transaction IDs of its own, again if one is lost,
and answers challenges (RFC 8489, sections 5, 6.2, 6.3, 9.1.4 and 9.2.5)."""

import hashlib

from model.credentials import KNOWN
from model.transactions import Request
from model.values import ALTERNATE_SERVER, REALM, decoded
from model.wire import ERROR_CODE, Refused, begun, stated, unknown_types


def code_of(message):
    value = message.value(ERROR_CODE)
    return value[2] * 100 + value[3] if value is not None and len(value) > 3 else None


class Asking:
    def __init__(self, client):
        self.client, self.count, self.data, self.ended = client, 0, None, None
        self.is_stream = False

    def ask(self, now, message):
        self.message, self.is_violated = message, False
        self.start(now)
        return self.next(now)

    def start(self, now):
        """Begins a transaction."""
        self.count += 1
        identity = hashlib.sha256(str(self.count).encode()).digest()[:12]
        data = begun("request", self.message.method, identity) + self.message.data[20:]
        self.data = self.client.signs(stated(data, len(data) - 20))
        self.request, self.is_unsent = Request(now, None, self.is_stream), True

    def next(self, now):
        """The next message to send, or how the request has ended."""
        if self.data is not None and self.ended is None and self.request.is_over(now):
            self.ended = "violated" if self.is_violated else "timed out"
        if self.ended is not None:
            how, self.ended, self.data = self.ended, None, None
            return f"result {how}"
        if self.data is None or not self.is_unsent and not self.request.is_due(now):
            return "none"
        self.request.sent += not self.is_unsent
        self.is_unsent = False
        return self.data

    def takes(self, now, message):
        """Whether a message answers the request."""
        is_response = message.klass in ("success", "error")
        if not is_response or self.data is None or self.ended or message.id != self.data[8:20]:
            return "no"
        try:
            is_anybody = self.client.user is None
            came = "unsigned" if is_anybody else self.client.hears(message)
        except Refused:
            # A challenge that was answered already: name, realm and password are not good.
            is_again = message.klass == "error" and code_of(message) == 401
            realm = message.value(REALM)
            if is_again and realm is not None and realm == self.client.realm:
                self.ended = "failed"
                return "yes"
            return self.discarded()
        if came == "resend":
            self.start(now)
        elif unknown_types(message, KNOWN):
            self.ended = "failed"
        elif message.klass == "success":
            self.ended = "success"
        else:
            self.ended = self.refused(message)
        return "yes"

    def refused(self, message):
        """How an error ends the request: a 300, at the server that it names (section 10)."""
        code, place = code_of(message), message.value(ALTERNATE_SERVER)
        if code == 300 and place is not None:
            return "redirected " + decoded(ALTERNATE_SERVER, place, message.id)
        return "failed" if code is None else f"error {code}"

    def discarded(self):
        """A response that is not signed as it must be: over a stream it ends the request, and over
        datagrams the end tells of it."""
        self.is_violated = True
        if self.is_stream:
            self.ended = "violated"
        return "no"
