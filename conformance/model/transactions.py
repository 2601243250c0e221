"""Requests of the model and their timers (RFC 8489, section 6.2)."""

from model.credentials import KNOWN
from model.wire import ERROR_CODE, Refused, unknown_types


class Request:
    """An outstanding request: when it was sent, and how long it waits."""

    def __init__(self, now, peer, is_reliable):
        self.begin, self.peer, self.is_reliable = now, peer, is_reliable
        self.sent, self.ended, self.is_silent = 1, None, False
        self.wait(500 * 10**6, 7, 8 * 10**9, 2**64)

    def wait(self, initial, count, last, longest):
        """Section 6.2.1: each wait is twice the one before. A reliable transport sends once, and
        waits as long as all of them (section 6.2.2)."""
        waits = [min(initial * 2**i, longest) for i in range(count - 1)] + [last]
        self.waits = [sum(waits)] if self.is_reliable else waits

    def due(self):
        sent = len(self.waits) if self.is_silent else self.sent
        return self.begin + sum(self.waits[:sent])

    def is_over(self, now):
        is_last = self.is_silent or self.sent == len(self.waits)
        return is_last and self.due() <= now

    def is_due(self, now):
        is_more = self.sent < len(self.waits) and not self.is_silent
        return is_more and self.due() <= now and not self.ended


class Agent:
    def __init__(self, transport):
        self.is_reliable, self.requests = transport == "tcp", {}

    def ask(self, now, peer, message):
        if message.klass != "request" or message.id in self.requests:
            raise Refused
        self.requests[message.id] = Request(now, peer, self.is_reliable)

    def transmit(self, now):
        """The id of the request that is to be sent again now."""
        for identity in sorted(self.requests):
            request = self.requests[identity]
            if request.is_due(now):
                request.sent += 1
                return str(int.from_bytes(identity, "big"))
        return "none"

    def poll(self, now):
        for identity in sorted(self.requests):
            request = self.requests[identity]
            if request.ended or request.is_over(now):
                del self.requests[identity]
                how = request.ended or ("cancelled" if request.is_silent else "timed out")
                return f"{how} {int.from_bytes(identity, 'big')}"
        if not self.requests:
            return "idle"
        return f"wait {max(now, min(one.due() for one in self.requests.values()))}"

    def takes(self, peer, message):
        """Whether a message is for the application: requests, indications, awaited responses. One
        with an unknown attribute ends its request, and is discarded (section 6.3.3), and so does an
        error without a code (section 6.3.4)."""
        if message.klass in ("request", "indication"):
            return "yes"
        request = self.requests.get(message.id)
        if request is None or request.peer != peer:
            return "no"
        del self.requests[message.id]
        is_unknown = unknown_types(message, KNOWN)
        is_nameless = message.klass == "error" and message.value(ERROR_CODE) is None
        return "no" if is_unknown or is_nameless else "yes"
