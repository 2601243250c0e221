"""The calls of levels 3 and 4: requests of an agent and their responses, and checks of ICE."""

import spelling
from grammar import Words, hexadecimal, nanos, number, shown_time, text
from subject import Ours

PEER = "10.0.0.2:3478"


class Transactions:
    """Level 3: requests of an agent, and their responses."""

    def agent_new(self, transport="udp", *words):
        if words:
            raise Ours("agent new with settings")
        return self.done("agent-new", transport)

    def towards(self, words):
        """An address, if one is written, and the message after it."""
        try:
            spelling.address(words[0])
        except Words:
            return PEER, self.message(words)
        return words[0], self.message(words[1:])

    def agent_asks(self, *words):
        peer, data = self.towards(words)
        came = self.ask("agent-asks", self.now, peer, hexadecimal(data))
        return "sent" if came == "done" else came

    def agent_takes(self, *words):
        peer, data = self.towards(words)
        return self.ask("agent-takes", self.now, peer, hexadecimal(data))

    agent_takes_timed = agent_takes

    def agent_transmit(self):
        return self.ask("agent-transmit", self.now)

    def agent_poll(self):
        came = self.ask("agent-poll", self.now)
        return "wait " + shown_time(number(came[5:])) if came.startswith("wait ") else came

    def agent_cancel(self, identity):
        return self.done("agent-cancel", number(identity))

    def agent_cancel_retransmissions(self, identity):
        return self.done("agent-cancel-retransmissions", number(identity))

    def agent_configure(self, identity, initial, count, last, longest="max"):
        return self.done("agent-configure", number(identity), nanos(initial), number(count),
                         nanos(last), nanos(longest))


class Checks:
    """Level 4: connectivity checks of ICE."""

    def ice_new(self, role, number_, *texts):
        if role not in ("controlling", "controlled") or len(texts) != 4:
            raise Words(role)
        return self.done("ice-new", role, number(number_),
                         *(hexadecimal(text(one)) for one in texts))

    def ice_checks(self, peer, priority):
        return self.checked(peer, priority, "no")

    def ice_nominates(self, peer, priority):
        return self.checked(peer, priority, "yes")

    def checked(self, peer, priority, nominates):
        spelling.address(peer)
        return self.sent(self.ask("ice-checks", peer, number(priority), nominates))

    def ice_hears(self, *words):
        return self.answered(self.ask("ice-hears", self.here, hexadecimal(self.message(words))))

    def ice_takes(self, *words):
        """What its check comes to by a response."""
        peer, data = self.towards(words)
        return self.ask("ice-takes", peer, hexadecimal(data))

    def ice_role(self):
        return self.ask("ice-role")

    def ice_nominated(self):
        return self.ask("ice-nominated")
