"""A model of an ICE agent, as far as its checks are concerned (RFC 8445, sections 7.2 and 7.3).
It is written as endpoint_model.py says."""

import struct

import spelling
import stun
from endpoint_messages import *
from spelling import Words

PRIORITY, USE_CANDIDATE = 0x0024, 0x0025
# The attribute by which an agent says its role (RFC 8445, section 7.1.3).
ROLES = {"controlling": 0x802A, "controlled": 0x8029}
# Those that sign or end a message.
SET_APART = (0x0008, 0x001C, stun.FINGERPRINT)
OTHER = {"controlling": "controlled", "controlled": "controlling"}


class Check:
    def __init__(self, identity, to, role, nominates):
        self.identity, self.to, self.role, self.nominates = identity, to, role, nominates


class IceStage:
    """The lines `endpoint ice ..`."""

    def __init__(self, stage):
        self.stage, self.role, self.checks = stage, None, {}

    def call(self, name, words):
        if name == "new":
            return self.new(*words)
        if name == "offer":
            return self.offer(*words)
        if self.role is None:
            raise Words("no agent")
        if name == "role":
            return self.role
        if name == "peer":
            return self.set_peer(*words)
        if name == "set-role":
            self.role = words[0]
            return None
        if name == "tie-breaker":
            self.tie_breaker = spelling.number(words[0])
            return None
        if name == "check":
            return self.check(*words)
        if name == "check-with":
            return self.check_with(*words)
        if name == "hears":
            message = self.stage.message(words)
            return self.hears(message, self.checks.get(message[8:20]))
        if name == "hears-for":
            check = None if words[0] == "none" else self.checks[spelling.id_of(words[0])]
            return self.hears(self.stage.message(words[1:]), check)
        raise Words(name)

    def new(self, name, password, peer_name, peer_password, tie_breaker, role):
        name, password, peer_name, peer_password = (
            spelling.text(word) for word in (name, password, peer_name, peer_password))
        # Section 5.3: a name of 4 to 256 bytes, a password of 22 to 256.
        if not all(4 <= len(one) <= 256 for one in (name, peer_name)):
            return "NameLength"
        if b":" in name + peer_name:
            return "ColonInName"
        if not all(22 <= len(one) <= 256 for one in (password, peer_password)):
            return "PasswordLength"
        self.begin(name, password, tie_breaker, role)
        self.know(peer_name, peer_password)
        return None

    def begin(self, name, password, tie_breaker, role):
        self.name, self.password, self.peer_password = name, password, None
        self.tie_breaker, self.role, self.checks = spelling.number(tie_breaker), role, {}

    def know(self, peer_name, peer_password):
        self.outgoing, self.peer_password = peer_name + b":" + self.name, peer_password

    @staticmethod
    def side_refusal(name, password):
        if not 4 <= len(name) <= 256:
            return "NameLength"
        if b":" in name:
            return "ColonInName"
        return None if 22 <= len(password) <= 256 else "PasswordLength"

    def offer(self, name, password, tie_breaker, role):
        """An agent that does not know its peer yet."""
        name, password = spelling.text(name), spelling.text(password)
        why = self.side_refusal(name, password)
        if why is None:
            self.begin(name, password, tie_breaker, role)
        return why

    def set_peer(self, name, password):
        name, password = spelling.text(name), spelling.text(password)
        why = self.side_refusal(name, password)
        if why is None:
            self.know(name, password)
        return why

    def check_with(self, identity, to, priority, *words):
        """A check with the attributes of the last words."""
        nominates = words[:1] == ("nominates",)
        carrier = self.stage.message(("request", *words[nominates:]))
        further = [(kind, value) for kind, _, value in spelling.attributes_of(carrier)]
        return self.check(identity, to, priority, "nominates" if nominates else "no", further)

    def refusal_of(self, further, written):
        """Why a check with these attributes cannot have further ones, the first reason."""
        types = [kind for kind, _ in written]
        for kind, _ in further:
            if kind in (USE_CANDIDATE, *ROLES.values(), *SET_APART):
                return "NotAllowed"
            if kind in types:
                return f"AttributeExists 0x{kind:04x}"
            types.append(kind)
        return None

    def check(self, identity, to, priority, nominate="no", further=()):
        """A check of this agent (section 7.2.4), and what is stored of it."""
        if self.peer_password is None:
            return "NoRemote"
        nominates = nominate == "nominates" and self.role == "controlling"
        identity = spelling.id_of(identity)
        attributes = [(stun.USERNAME, self.outgoing),
                      (PRIORITY, struct.pack(">I", spelling.number(priority))),
                      (ROLES[self.role], struct.pack(">Q", self.tie_breaker))]
        attributes += [(USE_CANDIDATE, b"")] if nominates else []
        refused = self.refusal_of(further, attributes)
        if refused:
            return refused
        attributes += further
        message = stun.message(stun.REQUEST, attributes, identity)
        message = stun.fingerprinted(stun.signed(message, stun.SHA1, self.peer_password))
        self.checks[identity] = Check(identity, spelling.address(to), self.role, nominates)
        return f"{self.role}{' nominates' if nominates else ''}: {told(message)}"

    def hears(self, datagram, check):
        is_one, has_header = is_message(datagram)
        if not is_one:
            return "dropped Malformed" if has_header else "dropped NotStun"
        # A check and its answer must have FINGERPRINT (section 7.2.4, and RFC 8489, section 7).
        if not stun.has_right_fingerprint(datagram):
            return "dropped WrongFingerprint"
        kind = int.from_bytes(datagram[:2], "big")
        if kind & 0x3EEF != 0x0001:
            return "dropped OtherMethod"
        if kind & 0x100:
            return self.answered(datagram, check)
        if kind & 0x10:
            return "dropped UnknownAttribute" if self.unknown(datagram) else "indication"
        return self.checked(datagram)

    def unknown(self, message):
        return unknown_in(message, OWN | {PRIORITY, USE_CANDIDATE})

    # ---- A check of the peer (section 7.3).

    def checked(self, check):
        algorithm, name = integrity_of(check), first_of(check, stun.USERNAME)
        if algorithm is None or name is None:
            return self.refused(check, 400, "Bad Request")
        # Section 7.3: only the first half counts, so that checks are answered before the peer's
        # credentials arrive.
        if not name.startswith(self.name + b":") or verified(check, self.password) is None:
            return self.refused(check, 401, "Unauthenticated")
        unknown = self.unknown(check)
        if unknown:
            types = b"".join(struct.pack(">H", one) for one in unknown)
            return self.refused(check, 420, "Unknown Attribute", algorithm, types)
        priority = first_of(check, PRIORITY)
        if priority is None or len(priority) != 4:
            return self.refused(check, 400, "Bad Request", algorithm)
        before = self.role
        if not self.agrees(first_of(check, ROLES[self.role])):
            answer = self.ended(self.error(check, 487, "Role Conflict"), algorithm)
            return "role conflict: " + told(answer)
        nominated = self.role == "controlled" and first_of(check, USE_CANDIDATE) is not None
        words = [f"accepted {struct.unpack('>I', priority)[0]}"]
        words += ["nominated"] * nominated + ["switched"] * (self.role != before)
        answer = stun.message(stun.SUCCESS, (), check[8:20])
        answer = stun.added(answer, stun.XOR_MAPPED_ADDRESS,
                            xored(self.stage.source, check[8:20]))
        return f"{' '.join(words)}: {told(self.ended(answer, algorithm))}"

    def agrees(self, theirs):
        """Section 7.3.1.1: whether the check goes on, and the role from then on. `theirs` is the
        tie-breaker of a peer with the same role."""
        if theirs is None or len(theirs) != 8:
            return True
        is_larger = self.tie_breaker >= struct.unpack(">Q", theirs)[0]
        if is_larger == (self.role == "controlling"):
            return False
        self.role = OTHER[self.role]
        return True

    def error(self, check, code, phrase):
        value = struct.pack(">HBB", 0, *divmod(code, 100)) + phrase.encode()
        return stun.message(stun.ERROR, [(stun.ERROR_CODE, value)], check[8:20])

    def refused(self, check, code, phrase, algorithm=None, types=b""):
        answer = self.error(check, code, phrase)
        if types:
            answer = stun.added(answer, stun.UNKNOWN, types)
        return refusal(code, self.ended(answer, algorithm))

    def ended(self, answer, algorithm):
        if algorithm:
            answer = stun.signed(answer, algorithm, self.password)
        return stun.fingerprinted(answer)

    # ---- The answer to a check of this agent (section 7.2.5).

    def answered(self, response, check):
        if check is None or check.identity != response[8:20]:
            return "dropped NotAsked"
        if verified(response, self.peer_password) != stun.SHA1:
            return "dropped WrongSignature"
        if not is_same(self.stage.source, check.to):
            return "failed OtherPath"
        unknown = self.unknown(response)
        if unknown:
            return f"failed NotUnderstood 0x{unknown[0]:04x}"
        if not response[1] & 0x10:
            mapped = mapped_in(response)
            nominated = " nominated" if check.nominates else ""
            return f"valid {mapped}{nominated}" if mapped else "failed Malformed"
        code = code_in(response)
        if code == 487:
            switched = self.role == check.role
            self.role = OTHER[check.role]
            return "role conflict" + (", switched" if switched else "")
        return f"failed {code}" if code else "failed Malformed"
