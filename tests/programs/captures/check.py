#!/usr/bin/env python3
"""Gives the messages of this folder to the built stun_inspect, and compares what it prints with
what is worked out here.

    tests/programs/captures/check.py [PROGRAM]

Without a PROGRAM it takes crates/stun_inspect/out/stun_inspect. Each message is decoded raw, in
hexadecimal and in base64. It is decoded as a packet of IPv4, as xxd, hexdump, od, tcpdump,
Wireshark and tshark dump it, and out of captures that packets.py makes. It is cut and changed.
Where its credentials are known its integrity is verified, under them and under others. All messages
of a file are told one a line, dump by dump, and packet by packet. Captures that are cut or damaged
anywhere are told so. What must be printed is worked out from RFC 8489, 8656 and 8445 by Python's
hashlib, hmac and zlib, and never taken from the program. It takes some seconds. The last line
counts the runs.
"""
import base64
import hashlib
import hmac
import ipaddress
import pathlib
import struct
import subprocess
import sys
import tempfile
import zlib

import packets

HERE = pathlib.Path(__file__).resolve().parent
CLASSES = {0x000: "request", 0x010: "indication", 0x100: "success response",
           0x110: "error response"}
METHODS = {0x001: "Binding", 0x003: "Allocate", 0x004: "Refresh", 0x006: "Send", 0x007: "Data",
           0x008: "CreatePermission", 0x009: "ChannelBind"}
ERRORS = {401: "Unauthenticated", 420: "Unknown Attribute", 437: "Allocation Mismatch",
          438: "Stale Nonce", 487: "Role Conflict"}
INTEGRITY, INTEGRITY_SHA256, FINGERPRINT = 0x0008, 0x001C, 0x8028


# ---- The values of attributes


def text(value, _):
    def shown(c):
        if c in '"\\':
            return "\\" + c
        return c if " " <= c <= "~" else "\\u{%x}" % ord(c)
    return '"' + "".join(map(shown, value.decode())) + '"'


def nonce(value, _):
    told = "no security bits"
    if value.startswith(b"obMatJos2") and len(value) >= 13:
        bits = base64.b64decode(value[9:13])
        known = [name for bit, name in ((0x80, "password algorithms"), (0x40, "username anonymity"))
                 if bits[0] & bit]
        told = f"security bits {bits.hex()}: {', '.join(known) or 'none that is known'}"
    return f"{text(value, _)}, {told}"


def address(value, _):
    ip = ipaddress.ip_address(value[4:])
    port = value[2] * 256 + value[3]
    return f"[{ip}]:{port}" if ip.version == 6 else f"{ip}:{port}"


def xor_address(value, message):
    mask = message[4:6] + message[4:20]
    return address(value[:2] + bytes(a ^ b for a, b in zip(value[2:], mask)), message)


def error(value, _):
    code = value[2] * 100 + value[3]
    return f"{code} {ERRORS[code]}, {text(value[4:], _)}"


def number(value, _):
    return str(int.from_bytes(value, "big"))


def flag(value, _):
    return "set" if value == b"" else f"malformed {value.hex()}"


def channel(value, _):
    """RFC 8656 has 0x4000 to 0x4fff; coturn's client binds all that RFC 5766 had, to 0x7fff."""
    if not 0x4000 <= int.from_bytes(value[:2], "big") <= 0x7FFF:
        return f"malformed {value.hex()}"
    return f"channel 0x{value[:2].hex()}"


def lifetime(value, _):
    return f"{int.from_bytes(value, 'big')} seconds"


def family(value, _):
    return {1: "IPv4", 2: "IPv6"}[value[0]]


def even_port(value, _):
    return "even, and the next reserved" if value[0] & 0x80 else "even"


def transport(value, _):
    return {6: "TCP 6", 17: "UDP 17"}[value[0]]


def change_request(value, _):
    return {0: "no change", 2: "another port", 4: "another address",
            6: "another address and another port"}[value[3]]


def response_port(value, _):
    return f"port {int.from_bytes(value[:2], 'big')}"


def digits(value, _):
    return value.hex() or "empty"


ATTRIBUTES = {
    0x0001: ("MAPPED-ADDRESS", address), 0x0003: ("CHANGE-REQUEST", change_request),
    0x0006: ("USERNAME", text), 0x0008: ("MESSAGE-INTEGRITY", digits),
    0x0009: ("ERROR-CODE", error), 0x000C: ("CHANNEL-NUMBER", channel),
    0x000D: ("LIFETIME", lifetime), 0x0012: ("XOR-PEER-ADDRESS", xor_address),
    0x0013: ("DATA", digits), 0x0014: ("REALM", text), 0x0015: ("NONCE", nonce),
    0x0016: ("XOR-RELAYED-ADDRESS", xor_address), 0x0017: ("REQUESTED-ADDRESS-FAMILY", family),
    0x0018: ("EVEN-PORT", even_port), 0x0019: ("REQUESTED-TRANSPORT", transport),
    0x001A: ("DONT-FRAGMENT", flag), 0x0020: ("XOR-MAPPED-ADDRESS", xor_address),
    0x0022: ("RESERVATION-TOKEN", digits), 0x0024: ("PRIORITY", number),
    0x0025: ("USE-CANDIDATE", flag), 0x0026: ("PADDING", digits),
    0x0027: ("RESPONSE-PORT", response_port), 0x002A: ("CONNECTION-ID", number), 0x8022: ("SOFTWARE", text), 0x8028: ("FINGERPRINT", digits),
    0x8029: ("ICE-CONTROLLED", digits), 0x802A: ("ICE-CONTROLLING", digits),
    0x802B: ("RESPONSE-ORIGIN", address), 0x802C: ("OTHER-ADDRESS", address),
    0x802E: ("THIRD-PARTY-AUTHORIZATION", text), 0x8030: ("MOBILITY-TICKET", digits),
}


# ---- What is printed


def attributes(message):
    """The place, the type and the value of each attribute."""
    place = 20
    while place < len(message):
        kind, length = struct.unpack_from(">HH", message, place)
        yield place, kind, message[place + 4:place + 4 + length]
        place += 4 + length + -length % 4


def decoded(message):
    kind = struct.unpack_from(">H", message)[0]
    method = kind & 0xF | kind >> 1 & 0x70 | kind >> 2 & 0xF80
    lines = [f"{name:28} {value}" for name, value in (
        ("class", CLASSES[kind & 0x110]), ("method", f"{METHODS[method]} 0x{method:03x}"),
        ("id", message[8:20].hex()))]
    passed = set()
    for place, kind, value in attributes(message):
        name, told = ATTRIBUTES[kind]
        hider = (FINGERPRINT if FINGERPRINT in passed else None if kind == FINGERPRINT
                 else INTEGRITY_SHA256 if INTEGRITY_SHA256 in passed
                 else INTEGRITY if INTEGRITY in passed and kind != INTEGRITY_SHA256 else None)
        seen = f"hidden by {ATTRIBUTES[hider][0]}: " if hider else ""
        ending = f", {fingerprint(message, place, value)}" if kind == FINGERPRINT else ""
        lines.append(f"{name:28} 0x{kind:04x} at {place:<5} {len(value):>5} bytes  "
                     f"{seen}{told(value, message)}{ending}")
        passed.add(kind)
    return lines


def cut_at(message, length):
    """What `decode` prints of the first bytes of a message: what comes before the cut, and that it
    is truncated."""
    whole = [place for place, _, value in attributes(message)
             if place + 4 + len(value) + -len(value) % 4 <= length]
    before = decoded(message)[:3 + len(whole)] if length >= 20 else []
    return [*before, "not a message: truncated"]


def fingerprint(message, place, value):
    if len(value) != 4 or place + 8 != len(message):
        return "misplaced"
    return "right" if value == struct.pack(">I",
                                           zlib.crc32(message[:place]) ^ 0x5354554E) else "wrong"


def verified(message, words):
    """What `verify` prints under a password, or under a name, a realm and a password. Only
    HMAC-SHA1 is signed here."""
    key = words[0].encode() if len(words) == 1 else hashlib.md5(":".join(words).encode()).digest()
    lines = []
    for place, kind, value in attributes(message):
        if kind == INTEGRITY and not lines:
            covered = message[:2] + struct.pack(">H", place + 4) + message[4:place]
            is_right = hmac.new(key, covered, hashlib.sha1).digest() == value
            lines.append("valid MESSAGE-INTEGRITY" if is_right
                         else "invalid: the signature does not match")
    lines = lines or ["unsigned"]
    for _, kind, value in attributes(message):
        if kind == INTEGRITY:
            break
        if len(words) == 3 and kind == 0x0006 and value != words[0].encode():
            lines.append("USERNAME is another name")
    for _, kind, value in attributes(message):
        if kind == INTEGRITY:
            break
        if len(words) == 3 and kind == 0x0014 and value != words[1].encode():
            lines.append("REALM is another realm")
    return lines


# ---- Runs


class Runs:
    def __init__(self, program, folder):
        self.program, self.folder, self.count = program, folder, 0

    def wants(self, what, words, given, status, lines, error=""):
        self.count += 1
        ran = subprocess.run([self.program, *words], input=given, capture_output=True, timeout=60)
        printed = "".join(f"{line}\n" for line in lines).encode()
        told = f"stun_inspect: {error}\n".encode() if error else b""
        if (ran.returncode, ran.stdout, ran.stderr) != (status, printed, told):
            sys.exit(f"{what}: stun_inspect {' '.join(words)} on {given[:2000]!r}\n"
                     f"  wanted status {status} and {printed.decode()}{told.decode()}"
                     f"  got status {ran.returncode} and "
                     f"{ran.stdout.decode()}{ran.stderr.decode()}")


def packet(message):
    """A packet of IPv4 with UDP, without checksums."""
    udp = struct.pack(">HHHH", 3478, 34780, 8 + len(message), 0) + message
    return struct.pack(">BBHHHBBH", 0x45, 0, 20 + len(udp), 1, 0, 64, 17,
                       0) + bytes([127, 0, 0, 1] * 2) + udp


def dump(given, offset, groups, gap="  "):
    """A dump with a column of characters after a gap: the front of a row with an offset, and the
    digits of so many bytes in a group."""
    rows = []
    for place in range(0, len(given), 16):
        row = given[place:place + 16]
        shown = " ".join(row[at:at + groups].hex() for at in range(0, 16, groups))
        width = 32 + 16 // groups - 1
        rows.append(f"{offset % place}{shown.rstrip():{width}}{gap}{characters(row)}\n")
    return "".join(rows).encode()


def characters(row):
    return "".join(chr(c) if 32 <= c < 127 else "." for c in row)


def rows_of(given):
    return [(place, given[place:place + 16]) for place in range(0, len(given), 16)]


def hexdump(given):
    """As `hexdump -C -v` dumps it."""
    rows = [f"{place:08x}  {row[:8].hex(' '):23}  {row[8:].hex(' '):23}  |{characters(row)}|\n"
            for place, row in rows_of(given)]
    return "".join([*rows, f"{len(given):08x}\n"]).encode()


def od(given, has_characters=False):
    """As `od -A x -t x1 -v` dumps it, or `-t x1z` with characters."""
    rows = [f"{place:06x} {row.hex(' '):47}  >{characters(row)}<\n" if has_characters
            else f"{place:06x} {row.hex(' ')}\n" for place, row in rows_of(given)]
    return "".join([*rows, f"{len(given):06x}\n"]).encode()


def layouts(message):
    """What the program reads: the message as it is, as digits and letters, and as programs dump it
    or the packet that carries it."""
    whole = packet(message)
    frame = bytes(12) + b"\x08\x00" + whole
    return [
        message, message.hex().encode(), message.hex(" ").encode(),
        message.hex(":").upper().encode(), base64.encodebytes(message), whole.hex().encode(),
        frame.hex().encode(), dump(message, "%08x: ", 2), dump(message, "%08x: ", 1),
        dump(whole, "\t0x%04x:  ", 2), dump(frame, "%04x   ", 1, "   "),
        dump(frame, "%04x  ", 1, "   "), b"12:34:56.789012 IP 127.0.0.1.3478 > 127.0.0.1.34780: "
                                         b"UDP, length 28\n" + dump(whole, "\t0x%04x:  ", 2),
        dump(message, "%04x   ", 1, "   "), dump(message, "0x%04x: ", 2),
        hexdump(message), hexdump(frame), od(message), od(message, True), od(whole),
    ]


def try_message(runs, what, message, words):
    lines = decoded(message)
    for given in layouts(message):
        runs.wants(what, ["decode"], given, 0, lines)
    runs.wants(what, ["decode"], message[:-1], 1, cut_at(message, len(message) - 1))
    changed = message[:19] + bytes([message[19] ^ 1]) + message[20:]
    runs.wants(what, ["decode"], changed, 0, decoded(changed))
    if words:
        runs.wants(what, ["verify", *words], message, 0, verified(message, words))
        runs.wants(what, ["verify", *words], changed, 1, verified(changed, words))
        runs.wants(what, ["verify", *words[:-1], "-"], words[-1].encode() + b"\n" + message, 0,
                   verified(message, words))
        for wrong in ([*words[:-1], "another"], ["another", "other", words[-1]]):
            runs.wants(what, ["verify", *wrong], message, 1, verified(message, wrong))
    else:
        runs.wants(what, ["verify", "password"], message, 1,
                   ["unsigned"])


# ---- Several messages


def several(messages, headings, ending, others):
    """What is printed of several messages: each after its heading, and what was counted."""
    lines = []
    for number, (message, heading) in enumerate(zip(messages, headings), 1):
        lines += [f"message {number}, {heading}", *decoded(message), ""]
    return [*lines, f"messages: {len(messages)}, {ending}: {others}"]


def try_texts(runs, what, messages):
    """One message a line, with blank lines and with lines of something else, and dump after
    dump."""
    def wants(given, starts, others):
        wanted = several(messages, [f"line {start}" for start in starts], "other", others)
        runs.wants(what, ["decode"], given, 0, wanted)

    count = len(messages)
    wants("".join(f"{message.hex()}\n" for message in messages).encode(), range(1, count + 1), 0)
    letters = [b"\n" + base64.b64encode(message) + b"\r\n" for message in messages]
    wants(b"\n8000" + b"".join(letters), range(3, 2 * count + 3, 2), 1)
    for front, offset, groups, gap in ((b"12:34:56.789012 IP 127.0.0.1 > 127.0.0.1: UDP\n",
                                        "\t0x%04x:  ", 2, "  "),
                                       (b"Frame 1:\n", "%04x  ", 1, "   ")):
        dumps = [front + dump(packet(message), offset, groups, gap) for message in messages]
        starts = [2 + sum(one.count(b"\n") for one in dumps[:number]) for number in range(count)]
        wants(b"".join(dumps), starts, 0)


# ---- Captures


def of_capture(messages, version=4, others=0, without=0, first=1, stamped=True):
    """What is printed of a capture with these messages, in packets from the first number on."""
    headings = []
    for number, _ in enumerate(messages, first):
        moment = f"{packets.moment(number)}, " if stamped else ""
        headings.append(f"packet {number}, {moment}{packets.ends(version)}")
    return several(messages, headings, "other UDP", f"{others}, no UDP: {without}")


def unread(count, why):
    return [*of_capture([]), f"not read: {count} {why}, the first is packet 1 at byte 24"]


RESOLUTIONS = ((None, 10 ** 6), (9, 10 ** 9), (6, 10 ** 6), (0x8A, 2 ** 10), (3, 10 ** 3))


def try_captures(runs, what, messages):
    """The messages over each link, in each kind of file, over IPv4 and IPv6."""
    for version, wrap in ((4, packets.ipv4), (6, packets.ipv6)):
        carried = [wrap(packets.udp(message)) for message in messages]
        wanted = of_capture(messages, version)
        for name, (link, frame) in packets.LINKS.items():
            frames = [frame(packet) for packet in carried]
            for order in "<>":
                files = [packets.pcap(link, frames, order, nano) for nano in (False, True)]
                files += [packets.pcapng(link, frames, order, *resolution)
                          for resolution in RESOLUTIONS]
                for given in files:
                    runs.wants(f"{what}, {name}, IPv{version}", ["decode"], given, 0, wanted)
    path = pathlib.Path(runs.folder) / "capture.pcap"
    path.write_bytes(packets.pcap(228,
                                  [packets.ipv4(packets.udp(message)) for message in messages]))
    runs.wants(f"{what}, from a file", ["decode", str(path)], b"", 0, of_capture(messages))


def try_headers(runs, what, message):
    """Options of IPv4, extension headers of IPv6, and packets without a message."""
    datagram, ethernet = packets.udp(message), packets.LINKS["Ethernet"][1]

    def wants(name, given, status, wanted):
        runs.wants(f"{what}, {name}", ["decode"], given, status, wanted)

    given = packets.pcap(101, [packets.ipv4(datagram, options=bytes(40))])
    wants("options", given, 0, of_capture([message]))
    for name, headers in packets.EXTENSIONS.items():
        given = packets.pcap(229, [packets.ipv6(datagram, headers=headers)])
        wants(name, given, 0, of_capture([message], 6))
    without = [packets.ipv4(b"", 6), packets.ipv6(b"", 6), packets.ipv6(b"", 59),
               b"\x50" + bytes(40), packets.ipv4(struct.pack(">HHHH", 1, 2, 7, 0))]
    other = packets.ipv4(packets.udp(b"\x80" * 20))
    frames = [bytes(12) + b"\x08\x06" + bytes(46),
              *map(ethernet, [*without, other, packets.ipv4(datagram)])]
    wants("others", packets.pcap(1, frames), 0, of_capture([message], 4, 1, 6, first=8))
    fragments = [packets.ipv4(datagram, fragment=0x2000), packets.ipv4(datagram, fragment=0x00B9),
                 packets.ipv6(datagram, headers=[(44, b"\0\0\1" + bytes(4))])]
    wants("fragments", packets.pcap(101, fragments), 1, unread(3, "fragments"))
    cut = [packets.ipv4(datagram)[:length] for length in range(1, 28)]
    cut += [packets.ipv6(datagram)[:length] for length in range(1, 48)]
    wants("cut headers", packets.pcap(101, cut), 1, unread(len(cut), "with headers cut short"))
    wants("another link", packets.pcap(147, [b"", b"1"]), 1,
          unread(2, "of another link type, such as 147"))
    heading, *_, ending = of_capture([message])
    for length in range(len(message) - 1, 19, -7):
        snapped, whole = packets.ipv4(datagram)[:28 + length], len(datagram) + 20
        blocks = packets.section() + packets.interface(101)
        for given, place in ((packets.pcap(101, [snapped], whole=whole), 24),
                             (blocks + packets.enhanced(snapped, 1, whole=whole), len(blocks))):
            wanted = [f"{heading}, cut, at byte {place}", *cut_at(message, length), "", ending]
            wants("snapped", given, 1, wanted)


def try_streams(runs, what, messages):
    """ChannelData over UDP, and messages and ChannelData over TCP."""
    def wants(name, segments, wrap, told, ending):
        """`told` has, of each packet that is told, its number, what is told of its way, and its
        message or its ChannelData."""
        lines, number = [], 0
        for place, way, message, data in told:
            head = f"packet {place}, {packets.moment(place)}, {packets.ends(4)}{way}"
            if message:
                number += 1
                lines += [f"message {number}, {head}", *decoded(message), ""]
            else:
                lines += [f"channel data, {head}", f"{'channel':28} 0x{data[0]:04x}",
                          f"{'data':28} {len(data[1])} bytes  {data[1].hex() or 'empty'}", ""]
        given = packets.pcap(101, [packets.ipv4(wrap(one), 17 if wrap is packets.udp else 6)
                                   for one in segments])
        status = 0 if number else 1
        runs.wants(f"{what}, {name}", ["decode"], given, status, [*lines, *ending])

    def counts(told, others=0, without=0, channels=0):
        lines = [f"messages: {told}, other UDP: {others}, no UDP: {without}"]
        return lines + ([f"channel data: {channels}"] if channels else [])

    count, first = len(messages), messages[0]
    for padded in (False, True):
        wants("ChannelData over UDP",
              [packets.channel_data(0x4000 + number, message, padded)
               for number, message in enumerate(messages)], packets.udp,
              [(number + 1, f", channel 0x{0x4000 + number:04x}", message, None)
               for number, message in enumerate(messages)], counts(count))
    data = [(0x4001, b"hello"), (0x7FFF, b""), (0x4FFF, bytes(range(256)))]
    wants("other ChannelData over UDP",
          [packets.channel_data(*one, False) for one in data] + [first], packets.udp,
          [(number, "", None, one) for number, one in enumerate(data, 1)]
          + [(4, "", first, None)], counts(1, channels=3))
    wants("what is no ChannelData",
          [b"\x40\x01\0\5hell", b"\x40\x01\0\1hello", b"\x80\x01\0\1h\0\0\0", b"\x40\x01\0", first],
          packets.udp, [(5, "", first, None)], counts(1, others=4))
    wants("a message a segment", messages, packets.tcp,
          [(number, ", TCP", message, None) for number, message in enumerate(messages, 1)],
          counts(count))
    wants("a message a segment with options", messages,
          lambda one: packets.tcp(one, options=bytes(12)),
          [(number, ", TCP", message, None) for number, message in enumerate(messages, 1)],
          counts(count))
    pair = messages[:2]
    wants("messages and ChannelData in a segment",
          [b"".join(pair) + packets.channel_data(0x4001, b"hello", True)
           + packets.channel_data(0x5002, first, True)], packets.tcp,
          [*((1, ", TCP", message, None) for message in pair),
           (1, ", TCP", None, (0x4001, b"hello")), (1, ", TCP, channel 0x5002", first, None)],
          counts(len(pair) + 1, channels=1))
    wants("messages behind their lengths",
          [b"".join(struct.pack(">H", len(message)) + message for message in pair)], packets.tcp,
          [(1, ", TCP", message, None) for message in pair], counts(len(pair)))
    others = [b"GET / HTTP/1.0\r\n\r\n", b"", bytes(200), first[5:]]
    wants("other protocols over TCP", [*others, first], packets.tcp,
          [(5, ", TCP", first, None)], counts(1, without=4))
    for length in range(8, len(first), 7):
        wants("a message that goes on", [first[:length], first + first[:length]], packets.tcp,
              [(2, ", TCP", first, None)],
              [*counts(1), "not read: 2 segments of TCP that end within a message, "
                           "the first is packet 1 at byte 24"])


def ends_anywhere(runs, what, messages, parts, fronts):
    """A file of these parts, of which so many stand before the packets, that ends anywhere but
    between two."""
    given = b"".join(parts)
    ends = [sum(map(len, parts[:count])) for count in range(fronts, len(parts) + 1)]
    for length in range(ends[0] + 1, len(given)):
        read = sum(end <= length for end in ends) - 1
        if length not in ends:
            error = (f"bad capture after packet {read}, at byte {ends[read]}: "
                     "the file ends within a record")
            runs.wants(what, ["decode"], given[:length], 2, of_capture(messages[:read]), error)


def try_damage(runs, what, messages):
    """A file that ends anywhere, or has a block that is none, is told up to there."""
    frames = [packets.ipv4(packets.udp(message)) for message in messages[:2]]
    header = packets.pcap(101, [])
    for length in range(4, len(header)):
        error = "bad capture after packet 0, at byte 0: the file ends within its header"
        runs.wants(what, ["decode"], header[:length], 2, [], error)
    one, both = packets.pcap(101, frames[:1]), packets.pcap(101, frames)
    ends_anywhere(runs, what, messages, [header, one[len(header):], both[len(one):]], 1)
    blocks = [packets.section(), packets.interface(101)]
    blocks += [packets.enhanced(frame, number) for number, frame in enumerate(frames, 1)]
    ends_anywhere(runs, what, messages, blocks, 2)
    front, last = b"".join(blocks[:3]), blocks[3]
    length = "a block cannot have {} bytes, or has another length at its end"
    for damaged, error in (
            (packets.enhanced(frames[1], 2, interface_number=1), "interface 1 is not described"),
            (struct.pack("<II", 6, 8) + bytes(20), length.format(8)),
            (struct.pack("<II", 6, 18) + bytes(20), length.format(18)),
            (last[:-4] + struct.pack("<I", 16), length.format(len(last))),
            (packets.block(6, struct.pack("<IIIII", 0, 0, 0, 5, 5) + bytes(4)),
             "a packet of 24 bytes is longer than its block"),
            (packets.block(0x0A0D0D0A, bytes(16)), "the byte order of a section is unknown")):
        error = f"bad capture after packet 1, at byte {len(front)}: {error}"
        runs.wants(what, ["decode"], front + damaged, 2, of_capture(messages[:1]), error)
    ethernet = packets.LINKS["Ethernet"][1](frames[1])
    other = packets.section(">") + packets.interface(1, ">") + packets.enhanced(ethernet, 2, ">")
    runs.wants(f"{what}, two sections", ["decode"], front + other, 0, of_capture(messages[:2]))
    simple = packets.block(3, struct.pack("<I", len(frames[0])) + frames[0])
    given = b"".join(blocks[:2]) + simple
    runs.wants(f"{what}, a simple packet", ["decode"], given, 0,
               of_capture(messages[:1], stamped=False))


def captures(path):
    """The name, the words of `verify`, and the bytes of each message of a file."""
    for number, block in enumerate(path.read_text().split("\nfrom ")[1:], 1):
        head, *rows = block.split("\n")
        words = head.partition(", verify ")[2].split()
        yield f"{path.name}, message {number}, from {head}", bytes.fromhex("".join(rows)), words


def main():
    built = HERE.parent.parent.parent / "crates/stun_inspect/out/stun_inspect"
    program = sys.argv[1] if sys.argv[1:] else built
    count = 0
    with tempfile.TemporaryDirectory() as folder:
        runs = Runs(str(program), folder)
        for path in sorted(HERE.glob("*.txt")):
            messages = []
            for what, message, words in captures(path):
                try_message(runs, what, message, words)
                messages.append(message)
            try_texts(runs, path.name, messages)
            try_captures(runs, path.name, messages)
            try_headers(runs, path.name, messages[0])
            try_damage(runs, path.name, messages)
            try_streams(runs, path.name, messages)
            count += len(messages)
    print(f"captures: {count} messages of other programs, {runs.count} runs of stun_inspect as RFC "
          "8489 has it")
    if count == 0:
        sys.exit("captures: none is there")


if __name__ == "__main__":
    main()
