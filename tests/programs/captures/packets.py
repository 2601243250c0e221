"""Makes captures of packets: what `tcpdump`, `tshark` and Wireshark write, and the packets in them.

A packet is made in three steps, `udp`, `ipv4` or `ipv6`, and one of `LINKS`; a file of packets by
`pcap` or `pcapng`.
"""
import ipaddress
import struct

FROM, TO = ("192.0.2.1", 3478), ("198.51.100.7", 34780)
FROM6, TO6 = ("2001:db8::1", 3478), ("2001:db8:1:2:3:4:5:6", 34780)


def udp(payload, ports=(FROM[1], TO[1])):
    return struct.pack(">HHHH", *ports, 8 + len(payload), 0) + payload


def tcp(payload, ports=(FROM[1], TO[1]), options=b""):
    words = 5 + len(options) // 4
    front = struct.pack(">HHIIBBHHH", *ports, 1, 1, words << 4, 0x18, 65535, 0, 0)
    return front + options + payload


def channel_data(channel, data, is_padded):
    """ChannelData, as RFC 8656, section 12.4, has it; over TCP it is padded (section 12.5)."""
    return struct.pack(">HH", channel, len(data)) + data + bytes(-len(data) % 4 * is_padded)


def ipv4(inner, protocol=17, options=b"", fragment=0):
    ends = b"".join(ipaddress.ip_address(end[0]).packed for end in (FROM, TO))
    words, length = 5 + len(options) // 4, 20 + len(options) + len(inner)
    front = struct.pack(">BBHHHBBH", 0x40 + words, 0, length, 1, fragment, 64, protocol, 0)
    return front + ends + options + inner


def ipv6(inner, protocol=17, headers=()):
    """With extension headers before what it carries: of each its kind, and its bytes after that of
    the next one."""
    kinds = [kind for kind, _ in headers] + [protocol]
    inner = b"".join(bytes([after]) + rest for (_, rest), after in zip(headers, kinds[1:])) + inner
    ends = b"".join(ipaddress.ip_address(end[0]).packed for end in (FROM6, TO6))
    return struct.pack(">IHBB", 0x60000000, len(inner), kinds[0], 64) + ends + inner


EXTENSIONS = {
    "options from hop to hop": [(0, b"\0" + bytes(6))],
    "options of the destination, of 24 bytes": [(60, b"\2" + bytes(22))],
    "routing and a whole fragment": [(43, b"\0" + bytes(6)), (44, b"\0" + bytes(6))],
    "authentication of 24 bytes": [(51, b"\4" + bytes(22))],
}


def typed(packet, *tags):
    """A packet behind its type, before which each tag of a VLAN has its own."""
    kind = b"\x08\x00" if packet[0] >> 4 == 4 else b"\x86\xdd"
    return b"".join(tag + b"\x00\x07" for tag in tags) + kind + packet


def cooked_2(packet, *tags):
    """Of Linux cooked 2 the header stands between the first type and what follows it."""
    inner = typed(packet, *tags)
    return inner[:2] + bytes(18) + inner[2:]


VLAN, OUTER = b"\x81\x00", b"\x88\xa8"
LINKS = {
    "Ethernet": (1, lambda packet: bytes(12) + typed(packet)),
    "Ethernet with a VLAN": (1, lambda packet: bytes(12) + typed(packet, VLAN)),
    "Ethernet with two VLANs": (1, lambda packet: bytes(12) + typed(packet, OUTER, VLAN)),
    "Linux cooked 1": (113, lambda packet: bytes(14) + typed(packet)),
    "Linux cooked 1 with a VLAN": (113, lambda packet: bytes(14) + typed(packet, VLAN)),
    "Linux cooked 2": (276, cooked_2),
    "Linux cooked 2 with a VLAN": (276, lambda packet: cooked_2(packet, VLAN)),
    "IP alone": (101, lambda packet: packet),
    "loopback": (0, lambda packet: bytes([2, 0, 0, 0]) + packet),
}


# 2024-02-29 23:59:58.5 UTC, a leap day.
SECONDS = 1709251198


def pcap(link, packets, order="<", nano=False, whole=None):
    """A file of libpcap. Each packet is captured half a second after the one before it."""
    magic = 0xA1B23C4D if nano else 0xA1B2C3D4
    parts = [struct.pack(order + "IHHiIII", magic, 2, 4, 0, 0, 262144, link)]
    for number, packet in enumerate(packets, 1):
        seconds, half = SECONDS + number // 2, (500_000_000 if nano else 500_000) * (number % 2)
        lengths = len(packet), whole or len(packet)
        parts.append(struct.pack(order + "IIII", seconds, half, *lengths) + packet)
    return b"".join(parts)


def block(kind, body, order="<"):
    body += bytes(-len(body) % 4)
    length = struct.pack(order + "I", 12 + len(body))
    return struct.pack(order + "I", kind) + length + body + length


def section(order="<"):
    return block(0x0A0D0D0A, struct.pack(order + "IHHq", 0x1A2B3C4D, 1, 0, -1), order)


def interface(link, order="<", resolution=None):
    options = b""
    if resolution is not None:
        options = struct.pack(order + "HHBxxxHH", 9, 1, resolution, 0, 0)
    return block(1, struct.pack(order + "HHI", link, 0, 262144) + options, order)


def enhanced(packet, number, order="<", in_second=1_000_000, interface_number=0, whole=None):
    ticks = SECONDS * in_second + number * in_second // 2
    halves, lengths = (ticks >> 32, ticks & 0xFFFFFFFF), (len(packet), whole or len(packet))
    return block(6, struct.pack(order + "IIIII", interface_number, *halves, *lengths) + packet,
                 order)


def pcapng(link, packets, order="<", resolution=None, in_second=1_000_000):
    """A file of blocks, with a block of names among them."""
    parts = [section(order), interface(link, order, resolution), block(4, bytes(4), order)]
    for number, packet in enumerate(packets, 1):
        parts.append(enhanced(packet, number, order, in_second))
    return b"".join(parts)


def moment(number):
    """The moment of a packet, as it is printed."""
    minute, second = divmod(58 + number // 2, 60)
    day = "2024-02-29 23:59" if minute == 0 else "2024-03-01 00:00"
    return f"{day}:{second:02}.{500000 * (number % 2):06}"


def ends(version):
    """The addresses of a packet, as they are printed."""
    if version == 4:
        return f"{FROM[0]}:{FROM[1]} to {TO[0]}:{TO[1]}"
    return f"[{FROM6[0]}]:{FROM6[1]} to [{TO6[0]}]:{TO6[1]}"
