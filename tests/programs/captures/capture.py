#!/usr/bin/env python3
"""Makes the files of this folder anew: what other programs send each other over loopback.

    capture.py          as root, where Debian's packages coturn, libnice-dev and python3-aioice are
                        installed, and gcc

A file has a line with its programs and their versions, and then messages, each once for its sender,
type and types of attributes. A message is a line `from PROGRAM`, with the words of `stun_inspect
verify` where it is signed, and its bytes in hexadecimal. Nonces, ids, ports and passwords are
others in each run.
"""
import os
import pathlib
import shlex
import socket
import struct
import subprocess
import sys
import tempfile
import threading
import time

HERE = pathlib.Path(__file__).resolve().parent
LONG_TERM = ("user", "realm", "pass")
SERVER_PORT = 34780
SIGNED = (0x0008, 0x001C)


class Sniffer(threading.Thread):
    """Keeps each UDP datagram on loopback as (source port, destination port, payload)."""

    def __init__(self):
        super().__init__(daemon=True)
        self.socket = socket.socket(socket.AF_PACKET, socket.SOCK_RAW, socket.htons(3))
        self.socket.bind(("lo", 0))
        self.seen, self.is_over = [], False

    def run(self):
        self.socket.settimeout(0.2)
        while not self.is_over:
            try:
                frame, (_, _, direction, *_) = self.socket.recvfrom(65536)
            except TimeoutError:
                continue
            is_ipv4 = frame[12:14] == b"\x08\x00"
            if direction == socket.PACKET_OUTGOING or not is_ipv4:
                continue
            if frame[23] == socket.IPPROTO_UDP:
                start = 14 + 4 * (frame[14] & 15)
                source, target, length = struct.unpack_from(">HHH", frame, start)
                self.seen.append((source, target, frame[start + 8:start + length]))

    def __enter__(self):
        self.start()
        return self

    def __exit__(self, *_):
        time.sleep(1)
        self.is_over = True
        self.join()


def types_of(message):
    """The class and method, and the type of each attribute; None where the bytes are no message."""
    if len(message) < 20 or message[0] > 0x3F or message[4:8] != bytes.fromhex("2112a442"):
        return None
    found, place = [], 20
    while place + 4 <= len(message):
        kind, length = struct.unpack_from(">HH", message, place)
        found.append(kind)
        place += 4 + length + -length % 4
    return struct.unpack_from(">H", message)[0], tuple(found)


def kept(seen, sender_of, words_of, had):
    """The lines for the messages: of each sender the first with its types."""
    lines = []
    for source, target, message in seen:
        sender, types = sender_of(source, target), types_of(message)
        if sender is None or types is None or (sender, types) in had:
            continue
        had.add((sender, types))
        words = words_of(message) if any(kind in SIGNED for kind in types[1]) else None
        lines.append(f"from {sender}" + (f", verify {' '.join(words)}" if words else ""))
        digits = message.hex()
        lines += [digits[at:at + 64] for at in range(0, len(digits), 64)]
    return lines


def write(name, title, lines):
    (HERE / name).write_text("\n".join([title, *lines]) + "\n")
    print(name, sum(line.startswith("from ") for line in lines), "messages")


def version(package):
    asked = subprocess.run(["dpkg-query", "-W", "-f", "${Version}", package], capture_output=True,
                           text=True, check=True)
    return asked.stdout.split(":")[-1].rsplit("-", 1)[0]


def run(*words):
    return subprocess.run([str(word) for word in words], capture_output=True, text=True, timeout=60)


def coturn(folder):
    user, realm, password = LONG_TERM
    words = ["turnserver", "-n", "--listening-ip=127.0.0.1", "--relay-ip=127.0.0.1", "-p",
             str(SERVER_PORT), "--no-tls", "--no-dtls", "--no-cli", "--log-file=stdout",
             f"--pidfile={folder}/pid", f"--userdb={folder}/db", "--lt-cred-mech", "-r", realm,
             "-u", f"{user}:{password}", "--allow-loopback-peers"]
    allocate = ["-u", user, "-w", password, "-n", "2", "-m", "1", "-y", "127.0.0.1"]
    lines, had = [], set()
    with subprocess.Popen(words, stdout=subprocess.DEVNULL, stderr=subprocess.DEVNULL) as server:
        time.sleep(2)
        for client, others in (("turnutils_stunclient", ["127.0.0.1"]),
                               ("turnutils_uclient", allocate),
                               ("turnutils_uclient", ["-s", *allocate])):
            with Sniffer() as sniffer:
                run(client, "-p", SERVER_PORT, *others)
            lines += kept(sniffer.seen, lambda source, target: "turnserver" if source == SERVER_PORT
                          else client if target == SERVER_PORT else None, lambda _: LONG_TERM, had)
        server.terminate()
    programs = "turnutils_stunclient, turnutils_uclient and turnserver"
    write("coturn.txt", f"# {programs} of coturn {version('coturn')}, over loopback", lines)


def pair(name, number, *words):
    """The messages of two agents, each of which signs by the password of the one that is asked."""
    program = name.split(".")[0]
    with Sniffer() as sniffer:
        printed = run(*words).stdout
    passwords = dict(line.split()[1:] for line in printed.splitlines()
                     if line.startswith("password "))
    asked = {}

    def words_of(message):
        number = message[8:20]
        place = 20
        while place < len(message):
            kind, length = struct.unpack_from(">HH", message, place)
            if kind == 0x0006:
                asked[number] = message[place + 4:place + 4 + length].split(b":")[0].decode()
            place += 4 + length + -length % 4
        return (passwords[asked[number]],)

    title = f"# two agents of {program} {number} in one process, over loopback"
    write(name, title, kept(sniffer.seen, lambda *_: program, words_of, set()))


def main():
    if os.geteuid() != 0:
        sys.exit(__doc__)
    with tempfile.TemporaryDirectory() as folder:
        coturn(folder)
    pair("aioice.txt", version("python3-aioice"), HERE / "aioice_pair.py")
    with tempfile.TemporaryDirectory() as folder:
        flags = run("pkg-config", "--cflags", "--libs", "nice").stdout
        subprocess.run(["gcc", HERE / "libnice_pair.c", "-o", f"{folder}/pair",
                        *shlex.split(flags)], check=True)
        pair("libnice.txt", version("libnice-dev"), f"{folder}/pair")


if __name__ == "__main__":
    main()
