"""coturn's turnserver as a subject of level 2, over UDP on loopback.

Any server with long-term credentials, or with none, can be asked this way. It claims RFC 5389. Its
clock is the machine's, and its users cannot change while it runs."""

import os
import shutil
import socket
import subprocess
import tempfile
import time

HOST, WAIT = "127.0.0.1", 0.3
SECONDS_TO_START = 5


def plain(word):
    return b"" if word == "-" else bytes.fromhex(word)


def free_port():
    with socket.socket(socket.AF_INET, socket.SOCK_DGRAM) as one:
        one.bind((HOST, 0))
        return one.getsockname()[1]


def command(realm, users, port, folder):
    credentials = ["--lt-cred-mech", "--secure-stun"] if users is not None else ["--no-auth"]
    options = ["-n", *credentials, "--no-tls", "--no-dtls", "--no-tcp", "--no-cli",
               "--fingerprint", "--log-file=" + os.path.join(folder, "log"),
               "--pidfile=" + os.path.join(folder, "pid"),
               "--userdb=" + os.path.join(folder, "users"), "--relay-ip=" + HOST,
               "--listening-ip=" + HOST, f"--listening-port={port}", "--realm=" + realm]
    named = [f"--user={name}:{password}" for name, password in users or ()]
    return ["turnserver", *options, *named]


class Running:
    """A server with its realm and users, or without credentials if these are None, and a socket for
    each address that asks."""

    def __init__(self, realm, users):
        self.folder, self.port, self.sockets = tempfile.mkdtemp(), free_port(), {}
        self.process = subprocess.Popen(command(realm, users, self.port, self.folder),
                                        stdout=subprocess.DEVNULL, stderr=subprocess.DEVNULL)
        until = time.monotonic() + SECONDS_TO_START
        while time.monotonic() < until:
            # A bare Binding request: it is answered as soon as the server listens.
            if self.asked("start", bytes.fromhex("000100002112a442") + bytes(12)):
                return

    def asked(self, source, data):
        if source not in self.sockets:
            self.sockets[source] = socket.socket(socket.AF_INET, socket.SOCK_DGRAM)
            self.sockets[source].settimeout(WAIT)
            self.sockets[source].connect((HOST, self.port))
        try:
            self.sockets[source].send(data)
            return self.sockets[source].recv(65536)
        except OSError:
            return None

    def end(self):
        self.process.terminate()
        self.process.wait()
        for one in self.sockets.values():
            one.close()
        shutil.rmtree(self.folder)


class Subject:
    def __init__(self):
        self.running, self.realm, self.users = None, "", []

    def claims(self):
        return "rfc5389 other-address"

    def server_new(self, realm):
        self.end()
        self.realm, self.users = plain(realm).decode(), []
        return "done"

    def server_algorithms(self, names):
        return "done" if names == "sha1" else "lacks"

    def server_hashes(self, word):
        return "done" if word == "no" else "lacks"

    def server_add_user(self, name, password):
        if self.running:
            return "lacks"
        self.users.append((plain(name).decode(), plain(password).decode()))
        return "done"

    def open_server_new(self):
        self.end()
        self.realm, self.users = "", None
        return "done"

    def open_server_hears(self, source, data):
        return self.server_hears(source, 0, data)

    def server_hears(self, source, _seconds, data):
        if self.running is None:
            self.running = Running(self.realm, self.users)
        came = self.running.asked(source, plain(data))
        return came.hex() if came else "none"

    def end(self):
        if self.running:
            self.running.end()
            self.running = None

    __del__ = end
