"""This library through its headers for C, for endpoint.py and stunp.py.

`make lib` builds the shared library target/c/libstunp.so, and STUNP_LIBRARY names another one."""

import ctypes
import ipaddress
import os
from ctypes import byref, c_bool, c_size_t, c_uint16, c_uint8, c_void_p

TOP = os.path.dirname(os.path.dirname(os.path.dirname(os.path.abspath(__file__))))
LIBRARY = ctypes.CDLL(os.environ.get("STUNP_LIBRARY", os.path.join(TOP, "target/c/libstunp.so")))
CLASSES = ("request", "indication", "success", "error")
ALGORITHMS = {"sha1": 1, "sha256": 2}
NAMES = {1: "sha1", 2: "sha256"}
FEATURES = {"auto": 0, "required": 1, "disabled": 2}
PEER = "10.0.0.2:3478"
ROOM = 70000
SECRET = ctypes.c_char_p(bytes(range(1, 33)))


class Address(ctypes.Structure):
    _fields_ = [("octets", c_uint8 * 16), ("port", c_uint16), ("length", c_uint16)]


class Handle(ctypes.Structure):
    """A handle of stunp_endpoint.h."""
    _fields_ = [("is_full", c_bool), ("state", c_void_p)]


class Refused(Exception):
    """A call failed: its error is the argument."""


def sized(value):
    """Bytes and their length, as two arguments."""
    return ctypes.c_char_p(value), c_size_t(len(value))


def ask(name, *words):
    """Makes a call of the library, bytes with their length. Raises what it fails with."""
    arguments = []
    for word in words:
        if isinstance(word, bytes):
            arguments += sized(word)
        elif isinstance(word, ctypes.Array):
            arguments += [word, c_size_t(len(word))]
        else:
            arguments.append(word)
    call = getattr(LIBRARY, "stunp_" + name)
    call.restype = ctypes.c_int64
    came = call(*arguments)
    if came < 0:
        raise Refused(came)
    return came


def buffer():
    return (c_uint8 * ROOM)()


def changed(name, message, *words):
    """The message after a call that appends to it."""
    out = buffer()
    out[:len(message)] = message
    length = ask(name, out, c_size_t(len(message)), *words)
    return bytes(out[:length])


def plain(word):
    return b"" if word == "-" else bytes.fromhex(word)


def octets_of(word):
    host, _, port = word.rpartition(":")
    return ipaddress.ip_address(host.strip("[]")).packed, int(port)


def address(word):
    octets, port = octets_of(word)
    made = Address(port=port, length=len(octets))
    made.octets[:len(octets)] = octets
    return byref(made)


def address_text(octets, port):
    host = ipaddress.ip_address(bytes(octets))
    return f"{host}:{port}" if host.version == 4 else f"[{host}]:{port}"


def call(method):
    """A call of the suite: any error of the library is a refusal."""

    def answer(self, *words):
        try:
            came = method(self, *words)
        except Refused:
            return "refused"
        if isinstance(came, bytes):
            return came.hex() or "-"
        return "done" if came is None else came

    return answer
