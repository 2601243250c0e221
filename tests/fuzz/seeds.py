#!/usr/bin/env python3
"""Writes the inputs that fuzz.c begins with to a folder: the samples of RFC 5769 and the messages
of tests/programs/captures, each through each call that takes one, and messages that are written.

    seeds.py FOLDER
"""
import pathlib
import re
import sys

TOP = pathlib.Path(__file__).resolve().parents[2]
WORLD = (TOP / "tests/fuzz/world.h").read_text()
STEPS = re.search(r"enum step \{(.*?)STEPS", WORLD, re.S).group(1)
STEP = {name: number for number, name in enumerate(re.findall(r"\b[A-Z_]+\b", STEPS))}
MOST = 1200


def step(name, setting=0, given=b""):
    return bytes([STEP[name], setting]) + len(given).to_bytes(2, "big") + given


def messages():
    """The samples, and what was captured: lines of digits under a line `from PROGRAM`."""
    samples = (TOP / "tests/transcripts/message.rfc5769.txt").read_text()
    for digits in re.findall(r"^sample = bytes ([0-9a-f ]+)$", samples, re.M):
        yield bytes.fromhex(digits)
    for path in sorted((TOP / "tests/programs/captures").glob("*.txt")):
        for digits in re.findall(r"^from .*\n((?:[0-9a-f]+(?:\n|\Z))+)", path.read_text(), re.M):
            yield bytes.fromhex(digits)


def of_message(message):
    yield step("READ", 16, message) + b"".join(step("VERIFY", key, message) for key in range(4))
    yield b"".join(step("WRITE", setting, message) for setting in range(0, 256, 21))


def sequences():
    begun = step("BEGIN", 100, b"\0\1abcdefghij")
    yield begun + step("TEXTS", 201, "userréalm".encode()) + step("TEXTS", 130, b"user" * 40)


folder = pathlib.Path(sys.argv[1])
folder.mkdir(parents=True, exist_ok=True)
short = [message for message in messages() if len(message) <= MOST]
inputs = [one for message in short for one in of_message(message)] + list(sequences())
for number, one in enumerate(inputs):
    (folder / f"seed{number:03}").write_bytes(one)
print(f"seeds: {len(inputs)}")
