#!/usr/bin/env python3
"""Tries the unit file of docs/SERVER.md: what `systemd-analyze security` says of it, and whether
servers run with its arguments and with no other system calls than it allows.

    service.py [--server PROGRAM].. [--client PROGRAM]..

The server in C is that of examples/c/out, if it is built. The last line says what was tried, and
what was left out since systemd-analyze or strace is missing.
"""
import argparse
import os
import pathlib
import re
import shutil
import signal
import subprocess
import sys
import time

import harness
from alone import answering
from harness import NAME, PASSWORD, Peer, Server, stun

OK = 49  # the highest exposure, in tenths, that systemd-analyze calls OK


def unit_of(page):
    """The unit file of the page, with each setting in one line."""
    lines = page[page.index("    [Unit]\n"):].split("\n\n## ")[0].splitlines()
    last = next(i for i, line in enumerate(lines) if line.startswith("    WantedBy="))
    unit = "".join(f"{line[4:]}\n" for line in lines[:last + 1])
    return unit.replace("\\\n    ", "")


def settings(unit, name):
    return [line.split("=", 1)[1] for line in unit.splitlines() if line.startswith(f"{name}=")]


def is_judged(unit, folder):
    """What systemd-analyze says of the unit: its level, which is OK or better."""
    file = folder / "stun.service"
    file.write_text(unit)
    run = subprocess.run(["systemd-analyze", "security", "--offline=true", f"--threshold={OK}",
                          "--no-pager", file], capture_output=True, text=True)
    level = re.search(r"Overall exposure level for stun\.service: (\S+ \w+)", run.stdout)
    assert level and run.returncode == 0, run.stdout + run.stderr
    return level[1]


def calls_of(words):
    """The system calls of a filter: `@set name ..`, or with ~ in front what it takes away."""
    lines = subprocess.run(["systemd-analyze", "syscall-filter"], capture_output=True, text=True,
                           check=True).stdout.splitlines()
    sets, name = {}, None
    for line in map(str.strip, lines):
        if line.startswith("@") and line not in sets and not (name and sets[name]["open"]):
            name, sets[line] = line, {"calls": set(), "open": True}
        elif not line:
            sets.get(name, {})["open"] = False
        elif name and not line.startswith("#"):
            sets[name]["calls"].add(line)
    whole = lambda one: set().union(*map(whole, sets[one]["calls"])) if one in sets else {one}
    return set().union(*map(whole, words.split()))


def allowed(unit):
    first, *rest = settings(unit, "SystemCallFilter")
    found = calls_of(first) | calls_of("@default")
    for words in rest:
        found -= calls_of(words.removeprefix("~"))
    return found


def runs(program, is_in_c, unit, folder, is_traced):
    """The server starts with the arguments of the unit, serves, reads its users again in C, and
    writes its counters. Returns its system calls if these are traced."""
    for name, content in (("users", f"{NAME} {PASSWORD}\n"), ("secret", os.urandom(32).hex())):
        (folder / name).write_text(content)
    words = re.sub(r"/(etc|run)/stun/", f"{folder}/", settings(unit, "ExecStart")[0]).split()
    trace, metrics = folder / "trace", folder / "stun.prom"
    strace = ["strace", "-f", "-qq", "-o", trace] if is_traced else []
    with Server(program, *words[2:], within=strace) as running, Peer(running.port) as peer:
        challenge = peer.ask(stun.message(stun.REQUEST))
        assert stun.code_of(peer.ask(answering(challenge))) == 200
        served = [one for one in harness.begun() if one != running.process.pid or not is_traced]
        for process in served if is_in_c else ():
            os.kill(process, signal.SIGHUP)
        end = time.monotonic() + harness.scaled(30)
        while "stun_answered_total 1" not in metrics.read_text():
            assert time.monotonic() < end, metrics.read_text()
            time.sleep(0.2)
        for process in served:  # strace itself ends with what it traces
            os.kill(process, signal.SIGTERM)
    traced = trace.read_text() if is_traced else ""
    return set(re.findall(r"^\d+ +(\w+)\(", traced, re.MULTILINE))


def main():
    words = argparse.ArgumentParser()
    words.add_argument("--server", action="append", default=[])
    words.add_argument("--client", action="append", default=[], help="not used")
    chosen = words.parse_args()
    unit = unit_of((harness.TOP / "docs/SERVER.md").read_text())
    found = []
    with harness.scratch() as folder:
        if shutil.which("systemd-analyze"):
            found.append(f"systemd-analyze says {is_judged(unit, folder)}")
        else:
            found.append("systemd-analyze: left out, not installed")
        harness.end_within()
        can_trace = shutil.which("strace") and shutil.which("systemd-analyze")
        in_c = harness.TOP / "examples/c/out/udp_server"
        for program in [str(in_c)] * in_c.is_file() + chosen.server:
            calls = runs(program, program == str(in_c), unit, folder, can_trace)
            refused = calls - allowed(unit) if calls else set()
            assert not refused, f"{program}: the unit refuses {sorted(refused)}"
            found.append(f"{pathlib.Path(program).name} runs" + (
                f", by {len(calls)} system calls that it allows" if calls else ""))
        if not can_trace:
            found.append("system calls: left out, no strace")
    print(f"service: {'; '.join(found)}")
    return 0


if __name__ == "__main__":
    sys.exit(main())
