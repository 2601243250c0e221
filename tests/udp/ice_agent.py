#!/usr/bin/python3
"""Runs ice_agent (in the namespace ina of ice_namespaces.sh) with each other agent (in inb), crosses their lines,
and prints a row for each test: passed if both selected the same pair (as far as the other prints it),
each received data of the other, and ice_agent ended in the right role.

    ice_agent.py FOLDER_OF_THE_PROGRAMS ICE_AGENT [NAMES..]

With NAT=UDP_SERVER (a path) it does so after `ice_namespaces.sh nat`."""
import os
import re
import subprocess
import sys
import threading
import time

folder, ours = sys.argv[1:3]
only = sys.argv[3:]
here = os.path.dirname(os.path.abspath(__file__))
AT = [word for ip in ("10.79.0.1", "10.79.1.1", "fd79::1") for word in ("--at", ip)]
PEERS = {
    "itself": None,
    "aioice": ["/usr/bin/python3", f"{here}/aioice_sdp.py"],
    "libnice": [f"{folder}/libnice_sdp"],
    "pion": [f"{folder}/pion_sdp"],
}


def start(ns, command):
    return subprocess.Popen(["ip", "netns", "exec", ns, "nice", "-n", "5", *command], text=True,
                            stdin=subprocess.PIPE, stdout=subprocess.PIPE, bufsize=1)


def cross(one, other, seen, delay):
    for line in one.stdout:
        seen.append(line.rstrip())
        if line.startswith(("a=", "m=", "c=")):
            time.sleep(delay)
            try:
                other.stdin.write(line)
                other.stdin.flush()
            except (BrokenPipeError, ValueError):
                pass


def play(name, role, their_role, stun=None, seconds=9, at=AT, delay=0):
    left = start("ina", [ours, role, *at, "--for", str(seconds), *(stun and stun[0] or [])])
    theirs = PEERS[name] or [ours]
    words = ["--at", "10.79.0.2", "--at", "10.79.1.2", "--at", "fd79::2", "--for", str(seconds)]
    right = start("inb", [*theirs, their_role, *(words if PEERS[name] is None and not stun else []),
                          *(stun and stun[1] or [])])
    seen = [], []
    threads = [threading.Thread(target=cross, args=(left, right, seen[0], delay)),
               threading.Thread(target=cross, args=(right, left, seen[1], delay))]
    for one in threads:
        one.start()
    end = time.time() + seconds + 5
    for process in (left, right):
        try:
            process.wait(max(0.1, end - time.time()))
        except subprocess.TimeoutExpired:
            process.kill()
    for one in threads:
        one.join(2)
    selected = [[line for line in lines if line.startswith("selected")] for lines in seen]
    data = [any(line.startswith("data") for line in lines) for lines in seen]
    ended = [line for line in seen[0] if line.startswith("ended")]
    same = "?"
    if selected[0] and selected[1]:
        ports = [re.findall(r":(\d+)(?= |$)", line)[:2] for line in (selected[0][-1], selected[1][-1])]
        same = ports[0] == ports[1][::-1]
    passed = all(selected) and all(data) and same is not False
    if stun is None:
        passed = passed and same is True
    took = re.search(r"after ([0-9.]+)", selected[0][0]).group(1) if selected[0] else "-"
    print(f"{'passed' if passed else 'FAILED':7} {name:8} ours {role:11} theirs {their_role:11} in {took} s; "
          f"{selected[0][-1:]} {selected[1][-1:]} data {data} same {same} {ended}", flush=True)
    if not passed or "-v" in os.environ.get("FLAGS", ""):
        for lines in seen:
            print("   ", "\n    ".join(lines))
    return passed


def play_nat(name, role, their_role):
    """The other is behind a translator, and both ask a STUN server (udp_server 3478 in ina)."""
    host, port = "10.79.0.1", "3478"
    theirs = ["--stun", f"{host}:{port}", "--at", "10.80.0.2", "--for", "9"]
    if name == "aioice":
        theirs = [f"{host}:{port}"]
    elif PEERS[name]:
        theirs = [host, port]
    return play(name, role, their_role, (["--stun", f"{host}:{port}"], theirs), at=AT[:2])


if __name__ == "__main__":
    results = []
    if os.environ.get("NAT"):
        server = start("ina", [os.environ["NAT"], "3478"])
        time.sleep(1)
        for name in [name for name in PEERS if not only or name in only]:
            for roles in [("controlling", "controlled"), ("controlled", "controlling")]:
                results.append(play_nat(name, *roles))
        server.kill()
        print(sum(results), "of", len(results))
        sys.exit()
    for name in PEERS:
        if only and name not in only:
            continue
        for role, their_role in [("controlling", "controlled"), ("controlled", "controlling"),
                                 ("controlling", "controlling"), ("controlled", "controlled"),
                                 ("controlling", "lite"), ("lite", "controlling")]:
            if name == "aioice" and their_role == "lite":
                continue  # it cannot be lite
            results.append(play(name, role, their_role))
    print(sum(results), "of", len(results))
