#!/usr/bin/env python3
"""Compares the relaying of turn_server with coturn's, side by side in one run.

    bench/turn_load.py TURN_SERVER TURN_LOAD [ROUNDS]

Runs as root and with the namespaces of tests/udp/turn_server.py. Allocations with one channel each
send frames of SIZE bytes to a peer that sends them back. Prints, as medians of ROUNDS, datagrams
relayed in a second, and the server's processor time for each.
"""
import pathlib
import statistics
import subprocess
import sys

HERE = pathlib.Path(__file__).resolve().parent
sys.path.insert(0, str(HERE.parent / "tests/udp"))
import turn_server as test

SECONDS, WINDOW = 2, 16


def ticks(pid):
    fields = pathlib.Path(f"/proc/{pid}/stat").read_text().rsplit(")", 1)[1].split()
    return int(fields[11]) + int(fields[12])


def main():
    server, load = (pathlib.Path(word).resolve() for word in sys.argv[1:3])
    rounds = int(sys.argv[3]) if len(sys.argv) > 3 else 3
    ours = [server, 3490, test.REALM, test.NAME, test.PASSWORD, "--relay", test.SERVER, "--allow",
            "10.78.0.0/24", "--of-a-user", 500]
    coturn = ["turnserver", "-n", "--no-tls", "--no-dtls", "-L", test.SERVER, "-p", 3491, "-u",
              f"{test.NAME}:{test.PASSWORD}", "-r", test.REALM, "--lt-cred-mech", "--no-cli",
              "--log-file", "/dev/null", "--pidfile", "/dev/null"]
    with test.namespaces() as stack:
        peers = {name: (test.started(stack, "tnsrv", *words), port)
                 for name, words, port in (
                     ("turn_server", ours, 3490), ("coturn", coturn, 3491),
                     ("turn_server, 4 workers", [server, 3492, *ours[2:], "--workers", 4], 3492))}
        test.time.sleep(2)
        print("| Allocations, bytes | Server | Relayed in a second | Server's time for each |")
        print("|---|---|---|---|")
        for allocations in 1, 8, 32:
            for size in 100, 1000:
                found = {name: [] for name in peers}
                for _ in range(rounds):
                    for name, (program, port) in peers.items():
                        before = ticks(program.pid)
                        words = [load, f"{test.SERVER}:{port}", test.NAME, test.PASSWORD,
                                 test.CLIENT, allocations, WINDOW, size, SECONDS]
                        done = subprocess.run([*test.INSIDE, *map(str, words)], check=True,
                                              capture_output=True, text=True)
                        count = 2 * int(done.stdout)
                        spent = (ticks(program.pid) - before) / 100
                        found[name].append((count / SECONDS, spent / count * 1e6))
                for name, all_ in found.items():
                    rate, each = (statistics.median(one) for one in zip(*all_))
                    print(f"| {allocations}, {size} | {name} | {rate:,.0f} | {each:.2f} us |",
                          flush=True)


if __name__ == "__main__":
    main()
