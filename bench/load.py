#!/usr/bin/env python3
"""Loads a bare echo, udp_server, and coturn's turnserver where it is installed, over loopback, and
prints a Markdown table.

    load.py [--count N] [--rounds N]     datagrams a row and round: 100000, and 5 rounds

Each round starts the server of each row afresh, and opens 1,000 ports that send the kinds of
datagrams in turn (load.c); the next round begins when all rows had theirs. The table tells how many
requests a second were answered (the median of the rounds), and the processor time of the server for
each datagram (the least and the median), which is compared with that of the row that it names. It
tells the resident bytes of all its processes before and after, how many requests were not answered,
and how many datagrams the kernel dropped at the server's sockets, in all rounds. Last, four times as
many addresses as datagrams a row flood a server, 60,000 a second (flood.c), while new clients ask. It
ends only what it started.

    load.py --flood [--count N] [PROGRAM]    the flood alone, of udp_server or of a program with the
                                             same words
"""
import argparse
import contextlib
import os
import pathlib
import re
import shutil
import statistics
import subprocess
import sys
import tempfile
import time
from typing import NamedTuple

HERE = pathlib.Path(__file__).resolve().parent
sys.path.insert(0, str(HERE.parent / "tests/udp"))
import alone
import check
import interop
import stun

REALM, NAME, PASSWORD = check.USER
CORES = len(os.sched_getaffinity(0))
KINDS = {"u": "unsigned", "s": "signed", "g": "garbage"}


def processes(pid):
    """A process and its children."""
    children = pathlib.Path(f"/proc/{pid}/task/{pid}/children").read_text().split()
    return [pid, *map(int, children)]


def resident(pid):
    """The resident KiB that are not shared with a file, of a process and its children."""
    status = [pathlib.Path(f"/proc/{one}/status").read_text() for one in processes(pid)]
    return sum(int(re.search(r"RssAnon:\s+(\d+)", text)[1]) for text in status)


def processor_seconds(pid):
    fields = [pathlib.Path(f"/proc/{one}/stat").read_text().rsplit(")", 1)[1].split()
              for one in processes(pid)]
    return sum(int(one[11]) + int(one[12]) for one in fields) / os.sysconf("SC_CLK_TCK")


def dropped(port):
    """What the kernel dropped at the sockets of a port."""
    total = 0
    for table in ("/proc/net/udp", "/proc/net/udp6"):
        for line in pathlib.Path(table).read_text().splitlines()[1:]:
            fields = line.split()
            if int(fields[1].rsplit(":", 1)[1], 16) == port:
                total += int(fields[-1])
    return total


class Row(NamedTuple):
    """A row of the table: its name, the server, what it is sent, and the row to compare it with."""
    name: str
    server: object
    mix: str
    window: object
    beside: str = ""
    loaders: int = 1
    times: int = 1


class Round(NamedTuple):
    """What one round of a row came to."""
    answered: float
    micros: float
    before: int
    after: int
    lost: float
    requests: float
    dropped: int


def measured(load, row, server, count):
    """Loads a running server, by so many programs at once as the row says."""
    pid, port, count = server.process.pid, server.port, count * row.times
    share = row.window if row.loaders == 1 else row.window // row.loaders
    words = [load, port, count // row.loaders, 1000 // row.loaders, share, row.mix,
             *((NAME, PASSWORD) if "s" in row.mix else ())]
    memory, spent = resident(pid), processor_seconds(pid)
    started = [subprocess.Popen([str(word) for word in words], stdout=subprocess.PIPE, text=True)
               for _ in range(row.loaders)]
    lines = [one.communicate(timeout=120)[0].split() for one in started]
    spent, lost = processor_seconds(pid) - spent, dropped(port)
    told = [dict(zip(line[::2], map(float, line[1::2]))) for line in lines]
    total = {key: sum(one[key] for one in told) for key in told[0]}
    answered = total["successes"] + total["challenges"] + total["errors"]
    assert row.mix != "s" or total["successes"] > 0.99 * total["requests"], (row.name, total)
    return Round(answered / max(one["seconds"] for one in told), 1e6 * spent / total["sent"], memory,
                 resident(pid), total["lost"], total["requests"], lost)


def shown(row, rounds, medians):
    """A line of the table."""
    middle = {key: statistics.median(getattr(one, key) for one in rounds)
              for key in ("answered", "before", "after")}
    ratio = f"{medians[row.name] / medians[row.beside]:.2f} of {row.beside}" if row.beside else ""
    kinds = " ".join(row.mix)
    return (f"| {row.name} | {kinds} | {row.window} | {middle['answered']:,.0f} | "
            f"{min(one.micros for one in rounds):.2f} | {medians[row.name]:.2f} | {ratio} | "
            f"{middle['before']:,.0f} → {middle['after']:,.0f} | "
            f"{sum(one.lost for one in rounds):,.0f} of "
            f"{sum(one.requests for one in rounds):,.0f} | "
            f"{sum(one.dropped for one in rounds):,} |")


def patient(peer, request):
    """Asks as RFC 8489, section 6.2.1, has it: again after 0.5 s, 1.5 s and 3.5 s."""
    for wait in (0.5, 1, 2, 4):
        peer.socket.settimeout(wait)
        try:
            return peer.ask(request)
        except TimeoutError:
            pass
    return None


def is_served(peer):
    challenge = patient(peer, stun.message(stun.REQUEST))
    answer = challenge and patient(peer, alone.answering(challenge))
    return answer is not None and stun.code_of(answer) == 200


def flood(program, count):
    """Clients that are new while addresses flood, and one that was validated before, which signs by
    one nonce throughout."""
    with tempfile.TemporaryDirectory() as folder, check.Server(program, *check.USER) as server:
        flooder = pathlib.Path(folder) / "flood"
        subprocess.run(["cc", "-O2", HERE / "flood.c", "-o", flooder], check=True)
        pid, asked, times, kept = server.process.pid, 0, [], 0
        with check.harness.Peer(server.port, here="127.0.0.2") as old:
            challenge = old.ask(stun.message(stun.REQUEST))
            signed = lambda: stun.code_of(patient(old, alone.answering(challenge)))
            assert signed() == 200
            memory = resident(pid)
            words = [flooder, str(server.port), str(count), "60000"]
            started = subprocess.Popen(words, stdout=subprocess.PIPE, text=True)
            while started.poll() is None:
                begun = time.monotonic()
                with check.harness.Peer(server.port,
                                        here=f"127.1.{asked // 200}.{asked % 200 + 1}") as new:
                    times += [time.monotonic() - begun] if is_served(new) else []
                asked, kept = asked + 1, kept + (signed() == 200)
        told = started.communicate()[0].split()
        print(f"{count:,} addresses in {told[3]} s, "
              f"{dropped(server.port):,} datagrams dropped by the kernel: "
              f"{len(times)} of {asked} new clients served, "
              f"after {1e3 * statistics.median(times):.1f} ms (median), "
              f"{1e3 * max(times):.0f} ms (most); "
              f"{kept} of {asked} times who was validated before kept its nonce; "
              f"KiB {memory:,} → {resident(pid):,}; load average {os.getloadavg()[0]:.1f}",
              flush=True)


def rows(folder):
    """The rows, each with a function that starts its server."""
    def ours(*words):
        return lambda: check.Server(interop.SERVER, *words)

    def theirs(*words):
        return lambda: interop.turnserver(*words)

    yield Row("echo", lambda: check.Server(folder / "echo"), "u", 64)
    for workers in sorted({1, CORES}):
        words, of = ("--workers", str(workers)), f"{workers} worker{'s' * (workers > 1)}"
        loaders = 1 if workers == 1 else 2
        alone_open, with_users = f"udp_server, {of}", f"udp_server with users, {of}"
        yield Row(f"{alone_open}", ours(*words), "u", 64, "echo" if workers == 1 else "", loaders)
        yield Row(f"{alone_open}, garbage", ours(*words), "ug", 64, "", loaders)
        yield Row(f"{with_users}, 401s", ours(*check.USER, *words), "u", 64, alone_open, loaders)
        for mix, window in (("s", 64), ("usg", 64), ("usg", 1000)):
            yield Row(f"{with_users}, {' '.join(mix)} {window}", ours(*check.USER, *words), mix,
                      window, "", loaders)
    yield Row("udp_server with users, 1 worker, 60000/s", ours(*check.USER), "usg", "60000/s", times=3)
    yield Row("udp_server with users, --sha256, 1 worker", ours(*check.USER, "--sha256"), "usg", 64)
    if shutil.which("turnserver"):
        secure = ("--lt-cred-mech", "--secure-stun", "-r", REALM, "-u", f"{NAME}:{PASSWORD}")
        for threads, of in (((), ""), (("-m", "1"), " -m 1")):
            beside = {"u": "udp_server, 1 worker", "s": "udp_server with users, 1 worker, s 64"}
            for mix, words in (("u", ("--stun-only",)), ("usg", secure), ("s", secure)):
                yield Row(f"turnserver{' with users' * ('s' in mix)}{of}, {' '.join(mix)}",
                          theirs(*words, *threads), mix, 64, beside.get(mix, ""))


def compiled(folder):
    """Builds the programs that load and the echo; returns the former."""
    command = [*check.harness.compiler(), "-O2", f"-I{check.TOP}/include", *check.harness.inlined()]
    subprocess.run([*command, check.harness.HERE / "echo.c", "-o", folder / "echo"], check=True)
    load = folder / "load"
    subprocess.run([*command, HERE / "load.c", check.STATELESS, *check.harness.BESIDE.split(), "-o",
                    load], check=True)
    return load


def main():
    words = argparse.ArgumentParser()
    words.add_argument("--flood", action="store_true")
    words.add_argument("--count", type=int)
    words.add_argument("--rounds", type=int, default=5)
    words.add_argument("program", nargs="?", default=interop.SERVER)
    chosen = words.parse_args()
    if chosen.flood:
        return flood(chosen.program, chosen.count or 400000)
    count = chosen.count or 100000
    subprocess.run(["make", "-s", "-C", check.TOP / "examples/c", "udp",
                    f"ENDPOINT={check.harness.ENDPOINT}", f"LIBRARY={check.STATELESS}",
                    f"SYSTEM={check.harness.BESIDE}"], check=True)
    with tempfile.TemporaryDirectory() as room:
        folder = pathlib.Path(room)
        load, table = compiled(folder), list(rows(folder))
        figures = {row.name: [] for row in table}
        for _ in range(chosen.rounds):
            for row in table:
                with contextlib.closing(contextlib.ExitStack()) as stack:
                    server = stack.enter_context(row.server())
                    figures[row.name].append(measured(load, row, server, count))
    medians = {name: statistics.median(one.micros for one in rounds)
               for name, rounds in figures.items()}
    print("| Server | Sent | Open | Answered a second | µs, least | µs, median | Ratio of medians "
          "| KiB before → after | Lost | Dropped by the kernel |\n|" + "---|" * 10)
    for row in table:
        print(shown(row, figures[row.name], medians))
    print(f"\n{CORES} cores, {chosen.rounds} rounds of {count:,} datagrams a row, load average "
          f"{os.getloadavg()[0]:.1f}\n")
    return flood(interop.SERVER, 4 * count)


if __name__ == "__main__":
    main()
