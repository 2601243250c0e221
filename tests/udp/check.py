#!/usr/bin/env python3
"""Tries the STUN programs on UDP against each other over loopback.

    check.py [--server PROGRAM].. [--client PROGRAM].. [--tokio PROGRAM]

The programs of examples/c are built with all warnings, and with sanitizers where the compiler has
them. Programs that are named take the same words (examples/c/udp_server.c,
examples/c/udp_client.c), a server those of rust/examples/udp_server.rs too. They are tried as well:
each client against each server (pairs.py), and each alone (alone.py, endpoint.py), and the program
`many` beside a client (rust/examples/many.rs) and `tokio_client` (examples/rust). What goes over
the wire is judged by stun.py, which shares nothing with the library. Every port is a free one, every
wait has an end, and only processes of its own are ended. Waits are longer on a machine that is busy
(harness.py). A case that fails beside others is tried once more, alone, and its first failure is
printed.

The last line says what was checked. Without a compiler or the archive it says so, with status 0.
"""
import argparse
import concurrent.futures
import pathlib
import sys

import alone
import endpoint
import harness
import pairs
from harness import STATELESS, TOP, USER, Server, stun

BOTH = ((), ("--sha256",))
WRONG_SERVER_WORDS = ((), ("x",), ("0", "realm"), ("0", "realm", "name"), ("0", "--workers"),
                      ("0", "--workers", "0"), ("0", "--expiry", "29"), ("0", "--what"))
WRONG_CLIENT_WORDS = ((), ("::1",), ("::1", "1", "name"), ("::1", "1", "--what"))


def label(program):
    """The last words of a path, which tell programs of one name apart."""
    return "/".join(pathlib.Path(program).parts[-2:])


def named(name, what, *words):
    return f"{name}: {what.__name__} {words[1:]}", what, words


def of_server(server, first):
    """Each keeps nothing of an address (endpoint.py). The first server has what the others need not:
    other methods than Binding, nonces that expire at a signal, the address that was asked, a large
    buffer, no fear of faults but sleep, a port of its own, a place for whoever connects, and users
    and counters at a signal. The others look at the file
    themselves, and serve NAT behavior discovery."""
    one = lambda what, *words: named(label(server), what, server, *words)
    for what in (alone.unknown_attributes, alone.choices, alone.many_attributes, alone.fingerprints,
                 alone.workers, alone.begins_again, alone.new_address):
        yield one(what)
    yield from (one(alone.hostile, ()), one(alone.hostile, USER))
    yield one(alone.wrong_words, *WRONG_SERVER_WORDS)
    for words, algorithm in zip(BOTH, (stun.SHA1, stun.SHA256)):
        yield one(alone.unknown_and_signed, words, algorithm)
        yield one(alone.challenges, words, algorithm)
        yield one(alone.many_addresses, words, algorithm)
    yield one(alone.slept, str(pathlib.Path(first).parent / "faults.so"))
    if server == first:
        for words, algorithm in zip(BOTH, (stun.SHA1, stun.SHA256)):
            yield one(alone.malformed, words, algorithm)
        for what in (alone.another_address, alone.burst, alone.stopped_reader, alone.hidden_words,
                     alone.wiped, alone.failing_reads, alone.no_ipv6, alone.one_server,
                     alone.counted, endpoint.many_streams, endpoint.reloaded_at_a_signal):
            yield one(what)
    else:
        yield from of_others(server, str(pathlib.Path(first).parent / "exhausted.so"))
    for what in (endpoint.tells, endpoint.counters, endpoint.metrics, endpoint.bad_lines,
                 endpoint.many_users, endpoint.addresses, endpoint.one_port, endpoint.no_streams,
                 endpoint.stopped_streams):
        yield one(what)
    for words in BOTH:
        for what in (endpoint.streams, endpoint.restarted, endpoint.rotated,
                     endpoint.behind_one_port, endpoint.one_socket, endpoint.stored_keys):
            yield one(what, words)


def of_others(server, exhausted):
    one = lambda what, *words: named(label(server), what, server, *words)
    for what in (endpoint.reloaded, endpoint.written_slowly, endpoint.too_many_users):
        yield one(what)
    yield one(endpoint.no_memory, exhausted)
    yield one(endpoint.after_the_last_port)
    yield from (one(endpoint.four_sockets, words) for words in ((), USER))


def of_client(client):
    for what in (pairs.nobody_there, pairs.discards, pairs.not_understood, pairs.no_code,
                 pairs.unsigned_error, pairs.older_types, pairs.closed_port,
                 pairs.nobody_in_the_file):
        yield named(label(client), what, client)
    yield named(label(client), alone.wrong_words, client, *WRONG_CLIENT_WORDS)


def of_pair(server, client, hosts, is_first):
    name = f"{label(client)} -> {label(server)}"
    two = lambda what, *words: named(name, what, server, client, *words)
    for host in hosts:
        yield two(pairs.open_server, host)
        for offered in BOTH:
            yield from (two(pairs.long_term, host, offered, supported) for supported in BOTH)
    for what in (pairs.unsigned_answer, pairs.no_name, pairs.two_lost, pairs.reflected):
        yield two(what)
    yield from (two(pairs.another_port, ()), two(pairs.another_port, USER))
    for words in BOTH:
        for what in (pairs.wrong_password, pairs.all_repeated, pairs.changed_response,
                     pairs.changed_request, pairs.restarted, pairs.new_port, pairs.dealt_in_turn):
            yield two(what, words)
        if is_first:
            yield from (two(pairs.expired, words, "61"), two(pairs.expired, words, "300"))


def cases(servers, clients, tokio, hosts):
    """Each case with its name."""
    for server in servers:
        yield from of_server(server, servers[0])
        for words in ((), USER, (*USER, "--sha256")) if tokio else ():
            yield named(f"{label(tokio)} -> {label(server)}", pairs.in_flight, server, tokio, words)
    for client in clients:
        yield from of_client(client)
        for server in servers:
            yield from of_pair(server, client, hosts, server == servers[0])
        beside = pathlib.Path(client).parent / "many"
        if beside.exists():
            for words in BOTH:
                yield named(label(client), pairs.many, servers[0], beside, words)
    yield named(label(clients[0]), pairs.password_of_a_file, servers[0], clients[0])
    if harness.has_ipv6():
        small = str(pathlib.Path(servers[0]).parent / "endpoint_server")
        yield named(label(small), alone.both_families, small)


def tried(case):
    """What came of a case: None, or why it failed."""
    name, run, words = case
    try:
        run(*words)
    except Exception as error:
        return name, f"{type(error).__name__}: {error}"
    return name, None


def tried_twice(every):
    """What came of each case. Those that failed while others ran are tried again, one by one."""
    with concurrent.futures.ThreadPoolExecutor(8) as pool:
        results = list(pool.map(tried, every))
    failed = [case for case, (_, error) in zip(every, results) if error]
    for name, error in results:
        if error:
            print(f"udp: tries again: {name}: {error}", file=sys.stderr)
    harness.end_within()
    again = dict(map(tried, failed))
    return [(name, again[name] if error else None) for name, error in results], len(failed)


def main():
    words = argparse.ArgumentParser()
    words.add_argument("--server", action="append", default=[])
    words.add_argument("--client", action="append", default=[])
    words.add_argument("--tokio")
    words.add_argument("--only", default="", help="cases whose name has this in it")
    chosen = words.parse_args()
    with harness.scratch() as folder:
        is_sanitized, missing = harness.build(folder)
        if missing:
            print(f"udp: nothing checked: {missing}")
            return 0
        servers = [str(folder / "udp_server"), *chosen.server]
        clients = [str(folder / "udp_client"), *chosen.client]
        hosts = ["127.0.0.1", "::1"] if harness.has_ipv6() else ["127.0.0.1"]
        harness.end_within()
        every = cases(servers, clients, chosen.tokio, hosts)
        all_cases = [case for case in every if chosen.only in case[0]]
        results, again = tried_twice(all_cases)
        failed = [(name, error) for name, error in results if error]
        for name, error in failed:
            print(f"udp: {name}: {error}", file=sys.stderr)
        with_what = "IPv4 and IPv6" if len(hosts) == 2 else "IPv4"
        sanitizers = "with" if is_sanitized else "without"
        passed = f"{len(results) - len(failed)} passed, {len(failed)} failed, {again} tried again"
        print(f"udp: {passed}, over {with_what}, {sanitizers} sanitizers")
        return 1 if failed else 0


if __name__ == "__main__":
    sys.exit(main())
