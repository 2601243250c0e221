#!/usr/bin/python3
"""aioice's ICE agent as a peer of examples/c/ice_check.c, with the same lines:

    aioice_ice.py controlling|controlled

It prints `HOST PORT UFRAG PASSWORD`, reads such a line, and prints `nominated as ROLE` once it is
connected, and `data TEXT` of what comes. It ends a second after both, with status 0. Debian's
Python has Debian's aioice."""
import asyncio
import sys

from aioice import Candidate, Connection, ice

ice.get_host_addresses = lambda *_, **__: ["127.0.0.1"]


async def send_data(connection):
    while True:
        await connection.send(b"from aioice")
        await asyncio.sleep(0.2)


async def main(role):
    connection = Connection(ice_controlling=role == "controlling", components=1)
    await connection.gather_candidates()
    ours = connection.local_candidates[0]
    print(ours.host, ours.port, connection.local_username, connection.local_password, flush=True)
    line = await asyncio.get_running_loop().run_in_executor(None, sys.stdin.readline)
    host, port, connection.remote_username, connection.remote_password = line.split()
    theirs = Candidate("1", 1, "udp", 2130706431, host, int(port), "host")
    await connection.add_remote_candidate(theirs)
    await connection.add_remote_candidate(None)
    await connection.connect()
    print("nominated as", "controlling" if connection.ice_controlling else "controlled", flush=True)
    sending = asyncio.ensure_future(send_data(connection))
    print("data", (await connection.recv()).decode(), flush=True)
    await asyncio.sleep(1)
    sending.cancel()
    await connection.close()


asyncio.run(asyncio.wait_for(main(sys.argv[1]), 30))
