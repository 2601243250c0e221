#!/usr/bin/python3
"""Two agents of aioice in one process, which check a pair of candidates on 127.0.0.1 by ICE. It
prints `password UFRAG PASSWORD` for each, and ends with status 0 once both are connected. Debian's
Python has Debian's aioice."""
import asyncio

from aioice import Candidate, Connection, ice

ice.get_host_addresses = lambda *_, **__: ["127.0.0.1"]


async def introduce(to, other):
    print("password", other.local_username, other.local_password)
    to.remote_username, to.remote_password = other.local_username, other.local_password
    for candidate in other.local_candidates:
        await to.add_remote_candidate(Candidate.from_sdp(candidate.to_sdp()))
    await to.add_remote_candidate(None)


async def main():
    pair = [Connection(ice_controlling=is_first, components=1) for is_first in (True, False)]
    for one in pair:
        await one.gather_candidates()
    await introduce(pair[0], pair[1])
    await introduce(pair[1], pair[0])
    await asyncio.gather(*(one.connect() for one in pair))
    for one in pair:
        await one.close()


asyncio.run(main())
