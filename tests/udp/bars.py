#!/usr/bin/env python3
"""Tries a server with 200 clients at once: a restart, two processes behind one port, and a flood.

    bars.py PROGRAM [COUNT [RATE]]

PROGRAM is `udp_server`, of Rust or of C. To try the proved archives:

    make c && make -C examples/c
    tests/udp/bars.py examples/c/out/udp_server 1000000

- The server starts anew with the same secret between the 401 and the signed requests of the clients.
- Clients are challenged by two processes behind one port (SO_REUSEPORT), and then served by whichever
  is left.
- A flood from COUNT forged addresses, as flooded.py has it, with the same arguments.

The first two are tried with HMAC-SHA1 and with HMAC-SHA256, and each signed request must be answered
with a success at once. Status 1 where a client was not served, or the server took memory.
"""
import sys

import endpoint
import flooded

CLIENTS = 200


def main():
    program, endpoint.CLIENTS = sys.argv[1], CLIENTS
    for what, label in ((endpoint.restarted, "after a restart with the same secret"),
                        (endpoint.behind_one_port, "by two processes behind one port")):
        for words, algorithm in (((), "HMAC-SHA1"), (("--sha256",), "HMAC-SHA256")):
            what(program, words)
            print(f"{CLIENTS} of {CLIENTS} clients served at once {label}, {algorithm}", flush=True)
    return flooded.main()


if __name__ == "__main__":
    sys.exit(main())
