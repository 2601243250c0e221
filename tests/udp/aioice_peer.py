#!/usr/bin/env python3
"""aioice's STUN messages as a peer of the programs in examples/c, with long-term credentials:

    aioice_peer.py client HOST PORT NAME PASSWORD       asks, answers the challenge, and judges the
                                                        answer
    aioice_peer.py turn HOST PORT NAME PASSWORD         its TURN client: Allocate, up to the error
                                                        after the challenge
    aioice_peer.py server REALM NAME PASSWORD           prints `port N`, challenges, judges and
                                                        answers until it is ended

The client prints the address and has status 0 where aioice validated the signed answer. The server
prints `validated` for each request that aioice validated.
"""
import asyncio
import hashlib
import socket
import sys

from aioice import stun, turn


def key_of(name, realm, password):
    return hashlib.md5(f"{name}:{realm}:{password}".encode()).digest()


def judged(data, key):
    """The message, which must be signed under the key and must end with a right FINGERPRINT where
    it has one."""
    message = stun.parse_message(data, integrity_key=key)
    assert "MESSAGE-INTEGRITY" in message.attributes, "no MESSAGE-INTEGRITY"
    return message


def client(host, port, name, password):
    with socket.socket(socket.AF_INET6 if ":" in host else socket.AF_INET,
                       socket.SOCK_DGRAM) as one:
        one.settimeout(5)
        one.connect((host, int(port)))
        request = stun.Message(message_method=stun.Method.BINDING, message_class=stun.Class.REQUEST)
        one.send(bytes(request))
        challenge = stun.parse_message(one.recv(4096))
        assert challenge.attributes["ERROR-CODE"][0] == 401
        realm, nonce = challenge.attributes["REALM"], challenge.attributes["NONCE"]
        request = stun.Message(message_method=stun.Method.BINDING, message_class=stun.Class.REQUEST)
        request.attributes.update({"USERNAME": name, "REALM": realm, "NONCE": nonce})
        request.add_message_integrity(key_of(name, realm, password))
        one.send(bytes(request))
        answer = judged(one.recv(4096), key_of(name, realm, password))
        assert answer.transaction_id == request.transaction_id
        assert answer.message_class == stun.Class.RESPONSE
        print("%s:%s signed" % tuple(answer.attributes["XOR-MAPPED-ADDRESS"][:2]))


async def allocate(host, port, name, password):
    try:
        await turn.create_turn_endpoint(asyncio.DatagramProtocol, server_addr=(host, int(port)),
                                        username=name, password=password)
    except stun.TransactionFailed as failed:
        code = failed.response.attributes["ERROR-CODE"][0]
        print(code, "signed" if "MESSAGE-INTEGRITY" in failed.response.attributes else "unsigned")


def server(realm, name, password):
    one = socket.socket(socket.AF_INET, socket.SOCK_DGRAM)
    one.bind(("127.0.0.1", 0))
    print("port", one.getsockname()[1], flush=True)
    while True:
        data, peer = one.recvfrom(4096)
        request = stun.parse_message(data)
        key = key_of(name, realm, password)
        answer = stun.Message(request.message_method, stun.Class.ERROR, request.transaction_id)
        try:
            judged(data, key)
            assert request.attributes.get("USERNAME") == name
            assert request.attributes.get("NONCE") == b"a nonce of aioice"
            answer.message_class = stun.Class.RESPONSE
            answer.attributes["XOR-MAPPED-ADDRESS"] = peer
            answer.add_message_integrity(key)
            print("validated", flush=True)
        except (AssertionError, ValueError) as why:
            answer.attributes.update({"ERROR-CODE": (401, "Unauthorized"), "REALM": realm,
                                      "NONCE": b"a nonce of aioice"})
            print("refused,", why, flush=True)
        one.sendto(bytes(answer), peer)


if __name__ == "__main__":
    what, words = sys.argv[1], sys.argv[2:]
    if what == "client":
        client(*words)
    elif what == "turn":
        asyncio.run(allocate(*words))
    else:
        server(*words)
