"""The rows of aioice (python3-aioice): prints "NAME NANOSECONDS" of each, processor time, the least
of seven batches. It checks FINGERPRINT whenever it parses."""

import time
import timeit

from aioice import stun

SAMPLE = bytes.fromhex(
    "000100582112a442b7e7a701bc34d686fa87dfae802200105354554e207465737420636c69656e74"
    "002400046e0001ff80290008932ff9b151263b36000600096576746a3a68367659202020"
    "000800149aeaa70cbfd8cb56781ef2b5b2d3f249c1b571a280280004e57a3bcf")
PASSWORD = b"VOkJxbRl1RmTxUk/WvJxBt"


def written_check():
    message = stun.Message(message_method=stun.Method.BINDING, message_class=stun.Class.REQUEST)
    message.attributes.update({"USERNAME": "h6vY:evtj", "PRIORITY": 0x6e0001ff,
                               "USE-CANDIDATE": None, "ICE-CONTROLLING": 7})
    message.add_message_integrity(PASSWORD)
    return bytes(message)


def main():
    rows = {"parse": lambda: stun.parse_message(SAMPLE),
            "verify": lambda: stun.parse_message(SAMPLE, integrity_key=PASSWORD),
            "check_written": written_check}
    for name, call in rows.items():
        batches = timeit.repeat(call, number=2000, repeat=7, timer=time.process_time)
        print("%s %.0f" % (name, min(batches) / 2000 * 1e9))


if __name__ == "__main__":
    main()
