#!/usr/bin/env python3
"""Writes stdin and stdout beside it: frames, and the replies that document 01 orders for them.

Every reply is written out here from document 01. Nothing is taken from the program.
The table has 4 rows, vbucket 3 and mode last-write-wins (args), and no reply depends on the clock.
"""
import pathlib
import struct


def frame(magic, opcode, status_or_vbucket, opaque=0, cas=0, extras=b"", key=b"", value=b""):
    body = extras + key + value
    return struct.pack(">BBHBBHIIQ", magic, opcode, len(key), len(extras), 0, status_or_vbucket, len(body), opaque, cas) + body


def ask(opcode, vbucket=3, **parts):
    return frame(0x80, opcode, vbucket, **parts)


def reply(opcode, status, **parts):
    return frame(0x81, opcode, status, **parts)


def flags_expiry(flags, expiry):
    return struct.pack(">II", flags, expiry)


def count(delta, initial, expiry):
    return struct.pack(">QQI", delta, initial, expiry)


DEPTH = b"depth"
NET = bytes(i % 251 for i in range(1024))
# 001's Set, with the lengths that 01 gives it: example m1
M1 = bytes.fromhex("80a200051e0000030000002a" + "00" * 12 + "000000070000000a" + "0000000000000014" + "000000000000001e" + "00000002" + "0000") + b"mykeymyvalue"
M1_REPLY = bytes.fromhex("81a2" + "00" * 21 + "1e")

# a frame, and its reply
SESSION = [
    (ask(0x0A, opaque=0x01020304), reply(0x0A, 0, opaque=0x01020304)),
    (ask(0x0B, opaque=0xFFFFFFFF), reply(0x0B, 0, opaque=0xFFFFFFFF, value=b"4.0.0")),
    # Set stores CAS mark + 1
    (ask(0x01, opaque=1, extras=flags_expiry(0xDEADBEEF, 0), key=DEPTH, value=b"41"), reply(0x01, 0, opaque=1, cas=1)),
    (ask(0x00, opaque=2, key=DEPTH), reply(0x00, 0, opaque=2, cas=1, extras=b"\xde\xad\xbe\xef", value=b"41")),
    # the quiet Get of a key that isn't there sends nothing
    (ask(0x09, opaque=3, key=b"gone"), b""),
    (ask(0x05, opaque=4, extras=count(1, 0, 0), key=DEPTH), reply(0x05, 0, opaque=4, cas=2, value=struct.pack(">Q", 42))),
    (ask(0x0C, opaque=5, key=DEPTH), reply(0x0C, 0, opaque=5, cas=2, extras=b"\xde\xad\xbe\xef", key=DEPTH, value=b"42")),
    # Delete with another CAS in the header, then with the document's own
    (ask(0x04, opaque=6, cas=1, key=DEPTH), reply(0x04, 0x02, opaque=6)),
    (ask(0x04, opaque=7, cas=2, key=DEPTH), reply(0x04, 0, opaque=7, cas=3)),
    (ask(0x00, opaque=8, key=DEPTH), reply(0x00, 0x01, opaque=8)),
    # an unknown opcode, one that isn't built, another vbucket, and no key
    (ask(0x81, opaque=9), reply(0x81, 0x81, opaque=9)),
    (ask(0x10, opaque=10), reply(0x10, 0x83, opaque=10)),
    (ask(0x00, vbucket=4, opaque=11, key=DEPTH), reply(0x00, 0x07, opaque=11)),
    (ask(0x00, opaque=12), reply(0x00, 0x04, opaque=12)),
    # m1, then m3
    (M1, M1_REPLY),
    (M1, reply(0xA2, 0x02)),
    # a Set of 1,024 bytes, whose CAS is the mark that m1 left, plus 1; 17 of its replies are more than the reply area holds
    (ask(0x01, opaque=13, extras=flags_expiry(0, 0), key=b"net", value=NET), reply(0x01, 0, opaque=13, cas=31)),
]
SESSION += [(ask(0x0C, opaque=100 + i, key=b"net"), reply(0x0C, 0, opaque=100 + i, cas=31, extras=bytes(4), key=b"net", value=NET)) for i in range(17)]
# quiet Sets send nothing. They fill the area of received bytes, so that a frame is cut there
SESSION += [(ask(0x11, opaque=200 + i, extras=flags_expiry(i, 0), key=b"net", value=NET), b"") for i in range(15)]
SESSION += [
    (ask(0x00, opaque=14, key=b"net"), reply(0x00, 0, opaque=14, cas=46, extras=struct.pack(">I", 14), value=NET)),
    # a wrong magic: nothing after it is served
    (frame(0x42, 0x0A, 3), b""),
    (ask(0x0A, opaque=15), b""),
]

if __name__ == "__main__":
    here = pathlib.Path(__file__).parent
    (here / "stdin").write_bytes(b"".join(f for f, _ in SESSION))
    (here / "stdout").write_bytes(b"".join(r for _, r in SESSION))
