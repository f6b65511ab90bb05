#!/usr/bin/env python3
"""The gate's script for the program `ask`, the bytes of a server, and the bytes that a client has to send.

    python3 compare/ask.py

writes crates/ask/args, data/, stdin and stdout. Both directions are put together here from document 01's words. Standard library only."""
import os
import struct

SCRIPT = """\
read 16 out           # at position 0
seek end -5
write in              # 8 bytes, of which 5 fit
flush
seek start 1001       # past the size: allowed, and then nothing can be moved
read 1 out
trim 10
seek position -9223372036854775808
seek position -1001
trim 10
resize 2000
seek end 0
read 0 out
read                  # not understood
"""
NAME, SIZE, IN = "Schr\u00e4nke".encode(), 1000, b"Warfarin"


def reply(error=0, data=b""):
    return struct.pack(">IIQ", 0x67446698, error, 0) + data


def request(kind, offset, length, payload=b""):
    return struct.pack(">IHHQQI", 0x25609513, 0, kind, 0, offset, length) + payload


def main():
    down = b"NBDMAGICIHAVEOPT\x00\x03" + struct.pack(">QH", SIZE, 1 + 4 + 32) + bytes(124)
    up = struct.pack(">I", 1) + b"IHAVEOPT" + struct.pack(">II", 1, len(NAME)) + NAME
    down += reply(data=bytes(range(16))) + reply() + reply() + reply(38) + reply()
    up += request(0, 0, 16) + request(1, 995, 5, IN[:5]) + request(3, 0, 0) + request(4, 0, 10) + request(8, 2000, 0)
    home = os.path.join(os.path.dirname(os.path.abspath(__file__)), "..", "crates", "ask")
    os.makedirs(os.path.join(home, "data"), exist_ok=True)
    for name, what in (("args", NAME + b"\nscript\n"), ("data/script", SCRIPT.encode()), ("data/in", IN), ("stdin", down), ("stdout", up)):
        with open(os.path.join(home, name), "wb") as f:
            f.write(what)


if __name__ == "__main__":
    main()
