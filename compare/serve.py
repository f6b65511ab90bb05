#!/usr/bin/env python3
"""The gate's session for the program `serve`, and the bytes that it has to send.

    python3 compare/serve.py

writes crates/serve/args, data/, stdin and stdout. The answers come from the model of compare/trace.py, a server that goes a byte at a time and
knows nothing of the port. Standard library only; the same bytes at every run."""
import os
import struct
import sys

sys.dont_write_bytecode = True

from trace import Session

READ, WRITE, DISC, FLUSH, TRIM, ZEROES = 0, 1, 2, 3, 4, 6


def record(name, start, size, flags):
    return struct.pack(">HQQB", 17 + len(name), start, size, flags) + name


def option(kind, payload=b""):
    return b"IHAVEOPT" + struct.pack(">II", kind, len(payload)) + payload


def request(kind, handle, offset, length, payload=b"", flags=0):
    return struct.pack(">IHHQQI", 0x25609513, flags, kind, handle, offset, length) + payload


TABLE = b"\x01" + record(b"labels", 64, 1024, 8) + record("Schränke".encode(), 1088, 512, 1) + record(b"", 0, 64, 0)
IMAGE = bytes(i * 7 % 251 for i in range(1600))


def session():
    yield struct.pack(">I", 1)
    yield option(8) + option(7, struct.pack(">I", 6) + b"labels" + struct.pack(">H", 0)) + option(3) + option(1, b"labels")
    yield request(READ, 1, 0, 32) + request(WRITE, 2, 16, 8, b"Aspirin ") + request(READ, 3, 0, 32)
    # the payload that is refused looks like a request, and what follows it is answered in step
    yield request(WRITE, 4, 1020, 28, request(DISC, 9, 0, 0)) + request(READ, 5, 1016, 8)
    yield request(READ, 6, 1020, 5) + request(READ, 7, 2**64 - 1, 1) + request(READ, 8, 5000, 0)
    yield request(WRITE, 10, 1024, 0) + request(WRITE, 11, 1023, 1, b"!", flags=1) + request(FLUSH, 12, 0, 0)
    yield request(TRIM, 13, 0, 16) + request(ZEROES, 14, 0, 16) + request(READ, 15, 0, 1024)
    yield request(DISC, 16, 0, 0)


def main():
    sent = b"".join(session())
    image, model = bytearray(IMAGE), Session()
    word, number, taken, given = model.step(TABLE, image, sent, 1 << 20)
    assert (word, number, taken) == ("end", 0, len(sent))
    assert image[:80] == IMAGE[:80] and image[1088:] == IMAGE[1088:] and image[80:88] == b"Aspirin "
    home = os.path.join(os.path.dirname(os.path.abspath(__file__)), "..", "crates", "serve")
    os.makedirs(os.path.join(home, "data"), exist_ok=True)
    for name, what in (("args", b"table\nimage\n"), ("data/table", TABLE), ("data/image", IMAGE), ("stdin", sent), ("stdout", given)):
        with open(os.path.join(home, name), "wb") as f:
            f.write(what)


if __name__ == "__main__":
    main()
