#!/usr/bin/env python3
"""Times the program `bench`: 64 KiB WRITEs and READs by the server's step, beside a plain copy loop of the same build.

    (cd crates/bench && rt run </dev/null); python3 bench/run.py [ROUNDS]

A round moves 14 MiB of data, over an image of 7 MiB: a program's stack has 8. Each kind is run three times, and the fastest
counts; start-up (0 rounds) is taken off.
"""
import os
import platform
import struct
import subprocess
import sys
import time

ROOT = os.path.dirname(os.path.dirname(os.path.abspath(__file__)))
PROGRAM = os.path.join(ROOT, "crates", "bench", "out", "bench")
DATA = 2 * 112 * 65536


def seconds(kind, rounds):
    best = None
    for _ in range(3):
        start = time.monotonic()
        got = subprocess.run([PROGRAM], input=kind + struct.pack(">I", rounds), capture_output=True)
        took = time.monotonic() - start
        moved, last = got.stdout.split()
        if int(moved) != (rounds * 112 * 131160 if kind == b"r" else 0) or last != (b"7" if rounds else b"0"):
            sys.exit(f"bench wrote {got.stdout!r}, {got.stderr!r}")
        best = took if best is None else min(best, took)
    return best


def main():
    rounds = int(sys.argv[1]) if len(sys.argv) > 1 else 100
    idle = seconds(b"r", 0)
    requests, copies = seconds(b"r", rounds) - idle, seconds(b"c", rounds) - idle
    print(f"{platform.machine()}, {rounds} rounds of {DATA} bytes, start-up {idle * 1000:.0f} ms")
    for name, took in (("requests", requests), ("copies", copies)):
        print(f"{name:9} {took:8.3f} s {rounds * DATA / took / 1e6:10.0f} MB/s")
    print(f"ratio {copies / requests:.2f}: the server's speed beside the plain copy's")


main()
