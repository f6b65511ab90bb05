#!/usr/bin/env python3
"""Holds the port against the crate nbd 0.3.1: the same sessions on both, every answer compared.

    (cd crates/trace && rt run </dev/null); python3 oracle/run.py [--sessions N] [--seed N] [--crate LIB.RS]

Builds the crate unchanged from LIB.RS (../shared/docs/src/lib.rs) with Debian's byteorder, runs each session on it, and plays the session
on the program `trace` in one piece and cut, up to N sessions (1,200,000; the families that are tried whole are through by then). The last line
says how many sessions were compared; the first difference stops it with status 1, and is kept in out/oracle/difference.
"""
import argparse
import collections
import itertools
import os
import random
import subprocess
import sys
import time

import script
import sessions

ROOT = os.path.dirname(os.path.dirname(os.path.abspath(__file__)))
OUT = os.path.join(ROOT, "out", "oracle")
CRATE = os.path.join(ROOT, "..", "shared", "docs", "src", "lib.rs")
BATCH = 4000


def trace_command():
    return [os.path.join(ROOT, "crates", "trace", "out", "trace")]


def build(crate):
    """The driver, with the crate as it is. Needs rustc and Debian's librust-byteorder-dev."""
    os.makedirs(OUT, exist_ok=True)
    files = subprocess.run(["dpkg", "-L", "librust-byteorder-dev"], capture_output=True, text=True, check=True).stdout.split()
    byteorder = next(f for f in files if f.endswith("/src/lib.rs"))
    driver = os.path.join(OUT, "driver")
    for name, edition, source, more in (
        ("byteorder", "2018", byteorder, ["--crate-type", "rlib", "--cfg", 'feature="std"', "--cap-lints", "allow"]),
        ("nbd", "2015", crate, ["--crate-type", "rlib", "--cap-lints", "warn", "--extern", f"byteorder={OUT}/libbyteorder.rlib"]),
        ("driver", "2018", os.path.join(ROOT, "oracle", "driver.rs"), ["-L", OUT, "--extern", f"nbd={OUT}/libnbd.rlib"]),
    ):
        subprocess.run(["rustc", "-O", "--edition", edition, "--crate-name", name, *more, source, "--out-dir", OUT], check=True)
    return driver


def answered(driver, batch):
    """Each session of the domain with the crate's answer, and how many were outside."""
    kept = []
    for s, answer in zip(batch, script.ask(driver, batch)):
        if sessions.in_domain(s, answer[1] if isinstance(s, sessions.Server) else None):
            assert script.OTHER not in script.ends(s, answer), (s, answer)
            kept.append((s, answer))
    return kept, len(batch) - len(kept)


def played(kept, rng):
    """Both plays of each session."""
    for s, answer in kept:
        for how in (None, rng):
            yield s, answer, script.play(s, answer, how)


def compare(plays):
    """Runs all plays in one script; None, or the first play that differs with what `trace` wrote for it."""
    records = b"".join(r for _, _, p in plays for r in p.records)
    got = subprocess.run(trace_command(), input=records, stdout=subprocess.PIPE, check=True).stdout.decode()
    if got == "".join(line + "\n" for _, _, p in plays for line in p.lines):
        return None
    lines, at = got.split("\n"), 0
    for s, answer, p in plays:
        here = lines[at : at + len(p.lines)]
        if here != p.lines:
            return s, answer, p, here
        at += len(p.lines)
    return s, answer, p, lines[at:]


def show(difference):
    s, answer, p, here = difference
    path = os.path.join(OUT, "difference")
    with open(path, "wb") as f:
        f.write(b"".join(p.records))
    print(f"a difference (its script is kept in {os.path.relpath(path, ROOT)})\nsession: {s}\nthe crate: {answer}")
    for want, got in itertools.zip_longest(p.lines, here, fillvalue="(no line)"):
        print(f"{'  ' if want == got else '! '}{want}" + ("" if want == got else f"\n  trace: {got}"))


def report(seed, kinds, ends, different, lines, outside, seconds):
    for (kind, number), n in sorted(ends.items()):
        print(f"{kind} {number}: {n}")
    print(f"{different} sessions are different from each other, {outside} outside the domain were left out")
    print(f"{lines} lines of trace, {seconds:.0f} s")
    print(
        f"seed {seed}: {kinds.total()} sessions compared, each in one piece and cut: all equal "
        f"({kinds['Server']} server, {kinds['Client']} client, {kinds['Header']} headers)"
    )


def main():
    parser = argparse.ArgumentParser(description=__doc__, formatter_class=argparse.RawDescriptionHelpFormatter)
    parser.add_argument("--sessions", type=int, default=1200000)
    parser.add_argument("--seed", type=int, default=1)
    parser.add_argument("--crate", default=CRATE)
    args = parser.parse_args()
    driver = build(args.crate)
    source, cuts = sessions.everything(random.Random(args.seed)), random.Random(f"cuts {args.seed}")
    kinds, ends, seen, lines, outside, start = collections.Counter(), collections.Counter(), set(), 0, 0, time.monotonic()
    while kinds.total() < args.sessions:
        kept, dropped = answered(driver, list(itertools.islice(source, min(BATCH, args.sessions - kinds.total()))))
        plays = list(played(kept, cuts))
        difference = compare(plays)
        if difference:
            show(difference)
            sys.exit(1)
        outside += dropped
        lines += sum(len(p.lines) for _, _, p in plays)
        for s, answer in kept:
            kinds[type(s).__name__] += 1
            ends.update((type(s).__name__, n) for n in script.ends(s, answer))
            seen.add(hash(script.encoded(sessions.uncut(s))))
    report(args.seed, kinds, ends, len(seen), lines, outside, time.monotonic() - start)


if __name__ == "__main__":
    main()
