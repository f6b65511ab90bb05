#!/usr/bin/env python3
"""The sample of the crate's answers that the gate replays: the front of crates/trace/stdin, and its lines the front of crates/trace/stdout.

    python3 oracle/sample.py write    makes the sample with the crate (`--crate` as in run.py), and writes both files
    python3 oracle/sample.py check    makes it and says whether the files begin with it
    python3 oracle/sample.py keep     without Rust: keeps the sample, and writes what compare/trace.py makes behind it

A seed draws sessions of each family; sample.txt names those of them that the sample has (`altered.py choose` writes it).

Behind the sample stands the script of compare/trace.py, which has to be last: it ends with a record that stops `trace`. The sample begins and
ends with words, lent and shown as a slice.
"""
import argparse
import importlib.util
import os
import random
import sys

import run
import script
import sessions

FILES = [os.path.join(run.ROOT, "crates", "trace", name) for name in ("stdin", "stdout")]
LIST = os.path.join(run.ROOT, "oracle", "sample.txt")
BEGIN, END = b"answers of the crate nbd 0.3.1, see oracle/README.md", b"end of the crate's answers"
SEED = 1
# how many sessions of each family the sample is chosen from
DRAWN = dict(
    client_flags=60, option_magics=60, options=160, option_lengths=60, longest_option=6, names=300, many_names=60, export_flags=60,
    transfers=200, request_kinds=80, request_magics=60, server_prefixes=200, random_server=900,
    handshake_magics=160, handshake_flags=300, fillers=60, name_lengths=60, seeks=4, lengths=200, replies=300, client_prefixes=200,
    random_client=916, headers=25,
)
FAULTS = {"Server": range(13), "Client": (0, 40, 41, 42, 43, 45, 46, 47, 48, 49, 50), "Header": ()}


def words(text):
    """A slice with these words and a request to show it, and its line; then all that is lent is empty, and server and client are fresh."""
    fresh = b"".join(command + bytes(4) for command in (b"b", b"S", b"C", b"T", b"I", b"B"))
    return b"B" + len(text).to_bytes(4, "big") + text + fresh, b"slice " + text.hex().encode() + b"\n"


def some(family):
    """The seed's sessions of a family; each family is drawn by itself, so that a change of one leaves the others as they are."""
    rng, make, n = random.Random(f"{family} {SEED}"), getattr(sessions, family), DRAWN[family]
    if family.startswith("random"):
        return [make(rng) for _ in range(n)]
    return rng.sample(list(make(rng)), n)


def drawn(driver):
    """All that the sample is chosen from: for each name, a family and a number, the session and the crate's answer."""
    kept = {family: run.answered(driver, some(family))[0] for family in DRAWN}
    return {(family, k): both for family in DRAWN for k, both in enumerate(kept[family])}


def listed():
    """The names in sample.txt: in each line a family, and the numbers of its sessions."""
    with open(LIST) as f:
        rows = [line.split() for line in f if not line.startswith("#")]
    return [(family, int(k)) for family, *numbers in rows for k in numbers]


def write_list(names):
    numbers = {family: sorted(k for f, k in names if f == family) for family in DRAWN}
    with open(LIST, "w") as f:
        f.write("# The sessions of the sample: a family of sessions.py, and which of the sessions that sample.py draws from it.\n")
        f.write("# Written by `python3 oracle/altered.py choose`.\n")
        f.writelines(f"{family} {' '.join(map(str, numbers[family]))}\n" for family in DRAWN)


def chosen(driver):
    """The sample: of what was drawn, what is listed."""
    pool = drawn(driver)
    return {name: pool[name] for name in listed()}


def plays(name, session, answer):
    """A session's plays. How it is cut follows from its name, and not from the rest of the sample."""
    family, k = name
    return [p for _, _, p in run.played([(session, answer)], random.Random(f"cuts {family} {k}"))]


def made(crate):
    """The records and the lines, and how many sessions of each kind."""
    kept = chosen(run.build(crate))
    kinds = dict.fromkeys(FAULTS, 0)
    seen = {kind: set() for kind in FAULTS}
    for s, answer in kept.values():
        kinds[type(s).__name__] += 1
        seen[type(s).__name__].update(script.ends(s, answer))
    assert all(seen[kind] == set(numbers) for kind, numbers in FAULTS.items()), seen
    both = [p for name, (s, answer) in kept.items() for p in plays(name, s, answer)]
    records = b"".join(r for p in both for r in p.records)
    lines = "".join(line + "\n" for p in both for line in p.lines).encode()
    return [first + middle + last for first, middle, last in zip(words(BEGIN), (records, lines), words(END))], kinds


def front(files):
    """What stands in the two files up to the end of the sample."""
    return [data[: data.index(mark) + len(mark)] for data, mark in zip(files, words(END))]


def behind():
    spec = importlib.util.spec_from_file_location("model", os.path.join(run.ROOT, "compare", "trace.py"))
    model = importlib.util.module_from_spec(spec)
    spec.loader.exec_module(model)
    s = model.build()
    return [bytes(s.records), ("\n".join(s.lines) + "\n").encode()]


def read():
    return [open(path, "rb").read() for path in FILES]


def main():
    parser = argparse.ArgumentParser(description=__doc__, formatter_class=argparse.RawDescriptionHelpFormatter)
    parser.add_argument("what", choices=("write", "check", "keep"))
    parser.add_argument("--crate", default=run.CRATE)
    args = parser.parse_args()
    if args.what == "keep":
        fronts = front(read())
    else:
        fronts, kinds = made(args.crate)
        told = f"{kinds['Server']} server sessions, {kinds['Client']} client sessions, {kinds['Header']} headers, each in one piece and cut"
    if args.what == "check":
        same = fronts == front(read())
        print(f"the sample is {'the same' if same else 'NOT the same'}: {told}")
        sys.exit(not same)
    for path, data, rest in zip(FILES, fronts, behind()):
        with open(path, "wb") as f:
            f.write(data + rest)
    sizes = [len(data) for data in fronts]
    print(f"the sample: {sizes[0]} bytes of script, {sizes[1]} bytes of lines" + ("" if args.what == "keep" else f"; {told}"))


if __name__ == "__main__":
    main()
