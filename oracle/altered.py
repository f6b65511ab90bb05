#!/usr/bin/env python3
"""Tries the sample: would it notice a crate that is slightly different? Or chooses a sample that does.

    python3 oracle/altered.py [--crate LIB.RS]           puts the sample's sessions to each altered crate
    python3 oracle/altered.py choose [--crate LIB.RS]    puts all sessions to them that sample.py draws, and writes sample.txt

One place of the crate's code is altered at a time (a number or the last letter of a fixed string by one, a comparison, `&&`, `true`, `+=`,
`-=`, `min`), the crate is built, and the sessions are put to it. Prints the places whose alteration changes no answer, with the line of
LIB.RS, and how many did. An altered crate that does not build is not counted; one that stops or computes for 3 s is noticed.

The chosen sessions are few and short. Each alteration that is noticed at all is noticed by two of them, and each outcome and each family of
sessions.py that is drawn is there twice; once, where only one session can.
"""
import argparse
import collections
import os
import re
import resource
import subprocess

import run
import sample
import script

DIR = os.path.join(run.OUT, "altered")
SECONDS = 3
TWICE = 2
SWAPS = {"==": "!=", "!=": "==", ">": ">=", "<": "<=", "&&": "||", "true": "false", "+=": "-=", "-=": "+=", "min": "max"}
PLACE = re.compile(
    r'(?P<number>(?<![\w.\\])(?:0x[0-9a-fA-F]+|\d+)(?![\w.]))|(?P<text>b"[^"]+")|(?P<other>"[^"]*")'
    r"|(?P<swap>(?<= )(?:==|!=|>|<|&&|\+=|-=)(?= )|\btrue\b|\bmin\b)"
)


def alterations(source):
    """(line, what was, what is now, the whole text), for each place."""
    code = source[: source.rindex("/*\n")]
    at = 0
    for k, line in enumerate(code.splitlines(keepends=True), 1):
        body = line.split("//")[0]
        for m in PLACE.finditer("" if body.lstrip().startswith("#") else body):
            old = m.group()
            if m["other"] is not None:
                continue
            if m["number"]:
                new = hex(int(old, 16) + 1) if old.startswith("0x") else str(int(old) + 1)
            elif m["text"]:
                new = old[:-2] + chr(ord(old[-2]) + 1) + '"'
            else:
                new = SWAPS[old]
            yield k, old, new, source[: at + m.start()] + new + source[at + m.end() :]
        at += len(line)


def build(text):
    """The driver over this crate, or None."""
    os.makedirs(DIR, exist_ok=True)
    lib = os.path.join(DIR, "lib.rs")
    with open(lib, "w") as f:
        f.write(text)
    fast = ["-C", "opt-level=0", "-L", run.OUT, "--out-dir", DIR]
    for name, edition, source, more in (
        ("nbd", "2015", lib, ["--crate-type", "rlib", "--cap-lints", "allow", "--extern", f"byteorder={run.OUT}/libbyteorder.rlib"]),
        ("driver", "2018", os.path.join(run.ROOT, "oracle", "driver.rs"), ["--extern", f"nbd={DIR}/libnbd.rlib"]),
    ):
        if subprocess.run(["rustc", "--edition", edition, "--crate-name", name, *more, *fast, source], stderr=subprocess.DEVNULL).returncode:
            return None
    return os.path.join(DIR, "driver")


def answers(driver, sessions):
    """What the altered crate answers, or None where it stops or goes on too long. Only its own time counts, however busy the machine is."""
    how = dict(
        preexec_fn=lambda: resource.setrlimit(resource.RLIMIT_CPU, (SECONDS, SECONDS)), stderr=subprocess.DEVNULL, env={"RUST_BACKTRACE": "0"}
    )
    try:
        return script.ask(driver, sessions, **how)
    except subprocess.CalledProcessError:
        return None


def noticing(driver, kept):
    """The names of the sessions that the altered crate does not answer as the crate did. Where it stops, each half is put to it alone."""
    got = answers(driver, [s for s, _ in kept.values()])
    if got is not None:
        return {name for (name, (_, want)), answer in zip(kept.items(), got) if answer != want}
    if len(kept) == 1:
        return set(kept)
    both, half = list(kept.items()), len(kept) // 2
    return noticing(driver, dict(both[:half])) | noticing(driver, dict(both[half:]))


def tried(crate, kept):
    """The sets of sessions that notice an alteration. Says which alterations none notices, and counts."""
    with open(crate) as f:
        source = f.read()
    found, missed, broken = [], 0, 0
    for line, old, new, text in alterations(source):
        driver = build(text)
        if driver is None:
            broken += 1
        elif names := noticing(driver, kept):
            found.append(names)
        else:
            missed += 1
            print(f"line {line}: {old} -> {new}: not noticed", flush=True)
    print(f"{len(found) + missed} altered crates, {len(found)} noticed, {missed} not; {broken} more did not build")
    return found


# ---- the choice


def wanted(kept, found):
    """Sets of sessions of which the sample needs two: for each alteration, each outcome and each family."""
    sets = collections.defaultdict(set)
    for name, (s, answer) in kept.items():
        sets[name[0]].add(name)
        for number in script.ends(s, answer):
            sets[type(s).__name__, number].add(name)
    return found + list(sets.values())


def size(name, session, answer):
    """How many bytes it adds to the gate's two files."""
    return sum(sum(map(len, p.records)) + sum(len(line) + 1 for line in p.lines) for p in sample.plays(name, session, answer))


def choice(sizes, sets):
    """Few short sessions: each time the one that serves most sets for its bytes; then, the longest first, those go that are not needed."""
    needs = [min(TWICE, len(names)) for names in sets]
    serves = {name: [k for k, names in enumerate(sets) if name in names] for name in sizes}
    taken, owed = set(), list(needs)
    while any(owed):
        best = max(sizes.keys() - taken, key=lambda name: (sum(owed[k] > 0 for k in serves[name]) / sizes[name], name))
        taken.add(best)
        for k in serves[best]:
            owed[k] = max(owed[k] - 1, 0)
    for name in sorted(taken, key=lambda name: (-sizes[name], name)):
        if all(len(sets[k] & taken) > needs[k] for k in serves[name]):
            taken.remove(name)
    return taken


def main():
    parser = argparse.ArgumentParser(description=__doc__, formatter_class=argparse.RawDescriptionHelpFormatter)
    parser.add_argument("what", nargs="?", choices=("choose",))
    parser.add_argument("--crate", default=run.CRATE)
    args = parser.parse_args()
    driver = run.build(args.crate)
    if args.what is None:
        tried(args.crate, sample.chosen(driver))
        return
    kept = sample.drawn(driver)
    sizes = {name: size(name, *both) for name, both in kept.items()}
    names = choice(sizes, wanted(kept, tried(args.crate, kept)))
    sample.write_list(names)
    print(f"chosen: {len(names)} of {len(kept)} sessions, {sum(map(sizes.get, names))} bytes of script and lines")


if __name__ == "__main__":
    main()
