#!/usr/bin/env python3
"""Shows where the crate and the port differ, and where both leave the protocol text: the smallest inputs, run on both.

    (cd crates/trace && rt run </dev/null); python3 oracle/differences.py [--crate LIB.RS]

Prints the fronts of the rows of docs/DIFFERENCES.md; the last line says whether all stand there, status 1 if not.
"""
import argparse
import os
import subprocess
import sys

import run
import script
from sessions import DISC, READ, TRIM, WHOLE, WRITE, ZEROES, Client, Server, hello, newstyle, option, reply, request, table

DOC = os.path.join(run.ROOT, "docs", "DIFFERENCES.md")
# a window of one byte, `a`, in an image of three
IMAGE = b"<a>"
ONE, READ_ONLY, TWO = ([(b"", 1, size, flags)] for size, flags in ((1, 0), (1, 1), (2, 0)))
# before the input that is shown: what the client has sent, and how much was given for it
OPEN, FLAGS = (hello(3) + option(1), 28), (hello(3), 18)
GOES_ON = "goes on"


def shown(data):
    return f"`{data.hex(' ', -4)}`" if data else "nothing"


def count(n):
    return f"{n:,} byte{'s' if n != 1 else ''}"


# ---- the server

PAST = b"x" + request(WRITE, 0, 1, b"!")
SERVER = [
    # what, records, before, the client's bytes, and how the wire cuts them
    ("READ 0+2 of 1", ONE, OPEN, request(READ, 0, 2), WHOLE),
    ("READ 1+1 of 1", ONE, OPEN, request(READ, 1, 1), WHOLE),
    ("READ (2^64-1)+1 of 1", ONE, OPEN, request(READ, 2**64 - 1, 1), WHOLE),
    ("WRITE 0+2 of 1, `xy`", ONE, OPEN, request(WRITE, 0, 2, b"xy"), WHOLE),
    ("WRITE 1+2 of 1, `xy`, then DISC, in single bytes", ONE, OPEN, request(WRITE, 1, 2, b"xy") + request(DISC), 1),
    ("WRITE 1+30 of 1, payload `x` and a WRITE 0+1 of `!`, in single bytes", ONE, OPEN, request(WRITE, 1, 30, PAST), 1),
    ("WRITE 0+65537 of 1, all `x`, then DISC", ONE, OPEN, request(WRITE, 0, 65537, b"x" * 65537) + request(DISC), WHOLE),
    ("WRITE 0+1 of 1 read-only, `x`", READ_ONLY, OPEN, request(WRITE, 0, 1, b"x"), WHOLE),
    ("WRITE 0+0 of 1 read-only", READ_ONLY, OPEN, request(WRITE, 0, 0), WHOLE),
    ("WRITE 0+2 of 2, only `x` comes", TWO, OPEN, request(WRITE, 0, 2, b"x"), WHOLE),
    ("WRITE 0+1 of 1, no payload comes", ONE, OPEN, request(WRITE, 0, 1), WHOLE),
]
ALIKE = [
    ("READ 0+0 of 1", ONE, OPEN, request(READ), WHOLE),
    ("TRIM 0+1 of 1", ONE, OPEN, request(TRIM, 0, 1), WHOLE),
    ("WRITE_ZEROES 0+1 of 1", ONE, OPEN, request(ZEROES, 0, 1), WHOLE),
    ("WRITE 0+1 of 1 with the flag FUA, `x`", ONE, OPEN, request(WRITE, 0, 1, b"x", flags=1), WHOLE),
    ("request type 5", ONE, OPEN, request(5), WHOLE),
    ("option LIST", ONE, FLAGS, option(3), WHOLE),
    ("option LIST with a payload", ONE, FLAGS, option(3, b"x"), WHOLE),
    ("option STARTTLS", ONE, FLAGS, option(5), WHOLE),
    ("option 9", ONE, FLAGS, option(9), WHOLE),
]


def did(taken, sent, image):
    stored = f", the image becomes `{image.decode()}`" if image != IMAGE else ""
    return f"takes {count(taken)}, sends {shown(sent)}{stored}, "


def crate_server(driver, records, before, data, chunk):
    """What it did, how it ended, and 01's number for that."""
    answer, _, image = script.ask(driver, [Server(table(records), IMAGE, before[0] + data, chunk)])[0]
    taken = sum(n for sends, n in answer.events if not sends)
    end = GOES_ON if answer.outcome == 12 else f'ends "{answer.text}"'
    return did(taken - len(before[0]), answer.sent[before[1] :], image), end, answer.outcome


def trace(records):
    data = b"".join(c + len(p).to_bytes(4, "big") + p for c, p in records)
    return subprocess.run(run.trace_command(), input=data, stdout=subprocess.PIPE, check=True).stdout.decode().splitlines()


def step(command, data=b""):
    return command, (5000).to_bytes(4, "big") + data


def answered(line):
    """How an answer is told, and the bytes taken and given."""
    words = line.split()
    if words[0] == "no":
        return f"is refused with {words[1]}", 0, b""
    told = {"on": GOES_ON, "end": f"ends {words[1]}", "ok": "succeeds", "fail": f"is 47 with {words[1]}"}[words[0]]
    return told, int(words[-3]), b"" if words[-1] == "-" else bytes.fromhex(words[-1])


def port_server(records, before, data, chunk):
    """The same of the port, and what the end of input is then."""
    opened = [(b"S", b""), (b"T", table(records)), (b"I", IMAGE), step(b"s"), step(b"s", before[0])]
    pieces = [step(b"s", data[k : k + chunk]) for k in range(0, len(data), chunk)]
    lines = trace(opened + pieces + [(b"i", b""), (b"e", b"")])
    steps = [answered(line) for line in lines[2:-2]]
    taken, sent = sum(t for _, t, _ in steps), b"".join(g for _, _, g in steps)
    return did(taken, sent, bytes.fromhex(lines[-2].split()[1])), steps[-1][0], answered(lines[-1])[0]


# ---- the client

GOOD = newstyle(8, 5)
FLUSHES = [
    # what, the server's bytes, and how many flushes are called
    ("flush, reply with signature 0; flush, good reply", GOOD + reply(signature=0) + reply(), 2),
    ("flush, reply with handle 1; flush, good reply", GOOD + reply(handle=1) + reply(), 2),
    ("flush, end of input; flush", GOOD, 2),
    ("flush, reply with error 99", GOOD + reply(99), 1),
]


def crate_client(driver, data, flushes):
    session = Client(b"", data, [("f",)] * flushes, WHOLE)
    got = subprocess.run([driver], input=b"D" + script.encoded(session)[1:], stdout=subprocess.PIPE, check=True).stdout
    answers = script.Reader(got).answer(session)[1:]
    return "; ".join(f"sends {count(len(a.sent))}, " + (f'says "{a.text}"' if a.text else "succeeds") for a in answers)


def port_client(data, flushes):
    """The handshake, then flushes, each with one step; the end of input is told where a step has nothing left to take."""
    records, told = [(b"C", b""), (b"h", b""), step(b"c", data[:152])], []
    for _ in range(flushes):
        data = data[152:] if not told else data
        records += [(b"f", b""), step(b"c", data)]
        called, stepped = map(answered, trace(records)[-2:])
        if called[0] != GOES_ON:
            told.append(called[0] + ", sends nothing")
            continue
        data = data[stepped[1] :]
        end = stepped[0]
        if end == GOES_ON:
            records.append((b"x", b""))
            end = answered(trace(records)[-1])[0]
        told.append(f"sends {count(len(stepped[2]))}, {end}")
    return "; ".join(told)


def long_name(driver):
    name = b"n" * 4097
    answer = script.ask(driver, [Client(name, GOOD, [], WHOLE)])[0][0]
    called, stepped = map(answered, trace([(b"C", b""), (b"B", name), (b"h", b""), step(b"c", GOOD)]))
    crate = f"sends {count(len(answer.sent))}, {answer.text or 'succeeds'}"
    return "handshake with a name of 4,097 bytes", crate, f"{called[0]}, sends {shown(stepped[2])}"


# ---- the rows


def rows(driver):
    for what, *session in SERVER:
        crate, end, _ = crate_server(driver, *session)
        port, told, cut = port_server(*session)
        if told == GOES_ON and "comes" in what:
            told = f"the end of input is {cut.split()[1]}"
        assert (crate, end) != (port, told)
        yield what, crate + end, port + told
    for what, data, flushes in FLUSHES:
        yield what, crate_client(driver, data, flushes), port_client(data, flushes)
    yield long_name(driver)


def alike(driver):
    for what, *session in ALIKE:
        crate, end, number = crate_server(driver, *session)
        port, told, _ = port_server(*session)
        assert crate == port and told == (GOES_ON if end == GOES_ON else f"ends {number}"), (what, crate, port)
        yield what, port + told


def main():
    parser = argparse.ArgumentParser(description=__doc__, formatter_class=argparse.RawDescriptionHelpFormatter)
    parser.add_argument("--crate", default=run.CRATE)
    driver = run.build(parser.parse_args().crate)
    fronts = ["| " + " | ".join((str(k), *row)) + " |" for k, row in enumerate([*rows(driver), *alike(driver)], 1)]
    print("\n".join(fronts))
    with open(DOC) as f:
        doc = f.read()
    missing = sum(front not in doc for front in fronts)
    print(f"{len(fronts) - missing} of {len(fronts)} rows stand in docs/DIFFERENCES.md")
    sys.exit(missing > 0)


if __name__ == "__main__":
    main()
