#!/usr/bin/python3
"""peers/constants.py [WIRE]: the constants and two layouts of crates/wire (or of the folder WIRE) held against the headers of others.

The numbers of specs/Constants.antt are compared with src/consts.rt, and with those that the system's C compiler finds in <linux/nbd.h> and
<linux/errno.h> (linux-libc-dev) and in <libnbd.h> (libnbd-dev); the fields of specs/Layouts.antt's request and simple reply with the kernel's
structs. What cannot be had is named and left out. peers/run makes the same comparisons; alone, the last line is 'N passed, M failed'."""
import ast
import os
import re
import subprocess
import sys
import tempfile

WIRE = os.path.join(os.path.dirname(os.path.dirname(os.path.abspath(__file__))), "crates", "wire")
CC = "/usr/bin/cc"
KERNEL = "linux/nbd.h"

# Under which name a header has a constant of ours. Each of ours stands here or in IN_NO_HEADER.
HEADERS = {
    KERNEL: {
        name: name
        for name in """
            NBD_REQUEST_MAGIC NBD_REPLY_MAGIC
            NBD_CMD_READ NBD_CMD_WRITE NBD_CMD_DISC NBD_CMD_FLUSH NBD_CMD_TRIM
            NBD_FLAG_HAS_FLAGS NBD_FLAG_READ_ONLY NBD_FLAG_SEND_FLUSH NBD_FLAG_SEND_TRIM
        """.split()
    },
    "libnbd.h": {
        "NBD_FLAG_FIXED_NEWSTYLE": "LIBNBD_HANDSHAKE_FLAG_FIXED_NEWSTYLE",
        "NBD_FLAG_NO_ZEROES": "LIBNBD_HANDSHAKE_FLAG_NO_ZEROES",
        "NBD_FLAG_C_FIXED_NEWSTYLE": "LIBNBD_HANDSHAKE_FLAG_FIXED_NEWSTYLE",
        "NBD_FLAG_C_NO_ZEROES": "LIBNBD_HANDSHAKE_FLAG_NO_ZEROES",
    },
    # a reply's errors bear the names and the numbers of Linux's own
    "linux/errno.h": {"NBD_EPERM": "EPERM", "NBD_EINVAL": "EINVAL", "NBD_ENOSPC": "ENOSPC", "NBD_ENOSYS": "ENOSYS"},
}
# Those of today, that is: what a later <linux/nbd.h> has under our name is compared all the same.
IN_NO_HEADER = """
    NBDMAGIC IHAVEOPT OLDSTYLE RUSTNBD NBD_OPT_REPLY_MAGIC
    NBD_OPT_EXPORT_NAME NBD_OPT_ABORT NBD_OPT_LIST NBD_OPT_STARTTLS NBD_OPT_INFO NBD_OPT_GO NBD_OPT_STRUCTURED_REPLY NBD_OPT_EXTENDED_HEADERS
    NBD_REP_ACK NBD_REP_SERVER NBD_REP_ERR_UNSUP
    NBD_FLAG_ROTATIONAL NBD_FLAG_SEND_RESIZE NBD_CMD_WRITE_ZEROES NBD_CMD_RESIZE
""".split()
# The kernel's structs: for each member the fields of ours that it spans.
STRUCTS = {
    "request": ("nbd_request", {"magic": ["NBD_REQUEST_MAGIC"], "type": ["flags", "type"], "handle": ["handle"], "from": ["offset"], "len": ["len"]}),
    "simple_reply": ("nbd_reply", {"magic": ["NBD_REPLY_MAGIC"], "error": ["error"], "handle": ["handle"]}),
}


# ---- ours


def read(*path):
    with open(os.path.join(*path), encoding="utf-8") as f:
        return f.read()


def defined(wire):
    """The constants of specs/Constants.antt, under the names that the code has for them."""
    found = {}
    for head, name, value in re.findall(r"^abbrev pub (\S+) : .*\n(\S+) = (.*)$", read(wire, "specs", "Constants.antt"), re.M):
        assert head == name, f"{head} is followed by {name}"
        *listed, last = value.split(" ∷ ")
        found[name.upper()] = bytes(int(b, 0) for b in listed) if last == "[]" else int(last, 0)
    return found


def coded(wire):
    """The constants of src/consts.rt."""
    found = re.findall(r"^pub const (\w+): .* = \*?(.*);$", read(wire, "src", "consts.rt"), re.M)
    return {name: ast.literal_eval(value) for name, value in found}


def fields(wire, layout):
    """The fields of a definition of specs/Layouts.antt: the offset and the width of each."""
    right = re.search(rf"^{layout} .*= (.*)$", read(wire, "specs", "Layouts.antt"), re.M).group(1)
    found, at = {}, 0
    for part in right.split(" ++ "):
        width, name = re.fullmatch(r"be (\d+) (\S+)", part).groups()
        found[name] = (at, int(width))
        at += int(width)
    return found


# ---- theirs

# The header is included inside main: what it declares hides the names outside, and -1 stands for what it lacks.
PROGRAM = """\
#include <stdbool.h>
#include <stddef.h>
#include <stdint.h>
#include <stdio.h>
#include <sys/socket.h>
#include <linux/types.h>
enum {{ LACKING = -1, {lacking} }};
int main(void)
{{
#if __has_include(<{header}>)
#include <{header}>
{prints}
#endif
    return 0;
}}
"""


def asked(header, names, expressions=()):
    """What these names and expressions are behind the header, None for a name that it lacks; nothing where there is no such header."""
    every = [*sorted(set(names)), *expressions]
    prints = "\n".join(f'    printf("%lld\\n", (long long)({e}));' for e in every)
    program = PROGRAM.format(header=header, lacking=", ".join(f"{n} = LACKING" for n in set(names)), prints=prints)
    with tempfile.TemporaryDirectory() as folder:
        out = os.path.join(folder, "out")
        subprocess.run([CC, "-x", "c", "-", "-o", out], input=program.encode(), check=True)
        got = subprocess.run([out], stdout=subprocess.PIPE, check=True).stdout.split()
    return {e: None if value == b"-1" else int(value) for e, value in zip(every, got)}


def compiles():
    try:
        return asked("stddef.h", [], ["1"]) == {"1": 1}
    except (OSError, subprocess.CalledProcessError):
        return False


# ---- compared


def constants(same, ours):
    """Each that a header has; gives the headers that are not there."""
    absent, counts, seen = [], [], set()
    for header, names in HEADERS.items():
        tried = dict({n: n for n in ours}, **names) if header == KERNEL else names
        got = asked(header, tried.values())
        if not got:
            absent.append(f"<{header}>")
            continue
        there = sorted(n for n, theirs in tried.items() if n in names or got[theirs] is not None)
        for n in there:
            same(f"{n} and {tried[n]} of <{header}>", ours.get(n), got[tried[n]])
        counts.append(f"{len(there)} with <{header}>")
        seen.update(there)
    print("constants compared:", ", ".join(counts) or "none", flush=True)
    print("and those of which no header here speaks:", " ".join(n for n in ours if n not in seen), flush=True)
    return absent


def layouts(same, wire):
    """The offset and the width of each member of the kernel's structs, their sizes, and which half of the kernel's type the flags are."""
    for layout, (struct, members) in STRUCTS.items():
        ours, size = fields(wire, layout), f"sizeof(struct {struct})"
        places = {m: (f"offsetof(struct {struct}, {m})", f"sizeof ((struct {struct} *)0)->{m}") for m in members}
        got = asked(KERNEL, ["NBD_CMD_FLAG_FUA"], [size, *(e for pair in places.values() for e in pair)])
        for m, parts in members.items():
            span = (ours[parts[0]][0], sum(ours[p][1] for p in parts))
            same(f"{layout}: {m} of struct {struct}", span, tuple(got[e] for e in places[m]))
        same(f"{layout}: the size of struct {struct}", sum(width for _, width in ours.values()), got[size])
        if "flags" in ours:
            at, width = ours["flags"]
            fua = got["NBD_CMD_FLAG_FUA"].to_bytes(4, "big").index(1)
            same(f"{layout}: the byte that has the flag FUA, whose number is 1", at + width - 1, got[places["type"][0]] + fua)


def compare(same, wire=WIRE):
    """Makes each comparison by same(what, got, want); gives the list of what could not be had."""
    ours, code = defined(wire), coded(wire)
    for n in sorted({*ours, *code}):
        same(f"{n} of specs and of code", ours.get(n), code.get(n))
    placed = {*IN_NO_HEADER, *(n for names in HEADERS.values() for n in names)}
    same("constants that constants.py does not know", sorted({*ours} - placed), [])
    same("constants that only constants.py knows", sorted(placed - {*ours}), [])
    if not compiles():
        return ["a C compiler"]
    absent = constants(same, ours)
    if f"<{KERNEL}>" not in absent:
        layouts(same, wire)
    return absent


def main():
    results = []

    def same(what, got, want):
        results.append(got == want)
        if got != want:
            print(f"FAILED: {what}: got {got!r} and not {want!r}")

    absent = compare(same, *sys.argv[1:])
    if absent:
        print("could not be had:", " ".join(absent))
    print(f"{sum(results)} passed, {len(results) - sum(results)} failed")
    sys.exit(not all(results))


if __name__ == "__main__":
    main()
