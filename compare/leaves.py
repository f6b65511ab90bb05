#!/usr/bin/env python3
"""Writes the cases that crates/leaves reads and the lines that it has to write: the files crates/leaves/stdin and crates/leaves/stdout are
this script's output, and

    python3 compare/leaves.py stdin | cmp - crates/leaves/stdin
    python3 compare/leaves.py stdout | cmp - crates/leaves/stdout

say nothing. Both are made without the program. Numbers on the wire are Python's own int.to_bytes and int.from_bytes, UTF-8 is Python's own
strict decoder, and the rules of the export table, of the lookup and of the client's sums are read here from document 01, whose words stand
beside them. The gate does not run this script; it runs the program and compares what that writes with the file.

A case is a letter, two numbers x and y and a payload. Its record is the letter (1 byte), x (8), y (8), the payload's size (2) and the payload;
its line is the letter, x, y and the payload in hex, then a colon and the answer:

    2, 4, 8   the number x in a field of 2, 4 or 8 bytes at the place y of 12 bytes EE: these bytes, and the number that is read there
    c         the number x, clamped as u64 and as usize
    a         the position x and the offset y (in two's complement): their sum or `refused`
    u         a text: w (whole), c (cut) or b (bad); the same for it in single bytes; and in two parts, cut at each place
    p         the texts of the first byte x and each of the 256 second bytes: a letter for each
    t         a table and an image of x bytes: the number of the first fault, or 0
    w         the table's flags x: the flags that the server sends
    n         a table of x bytes and a name: the export's number and start or `none`; the same for the name in single bytes
    d         a table of x bytes and another: what the name "ab" finds, begun and its "a" taken with the one, its "b" with the other"""
import codecs
import sys

CASES = []


def case(letter, answer, x=0, y=0, payload=b""):
    CASES.append((letter, x, y, payload, answer))


# ---- numbers: "All numbers are big-endian"


def fields():
    for width in (2, 4, 8):
        rising = int.from_bytes(bytes(range(1, width + 1)), "big")
        for at in (0, 3):
            for x in (0, 1, rising, 2 ** (8 * width) - 1):
                room = bytearray(b"\xee" * 12)
                room[at : at + width] = x.to_bytes(width, "big")
                back = int.from_bytes(room[at : at + width], "big")
                case(str(width), f"{room.hex()} {back}", x, at)


def clamps():
    for x in (0, 2**32 - 1, 2**32, 2**64 - 1):
        least = min(x, 2**32 - 1)
        case("c", f"{least} {least}", x)


def added(p, d):
    """ "refused if it leaves 0..2^64-1 or is by -2^63" """
    if d == -(2**63) or not 0 <= p + d < 2**64:
        return "refused"
    return str(p + d)


def sums():
    for p, d in (
        (5, -5),
        (5, -6),
        (0, -1),
        (2**63, -(2**63)),
        (2**63, -(2**63 - 1)),
        (2**64 - 1, 0),
        (2**64 - 1, 1),
        (0, 2**63 - 1),
    ):
        case("a", added(p, d), p, d % 2**64)


# ---- UTF-8: Python's decoder, fed part by part and then told that the text ends


def standing(*parts):
    decoder = codecs.getincrementaldecoder("utf-8")("strict")
    try:
        for part in parts:
            decoder.decode(part)
        decoder.decode(b"", final=True)
        return "w"
    except UnicodeDecodeError as e:
        return "c" if e.reason == "unexpected end of data" else "b"


def is_text(name):
    try:
        name.decode("utf-8", "strict")
        return True
    except UnicodeDecodeError:
        return False


# the examples of RFC 3629, section 7, and the empty text
EXAMPLES = "- 41E289A2CE912E ED959CEAB5ADEC96B4 E697A5E69CACE8AA9E EFBBBFF0A38EB4"

# the ends of the grammar's ranges, and what is just outside
BORDERS = """
00 7F 80 BF
C080 C0AF C1BF C280 DFBF
E08080 E09FBF E0A080 EE8080 EFBFBF
ED9FBF EDA080 EDBFBF
F0808080 F08FBFBF F0908080 F3BFBFBF
F48FBFBF F4908080 F5808080 FE FF
"""

# characters without their last byte, and bytes that stand in no text or not there
FAULTS = """
C2 E2 E282 EDA0
F0 F09F F09F98 41E289
C28080 676F6F64FF676F6F64 676F6F64E282AC80676F6F64
C241 E28241 F09F9841
"""


def texts():
    for word in (EXAMPLES + BORDERS + FAULTS).split():
        v = bytes.fromhex(word.replace("-", ""))
        singly = standing(*(bytes([b]) for b in v))
        in_two = "".join(standing(v[:k], v[k:]) for k in range(len(v) + 1))
        case("u", f"{standing(v)} {singly} {in_two}", payload=v)


def pairs():
    for a in range(256):
        case("p", "".join(standing(bytes([a, b])) for b in range(256)), a)


# ---- the export table


class Fault(Exception):
    pass


def records(table, image):
    """The records (start, size, flags, name) of a sound table. Else Fault, with the number of the first fault."""
    # "One version byte, 1." 20: "version or empty"
    if table[:1] != b"\x01":
        raise Fault(20)
    found, rest = [], table[1:]
    while rest:
        # "The first faulty record decides; in it: 22, 21, 24, 25, 23"
        # 22: "33rd record"
        if len(found) == 32:
            raise Fault(22)
        # 21: "length field cut, out of range or past the end"; "two bytes L (17 to 4,113) counting what follows"
        if len(rest) < 2:
            raise Fault(21)
        length = int.from_bytes(rest[:2], "big")
        if not 17 <= length <= 4113 or len(rest) < 2 + length:
            raise Fault(21)
        body, rest = rest[2 : 2 + length], rest[2 + length :]
        # "start (8), size (8), flags (1: bit 0 read-only, 1 resizeable, 2 rotational, 3 send_trim), name (L-17 bytes, UTF-8)"
        start, size, flags, name = int.from_bytes(body[:8], "big"), int.from_bytes(body[8:16], "big"), body[16], body[17:]
        # 24: "unknown flag bit"
        if flags >> 4:
            raise Fault(24)
        # 25: "name not UTF-8"
        if not is_text(name):
            raise Fault(25)
        # 23: "window past the image"
        if start + size > image:
            raise Fault(23)
        found.append((start, size, flags, name))
    return found


def fault(table, image):
    try:
        records(table, image)
        return 0
    except Fault as f:
        return f.args[0]


def judged(table, image=8):
    case("t", f"{fault(table, image)}", image, payload=table)


def record(start, size, flags, name, length=None):
    length = 17 + len(name) if length is None else length
    return length.to_bytes(2, "big") + start.to_bytes(8, "big") + size.to_bytes(8, "big") + bytes([flags]) + name


def series(count):
    return b"".join(record(0, 8, 0, bytes([0x40 + i])) for i in range(count))


def one(image, length, window, name):
    judged(b"\x01" + record(*window, name, length), image)


def two(x, a, y, b):
    judged(b"\x01" + record(*x, a) + record(*y, b))


def last(count, window, stray):
    judged(b"\x01" + series(count) + record(*window, b"z") + bytes(stray))


def lengths():
    for word in ("", "00", "01", "02", "0200", "0100", "0111", "010011"):
        judged(bytes.fromhex(word))
    for length, n in (
        (0, 0),
        (16, 0),
        (17, 0),
        (18, 0),
        (17, 1),
        (18, 1),
        (65535, 1),
        (4112, 4095),
        (4113, 4095),
        (4113, 4096),
        (4114, 4097),
    ):
        judged(b"\x01" + record(0, 8, 0, b"a" * n, length))


def names_flags_windows():
    for name in map(bytes.fromhex, ("E282AC", "EDA080", "C2", "61FF")):
        judged(b"\x01" + record(0, 0, 0, name))
    for flags in (15, 16, 255):
        one(8, 18, (0, 8, flags), b"a")
    for image, start, size in ((8, 0, 8), (8, 0, 9), (8, 3, 5), (8, 3, 6), (8, 8, 0), (8, 9, 0), (0, 0, 0), (0, 0, 1)):
        one(image, 18, (start, size, 0), b"a")
    most, half = 2**64 - 1, 2**63
    for start, size in ((most, 0), (0, most), (most, 1), (1, most), (half, half), (most, 9), (most, most)):
        one(8, 18, (start, size, 0), b"a")


SOUND, ODD, PAST, BOTH = (0, 8, 0), (0, 8, 16), (1, 8, 0), (1, 8, 16)


def counts():
    for count, window, stray in (
        (0, SOUND, 1),
        (30, SOUND, 1),
        (31, SOUND, 0),
        (31, SOUND, 1),
        (32, SOUND, 0),
        (0, PAST, 1),
        (31, ODD, 0),
        (31, ODD, 1),
        (32, ODD, 0),
    ):
        last(count, window, stray)


def orders():
    two(SOUND, b"a", SOUND, b"a")
    two(SOUND, b"a", PAST, b"b")
    two(PAST, b"a", ODD, b"b")
    two(SOUND, b"\x80", ODD, b"b")
    two(ODD, b"a", PAST, b"b")
    one(8, 18, BOTH, b"\x80")
    one(8, 18, PAST, b"\x80")
    one(8, 18, BOTH, b"a")
    one(8, 16, BOTH, b"\x80")


def wire_flags():
    """ "Flags: 1; plus 2 if read-only, else 4; plus 512 resizeable, 16 rotational, 32 send_trim." """
    for f in range(16):
        sent = 1 + (2 if f & 1 else 4) + (512 if f & 2 else 0) + (16 if f & 4 else 0) + (32 if f & 8 else 0)
        case("w", f"{sent}", f)


# ---- lookup


def lookup(steps):
    """The number of the export, or None. Each step is a table's records and the name's bytes that are taken in it. "It starts, once the
    name's length is known, with those whose names are that long; a name byte clears each that differs there, lacks that byte or has no
    record in the table lent in that step." Then "the lowest one left is chosen". """
    total = sum(len(part) for _, part in steps)
    fits = {k for k, r in enumerate(steps[0][0]) if len(r[3]) == total}
    place = 0
    for table, part in steps:
        for b in part:
            fits = {k for k in fits if k < len(table) and place < len(table[k][3]) and table[k][3][place] == b}
            place += 1
    return min(fits, default=None)


def shown(k, table):
    return "none" if k is None else f"{k} {table[k][0]}"


def looked_up(lent, name):
    table = records(lent, 8)
    whole = lookup([(table, name)])
    singly = lookup([(table, b"")] + [(table, bytes([b])) for b in name])
    # "the first of two equal names wins"
    assert whole == next((k for k, r in enumerate(table) if r[3] == name), None)
    case("n", f"{shown(whole, table)} {shown(singly, table)}", len(lent), payload=lent + name)


def table_of(a, b):
    return b"\x01" + record(1, 0, 0, a) + record(2, 0, 0, b)


def lookups():
    for a, b in (
        (b"a", b"a"),
        (b"ab", b"ab"),
        (b"", b""),
        (b"", b"a"),
        (b"a", b""),
        (b"a", b"ab"),
        (b"ab", b"abc"),
        (b"abc", b"ab"),
    ):
        for name in (b"", b"a", b"ab", b"abc", b"abcd", b"b", b"aB", b"\xff\xff"):
            looked_up(table_of(a, b), name)
    for name in (b"", b"@", b"O", b"_", b"`", b"@A"):
        looked_up(b"\x01" + series(32), name)


def changed(lent, then):
    first, second = records(lent, 8), records(then, 8)
    k = lookup([(first, b"a"), (second, b"b")])
    case("d", shown(k, second), len(lent), payload=lent + then)


def changes():
    for a, b in ((b"ab", b"x"), (b"x", b"ab"), (b"ab", b"ab"), (b"abc", b"x")):
        for c, d in ((b"ab", b"x"), (b"abc", b"x"), (b"xb", b"ab"), (b"a", b"ab"), (b"aB", b"x"), (b"x", b"ab")):
            changed(table_of(a, b), table_of(c, d))
        changed(table_of(a, b), b"\x01")


fields()
clamps()
sums()
texts()
pairs()
lengths()
names_flags_windows()
counts()
orders()
wire_flags()
lookups()
changes()

what = sys.argv[1] if len(sys.argv) == 2 else ""
for letter, x, y, payload, answer in CASES:
    if what == "stdin":
        size = len(payload).to_bytes(2, "big")
        sys.stdout.buffer.write(letter.encode() + x.to_bytes(8, "big") + y.to_bytes(8, "big") + size + payload)
    elif what == "stdout":
        print(f"{letter} {x} {y} {payload.hex()}: {answer}")
    else:
        sys.exit("which of the two: stdin or stdout?")
