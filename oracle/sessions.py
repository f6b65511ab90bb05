"""The sessions that are put to the crate and to the port: inputs only, no answers.

`FAMILIES` are tried whole; `endless` gives random sessions without end: good ones, ones that end in every way, cut ones and damaged copies;
`everything` mixes the two. `in_domain` is document 01's oracle domain. The same seed gives the same sessions.
"""
import itertools
import struct
from collections import namedtuple

# chunk: the most that the crate's wire hands out or accepts at once
Server = namedtuple("Server", "table image data chunk")
Client = namedtuple("Client", "name data calls chunk")
Header = namedtuple("Header", "size flags")
WHOLE = 2**31

READ, WRITE, DISC, FLUSH, TRIM, ZEROES = 0, 1, 2, 3, 4, 6
REQUEST, REPLY = 0x25609513, 0x67446698
OPTION_MAGIC = b"IHAVEOPT"
OLD_MAGIC = bytes.fromhex("0000420281861253")


def uncut(session):
    """The session apart from how the crate's wire is cut."""
    return session if isinstance(session, Header) else session._replace(chunk=WHOLE)


# ---- the oracle domain


def in_domain(session, taken_by_handshake):
    """ "all requests except a READ of length above 0 that passes the window's end, a WRITE of length above 0 that passes it, a WRITE on a
    read-only export, and a WRITE cut inside its payload". A WRITE of which no payload byte came counts as cut. The client's part of the
    domain needs no test: a session goes to its first fault 45, 46 or 50, and is told the end of input with no output owed."""
    if not isinstance(session, Server) or taken_by_handshake is None:
        return True
    data, at = session.data, taken_by_handshake
    _, _, size, flags = chosen(records_of(session.table), data[:at])
    while at + 28 <= len(data):
        magic, _, kind, _, offset, length = struct.unpack_from(">IHHQQI", data, at)
        at += 28
        if magic != REQUEST or kind not in (READ, WRITE, FLUSH, TRIM, ZEROES):
            return True
        if kind in (READ, WRITE) and length > 0 and offset + length > size:
            return False
        if kind == WRITE:
            at += length
            if flags & 1 or at > len(data):
                return False
    return True


def records_of(table):
    at, records = 1, []
    while at < len(table):
        length, start, size, flags = struct.unpack_from(">HQQB", table, at)
        records.append((table[at + 19 : at + 2 + length], start, size, flags))
        at += 2 + length
    return records


def chosen(records, handshake):
    """The record that a handshake has chosen which the crate took whole: its last option is the name."""
    at = 4
    while True:
        length = int.from_bytes(handshake[at + 12 : at + 16], "big")
        at += 16 + length
        if at == len(handshake):
            name = handshake[at - length :]
            return next(r for r in records if r[0] == name)


# ---- the parts of a session


def export(name, start, size, flags=0):
    return struct.pack(">HQQB", 17 + len(name), start, size, flags) + name


def table(records):
    return b"\x01" + b"".join(export(*r) for r in records)


def hello(flags):
    return struct.pack(">I", flags)


def option(kind, payload=b"", length=None):
    return OPTION_MAGIC + struct.pack(">II", kind, len(payload) if length is None else length) + payload


def request(kind, offset=0, length=0, payload=b"", handle=0x0102030405060708, flags=0, magic=REQUEST):
    return struct.pack(">IHHQQI", magic, flags, kind, handle, offset, length) + payload


def newstyle(size, flags, filler=bytes(124), hello=b"\x00\x03"):
    return b"NBDMAGICIHAVEOPT" + hello + struct.pack(">QH", size, flags) + filler


def oldstyle(size, flags, filler=bytes(124)):
    return b"NBDMAGIC" + OLD_MAGIC + struct.pack(">QI", size, flags) + filler


def reply(error=0, data=b"", signature=REPLY, handle=0):
    return struct.pack(">IIQ", signature, error, handle) + data


def damaged(rng, data):
    """One to three faults: a bit, a byte, a byte less, a byte more, a part twice, the end gone."""
    d = bytearray(data)
    for _ in range(rng.choice((1, 1, 1, 2, 3))):
        at = rng.randrange(len(d) + 1)
        way = rng.randrange(6)
        if way == 0 and at < len(d):
            d[at] ^= 1 << rng.randrange(8)
        elif way == 1 and at < len(d):
            d[at] = rng.choice((0, 1, 0x7F, 0x80, 0xFF, rng.randrange(256)))
        elif way == 2:
            del d[at : at + rng.choice((1, 1, 2, 4, 28))]
        elif way == 3:
            d[at:at] = rng.randbytes(rng.choice((1, 1, 2, 4)))
        elif way == 4:
            d[at:at] = d[at : at + rng.choice((1, 4, 16, 28))]
        else:
            del d[at:]
    return bytes(d)


def patched(data, at, value):
    return data[:at] + bytes([value]) + data[at + 1 :]


def chunk(rng):
    return rng.choice((WHOLE, WHOLE, WHOLE, 1, 3, 7))


# ---- tables with their images

NAMES = [b"", b"a", b"b", b"aa", b"ab", b"abc", b"abd", b"rustnbd", "\u00e9".encode(), "\u20ac".encode(), "\U0001d11e".encode(), "a\u00e9".encode()]
IMAGE = bytes(range(0x20, 0x40))
SHELVES = [
    ([], b""),
    ([], IMAGE[:8]),
    ([(b"a", 0, 8, 0)], IMAGE[:8]),
    ([(b"a", 0, 8, 1)], IMAGE[:8]),
    ([(b"", 0, 0, 0)], b""),
    # the first of two equal names wins; windows overlap
    ([(b"a", 4, 8, 0), (b"ro", 8, 8, 5), (b"a", 0, 4, 2), (b"", 6, 16, 2), (b"ab", 0, 32, 8), (NAMES[8], 32, 0, 15)], IMAGE),
    ([(bytes([k]), k % 20, k % 12, k % 16) for k in range(32)], IMAGE),
    ([(b"n" * 255, 0, 3, 0), (b"n" * 256, 3, 4, 2), (b"n" * 257, 7, 5, 4)], IMAGE[:12]),
]
A = SHELVES[2]


def shelf(rng):
    if rng.randrange(3) == 0:
        return SHELVES[rng.randrange(len(SHELVES) - 1)]
    image = rng.randbytes(rng.choice((0, 1, 5, 8, 8, 16, 16, 24, 24, 300)))
    records = []
    for _ in range(rng.choice((1, 1, 2, 3, 4))):
        start = rng.randint(0, len(image))
        size = rng.choice((len(image) - start, rng.randint(0, len(image) - start)))
        records.append((rng.choice(NAMES), start, size, rng.choice((0, 0, 0, rng.randrange(16)))))
    return records, image


def serve(rng, where, data):
    records, image = where
    return Server(table(records), image, data, chunk(rng))


# ---- server: families that are tried whole


def edges(size):
    return [0, 1, max(size, 1) - 1, size, size + 1, 2**31, 2**32 - 1, 2**32, 2**63 - 1, 2**63, 2**64 - 1]


def client_flags(rng):
    for base, at, value in itertools.product((1, 3), range(4), range(256)):
        yield serve(rng, A, patched(hello(base), at, value) + option(2) + b"rest")


def option_magics(rng):
    for at, value in itertools.product(range(8), range(256)):
        yield serve(rng, A, hello(3) + patched(option(2), at, value) + b"rest")


OPTIONS = [*range(41), *(1 << k for k in range(6, 32)), 2**32 - 1]


def options(rng):
    for flags, kind, length, last in itertools.product((1, 3), OPTIONS, range(5), (b"", option(3) + option(1, b"a") + request(DISC) + b"rest")):
        yield serve(rng, A, hello(flags) + option(kind, b"aaaa"[:length]) + last)


def option_lengths(rng):
    """Every length up to 40, and those around 2^8 and the longest name: the payload whole, one byte short, one more behind it."""
    for length in [*range(41), *range(254, 259), *range(4095, 4099)]:
        for kind in (1, 2, 3, 5, 6, 7, 8, 11, 12):
            for k in (-1, 0, 1):
                yield serve(rng, SHELVES[7], hello(3) + option(kind, b"n" * (length + k), length))
    for length in [100001, 100002, *(1 << k for k in range(17, 32)), 2**32 - 1]:
        for kind in (1, 2, 3, 5, 6, 12):
            yield serve(rng, A, hello(1) + option(kind, b"rest", length))


def long_options(rng):
    """Around the greatest length, 100,000."""
    for length in (99999, 100000, 100001):
        for kind in (1, 2, 3, 5, 6, 12):
            yield serve(rng, A, hello(3) + option(kind, b"n" * length) + option(1, b"a") + request(DISC))
        yield serve(rng, A, hello(3) + option(6, b"n" * (length - 1), length))
        yield serve(rng, A, hello(3) + option(1, b"n" * (length - 1) + b"\xc3") + b"rest")


def longest_option(rng):
    """Options of the greatest length of which only the front comes: the sample has these in place of `long_options`, which are long."""
    for kind in (1, 2, 3, 5, 6, 12):
        yield serve(rng, A, hello(3) + option(kind, b"rest", 100000))


def names(rng):
    """All names of one and two bytes, those of three with a lead E0..EF, those of four with a lead EF..F5, around the tails' ends."""
    where = ([(b"a", 0, 4, 0), (b"ab", 0, 6, 1), (b"", 4, 4, 0), *((n, 1, 7, 2) for n in NAMES[8:])], IMAGE[:8])
    three = itertools.product(range(0xE0, 0xF0), range(256), (0x7F, 0x80, 0xAC, 0xBF, 0xC0))
    four = itertools.product(range(0xEF, 0xF6), range(256), (0x7F80, 0x8080, 0x849E, 0xBFBF, 0xC080, 0x80C0, 0xBF7F))
    for name in itertools.chain(
        (bytes(n) for k in (0, 1, 2) for n in itertools.product(range(256), repeat=k)),
        (bytes(n) for n in three),
        (bytes([a, b]) + struct.pack(">H", cd) for a, b, cd in four),
    ):
        yield serve(rng, where, hello(3) + option(1, name) + request(DISC))


def many_names(rng):
    """Tables of 0 to 32 records, each record's name asked for, and one that is not there; a name of 4,096 bytes."""
    for n in range(33):
        records = [(b"n%d" % k, k, 32 - k, k % 16) for k in range(n)]
        for k in range(n + 1):
            yield serve(rng, (records, IMAGE), hello(1 + 2 * (k % 2)) + option(1, b"n%d" % k) + request(READ, 0, 1) + request(DISC))
    longest = b"n" * 4096
    for name in (longest, longest[:-1], longest + b"n", longest[:-1] + b"m"):
        yield serve(rng, ([(longest, 0, 8, 0)], IMAGE), hello(3) + option(1, name) + request(DISC))


def export_flags(rng):
    for flags, client, size in itertools.product(range(16), (1, 3), (0, 1, 32)):
        yield serve(rng, ([(b"a", 32 - size, size, flags)], IMAGE), hello(client) + option(1, b"a") + request(READ, 0, size) + request(DISC))


def transfers(rng):
    """Each READ and each WRITE that fits, in windows of 0 to 6 bytes; then the whole window is read. Empty ones at every edge."""
    for size in range(7):
        where = ([(b"", 3, size, 0)], IMAGE[:12])
        fits = [(o, n) for o in range(size + 1) for n in range(size - o + 1)]
        for offset, length in fits + [(o, 0) for o in edges(size)]:
            for kind in (READ, WRITE):
                payload = b"PAYLOAD"[: length if kind == WRITE else 0]
                yield serve(
                    rng, where, hello(3) + option(1) + request(kind, offset, length, payload) + request(READ, 0, size) + request(DISC) + b"rest"
                )


def request_kinds(rng):
    """All 65,536 types."""
    for kind in range(65536):
        yield serve(rng, A, hello(3) + option(1, b"a") + request(kind, 0, 0) + request(DISC))


def request_magics(rng):
    for at, value in itertools.product(range(4), range(256)):
        yield serve(rng, A, hello(3) + option(1, b"a") + patched(request(FLUSH), at, value))


def server_prefixes(rng):
    """The end of input at every place."""
    every = b"".join(option(k, p) for k in (3, 6, 7, 8, 11) for p in ((b"",) if k == 3 else (b"", b"pp")))
    served = request(READ, 2, 4) + request(WRITE, 1, 0) + request(FLUSH) + request(READ, 9, 0)
    served += request(TRIM, 0, 4) + request(ZEROES) + request(READ, 0, 8)
    for data in (
        hello(1) + every + option(1, b"a") + served + request(DISC) + b"rest",
        hello(3) + option(1, b"a") + request(WRITE, 1, 5, b"VWXYZ") + served + request(9),
        hello(3) + option(6, b"p") + option(2, b"why") + b"rest",
        hello(3) + option(3) + option(3, b"x") + b"rest",
        hello(1) + option(8) + option(5, b"tls") + b"rest",
        hello(1) + option(8) + option(4, b"four") + b"rest",
        hello(1) + option(8) + option(1, b"\xed\xa0\x80") + b"rest",
        hello(1) + option(8) + option(1, b"none") + b"rest",
    ):
        for k in range(len(data) + 1):
            for where in (A, SHELVES[3]):
                yield serve(rng, where, data[:k])


def large(rng):
    """READs and WRITEs around the crate's buffer of 65,536 bytes, and twice that."""
    image = rng.randbytes(140000)
    for length in (65535, 65536, 65537, 131071, 131072, 131073):
        for offset in (0, 1, 135000 - length):
            stored = request(WRITE, offset, length, rng.randbytes(length)) + request(READ, offset, length)
            yield serve(rng, ([(b"big", 5000, 135000, 0)], image), hello(3) + option(1, b"big") + stored + request(DISC))


# ---- server: random


def some_request(rng, size, read_only):
    kind = rng.choice((READ, READ, WRITE, WRITE, FLUSH, TRIM, ZEROES))
    handle, flags = rng.getrandbits(64), rng.choice((0, 0, 1, rng.getrandbits(16)))
    if kind == WRITE and read_only:
        kind = READ
    if kind in (READ, WRITE):
        offset = rng.randint(0, size)
        length = rng.choice((0, size - offset, rng.randint(0, size - offset)))
        if length == 0:
            offset = rng.choice(edges(size))
        return request(kind, offset, length, rng.randbytes(length if kind == WRITE else 0), handle, flags)
    return request(kind, rng.choice(edges(size)), rng.choice((0, 1, size, 2**32 - 1)), b"", handle, flags)


def last_request(rng):
    return rng.choice(
        (
            request(DISC, rng.getrandbits(64), rng.getrandbits(32)),
            request(DISC) + rng.randbytes(5),
            b"",
            b"",
            rng.randbytes(rng.randrange(40)),
            request(rng.choice((5, 7, 8, 9, 256, 0xFFFF, rng.getrandbits(16)))) + b"rest",
            request(FLUSH)[: rng.randrange(28)],
        )
    )


def some_option(rng):
    kind = rng.choice((3, 3, 6, 7, 8, 11))
    return option(kind, b"" if kind == 3 else rng.randbytes(rng.choice((0, 0, 1, 4, 9))))


def last_option(rng):
    return rng.choice(
        (
            option(2, rng.randbytes(rng.choice((0, 0, 1, 6)))),
            option(3, rng.randbytes(rng.randint(1, 5))),
            option(5, rng.randbytes(rng.choice((0, 3)))),
            option(rng.choice((0, 4, 9, 10, 12, 13, rng.getrandbits(32))), rng.randbytes(rng.choice((0, 3)))),
            option(1, rng.choice(NAMES)[: rng.randrange(4)] + rng.randbytes(rng.randrange(3))),
            option(1, rng.choice(NAMES)),
            option(rng.randrange(14), b"", rng.choice((100001, 2**32 - 1, rng.getrandbits(32) | 1 << 17))),
            rng.randbytes(rng.randrange(20)),
            option(6)[: rng.randrange(16)],
        )
    )


def good_server(rng, where):
    records, _ = where
    data = hello(rng.choice((1, 3))) + b"".join(some_option(rng) for _ in range(rng.choice((0, 0, 0, 1, 2, 3))))
    if not records or rng.randrange(5) == 0:
        return data + last_option(rng) + rng.choice((b"", b"rest"))
    name = rng.choice(records)[0]
    _, _, size, flags = next(r for r in records if r[0] == name)
    data += option(1, name)
    for _ in range(rng.choice((0, 1, 1, 2, 2, 3, 5))):
        data += some_request(rng, size, flags & 1)
    return data + last_request(rng)


def random_server(rng):
    where = shelf(rng)
    data = good_server(rng, where)
    way = rng.randrange(10)
    if way >= 6:
        data = damaged(rng, data)
    elif way == 5:
        data = data[: rng.randrange(len(data) + 1)]
    return serve(rng, where, data)


# ---- client: families that are tried whole


def handshake_magics(rng):
    for good, name in itertools.product((newstyle(8, 5), oldstyle(8, 5)), (b"", b"ab")):
        for at, value in itertools.product(range(16), range(256)):
            yield Client(name, patched(good, at, value), [("r", b"--")], chunk(rng))


def handshake_flags(rng):
    """All 65,536 flags in both styles."""
    for flags in range(65536):
        size = rng.choice(edges(8))
        yield Client(b"n", newstyle(size, flags, hello=rng.randbytes(2)), [], chunk(rng))
        yield Client(b"", oldstyle(size, flags | rng.getrandbits(16) << 16), [], chunk(rng))


def fillers(rng):
    for at, value in itertools.product(range(124), (1, 0x80, 0xFF)):
        yield Client(b"n", newstyle(8, 5, patched(bytes(124), at, value)) + b"rest", [("f",)], chunk(rng))
        yield Client(b"", oldstyle(8, 5, patched(bytes(124), at, value)) + b"rest", [("f",)], chunk(rng))


def name_lengths(rng):
    for length in [*range(130), *range(254, 259), *range(1022, 1027), *range(4094, 4097)]:
        yield Client(rng.randbytes(length), newstyle(8, 5) + reply(), [("f",)], chunk(rng))
        yield Client(rng.randbytes(length), newstyle(8, 5)[: rng.randrange(152)], [("f",)], chunk(rng))
        yield Client(rng.randbytes(length), oldstyle(8, 5) + reply(), [("f",)], chunk(rng))


def seeks(rng):
    numbers = [0, 1, 5, 8, 9, 2**63 - 1, 2**63, 2**63 + 1, 2**64 - 2, 2**64 - 1]
    for size, position in itertools.product(numbers, numbers):
        calls = []
        for whence, offset in itertools.product((1, 2), [*numbers, 2**64 - 5, 2**64 - 6, 2**64 - 8, 2**64 - 9, 2**63 + 2]):
            calls += [("k", 0, position), ("k", whence, offset)]
        yield Client(b"", newstyle(size, 1), calls, WHOLE)


def lengths(rng):
    """Sizes, positions and buffers around each other, for each transfer; trims up to 2^64-1."""
    for size, position, length in itertools.product((0, 1, 4, 8), (0, 1, 3, 4, 7, 8, 9, 2**63, 2**64 - 1), (0, 1, 3, 4, 5, 8, 9)):
        for call in (("r", b"-" * length), ("w", b"+" * length), ("t", length)):
            data = b"abcdefgh"[: min(length, max(size - position, 0))] if call[0] == "r" else b""
            yield Client(b"", newstyle(size, 5) + reply(0, data), [("k", 0, position), call], chunk(rng))
    for size, back in itertools.product((2**31, 2**32 - 1, 2**32, 2**32 + 1, 2**63, 2**64 - 1), (0, 1, 5, 2**31, 2**32 - 2, 2**32 - 1, 2**32)):
        for length in (1, 2**31, 2**32 - 2, 2**32 - 1, 2**32, 2**32 + 1, 2**63, 2**64 - 1):
            yield Client(b"", newstyle(size, 5) + reply(), [("k", 2, -back % 2**64), ("t", length)], chunk(rng))


SIMPLE = [(("r", b"----"), b"data"), (("w", b"data"), b""), (("f",), b""), (("t", 3), b""), (("z", 77), b"")]


def replies(rng):
    """Every value of every byte of the signature and the handle, errors of every size, for each call; then one call more."""
    for call, data in SIMPLE:
        more = [call, ("f",)]
        for at, value in itertools.product([*range(4), *range(8, 16)], range(256)):
            yield Client(b"", newstyle(16, 5) + patched(reply(0, data), at, value) + reply(), more, chunk(rng))
        for error in [*range(260), *(1 << k for k in range(32)), 2**32 - 1]:
            yield Client(b"", newstyle(16, 5) + reply(error, b"" if error else data) + reply(), more, chunk(rng))
        # two faults at once: the signature comes first, then the handle
        for signature, handle, error in itertools.product((0, REQUEST, REPLY), (0, 1, 2**63), (0, 1, 5, 99)):
            yield Client(b"", newstyle(16, 5) + reply(error, data, signature, handle), more, chunk(rng))


def client_prefixes(rng):
    """The end of input at every place."""
    calls, replied = [call for call, _ in SIMPLE], b"".join(reply(0, data) for _, data in SIMPLE)
    for name, shaken in ((b"", newstyle(16, 5)), (b"ab", newstyle(16, 517)), (b"", oldstyle(16, 5))):
        data = shaken + replied + b"rest"
        for k in range(len(data) + 1):
            yield Client(name, data[:k], calls, chunk(rng))
    for k, (call, data) in enumerate(SIMPLE):
        whole = newstyle(16, 5) + reply(0, data)
        for n in range(152, len(whole) + 1):
            yield Client(b"x", whole[:n], [call, SIMPLE[(k + 1) % 5][0]], chunk(rng))


def large_calls(rng):
    for length in (65535, 65536, 65537, 131073):
        data = rng.randbytes(length)
        yield Client(b"", newstyle(2**40, 5) + reply(0, data) + reply(), [("r", bytes(length)), ("w", data)], chunk(rng))


# ---- client: random


def some_size(rng):
    return rng.choice((0, 1, 8, 16, 16, 40, 40, 2**31, 2**32, 2**32 + 7, 2**63, 2**64 - 1))


def some_call(rng, size, position):
    """A call, and what a sound server sends for it: its data, or None where nothing is asked of the server."""
    kind = rng.choice("rrrwwwkkkftz")
    if kind == "k":
        numbers = edges(size) + [8, 2**64 - 8, -position, -size, 2**64 - 1 - position, rng.randrange(20)]
        return ("k", rng.randrange(3), rng.choice(numbers) % 2**64), None
    if kind == "f":
        return ("f",), b""
    if kind == "z":
        return ("z", some_size(rng)), b""
    length = rng.choice((0, 1, 3, 8, 17, rng.randrange(30)))
    if kind == "t":
        length = rng.choice((length, 2**32 - 1, 2**32, 2**64 - 1))
    n = min(length, max(size - position, 0), 2**32 - 1)
    call = ("t", length) if kind == "t" else (kind, rng.randbytes(length))
    return call, None if n == 0 else rng.randbytes(n) if kind == "r" else b""


def after(call, size, position):
    """Size and position once a call has succeeded: only what the inputs are made from, the crate judges."""
    if call[0] == "z":
        return call[1], position
    if call[0] in "rw" and position < size:
        return size, position + min(len(call[1]), size - position)
    if call[0] == "k":
        to = (0, position, size)[call[1]] + (call[2] if call[1] == 0 or call[2] < 2**63 else call[2] - 2**64)
        if 0 <= to < 2**64:
            return size, to
    return size, position


def good_client(rng):
    size, position = some_size(rng), 0
    flags = rng.choice((1, 5, 3, 0, rng.getrandbits(16)))
    name = rng.randbytes(rng.choice((0, 0, 1, 2, 5, 20)))
    data = newstyle(size, flags, hello=rng.choice((b"\0\1", b"\0\3", rng.randbytes(2))))
    if rng.randrange(3) == 0:
        data = oldstyle(size, flags | rng.choice((0, 0, rng.getrandbits(16))) << 16)
        name = b"" if rng.randrange(10) else name
    calls = []
    for _ in range(rng.choice((0, 1, 2, 2, 3, 4, 6))):
        call, answer = some_call(rng, size, position)
        calls.append(call)
        error = rng.choice((0, 0, 0, 0, 0, 0, 1, 5, 12, 22, 28, 38, rng.getrandbits(32)))
        if answer is not None:
            data += reply(error, b"" if error else answer)
        if answer is None or error == 0:
            size, position = after(call, size, position)
    return name, data, calls


def random_client(rng):
    name, data, calls = good_client(rng)
    way = rng.randrange(10)
    if way >= 8:
        data = damaged(rng, data)
    elif way >= 6:
        # the handshake is left whole
        data = data[:152] + damaged(rng, data[152:])
    elif way == 5:
        data = data[: rng.randrange(len(data) + 1)]
    elif way == 4:
        data += rng.randbytes(rng.randrange(20))
    return Client(name, data, calls, chunk(rng))


# ---- oldstyle_header


def headers(rng):
    for size, flags in itertools.product((0, 1, 0x0123456789ABCDEF, 2**63, 2**64 - 1), (0, 5, 0x00010000, 0x89ABCDEF, 2**32 - 1)):
        yield Header(size, flags)


# ---- all of them

FAMILIES = (
    client_flags, option_magics, options, option_lengths, long_options, names, many_names, export_flags, transfers, request_kinds, request_magics,
    server_prefixes, large, handshake_magics, handshake_flags, fillers, name_lengths, seeks, lengths, replies, client_prefixes, large_calls, headers,
)


def endless(rng):
    while True:
        yield random_server(rng)
        yield random_client(rng)


def everything(rng):
    """The families and the random sessions, one of each in turn; once a family is through, the others go on."""
    sources = [family(rng) for family in FAMILIES] + [endless(rng)]
    while True:
        for source in list(sources):
            s = next(source, None)
            if s is None:
                sources.remove(source)
            else:
                yield s
