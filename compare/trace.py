#!/usr/bin/env python3
"""A script for the program `trace`, and the lines that it has to write.

    python3 compare/trace.py stdin
    python3 compare/trace.py stdout
    python3 compare/trace.py count
    python3 oracle/sample.py keep

The gate's files crates/trace/stdin and stdout are the sample of the crate's answers (oracle/README.md), and these behind it; the last command
writes them.

The lines come from the models below: a server and a client that go a byte at a time, written from document 01's words
and knowing nothing of the port. Standard library only; the same bytes at every run.
"""
import struct
import sys
from collections import deque

# ---- the model: a server, a byte at a time


def utf8(name):
    """RFC 3629 by 01's module 2, on the whole name."""
    i = 0
    while i < len(name):
        lead = name[i]
        if lead <= 0x7F:
            tails = []
        elif 0xC2 <= lead <= 0xDF:
            tails = [(0x80, 0xBF)]
        elif lead == 0xE0:
            tails = [(0xA0, 0xBF), (0x80, 0xBF)]
        elif lead == 0xED:
            tails = [(0x80, 0x9F), (0x80, 0xBF)]
        elif 0xE1 <= lead <= 0xEF:
            tails = [(0x80, 0xBF)] * 2
        elif lead == 0xF0:
            tails = [(0x90, 0xBF)] + [(0x80, 0xBF)] * 2
        elif 0xF1 <= lead <= 0xF3:
            tails = [(0x80, 0xBF)] * 3
        elif lead == 0xF4:
            tails = [(0x80, 0x8F)] + [(0x80, 0xBF)] * 2
        else:
            return False
        for k, (low, high) in enumerate(tails):
            if i + 1 + k >= len(name) or not low <= name[i + 1 + k] <= high:
                return False
        i += 1 + len(tails)
    return True


def read_table(table, image):
    """(0, records) of a sound table, else (20..25, None). A record is (start, size, flags, name)."""
    if not table or table[0] != 1:
        return 20, None
    records, at = [], 1
    while at < len(table):
        if len(records) == 32:
            return 22, None
        if at + 2 > len(table):
            return 21, None
        length = table[at] * 256 + table[at + 1]
        if not 17 <= length <= 4113 or at + 2 + length > len(table):
            return 21, None
        start, size, flags = struct.unpack(">QQB", table[at + 2 : at + 19])
        name = table[at + 19 : at + 2 + length]
        if flags > 15:
            return 24, None
        if not utf8(name):
            return 25, None
        if start + size > image:
            return 23, None
        records.append((start, size, flags, name))
        at += 2 + length
    return 0, records


def wire_flags(flags):
    read_only, resizeable, rotational, trim = (flags >> k & 1 for k in range(4))
    return 1 + (2 if read_only else 4) + 512 * resizeable + 16 * rotational + 32 * trim


def number(bs):
    return int.from_bytes(bytes(bs), "big")


OPTION_MAGIC = b"IHAVEOPT"
REPLY_MAGIC = bytes.fromhex("0003e889045565a9")


def option_reply(option, kind, data=b""):
    return REPLY_MAGIC + struct.pack(">III", option, kind, len(data)) + data


class Session:
    """One server session. `owed` is what is still to be given: bytes, or places of the image. Every byte taken goes to `take`."""

    def __init__(self):
        self.over = None  # the number of the end
        self.owed = deque(b"NBDMAGICIHAVEOPT\x00\x03")
        self.after = None  # what happens once the last owed byte is given
        self.got = []  # bytes of the field, option or request that is being taken
        self.part = "flags"
        self.zeroes = False
        self.export = None  # (start, size, flags) once an export is chosen
        self.requests = False  # whether the handshake is over

    # -- the handshake
    def take(self, b, records, image):
        self.got.append(b)
        getattr(self, "take_" + self.part)(records, image)

    def take_flags(self, records, image):
        if len(self.got) == 4:
            flags = number(self.got)
            if flags not in (1, 3):
                self.over = 1
            self.zeroes = flags == 1
            self.next("option")

    def take_option(self, records, image):
        n = len(self.got)
        if n == 8 and bytes(self.got) != OPTION_MAGIC:
            self.over = 2
        if n == 16:
            self.option, self.length = number(self.got[8:12]), number(self.got[12:16])
            if self.length > 100000:
                self.over = 3
                return
            self.next("payload")
            if self.option == 1:
                # the set starts with those whose names are that long
                self.fits = {k for k, r in enumerate(records) if len(r[3]) == self.length}
            if self.length == 0:
                self.whole_payload(records)

    def take_payload(self, records, image):
        if self.option == 1:
            place, b = len(self.got) - 1, self.got[-1]
            self.fits = {k for k in self.fits if k < len(records) and place < len(records[k][3]) and records[k][3][place] == b}
        if len(self.got) == self.length:
            self.whole_payload(records)

    def whole_payload(self, records):
        option, payload = self.option, bytes(self.got)
        self.next("option")
        if option == 1:
            if not utf8(payload):
                self.over = 5
            elif not self.fits:
                self.over = 6
            else:
                start, size, flags, _ = records[min(self.fits)]
                self.export = (start, size, flags)
                self.owed = deque(struct.pack(">QH", size, wire_flags(flags)) + (bytes(124) if self.zeroes else b""))
                self.after = "requests"
        elif option == 2:
            self.owed = deque(option_reply(2, 1))
            self.after = "aborted"
        elif option == 3:
            if payload:
                self.over = 4
            else:
                self.owed = deque(option_reply(3, 2, struct.pack(">I", 7) + b"rustnbd") + option_reply(3, 1))
        elif option == 5:
            self.over = 8
        elif option in (6, 7, 8, 11):
            self.owed = deque(option_reply(option, 0x80000001))
        else:
            self.over = 9

    # -- the transmission
    def take_request(self, records, image):
        n = len(self.got)
        if n == 4 and number(self.got) != 0x25609513:
            self.over = 10
        if n == 28:
            _, _, kind, handle, offset, length = struct.unpack(">IHHQQI", bytes(self.got))
            self.next("request")
            self.request(kind, handle, offset, length)

    def request(self, kind, handle, offset, length):
        start, size, flags = self.export
        past = offset + length > size
        if kind == 0:
            if length == 0:
                return
            if past:
                self.reply(22, handle)
            else:
                self.reply(0, handle)
                self.owed += [("image", start + offset + k) for k in range(length)]
        elif kind == 1:
            error = 1 if flags & 1 else 0 if length == 0 else 28 if past else 0
            self.write = (error, handle, start + offset, length)
            if length == 0:
                self.reply(error, handle)
            else:
                self.next("data")
        elif kind == 2:
            self.over = 0
        elif kind == 3:
            self.reply(0, handle)
        elif kind in (4, 6):
            self.reply(38, handle)
        else:
            self.over = 11

    def take_data(self, records, image):
        error, handle, place, length = self.write
        if error == 0:
            image[place + len(self.got) - 1] = self.got[-1]
        if len(self.got) == length:
            self.next("request")
            self.reply(error, handle)

    def reply(self, error, handle):
        self.owed = deque(struct.pack(">IIQ", 0x67446698, error, handle))

    def next(self, part):
        self.part, self.got = part, []

    # -- a step
    def refusal(self, table, image):
        why, records = 0, None
        if not self.requests:
            why, records = read_table(table, len(image))
        if why == 0 and self.export is not None and self.export[0] + self.export[1] > len(image):
            why = 26
        return why, records

    def step(self, table, image, data, room):
        """(word, number, taken, output)"""
        if self.over is not None:
            return "end", self.over, 0, b""
        why, records = self.refusal(table, image)
        if why:
            return "no", why, 0, b""
        taken, out = 0, bytearray()
        while self.over is None:
            if self.owed:
                if len(out) == room:
                    break
                b = self.owed.popleft()
                out.append(image[b[1]] if isinstance(b, tuple) else b)
                if not self.owed:
                    self.given_all()
            elif taken < len(data):
                self.take(data[taken], records, image)
                taken += 1
            else:
                break
        if self.over is None:
            return "on", None, taken, bytes(out)
        return "end", self.over, taken, bytes(out)

    def given_all(self):
        if self.after == "aborted":
            self.over = 7
        if self.after == "requests":
            self.requests = True
            self.next("request")
        self.after = None

    def end_of_input(self):
        if self.over is None and self.owed:
            return "no", 28
        if self.over is None:
            self.over = 12
        return "end", self.over


def oldstyle(room, size, flags):
    if room < 152:
        return None
    return b"NBDMAGIC" + bytes.fromhex("0000420281861253") + struct.pack(">QI", size, flags) + bytes(124)


# ---- the model: a client, a byte at a time


OLD_MAGIC = bytes.fromhex("0000420281861253")


class Caller:
    """One client. `owed` is what is still to be given: bytes, or places of the lent slice. Every byte taken goes to `take`."""

    def __init__(self):
        self.over = None  # the number of the end
        self.device = None  # [size, position, flags] once the handshake is closed
        self.open = None  # the open call: its word
        self.lent = 0  # the length that was lent when it was opened
        self.owed = deque()
        self.got = []  # the bytes of the handshake, or of the reply and its data
        self.closed = None  # how the call was closed, in the step that closes it

    # -- the calls: (word, number or value)
    def start(self, word, lent, owed):
        self.open, self.lent, self.owed, self.got = word, lent, deque(owed), []
        return "on", None

    def handshake(self, name):
        if self.open or self.device or self.over is not None:
            return "no", 51
        if len(name) > 4096:
            return "no", 44
        return self.start("handshake", len(name), [])

    def busy(self):
        return bool(self.open) or self.device is None or self.over is not None

    def transfer(self, word, kind, wish, lent, payload):
        if self.busy():
            return "no", 51
        size, position, _ = self.device
        if position > size:
            return "no", 49
        self.n = min(wish, size - position, 2**32 - 1)
        if self.n == 0:
            return "ok", 0
        return self.start(word, lent, list(self.request(kind, position, self.n)) + [("lent", k) for k in range(self.n if payload else 0)])

    def read(self, buffer):
        return self.transfer("read", 0, len(buffer), len(buffer), False)

    def write(self, buffer):
        return self.transfer("write", 1, len(buffer), len(buffer), True)

    def trim(self, length):
        return self.transfer("trim", 4, length, 0, False)

    def flush(self):
        return ("no", 51) if self.busy() else self.start("flush", 0, self.request(3, 0, 0))

    def resize(self, size):
        if self.busy():
            return "no", 51
        self.new_size = size
        return self.start("resize", 0, self.request(8, size, 0))

    def seek(self, whence, offset):
        if self.busy():
            return "no", 51
        size, position, _ = self.device
        to = (0, position, size)[whence] + offset
        if not 0 <= to < 2**64 or (whence and offset == -(2**63)):
            return "no", 48
        self.device[1] = to
        return "ok", to

    @staticmethod
    def request(kind, offset, length):
        return bytes.fromhex("256095130000") + struct.pack(">HQQI", kind, 0, offset, length)

    def end_of_input(self):
        if self.over is None:
            self.over = 50
        return "end", self.over

    # -- a step
    def step(self, lent, data, room):
        """(word, number or value, taken, output); a read's bytes go into `lent`."""
        if self.over is not None:
            return "end", self.over, 0, b""
        if self.open and len(lent) != self.lent:
            return "no", 52, 0, b""
        taken, out, self.closed = 0, bytearray(), None
        while self.over is None and self.open:
            if self.owed:
                if len(out) == room:
                    break
                b = self.owed.popleft()
                out.append(lent[b[1]] if isinstance(b, tuple) else b)
            elif taken < len(data):
                self.got.append(data[taken])
                taken += 1
                if self.open == "handshake":
                    self.shaken()
                else:
                    self.heard(lent)
            else:
                break
        if self.over is not None:
            return "end", self.over, taken, bytes(out)
        word, value = self.closed or ("on", None)
        return word, value, taken, bytes(out)

    def close(self, word, value):
        self.open, self.closed = None, (word, value)

    def shaken(self):
        got = bytes(self.got)
        n, new = len(got), got[8:16] == OPTION_MAGIC
        if n == 8 and got != b"NBDMAGIC":
            self.over = 40
        if n == 16 and not new:
            if got[8:] != OLD_MAGIC:
                self.over = 41
            elif self.lent:
                self.over = 42
        if n == 18 and new:
            self.owed = deque(b"\0\0\0\1IHAVEOPT\0\0\0\1" + struct.pack(">I", self.lent))
            self.owed += [("lent", k) for k in range(self.lent)]
        if n == 152:
            if any(got[28:]):
                self.over = 43
                return
            size, flags = number(got[18:26] if new else got[16:24]), number(got[26:28])
            self.device = [size, 0, flags if flags & 1 else 0]
            self.close("ok", size)

    def heard(self, lent):
        n = len(self.got)
        if n == 16:
            signature, error, handle = struct.unpack(">IIQ", bytes(self.got))
            if signature != 0x67446698:
                self.over = 45
            elif handle:
                self.over = 46
            elif error:
                self.close("fail", error)
            elif self.open != "read":
                self.succeed()
        if n > 16:
            lent[n - 17] = self.got[-1]
            if n == 16 + self.n:
                self.succeed()

    def succeed(self):
        value = 0
        if self.open in ("read", "write"):
            value = self.n
            self.device[1] += self.n
        if self.open == "resize":
            value = self.device[0] = self.new_size
        self.close("ok", value)

    def shown(self):
        if self.device is None or self.over is not None:
            return "client -"
        size, position, flags = self.device
        return f"client {size} {position} " + " ".join("1" if flags & bit else "0" for bit in (2, 512, 16, 32, 4))


# ---- the script


class Script:
    """The records so far, and the lines that they have to give."""

    def __init__(self):
        self.records, self.lines = bytearray(), []
        self.count = 0
        self.seen = set()  # words and numbers
        self.table, self.image, self.session = b"", bytearray(), Session()
        self.slice, self.caller = bytearray(), Caller()

    def record(self, command, payload=b""):
        self.records += command + struct.pack(">I", len(payload)) + payload
        self.count += 1

    def line(self, word, number, taken, out):
        self.seen.add((word, number))
        parts = [word] if number is None else [word, str(number)]
        if word != "no":
            parts += [str(taken), str(len(out)), bytes(out).hex() or "-"]
        self.lines.append(" ".join(parts))

    def lend_table(self, table):
        self.table = bytes(table)
        self.record(b"T", self.table)

    def lend_image(self, image):
        self.image = bytearray(image)
        self.record(b"I", bytes(image))

    def fresh(self):
        self.session = Session()
        self.record(b"S")

    def step(self, room, data=b""):
        self.record(b"s", struct.pack(">I", room) + data)
        answer = self.session.step(self.table, self.image, data, room)
        self.line(*answer)
        return answer

    def end(self):
        self.record(b"e")
        self.line(*self.session.end_of_input(), 0, b"")

    def show(self):
        self.record(b"i")
        self.lines.append("image " + (self.image.hex() or "-"))

    def oldstyle(self, room, size, flags):
        self.record(b"o", struct.pack(">IQI", room, size, flags))
        header = oldstyle(room, size, flags)
        self.line(*(("no", 13, 0, b"") if header is None else ("on", None, 0, header)))

    # -- the client's
    def lend_slice(self, slice_):
        self.slice = bytearray(slice_)
        self.record(b"B", bytes(slice_))

    def fresh_client(self):
        self.caller = Caller()
        self.record(b"C")

    def call(self, command, payload, answer):
        self.record(command, payload)
        self.line(*answer, 0, b"")
        return answer

    def handshake(self):
        return self.call(b"h", b"", self.caller.handshake(self.slice))

    def hang_up(self):
        return self.call(b"x", b"", self.caller.end_of_input())

    def read(self):
        return self.call(b"r", b"", self.caller.read(self.slice))

    def write(self):
        return self.call(b"w", b"", self.caller.write(self.slice))

    def seek(self, whence, offset):
        return self.call(b"k", bytes([whence]) + (offset % 2**64).to_bytes(8, "big"), self.caller.seek(whence, offset))

    def flush(self):
        return self.call(b"f", b"", self.caller.flush())

    def trim(self, length):
        return self.call(b"t", struct.pack(">Q", length), self.caller.trim(length))

    def resize(self, size):
        return self.call(b"z", struct.pack(">Q", size), self.caller.resize(size))

    def drive(self, room, data=b""):
        self.record(b"c", struct.pack(">I", room) + data)
        answer = self.caller.step(self.slice, data, room)
        self.line(*answer)
        return answer

    def show_slice(self):
        self.record(b"b")
        self.lines.append("slice " + (self.slice.hex() or "-"))

    def ask(self):
        self.record(b"q")
        self.lines.append(self.caller.shown())

    def pump(self, data, cut, room):
        """The server's bytes in pieces of `cut`, each step with this room, until nothing moves. What was taken and given, and the end."""
        piece, rest, taken, out = b"", data, 0, b""
        while True:
            if not piece:
                piece, rest = rest[:cut], rest[cut:]
            word, number, t, o = self.drive(room, piece)
            piece, taken, out = piece[t:], taken + t, out + o
            if word != "on" or (t == 0 and not o and not rest):
                return word, number, taken, out

    def pump_all(self, begin, data, ways=((10**6, 65536), (1, 65536), (7, 1), (29, 5))):
        """The same bytes after the same beginning, in one piece, in single bytes and in small rooms: the same totals."""
        totals = []
        for cut, room in ways:
            begin()
            first = self.drive(0, data[:3])[2]
            word, number, taken, out = self.pump(data[first:], cut, room)
            totals.append((word, number, first + taken, out, bytes(self.slice), self.caller.shown()))
            self.show_slice()
            self.ask()
            self.drive(50, b"more")
        assert len(set(totals)) == 1, totals
        return totals[0]

    def bad(self, record):
        """Ends the script."""
        self.records += record
        self.lines.append("bad script")

    # -- a whole session, cut somehow
    def play(self, data, cut, room):
        """The client's bytes in pieces of `cut`, each step with this room, until nothing moves. What was taken and given, and the end."""
        self.fresh()
        piece, rest, taken, out = b"", data, 0, b""
        while True:
            if not piece:
                piece, rest = rest[:cut], rest[cut:]
            word, number, t, o = self.step(room, piece)
            piece, taken, out = piece[t:], taken + t, out + o
            if word != "on" or (t == 0 and not o and not rest):
                return word, number, taken, out

    def play_all(self, data, image, rooms=(1, 5)):
        """The same session in one piece, in single bytes, in pieces of 7, and in small rooms: the same totals."""
        totals = []
        for cut, room in [(len(data) + 1, 65536), (1, 65536), (7, 65536)] + [(29, r) for r in rooms]:
            self.lend_image(image)
            totals.append(self.play(data, cut, room) + (bytes(self.image),))
            self.show()
            self.end()
            self.step(65536, b"more")
        assert all(t == totals[0] for t in totals), totals


# ---- a client's bytes


def export(name, start, size, flags=0):
    return struct.pack(">HQQB", 17 + len(name), start, size, flags) + name


def table(*records):
    return b"\x01" + b"".join(records)


def hello(flags):
    return struct.pack(">I", flags)


def option(kind, payload=b""):
    return OPTION_MAGIC + struct.pack(">II", kind, len(payload)) + payload


def request(kind, offset=0, length=0, payload=b"", handle=0x0102030405060708, flags=0):
    return struct.pack(">IHHQQI", 0x25609513, flags, kind, handle, offset, length) + payload


READ, WRITE, DISC, FLUSH, TRIM, ZEROES = 0, 1, 2, 3, 4, 6
IMAGE = bytes(range(64))
TABLE = table(
    export(b"a", 8, 8),
    export(b"ro", 16, 8, 1 | 4),
    export(b"a", 40, 4, 2),  # never chosen: the first of two equal names wins
    export(b"", 32, 16, 2),
    export(b"rustnbd", 0, 64, 8),
    export("\u00e9\u20ac\U0001d11e".encode(), 64, 0, 15),
)
OPEN = hello(3) + option(1, b"a")


def handshakes(s):
    s.lend_table(TABLE)
    for flags in (0, 2, 4, 5, 0x01000000, 0xFFFFFFFF):
        s.play_all(hello(flags) + b"rest", IMAGE)
    for flags in (1, 3):
        for name in (b"a", b"ro", b"", b"rustnbd", "\u00e9\u20ac\U0001d11e".encode()):
            s.play_all(hello(flags) + option(1, name) + request(READ, 0, 4) + request(DISC), IMAGE)
    for name in (b"b", b"r", b"aa", b"rustnbD", b"\x00"):
        s.play_all(hello(3) + option(1, name) + b"rest", IMAGE, ())
    for name in (b"\xed\xa0\x80", b"a\xc3", b"\xc0\x80", b"\xe0\x9f\xbf", b"\xf0\x8f\xbf\xbf", b"\xf4\x90\x80\x80", b"\x80", b"\xff"):
        s.play_all(hello(3) + option(1, name) + b"rest", IMAGE, ())
    # P2, and what the server does not support; then the session goes on
    many = option(3) + b"".join(option(k, p) for k in (6, 7, 8, 11) for p in (b"", b"payload"))
    s.play_all(hello(1) + many + option(1, b"ro") + request(DISC), IMAGE)
    s.play_all(hello(3) + option(3) + option(2, b"why") + b"rest", IMAGE)
    s.play_all(hello(3) + option(2), IMAGE)
    s.play_all(hello(3) + option(3, b"x") + b"rest", IMAGE)
    for kind in (5, 0, 4, 9, 10, 12, 0xFFFFFFFF):
        s.play_all(hello(3) + option(kind, b"xyz") + b"rest", IMAGE, ())
        s.play_all(hello(3) + option(kind), IMAGE, ())
    s.play_all(hello(3) + b"IHAVEOPU" + b"rest", IMAGE)
    s.play_all(hello(3) + option(3) + b"XHAVEOPT" + b"rest", IMAGE)
    s.play_all(hello(3) + OPTION_MAGIC + struct.pack(">II", 6, 100001) + b"rest", IMAGE)
    s.play_all(hello(3) + OPTION_MAGIC + struct.pack(">II", 1, 0xFFFFFFFF) + b"rest", IMAGE)


def long_options(s):
    """P4, in a few pieces."""
    s.lend_table(TABLE)
    s.lend_image(IMAGE)
    s.play(hello(3) + option(6, bytes(100000)) + option(1, b"a"), 150000, 100)
    s.end()
    s.play(hello(3) + option(1, bytes(4097)) + b"rest", 1000, 100)
    s.play(hello(3) + option(1, b"\xc3\xa9" * 50000) + b"rest", 33333, 100)
    s.play(hello(3) + option(1, b"a" * 99999 + b"\xc3") + b"rest", 65536, 100)


def transmissions(s):
    s.lend_table(TABLE)
    past = request(READ, 5, 4) + request(WRITE, 7, 2, b"!!") + request(WRITE, 8, 0) + request(READ, 2**64 - 1, 1)
    s.play_all(
        OPEN
        + request(READ, 4, 4)
        + past
        + request(READ, 9, 0)
        + request(READ, 2**64 - 1, 0)
        + request(WRITE, 2**64 - 1, 1, b"?")
        + request(WRITE, 2**64 - 1, 0)
        + request(WRITE, 2, 3, b"xyz", handle=2**64 - 1, flags=0xFFFF)
        + request(READ, 0, 8)
        + request(WRITE, 0, 8, b"ABCDEFGH")
        + request(WRITE, 0, 9, b"refused!!")
        + request(READ, 0, 8, flags=1)
        + request(READ, 8, 1)
        + request(FLUSH, 77, 88)
        + request(TRIM, 0, 4)
        + request(ZEROES, 0, 4)
        + request(DISC, 5, 6)
        + request(READ, 0, 1),
        IMAGE,
        (1, 5, 16),
    )
    s.play_all(
        hello(1)
        + option(1, b"ro")
        + request(READ, 0, 8)
        + request(WRITE, 0, 2, b"no")
        + request(WRITE, 0, 0)
        + request(WRITE, 9, 0)
        + request(WRITE, 8, 4, b"nope")
        + request(READ, 7, 2)
        + request(DISC),
        IMAGE,
    )
    s.play_all(hello(3) + option(1, "\u00e9\u20ac\U0001d11e".encode()) + request(READ, 0, 1) + request(WRITE, 0, 1, b"x") + request(WRITE, 0, 0) + request(DISC), IMAGE)
    for kind in (5, 7, 8, 9, 256, 0xFFFF):
        s.play_all(OPEN + request(kind, 0, 8) + b"rest", IMAGE, ())
    for magic in (b"\x25\x60\x95\x14", b"\x26\x60\x95\x13", b"\x67\x44\x66\x98"):
        s.play_all(OPEN + request(FLUSH) + magic + b"rest", IMAGE, ())
    # a row of silent READs is taken in one step with room 0
    s.lend_image(IMAGE)
    s.fresh()
    s.step(28)
    s.step(28, OPEN)
    s.step(0, request(READ, 9, 0) * 5 + request(READ, 0, 2) + request(FLUSH))
    s.step(15, request(FLUSH))
    s.step(3, request(FLUSH))
    s.step(100, request(FLUSH))


def large(s):
    """A READ and a WRITE of 64 KiB, in large pieces, and a READ in rooms of 30,000."""
    size = 66000
    s.lend_table(table(export(b"a", 16, 65600)))
    s.lend_image(bytes(k * 7 % 251 for k in range(size)))
    s.fresh()
    s.step(262144, OPEN)
    payload = bytes(k * 11 % 253 for k in range(65536))
    data = request(WRITE, 32, 65536, payload) + request(READ, 0, 65600)
    for k in range(0, len(data), 40000):
        s.step(262144 if k == 0 else 30000, data[k : k + 40000])
    for _ in range(4):
        s.step(30000)
    s.end()


def rooms(s):
    """The first steps of a session in every room up to 91, each followed by an end of input and the rest."""
    s.lend_table(TABLE)
    data = hello(3) + option(3) + option(2)
    for room in range(92):
        s.fresh()
        s.step(room, data)
        s.end()
        s.step(200, b"")
    # the ACK's last byte fills the room, and is the end
    s.fresh()
    s.step(18)
    s.step(19, hello(3) + option(2, b"abc"))
    s.end()
    s.step(1)
    s.end()


def ends_of_input(s):
    """The end of input after every byte of two sessions, with all output given, and then with one byte owed."""
    s.lend_table(TABLE)
    data = hello(1) + option(6, b"pp") + option(1, b"ro") + request(WRITE, 0, 2, b"no") + request(READ, 0, 2)
    stored = OPEN + request(WRITE, 2, 5, b"VWXYZ") + request(FLUSH)
    for client in (data, stored):
        for k in range(len(client) + 1):
            s.lend_image(IMAGE)
            s.fresh()
            s.step(1000, client[:k])
            s.end()
            s.end()
            if client is stored:
                s.show()
        total = len(s_output(client))
        for given in range(0, total, 3):
            s.lend_image(IMAGE)
            s.fresh()
            s.step(given, client)
            s.end()
            s.step(1000, client[len(client) :])
    s.fresh()
    s.end()
    s.end()
    s.step(1000)
    s.end()


def s_output(client):
    session = Session()
    return session.step(TABLE, bytearray(IMAGE), client, 10**6)[3]


def cut_writes(s):
    """A WRITE that is cut inside its payload: the image holds exactly the bytes taken."""
    s.lend_table(TABLE)
    for name, offset in ((b"a", 1), (b"a", 3), (b"ro", 1)):
        for k in range(7):
            s.lend_image(IMAGE)
            s.fresh()
            s.step(500, hello(3) + option(1, name))
            s.step(500, request(WRITE, offset, 6, b"stored")[: 28 + k])
            s.show()
            s.end()
            s.step(500, b"stored"[k:])
            s.show()


def bad_tables(s):
    """20 to 25 at every kind of place of the handshake, and then the session goes on where it was."""
    good = export(b"a", 8, 8)
    tables = [
        b"",
        b"\x00",
        b"\x02",
        b"\x02" + good,
        table(good, b"\x00"),
        table(b"\x00\x10" + bytes(16)),
        table(b"\x10\x12" + bytes(4114)),
        table(b"\x10\x11" + bytes(4112)),
        table(good[:-1]),
        table(good, good[:2]),
        table(*[good] * 33),
        table(*[good] * 32, b"\x00"),
        table(*[good] * 31, b"\x00"),
        table(*[good] * 31, export(b"a", 8, 8, 16), b"\x00"),
        table(export(b"a", 60, 5)),
        table(export(b"a", 65, 0)),
        table(export(b"a", 2**64 - 1, 1)),
        table(export(b"a", 2**64 - 1, 2**64 - 1)),
        table(export(b"a", 8, 8, 16)),
        table(export(b"a", 8, 8, 255)),
        table(export(b"\xed\xa0\x80", 8, 8)),
        table(export(b"\xc3", 8, 8)),
        table(export(b"\xff", 2**64 - 1, 8, 16)),
        table(export(b"\xff", 2**64 - 1, 8)),
        table(export(b"a", 60, 5), export(b"\xff", 8, 8)),
        table(good, export(b"\xff", 8, 8), export(b"a", 60, 5)),
    ]
    sound = [table(), table(*[good] * 32), table(export(b"a", 8, 8), export(b"n" * 4096, 64, 0))]
    s.lend_image(IMAGE)
    stages = [b"", hello(3), hello(3) + option(1, b"a")[:16], hello(3) + option(6, b"payload")[:20]]
    for t in tables + sound:
        for k, stage in enumerate(stages):
            s.lend_table(TABLE)
            s.fresh()
            if k:
                s.step(100, stage)
            s.lend_table(t)
            s.step(0)
            s.step(50, b"\x00")
            s.end()
    # an ended session and one with requests look at no table
    for client, rest in ((OPEN, request(FLUSH)), (hello(0), b"x")):
        s.lend_table(TABLE)
        s.fresh()
        s.step(100, client)
        s.lend_table(b"")
        s.step(100, rest)
        s.step(0)


def changing_tables(s):
    """READINGS 4 and 5: the set is started with one table and narrowed with others; the closing step's table gives the window."""

    def name(taken, *tables, image=IMAGE, room=100):
        """The option's 16 bytes under the first table, then each part of the name under the next."""
        s.lend_table(tables[0])
        s.lend_image(image)
        s.fresh()
        whole = b"".join(taken)
        s.step(room, hello(3) + option(1, whole)[:16])
        for part, t in zip(taken, tables[1:]):
            s.lend_table(t)
            s.step(room, part)
        s.step(room, request(READ, 0, 4) + request(DISC))

    ab, abc, ax, none = (table(export(n, 8, 8)) for n in (b"ab", b"abc", b"ax", b"zzzzz"))
    empty, other = table(), table(export(b"ab", 20, 4, 1), export(b"ab", 24, 4))
    name((b"a", b"b"), ab, ab, ab)
    name((b"a", b"b"), ab, ab, abc)  # longer now: it stays
    name((b"a", b"b"), ab, ab, table(export(b"a", 8, 8)))  # it lacks the byte
    name((b"a", b"b"), ab, ab, empty)
    name((b"a", b"b"), ab, empty, ab)
    name((b"a", b"b"), abc, ab, ab)  # it came to fit later: never added
    name((b"a", b"b"), ab, ax, ab)
    name((b"a", b"b"), ab, ab, ax)
    name((b"a", b"b"), ab, ab, other)  # the window is the closing step's
    name((b"a", b"b"), other, other, ab)
    name((b"a", b"", b"b"), ab, ab, none, ab)  # a table in a step that takes no name byte counts for nothing
    name((b"a", b"", b"b"), ab, ab, b"\x02", ab)  # though it must be sound
    name((b"", b""), table(export(b"", 8, 8)), empty, empty)
    name((b"", b""), empty, table(export(b"", 8, 8)), empty)
    # the reply owed, and what is judged then
    for t in (ab, empty, b"", b"\x01\x00"):
        s.lend_table(ab)
        s.lend_image(IMAGE)
        s.fresh()
        s.step(18)
        s.step(3, hello(3) + option(1, b"ab"))
        s.lend_table(t)
        s.step(2)
        s.lend_image(IMAGE[:15])
        s.step(2)
        s.step(0)
        s.end()
        s.lend_image(IMAGE[:16])
        s.step(100, request(READ, 0, 8))
        s.end()


def short_images(s):
    """26 between two pieces of a request, and the session goes on where it was (READINGS 17); the data is the image's of each step."""
    s.lend_table(TABLE)
    data = request(READ, 0, 8) + request(WRITE, 0, 8, b"IJKLMNOP") + request(WRITE, 4, 8, b"too long")
    for k in range(0, len(data) + 1, 3):
        s.lend_image(IMAGE)
        s.fresh()
        s.step(100, OPEN)
        s.step(100, data[:k])
        s.lend_image(IMAGE[:15])
        s.step(100, data[k:])
        s.show()
        s.lend_image(b"")
        s.step(0)
        s.lend_image(IMAGE[32:48])
        s.step(100, data[k:])
        s.show()
        s.lend_table(b"")
        s.step(100)
        s.lend_table(TABLE)
    s.fresh()
    s.lend_image(IMAGE)
    s.step(100, OPEN + request(READ, 0, 8))
    s.fresh()
    s.step(18 + 10 + 16 + 3, OPEN + request(READ, 0, 8))
    s.lend_image(bytes(16))
    s.step(2)
    s.lend_image(IMAGE[8:])
    s.step(200)


def headers(s):
    for room in (0, 1, 151, 152, 153, 200):
        s.oldstyle(room, 0x0123456789ABCDEF, 0xFEDCBA98)
    s.oldstyle(262144, 0, 0)
    s.oldstyle(152, 2**64 - 1, 2**32 - 1)


# ---- a server's bytes


def newstyle(size, flags, said=b"\x00\x03", filler=bytes(124)):
    return b"NBDMAGICIHAVEOPT" + said + struct.pack(">QH", size, flags) + filler


def old(size, flags, filler=bytes(124)):
    return oldstyle(152, size, flags)[:28] + filler


def reply(error=0, data=b"", signature=0x67446698, handle=0):
    return struct.pack(">IIQ", signature, error, handle) + data


def connect(s, size, flags=5, position=0):
    """A ready client, in one step."""
    s.fresh_client()
    s.lend_slice(b"")
    s.handshake()
    s.drive(100, newstyle(size, flags))
    if position:
        s.seek(0, position)


def client_handshakes(s):
    def begin(name):
        def go():
            s.fresh_client()
            s.lend_slice(name)
            s.ask()
            s.handshake()
            s.ask()

        return go

    s.fresh_client()
    s.ask()
    # P10
    answer = s.pump_all(begin(b"a"), newstyle(8, 5))
    assert answer[:4] == ("ok", 8, 152, bytes.fromhex("00000001 49484156454F5054 00000001 00000001 61"))
    for name in (b"", b"ro", b"\xed\xa0\x80"):
        s.pump_all(begin(name), newstyle(2**64 - 1, 19, b"\xff\xff") + b"rest")
    s.pump_all(begin(b"n" * 4096), newstyle(0, 1), ((10**6, 65536), (10**6, 1000)))
    s.lend_slice(b"n" * 4097)
    s.fresh_client()
    s.handshake()
    s.drive(10, b"x")
    for flags in (0, 1, 2, 3, 4, 5, 17, 33, 513, 0xFFFE, 0xFFFF, 0xFDC9):
        s.pump_all(begin(b""), newstyle(flags, flags), ((10**6, 65536),))
        for high in (0, 0xFFFF0000, 0x00010000):
            s.pump_all(begin(b""), old(flags, high + flags), ((10**6, 65536),))
    s.pump_all(begin(b""), old(0x0123456789ABCDEF, 0xFFFF0205) + b"rest")
    # 40 to 43
    good, header = newstyle(8, 5), old(8, 5)
    for k in range(8):
        for data in (good, header):
            s.pump_all(begin(b"a"), data[:k] + b"x" + data[k + 1 :], ((10**6, 65536), (1, 0)))
    for k in range(8, 16):
        for data in (good, header):
            for name in (b"", b"a"):
                s.pump_all(begin(name), data[:k] + b"x" + data[k + 1 :], ((10**6, 65536), (1, 0)))
    s.pump_all(begin(b"a"), header)
    s.pump_all(begin(b"a"), header[:16] + b"rest")
    for k in (0, 1, 62, 123):
        filler = bytes(k) + b"\x01" + bytes(123 - k)
        s.pump_all(begin(b"a"), newstyle(8, 5, filler=filler))
        s.pump_all(begin(b""), old(8, 5, filler) + b"rest")
    s.pump_all(begin(b""), newstyle(8, 5, filler=b"\xff" * 124))


def client_cut_handshakes(s):
    """The end of input after every byte; 52, and a name that changes; calls that come too early."""
    for name, data in ((b"ab", newstyle(8, 5)), (b"", old(8, 5))):
        for k in range(len(data) + 1):
            s.fresh_client()
            s.lend_slice(name)
            s.handshake()
            s.drive(100, data[:k])
            s.hang_up()
            s.hang_up()
            s.ask()
        for k in (1, 17, 18, 151):
            s.fresh_client()
            s.lend_slice(name)
            s.handshake()
            s.pump(data[:k], 1, 1)
            s.hang_up()
    for given in range(23):
        s.fresh_client()
        s.lend_slice(b"ab")
        s.handshake()
        s.drive(given, newstyle(8, 5))
        s.lend_slice(b"abc")
        s.drive(100, bytes(134))
        s.lend_slice(b"")
        s.drive(0)
        s.lend_slice(b"xy")
        s.read()
        s.handshake()
        s.drive(5, newstyle(8, 5)[18:])
        s.hang_up()
        s.drive(100, newstyle(8, 5)[18:])
    s.fresh_client()
    s.lend_slice(b"ab")
    s.handshake()
    s.drive(100, newstyle(8, 5)[:151])
    s.lend_slice(b"a")
    s.drive(100, b"\x00")
    s.lend_slice(b"cd")
    s.drive(100, b"\x00\x00")
    s.lend_slice(b"any length")
    s.drive(100, b"\x00\x00")


def every_call(s):
    """All calls, as they are answered here."""
    for offset in (0, 2**64 - 1):
        s.seek(0, offset)
    for whence in (1, 2):
        for offset in (0, 3, -3, -(2**63), 2**63 - 1):
            s.seek(whence, offset)
    for slice_ in (b"", b"buffer", b"n" * 4097):
        s.lend_slice(slice_)
        s.handshake()
        s.read()
        s.write()
    s.trim(0)
    s.trim(5)
    s.flush()
    s.resize(9)
    s.ask()


def client_refused(s):
    """51: before ready, while a call is open, after an end; the open call goes on."""
    s.fresh_client()
    s.ask()
    every_call(s)
    s.lend_slice(b"")
    s.fresh_client()
    s.drive(20, b"idle")
    s.lend_slice(b"other")
    s.drive(0, b"idle")
    s.hang_up()
    every_call(s)
    s.drive(20, b"idle")
    # a ready client has had its handshake
    connect(s, 8, 5, 2)
    for name in (b"", b"a", b"n" * 4097):
        s.lend_slice(name)
        s.handshake()
        s.drive(100, b"idle")
        s.ask()
    for slice_, call in ((b"12345", s.read), (b"12345", s.write), (b"", s.flush), (b"", lambda: s.trim(3)), (b"", lambda: s.resize(3))):
        connect(s, 8, 5, 2)
        s.lend_slice(slice_)
        call()
        for room, data in ((0, b"xx"), (27, b"xx"), (100, b""), (100, reply()[:9]), (100, reply(0, b"abcd")[9:19])):
            s.drive(room, data)
            if room == 27:
                every_call(s)
            s.lend_slice(bytes(slice_) + b"!")
            s.drive(100, b"more")
            s.show_slice()
            s.lend_slice(slice_)
            s.ask()
        s.hang_up()
        every_call(s)
        s.lend_slice(b"123")
        s.drive(100, b"more")


CALLS = (
    (b"buffer", lambda s: s.read(), b"answer"),
    (b"a longer buffer", lambda s: s.read(), b"the last"),
    (b"buffer", lambda s: s.write(), b""),
    (b"a longer buffer", lambda s: s.write(), b""),
    (b"", lambda s: s.flush(), b""),
    (b"", lambda s: s.trim(5), b""),
    (b"", lambda s: s.trim(2**64 - 1), b""),
    (b"", lambda s: s.resize(2**63 + 7), b""),
    (b"", lambda s: s.resize(0), b""),
)


def client_calls(s):
    """Each call with its replies: good, an error, faulty and cut."""
    for slice_, call, data in CALLS:

        def begin():
            connect(s, 16, 517, 8)
            s.lend_slice(slice_)
            call(s)
            s.ask()

        s.pump_all(begin, reply(0, data))
        s.pump_all(begin, reply(0, data) + b"rest", ((10**6, 65536), (19, 3)))
        for error in (1, 38, 2**32 - 1):
            s.pump_all(begin, reply(error, data))
        for faulty in (
            reply(0, data, signature=0x67446699),
            reply(0, data, signature=0x25609513),
            reply(5, data, signature=0, handle=1),
            reply(0, data, handle=1),
            reply(5, data, handle=2**63),
            reply(5, data, handle=2**32),
        ):
            s.pump_all(begin, faulty, ((10**6, 65536), (1, 65536)))
        for k in range(8):
            for faulty in (reply(0, data, signature=0x67446698 ^ 1 << 4 * k), reply(0, data, handle=128 << 8 * k)):
                begin()
                s.drive(100, faulty)
        # cut after every byte, in one piece and in single bytes, then while output is owed
        whole = reply(0, data)
        for k in range(len(whole)):
            for cut in (len(whole), 1):
                begin()
                s.pump(whole[:k], cut, 100)
                s.hang_up()
                s.show_slice()
                s.ask()
                s.drive(100, whole[k:])
        for room in range(0, 44, 3):
            begin()
            s.drive(room, whole)
            s.hang_up()
            s.drive(100, whole)


def client_positions(s):
    """Seeks, transfers, and what moves the position and the size."""
    # P11
    connect(s, 8, 5, 5)
    assert s.seek(1, -5) == ("ok", 0)
    s.seek(0, 5)
    assert s.seek(1, -6) == ("no", 48)
    s.ask()
    # P12
    s.seek(0, 2**63)
    assert s.seek(1, -(2**63)) == ("no", 48)
    for position in (0, 1, 8, 2**63 - 1, 2**63, 2**64 - 1):
        s.seek(0, position)
        for offset in (0, 1, -1, 2**63 - 1, -(2**63 - 1), -(2**63), 2**63 - 2):
            s.seek(1, offset)
            s.ask()
            s.seek(0, position)
    for size in (0, 8, 2**63 - 1, 2**63, 2**64 - 1):
        connect(s, size)
        for offset in (0, 1, -1, -8, -9, 2**63 - 1, -(2**63 - 1), -(2**63)):
            s.seek(2, offset)
            s.ask()
    # n = 0, n limited by the size, position past the size
    for size in (0, 8):
        for position in (0, 1, 7, 8, 9, 2**64 - 1):
            for slice_ in (b"", b"1", b"12345678", b"123456789"):
                connect(s, size, 5, position)
                for call in (s.read, s.write):
                    s.lend_slice(slice_)
                    word, _ = call()
                    s.ask()
                    if word == "on":
                        s.drive(100, reply(0, b"abcdefgh"))
                        s.drive(100, b"unasked")
                        s.show_slice()
                        s.ask()
                        s.seek(0, position)
                s.lend_slice(b"")
                s.trim(len(slice_))
                s.drive(100, reply())
                s.ask()
    # the ends of the numbers
    connect(s, 2**64 - 1, 5, 3)
    for length in (2**32 - 2, 2**32 - 1, 2**32, 2**64 - 1):
        s.trim(length)
        s.drive(100, reply(38))
    s.seek(2, -2)
    s.trim(5)
    s.drive(100, reply())
    s.lend_slice(b"12345")
    s.read()
    s.drive(100, reply(0, b"xyz"))
    s.show_slice()
    s.ask()
    s.read()
    # a failed write moves nothing, and the next call finds the session ready
    connect(s, 16, 3, 4)
    s.lend_slice(b"write")
    for error in (1, 0):
        s.write()
        s.drive(100, reply(error))
        s.ask()
    # resize: the end, the transfers and the position past the size follow it
    connect(s, 16, 517, 10)
    for size in (12, 10, 4, 2**64 - 1):
        s.lend_slice(b"")
        s.resize(size)
        s.ask()
        s.drive(100, reply(size % 3))
        s.ask()
        s.lend_slice(b"12345")
        s.write()
        s.drive(100, reply(5))
        s.seek(2, -2)
        s.seek(0, 10)


def client_changes(s):
    """What is sent are the bytes lent in the giving step; a read keeps what was moved."""
    connect(s, 16)
    s.lend_slice(b"abcdef")
    s.write()
    s.drive(30)
    s.lend_slice(b"ABCDEF")
    s.drive(2)
    s.lend_slice(b"uvwxyz")
    s.drive(100, reply())
    s.lend_slice(b"abcdef")
    s.read()
    s.drive(100, reply(0, b"12"))
    s.show_slice()
    s.lend_slice(b"ABCDEF")
    s.drive(0, b"34")
    s.show_slice()
    s.drive(0, b"56789")
    s.show_slice()
    s.ask()
    # the data of a read in every cut of two pieces
    for k in range(7):
        connect(s, 6)
        s.lend_slice(b"--------")
        s.read()
        s.drive(100, reply(0, b"stored"[:k]))
        s.show_slice()
        s.drive(100, b"stored"[k:])
        s.show_slice()


def client_large(s):
    """A write and a read of 64 KiB, in large pieces."""
    connect(s, 2**40)
    s.lend_slice(bytes(k * 11 % 253 for k in range(65536)))
    s.write()
    for room in (30000, 0, 30000, 262144):
        s.drive(room, reply())
    data = reply(0, bytes(k * 7 % 251 for k in range(65536)))
    s.read()
    s.drive(28)
    for k in range(0, len(data), 40000):
        s.drive(262144, data[k : k + 40000])
    s.show_slice()
    s.ask()
    s.hang_up()


def example(s):
    """TRACE.md's own."""
    s.fresh()
    s.lend_table(b"\x01")
    s.step(0x14)
    s.end()
    assert s.lines == ["on 0 18 4e42444d4147494349484156454f50540003", "end 12 0 0 -"]


def build():
    s = Script()
    example(s)
    for part in (handshakes, long_options, transmissions, large, rooms, ends_of_input, cut_writes, bad_tables, changing_tables, short_images, headers):
        part(s)
    for part in (client_handshakes, client_cut_handshakes, client_refused, client_calls, client_positions, client_changes, client_large):
        part(s)
    s.bad(b"s" + struct.pack(">II", 4, 262145))
    for number in range(13):
        assert ("end", number) in s.seen, number
    for number in (40, 41, 42, 43, 45, 46, 50):
        assert ("end", number) in s.seen, number
    for number in (13, 20, 21, 22, 23, 24, 25, 26, 28, 44, 48, 49, 51, 52):
        assert ("no", number) in s.seen, number
    assert ("fail", 1) in s.seen  # 47
    return s


if __name__ == "__main__":
    made = build()
    what = sys.argv[1] if len(sys.argv) == 2 else ""
    if what == "stdin":
        sys.stdout.buffer.write(made.records)
    elif what == "stdout":
        sys.stdout.write("\n".join(made.lines) + "\n")
    elif what == "count":
        print(f"{made.count + 1} records, {len(made.lines)} lines, {len(made.records)} bytes")
    else:
        sys.exit(__doc__)
