"""From sessions and the crate's answers to scripts of the program `trace` and the lines that it has to write.

A session is played in one piece (all that is left of the input is offered at once, with room for all output) and cut (pieces and rooms by
the seed). What a step takes and gives follows from the crate's own order of reads and writes on the wire: a step goes on along it until it
has to give and the room is full, or has to take and nothing is left of the piece. So every line is fixed by the crate's answer.
"""
import struct
import subprocess
from collections import namedtuple

from sessions import Client, Header, Server

# one call's: 01's number (0: success), the value, the crate's text, events [(0 taken or 1 sent, count)], the bytes sent; at the client the rest
Answer = namedtuple("Answer", "outcome value text events sent size position flags buffer")
ENDS_OF_INPUT = (12, 50)
OTHER = 255


# ---- the driver


def counted(data):
    return struct.pack(">I", len(data)) + data


def encoded_call(call):
    kind = call[0].encode()
    if call[0] in "rw":
        return kind + counted(call[1])
    if call[0] == "k":
        return kind + struct.pack(">BQ", call[1], call[2])
    return kind + b"".join(struct.pack(">Q", x) for x in call[1:])


def encoded(s):
    if isinstance(s, Header):
        return b"O" + struct.pack(">QI", s.size, s.flags)
    if isinstance(s, Server):
        return b"S" + struct.pack(">I", s.chunk) + counted(s.table) + counted(s.image) + counted(s.data)
    calls = b"".join(map(encoded_call, s.calls))
    return b"C" + struct.pack(">I", s.chunk) + counted(s.name) + counted(s.data) + struct.pack(">I", len(s.calls)) + calls


class Reader:
    def __init__(self, data):
        self.data, self.at = data, 0

    def number(self, width):
        self.at += width
        return int.from_bytes(self.data[self.at - width : self.at], "big")

    def bytes(self):
        n = self.number(4)
        self.at += n
        return self.data[self.at - n : self.at]

    def record(self, client):
        outcome, value, text = self.number(1), self.number(8), self.bytes().decode()
        events = [(self.number(1), self.number(4)) for _ in range(self.number(4))]
        sent = self.bytes()
        if client:
            return Answer(outcome, value, text, events, sent, self.number(8), self.number(8), self.number(1), self.bytes())
        return Answer(outcome, value, text, events, sent, None, None, None, None)

    def answer(self, s):
        """A header; a server's record, the input taken by its handshake (None: it failed) and its image; a client's records."""
        if isinstance(s, Header):
            return self.bytes()
        if isinstance(s, Server):
            assert self.number(1) == 1
            answer, shaken = self.record(False), self.number(4)
            return answer, None if shaken == 2**32 - 1 else shaken, self.bytes()
        answers = []
        while self.number(1):
            answers.append(self.record(True))
        return answers


def ask(driver, sessions, **how):
    """What the crate answers to each session. `how` is what else subprocess is to know."""
    got = subprocess.run([driver], input=b"".join(map(encoded, sessions)), stdout=subprocess.PIPE, check=True, **how).stdout
    reader = Reader(got)
    answers = [reader.answer(s) for s in sessions]
    assert reader.at == len(got)
    return answers


# ---- one play of a session

PIECES = (0, 1, 1, 2, 3, 4, 8, 15, 16, 17, 27, 28, 29, 60, 151, 152, 300)
ROOMS = (0, 1, 2, 5, 15, 16, 17, 18, 28, 40, 100, 200)


class Play:
    """Writes one session's records and lines. `rng` cuts it; None is in one piece."""

    def __init__(self, rng):
        self.rng, self.records, self.lines = rng, [], []

    def record(self, command, payload=b""):
        self.records.append(command + struct.pack(">I", len(payload)) + payload)

    def line(self, *words):
        self.lines.append(" ".join(map(str, words)))

    def chosen(self, left, owed):
        """The size of the next piece, and the room."""
        if self.rng is None:
            return left, owed + 8
        if self.rng.random() < 0.15 or left + owed > 1000:
            return self.rng.randint(0, left), self.rng.randint(0, owed)
        return self.rng.choice(PIECES), self.rng.choice(ROOMS)

    def steps(self, command, data, taken, answer, last):
        """Steps until all that the crate did is done; `last` begins the last line. How much of `data` is taken then."""
        events, given = list(answer.events), 0
        single = self.rng is not None and len(data) - taken < 40 and self.rng.random() < 0.2
        upto = taken
        while events:
            piece, room = (1, 1) if single else self.chosen(len(data) - taken, len(answer.sent) - given)
            upto = max(upto, min(taken + piece, len(data)))
            t, g = taken, given
            while events:
                sends, n = events[0]
                moved = min(n, room - (given - g) if sends else upto - taken)
                if sends:
                    given += moved
                else:
                    taken += moved
                if moved < n:
                    events[0] = sends, n - moved
                    break
                del events[0]
            self.record(command, struct.pack(">I", room) + data[t:upto])
            words = ("on",) if events or answer.outcome in ENDS_OF_INPUT else last
            self.line(*words, taken - t, given - g, answer.sent[g:given].hex() or "-")
        return taken


def play_server(s, answered, rng):
    answer, _, image = answered
    p = Play(rng)
    for command, payload in ((b"S", b""), (b"T", s.table), (b"I", s.image)):
        p.record(command, payload)
    p.steps(b"s", s.data, 0, answer, ("end", answer.outcome))
    if answer.outcome == 12:
        p.record(b"e")
        p.line("end", 12, 0, 0, "-")
    p.record(b"i")
    p.line("image", image.hex() or "-")
    return p


def raw_error(answer, data, taken):
    """The number in the reply whose last byte was taken last. The crate's text names it, or says that it is another one."""
    error = int.from_bytes(data[taken - 12 : taken - 8], "big")
    named = (1, 5, 12, 22, 28)
    assert answer.value == (error if error in named else 0) and error
    return error


def play_call(p, s, command, payload, answer, taken):
    """A call, its steps, and its end. How much of the input is taken then."""
    p.record(command, payload)
    if not answer.events and answer.outcome != 50:
        p.line(*(("ok", answer.value, 0, 0, "-") if answer.outcome == 0 else ("no", answer.outcome)))
        return taken
    p.line("on", 0, 0, "-")
    last = ("ok", answer.value) if answer.outcome == 0 else ("end", answer.outcome)
    if answer.outcome == 47:
        last = "fail", raw_error(answer, s.data, taken + sum(n for sends, n in answer.events if not sends))
    taken = p.steps(b"c", s.data, taken, answer, last)
    if answer.outcome == 50:
        p.record(b"x")
        p.line("end", 50, 0, 0, "-")
    return taken


def show_client(p, answer):
    p.record(b"q")
    if answer.outcome in (0, 47, 48, 49):
        p.line("client", answer.size, answer.position, *format(answer.flags, "05b"))
    else:
        p.line("client", "-")


def play_client(s, answers, rng):
    p = Play(rng)
    p.record(b"C")
    p.record(b"B", s.name)
    taken = play_call(p, s, b"h", b"", answers[0], 0)
    show_client(p, answers[0])
    for call, answer in zip(s.calls, answers[1:]):
        if call[0] != "k":
            p.record(b"B", call[1] if call[0] in "rw" else b"")
        taken = play_call(p, s, call[0].encode(), b"" if call[0] in "rw" else encoded_call(call)[1:], answer, taken)
        if call[0] == "r":
            p.record(b"b")
            p.line("slice", answer.buffer.hex() or "-")
        show_client(p, answer)
    return p


def play_header(s, header, rng):
    p = Play(rng)
    p.record(b"o", struct.pack(">IQI", 152 if rng is None else 152 + rng.randrange(50), s.size, s.flags))
    p.line("on", 0, 152, header.hex())
    return p


def play(s, answered, rng):
    how = {Server: play_server, Client: play_client, Header: play_header}[type(s)]
    return how(s, answered, rng)


def ends(s, answered):
    """The numbers that a session shows; 0 is DISC at the server, a success at the client."""
    if isinstance(s, Server):
        return [answered[0].outcome]
    if isinstance(s, Client):
        return [a.outcome for a in answered]
    return []
