#!/usr/bin/env python3
"""The gate's lines for the program `mktable`, and the table that they make.

    python3 compare/mktable.py

writes crates/mktable/args, stdin and stdout. The table's bytes are put together here from document 01's words. Standard library only."""
import os
import struct

LINES = """\
# drawers of the demo: name, start, size, and words
labels       0  1024
"Schr\u00e4nke 1-4"  1024 512 readonly   # in quotes, a name may have blanks
""  1536 64
"quote \\" backslash \\\\ byte \\x07" 0 0 resizeable rotational trim
\tlabels 1600 0 trim trim readonly\r

all 0 1600 rotational"""
RECORDS = [
    (b"labels", 0, 1024, 0),
    ("Schr\u00e4nke 1-4".encode(), 1024, 512, 1),
    (b"", 1536, 64, 0),
    (b'quote " backslash \\ byte \x07', 0, 0, 2 + 4 + 8),
    (b"labels", 1600, 0, 1 + 8),
    (b"all", 0, 1600, 4),
]


def main():
    table = b"\x01" + b"".join(struct.pack(">HQQB", 17 + len(n), start, size, flags) + n for n, start, size, flags in RECORDS)
    home = os.path.join(os.path.dirname(os.path.abspath(__file__)), "..", "crates", "mktable")
    for name, what in (("args", b"1600\n"), ("stdin", LINES.encode()), ("stdout", table)):
        with open(os.path.join(home, name), "wb") as f:
            f.write(what)


if __name__ == "__main__":
    main()
