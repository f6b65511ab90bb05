"""Writes what `pair` must write: crates/pair/stdout.

The results of the calls of crates/pair/src/script.rt on a plain disk, worked out by hand, once; the same for every capacity and every order.
The disk is the 32 bytes behind `<before>`: `ASPIRIN HEPARIN INSULIN DIGOXIN `.

Bytes carried, by document 01's formula: handshake 26 up (20 and 6 of name), 152 down; read of 8: 28, 24; write of 8: 36, 16; read of 16: 28, 32;
write of 4: 32, 16; trim: 28, 16; flush: 28, 16; read of 32: 28, 48; all others none. 234 up, 320 down.
"""
import sys
import zlib

RESULTS = """\
handshake ok 32 0 0 0 0 1 [labels]
read ok 8 [ASPIRIN ]
write ok 8 [WARFARIN]
seek ok 4 []
read ok 16 [RIN WARFARININSU]
seek ok 28 []
write ok 4 [MORPHINE]
read ok 0 [........]
seek ok 33 []
read no 49 [........]
write no 49 [CODEINE ]
seek no 48 []
seek ok 0 []
trim fail 47 38 []
flush ok []
read ok 32 [ASPIRIN WARFARININSULIN DIGOMORP........]
"""

IMAGE = b"<before>ASPIRIN WARFARININSULIN DIGOMORP<24 bytes stand behind.>"


def main():
    out = ""
    for capacity in (1, 2, 7, 4096):
        for order in range(4):
            out += f"wires of {capacity}, order {order}\n{RESULTS}"
            out += f"image [{IMAGE.decode()}] {zlib.adler32(IMAGE)}\nup 234 234 down 320 320\n"
    with open(sys.argv[1], "w") as f:
        f.write(out)


main()
