#!/usr/bin/env python3
"""docs/check.py: what can be checked of the documents by their text. Each name in docs/RULES.md stands in the file that it
names; each name in the list at a specification's head is defined there, and each definition is in the list; no document
has a line of more than 120 columns, but for tables and docs/PORT.md, which sets old lines beside new ones; no contract
has one of more than 160. Prints what is wrong; the exit status is 1 if anything is."""
import glob
import os
import re
import sys

CRATES = {"m": "machine", "w": "wire", "s": "server", "c": "client", "j": "joined", "o": "original"}
DEFINED = re.compile(r"^\s*(?:abbrev |unfoldable )?pub (?:data |record )?(\S+)", re.M)
FUNCTION = re.compile(r"^\s*(?:pub )?fn (\w+)", re.M)


def read(path):
    with open(path, encoding="utf-8") as f:
        return f.read()


def constructors(path):
    """The constructors of the public data types of an .antt file: one or more names before a colon, two columns further in."""
    names, depth = [], None
    for line in read(path).split("\n"):
        column = len(line) - len(line.lstrip())
        if line.strip() and depth is not None and column <= depth:
            depth = None
        if re.match(r"^\s*pub data ", line):
            depth = column
        elif depth is not None and column == depth + 2 and " : " in line and not line.lstrip().startswith("--"):
            names += line.split(" : ")[0].split()
    return names


def defined(path):
    """The public names of an .antt file: definitions, data, their constructors, records and, indented, fields and laws."""
    return {n for n in DEFINED.findall(read(path)) if n not in ("mod", "use")} | set(constructors(path))


def top(path):
    """The public definitions of a specification, without the fields of its records."""
    text, names, in_record = read(path), [], None
    for line in text.split("\n"):
        m = re.match(r"^(\s*)(?:abbrev |unfoldable )?pub (data |record )?(\S+)", line)
        if line.strip() and in_record is not None and len(line) - len(line.lstrip()) <= in_record:
            in_record = None
        if m and in_record is None:
            names.append(m.group(3))
            if m.group(2):
                in_record = len(m.group(1))
    return names


def listed(path):
    """The names of the list at a file's head: `--   a x, b   what they are`."""
    names = []
    for line in read(path).split("\n"):
        if not line.startswith("--"):
            break
        m = re.match(r"^--   (\S.*?)(?:  +.*)?$", line)
        if m:
            names += [piece.split()[0] for piece in m.group(1).split(",") if piece.split()]
        names += re.findall(r"(?:; |: |, )(\S+): ", line)
    return names


def heads():
    """What is wrong with the lists at the heads of the specifications."""
    for path in sorted(glob.glob("crates/*/specs/*.antt")):
        if path.endswith("Lib.antt"):
            continue
        there, told = top(path), listed(path)
        yield from (f"{path}: `{n}` is in the list and not in the file" for n in told if n not in there)
        yield from (f"{path}: `{n}` is not in the list" for n in there if n not in told)


def places():
    """For each kind and place of RULES.md the names that are defined there."""
    out = {}
    for letter, crate in CRATES.items():
        for kind, folder in (("D", "specs"), ("T", "proofs")):
            for path in glob.glob(f"crates/{crate}/{folder}/*.antt"):
                out[kind, letter, os.path.basename(path)[:-5]] = defined(path)
    return out


def functions():
    return {n for path in glob.glob("crates/*/src/*.rt") for n in FUNCTION.findall(read(path))}


def entry(kind, text, there, code, where):
    """What is wrong with one entry: a kind, names, and the places that they stand in."""
    named = re.findall(r"`([^`]+)`", text)
    spots = re.findall(r"\b([mwscjo])/(\w+)", text)
    for letter, name in spots:
        if kind in "DT" and (kind, letter, name) not in there:
            yield f"{where}: there is no {letter}/{name} for {kind}"
    for n in named:
        n = n.split("::")[-1].split()[0]
        if n.endswith(".."):
            continue
        if kind == "P":
            fine = n in code or any(n in s for k, s in there.items() if k[0] == "D")
        elif spots:
            fine = any(n in there.get((kind, *s), ()) for s in spots)
        else:
            fine = any(n in s for k, s in there.items() if k[0] == kind)
        if not fine:
            yield f"{where}: {kind} `{n}` does not stand there"


def rules():
    """What is wrong with docs/RULES.md."""
    there, code = places(), functions()
    for number, line in enumerate(read("docs/RULES.md").split("\n"), 1):
        cells = line.split(" | ")
        if not line.startswith("|") or len(cells) < 2:
            continue
        for part in re.split(r"(?<=[.;|]) (?=[DPTC] )", "| " + cells[-1]):
            m = re.match(r"\W*([DPT]) (.*)", part)
            if m:
                for piece in m.group(2).split("; "):
                    yield from entry(m.group(1), piece, there, code, f"docs/RULES.md:{number}")


def widths():
    for path in ["README.md", *sorted(glob.glob("docs/*.md")), *sorted(glob.glob("*/README.md"))]:
        if path == "docs/PORT.md":
            continue
        for number, line in enumerate(read(path).split("\n"), 1):
            if len(line) > 120 and not line.startswith("|"):
                yield f"{path}:{number}: {len(line)} columns"
    for path in sorted(glob.glob("crates/*/src/*.rt")):
        for number, line in enumerate(read(path).split("\n"), 1):
            if len(line) > 160:
                yield f"{path}:{number}: {len(line)} columns"


def main():
    os.chdir(os.path.join(os.path.dirname(os.path.abspath(__file__)), ".."))
    wrong = [*heads(), *rules(), *widths()]
    for line in wrong:
        print(line)
    print(f"docs/check.py: {len(wrong)} wrong")
    return 1 if wrong else 0


if __name__ == "__main__":
    sys.exit(main())
