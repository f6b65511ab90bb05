#!/usr/bin/env python3
"""tools/respell.py: the repository's own definitions and lemmas in Rattle's spelling: words in snake case, types and modules in camel case.

Run once at the top of the checkout, after the kit's port.py. A name is respelled if specs/ or a file of laws in proofs/ defines it
(a definition, a lemma, a field, a constructor in lower case): `owedRead` becomes `owed_read`, `same-given` `same_given`, NBD-CMD-READ
NBD_CMD_READ. Names of the kit, and those that Rattle makes for a function's proof, stay. Functions of src/, exported names, strings,
inputs and outputs keep theirs. Prints each pair, and each name that would fall together with another one.
"""
import glob
import os
import re
import sys

# What may stand in a name of antt; a dot, a space or a bracket ends it.
TOKEN = re.compile(r"[^\s(){}\[\],;.:=«»\"`|⟨⟩]+")
DEFINED = re.compile(r"^\s*(?:abbrev |unfoldable |private |pub |data |record )*([^\s:(){}]+)\s*:\s")
# Lemmas that would have the name of what they are of.
OTHERWISE = {"in-range": "in_range_lem", "lent-to": "lent_to_lem", "long-name": "long_name_lem", "record-at": "record_at_lem", "started-in": "started_in_lem"}
# Words that a name must not become.
RESERVED = {"rules", "goal", "search", "use", "module", "record", "data", "let", "in", "where"}


def snake(name):
    name = name.replace("-", "_")
    if name.upper() == name:
        return name
    parts = []
    for part in name.split("_"):
        if part[:1].islower():
            part = re.sub(r"(?<=[a-z0-9'])([A-Z]+)(?=[a-z0-9]|$)", lambda m: "_" + m.group(1).lower(), part)
            part = re.sub(r"([a-z0-9'])([A-Z])", lambda m: m.group(1) + "_" + m.group(2).lower(), part)
        parts.append(part)
    return "_".join(parts)


def is_walk(path):
    """The proof of one function, which speaks of names that Rattle makes."""
    return os.path.basename(path) in ("Proof.antt", "Answers.antt", "Invariants.antt")


def files():
    found = glob.glob("crates/*/specs/**/*.antt", recursive=True) + glob.glob("crates/*/proofs/**/*.antt", recursive=True)
    return sorted(found), sorted(glob.glob("crates/*/src/**/*.rt", recursive=True))


def text_of(path):
    with open(path, encoding="utf-8") as file:
        return file.read()


def imported(text):
    """The names that a file imports, with the module."""
    for module, names in re.findall(r"^\s*(?:ghost |pub )?use ([^{};\n]*)\{([^}]*)\}", text, flags=re.M):
        for name in names.split(","):
            yield module, name.strip().split(" as ")[0].strip()


def own(module, crates):
    found = re.match(r"Rattle\.(\w+)\.", module)
    return bool(found) and found.group(1) in crates


def names(antt, rt, crates):
    """What is defined here and not spelled as it should be: the old name and the new."""
    found, foreign = {}, set()
    for path in antt + rt:
        for module, name in imported(text_of(path)):
            if not own(module, crates):
                foreign.add(name)
    for path in antt:
        if is_walk(path):
            continue
        for line in text_of(path).splitlines():
            m = DEFINED.match(line)
            if not m:
                continue
            name = m.group(1)
            if "◌" in name or name in foreign or not re.match(r"[A-Za-z]", name):
                continue
            # a type keeps its capitals
            if name[0].isupper() and not name.upper() == name:
                continue
            new = OTHERWISE.get(name) or snake(name)
            if new != name:
                found[name] = new
    return found


def tokens(text):
    return set(TOKEN.findall(text))


def respelled(text, pairs):
    return TOKEN.sub(lambda m: pairs.get(m.group(0), m.group(0)), text)


def outside_strings(text, turn):
    """Turns what stands outside string literals of a source file."""
    out, last = [], 0
    for m in re.finditer(r'b?"(?:[^"\\\n]|\\.)*"', text):
        out += [turn(text[last : m.start()]), m.group(0)]
        last = m.end()
    return "".join(out + [turn(text[last:])])


def in_clauses(text, pairs):
    """Of a source file, `ghost use` lines, clauses and ghost items: all else is Rust's. Names with capitals are no names of Rust's, so that
    comments may have them too; a dash is respelled only in a clause."""
    plain = {a: b for a, b in pairs.items() if "-" not in a}
    text = outside_strings(text, lambda part: respelled(part, plain))
    lines, deep = [], 0
    for line in text.split("\n"):
        starts = re.match(r"\s*(?:ghost\b|requires\b|ensures\b|invariant\b)", line)
        if starts or deep > 0:
            line = respelled(line, pairs)
            deep += line.count("{") - line.count("}")
            deep = max(deep, 0)
        lines.append(line)
    return "\n".join(lines)


def of_walk(text, pairs, crates):
    """In a function's proof only what the file imports from this repository is the repository's name; capitals show the others."""
    known = {name for module, name in imported(text) if own(module, crates)}
    mine = {a: b for a, b in pairs.items() if a in known or ("-" not in a)}
    return respelled(text, mine)


def main():
    crates = {os.path.basename(p) for p in glob.glob("crates/*")}
    antt, rt = files()
    pairs = names(antt, rt, crates)
    clashes = []
    for path in antt:
        here = tokens(text_of(path))
        for old, new in pairs.items():
            if old in here and new in here:
                clashes.append(f"{path}: {old} and {new}")
    back = {}
    for old, new in pairs.items():
        back.setdefault(new, []).append(old)
    clashes += [f"{new}: {olds}" for new, olds in back.items() if len(olds) > 1]
    clashes += [f"{new}: a word of the language" for new in back if new in RESERVED]
    for line in sorted(clashes):
        print("falls together:", line)
    if "--look" in sys.argv:
        for old in sorted(pairs):
            print(old, pairs[old])
        return
    for path in antt + rt:
        text = text_of(path)
        if path.endswith(".rt"):
            new = in_clauses(text, pairs)
        elif is_walk(path):
            new = of_walk(text, pairs, crates)
        else:
            new = respelled(text, pairs)
        if new != text:
            with open(path, "w", encoding="utf-8") as out:
                out.write(new)
    print(f"respell: {len(pairs)} names")


if __name__ == "__main__":
    main()
