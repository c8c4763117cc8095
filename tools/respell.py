#!/usr/bin/env python3
"""Brings this repository's own antt names to today's spelling; written for the port (docs/PORT.md) and run once, after the kit's port.py.

usage: tools/respell.py [--list] FOLDER        (FOLDER: the top of the checkout; --list prints the table and changes nothing)

Three rules, for names that the repository itself defines:
  a word is in snake case:               wordAt           becomes  word_at
  a type or fact is in camel case:       Alike-after      becomes  AlikeAfter
  a dash joins two names, no more:       refused-entry    becomes  refused_entry, and tally-set stays
A lemma that would have the name of a definition gets _lem. Names of the source (src/), of the toolchain and of generated goals stay.
It turns .antt files and, in .rt files, the clauses and 'ghost use' lines.
"""

import os
import re
import sys

# names that no rule gets right
TWINS = {"bareOf": "bare_text", "is-number": "numeral", "turned-back": "turned_back", "To-number": "to_number"}

# names of the toolchain's library that stand before or behind a dash here, or have capitals
STD = set("""length get_or set append take drop map replicate min max mod mul add sub leb ltb eqb cond rem div double reverse""".split())
KEEP = set("""bool_Lawful mut_Tells shr_slice_Tells uint_Lawful uint_Makes uint_Tells walk_Meets in-S""".split())

TOKEN = re.compile(r"[^\s(){}.;,@\"«»\[\]|]+")
COMMENT = re.compile(r"--[^\n]*")
SIGNATURE = re.compile(
    r"^[ \t]*((?:pub |abbrev |unfoldable |data |record )*)([^\s(){}.;,@\"|]+)((?:[ \t]*[({][^\n]*?)?)[ \t]*(?<![:\w]): ((?:[^\n]|\n[ \t]+[^\s:]+(?![^\n]* : ))*)",
    re.M,
)
LOCAL = re.compile(r"(?<=[({])[ \t]*((?:[^\s(){}.;,@\"|]+ )+): ")


def files(top, kind):
    for folder, dirs, names in os.walk(os.path.join(top, "crates")):
        dirs[:] = sorted(d for d in dirs if d != "out")
        for name in sorted(names):
            if name.endswith(kind):
                yield os.path.join(folder, name)


def read(path):
    with open(path, encoding="utf-8") as f:
        return f.read()


def camel(word):
    return re.match(r"^[a-z_][^-]*[a-z0-9'][A-Z]", word) or re.match(r"^[a-z][A-Z]", word)


def snake(part):
    """A part without dashes, in snake case if it begins with a small letter."""
    if not part or not (part[0].islower() or part[0] == "_"):
        return part
    return re.sub(r"(?<=[a-z0-9'])([A-Z])", lambda m: "_" + m.group(1).lower(), part)


def gather(top):
    """All names defined by hand, the facts among them, and the names that a dash may join."""
    mine, facts, words = set(), set(), set(STD)
    for path in files(top, ".antt"):
        text = COMMENT.sub("", read(path))
        proof = os.path.basename(path) == "Proof.antt"
        for m in SIGNATURE.finditer(text):
            name, kind = m.group(2), re.sub(r"\s+", " ", m.group(4)).strip()
            if proof and re.match(r"(tie|goal)\.", kind):
                continue
            if re.search(r"(^|→ )Type [0-9ℓ]+( where)?", kind) and name[0].isupper():
                facts.add(name)
            mine.add(name)
            if "/specs/" in path:
                words.add(name)
        for m in LOCAL.finditer(text):
            mine.update(w for w in m.group(1).split() if camel(w))
        mine.update(w for w in TOKEN.findall(text) if camel(w) and "-" not in w)
    return mine - KEEP, facts, words


def turned(name, facts, words):
    if name in TWINS:
        return TWINS[name]
    parts = name.split("-")
    if name in facts and len(parts) > 1:
        return parts[0] + "".join(p[:1].upper() + p[1:] for p in parts[1:])
    parts = [snake(p) for p in parts]
    for i in range(1, len(parts)):
        left, right = "_".join(parts[:i]), "_".join(parts[i:])
        if left in words and right in words:
            return left + "-" + right
    return "_".join(parts)


def table(top):
    mine, facts, words = gather(top)
    words = {snake(w) for w in words if "-" not in w}
    rows, taken = {}, {n: n for n in mine if "-" not in n and snake(n) == n}
    for name in sorted(mine, key=lambda n: ("-" in n, n)):
        if not re.search(r"[A-Za-z]", name) or not re.search(r"[-A-Z]", name):
            continue
        new = turned(name, facts, words)
        while new != name and name not in TWINS and taken.get(new, name) != name:
            new += "_lem"
        taken[new] = name
        if new != name:
            rows[name] = new
    return rows


def turn(text, rows):
    return TOKEN.sub(lambda m: rows.get(m.group(0), m.group(0)), text)


CLAUSE = re.compile(r"(?:requires|ensures)\s*\*?\s*(?:\w+\s*)?\{|ghost\s+\w+\s*:\s*\{")
GHOST_USE = re.compile(r"ghost\s+use\b[^;]*;")


def turn_source(text, rows):
    """The clauses and the ghost uses of a source file."""
    text = GHOST_USE.sub(lambda m: turn(m.group(0), rows), text)
    out, at = "", 0
    for m in CLAUSE.finditer(text):
        if m.start() < at:
            continue
        depth, end = 1, m.end()
        while depth:
            depth += {"{": 1, "}": -1}.get(text[end], 0)
            end += 1
        out += text[at : m.end()] + turn(text[m.end() : end], rows)
        at = end
    return out + text[at:]


def twins(path, before, rows):
    seen = {}
    for word in sorted(set(TOKEN.findall(COMMENT.sub("", before)))):
        new = rows.get(word, word)
        if new in seen and seen[new] != word:
            yield f"{path}: {seen[new]} and {word} fall together as {new}"
        seen[new] = word


def main():
    only_list = "--list" in sys.argv
    top = [a for a in sys.argv[1:] if a != "--list"][0]
    rows = table(top)
    said = []
    if only_list:
        for old, new in sorted(rows.items()):
            print(f"{old}\t{new}")
    for kind, how in ((".antt", turn), (".rt", turn_source)):
        for path in files(top, kind):
            before = read(path)
            if kind == ".antt":
                said += list(twins(path, before, rows))
            else:
                said += list(twins(path, " ".join(GHOST_USE.findall(before)), rows))
            after = how(before, rows)
            if after != before and not only_list:
                with open(path, "w", encoding="utf-8") as f:
                    f.write(after)
    for line in said:
        print("twins: " + line, file=sys.stderr)
    return 1 if said else 0


if __name__ == "__main__":
    sys.exit(main())
