#!/usr/bin/env python3
"""Brings this repository's own definitions and lemmas to the spelling of today's Rattle.

usage: python3 tools/spelling.py [--list]      at the top of the repository, once, after port.py

Functions, lemmas, fields and constructors of specs/ and proofs/ are written in snake case; a dash stays where it joins
the name of a type. Types, modules and facts keep their capitals. Nothing of src/ is renamed but the words of its
clauses, and of must-fail edits the words of definitions alone. Names that would fall together are printed, and then
nothing is written. --list prints each old and new name.
"""
import collections
import glob
import re
import sys

SEPARATORS = r"[\s(){}.,;:\"\[\]|⌜⌝λ`]"
TOKEN = re.compile(r"[^\s(){}.,;:\"\[\]|⌜⌝λ`]+")
# a token that is no part of a path and no field
BARE = re.compile(r"(?<![^\s(){}.,;:\"\[\]|⌜⌝λ`])(?<!\.)[^\s(){}.,;:\"\[\]|⌜⌝λ`]+")
DEFINED = re.compile(r"^\s*(?:unfoldable |abbrev |pub |ruleset )*([^\s(){}.,;:]+)(?: [({][^:]*)* ?:(?=\s|$)")
# names of the library that stand beside ours of the same spelling
KEPT = {"and-false", "not-true", "or-true"}
# definitions whose new name is that of a field, which a clause would read in its place
OTHERWISE = {"blockBytes": "block_bytes_of", "directoryBlocks": "directory_blocks_of", "longestRun": "longest_run_of", "inOne": "in_one_of", "in-slot": "in_slot_lem"}
# lemmas that port.py gave the name that a definition beside them gets
LEMMAS = {w: w + "_lem" for w in "has_room held_after in_halves is_open read_done reads_nothing write_done".split()}


def antt_files():
    return sorted(set(glob.glob("crates/*/specs/**/*.antt", recursive=True) + glob.glob("crates/*/proofs/**/*.antt", recursive=True)))


def code_of(line):
    """The line without its comment."""
    m = re.match(r"^(.*?)(?:^|\s)--(?:\s|$)", line)
    return m.group(1) if m else line


def names():
    """What is defined in specs/, what is defined anywhere, and every token of the antt files."""
    words, defined, tokens = set(), set(), collections.Counter()
    for path in antt_files():
        for line in open(path, encoding="utf-8"):
            code = code_of(line)
            tokens.update(BARE.findall(code))
            m = DEFINED.match(code)
            if not m or re.search(r": tie\.(Need|invariant|decreases)", code):
                continue
            defined.add(m.group(1))
            if "/specs/" in path:
                words.add(m.group(1))
    return words, defined, tokens


def snake(word):
    if not re.match(r"^[a-z]", word):
        return word
    return re.sub(r"(?<=[a-z0-9])([A-Z]+)", lambda m: "_" + m.group(1).lower(), word)


def spelled(name):
    if name in OTHERWISE:
        return OTHERWISE[name]
    parts = [snake(p) for p in name.split("-")]
    if not all(re.match(r"^[A-Za-z0-9_'₀-₉]+$", p) for p in parts):
        return name
    if re.match(r"^[A-Z0-9_]+$", "".join(parts)):
        return "_".join(parts)
    made = parts[0]
    for before, part in zip(parts, parts[1:]):
        joined = re.match(r"^[A-Z]", before) or re.match(r"^[A-Z]", part)
        made += ("-" if joined else "_") + part
    return made


def renamings():
    words, defined, tokens = names()
    table = {}
    for name in sorted(defined):
        if name in KEPT or not re.match(r"^[A-Za-z]", name):
            continue
        new = spelled(name)
        if new != name:
            table[name] = new
    for name in sorted(tokens):
        if name not in table and re.match(r"^[a-z][a-z0-9_]*[A-Z][A-Za-z0-9_']*$", name) and not re.search(r"_[A-Z]", name):
            table[name] = snake(name)
    back = collections.defaultdict(set)
    for name, new in table.items():
        back[new] |= {name, new}
    # a lemma that would have its definition's name
    for new, olds in list(back.items()):
        dashed = [n for n in olds if "-" in n]
        if len(olds - {new}) > 1 and dashed or new in tokens and dashed and new in words:
            for n in dashed:
                table[n] = new + "_lem"
                back[new + "_lem"].add(n)
                back[new].discard(n)
    clashes = []
    for path in antt_files():
        bare = set()
        for line in open(path, encoding="utf-8"):
            bare.update(BARE.findall(code_of(line)))
        for name in bare & table.keys():
            new = table[name]
            for other in (bare & back[new]) - {name}:
                if table.get(other, LEMMAS.get(other, other)) == new:
                    clashes.append((name, other, path))
    return table, sorted(clashes)


def turned(text, table, dashed=True):
    """The text with its names turned; a small name with a dash in a comment or in code is left, as it may be a plain word."""

    def new(m):
        name = m.group(0)
        return table.get(name, name) if dashed or "-" not in name or name.isupper() else name

    return TOKEN.sub(new, text)


def turn_antt(path, table):
    out = []
    for line in open(path, encoding="utf-8").read().split("\n"):
        code = code_of(line)
        code_turned = BARE.sub(lambda m: LEMMAS.get(m.group(0), m.group(0)), code)
        out.append(turned(code_turned, table) + turned(line[len(code):], table, dashed=False))
    return "\n".join(out)


def main(argv):
    table, clashes = renamings()
    if "--list" in argv:
        for name, new in table.items():
            print(name, new)
    for name, other, path in clashes:
        print(f"falls together: {name} and {other} in {path}", file=sys.stderr)
    if clashes:
        return 1
    if "--list" in argv:
        return 0
    for path in antt_files():
        text = turn_antt(path, table)
        with open(path, "w", encoding="utf-8") as f:
            f.write(text)
    for path in sorted(glob.glob("crates/*/src/**/*.rt", recursive=True) + glob.glob("crates/*/must-fail/*.edit")):
        text = open(path, encoding="utf-8").read()
        with open(path, "w", encoding="utf-8") as f:
            f.write(turned(text, table, dashed=False))
    return 0


if __name__ == "__main__":
    raise SystemExit(main(sys.argv[1:]))
