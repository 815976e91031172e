#!/usr/bin/env python3
"""Brings the repository's own definitions, fields and lemmas to snake case, where port.py left them as they were.

usage: python3 tools/respell.py [--list]     once, at the top of a checkout that port.py has turned; --list writes nothing

A name is own if a file of specs/ or proofs/ declares it (a Proof.antt declares goals, whose names are the check's: those stay).
Words get underscores: costAt is cost_at, record-then is record_then. A dash stays behind the function that a lemma is on, as
in length-put_rows. Types, modules, Rust's functions and strings keep their names.
"""
import collections
import glob
import re
import sys

DECL = re.compile(r"^( *)((?:(?:abbrev|unfoldable|pub|data|record|ruleset)\s+)*)([^\s:(){}λ=,.;]+)\s*((?:[({].*)?):\s*(.*)$")
TOKEN = re.compile(r"[^\s(){}\[\],.;:λ∷◌⌜⌝|@\"]+")
# Names before a dash that stays: the lemma is on this function.
HEADS = {"length", "get_or", "put_rows"}
# Names that would fall together with another in one file.
BY_HAND = {"charge-at": "charge_stored", "first-at": "first_here", "flags-part": "flags_kept"}
# port.py gave this lemma the name that heldBy gets.
FIRST = {"crates/ways/": {"held_by": "held_is"}}


def files():
    for p in sorted(glob.glob("crates/*/specs/**/*.antt", recursive=True) + glob.glob("crates/*/proofs/**/*.antt", recursive=True)):
        yield p


def snake(word):
    word = re.sub(r"([a-z0-9])([A-Z])", lambda m: m.group(1) + "_" + m.group(2).lower(), word)
    return word


def declared():
    found = collections.OrderedDict()
    for p in files():
        if p.endswith("/Proof.antt") or p.endswith("/Lib.antt"):
            continue
        for line in open(p, encoding="utf-8").read().split("\n"):
            if line.startswith("--") or line.startswith("use "):
                continue
            m = DECL.match(line)
            if m and (m.group(1) == "" or (len(m.group(1)) == 2 and not m.group(3).startswith("let"))):
                if m.group(1) == "" or m.group(2):
                    found.setdefault(m.group(3), p)
                elif re.match(r"^  [a-z][\w'-]* :", line):
                    found.setdefault(m.group(3), p)  # a constructor
    return found


def respelled(names):
    out = {}
    for n in names:
        type_like = re.match(r"[A-Z]", n) and "-" not in n
        if type_like or not re.match(r"[A-Za-z]", n):
            continue
        parts = [snake(x) for x in n.split("-")]
        new = "_".join(parts)
        if parts[0] in HEADS and len(parts) > 1:
            new = parts[0] + "-" + "_".join(parts[1:])
        new = BY_HAND.get(n, new)
        if new != n:
            out[n] = new
    functions = set(names) - set(out) | {new for n, new in out.items() if "-" not in n}
    for n, new in out.items():
        if "-" in n and new in functions:
            out[n] = new + "_lem"  # as std names a lemma that would have its function's name
    return out


def main(argv):
    names = declared()
    out = respelled(names)
    taken = collections.defaultdict(list)
    for old, new in out.items():
        taken[new].append(old)
    for new, olds in sorted(taken.items()):
        if len(olds) > 1 or new in names:
            print("look: two names are one now:", new, olds, [names[o] for o in olds], names.get(new, ""))
    if "--list" in argv:
        for o, n in sorted(out.items()):
            print(o, n, names[o])
        return 0
    sources = sorted(glob.glob("crates/*/src/**/*.rt", recursive=True))
    for p in list(files()) + sources:
        text = open(p, encoding="utf-8").read()
        first = [v for k, v in FIRST.items() if p.startswith(k)]
        turn = lambda w: (first[0].get(w) if first else None) or out.get(w, w)
        lines = []
        inside = False
        for line in text.split("\n"):
            ghost = p.endswith(".antt")
            if not ghost:
                s = line.strip()
                ghost = s.startswith(("ghost use", "requires", "ensures", "ghost ")) or inside
                if ghost:
                    inside = line.count("{") > line.count("}") or (inside and line.count("{") >= line.count("}"))
            if ghost and not line.startswith("--"):
                line = TOKEN.sub(lambda m: turn(m.group(0)), line)
            lines.append(line)
        new = "\n".join(lines)
        if new != text:
            open(p, "w", encoding="utf-8").write(new)
    print(len(out), "names respelled")
    return 0


if __name__ == "__main__":
    raise SystemExit(main(sys.argv[1:]))
