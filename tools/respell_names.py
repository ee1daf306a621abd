#!/usr/bin/env python3
"""Respells the names of this repository's own definitions and lemmas: snake case, and in a lemma's name a dash only between two names.

usage: python3 tools/respell_names.py            at the top of the repository, once

A definition, a field or a constructor of specs/ has no dash. A lemma of proofs/ keeps a dash between two names, one of them of the library:
as `length-octets`, of the library's `length` and a definition of specs/.
Functions of src/, strings and the names that the check makes stay as they are.
"""

import glob
import os
import re
import sys

LIBRARY = set("length take drop append replicate get_or map reverse leb eqb min max zero suc cons nil add mul div mod pow".split())
WORD = r"[\w'\u2032]+(?:-[\w'\u2032]+)*"
DECLARED = re.compile(r"^(\s*)((?:abbrev |unfoldable |pub |record |data )*)(" + WORD + r")(?: \{[^:{}]*\}| \([^()]*\))* :(?: |$)")
IN_MODULE = re.compile(r"^\s*module (" + WORD + r")")


def files(pattern):
    return sorted(f for f in glob.glob(pattern, recursive=True) if "/out/" not in f)


def read(path):
    with open(path, encoding="utf-8") as f:
        return f.read()


def declared(pattern, walks):
    found = set()
    for path in files(pattern):
        if not walks and path.endswith("/Proof.antt"):
            continue
        for line in read(path).splitlines():
            m = DECLARED.match(line)
            if m and not line.lstrip().startswith("--"):
                found.add(m.group(3))
    return found


def spelled(name, words):
    """The lemma's name: its parts joined by a dash where both sides are words, and else by an underscore."""
    parts = name.split("-")

    def cut(i):
        """The longest words from part i on, or None where a part is in none."""
        if i == len(parts):
            return []
        for j in range(len(parts), i, -1):
            if "-".join(parts[i:j]) in words and not (i == 0 and j == len(parts)):
                rest = cut(j)
                if rest is not None:
                    return ["_".join(parts[i:j])] + rest
        return None

    pieces = cut(0)
    return "-".join(pieces) if pieces and LIBRARY & set(pieces) else "_".join(parts)


def mapping():
    in_specs = declared("crates/*/specs/**/*.antt", True)
    in_proofs = declared("crates/*/proofs/**/*.antt", False)
    words = in_specs | LIBRARY
    turned = {}
    for name in sorted(in_specs):
        if "-" in name:
            turned[name] = name.replace("-", "_")
    for name in sorted(in_proofs - in_specs):
        if "-" in name:
            turned[name] = spelled(name, words)
    # What port.py respelled where it is declared, and left in a clause of src/.
    for path in files("crates/*/src/**/*.rt"):
        for name in re.findall(r"(?<![\w'-])" + WORD + r"(?![\w'-])", read(path)):
            if "-" in name and name.replace("-", "_") in in_specs:
                turned.setdefault(name, name.replace("-", "_"))
    return {a: b for a, b in turned.items() if a != b}


def turner(turned):
    names = sorted(turned, key=len, reverse=True)
    pattern = re.compile(r"(?<![\w'\u2032-])(" + "|".join(map(re.escape, names)) + r")(?![\w'\u2032-])")
    return lambda text: pattern.sub(lambda m: turned[m.group(1)], text)


def in_ticks(text, turn):
    return re.sub(r"`[^`\n]*`", lambda m: turn(m.group(0)), text)


def antt(text, turn):
    """The code, and in comments what stands in ticks."""
    out = []
    for line in text.split("\n"):
        at = re.search(r"(?:^|\s)--(?:\s|$)", line)
        cut = at.start() if at else len(line)
        out.append(turn(line[:cut]) + in_ticks(line[cut:], turn))
    return "\n".join(out)


def rattle(text, turn):
    """Clauses and ghost items; in comments what stands in ticks."""
    out, depth, ghost = [], 0, False
    for line in text.split("\n"):
        body = line.lstrip()
        if body.startswith("//"):
            out.append(in_ticks(line, turn))
            continue
        if not ghost and re.match(r"(ghost use|requires|ensures|ghost|invariant|also_owns|also_shares)\b", body):
            ghost, depth = True, 0
        if ghost:
            out.append(turn(line))
            depth += line.count("{") - line.count("}")
            if depth <= 0 and ("}" in line or ";" in line):
                ghost = False
        else:
            out.append(line)
    return "\n".join(out)


def edit(text, turn):
    """In an edit of a definition or a proof the lines all; in one of src/ those that are clauses."""
    lines = text.split("\n")
    of = next((l[5:].strip() for l in lines if l.startswith("file:")), "")
    out = []
    for line in lines:
        m = re.match(r"(old|new):(.*)$", line)
        if not m:
            out.append(in_ticks(line, turn))
        elif of.endswith(".antt") or re.match(r"\s*(ghost use|requires|ensures)\b", m.group(2)):
            out.append(f"{m.group(1)}:" + (antt(m.group(2), turn) if of.endswith(".antt") else turn(m.group(2))))
        else:
            out.append(line)
    return "\n".join(out)


def fallen_together(turned):
    """Names that a respelling would make the same as another."""
    known = declared("crates/*/specs/**/*.antt", True) | declared("crates/*/proofs/**/*.antt", False)
    after = {}
    for name in sorted(known):
        after.setdefault(turned.get(name, name), []).append(name)
    return {b: a for b, a in after.items() if len(a) > 1}


def main():
    turned = mapping()
    for b, a in sorted(fallen_together(turned).items()):
        print(f"look: {' and '.join(a)} are both {b} now")
    turn = turner(turned)
    jobs = [(f, antt) for f in files("crates/*/specs/**/*.antt") + files("crates/*/proofs/**/*.antt")]
    jobs += [(f, rattle) for f in files("crates/*/src/**/*.rt")]
    jobs += [(f, edit) for f in files("crates/*/must-fail/*.edit")]
    jobs += [(f, in_ticks) for f in ["README.md"] + files("docs/**/*.md") if os.path.exists(f) and not f.endswith("PORT.md")]
    changed = 0
    for path, how in jobs:
        old = read(path)
        new = how(old, turn)
        if new != old:
            changed += 1
            with open(path, "w", encoding="utf-8") as f:
                f.write(new)
    print(f"{len(turned)} names, {changed} files")


if __name__ == "__main__":
    sys.exit(main())
