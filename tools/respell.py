#!/usr/bin/env python3
"""Brings the repository's own definitions and lemmas to the spelling of today's Rattle: words in snake case, types and modules in camel case, a dash between the names that a lemma joins.
usage: tools/respell.py [--dry]   at the top of the repository, once, after /opt/rattle/port/port.py (docs/PORT.md).

It reads which names the files of specs/ and proofs/ declare, makes one table of old and new names, refuses where two names fall together, and renames by whole words of antt
in specs/, proofs/, must-fail/ and in the clauses and comments of src/. Functions of src/, exported names, strings, inputs and outputs keep their names.
"""
import glob
import re
import sys

# Pieces that are one word though a capital stands within them, or whose letters make more than one word.
SPECIAL = {"fixedOM": "fixed_om", "resVoLL": "res_voll", "sresVoLL": "sres_voll", "mwPerLine": "mw_per_line", "sRes": "s_res", "getD-map-in": "get_or-map-in", "oneMore": "one_more_number"}
# A lemma that port.py gave the name that a definition of ours has now: it keeps its dash. By file, since functions of src/ have this name too.
KEPT_DASH = {"entry_place": "entry-place"}
KEPT_DASH_IN = ("crates/tables/proofs/Laws.antt", "crates/entry_tests/proofs/Entries.antt", "crates/data_tests/proofs/Entries.antt")
# An identifier of antt: no space, no bracket, no dot, no comma, no semicolon, no quotation mark and no backtick.
WORD = re.compile(r"[^\s(){}\[\].,;:`\"«»⟦⟧=|@/]+")
DECLARED = re.compile(r"^\s*(?:abbrev pub |abbrev |pub |unfoldable pub |unfoldable )?([^\s:(){}.,;`\"]+) :(?:\s|$)")
KEPT_UPPER = re.compile(r"^[A-Z]")


def snake(name):
    if name in SPECIAL:
        return SPECIAL[name]
    return re.sub(r"(?<=[a-z0-9])([A-Z])", lambda m: "_" + m[1].lower(), name)


def files(*patterns):
    found = set()
    for p in patterns:
        found |= set(glob.glob(p, recursive=True))
    return sorted(f for f in found if "/out/" not in f)


def declared(paths):
    names = set()
    for f in paths:
        for line in open(f, encoding="utf-8"):
            if line.lstrip().startswith("--"):
                continue
            m = DECLARED.match(line)
            if m:
                names.add(m[1])
            m = re.match(r"^\s*(?:pub )?ruleset (\S+) =", line)
            if m:
                names.add(m[1])
    return names


def table():
    specs = declared(files("crates/*/specs/**/*.antt"))
    walks = {f for f in files("crates/*/proofs/**/*.antt") if f.endswith("/Proof.antt")}
    laws = declared(set(files("crates/*/proofs/**/*.antt")) - walks)
    proofs = laws | declared(walks)
    every = specs | proofs
    new = {}
    for n in every:
        if KEPT_UPPER.match(n) or "◌" in n:
            continue
        if re.search(r"[a-z0-9⁺⁻][A-Z]", n):
            new[n] = snake(n)
    # A definition of specs/ is a word, and a dash stands in lemmas alone.
    for n in specs:
        if "-" in n and n not in proofs:
            new[n] = new.get(n, n).replace("-", "_")
    # In a lemma's name the pieces that make one of our own words stand as that word.
    words = {w for w in new.values() if "_" in w and "-" not in w}
    # A walk of the code (Proof.antt) names what Rattle made, and is turned by tools/turn_proofs.py.
    for n in laws - specs:
        if "-" not in n or n.startswith("Need-") or KEPT_UPPER.match(n):
            continue
        pieces = new.get(n, n).split("-")
        out, i = [], 0
        while i < len(pieces):
            for j in range(len(pieces), i + 1, -1):
                if "_".join(pieces[i:j]) in words and not (i == 0 and j == len(pieces)):
                    out.append("_".join(pieces[i:j]))
                    i = j
                    break
            else:
                out.append(pieces[i])
                i += 1
        if "-".join(out) != n:
            new[n] = "-".join(out)
    fallen = {}
    for n in every:
        fallen.setdefault(new.get(n, n), set()).add(n)
    together = {k: sorted(v) for k, v in fallen.items() if len(v) > 1 and k not in KEPT_DASH}
    return new, together


def turn(text, new):
    return WORD.sub(lambda m: new.get(m[0], m[0]), text)


def without_strings(text, new):
    """A source file's text with the names renamed outside strings."""
    parts = re.split(r'(b?"(?:[^"\\]|\\.)*")', text)
    return "".join(p if i % 2 else turn(p, new) for i, p in enumerate(parts))


def main():
    new, together = table()
    if "--dry" in sys.argv:
        for k in sorted(new):
            print(k, new[k])
    for k, v in sorted(together.items()):
        print(f"fall together: {k}: {' '.join(v)}", file=sys.stderr)
    print(f"{len(new)} names", file=sys.stderr)
    if "--dry" in sys.argv or together:
        return 1 if together else 0
    for f in files("crates/*/specs/**/*.antt", "crates/*/proofs/**/*.antt", "crates/*/must-fail/*.edit"):
        t = open(f, encoding="utf-8").read()
        u = turn(turn(t, KEPT_DASH) if f in KEPT_DASH_IN else t, new)
        if u != t:
            open(f, "w", encoding="utf-8").write(u)
    for f in files("crates/*/src/**/*.rt"):
        t = open(f, encoding="utf-8").read()
        u = without_strings(t, new)
        if u != t:
            open(f, "w", encoding="utf-8").write(u)
    return 0


if __name__ == "__main__":
    raise SystemExit(main())
