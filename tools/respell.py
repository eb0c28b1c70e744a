#!/usr/bin/env python3
"""Respells this repository's own definitions, fields and lemmas: words in snake case, types and facts in camel case.

Run once at the top of a checkout, right after the kit's script for an older repository, before any edit by hand.
It looks for names with a dash that specs/ or proofs/ declare, and for names that a `ghost use` gives with `as`.
- A name that begins with a capital, and is declared with `abbrev`, `unfoldable`, `record` or `data`, becomes camel case: True-of, TrueOf.
- Any other becomes snake case: near-of, near_of; encode-T, encode_t.
- A lemma keeps the dash that joins two names, as length-append: both its parts are then names of definitions.
Strings, comments of src/, inputs and outputs stay, and so do names that the check makes (loop-x-preserved, returns-then-..).
It prints each renaming, and stops where two names would fall together in one file.
"""
import collections
import glob
import re
import sys

NAME = r"(?:[A-Za-z_][A-Za-z0-9_']*(?:-[A-Za-z0-9_']+)+|T_of(?![A-Za-z0-9_'-]))"
TOKEN = re.compile(r"(?<![A-Za-z0-9_'·-])" + NAME)
WORDS = set("length take drop append reverse set replicate mem get_or map sum add mul div mod pow sub suc zero le lt eq min max shr shl or and "
            "eqb ltb leb All IsPermutation".split())
# names that the earlier step gave a capital by mistake, and names of std
FIXED = {"Near-of": "near_of", "L-of": "l_of", "T_of": "t_of", "getD-mem": "get_or-mem", "getD-quarters": "get_or-quarters"}
SIGNATURE = re.compile(
    r"^\s*(?:(?P<kind>abbrev pub|abbrev|unfoldable pub|unfoldable|pub record|record|pub data|data|pub) )?(?P<name>[A-Za-z][A-Za-z0-9_'-]*)\s*(?:[({].*)?:(?!=)")


def kinds(files):
    found = {}
    definitions = set(WORDS)
    for f in files:
        if not f.endswith(".antt") or re.search(r"/proofs/.+/", f):
            continue
        for line in open(f, encoding="utf-8"):
            m = SIGNATURE.match(line)
            if not m or line.lstrip().startswith("--"):
                continue
            kind = (m.group("kind") or "").replace(" pub", "").replace("pub ", "")
            name = m.group("name")
            if kind in ("abbrev", "unfoldable", "record", "data"):
                definitions.add(name)
            if "-" in name:
                if kind in ("record", "data", "abbrev", "unfoldable"):
                    found[name] = kind
                else:
                    found.setdefault(name, "field" if line[0] == " " else "lemma")
    for f in files:
        text = open(f, encoding="utf-8").read()
        for m in re.finditer(r"use [\w.«»'+-]+\.\{([^}]*)\}", text):
            for item in m.group(1).split(","):
                parts = item.strip().split(" as ")
                if len(parts) == 2 and "-" in parts[1]:
                    found.setdefault(parts[1].strip(), "alias")
    return found, definitions


def respelled(name, kind, definitions):
    if name in FIXED:
        return FIXED[name]
    parts = name.split("-")
    if kind in ("record", "data", "abbrev", "unfoldable") and name[0].isupper():
        return "".join(p[0].upper() + p[1:] for p in parts)
    if kind == "lemma" and len(parts) == 2 and all(p in definitions for p in parts):
        return name
    return "_".join(p.lower() if len(p) == 1 or p.isupper() else p for p in parts)


def main():
    files = sorted(glob.glob("crates/*/specs/**/*.antt", recursive=True) + glob.glob("crates/*/proofs/**/*.antt", recursive=True)
                   + glob.glob("crates/*/src/*.rt"))
    found, definitions = kinds(files)
    new = {n: respelled(n, k, definitions) for n, k in found.items()}
    new.update(FIXED)
    new = {n: m for n, m in new.items() if n != m}
    fall = collections.defaultdict(set)
    for n, m in new.items():
        fall[m].add(n)
    bad = [(m, sorted(ns)) for m, ns in fall.items() if len(ns) > 1]
    changed = 0
    for f in files:
        text = open(f, encoding="utf-8").read()
        seen = set(re.findall(r"(?<![A-Za-z0-9_'.-])[A-Za-z_][A-Za-z0-9_']*(?![A-Za-z0-9_'-])", re.sub(r"--.*", "", text)))
        local = set()

        def turn(m):
            before = m.string[max(0, m.start() - 5):m.start()]
            # a step of a proof, c.name, and a goal are named by the check and not by us
            if re.search(r"(?<![A-Za-z0-9_'])c\.$", before) or before == "goal." or m.group(0) not in new:
                return m.group(0)
            local.add(m.group(0))
            return new[m.group(0)]

        if f.endswith(".rt"):
            result = "\n".join(l if l.lstrip().startswith("//") or '"' in l else TOKEN.sub(turn, l) for l in text.split("\n"))
        else:
            result = TOKEN.sub(turn, text)
        for n in sorted(local):
            if new[n] in seen:
                bad.append((f, n, new[n]))
        if result != text:
            changed += 1
            if "--dry" not in sys.argv:
                open(f, "w", encoding="utf-8").write(result)
    for n in sorted(new):
        print(f"{n} -> {new[n]}")
    print(f"{len(new)} names in {changed} files")
    for b in bad:
        print("falls together:", b)


main()
