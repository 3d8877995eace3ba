#!/usr/bin/env python3
"""Mends imports of theorems that moved from specs/ to proofs/ of their crate: usage: python3 tools/moved.py      at the top; it may be run again."""
import os
import re

ROOT = os.path.dirname(os.path.dirname(os.path.abspath(__file__)))
CRATES = os.path.join(ROOT, "crates")
USE = re.compile(r"^(\s*(?:pub )?use )Rattle\.(\w+)\.specs\.([\w.]+)\.\{([^{}]*)\}\s*$")
seen = {}


def names(crate, where, module):
    p = os.path.join(CRATES, crate, where, *module.split(".")) + ".antt"
    if p not in seen:
        try:
            t = open(p, encoding="utf-8").read()
        except OSError:
            t = None
        seen[p] = t
    return seen[p]


def has(text, name):
    return text is not None and re.search(r"(?<![^\s(){}\[\],;.])" + re.escape(name) + r"(?![^\s(){}\[\],;:])", text) is not None and re.search(
        r"pub [^\n]*(?<![^\s(){}])" + re.escape(name) + r"(?![^\s(){},:])", text) is not None


for folder, dirs, files in os.walk(CRATES):
    dirs[:] = [d for d in dirs if d != "out"]
    for f in files:
        if not f.endswith(".antt"):
            continue
        p = os.path.join(folder, f)
        t = open(p, encoding="utf-8").read()
        out = []
        for line in t.split("\n"):
            m = USE.match(line)
            if m and os.path.isdir(os.path.join(CRATES, m[2])):
                a, b = names(m[2], "specs", m[3]), names(m[2], "proofs", m[3])
                if b is not None:
                    stay, go = [], []
                    for n in (x.strip() for x in m[4].split(",")):
                        if not n:
                            continue
                        k = n.split(" as ")[0]
                        (go if not has(a, k) and has(b, k) else stay).append(n)
                    if go:
                        if stay:
                            out.append(f"{m[1]}Rattle.{m[2]}.specs.{m[3]}.{{{', '.join(stay)}}}")
                        out.append(f"{m[1]}Rattle.{m[2]}.proofs.{m[3]}.{{{', '.join(go)}}}")
                        continue
            out.append(line)
        u = "\n".join(out)
        if u != t:
            open(p, "w", encoding="utf-8").write(u)
            print(os.path.relpath(p, ROOT))
