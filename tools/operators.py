#!/usr/bin/env python3
"""Imports the library's operators from the library: rt ci refuses a use of `◌≡◌` and the like from a module of this repository.

usage: python3 tools/operators.py [CRATE..]      at the top; all crates where none is named. It may be run again

laws/specs/Prelude passes many of the library's names on. Those with a place for an argument, as `◌<◌`, go over to a line of Rattle.std.specs.Prelude.
"""
import os
import re
import shutil
import sys

ROOT = os.path.dirname(os.path.dirname(os.path.abspath(__file__)))
LIBRARY = "Rattle.std.specs.Prelude"
KIT = os.path.dirname(os.path.dirname(os.path.realpath(shutil.which("rt"))))
with open(os.path.join(KIT, "rattle/std/specs/Prelude.antt"), encoding="utf-8") as f:
    SYMBOLS = {w for w in re.findall(r"[^\s{},]+", f.read()) if "◌" in w}
OWN = set(os.listdir(os.path.join(ROOT, "crates")))
USE = re.compile(r"^(ghost )?((?:pub |unfoldable )*)use (Rattle\.(\w+)\.[^\s{]+)\.\{([^{}]*)\}(;?)$")


def turn(text):
    lines, moved, at = [], [], None
    for line in text.split("\n"):
        m = USE.match(line)
        if not m or m[4] not in OWN:
            lines.append(line)
            continue
        names = [n.strip() for n in m[5].split(",") if n.strip()]
        ops = [n for n in names if n in SYMBOLS]
        if not ops:
            lines.append(line)
            continue
        if m[2].startswith("pub"):
            print("passed on:", line[:120])
        moved += [n for n in ops if n not in moved]
        at = len(lines) if at is None else at
        rest = [n for n in names if n not in SYMBOLS]
        ghost, end = m[1] or "", m[6]
        if rest:
            lines.append(f"{ghost}{m[2]}use {m[3]}.{{{', '.join(rest)}}}{end}")
    if not moved:
        return text
    for i, line in enumerate(lines):
        m = re.match(r"^(ghost )?use " + re.escape(LIBRARY) + r"\.\{([^{}]*)\}(;?)$", line)
        if m:
            names = [n.strip() for n in m[2].split(",") if n.strip()]
            names += [n for n in moved if n not in names]
            lines[i] = f"{m[1] or ''}use {LIBRARY}.{{{', '.join(names)}}}{m[3]}"
            return "\n".join(lines)
    lines.insert(at, f"{ghost}use {LIBRARY}.{{{', '.join(moved)}}}{end}")
    return "\n".join(lines)


def main():
    count = 0
    for crate in sys.argv[1:] or sorted(OWN):
        for folder, dirs, files in os.walk(os.path.join(ROOT, "crates", crate)):
            dirs[:] = [d for d in dirs if d != "out"]
            for name in files:
                if name.endswith((".antt", ".rt")):
                    path = os.path.join(folder, name)
                    with open(path, encoding="utf-8") as f:
                        text = f.read()
                    new = turn(text)
                    if new != text:
                        count += 1
                        with open(path, "w", encoding="utf-8") as f:
                            f.write(new)
    print("files changed:", count)


if __name__ == "__main__":
    main()
