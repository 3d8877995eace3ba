#!/usr/bin/env python3
"""Gives the repository's own definitions and lemmas the spelling of today's Rattle: words in snake case.

usage: python3 tools/respell.py      at the top, once, right after the kit's port.py

A definition `firstInput` becomes `first_input`, and a lemma `size-suc` becomes `size_suc`. Where a lemma would then have the name of a definition,
or a name that something else has, it gets `_lem`. Names of the kit, names that Rattle makes and names of src/ stay. Tokens are replaced everywhere at
once, so two names never fall together: the script stops if they would.
"""
import collections
import os
import re
import sys

ROOT = os.path.dirname(os.path.dirname(os.path.abspath(__file__)))
CRATES = sorted(os.listdir(os.path.join(ROOT, "crates")))
# a token of antt: a name with dashes, primes, dots in the middle and subscripts
TOKEN = re.compile(r"[^\s(){}.;,@\"«»`\[\]\\:λ→=|↦]+")
USE = re.compile(r"^\s*(?:ghost )?(?:unfoldable )?(?:pub )?use ([^\s{;]+?)(?:\.\{(.*)\})?(?: as ([^\s;]+))?;?\s*$", re.M)
CAMEL = re.compile(r"^[a-z_][A-Za-z0-9₀-₉'′]*[A-Z]")
DASHED = re.compile(r"^[A-Za-zμ₀-₉][^\s]*-[^\s]*")
DOTTED = {
    "Iff·trans": "iff_trans", "Iff·not": "iff_not", "Iff·symm": "iff_symm",
    "List·getD-append": "get_or-append", "List·getD-eq-default": "get_or-eq_default", "List·getD-map": "get_or-map",
    "eqb·suc-suc": "eqb-suc-suc", "eqb·suc-zero": "eqb-suc-zero", "eqb·zero-suc": "eqb-zero-suc", "leb·suc-suc": "leb-suc-suc",
    "List·Memᴰ·append-cases": "mem_append_cases", "List·Memᴰ·cases-cons": "mem_cases_cons",
    "List·Memᴰ·eq-of-singleton": "mem_eq_of_singleton", "List·Memᴰ·head": "mem_head", "List·Memᴰ·not-nil": "mem_not_nil",
    "List·Memᴰ·tail": "mem_tail", "Memᴰ·append-left": "mem_append_left", "Memᴰ·append-right": "mem_append_right",
    "List-as-Memᴰ": "Memᴰ", "mem-getD": "mem_get_or", "rising-getD": "rising_get_or", "keptOf": "kept_one_of",
    "Memᴰ·cast": "mem_cast", "Memᴰ·map": "mem_map", "Memᴰ·of-map": "mem_of_map",
}


def walk(endings, where=("crates",)):
    for top in where:
        for folder, dirs, files in os.walk(os.path.join(ROOT, top)):
            dirs[:] = sorted(d for d in dirs if d not in ("out", ".git", "target"))
            for f in sorted(files):
                if f.endswith(endings):
                    yield os.path.join(folder, f)


def read(p):
    with open(p, encoding="utf-8") as f:
        return f.read()


def own(module):
    parts = module.split(".")
    return parts[0] == "Rattle" and len(parts) > 1 and parts[1] in CRATES


def generated(p):
    """Is p a proof of one function, which names what Rattle makes?"""
    parts = os.path.relpath(p, ROOT).split(os.sep)
    return parts[2] == "proofs" and parts[-1] in ("Proof.antt", "Answers.antt", "Invariants.antt")


def snake(name):
    return re.sub(r"(?<=[a-z0-9₀-₉])([A-Z])", lambda m: "_" + m[1].lower(), name).replace("-", "_")


COMMENT = re.compile(r"^\s*--(?:\s.*)?$|(?<=\s)--\s.*$", re.M)


def code(text):
    return COMMENT.sub("", text)


def survey():
    kit, fields, tokens, seen, rust = set(), set(), collections.Counter(), set(), set()
    for p in walk((".antt",)):
        t = code(read(p))
        for m in USE.finditer(t):
            if not own(m[1]) and m[2] is not None:
                for n in m[2].split(","):
                    kit.add(n.strip().split(" as ")[0])
        made = generated(p)
        for m in TOKEN.finditer(t):
            before = t[m.start() - 1] if m.start() else ""
            w = m[0]
            if made and before == ".":
                continue
            tokens[w] += 1
        for m in re.finditer(r"^\s*(?:abbrev |unfoldable )?(?:pub )?record\b.*?where\n(.*?)(?=^\S|\Z)", t, re.M | re.S):
            for k in re.finditer(r"^\s+(?:constructor \S+|([^\s:]+(?: [^\s:]+)*) :)", m[1], re.M):
                if k[1]:
                    fields.update(k[1].split())
    for p in walk((".rt",)):
        t = re.sub(r"//.*", "", read(p))
        rust.update(re.findall(r"[A-Za-z_][A-Za-z0-9_]*", re.sub(r"^ghost use .*$", "", t, flags=re.M)))
    return kit, fields, tokens, rust


def mapping():
    kit, fields, tokens, rust = survey()
    camel = [k for k in tokens if CAMEL.match(k) and "·" not in k and k not in kit and not k.startswith("·")]
    dashed = [k for k in tokens if DASHED.match(k) and "◌" not in k and "·" not in k and k not in kit and not k.endswith("-")]
    dashed = [k for k in dashed if not re.search("[A-Z]", k)]
    dashed = [k for k in dashed if not re.match(r"^(Need|After|In|Then|Else|At|Start|Joined)\d*-|^(invariant|decreases)-loop", k)]
    taken = set(tokens) | kit
    new = {}
    used = {}
    for k in sorted(camel):
        if k in DOTTED:
            continue
        n = snake(k)
        while n in used or (n in taken) or n in PARAMS.get(k, ()):
            n += "_of"
        used[n] = k
        new[k] = n
    for k in sorted(dashed):
        n = snake(k)
        while n in used or n in taken:
            n += "_lem"
        used[n] = k
        new[k] = n
    new.update({k: v for k, v in DOTTED.items()})
    return new, fields, kit


PARAMS = collections.defaultdict(tuple)


def parameters(new):
    """Which names of definitions would a parameter of a function hide, in a clause that uses the definition?"""
    hidden = collections.Counter()
    for p in walk((".rt",)):
        t = read(p)
        for m in re.finditer(r"\bfn \w+(?:<[^>]*>)?\(([^)]*)\)", t):
            names = set(re.findall(r"(\w+)\s*:", m[1]))
            end = t.find("\n{", m.end())
            clause = t[m.end(): end if end >= 0 else len(t)]
            for w in TOKEN.findall(clause):
                if w in new and new[w] in names:
                    hidden[w] += 1
    return hidden


def respell(text, new, made, fields, antt=True):
    def one(m):
        w = m[0]
        if w not in new:
            return w
        if made:
            before = text[m.start() - 1] if m.start() else ""
            if before == "." and "-" in w and w not in fields:
                return w
            head = text.rfind("\n", 0, m.start()) + 1
            if text[m.start() - 4: m.start()] == "tie.":
                return w
        return new[w]
    return TOKEN.sub(one, text)


def comment(text, new):
    """In a comment: a camel word anywhere, a dashed name only between backticks."""
    text = re.sub(r"(?<![\w·-])[a-z]+[A-Z]\w*(?![\w-])", lambda m: new.get(m[0], m[0]), text)
    return re.sub(r"`([^`\n]+)`", lambda m: "`" + TOKEN.sub(lambda k: new.get(k[0], k[0]), m[1]) + "`", text)


def turn(text, new, made, fields):
    out, at = [], 0
    for m in COMMENT.finditer(text):
        out.append(respell(text[at:m.start()], new, made, fields))
        out.append(comment(m[0], new))
        at = m.end()
    out.append(respell(text[at:], new, made, fields))
    return re.sub(r"(?<![\w-])([^\s{},]+) as \1(?=[,}])", r"\1", "".join(out))


def turn_rust(text, new):
    out = []
    for line in text.split("\n"):
        i = line.find("//")
        head, tail = (line, "") if i < 0 else (line[:i], line[i:])
        ghost = line.startswith("ghost use") or re.match(r"\s*(requires|ensures|ghost|×|→|\()", line) or "⌜" in line
        names = new
        if '"' not in head or ghost:
            head = TOKEN.sub(lambda k: names.get(k[0], k[0]), head)
        out.append(head + comment(tail, new))
    return "\n".join(out)


def main():
    new, fields, kit = mapping()
    for k, n in parameters(new).items():
        PARAMS[k] = (new[k],)
    new, fields, kit = mapping()
    left = parameters(new)
    if left:
        print("hidden by a parameter:", dict(left))
    if "--list" in sys.argv:
        for k in sorted(new):
            print(k, new[k])
        return
    for p in walk((".antt",)):
        t = read(p)
        u = turn(t, new, generated(p), fields)
        if u != t:
            open(p, "w", encoding="utf-8").write(u)
    for p in walk((".rt",)):
        t = read(p)
        u = turn_rust(t, new)
        if u != t:
            open(p, "w", encoding="utf-8").write(u)


if __name__ == "__main__":
    main()
