#!/usr/bin/env python3
"""Turns the old proofs of a crate, proofs/F/Proof.antt with Tie, into Invariants.antt and Answers.antt.

usage: python3 tools/answers.py CRATE NAMES.json      at the top

NAMES.json is what `rt check --generated FOLDER --old-names` writes in the crate's folder. Old proofs named the facts of a goal along the code, as
`c.before.before.args.n`; now each step is a field, as `c.args.n`. What it cannot turn it reports.
"""
import json
import os
import re
import sys

TOK = re.compile(r"[()\[\]{};,]|[^\s()\[\]{};,]+|\s+")
PLACE = r"tie\.((?:After|In|Then|Else|At|Joined|Case|Match|Arm)[^\s()]*|Start)"
TRIVIAL = re.compile(r"^\s*(?:search (?:rules|needs)|omega arith|omega \(arith,?\s*\)|tt|refl)\s*$")
report = []


def norm(s):
    return re.sub(r"_(lem|of)$", "", s.replace("-", "_").lower()) if s.endswith(("_lem",)) else s.replace("-", "_").lower()


class Fn:
    def __init__(self, data):
        self.needs = data["needs"]
        self.asked = data["asked_at"]
        self.places = data["places"]
        self.newname = data["places_by_name"]
        self.index = {}
        for i, p in enumerate(self.places):
            self.index.setdefault(norm(p[0]), i)
        self.params = data["params"]
        self.typed = data["typed"]
        self.loops = data["loops"]
        self.changed = data["changed"]
        self.arms = data["arms"]
        self.asked_names = {norm(a[1]) for a in self.asked}
        self.data = data

    def canon(self, i):
        """The place itself, for one of its points before a read."""
        if i is None or i == "?":
            return i
        return self.index.get(norm(re.sub(r"-unread(-\d+)?$", "", self.places[i][0])), i)

    def parent(self, i):
        p = self.places[i][1]
        return None if p is None else self.index[norm(p)]

    def need(self, old):
        o = norm(old)
        for cand in (o, re.sub(r"^(overflow|nonzero)_", "", o)):
            for k, (a, b) in enumerate(self.needs):
                if norm(a) == cand:
                    return k
        return None


class Decl:
    def __init__(self):
        self.comment = ""
        self.head = ""      # signature with modifiers, or '' for a line of another kind
        self.name = None
        self.mods = ""
        self.sig = ""
        self.unfolding = ""
        self.clauses = []   # (patterns text, body text)
        self.raw = ""


HEAD = re.compile(r"^((?:abbrev |unfoldable |pub )*)([^\s:]+) : (.*)$", re.S)


def chunks(text):
    """Top-level chunks: each starts at a line that is not indented."""
    out, cur = [], []
    for line in text.split("\n"):
        if line and not line[0].isspace() and line[0] not in ")]}" and cur:
            out.append("\n".join(cur))
            cur = []
        cur.append(line)
    if cur:
        out.append("\n".join(cur))
    return out


def parse(text):
    uses, decls, comment, top = [], [], [], []
    cs = chunks(text)
    k = 0
    seen = False
    while k < len(cs):
        c = cs[k]
        s = c.strip()
        if s.startswith("--"):
            (comment if seen else top).append(c.rstrip())
            k += 1
            continue
        if s == "":
            k += 1
            continue
        seen = True
        if s.startswith("use ") or s.startswith("pub use"):
            uses.append(c.rstrip())
            k += 1
            continue
        m = HEAD.match(c)
        d = Decl()
        d.comment = "\n".join(comment)
        comment = []
        if not m or c.startswith("module "):
            d.raw = c.rstrip()
            decls.append(d)
            k += 1
            continue
        d.mods, d.name, d.sig = m[1], m[2], m[3].rstrip()
        k += 1
        while k < len(cs):
            c2 = cs[k]
            if c2.startswith("unfolding "):
                d.unfolding = c2.rstrip()
                k += 1
                continue
            if c2.split(" ", 1)[0].strip() == d.name or re.match(re.escape(d.name) + r"[ \n]", c2):
                d.clauses.append(c2.rstrip()[len(d.name):])
                k += 1
                continue
            if c2.strip() == "":
                k += 1
                continue
            break
        decls.append(d)
    return "\n".join(top), uses, decls


def split_clause(c):
    """Patterns and body of a clause: at the first ' =' at depth 0."""
    depth = 0
    i = 0
    while i < len(c):
        ch = c[i]
        if ch in "([{":
            depth += 1
        elif ch in ")]}":
            depth -= 1
        elif ch == "=" and depth == 0 and c[i - 1] in " \n" and (i + 1 >= len(c) or c[i + 1] in " \n"):
            return c[:i].strip(), c[i + 1:].strip("\n").rstrip() if c[i + 1:i + 2] == "\n" else c[i + 2:].rstrip()
        i += 1
    return c.strip(), ""


def arrows(sig):
    """The parts of a type between arrows at depth 0."""
    parts, depth, cur = [], 0, ""
    for t in TOK.findall(sig):
        if t in "([{":
            depth += 1
        elif t in ")]}":
            depth -= 1
        if t == "→" and depth == 0:
            parts.append(cur.strip())
            cur = ""
        else:
            cur += t
    parts.append(cur.strip())
    return parts


def params(sig):
    """(name or None, type, implicit) of each parameter, and the result."""
    out = []
    parts = arrows(sig)
    for p in parts[:-1]:
        groups = re.findall(r"[({][^(){}]*(?:\([^()]*\)[^(){}]*)*[)}]", p) if p[:1] in "({" and " : " in p else None
        if groups and "".join(groups).replace(" ", "") == p.replace(" ", ""):
            for g in groups:
                names, ty = g[1:-1].split(" : ", 1)
                for n in names.split():
                    out.append((n, ty, g[0] == "{"))
        else:
            out.append((None, p, False))
    return out, parts[-1]


class Turn:
    def __init__(self, fn, path):
        self.fn, self.path = fn, path
        self.navs = {}      # name -> (from place, to place)
        self.macros = {}    # name -> decl, for lemmas over places that no goal is asked at
        self.members = set()
        self.used = set()
        self.inner = {}
        self.rename = {}

    def place_of(self, ty):
        m = re.match(r"^\(?" + PLACE + r"(?:\s.*)?$", ty.strip())
        if not m:
            return None
        return self.fn.index.get(norm(m[1]), "?")

    # ---- record expressions
    def atom(self, T, i, env):
        """A record expression at token i: (next, root, place, fields), or None."""
        if i >= len(T):
            return None
        t = T[i]
        if t == "(":
            r = self.expr(T, i + 1, env)
            if r is None:
                return None
            j, root, place, fields = r
            if fields or j >= len(T) or T[j] != ")":
                return None
            j += 1
            more = []
            if j < len(T) and T[j].startswith("."):
                more = T[j][1:].split(".")
                j += 1
            return self.climb(j, root, place, more)
        if t.endswith("."):
            return None
        parts = t.split(".")
        if parts[0] not in env or env[parts[0]][0] != "rec":
            return None
        _, root, place = env[parts[0]]
        return self.climb(i + 1, root, place, parts[1:])

    def climb(self, j, root, place, fields):
        while fields and fields[0] == "before":
            place = "?" if place == "?" else self.fn.parent(place)
            fields = fields[1:]
            if place is None:
                place = "?"
        return j, root, place, fields

    def skip(self, T, i):
        while i < len(T) and T[i].isspace():
            i += 1
        return i

    def expr(self, T, i, env):
        if i < len(T) and T[i] in self.navs:
            j = self.skip(T, i + 1)
            r = self.atom(T, j, env)
            if r is not None and not r[3]:
                return r[0], r[1], self.navs[T[i]][1], []
        return self.atom(T, i, env)

    # ---- writing
    def step_rest(self, place, rest):
        p = self.fn.places[place]
        out = []
        k = 0
        if rest:
            f0 = {"taken": "true", "left": "false"}.get(rest[0], rest[0]) if re.match(r"if|.*-test$", p[2][0]) else rest[0]
            for a, b in p[4]:
                if norm(a) == norm(f0) or norm(a) == norm(rest[0]):
                    return [b] + rest[1:]
        while k < len(rest):
            f = rest[k]
            if f == "taken":
                f = "true"
            elif f == "left" and k == 0 and (p[2][0].startswith("if") or p[2][0].endswith("-test")):
                f = "false"
            elif f == "inv" and k == 0:
                f = "invariant"
            elif f in ("kept", "last", "auto", "new") and k == 0:
                f = {"kept": "auto", "last": "new"}.get(f, f)
                n, j = 0, k + 1
                while j < len(rest) and rest[j] == "1":
                    n += 1
                    j += 1
                if j < len(rest) and rest[j] == "0" and p[3] in self.fn.params:
                    ps = self.fn.params[p[3]]
                    if n < len(ps):
                        out.append(f)
                        out.append(ps[n])
                        k = j + 1
                        continue
            out.append(f)
            k += 1
        return out

    def find(self, top, place, f):
        """The place of the step named f: here, else the nearest above, else below on the way to the root."""
        q = top if place == "?" else place
        while q is not None and q != "?":
            if norm(self.fn.places[q][2][0]) == norm(f):
                return q
            q = self.fn.parent(q)
        q, best = top, None
        if top == "?":
            return None
        while q is not None and q != place:
            if norm(self.fn.places[q][2][0]) == norm(f):
                best = q
            q = self.fn.parent(q)
        return best

    def at_step(self, name, q, rest):
        arm = self.fn.arms[q] if q < len(self.fn.arms) else None
        step = self.fn.places[q][2][0]
        if arm:
            for new, old, way in arm[2]:
                if norm(old) == norm(step) and way and rest[:len(way)] == way and not new.endswith("-own"):
                    return ".".join([name, arm[0], new] + rest[len(way):])
        return ".".join([name, self.fn.places[q][2][1]] + self.step_rest(q, rest))

    def write(self, root, place, fields, need):
        p = self.fn.places[place] if place != "?" else ["?", None, ["?", "?"]]
        if not fields:
            if place == root[1]:
                return root[0]
            report.append(f"{self.path}: bare record above {root[0]} in {need}: {p[0]}")
            return f"{root[0]}"
        f, rest = fields[0], fields[1:]
        q = self.find(root[1], place, f)
        if q is not None:
            return self.at_step(root[0], q, rest)
        f = {"pre": "requires"}.get(f, f)
        if f not in ("args", "requires", "ranges", "lifetimes", "well_formed", "auto", "type_inv", "utf8"):
            report.append(f"{self.path}: field {f} of {p[0]} (step {p[2][0]})")
        return ".".join([root[0], f] + rest)

    def text(self, text, env, need):
        T = TOK.findall(text)
        out = []
        env = dict(env)
        i = 0
        while i < len(T):
            t = T[i]
            if t == "let":
                j = self.skip(T, i + 1)
                name = T[j]
                j2 = self.skip(T, j + 1)
                if j2 < len(T) and T[j2] == "=":
                    j3 = self.skip(T, j2 + 1)
                    r = self.expr(T, j3, env)
                    if r is not None:
                        e, root, place, fields = r
                        e2 = self.skip(T, e)
                        if e2 < len(T) and T[e2] == "in":
                            if not fields:
                                env[name] = ("rec", root, place)
                                i = self.skip(T, e2 + 1)
                                continue
                            q = self.find(root[1], place, fields[0])
                            if q is not None and len(fields) > 2 and fields[1] in ("kept", "last", "new", "auto") and set(fields[2:]) == {"1"} \
                                    and self.fn.places[q][3] in self.fn.params:
                                env[name] = ("tup", root, q, fields[1], len(fields) - 2)
                                i = self.skip(T, e2 + 1)
                                continue
                            if len(fields) == 1 and q is not None:
                                env[name] = ("step", root, q)
                            else:
                                env.pop(name, None)
                    else:
                        env.pop(name, None)
                out.append(t)
                i += 1
                continue
            if t in self.macros:
                j = self.skip(T, i + 1)
                r = self.atom(T, j, env)
                if r is not None and not r[3]:
                    self.used.add(t)
                    out.append(t)
                    i = r[0]
                    continue
                out.append(t)
                i += 1
                continue
            if t.split(".")[0] in self.macros and t.split(".")[0] not in env and "." in t and not t.endswith("."):
                out.append(t)
                i += 1
                continue
            if t == "(":
                # `(macro ATOM).field`
                j = self.skip(T, i + 1)
                if j < len(T) and T[j] in self.macros:
                    k = self.skip(T, j + 1)
                    r = self.atom(T, k, env)
                    if r is not None and not r[3] and r[0] < len(T) and T[r[0]] == ")":
                        self.used.add(T[j])
                        out.append(T[j])
                        i = r[0] + 1
                        continue
            j = self.skip(T, i + 1)
            if t in env and j < len(T) and T[j] == "=":
                out.append(t)
                i += 1
                continue
            r = self.expr(T, i, env)
            if r is not None:
                j, root, place, fields = r
                out.append(self.write(root, place, fields, need))
                i = j
                continue
            parts = t.split(".")
            if parts[0] in env and env[parts[0]][0] == "tup" and len(parts) > 1:
                _, root, q, kind, n = env[parts[0]]
                out.append(self.at_step(root[0], q, [kind] + ["1"] * n + parts[1:]))
                i += 1
                continue
            if parts[0] in env and env[parts[0]][0] == "step" and len(parts) > 1 and not t.endswith("."):
                out.append(".".join([parts[0]] + self.step_rest(env[parts[0]][2], parts[1:])))
                i += 1
                continue
            if t in self.rename:
                t = self.rename[t]
            elif t == "needs":
                t = "rules"
            elif t == "invariant-loop" or t == "decreases-loop":
                report.append(f"{self.path}: {t} in a body")
            out.append(t)
            i += 1
        return "".join(out)


def with_lets(lets, body):
    """A body after typed lets; and a test that was turned round says the plain fact."""
    body = re.sub(r"not-true _ ([^\s(){},;]+)\.true-raw", r"\1.true", body)
    body = re.sub(r"not-false _ ([^\s(){},;]+)\.false-raw", r"\1.false", body)
    lets = [re.sub(r"not-true _ ([^\s(){},;]+)\.true-raw", r"\1.true", x) for x in lets]
    lets = [re.sub(r"not-false _ ([^\s(){},;]+)\.false-raw", r"\1.false", x) for x in lets]
    if not lets:
        return body
    if not body.startswith(" "):
        body = "    " + "\n".join(("    " + x if k and x.strip() else x) for k, x in enumerate(body.split("\n")))
    return "    " + "\n    ".join(lets) + "\n" + body


def main():
    crate, names = sys.argv[1], json.load(open(sys.argv[2]))
    root = os.path.join("crates", crate, "proofs")
    only = sys.argv[3:]
    for key, data in sorted(names.items()):
        m = re.match(r"^Rattle-" + re.escape(crate) + r"-proofs\.(.*)\.Lts$", key)
        if not m:
            continue
        path = m[1].replace(".", "/")
        if only and path not in only:
            continue
        folder = os.path.join(root, path)
        proof = os.path.join(folder, "Proof.antt")
        if not os.path.exists(proof):
            continue
        try:
            one(crate, path, folder, proof, Fn(data), m[1])
        except Exception as e:  # noqa: BLE001
            report.append(f"{path}: NOT TURNED: {type(e).__name__} {e}")
            if os.environ.get("TRACE"):
                raise
    for r in report:
        print(r)


def spec_args(body):
    """The arguments of `tie.spec` in the last declaration."""
    i = body.find("tie.spec")
    if i < 0:
        return None
    T = TOK.findall(body[i + len("tie.spec"):])
    args, k, depth, cur = [], 0, 0, ""
    for t in T:
        if depth == 0 and t == ")":
            break
        if t in "([{":
            depth += 1
        elif t in ")]}":
            depth -= 1
        if depth == 0 and t.isspace():
            if cur:
                args.append(cur)
            cur = ""
            continue
        cur += t
    if cur:
        args.append(cur)
    return args


def one(crate, path, folder, proof, fn, module):
    text = open(proof, encoding="utf-8").read()
    top, uses, decls = parse(text)
    alias = {}
    for d in decls:
        if d.name and d.sig.strip() == "Type 0" and d.clauses:
            _, b = split_clause(d.clauses[0])
            if re.match(r"^" + PLACE, b.strip()):
                alias[d.name] = b.strip()
    if alias:
        def real(s):
            for a in sorted(alias, key=lambda z: -len(z)):
                s = re.sub(r"(?<![^\s()])" + re.escape(a) + r"(?![^\s()])", lambda _: alias[a], s)
            return s
        decls = [d for d in decls if d.name not in alias]
        for d in decls:
            d.sig = real(d.sig)
            d.raw = re.sub(r"(?m)(^module _ .*$|^  .* : .*$)", lambda m: real(m[0]), d.raw)
    turn = Turn(fn, path)
    invariants, answers = [], []
    # navigation
    rest = []
    changed = True
    todo = list(decls)
    for d in todo:
        if d.name and "tie." in d.sig and len(arrows(d.sig)) == 2 and d.mods.strip() in ("abbrev", "abbrev pub", "pub abbrev", ""):
            ps, res = params(d.sig)
            a, b = turn.place_of(ps[0][1]), turn.place_of(res)
            if a is not None and b is not None:
                turn.navs[d.name] = (a, b)
                continue
            if re.match(PLACE, res.strip()) and b is None:
                report.append(f"{path}: unknown place in {d.name}: {d.sig}")
        rest.append(d)
    # the spec: which answers stand for which need
    spec = [d for d in rest if d.name and "tie.spec" in "".join(d.clauses)]
    inline = {}
    need_of = {}
    if spec:
        s = spec[-1]
        rest.remove(s)
        args = spec_args("".join(s.clauses))
        invs = [a for a in args if re.match(r"^(invariant|decreases)-loop", a)]
        args = [a for a in args if a not in invs]
        if len(args) == len(fn.needs):
            for a, (old, new) in zip(args, fn.needs):
                if a.startswith("("):
                    mm = re.match(r"^\(λ\s+(.*?)\.\s+(.*)\)$", a, re.S)
                    if mm and (not TRIVIAL.match(mm[2]) or (s.unfolding and not mm[2].startswith("omega"))):
                        inline[new] = (mm[1].split(), mm[2])
                else:
                    need_of[a] = new
        else:
            report.append(f"{path}: {len(args)} answers for {len(fn.needs)} goals")
            # by name
            known = {}
            for d in rest:
                mm = d.name and re.match(r"^tie\.Need-(\S+)", d.sig)
                if mm:
                    k = fn.need(mm[1])
                    if k is not None:
                        known[d.name] = k
            # gaps between anchors of equal length
            pos = [(i, known[a]) for i, a in enumerate(args) if a in known]
            pos = [(-1, -1)] + pos + [(len(args), len(fn.needs))]
            for (i0, k0), (i1, k1) in zip(pos, pos[1:]):
                for i in range(i0 + 1, i1):
                    a = args[i]
                    if i1 - i0 == k1 - k0:
                        new = fn.needs[k0 + i - i0][1]
                    else:
                        new = None
                    if a.startswith("("):
                        mm = re.match(r"^\(λ\s+(.*?)\.\s+(.*)\)$", a, re.S)
                        if mm and not TRIVIAL.match(mm[2]):
                            if new:
                                inline[new] = (mm[1].split(), mm[2])
                            else:
                                report.append(f"{path}: inline answer not placed: {a[:150]}")
                    elif new:
                        need_of[a] = new
            for a, k in known.items():
                need_of[a] = fn.needs[k][1]
    gone = set()
    for d in rest:
        mm = d.name and re.match(r"^tie\.Need-(\S+)", d.sig)
        if mm and d.name not in need_of:
            k = fn.need(mm[1])
            if k is not None:
                need_of[d.name] = fn.needs[k][1]
            else:
                if "same-length" not in d.sig and "same_length" not in d.sig:
                    report.append(f"{path}: no goal for {d.name} : {d.sig}")
                gone.add(d.name)
    asked = {b: a for (a0, b), (_, a) in zip(fn.needs, fn.asked)}
    turn.rename = {a: b for a, b in need_of.items() if a != b}
    lets = set()

    def goal_place(new):
        return fn.newname.index(asked[new]) if asked[new] in fn.newname else None

    # lemmas over records become typed lets of the answers that use them
    def macro(name, unfolding, sig, clauses, param, place, members):
        if len(clauses) != 1:
            report.append(f"{path}: lemma {name} has {len(clauses)} clauses")
        pats, body = split_clause(clauses[0])
        turn.macros[name] = {"place": place, "param": param, "sig": sig, "names": pats.split(), "body": body, "members": members, "unfolding": unfolding}

    more = []
    for d in rest:
        if d.name is None:
            m = re.match(r"^module _ \((\S+) : (tie\.[^()]*)\) where\n(.*)$", d.raw, re.S)
            if m and turn.place_of(m[2]) is not None:
                inner = re.sub(r"^  ", "", m[3], flags=re.M)
                _, _, ds = parse(inner)
                names = {x.name for x in ds}
                turn.members |= names
                for x in ds:
                    b = turn.place_of(x.sig)
                    if b is not None:
                        turn.navs[x.name] = (turn.place_of(m[2]), b)
                        turn.inner[x.name] = b
                        continue
                    macro(x.name, x.unfolding, x.sig, x.clauses, m[1], turn.place_of(m[2]), names)
                continue
            more.append(d)
            continue
        if d.name in need_of or not d.clauses or re.match(r"^tie\.(Need|invariant|decreases)", d.sig) or "tie." not in d.sig:
            more.append(d)
            continue
        ps, res = params(d.sig)
        recs = [(k, n, turn.place_of(ty)) for k, (n, ty, imp) in enumerate(ps) if turn.place_of(ty) is not None]
        if len(recs) != 1 or recs[0][0] != 0:
            report.append(f"{path}: lemma {d.name} not understood: {d.sig[:120]}")
            more.append(d)
            continue
        pats, body = split_clause(d.clauses[0])
        cut, depth = None, 0
        for m in re.finditer(r"[(\[{]|[)\]}]|→", d.sig):
            if m[0] == "→":
                if depth == 0:
                    cut = m.end()
                    break
            elif m[0] in "([{":
                depth += 1
            else:
                depth -= 1
        first, after = d.sig[:cut - 1].strip(), d.sig[cut:].strip()
        m = re.match(r"^\([^\s()]+ : tie\.[^()]*\)\s*(\S.*)$", first, re.S)
        if m:
            after = m[1] + " → " + after
        macro(d.name, d.unfolding, after, d.clauses, recs[0][1], recs[0][2], set())
        turn.macros[d.name]["first"] = turn.macros[d.name]["names"].pop(0)
    rest = more

    def clause_env(pats, ps):
        """Names of the record parameters of a clause."""
        explicit = [q for q in ps if not q[2]]
        toks = [p for p in pats.split() if not p.startswith("{")]
        env = {}
        for (n, ty, imp), pat in zip(explicit, toks):
            pl = turn.place_of(ty)
            if pl is not None:
                env[pat] = ("rec", (pat, pl), pl)
        return env

    def words(text):
        return {x.split(".")[0] for x in TOK.findall(text)}

    def needed_macros(text, got, env, inside=()):
        turn.used = set()
        n = len(report)
        turn.text(text, env, None)
        del report[n:]
        for w in sorted(turn.used | (words(text) & set(inside))):
            if w not in got and w in turn.macros:
                m = turn.macros[w]
                var = list(env)[0]
                root = env[var][1]
                e2 = {x: ("rec", root, m["place"]) for x in (m["param"], m.get("first")) if x}
                if m["members"]:
                    e2.update({x: ("rec", root, q) for x, q in turn.inner.items()})
                needed_macros(m["sig"] + " " + m["body"], got, e2 or env, m["members"])
                got.append(w)
        return got

    def prelude(body, var, pl, need):
        """The typed lets for the lemmas that a body uses."""
        lines = []
        unf = []
        got = needed_macros(body, [], {var: ("rec", (var, pl), pl)})
        for w in got:
            m = turn.macros[w]
            envs = {}
            if m["param"]:
                envs[m["param"]] = ("rec", (var, pl), m["place"])
            envb = dict(envs)
            if m.get("first"):
                envb = {m["first"]: ("rec", (var, pl), m["place"])}
            if m["members"]:
                for x, q in turn.inner.items():
                    envs.setdefault(x, ("rec", (var, pl), q))
                    envb.setdefault(x, ("rec", (var, pl), q))
            sig = turn.text(m["sig"], envs, need)
            b = turn.text(m["body"], envb, need)
            lam = f"λ {' '.join(m['names'])}. " if m["names"] else ""
            sep = "\n" if b.startswith(" ") else " "
            b = "\n".join("    " + x if k and x.strip() else x for k, x in enumerate(b.split("\n"))) if sep == " " else "\n".join("    " + x for x in b.split("\n"))
            lines.append(f"let {w} : {' '.join(sig.split())} = {lam}{b.strip() if sep == ' ' else chr(10) + b} in")
            if m["unfolding"]:
                unf += m["unfolding"].split()[1:]
        return lines, unf

    out_inv, out_ans, helpers = [], [], []
    for d in rest:
        if d.name in gone:
            continue
        if not d.name and d.raw.strip() in (")", "]", "}"):
            continue
        if not d.name:
            out_ans.append((d.comment, d.raw))
            if "tie." in d.raw:
                report.append(f"{path}: a block cites tie: {d.raw[:80]}")
            continue
        m = re.match(r"^tie\.(invariant|decreases)-loop(\S*)", d.sig)
        if m:
            k = int(re.sub(r"\D", "", m[2]) or "1") - 1
            labels = [norm(l[0][0]) for l in fn.loops]
            want = norm("loop" + m[2])
            k = labels.index(want) if want in labels else k
            (old, new), vars_ = fn.loops[k]
            flags = fn.changed[k]
            pats, body = split_clause(d.clauses[0])
            names = pats.split()
            target = [("initial." + v) if f else v for v, f in zip(vars_, flags)] + [v for v, f in zip(vars_, flags) if f]
            if len(names) != len(target):
                report.append(f"{path}: invariant has {len(names)} parameters for {len(target)}: {names} {target}")
            sub = dict(zip(names, target))
            T = TOK.findall(body)
            clash = False
            for q in range(len(T) - 1):
                if T[q] == "λ" or (T[q] == "(" and ":" in T[q:q + 6]):
                    for z in T[q + 1:q + 6]:
                        if z.rstrip(".") in sub and ("λ" == T[q] or ":" in T[q:q + 6][T[q:q + 6].index(z):]):
                            clash = clash or z.rstrip(".") in sub
            b = []
            for t in T:
                parts = t.split(".")
                if parts[0] in sub and not t.endswith("."):
                    b.append(".".join(["l", sub[parts[0]]] + parts[1:]))
                else:
                    b.append(t)
            if clash:
                report.append(f"{path}: a binder in the invariant may hide a variable: {body[:100]}")
            kind = m[1] + "-" + new
            line = f"abbrev pub {kind} : goal.{kind}\n" + (d.unfolding + "\n" if d.unfolding else "") + f"{kind} l = " + "".join(b).strip()
            if "\n" in body and body.startswith(" "):
                line = f"abbrev pub {kind} : goal.{kind}\n{kind} l =\n" + "".join(b)
            out_inv.append((d.comment, line))
            continue
        if d.name in need_of:
            new = need_of[d.name]
            if new.startswith("shape_of-"):
                continue
            pl = goal_place(new)
            lines = []
            trivial = True
            extra_unf = []
            for c in d.clauses:
                pats, body = split_clause(c)
                toks = pats.split()
                var = toks[0]
                toks = [x for x in toks if x != "κs"]
                env = {var: ("rec", (var, pl), pl)} if pl is not None else {}
                lets, unf = prelude(body, var, pl, new)
                extra_unf += unf
                b = with_lets(lets, turn.text(body, env, new))
                body = b
                if not TRIVIAL.match(b) or d.unfolding:
                    trivial = False
                sep = "\n" if body.startswith(" ") else " "
                lines.append(f"{new} {' '.join(toks)} =" + sep + (b if sep == "\n" else b.strip()))
            if trivial:
                continue
            unfolding = d.unfolding
            if extra_unf:
                unfolding = " ".join([unfolding or "unfolding"] + [u for u in extra_unf if u not in unfolding.split()])
            out_ans.append((d.comment, f"pub {new} : goal.{new}\n" + (unfolding + "\n" if unfolding else "") + "\n".join(lines)))
            continue
        # a lemma
        sig = d.sig
        ps, res = params(sig)
        env_sig = {}
        for n, ty, imp in ps:
            pl = turn.place_of(ty)
            if n and pl is not None:
                env_sig[n] = ("rec", (n, pl), pl)
        if "tie." in sig:
            sig = turn.text(sig, env_sig, None)
            sig = re.sub(PLACE + r"(?: invariant-loop\S* decreases-loop\S*)*", lambda q: "goal." + fn.newname[fn.index[norm(q[1])]], sig)
        lines = []
        for c in d.clauses:
            pats, body = split_clause(c)
            env = clause_env(pats, ps)
            b = turn.text(body, env, None)
            sep = "\n" if body.startswith(" ") else " "
            lines.append(f"{d.name}{' ' if pats else ''}{pats} =" + sep + (b if sep == "\n" else b.strip()))
        out_ans.append((d.comment, f"{d.mods}{d.name} : {sig}\n" + (d.unfolding + "\n" if d.unfolding else "") + "\n".join(lines)))
    for new, (vars_, body) in inline.items():
        if new.startswith("shape_of-"):
            continue
        pl = goal_place(new)
        toks = [x for x in vars_ if x != "κs"]
        env = {vars_[0]: ("rec", (vars_[0], pl), pl)} if pl is not None else {}
        lets, unf = prelude(body, vars_[0], pl, new)
        b = with_lets(lets, turn.text(body, env, new))
        if TRIVIAL.match(b) and not spec[-1].unfolding:
            continue
        unf = spec[-1].unfolding.split()[1:] + unf if not TRIVIAL.match(b) or "omega" not in b else unf
        sep = "\n" if b.startswith(" ") else " "
        u = "unfolding " + " ".join(unf) + "\n" if unf else ""
        out_ans.append(("", f"pub {new} : goal.{new}\n{u}{new} {' '.join(toks)} ={sep}{b if sep == chr(10) else b.strip()}"))
    keep = []
    for u in uses:
        if re.search(r"\.(Statement|Tie)(\.|\b)", u) and module in u:
            continue
        u = re.sub(r"\{needs\}", "{rules}", u)
        u = re.sub(r"(?<=[{ ])needs(?=[,}])", "rules", u)
        keep.append(u)
    imports = "\n".join(keep)
    base = f"Rattle.{crate}.proofs.{module}"

    def needed(u, body):
        m = re.match(r"^(pub )?use (\S+?)\.\{(.*)\}$", u, re.S)
        if not m:
            return u
        names = [n.strip() for n in m[3].split(",") if n.strip()]
        got = []
        for n in names:
            shown = n.split(" as ")[-1]
            if "◌" in shown:
                op = [x for x in shown.split("◌") if x]
                ok = all(x in body for x in op)
            else:
                ok = re.search(r"(?<![^\s(){}\[\];,])" + re.escape(shown) + r"(?![^\s(){}\[\];,.])", body) is not None
            if ok:
                got.append(n)
        return f"{m[1] or ''}use {m[2]}.{{{', '.join(got)}}}" if got else None

    moved_names = []

    def emit(name, items, link):
        body = "\n\n".join((c + "\n" if c else "") + t for c, t in items)
        us = [x for x in (needed(u, body) for u in keep if not (name == "Invariants.antt" and ".Invariants." in u)) if x]
        us.append(f"use {base}.{link} as goal")
        head = top if top else ""
        open(os.path.join(folder, name), "w", encoding="utf-8").write((head + "\n" if head else "") + "\n".join(us) + "\n\n" + body + "\n")

    # definitions that the invariants use stand beside them
    moved = []
    inv_text = " ".join(x for _, x in out_inv)
    again = bool(out_inv)
    while again:
        again = False
        for item in list(out_ans):
            m = re.match(r"^((?:abbrev |unfoldable |pub )*)([^\s:]+) : (?!goal\.)", item[1])
            if m and m[2] in words(inv_text) and "goal." not in item[1]:
                out_ans.remove(item)
                mods = m[1] if "pub" in m[1] else m[1] + "pub "
                moved.insert(0, (item[0], mods + item[1][len(m[1]):]))
                moved_names.append(m[2])
                inv_text += " " + item[1]
                again = True
    if moved:
        keep.append(f"use {base}.Invariants.{{{', '.join(moved_names)}}}")
    out_inv = moved + out_inv
    os.remove(proof)
    if out_inv:
        emit("Invariants.antt", out_inv, "Given")
    real = [x for x in out_ans]
    if any("goal." in t for _, t in real) or real:
        if not any(t.startswith("pub ") and "goal." in t.split("\n")[0] for _, t in real):
            report.append(f"{path}: only lemmas are left, dropped: {[t.split(chr(10))[0][:60] for _, t in real]}")
        else:
            emit("Answers.antt", real, "Goals")


if __name__ == "__main__":
    main()
