#!/usr/bin/env python3
"""Turns the proof of a cycle of calls, proofs/+X/Proof.antt, with answers.py: usage: cycles.py PROOF OUTFOLDER CRATE MODULE NAMES.json FN:LTS[:PREFIX].."""
import json, os, re, sys, tempfile
sys.path.insert(0, os.path.dirname(os.path.abspath(__file__)))
import answers as A

proof, outdir, crate, module, names = sys.argv[1:6]
fns = [x.split(":") for x in sys.argv[6:]]
data = json.load(open(names))
text = open(proof, encoding="utf-8").read()
# drop the final statement
text = text[:text.rindex("\npub +")] + "\n"
cs = A.chunks(text)
uses = [c for c in cs if c.startswith("use ")]
# dedent sections over t
out = []
for c in cs:
    if c.startswith("module _ (t : ℕ) where"):
        out.append(re.sub(r"^  ", "", c[c.index("\n") + 1:], flags=re.M))
    else:
        out.append(c)
text = "\n".join(out)
allans, allinv = [], []
for fn, lts, *rest in fns:
    prefix = (rest[0] + "-") if rest else ""
    t = text
    # what belongs to this function: its own lts alias
    t = re.sub(re.escape(lts) + r"\.([^\s()]+)((?: \((?:called|asked)[^()]*\)| asked| \(\w+ t\)| [\w.]*Post| invariant-loop| decreases-loop)*)", r"tie.\1", t)
    others = [l for f, l, *r in fns if l != lts]
    top, us, decls = A.parse(t)
    # type aliases
    alias = {}
    for d in decls:
        if d.name and d.sig.strip() == "Type 0" and d.clauses:
            _, b = A.split_clause(d.clauses[0])
            if re.match(r"^tie\.", b.strip()):
                alias[d.name] = b.strip()
    foreign = set()
    keep = []
    for d in decls:
        body = d.sig + " " + " ".join(d.clauses) + d.raw
        if d.name in alias or (d.name and re.match(r"^(μ|called$|asked$)|.*_(at|below)$|^(at|below)$", d.name) and ("In 2" in d.sig or "Measures" in d.sig or "Claims" in d.sig)):
            continue
        if d.name and "Claims" in d.sig or (d.name and re.search(r"\bIn 2\b|Measures", d.sig)):
            continue
        if any(o + "." in body for o in others) or any(re.search(r"(?<![\w-])" + re.escape(f) + r"(?![\w-])", body) for f in foreign):
            if d.name:
                foreign.add(d.name)
            else:
                foreign |= set(re.findall(r"^  (?:abbrev )?([^\s:]+) :", d.raw, re.M))
            continue
        keep.append(d)
    src = []
    for d in keep:
        if d.comment:
            src.append(d.comment)
        if d.name:
            src.append(f"{d.mods}{d.name} : {d.sig}" + ("\n" + d.unfolding if d.unfolding else "") + "\n" + "\n".join(d.name + c for c in d.clauses))
        else:
            src.append(d.raw)
        src.append("")
    s = "\n".join(src)
    for a, b in sorted(alias.items(), key=lambda x: -len(x[0])):
        s = re.sub(r"(?<![^\s()])" + re.escape(a) + r"(?![^\s()])", lambda _: b, s)
    head = [u for u in us if not re.search(r"\.(Reads|Kinds|Tie|PlainCycle|Lts-\S+)( as|\.|$)|\+\S+\.\{statement\}|Kinds\.\{In\}", u)]
    tmp = tempfile.mkdtemp(prefix=f"cycle-{fn}-")
    pf = os.path.join(tmp, "Proof.antt")
    open(pf, "w", encoding="utf-8").write(top + "\n" + "\n".join(head) + "\n\n" + s + "\n")
    key = [k for k in data if k.endswith(f".Lts-{fn}") and module in k][0]
    f = A.Fn(data[key])
    A.report.clear()
    for x in ("Answers.antt", "Invariants.antt"):
        if os.path.exists(os.path.join(tmp, x)):
            os.remove(os.path.join(tmp, x))
    A.one(crate, module, tmp, pf, f, module)
    print(fn, tmp, *A.report, sep="\n  ")
    for x in ("Answers.antt", "Invariants.antt"):
        p = os.path.join(tmp, x)
        if os.path.exists(p):
            u = open(p, encoding="utf-8").read()
            # the measure's value, the prefix and the parts of the premises
            u = re.sub(r"\bc\.requires\.1\.(?=\d)", "c.REQ.", u)
            u = re.sub(r"\bc\.requires\.1\b", "c.REQ", u)
            u = re.sub(r"\bc\.requires\.0\b", "c.decreases", u).replace("c.REQ", "c.requires")
            if x == "Answers.antt":
                names_ = re.findall(r"^pub (\S+) : goal\.", u, re.M)
                for n in sorted(names_, key=lambda z: -len(z)):
                    u = re.sub(r"^pub " + re.escape(n) + r" : goal\." + re.escape(n) + r"$", f"pub {prefix}{n} : goal.{prefix}{n}", u, flags=re.M)
                    u = re.sub(r"^" + re.escape(n) + r" (.*)=", lambda m: f"{prefix}{n} t {m[1]}=", u, count=1, flags=re.M)
            elif prefix:
                u = re.sub(r"(?<![\w.-])(invariant|decreases)-loop", rf"\1-{prefix}loop", u)
                u = re.sub(r"goal\.(invariant|decreases)-loop", rf"goal.\1-{prefix}loop", u)
            open(p, "w", encoding="utf-8").write(u)
