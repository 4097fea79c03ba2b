#!/usr/bin/env python3
"""Turns proofs in the older form (Proof.antt, closed by `tie.close`) into Invariants.antt and Answers.antt.

    rt check --generated FOLDER --old-names        in the crate's folder; writes FOLDER/names.json, where the crates below prove
    python3 ../../tools/turn_proofs.py FOLDER/names.json [FUNCTION ..]     a function as views/descend

It goes by text: what a check then refuses is mended by hand, mostly where branches join. It says what it did not know.
"""
import glob
import json
import os
import re
import sys

W = r"[^\s(){}.;,@\"«»\[\]\\]+"
names = json.load(open(sys.argv[1]))
only = sys.argv[2:]
crate = os.path.basename(os.getcwd())
source = set()
for f in glob.glob("src/**/*.rt", recursive=True):
    source |= set(re.findall(r"\b[a-z]\w*_\w*\b", open(f).read()))

def mend(s):
    """Raw tests as plain facts, and joins of plain tests as sums."""
    for _ in range(3):
        s=re.sub(r"\((?:not|eqb|ltb)-(true|false)(?: _){1,2} (c\.[^\s()]+?\.\1)-raw\)", r"\2", s)
        s=re.sub(r"(?:not|eqb|ltb)-(true|false)(?: _){1,2} (c\.[^\s()]+?\.\1)-raw", r"\2", s)
        s=re.sub(r"\((?:eqb|ltb|not)-(true|false) \S+ \S+ (c\.[^\s()]+?\.\1)-raw\)", r"\2", s)
    s=re.sub(r"subst \((?:[^()]|\([^()]*\))*\) (c\.in[-_][^\s().]+)\.is c\.[^\s()]+?\.ensures", r"\1.ensures", s)
    out=[]
    for blk in re.split(r"(\n\n)", s):
        if "⊎_elim" in blk and ".branch" in blk:
            blk=blk.replace(".branch",".either")
            blk=re.sub(r"\bw\.1\.(taken|left)", "w.1", blk); blk=re.sub(r"\bw\.(taken|left)", "w", blk); blk=re.sub(r"\bw\.0\.(taken|left)", "w.0", blk)
            blk=re.sub(r"\((?:not|eqb|ltb)-(?:true|false) \S+ (?:\S+ )?(w(?:\.1)?)\)", r"\1", blk)
            blk=re.sub(r"(?:eqb|ltb)-(?:true|false) _ _ (w(?:\.1)?)\b", r"\1", blk)
            blk=re.sub(r"not-(?:true|false) _ (w(?:\.1)?)\b", r"\1", blk)
        out.append(blk)
    s="".join(out)
    return s


def split_defs(text):
    """uses, comments and definitions: list of (kind, name, block)"""
    lines = text.split("\n")
    uses, blocks, cur = [], [], []
    for l in lines:
        if l.startswith("use ") or l.startswith("pub use "):
            uses.append(l); continue
        if l.strip() == "":
            if cur: blocks.append(cur); cur = []
            continue
        cur.append(l)
    if cur: blocks.append(cur)
    return uses, blocks

def plain(n): return n.replace("_", "-")

def goal_name(of, need):
    """new name of an old need"""
    table = {}
    for old, new in of["needs"]:
        table[plain(old)] = new
    n = plain(need)
    for cand in (n, re.sub(r"^(overflow|nonzero)-", "", n), re.sub(r"^(slice|offset)-bounds-", "", n), re.sub(r"^slice-bounds-", "part-", n)):
        if cand in table: return table[cand]
    return None

def arms_of(of, place):
    """what the arms on the way to a place bind: (old path, new path), nearest first"""
    by = {p[0]: k for k, p in enumerate(of["places"])}
    out, seen = [], set()
    while place and place in by and place not in seen:
        seen.add(place)
        k = by[place]
        arm = of["arms"][k] if k < len(of["arms"]) else None
        if arm:
            for new, step, path in arm[2]:
                if path or new == "is":
                    out.append(([plain(step)] + [plain(x) for x in path], [arm[0], new]))
        for old, new in of["places"][k][4]:
            st = of["places"][k][2]
            if st and st[0]:
                out.append(([plain(st[0]), plain(old)], [st[1], new]))
        place = of["places"][k][1]
    return sorted(out, key=lambda x: -len(x[0]))

def chain(of, place):
    """steps from a place up: dict old step name -> new; later (nearer) wins"""
    by = {p[0]: p for p in of["places"]}
    out, seen = {}, set()
    while place and place in by and place not in seen:
        seen.add(place)
        p = by[place]
        if p[2] and p[2][0]:
            out.setdefault(plain(p[2][0]), p[2][1])
        place = p[1]
    return out

def place_of(of, need):
    n = plain(need)
    for (old, new), (pold, pnew) in zip(of["needs"], of["asked_at"]):
        if plain(old) in (n, re.sub(r"^(overflow|nonzero)-", "", n), re.sub(r"^(slice|offset)-bounds-", "", n), re.sub(r"^slice-bounds-", "part-", n)): return pold
    return None

unknown = []
def turn_paths(body, var, steps, fn, arms=()):
    def one(m):
        comps = m.group(0).split(".")[1:]
        while comps and comps[0] == "before": comps = comps[1:]
        if not comps: return var
        for old, new in arms:
            if [plain(x) for x in comps[:len(old)]] == old:
                rest = [re.sub(r"^type-inv$", "type_inv", r) for r in comps[len(old):]]
                rest = [r.replace("-", "_") if r.replace("-", "_") in source else r for r in rest]
                return ".".join([var] + new + rest)
        head, rest = comps[0], comps[1:]
        if head in ("args", "ranges", "requires", "captures", "well_formed", "given"):
            new = head
        elif plain(head) in steps:
            new = steps[plain(head)]
        elif head.endswith("_lem") and plain(head[:-4]) in steps:
            new = steps[plain(head[:-4])]
        else:
            new = head
            unknown.append((fn, head))
        rest = [re.sub(r"^type-inv$", "type_inv", r) for r in rest]
        rest = [r.replace("-", "_") if r.replace("-", "_") in source else r for r in rest]
        return ".".join([var, new] + rest)
    return re.sub(r"(?<![\w.\-])" + re.escape(var) + r"((?:\." + W + r")+)", one, body)

def unalias(body, var):
    while True:
        al = re.search(r"let (\w+) = " + re.escape(var) + r"(?:\.before)* in\s*", body)
        if not al: return body
        body = body[:al.start()] + body[al.end():]
        body = re.sub(r"(?<![\w.\-])" + al.group(1) + r"(?=[.\s)])(?! =)", var, body)

def hoist(body, var, helpers):
    """puts in what a proof's own lemmas over a place say: once, before the answer"""
    used = []
    def calls(text):
        for h, (hv, typ, hb) in helpers.items():
            pat = r"\(" + re.escape(h) + " " + re.escape(var) + r"(?:\.before)*\)|(?<![^\s(])" + re.escape(h) + " " + re.escape(var) + r"(?:\.before)*(?![\w.\-])"
            if re.search(pat, text):
                own = lambda s: re.sub(r"(?<![\w.\-])" + re.escape(hv) + r"(?=[.\s)])", var, unalias(s, hv) + " ")[:-1].strip()
                if typ is None:
                    text = re.sub(pat, lambda k: "(" + own(hb) + ")", text)
                    text = calls(text)
                else:
                    text = re.sub(pat, h, text)
                    if h not in [u[0] for u in used]:
                        used.append((h, None))
                        used[[u[0] for u in used].index(h)] = (h, (calls(own(typ)), calls(own(hb))))
        return text
    body = calls(body)
    order = list(helpers)
    lets = [(h, v) for h, v in sorted(used, key=lambda u: order.index(u[0])) if v]
    if not lets: return body
    return "\n    " + "\n    ".join("let %s : %s =\n      %s in" % (h, v[0], v[1]) for h, v in lets) + "\n    " + body.strip()

def convert(path):
    folder = os.path.dirname(path)
    fn = folder[len("proofs/"):]
    key = "Rattle-%s-proofs.%s.Lts" % (crate, fn.replace("/", "."))
    text = open(path).read()
    if "tie.close" not in text: return "walk " + fn
    of = names.get(key)
    if of is None: return "no names for " + fn
    uses, blocks = split_defs(text)
    uses = [u for u in uses if not re.search(r"\.(Statement\.\{statement\}|Tie as tie)$", u.strip())]
    inv, ans, helpers, shared = [], [], {}, []
    tags = lambda s: s
    for b in blocks:
        com = [l for l in b if l.startswith("--")]
        b = [l for l in b if not l.startswith("--")]
        while len(b) > 1 and b[1].startswith(" ") and not re.search(r" =( |$)", b[0]):
            b = [b[0] + " " + b[1].strip()] + b[2:]
        if not b: 
            ans.append("\n".join(com)); continue
        m = re.match(r"^(abbrev |pub |private )*(%s) (?:\([^)]*\) )*: ?(.*)$" % W, b[0]) or re.match(r"^(abbrev |pub |private )*(%s)(.*)$" % W, b[0])
        name, typ = m.group(2), m.group(3)
        if re.search(r"-spec$|_spec$", name) and "statement" in b[0]: continue
        mi = re.match(r"^abbrev (invariant|decreases)-(\S+) : tie\.(\S+)", b[0])
        if mi:
            old = mi.group(3)
            eq = b[1:]
            head, body = "\n".join(eq).split(" =", 1)
            params = head.split()[1:]
            kind, loop = mi.group(1), mi.group(2)
            newloop = None
            for (o, n), _vars in of["loops"]:
                if plain(o) == plain(loop): newloop = n
            nl = newloop or loop
            sub = {}
            for p in params:
                base = p[:-1] if p.endswith("₀") else p
                src = base.replace("-", "_") if base.replace("-", "_") in source else base
                sub[p] = ("l.initial." if p.endswith("₀") else "l.") + src
            body = re.sub(W, lambda k: sub.get(k.group(0), k.group(0)), body)
            inv.append("\n".join(com + ["abbrev pub %s-%s : goal.%s-%s" % (kind, nl, kind, nl), "%s-%s l =%s" % (kind, nl, body)]))
            continue
        mn = re.match(r"^(%s) : tie\.Need-(\S+?)( .*)?$" % W, b[0])
        if mn:
            need = mn.group(2)
            eq = "\n".join(b[1:])
            while eq.startswith("unfolding"):
                first, eq = eq.split("\n", 1)
                com = com + ["@" + first]
            head, body = eq.split(" =", 1)
            if body.strip() == "search rules": continue
            new = goal_name(of, need)
            if new is None:
                unknown.append((fn, "NEED " + need)); continue
            params = head.split()[1:]
            var = params[0]
            extra = [p for p in params[1:] if p != "κs"]
            steps = chain(of, place_of(of, need))
            while True:
                al = re.search(r"let (\w+) = " + re.escape(var) + r"(?:\.before)* in\s*", body)
                if not al: break
                body = body[:al.start()] + body[al.end():]
                body = re.sub(r"(?<![\w.\-])" + al.group(1) + r"(?=[.\s)])(?! =)", var, body)
            body = hoist(body, var, helpers)
            body = turn_paths(body, var, steps, fn, arms_of(of, place_of(of, need)))
            body = re.sub(r"\(not-(true|false) _ (" + re.escape(var) + r"\.\S+?\.\1)-raw\)", r"\2", body)
            body = re.sub(r"not-(true|false) _ (" + re.escape(var) + r"\.[^\s()]+?\.\1)-raw", r"\2", body)
            unf = [c[1:] for c in com if c.startswith("@")]
            com = [c for c in com if not c.startswith("@")]
            ans.append("\n".join(com + ["pub %s : goal.%s" % (new, new)] + unf + ["%s %s =%s" % (new, " ".join([var] + extra), body)]))
            continue
        mh = re.match(r"^(%s) : \((%s) : tie\.(\S+?)(?: [^)]*)?\) → (.*)$" % (W, W), b[0])
        ma = re.match(r"^(?:abbrev )?(%s) : tie\.(\S+?)(?: .*?)? → (.*)$" % W, b[0])
        if ma and not mh:
            eq = "\n".join(b[1:])
            head, body = eq.split(" =", 1)
            words = head.split()
            if len(words) > 2: body = "λ " + " ".join(words[2:]) + ". " + body.strip()
            helpers[name] = (words[1], None, body)
            continue
        if mh:
            eq = "\n".join(b[1:])
            head, body = eq.split(" =", 1)
            words = head.split()
            hv = words[1]
            if len(words) > 2: body = " λ " + " ".join(words[2:]) + ". " + body.strip()
            typ = mh.group(4)
            helpers[name] = (hv, typ, body)
            continue
        if "tie." in "\n".join(b):
            unknown.append((fn, "TIE " + b[0][:80]))
        shared.append((name, "\n".join(com + b)))
        ans.append(("shared", name, "\n".join(com + b)))
    mod = "Rattle.%s.proofs.%s" % (crate, fn.replace("/", "."))
    up, text_inv = [], "\n".join(inv)
    has = lambda n, body: re.search(r"(?<![\w\-])" + re.escape(n) + r"(?![\w\-])", body)
    for n, block in reversed(shared):
        if has(n, text_inv):
            up.insert(0, n); text_inv += block
    pubbed = lambda block: re.sub(r"^((?:--[^\n]*\n)*)(abbrev )?(?!pub )", lambda k: k.group(1) + (k.group(2) or "") + "pub ", block, count=1)
    inv = [pubbed(block) for n, block in shared if n in up] + inv
    ans = [a if isinstance(a, str) else a[2] for a in ans if isinstance(a, str) or a[1] not in up]
    if any(has(n, "\n".join(ans)) for n in up):
        uses.append("use Rattle.%s.proofs.%s.Invariants.{%s}" % (crate, fn.replace("/", "."), ", ".join(up)))
    def used(u, body):
        m = re.match(r"^(use [^{]*)\{([^}]*)\}(.*)$", u)
        if m:
            keep = []
            for n in [x.strip() for x in m.group(2).split(",")]:
                short = n.split(" as ")[-1].split(".")[-1]
                bare = [p for p in short.split("◌") if p]
                if all(re.search(r"(?<![^\s(){}.;,@\"\[\]\\])" + re.escape(p) + r"(?![^\s(){}.;,@\"\[\]\\])", body) for p in bare): keep.append(n)
            return m.group(1) + "{" + ", ".join(keep) + "}" + m.group(3) if keep else None
        m = re.search(r" as (\S+)$", u)
        return u if not m or re.search(re.escape(m.group(1)) + r"\.", body) else None
    done = []
    for what, parts, modname in (("Invariants", inv, "Given"), ("Answers", ans, "Goals")):
        if not parts or not any(not p.startswith("--") or "\n" in p for p in parts): continue
        body = mend("\n\n".join(parts))
        us = [x for x in (used(u, body) for u in uses if what == "Answers" or ".Invariants.{" not in u) if x]
        us.append("use %s.%s as goal" % (mod, modname))
        open(folder + "/" + what + ".antt", "w").write("\n".join(us) + "\n\n" + body + "\n")
        done.append(what)
    os.remove(path)
    return None

for p in sorted(glob.glob("proofs/**/Proof.antt", recursive=True)):
    fn = p[len("proofs/"):-len("/Proof.antt")]
    if only and fn not in only: continue
    try:
        r = convert(p)
    except Exception as e:
        r = "failed %s: %r" % (fn, e)
    if r: print(r)
for u in sorted(set(unknown)): print("unknown", *u)
