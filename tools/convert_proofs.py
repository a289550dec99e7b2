#!/usr/bin/env python3
"""Turns a crate's Proof.antt files, which name each goal by `tie` or by a cycle's `Lts`, into Invariants.antt and Answers.antt.

    convert_proofs.py CRATE_FOLDER NAMES_JSON [FUNCTION_FOLDER..]

NAMES_JSON is what `rt check --generated DIR --old-names` writes: each goal's and each step's old and new name.
Answers that only say `search rules` are left out: the check finds those alone.
"""
import json
import os
import re
import sys

NAME = r"[^\s(){}.;,@\"«»\[\]\\λ]+"


def norm(s):
    return s.replace("_", "-").lower()


def chunks(text):
    out = []
    for line in text.split("\n"):
        if line and not line[0].isspace() and not (line[0] in ")]}" ):
            out.append([line])
        elif out:
            out[-1].append(line)
        else:
            out.append([line])
    return ["\n".join(c).rstrip() for c in out]


class Function:
    def __init__(self, d):
        self.stem = d["stem"]
        self.needs = {norm(a): b for a, b in d["needs"]}
        self.order = [b for a, b in d["needs"]]
        self.steps = {}
        for p in d["places"]:
            old, new = p[2]
            if old:
                self.steps.setdefault(norm(old), new)
        self.loops = []
        for (names, vs), ch in zip(d["loops"], d["changed"]):
            self.loops.append((names[0], names[1], vs, ch))
        self.params = None


def tokens_sub(body, table):
    if not table:
        return body
    pat = re.compile(r"(?<![\w.₀′'·-])(" + "|".join(sorted((re.escape(k) for k in table), key=len, reverse=True)) + r")(?![\w₀′'-])")
    return pat.sub(lambda m: table[m.group(1)], body)


def chain(body, f, warn, base="c"):
    body = re.sub(r"(?:\.before)+(?![\w-])", "", body)
    body = re.sub(r"\((c)\)", r"\1", body)
    aliases = {base}
    # let X = ALIAS in
    changed = True
    while changed:
        changed = False
        for m in re.finditer(r"let (" + NAME + r") = (" + NAME + r")\s+in\b", body):
            if m.group(2) in aliases and m.group(1) not in aliases:
                aliases.add(m.group(1))
                changed = True
    # the aliases are all c now
    for a in sorted(aliases - {base}):
        body = re.sub(r"let " + re.escape(a) + r" = " + NAME + r"\s+in\b[ \t]*\n?[ \t]*", "", body, count=0) if True else body
    table = {a: base for a in aliases - {base}}
    if table:
        pat = re.compile(r"(?<![\w.₀′'·-])(" + "|".join(sorted((re.escape(k) for k in table), key=len, reverse=True)) + r")(?![\w₀′'-])")
        body = pat.sub(base, body)

    def step(m):
        s = m.group(2)
        n = f.steps.get(norm(s)) or f.steps.get(re.sub("_lem$", "", norm(s))) or f.steps.get(re.sub("-lem$", "", norm(s))) or f.steps.get(re.sub(r"-(?=\d+$)", "", norm(s)))
        if n is None:
            if s not in ("args", "requires", "ranges", "auto", "lifetimes", "well-formed", "well_formed", "type_inv", "utf8"):
                warn(f"step {s}?")
            return m.group(0)
        return m.group(1) + "." + n

    body = re.sub(r"(?<![\w.₀′'·-])(" + re.escape(base) + r")\.(" + NAME + r")", step, body)
    return body


def convert(crate, path, names, folder):
    text = open(path).read()
    parts = os.path.dirname(path) + "/Proof"
    if os.path.isdir(parts):
        text = re.sub(r"(?m)^mod \w+\n", "", text)
        for p in sorted(os.listdir(parts), key=lambda p: p != "Shared.antt"):
            text = text.rstrip() + "\n\n" + open(f"{parts}/{p}").read()
            os.remove(f"{parts}/{p}")
        os.rmdir(parts)
    warns = []
    warn = lambda s: warns.append(s)
    cs = chunks(text)
    fs = {}
    rel = os.path.relpath(os.path.dirname(path), folder + "/proofs").replace("/", ".")
    for k, d in names.items():
        m = re.match(r"Rattle-" + crate + r"-proofs\." + re.escape(rel) + r"\.Lts(-.*)?$", k)
        if m:
            fs[(m.group(1) or "")[1:]] = Function(d)
            fs[(m.group(1) or "")[1:]].raw = d
    if not fs:
        return [f"{path}: no names"]
    cycle = "" not in fs
    header = []
    i = 0
    while i < len(cs) and cs[i].startswith("--"):
        header.append(cs[i])
        i += 1
    uses = list(dict.fromkeys(re.sub("^pub ", "", c) for c in cs if c.startswith("use ") or c.startswith("pub use ")))
    rest = [c for c in cs[i:] if not (c.startswith("use ") or c.startswith("pub use "))]
    # group signature, unfolding, clauses
    decls = []
    pending = []
    for c in rest:
        if not c.strip():
            continue
        if c.startswith("--"):
            pending.append(c)
            continue
        first = c.split("\n")[0]
        m = re.match(r"^((?:(?:pub|abbrev|unfoldable|opaque)\s+)*)(" + NAME + r") :(?:\s|$)", c)
        if m:
            decls.append({"name": m.group(2), "mods": m.group(1), "sig": c, "unf": [], "body": [], "com": pending})
            pending = []
        elif re.match(r"^(?:(?:pub|abbrev|unfoldable|opaque)\s+)*(record|data|module|mutual|ruleset)(?=\s)", c):
            decls.append({"name": None, "mods": "", "sig": c, "unf": [], "body": [], "com": pending})
            pending = []
        elif c.startswith("unfolding ") and decls:
            decls[-1]["unf"].append(c)
        elif decls:
            decls[-1]["body"].append(c)
        else:
            warn("stray: " + first)
    goals, invs, helpers, final = [], [], [], None
    rename = {}
    for d in decls:
        n = d["name"]
        sig = d["sig"]
        d["kind"] = "helper"
        if n is None:
            continue
        if re.search(r"→ statement M", sig) or n.endswith("-spec") or n.endswith("_spec"):
            d["kind"] = "final"
            continue
        f, member = None, ""
        if not cycle:
            f = fs[""]
        else:
            for k in sorted(fs, key=len, reverse=True):
                q = norm(k)
                if norm(n).startswith(q + "-") or norm(n) == "μ-" + q:
                    f, member = fs[k], k
                    break
        d["f"], d["member"] = f, member
        mt = re.search(r"(?<![\w.-])(?:tie|" + NAME + r"-lts|lts)\.(Need-[^\s()]+|invariant-[^\s()]+|decreases-[^\s()]+|Claims|claims)", sig)
        if cycle and n.startswith("μ-"):
            d["kind"] = "measure"
            continue
        if not mt:
            if cycle and (norm(n).endswith("-at") or norm(n).endswith("-below") or norm(n).endswith("-claims")) and re.search(r"In \d+|In 0|Claims|→ In", sig):
                d["kind"] = "drop"
            continue
        what = mt.group(1)
        if what in ("Claims", "claims"):
            d["kind"] = "drop"
            continue
        if what.startswith("invariant-") or what.startswith("decreases-"):
            d["kind"] = "inv"
            d["what"] = what
            continue
        old = norm(what[len("Need-"):])
        local = norm(n)
        if member and local.startswith(norm(member) + "-"):
            local = local[len(member) + 1:]
        new = f.needs.get(local) or f.needs.get(old)
        if new is None:
            # by the new name itself
            for b in f.order:
                if norm(b) == old:
                    new = b
        if new is None:
            d["kind"] = "gone"
            body = "\n".join(d["body"])
            if not re.search(r"=\s*search rules\s*$", body):
                warn(f"gone: {n}: {body[:200]}")
            continue
        d["kind"] = "need"
        # (the stem of a cycle's member stands before)
        stem = f.stem if cycle and len(fs) >= 1 else ""
        if stem and not new.startswith(stem):
            new = stem + new
        d["new"] = new
        rename[n] = new

    ans, inv = [], []
    used_local = set()
    loops_of = lambda d: d["f"].loops
    for d in decls:
        if d["kind"] in ("final", "drop", "gone"):
            continue
        if d["kind"] == "measure":
            f = d["f"]
            body = "\n".join(d["body"])
            m = re.match(r"(?:abbrev )?" + re.escape(d["name"]) + r"\s+(.*?)\s*=\s*(.*)$", body, re.S)
            args = m.group(1).split()
            a = args[-1]
            params = names.get("__params__", {}).get(d["member"])
            def par(mm):
                k = mm.group(1).count(".1")
                if params is None or k >= len(params):
                    warn(f"measure {d['name']}: {mm.group(0)}")
                    return mm.group(0)
                return "l." + params[k]
            t = re.sub(r"(?<![\w.])" + re.escape(a) + r"((?:\.1)*)\.0(?![\w])", par, m.group(2))
            inv.append(f"abbrev pub decreases-{d['member']} : goal.decreases-{d['member']}\ndecreases-{d['member']} l = {t}")
            continue
        if d["kind"] == "inv":
            f = d["f"]
            what = d["what"]
            kind, loop = what.split("-", 1)
            cand = [x for x in f.loops if norm(x[0]) == norm(loop) or norm(x[1]) == norm(loop)]
            if not cand:
                warn(f"loop {loop}?")
                continue
            _, new, vs, ch = cand[0]
            body = "\n".join(d["body"])
            m = re.match(re.escape(d["name"]) + r"\s+(.*?)\s*=\s(.*)$", body, re.S)
            args = m.group(1).split()
            expect = len(vs) + sum(ch)
            stem = f.stem if cycle else ""
            nn = f"{kind}-{stem}{new}"
            if len(args) != expect:
                warn(f"{nn}: {len(args)} args, {expect} expected: {args} {vs} {ch}")
            table = {}
            for k, (v, c) in enumerate(zip(vs, ch)):
                if k < len(args):
                    table[args[k]] = ("l.initial." if c else "l.") + v
            k = len(args) - sum(ch)
            for v, c in zip(vs, ch):
                if c:
                    table[args[k]] = "l." + v
                    k += 1
            table.pop("_", None)
            b = tokens_sub(m.group(2), table)
            unf = "".join(u + "\n" for u in d["unf"])
            inv.append("".join(c + "\n" for c in d["com"]) + f"abbrev pub {nn} : goal.{nn}\n{unf}{nn} l = {b}")
            continue
        if d["kind"] == "need":
            f = d["f"]
            body = "\n".join(d["body"])
            m = re.match(re.escape(d["name"]) + r"\s*(.*?)\s*=(?: |(?=\n))(.*)$", body, re.S)
            if not m:
                warn(f"by clauses: {d['name']}: {body[:300]}")
                continue
            args = m.group(1).split()
            b = m.group(2)
            if re.match(r"^\s*search rules\s*$", b):
                continue
            cvar = None
            for a in args:
                if a.startswith("κ"):
                    continue
                cvar = a
            if cycle:
                rest_args = [a for a in args if not a.startswith("κ")]
                cvar = rest_args[-1]
            b = chain(b, f, lambda s: warn(f"{d['new']}: {s}"), cvar or "c")
            for u, v in rename.items():
                b = re.sub(r"(?<![\w.₀′'·-])" + re.escape(u) + r"(?![\w₀′'-])", lambda _: v, b)
            new_args = [a for a in args if not a.startswith("κ")]
            if any(a.startswith("κ") and re.search(r"(?<![\w])" + a + r"(?![\w])", b) for a in args):
                warn(f"{d['new']}: uses κs")
            unf = "".join(u + "\n" for u in d["unf"])
            com = "".join(c + "\n" for c in d["com"])
            sep = "\n" if m.group(2).startswith("\n") else " "
            ans.append((d["new"], com + f"pub {d['new']} : goal.{d['new']}\n{unf}{d['new']} {' '.join(new_args)} =" + ("" if b.startswith("\n") else " ") + b))
            continue
        # helper
        t = "".join(c + "\n" for c in d["com"]) + "\n".join([d["sig"], *d["unf"], *d["body"]])
        if re.search(r"(?<![\w.-])(tie|[\w-]*lts)\.", t):
            warn(f"helper {d['name']} cites generated names")
        helpers.append((d["name"], t))
    where = f"Rattle.{crate}.proofs.{rel}"
    keep = []
    for u in uses:
        if re.search(r"\.(Statement|Tie|Reads|Kinds|Lts[^\s.]*)(\.\{|\s|$)", u) or re.search(r"\.\{statement\}|PlainCycle|Fn\.Kinds", u):
            continue
        keep.append(u)
    inv_text = "\n\n".join(inv)
    help_inv = [t for n, t in helpers if n and re.search(r"(?<![\w.-])" + re.escape(n) + r"(?![\w-])", inv_text)]
    help_ans = [t for n, t in helpers if t not in help_inv]
    body_ans = "\n\n".join(help_ans + [t for _, t in ans])
    shared = [n for n, t in helpers if t in help_inv and re.search(r"(?<![\w.-])" + re.escape(n) + r"(?![\w-])", body_ans)]
    out = os.path.dirname(path)

    def used(us, body):
        kept = []
        for u in us:
            m = re.match(r"(use \S+?)\.\{([^}]*)\}$", u)
            if m:
                items = [x.strip() for x in m.group(2).split(",")]
                ok = []
                for it in items:
                    n = it.split(" as ")[-1].strip()
                    core = n.strip("◌")
                    if "◌" in n:
                        parts = [p for p in n.split("◌") if p]
                        if all(p in body for p in parts):
                            ok.append(it)
                    elif re.search(r"(?<![\w.-])" + re.escape(n) + r"(?![\w'-])", body) or n in body:
                        ok.append(it)
                if ok:
                    kept.append(m.group(1) + ".{" + ", ".join(ok) + "}")
            else:
                m = re.match(r"use \S+ as (\S+)$", u)
                if not m or re.search(r"(?<![\w.-])" + re.escape(m.group(1)) + r"\.", body):
                    kept.append(u)
        return kept

    head = "\n".join(header)
    wrote = False
    if inv:
        body = "\n\n".join(help_inv + inv)
        t = (head + "\n" if head else "") + "\n".join(used(keep, body) + [f"use {where}.Given as goal"]) + "\n\n" + body + "\n"
        for n in shared:
            t = re.sub(r"(?m)^((?:abbrev |unfoldable )*)(" + re.escape(n) + r") :", r"\1pub \2 :", t)
        open(out + "/Invariants.antt", "w").write(t)
        wrote = True
    if ans:
        u = used(keep, body_ans) + [f"use {where}.Goals as goal"]
        if shared:
            u.insert(0, f"use {where}.Invariants.{{{', '.join(shared)}}}")
        t = (head + "\n" if head and not wrote else "") + "\n".join(u) + "\n\n" + body_ans + "\n"
        open(out + "/Answers.antt", "w").write(t)
    if os.path.exists(path):
        os.remove(path)
    return [f"{path}: {w}" for w in warns]


def params_of(folder):
    """Parameter names of each function of src/."""
    out = {}
    for f in os.listdir(folder + "/src"):
        if f.endswith(".rt"):
            t = open(f"{folder}/src/{f}").read()
            for m in re.finditer(r"\bfn (\w+)(?:<[^>]*>)?\s*\(", t):
                k = m.end()
                depth, j = 1, k
                while depth:
                    depth += {"(": 1, ")": -1, "[": 1, "]": -1, "<": 0}.get(t[j], 0)
                    j += 1
                inner = re.sub(r"//[^\n]*", "", t[k:j - 1])
                ps = re.findall(r"(?:^|,)\s*(?:mut )?(\w+)\s*:", inner)
                out[m.group(1)] = ps
    return out


def main():
    folder, js = sys.argv[1].rstrip("/"), sys.argv[2]
    crate = os.path.basename(folder)
    names = json.load(open(js))
    names["__params__"] = params_of(folder)
    only = set(sys.argv[3:])
    for d, dirs, files in os.walk(folder + "/proofs"):
        dirs.sort()
        if "Proof.antt" in files:
            if only and os.path.basename(d) not in only:
                continue
            for w in convert(crate, d + "/Proof.antt", names, folder):
                print(w)


if __name__ == "__main__":
    main()
