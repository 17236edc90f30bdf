#!/usr/bin/env python3
"""Turns an older Proof.antt (goals closed one by one) to Invariants.antt, and drafts answers.

usage: python3 tools/turn_proofs.py NAMES.json CRATE DRAFTS     at the top of the repository
NAMES.json: what `rt check --generated DIR --old-names` writes in CRATE's folder while its Proof.antt files are away (renamed to Proof.antt.txt).
For each Proof.antt.txt it writes Invariants.antt beside it, and DRAFTS/F/Answers.antt with the answers that are more than `search rules`,
steps renamed as far as names.json tells. Nothing that stands is written over.
"""
import json
import os
import re
import sys

WORD = re.compile(r"[^\s(){}\[\];,.\"«»`@|]+")


def blocks(text):
    """Top-level declarations: (list of lines)."""
    out, cur = [], []
    for l in text.split("\n"):
        if l and not l[0].isspace() and not re.match(r"^[)\]}]", l):
            m = re.match(r"^(?:abbrev |pub )*([^\s:]+)", l)
            if cur and l.startswith("unfolding "):
                cur.append(l)
                continue
            if cur and cur[0].split(" : ")[0].replace("abbrev ", "").replace("pub ", "").strip() == (m.group(1) if m else "") and " : " not in l.split(" = ")[0]:
                cur.append(l)
                continue
            if cur:
                out.append(cur)
            cur = [l]
        else:
            cur.append(l)
    if cur:
        out.append(cur)
    return out


def norm(s):
    s = s.replace("_", "-")
    for p in ("overflow-", "nonzero-"):
        if s.startswith(p):
            s = s[len(p):]
    return s


def step_names(f):
    """old step name -> new"""
    out = {}
    for old, parent, names, callee, fields in f["places"]:
        if names[0]:
            out.setdefault(names[0].replace("_", "-"), names[1])
    return out


def turn_body(body, f, steps, goal=""):
    body = re.sub(r"(?:\.before)+(?![\w-])", "", body)
    while True:
        # a name for the steps themselves
        m = re.search(r"let ([a-z]) = c in\s*", body)
        if not m:
            break
        rest = re.sub(r"(?<![\w.'-])" + m.group(1) + r"(?![\w'-])", "c", body[m.end():])
        body = body[: m.start()] + rest
    body = re.sub(r"\.([a-z_]\w*)-1\.now", r".\1.now", body).replace(".taken", ".true")
    v = re.search(r"-in-([A-Z]\w*)", goal)
    if v:
        arm = f"c.in-{v.group(1)}.ensures"
        body = re.sub(r"equal_by \w\.[\w-]+\.ensures c\.[\w-]+\.given\.1", f"sym {arm}", body)
        body = re.sub(r"(found\w*) _ c\.[\w-]+\.given\.1 \w\.[\w-]+\.ensures", rf"\1 _ refl {arm}", body)

    def field(m):
        w = m.group(1)
        k = w.replace("_", "-")
        return "." + (steps[k] if k in steps else w)

    body = re.sub(r"\.([A-Za-z_][^\s(){}\[\];,.\"]*)", field, body)
    return body


def main(argv):
    names, crate, drafts = argv
    data = json.load(open(names))
    top = f"crates/{crate}/proofs"
    for folder, dirs, fs in os.walk(top):
        if "Proof.antt.txt" not in fs:
            continue
        rel = os.path.relpath(folder, top).replace(os.sep, ".")
        f = data.get(f"Rattle-{crate}-proofs.{rel}.Lts") or data.get(f"Rattle-{crate}-proofs.{rel}.Tie")
        text = open(os.path.join(folder, "Proof.antt.txt"), encoding="utf-8").read()
        bl = blocks(text)
        uses = [b for b in bl if b[0].startswith("use ")]
        head = []
        for b in bl:
            if b[0].startswith("use "):
                break
            if b[0].startswith("-- "):
                head.append(b)
        if f is None:
            print("no names:", crate, rel)
            continue
        loops = {}
        for l in f["loops"]:
            loops[norm(l[0][0]) if isinstance(l[0], list) else norm(l[0])] = l
        steps = step_names(f)
        inv = []
        ans = []
        needs = {norm(o): n for o, n in f["needs"]}
        for b in bl:
            sig = b[0]
            m = re.match(r"^abbrev (?:pub )?(\S+) : tie\.((?:invariant|decreases)\S*)", sig)
            if m:
                name, kind = m.group(1), m.group(2)
                body = "\n".join(b[1:])
                mm = re.match(r"^(\S+)((?: \S+)*?) =(.*)$", body, re.S)
                if not mm:
                    print("unread:", crate, rel, name)
                    continue
                args, rhs = mm.group(2).split(), mm.group(3)
                what = "invariant" if kind.startswith("invariant") else "decreases"
                loop = kind.split("-", 1)[1] if "-" in kind else ""
                l = loops.get(norm(loop))
                new = (l[0][1] if isinstance(l[0], list) else l[1]) if l else None
                if new is None:
                    new = loop
                amap = {}
                for a in args:
                    base = a.rstrip("₀'").replace("-", "_")
                    amap[a] = f"l.initial.{base}" if a.endswith("₀") else f"l.{base}"

                def var(m):
                    w = m.group(0)
                    before = rhs[: m.start()]
                    if before.endswith("."):
                        return w
                    return amap.get(w, w)

                rhs2 = WORD.sub(var, rhs)
                inv.append(f"abbrev pub {what}-{new} : goal.{what}-{new}\n{what}-{new} l ={rhs2.rstrip()}\n")
                continue
            m = re.match(r"^(\S+) : tie\.Need-(\S+)", sig)
            if m:
                opens = ""
                rest = b[1:]
                if rest and rest[0].startswith("unfolding "):
                    opens = rest[0] + "\n"
                    rest = rest[1:]
                body = "\n".join(rest).rstrip()
                mm = re.match(r"^(\S+)((?: \S+)*?) =(.*)$", body, re.S)
                if not mm:
                    ans.append("-- unread\n" + "\n".join("-- " + x for x in b))
                    continue
                rhs = mm.group(3)
                if re.sub(r"\s+", " ", rhs).strip() in ("search rules", "search needs"):
                    continue
                goal = needs.get(norm(m.group(2)), "?" + m.group(2))
                ans.append(f"pub {goal} : goal.{goal}\n{opens}{goal}{mm.group(2).replace(' κs', '')} ={turn_body(rhs, f, steps, goal)}\n")
                continue
            if sig.startswith(("use ", "-- ", "pub ")):
                continue
            ans.append("\n".join(turn_body(x, f, steps) for x in b).rstrip() + "\n")
        us = [l for b in uses for l in b if l.startswith("use ") and "Statement" not in l and ".Tie as" not in l]
        path = f"Rattle.{crate}.proofs.{rel}"
        header = "\n".join(x for b in head for x in b).replace("\n-- Assumes nothing.", "").replace(" Assumes nothing.", "").rstrip()
        if inv and not os.path.exists(os.path.join(folder, "Invariants.antt")):
            text_inv = "\n".join(inv)
            keep = []
            for u in us:
                mu = re.match(r"^use (.*?)\.\{(.*)\}$", u)
                if not mu:
                    continue
                items = [i.strip() for i in mu.group(2).split(",")]
                items = [i for i in items if used(i, text_inv)]
                if items:
                    keep.append(f"use {mu.group(1)}.{{{', '.join(items)}}}")
            with open(os.path.join(folder, "Invariants.antt"), "w") as o:
                o.write(header + "\n" + "\n".join(keep) + f"\nuse {path}.Given as goal\n\n" + text_inv)
        if ans:
            d = os.path.join(drafts, crate, rel)
            os.makedirs(d, exist_ok=True)
            with open(os.path.join(d, "Answers.antt"), "w") as o:
                o.write(header + "\n" + "\n".join(us) + f"\nuse {path}.Goals as goal\n\n" + "\n".join(ans))
    return 0


def used(item, text):
    name = item.split(" as ")[-1].strip()
    core = name.replace("◌", "")
    if name.startswith("◌") or name.endswith("◌"):
        return core in text
    return re.search(r"(?<![^\s(){}\[\];,.])" + re.escape(name) + r"(?![^\s(){}\[\];,.])", text) is not None


if __name__ == "__main__":
    raise SystemExit(main(sys.argv[1:]))
