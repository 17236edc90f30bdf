#!/usr/bin/env python3
"""Takes from drafts the answers that a check leaves open.

usage: python3 tools/fill_answers.py CRATE LOG DRAFTS     at the top of the repository
LOG is what `rt check` said of the crate; DRAFTS is the folder that turn_proofs.py wrote. For each function with open goals it writes or
extends proofs/F/Answers.antt by the drafted answers of those goals, and by the drafts' lemmas that they cite.
"""
import os
import re
import sys

sys.path.insert(0, os.path.dirname(os.path.realpath(__file__)))
from turn_proofs import blocks, used


def main(argv):
    crate, log, drafts = argv
    text = open(log, encoding="utf-8").read()
    left = []
    for m in re.finditer(r"^fn (\S+): no proof: expected answers in \./proofs/(\S+)/Answers\.antt; `search` did not prove (.*)$", text, re.M):
        fn, rel, goals = m.group(1), m.group(2), re.findall(r"`([^`]+)`", m.group(3))
        draft = os.path.join(drafts, crate, rel.replace("/", "."), "Answers.antt")
        if not os.path.exists(draft):
            left.append((fn, goals))
            continue
        bl = blocks(open(draft, encoding="utf-8").read())
        uses = [l for b in bl for l in b if l.startswith("use ")]
        head = []
        for b in bl:
            if b[0].startswith("-- "):
                head += [l for l in b if l.startswith("-- ")]
            elif b[0].startswith("use "):
                break
        decls = [b for b in bl if not b[0].startswith(("use ", "-- ")) and b[0].strip()]
        name = lambda b: re.match(r"^(?:abbrev |pub )*(\S+)", b[0]).group(1)
        path = f"crates/{crate}/proofs/{rel}/Answers.antt"
        old = open(path, encoding="utf-8").read() if os.path.exists(path) else ""
        take = [b for b in decls if name(b) in goals]
        missing = [g for g in goals if g not in [name(b) for b in take]]
        if missing:
            left.append((fn, missing))
        helpers = [b for b in decls if not re.match(r"^pub \S+ : goal\.", b[0])]
        if old:
            have = {name(b) for b in blocks(old) if b[0].strip()}
            take = [b for b in take if name(b) not in have]
            helpers = [b for b in helpers if name(b) not in have]
        body = "\n".join("\n".join(b).rstrip() + "\n" for b in take)
        more = True
        chosen = []
        while more:
            more = False
            for h in helpers:
                if h not in chosen and used(name(h), body):
                    chosen.append(h)
                    body = "\n".join(h).rstrip() + "\n\n" + body
                    more = True
        if not take:
            continue
        if old:
            open(path, "w", encoding="utf-8").write(old.rstrip() + "\n\n" + body)
            continue
        keep = []
        for u in uses:
            mu = re.match(r"^use (.*?)\.\{(.*)\}$", u)
            if mu:
                items = [i.strip() for i in mu.group(2).split(",") if used(i.strip(), body)]
                if items:
                    keep.append(f"use {mu.group(1)}.{{{', '.join(items)}}}")
            else:
                keep.append(u)
        for n in ("refl", "sym"):
            if used(n, body) and not any(u.startswith("use mathlib.Core.Path.{") and used(n, u) for u in keep):
                at = [i for i, u in enumerate(keep) if u.startswith("use mathlib.Core.Path.{")]
                if at:
                    keep[at[0]] = keep[at[0]].replace("{", "{" + n + ", ", 1)
                else:
                    keep.insert(0, "use mathlib.Core.Path.{" + n + "}")
        os.makedirs(os.path.dirname(path), exist_ok=True)
        open(path, "w", encoding="utf-8").write("\n".join(head) + "\n" + "\n".join(keep) + "\n\n" + body)
    for fn, goals in left:
        print("no draft:", fn, *goals)
    return 0


if __name__ == "__main__":
    raise SystemExit(main(sys.argv[1:]))
