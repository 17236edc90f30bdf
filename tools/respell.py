#!/usr/bin/env python3
"""Respells this repository's own definitions and lemmas: camelCase and dashes to snake case.

usage: python3 tools/respell.py           at the top of the repository, once, after port.py: rewrites crates/ in place and writes tools/respelled.tsv
       python3 tools/respell.py --list    says what it would rename, and which names fall together

A name is ours if a file of specs/, or a lemma file of proofs/, declares it. It is renamed where a file declares it or brings it in from a
module of ours, in the clauses and ghost items of src/, and after a dot as a field. A lemma that would get a definition's name gets `_lem`.
Names that Rattle makes (goals, steps, proofs of functions), functions, types, strings and English words in comments stay as they are.
"""
import collections
import os
import re
import sys

WORD = re.compile(r"[^\s(){}\[\];,.\"«»`@|]+")
DECL = re.compile(r"^(?P<pad>\s*)(?P<mods>(?:(?:abbrev|unfoldable|pub|opaque) )*)(?P<names>[^\s(){}:;,.\"]+(?: [^\s(){}:;,.\"→]+)*)(?: \{[^}]*\})? :(?: |$)", re.M)
USE = re.compile(r"^(?:ghost )?(?:pub )?use (?P<module>[^\s{;]+?)(?:\.\{(?P<items>[^}]*)\})?(?: as (?P<alias>\S+?))?;?$", re.M)
KEEP = {"record", "data", "where", "use", "let", "in", "elim", "as", "pub", "abbrev", "unfoldable", "module", "open"}
MADE = re.compile(r"/proofs/.*/?(Proof|Answers|Invariants)\.antt$")


def files(kinds):
    for folder, dirs, names in os.walk("crates"):
        dirs[:] = sorted(d for d in dirs if d != "out")
        for n in sorted(names):
            if n.endswith(kinds):
                yield os.path.join(folder, n)


def crate_of(path):
    return path.split(os.sep)[1]


def module_of(path):
    parts = path[: -len(".antt")].split(os.sep)[1:]
    return "Rattle." + ".".join(parts)


def is_made(path):
    # a function's own proof: proofs/F/Proof.antt and the like; its names are goals
    return os.path.basename(path) in ("Proof.antt", "Answers.antt", "Invariants.antt") and len(path.split(os.sep)) > 4


def uncommented(text):
    return "\n".join(l.split("-- ", 1)[0] if not l.lstrip().startswith("--") else "" for l in text.split("\n"))


def snake(name):
    n = re.sub(r"(?<=[a-z0-9])([A-Z])(?![A-Z])", lambda m: "_" + m.group(1).lower(), name)
    n = re.sub(r"(?<=[a-z0-9])([A-Z]+)", lambda m: "_" + m.group(1).lower(), n)
    return n.replace("-", "_")


def declared(text):
    out = set()
    plain = uncommented(text)
    for m in DECL.finditer(plain):
        for n in m.group("names").split():
            out.add(n)
    for m in re.finditer(r"[({]([a-z][\w-]*(?: [a-z][\w-]*)*) :", plain):
        pass
    return {n for n in out if n not in KEEP}


def own_names():
    """{module: names}, with the names of specs and of lemma files."""
    mods = {}
    for p in files(".antt"):
        if is_made(p):
            continue
        mods[module_of(p)] = declared(open(p, encoding="utf-8").read())
    return mods


def should(name):
    if not name[0].islower():
        return False
    return bool(re.search(r"[a-z0-9][A-Z]", name)) or "-" in name


def main(argv):
    listing = "--list" in argv
    mods = own_names()
    crates = {m.split(".")[1] for m in mods}
    everywhere = collections.defaultdict(set)
    for m, ns in mods.items():
        for n in ns:
            everywhere[n].add(m)
    specs = {n for n, ms in everywhere.items() if any(".specs." in m or m.endswith(".specs") for m in ms)}
    # names in camel case first, then lemmas with dashes; a lemma whose name is taken so gets `_lem`
    new = {}
    for n in sorted(n for n in everywhere if should(n) and "-" not in n):
        new[n] = snake(n)
    camel = set(new.values())
    plain = {n for n in everywhere if not should(n)} | camel
    for n in sorted(n for n in everywhere if should(n) and "-" in n):
        s = snake(n)
        new[n] = s + "_lem" if s in plain else s
    for n in sorted(n for n in everywhere if not should(n) and n in camel and n not in specs):
        new[n] = n + "_lem"
    taken = collections.defaultdict(set)
    for n in everywhere:
        taken[new.get(n, n)].add(n)
    together = {s: ns for s, ns in taken.items() if len(ns) > 1}
    clashes = []
    edits = {}
    for p in files((".antt", ".rt")):
        text = open(p, encoding="utf-8").read()
        here = set(mods.get(module_of(p), ())) if p.endswith(".antt") and not is_made(p) else set()
        aliases = set()
        for m in USE.finditer(text):
            mod = m.group("module")
            if mod.startswith("Rattle.") and mod.split(".")[1] in crates:
                if m.group("items") is not None:
                    for it in m.group("items").split(","):
                        it = it.strip()
                        if it:
                            here.add(it.split(" as ")[0].strip())
                            if " as " in it:
                                here.add(it.split(" as ")[1].strip())
                elif m.group("alias"):
                    aliases.add(m.group("alias"))
        mine = {n for n in here if n in new}
        if p.endswith(".antt") or p.endswith(".rt"):
            others = set()
            for m in USE.finditer(text):
                if not (m.group("module").startswith("Rattle.") and m.group("module").split(".")[1] in crates):
                    others |= {it.strip().split(" as ")[-1] for it in (m.group("items") or "").split(",")}
            mine |= {n for n in new if "-" not in n and should(n) and n not in others}
        fields = {n for n in specs if should(n)}
        words = set(WORD.findall(uncommented(text) if p.endswith(".antt") else text))
        for n in mine:
            s = new[n]
            if s in words and s not in new and n in words and p.endswith(".antt"):
                clashes.append((p, n, s))
        edits[p] = (text, mine, aliases, fields)
    if listing:
        for s, ns in sorted(together.items()):
            print("together:", s, sorted(ns), {m for n in ns for m in everywhere.get(n, ())})
        for c in clashes:
            print("clash:", *c)
        print(len(new), "names;", len(together), "fall together;", len(clashes), "clashes")
        return 0
    with open("tools/respelled.tsv", "w", encoding="utf-8") as f:
        for n in sorted(new):
            f.write(f"{n}\t{new[n]}\t{' '.join(sorted(everywhere[n]))}\n")
    changed = 0
    for p, (text, mine, aliases, fields) in edits.items():
        out = []
        for line in text.split("\n"):
            out.append(turn(line, p, mine, aliases, fields, new))
        t = "\n".join(out)
        if t != text:
            changed += 1
            open(p, "w", encoding="utf-8").write(t)
    print(len(new), "names;", changed, "files")
    return 0


def turn(line, path, mine, aliases, fields, new):
    antt = path.endswith(".antt")
    mark = "--" if antt else "//"
    at = line.find(mark + " ") if line.lstrip().startswith(mark) or (" " + mark + " ") in line else -1
    if at > 0 and line[at - 1] != " ":
        at = -1
    code, comment = (line, "") if at < 0 else (line[:at], line[at:])

    def word(m):
        w = m.group(0)
        if w not in new:
            return w
        before = code[: m.start()]
        if before.endswith("."):
            # a field of a value, or a name of a module
            q = re.search(r"([^\s(){}\[\];,.]+)\.$", before)
            if (q and q.group(1) in aliases) or (w in mine and should(w) and "-" not in w):
                return new[w]
            return w
        return new[w] if w in mine else w

    def said(m):
        w = m.group(0)
        return new[w] if w in new and re.search(r"[a-z0-9][A-Z]", w) else w

    return WORD.sub(word, code) + (WORD.sub(said, comment) if comment else "")


if __name__ == "__main__":
    raise SystemExit(main(sys.argv[1:]))
