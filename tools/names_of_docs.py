#!/usr/bin/env python3
"""Holds the names that the documents cite against the tree.

usage, at the top of the repository:
  python3 tools/names_of_docs.py                    lists the cited names, files and places that do not stand in the tree; status 1 if there is one
  python3 tools/names_of_docs.py --map COMMIT       prints what the declarations of COMMIT are called today, module by module
  python3 tools/names_of_docs.py --respell COMMIT   puts today's names into the documents in place of those that COMMIT's declarations had

A document cites a name in backticks: `name`, `Record.field`, `crate::function`, or a file, `crate/specs/File.antt`. A place is a name beside
the file that declares it. What stands: declarations, fields and cases of specs/ and proofs/; items, fields and cases of src/, also those of
the harness and the unrelated checker; the names of include/, crates, edits, scripts and files. Names that a document says are gone are
listed apart.
"""
import collections
import difflib
import glob
import io
import os
import re
import subprocess
import sys
import tarfile

DOCUMENTS = ["README.md", "docs/CLAIMS.md", "docs/DECISIONS.md", "docs/PERFORMANCE.md", *sorted(glob.glob("docs/changes/*.md")),
             "harness/README.md", "reference/README.md", *sorted(glob.glob("include/*.h"))]
# documents that speak of code of their own: no name of crates/ is respelled there
OWN = {"harness/README.md", "reference/README.md"}

DECLARED = re.compile(r"^(?: *)(?:(?:abbrev|unfoldable|opaque|pub) )*(?:(?:record|data) )?(?P<names>[^\s(){}\[\];:,.\"=|]+(?: [^\s(){}\[\];:,.\"=|→∷]+)*)(?: [({].*?[)}])* :(?: |$)")
ITEM = re.compile(r"^\s*(?:pub(?:\(\w+\))? )?(?:unsafe )?(?:const )?(?:extern \"C\" )?(?P<kind>fn|struct|enum|trait|type|const|static|mod|union|macro_rules!) (?P<name>\w+)")
MEMBER = re.compile(r"^    (?:pub )?(?P<name>\w+)(?:[:,({]| =|$)")


def made(path):
    """Whether a file holds the proof of a function, whose names Rattle gives."""
    return os.path.basename(path) in ("Proof.antt", "Answers.antt", "Invariants.antt") and path.count("/") > 3


def of_antt(text):
    """The declarations of a file in order, and the fields or cases of its record and data types."""
    names, members, inside, modules, head = [], collections.OrderedDict(), None, [], None
    for line in text.split("\n"):
        if not line.strip() or line.lstrip().startswith("--"):
            continue
        depth = len(line) - len(line.lstrip())
        if head is not None:
            # a module's head over several lines
            if line.rstrip().endswith(" where"):
                modules.append(head)
                head = None
            continue
        while modules and depth <= modules[-1]:
            modules.pop()
            inside = None
        if re.match(r"^ *module \S+ ", line):
            if line.rstrip().endswith(" where"):
                modules.append(depth)
            else:
                head = depth
            inside = None
            continue
        pad = modules[-1] + 2 if modules else 0
        m = DECLARED.match(line)
        block = re.match(r"^ *(?:pub )?(?:record|data) (\S+)", line)
        if block and depth == pad:
            inside = block.group(1)
            names.append(inside)
            members[inside] = []
        elif m and depth == pad:
            inside = None
            names += [n for n in m.group("names").split() if n not in names]
        elif m and inside and depth == pad + 2:
            members[inside] += m.group("names").split()
        elif depth == pad:
            inside = None
    return names, members


def of_rust(text):
    names, members, inside = [], collections.OrderedDict(), None
    for line in text.split("\n"):
        m = ITEM.match(line)
        if m:
            names.append(m.group("name"))
            inside = m.group("name") if m.group("kind") in ("struct", "enum", "trait") and line.rstrip().endswith("{") else None
            if inside:
                members[inside] = []
        elif inside and (m := MEMBER.match(line)):
            members[inside].append(m.group("name"))
        elif line.startswith("}"):
            inside = None
    return names, members


def parsed(files):
    return {p: (of_antt if p.endswith(".antt") else of_rust)(t) for p, t in files.items()}


def today():
    files = {}
    for top in ("crates", "harness/src", "harness/tests", "reference/src", "reference/tests"):
        for folder, dirs, names in os.walk(top):
            dirs[:] = sorted(d for d in dirs if d not in ("out", "target"))
            for n in sorted(names):
                if n.endswith((".antt", ".rt", ".rs")):
                    p = os.path.join(folder, n)
                    files[p] = open(p, encoding="utf-8").read()
    return parsed(files)


def at_commit(commit):
    tar = subprocess.run(["git", "archive", commit, "crates"], capture_output=True, check=True).stdout
    files = {}
    with tarfile.open(fileobj=io.BytesIO(tar)) as t:
        for m in t.getmembers():
            if m.isfile() and m.name.endswith((".antt", ".rt")):
                files[m.name] = t.extractfile(m).read().decode("utf-8")
    return parsed(files)


def snake(name):
    n = re.sub(r"(?<=[a-z0-9])([A-Z]+)", lambda m: "_" + m.group(1).lower(), name)
    return n.replace("-", "_")


def pairs(old, new):
    """What each name of the list `old` is called in the list `new`: by its spelling, and else by its place among its neighbours."""
    found = {}
    for n in old:
        dash, camel = "-" in n, n[0].islower() and re.search(r"[a-z0-9][A-Z]", n)
        s = snake(n) if dash or camel else n
        taken = any(snake(o) == s and "-" not in o for o in old if o != n)
        for to in [s + "_lem", s] if dash or taken else [s, s + "_lem"]:
            if to in new and (to == n or to not in old or camel):
                found[n] = to
                break
    kept = [found.get(n, n) for n in old]
    for tag, i, j, k, l in difflib.SequenceMatcher(None, kept, new, autojunk=False).get_opcodes():
        if tag == "replace" and j - i == l - k:
            for n, to in zip(old[i:j], new[k:l]):
                found.setdefault(n, to)
    return found


def renamed(old, new):
    """{module: {old name: new name}}, with members as `Record.field`; and the names that their module has no more."""
    names, gone = {}, {}
    for p, (declared, members) in sorted(old.items()):
        if not p.endswith(".antt") or made(p):
            continue
        if p not in new:
            gone[p] = declared
            continue
        now, now_members = new[p]
        to = pairs(declared, now)
        here = {}
        for n in declared:
            if n not in to:
                gone.setdefault(p, []).append(n)
            elif to[n] != n:
                here[n] = to[n]
        for r, fields in members.items():
            r2 = to.get(r, r)
            for f, f2 in pairs(fields, now_members.get(r2, [])).items():
                if (r, f) != (r2, f2):
                    here[r + "." + f] = r2 + "." + f2
            for f in fields:
                if f not in pairs(fields, now_members.get(r2, [])):
                    gone.setdefault(p, []).append(r + "." + f)
        if here:
            names[p] = here
    return names, gone


# Commands and kits, words of what is printed and of the language, and letters that a document itself brings in.
WORDS = {"rt", "cargo", "gcc", "g++", "xargs", "nm", "out-of-order", "write-back", "written-twice", "logged-twice", "no-bytes", "stdout", "exclude",
         "requires", "Drop", "Result", "Option", "Ok", "E", "itoa", "stays:", "c.put.ensures", "_lem", "R", "R.part", "p", "rattle-kit-5b-plain", "rattle-kit-13f"}

# What the documents themselves say is gone.
RETIRED = {
    "Proof.antt": "files of the older kit (DECISIONS 160)",
    "check_records": "went with the judge's first pass (DECISIONS 36)",
    "limits::take_event": "went with the judge's first pass (DECISIONS 36)",
    "PMJUDGE_EMPTY_RANGE": "went with request 5 (DECISIONS 118)",
    "os::arg": "of the older kit, weighed and not taken (DECISIONS 156)",
    "arg": "of the older kit, weighed and not taken (DECISIONS 156)",
    "RT_JOBS": "of the older kit (DECISIONS 73)",
    "scripts/rt": "went with the port (DECISIONS 72)",
    "put_found": "went with the design pass (docs/DESIGN-PASS.md)",
    "judge_records": "went with the design pass (docs/DESIGN-PASS.md)",
    "nine_before_eight": "an edit that went with request 5",
    "claims/eight_before_seven": "an edit that went with request 5",
    "LINE_STARTS": "a constant that went with request 6",
    "wrong_line_start": "an edit that came with request 6 and went (DECISIONS 157)",
}

TICKED = re.compile(r"`([^`\n]+)`")
NAME = re.compile(r"^[A-Za-z_][\w'′₂-]*(?:(?:\.|::)[A-Za-z_][\w'′-]*)*$")
FILE = re.compile(r"^[\w./*-]+$")


def prose(path):
    """(line number, line) of the lines that are text, without code."""
    fence = code = listed = False
    before = ""
    for i, line in enumerate(open(path, encoding="utf-8").read().split("\n"), 1):
        if line.startswith("```"):
            fence = not fence
        if line[:1].strip():
            listed = bool(re.match(r"(?:\d+\.|[-*]) ", line))
        code = line.startswith("    ") and not listed and (code or not before.strip())
        if not fence and not code:
            yield i, line
        before = line


def cited(path):
    """(line number, column, text) of each backticked piece."""
    for i, line in prose(path):
        for m in TICKED.finditer(line):
            yield i, m.start(1), m.group(1)


class Tree:
    def __init__(self, files):
        self.files = files
        self.names, self.members, self.where = set(), collections.defaultdict(set), collections.defaultdict(set)
        for p, (names, members) in files.items():
            for n in names:
                self.names.add(n)
                self.where[n].add(p)
            for r, fs in members.items():
                self.members[r] |= set(fs)
                for f in fs:
                    self.where[r + "." + f].add(p)
        self.fields = {f for fs in self.members.values() for f in fs}
        self.crates = set(os.listdir("crates"))
        self.edits = {os.path.basename(p)[: -len(".edit")] for p in glob.glob("crates/*/must-fail/*.edit")}
        self.edits |= {p[len("crates/") : -len(".edit")] for p in glob.glob("crates/*/must-fail/*.edit")}
        self.c = set(re.findall(r"\w+", " ".join(open(p, encoding="utf-8").read() for p in glob.glob("include/*.h") + glob.glob("examples/*.[ch]"))))
        self.modules = {os.path.splitext(os.path.basename(p))[0] for p in files} | {p.split("/")[-2] for p in files}
        self.scripts = set(os.listdir("scripts")) | set(os.listdir("bin"))
        self.tops = {p.split("/")[0] for p in glob.glob("*/")}
        self.paths = subprocess.run(["git", "ls-files"], capture_output=True, text=True, check=True).stdout.split("\n")
        self.paths += [p for p in files if p not in self.paths]

    def has_name(self, text):
        parts = re.split(r"\.|::", text)
        if text in WORDS:
            return True
        if len(parts) == 1:
            return any(text in s for s in (self.names, self.fields, self.crates, self.edits, self.c, self.modules, self.scripts, self.tops))
        if "::" in text:
            own = {n for p, (ns, _) in self.files.items() if p.startswith(f"crates/{parts[0]}/src/") for n in ns}
            return parts[-1] in (own if parts[0] in self.crates else self.names)
        return parts[-1] in self.members.get(parts[-2], ()) or all(p in self.c for p in parts)

    def has_file(self, text, document):
        at = text.rstrip("/")
        if text in self.edits or at.split("/")[0] == "target" or re.search(r"[A-Z]{4}$", at):
            # an edit, something that a build makes, or a file of the reader's
            return True
        for base in ("", "crates/", os.path.dirname(document) + "/"):
            p = os.path.normpath(base + at) if base + at else at
            if p in self.paths or any(q.startswith(p + "/") for q in self.paths) or ("*" in at and glob.glob(p)):
                return True
        return any(q.endswith("/" + at) or "/" + at + "/" in q for q in self.paths)

    def file_of(self, text):
        """The file of crates/ that a document means by `text`, where it is one."""
        p = "crates/" + text
        if p in self.files:
            return p
        ends = [q for q in self.files if q.endswith("/" + text)]
        return ends[0] if len(ends) == 1 else None


def kind_of(text):
    """Whether a piece is a name, a file, or something else."""
    if FILE.match(text) and ("/" in text and re.search("[a-z]", text) or re.search(r"\.(?:antt|rt|rs|md|h|c|txt)$", text)):
        return "file"
    return "name" if NAME.match(text) else "other"


# "`file`: `name`, `name`", "`name` and `name` in `file`" and "`name` (`file`)"
PLACE = re.compile(r"`([\w/.-]+\.(?:antt|rt))`:\s((?:`[^`\n]+`(?:,\s|\sand\s|,\sand\s)?)+)")
PLACED = re.compile(r"((?:`[^`\n]+`(?:,\s|\sand\s|,\sand\s)?)+)\s(?:of\s`[^`\n]+`\s)?\(?in\s`([\w/.-]+\.(?:antt|rt))`")
BEHIND = re.compile(r"((?:`[^`\n]+`(?:,\s|\sand\s|,\sand\s)?)+)\s\(`([\w/.-]+\.(?:antt|rt))`[);]")


def places(path):
    """(line number, name, file) of each name that a document says a file declares."""
    text = open(path, encoding="utf-8").read()
    flat = re.sub(r"\n {1,4}(?=\S)", "\n", text)
    for pattern, names, file in ((PLACE, 2, 1), (PLACED, 1, 2), (BEHIND, 1, 2)):
        for m in pattern.finditer(flat):
            for n in TICKED.finditer(m.group(names)):
                yield flat.count("\n", 0, m.start(names) + n.start()) + 1, n.group(1), m.group(file)


def respell(names, tree):
    """Puts today's names into the documents. A name that is called one thing in one module and another in the next goes by its place."""
    anywhere = collections.defaultdict(set)
    for here in names.values():
        for n, to in here.items():
            anywhere[n].add(to)
            if "." in n and n.split(".")[-1] != to.split(".")[-1]:
                anywhere[n.split(".")[-1]].add(to.split(".")[-1])
    status = 0
    for d in DOCUMENTS:
        if d in OWN or not d.endswith(".md"):
            continue
        at = {}
        for i, n, f in places(d):
            at.setdefault((i, n), set()).add("crates/" + f)
        lines = open(d, encoding="utf-8").read().split("\n")
        for i, column, text in reversed(list(cited(d))):
            here = {names[f][text] for f in at.get((i, text), ()) if text in names.get(f, {})}
            spelled = "-" in text or re.search(r"[a-z0-9][A-Z]", text)
            to = here or (anywhere[text] if spelled or not tree.has_name(text) else set())
            if len(to) == 1:
                new = next(iter(to))
            elif not to:
                continue
            else:
                print(f"{d}:{i}: `{text}` is one of {' '.join(sorted(to))}")
                status = 1
                continue
            lines[i - 1] = lines[i - 1][:column] + new + lines[i - 1][column + len(text) :]
        open(d, "w", encoding="utf-8").write("\n".join(lines))
    return status


def stands_in(tree, name, path):
    """Whether the file declares the name, has it as a field or case, or sets such a field."""
    names, members = tree.files[path]
    last = re.split(r"\.|::", name)
    if len(last) > 1:
        return last[-1] in members.get(last[-2], ())
    if name in names or any(name in fs for fs in members.values()):
        return True
    return name in tree.fields and re.search(rf"^\s+{re.escape(name)} = ", open(path, encoding="utf-8").read(), re.M) is not None


def check(tree):
    missing, retired = [], []
    for d in DOCUMENTS:
        lines = open(d, encoding="utf-8").read().split("\n")
        for i, column, text in cited(d):
            kind = kind_of(text)
            if lines[i - 1].startswith("`, today `", column + len(text)):
                retired.append(f"{d}:{i}: `{text}`: the place at that time, with today's behind it")
            elif text in RETIRED:
                retired.append(f"{d}:{i}: `{text}`: {RETIRED[text]}")
            elif kind == "name" and not tree.has_name(text):
                missing.append(f"{d}:{i}: no name `{text}`")
            elif kind == "file" and not tree.has_file(text, d):
                missing.append(f"{d}:{i}: no file `{text}`")
        for i, n, f in sorted(places(d)):
            p = tree.file_of(f)
            if p and NAME.match(n) and not stands_in(tree, n, p):
                missing.append(f"{d}:{i}: `{n}` is not in {p}; it stands in {', '.join(sorted(tree.where[n])) or 'no file'}")
    for line in retired + missing:
        print(line)
    print(len(retired), "are said to be gone;", len(missing), "do not stand")
    return len(missing)


def main(argv):
    if not argv:
        return 1 if check(Tree(today())) else 0
    if len(argv) != 2 or argv[0] not in ("--map", "--respell"):
        print(__doc__)
        return 2
    old, new = at_commit(argv[1]), today()
    names, gone = renamed(old, new)
    if argv[0] == "--map":
        for p, here in names.items():
            for n, to in here.items():
                print(f"{n}\t{to}\t{p}")
        for p, ns in gone.items():
            for n in ns:
                print(f"{n}\t\t{p}")
        return 0
    return respell(names, Tree(new))


if __name__ == "__main__":
    raise SystemExit(main(sys.argv[1:]))
