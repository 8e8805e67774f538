#!/usr/bin/env python3
"""Spells the names that the crates' own specs/ and proofs/ declare as Rattle spells names: words in snake case.

usage: port_names.py [--look]  at the top of the repository, once, after the scripts of the kit's port/

A definition, lemma, field or constructor that begins with a small letter and has a capital or a dash gets underscores, as
`regionCount` and `leaf-found` do: `region_count`, `leaf_found`. Types and modules stay, and so do the goals and steps that Rattle
names. Comments and pages follow where a name stands in backticks, and the texts of edits. With --look it lists the files in which two
names would be one, and changes nothing.
"""

import collections
import glob
import os
import re
import subprocess
import sys

TOKEN = re.compile(r"[^\s(){}\[\].;,@\"«»⟨⟩`]+")
DECLARED = re.compile(r"^[ ]*(?:(?:abbrev|unfoldable|pub|record|data) +)*([^\s(){}.;,@\"]+)(?: +[({][^\n]*?[)}])* +:(?= |$)", re.M)
RECORD = re.compile(r"^(?:pub +)?record [^\n]*\n((?:[ ]+[^\n]*\n|\n)*)", re.M)
FIELD = re.compile(r"^[ ]+pub ([^\s(){}.;,@\"]+) :", re.M)
HEADED = re.compile(r"^[ ]*(?:pub +)?(?:record|data) +([^\s(){}.;,@\"]+)", re.M)
LIBRARY = re.compile(r"\buse ((?!Rattle\.(?:%s)\b)[\w.+]+)\.\{([^}]*)\}", re.S)
SPAN = re.compile(r"`[^`\n]+`")


def snake(name):
    return re.sub(r"(?<=[a-z0-9])[A-Z]", lambda m: "_" + m[0].lower(), name).replace("-", "_")


def read(path):
    with open(path, encoding="utf-8") as f:
        return f.read()


def walks(path):
    """Whether the file is the proof of one function, whose goals and steps Rattle names."""
    return path.startswith("crates/") and "/proofs/" in path and os.path.basename(path) in ("Proof.antt", "Answers.antt", "Invariants.antt")


def table(paths):
    """The new spelling of each name. Where two would be one, a lemma gets _lem, and what is declared in specs/, or has no dash, the plain name."""
    alike = collections.defaultdict(dict)
    for path in paths:
        if path.endswith(".antt") and not walks(path):
            text = re.sub(r"--[^\n]*", "", read(path))
            fields = set(FIELD.findall("\n".join(RECORD.findall(text))))
            for name in DECLARED.findall(text):
                if re.fullmatch(r"[a-z][A-Za-z0-9_'-]*", name):
                    of_specs = "/specs/" in path
                    was = alike[snake(name)].get(name, (False, False))
                    alike[snake(name)][name] = (was[0] or of_specs, was[1] or name in fields)
    names = {}
    for plain, those in alike.items():
        first = min(those, key=lambda n: (not those[n][0], "-" in n, n == plain, n))
        for name, (of_specs, field) in those.items():
            new = plain if name == first or of_specs or field and name == plain else plain + "_lem"
            if new != name:
                names[name] = new
    return names


def library_names(text, crates):
    found = set()
    for m in re.finditer(LIBRARY.pattern % "|".join(crates), text, re.S):
        for item in m[2].split(","):
            found.update(item.split())
    return found


def turned(text, names, stay):
    return TOKEN.sub(lambda m: names[m[0]] if m[0] in names and m[0] not in stay else m[0], text)


def spans(text, names):
    """A text in which only what stands in backticks turns."""
    return SPAN.sub(lambda m: turned(m[0], names, ()), text)


CLAUSE = re.compile(r"(?:\b(?:requires|ensures)\*?(?: \w+)? |\bghost(?: \w+:)? )\{|\bghost use [^;]*;")


def rattle(text, names, stay):
    """The clauses and imports of a source file turn, and what stands in backticks of its comments."""
    out, at = [], 0
    for m in CLAUSE.finditer(text):
        if m.start() < at:
            continue
        end = m.end()
        if m[0].endswith("{"):
            deep = 1
            while deep:
                deep += {"{": 1, "}": -1}.get(text[end], 0)
                end += 1
        out += [spans(text[at : m.start()], names), turned(text[m.start() : end], names, stay)]
        at = end
    return "".join(out) + spans(text[at:], names)


def main():
    paths = subprocess.run(["git", "ls-files"], capture_output=True, text=True, check=True).stdout.split("\n")
    paths = [p for p in paths if p and os.path.isfile(p) and not os.path.islink(p)]
    crates = sorted({p.split("/")[1] for p in paths if p.startswith("crates/")})
    names = table(paths)
    met = []
    turns = {}
    for path in paths:
        kind = os.path.splitext(path)[1]
        if kind == ".antt":
            text = read(path)
            stay = library_names(text, crates)
            new = turned(text, names, stay)
            used = {t for t in TOKEN.findall(text) if t in names and t not in stay}
            there = set(TOKEN.findall(re.sub(r"--[^\n]*", "", text)))
            met += [f"{path}: {n} would be {names[n]}, which stands there" for n in sorted(used) if names[n] in there]
            fall = collections.Counter(names[n] for n in used)
            met += [f"{path}: two names would be {n}" for n, k in fall.items() if k > 1]
        elif kind == ".rt":
            text = read(path)
            new = rattle(text, names, library_names(text, crates))
            words = set(re.findall(r"\w+", re.sub(r"//[^\n]*|\bghost use [^;]*;", "", text)))
            used = {t for m in CLAUSE.finditer(text) if m[0].startswith("ghost use") for t in TOKEN.findall(m[0]) if t in names}
            met += [f"{path}: {n} would be {names[n]}, which the code has" for n in sorted(used) if names[n] in words]
        elif kind in (".md", ".edit", ".h", ".rs", ".c", ".py") or os.path.basename(path) in ("run", "executed", "try"):
            if path.endswith("port_names.py"):
                continue
            text = read(path)
            new = re.sub(r"(?m)^(?:old|new): .*|`[^`\n]+`", lambda m: turned(m[0], names, ()), text) if kind == ".edit" else spans(text, names)
        else:
            continue
        if new != text:
            turns[path] = new
    if "--look" in sys.argv:
        print("\n".join(met))
        print(len(names), "names,", len(turns), "files")
        return 0
    for path, new in turns.items():
        with open(path, "w", encoding="utf-8") as f:
            f.write(new)
    print(f"{len(names)} names, {len(turns)} files")
    return 0


if __name__ == "__main__":
    raise SystemExit(main())
