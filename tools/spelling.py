#!/usr/bin/env python3
"""Brings the repository's own definitions, fields and lemmas to snake case, and its facts to camel case.

usage: python3 tools/spelling.py [--dry] [FOLDER]

Run once, on a tree that the kit's port.py has turned. A name is renamed in a file where that file declares it or takes it from a
module of this repository; functions of src/, strings, inputs and outputs keep their names. It stops where names fall together.
"""

import collections
import os
import re
import sys

TOKEN = re.compile(r"[^\s(){}\[\],;.:\"⟦⟧`]+")
SIGNATURE = re.compile(r"^\s*(?:(?:pub|abbrev|unfoldable|private|opaque) )*([a-z][^\s:(){}]*) :(?= |$)")
DECLARES = re.compile(r"^\s*(?:(?:pub|abbrev|unfoldable) )*(?:record|data) ([A-Za-z][^\s:(){}]*)")
CAMEL = re.compile(r"[a-z][A-Za-z0-9_'-]*[A-Z]")

# Facts are spelled as types.
FACTS = {
    "isAccepted": "IsAccepted",
    "scanAbove": "ScanAbove",
}
# A lemma that would have the name of what it speaks of. One whose dashes alone tell it apart is found below.
APART = {"sum_below": "sum_below_lem"}


def snake(name):
    if name in FACTS:
        return FACTS[name]
    if name[0].isupper():
        return name
    if name in APART:
        return APART[name]
    name = re.sub(r"(?<=[a-z0-9'])([A-Z])", lambda m: "_" + m[1].lower(), name)
    return name.replace("-", "_")


def split_code(text, comment):
    """Pieces of the text, each with whether it is code."""
    out, i = [], 0
    pattern = re.compile(r'"(?:\\.|[^"\\])*"|' + re.escape(comment) + r"[^\n]*")
    for m in pattern.finditer(text):
        out.append((text[i : m.start()], "code"))
        out.append((m[0], "string" if m[0].startswith('"') else "comment"))
        i = m.end()
    out.append((text[i:], "code"))
    return out


def read(path):
    with open(path, encoding="utf-8") as f:
        return f.read()


def files(root):
    for folder, dirs, names in os.walk(os.path.join(root, "crates")):
        dirs[:] = sorted(d for d in dirs if d not in ("out", ".git"))
        for n in sorted(names):
            if n.endswith((".antt", ".rt")):
                yield os.path.join(folder, n)


def module_of(root, path):
    parts = os.path.relpath(path, os.path.join(root, "crates"))[: -len(".antt")].split(os.sep)
    return "Rattle." + ".".join(parts)


def is_shared(root, path):
    """A file of specs/, or of proofs/ and not of one function."""
    parts = os.path.relpath(path, os.path.join(root, "crates")).split(os.sep)
    return path.endswith(".antt") and len(parts) == 3


def declared(text):
    code = "".join(p if kind == "code" else "" for p, kind in split_code(text, "--"))
    names = set()
    for line in code.splitlines():
        for m in (SIGNATURE.match(line), DECLARES.match(line)):
            if m:
                names.add(m[1])
    return names


def imports(text):
    """name -> module, for each name that a `use` or `ghost use` line brings in."""
    out = {}
    for m in re.finditer(r"(?m)^\s*(?:pub )?(?:ghost )?use ([\w.+']+)\.\{([^}]*)\}", text):
        for n in m[2].split(","):
            n = n.strip()
            if n:
                out[n.split(" as ")[-1].strip()] = m[1]
    return out


def main(argv):
    dry = "--dry" in argv
    rest = [a for a in argv if a != "--dry"]
    root = rest[0] if rest else "."
    own = {}
    fields = set()
    for path in files(root):
        if is_shared(root, path):
            own[module_of(root, path)] = declared(read(path))
    everything = set().union(*own.values())
    plain = {snake(n) for n in everything if "-" not in n}
    for n in everything:
        if "-" in n and snake(n) in plain:
            APART[n] = snake(n) + "_lem"
    renames = {n: snake(n) for n in everything if snake(n) != n}
    problems = []
    olds = collections.defaultdict(set)
    for n in everything:
        olds[snake(n)].add(n)
    for new, names in sorted(olds.items()):
        if len(names) > 1:
            problems.append(f"fall together: {sorted(names)}")
    local = collections.Counter()
    for path in files(root):
        text = read(path)
        antt = path.endswith(".antt")
        pieces = split_code(text, "--" if antt else "//")
        code = " ".join(p for p, kind in pieces if kind == "code")
        brought = imports(text)
        foreign = {n for n, m in brought.items() if not (m in own)}
        tokens = set(TOKEN.findall(code))
        mapping = {}
        goals = set()
        if antt and not is_shared(root, path):
            goals = {m[1] for m in (re.match(r"^(?:pub )?([^\s:]+) : tie\.", l) for l in code.splitlines()) if m}
        for n in tokens:
            if n in foreign or n in goals:
                continue
            if n in renames and (antt or CAMEL.fullmatch(n) or CAMEL.match(n) or "-" in n):
                mapping[n] = renames[n]
            elif antt and CAMEL.match(n) and re.fullmatch(r"[a-z][A-Za-z0-9']*", n) and not re.match(r"(Need|Inv)", n):
                mapping[n] = snake(n)
                local[n] += 1
        news = collections.defaultdict(set)
        for n, new in mapping.items():
            news[new].add(n)
        for new, names in news.items():
            if new in tokens and new not in mapping or len(names) > 1:
                problems.append(f"{path}: {sorted(names)} -> {new}, which stands there" + (f" (from {brought[new]})" if new in brought else ""))
        if not antt:
            for m in re.finditer(r"fn (\w+)(?:<[^>]*>)?\(([^)]*)\)([^{]*(?:\{[^{}]*\}\s*(?=requires|ensures|\{))*)", code):
                params = set(re.findall(r"(\w+)\s*:", m[2]))
                cited = set(TOKEN.findall(m[3]))
                for n, new in mapping.items():
                    if new in params and n in cited:
                        problems.append(f"{path}: fn {m[1]} has a parameter {new}, and its clauses cite {n}")
        if dry:
            continue
        out = []
        for p, kind in pieces:
            if kind == "code":
                p = TOKEN.sub(lambda m: mapping.get(m[0], m[0]), p)
            elif kind == "comment":
                p = TOKEN.sub(lambda m: renames.get(m[0], m[0]) if CAMEL.match(m[0]) else m[0], p)
            out.append(p)
        new = "".join(out)
        if new != text:
            with open(path, "w", encoding="utf-8") as f:
                f.write(new)
    print(f"{len(everything)} names, {len(renames)} renamed; local names: {dict(local)}")
    print("\n".join(problems))
    return 1 if problems else 0


if __name__ == "__main__":
    raise SystemExit(main(sys.argv[1:]))
