#!/usr/bin/env python3
"""Lists the places in src/ that an older form of Rattle may have left, by the points of docs/DESIGN-PASS.md.

    python3 tools/places.py            the count of each point
    python3 tools/places.py 3          the places of point 3, a line each

It goes by text: what it lists is looked at by a reader, who changes it or says beside it why it stays.
"""
import collections
import glob
import re
import sys

TABLES = {"map", "places", "numbers", "used"}


def sources():
    for name in sorted(glob.glob("crates/*/src/**/*.rt", recursive=True)):
        with open(name, encoding="utf-8") as f:
            yield name, f.read()


def line_of(text, at):
    return text.count("\n", 0, at) + 1


def code(text):
    """The text without comments, each as long as it was."""
    return re.sub(r"//[^\n]*", lambda m: " " * len(m.group(0)), text)


def functions(text):
    """Each function: where it begins, its name, its parameters, its clauses, its body."""
    for m in re.finditer(r"\bfn (\w+)", text):
        at = text.find("(", m.end())
        depth, end = 0, at
        while True:
            depth += {"(": 1, ")": -1}.get(text[end], 0)
            end += 1
            if depth == 0:
                break
        params = text[at + 1 : end - 1]
        rest = text[end:]
        # The body begins on the first line with an open brace that is no clause's.
        lines, body = rest.split("\n"), None
        for i, line in enumerate(lines):
            s = line.strip()
            if s == "{" or (s.endswith("{") and not s.startswith(("requires", "ensures"))):
                body = "\n".join(lines[i:])
                break
            if s.endswith(";") and not s.startswith(("requires", "ensures")):
                break
        if body is None:
            continue
        clauses = "\n".join(lines[:i])
        depth, end2 = 0, body.find("{")
        k = end2
        while k < len(body):
            depth += {"{": 1, "}": -1}.get(body[k], 0)
            k += 1
            if depth == 0:
                break
        yield m.start(), m.group(1), params, clauses, body[end2:k]


def names_of(params):
    return {p.split(":")[0].strip().removeprefix("mut ") for p in re.split(r",(?![^<(]*[>)])", params) if ":" in p}


def point_1():
    for name, text in sources():
        t = code(text)
        for m in re.finditer(r"^(?:pub )?enum (\w+) \{(.*?)^\}", t, re.M | re.S):
            variants = re.findall(r"^    (\w+) ?([({]?)", m.group(2), re.M)
            full = [v for v, p in variants if p]
            bare = [v for v, p in variants if not p]
            if (len(variants) == 2 and full) or {"Nothing", "Fine"} & set(bare):
                yield name, line_of(t, m.start()), "enum " + m.group(1)
        for m in re.finditer(r"^pub struct (\w+) \{(.*?)^\}", t, re.M | re.S):
            if re.search(r": bool,", m.group(2)) and re.search(r": (?:u32|usize|u8)", m.group(2)):
                yield name, line_of(t, m.start()), "flag beside values in " + m.group(1)
        for m in re.finditer(r"\w\] [!=]= 1\b|\w\] = 1;|\bkind == 1\b|\banswer == 1\b|way\(\) == 1\b", t):
            yield name, line_of(t, m.start()), m.group(0)


def shape(body):
    words = re.findall(r"\w+|[^\s\w]", code(body))
    keep = {"if", "while", "for", "in", "match", "return", "let", "mut", "loop", "break", "continue", "as", "else"}
    return " ".join(w if w in keep or not re.match(r"\w", w) else ("9" if w[0].isdigit() else "x") for w in words)


def point_2():
    for name, text in sources():
        for m in re.finditer(r"^ *// [Tt]he same\b[^\n]*\n(?: *//[^\n]*\n)*\s*(?:pub )?fn (\w+)", text, re.M):
            yield name, line_of(text, m.start()), m.group(1) + ", said to be the same as the one before"
    seen = collections.defaultdict(list)
    for name, text in sources():
        if "/capi/" in name:
            continue
        for at, fn, params, _, body in functions(text):
            s = shape(params) + " | " + shape(body)
            if len(s.split()) >= 40:
                seen[s].append((name, line_of(text, at), fn))
    for group in seen.values():
        if len(group) > 1:
            for name, line, fn in group:
                others = ", ".join(f for _, _, f in group if f != fn) or "one of its name"
                yield name, line, fn + ", of the shape of " + others


def point_3():
    for name, text in sources():
        t = code(text)
        for m in re.finditer(r"^\s*(?:'\w+: )?while [^\n]*", t, re.M):
            yield name, line_of(t, m.end()), m.group(0).strip()


def point_4():
    own = re.compile(
        r"fn (same_\w+|still_same\w*|copy_\w+|take_marks|number|phase_\w+|kind_of|lesser|plain_of|state_of|settings_of"
        r"|\w*result_of|word_of|\w+_words|say_name|say_keyword|say_\w*trouble)\("
    )
    for name, text in sources():
        t = code(text)
        for m in own.finditer(t):
            yield name, line_of(t, m.start()), m.group(1)


def point_5():
    clauses = collections.defaultdict(list)
    for name, text in sources():
        t = code(text)
        for at, fn, params, said, _ in functions(t):
            if len(TABLES & names_of(params)) >= 3:
                yield name, line_of(t, at), fn + ": the tables, one by one"
            for m in re.finditer(r"requires(?: \w+)? (\{.*\})", said):
                clauses[m.group(1)].append((name, line_of(t, at), fn))
    for clause, places in sorted(clauses.items()):
        if len(places) >= 3:
            for name, line, fn in places:
                yield name, line, fn + ": " + clause


def point_6():
    for name, text in sources():
        t = code(text)
        for at, fn, params, _, _ in functions(t):
            names = names_of(params)
            if re.search(r"\b(count|len|total|pieces|taken|most|held): (usize|u32)", params) and re.search(r"\[", params):
                yield name, line_of(t, at), fn + ": a length beside what it is the length of"
            if len({"sectors", "numbered", "pieces", "numbers"} & names) >= 3 and "sectors" in names:
                yield name, line_of(t, at), fn + ": arrays side by side"


def point_7():
    for name, text in sources():
        t = code(text)
        for m in re.finditer(r"match (\w+) \{\n((?:\s+[\w:]+(?:\([^)\n]*\))?(?: \| [\w:]+)* => [^\n]*\n)+)", t):
            arms = re.findall(r"=> [\w:]+\(", m.group(2))
            if len(arms) >= 3 and len(arms) == m.group(2).count("=>"):
                yield name, line_of(t, m.start()), "match " + m.group(1) + ", a call in each arm"


def point_8():
    for name in sorted(glob.glob("crates/*/proofs/**/Answers.antt", recursive=True)):
        with open(name, encoding="utf-8") as f:
            for i, line in enumerate(f):
                if re.match(r"pub \S+ :", line):
                    yield name, i + 1, line.split(":")[0].strip()


POINTS = [point_1, point_2, point_3, point_4, point_5, point_6, point_7, point_8]


def main():
    if len(sys.argv) > 1:
        for name, line, what in POINTS[int(sys.argv[1]) - 1]():
            print(f"{name}:{line}: {what}")
        return
    for i, point in enumerate(POINTS):
        print(f"{i + 1}: {len(list(point()))}")


main()
