#!/usr/bin/env python3
"""Brings the names of this repository's own definitions and lemmas to snake case.

usage: python3 tools/spelling.py [-n]      at the top, once, right after the port's own script; -n prints the names and writes nothing

A name is ours if a file of crates/*/specs or crates/*/proofs declares it and it begins with a small letter. camelCase and
dashes become underscores; a segment with a capital behind a dash stays (`length-D`). Where a lemma would get the name of another
declaration, or of a word that is imported here, it gets `_lem` behind its name. Names of src/, strings and text keep their spelling.
"""
import os
import re
import sys

TOKEN = re.compile(r"[^\s(){}\[\],.;λ`\"|:=×→⌜⌝↔↦]+")
DECLARED = re.compile(r"\s*(?:(?:pub|abbrev|unfoldable)\s+)*([^\s(){}\[\],.;λ:]+)(?:\s*:\s|\s*:$)")
RECORD = re.compile(r"\s*(?:(?:pub|abbrev|unfoldable)\s+)*(?:data|record|ruleset)\s+(?:pub\s+)?([^\s(){}\[\],.;λ]+)")
GOAL = re.compile(r":\s*(?:tie|goal)\.(?:Need|invariant|decreases|statement|Covers)|:\s*(?:ends|seals)\b")
SHAPE = re.compile(r"[a-z][A-Za-z0-9≡'-]*$")
MADE = re.compile(r"(returns|loop|invariant-loop|decreases-loop|add|sub|mul|cast|shared-slice|slice-aggregate)(-|$)")


def files(*ends):
    for root, dirs, names in os.walk("crates"):
        dirs[:] = sorted(d for d in dirs if d != "out")
        for n in sorted(names):
            if n.endswith(ends):
                yield os.path.join(root, n)


def read(p):
    with open(p, encoding="utf-8") as f:
        return f.read()


def brought(line):
    """The names that a line with `use` brings in."""
    braces = re.search(r"\{(.*)\}", line)
    return set(TOKEN.findall(braces.group(1))) if braces else set(re.findall(r"\bas (\S+?);?$", line))


def snake(n):
    n = re.sub(r"-(?![A-Z])", "_", n)
    return re.sub(r"([a-z0-9])([A-Z])", lambda m: m.group(1) + "_" + m.group(2).lower(), n)


def names():
    ours, others, imported = {}, set(), set()
    for p in files(".antt"):
        text = read(p)
        for line in text.splitlines():
            if line.lstrip().startswith("--"):
                continue
            if re.match(r"\s*(?:pub\s+)?use\s", line):
                imported |= brought(line)
                continue
            m = RECORD.match(line) or DECLARED.match(line)
            if not m:
                continue
            n = m.group(1)
            if "/proofs/" in p and os.path.basename(p) == "Proof.antt" and (GOAL.search(line) or MADE.match(n)):
                others.add(n)
            elif SHAPE.match(n) and snake(n) != n:
                ours.setdefault(n, p)
            else:
                others.add(n)
    for p in files(".rt"):
        for line in read(p).splitlines():
            if line.startswith("ghost use"):
                imported |= brought(line)
            m = re.match(r"\s*(?:pub(?:\(\w+\))?\s+)?(\w+): ", line)
            if m and not m.group(1).endswith("_disagreed"):  # two fields that the model's record names alike
                others.add(m.group(1))  # a field, or a parameter on a line of its own
            m = re.search(r"\bfn \w+(?:<[^>]*>)?\(([^)]*)\)", line)
            if m:
                others |= set(re.findall(r"(\w+):", m.group(1)))
    taken = others | (imported - set(ours))
    turned = {}
    # a definition in camelCase has its name before a lemma with dashes
    for n in sorted(ours, key=lambda n: ("-" in n, n)):
        to = snake(n)
        while to in taken:
            to += "_lem"
        taken.add(to)
        turned[n] = to
    return turned


def turned_line(line, table, comment, dashes):
    """line with each name of the table turned; no string, and behind the comment sign dashes only between backticks."""
    out, at, code, quoted = [], 0, True, False
    for m in re.finditer(r"\"(?:[^\"\\]|\\.)*\"|`|" + re.escape(comment) + r"|" + TOKEN.pattern, line):
        out.append(line[at:m.start()])
        at = m.end()
        w = m.group(0)
        if w.startswith(comment) and code:
            code = False
        elif w == "`":
            quoted = not quoted
        elif not w.startswith("\"") and w in table and (code or quoted or "-" not in w) and (dashes or "-" not in w or code):
            w = table[w]
        out.append(w)
    return "".join(out) + line[at:]


def main():
    table = names()
    if "-n" in sys.argv:
        for n in sorted(table):
            print(n, table[n])
        return
    for p in files(".antt", ".rt", ".edit"):
        text = read(p)
        sign = "--" if p.endswith(".antt") else "//"
        new = "".join(turned_line(line, table, sign, True) for line in text.splitlines(keepends=True))
        if new != text:
            with open(p, "w", encoding="utf-8") as f:
                f.write(new)
    pages = ["README.md"] + sorted(os.path.join("docs", f) for f in os.listdir("docs") if f.endswith(".md"))
    pages += sorted(os.path.join("docs/changes", f) for f in os.listdir("docs/changes"))
    for p in pages:
        text = read(p)
        new = re.sub(r"`[^`\n]+`", lambda m: re.sub(TOKEN, lambda w: table.get(w.group(0), w.group(0)), m.group(0)), text)
        if new != text:
            with open(p, "w", encoding="utf-8") as f:
                f.write(new)


main()
