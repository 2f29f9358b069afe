#!/usr/bin/env python3
"""Spells the names that this repository declares in specs/ and proofs/ as today's Rattle spells names.

usage: python3 tools/respell.py [ROOT]      once, right after port.py of the kit

A definition, a lemma or a field in camel case or with dashes gets words joined by underscores: lesserOf becomes
lesser_of, what-ends-a-session becomes what_ends_a_session. Where a lemma or a field would then have the name of
another definition, it gets _lem behind it. Types, constructors and the functions, types and fields of src/ keep
their names. What turns: .antt files whole (quoted text aside), the ghost lines, clauses and comments of .rt files,
the must-fail edits of both kinds of line, and the code spans of the papers.
"""
import collections
import os
import re
import sys

DECL = re.compile(r'(?m)^([ \t]*)((?:(?:abbrev|unfoldable|pub|record|data|ruleset)\s+)*)([^\s:(){}.,;|=@"«»`]+)(?:\s*[({][^\n]*?[)}])*\s*(?::(?!:)|=)')
WORD = re.compile(r'[^\s(){}.;,@"«»`]+')
# The files of a function's own proof, which stand in a folder below proofs/.
OWN = re.compile(r"/proofs/.+/(?:Proof|Answers|Invariants)\.antt$")
# In a function's own files a name behind one of these heads is a step, a goal or a field that Rattle makes.
MADE = re.compile(r"(?:^|[\s(){},;])(?:c|goal|tie|w|l|g)\.$")


def walk(root):
    for crate in sorted(os.listdir(os.path.join(root, "crates"))):
        for folder, dirs, files in os.walk(os.path.join(root, "crates", crate)):
            if folder == os.path.join(root, "crates", crate):
                dirs[:] = sorted(d for d in dirs if d != "out")
            for f in sorted(files):
                yield os.path.join(folder, f)


def read(path):
    with open(path, encoding="utf-8") as f:
        return f.read()


def snake(name):
    return re.sub(r"(?<=[a-z0-9])([A-Z])", lambda m: "_" + m[1].lower(), name).replace("-", "_")


def declared(root):
    """Every name that a file of specs/ or proofs/ declares, with whether it is a definition of the first column."""
    names = {}
    for p in walk(root):
        if not p.endswith(".antt") or OWN.search(p):
            continue
        text = re.sub(r"--[^\n]*", "", read(p))
        for m in DECL.finditer(text):
            if m[3] in ("use", "mod", "let", "in", "where"):
                continue
            is_definition = "/specs/" in p and not m[1]
            names[m[3]] = names.get(m[3], False) or is_definition
    return names


def table(names):
    turned = {n: snake(n) for n in names if n[0].islower() and snake(n) != n}
    groups = collections.defaultdict(list)
    for n in names:
        groups[turned.get(n, n)].append(n)
    for new, olds in groups.items():
        if len(olds) == 1:
            continue
        camel = [n for n in olds if re.search("[A-Z]", n)]
        first = camel[0] if camel else next((n for n in olds if n == new), olds[0])
        for n in olds:
            if n != first:
                turned[n] = new + "_lem"
    return turned | EXTRA


# Names in .antt files that the rule alone would not give: a fact is spelled as a type.
EXTRA = {"charged": "Charged"}


def turn_words(text, turned, made=False):
    def one(m):
        w = m[0]
        if w not in turned or made and MADE.search(text[max(0, m.start() - 12) : m.start()]):
            return w
        return turned[w]

    return WORD.sub(one, text)


def turn_comment(text, turned):
    """In prose only words in camel case are names for sure; in code spans every name is one."""
    camel = {k: v for k, v in turned.items() if re.search("[A-Z]", k)}
    parts = text.split("`")
    return "`".join(turn_words(p, turned if i % 2 else camel) for i, p in enumerate(parts))


def turn_antt(text, turned, made):
    theirs = lent(text)
    turned = {k: v for k, v in turned.items() if k not in theirs}
    out = []
    for line in text.split("\n"):
        if line.lstrip().startswith("--") or " -- " in line:
            code, dash, comment = line.partition("--")
        else:
            code, dash, comment = line, "", ""
        out.append(turn_words(code, turned, made) + dash + turn_comment(comment, turned))
    return "\n".join(out)


IMPORT = re.compile(r"(?m)^use +([^\s{]+?)\.\{([^}]*)\}")


def lent(text):
    """The names that a file takes from a library of the kit."""
    names = set()
    for m in IMPORT.finditer(text):
        if not re.match(r"Rattle\.(?!(?:std|core|libc|io|os)\b)", m[1]):
            names |= {x.split(" as ")[-1].strip() for x in m[2].split(",")}
    return names


CLAUSE = re.compile(r"(?:\b(?:requires|ensures)\s*\*?\s*(?:\w+\s*)?\{|\bghost\s+use\b)")


def turn_rt(text, turned):
    out, at = [], 0
    while True:
        m = CLAUSE.search(text, at)
        c = re.compile(r"//[^\n]*").search(text, at)
        if c and (not m or c.start() < m.start()):
            out.append(text[at : c.start()] + turn_comment(c[0], turned))
            at = c.end()
            continue
        if not m:
            out.append(text[at:])
            return "".join(out)
        out.append(text[at : m.start()])
        if m[0].startswith("ghost"):
            end = text.index(";", m.end())
        else:
            depth, end = 1, m.end()
            while depth:
                depth += {"{": 1, "}": -1}.get(text[end], 0)
                end += 1
        out.append(turn_words(text[m.start() : end], turned))
        at = end


def turn_paper(text, turned):
    def span(m):
        return "`" + turn_words(m[1], turned) + "`"

    return re.sub(r"`([^`\n]*)`", span, text)


def main():
    root = sys.argv[1] if len(sys.argv) > 1 else "."
    turned = table(declared(root))
    papers = [os.path.join(root, "README.md"), os.path.join(root, "crates.txt")]
    for folder, _, files in os.walk(os.path.join(root, "docs")):
        papers += [os.path.join(folder, f) for f in files if f.endswith(".md") and f not in ("PORT.md", "DESIGN-PASS.md")]
    changed = 0
    for p in list(walk(root)) + papers:
        if p.endswith(".antt"):
            new = turn_antt(read(p), turned, bool(OWN.search(p)))
        elif p.endswith(".rt"):
            new = turn_rt(read(p), {k: v for k, v in turned.items() if k not in EXTRA})
        elif p.endswith(".edit"):
            new = turn_words(read(p), turned)
        elif p.endswith(".md"):
            new = turn_paper(read(p), turned)
        else:
            continue
        if new != read(p):
            changed += 1
            with open(p, "w", encoding="utf-8") as f:
                f.write(new)
    for old in sorted(turned):
        if turned[old].endswith("_lem"):
            print(f"beside another: {old} -> {turned[old]}")
    print(f"{len(turned)} names, {changed} files")


if __name__ == "__main__":
    main()
