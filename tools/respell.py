#!/usr/bin/env python3
"""Respells the repository's own names of definitions and lemmas: snake case, with plain underscores.

usage: python3 tools/respell.py        once, at the top of the repository, right after the kit's port.py

Turned is each name with a small first letter that specs/ or a lemma file of proofs/ declares, as `toldSymbol` to
`told_symbol` and `told-apart` to `told_apart`. A lemma that would then have the name of a definition or of a function
of src/ gets `_lem`. Files: .antt, the clauses of .rt, the edits, and code spans of the documents.
What Rattle generates for a function's proof (fields behind a dot, the names of its goals) is left alone.
"""
import collections
import os
import re

WORD = r"[^\s(){}.;,@\"«»\[\]`|?:]+"
DECL = re.compile(
    r"^(\s*)((?:pub |abbrev |unfoldable )*)(data |record )?(" + WORD + r")(?: [\{\(][^}\n]*[\}\)])* :(?:\s|$)")


def snake(name):
    words = re.sub(r"(?<=[a-z0-9])[A-Z]", lambda m: "_" + m[0].lower(), name)
    return words.replace("-", "_")


def walk(ends):
    for folder, dirs, files in os.walk("crates"):
        dirs[:] = sorted(d for d in dirs if d not in ("out", "must-fail"))
        for f in sorted(files):
            if f.endswith(ends):
                yield os.path.join(folder, f)


def of_function(path):
    """Is it a file of one function's proof?"""
    return "/proofs/" in path and path.split("/proofs/")[1].count("/") > 0


def names():
    """Names that files declare: those of definitions, those of lemmas, and those of functions of src/."""
    defs, lemmas, functions = set(), set(), set()
    for path in walk(".antt"):
        if of_function(path):
            continue
        for line in open(path):
            m = DECL.match(line)
            if m and re.match(r"[a-z]", m[4]) and m[4] not in ("let", "use", "elim"):
                (defs if "/specs/" in path else lemmas).add(m[4])
    for path in walk(".rt"):
        functions |= set(re.findall(r"\bfn (\w+)", open(path).read()))
    # a definition of proofs/ is told by its mark
    for path in walk(".antt"):
        if not of_function(path) and "/proofs/" in path:
            for line in open(path):
                m = DECL.match(line)
                if m and re.match(r"[a-z]", m[4]) and ("abbrev" in m[2] or "unfoldable" in m[2] or re.search(r"[a-z][A-Z]", m[4])):
                    defs.add(m[4])
    return defs, lemmas - defs, functions


def table():
    defs, lemmas, functions = names()
    turn = {}
    taken = set()
    for n in sorted(defs):
        turn[n] = snake(n)
        taken.add(turn[n])
    for n in sorted(lemmas):
        new = snake(n)
        if new == n and not (n in taken and n not in defs):
            continue
        turn[n] = new + "_lem" if new in taken or new in functions else new
    both = collections.defaultdict(list)
    for a, b in turn.items():
        both[b].append(a)
    for b, olds in both.items():
        if len(olds) > 1:
            raise SystemExit(f"respell: {olds} would all be {b}")
    return {a: b for a, b in turn.items() if a != b}


def turned(text, turn, behind_dots=True):
    def one(m):
        word = m[0]
        if word not in turn:
            return word
        if not behind_dots and text[m.start() - 1:m.start()] == "." and ("-" in word or "_" in word):
            # a field that Rattle made, but for the last part of a path of a module
            line = text[text.rfind("\n", 0, m.start()) + 1:m.start()]
            if not re.search(r"Rattle\.[\w.]*\.$", line):
                return word
        return turn[word]
    return re.sub(WORD, one, text)


def antt(text, turn, behind_dots):
    out = []
    for part in re.split(r"((?:^|(?<=\s))--[^\n]*)", text):
        if part.startswith("--"):
            out.append(re.sub(r"`[^`\n]*`", lambda m: turned(m[0], turn), part))
        else:
            out.append(turned(part, turn, behind_dots))
    return "".join(out)


def rust(text, turn):
    """Names with a capital inside stand in clauses alone; those with a dash turn in ghost use lines alone."""
    inner = {a: b for a, b in turn.items() if re.search(r"[a-z0-9][A-Z]", a) and "-" not in a}
    out = []
    for part in re.split(r"(ghost use [^;]*;|//[^\n]*)", text):
        out.append(turned(part, turn if part.startswith("ghost use") else inner))
    return "".join(out)


def of_libraries(text):
    """The names that a file takes from a library: those stay in it."""
    own = {c for c in os.listdir("crates")}
    kept = set()
    for m in re.finditer(r"^use ([^\s;{]+)\.\{([^}]*)\}", text, re.M):
        parts = m[1].split(".")
        if parts[0] != "Rattle" or parts[1] not in own:
            kept |= set(re.findall(WORD, m[2]))
    return kept


def main():
    whole = table()
    for path in walk(".antt"):
        text = open(path).read()
        kept = of_libraries(text)
        turn = {a: b for a, b in whole.items() if a not in kept}
        new = antt(text, turn, not of_function(path))
        if new != text:
            open(path, "w").write(new)
    turn = whole
    for path in walk(".rt"):
        text = open(path).read()
        new = rust(text, turn)
        if new != text:
            open(path, "w").write(new)
    pages = ["README.md", "CONTRIBUTING.md"] + sorted(os.path.join("docs", f) for f in os.listdir("docs"))
    for path in pages:
        text = open(path).read()
        new = re.sub(r"`[^`\n]*`", lambda m: m[0] if "/" in m[0] else turned(m[0], turn), text)
        if new != text:
            open(path, "w").write(new)


if __name__ == "__main__":
    main()
