#!/usr/bin/env python3
"""Brings the repository's own definitions and lemmas to the kit's spelling: words in snake case, types and modules in camel case.

usage: tools/snake_names.py [ROOT]     once, after port.py of the kit

A name is renamed where a file of specs/ or proofs/ defines it (as a definition, a lemma, a constructor or a field): `keyLimit` becomes `key_limit`,
`critical-agree` becomes `critical_agree`. Where a lemma would then have its function's name, it gets `_lem`. Functions of src/, exported names, strings,
inputs and outputs keep their names; so does a name that a file brings in from a library. In comments and pages a name is turned where it stands in
backquotes, and one in camel case anywhere.
"""

import collections
import os
import re
import sys

BREAK = r"\s(){}\[\]#;,.«»⟦⟧`\"|:=λ→×$∷"
TOKEN = re.compile(rf"[^{BREAK}]+")
DEFINED = re.compile(r"(?m)^([ \t]*)((?:abbrev |unfoldable |pub |data |record )*)([^\s:(){}]+)((?: [({][^)}]*[)}])*) :[ \n]")
SEVERAL = re.compile(r"(?m)^[ \t]+(?:pub )?((?:[^\s:(){}=]+ )+[^\s:(){}=]+) : ")
GROUPED = re.compile(r"(?m)^pub record [^\n]*?\(([^\n]*)\) : Type")
ALIAS = re.compile(r"\bas ([^\s,}]+)")
WORDS = {"use", "mod", "mutual", "pub", "data", "record", "abbrev", "unfoldable", "let", "in", "as", "elim", "where"}
# std's getD is get_or.
LIBRARY = [(re.compile(r"^getD-"), "get_or-")]


def snake(name):
    if re.match(r"^[A-Z0-9_]+$", name):
        return name
    for was, now in LIBRARY:
        name = was.sub(now, name)
    if re.match(r"^[a-z]", name):
        name = re.sub(r"(?<=[a-z0-9])([A-Z])(?![A-Z])", lambda m: "_" + m.group(1).lower(), name)
    return re.sub(r"(?<=[\w'])-(?=\w)", "_", name)


def files(root, endings):
    for folder, dirs, names in os.walk(os.path.join(root, "crates")):
        dirs[:] = sorted(d for d in dirs if d not in ("out", "must-fail"))
        for n in sorted(names):
            if n.endswith(endings):
                yield os.path.join(folder, n)


def read(path):
    with open(path, encoding="utf-8") as f:
        return f.read()


def plain(text):
    return re.sub(r"--[^\n]*", "", text)


def defined(root):
    found = collections.defaultdict(set)
    for p in files(root, ".antt"):
        text = plain(read(p))
        for m in DEFINED.finditer(text):
            found[m.group(3)].add(p)
        for m in SEVERAL.finditer(text):
            for n in m.group(1).split():
                found[n].add(p)
        for line in re.findall(r"(?m)^use [^\n]*", text):
            for n in ALIAS.findall(line):
                found[n].add(p)
    for p in files(root, ".rt"):
        for line in re.findall(r"(?m)^\s*ghost use [^\n]*", read(p)):
            for n in ALIAS.findall(line):
                found[n].add(p)
    return {n: ps for n, ps in found.items() if n not in WORDS}


def is_function(name):
    """Functions are in camel case, lemmas have hyphens, or underscores where the kit's script has turned them."""
    return "-" not in name and re.search(r"[A-Z]", name)


# Every name that a file of specs/ or proofs/ defines, as it stands before.
NAMES = set()

# Every name after it.
KNOWN = set()

# Names of one word that are no lemmas, beside a lemma or a function of the same words.
KEPT = {"is_empty"}


def renaming(found):
    groups = collections.defaultdict(set)
    for n in found:
        groups[snake(n)].add(n)
    turned = {}
    for new, olds in groups.items():
        functions = [n for n in olds if is_function(n)]
        for n in olds:
            lemma = len(olds) > 1 and n not in functions and n not in KEPT
            to = new + "_lem" if lemma else new
            if lemma and to in groups:
                raise SystemExit(f"{n}: both {new} and {to} are taken")
            if to != n:
                turned[n] = to
    return turned


def imported(text, own):
    """The names that a file brings in from libraries."""
    names = set()
    for m in re.finditer(r"(?m)^\s*(?:pub )?(?:ghost )?use ([^\s{;]+?)\.\{([^}]*)\}", text):
        crate = m.group(1).split(".")[1] if m.group(1).startswith("Rattle.") else ""
        if crate in own:
            continue
        for item in m.group(2).split(","):
            names.add(item.split(" as ")[0].strip())
    return names


def said(turned):
    """A name in a comment or a page: also one that the kit's script has turned in the text."""
    if not KNOWN:
        KNOWN.update(turned.values())
        KNOWN.update(n for n in NAMES if snake(n) == n)
    known = KNOWN

    def word(m):
        n = m.group(0)
        return turned.get(n) or (snake(n) if snake(n) in known else n)

    return word


def quoted(comment, turned):
    word = said(turned)
    comment = re.sub(r"`[^`\n]*`", lambda m: TOKEN.sub(word, m.group(0)), comment)
    return re.sub(r"\b[a-z]+[A-Z]\w*\b", word, comment)


def turn(text, turned, kept):
    def word(m):
        n = m.group(0)
        return n if n in kept else turned.get(n, n)

    out = []
    for line in text.split("\n"):
        at = re.search(r"--|//", line)
        head, comment = (line[: at.start()], line[at.start() :]) if at else (line, "")
        out.append(TOKEN.sub(word, head) + quoted(comment, turned))
    return "\n".join(out)


def source(text, turned, kept):
    """A file of src/: only names in camel case, which no item of the source has, and those of `ghost use`."""
    camel = {n: to for n, to in turned.items() if is_function(n)}
    return turn(text, camel, kept)


def page(text, turned):
    word = said(turned)
    return re.sub(r"`[^`\n]*`", lambda m: TOKEN.sub(word, m.group(0)), text)


def hidden(root, turned):
    """Where a new name stands in a file already, it may be another thing there."""
    news = set(turned.values())
    for p in files(root, (".antt", ".rt")):
        text = re.sub(r"(--|//)[^\n]*", "", read(p))
        tokens = set(TOKEN.findall(text))
        became = {turned[t] for t in tokens if t in turned}
        for n in sorted(tokens & became):
            if n not in turned:
                yield p, n


def main(argv):
    root = os.path.abspath(argv[0] if argv else os.path.join(os.path.dirname(os.path.realpath(__file__)), ".."))
    own = set(os.listdir(os.path.join(root, "crates")))
    found = defined(root)
    NAMES.update(found)
    turned = renaming(found)
    for p, n in hidden(root, turned):
        print(f"look: {os.path.relpath(p, root)}: {n} stands there already")
    for p in files(root, ".antt"):
        text = read(p)
        new = turn(text, turned, imported(text, own))
        if new != text:
            with open(p, "w", encoding="utf-8") as f:
                f.write(new)
    for p in files(root, ".rt"):
        text = read(p)
        new = source(text, turned, imported(text, own))
        if new != text:
            with open(p, "w", encoding="utf-8") as f:
                f.write(new)
    pages = [os.path.join(root, n) for n in ("README.md", "CONTRIBUTING.md")]
    pages += [os.path.join(f, n) for f, _, ns in os.walk(os.path.join(root, "docs")) for n in sorted(ns) if n.endswith(".md")]
    for p in pages:
        text = read(p)
        new = page(text, turned)
        if new != text:
            with open(p, "w", encoding="utf-8") as f:
                f.write(new)
    print(f"{len(turned)} names turned")
    with open(os.path.join(root, "tools", "names.tsv"), "w", encoding="utf-8") as f:
        for n in sorted(turned):
            f.write(f"{n}\t{turned[n]}\n")


if __name__ == "__main__":
    raise SystemExit(main(sys.argv[1:]))
