#!/usr/bin/env python3
"""Lists the places in crates/*/src where an older form stands, for docs/DESIGN-PASS.md.

    tools/forms.py [FOLDER]         FOLDER is the top of the repository (this one where none is named)

The points are those of the page. A line is a place; the last line of each point is the count.
"""
import collections
import pathlib
import re
import sys

TOP = pathlib.Path(sys.argv[1] if len(sys.argv) > 1 else pathlib.Path(__file__).resolve().parent.parent)
NOTHING = {"Absent", "Wrong", "Bad", "Store", "Nothing", "Not", "Room", "Stop", "Further", "Full", "Height", "Key", "Count", "Over", "None"}


def sources():
    for path in sorted(TOP.glob("crates/*/src/*.rt")):
        yield path, path.read_text().split("\n")


def code(line):
    return line.split("//")[0]


def items(lines, kind):
    """Each enum or struct: its first line, its name and its body."""
    for i, line in enumerate(lines):
        m = re.match(r"(pub )?%s (\w+)" % kind, line)
        if m:
            body = []
            for later in lines[i + 1:]:
                if later.startswith("}") or line.endswith(";"):
                    break
                body.append(code(later))
            yield i + 1, m.group(2), body


def functions(lines):
    """Each function at the left edge or in an impl: its first line, its name, its signature with the contract, and its body."""
    i = 0
    while i < len(lines):
        m = re.match(r"( *)(pub )?(const )?(unsafe )?(extern \"C\" )?fn (\w+)", code(lines[i]))
        if not m:
            i += 1
            continue
        indent, start, head = m.group(1), i, []
        while i < len(lines) and lines[i] != indent + "{" and not lines[i].endswith(" {") and not lines[i].rstrip().endswith(";"):
            head.append(code(lines[i]))
            i += 1
        if i < len(lines) and lines[i] != indent + "{":
            head.append(code(lines[i]))
        body = []
        i += 1
        while i < len(lines) and lines[i] != indent + "}":
            body.append(code(lines[i]))
            i += 1
        yield start + 1, m.group(6), head, body


def say(path, line, text):
    print("  %s:%d: %s" % (path.relative_to(TOP), line, text))


def point(number, heading, places):
    print("%d. %s" % (number, heading))
    n = 0
    for place in places:
        say(*place)
        n += 1
    print("   point %d: %d" % (number, n))


def shapes():
    for path, lines in sources():
        for at, name, body in items(lines, "enum"):
            variants = [m.group(1) for m in (re.match(r"    (\w+)", b) for b in body) if m]
            refusing = [v for v in variants if v in NOTHING]
            if refusing and not name.endswith("Error"):
                yield path, at, "enum %s has %s" % (name, ", ".join(refusing))
        for at, name, body in items(lines, "struct"):
            if any(re.match(r"    (pub )?\w+: bool,", b) for b in body):
                yield path, at, "struct %s has a flag beside values" % name
        for at, name, head, body in functions(lines):
            signature = " ".join(head)
            codes = [b for b in body if re.search(r"=> \d+,|return (16|255);|=> (DONE|STORE|KEY|ABSENT|ROOM|COUNT),", b)]
            if codes and re.search(r"-> (u8|u32|usize)\b", signature):
                yield path, at, "fn %s answers a number for a kind or a refusal" % name
            elif re.search(r"-> bool\b", signature) and "&mut" in signature:
                yield path, at, "fn %s changes something and answers a flag" % name
            elif re.search(r"-> (u8|u32|usize|bool)\b", signature) and any(re.match(r"\s*Err\(_\) =>|\s*\w+::(%s)\b.* => (0|false)," % "|".join(NOTHING), b) for b in body):
                yield path, at, "fn %s answers 0 or no for a refusal" % name


def twins():
    """Functions of one crate that are the same but for digits, `leaf` and `branch`, or `little` and `big`, and functions that are the same but for names."""
    seen = collections.defaultdict(list)
    for path, lines in sources():
        crate = path.parts[-3]
        for at, name, head, body in functions(lines):
            text = " ".join(head + body)
            text = re.sub(r"\bensures\b.*?\}(?= )|\brequires\b.*?\}(?= )", "", text)
            plain = re.sub(r"leaf|branch|leaves|branches", "record", text, flags=re.I)
            shape = re.sub(r"\b[a-z_]\w*\b", "x", re.sub(r"\d+", "0", re.sub(r"\b[A-Z]\w*\b", "T", plain)))
            if len(body) >= 2:
                seen[re.sub(r"\s+", " ", shape)].append((path, at, name))
            stem = re.sub(r"leaf|leaves|branch(es)?", "record", re.sub(r"\d", "", name))
            if stem != name and crate in ("fields", "records", "audit"):
                seen[crate + " " + stem].append((path, at, name))
    told = set()
    for places in seen.values():
        if len(places) > 1:
            for path, at, name in places:
                if (path, at) not in told:
                    told.add((path, at))
                    yield path, at, "fn %s ~ %s" % (name, ", ".join(n for p, a, n in places if (p, a) != (path, at)))


def loops():
    for path, lines in sources():
        for i, line in enumerate(lines):
            if re.search(r"\bwhile\b.*\{$|\bloop \{$", code(line)):
                yield path, i + 1, code(line).strip()


def by_hand():
    names = r"(same\w*|is_below|is_same|named|told_\w+|\w+_number|found_\w+|mode_\w+|includes|flag|wide|size_of|parsed_as|refused|empty_of|made|checked|limited|inserted|changed|turned|low|is_all)$"
    for path, lines in sources():
        for at, name, head, body in functions(lines):
            if re.match(names, name):
                yield path, at, "fn %s" % name


def facts():
    """What three or more contracts ask, and parameters that three or more functions take side by side."""
    asked, together = collections.Counter(), collections.Counter()
    for path, lines in sources():
        crate = path.parts[-3]
        for at, name, head, body in functions(lines):
            text = " ".join(head)
            for clause in re.findall(r"requires \w*\s*\{ (.*?) \}(?= |$)", text):
                for fact in re.split(r"\) × \(|\) × (?=\w)", clause):
                    fact = re.sub(r"\.(now|old)\b", "", fact.strip("() "))
                    asked[fact] += 1
            parameters = re.sub(r"\s+", " ", text.split("->")[0])
            found = [p for p in re.findall(r"(\w+: [^,()]+)(?=,|\)|$)", parameters.split("requires")[0].split("ensures")[0])]
            for a, b in zip(found, found[1:]):
                together[re.sub(r"mut ", "", a.strip() + ", " + b.strip())] += 1
    for fact, n in sorted(asked.items(), key=lambda f: (-f[1], f[0])):
        if n >= 3:
            yield TOP / "crates", n, "contracts ask %s" % fact
    for pair, n in sorted(together.items(), key=lambda f: (-f[1], f[0])):
        if n >= 3:
            yield TOP / "crates", n, "functions take %s" % pair


def buffers():
    for path, lines in sources():
        for at, name, head, body in functions(lines):
            signature = " ".join(head)
            if re.search(r"(out|key|line|buf|piece|page): &mut \[u8\]", signature) and re.search(r"-> (usize|Option<usize>|Result<Parsed, LineError>|Result<usize, LineError>|Decoded|Parsed|Held|Taken|Shown|Turn)(?![\w>])", signature):
                yield path, at, "fn %s fills the start of a slice and answers how much" % name


def switches():
    for path, lines in sources():
        for at, name, body in items(lines, "enum"):
            if name in ("Verb",):
                yield path, at, "enum %s tells which step to take" % name
        for at, name, head, body in functions(lines):
            if "letter: u8" in " ".join(head):
                yield path, at, "fn %s runs a step by a letter" % name


point(1, "Own enums of the shape of Option or Result, a flag with a value beside it, numbers for kinds or refusals", shapes())
point(2, "Twins", twins())
point(3, "Loops that count an index by hand", loops())
point(4, "Equality, order, copying, conversion and printing written by hand", by_hand())
point(5, "Facts and parameters that stand together in three or more contracts (the number before a line says in how many)", facts())
point(6, "Buffers with a length beside them", buffers())
point(7, "A switch on which step to run", switches())
