#!/usr/bin/env python3
"""Brings the repository's own definitions and lemmas to one spelling: words in snake case, facts and types in camel case.

    tools/respell.py            respells specs/, proofs/, the clauses of src/, and names in backquotes in README.md and docs/
    tools/respell.py --list     prints each name that would change, and what it would be

A dash stays where it joins the names of two functions, as in `length-urging`, and in a name that the check makes, as
`loop-i-preserved`. Names of Rust source and of the libraries keep their spelling. It was run once, when the repository was
brought to a newer Rattle, and changes nothing when it is run again. Where two names would fall together in one file, it says
so and changes nothing.
"""
import re
import sys
from collections import defaultdict
from pathlib import Path

ROOT = Path(__file__).resolve().parent.parent
TOKEN = re.compile(r"[^\s(){}\[\],;.|:\"`]+")
HEAD = re.compile(r"\s*(?:(?:abbrev|unfoldable|pub|data|record)\s+)*([^\s(){}\[\],;.|:\"`]+)(?:\s+[({][^=]*)?\s*:\s")
FUNCTION = re.compile(r"^(?:abbrev|unfoldable) pub ([^\s(){}]+)", re.M)
IMPORT = re.compile(r"\s*(?:ghost )?use ([\w.+-]+)\.\{([^}]*)\}")
OWN = re.compile(r"Rattle\.(?!std\b)\w+\.(specs|proofs)")
KEYWORDS = {"where", "module", "use", "infixr", "infixl", "infix", "let", "in"}

# files that define names, files with the proofs of functions, sources, and pages
DEFINING = sorted(ROOT.glob("crates/*/specs/**/*.antt")) + sorted(ROOT.glob("crates/*/proofs/*.antt"))
ANSWERING = sorted(ROOT.glob("crates/*/proofs/*/**/*.antt"))
SOURCES = sorted(ROOT.glob("crates/*/src/**/*.rt"))
PAGES = sorted(ROOT.glob("docs/*.md")) + [ROOT / "README.md"]

# lemmas that would get the name of the definition that they are about
LEMMAS = {
    ("behaviour", "slots_at"): "slots_at_lem",
    ("behaviour", "frame-at"): "frame_at_lem",
    ("behaviour", "edge_here"): "edge_here_lem",
    ("drawing", "edge_here"): "edge_here_lem",
    ("drawing", "row_count"): "row_count_lem",
    ("lists", "edge_here"): "edge_here_lem",
    ("lists", "branch-of"): "branch_of_lem",
    ("lists", "is-place"): "place_is",
    ("rules", "by-cut"): "by_cut_lem",
    ("behaviour", "head-word"): "head_word_lem",
    ("layers", "known-source"): "known_source_lem",
}


def spelled(name, functions):
    """A name in its new spelling."""
    parts = name.split("-")
    if re.match(r"All-", name) or len(parts) == 2 and all(part in functions for part in parts):
        return name
    if re.match(r"[A-Z][a-z]+-[a-z]", name):
        return re.sub(r"-([a-z])", lambda m: m.group(1).upper(), name)
    if not re.match(r"[a-z]", name):
        return name
    return re.sub(r"(?<=[a-z0-9])([A-Z])", lambda m: "_" + m.group(1).lower(), name).replace("-", "_")


def imported():
    """The names that come from a library, or that the check makes."""
    found = set()
    for path in DEFINING + ANSWERING + SOURCES:
        for m in filter(None, map(IMPORT.match, path.read_text().splitlines())):
            if m.group(1).endswith((".Goals", ".Given")) or not OWN.match(m.group(1)):
                found |= {name.strip() for name in m.group(2).split(",")}
    return found


def defined():
    """The names of definitions, lemmas, fields and constructors."""
    found = set()
    for path in DEFINING:
        for line in path.read_text().splitlines():
            m = HEAD.match(line)
            if m and not re.match(r"\s*(--|(use|let)\b)", line):
                found.add(m.group(1))
    return found - KEYWORDS


def bound():
    """The names of parameters and of local values."""
    found = set()
    for path in DEFINING + ANSWERING:
        text = re.sub(r"--.*", "", path.read_text())
        found |= set(re.findall(r" as ([a-z]\w*)[,}]", text))
        found |= set(re.findall(r"\blet ([^\s:=]+) [:=]", text))
        places = re.findall(r"[({]([^(){}:=]+) :", text) + re.findall(r"λ ([^.]+)\.", text)
        patterns = re.findall(r"(?:\[|\|)\s*([^|\[\]↦]*) ↦", text)
        if path in DEFINING:
            patterns += [p for p in re.findall(r"^\s*(?:let )?([^=\n]*?) =(?: |$)", text, re.M) if " : " not in p]
        for place in places:
            found |= set(TOKEN.findall(place))
        for pattern in patterns:
            found |= {token for token in TOKEN.findall(pattern) if re.match(r"[a-z]", token)}
    return found


def respelled(text, names, path):
    """The text of a file with its names in their new spelling."""

    def turned(line, keep_dashes):
        def turn(m):
            token = m.group(0)
            made = "-" in token and line[m.start() - 1 : m.start()] == "." and (path in ANSWERING or token not in DEFINED)
            return token if made or keep_dashes and "-" in token and line[m.end() : m.end() + 1] != ":" else names.get(token, token)

        return TOKEN.sub(turn, line)

    out = []
    for line in text.split("\n"):
        if path in ANSWERING and re.match(r"(?:abbrev )?pub \S+ : goal\.", line):
            out.append(line)
            continue
        code, mark, comment = line.partition("//" if path.suffix == ".rt" else "--")
        parts = re.split(r'("(?:[^"\\]|\\.)*")', code) if path.suffix == ".rt" else [code]
        code = "".join(part if part.startswith('"') and path.suffix == ".rt" else turned(part, False) for part in parts)
        out.append(code + mark + turned(comment, True))
    return "\n".join(out)


def clashes(text, names):
    """The names of a file that would fall together."""
    targets = defaultdict(set)
    for m in TOKEN.finditer(text):
        if text[m.start() - 1 : m.start()] != ".":
            targets[names.get(m.group(0), m.group(0))].add(m.group(0))
    return [(sorted(olds), new) for new, olds in targets.items() if len(olds) > 1]


DEFINED = defined()
LIBRARY = imported()
FUNCTIONS = LIBRARY | {name for path in DEFINING for name in FUNCTION.findall(path.read_text())}


def main():
    if sys.argv[1:] not in ([], ["--list"]):
        sys.exit(__doc__)
    names = {name: spelled(name, FUNCTIONS) for name in (DEFINED | bound()) - LIBRARY}
    names = {old: new for old, new in names.items() if old != new}
    if "--list" in sys.argv:
        print("\n".join(f"{old} {new}" for old, new in sorted(names.items())))
        return 0
    written, clashing = {}, False
    for path in DEFINING + ANSWERING + SOURCES:
        text = path.read_text()
        new = text
        if names and path.suffix == ".antt":
            crate = path.relative_to(ROOT).parts[1]
            new = TOKEN.sub(lambda m: LEMMAS.get((crate, m.group(0)), m.group(0)), new)
            for olds, target in clashes(new, names):
                print(f"falls together: {path.relative_to(ROOT)}: {' and '.join(olds)} as {target}")
                clashing = True
        new = respelled(new, names, path)
        if new != text:
            written[path] = new
    for path in PAGES:
        text = path.read_text()
        pages = {old: new for old, new in names.items() if old in DEFINED}
        new = re.sub(r"`[^`\n]*`", lambda m: TOKEN.sub(lambda t: pages.get(t.group(0), t.group(0)), m.group(0)), text)
        if new != text:
            written[path] = new
    for path, new in written.items():
        if not clashing:
            path.write_text(new)
    return int(clashing)


if __name__ == "__main__":
    sys.exit(main())
