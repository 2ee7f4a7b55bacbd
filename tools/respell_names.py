#!/usr/bin/env python3
"""Respells the repository's own definitions and lemmas: words in snake case, facts and types in camel case.

usage: tools/respell_names.py [ROOT]

`to-come` becomes `to_come`, `blankFrom` becomes `blank_from`, `Rep-alike` becomes `RepAlike`. Names of `src/`, names that the
check makes (goals, invariants, measures), strings, comments, inputs and outputs stay. It stops, with nothing written,
where two names would fall together. It was run once, when the repository was brought to a newer Rattle, after that Rattle's own port.py.
"""

import os
import re
import sys

# Where the rule would make one name of two.
CHOSEN = {"blank-is": "blank_is_lem", "isFault": "to_fault", "isNoRoom": "to_no_room", "page-text": "page_as_text"}

WORD = re.compile(r"[^\s(){}\[\].,;:`\"]+")
SIGNATURE = re.compile(r"^\s*(?:\| )?((?:(?:unfoldable|abbrev|pub|record|data) )*)([^\s(){}\[\].,;:λ]+)((?: [^\s(){}\[\].,;:=↦]+)*)(?= :| [({][^=↦]*? :)")
MADE = re.compile(r":\s*goal\.")
GHOST = re.compile(r"^\s*ghost ([a-z][A-Za-z_-]*)(?::| =)")
BOUND = re.compile(r"\(((?:[A-Za-z0-9_'-]+ )+):")
ALIAS = re.compile(r" as ([a-z]+[A-Z][A-Za-z]*)")


def files(root, kinds):
    for top in ("crates", "docs", "README.md"):
        start = os.path.join(root, top)
        if os.path.isfile(start):
            yield start
        for folder, dirs, names in os.walk(start):
            dirs[:] = sorted(d for d in dirs if d not in ("out", "target"))
            for name in sorted(names):
                if name.endswith(kinds):
                    yield os.path.join(folder, name)


def code(line, mark):
    """The line's text before a comment, and the comment."""
    at = line.find(mark)
    return (line, "") if at < 0 else (line[:at], line[at:])


def own_names(root):
    """Every name that a file of specs/ or proofs/ declares, and every ghost member and alias of src/."""
    found = {}
    for path in files(root, (".antt", ".rt")):
        with open(path, encoding="utf-8") as f:
            for line in f:
                if path.endswith(".rt"):
                    for m in list(GHOST.finditer(line)) + list(ALIAS.finditer(line)):
                        if not line.strip().startswith("ghost use") or m.re is ALIAS:
                            found.setdefault(m.group(1), set()).add(path)
                    continue
                text, _ = code(line, "--")
                for m in BOUND.finditer(text):
                    for name in m.group(1).split():
                        if "-" in name:
                            found.setdefault(name, set()).add(path)
                if text.lstrip().startswith(("use ", "let ", "|")) or MADE.search(text):
                    continue
                m = SIGNATURE.match(text)
                if m:
                    for name in [m.group(2)] + (m.group(3).split() if "pub" in m.group(1) or text.startswith(" ") else []):
                        found.setdefault(name, set()).add(path)
    return found


def respelled(name):
    if name in CHOSEN:
        return CHOSEN[name]
    if not re.fullmatch(r"[A-Za-z][A-Za-z0-9_'-]*", name):
        return name
    if name[0].isupper():
        return "".join(p[0].upper() + p[1:] for p in name.split("-") if p)
    return re.sub(r"([a-z0-9])([A-Z])", lambda m: m.group(1) + "_" + m.group(2).lower(), name).replace("-", "_")


def turn(text, names):
    return WORD.sub(lambda m: names.get(m.group(0), m.group(0)), text)


def turned(path, text, names):
    if path.endswith(".md"):
        return re.sub(r"`[^`\n]*`", lambda m: turn(m.group(0), names), text)
    out = []
    for line in text.splitlines(keepends=True):
        front, comment = code(line, "--" if path.endswith(".antt") else "//")
        parts = re.split(r'("(?:[^"\\]|\\.)*")', front)
        out.append("".join(p if i % 2 else turn(p, names) for i, p in enumerate(parts)) + comment)
    return "".join(out)


def main(root):
    own = own_names(root)
    names = {n: respelled(n) for n in own if respelled(n) != n}
    bad = []
    back = {}
    for old, new in sorted(names.items()):
        if new in own:
            bad.append(f"{old} would be {new}, which {sorted(own[new])[0]} declares")
        if new in back:
            bad.append(f"{old} and {back[new]} would both be {new}")
        back[new] = old
    texts = {}
    for path in files(root, (".antt", ".rt", ".md")):
        with open(path, encoding="utf-8") as f:
            text = f.read()
        texts[path] = text, turned(path, text, names)
        if path.endswith(".antt"):
            words = set(WORD.findall(text))
            for new in words & set(back):
                if back[new] in words:
                    bad.append(f"{path} has {back[new]} and {new}")
    if bad:
        print("\n".join(bad))
        return 1
    changed = 0
    for path, (old, new) in texts.items():
        if old != new:
            changed += 1
            with open(path, "w", encoding="utf-8") as f:
                f.write(new)
    for old, new in sorted(names.items()):
        print(f"{old} {new}")
    print(f"{len(names)} names, {changed} files", file=sys.stderr)
    return 0


if __name__ == "__main__":
    raise SystemExit(main(sys.argv[1] if len(sys.argv) > 1 else os.path.join(os.path.dirname(os.path.abspath(__file__)), "..")))
