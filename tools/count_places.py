#!/usr/bin/env python3
"""Lists where the sources of a commit show the marks of older forms, by point; docs/DESIGN-PASS.md reads them.

usage: tools/count_places.py COMMIT [POINT]
"""
import collections
import re
import subprocess
import sys


def sources(commit):
    names = subprocess.run(["git", "ls-tree", "-r", "--name-only", commit, "crates"], capture_output=True, text=True, check=True)
    for name in names.stdout.split("\n"):
        if re.fullmatch(r"crates/\w+/src/.*\.rt", name):
            text = subprocess.run(["git", "show", f"{commit}:{name}"], capture_output=True, text=True, check=True).stdout
            yield name.removeprefix("crates/"), text


def lines(files, pattern):
    for name, text in files:
        for number, line in enumerate(text.split("\n"), 1):
            code = line.split("//")[0]
            if re.search(pattern, code) and not code.lstrip().startswith(("ensures", "requires", "ghost")):
                yield f"{name}:{number}", line.strip()


# A function as (place, name, parameters, clauses): the text from `fn` to the line that opens its body.
HEAD = re.compile(r"^( *)(?:pub(?:\(crate\))? )?fn (\w+)(.*?)(?:^\1\{|\{ *$|;$)", re.M | re.S)


def between_parentheses(head):
    start = head.index("(")
    depth = 0
    for end in range(start, len(head)):
        depth += {"(": 1, ")": -1}.get(head[end], 0)
        if depth == 0:
            return head[start + 1:end]
    return head[start + 1:]


def functions(files):
    for name, text in files:
        for found in HEAD.finditer(text):
            head = found.group(3)
            number = text.count("\n", 0, found.start()) + 1
            parameters = re.findall(r"(\w+): ([^,]+)", between_parentheses(head))
            clauses = re.findall(r"(?:requires|ensures)(?: \w+)? \{ (.*) \}", head)
            yield f"{name}:{number}", found.group(2), parameters, clauses


def repeated_facts(files):
    facts = collections.defaultdict(list)
    for place, name, _, clauses in functions(files):
        for clause in clauses:
            facts[clause].append(f"{place} {name}")
    for clause, places in facts.items():
        if len(places) > 2:
            yield f"{len(places)} contracts", clause + "  in " + ", ".join(places)


def travelling(files):
    groups = collections.defaultdict(list)
    for place, name, parameters, _ in functions(files):
        names = sorted({f"{p}: {t.strip()}" for p, t in parameters})
        for i, a in enumerate(names):
            for b in names[i + 1:]:
                groups[(a, b)].append(f"{place} {name}")
    for pair, places in groups.items():
        if len(places) > 2:
            yield f"{len(places)} functions", " and ".join(pair) + "  in " + ", ".join(places)


POINTS = {
    "1 own enums": lambda f: lines(f, r"^ *(pub(\(crate\))? )?enum "),
    "1 a flag or an end beside a value": lambda f: lines(f, r"(bool|End)\)( |$)|^ *(pub(\(crate\))? )?\w+: bool,$"),
    "1 numbers for kinds": lambda f: lines(f, r"^const [A-Z_]+: u(8|32) |-> u8$"),
    "2 const parameters and twins by type": lambda f: lines(f, r"const [A-Z]: usize|^impl.* for (i16|i32|i64|u32|bool) "),
    "2 functions of one name": lambda f: twins(f),
    "3 loops": lambda f: lines(f, r"\bfor .* in .*\.\.|\bwhile |\bloop \{"),
    "4 written by hand": lambda f: lines(f, r"\bfn (from|fmt|eq|cmp|clone|default|number|digit|bytes_of|line|\w+_(number|line|fields|cause|type)|is_equal|closes|below|top)\b|\bas (u|i)(8|16|32|64|128|size)\b"),
    "5 facts in three contracts": repeated_facts,
    "5 parameters that travel together": travelling,
    "6 fixed buffers": lambda f: lines(f, r"\[\w+; [\w]+\]"),
    "7 functions as values": lambda f: lines(f, r"\bfn\(|\bdyn |impl Fn|: Fn(Mut|Once)?\b"),
    "7 a match that picks a step": lambda f: lines(f, r"=> (\w+::)*\w+(::<.*>)?\(.*\),$"),
}


def twins(files):
    named = collections.defaultdict(list)
    for place, name, _, _ in functions(files):
        named[name].append(place)
    for name, places in named.items():
        if len(places) > 1:
            yield f"{len(places)} functions", name + "  in " + ", ".join(places)


def main():
    files = list(sources(sys.argv[1]))
    for point, find in POINTS.items():
        if len(sys.argv) > 2 and not point.startswith(sys.argv[2]):
            continue
        found = list(find(files))
        print(f"{point}: {len(found)}")
        for place, line in found:
            print(f"    {place}: {line}")


main()
