#!/usr/bin/env python3
"""Brings the project's own definitions, lemmas, fields and constructors to snake case, once: `sheetOf` is `sheet_of`,
`kappa-law` is `kappa_law`. Types keep their capital, functions of src/ keep their names. It refuses names that would fall
together. Run at the top, after the language's own port script."""
import collections
import glob
import re
import sys

TOKEN = re.compile(r"[^\s(){}\[\],;.@\"`|]+")
DECLARED = re.compile(r"^( *)((?:pub |abbrev |unfoldable |data |record )*)(\S+)(?: (?:\(|\{).*)? :(?= |$)")
ALONE = re.compile(r"^( *)((?:pub |abbrev |unfoldable )*)([a-z]\S*)$")  # its type begins the next line


def snake(name):
    name = name.replace("getD", "get_or")
    name = re.sub(r"(?<=[a-z0-9])([A-Z])", lambda m: "_" + m.group(1).lower(), name)
    return name.replace("-", "_")


def own_names():
    found = collections.OrderedDict()
    for path in sorted(glob.glob("crates/*/specs/*.antt") + glob.glob("crates/*/proofs/*.antt")):
        lines = open(path).read().split("\n")
        for line, after in zip(lines, lines[1:] + [""]):
            if line.lstrip().startswith("--"):
                continue
            m = DECLARED.match(line) or re.match(r"^ +: ", after) and ALONE.match(line)
            if m and m.group(3) not in ("let", "in", "where"):
                found[m.group(3)] = path
    return found


def renaming():
    names = own_names()
    change = {}
    for n in names:
        if re.match(r"^[a-z]", n) and ("-" in n or re.search(r"[A-Z]", n)):
            change[n] = snake(n)
    # a lemma that would have its function's name gets `_lem`; the one field that would is renamed for what it says
    functions = {change[n] for n in change if re.fullmatch(r"[a-z0-9]+([A-Z][a-z0-9]*)+", n)}
    for n in names:
        if change.get(n, n) in functions and not re.search(r"[A-Z]", n):
            change[n] = "zero_right" if n == "against-zero" else change.get(n, n) + "_lem"
    taken = collections.defaultdict(set)
    for n in names:
        taken[change.get(n, n)].add(n)
    together = {k: v for k, v in taken.items() if len(v) > 1}
    if together:
        sys.exit(f"fall together: {together}")
    return change


def words(text, change):
    return TOKEN.sub(lambda m: change.get(m.group(0), m.group(0)), text)


def in_source(text, change):
    out = []
    for line in text.split("\n"):
        code = line.split("//")[0]
        if re.match(r"^ *(ghost |requires|ensures|//)", line) or not code.strip():
            line = words(line, change)
        out.append(line)
    return "\n".join(out)


def in_ticks(text, change):
    return re.sub(r"`[^`\n]*`", lambda m: words(m.group(0), change), text)


def main():
    change = renaming()
    for path in sorted(glob.glob("crates/**/*", recursive=True) + glob.glob("docs/*.md") + ["README.md"]):
        if path.endswith((".antt", ".edit")):
            turn = words
        elif path.endswith(".rt"):
            turn = in_source
        elif path.endswith(".md"):
            turn = in_ticks
        else:
            continue
        old = open(path).read()
        new = turn(old, change)
        if new != old:
            open(path, "w").write(new)
    for old, new in sorted(change.items()):
        print(old, new)


main()
