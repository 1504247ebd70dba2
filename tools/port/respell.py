#!/usr/bin/env python3
"""Brings the repository's own names to the spelling of the newer kit, once, behind port.py.

usage: python3 tools/port/respell.py          at the top of the repository
       python3 tools/port/respell.py --list   only prints every old name with its new one

Definitions, lemmas, fields and constructors of the .antt files go to snake case; types and modules have theirs already. Renamed are
they themselves, clauses that cite them, must-fail edits, and what README and docs/ say between backticks. Names of Rattle's source,
exported names, strings, inputs and outputs stay, and so do the names of goals in a function's own proof.
"""

import os
import re
import sys

WORD = re.compile(r"[^\s(){}\[\].,;`\"|]+")
DECLARED = re.compile(
    r"^\s*(?:(?:abbrev|unfoldable|pub)\s+)*((?:[^\s:(){}\[\].,;`\"|]+\s+)*?[^\s:(){}\[\].,;`\"|]+) : "
)
WORDS_OF_ANTT = {"let", "in", "use", "module", "record", "data", "where", "elim", "rw", "→", "λ", "open"}
# A word of the kit's library that a lemma of ours would fall together with.
TAKEN = {"bit_xor"}


def files(root):
    for folder, folders, names in os.walk(root):
        folders[:] = sorted(f for f in folders if f not in ("out", ".git", "target"))
        for name in sorted(names):
            yield os.path.join(folder, name)


def is_walk(path):
    return os.path.basename(path) in ("Proof.antt", "Answers.antt", "Invariants.antt")


def snake(name):
    parted = re.sub(r"(?<=[a-z0-9])(?=[A-Z])", "_", name) if name[0].islower() else name
    parted = "_".join(p if p[:1].isupper() and p == name else p.lower() for p in parted.split("_")) if parted != name else parted
    return parted.replace("-", "_") if name[0].islower() else parted


def declared(root):
    fields, plain = set(), set()
    for path in files(os.path.join(root, "crates")):
        if not path.endswith(".antt") or is_walk(path):
            continue
        kind = []
        for line in open(path, encoding="utf-8"):
            if line.lstrip().startswith("--"):
                continue
            head = re.match(r"^(\s*)(?:pub\s+)?(record|data)\s", line)
            indent = len(line) - len(line.lstrip())
            while kind and line.strip() and indent <= kind[-1]:
                kind.pop()
            if head:
                kind.append(len(head.group(1)))
                continue
            found = DECLARED.match(line)
            if found:
                words = found.group(1).split()
                if words[0] in WORDS_OF_ANTT or any(w in WORDS_OF_ANTT for w in words):
                    continue
                (fields if kind else plain).update(words)
    return fields, plain


def renamed(root):
    """Every old name with its new one. A lemma that would have its definition's name gets `_lem`."""
    fields, plain = declared(root)
    together = {}
    for name in sorted(fields | plain):
        together.setdefault(snake(name), []).append(name)
    table = {}
    for new, names in together.items():
        defined = [n for n in names if re.search("[a-z0-9][A-Z]", n)]
        first = defined[0] if defined else min(names, key=lambda n: n != new)
        for name in names:
            apart = (name != first and not {name, first} <= fields) or (name != new and new in TAKEN)
            mine = new + "_lem" if apart else new
            if mine != name:
                table[name] = mine
    return table, fields


def turn_text(text, table, fields, aliases=()):
    out, last = [], 0
    for m in WORD.finditer(text):
        word = m.group(0)
        new = table.get(word)
        if new is None:
            continue
        before = text[m.start() - 1] if m.start() else " "
        if before == "." and "-" in word and word not in fields:
            path = re.search(r"[^\s(){}]*$", text[: m.start()]).group(0)
            if not path.startswith("Rattle.") and path[:-1] not in aliases:
                continue
        out += [text[last : m.start()], new]
        last = m.end()
    out.append(text[last:])
    return "".join(out)


def turn_quoted(text, table, fields):
    return re.sub(r"`[^`\n]+`", lambda m: turn_text(m.group(0), table, fields), text)


def turn_line(line, comment, table, fields, aliases):
    cut = line.find(comment) if comment else -1
    while cut > 0 and comment == "--" and not line[:cut].isspace() and line[cut - 1] != " ":
        cut = line.find(comment, cut + 1)
    if cut < 0:
        return turn_text(line, table, fields, aliases)
    only_camel = {k: v for k, v in table.items() if "-" not in k}
    code, said = line[:cut], line[cut:]
    return turn_text(code, table, fields, aliases) + turn_text(turn_quoted(said, table, fields), only_camel, fields)


def turn(root):
    every, fields = renamed(root)
    # A name in snake case is a label of the source there.
    cited = {k: v for k, v in every.items() if "-" in k or re.search("[A-Z]", k)}
    for path in files(root):
        table = cited if path.endswith(".rt") else every
        inside = os.path.relpath(path, root)
        comment = {"antt": "--", "rt": "//", "edit": "#"}.get(inside.rsplit(".", 1)[-1])
        is_crate = inside.startswith("crates/")
        if is_crate and comment:
            lines = open(path, encoding="utf-8").read().split("\n")
            aliases = {m.group(1) for x in lines if (m := re.search(r"\buse \S+ as (\S+)$", x))}
            if comment == "#":
                new = [turn_line(x, "#" if x.startswith("#") else None, table, fields, aliases) for x in lines]
            else:
                new = [turn_line(x, comment, table, fields, aliases) for x in lines]
            new = "\n".join(new)
        elif inside == "README.md" or (inside.startswith("docs/") and inside.endswith(".md")):
            new = turn_quoted(open(path, encoding="utf-8").read(), table, fields)
        else:
            continue
        if new != open(path, encoding="utf-8").read():
            open(path, "w", encoding="utf-8").write(new)


if __name__ == "__main__":
    root = os.getcwd()
    if sys.argv[1:] == ["--list"]:
        for old, new in renamed(root)[0].items():
            print(old, new)
    else:
        turn(root)
