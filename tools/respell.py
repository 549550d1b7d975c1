#!/usr/bin/env python3
"""Respells the repository's own definitions and lemmas: words in snake case, joined by `_`.

usage: python3 tools/respell.py [--dry]      at the top of the repository, once, after the kit's port.py

It goes by the names that the files of specs/ and proofs/ declare: `addTap` becomes `add_tap`, `place-within` becomes `place_within`. A lemma whose new name is
also a definition's gets `_lem`. Answers to a goal (`x : tie.Need-..`) keep the name that the check gives the goal. Names of functions, exports, strings and
everything imported from a library of the kit stay. With --dry nothing is written. It prints `falls together` where two old names have one new name, and `look`
where a new name stands in a file already.
"""

import os
import re
import sys

END = r"\s(){}\[\],;.:\"@⌜⌝"
TOKEN = re.compile(f"[^{END}]+")
DECLARED = re.compile(rf"^\s*(?:(?:abbrev|unfoldable|pub|data|record|ruleset|mutual)\s+)*([^{END}]+)(?:\s+(?:\{{[^{{}}]*\}}|\([^()]*\)))*\s*:(?=\s)")
IMPORT = re.compile(r"^\s*(?:pub\s+|ghost\s+)*use\s+([^\s.{};]+)\.([^\s{};]*)\.?\{([^}]*)\}", re.M)
KEYWORDS = {"use", "module", "unfolding", "where", "let", "in", "open", "mod", "λ", "elim", "record"}


def files(root):
    for folder, dirs, names in os.walk(os.path.join(root, "crates")):
        dirs[:] = sorted(d for d in dirs if d not in ("out", "target"))
        yield from (os.path.join(folder, n) for n in sorted(names) if n.endswith((".antt", ".rt", ".edit")))


def crates(root):
    with open(os.path.join(root, "crates.txt"), encoding="utf-8") as f:
        return {re.split(r"[:\s]", line)[0] for line in f if line.strip() and not line.startswith("#")}


def snake(name):
    return re.sub(r"(?<=[a-z0-9])([A-Z])", lambda m: "_" + m.group(1).lower(), name).replace("-", "_")


def is_old(name):
    return bool(re.match(r"[a-zμ]", name)) and ("-" in name or bool(re.search(r"[a-z0-9][A-Z]", name)))


def declarations(texts):
    """The old names, all declared names, and for each file the names of its answers."""
    old, declared, answers = set(), set(), {}
    for path, text in texts.items():
        for line in text.split("\n") if path.endswith(".antt") else ():
            m = DECLARED.match(line)
            if not m or line.lstrip().startswith("--") or m.group(1) in KEYWORDS:
                continue
            declared.add(m.group(1))
            if re.search(r"\btie\.Need-|\bgoal\.[a-z]", line[m.end():]):
                answers.setdefault(path, set()).add(m.group(1))
            elif is_old(m.group(1)):
                old.add(m.group(1))
    return old, declared, answers


def new_names(old, declared):
    """Each old name's new one. Of a definition and a lemma that would share it the definition has it."""
    new = {name: snake(name) for name in sorted(old)}
    for n in sorted(set(new.values())):
        olds = [name for name in new if snake(name) == n]
        definitions = [name for name in olds if "-" not in name]
        if n in declared or definitions:
            new.update({name: n + "_lem" for name in olds if "-" in name})
        if len(olds) - len(definitions) > 1 or len(definitions) > 1 or (n in declared and definitions):
            print(f"falls together: {olds} and {n}")
    return new


def of_the_kit(text, own):
    """The names that a file imports from libraries of the kit."""
    names = set()
    for m in IMPORT.finditer(text):
        path = f"{m.group(1)}.{m.group(2)}".split(".")
        if path[0] != "Rattle" or path[1] not in own:
            names |= {x.strip().split(" as ")[0].strip() for x in m.group(3).split(",")}
    return names


def split(line, mark):
    """A line's code and its comment."""
    at = line.find(mark)
    while at >= 0 and line[:at].count('"') % 2 == 1:
        at = line.find(mark, at + 1)
    if mark == "--" and at > 0 and line[at - 1] != " ":
        at = -1
    return (line, "") if at < 0 else (line[:at], line[at:])


def respelled(path, text, names):
    """The file with the names respelled: in code outside strings, and in a comment between back-quotes."""

    def code(s):
        return TOKEN.sub(lambda m: names.get(m.group(0), m.group(0)), s)

    def turned(line):
        body, note = split(line, "--" if path.endswith(".antt") else "//")
        pieces = re.split(r'("(?:[^"\\]|\\.)*")', body)
        return "".join(x if x.startswith('"') else code(x) for x in pieces) + re.sub(r"`[^`]*`", lambda m: code(m.group(0)), note)

    return "\n".join((code if path.endswith(".edit") else turned)(line) for line in text.split("\n"))


def look(path, text, names, new):
    """Says which new names stand in the file already, but as a function of the same name."""
    mark = "//" if path.endswith(".rt") else "-- "
    words = set(re.findall(r"(?<![.\w])[a-z_][\w'-]*", "\n".join(line.split(mark)[0] for line in text.split("\n"))))
    for old, n in names.items():
        if n in words and n not in new and not (path.endswith(".rt") and re.search(rf"fn {n}\b|use [\w:]+::{n};", text)):
            print(f"look: {path}: {n} (was {old}) stands there already")


def main():
    dry = "--dry" in sys.argv[1:]
    own = crates(".")
    texts = {}
    for path in files("."):
        with open(path, encoding="utf-8") as f:
            texts[path] = f.read()
    old, declared, answers = declarations(texts)
    new = new_names(old, declared)
    changed = 0
    for path, text in texts.items():
        kept = of_the_kit(text, own) | answers.get(path, set())
        names = {o: new[o] for o in set(TOKEN.findall(text)) & new.keys() if o not in kept}
        look(path, text, names, new)
        after = respelled(path, text, names)
        changed += after != text
        if after != text and not dry:
            with open(path, "w", encoding="utf-8") as f:
                f.write(after)
    print(f"respell: {changed} files")


main()
