#!/usr/bin/env python3
"""Respells the repository's own definitions and lemmas: words in snake case, types in camel case.

usage: python3 tools/respell.py [--list]      at the top of the repository, once, behind the kit's own port.py

A name is the repository's own if a file of specs/ or a lemma file of proofs/ defines it. The names that the check makes (goals,
steps and their fields) stay, and so do the functions of src/, strings, inputs and outputs.
"""

import collections
import glob
import os
import re
import sys

WORD = r"[A-Za-z0-9_'≢≡≤<⊎×ℕ′-]"
TOKEN = re.compile(rf"(?<!{WORD})[A-Za-z_]{WORD}*")
HEAD = re.compile(r"^\s*(?:(?:abbrev|unfoldable|pub|opaque|private|data|record)\s+)*([A-Za-z_][^\s(){}:;,.]*)\s*(?:[({].*)?:(?=\s|$)")
IMPORT = re.compile(r"^\s*(?:pub\s+|ghost\s+)*use\s+([\w.«»'+◌-]+)\.\{([^}]*)\}", re.M)


def files():
    for folder in sorted(glob.glob("crates/*")):
        for path in sorted(glob.glob(folder + "/**/*", recursive=True)):
            if "/out/" not in path and path.endswith((".rt", ".antt", ".edit")):
                yield path


def is_made(path):
    """A file that answers goals: what it defines under `goal.` has the check's name."""
    return os.path.basename(path) in ("Answers.antt", "Invariants.antt", "Proof.antt")


def defined(path):
    """The names that a file defines: (name, whether it is a type or module)."""
    if not path.endswith(".antt"):
        return
    for line in open(path, encoding="utf-8"):
        bare = line.lstrip()
        alias = re.search(r"^use .* as ([a-z]+(?:-[a-z]+)+)$", bare.strip())
        if alias:
            yield alias[1]
        if bare.startswith("--") or bare.startswith("use ") or bare.startswith("pub use "):
            continue
        m = HEAD.match(line)
        if m:
            name = m[1]
            if is_made(path) and re.search(r":\s*goal\.", line):
                continue
            yield name


# Where snake case would give a definition the name of a function beside it.
APART = {
    "end-column": "column_behind",
    "first-repeat": "repeat_in",
    "form-after": "form_behind",
    "has-its-rule": "is_below_its_rule",
    "is-formula": "sort_is_formula",
    "is-value": "sort_is_value",
    "new-formula": "formula_in",
    "no-term": "missing_term",
    "rule-name": "name_of_rule",
    "rule-guard": "guard_of_rule",
    "rule-sets": "sets_of_rule",
    "sort-at": "sort_of_number",
    "sort-of": "sort_of_tree",
    "take-claim": "claim_taken",
    "take-initial": "initial_taken",
    "take-line": "line_taken",
    "take-name": "name_taken",
    "take-rule": "rule_taken",
    "take-set": "assignment_taken",
    "take-term": "term_taken",
    "take-type": "type_taken",
    "take-variable": "variable_taken",
}


# What the kit's script imports under an old name that means something else now.
PLAIN = {"All": "AllByRecursion", "Has": "ContainsAt"}


def plain(text):
    """The text with the library's own names in the place of those aliases."""
    for alias, name in PLAIN.items():
        if f"{name} as {alias}" in text:
            text = text.replace(f"{name} as {alias}", name)
            word = re.compile(rf"(?<!{WORD})(?<!\.){alias}(?!{WORD})")
            lines = text.split("\n")
            text = "\n".join(line if line.lstrip().startswith("--") else word.sub(name, line) for line in lines)
    return text


def camel(name):
    return "".join(part[:1].upper() + part[1:] for part in name.split("-"))


def respelled(name):
    if name in APART:
        return APART[name]
    if "-" not in name.strip("-"):
        return name
    if name[:1].isupper():
        return camel(name)
    return name.replace("-", "_")


def main():
    own = collections.defaultdict(set)
    made, foreign = set(), collections.defaultdict(set)
    tokens = collections.defaultdict(set)
    for path in files():
        text = open(path, encoding="utf-8").read()
        for name in [*defined(path), *re.findall(r" as ([a-z]+(?:-[a-z]+)+)(?=[,}])", text)]:
            if respelled(name) != name:
                own[name].add(path)
        for m in re.finditer(r"goal\.(" + WORD + r"+)", text):
            made.add(m[1])
        for m in IMPORT.finditer(text):
            if m[1].startswith("Rattle.std") or not m[1].startswith("Rattle"):
                for name in m[2].split(","):
                    foreign[name.strip().split(" as ")[0]].add(path)
        for t in TOKEN.findall(text):
            tokens[t].add(path)
    names = {n: respelled(n) for n in own}
    trouble = []
    for old, new in sorted(names.items()):
        if old in made:
            trouble.append(("goal", old, sorted(own[old])))
        if old in foreign:
            trouble.append(("library", old, sorted(own[old]) + ["|"] + sorted(foreign[old])[:3]))
        if new in tokens:
            trouble.append(("stands already", old, new, sorted(tokens[new])[:3]))
    back = collections.Counter(names.values())
    for new, n in back.items():
        if n > 1:
            trouble.append(("falls together", new))
    if "--list" in sys.argv:
        for t in trouble:
            print(*t)
        print(len(names), "names")
        return
    changed = 0
    for path in files():
        text = open(path, encoding="utf-8").read()
        if path.endswith(".edit"):
            continue

        def turn(m):
            old = m[0]
            if old not in names:
                return old
            before = text[max(0, m.start() - 5) : m.start()]
            if before.endswith("goal."):
                return old
            if is_made(path) and old in made and re.search(r"(^|\n)\s*(pub |abbrev )*$", text[: m.start()]):
                return old
            return names[old]

        new = plain(TOKEN.sub(turn, text))
        if new != text:
            open(path, "w", encoding="utf-8").write(new)
            changed += 1
    print(len(names), "names in", changed, "files")


main()
