#!/usr/bin/env python3
"""In files that answer goals: a source name inside a made name keeps its underscores, as `if-is_printable`.

usage: python3 tools/made_names.py      at the top of the repository, once, behind respell.py
"""

import glob
import re

IDENT = re.compile(r"\b[A-Za-z][A-Za-z0-9]*(?:_[A-Za-z0-9]+)+\b")


def main():
    idents = set()
    for path in glob.glob("crates/*/src/**/*.rt", recursive=True):
        text = re.sub(r"//.*", "", open(path, encoding="utf-8").read())
        text = re.sub(r'b?"(\\.|[^"\\])*"', '""', text)
        text = re.sub(r"ghost use [^;]*;", "", text)
        idents.update(IDENT.findall(text))
    idents = sorted((i for i in idents), key=lambda i: (-len(i), i))
    turn = [(re.compile(rf"(?<![A-Za-z0-9_]){re.escape(i.replace('_', '-'))}(?![A-Za-z0-9_])"), i) for i in idents]
    n = 0
    for path in sorted(glob.glob("crates/*/proofs/**/*.antt", recursive=True)):
        if "/out/" in path or path.rsplit("/", 1)[1] not in ("Answers.antt", "Invariants.antt", "Proof.antt"):
            continue
        text = open(path, encoding="utf-8").read()
        out = []
        for line in text.split("\n"):
            if re.match(r"\s*(pub )?use Rattle\.std\.", line) or line.lstrip().startswith("--"):
                out.append(line)
                continue
            for pattern, ident in turn:
                if "-" in line:
                    line = pattern.sub(ident, line)
            out.append(line)
        new = "\n".join(out)
        if new != text:
            open(path, "w", encoding="utf-8").write(new)
            n += 1
    print(n, "files")


main()
