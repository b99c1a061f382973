#!/usr/bin/env python3
"""Brings the repository's own definitions and lemmas to snake case, by the table spelling.tsv beside this file: each name, as a whole word, in every
.antt and .rt file below crates/. A third column names the one file in which a row holds. Run once, at the top, on what port.py leaves: a second run
would turn names that the first one made. The crate `log` becomes `write_log`, since the kit has a library of the old name.

usage: python3 tools/spelling.py
"""

import os
import re

# The crate that is renamed, and how sources name it.
OLD, NEW = "log", "write_log"
CITED = re.compile(rf"\bRattle\.{OLD}\b(?=\.)|\b(?<=use ){OLD}\b(?=::)")

HERE = os.path.dirname(os.path.realpath(__file__))
# A name of antt: what stands between blanks, brackets, dots and the like. A slash or a quote can stand beside a name in a comment.
WORD = re.compile(r"[^\W\d](?:[\w'₀-₉]|-(?=\w))*")


def main():
    with open(os.path.join(HERE, "spelling.tsv"), encoding="utf-8") as table:
        rows = [line.rstrip("\n").split("\t") for line in table]
    everywhere = {row[0]: row[1] for row in rows if len(row) == 2}
    turned = 0
    for folder, dirs, files in os.walk("crates"):
        dirs[:] = sorted(it for it in dirs if it != "out")
        for path in (os.path.join(folder, it) for it in sorted(files) if it.endswith((".antt", ".rt"))):
            with open(path, encoding="utf-8") as file:
                text = file.read()
            names = everywhere | {row[0]: row[1] for row in rows if len(row) == 3 and row[2] == path}
            new = WORD.sub(lambda it: names.get(it[0], it[0]), text)
            new = CITED.sub(lambda it: it[0].replace(OLD, NEW), new)
            if new != text:
                turned += 1
                with open(path, "w", encoding="utf-8") as file:
                    file.write(new)
    os.rename(f"crates/{OLD}", f"crates/{NEW}")
    with open("crates.txt", encoding="utf-8") as file:
        text = file.read()
    with open("crates.txt", "w", encoding="utf-8") as file:
        file.write(re.sub(rf"\b{OLD}\b", NEW, text))
    print(f"{turned} files turned")


if __name__ == "__main__":
    main()
