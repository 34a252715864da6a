#!/usr/bin/env python3
"""Respells the definitions and lemmas of this repository: words are in snake case, a dash joins only the two names of a lemma's left side.

usage: python3 tools/respell.py [--list]     at the top of a checkout, once, after the kit's own script
"""

import os
import re
import sys

# Lemmas whose name is their left side, one function of another.
KEPT = {"set-put", "length-laid", "decides-T"}
# A lemma that would have the name of a definition.
OTHER = {"all-fit": "all_fit_lem", "all-printable": "all_printable_lem", "report-answer": "report_answer_lem", "served-source": "source_served"}
DECLARED = re.compile(r"\s*(?:(?:abbrev|opaque|unfoldable|pub|instance)\s+)*([^\s:(){},.=|λ]+)\s*(?:[({][^=]*?)?\s*:(?:\s|$)")
WORD = re.compile(r"(?<![\w'\-])[A-Za-z_][\w'\-]*")
# Files of proofs/ whose names the check makes.
MADE = ("Answers.antt", "Invariants.antt", "Proof.antt")


def files():
    for folder, folders, names in os.walk("crates"):
        folders[:] = sorted(f for f in folders if f != "out")
        for name in sorted(names):
            yield os.path.join(folder, name)


def snake(name):
    if name in OTHER:
        return OTHER[name]
    if name in KEPT or not name[0].islower():
        return name
    return re.sub(r"([a-z0-9])([A-Z])", r"\1_\2", name).lower().replace("-", "_")


def declared():
    found = {}
    for path in files():
        if path.endswith(".antt") and not ("/proofs/" in path and path.endswith(MADE)):
            with open(path, encoding="utf-8") as f:
                for line in f:
                    m = DECLARED.match(re.sub(r"--.*", "", line))
                    if m and m[1] not in ("use", "let", "module", "mod"):
                        found.setdefault(m[1], set()).add(path)
    return found


def turned(text, table, comment):
    """The text with the names of the table turned; in comments only those that are no plain words."""

    def line(l):
        code, mark, said = l.partition(comment)
        code = WORD.sub(lambda m: table.get(m[0], m[0]), code)
        return code + mark + WORD.sub(lambda m: m[0] if "-" in m[0] else table.get(m[0], m[0]), said)

    return "\n".join(line(l) for l in text.split("\n"))


def main(argv):
    names = declared()
    table = {n: snake(n) for n in names if snake(n) != n}
    made = {}
    for old, new in sorted(table.items()):
        made.setdefault(new, []).append(old)
    for new, olds in sorted(made.items()):
        if len(olds) > 1 or new in names:
            print(f"together: {new}: {' '.join(olds)}{' and itself' if new in names else ''}")
    if "--list" in argv:
        for old, new in sorted(table.items()):
            print(f"{old} {new}")
        return 0
    for path in files():
        if path.endswith((".antt", ".rt")):
            with open(path, encoding="utf-8") as f:
                text = f.read()
            new = turned(text, table, "--" if path.endswith(".antt") else "//")
            if new != text:
                with open(path, "w", encoding="utf-8") as f:
                    f.write(new)
    return 0


if __name__ == "__main__":
    raise SystemExit(main(sys.argv[1:]))
