#!/usr/bin/env python3
"""Brings the repository's own definitions and lemmas to today's spelling, after the kit's port.py has run.

usage: python3 tools/respell.py        at the top of the repository, once, right after port.py

Words become snake case; types and modules stay in camel case; a dash stays where it joins two names, and where the word
without it would be the name of a function. A lemma that would have its function's name gets `_lem`. The rows of
respell.tsv: the name before port.py, the name after it, the new name, and the folder to which the row is limited, or
nothing. In crates/ a name is turned by the second column, in must-fail edits and in the code spans of the documents by the
first. Sources of Rattle are turned in clauses and ghost items alone: no name of theirs is in the table.
"""

import glob
import os
import re

TOKEN = re.compile(r"[^\s(){}.;,@\"«»`\[\]|]+")
SPAN = re.compile(r"```.*?```|`[^`\n]+`", re.S)


def rows():
    here = os.path.dirname(os.path.abspath(__file__))
    with open(os.path.join(here, "respell.tsv"), encoding="utf-8") as f:
        return [line.rstrip("\n").split("\t") for line in f]


def turned(text, names):
    return TOKEN.sub(lambda m: names.get(m.group(0), m.group(0)), text)


def comment(line):
    """Where the comment of a line of antt begins."""
    m = re.search(r"(?<!\S)--(?!\S)|(?<!\S)--\s", line)
    return m.start() if m else len(line)


def antt(text, names, walked):
    """A text of antt. In a proof that walks the code, a dashed name behind a dot is the name of a step."""
    camel = {a: b for a, b in names.items() if "-" not in a and re.search(r"[a-z0-9][A-Z]", a)}
    out = []
    for line in text.split("\n"):
        k = comment(line)
        code, said = line[:k], line[k:]
        said = SPAN.sub(lambda m: turned(m.group(0), names), said)
        if walked and not code.startswith("use "):
            code = TOKEN.sub(
                lambda m: m.group(0)
                if "-" in m.group(0) and code[: m.start()].endswith(".")
                else names.get(m.group(0), m.group(0)),
                code,
            )
        else:
            code = turned(code, names)
        out.append(code + turned(said, camel))
    return "\n".join(out)


def rewrite(path, turn):
    with open(path, encoding="utf-8") as f:
        old = f.read()
    new = turn(old)
    if new != old:
        with open(path, "w", encoding="utf-8") as f:
            f.write(new)


def main():
    table = rows()

    def names(path, column):
        return {r[column]: r[2] for r in table if r[column] != r[2] and path.startswith(r[3])}

    for path in sorted(glob.glob("crates/*/specs/*.antt") + glob.glob("crates/*/proofs/**/*.antt", recursive=True)):
        rewrite(path, lambda text: antt(text, names(path, 1), path.endswith("/Proof.antt")))
    for path in sorted(glob.glob("crates/*/src/**/*.rt", recursive=True)):
        free = {a: b for a, b in names(path, 1).items() if not path.endswith(".rt") or a not in LIMITED}
        rewrite(path, lambda text: turned(text, free))
    for path in sorted(glob.glob("crates/*/must-fail/*.edit")):
        known = names(path, 0)
        rewrite(
            path,
            lambda text: "\n".join(
                turned(line, known) if line.startswith(("old:", "new:")) else line for line in text.split("\n")
            ),
        )
    for path in ["README.md", "host/README.md", "samples/README.md"] + sorted(glob.glob("docs/*.md")):
        known = {r[0]: r[2] for r in table if r[0] != r[2]}
        rewrite(path, lambda text: SPAN.sub(lambda m: turned(m.group(0), known), text))


LIMITED = {r[1] for r in rows() if r[3]}

if __name__ == "__main__":
    main()
