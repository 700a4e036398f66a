#!/usr/bin/env python3
"""Spells the repository's own definitions and lemmas in snake case.

usage: python3 tools/own_names.py [--dry]      at the top of the repository, once, after the kit's port.py

A name is taken if a file of specs/ or a lemma file of proofs/ defines it, as a definition, a field or a constructor,
and if it has a dash or a capital after a small letter. Types, modules and facts (a capital first) and names that end
in an operator stay. Code and clauses of .rt files, .antt files and must-fail edits are turned; comments and texts in
quotes are not, and README.md and the pages of docs/ are turned where a name stands between backticks.
"""

import glob
import re
import sys

# lemmas whose plain turn would fall together with the definition that they are about: the lemma's name then, and the
# definition's name as it was
APART = {
    "ends-before": ("ends_before_lem", "endsBefore"),
    "is-length": ("is_length_lem", "isLength"),
    "laid_out": ("laid_out_lem", "laidOut"),
    "of-readings": ("of_readings_lem", "ofReadings"),
    "reading-at": ("reading_at_lem", "readingAt"),
    "record_of": ("record_of_lem", "recordOf"),
    "trailer-bytes": ("trailer_bytes_lem", "trailerBytes"),
    "weight-of": ("weight_of_lem", "weightOf"),
}

HEAD = re.compile(
    r"^(?:  )?(?:abbrev pub |unfoldable pub |pub |abbrev |unfoldable )*(?:record |data )?([^\s:(){}\[\],;.]+) *(?:\(|\{|:)",
    re.M,
)
# a definition in a module inside a file, or beside another one
INNER = re.compile(r"^ +(?:abbrev pub |unfoldable pub |pub |abbrev |unfoldable )*([^\s:(){}\[\],;.]+) :", re.M)
WORD = re.compile(r"[^\s:(){}\[\],;.`\"λ⌜⌝∣∥]+")


def sources():
    return sorted(glob.glob("crates/*/specs/*.antt") + glob.glob("crates/*/proofs/*.antt"))


def is_odd(name):
    if name[0].isupper() or not re.fullmatch(r"[\w'-]+", name):
        return False
    return "-" in name or re.search("[a-z0-9][A-Z]", name) is not None


def turned(name):
    return re.sub("(?<=[a-z0-9])([A-Z])", r"_\1", name).replace("-", "_").lower()


def table():
    names = set()
    for path in sources():
        with open(path, encoding="utf-8") as f:
            text = f.read()
            names |= set(HEAD.findall(text)) | set(INNER.findall(text))
    to = {n: turned(n) for n in names if is_odd(n)}
    to |= {n: new for n, (new, beside) in APART.items() if n in names and beside in names}
    return to, names


def code_of(line, mark):
    """The line up to its comment, and the comment."""
    at = 0
    quoted = False
    while at < len(line):
        if line[at] == '"':
            quoted = not quoted
        if not quoted and line.startswith(mark, at) and (at == 0 or line[at - 1] in " \t"):
            return line[:at], line[at:]
        at += 1
    return line, ""


def turn_text(text, to):
    parts = re.split(r'("[^"\n]*")', text)
    for i in range(0, len(parts), 2):
        parts[i] = WORD.sub(lambda m: to.get(m.group(0), m.group(0)), parts[i])
    return "".join(parts)


def turn_code(text, to, mark):
    out = []
    for line in text.split("\n"):
        code, comment = code_of(line, mark)
        out.append(turn_text(code, to) + comment)
    return "\n".join(out)


def turn_page(text, to):
    def inside(m):
        return WORD.sub(lambda w: to.get(w.group(0), w.group(0)), m.group(0))

    return re.sub(r"`[^`\n]+`", inside, text)


def main(argv):
    to, names = table()
    back = {}
    for old, new in sorted(to.items()):
        back.setdefault(new, []).append(old)
        if new in names and new not in to:
            print(f"falls together: {old} with the own name {new}")
    for new, olds in sorted(back.items()):
        if len(olds) > 1:
            print(f"falls together: {' '.join(olds)} as {new}")
    tokens = {}
    rust = sorted(glob.glob("crates/*/src/**/*.rt", recursive=True))
    every = sources() + sorted(glob.glob("crates/*/proofs/*/**/*.antt", recursive=True))
    for path in rust + every:
        with open(path, encoding="utf-8") as f:
            for word in WORD.findall(f.read()):
                tokens.setdefault(word, path)
    for new, olds in sorted(back.items()):
        if new in tokens:
            print(f"look: {olds[0]} becomes {new}, which stands in {tokens[new]}")
    if "--dry" in argv:
        return 0
    for path in rust:
        turn_file(path, lambda t: turn_code(t, to, "//"))
    for path in every:
        turn_file(path, lambda t: turn_code(t, to, "--"))
    for path in sorted(glob.glob("crates/*/must-fail/*.edit")):
        turn_file(path, lambda t: turn_text(t, to))
    for path in sorted(glob.glob("docs/*.md") + ["README.md"]):
        turn_file(path, lambda t: turn_page(t, to))
    print(f"{len(to)} names turned")
    return 0


def turn_file(path, turn):
    with open(path, encoding="utf-8") as f:
        old = f.read()
    new = turn(old)
    if new != old:
        with open(path, "w", encoding="utf-8") as f:
            f.write(new)


if __name__ == "__main__":
    raise SystemExit(main(sys.argv[1:]))
