#!/usr/bin/env python3
"""Spells the repository's own definitions and lemmas in snake case: rows-blocks and rowsBlocks become rows_blocks.

usage: tools/spell.py [FOLDER]      rewrites crates/, docs/ and README.md below FOLDER (the top of the repository, if none is given)

Own names are those that the files of specs/ and proofs/ of the crates declare. Types keep their capital. Names of the library, of Rust
functions and of goals stay. Where the new name stood in a file already, as a variable perhaps, the two would fall together: such names
are listed, and AGAIN gives them another.
"""

import os
import re
import sys

# What would fall together with another name, and is called otherwise.
AGAIN = {
    "blockCount": "count_of_blocks",
    "clear-lowest": "cleared_lowest",
    "contents-ok": "contents_pass",
    "count-read": "count_is_read",
    "contentOk": "is_content",
    "dataSize": "size_of_data",
    "entries-ok": "entries_pass",
    "entry-bytes": "entry_to_bytes",
    "entry-count": "entry_count_back",
    "entryOk": "is_entry",
    "get_d_part": "get_or_part",
    "mini-bytes": "mini_to_bytes",
    "word-from": "word_from_place",
}

NAME = r"[^\s(){}.;,@\"«»`|]+"
DECLARED = re.compile(rf"^( *)(?:(?:pub|abbrev|unfoldable|opaque|private) )*({NAME}(?: {NAME})*) :(?:\s|$)")
WORDS = re.compile(r"[A-Za-z][A-Za-z0-9₀-₉'_-]*")
SMALL = re.compile(r"[a-z][A-Za-z0-9₀-₉'-]*(?:_[A-Za-z0-9₀-₉'-]+)*")


def snake(name):
    return re.sub(r"(?<=[a-z0-9])[A-Z]", lambda m: "_" + m[0].lower(), name).replace("-", "_")


def files(top):
    for folder, dirs, names in os.walk(os.path.join(top, "crates")):
        dirs[:] = sorted(d for d in dirs if d not in ("out", "target"))
        for n in sorted(names):
            if n.endswith((".rt", ".antt", ".edit")):
                yield os.path.join(folder, n)
    for folder, dirs, names in os.walk(os.path.join(top, "docs")):
        for n in sorted(names):
            if n.endswith(".md") and not n.startswith("PORT"):
                yield os.path.join(folder, n)
    yield os.path.join(top, "README.md")


def is_laws(path, top):
    """A file of definitions or of lemmas, and not the proof of a function."""
    parts = os.path.relpath(path, top).split(os.sep)
    return path.endswith(".antt") and (parts[2] == "specs" or (parts[2] == "proofs" and len(parts) == 4))


def read(path):
    with open(path, encoding="utf-8") as f:
        return f.read()


def declared(top):
    names, fields = set(), set()
    for p in files(top):
        if not is_laws(p, top):
            continue
        for line in read(p).split("\n"):
            m = DECLARED.match(line)
            if not m or line.lstrip().startswith(("use ", "--", "let ")):
                continue
            for n in m[2].split():
                if n in ("record", "data") or not SMALL.fullmatch(n):
                    continue
                if snake(n) != n or n in AGAIN:
                    (fields if m[1] else names).add(n)
    return names, fields


def main(argv):
    top = argv[0] if argv else os.path.dirname(os.path.dirname(os.path.realpath(__file__)))
    names, fields = declared(top)
    table = {n: AGAIN.get(n, snake(n)) for n in names | fields}
    word = r"(?<![\w'₀-₉-])%s(?![\w'₀-₉-])"
    any_old = re.compile(word % ("(?P<dot>\\.?)(?P<name>" + "|".join(sorted(map(re.escape, table), key=len, reverse=True)) + ")"))
    meet = []
    for p in files(top):
        text = read(p)
        had = set(WORDS.findall(text))

        def turn(m):
            old = m["name"]
            if m["dot"] and old not in fields and not re.search(r"(?:^|[\s({])(?:[A-Z]\w*)$", text[max(0, m.start() - 40) : m.start()]):
                return m[0]
            return m["dot"] + table[old]

        if p.endswith(".rt"):
            # In code a dash is a minus: only clauses and imports of definitions are read.
            out = "".join(any_old.sub(turn, part) if i % 2 else part for i, part in enumerate(re.split(r"(ghost use [^;]*;|(?:requires|ensures)\b[^\n]*\{(?:[^{}]|\{[^{}]*\})*\})", text)))
        else:
            out = any_old.sub(turn, text)
        for n in sorted(set(m["name"] for m in any_old.finditer(text))):
            if table[n] in had:
                meet.append(f"{os.path.relpath(p, top)}: {n} and {table[n]}")
        if out != text:
            with open(p, "w", encoding="utf-8") as f:
                f.write(out)
    print("\n".join(meet))
    print(f"{len(table)} names; {len(meet)} may fall together")


if __name__ == "__main__":
    main(sys.argv[1:])
