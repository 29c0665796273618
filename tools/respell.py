#!/usr/bin/env python3
"""Brings the repository's own definitions, lemmas and labels to snake case, as the library's are: `risingFrom` and `row-at` become
`rising_from` and `row_at`. Types, modules and what Rattle generates keep their names, and so do functions, strings and exported names.

usage: respell.py FOLDER [--write]

FOLDER holds crates/. Without --write it says which names would change, and which would fall together. Run it once, after port.py.
"""
import collections
import os
import re
import sys

TOKEN = re.compile(r"[^\s(){}\[\],;.:«»|`]+")
DECLARED = re.compile(
    r"^[ \t]*(?:(?:abbrev|unfoldable|opaque|pub|private|data|record) )*([^\s(){}\[\],;.:]+(?: [^\s(){}\[\],;.:]+)*)[ \t]+:(?=\s)([^\n]*)", re.M
)
# what Rattle asks for by these names
ASKED = re.compile(r"^(invariant|decreases)-")


def paths(top, endings):
    for above, folders, files in os.walk(top):
        folders[:] = sorted(f for f in folders if f not in ("out", ".git", "target"))
        for name in sorted(files):
            if name.endswith(endings):
                yield os.path.join(above, name)


def read(path):
    with open(path, encoding="utf-8", newline="") as f:
        return f.read()


def respelled(name):
    parts = name.split("-")
    if not all(parts):
        return name
    done = []
    for i, part in enumerate(parts):
        if part[0].isupper():
            done.append(part)
        else:
            done.append(re.sub(r"(?<=[a-z0-9])([A-Z])", r"_\1", part).lower() if re.fullmatch(r"[\w'₀-₉]+", part) else part)
    return "_".join(done)


def wants(name):
    return name[0].islower() and (re.search(r"[A-Z]", name) or "-" in name) and not ASKED.match(name) and re.fullmatch(r"[\w'-]+", name)


def declared(top):
    """The names that definitions, lemmas, labels and helpers of proofs have: what answers a goal keeps the goal's name."""
    names = collections.Counter()
    for path in paths(top, ".antt"):
        text = re.sub(r"--.*", "", read(path))
        walk = os.path.basename(path) == "Proof.antt"
        for found in DECLARED.finditer(text):
            if walk and re.match(r"\s*(\(?c : )?tie\.(Need|invariant|decreases)", found.group(2)):
                continue
            for name in found.group(1).split():
                if wants(name):
                    names[name] += 1
    return {name: respelled(name) for name in names if respelled(name) != name}


def bound(top):
    """Names in lower camel case that a pattern or a `λ` binds."""
    names = set()
    for path in paths(top, ".antt"):
        for found in TOKEN.finditer(re.sub(r"--.*", "", read(path))):
            name = found.group(0)
            if re.fullmatch(r"[a-z][a-z0-9]*([A-Z][a-z0-9]*)+'?", name):
                names.add(name)
    return {name: respelled(name) for name in names}


def turned(text, names):
    def one(t):
        name = t.group(0)
        if name in LEMMAS and name in names:
            field = t.start() > 0 and text[t.start() - 1] == "."
            return respelled(name) if field else LEMMAS[name]
        return names.get(name, name)

    return TOKEN.sub(one, text)


def code_and_rest(text, mark):
    """Pieces of the text by turns: code, then what is a comment or a string."""
    return re.split(rf'({mark}[^\n]*|"(?:[^"\\\n]|\\.)*")', text)


def turn(text, names, mark):
    pieces = code_and_rest(text, mark)
    spoken = {k: v for k, v in names.items() if "-" not in k}
    for i, piece in enumerate(pieces):
        if i % 2 == 0:
            pieces[i] = turned(piece, names)
        elif piece.startswith(mark):
            pieces[i] = quoted(turned(piece, spoken), names)
    return "".join(pieces)


def quoted(text, names):
    return re.sub(r"`[^`\n]*`", lambda q: turned(q.group(0), names), text)


def together(top, names):
    """Files in which a new name already stands, or two names become one."""
    for path in paths(top, (".antt", ".rt")):
        here = {t.group(0) for t in TOKEN.finditer(re.sub(r"--.*|//.*", "", read(path)))}
        made = collections.defaultdict(list)
        for name in here:
            if name in names:
                made[names[name]].append(name)
        for new, olds in made.items():
            if new in here or len(olds) > 1:
                yield path, new, olds


# Lemmas that would have a definition's name: they get `_lem`.
LEMMAS = {
    n: respelled(n) + "_lem"
    for n in """bare-call clock-read page-at horizon-from last-from stamp-bytes commit-call gossip-call paired-order is-done flush-store
    no-request lone-order known-after hex-pairs due-seen snapshot-read single-call text-order double-call object-at number-at up-to
    page-of""".split()
}
# The same where port.py had given a lemma its new spelling.
TURNED = {("Encoding.antt", "write_bytes"): "write_bytes_lem"}


def main():
    folder, write = sys.argv[1], "--write" in sys.argv
    top = os.path.join(folder, "crates")
    names = {**bound(top), **declared(top)}
    if not write:
        print(len(names), "names")
        for path, new, olds in together(top, names):
            print("together:", os.path.relpath(path, folder), new, "from", *olds)
        return
    for path in paths(top, (".antt", ".rt", ".edit")):
        text = read(path)
        for (name, old), new in TURNED.items():
            if os.path.basename(path) == name:
                text = re.sub(rf"(?<![\w.'-]){old}(?![\w'-])", new, text)
        if path.endswith(".edit"):
            new = "".join(turned(l, names) if re.match(r"(old|new): ", l) else l for l in text.splitlines(True))
        else:
            new = turn(text, names, "--" if path.endswith(".antt") else "//")
        if new != text:
            with open(path, "w", encoding="utf-8", newline="") as f:
                f.write(new)
    for path in [os.path.join(folder, "README.md"), *paths(os.path.join(folder, "docs"), ".md")]:
        text = read(path)
        new = quoted(text, names)
        if new != text:
            with open(path, "w", encoding="utf-8", newline="") as f:
                f.write(new)


main()
