#!/usr/bin/env python3
"""Spells this repository's own definitions and lemmas as the newer Rattle spells its own: in snake case.

usage: tools/respell.py turn            at the top of the repository: turns every name by tools/names.tsv
       tools/respell.py table TREE..    prints the rows without a path, from the names in the crates of the trees
       tools/respell.py clashes         at the top, before `turn`: lists, file by file, names that would fall together

A row of the table is the old name, a tab, the new one, and perhaps a tab and a path: then only files below it are turned.
What turns: the text of .antt files, the clauses and `ghost use` items of .rt files, the lines `old:` and `new:` of must-fail edits, and in comments and
in pages what stands between backticks (in comments a name with a capital inside also bare). Strings stay, and so do names that a file imports
from the library, and the labels that Rattle makes: one is spelled like a name of the table, and has a row with its file that leaves it as it is.
It goes by spelling and proves nothing. Run it once: a row with a path would turn what another row has made.
"""

import collections
import os
import re
import sys

HERE = os.path.dirname(os.path.realpath(__file__))
TABLE = os.path.join(HERE, "names.tsv")
WORD = re.compile(r'[^\s(){}.;,@"«»]+')
QUIET = re.compile(r'"(?:[^"\\\n]|\\.)*"|(?<![^\s(){}.;,@"«»])--[^\n]*|\{-.*?-\}', re.S)
RUST_QUIET = re.compile(r'"(?:[^"\\]|\\.)*"|//[^\n]*')
RUST_WORD = re.compile(r"[\w→'-]+")
SPAN = re.compile(r"`[^`\n]+`")
USE = re.compile(r"\b(?:pub )?use ([^\s;{]+)(\{[^;]*?\}(?=;|[ \t]*$))?(?: as ([^\s;]+))?", re.M)
WRITTEN = re.compile(r"/proofs/(.*/)?(Answers|Invariants|Proof)\.antt$")
OLD = re.compile(r"[a-z0-9'][A-Z]|[^-]-[^-]")
# Names of pages that are spelled like names of proofs: examples and faults of the host.
PAGES_KEEP = {"reason-4", "reason-5", "other-kind", "other-part", "well-formed"}


def files(root, *endings):
    for folder, below, names in os.walk(root):
        below[:] = sorted(it for it in below if it not in ("out", "target") and not it.startswith("."))
        for it in sorted(names):
            if it.endswith(endings):
                yield os.path.join(folder, it)


def read(path):
    with open(path, encoding="utf-8") as f:
        return f.read()


def is_old(name):
    return bool(re.match(r"[a-z_(]", name) and OLD.search(name))


def snake(name):
    words = re.sub(r"(?<=[a-z0-9'])[A-Z]", lambda m: "_" + m[0].lower(), name)
    return re.sub(r"_[A-Z]", lambda m: m[0].lower(), words.replace("-", "_"))


def from_library(code, crates):
    """Returns the names that a text imports from the library."""
    found = set()
    for path, items, _ in USE.findall(code):
        steps = path.strip(".").split(".")
        if steps[0] == "Rattle" and len(steps) > 1 and steps[1] in crates:
            continue
        found.update(WORD.findall(items) or steps[-1:])
    return found


def names_of(tree):
    """Returns the files in which each name of the tree's own texts stands, and the names from the library."""
    inside = os.path.join(tree, "crates")
    crates = set(os.listdir(inside))
    standing, library = collections.defaultdict(set), set()
    for path in files(inside, ".antt", ".rt"):
        where = os.path.relpath(path, tree)
        if path.endswith(".rt"):
            names, theirs = re.findall(r"ghost use .* as (\w+)", read(path)), set()
        else:
            code = QUIET.sub(" ", read(path))
            names, theirs = WORD.findall(code), from_library(code, crates)
            library |= theirs
            if WRITTEN.search(path):
                continue
        for it in names:
            if it not in theirs:
                standing[it].add(where)
    return standing, library


def table(trees):
    standing, library = collections.defaultdict(set), set()
    for tree in trees:
        names, theirs = names_of(tree)
        library |= theirs
        for it, where in names.items():
            standing[it] |= where
    old = {it for it in standing if is_old(it)}
    functions = {snake(it) for it in old if "-" not in it}
    for it in sorted(old):
        new = snake(it)
        # A lemma that would have its function's name ends in _lem.
        same_file = standing[it] & standing.get(new, set())
        in_specs = any("/specs/" in path for path in standing.get(new, set()))
        if "-" in it and (new in functions or same_file or in_specs or new in library):
            new += "_lem"
        print(f"{it}\t{new}")


def rows():
    everywhere, below = {}, []
    for line in read(TABLE).splitlines():
        if line and not line.startswith("#"):
            old, new, *path = line.split("\t")
            if path:
                below.append((old, new, path[0]))
            else:
                everywhere[old] = new
    return everywhere, below


def rows_for(everywhere, below, path):
    here = dict(everywhere)
    here.update((old, new) for old, new, where in below if path.startswith(where))
    return here


def between(quiet, text, code, said):
    """Turns what a pattern leaves by code, and what it matches by said."""
    out, at = [], 0
    for m in quiet.finditer(text):
        out += [code(text[at : m.start()]), said(m[0])]
        at = m.end()
    return "".join([*out, code(text[at:])])


def comment(text, names):
    spans = lambda t: RUST_WORD.sub(lambda m: names.get(m[0], m[0]), t)
    camel = lambda t: RUST_WORD.sub(lambda m: names.get(m[0], m[0]) if "-" not in m[0] and re.search("[A-Z]", m[0]) else m[0], t)
    return between(SPAN, text, camel, spans)


def turn_antt(text, names, crates):
    theirs = from_library(QUIET.sub(" ", text), crates)
    here = {old: new for old, new in names.items() if old not in theirs}
    code = lambda t: WORD.sub(lambda m: here.get(m[0], m[0]), t)
    return between(QUIET, text, code, lambda t: t if t[0] == '"' else comment(t, here))


def turn_rt(text, names):
    code = lambda t: RUST_WORD.sub(lambda m: names.get(m[0], m[0]), t)
    return between(RUST_QUIET, text, code, lambda t: t if t[0] == '"' else comment(t, names))


def turn_edit(text, names):
    """An edit's lines: comments, the file, and texts of the file's kind."""
    is_rt = re.search(r"(?m)^file: .*\.rt$", text)
    code = (lambda t: turn_rt(t, names)) if is_rt else (lambda t: turn_antt(t, names, ()))
    lines = []
    for line in text.split("\n"):
        if line.startswith(("old:", "new:")):
            line = line[:4] + code(line[4:])
        elif line.startswith("#"):
            line = comment(line, names)
        lines.append(line)
    return "\n".join(lines)


def turn_page(text, names):
    here = {old: new for old, new in names.items() if old not in PAGES_KEEP}
    return SPAN.sub(lambda m: RUST_WORD.sub(lambda w: here.get(w[0], w[0]), m[0]), text)


def turn():
    everywhere, below = rows()
    crates = set(os.listdir("crates"))
    turned = 0
    paths = list(files("crates", ".antt", ".rt", ".edit"))
    paths += [it for it in files(".", ".md") if not it.startswith("./crates")]
    for path in paths:
        path = os.path.relpath(path)
        names, text = rows_for(everywhere, below, path), read(path)
        if path.endswith(".antt"):
            new = turn_antt(text, names, crates)
        elif path.endswith(".rt"):
            new = turn_rt(text, names)
        elif path.endswith(".edit"):
            new = turn_edit(text, names)
        else:
            new = turn_page(text, names)
        if new != text:
            turned += 1
            with open(path, "w", encoding="utf-8") as f:
                f.write(new)
    print(f"{turned} files turned")


def clashes():
    everywhere, below = rows()
    crates, found = set(os.listdir("crates")), 0
    for path in files("crates", ".antt"):
        code = QUIET.sub(" ", read(path))
        theirs = from_library(code, crates)
        names = {old: new for old, new in rows_for(everywhere, below, path).items() if old not in theirs}
        meet = collections.defaultdict(set)
        for m in WORD.finditer(code):
            # Behind a dot stands a field or a label, which meets no word.
            if code[m.start() - 1] != "." or names.get(m[0], m[0]) != m[0]:
                meet[names.get(m[0], m[0])].add(m[0])
        for new, olds in sorted(meet.items()):
            if len(olds) > 1:
                found += 1
                print(f"{path}: {' and '.join(sorted(olds))} would be {new}")
    print(f"{found} names fall together")


def main(words):
    if words[:1] == ["table"] and len(words) > 1:
        table(words[1:])
    elif words == ["turn"]:
        turn()
    elif words == ["clashes"]:
        clashes()
    else:
        print(__doc__)
        return 2
    return 0


if __name__ == "__main__":
    sys.exit(main(sys.argv[1:]))
