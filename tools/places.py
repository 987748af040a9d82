#!/usr/bin/env python3
"""Counts, in the src/ of each crate, the places of older forms (docs/DESIGN-PASS.md says what each point is).

    python3 tools/places.py [--list] [TREE]

For each point a line with its number of places; with --list the places themselves. TREE is a checkout, this one by default."""
import collections
import pathlib
import re
import sys

NONE_OR_REFUSAL = re.compile(r"^    (Refused|Nothing|Absent|Clash|NoRoom|Untracked|Reads)\b.*,$")
FLAG_FIELD = re.compile(r"^    pub (ok|given|forwarded|clash): bool,$")
NUMBER_CONST = re.compile(r"^(?:pub )?const ([A-Z0-9_]+): u(?:8|16|64) = (?:\d+|kind::\w+ as u8);")
LOOP = re.compile(r"^\s*(while|loop)\b")
COUNTED = re.compile(r"\b(\w+): &(?:mut )?\[(\w+)\],\s*(n|count|many|have): u(?:8|16|32|size)\b")
TOKEN = re.compile(r"[A-Za-z_]\w*|\d\w*|\S")
KEYWORDS = set("fn let mut if else match return for in while as pub true false self u8 u16 u32 u64 usize bool".split())


def sources(tree):
    for path in sorted(pathlib.Path(tree).glob("crates/*/src/*.rt")):
        yield path, path.read_text().split("\n")


def functions(tree):
    """Yields path, line, name, parameters, clauses and body of each function."""
    for path, lines in sources(tree):
        at = 0
        while at < len(lines):
            head = re.match(r"^(\s*)(?:pub )?(?:extern \"C\" )?fn (\w+)", lines[at])
            if not head:
                at += 1
                continue
            end = at
            while not re.match(rf"^{head.group(1)}\}}$", lines[end]):
                end += 1
            body = at
            while lines[body].strip() != "{" and not lines[body].endswith(" {"):
                body += 1
            signature = " ".join(line.strip() for line in lines[at:body + 1])
            told = re.search(r"\((.*?)\)(?: ->|\s+requires|\s+ensures|\s*\{|$)", signature)
            parameters = [p.strip() for p in told.group(1).split(", ")] if told else []
            clauses = [line.strip() for line in lines[at:body] if line.strip().startswith("requires")]
            yield path, at + 1, head.group(2), parameters, clauses, lines[body + 1:end]
            at = end + 1


def place(path, line, what):
    return f"{path.parent.parent.name}/{path.name}:{line} {what}"


def by_lines(tree, pattern):
    return [place(p, k + 1, line.strip()) for p, lines in sources(tree) for k, line in enumerate(lines) if pattern.search(line)]


def twins(tree):
    """Functions of five and more lines whose bodies are alike but for names and numbers."""
    groups = collections.defaultdict(list)
    for path, line, name, parameters, _, body in functions(tree):
        if len(body) < 5:
            continue
        shape = " ".join(t if t in KEYWORDS or not re.match(r"\w", t) else "_" for t in TOKEN.findall(" ".join(body)))
        groups[shape].append(place(path, line, name))
    return [" = ".join(group) for group in groups.values() if len(group) > 1]


def by_hand(tree):
    """Functions that are one match whose arms end in literals or names, or one choice between two: comparison, order, conversion by hand."""
    arm = re.compile(r"=> (?:true|false|\d+|[A-Z_]+|!?[\w.:()]+),$")
    found = []
    for path, line, name, parameters, _, body in functions(tree):
        lines = [b.strip() for b in body]
        one_match = lines and lines[0].startswith("match ") and all(
            arm.search(b) or b in ("}", "},") or b.endswith("{") or b.endswith("=>") for b in lines[1:])
        some_literal = any(re.search(r"=> (true|false|\d+),$", b) for b in lines)
        one_choice = len(lines) == 1 and re.fullmatch(r"if [^{}]+ \{ [^{}]+ \} else \{ [^{}]+ \}", lines[0])
        if (one_match and some_literal) or one_choice:
            found.append(place(path, line, name))
    return found


def together(tree):
    """Groups of three or more parameters of one name and type that stand together in five or more functions."""
    counts = collections.Counter()
    for _, _, _, parameters, _, _ in functions(tree):
        for size in (3, 4, 5):
            for k in range(len(parameters) - size + 1):
                counts[", ".join(parameters[k:k + size])] += 1
    groups = {g: n for g, n in counts.items() if n >= 5}
    whole = [g for g in groups if not any(g in h and g != h and groups[h] == groups[g] for h in groups)]
    return [f"{groups[g]} functions: {g}" for g in sorted(whole, key=lambda g: -groups[g])]


def facts(tree):
    """A requires that stands word for word in three or more functions."""
    counts = collections.Counter()
    for _, _, _, _, clauses, _ in functions(tree):
        for clause in clauses:
            counts[re.sub(r"^requires( \w+)? ", "", clause)] += 1
    return [f"{n} functions: {c}" for c, n in counts.most_common() if n >= 3]


def counted(tree):
    return [place(p, line, f"{name}: {m.group(1)}, {m.group(3)}") for p, line, name, ps, _, _ in functions(tree) for m in [COUNTED.search(", ".join(ps))] if m]


def proofs(tree):
    files = [p for p in pathlib.Path(tree).glob("crates/*/proofs/**/*.antt") if p.name in ("Answers.antt", "Invariants.antt")]
    return [f"{len(files)} files, {sum(len(p.read_text().splitlines()) for p in files)} lines"]


POINTS = (
    ("1 an own variant for none or a refusal", lambda t: by_lines(t, NONE_OR_REFUSAL)),
    ("1 a flag with a value beside it", lambda t: by_lines(t, FLAG_FIELD)),
    ("1 numbers for kinds, shapes, classes, reasons", lambda t: by_lines(t, NUMBER_CONST)),
    ("2 twins", twins),
    ("3 loops by hand", lambda t: by_lines(t, LOOP)),
    ("4 equality, order, conversion by hand", by_hand),
    ("5 facts in three and more contracts", facts),
    ("5 parameters that travel together", together),
    ("6 buffers with a length beside them", counted),
    ("7 boxed closures, dyn, function pointers", lambda t: by_lines(t, re.compile(r"\bdyn |: fn\("))),
    ("8 files of answers and invariants", proofs),
)

if __name__ == "__main__":
    words = [w for w in sys.argv[1:] if w != "--list"]
    tree = words[0] if words else pathlib.Path(__file__).resolve().parent.parent
    for title, count in POINTS:
        found = count(tree)
        print(f"{title}: {len(found) if not title.startswith('8') else found[0]}")
        if "--list" in sys.argv:
            for row in found:
                print("   ", row)
