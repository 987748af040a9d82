#!/usr/bin/env python3
"""Writes what the editions make of small routines as rows that are computed from the definitions, by vectors of host/edition2.

usage: tools/rows.py routines VECTORS 0 5 >crates/rewrite/proofs/Rows.antt
       tools/rows.py routines VECTORS 5 12 >crates/rewrite/proofs/RowsFaults.antt
       tools/rows.py answers VECTORS 0 17 >crates/shelf_corners/proofs/Second.antt
       tools/rows.py answers VECTORS 17 35 >crates/shelf_corners/proofs/SecondBounds.antt
       tools/rows.py judged VECTORS >crates/shelf_corners/proofs/Judged.antt
       tools/rows.py edges VECTORS >crates/shelf_corners/proofs/JudgedEdges.antt
at the top; VECTORS is host/edition2/vectors/small.txt, whose head says how it was made. The two numbers: the rows from one on up to before the
other, all without them.

`routines`: of some of them the rewritten routine, counts and fault; input and output are decoded from the vector's bytes.
`answers`: of those up to the 15, and without it, the answer to the bytes.
`judged`, `edges`: of some of them, in both editions, the shelf reason, what comes out, and that input and output have neither reason 1 nor reason 2.
Nothing is computed here: what a row is held to is the vector's.
"""
import itertools
import re
import struct
import sys

WANTED = [
    "a tuple of a tuple, returned",
    "AssertEq with both sides the same",
    "the base of a kept Load",
    "the base of a kept Store, and its value",
    "a diamond of parts",
    "a part without a recorded type",
    "a part that is lost, a loop",
    "a later Boolean Index",
    "14, itself a part",
    "10 before a part's 14",
    "10 before 14",
    "14 before 10",
]
FAULTS = {10: "Fault.Clash", 14: "Fault.Looped", 15: "Fault.Overfull"}


class Bytes:
    """With `words` a number is written by the word of its sort."""

    def __init__(self, data, words=False):
        self.data, self.at, self.words = data, 0, words

    def take(self, form):
        (n,) = struct.unpack_from("<" + form, self.data, self.at)
        self.at += struct.calcsize("<" + form)
        return n


def listed(items):
    items = list(items)
    return "(" + " ∷ ".join([*items, "[]"]) + ")" if items else "[]"


def numbered(n):
    return f"(record {{ 0 = {n} }})"


def many(b, item):
    return [item(b) for _ in range(b.take("B"))]


def short(b, word):
    n = b.take("H")
    return f"({word} {n})" if b.words else numbered(n)


def value_id(b):
    return short(b, "v")


def type_id(b):
    return short(b, "ty")


def name_id(b):
    return short(b, "label")


def a_type(b):
    kind = b.take("B")
    if kind == 0:
        return "MirType.Felt"
    if kind == 3:
        return f"(MirType.Tuple {listed(many(b, type_id))})"
    if kind == 4:
        name = name_id(b)
        fields = many(b, lambda b: f"(record {{ name = {name_id(b)}; part = {type_id(b)} }})")
        return f"(MirType.Struct {name} {listed(fields)})"
    if kind == 5:
        return f"(MirType.FixedArray {type_id(b)} {b.take('I')})"
    if kind == 6:
        return f"(MirType.Pointer {type_id(b)})"
    raise ValueError(f"type {kind}")


def a_value(b):
    kind = b.take("B")
    if kind == 0:
        return f"(integer {b.take('I')})"
    if kind == 1:
        return f"(boolean {'true' if b.take('B') else 'false'})"
    if kind == 2:
        return "unit"
    if kind == 3:
        return short(b, "op") if b.words else f"(Value.Operand {value_id(b)})"
    return "Value.Error"


def a_step(b):
    kind = b.take("B")
    return [lambda: f"(Index {a_value(b)})", lambda: f"(Field {name_id(b)})", lambda: f"(Tuple {b.take('I')})"][kind]()


def a_place(b):
    base = value_id(b)
    return f"(record {{ base = {base}; projections = {listed(many(b, a_step))} }})"


def a_source(b):
    return f"(record {{ block = {short(b, 'target')}; value = {a_value(b)} }})"


def an_init(b):
    return f"(record {{ name = {name_id(b)}; value = {a_value(b)} }})"


def an_instruction(b):
    bits, kind = b.take("B"), b.take("B")
    if bits:
        raise ValueError("meta")
    fields = {
        0: lambda: f"Assign {value_id(b)} {a_value(b)} {type_id(b)}",
        3: lambda: f"Call {listed(many(b, value_id))} {b.take('H')} {listed(many(b, a_value))} {listed(many(b, type_id))} {listed(many(b, type_id))}",
        5: lambda: f"Load {value_id(b)} {a_place(b)} {type_id(b)}",
        6: lambda: f"Store {a_place(b)} {a_value(b)} {type_id(b)}",
        7: lambda: f"Debug {b.take('I')} {listed(many(b, a_value))}",
        9: lambda: f"Phi {value_id(b)} {type_id(b)} {listed(many(b, a_source))}",
        10: lambda: f"MakeTuple {value_id(b)} {listed(many(b, a_value))}",
        11: lambda: f"ExtractTupleElement {value_id(b)} {a_value(b)} {b.take('I')} {type_id(b)}",
        12: lambda: f"MakeStruct {value_id(b)} {listed(many(b, an_init))} {type_id(b)}",
        13: lambda: f"ExtractStructField {value_id(b)} {a_value(b)} {name_id(b)} {type_id(b)}",
        14: lambda: f"InsertField {value_id(b)} {a_value(b)} {name_id(b)} {a_value(b)} {type_id(b)}",
        15: lambda: f"InsertTuple {value_id(b)} {a_value(b)} {b.take('I')} {a_value(b)} {type_id(b)}",
        16: lambda: f"MakeFixedArray {value_id(b)} {listed(many(b, a_value))} {type_id(b)} false",
        17: lambda: f"AssertEq {a_value(b)} {a_value(b)}",
    }
    return f"plain ({fields[kind]()})"


def an_end(b):
    kind = b.take("B")
    if kind == 0:
        return f"Jump {short(b, 'target')}"
    if kind == 3:
        return f"Return {listed(many(b, a_value))}"
    raise ValueError(f"terminator {kind}")


def a_block(b):
    return [an_instruction(b) for _ in range(b.take("H"))], an_end(b)


class Whole:
    """A routine's parts: numbers are numbers, what is behind them is written."""

    def __init__(self, data, words=False):
        b = Bytes(data, words)
        self.types = [a_type(b) for _ in range(b.take("H"))]
        self.next, blocks, self.entry = b.take("H"), b.take("H"), b.take("H")
        self.parameters = many(b, lambda b: b.take("H"))
        bits = b.data[b.at : b.at + (self.next + 7) // 8]
        b.at += (self.next + 7) // 8
        self.recorded = [b.take("H") if bits[v // 8] >> (v % 8) & 1 else None for v in range(self.next)]
        self.blocks = [a_block(b) for _ in range(blocks)]


def routine(data):
    r = Whole(data)
    recorded = ["none" if t is None else f"some {numbered(t)}" for t in r.recorded]
    lines = ["    record {", "      types =", *[f"          {it}" + " ∷" for it in r.types], "          [];"]
    lines += [f"      next = {r.next};", f"      entry = {numbered(r.entry)};"]
    lines += [f"      parameters = {listed(map(numbered, r.parameters))};", f"      recorded = {listed(recorded)};", "      blocks ="]
    for instructions, end in r.blocks:
        lines += ["          record {", "            instructions ="]
        lines += [*[f"                {it} ∷" for it in instructions], "                [];", f"            terminator = {end};", "          } ∷"]
    return lines + ["          [];", "    }"]


def vectors(path, wanted="2"):
    """Returns by name, of an edition: the settings, the input and what it comes to."""
    name, found = None, {}
    for line in open(path, encoding="utf-8"):
        line = line.rstrip("\n")
        if line.startswith("# "):
            name = line[2:]
        elif line:
            left, right = line.split(" -> ")
            tuples, structs, most, edition, data = left.split()
            if edition == wanted:
                found[name] = (tuples, structs, most, bytes.fromhex(data), right.split())
    return found


def numbers(data):
    rows = [" ∷ ".join(str(n) for n in data[i : i + 24]) for i in range(0, len(data), 24)]
    return "(" + "\n    ∷ ".join(rows) + " ∷ [])"


HEAD = '''-- What edition 2 makes of small routines, each computed from the definitions and held to an implementation that was written apart from them
-- (host/edition2; `tools/rows.py` wrote this file from its vectors).
use mathlib.Core.Path.{◌≡◌, refl}
use mathlib.Core.List.{[], ◌∷◌}
use mathlib.Core.Bool.{true, false}
use mathlib.Core.Option.{none, some}
use Rattle.bytes_wire.specs.Value.{integer, boolean}
use Rattle.mir.specs.declared.Value.{Value}
use Rattle.mir.specs.declared.Projection.TheVariants.{Index, Tuple}
use Rattle.mir.specs.MirType.{MirType}
use Rattle.mir.specs.Syntax.{plain, Return, Assign, Load, Store, MakeTuple, InsertTuple, MakeFixedArray, AssertEq}
use Rattle.mir.specs.Routine.{Routine}
use Rattle.fold.specs.declared.Edition.{Edition}
use Rattle.fold.specs.declared.Settings.{Settings}
use Rattle.rewrite.specs.declared.Fault.{Fault}
use Rattle.rewrite.specs.Run.{rewritten_blocks, rewrite}
use Rattle.rewrite.proofs.Open.{all_open}

-- edition 2, the other settings as usual
abbrev second : Settings
second = record { tuples = true; structs = true; most = 8; edition = Edition.Second }
'''


ANSWERS = '''-- What edition 2 answers to the bytes of small routines, each computed from the definitions and held to an implementation that was written
-- apart from them (host/edition2; `tools/rows.py` wrote this file from its vectors).
use Prim.Native.Nat.{ℕ}
use mathlib.Core.Path.{◌≡◌, refl}
use mathlib.Core.List.{[], ◌∷◌}
use mathlib.Core.Bool.{Bool, true, false}
use Rattle.fold.specs.declared.Edition.{Edition}
use Rattle.fold.specs.declared.Settings.{Settings}
use Rattle.shelf.specs.Answer.{refused, lowered, answer}
use Rattle.shelf_corners.specs.Words.{counts}
use Rattle.shelf_corners.proofs.Open.{answering}

abbrev second : Bool → Bool → ℕ → Settings
second tuples structs most = record { tuples = tuples; structs = structs; most = most; edition = Edition.Second }

-- as much as any input has
abbrev room : ℕ
room = 65536
'''


def kept(head, body):
    """The head without the imports of which the body has no word."""
    words = set(re.findall(r"[^\s()\[\]{}.;:]+", body + "\n".join(line for line in head.splitlines() if line[:4] != "use ")))
    marks = {"◌≡◌": "≡", "◌+◌": "+", "◌++◌": "++", "[]": "∷", "◌∷◌": "∷"}
    lines = []
    for line in head.splitlines():
        found = re.fullmatch(r"(use .*\{)(.*)\}", line)
        if found:
            names = [name for name in found[2].split(", ") if marks.get(name, name) in words]
            line = found[1] + ", ".join(names) + "}" if names else None
        if line is not None:
            lines.append(line)
    return "\n".join(lines) + "\n" + body


def answers(path, among):
    body = ""
    flag = {"0": "false", "1": "true"}
    # 15 takes 65,535 rebuilds, too many for a row.
    rows = list(itertools.takewhile(lambda it: not it[0].startswith("15"), vectors(path).items()))
    for i, (name, (tuples, structs, most, data, right)) in list(enumerate(rows))[among]:
        told = f"refused {right[1]} {right[2]}"
        if right[0] != "refused":
            told = f"lowered {flag[right[0]]} (counts {' '.join(right[1:6])}) {right[6]}\n    {numbers(bytes.fromhex(right[7]))}"
        body += f"\n-- {name}\npub answer_{i} : answer (second {flag[tuples]} {flag[structs]} {most}) room\n"
        body += f"    {numbers(data)}\n    ≡ {told}\nunfolding answering\nanswer_{i} = refl\n"
    print(kept(ANSWERS, body), end="")


def routines(path, among):
    body = ""
    found = vectors(path)
    for i, name in list(enumerate(WANTED))[among]:
        tuples, structs, most, data, right = found[name]
        assert (tuples, structs, most) == ("1", "1", "8")
        body += f"\n-- {name}\nabbrev input_{i} : Routine\ninput_{i} =\n"
        body += "\n".join(routine(data)) + "\n"
        if right[0] == "refused":
            fault = FAULTS[int(right[1])]
            body += f"\npub fault_{i} : (rewritten_blocks second input_{i}).fault ≡ some {fault}\nunfolding all_open\nfault_{i} = refl\n"
            continue
        counts = dict(zip(["builds", "extracts", "inserts", "assigns", "materializations"], right[1:6]))
        told = "; ".join(f"{k} = {v}" for k, v in counts.items())
        body += f"\npub counts_{i} : (rewritten_blocks second input_{i}).counts ≡ record {{ {told} }}\nunfolding all_open\ncounts_{i} = refl\n"
        body += f"\npub fault_{i} : (rewritten_blocks second input_{i}).fault ≡ none\nunfolding all_open\nfault_{i} = refl\n"
        body += f"\nabbrev output_{i} : Routine\noutput_{i} =\n"
        body += "\n".join(routine(bytes.fromhex(right[7]))) + "\n"
        body += f"\npub row_{i} : rewrite second input_{i} ≡ output_{i}\nunfolding all_open\nrow_{i} = refl\n"
    print(kept(HEAD, body), end="")


def main(words):
    if len(words) == 2 and words[0] in ("judged", "edges"):
        sys.dont_write_bytecode = True
        import judged

        print(getattr(judged, words[0])(words[1]), end="")
        return 0
    if len(words) not in (2, 4) or words[0] not in ("routines", "answers"):
        print(__doc__)
        return 2
    (routines if words[0] == "routines" else answers)(words[1], slice(*map(int, words[2:])) if words[2:] else slice(None))
    return 0


if __name__ == "__main__":
    sys.exit(main(sys.argv[1:]))
