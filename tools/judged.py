"""The modes `judged` and `edges` of tools/rows.py: what comes out of small routines has neither reason 1 nor reason 2."""
import re

from rows import Whole, kept, listed, numbers as octets, vectors

EDITIONS = ["first", "second"]

# Name of the rows, name of the vector, what comes of it in edition 1 and, where that is something else, in edition 2.
OUTCOMES = [
    ("kept", "a part of a parameter, returned", "an instruction that is kept: the extract"),
    ("folded", "a tuple of a tuple, read by nothing", "builds that are folded: both"),
    (
        "extracted",
        "a part of a struct's part, returned",
        "an extract that becomes an Assign, behind one that hands the parts of its part on",
    ),
    ("called", "a Call", "a rebuild before an instruction: a Call's argument"),
    (
        "stored",
        "a Store's value, into a pointer",
        "a rebuild before an instruction: a Store's value; its part %0 is dropped",
        "rebuilds before an instruction: a Store's value, its part before it",
    ),
    (
        "loaded",
        "the base of a kept Load",
        "an instruction that is kept, and reads the dropped %1",
        "a rebuild before a kept instruction that reads a tracked value: a Load's base",
    ),
    (
        "returned",
        "a tuple of a tuple, returned",
        "a rebuild before the Return; its part %0 is dropped",
        "rebuilds before the Return, the part before the whole",
    ),
    (
        "named",
        "a struct, built in another order",
        "a rebuild before the Return: a struct, its fields in the order of its type; %0 is dropped",
        "rebuilds before the Return: the same struct, its part before it",
    ),
]
EDGES = [
    (
        "printed",
        "Debug of it",
        "the Debug is kept, and reads the dropped %1 and %0",
        "rebuilds before a Debug, one for each value, parts before them",
    ),
    (
        "empties",
        "an empty tuple and an empty struct",
        "the Debug is kept, and reads the dropped %2 and %3",
        "an empty tuple and an empty struct are rebuilt",
    ),
    (
        "equal",
        "AssertEq of two tuples",
        "the AssertEq is kept, and reads the dropped %0 and %2",
        "rebuilds before an AssertEq, one for each side",
    ),
    (
        "skipped",
        "a block that is skipped",
        "the second block, which begins with a tuple's phi, is skipped and stays as it is; the first is not",
    ),
    (
        "based",
        "the base of a kept Store, and its value",
        "reason 5, as %1, the base of a kept Store, is dropped; the Store's value is rebuilt",
    ),
    (
        "part_stored",
        "a Store's base that is a part",
        "reason 3, as %0 is a Store's base and a part of %1; it is dropped and the Store kept",
        "reason 3, for the same; the part is rebuilt before its whole",
    ),
]
TWICE = (
    "once",
    "a part that the second run folds",
    "%0 is kept, as its whole %1 stands twice in %3, and %2 := %0 stands for the extract",
)
AGAIN = (
    "again",
    "the second run of it",
    "of what came out %0 is folded and %2, the base of a Store that is kept, is dropped: reason 5",
)

HEAD = '''-- Still well typed (document 02): small routines, one for each thing that becomes of an instruction or a Return, with neither reason 1 nor
-- reason 2, and what both editions make of them, which has neither. Each is computed from the definitions; what comes out and the shelf
-- reason are held to an implementation that was written apart from them (host/edition2; `tools/rows.py` wrote this file from its vectors).
-- Debug's values count. Edge cases are in JudgedEdges.
use Rattle.std.specs.Prelude.{ℕ, ◌+◌, ◌≡◌, List, [], ◌∷◌, ◌++◌, map, reverse, Bool, true, false, length}
use mathlib.Core.Path.{refl}
use mathlib.Core.Option.{Option, none, some}
use Rattle.bytes_wire.specs.Value.{integer}
use Rattle.mir.specs.declared.TypeId.{TypeId}
use Rattle.mir.specs.declared.NameId.{NameId}
use Rattle.mir.specs.declared.Projection.TheVariants.{Index, Tuple}
use Rattle.mir.specs.MirType.{MirType}
use Rattle.mir.specs.Syntax.{Instruction, Terminator, Block, plain, Jump, Return}
use Rattle.mir.specs.Syntax.{Assign, Call, Load, Store, Debug, Phi, MakeTuple, ExtractTupleElement, MakeStruct, ExtractStructField, AssertEq}
use Rattle.mir.specs.Routine.{Routine}
use Rattle.fold.specs.declared.Edition.{Edition}
use Rattle.fold.specs.declared.Settings.{Settings}
use Rattle.rewrite.specs.Run.{rewritten_blocks, rewrite}
use Rattle.shelf.specs.Reason.{types_agree, in_order, shelf_reason}
use Rattle.shelf_corners.specs.Words.{v, op}
use Rattle.shelf_corners.proofs.Open.{opened}

-- the editions, the other settings as usual
abbrev pub first : Settings
first = record { tuples = true; structs = true; most = 8; edition = Edition.First }

abbrev pub second : Settings
second = record { tuples = true; structs = true; most = 8; edition = Edition.Second }

-- the number of a type, and of a name
abbrev pub ty : ℕ → TypeId
ty n = record { 0 = n }

abbrev pub label : ℕ → NameId
label n = record { 0 = n }

-- what is recorded of values that have these types
abbrev pub recorded : List ℕ → List (Option TypeId)
recorded ts = map (λ n. some (ty n)) ts

-- a block
abbrev pub lines : List Instruction → Terminator → Block
lines is t = record { instructions = is; terminator = t }

-- a routine: type table, parameters, the types of its values 0, 1, .., blocks
abbrev pub over : List MirType → List ℕ → List ℕ → List Block → Routine
over τ ps ts ks = record { types = τ; next = length ts; entry = record { 0 = 0 }; parameters = map v ps; recorded = recorded ts; blocks = ks }

-- neither reason 1 nor reason 2
abbrev pub Typed : Routine → Type 0
Typed r = (types_agree true r ≡ true) × (in_order true r ≡ true)

-- the routine is well typed and has this shelf reason; fresh numbers of these types and these blocks come out, and what comes out is well typed
abbrev pub Comes : Settings → Routine → ℕ → List ℕ → List Block → Type 0
Comes σ r k ts ks =
    Typed r
    × (shelf_reason true r (rewritten_blocks σ r) ≡ k)
    × (rewrite σ r ≡ record r { next = r.next + length ts; recorded = r.recorded ++ recorded ts; blocks = ks })
    × Typed (rewrite σ r)
'''

EDGE_HEAD = '''-- Edge cases of what is computed in Judged: what comes out has neither reason 1 nor reason 2 (`tools/rows.py` wrote this file too). At the end
-- a routine that passes the shelf test and of which what comes out has reason 5: a second run leaves the shelf, and is well typed all the same.
use Rattle.std.specs.Prelude.{ℕ, ◌≡◌, List, [], ◌∷◌, true, false, length}
use mathlib.Core.Path.{refl}
use Rattle.bytes_wire.specs.Parse.{ok}
use Rattle.bytes_wire.specs.Value.{integer}
use Rattle.bytes_sections.specs.Decode.{mosts, whole_of}
use Rattle.mir.specs.declared.BlockId.{BlockId}
use Rattle.mir.specs.declared.Projection.TheVariants.{Index, Tuple}
use Rattle.mir.specs.MirType.{MirType}
use Rattle.mir.specs.Syntax.{plain, Jump, Return}
use Rattle.mir.specs.Syntax.{Assign, Call, Load, Store, Debug, Phi, MakeTuple, ExtractTupleElement, MakeStruct, ExtractStructField, AssertEq}
use Rattle.mir.specs.Routine.{Routine}
use Rattle.rewrite.specs.Run.{rewrite}
use Rattle.shelf.specs.Answer.{lowered, answer}
use Rattle.shelf_corners.specs.Words.{v, op, counts}
use Rattle.shelf_corners.proofs.Open.{opened, answering}
use Rattle.shelf_corners.proofs.Judged.{first, second, ty, label, lines, over, types, Comes}

-- the number of a block
abbrev target : ℕ → BlockId
target n = record { 0 = n }

-- as much as any input has
abbrev room : ℕ
room = 65536
'''

WRONG = '''
-- ## What comes out, wrong in one thing, is refused

-- a routine with the instructions of each block changed
abbrev changed : (List Instruction → List Instruction) → Routine → Routine
changed f q = record q {{ blocks = map {{A = Block}} (λ k. record k {{ instructions = f k.instructions }}) q.blocks }}

-- the last fresh number recorded at the type of the one before it
abbrev type_before : Routine
type_before = record (rewrite second returned) {{ recorded = returned.recorded ++ recorded {fresh} }}

pub type_before_refused : (types_agree true type_before ≡ false) × (in_order true type_before ≡ true)
unfolding opened
type_before_refused = (refl, refl)

-- the rebuild behind its reader
abbrev behind : Routine
behind = changed reverse (rewrite second called)

pub behind_refused : (types_agree true behind ≡ true) × (in_order true behind ≡ false)
unfolding opened
behind_refused = (refl, refl)

-- the Assign that stands for an extract at the type of the whole
abbrev whole_assigned : Routine
whole_assigned = changed (λ is. {assign} ∷ []) (rewrite second extracted)

pub whole_assigned_refused : (types_agree true whole_assigned ≡ false) × (in_order true whole_assigned ≡ true)
unfolding opened
whole_assigned_refused = (refl, refl)

-- the rebuilt struct with its parts in the order in which they were given
abbrev as_given : Routine
as_given =
    changed (λ is.
    {part} ∷
    {struct} ∷
    []) (rewrite second named)

pub as_given_refused : (types_agree true as_given ≡ false) × (in_order true as_given ≡ true)
unfolding opened
as_given_refused = (refl, refl)
'''


def block_lines(blocks):
    """The list of blocks, an instruction to a line."""
    text = "("
    for instructions, end in blocks:
        inner = "".join(f"\n    {it} ∷" for it in instructions)
        text += f"lines ({inner}\n    []) ({end}) ∷ " if inner else f"lines [] ({end}) ∷ "
    return text + "[])"


def typed(data):
    """A routine of which all values have types."""
    it = Whole(data, words=True)
    assert it.entry == 0 and None not in it.recorded
    return it


def numbers(them):
    return listed(map(str, them))


def output(vector):
    *settings, _, right = vector
    assert settings == ["1", "1", "8"] and right[0] != "refused"
    return typed(bytes.fromhex(right[7]))


def comes(number, name, of, told, vector):
    """A row: what an edition makes of a routine."""
    before, after = typed(vector[3]), output(vector)
    held = (before.types, before.parameters, before.recorded)
    assert held == (after.types, after.parameters, after.recorded[: before.next])
    edition = EDITIONS[number]
    return f"""
-- edition {number + 1}: {told}
pub {name}_{edition} : Comes {edition} {of} {vector[4][6]} {numbers(after.recorded[before.next :])}
    {block_lines(after.blocks)}
unfolding opened
{name}_{edition} = ((refl, refl), refl, refl, (refl, refl))
"""


def rows(found, name, vector, told, types="types"):
    """A routine, and what both editions make of it."""
    it = typed(found[0][vector][3])
    body = f"""
-- {vector}
abbrev {name} : Routine
{name} =
    over {types} {numbers(it.parameters)} {numbers(it.recorded)}
    {block_lines(it.blocks)}
"""
    return body + "".join(comes(i, name, name, told[i % len(told)], found[i][vector]) for i in range(2))


def table(name, words, types):
    lines = "".join(f"    {row} ∷\n" for row in types)
    return f"\n-- {words}\nabbrev pub {name} : List MirType\n{name} =\n{lines}    []\n"


def of_all(found, listed_rows):
    """The type table that they have, and the rows."""
    tables = [typed(found[0][vector][3]).types for _, vector, *_ in listed_rows]
    assert all(it == tables[0] for it in tables)
    return tables[0], "".join(rows(found, name, vector, told) for name, vector, *told in listed_rows)


def wrong(found):
    """What comes out of some of them in edition 2, with one thing changed."""
    out = {name: output(found[1][vector]) for name, vector, *_ in OUTCOMES}
    *_, before, last = out["returned"].recorded
    ((assign,), _), = out["extracted"].blocks
    ((part, struct), _), = out["named"].blocks
    of_part, of_whole = out["extracted"].recorded[4], out["extracted"].recorded[3]
    x, y = re.findall(r"value = (\(.*?\))", struct)
    given = struct.replace(x, "?").replace(y, x).replace("?", y)
    assert before != last and of_part != of_whole and assign.endswith(f"(ty {of_part}))")
    assign = assign.replace(f"(ty {of_part}))", f"(ty {of_whole}))")
    return WRONG.format(fresh=numbers([before, before]), assign=assign, part=part, struct=given)


def twice(found):
    """The routine that is lowered twice, by its bytes too."""
    name, vector, *told = TWICE
    again, second_vector, *second_told = AGAIN
    inputs = [found[0][it][3] for it in (vector, second_vector)]
    body = "\n-- ## A routine that leaves the shelf at its second run\n"
    body += table("fewer", "its types", typed(inputs[0]).types) + rows(found, name, vector, told, "fewer")
    for i, edition in enumerate(EDITIONS):
        assert bytes.fromhex(found[i][vector][4][7]) == inputs[1]
        body += comes(i, again, f"(rewrite {edition} {name})", second_told[0], found[i][second_vector])
    for it, words, data in ((name, "its bytes", inputs[0]), (again, "what comes out as bytes, in both editions", inputs[1])):
        body += f"\n-- {words}\nabbrev {it}_bytes : List ℕ\n{it}_bytes =\n    {octets(data)}\n"
    body += reads(f"{name}_read", "the routine is what is read of its bytes", name, f"{name}_bytes")
    for i, edition in enumerate(EDITIONS):
        body += reads(f"{again}_read_{edition}", f"what edition {i + 1} makes of it is what is read of those", f"(rewrite {edition} {name})", f"{again}_bytes")
    for i in range(2):
        body += answers(i, name, found[i][vector], f"{again}_bytes") + answers(i, again, found[i][second_vector])
    return body


def reads(row, words, of, data):
    """The bytes are those of a routine."""
    return f"""
-- {words}
pub {row} : whole_of mosts {data} ≡ ok {of} (length {data})
unfolding answering
{row} = refl
"""


def answers(number, name, vector, told=None):
    """What a call answers to the bytes."""
    result, *counts, reason, hexed = vector[4]
    flag = ["false", "true"][int(result)]
    told = f" {told}" if told else f"\n    {octets(bytes.fromhex(hexed))}"
    return f"""
-- edition {number + 1}, answered to these bytes: reason {reason}
pub {name}_answer_{EDITIONS[number]} : answer {EDITIONS[number]} room {name}_bytes ≡ lowered {flag} (counts {' '.join(counts)}) {reason}{told}
unfolding answering
{name}_answer_{EDITIONS[number]} = refl
"""


def judged(path):
    found = [vectors(path, "1"), vectors(path, "2")]
    types, body = of_all(found, OUTCOMES)
    return kept(HEAD, table("types", "their types", types) + body + wrong(found))


def edges(path):
    found = [vectors(path, "1"), vectors(path, "2")]
    types, body = of_all(found, EDGES)
    assert types == of_all(found, OUTCOMES)[0]
    return kept(EDGE_HEAD, body + twice(found))
