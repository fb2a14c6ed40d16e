#!/usr/bin/env python3
"""Writes the table of the nodes j / 16: src/lib.rt, specs/Table.antt and the proofs that the code reads the table.
Run it, then `rt fmt`. It needs mpmath."""
import os
from mpmath import mp, mpf, sin, cos, floor

mp.prec = 300
NODES = 102
crate = os.path.join(os.path.dirname(os.path.abspath(__file__)), "..")


def row(f):
    """One more than f at each node, at 2^61, to the nearest whole number."""
    return [int(floor((1 + f(mpf(j) / 16)) * 2**61 + mpf(1) / 2)) for j in range(NODES)]


tables = {"sine": row(sin), "cosine": row(cos)}


def write(path, text):
    path = os.path.join(crate, path)
    os.makedirs(os.path.dirname(path), exist_ok=True)
    open(path, "w", encoding="utf-8").write(text)


code = """// One more than the sine and the cosine of each node j / 16, at 2^61, to the nearest. Written by crates/sine_table/tools/table.py.
// A `match` on the index is one load; a constant array would be stored anew at each call. Two functions, and not one that gives a pair,
// since the rule has two lists.
#![tactic(auto)]

ghost use Rattle.std.specs.Prelude.{◌≡◌, get_or};
ghost use Rattle.sine_table.specs.Table.{sines, cosines};
"""
for name, numbers in tables.items():
    code += f"""
// One more than the {name} of j / 16, at 2^61; 0 past the last node.
#[tactic(auto, unfolding(crate::specs::Table::{name}s))]
pub fn node_{name}(j: u64) -> u64
    ensures {{ result ≡ get_or {name}s j 0 }}
{{
    match j {{
"""
    code += "".join(f"        {j} => {v},\n" for j, v in enumerate(numbers)) + "        _ => 0,\n    }\n}\n"
write("src/lib.rt", code)

spec = """-- The table of the rule: one more than the sine and the cosine of each node j / 16, j from 0 to 101, at 2 ^ 61, to the nearest.
-- Nothing has to be believed of these numbers: proofs/Nodes.antt tests each against Taylor's series. Written by crates/sine_table/tools/table.py.
use Rattle.std.specs.Prelude.{List, [], ◌∷◌, ℕ}
"""
for name, numbers in tables.items():
    spec += f"\nunfoldable pub {name}s : List ℕ\n{name}s =\n" + "".join(f"    {v} ∷\n" for v in numbers) + "    []\n"
write("specs/Table.antt", spec)

for name in tables:
    proof = f"""-- `sine_table::node_{name}` reads the table: past the arms there is no number.
-- Written by crates/sine_table/tools/table.py.
use mathlib.Core.Path.{{sym}}
use lib.ListN.{{get_or-eq_default}}
use Rattle.fixed.proofs.Arms.{{past}}
use Rattle.sine_table.specs.Table.{{{name}s}}
use Rattle.sine_table.proofs.node_{name}.Goals as goal

pub returns-in_default : goal.returns-in_default
unfolding {name}s
returns-in_default c = sym (get_or-eq_default {name}s 0 (past {NODES} _ c.in_default.in_default-own.rest))
"""
    write(f"proofs/node_{name}/Answers.antt", proof)
