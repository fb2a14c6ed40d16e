#!/usr/bin/env python3
"""table.py CRATES: writes the arctangent's table into the crates' folder CRATES: as numbers (arctan_table/specs/Table.antt), as code
(arctan/src/table.rt) and as the proof that the two agree (arctan/proofs/table/look/Answers.antt). Run `rt fmt` after it. Row j holds the coefficients
of Taylor's series of the arctangent at j / 32, each the nearest multiple of 2^-53; as code they are at 2^61, from the third on with 2 added, so that
none is below 0."""
import os, sys
from mpmath import mp, mpf, atan, taylor, nint

mp.prec = 400
ROWS, TERMS = 33, 10
rows = [[int(nint(t * 2**53)) for t in taylor(atan, mpf(j) / 32, TERMS - 1)] for j in range(ROWS)]
number = lambda k, n: str(256 * n + (2**62 if k > 1 else 0))
coef = lambda n: ("(more %d)" if n >= 0 else "(less %d)") % abs(n)
fields = ["a%d" % k for k in range(TERMS)]

code = """// The arctangent's table, written by crates/arctan_table/tools/table.py.

ghost use Rattle.std.specs.Prelude.{◌≡◌};
ghost use Rattle.arctan.specs.Rows.{row_at};

// The coefficients of the arctangent's series at j / 32, in units of 2^-61; from a2 on with 2 added. Ten names and no array, since the rule's
// steps, which name each, are of three kinds.
#[derive(Clone, Copy)]
pub struct Row {
%s}

#[tactic(auto, unfolding(arctan_table::specs::Table::table, arctan_table::specs::Table::coefs_at, crate::specs::Rows::plain, crate::specs::Rows::raised, crate::specs::Rows::row_from, crate::specs::Rows::row_at))]
pub fn look(j: u64) -> Row
    ensures { result ≡ row_at j }
{
    match j {
""" % "".join("    pub %s: u64,\n" % f for f in fields)
for j, r in enumerate(rows):
    body = ", ".join("%s: %s" % (f, number(k, n)) for k, (f, n) in enumerate(zip(fields, r)))
    code += "        %s => Row { %s },\n" % (j if j < ROWS - 1 else "_", body)
code += "    }\n}\n"

spec = """-- The arctangent's table, written by crates/arctan_table/tools/table.py: in row j, from 0 to 32, the first ten coefficients of Taylor's series of the arctangent at j / 32,
-- each the nearest multiple of 2 ^ -53.
use Rattle.std.specs.Prelude.{List, [], ◌∷◌, ℕ, get_or}

-- a multiple of 2 ^ -53 with its sign
pub data Coef : Type 0 where
  more less : ℕ → Coef

pub record Coefs : Type 0 where
%s
abbrev coefs : %sCoefs
coefs %s = record { %s }

unfoldable pub table : List Coefs
table =
""" % ("".join("  pub k%d : Coef\n" % k for k in range(TERMS)), "Coef → " * TERMS, " ".join(fields), "; ".join("k%d = a%d" % (k, k) for k in range(TERMS)))
row = lambda r: "coefs " + " ".join(map(coef, r[:5])) + "\n    " + " ".join(map(coef, r[5:]))
spec += "".join("    %s ∷\n" % row(r) for r in rows) + "    []\n"
spec += """
unfoldable pub coefs_at : ℕ → Coefs
unfolding table
coefs_at j = get_or table j (%s)
""" % ("coefs (more 0) (more 9007199254740992)" + " (more 0)" * (TERMS - 2))

base = sys.argv[1]
for path, text in (("arctan/src/table.rt", code), ("arctan_table/specs/Table.antt", spec)):
    with open(os.path.join(base, path), "w") as f:
        f.write(text)

proof = """-- `arctan::table::look` meets its contract: past the arms the number is the last row's or above.
-- Written by crates/arctan_table/tools/table.py.
use Rattle.std.proofs.Common.{refl}
use native.Mathlib.Nat.{min-eq_right}
use Rattle.fixed.proofs.Arms.{past}
use Rattle.arctan_table.specs.Table.{table, coefs_at}
use Rattle.arctan.specs.Rows.{plain, raised, row_from, row_at}
use Rattle.arctan.proofs.table.look.Goals as goal

pub returns-in_default : goal.returns-in_default
unfolding coefs_at plain raised row_at row_from table
returns-in_default c = rw (min-eq_right (past %d _ c.in_default.in_default-own.rest)) refl
""" % (ROWS - 1)
os.makedirs(os.path.join(base, "arctan/proofs/table/look"), exist_ok=True)
with open(os.path.join(base, "arctan/proofs/table/look/Answers.antt"), "w") as f:
    f.write(proof)
