#!/usr/bin/env python3
"""The tests of proof-short, and of proof-skeleton over what it leaves: no rt is run. `python3 test_proof_short.py`."""
import importlib.machinery
import importlib.util
import sys
import unittest
from pathlib import Path

sys.dont_write_bytecode = True
from antt_short import filled, listed, shortened  # noqa: E402
from rattle_tools import Antt  # noqa: E402


def command(name):
    """A command of this folder, as a module."""
    loader = importlib.machinery.SourceFileLoader(name.replace("-", "_"), str(Path(__file__).parent / name))
    module = importlib.util.module_from_spec(importlib.util.spec_from_loader(loader.name, loader))
    loader.exec_module(module)
    return module


LONG = """-- `f` meets its contract.
use borrow.Author.Needs.{needs}
use Rattle·a·proofs.proofs.f.Tie as tie

abbrev Inv-loop : tie.InvT-loop
Inv-loop s i = i ≤ 3

add-i : tie.Need-add-i Inv-loop
add-i c = search needs

-- why
mul-i : tie.Need-mul-i Inv-loop
mul-i c = search needs

-- src/f.rt:7:9
put-requires : tie.Need-put-requires Inv-loop
put-requires c κs = search needs

low : tie.Need-low Inv-loop
low c = search needs

again : tie.Need-again Inv-loop
again c = g (low c)

pub f-spec : {M : Type 1} → statement M
f-spec =
    tie.close
    (tie.spec
    Inv-loop
    add-i
    mul-i
    put-requires
    low
    again)
"""

SHORT = """-- `f` meets its contract.
use borrow.Author.Needs.{needs}
use Rattle·a·proofs.proofs.f.Tie as tie

abbrev Inv-loop : tie.InvT-loop
Inv-loop s i = i ≤ 3

-- why
mul-i : tie.Need-mul-i Inv-loop
mul-i c = search needs

low : tie.Need-low Inv-loop
low c = search needs

again : tie.Need-again Inv-loop
again c = g (low c)

pub f-spec : {M : Type 1} → statement M
f-spec = tie.close (tie.spec Inv-loop (λ c. search needs) mul-i (λ c κs. search needs) low again)
"""

SKELETON = """use Rattle·a·proofs.proofs.f.Tie as tie

abbrev Inv-loop : tie.InvT-loop
Inv-loop s i = ?

add-i : tie.Need-add-i Inv-loop
add-i c = ?

mul-i : tie.Need-mul-i Inv-loop
mul-i c = ?

put-requires : tie.Need-put-requires Inv-loop
put-requires c κs = ?

again : tie.Need-again Inv-loop
again c = ?

pub f-spec : {M : Type 1} → statement M
f-spec =
    tie.close
    (tie.spec
    Inv-loop
    add-i
    mul-i
    put-requires
    again)
"""


class Short(unittest.TestCase):
    def test_routine_answers_go_into_the_list(self):
        self.assertEqual(shortened(LONG), SHORT)

    def test_a_short_proof_stays(self):
        self.assertEqual(shortened(SHORT), SHORT)

    def test_a_file_without_a_list_stays(self):
        self.assertEqual(shortened("f : A\nf = tie.close search needs\n"), "f : A\nf = tie.close search needs\n")

    def test_the_words_of_a_list(self):
        self.assertEqual(listed(SHORT)[2], ["Inv-loop", "(λ c. search needs)", "mul-i", "(λ c κs. search needs)", "low", "again"])

    def test_an_answer_that_unfolds_or_says_more_stays(self):
        for answer in ("unfolding g\nadd-i c = search needs", "add-i c = search (needs, g)"):
            text = LONG.replace("add-i c = search needs", answer)
            self.assertIn(answer, shortened(text))
            self.assertIn("Inv-loop add-i mul-i", shortened(text))

    def test_a_long_list_has_lines_of_its_own(self):
        self.assertIn("(tie.spec\n    Inv-loop (λ c. search needs)\n    mul-i", shortened(LONG, 34))

    def test_lines_are_filled(self):
        self.assertEqual(filled(["aa", "bb", "cc", "ddddddd"], "  ", 8), ["  aa bb", "  cc", "  ddddddd"])


class Skeleton(unittest.TestCase):
    def merged(self, old, new, fill):
        return command("proof-skeleton").merged(Antt(old), Antt(new), False, fill)

    def test_routine_answers_are_written_out_again(self):
        text, stale = self.merged(SHORT, SKELETON, "search needs")
        self.assertIn("add-i : tie.Need-add-i Inv-loop\nadd-i c = search needs\n", text)
        self.assertIn("put-requires c κs = search needs\n", text)
        self.assertIn("Inv-loop s i = i ≤ 3\n", text)
        self.assertIn("again c = g (low c)\n", text)
        self.assertEqual(stale, ["low"])                    # its need is gone; the list itself is made anew and is no answer
        self.assertNotIn("-- f-spec", text)

    def test_and_shortened_again(self):
        short = shortened(self.merged(SHORT, SKELETON, "search needs")[0])
        self.assertIn("Inv-loop (λ c. search needs) mul-i (λ c κs. search needs) again)", short)


class Goals(unittest.TestCase):
    def test_names_and_chains_are_short(self):
        short = command("proof-goals").short
        self.assertEqual(short("Prim.Native.Nat._≤_ (c .before .before .loop .i) (lib.ListN.length s)"), "(c@2 .loop .i) ≤ (length s)")


if __name__ == "__main__":
    unittest.main()
