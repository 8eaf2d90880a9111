#!/usr/bin/env python3
"""The tests of proof-lint: no rt is run. `python3 test_proof_lint.py`."""
import sys
import unittest

sys.dont_write_bytecode = True
from test_proof_short import command  # noqa: E402

FOUR = " .before" * 4


class Lint(unittest.TestCase):
    def faults(self, text):
        return command("proof-lint").faults(text)

    def test_a_long_line(self):
        self.assertEqual(self.faults("a : A\na = " + "b" * 196 + "\n"), [])
        self.assertEqual(self.faults("a : A\na = " + "b" * 197 + "\n"), [(2, "201 characters")])

    def test_a_long_chain(self):
        self.assertEqual(self.faults("a : A\na c = c .before .before .before .x\n"), [])
        self.assertEqual(self.faults(f"-- why\nb : B\nb = d\n\na : A\na c =\n    c{FOUR} .x\n"), [(7, "a chain of 4 `.before`")])

    def test_a_chain_that_is_rewritten(self):
        self.assertEqual(self.faults(f"a : A\na c = rw e at (c{FOUR} .x)\n"), [])
        self.assertEqual(self.faults(f"a : A\na c = rwx (c{FOUR} .x)\n"), [(2, "a chain of 4 `.before`")])


if __name__ == "__main__":
    unittest.main()
