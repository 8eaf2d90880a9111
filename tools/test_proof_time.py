#!/usr/bin/env python3
"""The tests of proof-time: no rt is run. `python3 test_proof_time.py`."""
import sys
import unittest

sys.dont_write_bytecode = True
from test_proof_short import command  # noqa: E402

modules = command("proof-time").modules


class Modules(unittest.TestCase):
    def test_a_module_took_what_passed_since_the_one_before(self):
        saved = [(10.0, "Rattle·walk·specs.oantt"), (12.5, "Rattle·walk·proofs.proofs.f.Lts.decls.oantt"), (13.0, "Rattle·walk·proofs.proofs.f.Proof.oantt")]
        self.assertEqual(modules(saved), [(2.5, "f.Lts"), (0.5, "f.Proof")])

    def test_the_two_files_of_a_module_are_one(self):
        saved = [(1.0, "a.oantt"), (2.0, "f.Tie.decls.oantt"), (2.5, "f.Tie.oantt")]
        self.assertEqual(modules(saved), [(1.5, "f.Tie")])

    def test_the_order_of_saving_counts(self):
        saved = [(3.0, "c.oantt"), (1.0, "a.oantt"), (2.0, "b.oantt")]
        self.assertEqual(modules(saved), [(1.0, "c"), (1.0, "b")])


if __name__ == "__main__":
    unittest.main()
