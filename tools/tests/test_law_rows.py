"""The items of docs/reference/CONTRACTS.md that name laws have the premises of these laws."""

import os
import unittest

from tests.support import TOP, InFolder
from tests.test_pages import contracts

from law_text import premises_of_laws

SPECS = """-- premises
pub record Keeps (s : Bus) : Type 0 where
  pub told : (p : ℕ) → IsInside p → p < s.count

pub record IsHeard (s : Bus) (p : ℕ) : Type 0 where
  pub by : ℕ

abbrev pub IsInside : ℕ → Type 0
IsInside p = p ≡ 0

-- a promise that asks for more
abbrev pub IsInTime : Bus → ℕ → Type 0
IsInTime s p = (q : ℕ) (heard : IsHeard s q) → p ≡ q → IsLate s p

pub record IsLate (s : Bus) (p : ℕ) : Type 0 where
  pub place : ℕ
  pub after : All (IsInside) [] → (IsMarked s p ⊎ IsInTime s p)

pub record IsMarked (s : Bus) (p : ℕ) : Type 0 where
  pub never : IsNever p → p ≡ place
"""
LAWS = """pub fn first()
    ensures in_time { (s : Bus) → Keeps s
        → (p : ℕ) → IsInTime s p × Keeps s }
{}

pub fn second()
    ensures { (s : Bus) → ((p : ℕ) → IsInside p → p ≡ 1) → s.count ≡ 0 → IsMarked s 0 }
{
    first();
}

pub fn third()
    ensures { (s : Bus) → IsInTime s 1 }
    ensures clause { (s : Bus) → (of : Keeps s) × IsMarked s 1 }
{}

pub fn with_a_parameter(bus: &Bus)
    ensures { Keeps bus → IsInTime bus 1 }
{}
"""


class LawRows(InFolder):
    def test_laws_name_their_premises(self) -> None:
        """Behind a law stand its premises; what is compared is the statements in the crates."""
        laws = premises_of_laws(TOP)
        shown = {(it.crate, it.name): it.premises for it in contracts()}
        self.assertGreaterEqual(sum(map(bool, laws.values())), 100)
        self.assertEqual({law: shown.get(law) for law, asked in laws.items() if shown.get(law) != asked}, {})
        self.assertEqual({it for it, premises in shown.items() if premises} - set(laws), set())

    def test_each_form_of_a_premise_is_seen(self) -> None:
        """A premise is found where a law asks for it, and inside of what it promises; but not inside of what is a premise elsewhere or what
        another law promises, nor where it is one of a premise's own."""
        for part, file, text in (("specs", "Buses.antt", SPECS.replace("IsNever", "IsHeard s")), ("src", "laws.rt", LAWS)):
            os.makedirs(self.path(f"crates/one/{part}"), exist_ok=True)
            self.write(f"crates/one/{part}/{file}", text)
        self.assertEqual(premises_of_laws(self.folder), {
            ("one", "first"): ["Keeps", "IsHeard", "IsInside"],
            ("one", "second"): ["IsHeard"],
            ("one", "third"): ["IsHeard", "IsInside"],
        })


if __name__ == "__main__":
    unittest.main()
