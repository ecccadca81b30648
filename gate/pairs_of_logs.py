"""Pairs of `j39_follow` and `j39_network`: contests for addresses, and kinds of NAMEs."""

from __future__ import annotations

import sys

sys.dont_write_bytecode = True
from turned import Pair, Turn

WAIT = "laws::contests_last_a_wait"
KINDS = "laws::kinds_are_of_fields"
PAIRS = (
    Pair("a contest lasts 25 ms", "j39_follow", ("address::contest::is_running",), "j39_follow", WAIT, (
        Turn("specs/Contests.antt", "claim_wait = 250000", "claim_wait = 25000"),
        Turn("src/address/contest.rt", "const CLAIM_WAIT: u64 = 250_000;", "const CLAIM_WAIT: u64 = 25_000;"),
    )),
    Pair("nobody is silent in a contest", "j39_follow", ("address::contest::is_heard",), "j39_follow", WAIT, (
        Turn("specs/Contests.antt", "IsHeard taken now = (since : ℕ) → taken ≡ Some since → since + claim_wait ≤ now",
             "IsHeard taken now = (since : ℕ) → taken ≡ Some since → since ≡ since"),
        Turn("specs/inside/Contesting.antt", "is_heard (Some since) now = nat_le (since + claim_wait) now", "is_heard (Some since) now = true"),
        Turn("src/address/contest.rt", "        Some(since) => since <= now && now - since >= CLAIM_WAIT,", "        Some(since) => since <= now || now < since,"),
        Turn("proofs/Addresses/Contested.antt",
             "heard_so (Some t) now e since is = subst (λ (s : ℕ). s + claim_wait ≤ now) (same_Some t since is) (leb-true (t + claim_wait) now e)",
             "heard_so (Some t) now e since is = refl"),
        Turn("proofs/Addresses/Contested.antt", "heard_then (Some t) now h = le-leb (t + claim_wait) now (h t refl)", "heard_then (Some t) now h = refl"),
    )),
    Pair("a kind has a bit of the serial number", "j39_network", ("kinds::kind_of_name",), "j39_log_laws", KINDS, (
        Turn("specs/Kinds.antt", "kind_of_name name = name / 2 ^ 21", "kind_of_name name = name / 2 ^ 20"),
        Turn("src/kinds.rt", "name.to_bits() >> 21", "name.to_bits() >> 20"),
    )),
)
