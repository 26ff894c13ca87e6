#!/usr/bin/env python3
"""Write crates/demands/proofs/Logs.antt to standard output: a table of a dozen stored logs with their listings, and one
theorem, that the definitions give these listings.

The listings are the stored ones, which an independent program printed. antt computes `listing_of`, the definition of a
whole listing, on each log's bytes.
"""
import pathlib

NAMES = """plan_f empty refused_02_tail refused_07_not_counted refused_09_verb refused_15_entitled order_10_before_11
read_of_a_widened_resource two_issues_at_one_tick one_processor hold_of_20_and_21 readers_share repeated_tick
withdrawn_write_leaves_reads handover_settles_twice""".split()

# What is computed on the way from bytes to a listing, by the module that defines it.
UNFOLDED = {
    "masks.specs.Sets": "bit some mask_of",
    "encoding.specs.Numbers": "number",
    "plans.specs.Acceptance": "counts_fault entry_fault entries_fault plan_fault",
    "plans.specs.Figures": "longest",
    "plans.specs.Entries": "entry_size_of section_size",
    "plans.specs.Reading": "entry_in entries_in section_fault read_fault plan_in plan_read",
    "conflicts.specs.Widening": "widen widened_set",
    "masks.specs.Tabulation": "tabulate",
    "conflicts.specs.Conflict": "shared conflict in_conflict conflicts_of",
    "rules.specs.Settling": "test1 step1 test2 step2 test3 step3 test4 step4 settled",
    "rules.specs.CountedRequests": "is_holding is_entitled is_waiting cleaned",
    "rules.specs.Faults": "issue_fault complete_fault withdraw_fault handover_fault",
    "rules.specs.Acts": "put_in put_last taken_out stamped",
    "rules.specs.Calls": "put_state taken_state done settled_done issued left completed withdrawn both handed_over",
    "boards.specs.Fresh": "board_of",
    "logs.specs.Records": "fields_in record_fault",
    "digits.specs.Digits": "digits mask_in",
    "listings.specs.PlainLines": "further_fields refusal_line",
    "listings.specs.Lines": "first_line call_line",
    "whole_listing.specs.Listing": "calls_listing listing_of",
}


def as_list(data):
    return " ∷ ".join([str(b) for b in data] + ["[]"])


def main():
    root = pathlib.Path(__file__).resolve().parent.parent / "replay" / "logs"
    print("""-- A dozen logs, from bytes to listing: `listing_of` computes what an independent program printed. Made by
-- tests/worked/make.py. Assumes nothing.
use Prim.Native.Nat.{ℕ}
use mathlib.Core.Path.{◌≡◌, refl}
use mathlib.Core.List.{List, [], ◌∷◌, map}""")
    for module, names in UNFOLDED.items():
        print(f"use Rattle.{module}.{{{', '.join(names.split())}}}")
    print("""
-- The bytes of a log, and those of its listing.
pub record Worked : Type 0 where
  pub log : List ℕ
  pub listing : List ℕ
""")
    for name in NAMES:
        print(f"abbrev {name} : Worked")
        print(f"{name} =")
        print("    record {")
        print(f"      log = {as_list((root / (name + '.log')).read_bytes())};")
        print(f"      listing = {as_list((root / (name + '.listing')).read_bytes())};")
        print("    }")
        print()
    print("pub table : List Worked")
    print(f"table = {' ∷ '.join(NAMES + ['[]'])}")
    print()
    print("pub listings_are_as_printed : map (λ w. listing_of w.log) table ≡ map (λ w. w.listing) table")
    print("unfolding table " + " ".join(UNFOLDED.values()))
    print("listings_are_as_printed = refl")


main()
