#!/usr/bin/env python3
"""Writes crates/recorded/specs/Lists.antt from recorded call lists and their listings, for the run of the definitions on them.

usage: tools/recorded.py [PATTERN..]    patterns of names in oracle/recorded, as 00[0-5]?-*.calls; by default those of the gate

Lists of more than 16,384 bytes are left out: they are too long for the prover.
"""
import glob
import os
import sys

ROOT = os.path.dirname(os.path.dirname(os.path.abspath(__file__)))
LONGEST = 16384
# The small lists, and those by hand that came later.
CHOSEN = ["00[0-5]?-*.calls", "006[0-4]-*.calls", "0299-*.calls", "03??-*.calls"]
HEAD = """-- Recorded call lists with the oracle's listings (oracle/recorded), written by tools/recorded.py.
use Rattle.std.specs.Prelude.{ℕ, List, [], ◌∷◌}
use Prim.Native.String.{String}

-- A call list's bytes, its listing, and its listing with details.
pub record RecordedList : Type 0 where
  pub bytes : List ℕ
  pub text : String
  pub detail : String

abbrev pub recorded_list : List ℕ → String → String → RecordedList
recorded_list b t d = record { bytes = b; text = t; detail = d }
"""


def entry(path):
    data = open(path, "rb").read()
    stem = path[: -len(".calls")]
    text = open(stem + ".listing").read().replace("\n", "\\n")
    detail = open(stem + ".detail").read().replace("\n", "\\n")
    numbers = " ∷ ".join([str(b) for b in data] + ["[]"])
    name = os.path.basename(path)[: -len(".calls")]
    return "    -- %s\n    recorded_list (%s) \"%s\" \"%s\"" % (name, numbers, text, detail)


def main():
    paths = []
    for pattern in sys.argv[1:] or CHOSEN:
        paths += glob.glob(os.path.join(ROOT, "oracle", "recorded", pattern))
    short = [path for path in sorted(set(paths)) if os.path.getsize(path) <= LONGEST]
    entries = [entry(path) for path in short]
    body = "\n    ∷\n".join(entries) + "\n    ∷ []" if entries else "    []"
    with open(os.path.join(ROOT, "crates", "recorded", "specs", "Lists.antt"), "w") as out:
        out.write(HEAD)
        out.write("\nunfoldable pub recorded_lists : List RecordedList\nrecorded_lists =\n%s\n" % body)
    left_out = len(set(paths)) - len(short)
    print("%d list%s%s" % (len(entries), "" if len(entries) == 1 else "s", " (%d too long)" % left_out if left_out else ""))


main()
