#!/usr/bin/env python3
"""Notes of what the gate proved, and tells which files that made.

  tools/gate/proved.py sum          the sum of all that a proof of `highway` reads; the gate asks before it proves
  tools/gate/proved.py note SUM     notes beside crates/highway/out/highway that it was proved of these sources, if they
                                    still have that sum, so that tools/look.sh takes it
  tools/gate/proved.py files        the SHA-256 of the proved program and of the archive libhw_c.a, as they stand

To hold a program that somebody got elsewhere against the proved one: `sha256sum THEIRS crates/highway/out/highway`."""

import argparse
import os
import sys

sys.path.insert(0, os.path.dirname(os.path.dirname(os.path.abspath(__file__))))

from look.program import note_proved  # noqa: E402
from look.sources import ROOT, sum_of_file, sum_of_proofs  # noqa: E402

FILES = ("crates/highway/out/highway", "crates/hw_c/out/libhw_c.a")


def note(of, root=ROOT):
    """Notes that the program was proved of the sources with that sum."""
    if sum_of_proofs("highway", root) != of:
        print("proved: the sources changed while they were proved, so the program isn't noted as theirs")
        return 1
    if note_proved("highway", of, root) is None:
        print(f"proved: there is no {FILES[0]}")
        return 1
    return 0


def files(root=ROOT):
    """Tells the sums of what stands there."""
    print("SHA-256 of what was made of these sources:")
    for path in FILES:
        print(f"  {sum_of_file(f'{root}/{path}') or 'not built'}  {path}")
    return 0


def main(words=None):
    parser = argparse.ArgumentParser(description=__doc__, formatter_class=argparse.RawDescriptionHelpFormatter)
    parser.add_argument("what", choices=("sum", "note", "files"))
    parser.add_argument("of", nargs="?", metavar="SUM")
    asked = parser.parse_args(words)
    if (asked.what == "note") != (asked.of is not None):
        parser.error("note takes a SUM, and the others none")
    if asked.what == "sum":
        print(sum_of_proofs("highway"))
        return 0
    return note(asked.of) if asked.what == "note" else files()


if __name__ == "__main__":
    sys.exit(main())
