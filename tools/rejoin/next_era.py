#!/usr/bin/env python3
"""Writes the settings of the next era: next_era.py PROGRAM SETTINGS LOG NEW

SETTINGS has an `end`, and LOG is that of a node of this era, which made the block of that height final. NEW has the same
settings, but that the leaders are drawn by the digest of that block, as `highway eras` takes the next era's log. It isn't
written where it is there already. LOG may be that of a running node. Make NEW from the log of each node, and compare:
the files are the same."""

import json
import re
import subprocess
import sys
import tempfile
from pathlib import Path


class Problem(Exception):
    """Why there is no next era yet."""


def last_block(program, log, end):
    """The digest of the block at this height that a log makes final."""
    with tempfile.TemporaryDirectory(prefix="next-era-") as room:
        # The last entry of a running node may be half written, and a replay appends the values to a file.
        for words in (["mend", Path(log).absolute(), "whole.hwlg"], ["replay", "whole.hwlg"]):
            done = subprocess.run([program, *words], cwd=room, capture_output=True, text=True, check=False)
            if done.returncode not in (0, 8):
                raise Problem(f"{words[0]} ended with status {done.returncode}: {done.stdout.strip()}")
    found = re.search(rf"^final {end} ([0-9a-f]{{64}}) ", done.stdout, re.M)
    if not found:
        raise Problem(f"the block of height {end}, which ends this era, isn't final in {log}")
    return found[1]


def main(words):
    if len(words) != 4 or words[0].startswith("-"):
        print(__doc__, file=sys.stderr)
        return 2
    program, settings, log, new = words
    try:
        era = json.loads(Path(settings).read_text(encoding="utf-8"))
        if "end" not in era:
            raise Problem(f"{settings} has no `end`, so this era never ends")
        era["leaders"] = {"drawn": last_block(Path(program).absolute(), log, era["end"])}
        with open(new, "x", encoding="utf-8") as file:
            file.write(json.dumps(era) + "\n")
    except (Problem, OSError, ValueError) as error:
        print(f"no next era: {error}")
        return 1
    print(f"{new} has the settings of the next era; its leaders are drawn by {era['leaders']['drawn']}")
    return 0


if __name__ == "__main__":
    sys.exit(main(sys.argv[1:]))
