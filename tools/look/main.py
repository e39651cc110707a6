"""Runs `highway` for a first look: the proved program where there is one of these sources, else one without proof.

  tools/look.sh COMMAND ..         as tools/look.sh replay crates/highway/data/signed.hwlg

The words are those of `highway`, and files are named from the folder that this is called in. The first call builds the
program without proof, in minutes, and keeps it in out/look/ until the sources change; the next calls only run it.
Standard output is the program's alone, and so is the status, but for 70: the program couldn't be built."""

import os
import signal
import sys

sys.path.insert(0, os.path.dirname(os.path.dirname(os.path.abspath(__file__))))

from look.build import BuildError, Stages  # noqa: E402
from look.program import proved, unproved  # noqa: E402

NOT_BUILT = 70


def main(words):
    stages = Stages("look")
    # Who ends this ends what it started, and no folder is left.
    for it in (signal.SIGTERM, signal.SIGHUP):
        signal.signal(it, lambda number, _: sys.exit(128 + number))
    try:
        program = proved("highway")
        if program:
            stages.say(f"this is the proved program of these sources, {os.path.relpath(program)}")
        program = program or unproved("highway", stages)
    except (BuildError, OSError) as error:
        stages.say(str(error))
        return NOT_BUILT
    except KeyboardInterrupt:
        return 130
    os.execv(program, ["highway", *words])


if __name__ == "__main__":
    sys.exit(main(sys.argv[1:]))
