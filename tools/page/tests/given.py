"""What the tests are of: a module that was made here, and the program that its texts are held against."""

import os

from look.program import place, proved
from page.module import state


def module():
    """The file of a module of these sources, proved or not, or None."""
    return next((path for path in (state(True)[2], state(False)[2]) if os.path.isfile(path)), None)


def program():
    """A program: HIGHWAY, or one of these sources that is here already, or None."""
    kept = place("highway")
    found = os.environ.get("HIGHWAY") or proved("highway") or (kept if os.path.isfile(kept) else None)
    return found


NO_MODULE = "there is no module of these sources in out/page: tools/page.sh makes one"
