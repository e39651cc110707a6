"""The programs of the repository: the proved one where it is of these sources, else one that is built without proof.

What was built without proof is kept in out/look/, which git ignores, under the sum of the sources that it was built of.
Of the proved program a note beside it says of which sources the gate proved it, and which file that made."""

import contextlib
import fcntl
import os
import shutil
import tempfile

from look.build import BuildError, Stages, kept_module, linked
from look.kit import LINE, folder, toolchain
from look.sources import ROOT, sum_of_file, sum_of_proofs, sum_of_sources

KEPT = f"{ROOT}/out/look"
# So many kept programs stay, the newest.
MOST = 8
LOUD = "NOTHING IS PROVED of this program: it tests at run time what a proof would have shown. `.ci/run` proves it."
NO_KIT = (
    f"there is no Rattle kit here: no `rt` is on the PATH. This state wants {LINE}, and README.md says where it is to be "
    "had; put its folder bin/ on the PATH then"
)


def proved(name, root=ROOT):
    """Returns the path of the program that the gate proved of exactly these sources, or None."""
    path = f"{root}/crates/{name}/out/{name}"
    try:
        with open(f"{path}.proved", encoding="utf-8") as it:
            of, made = it.read().split()
    except (OSError, ValueError):
        return None
    return path if sum_of_file(path) == made and sum_of_proofs(name, root) == of else None


def note_proved(name, of, root=ROOT):
    """Notes beside the program that it was proved of the sources with that sum, and returns the program's own."""
    path = f"{root}/crates/{name}/out/{name}"
    made = sum_of_file(path)
    if made is None:
        return None
    with open(f"{path}.proved", "w", encoding="utf-8") as it:
        it.write(f"{of} {made}\n")
    return made


def place(name):
    """Where the program of these sources is kept."""
    return f"{KEPT}/{name}-{sum_of_sources(name)[:32]}"


def shrink():
    """Removes all but the newest of the kept programs."""
    found = sorted((it.stat().st_mtime, it.path) for it in os.scandir(KEPT) if it.is_file() and "-" in it.name)
    for _, path in found[:-MOST]:
        with contextlib.suppress(FileNotFoundError):
            os.remove(path)


def build(name, to, stages):
    """Builds the program with no proof, and keeps it under that path."""
    rtlib = toolchain()
    if rtlib is None:
        raise BuildError(NO_KIT if folder() is None else f"this toolchain builds in another way: {LINE} is wanted")
    crate = next((it for it in rtlib.crates_below(ROOT) if it.name == name), None)
    if crate is None:
        raise BuildError(f"crates.txt has no crate {name}")
    stages.say(f"{name} is built without proof, once for these sources: a minute or two of one processor")
    with tempfile.TemporaryDirectory(prefix="look-") as work:
        with stages.stage(f"reading {name} and the {len(crate.below())} crates below it"):
            module = kept_module(rtlib, crate, crate.folder, work, stages)
        with stages.stage("compiling it"):
            made = linked(rtlib.KIT, module, work, stages)
        shutil.copy(made, f"{to}.new")
        os.replace(f"{to}.new", to)
    shrink()
    stages.say(LOUD)


def unproved(name, stages=None):
    """Returns the path of the program as it is built without proof, and builds it where it isn't kept."""
    to = place(name)
    if os.path.isfile(to):
        return to
    stages = stages or Stages("look")
    os.makedirs(KEPT, exist_ok=True)
    with open(f"{KEPT}/lock.{name}", "w", encoding="utf-8") as lock:
        try:
            fcntl.flock(lock, fcntl.LOCK_EX | fcntl.LOCK_NB)
        except BlockingIOError:
            stages.say(f"waiting for another call that builds {name}")
            fcntl.flock(lock, fcntl.LOCK_EX)
        if not os.path.isfile(to):
            build(name, to, stages)
    return to
