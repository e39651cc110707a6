"""Checks in minutes what needs no proof, for whoever changes something: what fails here fails the gate too.

  tools/quick_check.sh [--jobs 2] [NAME ..]

Each step is a name of NAME, or all are done:

- each program, `highway` and the three of worked cases, built without proof, and run against its stored texts,
- `layout`: each file stands as `rt fmt` lays it out,
- `records`, `documents`, `headline`, `theorem`, `declarations`, `style`: what `.ci/run` wants beside the proofs,
- `tools`: the tests of the tools, with the program built here.

Programs are kept by the state of the sources, as tools/look.sh keeps them. The last lines are `N passed, M failed` and
that nothing was proved. The status is 1 where something failed, and 2 where the words aren't understood."""

import argparse
import io
import os
import shutil
import subprocess
import sys
import tempfile
import time
from concurrent.futures import ThreadPoolExecutor

from gate.rattle_sources import crates_of
from look.build import BuildError, Stages, ended
from look.kit import toolchain
from look.program import NO_KIT, unproved
from look.sources import ROOT

# A program without proof is slower than the proved one, which has 120 seconds.
LONGEST = 900
NOTHING = "Nothing was proved here: `.ci/run` proves."
CHECKS = {
    "records": ("tools/wrong_bodies.py", "--current"),
    "documents": ("tools/gate/check_documents.py",),
    "headline": ("tools/gate/headline.py", "--check"),
    "theorem": ("tools/gate/theorem.py", "--check"),
    "declarations": ("tools/bindings/declarations.py",),
    "style": ("tools/gate/style.py",),
    "tools": ("-m", "unittest", "discover", "--start-directory", "tools", "--quiet"),
}


class Failed(Exception):
    """What a step found, in words for the caller."""


def stored(folder, name, otherwise=b""):
    """The bytes of a file beside a program's sources."""
    path = f"{folder}/{name}"
    if not os.path.isfile(path):
        return otherwise
    with open(path, "rb") as it:
        return it.read()


def run_stored(program, folder):
    """Runs a program as the gate runs a proved one, and holds what it writes to its stored text."""
    words = stored(folder, "args").decode(errors="surrogateescape").splitlines()
    wanted, status = stored(folder, "stdout"), int(stored(folder, "status", b"0"))
    with tempfile.TemporaryDirectory(prefix="quick-") as room:
        data = f"{room}/data"
        if os.path.isdir(f"{folder}/data"):
            shutil.copytree(f"{folder}/data", data)
        else:
            os.mkdir(data)
        how = {"cwd": data, "input": stored(folder, "stdin"), "capture_output": True, "timeout": LONGEST}
        how["env"] = {"PATH": os.defpath, "HOME": data, "TMPDIR": data, "LANG": "C.UTF-8"}
        try:
            ran = subprocess.run([program, *words], check=False, **how)
        except subprocess.TimeoutExpired as error:
            raise Failed(f"it had not ended after {LONGEST} s") from error
    if ran.returncode != status:
        raise Failed(f"it ended with {ran.returncode}, and not {status}: {ran.stderr.decode(errors='replace')[-600:]}")
    if ran.stdout != wanted:
        what = f"what it wrote isn't what {os.path.relpath(folder, ROOT)}/stdout has"
        raise Failed(f"{what}: {first_difference(ran.stdout, wanted)}")


def first_difference(wrote, wanted):
    """Where two texts differ first."""
    rows = zip([*wrote.splitlines(), b"(the end)"], [*wanted.splitlines(), b"(the end)"])
    number, (one, other) = next((number, pair) for number, pair in enumerate(rows, 1) if pair[0] != pair[1])
    return f"line {number} is {one.decode(errors='replace')[:200]!r}, and was {other.decode(errors='replace')[:200]!r}"


def try_program(crate):
    """Builds a program without proof, and runs it. A build tells its stages only where it fails."""
    stages = Stages(crate.name, io.StringIO())
    try:
        program = unproved(crate.name, stages)
    except BuildError as error:
        raise Failed(str(error)) from error
    try:
        run_stored(program, crate.folder)
    except Failed as error:
        # Cases with real sockets wait by the clock, which a busy machine can spoil once.
        print(f"{crate.name}: once more, since {error}", flush=True)
        run_stored(program, crate.folder)


def check_layout(crates):
    """Holds each file to the layout of `rt fmt`."""
    rtlib = toolchain()
    if rtlib is None:
        raise Failed(NO_KIT)
    odd = []
    for crate in crates.values():
        files = [it for it in rtlib.files_of(crate.folder) if it.endswith((".rt", ".antt"))]
        status, said = ended([rtlib.RATTLE, "fmt", "--check", *files], None)
        odd += [f"{crate.name}: {said.splitlines()[0] if said else status}"] * (status != 0)
    if odd:
        raise Failed("run `rt fmt` in their folders: " + "; ".join(odd))


def run_check(name, program=None):
    """Runs one of CHECKS."""
    environment = {**os.environ, **({"HIGHWAY": program} if program else {})}
    how = {"cwd": ROOT, "stdin": subprocess.DEVNULL, "stdout": subprocess.PIPE, "stderr": subprocess.STDOUT}
    ran = subprocess.run([sys.executable, "-B", *CHECKS[name]], check=False, text=True, env=environment, **how)
    if ran.returncode:
        raise Failed(f"it ended with {ran.returncode}:\n{ran.stdout[-3000:]}")


def step(name, call, *given):
    """Runs a step, tells how it ended and in how many seconds, and returns whether it passed."""
    begun = time.monotonic()
    try:
        call(*given)
    except Failed as error:
        print(f"FAILED: {name} ({time.monotonic() - begun:.0f} s): {error}", flush=True)
        return False
    print(f"passed: {name} ({time.monotonic() - begun:.0f} s)", flush=True)
    return True


def steps_of(crates, names):
    """The steps with these names, longest first, each as what `step` takes."""
    programs = [it for it in crates.values() if it.is_program()]
    found = [(it.name, try_program, it) for it in programs]
    found.append(("layout", check_layout, crates))
    found += [(it, run_check, it) for it in CHECKS if it != "tools"]
    return [it for it in found if not names or it[0] in names]


def main(words):
    parser = argparse.ArgumentParser(prog="quick_check.sh", description=__doc__.splitlines()[0])
    parser.add_argument("--jobs", type=int, default=2, metavar="N", help="so many steps at a time (2)")
    parser.add_argument("names", nargs="*", metavar="NAME", help="a step; all, if none is named")
    asked = parser.parse_args(words)
    crates = crates_of(ROOT)
    known = {*CHECKS, "layout", *(it.name for it in crates.values() if it.is_program())}
    if set(asked.names) - known:
        parser.error(f"no step is named {', '.join(sorted(set(asked.names) - known))}: {', '.join(sorted(known))}")
    with ThreadPoolExecutor(max(asked.jobs, 1)) as pool:
        results = list(pool.map(lambda it: step(*it), steps_of(crates, asked.names)))
    if not asked.names or "tools" in asked.names:
        # Alone, since they run nodes against the clock.
        results.append(step("tools", lambda: run_check("tools", built_highway())))
    print(f"{sum(results)} passed, {len(results) - sum(results)} failed")
    print(NOTHING)
    return 0 if all(results) else 1


def built_highway():
    """The program that the tests of the tools run, or None where it can't be built."""
    try:
        return unproved("highway", Stages("highway", io.StringIO()))
    except BuildError:
        return None
