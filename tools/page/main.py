"""Makes one page for a browser with the core in it: logs dropped on it are replayed and audited, certificates checked.

  tools/page.sh [--proved] [--module] [OUT]      OUT is highway.html, or highway.wasm with --module

Without --proved the module is made in minutes, and nothing of it is proved: the page says so in red. With --proved the
library is proved once more over what `rt ci` left in each crate's out/. The page works from a disk, without a network.
The status is 0, or 1 where it couldn't be made."""

import argparse
import base64
import gzip
import hashlib
import os
import shutil
import signal
import subprocess
import sys
from html import escape

sys.path.insert(0, os.path.dirname(os.path.dirname(os.path.abspath(__file__))))

from look.build import BuildError, Stages  # noqa: E402
from look.sources import ROOT  # noqa: E402
from page.module import made  # noqa: E402
from view.parts import FACTS, VIEW, filled, policy, read, script_of, style_of  # noqa: E402

HERE = os.path.dirname(os.path.abspath(__file__))
BINDING = f"{ROOT}/bindings/js"
MOST = 600_000
# What runs in the worker beside the binding and the facts.
BESIDE = ("signatures", "replay", "core_facts", "worker")
WHICH = {
    True: "The core in this page is the proved library, compiled for WebAssembly",
    False: "NOTHING IS PROVED of the core in this page. It is for a first look: it tests at run time what a proof shows",
}
TRUSTED = (
    "Trusted beside the core: clang's back end for WebAssembly, the memory below it, the drivers in JavaScript, and this "
    "browser. The text in grey boxes is what the program prints. Pictures, tables and the reading of version 2 prove "
    "nothing. The module is"
)


def commit():
    """The state of the repository in words, where git knows it."""
    if not shutil.which("git"):
        return "a state that git doesn't know"
    how = {"cwd": ROOT, "capture_output": True, "text": True, "check": False}
    told = subprocess.run(["git", "rev-parse", "--short=12", "HEAD"], **how)
    changed = subprocess.run(["git", "status", "--porcelain", "--untracked-files=no"], **how)
    if told.returncode:
        return "a state that git doesn't know"
    return f"commit {told.stdout.strip()}" + (" with changes" if changed.stdout.strip() else "")


def page(module, sources, is_proved):
    """The page with this module."""
    style, script = style_of(f"{HERE}/page.css"), script_of(*VIEW, f"{HERE}/page.js")
    foot = f"{TRUSTED} {hashlib.sha256(module).hexdigest()}, of sources {sources}."
    parts = {
        "POLICY": policy(style, script, " 'wasm-unsafe-eval'", "worker-src blob:"),
        "STYLE": style,
        "KIND": "proved" if is_proved else "unproved",
        "WHICH": escape(f"{WHICH[is_proved]}. It is of {commit()}."),
        "FOOT": escape(foot),
        "WORKER": script_of(
            *(f"{BINDING}/{it}.js" for it in ("log", "highway")), FACTS, *(f"{HERE}/{it}.js" for it in BESIDE)
        ),
        "MODULE": base64.b64encode(gzip.compress(module, mtime=0)).decode(),
        "SCRIPT": script,
    }
    try:
        return filled(read(f"{HERE}/page.html"), parts)
    except ValueError as error:
        raise BuildError(str(error)) from error


def words_of(words):
    form = argparse.RawDescriptionHelpFormatter
    parser = argparse.ArgumentParser(prog="tools/page.sh", description=__doc__, formatter_class=form)
    parser.add_argument("--proved", action="store_true", help="prove the library, in place of testing at run time")
    parser.add_argument("--module", action="store_true", help="write the module alone, for bindings/js")
    parser.add_argument("out", metavar="OUT", nargs="?")
    return parser.parse_args(words)


def write(path, data):
    with open(f"{path}.new", "wb") as it:
        it.write(data)
    os.replace(f"{path}.new", path)


def main(words):
    asked, stages = words_of(words), Stages("page")
    signal.signal(signal.SIGTERM, lambda number, _: sys.exit(128 + number))
    out = asked.out or ("highway.wasm" if asked.module else "highway.html")
    try:
        path, sources = made(asked.proved, stages)
        with open(path, "rb") as it:
            data = it.read()
        if not asked.module:
            data = page(data, sources, asked.proved).encode()
            if len(data) > MOST:
                raise BuildError(f"the page has {len(data)} bytes, and {MOST} are the most")
        write(out, data)
    except (BuildError, OSError) as error:
        stages.say(str(error))
        return 1
    stages.say(f"{out}: {len(data)} bytes. {WHICH[asked.proved]}.")
    return 0


if __name__ == "__main__":
    sys.exit(main(sys.argv[1:]))
