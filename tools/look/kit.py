"""The Rattle kit on this machine, as `rt doc` tells where it lies."""

import importlib.machinery
import importlib.util
import os
import shutil
import subprocess
import sys

# The kit that proved this state.
LINE = "rattle-kit-13f"


def folder():
    """Returns the folder of the kit, or None where there is none."""
    if not shutil.which("rt"):
        return None
    how = {"stdin": subprocess.DEVNULL, "capture_output": True, "text": True, "errors": "replace"}
    told = subprocess.run(["rt", "doc"], check=False, **how)
    page = told.stdout.strip()
    return os.path.dirname(os.path.realpath(page)) if told.returncode == 0 and os.path.isfile(page) else None


def toolchain():
    """Returns the kit's own module about crates, or None where there is no kit, or one that has no such module."""
    kit = folder()
    path = f"{kit}/bin/rtlib.py"
    if kit is None or not os.path.isfile(path):
        return None
    loader = importlib.machinery.SourceFileLoader("rtlib", path)
    module = importlib.util.module_from_spec(importlib.util.spec_from_loader("rtlib", loader))
    sys.modules["rtlib"] = module
    loader.exec_module(module)
    return module
