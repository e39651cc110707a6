#!/usr/bin/env python3
"""Tries wrong bodies of the crates: `tools/wrong_bodies.py --help` says how. The program is tools/gate/wrong_bodies.py."""

import sys

from gate.wrong_bodies import main

if __name__ == "__main__":
    sys.exit(main(sys.argv[1:]))
