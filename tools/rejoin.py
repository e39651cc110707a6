#!/usr/bin/env python3
"""Mends a torn log, or brings a node back that lost its log: `tools/rejoin.py --help` says how. It is tools/rejoin/main.py."""

import sys

from rejoin.main import main

if __name__ == "__main__":
    sys.exit(main())
