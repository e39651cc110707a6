#!/usr/bin/env python3
"""To look at a log of `highway`: `tools/lens.py --help` says how. The program is tools/lens/main.py."""

import sys

from lens.main import main

if __name__ == "__main__":
    sys.exit(main())
