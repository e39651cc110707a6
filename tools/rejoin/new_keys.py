#!/usr/bin/env python3
"""Writes keys for a test network: new_keys.py VALIDATORS FILE

FILE has a line of 64 random hexadecimal digits for each validator, and only its owner may read it. It isn't written
where it is there already. Who has it can sign for all, since the keys are a stand-in and no signature scheme: each
machine of a network has the same file."""

import os
import secrets
import sys


def main(words):
    if len(words) != 2 or not words[0].isdecimal() or not 1 <= int(words[0]) <= 1024:
        print(__doc__, file=sys.stderr)
        return 2
    try:
        file = os.open(words[1], os.O_WRONLY | os.O_CREAT | os.O_EXCL, 0o600)
    except OSError as error:
        print(f"new keys: {error}", file=sys.stderr)
        return 1
    with open(file, "w", encoding="ascii") as keys:
        keys.writelines(f"{secrets.token_hex(32)}\n" for _ in range(int(words[0])))
    return 0


if __name__ == "__main__":
    sys.exit(main(sys.argv[1:]))
