#!/bin/sh
# Checks in minutes what needs no proof: tools/quick_check.sh --help says how. tools/gate/quick_check.py is the program.
tools=$(dirname "$(readlink -f "$0")")
if ! command -v python3 >/dev/null; then
    echo "quick_check: there is no python3 here" >&2
    exit 2
fi
cd "$tools/.." && exec python3 -B -c 'import sys; sys.path.insert(0, "tools"); from gate.quick_check import main; sys.exit(main(sys.argv[1:]))' "$@"
