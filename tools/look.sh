#!/bin/sh
# Runs `highway` for a first look: tools/look.sh replay crates/highway/data/signed.hwlg. The first call builds the program
# without proof, in minutes; the next ones only run it. tools/look/main.py says more.
tools=$(dirname "$(readlink -f "$0")")
if ! command -v python3 >/dev/null; then
    echo "look: there is no python3 here" >&2
    exit 70
fi
exec python3 -B "$tools/look/main.py" "$@"
