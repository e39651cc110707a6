#!/bin/sh
# Makes one page for a browser, with the core in it: tools/page.sh highway.html. tools/page/main.py says more.
tools=$(dirname "$(readlink -f "$0")")
if ! command -v python3 >/dev/null; then
    echo "page: there is no python3 here" >&2
    exit 1
fi
exec python3 -B "$tools/page/main.py" "$@"
