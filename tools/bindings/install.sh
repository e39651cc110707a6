#!/usr/bin/env bash
# Installs the header, the two archives and the file of pkg-config below a folder: install.sh PREFIX
# The archive is the proved one of crates/hw_c/out, or that of HIGHWAY_LIB_DIR.
set -euo pipefail
top="$(cd "$(dirname "$0")/../.." && pwd)"
if [ $# -ne 1 ]; then
    echo "install: one folder is wanted, as /usr/local" >&2
    exit 2
fi
library="${HIGHWAY_LIB_DIR:-$top/crates/hw_c/out}/libhw_c.a"
memory="${RATTLE_C_DIR:-$(dirname "$(rt doc)")/c}/liblibc_c.a"
for file in "$library" "$memory"; do
    if [ ! -f "$file" ]; then
        echo "install: $file isn't there; docs/EMBEDDING.md says how it is made" >&2
        exit 1
    fi
done
mkdir -p "$1/lib/pkgconfig" "$1/include"
prefix="$(cd "$1" && pwd)"
install -m 644 "$library" "$memory" "$prefix/lib"
install -m 644 "$top/bindings/c/highway.h" "$prefix/include"
sed "s#@PREFIX@#$prefix#" "$top/bindings/c/highway.pc.in" >"$prefix/lib/pkgconfig/highway.pc"
if [ -e "$(dirname "$library")/NOTHING_IS_PROVED" ]; then
    echo "install: nothing is proved of this archive" >&2
fi
echo "install: version $(cat "$top/VERSION") is in $prefix"
