#!/usr/bin/env bash
# What a delivery costs through the crate for Rust beside one inside the program, in instructions that valgrind counts:
# cost.sh PROGRAM LOG. The program replays the log once; the crate delivers it once. Both read it from a file.
# From each count that of the same with no entry is taken, which leaves the deliveries. Where the crate has all vertices
# in one call it hashes four units at a time, as the program does of a log of version 1; where it has one a call it
# hashes one at a time. That is told beside the program's replay of the same log in version 2, which also hashes four.
# What fails is named, with what it said, and the status is 1 then, or 2 where the words or a tool aren't as they should
# be.
# cost.sh --calls: what each call of the crate takes at its limits, in milliseconds, the least of three runs: with 25
# validators and 130,000 records, with 1,024 validators, and with 4,096 units that wait for 1,024 others each.
set -euo pipefail

stop() {
    echo "cost: $2" >&2
    exit "$1"
}

# Writes a log by these words of worst_logs.py, and times each call on it.
calls() {
    python3 -B tools/measure/worst_logs.py "$1" "$work/log.hwlg" "${@:2}" || stop 1 "no log: $*"
    echo "$*"
    bindings/rust/target/release/examples/limits "$work/log.hwlg" || stop 1 "the calls on: $*"
}

if [ "$*" = --calls ]; then
    cd "$(dirname "$0")/../.."
    work=$(mktemp -d)
    trap 'rm -rf "$work"' EXIT
    (cd bindings/rust && cargo --offline build --quiet --release --example limits) || stop 1 "the crate isn't built"
    calls rounds --validators 25 --rounds 2600
    calls rounds --validators 1024 --rounds 3
    calls missing --validators 1024 --units 4096
    exit
fi
[ $# -eq 2 ] || stop 2 "two words are wanted: cost.sh PROGRAM LOG"
[ -f "$1" ] && [ -x "$1" ] || stop 2 "$1 is no program"
[ -f "$2" ] || stop 2 "there is no log $2"
for tool in cargo python3 valgrind; do
    command -v "$tool" >/dev/null || stop 2 "there is no $tool here"
done
program=$(realpath "$1")
log=$(realpath "$2")
cd "$(dirname "$0")/../.."
crate=$PWD/bindings/rust/target/release/examples/measure
work=$(mktemp -d)
trap 'rm -rf "$work"' EXIT

python3 -B - "$log" "$work/none.hwlg" <<'P' || stop 2 "$log can't be read"
import sys

log = open(sys.argv[1], "rb").read()
if log[:5] != b"HWLG\1":
    sys.exit("cost: a log of version 1 is wanted")
open(sys.argv[2], "wb").write(log[: 9 + int.from_bytes(log[5:9], "big")])
P
for it in log none; do
    from=$log
    [ $it = log ] || from=$work/none.hwlg
    (cd "$work" && "$program" migrate "$from" "$it.short.hwlg" >out 2>&1) ||
        stop 1 "no log of version 2: $(tail -n 2 "$work/out")"
done
(cd bindings/rust && cargo --offline build --quiet --release --example measure) || stop 1 "the crate isn't built"

# Sets `counted` to the instructions of a run.
count() {
    local status=0
    (cd "$work" && valgrind --tool=callgrind --callgrind-out-file=/dev/null "$@" >out 2>said) || status=$?
    counted=$(sed -n 's/.*Collected : //p' "$work/said")
    if [ $status -eq 0 ] && [[ $counted =~ ^[0-9]+$ ]]; then return; fi
    tail -n 8 "$work/out" "$work/said" >&2
    stop 1 "status $status, and instructions counted: '$counted', of: valgrind $*"
}

# Sets `cost` to what a run over the first log takes more than one over the second, which has no entry.
deliveries() {
    local full=$1 none=$2
    shift 2
    count "$@" "$full"
    cost=$counted
    count "$@" "$none"
    cost=$((cost - counted))
    [ $cost -gt 0 ] || stop 1 "the deliveries cost nothing, so $log has none: $*"
}

deliveries "$log" "$work/none.hwlg" "$crate"
all=$cost
deliveries "$log" "$work/none.hwlg" "$program" replay
four=$cost
deliveries "$log" "$work/none.hwlg" "$crate" single
single=$cost
deliveries "$work/log.short.hwlg" "$work/none.short.hwlg" "$program" replay
one=$cost
times() { python3 -c "print('%.3f' % ($1 / $2))"; }
echo "all in one call: through the crate $all, version 1 inside the program $four: $(times $all $four)"
echo "one in a call: through the crate $single, version 2 inside the program $one: $(times $single $one)"
