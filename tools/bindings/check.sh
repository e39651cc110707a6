#!/usr/bin/env bash
# The bindings over the proved library: its archive, the numbers in all texts, the crate for Rust, the program in C.
# What needs a tool that isn't here is left out, with a word. None of it is proved.
set -uo pipefail
cd "$(dirname "$0")/../.." || exit 2
# An archive of another folder, which may be unproved, is not what is tested here.
unset HIGHWAY_LIB_DIR
failed=()

has() {
    command -v "$1" >/dev/null && return 0
    echo "bindings: skipped, since there is no $1 here: $2"
    return 1
}

# Runs it in a shell of its own, which may go to another folder.
in_a_shell() { ("$@"); }

step() {
    echo "bindings: $1"
    "${@:2}" || failed+=("$1")
}

# The archive, over the libraries that were proved; without any below, there is nothing to test.
archive() {
    has rt "all of it" && has python3 "the archive" || return
    echo "bindings: the archive"
    python3 -B tools/bindings/archive.py
    case $? in
        0) built=yes ;;
        3) echo "bindings: skipped, since there is no archive" ;;
        *) failed+=("the archive") ;;
    esac
}
rust() { (cd bindings/rust && cargo --offline test --quiet); }
# The packaged crate of Ed25519. Where it is CI it is installed, else its steps are left out.
packaged() {
    local crate="${PACKAGED_CRATES:-/usr/share/cargo/registry}/ring-*"
    compgen -G "$crate" >/dev/null && return 0
    if [ -n "${CI:-}" ] && command -v apt-get >/dev/null; then
        echo "bindings: installs librust-ring-dev"
        { timeout 120 apt-get update -qq && timeout 300 apt-get install -y -qq librust-ring-dev; } >/dev/null 2>&1
        compgen -G "$crate" >/dev/null && return 0
    fi
    echo "bindings: skipped, since there is no librust-ring-dev here: Ed25519"
    return 1
}
# A light client with public keys alone, and then the lens, on what it wrote.
ed25519() {
    local room said
    room="$(mktemp -d)"
    (cd bindings/ed25519 && cargo --offline test --quiet && cargo --offline run --quiet --example light -- "$room") &&
        said=$(python3 -B tools/lens.py verify "$room/network.hwlg" "$room/public.keys" --signatures "$room/network.hwsg")
    local status=$?
    rm -rf "$room"
    [ $status -eq 0 ] && echo "$said" && [[ $said == *" 0 without"* ]]
}
# Each checks what it shows; the two logs of the second are in conflict.
examples() {
    local said
    cd bindings/rust || return
    cargo --offline run --quiet --example node && said=$(cargo --offline run --quiet --example audit) || return
    echo "$said"
    [[ $said == *"in conflict"* ]]
}

memory="$(dirname "$(rt doc 2>/dev/null)")/c"
program="$(mktemp -d)"
trap 'rm -rf "$program"' EXIT
build() {
    for name in replay validator threads; do
        cc -std=c99 -O2 -Wall -Wextra -Werror -pthread -I bindings/c "bindings/c/$name.c" crates/hw_c/out/libhw_c.a \
            "$memory/liblibc_c.a" -o "$program/$name" || return
    done
}
installed() {
    tools/bindings/install.sh "$program/installed" && "$program/validator"
}
# Each call is answered, as done or as busy, and the node stays.
threads() { "$program/threads" 300000; }
# The log has four entries.
million() {
    local said
    said=$("$program/replay" crates/highway/data/four.hwlg 250000) || return
    echo "$said"
    [[ $said == "1000000 delivered "* ]]
}
clean() {
    valgrind --quiet --error-exitcode=1 --leak-check=full --show-leak-kinds=all --errors-for-leak-kinds=all \
        "$program/replay" crates/highway/data/both.hwlg 20
}

built=
archive
if [ -n "$built" ]; then
    if has cargo "the crate for Rust"; then
        step "the tests of the crate" rust
        step "its examples" in_a_shell examples
        packaged && has python3 "Ed25519" && step "Ed25519 beside the vertices" ed25519
    fi
    if has cc "the program in C"; then
        step "the programs in C" build
        [ -x "$program/validator" ] && step "a validator in C, and the installation" installed
        [ -x "$program/threads" ] && step "two threads of one handle" threads
        [ -x "$program/replay" ] && step "a million deliveries" million
        [ -x "$program/replay" ] && has valgrind "no leak, no bad access" && step "no leak, no bad access" clean
    fi
fi
has python3 "the numbers in all texts" && step "the numbers in all texts" python3 -B tools/bindings/declarations.py

if [ ${#failed[@]} -gt 0 ]; then
    echo "bindings: failed: ${failed[*]}"
    exit 1
fi
