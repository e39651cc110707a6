#!/usr/bin/env bash
# The node over the proved library: its style, its tests, and a network of four for twenty seconds whose logs the proved
# program audits. What needs a tool or a package that isn't here is left out, with a word. None of it is proved.
set -uo pipefail
cd "$(dirname "$0")" || exit 2
# An archive of another folder, which may be unproved, is not what is tested here.
unset HIGHWAY_LIB_DIR
packages=(librust-zmq-dev librust-rusqlite-dev librust-ring-dev librust-hyper-dev librust-tokio-dev librust-toml-dev
    librust-serde-json-dev librust-serde-derive-dev librust-tracing-dev librust-tracing-subscriber-dev)

skip() {
    echo "node: skipped, since $1"
    exit 0
}
# Where it is CI the packages are installed.
packaged() {
    compgen -G "/usr/share/cargo/registry/zmq-*" >/dev/null && compgen -G "/usr/share/cargo/registry/hyper-*" >/dev/null
}
command -v cargo >/dev/null || skip "there is no cargo here"
[ -e ../crates/hw_c/out/libhw_c.a ] || skip "there is no library in crates/hw_c/out"
[ -x ../crates/highway/out/highway ] || skip "there is no proved program"
if ! packaged && [ -n "${CI:-}" ] && command -v apt-get >/dev/null; then
    echo "node: installs ${packages[*]}"
    { timeout 120 apt-get update -qq && timeout 300 apt-get install -y -qq "${packages[@]}"; } >/dev/null 2>&1
fi
packaged || skip "a package is missing: apt-get install ${packages[*]}"
# It is about time by the clock, so a machine that was busy gets a second try.
network() {
    python3 -B -m unittest --quiet test_network.Words test_network.Ordinary.test_four_for_twenty_seconds
}
cargo fmt --check &&
    cargo clippy --offline --release --quiet --all-targets -- -D warnings &&
    cargo test --offline --release --quiet &&
    cargo build --offline --release --quiet &&
    cd tests &&
    { network || network; }
