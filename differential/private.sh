#!/bin/sh
# A Key of crate aes holds what its octets expand to, because no other crate can make one from parts, read a field or write one: the compiler refuses each try.
# (Such a try is no must-fail edit: it never reaches the prover.)
set -eu
root=$(cd "$(dirname "$0")/.." && pwd)
work=$(mktemp -d)
trap 'rm -rf "$work"' EXIT
mkdir -p "$work/crates/outside/src"
cp -r "$root/crates/aes_block" "$root/crates/aes" "$work/crates/"
printf 'aes_block:\naes: aes_block\noutside: aes\n' >"$work/crates.txt"
status=0
try() { # WHAT FUNCTION
    printf 'use aes::Key;\n\n%s\n' "$2" >"$work/crates/outside/src/lib.rt"
    if (cd "$work/crates/outside" && rt check 2>&1) | grep -q 'error\[private-field\]'; then echo "refused: $1"; else echo "NOT refused: $1"; status=1; fi
}
try "a literal" 'pub fn by_hand(octets: [u8; 16]) -> Key { Key { octets, schedule: [0; 176], subkey1: octets, subkey2: octets } }'
try "a read" 'pub fn first(key: Key) -> u8 { key.schedule[0] }'
try "a write" 'pub fn changed(key: Key) -> Key { let mut next = key; next.schedule[0] = 1; next }'
exit $status
