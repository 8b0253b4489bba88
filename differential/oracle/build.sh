#!/bin/sh
# Builds the oracle from the Rust text, which is read where it lies and not changed.
#   differential/oracle/build.sh [FOLDER]     FOLDER has src/common/security.rs and so on; ../shared/docs/src by default
# The program is then target/oracle/target/release/oracle.
set -eu
here=$(cd "$(dirname "$0")" && pwd)
root=$(cd "$here/../.." && pwd)
text=$(cd "${1:-$root/../shared/docs/src}" && pwd)
build=$root/target/oracle
mkdir -p "$build"
cp -r "$here/Cargo.toml" "$here/src" "$here/oxirush_security" "$build/"
ln -sfn "$text" "$build/text"
cd "$build"
cargo build --offline --release
