#!/bin/sh
# Proves and builds the program, and runs it on the session that session/README.md explains: each line, then its answer.
set -eu
root=$(cd "$(dirname "$0")/.." && pwd)
cd "$root"
(cd crates/nas_hex && rt run < /dev/null >&2)
crates/nas_hex/out/nas_hex < session/lines | paste -d '\n' session/lines -
