#!/bin/sh
# Feeds the same random lines to two of: model (document 01 in Python), oracle (the Rust text), eps (document 02, item 6 in Python, with model for the
# lines of the 5GS context), program (nas_hex). With eps as the first the lines are those of the EPS context, and a few of the other.
#   differential/run.sh FIRST SECOND SEED LINES
# From the repository's root: `rt run < /dev/null` in crates/nas_hex makes the program, differential/oracle/build.sh the oracle.
set -eu
root=$(cd "$(dirname "$0")/.." && pwd)
[ $# = 4 ] || { sed -n 2,5p "$0"; exit 2; }
first=$1 second=$2 seed=$3 lines=$4
domain=
[ "$second" = oracle ] && domain=--rust
lines_of=sessions.py
[ "$first" = eps ] && lines_of=eps_sessions.py
work=$root/target/differential/$first-$second-$seed
mkdir -p "$work"
answers() {
    case $1 in
    model) python3 "$root/differential/model.py" ;;
    eps) python3 "$root/differential/eps.py" answers ;;
    oracle) "$root/target/oracle/target/release/oracle" ;;
    program) "$root/crates/nas_hex/out/nas_hex" ;;
    *) echo "no such program: $1" >&2; exit 2 ;;
    esac
}
python3 "$root/differential/$lines_of" "$seed" "$lines" $domain > "$work/lines"
answers "$first" < "$work/lines" > "$work/first"
answers "$second" < "$work/lines" > "$work/second"
python3 "$root/differential/compare.py" "$work/lines" "$work/first" "$work/second" $domain --counts
