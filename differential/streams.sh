#!/bin/sh
# The same random lines to program `vectors`, to libipsec-mb and to the model streams.py, compared.
#   differential/streams.sh SEED NUMBER      NUMBER inputs for each of 128-NEA1, 128-NIA1, 128-NEA3 and 128-NIA3
# From the repository's root: `rt run < /dev/null` in crates/vectors makes the program. Debian packages: gcc, libipsec-mb-dev, python3.
set -eu
root=$(cd "$(dirname "$0")/.." && pwd)
[ $# = 2 ] || { sed -n 2,4p "$0"; exit 2; }
work=$root/target/differential/streams-$1
mkdir -p "$work"
gcc -O2 -Wall -o "$work/ipsec_mb" "$root/differential/ipsec_mb.c" -lIPSec_MB
python3 "$root/differential/streams.py" "$1" "$2" > "$work/lines"
# the program holds 262,144 octets of lines
split --line-bytes=262144 --filter="$root/crates/vectors/out/vectors" "$work/lines" > "$work/program"
"$work/ipsec_mb" < "$work/lines" > "$work/library"
python3 "$root/differential/streams.py" < "$work/lines" > "$work/model"
# no octets are written as none
cut -d' ' -f1 "$work/lines" | paste -d' ' - "$work/program" "$work/model" "$work/library" | sed 's/  / - /g' | awk '
    { given[$1]++ }
    $2 != $4 || $2 != $6 || $3 != $5 { print "differs from the model:", $1, $2; bad = 1; next }
    $7 == "refused" { model[$1]++; next }
    $3 != $7 { print "differs from libipsec-mb:", $1, $2; bad = 1; next }
    { all[$1]++ }
    END {
        for (kind in given)
            print kind ": " given[kind] " inputs, " all[kind] + 0 " the same in all three, " model[kind] + 0 " that libipsec-mb refuses the same in the model"
        exit bad
    }'
