#!/bin/sh
# Builds the bench and runs the whole measurement: the tables on standard output and in docs/PERFORMANCE.md, the plot in docs/speed.svg.
#   host/bench/run.sh [LIBRARY [TEXT]]   LIBRARY is libnas_c.a; crates/nas_c/out/libnas_c.a, which `rt lib` in crates/nas_c writes, by default
#                                        TEXT has the original's src/common/security.rs and so on; ../shared/docs/src by default
# ROUNDS=n in the environment (100 by default): five batches of each call and candidate in each, of which the least counts.
set -eu
here=$(cd "$(dirname "$0")" && pwd)
root=$(cd "$here/../.." && pwd)
library=$(realpath "${1:-$root/crates/nas_c/out/libnas_c.a}")
text=$(realpath "${2:-$root/../shared/docs/src}")
rounds=${ROUNDS:-100}
build=$root/target/bench
registry=$build/crates/usr/share/cargo/registry

# The crates are Debian's packages of its release 13: fetched once, and held to their sums.
fetch() {
    mkdir -p "$build/packages"
    cd "$build/packages"
    if sha256sum --status -c "$here/packages.txt" 2>/dev/null; then return; fi
    while read -r _ name; do
        source=${name#librust-}
        curl -sSf -o "$name" "http://deb.debian.org/debian/pool/main/r/rust-${source%%-dev_*}/$name"
    done < "$here/packages.txt"
    sha256sum --quiet -c "$here/packages.txt"
}

unpack() {
    rm -rf "$build/crates"
    for name in "$build"/packages/*.deb; do dpkg-deb -x "$name" "$build/crates"; done
}

# The original's text is linked, with the oracle's shims beside it; aes_soft is crate aes itself, built without AES instructions.
assemble() {
    cd "$build"
    rm -rf original security src aes_soft
    cp -a "$here/Cargo.toml" "$here/build.rs" "$here/src" "$here/security" "$here/aes_soft" .
    cp -a "$root/differential/oracle/oxirush_security/src/numbers.rs" "$root/differential/oracle/oxirush_security/src/nas_5gs.rs" security/src
    mkdir -p original/src .cargo
    cp -a "$here/original/Cargo.toml" original
    cp -a "$here/original/lib.rs" "$root/differential/oracle/src/common" "$root/differential/oracle/src/nas_5gs" original/src
    ln -sfn "$text" original/text
    ln -sfn "$registry/aes-0.8.4/src" aes_soft/src
    printf '[source.crates-io]\nreplace-with = "debian"\n[source.debian]\ndirectory = "%s"\n' "$registry" > .cargo/config.toml
    SAIHDELU=$(dirname "$library") cargo build --offline --release
}

# Instructions do not depend on what else the computer does. A file for each call of `mark`: every second one is of a line.
count() {
    rm -f count.out*
    valgrind --tool=callgrind --callgrind-out-file=count.out --dump-before=mark "$program" count > counted.txt 2> valgrind.txt
    i=0
    while read -r line; do
        i=$((i + 2))
        printf '%s\t%s\n' "$line" "$(sed -n 's/^totals: //p' "count.out.$i")"
    done < counted.txt > counts.txt
}

load() { cut -d' ' -f1 /proc/loadavg; }

# When and on what. The sum tells one build of the library from another.
conditions() {
    echo "Taken $(date -u '+%F %H:%M') UTC on$(sed -n 's/^model name[^:]*://p' /proc/cpuinfo | head -1), $(nproc) cores, load average" \
        "$before before and $(load) after; $(rustc --version | cut -d' ' -f1-2), $(openssl version | cut -d' ' -f1-2)," \
        "$rounds rounds of 5 batches; libnas_c.a $(sha256sum "$library" | cut -c1-12)."
}

fetch
unpack
assemble
program=$build/target/release/bench
before=$(load)
"$program" times "$rounds" > times.txt
"$program" lengths "$((rounds / 2))" > lengths.txt
count
conditions | python3 "$here/table.py" times.txt lengths.txt counts.txt "$root/docs/PERFORMANCE.md"
python3 "$here/plot.py" lengths.txt > "$root/docs/speed.svg"
