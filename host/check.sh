#!/bin/sh
# Builds and runs the host's side: saihdelu.h, the C programs, the Rust crate and what README.md shows. Says what it did, a line
# each; ends with status 0 if all of it is as it should be. Not the gate.
#
#   host/check.sh
#
# The library is crates/nas_c/out/libnas_c.a, made by `rt lib` in crates/nas_c where it is missing, or the one in the folder that
# SAIHDELU_LIB names. Debian packages: gcc, g++, binutils, libssl-dev, cargo, python3-cryptography.
set -eu
root=$(cd "$(dirname "$0")/.." && pwd)
cd "$root"
work=$root/target/host
mkdir -p "$work"
export PYTHONDONTWRITEBYTECODE=1
say() { printf '%s\n' "$*"; }
fail() { say "FAILED: $*"; exit 1; }

if [ -z "${SAIHDELU_LIB:-}" ]; then
    SAIHDELU_LIB=$root/crates/nas_c/out
    [ -f "$SAIHDELU_LIB/libnas_c.a" ] || (cd crates/nas_c && rt lib)
fi
SAIHDELU_LIB=$(cd "$SAIHDELU_LIB" && pwd)
export SAIHDELU_LIB
library=$SAIHDELU_LIB/libnas_c.a
[ -f "$library" ] || fail "$library is not there"

# What the header declares against what the library has; and that it keeps nothing between calls: no data of its own.
grep -oE 'saihdelu_[a-z0-9_]+\(' host/include/saihdelu.h | tr -d '(' | grep -v refusal_text | sort -u > "$work/declared"
nm "$library" | awk '$2 == "T" { print $3 }' | sort -u > "$work/exported"
missing=$(comm -23 "$work/declared" "$work/exported" | tr '\n' ' ')
[ -z "$missing" ] || fail "declared and not in the library: $missing"
others=$(nm -u "$library" | awk '$1 == "U" && $2 !~ /^mem(cpy|move|set|cmp)$/ { print $2 }' | tr '\n' ' ')
[ -z "$others" ] || fail "the library asks for: $others"
data=$(size "$library" | awk 'NR > 1 { n += $2 + $3 } END { print n }')
[ "$data" = 0 ] || fail "the library has $data octets of data that can change"
say "library: $(wc -l < "$work/declared") functions declared, all of them there; it asks for nothing but the C library's mem functions and has no data that changes"

flags="-std=c11 -Wall -Wextra -Wpedantic -Werror -O2 -Ihost/include"
for program in demo journal; do
    cc $flags -o "$work/$program" "host/c/$program.c" "$library" || fail "host/c/$program.c does not build"
done
printf '#include "saihdelu.h"\nint main() { return saihdelu_context_size() == sizeof(saihdelu_context) ? 0 : 1; }\n' > "$work/header.cc"
c++ -std=c++11 -Wall -Wextra -Wpedantic -Werror -Ihost/include -o "$work/header" "$work/header.cc" "$library" || fail "saihdelu.h is no C++"
"$work/header" || fail "saihdelu.h from C++: another size"
say "C: demo.c and journal.c build without a warning, saihdelu.h as C++ too"

"$work/demo" > "$work/demo.out" || { cat "$work/demo.out"; fail "host/c/demo.c"; }
say "C: demo, $(wc -l < "$work/demo.out") lines (target/host/demo.out): $(tail -n 1 "$work/demo.out")"

"$work/journal" "$work/calls" > "$work/answers" 2> "$work/notes" || { cat "$work/notes"; fail "host/c/journal.c"; }
python3 differential/journal.py read < "$work/calls" > "$work/replayed" || fail "differential/journal.py"
cmp -s "$work/answers" "$work/replayed" || { diff "$work/answers" "$work/replayed" | cut -c 1-200; fail "the Python reading answers otherwise"; }
say "C: journal, $(wc -l < "$work/answers") calls in $(wc -c < "$work/calls") octets; the Python reading replays them with the same answers"
if [ -x crates/journal_read/out/journal_read ]; then
    crates/journal_read/out/journal_read < "$work/calls" > "$work/replayed"
    cmp -s "$work/answers" "$work/replayed" || { diff "$work/answers" "$work/replayed" | cut -c 1-200; fail "journal_read answers otherwise"; }
    say "C: journal_read replays the journal with the same answers"
else
    say "C: not run: journal_read (\`rt run < /dev/null\` in crates/journal_read makes it)"
fi

export CARGO_TARGET_DIR="$work/cargo"
cargo test --offline --manifest-path host/rust/Cargo.toml -- --nocapture --test-threads 1 > "$work/cargo.log" 2>&1 ||
    { tail -n 40 "$work/cargo.log"; fail "cargo test"; }
passed=$(awk '/^test result: ok/ { n += $4 } END { print n }' "$work/cargo.log")
documented=$(awk '/^test result: ok/ { last = $4 } END { print last }' "$work/cargo.log")
say "Rust: crate saihdelu builds; $passed tests passed, $documented of them examples in its documentation"
grep -oE '(5GS|EPS|[a-z_/]+\.py) against .*|[A-Za-z_/.-]+: [0-9]+ lines compared.*' "$work/cargo.log" | sed 's/^/Rust: /'

# The programs that README.md shows under "Link it".
shown() { awk -v language="$1" '/^## / { here = /^## Link it/ } here && $0 == "```" language { on = 1; next } $0 == "```" { on = 0 } on' README.md; }
shown c > "$work/readme.c"
shown rust > "$work/readme.rs"
[ -s "$work/readme.c" ] && [ -s "$work/readme.rs" ] || fail "README.md shows no programs under \"Link it\""
cc $flags -o "$work/readme_c" "$work/readme.c" "$library" || fail "README.md, C"
cargo build --offline --quiet --manifest-path host/rust/Cargo.toml || fail "cargo build"
rustc --edition 2021 -o "$work/readme_rust" --extern saihdelu="$work/cargo/debug/libsaihdelu.rlib" -L "$work/cargo/debug/deps" "$work/readme.rs" || fail "README.md, Rust"
in_c=$("$work/readme_c") || fail "README.md, C"
in_rust=$("$work/readme_rust") || fail "README.md, Rust"
[ "$in_c" = "$in_rust" ] || fail "README.md: C prints $in_c, Rust prints $in_rust"
say "README.md: both programs under \"Link it\" build and print $in_c"
