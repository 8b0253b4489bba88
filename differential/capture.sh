#!/bin/sh
# Has tshark (Debian) dissect messages that the program sealed, as NAS-5GS and NAS-EPS, and compares header type, sequence
# number and, where nothing is ciphered, the inner message's type. From the repository's root, after `rt run < /dev/null` in crates/nas_hex.
set -eu
root=$(cd "$(dirname "$0")/.." && pwd)
work=$root/target/capture
mkdir -p "$work"
python3 "$root/differential/capture.py" lines > "$work/lines"
"$root/crates/nas_hex/out/nas_hex" < "$work/lines" > "$work/answers"
python3 "$root/differential/capture.py" pcap "$work/lines" "$work/answers" "$work/sealed"
# dissect SYSTEM DISSECTOR LINK-TYPE FIELD..
dissect() {
    system=$1 dissector=$2 link=$3
    shift 3
    for field; do
        set -- "$@" -e "$field"
        shift
    done
    tshark -r "$work/sealed.$system.pcap" -o "uat:user_dlts:\"User $((link - 147)) (DLT=$link)\",\"$dissector\",\"0\",\"\",\"0\",\"\"" \
        -o nas-5gs.null_decipher:TRUE -T fields "$@" 2> "$work/$system.log" > "$work/$system.seen"
    python3 "$root/differential/capture.py" check "$work/sealed.$system.expected" "$work/$system.seen"
}
dissect 5gs nas-5gs 147 nas_5gs.security_header_type nas_5gs.seq_no nas_5gs.mm.message_type nas_5gs.sm.message_type
dissect eps nas-eps 148 nas_eps.security_header_type nas_eps.seq_no nas_eps.nas_msg_emm_type
