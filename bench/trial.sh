#!/usr/bin/env bash
# Runs `trial` with many mappings, and prints frames a second, user and system time and the greatest memory. Beside it
# `replay` of the same input from files; of its settings alone, without frames; and of its frames with one mapping of
# 20.0.0.0/8 in place of the many. What the look-ups among so many cost is a replay less the two behind it.
# usage: bench/trial.sh [PROGRAM]
set -eu
given=${1:+$(realpath "$1")}
. "$(dirname "$0")/common.sh"

# The site of the settings with one mapping.
write_single() {
    sed '/^\[\[mapping\]\]$/,$d' "$folder/settings.toml"
    printf '[[mapping]]\niid = 0\nprefix = "20.0.0.0/8"\n[[mapping.locator]]\naddress = "203.0.113.1"\n'
}

# A replay by those settings of that capture: what it is called, the number of items, and the two files.
replayed() {
    measured "  $(printf %-8s "$1")" "$2" "$folder/report" "$program" \
        replay --settings "$folder/$3" --in "$folder/$4" --out "$folder/out.pcap"
    tail -n 1 "$folder/report" | sed 's/^/  /'
}

for count in 1000 10000 50000; do
    frames=$((count + 1))
    python3 "$top/crosscheck/trial.py" --write "$count" "$folder"
    write_single >"$folder/single.toml"
    head -c 24 "$folder/capture.pcap" >"$folder/empty.pcap"
    echo "$count mappings, $(stat -c %s "$folder/settings.toml") octets, and $frames frames"
    measured "  $(printf %-8s trial)" "$frames" "$folder/report" "$program" trial "$count"
    sed 's/^/  /' "$folder/report"
    replayed replay "$frames" settings.toml capture.pcap
    replayed settings "$count" settings.toml empty.pcap
    replayed single "$frames" single.toml capture.pcap
done
