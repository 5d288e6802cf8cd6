#!/usr/bin/env bash
# Replays captures of many frames, and prints frames a second, user and system time and the greatest
# memory, beside an older program where one is given, and beside `cat` of the same file to a new one.
# Where strace is installed, also the system calls of a frame, over 10,000 raw ones.
# usage: bench/encapsulate.sh [FRAMES [SEED [OLD]]]
set -eu
frames=${1:-1000000}
seed=${2:-1}
. "$(dirname "$0")/common.sh"

names=(lispr older)
programs=("$program" ${3:+"$3"})
words=(replay --settings "$folder/settings.toml" --in "$folder/capture.pcap" --out "$folder/out.pcap")

make_capture() {
    python3 "$top/bench/encapsulate.py" "$folder" "$count" "$seed" "$1"
    echo "$1: $count frames, $(stat -c %s "$folder/capture.pcap") octets"
}

count=$frames
for kind in raw ethernet ipv6 tunnels mappings; do
    make_capture "$kind"
    for i in "${!programs[@]}"; do
        measured "  ${names[i]}" "$count" "$folder/report" "${programs[i]}" "${words[@]}"
        tail -n 1 "$folder/report" | sed 's/^/  /'
    done
    if [ "$kind" = mappings ]; then
        # What of it goes to the settings: the same ones, and a capture of no frames.
        head -c 24 "$folder/capture.pcap" >"$folder/empty.pcap"
        measured "  settings alone" 50000 "$folder/report" "$program" replay \
            --settings "$folder/settings.toml" --in "$folder/empty.pcap" --out "$folder/out.pcap"
    fi
    measured "  cat  " "$count" "$folder/copy" cat "$folder/capture.pcap"
    rm -f "$folder/out.pcap" "$folder/copy"
done

if command -v strace >/dev/null; then
    count=10000
    make_capture raw
    for i in "${!programs[@]}"; do
        strace -f -qq -o "$folder/calls" "${programs[i]}" "${words[@]}" >"$folder/report"
        awk -v name="${names[i]}" -v count="$count" \
            'END { printf "  %s: %.3f system calls a frame\n", name, NR / count }' "$folder/calls"
    done
fi
