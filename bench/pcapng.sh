#!/usr/bin/env bash
# Replays the frames of bench/encapsulate.sh from a classic capture and from a pcapng file, by turns, some runs each. It
# prints of each the best of its runs: frames a second, user and system time, and the greatest memory; and tells where
# reports or outputs differ. Frames of Ethernet are also replayed with interfaces that are VLANs. Last comes a block of
# 1,024 MiB that is passed over: MiB a second, and the memory that it takes.
# usage: bench/pcapng.sh [FRAMES [SEED [RUNS [PROGRAM]]]]
set -eu
frames=${1:-1000000}
seed=${2:-1}
runs=${3:-5}
given=${4:+$(realpath "$4")}
. "$(dirname "$0")/common.sh"

for kind in raw ethernet ipv6 tunnels mappings; do
    python3 "$top/bench/encapsulate.py" "$folder" "$frames" "$seed" "$kind"
    python3 "$top/bench/pcapng.py" --write "$folder"
    echo "$kind: $frames frames, $(stat -c %s "$folder/capture.pcap") octets, as pcapng" \
        "$(stat -c %s "$folder/capture.pcapng"), the best of $runs runs"
    python3 "$top/bench/pcapng.py" "$program" "$folder" "$frames" "$runs"
done

python3 "$top/bench/pcapng.py" --long "$folder" 1024
measured "a block of 1024 MiB" 1024 "$folder/report" "$program" replay --settings "$folder/settings.toml" \
    --in "$folder/capture.pcapng" --out "$folder/out.pcap" --format ng
tail -n 1 "$folder/report" | sed 's/^/  /'
