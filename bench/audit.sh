#!/usr/bin/env bash
# Replays frames into tunnels, out of them, and mixed ones of all kinds, and audits what was written, by turns, some runs
# each. It prints of each the best of its runs: frames a second, user and system time, and the greatest memory; and how
# many frames an audit goes through for one of the replay, of which 0.7 are wanted.
# usage: bench/audit.sh [FRAMES [SEED [RUNS [PROGRAM]]]]
set -eu
frames=${1:-1000000}
seed=${2:-1}
runs=${3:-5}
given=${4:+$(realpath "$4")}
. "$(dirname "$0")/common.sh"

audited() {
    echo "$1: $2 frames, $(stat -c %s "$folder/capture.pcap") octets, the best of $runs runs"
    python3 "$top/bench/audit.py" "$program" "$folder" "$2" "$runs"
}

for kind in raw ethernet ipv6 tunnels mappings; do
    python3 "$top/bench/encapsulate.py" "$folder" "$frames" "$seed" "$kind"
    audited "$kind" "$frames"
done
count=$(python3 "$top/bench/mixed.py" "$program" "$folder" "$frames" "$seed" 300)
audited mixed "$count"
