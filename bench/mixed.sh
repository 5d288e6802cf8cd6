#!/usr/bin/env bash
# Replays frames of all kinds, mixed: half into tunnels, a quarter out of them, the rest misses, Map-Replies that are
# learned, Map-Requests, groups, refused ones; with probes, and wishes for echoes and old versions in what comes out of
# tunnels. It prints frames a second, user and system time and the greatest memory with 300 mappings in the settings and
# with 20,000, each the best of some runs, beside an older program where one is given.
# usage: bench/mixed.sh [FRAMES [SEED [RUNS [PROGRAM [OLD]]]]]
set -eu
frames=${1:-400000}
seed=${2:-1}
runs=${3:-5}
given=${4:+$(realpath "$4")}
older=${5:+$(realpath "$5")}
. "$(dirname "$0")/common.sh"

for mappings in 300 20000; do
    count=$(python3 "$top/bench/mixed.py" "$program" "$folder" "$frames" "$seed" "$mappings")
    echo "$mappings mappings: $count frames, $(stat -c %s "$folder/capture.pcap") octets, the best of $runs runs"
    python3 "$top/bench/mixed.py" --run "$folder" "$count" "$runs" "lispr=$program" ${older:+"older=$older"}
done
