#!/usr/bin/env bash
# Replays captures of many frames without workers, and with 1, 2 and 4 of them in rounds of 64, 256 and 4,096 frames:
# packets to one mapping, packets to 50,000, and packets of which one in a hundred is a Map-Reply that is learned. It
# prints of each the best of some runs, which go by turns: frames a second, user and system time, and the greatest
# memory. `4 by 256` are 4 workers, and rounds of 256 frames.
# usage: bench/workers.sh [FRAMES [SEED [RUNS [PROGRAM]]]]
set -eu
frames=${1:-1000000}
seed=${2:-1}
runs=${3:-5}
given=${4:+$(realpath "$4")}
. "$(dirname "$0")/common.sh"

# The capture and settings in the folder, under a name.
replayed() {
    echo "$1: $frames frames, $(stat -c %s "$folder/capture.pcap") octets, the best of $runs runs"
    python3 "$top/bench/workers.py" "$program" "$folder" "$frames" "$runs"
}

for kind in raw mappings; do
    python3 "$top/bench/encapsulate.py" "$folder" "$frames" "$seed" "$kind"
    replayed "$kind"
done
python3 "$top/bench/workers.py" --write "$folder" "$frames" "$seed"
replayed replies
