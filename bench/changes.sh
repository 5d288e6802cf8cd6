#!/usr/bin/env bash
# Replays frames into tunnels with and without 256 changes of own locators that all lie behind the last frame, and prints
# what these cost; and 256 changes, each of which is told to the 64 locators that 50,000 mappings name, of one prefix and
# of 64, and prints how long one takes. A second is one of a processor's time, and of each it is the best of some runs.
# Where more is taken than is wanted, or another number is told, it says so and ends with status 1.
# usage: bench/changes.sh [FRAMES [SEED [RUNS [PROGRAM]]]]
set -eu
frames=${1:-1000000}
seed=${2:-1}
runs=${3:-5}
given=${4:+$(realpath "$4")}
. "$(dirname "$0")/common.sh"

python3 "$top/bench/changes.py" --write "$folder" "$frames" "$seed"
echo "$frames frames, $(stat -c %s "$folder/frames.pcap") octets, and 256 changes, the best of $runs runs"
python3 "$top/bench/changes.py" "$program" "$folder" "$frames" "$runs"
