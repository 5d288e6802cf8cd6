#!/usr/bin/env bash
# Replays captures at the limits of a router with one instance: 65,536 mappings live, of which some were learned, 1,024
# requests open, 9,600 locators probed within 600 s, 4,096 others asked for echoes, and as many echoes wanted and peers
# solicited. It prints how many packets to mappings go through a second, beside the same packets without a flood; how
# many frames that ask for more than the limits allow; how long a second takes for 1,024 requests, and for 16 probes,
# that are due at it; and how many mappings a second are learned for a minute, while as many end, 15,000 of them among
# 50,000 others. A second is one of a processor's time, and of each it is the best of some runs. Where the router isn't
# at its limits, or is past them, it says so and ends with status 1.
# usage: bench/flood.sh [FRAMES [SEED [RUNS [PROGRAM]]]]
set -eu
frames=${1:-1000000}
seed=${2:-1}
runs=${3:-5}
given=${4:+$(realpath "$4")}
. "$(dirname "$0")/common.sh"

python3 "$top/bench/flood.py" --write "$folder" "$frames" "$seed"
echo "$frames frames at the limits, $(stat -c %s "$folder/behind.pcap") octets, the best of $runs runs"
python3 "$top/bench/flood.py" "$program" "$folder" "$frames" "$runs"
