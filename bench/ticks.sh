#!/usr/bin/env bash
# Replays captures between whose frames whole seconds go by. First two frames 1,000,000 s apart, with one open request,
# and the same with 256 changes of the own locator ahead; then two so many seconds apart (by default a day), with 1,000
# locators that are probed, sixteen a second, and never answer; and then an hour or a day with many mappings, each of
# which names a locator of its own that is probed. It prints the seconds that are played in a second, user and system
# time, the greatest memory, and what was written. Then many frames within 100 s to one mapping of 20 locators that are
# probed and answer; beside it the same frames without probes. It prints frames a second. Each line is of the run that
# took the least processor time.
# usage: bench/ticks.sh [SECONDS [FRAMES [SEED [RUNS [PROGRAM]]]]]
set -eu
seconds=${1:-86400}
frames=${2:-1000000}
seed=${3:-1}
export RUNS=${4:-5}
given=${5:+$(realpath "$5")}
. "$(dirname "$0")/common.sh"

# Replays the capture by those settings: what it is called, the number of items, and the settings.
replayed() {
    measured "$1" "$2" "$folder/report" "$program" \
        replay --settings "$folder/$3" --in "$folder/capture.pcap" --out "$folder/out.pcap"
    echo "  $(tail -n 1 "$folder/report"), $(stat -c %s "$folder/out.pcap") octets written"
}

echo "two frames 1000000 s apart"
python3 "$top/bench/ticks.py" "$folder" gap 1000000 0
replayed "  one request" 1000000 settings.toml
python3 "$top/bench/ticks.py" "$folder" gap 1000000 0 256
replayed "  and 256 changes left" 1000000 settings.toml
echo "two frames $seconds s apart"
python3 "$top/bench/ticks.py" "$folder" gap "$seconds" 1000
replayed "  1000 probed" "$seconds" settings.toml

for row in "300 86400" "5000 86400" "60000 3600" "60000 86400"; do
    read -r mappings gap <<< "$row"
    echo "two frames $gap s apart, $mappings mappings"
    python3 "$top/bench/ticks.py" "$folder" quiet "$gap" "$mappings"
    replayed "  probed" "$gap" settings.toml
done

python3 "$top/bench/ticks.py" "$folder" busy "$frames" 20 "$seed"
echo "$frames frames within 100 s, $(stat -c %s "$folder/capture.pcap") octets"
for kind in probing settings; do
    name="  not probed"
    [ "$kind" = probing ] && name="  probed    "
    replayed "$name" "$frames" "$kind.toml"
    echo "  $(grep -c ' encapsulated ' "$folder/report") encapsulated," \
        "$(grep -c ' control probe-reply$' "$folder/report" || true) answers to probes"
done
