#!/usr/bin/env bash
# Replays frames to 1,000 destinations that the router must ask for, with the replies to its requests, each of eight
# locators, and after each tenth frame a packet from a locator, and prints frames a second, user and system time and the
# greatest memory; then the same with echoes and Map-Versions; then a fifth as many frames within 200 s to 50,000
# destinations, each learned for a minute, so that mappings end and are asked for again while others live; then 1,000
# replies beside 60,000 mappings of the settings. After these the frames to the 1,000 alone with the mappings in the
# settings, then with the first locator of each alone, and `cat` of the file to a new one.
# usage: bench/cache.sh [FRAMES [SEED]]
set -eu
frames=${1:-1000000}
seed=${2:-1}
. "$(dirname "$0")/common.sh"

# A replay by those settings of that capture.
words() {
    words=(replay --settings "$folder/$1" --in "$folder/$2" --out "$folder/out.pcap")
}

counts=$(python3 "$top/bench/cache.py" "$folder" "$frames" "$seed")
read -r exchanged expiring beside <<<"$counts"
echo "$frames frames, $(stat -c %s "$folder/frames.pcap") octets, and $exchanged with what comes"

for kind in "learned asking answered $exchanged" "echoes echoing echoed $exchanged" \
    "expiring expiring expiring $expiring" "beside beside beside $beside"; do
    read -r name settings capture count <<<"$kind"
    words "$settings.toml" "$capture.pcap"
    measured "  $(printf %-8s "$name")" "$count" "$folder/report" "$program" "${words[@]}"
    echo "  $(grep -c ' drop 13 miss$' "$folder/report") misses," \
        "$(grep -c ' control reply learned=1 ' "$folder/report") replies learned," \
        "$(grep -c ' encapsulated ' "$folder/report") encapsulated," \
        "$(grep -c ' delivered ' "$folder/report") delivered"
    tail -n 1 "$folder/report" | sed 's/^/  /'
done
for kind in static single; do
    words $kind.toml frames.pcap
    measured "  $(printf %-8s "$kind")" "$frames" "$folder/report" "$program" "${words[@]}"
    tail -n 1 "$folder/report" | sed 's/^/  /'
done
measured "  cat     " "$frames" "$folder/copy" cat "$folder/answered.pcap"
