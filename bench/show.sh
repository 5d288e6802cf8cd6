#!/usr/bin/env bash
# Shows the messages of a capture of many control messages, and prints messages a second, user and
# system time and the greatest memory, beside tcpdump on the same file where it is installed.
# usage: bench/show.sh [MESSAGES [SEED]]
set -eu
messages=${1:-1000000}
seed=${2:-1}
. "$(dirname "$0")/common.sh"

python3 "$top/bench/show.py" "$folder/capture.pcap" "$messages" "$seed"
echo "$messages messages, $(stat -c %s "$folder/capture.pcap") octets"
measured "  lispr  " "$messages" "$folder/shown" "$program" show --in "$folder/capture.pcap"
tail -n 1 "$folder/shown" | sed 's/^/  /'
if command -v tcpdump >/dev/null; then
    measured "  tcpdump" "$messages" "$folder/dumped" tcpdump -nr "$folder/capture.pcap"
fi
