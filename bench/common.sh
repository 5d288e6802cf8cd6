# shellcheck shell=bash disable=SC2034
# What the benchmarks share: the built program, or the one that `given` names, a folder that goes at the end, and a
# measured run.
# A word that begins with a dash is none of theirs: it prints the line of usage.
case ${1:-} in
    -*)
        sed -n 's/^# usage: /usage: /p' "$0" >&2
        exit 1
        ;;
esac
top=$(cd "$(dirname "$0")/.." && pwd)
folder=$(mktemp -d)
trap 'rm -rf "$folder"' EXIT
program=${given:-$top/out/lispr}
[ -n "${given:-}" ] || "$top/lispr" trial 1 >/dev/null

# As the start script has it.
export GLIBC_TUNABLES=glibc.malloc.hugetlb=1

measured() {
    python3 "$top/bench/measured.py" "$@"
}
