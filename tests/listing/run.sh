#!/usr/bin/env bash
# Runs a program on every schedule of vectors/ and on the large ones that make.py makes, and compares
# what it prints with the listing byte by byte. The last line counts; the status is 0 if none differs.
# usage: run.sh PROGRAM        (such as crates/ribrun/out/ribrun)
set -uo pipefail
[ $# -eq 1 ] || { sed -n 's/^# usage/usage/p' "$0"; exit 2; }
program=$(realpath "$1")
here=$(dirname "$(realpath "$0")")
work=$(mktemp -d)
trap 'rm -rf "$work"' EXIT
same=0
differ=0

differs() {
    differ=$((differ + 1))
    echo "differs: $*"
}

mkdir "$work/large"
python3 "$here/make.py" large "$work/large" || differs "make.py cannot make the large ones"
for schedule in "$here"/vectors/*.txt "$work"/large/*.txt; do
    listing=${schedule%.txt}.listing
    timeout 60 "$program" < "$schedule" > "$work/printed" 2> "$work/said"
    status=$?
    if [ "$status" -ne 0 ]; then
        differs "$(basename "${schedule%.txt}"): status $status: $(tail -n 1 "$work/said")"
    elif ! said=$(cmp "$work/printed" "$listing" 2>&1); then
        differs "$(basename "${schedule%.txt}"):${said##*:}"
    else
        same=$((same + 1))
    fi
done

echo "$same same, $differ differ"
[ "$differ" -eq 0 ]
