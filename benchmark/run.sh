#!/usr/bin/env bash
# Measures ribrun beside plain.cpp: builds both, checks that they print the same bytes, counts the instructions of
# each over three schedules and over the first halves of these, and prints two tables.
#
#     benchmark/run.sh
#
# The exit status is 1 where the bytes differ or a tool is missing.
set -euo pipefail
cd "$(dirname "$0")/.."

for tool in rt g++ python3; do
    command -v "$tool" > /dev/null || { echo "$tool is missing"; exit 1; }
done

out=benchmark/out
plain=$out/plain
ribrun=crates/ribrun/out/ribrun
mkdir -p "$out"
g++ -std=c++17 -O2 -Wall -Wextra -o "$plain" benchmark/plain.cpp
(cd crates/ribrun && rt run < ../../examples/lone-reader.txt) > "$out/listing" 2> "$out/built" || { tail -n 5 "$out/built"; exit 1; }
python3 benchmark/make.py "$plain" "$out"
: > "$out/empty.txt"
# one byte too many: 43
python3 -c 'print("#" + "x" * 65535)' > "$out/too-long.txt"

# ---- the same bytes ----

different=0
compared=0
for schedule in examples/*.txt "$out"/*.txt; do
    compared=$((compared + 1))
    "$plain" < "$schedule" > "$out/listing-plain"
    "$ribrun" < "$schedule" > "$out/listing"
    if ! cmp "$out/listing-plain" "$out/listing"; then
        different=$((different + 1))
        echo "the listings differ: $schedule"
    fi
done
echo "the same bytes from both: $((compared - different)) of $compared schedules"
echo

if ! command -v valgrind > /dev/null; then
    echo "valgrind is missing, so nothing is measured: install the package valgrind (apt-get install valgrind)"
    exit 1
fi

# ---- measuring ----

instructions() { # PROGRAM SCHEDULE
    valgrind --tool=callgrind --callgrind-out-file="$out/callgrind.${1##*/}.$(basename "$2" .txt)" "$1" < "$2" 2>&1 > /dev/null |
        sed -n 's/.*Collected *: *//p'
}

# The most bytes of heap and stack together.
memory() { # PROGRAM SCHEDULE
    valgrind --tool=massif --stacks=yes --massif-out-file="$out/massif" "$1" < "$2" > /dev/null 2>&1
    awk -F= '/^mem_heap_B/ { sum = $2 } /^mem_heap_extra_B/ { sum += $2 }
        /^mem_stacks_B/ { sum += $2; if (sum > most) most = sum } END { print most }' "$out/massif"
}

# How often the system is called to write.
writes() { # PROGRAM SCHEDULE
    valgrind --tool=none --trace-syscalls=yes "$1" < "$2" 2>&1 > /dev/null | grep -c 'sys_write *( *1,' || true
}

per_line() { # INSTRUCTIONS STARTING LINES
    awk -v all="$1" -v start="$2" -v lines="$3" 'BEGIN { printf "%.0f", (all - start) / lines }'
}

ratio() { # ONE OTHER
    awk -v one="$1" -v other="$2" 'BEGIN { printf "%.2f", one / other }'
}

plain_start=$(instructions "$plain" "$out/empty.txt")
ribrun_start=$(instructions "$ribrun" "$out/empty.txt")

echo "| schedule | lines | bytes | plain: instructions | ribrun: instructions | ribrun / plain | plain: per line | ribrun: per line |"
echo "|---|---|---|---|---|---|---|---|"
echo "| empty | 0 | 0 | $plain_start | $ribrun_start | $(ratio "$ribrun_start" "$plain_start") | | |"
for name in workload-half workload refusals-half refusals notes-half notes; do
    schedule=$out/$name.txt
    lines=$(wc -l < "$schedule")
    plain_all=$(instructions "$plain" "$schedule")
    ribrun_all=$(instructions "$ribrun" "$schedule")
    echo "| $name | $lines | $(wc -c < "$schedule") | $plain_all | $ribrun_all | $(ratio "$ribrun_all" "$plain_all")" \
        "| $(per_line "$plain_all" "$plain_start" "$lines") | $(per_line "$ribrun_all" "$ribrun_start" "$lines") |"
done
echo
echo "| schedule | plain: heap and stack | ribrun: heap and stack | plain: calls to write | ribrun: calls to write |"
echo "|---|---|---|---|---|"
for name in empty workload refusals notes; do
    schedule=$out/$name.txt
    echo "| $name | $(memory "$plain" "$schedule") | $(memory "$ribrun" "$schedule")" \
        "| $(writes "$plain" "$schedule") | $(writes "$ribrun" "$schedule") |"
done

[ "$different" -eq 0 ]
