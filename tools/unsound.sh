#!/usr/bin/env bash
# Shows what the promises over whole runs refuse. Each patch of examples/unsound/ is a wrong lock: code and definition
# are changed alike, so that the changed crate is still proved (its code meets its definition), and in the crate `lock`
# the opening calls are refused, or the function that holds the worked cases. A lemma that would stop by its shape
# alone, although what it says holds of the wrong lock too, is adapted in the patch.
#
# The head of a patch says what is wrong in plain words, and then:
#     proves: CRATE, ..       the crates that are changed, and proved as they are then
#     breaks: FUNCTION, ..    the functions of `lock` that are refused, and no others
#     promise: NAME           a promise that it breaks: of specs/Promises.antt, or a clause of an opening call
#     case: NAME              a worked case that it breaks
#     goal: FILE LEMMA        where the check of `lock` stops, and nowhere else (what only waits for such a lemma aside)
# All of this is checked; of a promise, that there is one of that name.
#
# Each patch is tried in a copy of the crates that begins with what a check of the unchanged ones proved, side by side
# with others: as many as there are processors, and 2 GB of free memory for each. What came out as the head says is kept
# on this machine, by a checksum of all that it rests on: the patch, this script, the toolchain, and the files of `lock`
# and of the crates below it. A later run takes it from there; with --anew it does not.
#
# usage: unsound.sh [--anew]   (in a clone of the repository; the last line is 'N passed, M failed')
set -uo pipefail
cd "$(dirname "$0")/.."
top=$PWD
anew=${1:-}
keep=${XDG_CACHE_HOME:-${HOME:-/nonexistent}/.cache}/bozgrid/unsound
work=$(mktemp -d)
trap 'rm -rf "$work"' EXIT
trap 'kill $(jobs -p) 2> /dev/null; exit 1' INT TERM

# A crate and all below it, as crates.txt says.
crates_below() {
    local crate
    for crate in $(sed -nE "s/^$1( [^:]*)?: *([^#]*).*/\2/p" crates.txt); do
        if [ -d "crates/$crate" ]; then crates_below "$crate"; fi
    done
    echo "$1"
}
crates=$(crates_below lock | sort -u)

# One checksum of the toolchain, this script, and the files of these crates.
ground=$({
    rt version
    sha256sum tools/unsound.sh crates.txt
    for crate in $crates; do
        find "crates/$crate/src" "crates/$crate/specs" "crates/$crate/proofs" -type f 2> /dev/null
    done | LC_ALL=C sort | tr '\n' '\0' | xargs -0 sha256sum
} | sha256sum)

# Where it is kept that the patch was refused as its head says.
kept_at() {
    echo "$keep/$({ echo "$ground"; cat "$1"; } | sha256sum | cut -d ' ' -f 1)"
}

# The values of a field of the patch's head, one a line.
field() {
    sed -nE "1,/^(diff|---) /s/^$2: *//p" "$1" | sed 's/, */\n/g'
}

# A copy of the crates in a new folder, as a repository of its own.
copy_to() {
    mkdir "$1"
    git init -q "$1"
    tar -c --exclude="crates/*/out" crates crates.txt | tar -x -C "$1"
}

# What stands in one alone of two lists: of what was refused, and of what the head says.
compare() {
    LC_ALL=C comm -3 <(echo "$2" | LC_ALL=C sort -u) <(echo "$3" | LC_ALL=C sort -u) | grep -av '^$' \
        | sed -E "s/^([^\t])/refused, and the head does not say so: $1 \1/; s/^\t/not refused, and the head says so: $1 /"
}

# What differs between the head of the patch, and what the check of lock in the copy said.
compare_head() {
    local patch=$1 at=$2 said=$2.said name
    compare function "$(sed -nE 's/^fn lock::(.*): (not proved|no proof).*/\1/p' "$said")" "$(field "$patch" breaks)"

    # The errors, but for those of declarations that wait for another one: FILE:LINE:COLUMN: error: `LEMMA`: ..
    grep -aE '^\./[^:]*:[0-9]+:[0-9]+: error: ' "$said" \
        | grep -avE ' error: [0-9]+ declarations? that depends? on ' > "$at.errors"
    compare goal "$(sed -E 's/^\.\/([^:]*):[0-9]+:[0-9]+: error: (`([^`]*)`:)?.*/\1 \3/' "$at.errors")" "$(field "$patch" goal)"

    # The proof of a case that does not hold stands on the line of an error.
    sed -E 's/^\.\/([^:]*):([0-9]+):.*/\1 \2/' "$at.errors" | while read -r file line; do
        sed -n "${line}p" "$at/crates/lock/$file"
    done > "$at.lines"
    for name in $(field "$patch" case); do
        if ! grep -aqE "^ *$name = " "$at.lines"; then echo "the case $name holds"; fi
    done
    for name in $(field "$patch" promise); do
        if ! grep -aqE "^ +pub $name :" crates/lock/specs/Promises.antt \
            && ! grep -aqE "ensures $name \{" crates/lock/src/{opening,caching}.rt; then
            echo "no promise has the name $name"
        fi
    done
}

# Tries the patch in a copy, with so many jobs, and says what is not as its head says.
try() {
    local patch=$1 at=$2 jobs=$3 crate ended
    copy_to "$at"
    if ! git -C "$at" apply "$top/$patch" 2> "$at.said"; then
        echo "the patch does not fit: $(head -n 1 "$at.said")"
        return
    fi
    cp -r --reflink=auto "$work/out/." "$at/crates/"
    for crate in $(field "$patch" proves) lock; do
        (cd "$at/crates/$crate" && rt check --jobs "$jobs") > "$at.said" 2>&1
        ended=$?
        if [ "$crate" = lock ] && [ $ended -eq 1 ]; then
            compare_head "$patch" "$at"
        elif [ "$crate" = lock ] || [ $ended -ne 0 ]; then
            echo "the check of $crate ended with $ended"
            tail -n 5 "$at.said" | cut -c 1-300
            return
        fi
    done
}

# What came out of a patch: taken from what was kept, or tried now, and kept where it is as its head says.
judge() {
    local patch=$1 jobs=$2 at told kept
    at=$work/$(basename "$patch" .patch)
    kept=$(kept_at "$patch")
    told="$patch: $(field "$patch" proves | paste -s -d ' ') proved; of lock refused, and nothing else: $(field "$patch" breaks | paste -s -d ' '); at $(field "$patch" goal | paste -s -d ',' | sed 's/,/, /g')"
    if [ -z "$anew" ] && [ -e "$kept" ]; then
        echo "$told (kept)" > "$at.told"
    else
        try "$patch" "$at" "$jobs" > "$at.differs" 2>&1
        rm -rf "$at"
        if [ -s "$at.differs" ]; then
            { echo "not as it says: $patch"; cat "$at.differs"; } > "$at.told"
            touch "$at.failed"
        else
            echo "$told" > "$at.told"
            { mkdir -p "$keep" && echo "$told" > "$kept.$BASHPID" && mv "$kept.$BASHPID" "$kept"; } 2> /dev/null
        fi
    fi
    touch "$at.done"
}

# Prints what came out of each patch in its turn, as far as those before it are done.
passed=0
failed=0
tell() {
    local at
    while [ $((passed + failed)) -lt ${#patches[@]} ]; do
        at=$work/$(basename "${patches[passed + failed]}" .patch)
        if [ ! -e "$at.done" ]; then break; fi
        cat "$at.told"
        if [ -e "$at.failed" ]; then failed=$((failed + 1)); else passed=$((passed + 1)); fi
    done
}

mapfile -t patches < <(printf '%s\n' examples/unsound/*.patch | LC_ALL=C sort)
new=0
for patch in "${patches[@]}"; do
    if [ -n "$anew" ] || [ ! -e "$(kept_at "$patch")" ]; then new=$((new + 1)); fi
done

# What a check of the unchanged crates leaves, for the copies to begin with.
if [ $new -gt 0 ]; then
    copy_to "$work/unchanged"
    if ! (cd "$work/unchanged/crates/lock" && rt check) > "$work/said" 2>&1; then
        echo "lock is not proved as it stands"
        tail -n 5 "$work/said"
        echo "0 passed, ${#patches[@]} failed"
        exit 1
    fi
    mkdir "$work/out"
    for crate in $crates; do
        mkdir "$work/out/$crate"
        mv "$work/unchanged/crates/$crate/out" "$work/out/$crate/out"
    done
    rm -rf "$work/unchanged"
fi

most=$(nproc)
free=$(awk '/^MemAvailable:/ { print int($2 / 2097152) }' /proc/meminfo)
if [ "${free:-1}" -lt "$most" ]; then most=${free:-1}; fi
if [ "$most" -lt 1 ]; then most=1; fi
jobs=$((new > 0 && new < most ? most / new : 1))
running=0
for patch in "${patches[@]}"; do
    if [ $running -ge "$most" ]; then
        wait -n
        running=$((running - 1))
        tell
    fi
    judge "$patch" "$jobs" &
    running=$((running + 1))
done
wait
tell
echo "$passed passed, $failed failed"
[ "$failed" -eq 0 ]
