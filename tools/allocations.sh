#!/usr/bin/env bash
# Shows that no library crate allocates: code that allocates is passed an allocator, or a value that has one, so it
# names one of the words below. Looked through is src/ of each crate that is no program (one with src/main.rt), but
# for tests, comments and texts. Prints each line that names such a word.
# usage: allocations.sh   (the last line counts: '1 passed, 0 failed' where there is none)
set -uo pipefail
cd "$(dirname "$0")/.."
words='alloc|Alloc[A-Za-z]*|Global|Vec|VecDeque|String|Box|Rc|Arc|BinaryHeap|BTreeMap|BTreeSet|HashMap|HashSet|LinkedList|HostRuntime|vec!|format!'

# The lines of a file with their numbers, without comments, texts, and what stands under #[cfg(test)].
code() {
    awk '{
        line = $0
        gsub(/b?\x27(\\.|[^\x27\\])\x27/, "", line)
        gsub(/"([^"\\]|\\.)*"/, "", line)
        sub(/\/\/.*/, "", line)
        if (sub(/#\[cfg\(test\)\]/, "", line)) { testing = 1; depth = 0 }
        if (testing) {
            opened = gsub(/\{/, "", line); closed = gsub(/\}/, "", line)
            depth += opened - closed
            if (depth == 0 && (opened + closed > 0 || line ~ /;/)) testing = 0
            next
        }
        print FILENAME ":" FNR ": " line
    }' "$1"
}

found=0
looked=0
for crate in crates/*/; do
    [ -e "${crate}src/main.rt" ] && continue
    while read -r file; do
        looked=$((looked + 1))
        if code "$file" | grep -E "^[^ ]+ (.*[^A-Za-z_0-9])?($words)([^A-Za-z_0-9]|$)"; then
            found=1
        fi
    done < <(find "${crate}src" -name '*.rt' ! -name tests.rt | sort)
done
if [ "$found" -eq 0 ] && [ "$looked" -gt 0 ]; then
    echo "no library crate takes an allocator: $looked files"
    echo "1 passed, 0 failed"
else
    echo "a library crate takes an allocator, or there is none"
    echo "0 passed, 1 failed"
    exit 1
fi
