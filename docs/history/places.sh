#!/usr/bin/env bash
# Lists the lines of src/ (tests left out) where an older form may stand, by point; DESIGN-PASS.md beside this
# script says which of them were places and what became of each. Run at the top of the repository.
set -euo pipefail
src() { find crates/*/src -name '*.rt' ! -name tests.rt | sort; }
show() { echo "## $1"; shift; { grep -nE "$@" $(src) || true; } | tee /tmp/places.$$ ; echo "-- $(wc -l < /tmp/places.$$)"; }

show '1a enums' '^(pub(\(crate\))? )?enum '
show '1b flags in structs' '^    (pub(\(crate\))? )?[a-z_]+: bool,'
show '1c numbers and bytes for kinds' '^    [A-Z][A-Za-z]*\((u8|u32)(, u32)*\),|role: u8|roles?: &(.a )?\[u8\]|as u32( % [0-9]+)?$|=> [0-9]+,$'
show '1d results and options taken apart' 'Err\([a-z_]+\) => Err|None => (Err|None)|let None =|return None'
echo '## 2 functions of one name or one stem in two places'
grep -hoE '\bfn [a-z_]+' $(src) | sort | uniq -d
show '2b impls' '^impl'
show '3 loops' '^ *(for |while |loop)'
show '3b indexing' '\[[a-z_.0-9() +%]+( as usize)?( - 1)?\]'
show '4 equality, conversion and printing by hand' 'fn (is_same|is_for|is|is_above_one|number|tenfold|enlist|all_roles|shown|memory_of|queue_of|digits|value_of|role_of|eq|from|try_from|fmt)\b'
echo '## 5a clauses that stand three times or more'
grep -hoE '(requires|ensures)( [a-z]+)? \{.*\}$' $(src) | sed -E 's/(requires|ensures)( [a-z]+)? //; s/self\.(old|now|new)/self/g' | sort | uniq -c | awk '$1 >= 3'
echo '## 5b parameters that stand together in three signatures or more'
grep -hoE 'fn [a-z_]+(<[^(]*>)?\([^)]*\)' $(src) | grep -oE '\(.*' | sed -E 's/&mut self, |&self, |self, |[()]//g' | grep ',' | sort | uniq -c | awk '$1 >= 3'
show '6 arrays, and lengths or places beside them' '\[[a-z0-9A-Z]+; ?[0-9A-Z]+\]|^    (pub(\(crate\))? )?(start|count|end|at|number|before|who): '
show '7 switches on a step, function tables' 'dyn |: fn\(|match \((pair|chosen)|=> (self\.step|answer\(|self\.set_|touch)'
echo '## 8 proofs: answers, invariants, lines of lemmas'
for c in crates/*/; do
    c=$(basename "$c")
    test -d "crates/$c/proofs" || continue
    answers=$({ find "crates/$c/proofs" -name Answers.antt -exec grep -hE '^pub ' {} + || true; } | wc -l)
    lines=$(find "crates/$c/proofs" -name '*.antt' -exec cat {} + | wc -l)
    echo "$c answers=$answers lines=$lines"
done
rm -f /tmp/places.$$
