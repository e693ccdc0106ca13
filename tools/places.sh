#!/bin/sh
# Counts in src/ the places that docs/DESIGN-PASS.md speaks of, a line for each command there.
# Run it at the top of a checkout; with the argument -l it lists the places as well.
all=$1
src=$(git ls-files 'crates/*/src/*.rt')

show() {
    name=$1
    found=$(cat)
    if [ -n "$found" ]; then
        printf '%s: %s\n' "$name" "$(printf '%s\n' "$found" | wc -l)"
    else
        printf '%s: 0\n' "$name"
    fi
    if [ "$all" = -l ]; then
        printf '%s\n' "$found" | sed 's/^/    /'
    fi
}

# the clauses of all functions, without their names, that stand N times or more
clauses() {
    grep -hE '^ *(requires|ensures)' $src | sed -E 's/^ *//; s/^(requires|ensures) [a-z_]+ \{/\1 {/' |
        grep -v 'elim result \[$' | sort | uniq -c | awk -v n="$1" '$1 >= n'
}

grep -nE '^ +(pub )?[a-z_]+: bool,' $src | show '1a fields and parameters that are flags'
grep -nE 'refusal: u8|\(\) -> u8|fn number\(self\) -> u8' $src | show '1b numbers for a kind, a refusal or nothing'
grep -nE '^ *(pub(\(crate\))? )?(enum|struct) (Maybe|[A-Za-z]*(Option|Result|Outcome))' $src | show '1c own forms of Option and Result'
grep -hoE '^ *(pub(\(crate\))? )?fn [a-z_]+' $src | sed 's/.*fn //' | sort | uniq -d | show '2a names of functions that stand more than once'
grep -hoE '(struct|enum|trait) [A-Z][A-Za-z]+' $src | sort | uniq -d | show '2b names of types that stand more than once'
grep -nE '\bfor [a-z_]+ in \(?[0-9a-z_().]*\.\.' $src | show '3a loops over a range'
grep -nE '^ +while ' $src | show '3b while loops'
grep -nE '^ +let mut (at|end|count|done|words|paths|leads|n|at_[a-z]+) = ' $src | show '3c counts kept by hand'
grep -nE 'fn (number|refusal|mark|answer_of|below|level|read_digit|split_once)\b' $src | show '4a conversions, orders and searches written by hand'
grep -nE '\bmatches!' $src | show '4b values compared by a pattern'
clauses 3 | show '5a clauses that stand in three functions or more'
grep -nE '^ +(to|from): &mut Lengths<D>,$|^ +arcs: Arcs,$|^ +(nodes|places): &mut \[Mark\],$' $src | show '5b parameters that travel together'
grep -nE '\bat: usize|\brow: &mut \[u16\]|\bcount: usize' $src | show '6 rows with a position or a length beside them'
grep -nE '^ +(if|&& if) along\b|if along =>' $src | show '7 switches on a direction'
git ls-files -z 'crates/*/proofs/**/Answers.antt' | xargs -0 cat | grep -E '^pub ' | show '8a answers'
git ls-files -z 'crates/*/proofs/*.antt' ':!:crates/*/Answers.antt' ':!:crates/*/Invariants.antt' | xargs -0 cat | wc -l | sed 's/^/8b lines of lemma files: /'
