#!/bin/sh
# Counts the places that docs/DESIGN-PASS.md tells of, in the src/ of every crate of a checkout (this one, or the folder given).
cd "${1:-$(dirname "$0")/..}" || exit 1
all=$(git ls-files 'crates/*/src/*.rt')
code=$(echo "$all" | grep -v vectors/)
tests=$(echo "$all" | grep vectors/)
say() { printf '%-66s %s\n' "$1" "$2"; }
lines() { grep -hE "$@" | wc -l; }
# conditions that stand in three or more functions, with `self` and `rows` of before, after and now taken together
facts() {
    grep -hE '^ *requires' $code | sed -E 's/requires [a-z_]+ \{/requires {/; s/^ *//; s/\.(old|now)//g; s/rows/self/g' |
        sort | uniq -c | awk '$1 >= 3'
}
say '1 flags beside values' "$(lines '[a-z_]+: bool[,)]' $all)"
say '1 options that hold a refusal or a fault' "$(lines 'fn .*-> Option<(Refusal|[A-Za-z]*Fault)>' $all)"
say '1 arms that turn a case into its number or back' "$(lines '(Tag|Refusal)::[A-Za-z]+ => [0-9]+,$|^ +[0-9]+ => Some\(Tag' $all)"
say '1 enums' "$(lines '^(pub |pub\(crate\) )?enum ' $all)"
say '2 structs of places with a count or a next' "$(lines '^(pub )?struct (RulePlaces|MapPlaces|LinkPlaces|LeadPlaces|Stacked)' $code)"
say '2 implementations of a search' "$(lines '^impl Search for' $code)"
say '3 loops in the code' "$(lines '^ *(for|while|loop)\b' $code)"
say '3 loops in the tests' "$(lines '^ *(for|while|loop)\b' $tests)"
say '3 of both, over a range' "$(lines '^ *for .* in [^ ]*\.\.' $all)"
say '3 iterator chains and methods in place of a loop' "$(lines '\.(any|find|find_map|position|sum|count|map_while|filter_map|chunks|fill|copy_from_slice|extend_from_slice|try_for_each)\(|from_fn\(' $all)"
say '4 Display, From, TryFrom written for a type' "$(lines '^impl.* (Display|From<.*>|TryFrom<.*>) for ' $all)"
say '5 conditions that stand in three or more functions' "$(facts | wc -l)"
say '5 how often they stand' "$(facts | awk '{ n += $1 } END { print n + 0 }')"
say '5 rows, found and leads (or counts) as parameters side by side' "$(lines 'found: &Found, _?leads|^ +leads: &\[usize|found: &Found, counts|^ +counts: &\[u32' $code)"
say '6 arrays in structs' "$(lines '^ +(pub )?[a-z_]+: \[[a-z0-9]+; [A-Z0-9]+\],' $code)"
say '7 switches on a task or a call' "$(lines 'match (task|call|self)\b' $all)"
say '7 functions that take a closure' "$(lines 'fn .*<F: Fn' $all)"
say '8 lines of proofs' "$(git ls-files 'crates/*/proofs/*.antt' | xargs cat | wc -l)"
say '8 files of answers and invariants' "$(git ls-files 'crates/*/proofs/*Answers.antt' 'crates/*/proofs/*Invariants.antt' | wc -l)"
