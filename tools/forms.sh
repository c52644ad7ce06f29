#!/bin/sh
# sh tools/forms.sh COMMIT: the places in src/ where an older form of code may stand, as docs/DESIGN-PASS.md counts them, a group of lines for each of its points.
# A line is a place to look at, and no verdict: the page says which of them were places, and what became of each.
set -eu
at=$1
lines() {
    git grep -nE "$1" "$at" -- crates | grep '/src/' | sed "s|^$at:||"
}
point() {
    echo "== $1"
    lines "$2" || true
}
point '1 kinds and fields as numbers' 'const [A-Z]+: u32 = [0-9]+;|^ +(Kind|Field)\(u32\)'
point '1 a flag with a value beside it' '^ +[a-z]+: Option<[a-z0-9]+>,'
point '1 faults and refusals as numbers' 'number: [0-9]|Fault::own\([0-9]|pub number: u8|-> Result<.*, \(?u8'
point '2 functions of one name' ''"$(git grep -hoE 'fn [a-z_]+' "$at" -- crates | sort | uniq -c | awk '$1 > 1 && $3 != "main" { printf "%s\\b|", "fn " $3 }' | sed 's/|$//')"
point '3 loops that count, and hand-written next' 'for .* in .*\.\.|while |\bloop \{|\.enumerate\(\) \{|fn next\('
point '4 answers passed on by hand' 'Ok\([a-z]*\) => Ok\([a-z]*\)|Ok\(\(\)\) => Ok|=> Err\(|let (Ok|Some)\(.*\) = .* else'
point '4 conversions and texts by hand' 'fn (numbered|number|position|[a-z]+_reason)\('
point '4 conversions by as' ' as [iu](8|16|32|64|128|size)\b'
point '5 clauses that say one fact in many places' '^ +(requires|ensures).*(Between|Proper|span|255 \* most_moved|Within (left|right|result)|2 \^ (30|48|86)|lowered|count \(position of\) self|Inside )'
point '6 buffers and parallel arrays' '^ +(pub(\([a-z]+\))? )?[a-z]+: (&.*)?\[.*\],'
point '7 flags and switches for the next step' '[a-z]+: bool|fn [a-z]+_and_(post|withdraw)'
