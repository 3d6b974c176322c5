#!/bin/sh
# Lists the lines of src/ where a form that docs/DESIGN-PASS.md counts may stand: places.sh POINT, POINT from 1 to 8.
# It finds more than the places: each hit is read, and the page says which of them are places.
cd "$(dirname "$0")/.." || exit 1
all() { grep -rnE "$1" crates/*/src; }
case "$1" in
1) all '\benum [A-Z]|kind [!=]= [0-9]|^ *pub number: |pub fn (number|layer|place|stimulate)\b' ;;
2) grep -rhoE '\bfn [a-z_]+' $(ls -d crates/*/src | grep -v _tests) | sort | uniq -d ;;
3) all '^ *for [a-z_]+ in .*\.\.|^ *while |saturating_add\(1\)|\+= 1;' ;;
4) all ' as (u8|u16|u32|u64|usize|i32|i64|Net)\b|if ([a-z.]+) [<>] ([a-z.()]+) \{ |\bfn (from_code|from_name|from_letters|is_same|text|letter|letters|name)\b|impl.* (From<.*|fmt::Display) for|=> (true|false),' | grep -v 'ghost use' ;;
5) grep -rhoE '^ *requires .*' crates/*/src | sort | uniq -c | sort -rn; all 'rows: &\[Row\]' ;;
6) all 'let mut [a-z]+ = (\[.*; [0-9A-Z]+\]|untied)|&[a-z]+\[0\.\.' ;;
7) all 'match (hold|function|letter)\b' ;;
8) for crate in crates/*; do
       answers=$(find "$crate/proofs" -name Answers.antt 2>/dev/null | wc -l)
       lines=$(find "$crate/proofs" -type f -exec cat {} + 2>/dev/null | wc -l)
       [ "$lines" -eq 0 ] || echo "${crate#crates/}: $answers files of answers, $lines lines of proof"
   done ;;
*) echo "usage: tools/places.sh POINT, from 1 to 8" >&2; exit 2 ;;
esac
