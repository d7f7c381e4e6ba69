#!/bin/sh
# Lines that may be places of a point of docs/DESIGN-PASS.md, in src/ of a commit or of the working tree (point 2 by `duplicates`, a command that lists
# pairs of places with six or more lines alike):
# sh tools/places.sh POINT [COMMIT]
set -eu
cd "$(dirname "$0")/.."
point=$1 commit=${2:-}
src=':(glob)crates/*/src/**/*.rt'
lines() { git grep -nE "$1" $commit -- "$src" | sed "s/^$commit://" | grep -vE "${2:-^$}" || true; }
copied() {
    # the sources as .rs files, which `duplicates` reads
    folder=$(mktemp -d)
    git archive "${commit:-HEAD}" crates | tar -x -C "$folder"
    find "$folder" -name '*.rt' ! -path '*/crc32c/src/table.rt' | while read -r f; do mv "$f" "${f%.rt}.rs"; done
    find "$folder" -type d \( -name specs -o -name proofs -o -name must-fail \) -prune -exec rm -rf {} +
    (cd "$folder" && duplicates --repo . --min-lines 6 --most 100)
    rm -rf "$folder"
}
case $point in
1)
    echo '# own enums'; lines '^(pub |pub\(crate\) )?enum '
    echo '# numbers for kinds and refusals'; lines "=> (\(?[0-9]+|b'|\"?[0-9])|^    if .* \{ 1 \} else \{ 0 \}|^ *(9[0-9]|0)$|return (0|9[0-9]);" '/fields/src/field.rt'
    echo '# functions that answer a number which says nothing'; lines '\(\) -> u8$'
    echo '# a flag beside a value'; lines '\(bool,|, bool\)|^ +(pub )?[a-z_]+: bool,$' ;;
2) copied ;;
3) lines '\.enumerate\(\)|for [a-z_]+ in .*\.\.|while |\+= 1;|(saturating|wrapping)_add\(1\)' 'tests.rt:.* in 0\.\.(STEPS|4_000|18u8)' ;;
4) lines 'fn (compare|is_same|is|other|number_of_[a-z]+|side_number|side_of|side_name|meaning|refusal_number|place_in|number|is_order|mark|outcome)\b|^impl.* (From|TryFrom|fmt::Display|PartialEq|Ord)\b.* for | as (u8|u16|u32|u64|usize)\b' ;;
5) python3 tools/clauses.py $commit ;;
6) lines '^ +(pub )?(pub\(crate\) )?[a-z_]+: (\[.*; [A-Z_0-9]+\]|usize),$|Vec<Node|: Vec<' ;;
7) lines 'match .*(step|phase|state|mode|kind)\b|fn\(|dyn |: \[fn' ;;
8)
    for crate in crates/*/; do
        c=$(basename "$crate")
        if [ -n "$commit" ]; then
            names=$(git ls-tree -r --name-only "$commit" "crates/$c/proofs" 2>/dev/null || true)
            n=$(for f in $names; do git show "$commit:$f"; done | wc -l)
        else
            names=$(git ls-files "crates/$c/proofs"); n=$(cat $names /dev/null | wc -l)
        fi
        [ "$n" = 0 ] || echo "$c: $(echo $names | wc -w) files, $n lines"
    done ;;
*) echo "a point is 1 to 8" >&2; exit 2 ;;
esac
