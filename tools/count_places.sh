#!/bin/sh
# Counts the places of the design pass (docs/DESIGN-PASS.md) in the sources below the folder given, or here.
# With -l it lists them in place of counting. Tests are left out.
# sh tools/count_places.sh [-l] [FOLDER]
export LC_ALL=C.UTF-8
list=no
if [ "$1" = -l ]; then list=yes; shift; fi
cd "${1:-.}" || exit 2
files=$(find crates/*/src -name '*.rt' | grep -v 'tests\.rt$' | sort)

# a title, and the lines found on standard input
told() {
    if [ $list = yes ]; then echo "== $1"; cat; else printf '%5d  %s\n' "$(grep -c .)" "$1"; fi
}
found() { grep -nE "$2" $files | told "$1"; }
fns='^[[:space:]]*(pub(\([a-z]+\))? )?(const )?(extern "C" )?fn '

found '1  enums' '^[[:space:]]*(pub(\([a-z]+\))? )?enum '
found '1  flags in structs' '^[[:space:]]*(pub )?[a-z_]+: bool,'
found '1  numbers for kinds and refusals in structs' '^[[:space:]]*pub (number|refusal|stage|modulation|tm|dt|pdc|fl): u(8|32|size),'
found '1  counts that stand for "all" or for a place, told apart by a test' 'if (place|same|bits) < [a-z0-9A-Z_]'
grep -nE "$fns" $files | sed -E "s/:[0-9]+:.*fn ([a-z_0-9]+).*/ \1/" |
    awk '{ n[$2]++; at[$2] = at[$2] " " $1 } END { for (name in n) if (n[name] > 1) print n[name], name, at[name] }' |
    sort -rn | told '2  names that more than one function has'
grep -nE '^[[:space:]]*(pub )?extern "C"|pub extern "C"' $files | told '2  functions for C'
found '3  loops over numbers' '^[[:space:]]*for [a-z_]+ in .*\.\.'
found '3  while and loop' '^[[:space:]]*(while|loop) '
found '4  impls of conversion, comparison, copying and printing' '^impl.* (PartialEq|Eq|Ord|PartialOrd|Clone|Copy|From<.*>|TryFrom<.*>|FromStr|Display|Debug) for '
found '4  conversions, comparisons and printing by other names' 'fn (same_[a-z]+|from_[a-z]+|of_[a-z]+|to_string|number_of|digit_[a-z]+|cell_value|is_hex|is_cell|push_(blanks|text)|list_of|cells_of)\('
for crate in crates/*; do
    grep -hE '^[[:space:]]*requires' $(echo "$files" | tr ' ' '\n' | grep "^$crate/") /dev/null |
        sed -E "s/^[[:space:]]*requires ([a-z_]+ )?\{ (.*) \}\$/\2/" | sort | uniq -c | awk -v crate="${crate#crates/}" '$1 >= 3 { print crate ":" $0 }'
done | told '5  facts that three or more contracts of a crate require'
found '6  a length beside a buffer' '(n|count|most|total|length|bits|times): usize,.*(buffer|res|received|cells|bytes|list|register): &'
found '6  arrays in structs' '^[[:space:]]*(pub )?[a-z_]+: \[u8; '
found '7  tests of a word for a name' '(same_word\(|== b")'
found '7  switches on a step' 'match (direction|step|self\.phase|modulation|bits|self) '
if [ $list = no ]; then
    printf '%5d  %s\n' "$(find crates/*/proofs crates/*/specs -name '*.antt' | xargs cat | wc -l)" '8  lines of specs/ and proofs/'
    printf '%5d  %s\n' "$(find crates/*/proofs -name Answers.antt | xargs cat | grep -cE '^pub [^ ]+ : goal\.')" '8  answers'
    printf '%5d  %s\n' "$(cat $files | wc -l)" '   lines of source'
fi
