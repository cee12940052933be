#!/bin/sh
# Prints the lines of src/ of the crates that were rewritten in which a place of one of the points of docs/DESIGN-PASS.md may stand, or how many there are.
# Usage, at the top of the repository: sh tools/places.sh [POINT]
# the crates that were rewritten
names='bounds book cabinet classes classify costs image listing piles possible queue records search stores terms theory'
src=$(for name in $names; do echo "crates/$name/src"; done)
proofs=$(for name in $names; do echo "crates/$name/proofs"; done)
look() { grep -rnE "$1" $src --include=*.rt; }
point() {
    case $1 in
    1) look '\bkind (==|!=|<=|>=) |<= self\.kind|match [a-z.]*kind|mark: |\bkind: (u8|[0-9])|(Err|Ok)\(_\) =>|(Err|Ok)\([a-z]+\) => (Ok|Err|!)|\benum [A-Z]' ;;
    2) look '^ *(pub |pub\(crate\) )?(final )?fn ' | sed -E 's/^([^:]*):([0-9]*): *(pub |pub\(crate\) )?(final )?fn ([a-z_0-9]+).*/\5 \1:\2/' | sort | awk '{ n[$1]++; at[$1] = at[$1] " " $2 } END { for (f in n) if (n[f] > 1) print f at[f] }' | sort ;;
    3) look 'for [a-z_]+ in [0-9a-z_]+\.\.|while [a-z_.]+ (<|>|!=) |^ *[a-z_.]+ [-+]= [0-9]+;|while let |break .[a-z]' ;;
    4) look ' as (u8|u16|u32|u64|usize)\b|fn (same|word|reason|number|place)\(|fn of\(a: u8|\{ left: 0, right: 0 \}|^ *(kind|stamp|mark|depth): 0,|if b < a' ;;
    5) look 'requires .*\{' ; look 'ensures (valid|sound|same|begun|heavier) \{|→ RulesLegal ' ; look '(pairs|parts): &mut \[' ; look '(queue|trail|links|heap|out|pairs|book): &?(mut )?[A-Z'"'"']|within: &mut' ;;
    6) look ': \[[A-Za-z]+(<[A-Za-z]+>)?; [0-9]+\],$|: ArrayVec<|: &.a (mut )?\[[A-Za-z0-9]+\],$|\b(6|10|64|65) \* ' ;;
    7) look 'match .*(as_str|kind)|\bfn\(|\bdyn |impl Fn|: Fn(Mut|Once)?\(' ;;
    8) find $proofs -name '*.antt' | xargs wc -l | tail -1 ;;
    esac
}
if [ $# -eq 1 ]; then point "$1"; exit; fi
for n in 1 2 3 4 5 6 7; do echo "point $n: $(point $n | wc -l)"; done
echo "point 8: $(point 8 | awk '{ print $1 }') lines of proofs"
