#!/bin/sh
# Counts, in the code of a commit, the places that docs/DESIGN-PASS.md speaks of: sh tools/places.sh COMMIT
commit=${1:-HEAD}
code='crates/*/src/*.rt'
# git matches the paths, in the commit's own files
set -f

# count TITLE PATTERN PATHS: lines that match, without those that are comments alone
count() {
    n=$(git grep -hE "$2" "$commit" -- $3 | grep -cvE '^\s*//')
    printf '%4d  %s\n' "$n" "$1"
}

count '1a NONE or UNUSED where it is tested, passed or stored' '(==|!=|\(|= ?\[?) ?(NONE|UNUSED)\b' "$code"
count '1b a match or if let that spells ?, ok_or, is_none or map_err' 'Err\((refusal|rejected|error)\) => (return )?(Err|Ok|Some)|if let Err\(|None => Err\(|None => Ok\(|Ok\(.*\) => Ok\(' "$code"
count '1c rank: a number for a letter' '\brank(_at)?\b|\bletter_rank\b' 'crates/layout/src/*.rt'
count '1d a number for each case' '=> [0-9]+,' "$code"
count '1e marks and flags as numbers' '== 1 \{|== 1$|^\s*1$|\{ n \+ 1 \}' "$code"
count '1f a queue that answers true or false' 'fn push_back.*bool' "$code"
count '2a bodies that a sum and a gap rule share' 'fn ' 'crates/rules/src/sum.rt crates/rules/src/gap.rt'
count '2b first, step and count as three parameters or fields' 'first: u16, step: u16, count: u16|^\s*(pub )?first: u16' 'crates/*/src/*.rt'
count '2c checks of a table element by element' 'fn check_(lists|rules|cuts)' "$code"
count '2d boards that are closed' 'fn closed' "$code"
count '3a for over a range' 'for [a-z_]+ in .*\.\.' "$code"
count '3b while' '\bwhile ' "$code"
count '3c a number counted by hand in a for' '\b(n|len|i|low|held) (\+= 1|= append|= next|= tally|= [*]?x \+ 1)' "$code"
count '3d an index into another table' '\]\s*= [*a-z.()]+;' "$code"
count '4a conversions by hand' 'fn (number_of|told|answer_to|u16_at|u32_at|jobs\(&self\) -> Progression|closed)' "$code"
count '4b printing' '(print|println|write)!\(' 'crates/placing/src/*.rt'
count '5a opened lists lent as a parameter' '^\s+(pub )?opened: &' "$code"
count '5b wake-ups, working lists or numbers lent as a parameter' '^\s+(pub )?(wake_ups|working|numbers): &(.[a-z] )?(mut )?\[' "$code"
count '5c the setting of a search written out' 'setting \(J.jobs' 'crates/components/src/*.rt'
count '5d tables of the search for components lent' '(index|labels|nodes|cuts|path|cursors): &(.[a-z] )?(mut )?\[u16\]' 'crates/components/src/*.rt'
count '5e slots lent beside a queue or an agenda' 'slots: &(.[a-z] )?(mut )?\[' "$code"
count '5f places and holders lent as a pair' 'holders: &(.[a-z] )?mut \[' "$code"
count '5g a block lies inside the bytes' '512 \* k \+ 512 ≤' "$code"
count '5h the row of lengths in a clause' '\(lengths \(' "$code"
count '6  a length or a height beside a buffer' '^\s*(pub )?(len|top|cuts|depth|head): (usize|u16),' "$code"
count '7  a switch on a step, a position or a kind' 'match (k|by|self|rank|letter) \{' "$code"
