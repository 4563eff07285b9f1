#!/usr/bin/env bash
# Counts the places of docs/DESIGN-PASS.md in src/, at a commit or in the work tree: places.sh [-l] [COMMIT]. With -l it lists them.
set -u
list=0; [ "${1:-}" = -l ] && { list=1; shift; }
top=$(git rev-parse --show-toplevel); at=${1:-}
src() { git -C "$top" grep -nE "$2" $at -- 'crates/*/src/*.rt' | { [ $list = 1 ] && { echo "== $1"; cat; } || printf '%s %s\n' "$1" "$(wc -l)"; }; }
src '1 own enum of the shape of Option or Result:' '^pub enum (Fault|Verdict|ReadAnswer|ScoreAnswer|SweepAnswer|FilterAnswer|SearchAnswer|State) '
src '1 flag, number or answer beside a value:' '^ +pub (fault|found|answer|state|any|held|number): (Fault|Verdict|ReadAnswer|State|bool|u8|u64),'
src '1 number for a kind of word:' 'kind(\([^)]*(\([^)]*\)[^)]*)*\))? [!=]= [0-9]'
src '1 number for a refusal:' 'number: [0-9]+,|and_(then|within)\(.*, [0-9]+,|refused\([0-9]+|put_refusal\(out, [0-9]+|number (==|<) [0-9]'
src '1 constant that numbers a kind, a field or a mark:' 'const (CUTOFF|ROOM|VISITS|OWN|NUMBER|KITS|MIXED|WIDE|LINES|READ|SCORE|SWEEP|FILTER|SEARCH|HEADING|CHOICE|CHANCE|RECORD|ROOT|OPEN|TAKEN|LEFT): (u8|usize)'
src '3 loop that is no for:' '^ *(while|loop)\b'
src '4 comparison of two numbers of a numbering:' '\.number\(\) (<|<=|==|!=)'
src '4 function that only converts or compares:' '^(pub )?fn (wide|index|long|same|same_numbers|same_marks|least|larger|minus|over|add|mul|sub|most|at_most_1329|joined|copy|write|rank)\('
src '4 function that prints by hand:' 'fn (show|put)_'
src '7 function that chooses a step by a number:' 'fn (variable_of|with_records|first_at_fault|variable_at_fault|record_at_fault|one_kind|show_name)\('
