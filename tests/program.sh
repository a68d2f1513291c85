#!/usr/bin/env bash
# The outside tests of the listing program: what it prints, and how it takes an input that comes
# slowly, breaks off, is too long or cannot be read, and an output that cannot be written. tests/run
# starts it, after it has built the program and the second solver. The very last line is 'N passed,
# M failed'.
set -u
cd "$(dirname "$0")/.." || exit 1
. tests/programs.sh
. tests/tally.sh
tried=list
used='<register'
. tests/trials.sh

in_a_pipeline() {
    local standing
    # shellcheck disable=SC2002 # the input is to come from another program
    standing=$(cat examples/quilt.txt | ask | awk -F '\t' '$2 == "stands"' | wc -l)
    [ "$standing" -eq 7 ]
}

# fallen: the numbers of the statements that fall, in order
fallen() {
    grep -F "$(printf '\tfalls\t')" | cut -f 1 | sort -n
}

sorted_in_a_pipeline() {
    second <examples/quilt.txt | fallen >"$work/right"
    ask <examples/quilt.txt | fallen | cmp - "$work/right" && [ -s "$work/right" ]
}

first_command() {
    ./list <examples/game.txt | cmp - examples/game.listing
}

# a listing is no register
after_itself() {
    ask <examples/game.txt | refuses 3 1
}

too_many_statements() {
    seq 1025 | sed 's/.*/S\t&\tR/' | refuses 6 1025
}

too_many_objections() {
    { cat "$work/longest" && printf 'O\t1\t1\n'; } | refuses 9 5121
}

# no_years: what comes near a year number and is none
no_years=(0999.1 2100.1 19870.1 1987. 1987.0 1987.01 1987.12345 .14 1987.14.2 999.1 '1987,14' 3000.1
    . 1987..1 1987.1. 1987.0014 1987.a 1987.1a l987.14 1987/14 1987.+1 1987.-1 119870014)

# spoils NUMBER: it spoils a line of a statement, of an objector and of a target
spoils() {
    refuses_words 3 2 "S 1 R\nS $1 R\n" && refuses_words 3 2 "S 1 R\nO $1 1\n" &&
        refuses_words 3 2 "S 1 R\nO 1 $1\n"
}

# spoils_nothing: a year number would be seen there
spoils_nothing() { ! spoils 1987.14; }

# listed NUMBER: it is listed as it is written, as that of a statement, of an objector and of a target
listed() {
    makes "S 1 R\nS $1 R\nO 1 $1\nO $1 1\n" \
        "REGISTER 2 2\n1 open -\n$1 open -\n1 $1 standoff -\n$1 1 standoff -\n"
}

# years: a text of 65,530 bytes, in which every number is a year number of nine bytes: a chain of 1,024
# statements, and more of them against later ones, at odd distances
years() {
    awk 'function number(x) { return (1000 + x) "." (9999 - x) }
    BEGIN {
        for (x = 0; x < 1024; x++) printf "S\t%s\tR\n", number(x)
        left = 2327
        for (step = 1; left > 0; step += 2)
            for (x = step; x < 1024 && left > 0; x++) {
                printf "O\t%s\t%s\n", number(x - step), number(x)
                left--
            }
    }'
}

sound 65535 >"$work/most"
sound 65536 >"$work/over"
longest >"$work/longest"
years >"$work/years"

for listing in examples/*.listing; do
    example=${listing%.listing}
    try "the example ${example#examples/}" prints "$listing" <"$example.txt"
    try "the example ${example#examples/}, by the second solver" agrees "$example.txt"
    try "the example ${example#examples/}, slowly" in_pieces "$example.txt" 25
done

mkdir -p "$work/01"
try "01's examples are written" "$built/cargo/release/outside" examples "$work/01"
for listing in "$work/01"/*.listing; do
    example=${listing%.listing}
    try "example of 01: ${example##*/}" prints "$listing" <"$example.txt"
done

try 'the first command of the README' first_command
try_wordless examples/game.txt
try_inputs examples/game.txt "$work/longest" "$work/most" "$work/over"

refused_texts refuses_words
try 'the 1,025th statement' too_many_statements
try 'the 4,097th objection' too_many_objections

for number in 99999999 1987 198714 1000.1 1000.9999 1987.10 1987.14 1999.9999 2000.1 2099.9999; do
    try "$number in every field" listed "$number"
done
try 'four numbers of nearly the same digits' \
    makes 'S 1987.1 R\nS 1987 R\nS 19871 U\nS 1987.10 R\nO 1987.10 1987.1\n' \
    'REGISTER 4 1\n1987.1 falls 1\n1987 stands 0\n19871 open -\n1987.10 stands 0\n1987.10 1987.1 felling 1\n'
for number in "${no_years[@]}"; do
    try "no number: $number" spoils "$number"
done
try 'a number that spoils nothing would be noticed' spoils_nothing
try 'a year number issued twice' refuses_words 5 3 'S 1987.14 R\nS 198714 R\nS 1987.14 U\n'
try 'a late year number' refuses_words 4 3 'S 1987.14 R\nO 1987.14 1987.14\nS 1987.15 R\n'
try 'an unknown objector of a year' refuses_words 7 2 'S 1987.1 R\nO 1987.10 1987.1\n'
try 'an unknown target, and its digits with a point' refuses_words 7 3 'S 1987.14 R\nO 1987.14 1987.14\nO 1987.14 198714\n'
try 'a repeated objection of year numbers' \
    refuses_words 8 5 'S 1987.1 R\nS 1987.10 R\nO 1987.1 1987.10\nO 1987.10 1987.1\nO 1987.1 1987.10\n'
try 'a year number on a line that is not ended' refuses_words 2 0 'S 1987.14 R'
try 'there are 65,530 bytes with year numbers' bytes "$work/years" 65530
try '65,530 bytes with year numbers' agrees "$work/years"
try '65,530 bytes with year numbers, in pieces' in_pieces "$work/years" 4001

try 'a listing of more than 65,536 bytes' agrees "$work/longest"
try 'between two other programs' in_a_pipeline
try 'before grep, cut and sort' sorted_in_a_pipeline
try 'between the program and itself' after_itself

try_ends examples/game.txt "$work/longest" 2 70
try 'a pipe that is closed, without the signal' pipe_closed_unsignalled "$work/longest"
finish
