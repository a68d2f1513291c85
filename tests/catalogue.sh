#!/usr/bin/env bash
# The outside tests of the catalogue program: what it prints of which register, that nothing is lost on
# the way there and back, and the trials that every program goes through. tests/run starts it, after it
# has built the programs and the second solver. The very last line is 'N passed, M failed'.
set -u
cd "$(dirname "$0")/.." || exit 1
. tests/programs.sh
. tests/tally.sh
tried=catalogue
used='<register'
. tests/trials.sh

# back: the register text of the catalogue on standard input, by the other program
back() {
    "${start_list[@]}" target/bin/program_uncatalogue
}

# listing: that of the register text on standard input
listing() {
    "${start_list[@]}" target/bin/program_list
}

# same_lines FILE FILE: the same lines, in any order
same_lines() {
    diff <(sort "$1") <(sort "$2")
}

# there_and_back FILE: an accepted text comes back with its statement lines as they were and the same objections, and its listing
# has the same rows
there_and_back() {
    ask <"$1" | back >"$work/back" && diff <(grep '^S' "$1") <(grep '^S' "$work/back") && same_lines "$1" "$work/back" &&
        bytes "$work/back" "$(wc -c <"$1")" && same_lines <(listing <"$1") <(listing <"$work/back")
}

# and_there_again FILE: the catalogue of what came back is the same, byte for byte
and_there_again() {
    ask <"$1" >"$work/once" && back <"$work/once" >"$work/back" && ask <"$work/back" | cmp - "$work/once"
}

# comes_back FILE: byte for byte; comes_grouped FILE: with other bytes
comes_back() {
    there_and_back "$1" && cmp "$work/back" "$1"
}

comes_grouped() {
    there_and_back "$1" && ! cmp "$work/back" "$1"
}

# notices_lost, notices_other: an objection that is lost on the way would be seen, and another mark too
notices_lost() (
    back() { "${start_list[@]}" target/bin/program_uncatalogue | sed '$d'; }
    ! there_and_back examples/game.txt
)

notices_other() (
    back() { "${start_list[@]}" target/bin/program_uncatalogue | sed '1s/R/U/'; }
    ! there_and_back examples/game.txt
)

# unlisted FILE: what refuses a listing is refused in the same words
unlisted() {
    listing <"$1" >"$work/right"
    prints "$work/right" <"$1"
}

as_in_the_tutorial() {
    ./catalogue <examples/loan.txt | cmp - examples/loan.catalogue
}

# one_line_each: grep finds a statement with all that speaks against it
one_line_each() {
    [ "$(ask <examples/quilt.txt | grep -c '')" -eq "$(grep -c '^S' examples/quilt.txt)" ] &&
        [ "$(ask <examples/quilt.txt | grep $'^S\t3002\t')" = $'S\t3002\tR\t3001\t3003\t3005' ]
}

# a catalogue with an objector is no register text
after_itself() {
    ask <examples/loan.txt | refuses 3 1
}

too_many_statements() {
    seq 1025 | sed 's/.*/S\t&\tR/' | refuses 6 1025
}

too_many_objections() {
    { cat "$work/longest" && printf 'O\t1\t1\n'; } | refuses 9 5121
}

sound 65535 >"$work/most"
sound 65536 >"$work/over"
longest >"$work/longest"
{ grep '^S' "$work/longest" && grep '^O' "$work/longest" | tac; } >"$work/turned"

for text in examples/*.catalogue; do
    example=${text%.catalogue}
    try "the example ${example#examples/}" prints "$text" <"$example.txt"
    try "the example ${example#examples/}, slowly" in_pieces "$example.txt" 25
done
mkdir -p "$work/01"
try "01's examples are written" "$built/cargo/release/outside" examples "$work/01"
for text in examples/*.txt "$work/01"/*.txt "$work"/{most,longest,turned}; do
    name=${text##*/}
    name=${name%.txt}
    try "$name, by the second solver" agrees "$text"
    if listing <"$text" | grep -q '^REFUSED'; then
        try "$name is refused as a listing is" unlisted "$text"
    else
        try "$name, there and back" there_and_back "$text"
        try "$name, there, back and there" and_there_again "$text"
    fi
done
try 'an objection that is lost would be noticed' notices_lost
try 'another mark would be noticed' notices_other
for name in game deed unread; do
    try "$name, already grouped, comes back byte for byte" comes_back "examples/$name.txt"
done
for name in acquisitions class harrow loan quilt; do
    try "$name, not grouped, comes back grouped" comes_grouped "examples/$name.txt"
done

try 'one statement' makes 'S 7 R\n' 'S 7 R\n'
try 'statements without objections' makes 'S 7 R\nS 3 U\nS 5 R\n' 'S 7 R\nS 3 U\nS 5 R\n'
try 'one that objects to itself' makes 'S 7 U\nO 7 7\n' 'S 7 U 7\n'
try 'two that object to each other' makes 'S 7 R\nS 3 R\nO 7 3\nO 3 7\n' 'S 7 R 3\nS 3 R 7\n'
try 'objectors in the order of their lines' \
    makes 'S 1 R\nS 2 R\nS 3 R\nO 3 1\nO 1 1\nO 2 1\n' 'S 1 R 3 1 2\nS 2 R\nS 3 R\n'
try 'the same objections in another order' \
    makes 'S 1 R\nS 2 R\nS 3 R\nO 1 1\nO 2 1\nO 3 1\n' 'S 1 R 1 2 3\nS 2 R\nS 3 R\n'
try 'objections that are not grouped' \
    makes 'S 1 R\nS 2 R\nS 3 U\nO 2 3\nO 3 1\nO 1 3\nO 2 1\n' 'S 1 R 3 2\nS 2 R\nS 3 U 2 1\n'
try 'year numbers' makes 'S 1987 R\nS 1987.1 R\nS 1987.10 U\nS 198710 R\nO 1987.10 1987.1\nO 198710 1987.10\nO 1987 1987.1\n' \
    'S 1987 R\nS 1987.1 R 1987.10 1987\nS 1987.10 U 198710\nS 198710 R\n'
try 'the greatest numbers' \
    makes 'S 99999999 R\nS 2099.9999 R\nO 2099.9999 99999999\n' 'S 99999999 R 2099.9999\nS 2099.9999 R\n'
try 'a target reversed would be noticed' not makes 'S 1 R\nS 2 R\nO 2 1\nO 1 1\n' 'S 1 R 1 2\nS 2 R\n'

refused_texts refuses_words
try 'the 1,025th statement' too_many_statements
try 'the 4,097th objection' too_many_objections
try 'an objection before its statements' refuses_words 7 1 'O 1 2\nS 1 R\nS 2 R\n'

try 'started as in the tutorial' as_in_the_tutorial
try 'a line for each statement' one_line_each
try 'between the program and itself' after_itself
try_wordless examples/game.txt
try_inputs examples/game.txt "$work/longest" "$work/most" "$work/over"
try_ends examples/game.txt "$work/longest" 1 20
finish
