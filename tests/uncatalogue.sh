#!/usr/bin/env bash
# The outside tests of the program that makes a register text of a catalogue: what it prints, what it
# refuses and in which order, and the trials that every program goes through. tests/run starts it, after
# it has built the programs and the second solver. The very last line is 'N passed, M failed'.
set -u
cd "$(dirname "$0")/.." || exit 1
. tests/programs.sh
. tests/tally.sh
tried=uncatalogue
used='<catalogue'
. tests/trials.sh

# forth: the catalogue of the register text on standard input, by the other program
forth() {
    "${start_list[@]}" target/bin/program_catalogue
}

# back_and_forth FILE: an accepted catalogue comes back, byte for byte
back_and_forth() {
    ask <"$1" >"$work/back" && forth <"$work/back" | cmp - "$1"
}

# notices_lost: an objector that is lost on the way would be seen
notices_lost() (
    forth() { "${start_list[@]}" target/bin/program_catalogue | sed '1s/\t[0-9]*$//'; }
    ! back_and_forth examples/loan.catalogue
)

# agrees_on_cards FILE: of the catalogue of a register text it makes what the second solver makes
agrees_on_cards() {
    cards <"$1" >"$work/cards" && agrees "$work/cards"
}

as_in_the_tutorial() {
    ./uncatalogue <examples/loan.catalogue | ./list | diff <(sort) <(sort examples/loan.listing)
}

# a register text with an objection is no catalogue
after_itself() {
    ask <examples/loan.catalogue | refuses 3 6
}

# full_cards: as many cards as there may be; full_objectors: as many objectors, on 64 cards
full_cards() {
    seq 1024 | sed 's/.*/S\t&\tR/'
}

full_objectors() {
    seq 64 | awk '{ printf "S\t%d\tR", $1; for (y = 1; y <= 64; y++) printf "\t%d", y; print "" }'
}

# beyond MAKER NUMBER PLACE WORDS: with one more line, which is typed, a catalogue at the limits is refused
beyond() {
    "$1" >"$work/full" && agrees "$work/full" && { cat "$work/full" && typed "$4"; } | refuses "$2" "$3"
}

# all_on_one COUNT: a card that names so many, of whom nobody has a card
all_on_one() {
    awk -v count="$1" 'BEGIN { printf "S\t1\tR"; for (y = 0; y < count; y++) printf "\t%d", 10000 + y; print "" }'
}

# long_cards BYTES: a text of just so many bytes, near 65,535: cards without a fault, but for the last, which is spoiled
long_cards() {
    awk -v bytes="$1" 'BEGIN {
        for (x = 0; x < 1000; x++) {
            card = "S\t" 10000000 + x "\tR\t" 10000000 + x "\t" 10000000 + (x + 7) % 1000 "\t" 10000000 + (x + 9) % 1000
            print card
            bytes -= length(card) + 1
        }
        while (bytes-- > 1) printf "x"
        print ""
    }'
}

# same_order: where lines have these faults, the refusal is that of the first; where two are on one line, it goes by their order
same_order() {
    local spoiled='S 9 X\n' again='S 1 R\n' unknown='S 8 R 77\n' twice='S 7 R 1 1\n'
    refuses_words 3 2 "S 1 R\n$spoiled$again" && refuses_words 5 2 "S 1 R\n$again$spoiled" &&
        refuses_words 3 4 "S 1 R\n$unknown$twice$spoiled" && refuses_words 5 4 "S 1 R\n$unknown$twice$again" &&
        refuses_words 7 3 "S 1 R\n$twice$unknown" && refuses_words 7 2 "S 1 R\n$unknown$twice" &&
        refuses_words 3 2 'S 1 R\nS 1 R 77 x\n' && refuses_words 5 2 'S 1 R\nS 1 R 77 77\n' &&
        refuses_words 7 2 'S 1 R\nS 2 R 77 77\n' && refuses_words 2 0 'S 1 R\nS 1 R 77 x'
}

sound 65535 | cards >"$work/most"
sound 65536 | cards >"$work/over"
longest | cards >"$work/longest"
long_cards 65535 >"$work/all"
long_cards 65536 >"$work/more"

for text in examples/*.catalogue; do
    try "the example ${text#examples/}, by the second solver" agrees "$text"
    try "the example ${text#examples/}, slowly" in_pieces "$text" 25
    try "the example ${text#examples/}, back and forth" back_and_forth "$text"
done
try 'an objector that is lost would be noticed' notices_lost
mkdir -p "$work/01"
try "01's examples are written" "$built/cargo/release/outside" examples "$work/01"
for text in examples/*.txt "$work/01"/*.txt; do
    name=${text##*/}
    try "the cards of ${name%.txt}" agrees_on_cards "$text"
    try "${name%.txt} itself" agrees "$text"
done

try 'one card' makes 'S 7 R\n' 'S 7 R\n'
try 'cards without objectors' makes 'S 7 R\nS 3 U\nS 5 R\n' 'S 7 R\nS 3 U\nS 5 R\n'
try 'a card that names itself' makes 'S 7 U 7\n' 'S 7 U\nO 7 7\n'
try 'a number that is named before its card' makes 'S 7 R 3\nS 3 R\n' 'S 7 R\nS 3 R\nO 3 7\n'
try 'two that name each other' makes 'S 7 R 3\nS 3 R 7\n' 'S 7 R\nS 3 R\nO 3 7\nO 7 3\n'
try 'objections grouped by target, objectors in the order of the fields' \
    makes 'S 1 R 3 2\nS 2 R\nS 3 U 2 1 3\n' 'S 1 R\nS 2 R\nS 3 U\nO 3 1\nO 2 1\nO 2 3\nO 1 3\nO 3 3\n'
try 'year numbers' makes 'S 1987 R 1987.1 1987.10\nS 1987.1 R 198710\nS 1987.10 U\nS 198710 R\n' \
    'S 1987 R\nS 1987.1 R\nS 1987.10 U\nS 198710 R\nO 1987.1 1987\nO 1987.10 1987\nO 198710 1987.1\n'
try 'the greatest numbers' \
    makes 'S 99999999 R 2099.9999\nS 2099.9999 R\n' 'S 99999999 R\nS 2099.9999 R\nO 2099.9999 99999999\n'
try 'objectors reversed would be noticed' not makes 'S 1 R 2 1\nS 2 R\n' 'S 1 R\nS 2 R\nO 1 1\nO 2 1\n'

for line in '\n' 'S\n' 'S 1\n' 'S 1 R \n' 'S 1 R 2 \n' 'S 1 R  2\n' ' S 1 R\n' 'S  1 R\n' 'S 1 X\n' 'S 1 RU\n' 's 1 R\n' \
    'S 1 r\n' 'S 01 R\n' 'S 1 R 02\n' 'S 1 R 2 R\n' 'S 1 R x\n' 'S 1 R 123456789\n' 'S 1 R 1987.0\n' 'S 1 R 1987.\n' \
    'S 1 R 0999.1\n' 'O 1 1\n' 'S 1 R\r\n' 'S 1 R 1\r\n' 'S,1,R\n' 'S 1 R,1\n' 'S 1 R 1,1\n'; do
    try "spoiled: $line" refuses_words 3 1 "$line"
    try "spoiled, on line 2: $line" refuses_words 3 2 "S 5 R\n$line"
done
try 'a card that is not ended' refuses_words 2 0 'S 1 R\nS 2 R 1'
try 'a number issued twice' refuses_words 5 3 'S 1 R 2\nS 2 R\nS 1 U\n'
try 'a number that has no card' refuses_words 7 1 'S 1 R 2\nS 3 R\n'
try 'a number that has no card, on the last line' refuses_words 7 3 'S 1 R 3\nS 3 R\nS 2 R 1 4\n'
try 'an unknown year number' refuses_words 7 1 'S 1987.1 R 1987.10\nS 1987 R\n'
try 'an objector named twice' refuses_words 8 1 'S 1 R 2 2\nS 2 R\n'
try 'an objector named twice, with another between' refuses_words 8 2 'S 1 R 2\nS 2 R 1 2 1\n'
try 'the same objector on two cards' makes 'S 1 R 1\nS 2 R 1\n' 'S 1 R\nS 2 R\nO 1 1\nO 1 2\n'
try 'the first of several faults' same_order
try 'the 1,025th card' beyond full_cards 6 1025 'S 1025 R\n'
try 'the 1,025th card, with a number that was issued' beyond full_cards 6 1025 'S 1 R\n'
try 'the 1,025th card, spoiled' beyond full_cards 3 1025 'S 1 X\n'
try 'the 4,097th objector' beyond full_objectors 9 65 'S 65 R 1\n'
try 'the 4,097th objector, which has no card' beyond full_objectors 9 65 'S 65 R 99\n'
try 'the 4,097th objector, behind a number that was issued' beyond full_objectors 5 65 'S 64 R 1\n'
try '4,096 objectors on one card, who have none' refuses 7 1 < <(all_on_one 4096)
try '4,097 objectors on one card, who have none' refuses 9 1 < <(all_on_one 4097)

try 'a register text of 65,535 bytes' agrees "$work/most"
try 'it has as many' bytes "$work/out" 65535
try 'a register text that would have 65,536 bytes' refuses 1 0 <"$work/over"
try 'its catalogue has fewer' test "$(wc -c <"$work/over")" -lt 65535
try 'a register at the limits, back and forth' back_and_forth "$work/longest"
try 'the longest, back and forth' back_and_forth "$work/most"

try 'started as in the tutorial' as_in_the_tutorial
try 'between the program and itself' after_itself
try_wordless examples/loan.catalogue
try_inputs examples/loan.catalogue "$work/longest" "$work/all" "$work/more"
try_ends examples/loan.catalogue "$work/longest" 1 20
finish
