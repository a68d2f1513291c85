#!/usr/bin/env bash
# The outside tests of the reason program: what it prints for which number, how it takes words that
# are no number, and the trials that every program goes through. tests/run starts it, after it has
# built the program and the second solver. The very last line is 'N passed, M failed'.
set -u
cd "$(dirname "$0")/.." || exit 1
. tests/programs.sh
. tests/tally.sh
tried=reason
used='NUMBER <register'
. tests/trials.sh

# words that are no number, of either form, on a register where the number that they come near is issued
no_numbers=('' 0 00 05 007 000000005 100000000 500000000 999999999 4294967301 18446744073709551621
    +5 ' 5' '5 ' $'5\t' $'5\n' $'\n5' 5.0 '5,' 5a a5 5R 0x5 5e0 5_0 /5 5: $'\xff5' $'5\xff'
    5/6 '5 6' five 5- 12345678901234567890123456789
    0999.1 2100.1 19870.1 1987. 1987.0 1987.01 1987.12345 .14 1987.14.2 999.1 '1987,14'
    119870014 110000001 120999999 119870000 1987.014 1987.0014 01987.14 987.14 3000.1 0000.1 11987.1
    . .. 1987.. 1987..14 14.1987 1987/14 1987-14 1987:14 '1987 14' $'1987\t14' $'1987\x9e14' 1987.1/ 1987.:4
    1987.1a 1987.a 1a87.14 1987.+1 1987.-1 +1987.1 ' 1987.14' '1987.14 ' $'1987.14\n' $'\n1987.14'
    '1987,1234' 1987.123a 1987.0123 1987.12.4 198.12345 19871.234 1987.123/ 1987.01234 '1987.1234 ' 11987.1234)

# long_reason: a text whose reason for 2023 has every one of 4,096 objections, and more than 70 KiB: a
# chain of 1,024 statements, and those that fall against those that stand later, which only delays them
long_reason() {
    awk 'BEGIN {
        for (x = 0; x < 1024; x++) printf "S\t%d\tR\n", 1000 + x
        for (x = 1; x < 1024; x++) printf "O\t%d\t%d\n", 999 + x, 1000 + x
        left = 4096 - 1023
        for (y = 1022; left > 0; y -= 2)
            for (x = y - 3; x > 0 && left > 0; x -= 2) {
                printf "O\t%d\t%d\n", 1000 + x, 1000 + y
                left--
            }
    }'
}

# numbers FILE: those of the statements, in listed order
numbers() {
    sed -n 's/^S\t\([0-9.]*\)\t.*/\1/p' "$1"
}

# agrees_on_all FILE: what is printed for the number of each statement is what the second solver has
agrees_on_all() {
    local number
    for number in $(numbers "$1"); do
        asking "$number" agrees "$1" || return
    done
}

# reads WORD FILE WORDS: with this word, the program makes of the text what is typed
reads() {
    typed "$3" >"$work/right"
    asking "$1" prints "$work/right" <"$2"
}

# more_than_a_piece: a reason that is longer than what is written at once
more_than_a_piece() {
    asking 2023 agrees "$work/long" && [ "$(wc -c <"$work/out")" -gt 65536 ]
}

# late_left_out: nothing is printed but the chain, against which 3,073 more fell later than need be
late_left_out() {
    asking 101023 agrees "$work/longest" && [ "$(wc -l <"$work/out")" -eq 1024 ]
}

in_a_pipeline() {
    local felling
    felling=$(asking 2001 ask <examples/quilt.txt | awk -F '\t' '$3 == "felling"' | wc -l)
    [ "$felling" -eq "$(asking 2001 second <examples/quilt.txt | grep -c felling)" ] &&
        [ "$felling" -gt 0 ]
}

as_in_the_tutorial() {
    asking 2002 second <examples/deed.txt >"$work/right"
    ./reason 2002 <examples/deed.txt | cmp - "$work/right"
}

# numbers of either form, issued or not, and words that are none, for a text that is refused
text_refused_first() {
    local word
    for word in 1 3 07 1987.14 1987.014; do
        asking "$word" refuses_words "$@" || return
    done
}

too_long_first() {
    asking 1 far_too_long && asking 07 endless
}

sound 65535 >"$work/most"
longest >"$work/longest"
long_reason >"$work/long"
typed 'S 5 R\nS 6 R\nS 7 R\nO 5 6\nO 6 7\nO 7 6\n' >"$work/three"
typed 'S 1 R\nS 5 R\nS 6 R\nS 7 R\nS 8 R\nS 9 R\nO 5 1\nO 7 1\nO 6 5\nO 7 6\nO 8 7\nO 9 8\n' >"$work/late"
typed 'S 99999999 R\nO 99999999 99999999\n' >"$work/greatest"
{
    typed 'S 5 R\nS 198714 R\nS 1987 R\nS 1987.1 R\nS 1987.10 U\nS 1987.14 R\nS 1987.1234 R\n'
    typed 'S 1000.1 R\nS 1988.2345 R\nS 2099.9999 R\nO 1987.14 198714\nO 1987.1234 1987.14\nO 1987.1 1987.14\n'
    typed 'O 1000.1 1987.1234\nO 2099.9999 1000.1\nO 198714 1000.1\nO 1987.1 1987\nO 1987.10 1987.1\n'
} >"$work/years"

try 'stands without an objection' reads 5 "$work/three" '5 stands 0\n'
try 'falls, without coming back' reads 6 "$work/three" '6 falls 1\n5 6 felling 1\n'
try 'stands, without coming back' \
    reads 7 "$work/three" '7 stands 2\n5 6 felling 1\n6 7 delaying 2\n'
try 'falls, by an objection of its own length and not by a later one' \
    reads 1 "$work/late" '1 falls 3\n7 1 felling 3\n8 7 delaying 2\n9 8 felling 1\n'
try 'falls, without thousands of later objections' late_left_out
try 'open, without the idle objection' \
    reads 102 examples/game.txt '102 open -\n102 101 standoff -\n101 102 standoff -\n'
try 'the greatest plain number' \
    reads 99999999 "$work/greatest" '99999999 open -\n99999999 99999999 standoff -\n'
try 'the least year number, by no later objection' \
    reads 1000.1 "$work/years" '1000.1 falls 1\n2099.9999 1000.1 felling 1\n'
try 'the greatest year number' reads 2099.9999 "$work/years" '2099.9999 stands 0\n'
try 'a year number of nine bytes' reads 1987.1234 "$work/years" \
    '1987.1234 stands 2\n1000.1 1987.1234 delaying 2\n2099.9999 1000.1 felling 1\n'
below='1987.1234 1987.14 felling 3\n1000.1 1987.1234 delaying 2\n2099.9999 1000.1 felling 1\n'
try 'a year number, without the idle objection' \
    reads 1987.14 "$work/years" "1987.14 falls 3\n$below"
try 'the same digits without the point' \
    reads 198714 "$work/years" "198714 stands 4\n1987.14 198714 delaying 4\n$below"
try 'a year as a plain number' \
    reads 1987 "$work/years" '1987 open -\n1987.1 1987 standoff -\n1987.10 1987.1 standoff -\n'
try 'a serial of one digit' \
    reads 1987.1 "$work/years" '1987.1 open -\n1987.10 1987.1 standoff -\n'
try 'the same serial with a 0 behind it' reads 1987.10 "$work/years" '1987.10 open -\n'

mkdir -p "$work/01"
try "01's examples are written" "$built/cargo/release/outside" examples "$work/01"
for text in examples/*.txt "$work/01"/*.txt; do
    name=${text##*/}
    try "every statement of ${name%.txt}" agrees_on_all "$text"
    try "a number that is not on ${name%.txt}" asking 12345 agrees "$text"
done

for word in "${no_numbers[@]}"; do
    try "no number: $(printf '%q' "$word")" asking "$word" refuses 14 0 <"$work/years"
done
try '1987.14 does not name 198714' asking 1987.14 refuses_words 14 0 'S 198714 R\nS 1987 R\n'
try '198714 does not name 1987.14' asking 198714 refuses_words 14 0 'S 1987.14 R\n'
try '1987 does not name 1987.14' asking 1987 refuses_words 14 0 'S 1987.14 R\n'
try '1987.1 does not name 1987.10' asking 1987.1 refuses_words 14 0 'S 1987.10 R\n'
try '1987.10 does not name 1987.1' asking 1987.10 refuses_words 14 0 'S 1987.1 R\n'
try 'any year number, of no input' asking 1987.14 refuses 14 0 </dev/null
try 'a number that is not on the register' asking 8 refuses 14 0 <"$work/three"
try 'any number, of no input' asking 5 refuses 14 0 </dev/null
for word in -5 - -- -h --help --a-long-option-that-no-number-can-be; do
    try "no option: $word" usage "$work/three" "$word"
done
try 'started under another name' another_name
try 'no word' usage "$work/three"
try 'two words' usage "$work/three" 5 6
try 'two words, of which one is empty' usage "$work/three" 5 ''
try 'three words' usage "$work/three" 5 6 7

refused_texts text_refused_first
try 'a text that is too long' too_long_first

try 'an input that comes byte by byte' asking 102 in_pieces examples/game.txt 1
try 'a long input that comes in pieces' asking 2023 in_pieces "$work/long" 4000
try 'stopped and continued while it reads' asking 102 stopped_and_continued examples/game.txt
try '65,535 bytes' asking 40000111 agrees "$work/most"
try '65,535 bytes, the last one late' asking 40000111 last_byte_late "$work/most"
try 'a reason of more than 65,536 bytes' more_than_a_piece
try 'a reason that is taken slowly' asking 2023 slow_reader "$work/long"
try 'started as in the tutorial' as_in_the_tutorial
try 'between two other programs' in_a_pipeline

try 'a folder as input' asking 102 not_read <examples
try 'no standard input' asking 102 not_read <&-
try 'an input that is only to be written' asking 102 not_read 0>"$work/unread"
try 'no standard error' asking 102 nobody_listens examples/game.txt
try 'no environment' asking 102 without_environment examples/game.txt
try 'no standard output' asking 102 output_closed examples/game.txt
try 'no standard output for a refusal' asking 07 output_closed examples/game.txt
try 'a full device' asking 102 output_full examples/game.txt
try 'a full device for a long reason' asking 2023 output_full "$work/long"
try 'a disk that fills up' asking 2023 output_fills_up 70 "$work/long"
try 'a pipe that is closed' asking 2023 pipe_closed "$work/long"
try 'a pipe that is closed, without the signal' asking 2023 pipe_closed_unsignalled "$work/long"
asking 2023 try_pieces 2 "$work/long"

finish
