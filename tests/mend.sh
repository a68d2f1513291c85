#!/usr/bin/env bash
# The outside tests of the mending program: what it prints and what it reports, where the report goes,
# that a file which is there stays as it is, reports that cannot be written, and the trials that every
# program goes through. tests/run starts it, after it has built the program and the second solver. The
# very last line is 'N passed, M failed'.
set -u
cd "$(dirname "$0")/.." || exit 1
. tests/programs.sh
. tests/tally.sh
tried=mend
used='[REPORT] <register'
. tests/trials.sh

# report: the file that the program is given, if nothing else is said
report=$work/report
words=("$report")

# reports: the report in the file is the second solver's
reports() {
    cmp "$report" "$work/right.report"
}

# fresh COMMAND..: the command, while no report is there
fresh() {
    rm -rf "$report"
    "$@"
}

# mends FILE: text and report are the second solver's
mends() {
    fresh agrees "$1" && reports
}

# writes WORDS MENDED REPORT: a text that is typed is mended to this one, with this report
writes() {
    typed "$2" >"$work/right"
    typed "$3" >"$work/right.report"
    typed "$1" | fresh prints "$work/right" && reports
}

# drops NUMBER: it spoils a line of a statement, of an objector and of a target, and these go without a mark
drops() {
    writes "S 1 R\nS $1 R\nO 1 1\nO $1 1\nO 1 $1\n" 'S 1 R\nO 1 1\n' \
        '2 dropped 3\n4 dropped 3\n5 dropped 3\n'
}

# tells_all FILE: without a word, the report goes to standard error
tells_all() {
    local words=() status
    second <"$1" >"$work/right"
    ask <"$1" >"$work/out" 2>"$work/said"
    status=$?
    cmp "$work/out" "$work/right" && cmp "$work/said" "$work/right.report" && [ "$status" -eq 0 ]
}

# without_word COMMAND..: the command, while the program is given no word
without_word() {
    local words=()
    "$@"
}

# slow_listener FILE: without a word, and the report is taken slowly
slow_listener() {
    local words=()
    second <"$1" >"$work/right"
    ask <"$1" 2>&1 >"$work/out" | { sleep 0.5 && cat; } | cmp - "$work/right.report" &&
        cmp "$work/out" "$work/right"
}

# unreported COMMAND..: the command passes, and no report is made
unreported() {
    fresh "$@" && [ ! -e "$report" ]
}

# state NAME: all that could change where something is
state() {
    stat -c '%N %F %a %u %i %s %Y %Z' "$1" && if [ -f "$1" ]; then sha256sum "$1"; fi
}

# stays NAME: what is there is named and stays as it is, and nothing is read or printed
stays() {
    local words=("$1") before
    before=$(state "$1")
    {
        ask >"$work/out" 2>"$work/said"
        cat >"$work/left"
    } <examples/export.txt
    cat "$work/said"
    [ ! -s "$work/out" ] && cmp "$work/left" examples/export.txt &&
        printf 'mend: %s: File exists\n' "$1" | cmp - "$work/said" && [ "$(state "$1")" = "$before" ]
}

# as_typed: the command by which a register was once lost loses nothing
as_typed() {
    local said
    cp examples/quilt.txt "$work/my.txt"
    said=$(./mend "$work/my.txt" </dev/null 2>&1)
    [ "$said" = "mend: $work/my.txt: File exists" ] && cmp "$work/my.txt" examples/quilt.txt
}

# named NAME: the file with this name gets the report
named() {
    rm -rf "$1"
    asking "$1" agrees examples/export.txt && cmp "$1" "$work/right.report"
}

# of_length BYTES: another name for the report, which has so many bytes
of_length() {
    printf '.%*s%s' $(($1 - 1 - ${#report})) '' "$report" | tr ' ' '/'
}

# for_all_to_read: others may read a report that is made
for_all_to_read() {
    (umask 022 && mends examples/export.txt) && [ "$(stat -c %a "$report")" = 644 ]
}

# not_made NAME: the report cannot be made there, which is said; nothing is read or printed
not_made() {
    local words=("$1") status
    {
        ask >"$work/out" 2>"$work/said"
        status=$?
        cat >"$work/left"
    } <examples/export.txt
    cat "$work/said"
    [ ! -s "$work/out" ] && cmp "$work/left" examples/export.txt && [ "$(wc -l <"$work/said")" -eq 1 ] &&
        grep -q "^mend: ${2-$1}: ." "$work/said" && [ "$status" -eq 0 ]
}

# no_text: a name that is no UTF-8 cannot be that of a report, since the kit makes no file of such a name
no_text() { LC_ALL=C not_made "$work/a b"$'\xff' "$work/a b."; }

# report_fills_up FILE: a disk is full after 70 KiB of the report; nothing is printed, and no part of it is left
report_fills_up() {
    (
        trap '' XFSZ
        ulimit -f 70
        ask <"$1" >"$work/out" 2>"$work/said"
    )
    cat "$work/said"
    [ ! -s "$work/out" ] && [ "$(cat "$work/said")" = 'mend: report: File too large' ]
}

# still_reports COMMAND.. FILE: the command passes, and the report is there
still_reports() {
    rm -rf "$report"
    second <"${!#}" >"$work/right"
    "$@" && reports
}

# mended_twice FILE: what was mended stays as it is
mended_twice() {
    mends "$1" && cp "$work/out" "$work/once" && mends "$work/once" && cmp "$work/out" "$work/once" &&
        [ ! -s "$report" ]
}

# then_listed FILE: what was mended is a register
then_listed() {
    fresh ask <"$1" | "${start_list[@]}" target/bin/program_list | head -n 1 | grep -q '^REGISTER'
}

as_in_the_tutorial() {
    fresh ./mend "$report" <examples/export.txt | cmp - examples/export.mended &&
        cmp "$report" examples/export.report
}

# the file is named from where the program is started
from_elsewhere() {
    local here=$PWD
    rm -rf "$report"
    (cd "$work" && "$here/mend" report <"$here/examples/export.txt") | cmp - examples/export.mended &&
        cmp "$report" examples/export.report
}

# others_refuse NUMBER PLACE WORDS: what every other program refuses is mended
others_refuse() {
    typed "$3" >"$work/refused"
    mends "$work/refused" && [ -s "$report" ]
}

sound 65535 >"$work/most"
sound 65536 >"$work/over"
longest >"$work/longest"
head -c 65535 /dev/zero | tr '\0' '\n' >"$work/blank"
{ sound 60000 && sound 60000 | tail -n 250; } >"$work/repeats"

try 'the old export' writes "$(tr '\t' ' ' <examples/export.txt)\n" \
    "$(tr '\t' ' ' <examples/export.mended)\n" "$(tr '\t' ' ' <examples/export.report)\n"
try 'a second statement' writes 'S 1 R\nS 1 R\n' 'S 1 U\n' '2 dropped 5\n'
try 'a late statement' writes 'O 1 1\nS 1 R\n' 'S 1 R\nO 1 1\n' '2 moved 4\n'
try 'a last line without an end' writes 'S 1 R\nS 1 R' 'S 1 R\n' '2 dropped 2\n'
try 'nothing to report' writes 'S 1 R\n' 'S 1 R\n' ''
try 'no input' writes '' '' ''
refused_texts others_refuse

for text in 'S 1987.14 R\n' 'S 1000.1 R\nS 2099.9999 U\nO 1000.1 2099.9999\nO 2099.9999 1000.1\n' \
    'S 1987 R\nS 19871 R\nS 198710 R\nS 1987.1 R\nS 1987.10 R\nO 1987.1 1987.10\nO 1987.10 1987.1\n'; do
    try "year numbers stay: $text" writes "$text" "$text" ''
done
for number in 0999.1 2100.1 19870.1 1987. 1987.0 1987.01 1987.12345 .14 1987.14.2 999.1 1987,14 119870014; do
    try "no number: $number" drops "$number"
done
try 'a second statement with a year number' \
    writes 'S 1987.14 R\nS 198714 R\nS 1987.14 R\n' 'S 1987.14 U\nS 198714 R\n' '3 dropped 5\n'
try 'a late statement with a year number' writes 'S 1987.1 R\nO 1987.10 1987.1\nS 1987.10 R\n' \
    'S 1987.1 R\nS 1987.10 R\nO 1987.10 1987.1\n' '3 moved 4\n'
try 'a late second statement with a year number' \
    writes 'S 1987.1 R\nO 1987.1 1987.1\nS 1987.1 R\n' 'S 1987.1 U\nO 1987.1 1987.1\n' '3 dropped 5\n'
try 'a year number that is spoiled makes nothing late' \
    writes 'O 1987.01 1\nS 1987.1 R\n' 'S 1987.1 R\n' '1 dropped 3\n'
try 'an unknown objector, and its digits with a point' \
    writes 'S 1987.14 R\nO 198714 1987.14\n' 'S 1987.14 U\n' '2 dropped 7\n'
try 'an unknown objector of a year' \
    writes 'S 1987.1 R\nS 1987 R\nO 1987.10 1987.1\n' 'S 1987.1 U\nS 1987 R\n' '3 dropped 7\n'
try 'an unknown target of a year' \
    writes 'S 1987.1 R\nO 1987.1 1987.10\n' 'S 1987.1 R\n' '2 dropped 7\n'
try 'a repeated objection of year numbers' \
    writes 'S 1987.1 R\nS 1987.10 R\nO 1987.1 1987.10\nO 1987.10 1987.1\nO 1987.1 1987.10\n' \
    'S 1987.1 R\nS 1987.10 R\nO 1987.1 1987.10\nO 1987.10 1987.1\n' '5 dropped 8\n'
try 'a year number on a last line without an end' \
    writes 'S 1987.14 R\nS 1987.15 R' 'S 1987.14 R\n' '2 dropped 2\n'

mkdir -p "$work/01"
try "01's examples are written" "$built/cargo/release/outside" examples "$work/01"
for text in examples/*.txt "$work/01"/*.txt; do
    name=${text##*/}
    try "${name%.txt}, with the report in a file" mends "$text"
    try "${name%.txt}, with the report on standard error" tells_all "$text"
    try "${name%.txt}, mended twice" mended_twice "$text"
    try "${name%.txt}, mended and listed" then_listed "$text"
done

try '65,535 bytes' mends "$work/most"
try '65,535 bytes, the last one late' fresh last_byte_late "$work/most"
try '65,536 bytes' fresh refuses 1 0 <"$work/over"
try '65,536 bytes, and no report is made' unreported far_too_long
try '65,536 bytes, and no word' without_word far_too_long
try 'an input without an end' unreported endless
try 'a register at the limits' mends "$work/longest"
try 'a long text with repeats' mends "$work/repeats"
try '65,535 blank lines' mends "$work/blank"
try 'their report has 1,037,454 bytes' bytes "$report" 1037454
try '65,535 blank lines, with the report on standard error' tells_all "$work/blank"
try '65,535 blank lines, and the report is taken slowly' slow_listener "$work/blank"

cp examples/quilt.txt "$work/there"
cp examples/quilt.txt "$work/shut" && chmod 0 "$work/shut"
: >"$work/empty"
mkdir -p "$work/folder"
# apart: a folder that goes at the end, outside the repository, in which `rt ci` refuses links
apart=$(mktemp -d)
trap 'rm -rf "$apart"' EXIT
ln -s "$PWD/$work/there" "$apart/link"
ln -s nowhere "$apart/dangling"
[ -p "$work/queue" ] || mkfifo "$work/queue"
for name in "$work"/{there,shut,empty,folder,queue} "$apart"/{link,dangling}; do
    try "a report where something is: ${name##*/}" stays "$name"
done
try 'a report where a device is' stays /dev/full
try 'a report where the folder itself is' stays .
try 'nothing came of the dangling link' test ! -e "$apart/nowhere"
try 'the command by which a register was once lost' as_typed
try 'a new report may be read by all' for_all_to_read
try 'a name with strange bytes' named "$work/a b"$'\n\x01\xc3\xbf'
try 'a name that is no UTF-8' unreported no_text
try 'a name of 4,095 bytes' named "$(of_length 4095)"
try 'a name of 4,096 bytes' unreported not_made "$(of_length 4096)"
try 'a name of 70,000 bytes' unreported not_made "$(of_length 70000)" report
try 'an empty name' not_made ''
try 'a file for the folder of the report' not_made examples/game.txt/report
try 'no folder for the report' not_made "$work/none/report"
try 'a disk that fills up with the report' unreported report_fills_up "$work/blank"
for word in - -- -h --help -report; do
    try "an option: $word" usage examples/export.txt "$word"
done
try 'an option of 5,000 bytes' usage examples/export.txt "-$(head -c 4999 /dev/zero | tr '\0' x)"
try 'started under another name' another_name
try 'two words' unreported usage examples/export.txt "$report" more
try 'two words, of which one is empty' unreported usage examples/export.txt "$report" ''
try 'three words' unreported usage examples/export.txt "$report" more words

try 'an input that comes byte by byte' fresh in_pieces examples/export.txt 1
try 'a long input that comes in pieces' fresh in_pieces "$work/repeats" 4000
try 'stopped and continued while it reads' fresh stopped_and_continued examples/export.txt
try 'a text that is taken slowly' fresh slow_reader "$work/repeats"
try 'started as in the tutorial' as_in_the_tutorial
try 'started from another folder' from_elsewhere

try 'a folder as input' unreported not_read <examples
try 'no standard input' unreported not_read <&-
try 'an input that is only to be written' unreported not_read 0>"$work/unread"
try 'no standard error' still_reports nobody_listens examples/export.txt
try 'no standard error, and nothing to report' without_word nobody_listens examples/game.txt
try 'no environment' still_reports without_environment examples/export.txt
try 'no standard output' still_reports output_closed examples/export.txt
try 'a full device' still_reports output_full examples/export.txt
try 'a pipe that is closed' fresh pipe_closed "$work/repeats"

finish
