# Sourced by tests/program.sh, tests/reason.sh, tests/mend.sh, tests/catalogue.sh and
# tests/uncatalogue.sh, each of which tries one program: how it is started and held against the second
# solver, and the trials that all go through, with inputs that come slowly or cannot be read and outputs
# that cannot be written.
# shellcheck shell=bash

# tried: the program, and used: the words that its usage has behind its name, which the script says;
# words: what it is given behind its name
: "${tried:?}" "${used:?}"
words=()

# what is put in, what ought to come out, and what does
work=$built/$tried
mkdir -p "$work"

# started COMMAND..: the command, with the program and its words for its last ones
started() {
    "$@" "${start_list[@]}" "target/bin/program_$tried" "${words[@]}"
}

# ask: the program, stopped if it does not end by itself
ask() {
    started timeout 30
}

# asking WORD COMMAND..: the command, while the program is given this word
asking() {
    local words=("$1")
    shift
    "$@"
}

# second: what the second solver makes of the text on standard input; the file right.report gets what
# it has to report
second() {
    case $tried in
    mend) "$built/cargo/release/outside" mend 2>"$work/right.report" ;;
    *catalogue) "$built/cargo/release/outside" "$tried" ;;
    *) "$built/cargo/release/outside" print "${words[@]}" ;;
    esac
}

# prints RIGHT: the program makes of standard input just what the file holds, and says nothing else
prints() {
    local status
    ask >"$work/out" 2>"$work/said"
    status=$?
    cat "$work/said"
    cmp "$work/out" "$1" && [ ! -s "$work/said" ] && [ "$status" -eq 0 ]
}

# agrees FILE: the program prints what the second solver prints
agrees() {
    second <"$1" >"$work/right" && prints "$work/right" <"$1"
}

# refuses NUMBER PLACE: the program refuses the text on standard input
refuses() {
    printf 'REFUSED\t%d\t%d\n' "$1" "$2" >"$work/right"
    prints "$work/right"
}

# typed WORDS: a text in which tabs are shown as spaces
typed() {
    printf '%b' "$1" | tr ' ' '\t'
}

# refuses_words NUMBER PLACE WORDS: the program refuses a text that is typed
refuses_words() {
    typed "$3" | refuses "$1" "$2"
}

# not COMMAND..: it fails, as the wrong twin of a test has to
not() {
    ! "$@"
}

# makes WORDS PRINTED: the program makes of a text that is typed just what is typed
makes() {
    typed "$2" >"$work/right"
    typed "$1" | prints "$work/right"
}

# sound BYTES: a sound text of just so many bytes, near 65,535. The first statements have no
# objections, and shorter numbers, which make up for what 13 and 20 bytes to a line leave over.
sound() {
    awk -v bytes="$1" 'BEGIN {
        statements = 1000
        objections = int((bytes - 13 * statements + 19) / 20)
        over = 13 * statements + 20 * objections - bytes
        for (x = 0; x < statements; x++) {
            number[x] = 10000000 * (1 + x % 9) + 37 * x
            cut = over < 7 ? over : 7
            over -= cut
            printf "S\t%s\tR\n", substr(number[x], 1, 8 - cut)
        }
        for (i = 0; i < objections; i++) {
            target = 3 + i % (statements - 3)
            objector = 3 + (target + 5 * int(i / (statements - 3))) % (statements - 3)
            printf "O\t%d\t%d\n", number[objector], number[target]
        }
    }'
}

# longest: a text whose listing is nearly as long as a listing can be: a chain of 1,024 statements,
# and the last ones that stand against those that fall, so that nearly all lengths have four digits
longest() {
    awk 'function number(x) { return x >= 1000 && x % 2 == 0 ? x - 999 : 100000 + x }
    BEGIN {
        for (x = 0; x < 1024; x++) printf "S\t%d\tR\n", number(x)
        for (x = 1; x < 1024; x++) printf "O\t%d\t%d\n", number(x - 1), number(x)
        left = 4096 - 1023
        for (y = 1000; left > 0; y += 2)
            for (x = 1; x < 1000 && left > 0; x += 2) {
                printf "O\t%d\t%d\n", number(y), number(x)
                left--
            }
    }'
}

# cards: the register text on standard input as a catalogue, whatever its length
cards() {
    awk -F '\t' '
        $1 == "S" { number[++count] = $2; card[$2] = $0 }
        $1 == "O" { card[$3] = card[$3] "\t" $2 }
        END { for (x = 1; x <= count; x++) print card[number[x]] }'
}

# in_pieces FILE BYTES: the text comes so many bytes at a time, and every time late
in_pieces() {
    second <"$1" >"$work/right"
    split -b "$2" --filter='cat; sleep 0.02' "$1" | prints "$work/right"
}

# feed PID FILE: the text, in two pieces; between them the program is stopped, and it is continued
# when all is there
feed() {
    head -c 45 "$2"
    sleep 0.3
    kill -STOP "$1"
    tail -c +46 "$2"
    sleep 0.1
    kill -CONT "$1"
}

# stopped_and_continued FILE: while it reads the text
stopped_and_continued() {
    local program
    second <"$1" >"$work/right"
    rm -f "$work/queue"
    mkfifo "$work/queue"
    started exec <"$work/queue" >"$work/out" 2>"$work/said" &
    program=$!
    feed "$program" "$1" >"$work/queue"
    timeout 30 tail --pid="$program" -f /dev/null || kill -KILL "$program"
    wait "$program"
    cat "$work/said"
    cmp "$work/out" "$work/right" && [ ! -s "$work/said" ]
}

# last_byte_late FILE: all of the text comes, and its last byte late
last_byte_late() {
    second <"$1" >"$work/right"
    { head -c -1 "$1" && sleep 0.3 && tail -c 1 "$1"; } | prints "$work/right"
}

# broken_off FILE BYTES: so many bytes of the text come, and no more: whoever writes them is killed
broken_off() {
    bash -c 'head -c "$1" "$0" && sleep 0.2 && kill -KILL $$' "$1" "$2"
}

broken_off_in_a_line() {
    broken_off "$1" 45 | refuses 2 0
}

# what came then is a text; nobody can tell that more was meant
broken_off_between_lines() {
    head -n 3 "$1" >"$work/part"
    second <"$work/part" >"$work/right"
    broken_off "$1" "$(wc -c <"$work/part")" | prints "$work/right"
}

# just_too_long FILE: the first byte that there may not be comes late
just_too_long() {
    { cat "$1" && sleep 0.3 && printf '\n'; } | refuses 1 0
}

# too_long_in_pieces FILE: it has a byte too many
too_long_in_pieces() {
    split -b 9000 --filter=cat "$1" | refuses 1 0
}

# bytes FILE COUNT: the file has just so many
bytes() {
    [ "$(wc -c <"$1")" -eq "$2" ]
}

# slow_reader FILE: what is printed is taken slowly
slow_reader() {
    second <"$1" >"$work/right"
    ask <"$1" | { sleep 0.5 && cat; } | cmp - "$work/right"
}

far_too_long() {
    head -c 200000 /dev/zero | refuses 1 0
}

endless() {
    yes | refuses 1 0
}

# usage FILE WORDS..: with these words nothing is read or printed, and one line says how the program is
# used, by the name with which it was started
usage() {
    local text=$1 words=("${@:2}") status
    {
        ask >"$work/out" 2>"$work/said"
        status=$?
        cat >"$work/left"
    } <"$text"
    cat "$work/out" "$work/said"
    [ ! -s "$work/out" ] && cmp "$work/left" "$text" && [ "$status" -eq 0 ] &&
        printf 'usage: target/bin/program_%s %s\n' "$tried" "$used" | cmp - "$work/said"
}

# another_name: the usage names the program as it was started, whatever that is
another_name() {
    local name=$work/other
    cp "target/bin/program_$tried" "$name"
    [ "$("${start_list[@]}" "$name" - - - 2>&1)" = "usage: $name $used" ] &&
        [ "$("${start_list[@]}" --argv0 'my name' "$name" - - - 2>&1)" = "usage: my name $used" ]
}

# not_read: standard input cannot be read; nothing is printed, and something is said
not_read() {
    ask >"$work/out" 2>"$work/said"
    cat "$work/said"
    [ ! -s "$work/out" ] && grep -q "^$tried: standard input: " "$work/said"
}

# ended STATUS: a program has no exit status of its own, but may be ended by a pipe that is closed
ended() {
    [ "$1" -eq 0 ] || [ "$1" -eq $((128 + $(kill -l PIPE))) ]
}

# tells STATUS: the program ended, and has said what could not be written
tells() {
    cat "$work/said"
    ended "$1" && grep -q "^$tried: standard output: " "$work/said"
}

# output_closed FILE, output_full FILE: nothing can be printed
output_closed() {
    ask <"$1" 2>"$work/said" >&-
    tells $?
}

output_full() {
    ask <"$1" 2>"$work/said" >/dev/full
    tells $?
}

# output_fills_up KIB FILE: a disk is full after so many KiB, and no more is taken
output_fills_up() {
    local status bytes=$(($1 * 1024))
    second <"$2" >"$work/right"
    (
        trap '' XFSZ
        ulimit -f "$1"
        ask <"$2" 2>"$work/said" >"$work/out"
    )
    status=$?
    bytes "$work/out" "$bytes" && cmp -n "$bytes" "$work/out" "$work/right" && tells "$status"
}

# pipe_closed FILE: the output is closed after one byte
pipe_closed() {
    local status
    ask <"$1" 2>"$work/said" | head -c 1 >"$work/out"
    status=${PIPESTATUS[0]}
    second <"$1" | head -c 1 | cmp - "$work/out" && ended "$status"
}

# pipe_closed_unsignalled FILE: the program is not ended by a signal, but told by an error
pipe_closed_unsignalled() {
    (
        trap '' PIPE
        pipe_closed "$1" && tells 0
    )
}

# pipe_unread FILE: the same, where nobody reads any more when the first byte is printed
pipe_unread() {
    (
        trap '' PIPE
        { sleep 0.3 && cat "$1"; } | ask 2>"$work/said" | :
        tells "${PIPESTATUS[1]}"
    )
}

# nobody_listens FILE: nothing that is said is printed, nor does what is printed wait for it
nobody_listens() {
    second <"$1" >"$work/right"
    ask <"$1" 2>&- | cmp - "$work/right" && [ -z "$(ask <examples 2>&-)" ]
}

# without_environment FILE: the program is given no variables
without_environment() {
    second <"$1" >"$work/right"
    started env -i "$(command -v timeout)" 30 <"$1" | cmp - "$work/right"
}

# traced: the program's system calls go to the file trace
traced() {
    if [ ${#emulator[@]} -gt 0 ]; then
        "${emulator[@]}" -strace "${loader[@]}" "target/bin/program_$tried" "${words[@]}" 2>"$work/trace"
    else
        started strace -o "$work/trace"
    fi
}

# pieces: the bytes of each piece that the program wrote to standard output
pieces() {
    sed -n 's/.*write(1, *.*, *\([0-9]*\)) *= .*/\1/p' "$work/trace"
}

# small_pieces COUNT FILE: what is printed comes in so many pieces, and none is too large
small_pieces() {
    local bytes
    traced <"$2" >"$work/out"
    bytes=$(wc -c <"$work/out")
    pieces
    pieces | awk -v bytes="$bytes" -v count="$1" '$1 > 65536 { large++ } { sum += $1 }
        END { exit !(NR == count && !large && sum == bytes) }'
}

# try_pieces COUNT FILE: the pieces are tried where they can be seen
try_pieces() {
    if [ ${#emulator[@]} -gt 0 ] || command -v strace >/dev/null; then
        try 'pieces of at most 65,536 bytes' small_pieces "$@"
    else
        skip 'the pieces of what is printed, for which strace is missing'
    fi
}

# refused_texts TRIAL: a text for each refusal of a short text, tried by a function of number, place and words
refused_texts() {
    try 'a text that is not ended' "$1" 2 0 'S 1 R'
    try 'a spoiled line' "$1" 3 2 'S 1 R\nS 2\n'
    try 'a late statement' "$1" 4 3 'S 1 R\nO 1 1\nS 2 R\n'
    try 'a number issued twice' "$1" 5 2 'S 1 R\nS 1 U\n'
    try 'an unknown number' "$1" 7 2 'S 1 R\nO 1 2\n'
    try 'a repeated objection' "$1" 8 3 'S 1 R\nO 1 1\nO 1 1\n'
}

# try_wordless FILE: the program takes no word
try_wordless() {
    local word
    for word in examples/deed.txt '' - -h --help -- 5; do
        try "a word: $(printf '%q' "$word")" usage "$1" "$word"
    done
    try 'two words' usage "$1" examples/deed.txt examples/game.txt
    try 'a word of 100,000 bytes' usage "$1" "$(head -c 100000 /dev/zero | tr '\0' x)"
    try 'started under another name' another_name
    try "a file's name where none goes" as_typed
}

# as_typed: the program, as it is started in a clone, with a file's name where none goes
as_typed() {
    [ "$("./$tried" examples/deed.txt </dev/null 2>&1)" = "usage: ./$tried $used" ]
}

# try_inputs FILE LONG MOST OVER: a text and a long one come slowly, break off or do not end; MOST has as many bytes as a text may
# have, and OVER has one more
try_inputs() {
    try 'no input' agrees /dev/null
    try 'an input that comes byte by byte' in_pieces "$1" 1
    try 'a long input that comes in pieces' in_pieces "$2" 4000
    try 'an input that breaks off in a line' broken_off_in_a_line "$1"
    try 'an input that breaks off between lines' broken_off_between_lines "$1"
    try 'stopped and continued while it reads' stopped_and_continued "$1"
    try 'there are texts of 65,535 bytes' bytes "$3" 65535
    try 'there are texts of 65,536 bytes' bytes "$4" 65536
    try '65,535 bytes' agrees "$3"
    try '65,535 bytes, the last one late' last_byte_late "$3"
    try '65,536 bytes' refuses 1 0 <"$4"
    try '65,536 bytes, the last one late' just_too_long "$3"
    try '65,536 bytes that come in pieces' too_long_in_pieces "$4"
    try '200,000 bytes' far_too_long
    try 'an input without an end' endless
}

# try_ends FILE LONG COUNT KIB: what cannot be read or written. Of the long text COUNT pieces are printed, and more than KIB.
try_ends() {
    try 'a folder as input' not_read <examples
    try 'no standard input' not_read <&-
    try 'an input that is only to be written' not_read 0>"$work/unread"
    try 'no standard error' nobody_listens "$1"
    try 'no environment' without_environment "$1"
    try 'no standard output' output_closed "$1"
    try 'no standard output, and much to be printed' output_closed "$2"
    try 'a full device' output_full "$1"
    try 'a full device, and much to be printed' output_full "$2"
    try 'a disk that fills up' output_fills_up "$4" "$2"
    try 'a pipe that is closed' pipe_closed "$2"
    try 'a pipe that nobody reads, without the signal' pipe_unread "$1"
    try 'what is printed is taken slowly' slow_reader "$2"
    try_pieces "$3" "$2"
}
