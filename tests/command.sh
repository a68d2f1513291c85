#!/usr/bin/env bash
# The outside tests of the command for people, `batqemulo`, of the filters' wrong words, and of how the programs are built. The
# command prints what the filters print, ends with the right status, loses nothing, and tells each damage of a file in the words
# of command/sentences.txt; `clean` mends what it says, and drops no line. What has to be noticed stands beside what has to pass.
# tests/run starts it, after it has built the programs. The very last line is 'N passed, M failed'.
# shellcheck disable=SC2016 # what is a shell's or awk's own stands in single quotes
set -u
cd "$(dirname "$0")/.." || exit 1
. tests/programs.sh
. tests/tally.sh

# stage: a folder that stands for an installed one; TMPDIR: where the command works, which has to be empty at the end
here=$PWD
stage=$(mktemp -d)
trap 'rm -rf "$stage"' EXIT
command=$stage/bin/batqemulo
work=$stage/work
export TMPDIR=$stage/tmp
mkdir "$work" "$work/damages" "$TMPDIR" "$stage/empty"
chmod 755 "$stage" "$work"
chmod 1777 "$TMPDIR"

# starter FILE PROGRAM: puts a program there, or what starts it on this machine
starter() {
    if [ ${#emulator[@]} -eq 0 ]; then
        cp "$2" "$1"
    else
        cp "$2" "$1.emulated" && chmod 755 "$1.emulated" && {
            printf '#!/usr/bin/env bash\nexec%s' "$(printf ' %q' "${start_list[@]}")"
            printf ' --argv0 "$0" %q "$@"\n' "$1.emulated"
        } >"$1" && chmod 755 "$1"
    fi
}

# furnish FOLDER: what `make install` puts there of the command, its words and the filters
furnish() {
    local name
    mkdir -p "$1/bin" "$1/share/batqemulo" && cp batqemulo "$1/bin" &&
        cp command/{sentences.txt,help.txt,explain.awk,clean.awk} "$1/share/batqemulo" &&
        ./batqemulo --version >"$1/share/batqemulo/version" || return
    for name in "${programs[@]}"; do
        starter "$1/bin/batqemulo-$name" "$here/target/bin/program_$name" || return
    done
    chmod -R a+rX "$1/bin" "$1/share"
}

# askers: the commands that ask a program, each with what it needs behind its name
askers=(list 'reason 101' mend catalogue uncatalogue)

# run WORDS..: the command, stopped if it does not end by itself; `out` gets what it prints, `said` what it says
run() {
    timeout 60 "$command" "$@" >"$work/out" 2>"$work/said"
    status=$?
}

# filter NAME WORDS..: the plain program
filter() { timeout 60 "$stage/bin/batqemulo-$1" "${@:2}"; }

# ends STATUS: how the last run ended; what it said is shown
ends() {
    cat "$work/said"
    printf 'status %d\n' "$status"
    [ "$status" -eq "$1" ]
}

# fails COMMAND..: the wrong twin of a test has to fail
fails() { ! "$@"; }

# nothing FILE, something FILE: whether anything is in it; empty FOLDER: nothing is
nothing() { [ ! -s "$1" ]; }

something() { [ -s "$1" ]; }

empty() { ! find "$1" -mindepth 1 | grep .; }

# typed WORDS: a text in which tabs are shown as spaces, and spaces as _
typed() { printf '%b' "$1" | tr ' _' '\t '; }

# sentences: those of command/sentences.txt, by their keys
declare -A sentences
while IFS=$'\t' read -r key _ text; do
    case $key in
    '' | '#'*) ;;
    *) sentences[$key]=$text ;;
    esac
done <command/sentences.txt

# sentence KEY[/A/B/C]: the sentence with these words in its places; the file `keys` gets all that were asked for
sentence() {
    local key a b c text
    IFS=/ read -r key a b c <<<"$1"
    printf '%s\n' "$key" >>"$work/keys"
    text=${sentences[$key]:-there is no sentence $key}
    text=${text//'%1'/"$a"}
    text=${text//'%2'/"$b"}
    printf '%s\n' "${text//'%3'/"$c"}"
}

# counted COUNT: so many lines, in words
counted() { if [ "$1" -eq 1 ]; then printf '1 line'; else printf '%d lines' "$1"; fi; }

# ---- The command prints what the filters print.

# due FILE: the status that goes with what a filter has printed
due() { if grep -q '^REFUSED' "$1"; then echo 1; else echo 0; fi; }

# prints RIGHT WORDS..: the command prints what the file has, ends as is due, and says something only of a refusal
prints() {
    run "${@:2}"
    cmp "$work/out" "$1" && ends "$(due "$1")" || return
    if [ "$status" -eq 0 ]; then nothing "$work/said"; else something "$work/said"; fi
}

# three_ways NAME FILE WORDS..: the file by its name, by - and by standard input; `right` has what is to be printed
three_ways() {
    try "$1, by its name" prints "$work/right" "${@:3}" "$2"
    try "$1, by -" prints "$work/right" "${@:3}" - <"$2"
    try "$1, by standard input" prints "$work/right" "${@:3}" <"$2"
}

# numbers FILE: the first and the last that are issued, and one that is not
numbers() {
    sed -n 's/^S\t\([0-9.]*\)\t.*/\1/p' "$1" | sed -n '1p;$p'
    echo 12345
}

# mended FILE: `right` and `right.report` get what the filter makes of it
mended() {
    rm -f "$work/right.report" "$work/report"
    filter mend "$work/right.report" <"$1" >"$work/right"
}

# lost: how many lines are dropped as spoiled or not ended, by `right.report`
lost() { cut -f 3 "$work/right.report" | grep -c -x -e 2 -e 3; }

# warning NAME: what is to be said of those lines, where there are any
warning() { [ "$(lost)" -eq 0 ] || printf 'batqemulo: %s: %s\n' "$1" "$(sentence "lost/$(counted "$(lost)")")"; }

# says RIGHT: the last run printed what is right, ended with 0 and said just this
says() { cmp "$work/out" "$work/right" && diff "$1" "$work/said" && ends 0; }

# mends_into NAME FILE WORDS..: by these words, which name the file `report` for the report; NAME is what the text is called
mends_into() {
    mended "$2"
    warning "$1" >"$work/right.said"
    run mend "${@:3}" <"$2"
    says "$work/right.said" && cmp "$work/report" "$work/right.report"
}

# mends_aloud NAME FILE WORDS..: where no file is named the report is told, and the warning comes behind it
mends_aloud() {
    mended "$2"
    { cat "$work/right.report" && warning "$1"; } >"$work/right.said"
    run mend "${@:3}" <"$2"
    says "$work/right.said"
}

# as_filters FILE: an example goes through all, and what the catalogue has printed of it goes back
as_filters() {
    local name=${1##*/} number
    name=${name%.txt}
    filter list <"$1" >"$work/right"
    try "the listing of $name is the example's" cmp "$work/right" "${1%.txt}.listing"
    three_ways "list $name" "$1" list
    for number in $(numbers "$1"); do
        filter reason "$number" <"$1" >"$work/right"
        three_ways "reason $number of $name" "$1" reason "$number"
    done
    filter catalogue <"$1" >"$work/right"
    three_ways "catalogue $name" "$1" catalogue
    cp "$work/right" "$work/cards"
    filter uncatalogue <"$work/cards" >"$work/right"
    three_ways "uncatalogue what that printed of $name" "$work/cards" uncatalogue
    try "mend $name --report FILE" mends_into "$1" "$1" "$1" --report "$work/report"
    try "mend --report=FILE $name" mends_into "$1" "$1" "--report=$work/report" "$1"
    try "mend --report FILE - of $name" mends_into 'standard input' "$1" --report "$work/report" -
    try "mend --report FILE of $name" mends_into 'standard input' "$1" --report "$work/report"
    try "mend $name" mends_aloud "$1" "$1" "$1"
    try "mend - of $name" mends_aloud 'standard input' "$1" -
    try "mend of $name" mends_aloud 'standard input' "$1"
}

# notices_byte: a listing with one byte more is not what the command prints
notices_byte() {
    { cat examples/game.listing && echo; } >"$work/more"
    prints examples/game.listing list examples/game.txt && ! prints "$work/more" list examples/game.txt
}

# notices_warning: a warning that counts one line more is not what the command says
notices_warning() {
    mends_into examples/export.txt examples/export.txt examples/export.txt --report "$work/report" &&
        sed -i 's/1 line/2 lines/' "$work/right.said" && ! says "$work/right.said"
}

# of_nothing WORDS..: a text without a byte is a register, and it is said that there is nothing in it
of_nothing() {
    filter "$@" </dev/null >"$work/right"
    printf 'batqemulo: /dev/null: %s\n' "$(sentence empty)" >"$work/right.said"
    run "$@" /dev/null
    says "$work/right.said"
}

# asked_of_nothing: so it is where a reason is asked for, and refused
asked_of_nothing() {
    { printf 'batqemulo: /dev/null: %s\n' "$(sentence empty)" && words /dev/null 14 0 '' asked/5; } >"$work/right.said"
    run reason 5 /dev/null
    diff "$work/right.said" "$work/said" && ends 1
}

# beside_a_file WORD FILE: what is taken for a number is one, whatever files there are
beside_a_file() {
    filter reason "$1" <"$2" >"$work/right"
    mkdir -p "$work/beside" && touch "$work/beside/$1" && (cd "$work/beside" && prints "$work/right" reason "$1" <"$2")
}

# endless: an input without an end is refused, and the command ends
endless() {
    run list < <(yes)
    refused 'standard input' 1 0 ''
}

# ---- Wrong words: nothing is read, printed or made.

# misused WORDS..: status 2; what is wrong is said, and how the command is used
misused() {
    (
        cd "$stage/empty" || return
        { run "$@"; cat >"$work/rest"; } <"$work/whole"
        ends 2 && nothing "$work/out" && cmp "$work/rest" "$work/whole" && head -n 1 "$work/said" | grep -q '^batqemulo: .' &&
            grep -q '^usage: batqemulo list ' "$work/said"
    ) && empty "$stage/empty"
}

# usage_only NAME WORDS..: a filter says how it is used, by the name with which it was started
usage_only() {
    (
        cd "$stage/empty" || return
        { filter "$@" >"$work/out" 2>"$work/said"; cat >"$work/rest"; } <"$work/whole"
        cat "$work/said"
        nothing "$work/out" && cmp "$work/rest" "$work/whole" && [ "$(wc -l <"$work/said")" -eq 1 ] &&
            [[ $(<"$work/said") == "usage: $stage/bin/batqemulo-$1 "* ]]
    ) && empty "$stage/empty"
}

# ---- What cannot be read or written.

# cannot NAME WORDS..: status 2, nothing printed, and it is said of this name what could not be done
cannot() {
    run "${@:2}"
    ends 2 && nothing "$work/out" && grep -q -F -e "$1" "$work/said" && ! grep -q '^usage: ' "$work/said"
}

# as_nobody WORDS..: the words, by somebody for whom permissions are a bar
as_nobody() {
    if [ "$(id -u)" -eq 0 ]; then setpriv --reuid=65534 --regid=65534 --clear-groups "$@"; else "$@"; fi
}

# barred NAME WORDS..: that cannot be done by somebody without permission
barred() {
    as_nobody timeout 60 "$command" "${@:2}" >"$work/out" 2>"$work/said"
    status=$?
    ends 2 && nothing "$work/out" && grep -q -F -e "$1" "$work/said"
}

# allowed WORDS..: that can be done by the same somebody
allowed() { as_nobody timeout 60 "$command" "$@"; }

# full WORDS.., closed WORDS..: what is to be printed goes to a full device, or nowhere
full() {
    timeout 60 "$command" "$@" >/dev/full 2>"$work/said"
    status=$?
    ends 2 && something "$work/said"
}

closed() {
    timeout 60 "$command" "$@" 2>"$work/said" >&-
    status=$?
    ends 2 && something "$work/said"
}

# unread SIGNAL WORDS..: what is to be printed goes into a pipe that nobody reads any more. Where the signal is `default` it ends
# the writer, who is told by an error where it is `ignore`.
unread() {
    exec 7> >(:)
    wait $!
    timeout 60 env "--$1-signal=PIPE" "$command" "${@:2}" >&7 2>"$work/said"
    status=$?
    exec 7>&-
    ends 2 && if [ "$1" = ignore ]; then something "$work/said"; fi
}

# each_printing NAME TRIAL..: every command that prints, by this trial
each_printing() {
    try "$1: list" "${@:2}" list "$work/game"
    try "$1: a long listing" "${@:2}" list "$work/long"
    try "$1: a refusal" "${@:2}" list "$work/twice"
    try "$1: reason" "${@:2}" reason 101 "$work/game"
    try "$1: mend" "${@:2}" mend "$work/game"
    try "$1: catalogue" "${@:2}" catalogue "$work/game"
    try "$1: uncatalogue" "${@:2}" uncatalogue "$work/both"
    try "$1: clean" "${@:2}" clean "$work/game"
    try "$1: refusals" "${@:2}" refusals
    try "$1: help" "${@:2}" help
    try "$1: help list" "${@:2}" help list
    try "$1: help 5" "${@:2}" help 5
    try "$1: list --help" "${@:2}" list --help
    try "$1: --version" "${@:2}" --version
}

# one_byte WORDS..: of what is printed one byte is taken
one_byte() {
    { timeout 60 "$command" "$@" 2>"$work/said"; echo $? >"$work/status"; } | head -c 1 >"$work/out"
    status=$(<"$work/status")
    ends 2
}

# unheard WORDS..: what is to be told goes to a full device, so that it is lost, and that is no success
unheard() {
    timeout 60 "$command" "$@" >"$work/out" 2>/dev/full
    status=$?
    printf 'status %d\n' "$status"
    [ "$status" -eq 2 ]
}

# no_room KIB WORDS..: no file takes more than so many KiB; nothing is printed then
no_room() {
    (
        trap '' XFSZ
        ulimit -f "$1"
        timeout 60 "$command" "${@:2}" | sed 's/^/printed: /'
        printf 'status %d\n' "${PIPESTATUS[0]}"
    ) 2>&1 | cat >"$work/said"
    cat "$work/said"
    ! grep -q '^printed: ' "$work/said" && grep -q -x 'status 2' "$work/said" && grep -q '^batqemulo: ' "$work/said"
}

# no_report COMMAND..: that holds, and there is no report
no_report() {
    rm -f "$work/report"
    "$@" && [ ! -e "$work/report" ]
}

# at_tmpdir FOLDER COMMAND..: the command works there
at_tmpdir() {
    local TMPDIR=$1
    "${@:2}"
}

# part: another copy of what is installed
part() { rm -rf "$stage/part" && mkdir "$stage/part" && cp -r "$stage/bin" "$stage/share" "$stage/part"; }

# without FILE COMMAND..: what is installed lacks this file
without() {
    local command=$stage/part/bin/batqemulo
    part && rm "$stage/part/$1" && "${@:2}"
}

# locked FILE COMMAND..: nobody is allowed to read or start this file of what is installed
locked() {
    local command=$stage/part/bin/batqemulo
    part && chmod 000 "$stage/part/$1" && "${@:2}"
}

# with_tools COMMAND..: all that is found is a folder of links to a few tools, without iconv and without rt
with_tools() {
    local tool
    if [ ! -d "$stage/tools" ]; then
        mkdir "$stage/tools"
        for tool in sh bash env awk od head cat sed grep mktemp rm mv dirname basename readlink \
            timeout find mkdir touch tee flock cmp diff true; do
            ln -s "$(type -P "$tool")" "$stage/tools/$tool"
        done
    fi
    local PATH=$stage/tools
    "$@"
}

# ---- Nothing is lost.

# lay: things of every sort that are there already
lay() {
    mkdir "$work/there" "$work/there/folder"
    cp examples/game.txt "$work/there/register"
    cp examples/deed.txt "$work/there/folder/inside"
    ln -s register "$work/there/link"
    ln -s nowhere "$work/there/dangling"
    mkfifo "$work/there/queue"
    cp examples/loan.txt "$work/there/locked"
    : >"$work/there/blank"
    chmod 000 "$work/there/locked"
}

# look: all of them, as they are
look() {
    (
        cd "$work/there" || return
        find . -printf '%p %y %m %s %T@ %i %l\n' | sort
        cat register folder/inside locked 2>&1
    )
}

# spares COMMAND..: its last word names one of them for a report; nothing is read or printed, it is named, and all is as before
spares() {
    local thing=${*: -1}
    look >"$work/before"
    { timeout 60 "$@" >"$work/out" 2>"$work/said"; status=$?; cat >"$work/rest"; } <"$work/whole"
    cat "$work/said"
    look >"$work/after"
    diff "$work/before" "$work/after" && nothing "$work/out" && cmp "$work/rest" "$work/whole" &&
        grep -q -F -e "${thing#--report=}" "$work/said"
}

# spares_by_command WORDS..: and the status is 2
spares_by_command() { spares "$command" "$@" && [ "$status" -eq 2 ]; }

# spares_its_own: the register that is to be mended is named for the report
spares_its_own() {
    local file=$work/there/register
    spares "$command" mend "$file" --report "$file" && [ "$status" -eq 2 ]
}

# notices_loss: a thing that has changed would be seen
notices_loss() {
    cp -a "$work/there/register" "$work/kept"
    ! spares bash -c 'echo "$0" >&2; : >"$0"' "$work/there/register" && cp -a "$work/kept" "$work/there/register"
}

# notices_reading: an input that is read would be seen
notices_reading() { ! spares bash -c 'echo "$0" >&2; read -r' "$work/there/register"; }

# dashed WORDS..: the report has a name that begins with -
dashed() {
    (
        mkdir -p "$work/dashed" && cd "$work/dashed" && rm -f ./-* || return
        mended "$here/examples/export.txt"
        run mend "$@" "$here/examples/export.txt"
        cmp "$work/out" "$work/right" && ends 0 && cmp ./-x "$work/right.report" && [ "$(find . -type f)" = ./-x ]
    )
}

# ---- Each damage with its sentence.

# meaning: the keys of what some refusals mean, where that is not what they mean of a register text
declare -A meaning=()

# words NAME NUMBER PLACE SHOWN HINTS..: what is to be said of a refusal
words() {
    local hint place=''
    [ "$3" -eq 0 ] || place=", line $3"
    printf 'batqemulo: %s%s: refusal %d: %s\n' "$1" "$place" "$2" "$(sentence "${meaning[$2]-$2}")"
    [ -z "$4" ] || printf '    %s\n' "$4"
    for hint in "${@:5}"; do
        printf '  - %s\n' "$(sentence "$hint")"
    done
}

# verb: what is asked of a text that is to be refused
verb=(list)

# refused NAME NUMBER PLACE SHOWN HINTS..: the last run, of a text that has this name, printed the refusal and said just this
refused() {
    printf 'REFUSED\t%d\t%d\n' "$2" "$3" | cmp - "$work/out" || return
    words "$@" >"$work/right.said"
    diff "$work/right.said" "$work/said" && ends 1
}

# told NUMBER PLACE SHOWN HINTS..: the file `text` is refused in these words
told() {
    run "${verb[@]}" "$work/text"
    refused "$work/text" "$@"
}

# told_of NAME NUMBER PLACE SHOWN HINTS..: so is standard input, by this name
told_of() {
    run "${verb[@]}" <"$work/text"
    refused "$@"
}

# damaged WORDS NUMBER PLACE SHOWN HINTS..: a text that is typed is refused in these words; it is kept for `clean`
damages=0
damaged() {
    damages=$((damages + 1))
    typed "$1" >"$work/text"
    cp "$work/text" "$work/damages/$damages"
    told "${@:2}"
}

# by_reason COMMAND..: what is asked is a reason
by_reason() {
    local verb=(reason 1)
    "$@"
}

# of_cards COMMAND..: what is asked is the register text of a catalogue
of_cards() {
    local verb=(uncatalogue)
    local -A meaning=([3]=no-card [7]=unlisted [8]=named-twice)
    "$@"
}

# asked WORD HINTS..: the sound register does not have what is asked for
asked() {
    run reason "$1" "$work/sound"
    refused "$work/sound" 14 0 '' "${@:2}"
}

# wide CODE MARK: the sound register in UTF-16
wide() {
    printf '%b' "$2"
    iconv -f UTF-8 -t "$1" <"$work/sound"
}

# wide_told CODE MARK NUMBER PLACE SHOWN HINTS..: and it is refused in these words
wide_told() {
    wide "$1" "$2" >"$work/text"
    told "${@:3}"
}

# meant_of_text: a catalogue is refused in the words that are a register text's
meant_of_text() {
    meaning=()
    damaged 'S 1 R 1 1\n' 8 1 'S<tab>1<tab>R<tab>1<tab>1' twice/1
}

# sound_cards: of a sound catalogue, which names a number before its card, nothing is said
sound_cards() {
    typed 'S 1 R 2 1\nS 2 U\n' >"$work/text"
    typed 'S 1 R\nS 2 U\nO 2 1\nO 1 1\n' >"$work/right"
    prints "$work/right" uncatalogue "$work/text"
}

# sound_listed: the sound register beside the damaged ones is listed, and nothing is said of it
sound_listed() {
    filter list <"$work/sound" >"$work/right"
    prints "$work/right" list "$work/sound" && [ "$(due "$work/right")" -eq 0 ]
}

# full_register: a text with as many statements as there may be; full_of_objections: one with as many objections
full_register() { seq 1024 | sed 's/.*/S\t&\tR/'; }

full_of_objections() {
    seq 64 | sed 's/.*/S\t&\tR/'
    awk 'BEGIN { for (x = 1; x <= 64; x++) for (y = 1; y <= 64; y++) printf "O\t%d\t%d\n", x, y }'
}

full_of_objectors() { seq 64 | awk '{ printf "S\t%d\tR", $1; for (y = 1; y <= 64; y++) printf "\t%d", y; print "" }'; }

# beyond MAKER LINE NUMBER PLACE SHOWN HINTS..: a text at a limit is accepted, and with a line more it is refused in these words
beyond() {
    "$1" >"$work/text"
    run "${verb[@]}" "$work/text"
    ends 0 || return
    typed "$2" >>"$work/text"
    told "${@:3}"
}

# too_long: a text of 65,536 bytes; too_wide: one in UTF-16
too_long() { yes 123456789 | head -c 65536; }

too_wide() { too_long | iconv -f UTF-8 -t UTF-16LE; }

# long_told MAKER HINTS..: a text that is too long is refused by this verb
long_told() {
    "$1" >"$work/text"
    told 1 0 '' "${@:2}"
}

# too_long_back: a catalogue whose register text would have 82,752 bytes
too_long_back() { full_of_objectors | sed 's/\<[0-9]\>/1000000&/g; s/\<[0-9][0-9]\>/100000&/g'; }

# back_told HINTS..: it is refused for that, and not for its own bytes
back_told() {
    meaning[1]='text-too-long'
    too_long_back >"$work/text"
    [ "$(wc -c <"$work/text")" -le 65535 ] && told 1 0 '' "$@"
}

# short_lines WORDS: of a text that is typed nothing is said in a line of more than 250 bytes
short_lines() {
    typed "$1" >"$work/text"
    run "${verb[@]}" "$work/text"
    ends 1 && ! grep -E '.{251,}' "$work/said" | cut -c 1-60 | grep .
}

# ---- What is cleaned.

# done_to NAME DID..: what is to be said of what was done
done_to() {
    local did
    for did in "${@:2}"; do
        printf 'batqemulo: %s: %s\n' "$1" "$(sentence "did-$did")"
    done
}

# cleans FILE RIGHT DID..: the file becomes this one, and just this is said to be done
cleans() {
    run clean "$1"
    done_to "$1" "${@:3}" >"$work/right.said"
    cmp "$work/out" "$2" && diff "$work/right.said" "$work/said" && ends 0
}

# stays FILE: what is clean already comes back as it is
stays() { cleans "$1" "$1" nothing; }

# restored SPOILER DID..: the sound register, spoiled by a line of shell, is cleaned to what it was, and then listed as it was
restored() {
    eval "$1" <"$work/sound" >"$work/text"
    if cmp -s "$work/text" "$work/sound"; then return 1; fi
    run list "$work/text"
    [ "$status" -eq 1 ] || return
    cleans "$work/text" "$work/sound" "${@:2}" && cp "$work/out" "$work/cleaned" && stays "$work/cleaned" || return
    filter list <"$work/sound" >"$work/right"
    prints "$work/right" list "$work/cleaned"
}

# left WORDS: what is typed is no business of `clean`, and is refused before and after it
left() {
    typed "$1" >"$work/text"
    run list "$work/text"
    [ "$status" -eq 1 ] && stays "$work/text"
}

# lines FILE: how many it has, with a last one that is not ended
lines() { awk 'END { print NR }' "$1"; }

# model FILE: what is left of a text without byte order marks and without bytes 13 and tabs at the ends of lines
model() {
    LC_ALL=C sed -e '1s/^\(\xef\xbb\xbf\)*//' -e 's/[\t\r]*$//' "$1"
    [ "$(tail -c 1 "$1" | wc -l)" -eq 1 ] || nothing "$1" || echo
}

# keeps_lines FILE: it is cleaned as the model says, no line goes, and cleaned again it stays; `cleaned` gets what is left
keeps_lines() {
    model "$1" >"$work/right"
    run clean "$1"
    cmp "$work/out" "$work/right" && [ "$status" -eq 0 ] && [ "$(wc -l <"$work/out")" -eq "$(lines "$1")" ] || return
    mv "$work/out" "$work/cleaned"
    run clean "$work/cleaned"
    cmp "$work/out" "$work/cleaned" && [ "$status" -eq 0 ]
}

# random SEED COUNT [CODES..]: so many bytes, drawn from these codes or from all
random() {
    local codes=("${@:3}") text='' code k
    [ $# -gt 2 ] || mapfile -t codes < <(seq 0 255)
    RANDOM=$1
    for ((k = 0; k < $2; k++)); do
        printf -v code '\\x%02x' "${codes[RANDOM % ${#codes[@]}]}"
        text+=$code
    done
    printf '%b' "$text"
}

# random_kept COUNT BYTES [CODES..]: so many texts are cleaned, none of which begins like UTF-16
random_kept() {
    local seed beginnings=('S\t' '\xef\xbb\xbfS\t' '\n\n' 'x')
    for ((seed = 1; seed <= $1; seed++)); do
        { printf '%b' "${beginnings[seed % 4]}" && random "$seed" "${@:2}"; } >"$work/text"
        case $(head -c 2 "$work/text" | od -An -tu1 | xargs) in
        0* | *' 0') continue ;;
        esac
        keeps_lines "$work/text" || { printf 'seed %d\n' "$seed" && return 1; }
    done
}

# damages_kept: no line of the damaged texts is dropped
damages_kept() {
    local file
    [ "$damages" -gt 50 ] || return
    for file in "$work/damages"/*; do
        keeps_lines "$file" || { od -c "$file" && return 1; }
    done
}

# notices_drop: a line that is dropped would be seen
notices_drop() {
    local command=$stage/dropping
    printf '#!/bin/sh\n%q "$@" | sed 1d\n' "$stage/bin/batqemulo" >"$command"
    chmod 755 "$command"
    ! keeps_lines "$work/sound"
}

# unreadable BYTES: what begins like UTF-16 and is none is not cleaned
unreadable() {
    printf '%b' "$1" >"$work/text"
    cannot "$work/text" clean "$work/text"
}

# without_iconv: UTF-16 is told to need it, and anything else does not need it
without_iconv() {
    wide UTF-16LE '' >"$work/text"
    with_tools cannot iconv clean "$work/text" && with_tools stays "$work/sound"
}

# twice_the_same: the file `text`, cleaned, stays as it is
twice_the_same() {
    run clean "$work/text"
    cp "$work/out" "$work/cleaned"
    stays "$work/cleaned"
}

# ---- What `mend` warns of.

# warns COUNT WORDS: of so many lines of a text that is typed, by either way of reporting
warns() {
    typed "$2" >"$work/text"
    mends_into "$work/text" "$work/text" "$work/text" --report "$work/report" && [ "$(lost)" -eq "$1" ] &&
        [ "$(grep -c . "$work/said")" -eq $(($1 > 0)) ] && mends_aloud "$work/text" "$work/text" "$work/text"
}

# label NUMBER: what the listing on standard input says of a statement
label() { awk -F '\t' -v number="$1" 'NF == 3 && $1 == number { print $2 }'; }

# clean_first: a register without its last line end, mended, says `stands` of what falls; cleaned first it says `falls`
clean_first() {
    typed 'S 1 R\nS 2 R\nO 2 1' >"$work/text"
    [ "$("$command" mend "$work/text" | "$command" list | label 1)" = stands ] &&
        [ "$("$command" clean "$work/text" | "$command" mend | "$command" list | label 1)" = falls ]
}

# too_long_to_mend WORDS..: it is refused, in words, and no report is made
too_long_to_mend() {
    local verb=(mend "$@")
    no_report long_told too_long
}

# ---- The sentences.

# rows FILE: the sentences, without remarks
rows() { grep -v '^#' "$1"; }

# of_header: number and name of each refusal
of_header() {
    sed -n '/^enum batqemulo_refusal {/,/^};/s/^ *\(BATQEMULO_[A-Z_]*\) = \([0-9]*\).*/\2 \1/p' include/batqemulo.h |
        grep -v '^0 BATQEMULO_ACCEPTED$'
}

# as_header FILE: numbers and names are the header's, and nothing else has either
as_header() {
    [ "$(of_header | wc -l)" -ge 16 ] &&
        diff <(of_header) <(rows "$1" | awk -F '\t' '$2 != "-" || $1 ~ /^[0-9]/ { print $1, $2 }')
}

# three_fields FILE: every row has a key, a name and a sentence, and no key comes twice
three_fields() { ! rows "$1" | awk -F '\t' 'NF != 3 || $1 == "" || $2 == "" || $3 == "" || seen[$1]++' | grep .; }

# keys_used: those that the command asks for, a line each
keys_used() {
    of_header | cut -d ' ' -f 1
    grep -o 'hint("[a-z0-9-]*"' command/explain.awk | cut -d '"' -f 2
    grep -o '\([?:] \|sentence\[\)"[a-z0-9-]\+"' command/explain.awk | cut -d '"' -f 2
    grep -o 'tell("[a-z0-9-]*")' command/clean.awk | sed 's/tell("\(.*\)")/did-\1/'
    grep -o '"did-[a-z]\+' command/clean.awk | tr -d '"'
    grep -o '(said [a-z-]\+' batqemulo | cut -d ' ' -f 2
}

# as_used FILE: those are its keys, and it has no others
as_used() { diff <(keys_used | sort -u) <(rows "$1" | cut -f 1 | sort); }

# limit NAME: the header's, with a comma as the sentences have it
limit() { sed -n "s/^#define BATQEMULO_MAX_$1 \([0-9]*\)$/\1/p" include/batqemulo.h | sed 's/\([0-9]\)\([0-9]\{3\}\)$/\1,\2/'; }

# limited FILE KEY NAME: the sentence has the header's limit, and no other number
limited() {
    local sentence
    sentence=$(rows "$1" | sed -n "s/^$2\t[^\t]*\t//p")
    [ "$(grep -o '[0-9][0-9,]*' <<<"$sentence")" = "$(limit "$3")" ] && [ -n "$(limit "$3")" ]
}

# limits FILE: every limit that is said is the header's
limits() {
    limited "$1" 1 TEXT_BYTES && limited "$1" 6 STATEMENTS && limited "$1" 9 OBJECTIONS && limited "$1" 15 TURNS &&
        limited "$1" most-statements STATEMENTS && limited "$1" most-objections OBJECTIONS &&
        limited "$1" most-objectors OBJECTIONS && limited "$1" text-too-long TEXT_BYTES
}

# notices CHECK SED: the check fails on the sentences with one thing changed
notices() {
    sed "$2" command/sentences.txt >"$work/doctored"
    ! cmp -s command/sentences.txt "$work/doctored" && ! "$1" "$work/doctored"
}

# all_refusals: the table has the sentence of every refusal, in order
all_refusals() {
    local number
    while read -r number _; do
        printf '%2d  %s\n' "$number" "${sentences[$number]}"
    done < <(of_header) >"$work/right"
    prints "$work/right" refusals && [ "$(wc -l <"$work/out")" -eq 16 ]
}

# all_came_up: every sentence was expected by some test, but for the refusals that only a caller in C can meet
all_came_up() { ! rows command/sentences.txt | cut -f 1 | grep -v -x -e '1[01235]' -e 16 | grep -v -x -F -f "$work/keys"; }

# ---- Help.

# section WORD: that part of command/help.txt
section() { awk -v word="$1" '/^== / { inside = $2 == word; next } inside' command/help.txt; }

# helps RIGHT WORDS..: the help is what the file has, and nothing is read for it
helps() {
    { prints "$@" && cat >"$work/rest"; } <"$work/whole" && something "$1" && cmp "$work/rest" "$work/whole"
}

# names_commands: every command that the help names is one
names_commands() {
    local name count=0
    for name in $(section usage | grep -o 'batqemulo [a-z]\+' | cut -d ' ' -f 2); do
        run "$name" --no-such-option
        ends 2 && ! grep -q 'there is no command' "$work/said" || return
        count=$((count + 1))
    done
    [ "$count" -eq 8 ]
}

# version: the parts of the header
version() {
    printf 'batqemulo %s\n' \
        "$(sed -n 's/^#define BATQEMULO_VERSION_\(MAJOR\|MINOR\|PATCH\) //p' include/batqemulo.h | paste -s -d .)"
}

# listed_as RIGHT WORDS..: the words print what the file has
listed_as() { "${@:2}" | cmp - "$1"; }

# ---- At a terminal.

# typing: starts its words at a terminal where Ctrl-D is typed at once, for a machine without script(1)
typing='
import os, pty, sys
child, terminal = pty.fork()
if child == 0:
    os.execvp(sys.argv[1], sys.argv[1:])
os.write(terminal, b"\4")
try:
    while True:
        os.write(1, os.read(terminal, 4096))
except OSError:
    pass'

# at_terminal WORDS..: what is shown there
at_terminal() {
    if type -P script >/dev/null; then
        timeout 60 script -qec "$(printf '%q ' "$@")" /dev/null </dev/null
    else
        timeout 60 python3 -c "$typing" "$@"
    fi
}

# waits WORDS..: it is said that a register is waited for
waits() {
    at_terminal "$@" >"$work/out"
    cat "$work/out"
    tr -d '\r' <"$work/out" | grep -q '^\(batqemulo: \)\?waiting for a register on standard input; Ctrl-D ends it$'
}

# ---- Names, folders, links, shells.

# odd_name NAME: a file of this name is told by it, whatever is told
odd_name() {
    (
        mkdir -p "$work/names" && cd "$work/names" && rm -rf ./* || return
        typed 'S 1 R\nS 1 R\n' >"./$1"
        run list -- "$1" && refused "$1" 5 2 'S<tab>1<tab>R' issued/1/1 &&
            cannot "batqemulo: $1.none: there is no such file" list -- "$1.none" || return
        cp "./$1" "$work/right"
        run clean -- "$1"
        done_to "$1" nothing >"$work/right.said"
        says "$work/right.said" && run mend "./$1" --report "$1" && ends 2 &&
            [[ $(<"$work/said") == "batqemulo: $1 is there already "* ]] && cmp "./$1" "$work/right"
    )
}

# odd_warning NAME: so is one of which lines are lost
odd_warning() {
    (
        cd "$work/names" || return
        typed 'S 1 R\nS 2' >"./$1"
        mends_into "$1" "$work/names/$1" --report "$work/report" -- "$1"
    )
}

# odd_report NAME: a report of this name is made and looked at, and nothing but the named file is read
odd_report() {
    (
        cd "$work/names" && rm -rf ./* || return
        typed 'S 1 R\nS 2' >"$work/text"
        mended "$work/text"
        warning "$work/text" >"$work/right.said"
        { run mend "$work/text" --report "$1" && cat >"$work/rest"; } <"$work/whole"
        says "$work/right.said" && cmp "./$1" "$work/right.report" && cmp "$work/rest" "$work/whole"
    )
}

# elsewhere NAME: the command of this name works from another folder, and names are taken from there
elsewhere() {
    (
        cd "$work/elsewhere" && rm -f ./* && cp "$here/examples/export.txt" text || return
        "$1" mend text --report report >"$work/out" 2>"$work/said"
        cmp "$work/out" "$here/examples/export.mended" && cmp report "$here/examples/export.report" || return
        "$1" list text >"$work/out" 2>"$work/said"
        status=$?
        ends 1 && cmp "$work/out" "$here/examples/export.listing" && grep -q '^batqemulo: text, line 4: ' "$work/said"
    )
}

# by_shell SHELL..: the command is run by this shell
by_shell() {
    printf '#!/bin/sh\nexec%s %q "$@"\n' "$(printf ' %q' "$@")" "$stage/bin/batqemulo" >"$stage/by_shell"
    chmod 755 "$stage/by_shell"
    local command=$stage/by_shell
    prints examples/game.listing list "$work/game" && damaged 'S 1 R\r\n' 3 1 'S<tab>1<tab>R<CR>' windows &&
        keeps_lines "$work/text" && of_cards damaged 'S 1 R 2\n' 7 1 'S<tab>1<tab>R<tab>2' unknown/2 &&
        asked 5 asked/5 && beside_a_file 1987.14 "$work/years" && warns 1 'S 1 R\nS 2' &&
        misused list a b && full list "$work/game" &&
        misused mend --report && dashed --report -x && cannot none list "$work/none" && all_refusals
}

# ---- A thousand registers.

# thousand FOLDER: writes them there, N.txt, and beside them N.right and N.status. They are chains; every tenth has a fault.
thousand() {
    mkdir "$1"
    awk -v folder="$1" 'BEGIN {
        for (i = 1; i <= 1000; i++) {
            text = folder "/" i ".txt"
            right = folder "/" i ".right"
            size = 1 + i % 7
            printf "REGISTER\t%d\t%d\n", size, size - 1 >right
            for (k = 1; k <= size; k++) {
                printf "S\t%d\tR\n", i + k >text
                printf "%d\t%s\t%d\n", i + k, k % 2 ? "stands" : "falls", k - 1 >right
            }
            for (k = 2; k <= size; k++) {
                printf "O\t%d\t%d\n", i + k - 1, i + k >text
                printf "%d\t%d\t%s\t%d\n", i + k - 1, i + k, k % 2 ? "delaying" : "felling", k - 1 >right
            }
            if (i % 10 == 0) {
                print "x" >text
                close(right)
                printf "REFUSED\t3\t%d\n", 2 * size >right
            }
            print (i % 10 == 0) >(folder "/" i ".status")
            close(text)
            close(right)
            close(folder "/" i ".status")
        }
    }'
}

# in_a_loop FOLDER FIRST LAST: all are right, under `set -e` and pipefail, by name and through pipes
in_a_loop() {
    bash -c 'set -euo pipefail
    for ((i = $3; i <= $4; i++)); do
        read -r right <"$2/$i.status"
        status=0
        if [ "$right" -eq 1 ]; then
            "$1" list "$2/$i.txt" 2>"$2/said" | cat >"$2/out" || status=$?
            [ -s "$2/said" ]
        elif [ $((i % 2)) -eq 1 ]; then
            cat "$2/$i.txt" | "$1" list 2>&1 | cat >"$2/out"
        else
            "$1" list "$2/$i.txt" >"$2/out" 2>&1
        fi
        [ "$status" -eq "$right" ]
        cmp "$2/out" "$2/$i.right"
    done' bash "$command" "$@"
}

# notices_one FILE TEXT: one wrong among them would be seen
notices_one() {
    cp "$work/many/$1" "$work/kept"
    typed "$2" >"$work/many/$1"
    ! in_a_loop "$work/many" 1 12 && cp "$work/kept" "$work/many/$1" && in_a_loop "$work/many" 1 12
}

# ---- Signals.

# ended_by SIGNAL WORDS..: the signal comes while the command waits for input, to it and to what it has started. Whoever started the
# tests may have had it ignored, and what is ignored from the start no shell can notice; so that is undone.
ended_by() {
    (
        rm -f "$work/queue"
        mkfifo "$work/queue"
        exec 8<>"$work/queue"
        set -m
        env --default-signal="$1" "$command" "${@:2}" <"$work/queue" >"$work/out" 2>"$work/said" 8>&- &
        for _ in {1..200}; do
            [ -z "$(pgrep -P $! -x 'head|cat')" ] || break
            sleep 0.02
        done
        fails empty "$TMPDIR" || return
        kill -"$1" -- -$!
        timeout 30 tail --pid=$! -s 0.05 -f /dev/null || kill -KILL -- -$!
        wait $!
        status=$?
        ends 2 && nothing "$work/out" && empty "$TMPDIR"
    )
}

# notices_left: a folder that is left would be seen
notices_left() {
    local command=$stage/leaving
    printf '#!/bin/sh\ntrap "exit 2" TERM\nmktemp -d >/dev/null\ncat >/dev/null\n' >"$command"
    chmod 755 "$command"
    ! ended_by TERM && ! empty "$TMPDIR" && rm -r "$TMPDIR"/tmp.*
}

# timed_out: so does a time limit
timed_out() {
    rm -f "$work/queue"
    mkfifo "$work/queue"
    timeout 1 "$command" list <>"$work/queue" >"$work/out" 2>"$work/said"
    [ $? -eq 124 ] && nothing "$work/out" && empty "$TMPDIR"
}

# ---- How programs are built.

# copy: the small part of the repository that a build needs, and beside it a prover that only says that it proves
copy=$stage/copy
prover=$stage/prover

# below CRATE: it and all that it stands on in crates/, found by taking in names until no more come
below() {
    local names='' more=$1 name
    while [ "$names" != "$more" ]; do
        names=$more
        more=$(for name in $names; do
            echo "$name"
            sed -n "s/^$name\( staticlib\)\{0,1\}://p" crates.txt | tr ' ' '\n'
        done | sort -u | while read -r name; do [ ! -d "crates/${name:-.none}" ] || echo "$name"; done)
    done
    printf '%s\n' "$names"
}

# lay_copy: makes both
lay_copy() {
    local name
    mkdir -p "$copy/tests" "$copy/command" "$copy/.ci" "$prover"
    cp -P crates.txt "${programs[@]}" batqemulo "$copy" && cp command/* "$copy/command" && cp tests/programs.sh "$copy/tests" &&
        cp .ci/run "$copy/.ci" && cp --parents crates/*/src/*.rt "$copy" || return
    for name in list mend; do
        below "program_$name" >"$prover/program_$name.crates"
        cp "target/bin/program_$name" "$prover/program_$name" || return
    done
    cat >"$prover/rt" <<END
#!/bin/sh
# Stands for the prover: it tells of the crates, and puts a program that was built before in its place.
case \$1 in
doc) echo '$(rt doc)'; exit ;;
esac
crate=\$(basename "\$PWD")
echo "begin \$crate" >>'$prover/calls'
echo 'the words of the prover'
while read -r name; do echo "crate \$name: modules loaded=0 checked=1"; done <"$prover/\$crate.crates"
sleep 0.3
mkdir -p out
[ ! -e '$prover/edits' ] || touch ../game/src/lib.rt
[ -e '$prover/fails' ] || cp "$prover/\$crate" "out/\$crate"
echo "end \$crate" >>'$prover/calls'
[ ! -e '$prover/fails' ]
END
    chmod 755 "$prover/rt"
}

# build WORDS..: in the copy, with that prover
build() {
    (cd "$copy" && PATH=$prover:$PATH timeout 60 "$@") >"$work/out" 2>"$work/said"
    status=$?
}

# calls: how often the prover was asked so far
calls() { grep -c '^begin' "$prover/calls"; }

# builds COMMAND..: after the command, which is done in the copy, the program is built, once, and then no more
builds() {
    local before
    before=$(calls)
    (cd "$copy" && "$@") || return
    build command/build list
    ends 0 && nothing "$work/out" && [ "$(calls)" -eq $((before + 1)) ] && leaves true
}

# leaves COMMAND..: after the command nothing is built, and nothing is said
leaves() {
    local before
    before=$(calls)
    (cd "$copy" && "$@") || return
    build command/build list
    ends 0 && nothing "$work/out" && nothing "$work/said" && [ "$(calls)" -eq "$before" ]
}

# builds_unheard: it is built where nobody listens to standard error, which is closed or full
builds_unheard() {
    local before
    before=$(calls)
    touch "$copy/crates/game/src/lib.rt"
    build bash -c 'command/build list 2>&-'
    ends 0 && [ "$(calls)" -eq $((before + 1)) ] || return
    touch "$copy/crates/game/src/lib.rt"
    build bash -c 'command/build list 2>/dev/full'
    ends 0 && [ "$(calls)" -eq $((before + 2)) ] && leaves true
}

# builds_first: the first time it is told that the program is built, of how many crates, and they are counted in one line
builds_first() {
    local count
    count=$(wc -l <"$prover/program_list.crates")
    rm -rf "$copy/target" "$copy"/crates/*/out
    : >"$prover/calls"
    build command/build list
    ends 0 && nothing "$work/out" && [ "$(calls)" -eq 1 ] && [ "$(wc -l <"$work/said")" -eq 2 ] &&
        head -n 1 "$work/said" | grep -q "^list: .* proved and built first: $count crates, .* minutes" &&
        tr '\r' '\n' <"$work/said" | grep -q "^list: 12 of $count, $(sed -n 12p "$prover/program_list.crates") *$" &&
        tr '\r' '\n' <"$work/said" | grep -q "^list: $count of $count, $(tail -n 1 "$prover/program_list.crates") *$" &&
        ! grep -q 'the words of the prover' "$work/said" && grep -q 'the words of the prover' "$copy/target/build-list.log"
}

# stands_on_less: a listing needs the call that lists and none that mends, nor the whole product
stands_on_less() {
    below program_list >"$work/crates"
    grep -q -x call_listing "$work/crates" && grep -q -x game "$work/crates" &&
        ! grep -x -e call_mend -e batqemulo -e batqemulo_c "$work/crates"
}

# starts_what_is_built WORDS..: the program is built and started at once; what is printed is the listing alone
starts_what_is_built() {
    rm -f "$copy"/{target/bin,crates/program_list/out}/program_list
    build "$@" <examples/game.txt
    ends 0 && cmp "$work/out" examples/game.listing && grep -q 'proved and built first' "$work/said"
}

# edited_meanwhile: a source that is edited while the prover runs is built again the next time
edited_meanwhile() {
    touch "$prover/edits" "$copy/crates/game/src/lib.rt"
    build command/build list
    rm "$prover/edits"
    ends 0 && builds true
}

# told_of_failure WORDS..: where the prover fails its log is named, nothing is printed, and no older program is started
told_of_failure() {
    touch "$prover/fails" "$copy/crates/game/src/lib.rt"
    build "$@" <examples/game.txt
    rm "$prover/fails"
    cat "$work/said"
    [ "$status" -ne 0 ] && nothing "$work/out" && grep -q -F "$copy/target/build-list.log" "$work/said" &&
        grep -q 'the words of the prover' "$copy/target/build-list.log"
}

# in_turn FILE: of the calls that it tells, each ends before the next begins
in_turn() {
    awk '{ print } NR % 2 == 1 { wrong += $1 != "begin"; crate = $2 } NR % 2 == 0 { wrong += $1 != "end" || $2 != crate }
        END { exit wrong > 0 || NR % 2 == 1 }' "$1"
}

# notices_overlap: two that run at the same time would be seen
notices_overlap() {
    printf '%s\n' 'begin program_mend' 'begin program_list' 'end program_mend' 'end program_list' >"$work/overlap"
    ! in_turn "$work/overlap"
}

# one_after_the_other NAMES..: programs whose building is started at once
one_after_the_other() {
    local name
    rm -rf "$copy/target" "$copy"/crates/*/out
    : >"$prover/calls"
    for name in "$@"; do
        (cd "$copy" && PATH=$prover:$PATH command/build "$name") &
    done >"$work/out"
    wait
    nothing "$work/out" && in_turn "$prover/calls"
}

# once: a program that two are waiting for is built once
once() { one_after_the_other list list && [ "$(calls)" -eq 1 ]; }

# both: two programs are built
both() { one_after_the_other mend list && [ "$(calls)" -eq 2 ]; }

# without_rt WORDS..: in the copy, where there is no prover, all is over at once, with one sentence
without_rt() {
    rm -rf "$copy/target" "$copy"/crates/*/out
    (cd "$copy" && with_tools timeout 20 "$@") >"$work/out" 2>"$work/said" <examples/game.txt
    status=$?
    ends "$status" && [ "$status" -ne 0 ] && [ "$status" -ne 124 ] && nothing "$work/out" &&
        [ "$(wc -l <"$work/said")" -eq 1 ] && grep -q '(rt)' "$work/said" && [ ! -e "$copy/target" ]
}

# link NAME TO: a link in another folder leads there, and a link to_NAME to that link
link() {
    ln -s "$2" "$stage/links/$1"
    ln -s "$1" "$stage/links/to_$1"
}

# listed_by WORDS..: from another folder
listed_by() {
    (cd "$stage/links" && "$@" <"$here/examples/game.txt") >"$work/out" 2>"$work/said"
    status=$?
    cmp "$work/out" examples/game.listing && ends 0 && nothing "$work/said"
}

# used_by NAME: the usage has the name by which a starter was started
used_by() {
    "$1" --help <"$work/whole" >"$work/out" 2>"$work/said"
    cat "$work/said"
    nothing "$work/out" && [[ $(<"$work/said") == "usage: $1 "* ]]
}

# ---- What lints the scripts.

# linted COMMAND FILE..: the tool has nothing to say
linted() {
    local said status
    said=$("$@" 2>&1)
    status=$?
    printf '%s\n' "$said"
    [ "$status" -eq 0 ] && [ -z "$said" ]
}

# notices_slip SED COMMAND..: it has, of the command with a slip put in
notices_slip() {
    sed "$1" batqemulo >"$work/slipped"
    ! cmp -s batqemulo "$work/slipped" && ! linted "${@:2}" "$work/slipped"
}

# lacking TOOL: it is missing, which the gate must not pass over
lacking() { if [ -n "${CI-}" ]; then try "$1 is there" false; else skip "what $1 has to say, which is missing"; fi; }

try 'the command is put together' furnish "$stage" || finish

cp examples/game.txt "$work/game"
cp examples/twice.txt "$work/twice"
cp examples/quilt.txt "$work/whole"
typed 'S 1 R\nS 2 U\nO 1 2\n' >"$work/sound"
typed 'S 1987 R\nS 198714 U\nS 1987.1 R\nS 1987.10 U\nS 1987.14 R\nO 1987.1 1987.10\nO 1987 1987.14\nO 1987.14 198714\n' \
    >"$work/years"
typed 'S 101 R\nS 102 U\n' >"$work/both" # a register text and a catalogue
chmod 644 "$work"/{game,twice,whole,sound,years,both}
awk 'BEGIN {
    for (x = 0; x < 300; x++) printf "S\t%d\tR\n", 10000000 + x
    for (x = 0; x < 300; x++) for (y = 0; y < 10; y++) printf "O\t%d\t%d\n", 10000000 + x, 10000000 + (x + y) % 300
}' >"$work/long"
yes "$(head -n 20 "$work/long")" | head -n 160000 >"$work/large"

for text in examples/*.txt; do
    as_filters "$text"
done
try 'a byte more would be noticed' notices_byte
try 'another count in a warning would be noticed' notices_warning
filter list <"$work/long" >"$work/right"
three_ways 'a long listing' "$work/long" list
try 'it has more than 65,536 bytes' test "$(wc -c <"$work/right")" -gt 65536
for words in list mend catalogue uncatalogue; do
    try "$words nothing" of_nothing "$words"
done
try 'reason 5 of nothing' asked_of_nothing
try 'clean nothing' stays /dev/null
filter reason 101 <"$work/game" >"$work/right"
try 'list -- FILE' prints examples/game.listing list -- "$work/game"
try 'list --' prints examples/game.listing list -- <"$work/game"
try 'reason -- 101 FILE' prints "$work/right" reason -- 101 "$work/game"
try 'reason 101 -- FILE' prints "$work/right" reason 101 -- "$work/game"
try 'mend -- FILE' prints "$work/game" mend -- "$work/game"
for words in catalogue uncatalogue; do
    try "$words -- FILE" prints "$work/both" "$words" -- "$work/both"
done
try 'reason 101, where a file is called so' beside_a_file 101 "$work/game"
try 'reason 1987.14, where a file is called so' beside_a_file 1987.14 "$work/years"
try 'a file that is called by a date would be noticed' fails beside_a_file 1987.12.31 "$work/years"
for number in 1987 198714 1987.1 1987.10 1987.14; do
    filter reason "$number" <"$work/years" >"$work/right"
    three_ways "reason $number beside year numbers" "$work/years" reason "$number"
done
try 'an input without an end' endless
try 'a file by its name, without standard input' prints examples/game.listing list "$work/game" <&-

try 'no word' misused
try 'an empty word' misused ''
try 'an unknown command' misused lists
try 'a command in capitals' misused List
try 'an unknown option for a command' misused -x
try 'a file for a command' misused "$work/game"
for words in "${askers[@]}" clean; do
    read -ra asking <<<"$words"
    for option in -x --unknown --version -hx --helps; do
        try "$words $option" misused "${asking[@]}" "$option"
    done
    try "$words, and an unknown option behind a file" misused "${asking[@]}" "$work/game" -x
    try "$words, two files" misused "${asking[@]}" "$work/game" "$work/whole"
    try "$words, the same file twice" misused "${asking[@]}" "$work/game" "$work/game"
    try "$words, a file and -" misused "${asking[@]}" "$work/game" -
    try "$words, - twice" misused "${asking[@]}" - -
    try "$words, an empty name" misused "${asking[@]}" ''
    try "$words, an empty name behind --" misused "${asking[@]}" -- ''
    try "$words, two files behind --" misused "${asking[@]}" -- "$work/game" "$work/whole"
done
for words in list 'reason 101' catalogue uncatalogue clean; do
    read -ra asking <<<"$words"
    try "$words --report FILE" misused "${asking[@]}" --report report
    try "$words --report=FILE" misused "${asking[@]}" --report=report
    try "$words FILE --report" misused "${asking[@]}" "$work/game" --report
done
try 'reason without a number' misused reason
try 'reason without a number, but --' misused reason --
try 'reason -5' misused reason -5
try 'reason -- -5' misused reason -- -5
try 'reason of a file without a number' misused reason "$work/game"
try 'mend --report without a name' misused mend --report
try 'mend --report without a name, behind a file' misused mend "$work/game" --report
try 'mend --report with an empty name' misused mend --report ''
try 'mend --report= without a name' misused mend --report=
try 'mend with - for a report' misused mend --report -
try 'mend with two reports' misused mend --report one --report two
try 'mend with two reports, the other way' misused mend --report=one "$work/game" --report=two
try 'refusals and a word' misused refusals 5
try 'refusals and an option' misused refusals -x
try '--version and a word' misused --version list
try 'help and two words' misused help list mend
try 'help and an empty word' misused help ''
for word in lists 17 0 05 -5 5x '5 ' --unknown; do
    try "help $word" misused help "$word"
done
try 'a right use would be noticed' fails misused list
try 'a file that is made would be noticed' fails misused mend --report made
rm -f "$stage/empty/made"

long_option=-$(printf 'x%.0s' {1..70000})
for name in list catalogue uncatalogue; do
    for words in x '' - -x --help "$work/game" "$long_option" 'x y'; do
        try "the filter $name with the word '${words:0:40}'" usage_only "$name" "$words"
    done
    try "the filter $name with two words" usage_only "$name" x y
done
try 'the filter reason without a word' usage_only reason
try 'the filter reason with two words' usage_only reason 101 102
try 'the filter reason with two words, of which one is empty' usage_only reason 101 ''
try 'the filter reason with three words' usage_only reason 101 102 103
for words in -5 - -- --help "$long_option"; do
    try "the filter reason with the word ${words:0:40}" usage_only reason "$words"
done
try 'the filter mend with two words' usage_only mend made more
try 'the filter mend with two words, of which one is empty' usage_only mend made ''
try 'the filter mend with three words' usage_only mend made more words
for words in - -x -- --help "$long_option"; do
    try "the filter mend with the word ${words:0:40}" usage_only mend "$words"
done
try 'a filter that reads would be noticed' fails usage_only list
try 'a file that a filter makes would be noticed' fails usage_only mend made
rm -f "$stage/empty/made"

ln -s nowhere "$work/dangling"
for words in "${askers[@]}" clean; do
    read -ra asking <<<"$words"
    try "$words, a file that is not there" cannot "batqemulo: $work/none: " "${asking[@]}" "$work/none"
    try "$words, a folder that is not there" cannot "batqemulo: $work/none/game: " "${asking[@]}" "$work/none/game"
    try "$words, a folder" cannot "batqemulo: $work: " "${asking[@]}" "$work"
    try "$words, a link that leads nowhere" cannot "batqemulo: $work/dangling: " "${asking[@]}" "$work/dangling"
    try "$words, a file for a folder" cannot "batqemulo: $work/game/x: " "${asking[@]}" "$work/game/x"
    try "$words, no standard input" cannot 'batqemulo: standard input: ' "${asking[@]}" <&-
    try "$words, a folder as standard input" cannot 'batqemulo: standard input: ' "${asking[@]}" <"$work"
    try "$words, an input that is only to be written" cannot 'batqemulo: standard input: ' "${asking[@]}" 0>"$work/only"
    try "$words, no folder to work in" at_tmpdir "$work/none" cannot 'batqemulo: ' "${asking[@]}" "$work/game"
    try "$words, a full disk" no_room 0 "${asking[@]}" "$work/game"
done
try 'a file that is there would be noticed' fails cannot 'batqemulo: ' list "$work/game"
try 'a disk with room would be noticed' fails no_room 100 list "$work/game"
seq 120 | sed 's/.*/S\t&\tR/' >"$work/short"
yes x | head -n 300 >"$work/spoiled"
try 'a disk that is full after the text' no_room 1 list "$work/short"
try 'a disk that is full after the text, for a report' no_room 1 mend "$work/spoiled"
try 'a disk that is full in a named report' no_report no_room 1 mend "$work/spoiled" --report "$work/report"
try 'no folder for a report' no_report cannot "$work/none/report" mend "$work/game" --report "$work/none/report"
try 'a report that cannot be told' unheard mend examples/export.txt
try 'what was cleaned cannot be told' unheard clean "$work/game"
try 'a warning that cannot be told' unheard mend examples/export.txt --report "$work/unheard"
try 'what can be told would be noticed' fails unheard list "$work/game"

each_printing 'a full device' full
each_printing 'no standard output' closed
each_printing 'a closed pipe' unread default
each_printing 'a closed pipe, without the signal' unread ignore
try 'a pipe of which one byte is read' one_byte clean "$work/large"
try 'a device where nothing has to go would be noticed' fails full mend /dev/null
try 'a pipe where nothing has to go would be noticed' fails unread default mend /dev/null
try 'a pipe with room would be noticed' fails one_byte list "$work/game"

mkdir "$work/shut"
cp examples/game.txt "$work/barred"
chmod 000 "$work/barred"
chmod 500 "$work/shut"
if as_nobody true 2>/dev/null && ! as_nobody cat "$work/barred" >/dev/null 2>&1; then
    for words in "${askers[@]}" clean; do
        read -ra asking <<<"$words"
        try "$words, a file without permission" barred "batqemulo: $work/barred: " "${asking[@]}" "$work/barred"
        try "$words, a folder to work in without permission" \
            at_tmpdir "$work/shut" barred 'batqemulo: ' "${asking[@]}" "$work/game"
        # a register of three statements is no catalogue
        [ "$words" = uncatalogue ] && name=both || name=game
        try "$words, a file with permission" allowed "${asking[@]}" "$work/$name"
    done
    try 'a folder for a report, without permission' barred "$work/shut/report" mend "$work/game" --report "$work/shut/report"
    try 'sentences without permission' locked share/batqemulo/sentences.txt barred sentences.txt list "$work/game"
    try 'a filter without permission' locked bin/batqemulo-list barred 'batqemulo: list ' list "$work/game"
else
    skip 'what is without permission: nobody is barred here'
fi

for words in "${askers[@]}"; do
    read -ra asking <<<"$words"
    name=${asking[0]}
    try "$words, without the filter" without "bin/batqemulo-$name" cannot "batqemulo: $name " "${asking[@]}" "$work/game"
done
for words in "${askers[@]/%/ game}" 'clean game' refusals help 'help 5' --version lists; do
    read -ra asking <<<"${words/game/$work/game}"
    try "${words%% *}, without the sentences" without share/batqemulo/sentences.txt cannot sentences.txt "${asking[@]}"
done
try 'help without its file' without share/batqemulo/help.txt cannot help.txt help
try '--version without its file' without share/batqemulo/version cannot version --version
try 'clean without its file' without share/batqemulo/clean.awk cannot "$work/game" clean "$work/game"
try 'a refusal without its words is one still' \
    without share/batqemulo/explain.awk prints examples/twice.listing list "$work/twice"
try 'a whole command would be noticed' fails without share/batqemulo/explain.awk cannot "$work/game" list "$work/game"

lay
for thing in register folder link dangling queue locked blank folder/inside; do
    try "a report in the place of: $thing" spares_by_command mend --report "$work/there/$thing"
    try "a report in the place of: $thing, the other way" spares_by_command mend "--report=$work/there/$thing"
    try "a report in the place of: $thing, with a file" spares_by_command mend "$work/game" --report "$work/there/$thing"
    try "a report of the filter in the place of: $thing" spares "$stage/bin/batqemulo-mend" "$work/there/$thing"
done
try 'a report in the place of the register itself' spares_its_own
try 'a report of ./mend in the place of a register' spares ./mend "$work/there/register"
try 'a report of ./batqemulo in the place of a register' spares ./batqemulo mend --report "$work/there/register"
try 'a thing that is lost would be noticed' notices_loss
try 'an input that is read would be noticed' notices_reading
try 'a report whose name begins with -' dashed --report -x
try 'a report whose name begins with -, the other way' dashed --report=-x

try 'the sound register' sound_listed
try 'Windows line ends' damaged 'S 1 R\r\nS 2 U\r\nO 1 2\r\n' 3 1 'S<tab>1<tab>R<CR>' windows
try 'a Windows line end on one line' damaged 'S 1 R\nS 2 U\r\nO 1 2\n' 3 2 'S<tab>2<tab>U<CR>' windows
try 'a blank line with a Windows line end' damaged 'S 1 R\n\r\n' 3 2 '<CR>' windows
try 'a byte order mark' damaged '\0357\0273\0277S 1 R\nS 2 U\n' 3 1 '<EF><BB><BF>S<tab>1<tab>R' mark-of-order
try 'a byte order mark and Windows line ends' \
    damaged '\0357\0273\0277S 1 R\r\n' 3 1 '<EF><BB><BF>S<tab>1<tab>R<CR>' mark-of-order windows
try 'the bytes of the mark on another line' damaged 'S 1 R\n\0357\0273\0277S 2 U\n' 3 2 '<EF><BB><BF>S<tab>2<tab>U' first
try 'a tab behind the last field' damaged 'S 1 R\nS 2 U \nO 1 2\n' 3 2 'S<tab>2<tab>U<tab>' tab-behind
try 'tabs behind the last field' damaged 'S 1 R  \n' 3 1 'S<tab>1<tab>R<tab><tab>' tab-behind
try 'a tab and a Windows line end' damaged 'S 1 R \r\n' 3 1 'S<tab>1<tab>R<tab><CR>' windows tab-behind
try 'a missing tab' damaged 'S1 R\n' 3 1 'S1<tab>R' tab-missing
try 'another missing tab' damaged 'S 1R\n' 3 1 'S<tab>1R' tab-missing
try 'no tab at all' damaged 'S1R\n' 3 1 S1R tab-missing
try 'a missing field' damaged 'S 1 R\nS 2\n' 3 2 'S<tab>2' tab-missing
try 'spaces for tabs' damaged 'S_1_R\n' 3 1 'S<space>1<space>R' space
try 'a space for one tab' damaged 'S_1 R\n' 3 1 'S<space>1<tab>R' space tab-missing
try 'spaces for tabs, more than there need be' damaged 'S__1__R\n' 3 1 'S<space><space>1<space><space>R' space
try 'spaces for tabs, and one behind the line' damaged 'S_1_R_\n' 3 1 'S<space>1<space>R<space>' space
try 'a space behind the line' damaged 'S 1 R_\n' 3 1 'S<tab>1<tab>R<space>' space
try 'a space before the line' damaged '_S 1 R\n' 3 1 '<space>S<tab>1<tab>R' space
try 'a space beside a tab' damaged 'S _1 R\n' 3 1 'S<tab><space>1<tab>R' space
try 'commas' damaged 'S,1,R\nS,2,U\n' 3 1 'S,1,R' comma
try 'commas and spaces' damaged 'S,_1,_R\n' 3 1 'S,<space>1,<space>R' comma space
try 'semicolons' damaged 'S 1 R\nS;2;U\n' 3 2 'S;2;U' semicolon
try 'a lower-case s' damaged 's 1 R\n' 3 1 's<tab>1<tab>R' lower
try 'a lower-case o' damaged 'S 1 R\no 1 1\n' 3 2 'o<tab>1<tab>1' lower
try 'a lower-case r' damaged 'S 1 r\n' 3 1 'S<tab>1<tab>r' lower
try 'a lower-case u' damaged 'S 1 u\n' 3 1 'S<tab>1<tab>u' lower
try 'two lower-case letters' damaged 's 1 r\n' 3 1 's<tab>1<tab>r' lower
try 'a leading zero' damaged 'S 07 R\n' 3 1 'S<tab>07<tab>R' zero/07
try 'the number 0' damaged 'S 0 R\n' 3 1 'S<tab>0<tab>R' zero/0
try 'a leading zero of a target' damaged 'S 1 R\nO 1 01\n' 3 2 'O<tab>1<tab>01' zero/01
try 'nine digits' damaged 'S 123456789 R\n' 3 1 'S<tab>123456789<tab>R' nine/123456789/9
try 'ten digits of an objector' damaged 'S 1 R\nO 1234567890 1\n' 3 2 'O<tab>1234567890<tab>1' nine/1234567890/10
try 'a heading' damaged 'Kind Number Mark\nS 1 R\n' 3 1 'Kind<tab>Number<tab>Mark' heading
try 'a heading with commas' damaged 'kind,number,mark\n' 3 1 'kind,number,mark' heading
try 'a heading behind a byte order mark' \
    damaged '\0357\0273\0277Kind Number Mark\r\n' 3 1 '<EF><BB><BF>Kind<tab>Number<tab>Mark<CR>' mark-of-order windows heading
try 'no last line end' damaged 'S 1 R\nS 2 U\nO 1 2' 2 0 'O<tab>1<tab>2' unended/3
try 'one line, and no line end' damaged 'S 1 R' 2 0 'S<tab>1<tab>R' unended/1
try 'no last line end, of a line that is spoiled too' damaged 'S 1 R\ns 2 U' 2 0 's<tab>2<tab>U' lower unended/2
try 'a blank line' damaged 'S 1 R\n\nS 2 U\n' 3 2 '' blank
try 'a line of tabs and spaces' damaged 'S 1 R\n _ \nS 2 U\n' 3 2 '<tab><space><tab>' blank
try 'a blank line at the end' damaged 'S 1 R\n\n' 3 2 '' blank
try 'an unknown mark' damaged 'S 1 X\n' 3 1 'S<tab>1<tab>X' mark
try 'a mark of two letters' damaged 'S 1 RU\n' 3 1 'S<tab>1<tab>RU' mark
try 'neither S nor O' damaged 'X 1 R\n' 3 1 'X<tab>1<tab>R' first
try 'neither S nor O, and neither a number' damaged 'X y R\n' 3 1 'X<tab>y<tab>R' first digits/y
try 'too many fields' damaged 'S 1 R 5\n' 3 1 'S<tab>1<tab>R<tab>5' too-many
try 'too many fields, and no number' damaged 'S 1 R x\n' 3 1 'S<tab>1<tab>R<tab>x' too-many
try 'too many fields, those of a card' damaged 'S 1 R 5 7\n' 3 1 'S<tab>1<tab>R<tab>5<tab>7' too-many card
try 'too many fields, those of a card with year numbers' \
    damaged 'S 1 R\nS 1987.14 U 1 1987.1\n' 3 2 'S<tab>1987.14<tab>U<tab>1<tab>1987.1' too-many card
try 'too many fields of an objection' damaged 'S 1 R\nO 1 1 1\n' 3 2 'O<tab>1<tab>1<tab>1' too-many
try 'a number with a comma' damaged 'S 1,024 R\n' 3 1 'S<tab>1,024<tab>R' digits/1,024
try 'a number with a sign' damaged 'S +5 R\n' 3 1 'S<tab>+5<tab>R' digits/+5
try 'a target that is no number' damaged 'S 1 R\nO 1 R\n' 3 2 'O<tab>1<tab>R' digits/R
try 'no number' damaged 'S  R\n' 3 1 'S<tab><tab>R' no-digits
try 'letters of other alphabets' damaged 'S \0303\0244 R\n' 3 1 'S<tab><C3><A4><tab>R' 'digits/<C3><A4>'
try 'bytes that control' damaged 'S \0033[2J R\n' 3 1 'S<tab><1B>[2J<tab>R' 'digits/<1B>[2J'
try 'the last byte of ASCII' damaged 'S \0177 R\n' 3 1 'S<tab><7F><tab>R' 'digits/<7F>'
try 'a byte 0' damaged 'S 1 R\nS \00002 R\n' 3 2 'S<tab><00>2<tab>R' 'digits/<00>2'
try 'percent, backslash and ampersand' damaged 'S %1&\\%s R\n' 3 1 'S<tab>%1&\%s<tab>R' 'digits/%1&\%s'
try 'several damages' damaged 's,_01,r\r\n' 3 1 's,<space>01,r<CR>' windows comma space lower zero/01
try 'more of them' damaged 'O;07;123456789 \r\n' 3 1 'O;07;123456789<tab><CR>' windows tab-behind semicolon zero/07 \
    nine/123456789/9
try 'a very long line' damaged "S 1 R\n$(printf 'x%.0s' {1..300})\n" 3 2 "$(printf 'x%.0s' {1..120}) .." heading
try 'a line of 120 letters' damaged "$(printf 'x%.0s' {1..120})\n" 3 1 "$(printf 'x%.0s' {1..120})" heading
try 'a very long line of tabs' \
    damaged "S$(printf ' %.0s' {1..300})\n" 3 1 "S$(printf '<tab>%.0s' {1..24}) .." tab-behind tab-missing
try 'a very long number, shown' \
    damaged "S $(printf '7%.0s' {1..300}) R\n" 3 1 "S<tab>$(printf '7%.0s' {1..114}) .." "nine/$(printf '7%.0s' {1..40}) ../300"
try 'a very long number' short_lines "S $(printf '1%.0s' {1..3000}) R\n"
try 'a very long serial' short_lines "S 1987.$(printf '1%.0s' {1..3000}) R\n"
try 'a very long word for a number' short_lines "S $(printf 'x%.0s' {1..3000}) R\n"

for number in .14 1.5 999.1 0999.1 2100.1 3000.1 19870.1; do
    try "no year: $number" damaged "S $number R\n" 3 1 "S<tab>$number<tab>R" "year/$number"
done
for number in 1987.0 1987.01 2099.0001 1000.00000; do
    try "a serial that begins with 0: $number" damaged "S $number R\n" 3 1 "S<tab>$number<tab>R" "serial-zero/$number"
done
for number in 1987.14.2 1987..14 14.12.1987 ...; do
    try "points: $number" damaged "S $number R\n" 3 1 "S<tab>$number<tab>R" "points/$number"
done
for number in 1987.1a l987.14 1987.l4 1987.1O x. 1987.R.2; do
    try "a letter: $number" damaged "S $number R\n" 3 1 "S<tab>$number<tab>R" "letter/$number"
done
for number in 1987.+1 '1987."14"' 1987-14 1987:14 1987,014 999,1 1987,14,2 1987,14.2; do
    try "neither form: $number" damaged "S $number R\n" 3 1 "S<tab>$number<tab>R" "digits/$number"
done
try 'no serial' damaged 'S 1987. R\n' 3 1 'S<tab>1987.<tab>R' no-serial/1987.
try 'a serial of five digits' damaged 'S 1987.12345 R\n' 3 1 'S<tab>1987.12345<tab>R' serial-long/1987.12345/5
try 'a serial of eight digits' damaged 'S 1987.12345678 R\n' 3 1 'S<tab>1987.12345678<tab>R' serial-long/1987.12345678/8
try 'neither a year nor a serial' damaged 'S . R\n' 3 1 'S<tab>.<tab>R' year/. no-serial/.
try 'no year, and a serial that begins with 0' damaged 'S 1.024 R\n' 3 1 'S<tab>1.024<tab>R' year/1.024 serial-zero/1.024
try 'a comma for the point' damaged 'S 1987,14 R\n' 3 1 'S<tab>1987,14<tab>R' comma-for-point/1987,14/1987.14
try 'a comma for the point, and semicolons' \
    damaged 'S;1987,14;R\n' 3 1 'S;1987,14;R' semicolon comma-for-point/1987,14/1987.14
try 'a comma for the point of a target' \
    damaged 'S 1 R\nO 1 2099,9999\n' 3 2 'O<tab>1<tab>2099,9999' comma-for-point/2099,9999/2099.9999
try 'a letter of another alphabet behind a point' \
    damaged 'S 1987.\0303\0244 R\n' 3 1 'S<tab>1987.<C3><A4><tab>R' 'digits/1987.<C3><A4>'
try 'a byte that controls behind a point' damaged 'S 1987.\0033 R\n' 3 1 'S<tab>1987.<1B><tab>R' 'digits/1987.<1B>'
try 'an objector without a serial, a target without a year' \
    damaged 'S 1 R\nO 1987. 87.14\n' 3 2 'O<tab>1987.<tab>87.14' no-serial/1987. year/87.14
try 'the same damage twice' damaged 'S 1 R\nO 1987. 1987.\n' 3 2 'O<tab>1987.<tab>1987.' no-serial/1987.
for number in 1000.1 1987.14 1999.9999 2000.10 2099.9999; do
    try "nothing is said of the number $number" damaged "S $number r\n" 3 1 "S<tab>$number<tab>r" lower
done
try 'nothing is said of an objector of a year' damaged 'O 1987.14 07\n' 3 1 'O<tab>1987.14<tab>07' zero/07
try 'nothing is said of a target of a year' damaged 'O 07 1987.14\n' 3 1 'O<tab>07<tab>1987.14' zero/07
try 'commas beside a year number' damaged 'S,1987.14,R\n' 3 1 'S,1987.14,R' comma
try 'spaces beside a year number' damaged 'S_1987.14_R\n' 3 1 'S<space>1987.14<space>R' space
try 'a space in a year number' damaged 'S 1987._14 R\n' 3 1 'S<tab>1987.<space>14<tab>R' space
try 'a missing tab behind a year number' damaged 'S 1987.14R\n' 3 1 'S<tab>1987.14R' tab-missing
try 'no last line end behind a year number' damaged 'S 1 R\nO 1987.14 1' 2 0 'O<tab>1987.14<tab>1' unended/2
try 'another word in a hint would be noticed' fails damaged 'S 1987.0 R\n' 3 1 'S<tab>1987.0<tab>R' serial-zero/1987.00
try 'a number said to be none would be noticed' fails damaged 'S 1987.14 r\n' 3 1 'S<tab>1987.14<tab>r' lower digits/1987.14

try 'a late statement' damaged 'S 1 R\nO 1 1\nS 2 R\n' 4 3 'S<tab>2<tab>R' objection/2
try 'a late statement, behind two objections' damaged 'S 1 R\nS 3 R\nO 1 1\nO 1 3\nS 2 R\n' 4 5 'S<tab>2<tab>R' objection/3
try 'a late statement whose number is issued' damaged 'S 1 R\nO 1 1\nS 1 R\n' 4 3 'S<tab>1<tab>R' objection/2
try 'a number issued twice' damaged 'S 1 R\nS 2 R\nS 1 U\n' 5 3 'S<tab>1<tab>U' issued/1/1
try 'a number issued twice, one behind the other' damaged 'S 1 R\nS 2 R\nS 2 R\nO 1 1\n' 5 3 'S<tab>2<tab>R' issued/2/2
try 'the 1,025th statement' beyond full_register 'S 1025 R\n' 6 1025 'S<tab>1025<tab>R' most-statements
try 'the 1,025th statement, issued before' beyond full_register 'S 7 R\n' 6 1025 'S<tab>7<tab>R' most-statements
try 'an unknown target' damaged 'S 1 R\nO 1 9\n' 7 2 'O<tab>1<tab>9' unknown/9
try 'an unknown objector' damaged 'S 1 R\nO 9 1\n' 7 2 'O<tab>9<tab>1' unknown/9
try 'both unknown' damaged 'S 1 R\nO 8 9\n' 7 2 'O<tab>8<tab>9' unknown/8 unknown/9
try 'both unknown, and the same' damaged 'S 1 R\nO 9 9\n' 7 2 'O<tab>9<tab>9' unknown/9
try 'a target that is issued only later' damaged 'S 1 R\nO 1 2\nS 2 R\n' 7 2 'O<tab>1<tab>2' issued-late/2/3
try 'both issued only later' damaged 'O 1 2\nS 1 R\nS 2 R\n' 7 1 'O<tab>1<tab>2' issued-late/1/2 issued-late/2/3
try 'one unknown, one issued only later' damaged 'O 9 2\nS 1 R\nS 2 R\n' 7 1 'O<tab>9<tab>2' unknown/9 issued-late/2/3
try 'a repeated objection' damaged 'S 1 R\nS 2 R\nO 1 2\nO 2 1\nO 1 2\n' 8 5 'O<tab>1<tab>2' said/1/2/3
try 'a repeated objection against itself' damaged 'S 1 R\nO 1 1\nO 1 1\n' 8 3 'O<tab>1<tab>1' said/1/1/2
try 'the 4,097th objection' beyond full_of_objections 'O 1 1\n' 9 4161 'O<tab>1<tab>1' most-objections
try 'the 4,097th objection, by an unknown one' beyond full_of_objections 'O 99 1\n' 9 4161 'O<tab>99<tab>1' most-objections
try 'a late statement with a year number' \
    damaged 'S 1987.1 R\nO 1987.1 1987.1\nS 1987.10 R\n' 4 3 'S<tab>1987.10<tab>R' objection/2
try 'a year number issued twice' damaged 'S 1987.1 R\nS 1987.10 R\nS 1987.1 U\n' 5 3 'S<tab>1987.1<tab>U' issued/1987.1/1
try 'a year number issued twice, with another digit behind it' \
    damaged 'S 1987.1 R\nS 1987.10 R\nS 1987.10 U\n' 5 3 'S<tab>1987.10<tab>U' issued/1987.10/2
try 'a plain number issued twice, and the same digits with a point' \
    damaged 'S 1987.14 R\nS 198714 R\nS 198714 U\n' 5 3 'S<tab>198714<tab>U' issued/198714/2
try 'the 1,025th statement, with a year number' \
    beyond full_register 'S 1987.14 R\n' 6 1025 'S<tab>1987.14<tab>R' most-statements
try 'an unknown year number' damaged 'S 1987.1 R\nO 1987.1 1987.10\n' 7 2 'O<tab>1987.1<tab>1987.10' unknown/1987.10
try 'an unknown year, and that year as a number' damaged 'S 1987 R\nO 1987.1 1987\n' 7 2 'O<tab>1987.1<tab>1987' unknown/1987.1
try 'an unknown number without its point' damaged 'S 1987.14 R\nO 198714 1987.14\n' 7 2 'O<tab>198714<tab>1987.14' unknown/198714
try 'two unknown numbers of one value' \
    damaged 'O 1987.1 1987.10\n' 7 1 'O<tab>1987.1<tab>1987.10' unknown/1987.1 unknown/1987.10
try 'a year number that is issued only later' \
    damaged 'S 1987.1 R\nO 1987.10 1987.1\nS 1987.100 R\nS 1987.10 R\n' 7 2 'O<tab>1987.10<tab>1987.1' issued-late/1987.10/4
try 'a repeated objection of year numbers' \
    damaged 'S 1987.1 R\nS 1987.10 R\nO 1987.1 1987.10\nO 1987.10 1987.1\nO 1987.10 1987.10\nO 1987.10 1987.1\n' 8 6 \
    'O<tab>1987.10<tab>1987.1' said/1987.10/1987.1/4
try 'the 4,097th objection, by a year number' \
    beyond full_of_objections 'O 1987.14 1\n' 9 4161 'O<tab>1987.14<tab>1' most-objections
try 'another number of the same value would be noticed' \
    fails damaged 'S 1987.1 R\nS 1987.10 R\nS 1987.10 U\n' 5 3 'S<tab>1987.10<tab>U' issued/1987.10/1
try 'a text that is too long' long_told too_long
try 'a text that is too long, in UTF-16' long_told too_wide utf16
typed 'S 1 R\nS 1 R\n' >"$work/text"
try 'a refusal of standard input' told_of 'standard input' 5 2 'S<tab>1<tab>R' issued/1/1
try 'another name for it would be noticed' fails told_of "$work/text" 5 2 'S<tab>1<tab>R' issued/1/1

try 'UTF-16, the low byte first' wide_told UTF-16LE '' 2 0 '<00>' utf16
try 'UTF-16, the low byte first, with a mark' wide_told UTF-16LE '\0377\0376' 2 0 '<00>' utf16
try 'UTF-16, the high byte first' wide_told UTF-16BE '' 3 1 '<00>S<00><tab><00>1<00><tab><00>R<00>' utf16
try 'UTF-16, the high byte first, with a mark' \
    wide_told UTF-16BE '\0376\0377' 3 1 '<FE><FF><00>S<00><tab><00>1<00><tab><00>R<00>' utf16

try 'another line would be noticed' fails damaged 'S 1 R\nS 1 R\n' 5 1 'S<tab>1<tab>R' issued/1/1
try 'another refusal would be noticed' fails damaged 'S 1 R\nS 1 R\n' 4 2 'S<tab>1<tab>R' issued/1/1
try 'another line shown would be noticed' fails damaged 'S 1 R\nS 1 R\n' 5 2 'S<tab>1<tab>U' issued/1/1
try 'another place in a hint would be noticed' fails damaged 'S 1 R\nS 1 R\n' 5 2 'S<tab>1<tab>R' issued/1/2
try 'a hint too many would be noticed' fails damaged 'S,1,R\n' 3 1 'S,1,R'
try 'a hint too few would be noticed' fails damaged 'S,1,R\n' 3 1 'S,1,R' comma space
try 'another hint would be noticed' fails damaged 'S,1,R\n' 3 1 'S,1,R' semicolon
try 'a sound text would be noticed' fails damaged 'S 1 R\n' 3 1 'S<tab>1<tab>R'

try 'catalogue: a sound one' sound_cards
try 'catalogue: a text that is too long' of_cards long_told too_long
try 'catalogue: a text that is too long, in UTF-16' of_cards long_told too_wide utf16
try 'catalogue: a register text that would be too long' of_cards back_told text-bytes/82752
try 'catalogue: another number of bytes would be noticed' fails of_cards back_told text-bytes/82751
try 'catalogue: UTF-16' of_cards wide_told UTF-16LE '' 2 0 '<00>' utf16
try 'catalogue: UTF-16, the high byte first' \
    of_cards wide_told UTF-16BE '' 3 1 '<00>S<00><tab><00>1<00><tab><00>R<00>' utf16
try 'catalogue: no last line end' of_cards damaged 'S 1 R 2\nS 2 R 1' 2 0 'S<tab>2<tab>R<tab>1' unended/2
try 'catalogue: Windows line ends' of_cards damaged 'S 1 R 2\r\nS 2 U\r\n' 3 1 'S<tab>1<tab>R<tab>2<CR>' windows
try 'catalogue: a byte order mark' \
    of_cards damaged '\0357\0273\0277S 1 R 1\n' 3 1 '<EF><BB><BF>S<tab>1<tab>R<tab>1' mark-of-order
try 'catalogue: a blank line' of_cards damaged 'S 1 R\n\n' 3 2 '' blank
try 'catalogue: a heading' \
    of_cards damaged 'Kind Number Mark Objectors\n' 3 1 'Kind<tab>Number<tab>Mark<tab>Objectors' heading
try 'catalogue: commas' of_cards damaged 'S,1,R,1\n' 3 1 'S,1,R,1' comma
try 'catalogue: semicolons' of_cards damaged 'S;1;R;1987,14\n' 3 1 'S;1;R;1987,14' semicolon comma-for-point/1987,14/1987.14
try 'catalogue: spaces for tabs' of_cards damaged 'S_1_R_1\n' 3 1 'S<space>1<space>R<space>1' space
try 'catalogue: a tab behind the last objector' of_cards damaged 'S 1 R 1 \n' 3 1 'S<tab>1<tab>R<tab>1<tab>' tab-behind
try 'catalogue: two tabs before an objector' of_cards damaged 'S 1 R  1\n' 3 1 'S<tab>1<tab>R<tab><tab>1' no-digits
try 'catalogue: a tab before the line' of_cards damaged ' S 1 R\n' 3 1 '<tab>S<tab>1<tab>R' first-of-card
try 'catalogue: a missing tab' of_cards damaged 'S 1R\n' 3 1 'S<tab>1R' card-short
try 'catalogue: a missing mark' of_cards damaged 'S 1 2\n' 3 1 'S<tab>1<tab>2' mark
try 'catalogue: an unknown mark' of_cards damaged 'S 1 X 1\n' 3 1 'S<tab>1<tab>X<tab>1' mark
try 'catalogue: lower-case letters' of_cards damaged 's 1 r 1\n' 3 1 's<tab>1<tab>r<tab>1' lower
try 'catalogue: another letter' of_cards damaged 'X 1 R 1\n' 3 1 'X<tab>1<tab>R<tab>1' first-of-card
try 'catalogue: an objection line' of_cards damaged 'S 1 R\nS 2 R\nO 1 2\n' 3 3 'O<tab>1<tab>2' objection-line
try 'catalogue: a lower-case o' of_cards damaged 'o 1 07\n' 3 1 'o<tab>1<tab>07' objection-line lower zero/07
try 'catalogue: no numbers' of_cards damaged 'S 01 R 07 1987.0 x\n' 3 1 'S<tab>01<tab>R<tab>07<tab>1987.0<tab>x' \
    zero/01 zero/07 serial-zero/1987.0 digits/x
try 'catalogue: the same damage twice' of_cards damaged 'S 1 R 07 2 07\n' 3 1 'S<tab>1<tab>R<tab>07<tab>2<tab>07' zero/07
try 'catalogue: more damages than are told' of_cards damaged "S 1 R$(printf ' 0%d' {1..12})\n" 3 1 \
    "S<tab>1<tab>R$(printf '<tab>0%d' {1..12})" zero/0{1..8}
try 'catalogue: a very long number' of_cards short_lines "S 1 R $(printf '1%.0s' {1..3000})\n"
try 'catalogue: a very long card' of_cards short_lines "S 1 R$(printf ' %d' {2000..4000})\n"
try 'catalogue: a number issued twice' of_cards damaged 'S 1 R 2\nS 2 R 1\nS 1 U\n' 5 3 'S<tab>1<tab>U' issued/1/1
try 'catalogue: the 1,025th statement' \
    of_cards beyond full_register 'S 1025 R 1\n' 6 1025 'S<tab>1025<tab>R<tab>1' most-statements
try 'catalogue: an objector without a card' of_cards damaged 'S 1 R 1 9\n' 7 1 'S<tab>1<tab>R<tab>1<tab>9' unknown/9
try 'catalogue: two of them, and one named twice' \
    of_cards damaged 'S 1 R 2\nS 2 R 9 1 1987.1 9\n' 7 2 'S<tab>2<tab>R<tab>9<tab>1<tab>1987.1<tab>9' unknown/9 unknown/1987.1
try 'catalogue: an objector named twice' \
    of_cards damaged 'S 1 R 2 1 2\nS 2 R\n' 8 1 'S<tab>1<tab>R<tab>2<tab>1<tab>2' twice/2
try 'catalogue: two objectors named twice, and one thrice' \
    of_cards damaged 'S 2 R\nS 1 R 1 2 1 2 1\n' 8 2 'S<tab>1<tab>R<tab>1<tab>2<tab>1<tab>2<tab>1' twice/1 twice/2
try 'catalogue: the 4,097th objector' \
    of_cards beyond full_of_objectors 'S 65 R 1 2\n' 9 65 'S<tab>65<tab>R<tab>1<tab>2' most-objectors
try 'catalogue: what a refusal means of a register text would be noticed' fails of_cards meant_of_text
try 'catalogue: another objector would be noticed' \
    fails of_cards damaged 'S 1 R 2 1 2\nS 2 R\n' 8 1 'S<tab>1<tab>R<tab>2<tab>1<tab>2' twice/1

try 'reason: a text that is too long' by_reason long_told too_long
try 'reason: no last line end' by_reason damaged 'S 1 R\nS 2 U\nO 1 2' 2 0 'O<tab>1<tab>2' unended/3
try 'reason: a comma' by_reason damaged 'S,1,R\n' 3 1 'S,1,R' comma
try 'reason: a comma for the point' \
    by_reason damaged 'S 1987,14 R\n' 3 1 'S<tab>1987,14<tab>R' comma-for-point/1987,14/1987.14
try 'reason: a late statement' by_reason damaged 'S 1 R\nO 1 1\nS 2 R\n' 4 3 'S<tab>2<tab>R' objection/2
try 'reason: a number issued twice' by_reason damaged 'S 1 R\nS 1 U\n' 5 2 'S<tab>1<tab>U' issued/1/1
try 'reason: the 1,025th statement' by_reason beyond full_register 'S 1025 R\n' 6 1025 'S<tab>1025<tab>R' most-statements
try 'reason: an unknown target' by_reason damaged 'S 1 R\nO 1 9\n' 7 2 'O<tab>1<tab>9' unknown/9
try 'reason: a repeated objection' by_reason damaged 'S 1 R\nO 1 1\nO 1 1\n' 8 3 'O<tab>1<tab>1' said/1/1/2
try 'reason: the 4,097th objection' by_reason beyond full_of_objections 'O 1 1\n' 9 4161 'O<tab>1<tab>1' most-objections
try 'reason: a number that is not issued' asked 5 asked/5
try 'reason: the greatest plain number' asked 99999999 asked/99999999
for word in 1000.1 1987.14 1999.9999 2000.1 2099.9999; do
    try "reason: the year number $word is not issued" asked "$word" "asked/$word"
done
for word in 07 0 123456789 119870014 five 1.5 +1 S '1 2' '%1&' 0999.1 2100.1 19870.1 1987. 1987.0 1987.01 1987.12345 .14 \
    1987.14.2 999.1 1987,14 1987.1a 1987.14_ 1987.1234x; do
    try "reason: $word is no number" asked "$word" "asked-no-number/$word"
done
try 'reason: an empty word is no number' asked '' 'asked-no-number/an empty word'
try 'reason: an issued number would be noticed' fails asked 1 asked/1

for text in examples/*.{txt,catalogue}; do
    try "clean ${text##*/}: nothing to do" stays "$text"
done
try 'clean: the sound register' stays "$work/sound"
try 'clean: year numbers' stays "$work/years"
try 'clean: Windows line ends' restored 'sed "s/$/\r/"' windows/"$(counted 3)"
try 'clean: one Windows line end' restored 'sed "2s/$/\r/"' windows/"$(counted 1)"
try 'clean: Windows line ends, twice' restored 'sed "s/$/\r\r/"' windows/"$(counted 3)"
try 'clean: a byte order mark' restored 'printf "\357\273\277" && cat' mark-of-order/"$(counted 1)"
try 'clean: tabs behind every line' restored 'sed "s/$/\t/"' tabs/"$(counted 3)"
try 'clean: tabs behind one line' restored 'sed "3s/$/\t\t\t/"' tabs/"$(counted 1)"
try 'clean: tabs before Windows line ends' restored 'sed "1,2s/$/\t\r/"' windows/"$(counted 2)" tabs/"$(counted 2)"
try 'clean: tabs behind Windows line ends' restored 'sed "1,2s/$/\r\t/"' windows/"$(counted 2)" tabs/"$(counted 2)"
try 'clean: no last line end' restored 'head -c -1' unended/"$(counted 1)"
try 'clean: no last line end, and a tab' restored 'head -c -1 && printf "\t"' tabs/"$(counted 1)" unended/"$(counted 1)"
try 'clean: no last line end, and byte 13' restored 'head -c -1 && printf "\r"' windows/"$(counted 1)" unended/"$(counted 1)"
try 'clean: all of that' restored 'printf "\357\273\277" && sed "s/$/\t\r/" | head -c -1' \
    mark-of-order/"$(counted 1)" windows/"$(counted 3)" tabs/"$(counted 3)" unended/"$(counted 1)"
for code in UTF-16LE UTF-16BE; do
    try "clean: $code" restored "iconv -f UTF-8 -t $code" utf16/"$(counted 3)"
    try "clean: $code with a mark" restored "printf '\357\273\277' | cat - '$work/sound' | iconv -f UTF-8 -t $code" \
        utf16/"$(counted 3)"
    try "clean: $code with all of that" \
        restored "{ printf '\357\273\277' && sed 's/$/\t\r/' '$work/sound' | head -c -1; } | iconv -f UTF-8 -t $code" \
        utf16/"$(counted 3)" windows/"$(counted 3)" tabs/"$(counted 3)" unended/"$(counted 1)"
done
sed 's/$/\r/' "$work/years" >"$work/text"
try 'clean: Windows line ends behind year numbers' cleans "$work/text" "$work/years" windows/"$(counted 8)"
sed 's/$/\t\r/' examples/loan.catalogue >"$work/text"
try 'clean: tabs and Windows line ends behind cards' \
    cleans "$work/text" examples/loan.catalogue windows/"$(counted 5)" tabs/"$(counted 5)"
iconv -f UTF-8 -t UTF-16LE <"$work/years" >"$work/text"
try 'clean: year numbers in UTF-16' cleans "$work/text" "$work/years" utf16/"$(counted 8)"
try 'clean: another count would be noticed' fails restored 'sed "s/$/\r/"' windows/"$(counted 2)"
try 'clean: something not told would be noticed' fails restored 'sed "s/$/\r/"' windows/"$(counted 3)" tabs/"$(counted 1)"
try 'clean: what is not restored would be noticed' fails restored 'sed "s/\t/,/g"' nothing
for words in 'S,1,R\n' 'S_1_R\n' 's 1 R\n' 'Kind Number Mark\nS 1 R\n' 'S 07 R\n' 'S 1 R\n\nS 2 R\n' 'S 1 R 5\n' ' S 1 R\n' \
    'S\r 1 R\n' 'S 1 R\n\0357\0273\0277S 2 R\n' 'S 1 R\nS \0000 R\n' 'S 1 R_\n' 'O 1 2\nS 1 R\n' 'S 1 R\nS 1 R\n' \
    'S 1987,14 R\n' 'S 1987. R\n' 'S .14 R\n' 'S 1987.014 R\n' 'S 1987._14 R\n'; do
    try "clean leaves $words" left "$words"
done
try 'clean: no line of the damaged texts goes' damages_kept
try 'clean: 200 random texts' random_kept 200 120
try 'clean: 60 random texts of few bytes' random_kept 60 60 9 13 10 83 49 82 32 239 187 191
try 'clean: a line that goes would be noticed' notices_drop
try 'clean: there is a text of 2 MB' test "$(wc -c <"$work/large")" -gt 2000000
try 'clean: a text of 2 MB' stays "$work/large"
for bytes in '\0377\0376S' '\0376\0377\0000' 'S\0000\n' '\0000S\n' '\0000' '\0377\0376\0000\0330\n\0000'; do
    try "clean: no UTF-16: $bytes" unreadable "$bytes"
done
try 'clean: UTF-16 without iconv' without_iconv
printf '\357\273\277\357\273\277S\t1\tR\n' >"$work/text"
try 'clean: two byte order marks, once and again' twice_the_same

try 'mend warns of a line that is not ended' warns 1 'S 1 R\nS 2 R\nO 2 1'
try 'mend warns of a spoiled line' warns 1 'S 1 R\nS 2\n'
try 'mend warns of three lines' warns 3 'S 1 R\nx\n\nS 2'
try 'mend warns of Windows line ends' warns 3 'S 1 R\r\nS 2 R\r\nO 2 1\r\n'
try 'mend does not warn of a register' warns 0 'S 1 R\nS 2 R\nO 2 1\n'
try 'mend does not warn of year numbers' warns 0 'S 1987.1 R\nS 1987.10 R\nO 1987.1 1987.10\n'
try 'mend warns of a spoiled year number' warns 1 'S 1987.1 R\nS 1987.01 R\n'
try 'mend does not warn of a second statement on line 3' warns 0 'S 1 R\nS 2 R\nS 2 R\n'
try 'mend does not warn of an unknown number on line 2' warns 0 'S 1 R\nO 2 3\n'
try 'mend does not warn of a repeat, nor of a late statement' warns 0 'S 1 R\nO 1 1\nO 1 1\nS 3 R\n'
try 'mend warns only of what is spoiled' warns 1 'S 1 R\nS 1 R\nO 1 1\nO 1 1\nS 3 R\nx\nO 9 1\n'
try 'another number of lines would be noticed' fails warns 2 'S 1 R\nS 2\n'
try 'clean first: what falls is not said to stand' clean_first
try 'mend: a text that is too long' too_long_to_mend
try 'mend: a text that is too long, and a report' too_long_to_mend --report "$work/report"

try 'sixteen refusals' all_refusals
try 'the sentences have three fields, and no key twice' three_fields command/sentences.txt
try 'a key that comes twice would be noticed' notices three_fields 's/^comma\t/semicolon\t/'
try 'a row of two fields would be noticed' notices three_fields 's/^\(comma\)\t-/\1/'
try 'an empty sentence would be noticed' notices three_fields 's/^\(comma\t-\t\).*/\1/'
try 'the refusals are those of the header' as_header command/sentences.txt
try 'a refusal that is left out would be noticed' notices as_header '/^7\t/d'
try 'another number would be noticed' notices as_header 's/^7\t/17\t/'
try 'another name would be noticed' notices as_header 's/BATQEMULO_NUMBER_UNKNOWN/BATQEMULO_NUMBER_LOST/'
try 'a name too many would be noticed' notices as_header 's/^comma\t-/comma\tBATQEMULO_COMMA/'
try 'a number too many would be noticed' notices as_header 's/^comma\t/17\t/'
try 'the keys are those that are used' as_used command/sentences.txt
try 'a key that is left out would be noticed' notices as_used '/^did-tabs\t/d'
try 'another key that is left out would be noticed' notices as_used '/^lost\t/d'
try 'a key that nobody uses would be noticed' notices as_used 's/^\(comma\)\(\t.*\)/\1\2\ncolon\2/'
try 'the limits are those of the header' limits command/sentences.txt
for text in 65,535 1,024 4,096 '6 turns'; do
    try "another limit for $text would be noticed" notices limits "s/$text/7$text/"
done
try 'another limit in a hint would be noticed' notices limits '/^most-objections/s/4,096/4,095/'

{ section usage && section more; } >"$work/right"
for word in help -h --help; do
    try "$word" helps "$work/right" "$word"
done
for word in "${programs[@]}" clean refusals help; do
    section "$word" >"$work/right"
    try "help $word" helps "$work/right" help "$word"
    try "--help $word" helps "$work/right" --help "$word"
done
for word in "${programs[@]}" clean refusals; do
    section "$word" >"$work/right"
    try "$word --help" helps "$work/right" "$word" --help
    try "$word -h" helps "$work/right" "$word" -h
done
for number in {1..16}; do
    printf '%2d  %s\n' "$number" "${sentences[$number]}" >"$work/right"
    try "help $number" helps "$work/right" help "$number"
done
section reason >"$work/right"
try 'the help of another command would be noticed' fails helps "$work/right" help list
try 'every command of the help is one' names_commands
version >"$work/right"
try 'the version is the header'\''s' helps "$work/right" --version
try 'the version has three parts' grep -q -x 'batqemulo [0-9]\+\.[0-9]\+\.[0-9]\+' "$work/right"
try 'the version in the repository' listed_as "$work/right" ./batqemulo --version

for words in "${askers[@]}" clean; do
    read -ra asking <<<"$words"
    try "$words waits at a terminal" waits "$command" "${asking[@]}"
    try "$words - waits at a terminal" waits "$command" "${asking[@]}" -
    try "$words FILE does not wait" fails waits "$command" "${asking[@]}" "$work/game"
done
for words in "${askers[@]}"; do
    read -ra asking <<<"$words"
    try "the filter $words waits at a terminal" waits "$stage/bin/batqemulo-${asking[0]}" "${asking[@]:1}"
done
try './list waits at a terminal' waits ./list
try './batqemulo list waits at a terminal' waits ./batqemulo list
try 'the filter list does not wait with a word' fails waits "$stage/bin/batqemulo-list" x
try 'wrong words do not wait' fails waits "$command" list -x
try 'a report that is there does not wait' fails waits "$command" mend --report "$work/there/register"
try 'help does not wait' fails waits "$command" help

for name in 'two words' $'two\nlines' -odd -n -- '100%s %1%n' 'a\tb\\c' 'a&b&&' '$HOME `x` "y"' "'" '*' a=b = ! '(' 'ä'; do
    try "the name $(printf '%q' "$name")" odd_name "$name"
    try "the name $(printf '%q' "$name"), of what is lost" odd_warning "$name"
    try "the name $(printf '%q' "$name"), of a report" odd_report "$name"
done

mkdir "$work/elsewhere" "$stage/links" "$stage/two words & 'more'"
link installed "$command"
link command "$here/batqemulo"
link list "$here/list"
link some "$here/mend"
link cards "$here/uncatalogue"
ln -s ../bin/batqemulo "$stage/links/near"
cp -r "$stage/bin" "$stage/share" "$stage/two words & 'more'"
try 'from another folder' elsewhere "$command"
try 'from another folder, of the repository' elsewhere "$here/batqemulo"
for name in installed to_installed near; do
    try "through the link $name" elsewhere "$stage/links/$name"
done
try 'through a link, to the repository' elsewhere "$stage/links/command"
try 'through a link to a link, to the repository' elsewhere "$stage/links/to_command"
try 'by a relative link to a link' listed_by ./to_command list
try 'in a folder with an odd name' elsewhere "$stage/two words & 'more'/bin/batqemulo"
try 'a command that does nothing would be noticed' fails elsewhere true
try 'with CDPATH' listed_as examples/game.listing env CDPATH="$stage:$here" "$command" list "$work/game"
try 'with hardly an environment' \
    listed_as examples/game.listing env -i PATH="$PATH" TMPDIR="$TMPDIR" "$command" list "$work/game"
try 'started from PATH' listed_as examples/game.listing env PATH="$stage/bin:$PATH" batqemulo list "$work/game"
for name in "${programs[@]}"; do
    try "./$name is a copy of ./list" cmp list "$name"
done
try './list, through a link' listed_by "$stage/links/list"
try './list, through a link to a link' listed_by ./to_list
try './list, from another folder' listed_by "$here/list"
try './list tells the name by which it was started' used_by ./list
try 'a link to ./mend tells its own name' used_by "$stage/links/some"
try 'a link to a link to ./mend tells its own name' used_by "$stage/links/to_some"
try 'a link to a link to ./uncatalogue tells its own name' used_by "$stage/links/to_cards"
try 'another name in the usage would be noticed' fails used_by "$stage/links/installed"

for words in sh dash 'bash --posix' 'busybox sh'; do
    read -ra asking <<<"$words"
    if type -P "${asking[0]}" >/dev/null; then
        try "by $words" by_shell "${asking[@]}"
    fi
done
try 'a shell that does nothing would be noticed' fails by_shell true

thousand "$work/many"
try 'one wrong listing would be noticed' notices_one 3.right 'REGISTER 0 0\n'
try 'one refusal would be noticed' notices_one 4.txt 'S 1 R\nS 1 R\n'
try 'one refusal that is none would be noticed' notices_one 10.txt 'S 1 R\n'
try 'a thousand registers in a loop' in_a_loop "$work/many" 1 1000

for signal in TERM INT HUP; do
    for words in "${askers[@]}" clean; do
        read -ra asking <<<"$words"
        try "$words, ended by $signal" ended_by "$signal" "${asking[@]}"
    done
done
try 'ended by a time limit' timed_out
try 'a folder that is left would be noticed' notices_left

try 'a small part of the repository is copied' lay_copy
try 'a listing stands on what it needs' stands_on_less
try 'the program is built where it is missing' builds_first
try 'it is not built again' leaves true
try 'it is built again where a source of its own is newer' builds touch crates/program_list/src/main.rt
try 'it is built again where a source below it is newer' builds touch crates/game/src/lib.rt
try 'it is built again where crates.txt is newer' builds touch crates.txt
try 'it is built again where a source is gone' builds rm crates/register/src/lib.rt
try 'it is built again where a source has come' builds touch crates/register/src/lib.rt
try 'it is built again where it is gone' builds rm target/bin/program_list crates/program_list/out/program_list
try 'it is taken where rt has left it' leaves rm target/bin/program_list
try 'it is not built again for a call that mends' leaves touch crates/call_mend/src/lib.rt
try 'it is not built again for another program' leaves touch crates/program_mend/src/main.rt
try 'it is not built again for the whole product' leaves touch crates/batqemulo/src/lib.rt crates/batqemulo_c/src/lib.rt
try 'it is built again where a source was edited while it was built' edited_meanwhile
try 'it is built where nobody listens' builds_unheard
try 'a build too many would be noticed' fails leaves touch crates/game/src/lib.rt
try 'a build too few would be noticed' fails builds true
try './list is built and started' starts_what_is_built ./list
try './batqemulo list is built and started' starts_what_is_built ./batqemulo list
try 'a build that fails is told' told_of_failure command/build list
try 'a build that fails is told by ./list' told_of_failure ./list
try 'a build that fails is told by ./batqemulo' told_of_failure ./batqemulo list
try 'a build that does not fail would be noticed' fails told_of_failure true
try 'after a build that failed it is built again' builds true
try 'one program is built once by two' once
try 'two programs are built one after the other' both
try 'two at the same time would be noticed' notices_overlap
for words in 'command/build list' "${askers[@]/#/./}" "${askers[@]/#/./batqemulo }" .ci/run; do
    read -ra asking <<<"$words"
    try "$words without rt" without_rt "${asking[@]}"
done

try 'one that needs no prover would be noticed' fails without_rt true

if type -P shellcheck >/dev/null; then
    for file in batqemulo list command/build .ci/run {bench,engine,fuzz,tests}/run tests/reading tests/*.sh; do
        try "shellcheck $file" linted shellcheck -x "$file"
    done
    try 'shellcheck would notice a slip' notices_slip '$a echo $1' shellcheck
else
    lacking shellcheck
fi
if type -P checkbashisms >/dev/null; then
    try 'checkbashisms batqemulo' linted checkbashisms batqemulo
    try 'checkbashisms would notice a slip' notices_slip '$a [[ x = x ]]' checkbashisms
else
    lacking checkbashisms
fi

try 'every sentence came up' all_came_up
try 'nothing is left where the command works' empty "$TMPDIR"
touch "$TMPDIR/left"
try 'what is left would be noticed' fails empty "$TMPDIR"
try 'no wrong word made a file' empty "$stage/empty"
finish
