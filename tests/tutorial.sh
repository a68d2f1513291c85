#!/usr/bin/env bash
# Holds the outputs shown in README.md, docs/TUTORIAL.md and docs/RULES.md against what is printed. In them
#
#   a block ```console  has lines '$ COMMAND', each followed by just what the command prints
#   a block ```c        is a C program; its first line names it: /* NAME.c .. */. It is built, and a
#                       command can start it as ./NAME
#   a block ```python   is a Python program; its first line names it: # NAME.py ..
#
# and there is no other kind of block, so that no command is left untried. One that stands in a line of README or tutorial, between
# backquotes, is one of those, or tests/commands.txt says what tries it. After each call that a C program makes it looks at the
# refusal. tests/run starts it, after it has built the libraries and the programs. The very last line is 'N passed, M failed'.
# shellcheck disable=SC2016 # backquotes are meant
set -u
cd "$(dirname "$0")/.." || exit 1
. tests/programs.sh
. tests/tally.sh

work=$PWD/$built/tutorial
archive=target/staticlib/libbatqemulo.a
table=tests/commands.txt
flags=(-std=c99 -O2 -Wall -Wextra -Wpedantic -Werror -Iinclude)

# part FILE FOLDER: takes a document apart. The folder gets each program, and for each command a
# file N.command and beside it N.right, which has what is shown.
part() {
    rm -rf "$2"
    mkdir -p "$2"
    awk -v to="$2" '
        /^```/ { inside = !inside; kind = inside ? substr($0, 4) : ""; file = ""; next }
        (kind == "c" || kind == "python") && file == "" {
            match($0, /[a-z]+\.(c|py)/)
            file = to "/" substr($0, RSTART, RLENGTH)
        }
        kind == "c" || kind == "python" { print >file }
        kind == "console" && /^\$ / {
            file = sprintf("%s/%02d", to, ++count)
            print substr($0, 3) >(file ".command")
            file = file ".right"
            printf "" >file
            next
        }
        kind == "console" { print >file }' "$1"
}

# starter FILE WORDS..: a script that does no more than to start the words, with those given to it
starter() {
    printf '#!/usr/bin/env bash\nexec%s "$@"\n' "$(printf ' %q' "${@:2}")" >"$1"
    chmod +x "$1"
}

# furnish FOLDER: what a reader has before them: the programs and the examples
furnish() {
    local name
    for name in batqemulo "${programs[@]}"; do
        starter "$1/$name" "$PWD/$name"
    done
    cp -r "$PWD/examples" "$1"
}

# build SOURCE: a C program, and a script by its name that starts it
build() {
    program "$1.built" "${flags[@]}" "$1" "$archive" && starter "${1%.c}" "${start[@]}" "$1.built"
}

# prints COMMAND: the command of this file prints what is shown, and says nothing else
prints() {
    (cd "$(dirname "$1")" && LD_LIBRARY_PATH=$work/lib timeout 60 bash "$1" 2>&1) | diff - "${1%.command}.right"
}

# complete FILE FOLDER: there are commands, none of the document was left out, and it has no other kind of block
complete() {
    local commands=("$2"/*.command)
    [ "${#commands[@]}" -eq "$(grep -c '^\$ ' "$1")" ] && [ -e "${commands[0]}" ] &&
        ! grep '^```.' "$1" | grep -v -x -e '```console' -e '```c' -e '```python'
}

# looked_at FILE: on each line of a C program that makes a call, or on the next, the refusal is looked at, by itself or by `show`
looked_at() {
    awk '
        made && !/refusal|show\(/ { print FILENAME ": " FNR ": " $0; wrong = 1 }
        { made = 0 }
        /batqemulo_[a-z_]+\(/ { calls++; made = !/refusal|show\(/ }
        END { exit wrong || made || calls == 0 }' "$1"
}

# man_page: the C program of batqemulo(3) looks at every refusal too
man_page() {
    sed -n '/^\.EX$/,/^\.EE$/ { /^\.E[XE]$/d; s/\\e/\\/g; p }' docs/batqemulo.3 >"$work/page.c" && looked_at "$work/page.c"
}

# notices_unseen: a program that looks at one refusal less is seen
notices_unseen() {
    sed '/if (a.refusal)/{x;s/^/x/;/^xx$/{x;d};x}' "$work/README.md/example.c" >"$work/unseen.c" &&
        ! cmp -s "$work/README.md/example.c" "$work/unseen.c" && ! looked_at "$work/unseen.c"
}

# quoted FILE: the commands that stand in the lines of a document, outside its blocks, between backquotes
quoted() {
    awk '/^```/ { inside = !inside } !inside' "$1" | grep -o '`[^`]*`' | tr -d '`' |
        grep -E '^(\./[a-z]|\.ci/|make( |$)|cc |rt |python3? |ldconfig|man |(batqemulo|tests/[a-z]+) )' | sort -u
}

# tried_somewhere FILE: each of them is the beginning of a command that is shown and tried, or tests/commands.txt says what tries it
tried_somewhere() {
    local command row wrong=0
    while read -r command; do
        grep -h -q -F -e "\$ $command" -e "| $command" -e "\$ ./$command" -e "| ./$command" README.md docs/*.md && continue
        row=$(awk -F '\t' -v command="$command" '$1 == command' "$table")
        if [ -z "$row" ] || ! grep -q -F -e "$(cut -f 3 <<<"$row")" "$(cut -f 2 <<<"$row")"; then
            printf '%s: nothing tries %s\n' "$1" "$command"
            wrong=1
        fi
    done < <(quoted "$1")
    [ "$wrong" -eq 0 ]
}

# notices_untried: a command that nothing tries would be noticed
notices_untried() {
    { cat README.md && printf 'Then `make coffee`, and wait.\n'; } >"$work/untried.md"
    ! tried_somewhere "$work/untried.md"
}

# one_screen: README has the two commands, how long they take and what they print before its first picture, on one screen
one_screen() {
    local first
    first=$(grep -n -m 1 '^    101 <' README.md) && [ "${first%%:*}" -le 50 ] &&
        head -n 24 README.md | grep -c '^\$ ./batqemulo ' | grep -q -x 2 && head -n 34 README.md | grep -q 'minutes'
}

# document FILE: everything that it shows
document() {
    local folder=$work/${1##*/} file
    part "$1" "$folder"
    furnish "$folder"
    try "$1 is taken apart" complete "$1" "$folder" || return
    for file in "$folder"/*.c; do
        [ -e "$file" ] || continue
        try "$1: ${file##*/} is built" build "$file"
        try "$1: ${file##*/} looks at every refusal" looked_at "$file"
    done
    for file in "$folder"/*.command; do
        if [ ${#emulator[@]} -gt 0 ] && grep -q '^python3 ' "$file"; then
            skip "$1: $(cat "$file"): Python does not load a library that is emulated here"
        else
            try "$1: $(cat "$file")" prints "$file"
        fi
    done
}

# is_wrong FILE: a command of the tutorial, as it stands in this file, prints something else
is_wrong() {
    local folder=$work/changed file
    part "$1" "$folder"
    furnish "$folder"
    for file in "$folder"/*.command; do
        grep -q -e '^\./batqemulo' -e '^cat report' -e '^printf' "$file" || continue
        prints "$file" || return 0
    done
    return 1
}

# notices SED: the tutorial with one thing changed is found to be wrong
notices() {
    sed "$1" docs/TUTORIAL.md >"$work/changed.md"
    ! cmp -s docs/TUTORIAL.md "$work/changed.md" && is_wrong "$work/changed.md"
}

unchanged() {
    ! is_wrong docs/TUTORIAL.md
}

# by its plain name the shared library is found as an installed one is
mkdir -p "$work/lib"
try 'the shared library is built' make target/staticlib/libbatqemulo.so
cp target/staticlib/libbatqemulo.so "$work/lib/"

document README.md
document docs/TUTORIAL.md
document docs/RULES.md
for paper in README.md docs/TUTORIAL.md; do
    try "no command of $paper is left untried" tried_somewhere "$paper"
done
try 'an untried command would be noticed' notices_untried
try 'wrong twins of one definition are listed' tests/mutants --list --only Agree.antt
try 'the program of the man page looks at every refusal' man_page
try 'a refusal that is not looked at would be noticed' notices_unseen
try 'README: one screen before the first picture' one_screen

try 'the tutorial as it is has nothing to notice' unchanged
try 'another label would be noticed' notices 's/^2003\tstands/2003\topen/'
try 'another length would be noticed' notices 's/^2002\tfalls\t3/2002\tfalls\t1/'
try 'another kind would be noticed' notices 's/^3005\t3001\tidle/3005\t3001\tdelaying/'
try 'a line left out would be noticed' notices '/^2005\tfalls/d'
try 'a plain number for a year number would be noticed' notices 's/^1987\.14\tstands/1987\tstands/'
try 'an objector left out of a card would be noticed' notices 's/^\(S\t3001\tR\t3005\)\t4001$/\1/'
try 'objections that are not grouped would be noticed' \
    notices '/^\$ .\/batqemulo uncatalogue/,/^```/{/^O\t4001/{h;d};/^O\t3006/G}'
try 'an idle objection in a reason would be noticed' \
    notices '/^\$ .\/batqemulo reason 3001/,/^```/s/^4001/3005\t3001\tidle\t-\n&/'
try 'a felling objection that is longer than its target in a reason would be noticed' \
    notices '/^\$ .\/batqemulo reason 6 /,/^\$ .\/batqemulo reason 7 /s/^5\t6\tfelling\t1/&\n7\t6\tfelling\t3/'
try 'a mark that is not mended would be noticed' notices '/^\$ .\/batqemulo mend/,/^```/s/^S\t2005\tU/S\t2005\tR/'
try 'another cause would be noticed' notices 's/^9\tmoved\t4/9\tdropped\t4/'
try 'a space for a tab would be noticed' notices 's/^REFUSED\t/REFUSED /'
try 'another sentence would be noticed' notices 's/is issued on line 3/is issued on line 2/'
try 'another status would be noticed' notices 's/^status 1/status 0/'

finish
