#!/usr/bin/env bash
# The outside tests of what is installed: the files, C programs that are built against them by
# pkg-config, with the shared library and with the archive, the version, the command, the man pages,
# which are held against the header, and what is left when all is removed. tests/run starts it. The
# very last line is 'N passed, M failed'.
set -u
cd "$(dirname "$0")/.." || exit 1
. tests/programs.sh
. tests/tally.sh

# stage: a folder that stands for the root of a machine; prefix: where the files go on it
stage=$(mktemp -d)
trap 'rm -rf "$stage"' EXIT
prefix=/srv/museum
root=$stage$prefix
header=$root/include/batqemulo.h
archive=$root/lib/libbatqemulo.a
shared=$root/lib/libbatqemulo.so
version=$(./batqemulo --version | sed 's/^batqemulo //')
soname=libbatqemulo.so.${version%.*}
page=$root/share/man/man3/batqemulo.3
flags=(-std=c99 -O2 -Wall -Wextra -Wpedantic -Werror)

# made WORDS..: make, as from a shell of its own
made() {
    env -u MAKEFLAGS -u MFLAGS make "$@"
}

# exported: the calls that the installed library has
exported() {
    nm --extern-only --defined-only "$archive" | awk 'NF == 3 { print $3 }' | sort
}

# right_files: the installed files, with what is allowed to whom, and the links, with where they lead
right_files() {
    {
        printf '644 %s\n' include/batqemulo.h lib/libbatqemulo.a "lib/libbatqemulo.so.$version" \
            lib/pkgconfig/batqemulo.pc share/batqemulo/{sentences.txt,help.txt,explain.awk,clean.awk,version} \
            share/doc/batqemulo/{RULES.md,LICENSE} share/man/man1/batqemulo.1 share/man/man3/batqemulo.3
        printf '644 share/man/man1/batqemulo-%s.1\n' "${programs[@]}"
        printf '755 %s\n' bin/batqemulo "${programs[@]/#/bin/batqemulo-}"
        printf '%s %s\n' "libbatqemulo.so.$version" "lib/$soname" "$soname" lib/libbatqemulo.so
        exported | sed 's|.*|644 share/man/man3/&.3|'
    } | sort
}

files() {
    diff <(find "$root" -type f -printf '%m %P\n' -o -type l -printf '%l %P\n' | sort) <(right_files)
}

nothing_else() {
    ! find "$stage" ! -type d ! -path "$root/*" | grep .
}

# package WORDS..: pkg-config for the machine that the folder stands for
package() {
    PKG_CONFIG_LIBDIR=$root/lib/pkgconfig PKG_CONFIG_SYSROOT_DIR=$stage pkg-config "$@" batqemulo
}

# one_version: pkg-config, the command and the header's text and number have the version of its parts
one_version() {
    local part parts=() number
    for part in MAJOR MINOR PATCH; do
        parts+=("$(sed -n "s/^#define BATQEMULO_VERSION_$part \([0-9]*\)$/\1/p" "$header")")
    done
    number=$((parts[0] * 10000 + parts[1] * 100 + parts[2]))
    printf '#include <batqemulo.h>\n#include <stdio.h>\n%s\n' \
        'int main(void) { return printf("%s %d\n", BATQEMULO_VERSION, BATQEMULO_VERSION_NUMBER) < 0; }' >"$stage/example.v.c"
    program "$stage/example.v" "${flags[@]}" -I"$root/include" "$stage/example.v.c" &&
        [ "$("${start[@]}" "$stage/example.v")" = "$version $number" ] && [ "$(package --modversion)" = "$version" ] &&
        [ "$version" = "${parts[0]}.${parts[1]}.${parts[2]}" ] &&
        [ "$(cat "$root/share/batqemulo/version")" = "batqemulo $version" ]
}

# one_place: the version has its entry in the history, and stands nowhere else
one_place() {
    git grep -q -F -e "$version" -- CHANGELOG.md && ! git grep -n -F -e "$version" -- . ':!CHANGELOG.md' ':!docs/landings' ':!docs/BENCH.md'
}

places() {
    grep -x "prefix=$prefix" "$root/lib/pkgconfig/batqemulo.pc" &&
        [ "$(package --cflags --libs | xargs)" = "-I$root/include -L$root/lib -lbatqemulo" ]
}

# c_example: the C program of the man page
c_example() {
    sed -n '/^\.EX$/,/^\.EE$/ { /^\.E[XE]$/d; s/\\e/\\/g; p }' "$page" >"$stage/example.c"
    [ -s "$stage/example.c" ]
}

# with_shared COMMAND..: starts a program that is linked with the shared library
with_shared() {
    if [ ${#emulator[@]} -gt 0 ]; then
        "${emulator[@]}" "${loader[0]}" --library-path "$tools/lib:$root/lib" "$@"
    else
        LD_LIBRARY_PATH=$root/lib "$@"
    fi
}

# linked OUT SOURCE: by pkg-config, so with the shared library
linked() {
    local cflags libs
    read -ra cflags < <(package --cflags) && read -ra libs < <(package --libs) &&
        program "$1" "${flags[@]}" "${cflags[@]}" "$2" "${libs[@]}" &&
        objdump -p "$1" | grep -q "NEEDED *$soname\$"
}

# archived: the archive by its name, where no library is to be looked for at the start
archived() {
    program "$stage/example.a" "${flags[@]}" "-I$root/include" "$stage/example.c" "$archive" &&
        ! objdump -p "$stage/example.a" | grep 'NEEDED *libbatqemulo'
}

# runs COMMAND..: it prints what the man page's example prints
runs() {
    "$@" | diff - <(printf '%s\n' stands stands falls)
}

# same_calls_shared: the shared library has the header's calls and no others, its name, and needs the C library alone
same_calls_shared() {
    diff <(nm -D --defined-only "$shared" | awk '$2 == "T" { print $3 }' | grep -v -x -e _init -e _fini | sort) <(exported) &&
        [ "$(objdump -p "$shared" | awk '$1 == "SONAME" { print $2 }')" = "$soname" ] &&
        [ "$(objdump -p "$shared" | awk '$1 == "NEEDED" { print $2 }')" = libc.so.6 ]
}

# warns: a call whose answer nobody looks at does not compile where warnings are errors; one that is looked at does
warns() {
    local call='batqemulo_text_labels(0, 0, 0, 0)'
    printf '#include <batqemulo.h>\nint main(void) { return (int)%s.refusal; }\n' "$call" |
        gcc "${flags[@]}" -I"$root/include" -c -o "$stage/example.o" -x c - &&
        ! printf '#include <batqemulo.h>\nint main(void) { %s; return 0; }\n' "$call" |
            gcc "${flags[@]}" -I"$root/include" -c -o "$stage/example.o" -x c -
}

# every_call_warns: no call is declared without that
every_call_warns() {
    [ "$(grep -c ' BATQEMULO_CHECKED;$' "$header")" -eq "$(exported | wc -l)" ]
}

# commands: the installed command, from elsewhere and through a link, with the installed programs
commands() {
    ln -s "$root/bin/batqemulo" "$stage/example.link"
    (cd / && "$stage/example.link" list "$OLDPWD/examples/game.txt") | cmp - examples/game.listing
}

lists() {
    "${start_list[@]}" "$root/bin/batqemulo-list" <examples/game.txt | cmp - examples/game.listing
}

reasons() {
    "${start_list[@]}" "$root/bin/batqemulo-reason" 103 <examples/game.txt |
        cmp - <(grep -e $'^103\tfalls' -e $'\t103\t' examples/game.listing)
}

mends() {
    "${start_list[@]}" "$root/bin/batqemulo-mend" "$stage/example.report" <examples/export.txt |
        cmp - examples/export.mended && cmp "$stage/example.report" examples/export.report
}

catalogues() {
    "${start_list[@]}" "$root/bin/batqemulo-catalogue" <examples/loan.txt | cmp - examples/loan.catalogue
}

# uncatalogues: of what it prints the other makes the same again
uncatalogues() {
    "${start_list[@]}" "$root/bin/batqemulo-uncatalogue" <examples/loan.catalogue >"$stage/example.text" &&
        "${start_list[@]}" "$root/bin/batqemulo-catalogue" <"$stage/example.text" | cmp - examples/loan.catalogue
}

# formats PAGE: groff has nothing to warn of
formats() {
    ! groff -man -ww -z "$1" 2>&1 | grep .
}

# leads: every call has a man page of its own that leads to the one for all
leads() {
    local call
    for call in $(exported); do
        [ "$(cat "$root/share/man/man3/$call.3")" = '.so man3/batqemulo.3' ] || return
    done
}

# named FILE: every call is named there
named() {
    local call
    for call in $(exported); do
        grep -q -w -e "$call" "$1" || { printf '%s\n' "$call" && return 1; }
    done
}

# shown: the words of the man page as it is read, without any space
shown() {
    groff -man -Tascii -P-cbou "$page" | tr -d '[:space:]'
}

# declared: the header's calls without any space, a line each; in the header some take one line, most take more
declared() {
    sed -n -e '/^batqemulo_answer .*;$/ { p; d }' -e '/^batqemulo_answer /,/;$/p' "$header" |
        sed 's/ BATQEMULO_CHECKED;/;/' | tr -d '[:space:]' | sed 's/;/;\n/g'
}

# numbers: the header's names for numbers, each with its number, but for the version's parts
numbers() {
    sed -n -e '/BATQEMULO_VERSION_/d' -e 's/^#define \(BATQEMULO_[A-Z_]*\) \([0-9]*\)$/\1(\2)/p' "$header"
    grep -o 'BATQEMULO_[A-Z_]* = [0-9]*' "$header" | sed 's/ = \(.*\)/(\1)/'
}

# said COUNT: each line on standard input is in the man page, and there are that many
said() {
    local count=0 line text
    text=$(shown)
    while read -r line; do
        count=$((count + 1))
        [[ $text == *"$line"* ]] || { printf 'not in the man page: %s\n' "$line" && return 1; }
    done
    printf '%d lines\n' "$count"
    [ "$count" -eq "$1" ]
}

same_calls() {
    declared | said "$(exported | wc -l)"
}

# those of the refusals, of marks, labels and kinds, and the limits
same_numbers() {
    numbers | said $((17 + 2 + 3 + 4 + 11))
}

# no_others: the man page has no name that the header lacks
no_others() {
    ! grep -o 'BATQEMULO_[A-Z_]*' "$page" | grep -v -x -F -f <(
        numbers | sed 's/(.*//'
        sed -n 's/^#define \(BATQEMULO_VERSION[A-Z_]*\).*/\1/p' "$header"
    )
}

# rules_told: header and man pages lead to the rules
rules_told() {
    local file
    for file in "$header" "$root"/share/man/man1/*.1 "$page"; do
        grep -q 'RULES\.md' "$file" || { printf '%s\n' "$file" && return 1; }
    done
}

# statuses_told: one table of the command's page has the exit statuses
statuses_told() {
    [ "$(sed -n '/^\.SH "EXIT STATUS"/,/^\.SH DIAG/s/^\.B \([0-9]\)$/\1/p' "$root/share/man/man1/batqemulo.1" | xargs)" = '0 1 2' ]
}

nothing_left() {
    ! find "$stage" ! -type d ! -name 'example*' ! -name kept | grep .
}

# keeps: what others have put beside is not touched
keeps() {
    [ -e "$root/lib/kept" ] && [ -e "$root/share/man/man3/kept" ]
}

# own: a folder of one's own, for which there is no DESTDIR
own() {
    made install PREFIX="$stage/own" &&
        PKG_CONFIG_PATH=$stage/own/lib/pkgconfig pkg-config --exists batqemulo &&
        cmp "$stage/own/include/batqemulo.h" include/batqemulo.h &&
        made uninstall PREFIX="$stage/own"
}

try 'make install' made install DESTDIR="$stage" PREFIX="$prefix" || finish
try 'the installed files' files
try 'nothing is installed elsewhere' nothing_else
try 'the header is the one that was tried' cmp "$header" include/batqemulo.h
try 'the version is one' one_version
try 'the version stands in one place' one_place
try 'pkg-config knows the places' places
try 'the man page has a C program' c_example
try 'a C program is built by pkg-config' linked "$stage/example" "$stage/example.c" &&
    try 'it runs' runs with_shared "$stage/example"
try 'a C program is built with the archive' archived && try 'it runs by itself' runs "${start[@]}" "$stage/example.a"
try 'the shared library has the calls, and its name' same_calls_shared
if try 'the client is built with the shared library' linked "$stage/example.client" tests/client.c; then
    tally 'the client, with the shared library' 160 with_shared "$stage/example.client"
fi
try 'a call that is not looked at is warned of' warns
try 'so is every call' every_call_warns
try 'the installed program lists' lists
try 'the installed program gives reasons' reasons
try 'the installed program mends' mends
try 'the installed program makes a catalogue' catalogues
try 'the installed program makes a register text of it' uncatalogues
if [ ${#emulator[@]} -eq 0 ]; then
    try 'the installed command lists' commands
else
    skip 'the installed command, which starts programs that are emulated here'
fi

try 'every call is named in the header' named "$header"
try 'every call is named in the man page' named "$page"
try 'every call has a man page' leads
if command -v groff >/dev/null; then
    for man in "$page" "$root"/share/man/man1/*.1; do
        try "no warning of ${man##*/}" formats "$man"
    done
    try 'the man page has the calls as the header has them' same_calls
    try 'the man page has the numbers of the header' same_numbers
    try 'the man page has no others' no_others
else
    skip 'how the man pages look, for which groff is missing'
fi

try 'header and man pages lead to the rules' rules_told
try 'the exit statuses stand in one table' statuses_told
touch "$root/lib/kept" "$root/share/man/man3/kept"
try 'make uninstall' made uninstall DESTDIR="$stage" PREFIX="$prefix"
try 'nothing is left of it' nothing_left
try 'what others put beside is left' keeps
try 'make install and uninstall by PREFIX alone' own
try 'nothing is left of that' nothing_left

finish
