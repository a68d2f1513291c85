#!/usr/bin/env bash
# The rules of the house. A crate with a bare noun for its name is a meaning: it has no function, and stands on meanings alone.
# Every other crate but `batqemulo`, which is the product, begins with such a noun or with one of a few more. crates.txt lists
# what is in crates/. No module of specs/ and no definition has its name in two crates, no line is too long, and nothing is left
# of the names that crates had before. The very last line is 'N passed, M failed'.
set -u
cd "$(dirname "$0")/.." || exit 1
. tests/tally.sh

# nouns: what a compound may begin with, beside the meanings
nouns=(label argument exercise pair room call program bench batqemulo)

# gone WHICH: names that crates had, and that none has now, as the landing's note tells them: `only` those that name nothing
# else, so that they mean the crate where they stand between backquotes, or `also` the others
gone() { sed -n "s/^    $1: //p" docs/landings/house.md | tr ' ' '\n'; }

mapfile -t quoted_crates < <(gone only)
mapfile -t gone < <(gone only && gone also)

# files: all that is kept, but for what tells of the past
mapfile -d '' files < <(find . \( -name .git -o -name target -o -path './crates/*/out' -o -path ./docs/landings \) -prune -o \
    -type f ! -path ./docs/DECISIONS.md -print0)

# crates: those that crates.txt lists; below NAME: those that it lists below one
crates() { sed -n 's/^\([a-z][a-z_]*\)\( staticlib\)\{0,1\}:.*/\1/p' crates.txt; }

below() { sed -n "s/^$1\( staticlib\)\{0,1\}://p" crates.txt | tr -s ' ' '\n' | grep .; }

meanings() { crates | grep -v -e _ -e '^batqemulo$'; }

compounds() { crates | grep _; }

folders() { find crates -mindepth 1 -maxdepth 1 -type d -printf '%f\n' | sort; }

# all_understood: every line of crates.txt is blank, a remark, or a crate, or a static library, and what it stands on
all_understood() { ! grep -v -x -e '#.*' -e '[a-z][a-z_]*\( staticlib\)\{0,1\}:\( [a-z][a-z_]*\)*' -e '' crates.txt; }

listed_once() { ! crates | sort | uniq -d | grep .; }

# no_function NAME: its source has none, remarks aside
no_function() {
    find "crates/$1/src" -name '*.rt' -exec awk '
        { code = $0; sub("//.*", "", code) }
        code ~ /(^|[^a-z_])fn([^a-z_]|$)/ { print FILENAME ": " $0; found = 1 }
        END { exit found }' {} +
}

on_meanings() { ! below "$1" | grep -v -x -F -f <(meanings); }

begins_with_noun() { { meanings && printf '%s\n' "${nouns[@]}"; } | grep -q -x -e "${1%%_*}"; }

listed() { crates | grep -q -x -e "$1"; }

# modules: a line for each module of specs/: its name and its crate
modules() {
    find crates/*/specs -name '*.antt' ! -name Lib.antt | sed 's|^crates/\([^/]*\)/.*/\([^/]*\)\.antt$|\2 \1|' | sort -u
}

# definitions: a line for each definition of specs/ and each type of src/ that others can name: its name and its crate
definitions() {
    find crates/*/specs crates/*/src \( -name '*.antt' -o -name '*.rt' \) -exec awk '
        function define(name) {
            sub(/[({<:;].*/, "", name)
            split(FILENAME, path, "/")
            print name, path[2]
        }
        FNR == 1 { mutual = 0 }
        /^[^ -]/ { mutual = $0 == "unfoldable mutual" }
        $1 ~ /^(abbrev|unfoldable)$/ && $2 == "pub" { define($3) }
        $1 == "pub" && $2 ~ /^(record|data|enum|struct)$/ { define($3) }
        mutual && $1 == "pub" { define($2) }' {} + | sort -u
}

# apart: no name on standard input stands in two crates
apart() {
    ! awk '{ count[$1]++; crates[$1] = crates[$1] " " $2 }
        END { for (name in count) if (count[name] > 1) print name ":" crates[name] }' | grep .
}

modules_apart() { modules | apart; }

# `Refuses` is one idea, said of texts and of lists (docs/DECISIONS.md)
definitions_apart() { definitions | grep -v -x 'Refuses lists' | apart; }

# short_lines FOLDER: no line of Rattle or of a proof in it has more than 130 characters
short_lines() {
    ! LC_ALL=C.UTF-8 grep -r -n -E --exclude-dir=out --include='*.rt' --include='*.antt' --include='*.edit' '^.{131,}' "$1"
}

# long_line_seen: one of 131 characters would be seen, and one of 130, of whatever bytes, is none
long_line_seen() {
    local folder=$apart/lines
    mkdir -p "$folder" && printf '≤%.0s' {1..130} >"$folder/long.rt" && short_lines "$folder" &&
        printf '≤' >>"$folder/long.rt" && ! short_lines "$folder"
}

# meant_by NAME: the lines in which the name can only be that of a crate: a path, or the end of a branch in a drawn tree; a
# compound, wherever it stands, but for four that are names of functions or definitions too; the words of PROMISES.md for whose an
# edit is; code
meant_by() {
    local patterns=(-e "Rattle\.$1" -e "crates/$1" -e "$1/\(specs\|proofs\|src\|must-fail\|stdin\|stdout\)" -e "── $1")
    case $1 in
    in_c | filled_sheet | on_lists | on_text) ;;
    *_*) patterns+=(-e "$1") ;;
    esac
    LC_ALL=C grep -I -H -n -w "${patterns[@]}" "${files[@]}"
    LC_ALL=C grep -I -H -n -e "\(crates\{0,1\}\|edits\{0,1\} of\|[\`;] of\) \`$1\`" "${files[@]}"
    LC_ALL=C grep -r -n -e "\b$1::" crates --exclude-dir=out --include='*.rt' --include='*.edit'
    case " ${quoted_crates[*]} " in
    *" $1 "*) LC_ALL=C grep -I -H -n -F -e "\`$1\`" "${files[@]}" ;;
    esac
}

# nothing_left NAME: no crate is called so any more, and nowhere is one meant
nothing_left() { ! { { crates && folders; } | grep -x -e "$1" || meant_by "$1" | cut -c 1-200 | grep .; }; }

try 'crates.txt is understood' all_understood
try 'no crate is listed twice' listed_once
try 'there are crates' test "$(crates | wc -l)" -ge 50
while read -r name; do
    try "$name has its folder" test -d "crates/$name"
done < <(crates)
while read -r name; do
    try "the folder $name is listed" listed "$name"
done < <(folders)

try 'there are meanings' test "$(meanings | wc -l)" -ge 10
while read -r name; do
    try "$name is a meaning: no function" no_function "$name"
    try "$name stands on meanings alone" on_meanings "$name"
done < <(meanings)
while read -r name; do
    try "$name begins with a noun" begins_with_noun "$name"
done < <(compounds)

try 'there are modules' test "$(modules | wc -l)" -ge 60
try 'no module has its name in two crates' modules_apart
try 'there are definitions' test "$(definitions | wc -l)" -ge 350
try 'no definition has its name in two crates' definitions_apart

# apart: a folder that goes at the end, outside the repository, in which `rt ci` refuses sources that no crate has
apart=$(mktemp -d)
trap 'rm -rf "$apart"' EXIT
try 'no line is too long' short_lines crates
try 'a line that is too long would be seen' long_line_seen

try 'there are files' test "${#files[@]}" -ge 500
try 'there are names that are gone' test "${#gone[@]}" -ge 44
for name in "${gone[@]}"; do
    try "nothing is left of $name" nothing_left "$name"
done
finish
