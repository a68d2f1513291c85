#!/usr/bin/env bash
# The papers against the sources. What a row of docs/PROMISES.md cites is declared where the row says that it stands, and a
# theorem cited there says more than its hypotheses. Every must-fail edit is cited by a row, of the crate that has it, and no two
# have one name. README's list of what a reader has to believe is the one that tests/reading makes. The rules are tried themselves
# on a small house with a fault for each. The very last line is 'N passed, M failed'.
set -u
cd "$(dirname "$0")/.." || exit 1
. tests/tally.sh
tests=$PWD/tests

# judged: a line for each thing that a row of docs/PROMISES.md, below the working folder, says of crates/ there
judged() {
    local sources=() others=()
    mapfile -t sources < <(find crates/*/{specs,proofs,src} \( -name '*.antt' -o -name '*.rt' \) ! -name Lib.antt 2>/dev/null)
    mapfile -t others < <(find crates -mindepth 2 -maxdepth 2 \( -name stdin -o -name stdout \))
    awk -f "$tests/declared.awk" "${sources[@]}" |
        awk -v paper=docs/PROMISES.md -f "$tests/papers.awk" - "${sources[@]}" "${others[@]}" docs/PROMISES.md
}

# edits: a line for each must-fail edit: its name and its crate
edits() { find crates/*/must-fail -name '*.edit' | sed 's|^crates/\(.*\)/must-fail/\(.*\)\.edit$|\2 \1|' | sort; }

# cited_edit NAME: some row has it between backquotes, in its last column
cited_edit() { sed -n 's/^|.*| \([^|]*\) |$/\1/p' docs/PROMISES.md | grep -q -F -e "\`$1\`"; }

# attributed: a line for each edit that a row says is of a crate: its name and that crate. "`a`, `b` of `c`" says so of both.
attributed() {
    sed -n 's/^|.*| \([^|]*\) |$/\1/p' docs/PROMISES.md | tr ';' '\n' | awk -F '`' '{
        count = 0
        for (i = 2; i <= NF; i += 2) {
            if ($(i - 1) !~ / of $/) names[++count] = $i
            else {
                for (k = 1; k <= count; k++) print names[k], $i
                if ($(i + 1) !~ /^ and of $/) count = 0
            }
        }
    }' | sort -u
}

# of_crate NAME CRATE: NAME is no edit, or one of this crate
of_crate() { ! compgen -G "crates/*/must-fail/$1.edit" >/dev/null || test -f "crates/$2/must-fail/$1.edit"; }

as_read() { diff <(tests/reading list) <(sed -n '/^What a reader has to believe/,/^## /s/^    //p' README.md); }

# called_once NAME: no two edits have it
called_once() { test "$(edits | grep -c -e "^$1 ")" -eq 1; }

# says VERDICT WHAT: among what is said of the small house
says() { grep -q -x -F -e "$1	$2" "$built/small.said"; }

# in_small COMMAND..: what it does in the small house; not COMMAND..: it fails
in_small() { (cd "$small" && "$@"); }

not() { ! "$@"; }

while IFS=$'\t' read -r verdict what; do
    try "$what" test "$verdict" = ok
done < <(judged)
try 'there are citations' test "$(judged | wc -l)" -ge 1300

while read -r name crate; do
    try "the edit $name of $crate is cited" cited_edit "$name"
done < <(edits)
while read -r name; do
    try "only one edit is called $name" called_once "$name"
done < <(edits | cut -d ' ' -f 1 | uniq)
while read -r name crate; do
    try "$name is of $crate, as a row says" of_crate "$name" "$crate"
done < <(attributed)
try 'there are edits' test "$(edits | wc -l)" -ge 170
try 'edits are said to be of crates' test "$(attributed | wc -l)" -ge 60

try 'what a reader has to believe is what README lists' as_read
try 'the definitions are found' test "$(tests/reading | grep -c '^ *[0-9]')" -ge 40

# a small house: what stands in the wrong place, is only mentioned, or says nothing, is seen; what is right is not
# apart: a folder that goes at the end, outside the repository, in which `rt ci` refuses sources that no crate has
apart=$(mktemp -d)
trap 'rm -rf "$apart"' EXIT
small=$apart/small
mkdir -p "$small"/crates/house/{specs,proofs,src} "$small"/crates/garden "$small/docs"
cat >"$small/crates/house/specs/Room.antt" <<'END'
use Rattle.house.specs.Wall.{Wall}

pub record Room (w : Wall) : Type 0 where
  pub wide : ℕ
  pub long : ℕ

-- Roof is only mentioned
abbrev pub Floor : Wall → Type 0
Floor w = Room w
END
cat >"$small/crates/house/proofs/Room.antt" <<'END'
module _ (w : Wall) (has : Floor w) where
  pub part : (r : Room w) → Room w × Floor w
  part r = (r, has)

  pub handed : (r : Room w) → 0 < r.wide → 0 < r.wide
  handed r above = omega above

  pub hidden : (r : Whole w) → Valid r
  unfolding Whole
  hidden r = r.inside.valid

  pub behind : (r : Whole w) → Valid r
  behind = λ r. hidden r

  pub proved : (r : Whole w) → Valid r
  proved r = law r r.inside
END
cat >"$small/docs/PROMISES.md" <<'END'
| sentence | what says it | where | what tries it |
|---|---|---|---|
| | `Room .wide`, `.long`, `Floor w`; `proved`, `part` | house/specs/Room, house/proofs/Room | |
| | `Wall`, `Roof`, `Floor .wide` | the same | |
| | `handed`, `hidden`, `behind` | house/proofs | |
| | `Room` | house/proofs/Room, house/specs/Wall | edits `a_door`, `a_gate` of `house` |
END
mkdir "$small"/crates/{house,garden}/must-fail
touch "$small"/crates/{house,garden}/must-fail/a_door.edit "$small"/crates/garden/must-fail/{a_gate,a_hedge}.edit
in_small judged >"$built/small.said"
for name in Room Floor proved part; do
    try "$name is found" says ok "line 3: $name is declared where the row says"
done
try 'a field is found' says ok 'line 3: .wide is a field of Room where the row says'
try 'a field alone is found' says ok 'line 3: .long is a field of Room where the row says'
try 'what is used is not taken for declared' says not 'line 4: Wall is declared where the row says'
try 'what is mentioned is not taken for declared' says not 'line 4: Roof is declared where the row says'
try 'a field of another is seen' says not 'line 4: .wide is a field of Floor where the row says'
try 'another file is seen' says not 'line 6: Room is declared where the row says'
try 'a file that is not there is seen' says not 'line 6: house/specs/Wall is there'
try 'a theorem with a proof says something' says ok 'line 3: proved says more than its hypotheses'
try 'a pair of what is given is seen' says not 'line 3: part says more than its hypotheses'
try 'a conclusion that is a premise is seen' says not 'line 5: handed says more than its hypotheses'
try 'a projection is seen' says not 'line 5: hidden says more than its hypotheses'
try 'a projection by another name is seen' says not 'line 5: behind says more than its hypotheses'
try 'a cited edit is found' in_small cited_edit a_gate
try 'an edit that no row cites is seen' in_small not cited_edit a_hedge
try 'an edit with a name of its own is found' in_small called_once a_gate
try 'two edits of one name are seen' in_small not called_once a_door
try 'both edits are said to be of the crate' test "$(in_small attributed)" = $'a_door house\na_gate house'
try 'an edit of another crate is seen' in_small not of_crate a_gate house
finish
