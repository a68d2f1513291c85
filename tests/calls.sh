#!/usr/bin/env bash
# The public calls: each that `batqemulo` names or `batqemulo_c` exports is looked up in its source, in docs/PROMISES.md and among
# the theorems. Its parameters, its whole contract, the head of its promise and the theorem that the promise leaves one answer are
# held, word by word, against what tests/calls.txt makes of them. One that asks something of its caller, promises anything else or
# nothing, has no row, or has no theorem that its contract is its promise, fails; so does an edit that PROMISES.md names and no
# crate has. Wrong twins of the sources are held to the same, and each must fail. The very last line is 'N passed, M failed'.
# shellcheck disable=SC2016 # backquotes are meant
set -u
cd "$(dirname "$0")/.." || exit 1
. tests/tally.sh

# calls: a line for each public call: its name and the file of its source
calls() {
    local crate names name
    while read -r crate names; do
        for name in $names; do echo "$name crates/$crate/src/lib.rt"; done
    done < <(sed -n 's/,//g; s/^pub use \([a-z_]*\)::{\{0,1\}\([a-z_ ]*\)}\{0,1\};$/\1 \2/p' crates/batqemulo/src/lib.rt)
    for file in crates/batqemulo/src/*.rt crates/batqemulo_c/src/*.rt; do
        sed -n "s|^pub \(extern \"C\" \)\{0,1\}fn \([a-z_]*\)(.*|\2 $file|p" "$file"
    done
}

# ---- what must be, from the table

rows() { grep -v -e '^#' -e '^$' tests/calls.txt; }

in_table() { rows | sed 's/ .*//'; }

# each BEFORE AFTER WORD..: every word, between the two
each() {
    local before=$1 after=$2 word
    shift 2
    for word; do printf '%s%s%s' "$before" "$word" "$after"; done
}

# lent WHEN: what the rooms hold, together where there are several
lent() {
    local all
    all=$(each '' "$1, " "${rooms[@]}")
    all=${all%, }
    [ ${#rooms[@]} = 1 ] || all="($all)"
    printf '%s' "$all"
}

# contract_of ANSWER: what is promised of it, of what is passed and of the rooms before and after
contract_of() {
    printf '%s' "$promise" "$(each ' ' .now "${lists[@]}")" "$(each ' ' '' "${numbers[@]}")"
    [ ${#rooms[@]} = 0 ] || printf ' %s' "$(lent .old)"
    [ -z "$1" ] || printf ' %s' "$1"
    [ ${#rooms[@]} = 0 ] || printf ' %s' "$(lent .new)"
}

# claim PRIME: the promise as a theorem has it; the prime tells the second answer and rooms from the first
claim() {
    local given=$promise
    given+=$(each ' ' '' "${bound[@]}" "${numbers[@]}")
    case $result,${#rooms[@]} in
    Answer,0) printf '%s a%s' "$given" "$1" ;;
    CAnswer,0) printf 'InC (%s) c%s' "$given" "$1" ;;
    Answer,*) printf '%s %s a%s after%s' "$given" "$room" "$1" "$1" ;;
    CAnswer,*) printf 'InC (λ a. %s %s a after%s) c%s' "$given" "$room" "$1" "$1" ;;
    esac
}

# expect: takes the table in. What each function must have: its promise, its parameters and contract, and the theorem of one
# answer; and what each promise must have: its head, the call and the function of C
declare -A wanted
expect() {
    local name promise fields lists numbers rooms bound parameters result answer room type text
    while read -r name promise "fields[0]" "fields[1]" "fields[2]"; do
        IFS=, read -ra lists <<<"${fields[0]#-}"
        IFS=, read -ra numbers <<<"${fields[1]#-}"
        IFS=, read -ra rooms <<<"${fields[2]#-}"
        result=Answer answer=a
        [[ $name != batqemulo_* ]] || result=CAnswer answer=c
        case ${#rooms[@]} in
        0 | 1) room=room type='List ℕ' ;;
        2) room=rooms type='List ℕ × List ℕ' ;;
        *) room=lent type=Lent ;;
        esac

        wanted[$name promise]=$promise
        wanted[$promise applied]="$promise ${numbers[0]-} ${rooms[0]-}.now"
        [ ${#lists[@]} = 0 ] || wanted[$promise applied]="$promise ${lists[0]}.now"
        wanted[$promise $result]=$name
        parameters="$(each '' ': list, ' "${lists[@]}")$(each '' ': number, ' "${numbers[@]}")$(each '' ': room, ' "${rooms[@]}")"

        case $result,${#rooms[@]} in
        Answer,*) text=$(contract_of result) ;;
        CAnswer,0) text="InC ($(contract_of '')) result" ;;
        CAnswer,*) text="InC (λ a. $(contract_of a)) result" ;;
        esac
        wanted[$name contract]="fn $name(${parameters%, }) -> $result ensures { $text }"

        # the theorems call a text s
        bound=("${lists[@]/#text/s}")
        text="$(each '(' ' : List ℕ) ' "${bound[@]}")$(each '(' ' : ℕ) ' "${numbers[@]}")"
        [ ${#rooms[@]} = 0 ] || text+="($room : $type) "
        text+="($answer : $result) ($answer' : $result) "
        [ ${#rooms[@]} = 0 ] || text+="(after : $type) (after' : $type) "
        text+="→ $(claim '') → $(claim "'") → "
        case ${#rooms[@]} in
        0) text+="$answer ≡ $answer'" ;;
        *) text+="($answer ≡ $answer') × (after ≡ after')" ;;
        esac
        wanted[$name unique]=$text

        text="$(each '(' ' : List ℕ) ' "${lists[@]}")$(each '(' ' : ℕ) ' "${numbers[@]}")→ "
        [ ${#rooms[@]} = 0 ] || text+="$type → "
        text+='Answer → '
        [ ${#rooms[@]} = 0 ] || text+="$type → "
        wanted[$promise head]="${text}Type 0"
    done < <(rows)
    wanted['Lent is']='Lent = List ℕ × List ℕ × ℕ'
}

# ---- what is there, from the sources

# one_space: runs of blanks are one, and none stands next to a parenthesis, inside
one_space() { sed 's/[[:blank:]][[:blank:]]*/ /g; s/( /(/g; s/ )/)/g; s/ $//'; }

# heads FILE..: of each public function its file, its name and, after an `@`, its signature and contract. A parameter is a list
# that is read, a number or a room.
heads() {
    awk '
        /^pub (extern "C" )?fn / {
            sub(/^pub (extern "C" )?/, "")
            name = $2
            sub(/\(.*/, "", name)
            head = ""
        }
        name != "" && /^{/ { print FILENAME " " name "@" head; name = "" }
        name != "" { head = head $0 " " }' "$@" | one_space |
        sed 's/: &\[u[0-9]*\]/: list/g; s/: &mut \[u[0-9]*\]/: room/g; s/: &mut u32/: room/g; s/: u32/: number/g; s/,) ->/) ->/'
}

# names_taken FILE..: the file, a name that its clauses take and, after an `@`, the module that has it
names_taken() {
    awk '
        /^ghost use / { line = ""; inside = 1 }
        inside { line = line $0 " " }
        inside && /;/ {
            inside = 0
            sub(/^ghost use /, "", line)
            module = line
            sub(/\.\{.*/, "", module)
            sub(/^[^{]*\{/, "", line)
            sub(/\}.*/, "", line)
            count = split(line, names, ",")
            for (i = 1; i <= count; i++) { sub(/^ */, "", names[i]); print FILENAME " " names[i] "@" module }
        }' "$@" | one_space
}

# statements FILE..: of each definition and theorem that others can name its name and, after an `@`, what it says: the parameters
# of the modules around it come first, and each parameter stands by itself
statements() {
    awk '
        function end() { if (name != "") print name "@" text; name = "" }
        FNR == 1 { end(); depth = 0; opens = 0 }
        /^ *(--.*)?$/ { next }
        { match($0, /^ */); indent = RLENGTH; at = $1 == "pub" ? 1 : 2 }
        name != "" && indent <= own { end() }
        name == "" && !opens { while (depth > 0 && indent <= level[depth]) depth-- }
        name == "" && $1 == "module" && $2 == "_" { opens = 1; level[++depth] = indent; around[depth] = "" }
        opens {
            line = $0
            sub(/^ *(module _ )?/, "", line)
            opens = !sub(/ where$/, "", line)
            around[depth] = around[depth] line " "
            next
        }
        name == "" && $at == "pub" && $(at + 2) == ":" {
            name = $(at + 1)
            own = indent
            text = ""
            for (i = 1; i <= depth; i++) text = text around[i] "→ "
            sub(/^[^:]* : /, "")
        }
        name != "" { text = text $0 " " }
        END { end() }' "$@" | one_space | sed -E '
        :split
        s/\(([^ ():]+) ([^():]+) : ([^()]*)\)/(\1 : \3) (\2 : \3)/
        t split
        :join
        s/(\([^ ():]+ : [^()]*\)) → (\([^ ():]+ : )/\1 \2/
        t join'
}

# look: takes the sources in. What stands twice under one name is put together, and is then not what is wanted.
declare -A found
look() {
    local key text name file promises=(crates/promises/specs/*.antt) sources=(crates/batqemulo*/src/*.rt crates/call_*/src/*.rt)
    found=()
    while IFS=@ read -r key text; do
        found[$key]+=$text
    done < <(heads "${sources[@]}" && names_taken "${sources[@]}" && statements "${promises[@]}" \
        crates/promises/proofs/Unique*.antt crates/batqemulo_c/proofs/Contracts.antt)
    while read -r name file; do
        found[$name file]=$file
    done < <(calls)
    while IFS=: read -r file key; do
        file=${file##*/}
        found[$key module]+=${file%.antt}
    done < <(grep -H -o 'pub [A-Z][A-Za-z]* :' "${promises[@]}" | sed 's/pub //; s/ :$//')
    found['Lent is']=$(grep -h '^Lent = ' "${promises[@]}")
    found[Contracts]=$(<crates/batqemulo_c/proofs/Contracts.antt)
}

# ---- the one held against the other

# same WANTED FOUND
same() { [ "$1" = "$2" ] || { printf 'wanted: %s\nfound:  %s\n' "$1" "$2" && false; }; }

# head_of NAME: the call's signature and contract
head_of() { printf '%s' "${found[${found[$1 file]-} $1]-}"; }

asks_nothing() { [[ $(head_of "$1") != *requires* ]]; }

# contract_held NAME: it has these parameters and this contract, and the names in it are those of the meanings
contract_held() {
    local promise=${wanted[$1 promise]-none} file=${found[$1 file]-}
    same "${wanted[$1 contract]-}" "$(head_of "$1")" &&
        same "Rattle.promises.specs.${found[$promise module]-}" "${found[$file $promise]-}" &&
        { [[ $1 != batqemulo_* ]] || same Rattle.answer.specs.InC "${found[$file InC]-}"; }
}

promise_held() {
    local promise=${wanted[$1 promise]-none}
    same "${wanted[$promise head]-}" "${found[$promise]-}" && same "${wanted[Lent is]}" "${found[Lent is]}"
}

unique_held() { same "${wanted[$1 unique]-}" "${found[unique_$1]-}"; }

# theorem_held NAME: the theorem of the call that its contract is the promise, and that of the function of C too, is there
theorem_held() {
    local promise=${wanted[$1 promise]-none} call function said crate
    call=${wanted[$promise Answer]-}
    function=${wanted[$promise CAnswer]-}
    crate=${found[$call file]-}
    crate=${crate#crates/}
    said=${found[contract_$call]-}
    call=${call//_/-}
    function=c-${function#batqemulo_}
    function=${function//_/-}
    has "$said" "InRattleAndC $call.Asked $call.Learnt $function.Asked $function.Learnt (λ κs " && has "$said" " ${wanted[$promise applied]-none}" &&
        has "${found[Contracts]}" "use Rattle.${crate%%/*}.proofs.${wanted[$promise Answer]}.Reads as $call" &&
        has "${found[Contracts]}" "use Rattle.batqemulo_c.proofs.${wanted[$promise CAnswer]}.Reads as $function"
}

has() { [[ $1 == *"$2"* ]] || { printf 'not there: %s\nin: %s\n' "$2" "$1" && false; }; }

# all_held: every call of the sources here
all_held() {
    local name
    look
    while read -r name _; do
        contract_held "$name" && promise_held "$name" && unique_held "$name" && theorem_held "$name" || return 1
    done < <(calls)
}

# apart: a folder that goes at the end, outside the repository, in which `rt ci` refuses sources that no crate has
apart=$(mktemp -d)
trap 'rm -rf "$apart"' EXIT
twin=$apart/twin

# copied: the sources that are looked at, in a folder of their own
copied() {
    rm -rf "$twin" && mkdir -p "$twin" &&
        cp -r --parents crates/batqemulo*/src crates/call_*/src crates/promises/{specs,proofs} crates/batqemulo_c/proofs "$twin"
}

copy_held() { copied && (cd "$twin" && all_held); }

# refused FILE OLD NEW..: where the file has NEW for OLD, for each such pair, not every call is held
refused() {
    local file=$twin/$1 text
    copied || return 1
    text=$(<"$file")
    while shift && [ $# -gt 1 ]; do
        has "$text" "$1" || return 1
        text=${text/"$1"/"$2"}
        shift
    done
    printf '%s\n' "$text" >"$file"
    ! (cd "$twin" && all_held)
}

has_row() { grep -q "^| \`$1\` |" docs/PROMISES.md; }

# edits_named: the edits that PROMISES.md names, by the rows that say so
edits_named() {
    grep -o 'edits\{0,1\} `[a-z_0-9]*`\(\(, \| and \)`[a-z_0-9]*`\)*' docs/PROMISES.md | grep -o '`[a-z_0-9]*`' | tr -d '`' | sort -u
}

# names_said: every name that PROMISES.md has between backquotes, a field by itself
names_said() {
    grep -o '`[^`]*`' docs/PROMISES.md | tr -d '`' | tr ' ' '\n' | sed 's/^\.//; s/^(//; s/)$//' |
        grep -x "[A-Za-z][A-Za-z0-9_'-]*[A-Za-z0-9_']" | sort -u
}

# name_there NAME: in a source or a test, or an edit, or a crate
name_there() {
    [ -d "crates/$1" ] || edit_there "$1" ||
        grep -rqw --exclude-dir=out --include='*.antt' --include='*.rt' --include='*.edit' --include='*.h' --include='*.sh' \
            --include=ASSUMPTIONS.md -- "$1" crates include tests docs/ASSUMPTIONS.md
}

edit_there() { compgen -G "crates/*/must-fail/$1.edit" >/dev/null; }

expect
look
while read -r name file; do
    try "$name is found in its source" test -n "$(head_of "$name")"
    try "$name asks nothing of its caller" asks_nothing "$name"
    try "$name promises: ${wanted[$name promise]-}" contract_held "$name"
    try "$name has a row in PROMISES.md" has_row "$name"
    try "$name: the head of its promise" promise_held "$name"
    try "$name has its uniqueness theorem" unique_held "$name"
    try "$name has a theorem that its contract is its promise" theorem_held "$name"
done < <(calls)

source=crates/batqemulo_c/src/lib.rt
labels=crates/promises/specs/LabelCalls.antt
try 'a copy of the sources is held' copy_held
try 'twin: moves for pairs, and a contract that says nothing, are refused' refused $source \
    'call_labels_lists::pairs_labels(' 'call_labels_lists::moves_labels(' \
    'InC (λ a. PairsLabels' '(InC (λ a. PairsLabels' '    labels.old a labels.new) result }' \
    '    labels.old a labels.new) result) → result ≡ result }'
try 'twin: the contract of another call is refused' refused crates/call_labels_text/src/lib.rt '{ TextLengths' '{ TextLabels'
try 'twin: the bytes of another code are refused' refused crates/call_number/src/lib.rt '{ NumberText number' '{ NumberText 7'
try 'twin: lists exchanged in a contract are refused' refused crates/call_kinds/src/lib.rt \
    'PairsKinds marks.now objectors.now targets.now' 'PairsKinds marks.now targets.now objectors.now'
try 'twin: another promise by the same name is refused' refused $source '{PairsKinds}' '{Objections as PairsKinds}'
try 'twin: a second clause is refused' refused crates/call_listing/src/lib.rt \
    'ensures { TextListing text.now room.old result room.new }' \
    'ensures listed { TextListing text.now room.old result room.new } ensures more { Unit {0} }'
try 'twin: a demand on the caller is refused' refused crates/call_mend/src/lib.rt \
    'ensures { TextMend' 'requires { ⊥ } ensures { TextMend'
try 'twin: a theorem of one answer and any rooms is refused' refused crates/promises/proofs/UniqueListing.antt \
    "→ (a ≡ a') × (after ≡ after')" "→ (a ≡ a') × (after ≡ after)"
try 'twin: a theorem that has its conclusion among the hypotheses is refused' refused crates/promises/proofs/UniqueInC.antt \
    "InC (λ a. TextMend s lent a after') c' →" "InC (λ a. TextMend s lent a after') c' → (c ≡ c') × (after ≡ after') →"
try 'twin: another head of a promise is refused' refused $labels 'MovesLabels : (marks from to' 'MovesLabels : (marks to from'
try 'twin: a call without the theorem of its contract is refused' refused crates/batqemulo_c/proofs/Contracts.antt \
    'c-sheet.Learnt' 'text-sheet.Learnt'

while read -r edit; do
    try "the edit $edit is there" edit_there "$edit"
done < <(edits_named)

while read -r name; do
    try "the name $name is there" name_there "$name"
done < <(names_said)

try 'the table has a line for each call, and no other' same "$(calls | sed 's/ .*//' | sort)" "$(in_table | sort)"
try 'there are public calls' test "$(calls | wc -l)" -ge 40
finish
