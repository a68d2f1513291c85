# What a reader has to believe: tests/reading says what is told. It reads crates.txt, the lines of tests/declared.awk as standard
# input, docs/PROMISES.md and all sources, in this order.
BEGIN { FS = "\t" }

# crates.txt: the order of the crates, and which of them are meanings
FILENAME == "crates.txt" {
    if (match($0, /^[a-z_]+/) && /:/) {
        crates[++crate_count] = substr($0, 1, RLENGTH)
        meaning[crates[crate_count]] = crates[crate_count] !~ /_|^batqemulo$/
    }
    next
}

# the declarations; a part is told by the whole that it belongs to
FILENAME == "-" {
    whole = $4 == "-" ? $2 : $4
    if ($4 == "-" || !(($1, $2) in owner)) owner[$1, $2] = whole
    if ($4 == "-") {
        kind[$1, $2] = $3
        first[$1, $2] = $5
        last[$1, $2] = $3 == "theorem" ? $7 : $6
        declared[++declared_count] = $1 SUBSEP $2
        if ($1 ~ /\/src\//) type_file[crate_of($1), $2] = $1
    }
    next
}

# docs/PROMISES.md: what its rows cite, between backquotes
FILENAME == "docs/PROMISES.md" {
    if ($0 ~ /^\|/) for (i = split($0, said, "`"); i > 0; i--) if (i % 2 == 0) cited[said[i]]
    next
}

# the sources
FNR == 1 { files[++file_count] = FILENAME }
{ size[FILENAME] = FNR }
/^(ghost )?use / { bind($0); next }
/^pub use [a-z_]+::[A-Za-z_{}, ]+;/ && FILENAME ~ /^crates\/batqemulo\// { name_calls($0) }
/^ *(--|\/\/|$)/ { next }
{ code[FILENAME, FNR] = $0 }

function crate_of(file,    path) {
    split(file, path, "/")
    return path[2]
}

# bind LINE: what a `use` line brings into scope: each name with its file and its name there, or an alias of a module
function bind(line,    module, alias, count, i, names, two, path, file) {
    sub(/^(ghost )?use /, "", line)
    sub(/;$/, "", line)
    if (match(line, / as [^ },]+$/)) {
        alias = substr(line, RSTART + 4)
        line = substr(line, 1, RSTART - 1)
    }
    module = line
    sub(/\.\{.*/, "", module)
    file = file_of(module)
    if (alias != "") {
        aliases[FILENAME, alias] = file
        return
    }
    if (!match(line, /\{.*\}/)) return
    count = split(substr(line, RSTART + 1, RLENGTH - 2), names, /, */)
    for (i = 1; i <= count; i++) {
        split(names[i], two, " as ")
        if (two[2] == "") two[2] = two[1]
        gsub(/^◌|◌$/, "", two[2])
        bound_file[FILENAME, two[2]] = file
        bound_name[FILENAME, two[2]] = two[1]
    }
}

# file_of MODULE: `Rattle.game.specs.Book` is crates/game/specs/Book.antt; `Rattle.game.specs.declared.Kind` stands for the
# type of that name in src/, whose file is known once all are read; what is no crate of ours is of the kit
function file_of(module,    path) {
    split(module, path, ".")
    if (path[1] != "Rattle" || !(path[2] in meaning)) return "kit " module
    if (path[4] == "declared") return "type " path[2] " " path[5]
    return "crates/" path[2] "/" path[3] "/" path[4] ".antt"
}

# name_calls LINE: `pub use answer::{Answer, CAnswer};` and `pub use call_kinds::pairs_kinds;`
function name_calls(line,    two, count, names, i) {
    sub(/^pub use /, "", line)
    gsub(/[{};]/, "", line)
    split(line, two, "::")
    count = split(two[2], names, /, */)
    for (i = 1; i <= count; i++) calls[++call_count] = two[1] SUBSEP names[i]
}

# go FILE NAME FROM: this name is used in the file; what it stands for is reached. Of one with points the first part is a module,
# or all that counts: the others are fields.
function go(file, name, from,    target, parts, two) {
    split(name, two, ".")
    if (two[2] != "" && (file, two[1]) in aliases) {
        target = aliases[file, two[1]]
        name = two[2]
    } else if ((file, two[1]) in bound_file) {
        target = bound_file[file, two[1]]
        name = bound_name[file, two[1]]
    } else {
        target = file
        name = two[1]
    }
    if (target ~ /^kit /) {
        kit[substr(target, 5), name]
        return
    }
    if (target ~ /^type /) {
        split(target, parts, " ")
        target = type_file[parts[2], parts[3]]
        name = parts[3]
    }
    if (target != from) needs[from, target]
    reach(target, name)
}

function reach(file, name) {
    if (!((file, name) in owner)) return
    name = owner[file, name]
    if ((file, name) in reached) return
    reached[file, name] = round
    if (!(file in reached_file)) reached_file[file] = round
    words(file, first[file, name], last[file, name])
}

# words FILE FROM TO: goes on with every word of these lines
function words(file, from, to,    n, line, count, i, found) {
    for (n = from; n <= to; n++) {
        line = code[file, n]
        gsub(/[(){};,]/, " ", line)
        count = split(line, found, " ")
        for (i = 1; i <= count; i++) {
            sub(/\.$/, "", found[i])
            if (found[i] !~ /^\./) go(file, found[i], file)
        }
    }
}

# ensured FILE NAME: goes on with what the function ensures
function ensured(file, name,    n, from) {
    for (n = first[file, name]; n <= last[file, name]; n++) {
        if (code[file, n] ~ /^ *ensures/ && !from) from = n
        if (code[file, n] ~ /^{/) break
    }
    words(file, from, n - 1)
    if (from) ensures_count++
}

# place FILE: puts it into the order, behind what it needs of its own crate
function place(file, crate,    i) {
    if (file in placed || crate_of(file) != crate || reached_file[file] != 1) return
    placed[file]
    for (i = 1; i <= file_count; i++) if ((file, files[i]) in needs) place(files[i], crate)
    order[++order_count] = file
}

# list CRATE FILE: one more in the crate's row, which goes on in the next line where it is long
function list(crate, file) {
    sub(/.*\//, "", file)
    sub(/\.antt$/, "", file)
    if (crate == listed && length(row ", " file) <= 100) {
        row = row ", " file
        return
    }
    if (listed != "") print row (crate == listed ? "," : "")
    row = sprintf("%-10s%s", crate == listed ? "" : crate, file)
    listed = crate
}

function short(file) {
    sub(/^crates\//, "", file)
    sub(/\.antt$/, "", file)
    return file
}

# round_of KEY: when it was reached, or 0
function round_of(key) { return key in reached ? reached[key] : 0 }

# lines_of FILE ROUND: how many lines of what was reached then
function lines_of(file, in_round,    i, two, n, seen, sum) {
    for (i = 1; i <= declared_count; i++) {
        split(declared[i], two, SUBSEP)
        if (two[1] != file || round_of(declared[i]) != in_round) continue
        for (n = first[two[1], two[2]]; n <= last[two[1], two[2]]; n++)
            if ((file, n) in code && !(n in seen)) {
                seen[n]
                sum++
            }
    }
    return sum + 0
}

# names_of FILE ROUND: what was reached of it then, or, in the round 0, what was not
function names_of(file, in_round,    i, two, all) {
    for (i = 1; i <= declared_count; i++) {
        split(declared[i], two, SUBSEP)
        if (two[1] == file && kind[two[1], two[2]] != "theorem" && round_of(declared[i]) == in_round)
            all = all (all == "" ? "" : ", ") two[2]
    }
    return all
}

END {
    round = 1
    for (i = 1; i <= call_count; i++) {
        split(calls[i], two, SUBSEP)
        file = type_file[two[1], two[2]]
        if (kind[file, two[2]] == "fn") ensured(file, two[2])
        else reach(file, two[2])
    }
    for (i = 1; i <= declared_count; i++) {
        split(declared[i], two, SUBSEP)
        if (two[1] ~ /^crates\/batqemulo_c\/src\/lib\.rt$/) ensured(two[1], two[2])
        if (two[1] ~ /^crates\/program_[a-z]+\/src\/main\.rt$/ && two[2] == "output") ensured(two[1], two[2])
        if (two[1] ~ /\/promises\/specs\/Demands\.antt$/) reach(two[1], two[2])
    }
    for (i = 1; i <= crate_count; i++) for (j = 1; j <= file_count; j++) if (meaning[crates[i]]) place(files[j], crates[i])

    if (form == "list") {
        for (i = 1; i <= order_count; i++) list(crate_of(order[i]), order[i])
        print row
        exit
    }

    print "To be believed, in this order: what the public calls and the programs promise, and the demands."
    print "lines  of all  file"
    for (i = 1; i <= order_count; i++) {
        lines = lines_of(order[i], 1)
        printf "%5d  %6d  %s\n", lines, size[order[i]], short(order[i])
        sum += lines
        whole_sum += size[order[i]]
    }
    printf "%5d  %6d  together, in %d files; %d contracts\n", sum, whole_sum, order_count, ensures_count

    # what else the rows cite
    round = 2
    for (i = 1; i <= declared_count; i++) {
        split(declared[i], two, SUBSEP)
        if (meaning[crate_of(two[1])] && two[2] in cited) reach(two[1], two[2])
    }
    print "\nTo be believed beside that, for sentences about the meanings in docs/PROMISES.md:"
    sum = 0
    for (i = 1; i <= crate_count; i++) for (j = 1; j <= file_count; j++) {
        if (!meaning[crates[i]] || crate_of(files[j]) != crates[i]) continue
        names = names_of(files[j], 2)
        if (names == "") continue
        printf "       %s: %s\n", short(files[j]), names
    }

    print "\nReached by no promise and no sentence:"
    for (i = 1; i <= crate_count; i++) for (j = 1; j <= file_count; j++) {
        if (!meaning[crates[i]] || crate_of(files[j]) != crates[i] || files[j] !~ /\/(specs|src)\//) continue
        names = names_of(files[j], 0)
        if (names != "") printf "       %s: %s\n", short(files[j]), names
    }

    print "\nOf the library of the kit:"
    for (key in kit) {
        split(key, two, SUBSEP)
        of_kit[two[1]] = of_kit[two[1]] " " two[2]
    }
    for (module in of_kit) print "       " module ":" of_kit[module] | "LC_ALL=C sort"
}
