# Holds the rows of docs/PROMISES.md against the sources. It reads the lines of tests/declared.awk as standard input, then the
# sources, then the paper, and prints a line for each thing that it looks at: `ok` or `not`, a tab, and what was asked.
#
# A table says in its column `where` in which files and folders below crates/ stands what its rows cite; `the same` is the row
# above, and `-` is nowhere. What a row cites stands between backquotes in the columns between the first and that one, or in the
# first if there is none between: a name, a name with what it is applied to, or a field (`Answers .gives`; a field alone is of the
# record cited last, or of one in the statement of the theorem cited last). Words of one letter are variables.

BEGIN { FS = "\t" }

FILENAME == "-" {
    declared[++declared_count] = $0
    kind_of[$1, $2] = kind_of[$1, $2] " " $3
    if ($4 != "-") field_of[$1, $4, $2]
    if ($3 == "record") record_in[$1, $2]
    if ($3 == "theorem") {
        theorem_count[$2]++
        theorem_file[$2, theorem_count[$2]] = $1
        first[$1, $2] = $5
        last[$1, $2] = $6
        stated[$1, $2] = $7
    }
    next
}

FILENAME != paper {
    if (FNR == 1) {
        files[++file_count] = FILENAME
        parameters = ""
        in_module = 0
    }
    # the parameters of the modules so far
    if ($0 ~ /^ *module /) in_module = 1
    if (in_module) parameters = parameters " " binders($0)
    if ($0 ~ / where$/) in_module = 0
    bound_by_module[FILENAME, FNR] = parameters
    if ($0 !~ /^ *(--|\/\/|$)/) code[FILENAME, FNR] = $0
    next
}

# the paper
/^## / { section = substr($0, 4) }
!/^\|/ { column_count = 0; next }
/^\|---/ { next }
{
    cell_count = split_row($0)
    if (column_count == 0) {
        column_count = cell_count
        where_column = 0
        for (i = 2; i <= cell_count; i++) if (cell[i] == "where") where_column = i
        tell(where_column > 0, section ": the table says where")
        next
    }
    if (where_column == 0) next
    look_where(cell[where_column])
    for (i = where_column > 2 ? 2 : 1; i < where_column; i++) look_cited(cell[i])
}

function tell(good, what) { print (good ? "ok" : "not") "\t" what }

# split_row LINE: its cells, from 1; a stroke between backquotes parts nothing
function split_row(line,    count, i, inside, c) {
    count = 0
    for (i = 1; i <= length(line); i++) {
        c = substr(line, i, 1)
        if (c == "`") inside = !inside
        if (c == "|" && !inside) cell[++count] = ""
        else if (count > 0) cell[count] = cell[count] c
    }
    for (i = 1; i < count; i++) gsub(/^ +| +$/, "", cell[i])
    return count - 1
}

# look_where TEXT: the files that the row names, in `here`; each of its paths has to be there
function look_where(text,    count, paths, i, j, found) {
    if (text !~ /^the same/) split("", here)
    count = split(text, paths, /, */)
    for (i = 1; i <= count; i++) {
        if (paths[i] == "the same" || paths[i] == "-") continue
        found = 0
        for (j = 1; j <= file_count; j++)
            if (files[j] == "crates/" paths[i] || files[j] == "crates/" paths[i] ".antt" ||
                index(files[j], "crates/" paths[i] "/") == 1) {
                here[files[j]]
                found = 1
            }
        tell(found, at_line() paths[i] " is there")
    }
}

function at_line() { return "line " FNR ": " }

# look_cited TEXT: every name and field between backquotes
function look_cited(text,    count, spans, words, n, i, j) {
    if (text !~ /^the same/) holder = ""
    count = split(text, spans, "`")
    for (i = 2; i <= count; i += 2) {
        n = split(spans[i], words, /[ ()]+/)
        for (j = 1; j <= n; j++) {
            if (words[j] ~ /^\./) look_field(substr(words[j], 2))
            else if (words[j] ~ /^[A-Za-z].*[^ ]$/) look_name(words[j], j == 1)
        }
    }
}

function look_name(name, leads,    file, found) {
    found = 0
    for (file in here) if ((file, name) in kind_of) {
        found = 1
        if (kind_of[file, name] ~ /theorem/) look_theorem(file, name)
    }
    tell(found, at_line() name " is declared where the row says")
    if (leads) holder = name
}

function look_field(name,    file, of, found) {
    found = 0
    for (file in here) {
        if ((file, holder, name) in field_of) found = 1
        if ((file, holder) in first)
            for (of in here) if (field_in_statement(file, holder, of, name)) found = 1
    }
    tell(found, at_line() "." name " is a field of " holder " where the row says")
}

# field_in_statement FILE THEOREM OF NAME: the statement has a record of the file OF, and that has this field
function field_in_statement(file, theorem, of, name,    text, count, words, i) {
    text = text_of(file, first[file, theorem], stated[file, theorem])
    gsub(/[(){},]/, " ", text)
    count = split(text, words, " ")
    for (i = 1; i <= count; i++) if ((of, words[i], name) in field_of) return 1
    return 0
}

function look_theorem(file, name) {
    if ((file, name) in looked) return
    looked[file, name]
    tell(!repeats(file, name, 0), at_line() name " says more than its hypotheses")
}

function text_of(file, from, to,    n, text) {
    for (n = from; n <= to; n++) if ((file, n) in code) text = text " " code[file, n]
    gsub(/  +/, " ", text)
    return text
}

# binders TEXT: the names that it binds in parentheses or braces before a colon
function binders(text,    found, part) {
    while (match(text, /[({][^(){}:]+ :/)) {
        part = substr(text, RSTART + 1, RLENGTH - 2)
        found = found " " part
        text = substr(text, RSTART + RLENGTH)
    }
    return found
}

# repeats FILE THEOREM DEEP: the conclusion is one of the premises, word for word; or each clause of the proof has no words but
# those that it binds, and projections of them; or it only hands what it binds to another theorem, which repeats
function repeats(file, name, deep,    n, line, margin, clause, all) {
    if (concludes_premise(text_of(file, first[file, name], stated[file, name]))) return 1
    all = 0
    clause = ""
    margin = code[file, first[file, name]]
    sub(/[^ ].*/, "", margin)
    for (n = stated[file, name] + 1; n <= last[file, name] + 1; n++) {
        line = n > last[file, name] ? margin name : code[file, n]
        if (line == "" || line ~ "^" margin "unfolding ") continue
        if (index(line, margin name) == 1 && (line == margin name || substr(line, length(margin name) + 1, 1) == " ")) {
            if (clause != "" && !hands_on(clause, name, bound_by_module[file, first[file, name]], deep)) return 0
            if (clause != "") all = 1
            clause = ""
        }
        clause = clause " " line
    }
    return all
}

# concludes_premise STATEMENT: what stands behind its last outer arrow stands before it too, alone or behind a colon
function concludes_premise(text,    count, parts, i, part) {
    sub(/^[^:]* : /, "", text)
    count = outer_parts(text, parts)
    for (i = 1; i < count; i++) {
        part = parts[i]
        if (part ~ /^\([^():]* : .*\)$/) part = substr(part, index(part, ": ") + 2, length(part) - index(part, ": ") - 2)
        if (part == parts[count]) return 1
    }
    return 0
}

function outer_parts(text, parts,    count, i, depth, words, n) {
    split("", parts)
    count = 1
    n = split(text, words, " ")
    for (i = 1; i <= n; i++) {
        if (depth == 0 && words[i] == "→") count++
        else parts[count] = parts[count] (parts[count] == "" ? "" : " ") words[i]
        depth += gsub(/[({]/, "", words[i]) - gsub(/[)}]/, "", words[i])
    }
    return count
}

# hands_on CLAUSE NAME PARAMETERS DEEP: the right side has nothing but what the left side, a λ or the module binds, or its fields
function hands_on(clause, name, parameters, deep,    cut, left, right, count, words, i, bound, lambda, head, foreign, whole) {
    cut = index(clause, " = ")
    if (cut == 0 || index(clause, " where ")) return 0
    left = parameters " " substr(clause, 1, cut)
    right = substr(clause, cut + 3)
    gsub(/[(){},]/, " ", left)
    gsub(/[(){},]/, " ", right)
    count = split(left, words, " ")
    for (i = 1; i <= count; i++) if (words[i] != name) bound[words[i]]
    count = split(right, words, " ")
    for (i = 1; i <= count; i++) {
        if (words[i] == "λ") lambda = 1
        else if (lambda) {
            if (sub(/\.$/, "", words[i])) lambda = 0
            bound[words[i]]
        } else {
            whole = words[i]
            sub(/\..*/, "", whole)
            if (whole == "" || whole in bound) continue
            foreign++
            head = words[i]
        }
    }
    if (foreign == 0) return 1
    if (foreign > 1 || head == name || deep > 8) return 0
    return theorem_count[head] == 1 && repeats(theorem_file[head, 1], head, deep + 1)
}
