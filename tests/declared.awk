# What is declared in sources (.antt and .rt). For each declaration that other files can name, and each function, a line with
# these fields, parted by tabs: file, name, kind, the record, data, enum or struct that it belongs to or `-`, its first and last
# line, and the last line of its statement: what stands before the first clause. A `mutual` block is one declaration with several
# names. The kinds: definition, record, data, theorem; field, constructor; fn, struct, enum, variant.
# Usage: awk -f tests/declared.awk FILE..

function indent_of(line) {
    match(line, /^ */)
    return RLENGTH
}

# ends what was begun at this indentation or deeper; `code` is the last line of code before this one
function close_to(indent) {
    while (depth > 0 && at[depth] >= indent) {
        if (stated[depth] == 0) stated[depth] = code
        for (i = 1; i <= names[depth]; i++)
            print source "\t" name[depth, i] "\t" kind[depth] "\t" parent[depth] "\t" first[depth] "\t" code "\t" stated[depth]
        depth--
    }
}

function open(indent, of_kind, word, of_parent) {
    depth++
    at[depth] = indent
    kind[depth] = of_kind
    parent[depth] = of_parent
    first[depth] = FNR
    stated[depth] = 0
    names[depth] = 1
    sub(/[(<:;,{].*/, "", word)
    name[depth, 1] = word
}

# opens a declaration of all names from the word k on, up to the colon
function open_names(indent, of_kind, k, of_parent) {
    open(indent, of_kind, $k, of_parent)
    for (k++; k <= NF && $k != ":"; k++) name[depth, ++names[depth]] = $k
}

# inside a declaration of this kind, whose parts stand at its indentation and two more (.antt) or four more (.rt)
function part_of(of_kind, indent, more) { return depth > 0 && kind[depth] == of_kind && indent == at[depth] + more }

FNR == 1 {
    close_to(0)
    source = FILENAME
    rust = source ~ /\.rt$/
    code = 0
    mutual = -1
}

/^ *(--|\/\/|$)/ { next }

# .antt: a clause repeats a name, so it ends a statement, as `unfolding` does; whatever stands deeper belongs to what is open
!rust {
    indent = indent_of($0)
    if (mutual >= 0 && indent <= mutual) mutual = -1
    if ($1 ~ /^(abbrev|unfoldable)$/ && $2 == "pub") {
        close_to(indent)
        open(indent, "definition", $3, "-")
    } else if ($1 == "unfoldable" && $2 == "mutual") {
        close_to(indent)
        open(indent, "definition", "", "-")
        names[depth] = 0
        mutual = indent
    } else if ($1 == "pub" && mutual >= 0) {
        name[depth, ++names[depth]] = $2
    } else if ($1 == "pub" && $2 ~ /^(record|data)$/) {
        close_to(indent)
        open(indent, $2, $3, "-")
    } else if ($1 == "pub" && $2 == "mod") {
        close_to(indent)
    } else if ($1 == "pub") {
        close_to(indent)
        if (part_of("record", indent, 2)) open_names(indent, "field", 2, name[depth, 1])
        else open_names(indent, "theorem", 2, "-")
    } else if (depth > 0 && at[depth] == indent && $1 == name[depth, 1] && $2 != ":") {
        if (stated[depth] == 0) stated[depth] = code
    } else if (depth > 0 && at[depth] == indent && $1 == "unfolding") {
        if (stated[depth] == 0) stated[depth] = code
    } else {
        if (depth > 0 && indent <= at[depth]) close_to(indent)
        if (part_of("data", indent, 2) && $1 != "deriving") open_names(indent, "constructor", 1, name[depth, 1])
    }
    code = FNR
}

rust {
    indent = indent_of($0)
    line = $0
    sub(/^ *pub /, "", line)
    sub(/^ *extern "C" /, "", line)
    split(line, word, " ")
    if (word[1] == "fn" || word[1] == "struct" || word[1] == "enum") {
        close_to(indent)
        open(indent, word[1], word[2], "-")
    } else if (indent == 0 && $1 !~ /^[{})]/) {
        close_to(indent)
    } else if (part_of("enum", indent, 4)) {
        open(indent, "variant", $1, name[depth, 1])
        code = FNR
        close_to(indent)
    } else if (part_of("struct", indent, 4) && $1 == "pub") {
        open(indent, "field", $2, name[depth, 1])
        code = FNR
        close_to(indent)
    }
    code = FNR
}

END { close_to(0) }
