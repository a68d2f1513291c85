# Reads registers, each followed by a blank line, and has gringo and clasp find what all complete
# labellings of one have in common, register by register. Prints the label of every statement: the
# register's place in the input, the number, the label. `rules` and `facts` are two files. Numbers
# are quoted there, since a point is no part of a term.

BEGIN {
    FS = OFS = "\t"
    command = "gringo " rules " " facts " | clasp --enum-mode=cautious --quiet=1 --verbose=0 0"
}

function quoted(number) {
    return "\"" number "\""
}

$1 == "S" {
    order[++statements] = $2
    print "statement(" quoted($2) ")." >facts
    if ($3 == "U")
        print "unread(" quoted($2) ")." >facts
}

$1 == "O" {
    print "objects(" quoted($2) "," quoted($3) ")." >facts
}

# the answer is a line of atoms: stands("5") falls("1987.14")
function solve(    answer, atoms, count, parts, i, satisfiable) {
    split("", label)
    while ((command | getline answer) > 0) {
        satisfiable = answer == "SATISFIABLE"
        count = split(answer, atoms, " ")
        for (i = 1; i <= count; i++)
            if (split(atoms[i], parts, /[()"]+/) == 3)
                label[parts[2]] = parts[1]
    }
    close(command)
    return satisfiable
}

NF == 0 {
    printf "" >facts
    close(facts)
    registers++
    if (!solve())
        print registers, "no answer"
    for (i = 1; i <= statements; i++)
        print registers, order[i], (order[i] in label) ? label[order[i]] : "open"
    statements = 0
}
