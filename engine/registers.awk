# Writes registers, each followed by a blank line: all of up to three statements, then `count` random
# ones of many shapes, the same in every run of the same `seed`. Numbers are in no order, and of both
# forms.

function below(bound) {
    state = (state * 16807) % 2147483647
    return int(state / 2147483647 * bound)
}

function statement(place, unread) {
    printf "S\t%s\t%s\n", number[place], unread ? "U" : "R"
}

function objection(objector, target) {
    if (objected[objector, target]++)
        return
    printf "O\t%s\t%s\n", number[objector], number[target]
}

# the bits of `which` say who is unread and who objects to whom
function small(statements, which,    x, y) {
    for (x = 0; x < statements; x++) {
        number[x] = 7 - 2 * x
        statement(x, which % 2)
        which = int(which / 2)
    }
    split("", objected)
    for (x = 0; x < statements; x++)
        for (y = 0; y < statements; y++) {
            if (which % 2)
                objection(x, y)
            which = int(which / 2)
        }
    printf "\n"
}

# of either form; another one at each place, since plain ones are 7,919 apart and years all differ
function random_number(place) {
    if (below(2))
        return (1000 + place * 7919 % 1100) "." (1 + below(9999))
    return (place * 7919 + 1 + below(2) * 10000000) % 99999999 + 1
}

# one pair: of any two, of a later one against an earlier, or of the next one against one
function random_pair(shape, statements,    x, y) {
    x = below(statements)
    y = below(statements)
    if (shape == 1 && y < x || shape == 2 && below(3))
        y = (shape == 2) ? (x + 1) % statements : statements - 1 - below(statements - x)
    objection(y, x)
}

# the greatest number of statements, how many of them are unread, how many objections there are to
# one statement and whether there are circles all differ from register to register
function random(    statements, unread, shape, pairs, x) {
    statements = 1 + below(below(8) ? 24 : 160)
    unread = below(3) ? 2 + below(12) : 0
    shape = below(4)
    pairs = int(statements * (1 + below(10)) / 4)
    for (x = 0; x < statements; x++) {
        number[x] = random_number(x)
        statement(x, unread && !below(unread))
    }
    split("", objected)
    # a chain, so that there are long lines of argument
    for (x = 0; shape == 3 && x + 1 < statements; x++)
        objection(x + 1, x)
    while (pairs-- > 0)
        random_pair(shape == 3 ? 1 + below(9) % 2 : shape, statements)
    printf "\n"
}

BEGIN {
    state = 1 + seed
    for (statements = 0; statements <= 3; statements++)
        for (which = 0; which < 2 ^ (statements + statements * statements); which++)
            small(statements, which)
    for (i = 0; i < count; i++)
        random()
}
