# Tells a refusal in words: where, what it means, the line itself with its invisible bytes shown, and what is probably wrong with
# it. It reads the text as `od -An -v -tu1` prints it, so that no byte is lost on the way, and guesses from the bytes alone: the
# refusal itself is the proved program's. Every sentence is in sentences.txt.
#
# refusal, place and verb, what was asked of the text, are told by -v; the environment has `sentences`, that file; `source`, what
# the text came from; `asked`, a word. The text is a catalogue where it was to be made a register text, else a register text.

# filled KEY A B C: the sentence, with what was found put in its places
function filled(key, a, b, c, text, at, rest) {
    rest = sentence[key]
    while (at = index(rest, "%")) {
        text = text substr(rest, 1, at - 1) (substr(rest, at + 1, 1) == "1" ? a : substr(rest, at + 1, 1) == "2" ? b : c)
        rest = substr(rest, at + 2)
    }
    return text rest
}

# short WORD: no more of it than fits a line
function short(word) { return length(word) > 40 ? substr(word, 1, 40) " .." : word }

# hint KEY A B C: one more thing that is probably wrong, told once
function hint(key, a, b, c) {
    if (!((key, a) in hinted)) hints[++count] = filled(key, short(a), short(b), short(c))
    hinted[key, a] = 1
}

# shown BYTE: how it is shown, and read: what is visible is itself
function shown(byte) {
    if (byte == 9) return "<tab>"
    if (byte == 13) return "<CR>"
    if (byte == 32) return "<space>"
    return byte > 32 && byte < 127 ? sprintf("%c", byte) : sprintf("<%02X>", byte)
}

# part FROM TO PARTING: the fields of these bytes, which this byte parts; how many there are. Spaces part as many of them come.
function part(from, to, parting, k, fields) {
    fields = 1
    field[1] = ""
    for (k = from; k <= to; k++) {
        if (bytes[k] == parting && (parting != 32 || field[fields] != "")) field[++fields] = ""
        else if (bytes[k] != 32) field[fields] = field[fields] shown(bytes[k])
    }
    return parting == 32 && field[fields] == "" ? fields - 1 : fields
}

function has(from, to, byte, k) {
    for (k = from; k <= to; k++) if (bytes[k] == byte) return 1
    return 0
}

# blank FROM TO: there is nothing but tabs and spaces
function blank(from, to, k) {
    for (k = from; k <= to; k++) if (bytes[k] != 9 && bytes[k] != 32) return 0
    return 1
}

# has_year WORD: whether it begins with a year and a point
function has_year(word) { return word ~ /^(1[0-9]|20)[0-9][0-9]\./ }

# is_number WORD: whether it is one, a plain number or a year number
function is_number(word) {
    if (has_year(word)) return substr(word, 6) ~ /^[1-9][0-9]?[0-9]?[0-9]?$/
    return word ~ /^[1-9][0-9]*$/ && length(word) <= 8
}

# guess_year WORD: what is wrong with a word that has a point, and is no number
function guess_year(word, serial) {
    serial = substr(word, index(word, ".") + 1)
    if (word !~ /^[0-9A-Za-z.]+$/) hint("digits", word)
    else if (word ~ /[A-Za-z]/) hint("letter", word)
    else if (index(serial, ".")) hint("points", word)
    else {
        if (!has_year(word)) hint("year", word)
        if (serial == "") hint("no-serial", word)
        else if (serial ~ /^0/) hint("serial-zero", word)
        else if (length(serial) > 4) hint("serial-long", word, length(serial))
    }
}

# guess_number WORD: what is wrong with a word where a number is due
function guess_number(word, pointed) {
    pointed = word
    sub(/,/, ".", pointed)
    if (is_number(word)) return
    if (word == "") hint("no-digits")
    else if (is_number(pointed)) hint("comma-for-point", word, pointed)
    else if (index(word, ".")) guess_year(word)
    else if (word !~ /^[0-9]+$/) hint("digits", word)
    else if (word ~ /^0/) hint("zero", word)
    else hint("nine", word, length(word))
}

# guess_fields FIELDS: what is wrong with the fields of a line that has three, or of a card, which may have more
function guess_fields(fields, k) {
    if (catalogue && field[1] ~ /^[Oo]$/) hint("objection-line")
    else if (field[1] !~ /^[SOso]$/) hint(catalogue ? "first-of-card" : "first")
    if (catalogue && field[1] == "") return
    if (field[1] ~ /^[so]$/) hint("lower")
    guess_number(field[2])
    if (field[1] ~ /^[Oo]$/) guess_number(field[3])
    else if (field[3] ~ /^[ru]$/) hint("lower")
    else if (field[1] ~ /^[Ss]$/ && field[3] !~ /^[RU]$/) hint("mark")
    for (k = 4; k <= fields && count < most; k++) guess_number(field[k])
}

# is_card FIELDS: whether these, which are more than three, are the fields of a card with more than one objector; a statement with
# one number too many is as likely a slip
function is_card(fields, k) {
    for (k = 4; k <= fields; k++) if (!is_number(field[k])) return 0
    return fields > 4 && field[1] == "S" && is_number(field[2]) && field[3] ~ /^[RU]$/
}

# guess_line: what is wrong with the line in `bytes`, which is spoiled or not ended
function guess_line(from, to, parting, fields) {
    from = 1
    to = size
    if (wide) {
        hint("utf16")
        return
    }
    if (line == 1 && bytes[1] == 239 && bytes[2] == 187 && bytes[3] == 191) {
        hint("mark-of-order")
        from = 4
    }
    if (to >= from && bytes[to] == 13) {
        hint("windows")
        to--
    }
    if (blank(from, to)) {
        if (count == 0) hint("blank")
        return
    }
    if (bytes[to] == 9) hint("tab-behind")
    while (to >= from && bytes[to] == 9) to--
    # where there are semicolons, a comma may stand for a point
    parting = has(from, to, 9) ? 9 : has(from, to, 59) ? 59 : has(from, to, 44) ? 44 : has(from, to, 32) ? 32 : 9
    fields = part(from, to, parting)
    if (field[1] ~ /^[A-Za-z][A-Za-z]/) {
        hint("heading")
        return
    }
    if (parting == 44) hint("comma")
    if (parting == 59) hint("semicolon")
    if (has(from, to, 32)) hint("space")
    if (fields < 3) hint(catalogue ? "card-short" : "tab-missing")
    else if (fields == 3 || catalogue) guess_fields(fields)
    else {
        hint("too-many")
        if (is_card(fields)) hint("card")
    }
}

# guess_statement: what the lines before have to do with a statement that is not spoiled
function guess_statement() {
    if (refusal == 4) hint("objection", first_objection)
    if (refusal == 5) hint("issued", kept[2], issued[kept[2]])
    if (refusal == 6) hint("most-statements")
}

# guess_objection: what the lines before, and those behind, have to do with an objection
function guess_objection(number, k) {
    if (refusal == 8) hint("said", kept[2], kept[3], objection[kept[2], kept[3]])
    if (refusal == 9) hint("most-objections")
    for (k = 2; refusal == 7 && k <= 3; k++) {
        number = kept[k]
        if (!(number in issued)) hint("unknown", number)
        else if (issued[number] > place) hint("issued-late", number, issued[number])
    }
}

# guess_objectors: what is wrong with the objectors of a card, or with those of all cards together
function guess_objectors(k) {
    if (refusal == 1 && read <= 65535) hint("text-bytes", text_bytes)
    if (refusal == 9) hint("most-objectors")
    for (k = 4; k <= kept_fields && count < most; k++) {
        if (refusal == 7 && !(kept[k] in issued)) hint("unknown", kept[k])
        if (refusal == 8 && named[kept[k]]++) hint("twice", kept[k])
    }
}

# guess_asked WORD: what is wrong with the number that is asked for
function guess_asked(word) {
    if (is_number(word)) hint("asked", word)
    else hint("asked-no-number", word == "" ? "an empty word" : word)
}

# meaning: what the refusal means; of a catalogue some mean something of their own
function meaning() {
    if (catalogue && refusal == 1 && read <= 65535) return sentence["text-too-long"]
    if (catalogue && refusal == 3) return sentence["no-card"]
    if (catalogue && refusal == 7) return sentence["unlisted"]
    if (catalogue && refusal == 8) return sentence["named-twice"]
    return sentence[refusal]
}

# keep_line: the line is the one at fault
function keep_line(k) {
    for (k = 1; k <= size && length(text) < 120; k++) text = text shown(bytes[k])
    if (k <= size) text = text " .."
    kept_line = line
    kept_fields = part(1, size, 9)
    for (k = 1; k <= kept_fields; k++) kept[k] = field[k]
    if (refusal == 2 || refusal == 3) guess_line()
}

# end_line: a line is whole; where its number was issued, or its objection said, is where that was so first
function end_line(fields) {
    line++
    if (line == place || (refusal == 2 && !ended)) keep_line()
    fields = part(1, size, 9)
    if (fields == 3 || catalogue) {
        if (field[1] == "S" && !(field[2] in issued)) issued[field[2]] = line
        if (field[1] == "O" && !((field[2], field[3]) in objection)) objection[field[2], field[3]] = line
        if (field[1] == "O" && !first_objection) first_objection = line
    }
    text_bytes += size + 1 + (fields - 3) * (length(field[2]) + 3)
    size = 0
}

BEGIN {
    catalogue = verb == "uncatalogue"
    most = 8 # hints are enough for a card, which may have thousands of objectors
    while ((getline row < ENVIRON["sentences"]) > 0) {
        split(row, column, "\t")
        sentence[column[1]] = column[3]
    }
    ended = 1
}

{
    for (i = 1; i <= NF; i++) {
        if (++read <= 2 && ($i == 0 || $i + last == 509)) wide = 1
        last = $i
        if ($i == 10) end_line()
        else bytes[++size] = $i + 0
    }
}

END {
    if (size > 0) {
        ended = 0
        end_line()
    }
    if (refusal == 1 && wide) hint("utf16")
    if (refusal == 2 && !wide) hint("unended", kept_line)
    if (refusal == 14) guess_asked(ENVIRON["asked"])
    guess_statement()
    if (catalogue) guess_objectors()
    else guess_objection()
    print "batqemulo: " ENVIRON["source"] (place > 0 ? ", line " place : "") ": refusal " refusal ": " meaning()
    if (text != "") print "    " text
    for (i = 1; i <= count; i++) print "  - " hints[i]
}
