# Cleans a text of what is safe to take away before a register is read: a byte order mark, and bytes 13 and tabs at the end of a
# line; and ends a last line that is not ended. No line goes, and what is a register already stays as it is. It reads the text as
# `od -An -v -tu1` prints it and writes bytes; the file `did`, which the environment names, gets a key of sentences.txt and a number
# of lines for each thing done. `wide` tells that the text was UTF-16.

# end_line: the line in `bytes` is written
function end_line(from, k) {
    lines++
    from = 1
    while (lines == 1 && size >= from + 2 && bytes[from] == 239 && bytes[from + 1] == 187 && bytes[from + 2] == 191) {
        done["mark-of-order"] = 1
        from += 3
    }
    behind[9] = behind[13] = 0
    while (size >= from && (bytes[size] == 9 || bytes[size] == 13)) behind[bytes[size--]] = 1
    done["windows"] += behind[13]
    done["tabs"] += behind[9]
    for (k = from; k <= size; k++) printf "%c", bytes[k]
    printf "\n"
    size = 0
}

function tell(key) {
    if (done[key]) {
        print "did-" key "\t" done[key] > ENVIRON["did"]
        told = 1
    }
}

{
    for (i = 1; i <= NF; i++) {
        if ($i == 10) end_line()
        else bytes[++size] = $i + 0
    }
}

END {
    if (size > 0) {
        done["unended"] = 1
        end_line()
    }
    if (wide) done["utf16"] = lines
    tell("utf16")
    tell("mark-of-order")
    tell("windows")
    tell("tabs")
    tell("unended")
    if (!told) print "did-nothing\t0" > ENVIRON["did"]
}
