# Sourced by tests/run and the scripts that it starts: tests are tried one by one and counted. Each
# script ends with finish, and its line is the last that it prints.
# shellcheck shell=bash

# built: where everything that a run makes is put, and what the last test said
built=target/outside
passed=0
failed=0
skipped=0
mkdir -p "$built"

# try NAME COMMAND..: one test, which passes if the command does; what it says is shown if it fails
try() {
    local name=$1 log=$built/log
    shift
    if "$@" >"$log" 2>&1; then
        passed=$((passed + 1))
        printf 'ok %s\n' "$name"
    else
        failed=$((failed + 1))
        cat "$log"
        printf 'FAILED %s\n' "$name"
        return 1
    fi
}

# skip NAME: a test that this machine cannot do. It is said and counted, wherever it is printed.
skip() {
    skipped=$((skipped + 1))
    printf 'skipped: %s\n' "$1"
}

# tally NAME LEAST COMMAND..: a command that counts its own tests. Its last line is added up; any
# other last line, a non-zero exit that counted no failure, and fewer tests than LEAST, is a failure
# itself. What it skipped is added up too.
tally() {
    local name=$1 least=$2 log=$built/tally status last
    shift 2
    printf '== %s\n' "$name"
    "$@" 2>&1 | tee "$log"
    status=${PIPESTATUS[0]}
    last=$(tail -n 1 "$log")
    skipped=$((skipped + $(grep -c '^skipped: ' "$log")))
    if [[ $last =~ ^([0-9]+)\ passed,\ ([0-9]+)\ failed$ ]]; then
        passed=$((passed + BASH_REMATCH[1]))
        failed=$((failed + BASH_REMATCH[2]))
        [ "$status" -eq 0 ] || [ "${BASH_REMATCH[2]}" -gt 0 ] || failed=$((failed + 1))
        if [ $((BASH_REMATCH[1] + BASH_REMATCH[2])) -lt "$least" ]; then
            failed=$((failed + 1))
            printf 'FAILED %s: fewer than %d tests\n' "$name" "$least"
        fi
    else
        failed=$((failed + 1))
        printf 'FAILED %s: its last line counts nothing, exit %d\n' "$name" "$status"
    fi
}

# finish: prints the sum, behind how many were skipped, and ends the script, non-zero where anything
# failed
finish() {
    [ "$skipped" -eq 0 ] || printf '%d skipped\n' "$skipped"
    printf '%d passed, %d failed\n' "$passed" "$failed"
    [ "$failed" -eq 0 ]
    exit
}
