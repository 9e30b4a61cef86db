# shellcheck shell=bash
# Counting for the test scripts here: sourced by them, from the top of the repository, with a folder for what they make.
passed=0
failed=0
work=$(mktemp -d) || exit 1
trap 'rm -rf "$work"' EXIT
warnings=(-Wall -Wextra -Wpedantic -Wconversion -Wshadow -Werror)

# tally NAME STATUS [COUNT]: adds COUNT (default 1) passed tests, or one that failed
tally() {
    if [ "$2" -eq 0 ]; then
        passed=$((passed + ${3:-1}))
        echo "ok: $1"
    else
        failed=$((failed + 1))
        echo "FAILED: $1"
    fi
}

# try NAME COMMAND..: one test
try() {
    local name=$1
    shift
    "$@"
    tally "$name" $?
}

# counted NAME COMMAND..: runs it; its last line must be `N passed, M failed`, and these counts are added
counted() {
    local name=$1 last status
    shift
    "$@" >"$work/counted" 2>&1
    status=$?
    last=$(tail -n 1 "$work/counted")
    head -n -1 "$work/counted"
    if [[ $last =~ ^([0-9]+)\ passed,\ ([0-9]+)\ failed$ ]] && [ "${BASH_REMATCH[1]}" -gt 0 ] &&
        { [ "$status" -eq 0 ] || [ "${BASH_REMATCH[2]}" -gt 0 ]; }; then
        passed=$((passed + BASH_REMATCH[1]))
        failed=$((failed + BASH_REMATCH[2]))
        echo "$name: $last"
    else
        tally "$name (status $status): $last" 1
    fi
}

# cargo_tests FOLDER: the tests of a cargo package
cargo_tests() {
    (cd "$1" && cargo test --release --locked --offline --quiet) 2>&1 | tee "$work/cargo"
    local status=${PIPESTATUS[0]} count
    count=$(grep -oE '[0-9]+ passed' "$work/cargo" | awk '{ n += $1 } END { print n + 0 }')
    [ "$count" -gt 0 ] || status=1
    tally "$1: $count tests" "$status" "$count"
}

finish() {
    echo "$passed passed, $failed failed"
    [ "$failed" -eq 0 ] && [ "$passed" -gt 0 ]
    exit
}
