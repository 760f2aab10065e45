#!/usr/bin/env bash
# What the shell programs of the tests share; they read this file. The comment at a program's start is its usage.

passed=0
failed=()
# What was left out, as it was said.
left_out=()
# The commands that were begun and not yet counted: the name, the file of what it says and the process of each.
begun=()
# What is said right before the last line.
remark=

# usage: prints it.
usage() {
    awk 'NR == 1 { next } !/^#/ { exit } { sub(/^# ?/, ""); print }' "$0"
}

# stop WHY: ends with the reason and status 2.
stop() {
    printf '%s: %s; --help prints the usage\n' "${0##*/}" "$1" >&2
    exit 2
}

# try NAME COMMAND..: runs a command, and prints what it says if it fails.
try() {
    local said
    if said=$("${@:2}" 2>&1); then
        passed=$((passed + 1))
        echo "passed: $1"
    else
        failed+=("$1")
        printf '%s\n' "$said" "FAILED: $1"
    fi
}

# count NAME STATUS SAID: counts a command that ended with this status and said this. It passed if the status is 0 and the last line begins
# with how many tests or rows ran, and ends with '0 failed' or '0 differ'. If none ran, it has to have said what it left out. All that it
# said is printed if it failed, and otherwise what it left out.
count() {
    local last line left
    last=$(tail -n 1 <<< "$3")
    mapfile -t left < <(grep '^left out, ' <<< "$3")
    if [ "$2" -eq 0 ] && [[ $last =~ ^([0-9]+)\ .*,\ 0\ (failed|differ)$ ]] && [ $((BASH_REMATCH[1] + ${#left[@]})) -gt 0 ]; then
        passed=$((passed + BASH_REMATCH[1]))
        for line in "${left[@]}"; do
            left_out+=("$line")
            echo "$line"
        done
        echo "passed: $1: $last"
    else
        failed+=("$1")
        printf '%s\n' "$3" "FAILED: $1, with status $2"
    fi
}

# tally NAME COMMAND..: runs a command, and counts its tests.
tally() {
    local said status=0
    said=$("${@:2}" 2>&1) || status=$?
    count "$1" "$status" "$said"
}

# begin NAME COMMAND..: begins a command that `tally_begun` counts, so that several run side by side.
begin() {
    local said
    said=$(mktemp)
    "${@:2}" > "$said" 2>&1 &
    begun+=("$1" "$said" $!)
}

# tally_begun: waits for each command that was begun, and counts its tests.
tally_begun() {
    local status
    while [ ${#begun[@]} -gt 0 ]; do
        status=0
        wait "${begun[2]}" || status=$?
        count "${begun[0]}" "$status" "$(cat "${begun[1]}")"
        rm -f "${begun[1]}"
        begun=("${begun[@]:3}")
    done
}

# leave_out PACKAGES WHAT: says that this is left out, which in CI is a failure.
leave_out() {
    echo "left out, since there is no $1: $2"
    [ "${CI:-}" != true ] || failed+=("$2, since there is no $1")
}

# finish: prints the last line, 'N passed, M failed', and ends.
finish() {
    [ ${#failed[@]} -eq 0 ] || printf 'FAILED: %s\n' "${failed[@]}"
    [ -z "$remark" ] || echo "$remark"
    echo "$passed passed, ${#failed[@]} failed"
    [ ${#failed[@]} -eq 0 ]
    exit
}

case ${1:-} in
    -h | --help)
        usage
        exit
        ;;
esac
