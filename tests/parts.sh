# Sourced by .ci/run and tests/run: parts of a run, and one closing line over all of them. A part that fails in any
# way, or that does not tell by its own last line 'N passed, M failed' how it went, counts as failed.

passed=0
failed=0

say() { printf '== %s\n' "$*"; }

# part NAME COMMAND..: a command that ends with a closing line of its own.
part() {
    local name=$1 log status last passes=0 failures=0
    shift
    say "$name"
    log=$(mktemp) || { say "$name: FAILED, no temporary file"; failed=$((failed + 1)); return; }
    "$@" </dev/null 2>&1 | tee "$log"
    status=${PIPESTATUS[0]}
    last=$(tail -n 1 "$log")
    [ -z "$(tail -c 1 "$log")" ] || echo # the next line starts at its beginning
    rm -f "$log"
    if [[ $last =~ ^([0-9]+)\ passed,\ ([0-9]+)\ failed$ ]]; then
        passes=$((10#${BASH_REMATCH[1]}))
        failures=$((10#${BASH_REMATCH[2]}))
        if [ "$status" -ne 0 ] && [ "$failures" -eq 0 ]; then
            say "$name: FAILED, it ended with status $status"
            failures=1
        elif [ $((passes + failures)) -eq 0 ]; then
            say "$name: FAILED, it ran nothing"
            failures=1
        fi
    else
        say "$name: FAILED, it gave no closing line (status $status)"
        failures=1
    fi
    passed=$((passed + passes))
    failed=$((failed + failures))
}

# step NAME COMMAND..: a command that counts as one test, by its status alone.
step() {
    local name=$1
    shift
    say "$name"
    if "$@" </dev/null 2>&1; then
        passed=$((passed + 1))
    else
        say "$name: FAILED"
        failed=$((failed + 1))
    fi
}

# The closing line, and the status that goes with it.
closing() {
    printf '%d passed, %d failed\n' "$passed" "$failed"
    [ "$failed" -eq 0 ] && [ "$passed" -gt 0 ]
}
