# Counts what the tests say at their end. test.sh sources this, and tests/teeth.sh, which tries it.

passed=0
failed=0

# Runs a command and counts what its last line says, which has to be exactly `N passed, M failed`;
# of `rt ci` also with something in parentheses after it. There is a failure if the line has another
# form, if N is 0, if M isn't, and if the command's status isn't 0.
count() {
    local log ended said after=
    log=$(mktemp)
    "$@" 2>&1 | tee "$log"
    ended=${PIPESTATUS[0]}
    said=$(tail -n 1 "$log")
    rm -f "$log"
    [ "$1" = rt ] && after='( \(.*\))?'
    if [[ $said =~ ^([0-9]+)\ passed,\ ([0-9]+)\ failed$after$ ]]; then
        passed=$((passed + ${BASH_REMATCH[1]}))
        failed=$((failed + ${BASH_REMATCH[2]}))
        ((${BASH_REMATCH[2]})) && return
        ((${BASH_REMATCH[1]} && ended == 0)) && return
    fi
    failed=$((failed + 1))
    echo "a failure: $* ended with status $ended and the line '$said'"
}

# Says how many passed and how many failed. Its status is 0 if some passed and none failed.
total() {
    ((passed || failed)) || failed=1
    echo "$passed passed, $failed failed"
    ((passed && !failed))
}
