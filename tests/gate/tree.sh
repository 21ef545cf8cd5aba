# shellcheck shell=bash
# What commands and planted share: a copy of the tree, ./test run in it, and how it must end. They source it.
. "$(dirname "${BASH_SOURCE[0]}")/../../common.sh"
made=$(mktemp -d)
trap 'rm -rf "$made"' EXIT
tree=$made/tree
told=$made/told
mkdir "$tree"
tar -C "$root" --exclude=target --exclude=.git --exclude='./crates/*/out' -cf - . | tar -C "$tree" -xf -
# No test of tests, and nothing of the run that this one is part of.
ln -sf /bin/true "$tree/tests/gate/run"
unset CI JUBAFIYE_ALL JUBAFIYE_NOT_RUN

# run_test ARG..: ./test in the copy, with the environment that the caller exports; `status` is how it ends, `last` its last line.
run_test() {
    status=0
    "$tree/test" "$@" >"$told" 2>&1 </dev/null || status=$?
    last=$(tail -n 1 "$told")
}

# must_fail WHAT ARG..: ./test must end with a failure, and no last line says that all passed.
must_fail() {
    run_test "${@:2}"
    if [ "$status" -eq 0 ] || [[ $last =~ ^[0-9]+\ passed,\ 0\ failed$ ]]; then
        cat "$told"
        die "not found by ./test ${*:2}: $1 (status $status)"
    fi
}

# must_pass WHAT ARG..: ./test must pass, and its last line is that of `rt ci`.
must_pass() {
    run_test "${@:2}"
    if [ "$status" -ne 0 ] || [ "$last" != "7 passed, 0 failed" ]; then
        cat "$told"
        die "red without a failure: $1 (status $status)"
    fi
}
