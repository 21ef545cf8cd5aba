# shellcheck shell=bash
# What the commands of this folder and of tests/ share; they source it under `set -euo pipefail`.
#
# Bash passes over what fails inside a function that is called under `if`, `!`, `&&` or `||`. So what a test runs is a program, by itself
# or by `step` and `quiet`, which take nothing else, and a function is only a word for something that ends the command.

# The repository's root, and the command's name in what it says.
root=$(cd "$(dirname "${BASH_SOURCE[0]}")" && pwd)
name=$(basename "$0")

# Ends the command, saying why.
die() {
    echo "$name: $*" >&2
    exit 1
}

# Says what is missing if the toolchain is not there.
need_rt() {
    command -v rt >/dev/null || die "needs 'rt', the build and proof command of the Rattle kit (compiler and prover, Linux with glibc), on the path: README.md says more"
}

# need_library NAME..: these libraries must be there. A comparison without its library would compare a stand-in with itself.
need_library() {
    local library
    for library in "$@"; do
        [ -f "$root/target/staticlib/lib$library.a" ] || die "no target/staticlib/lib$library.a: 'tools/staticlib $library' makes it"
    done
}

# begin NAME: the name of a test; what its steps print goes to target/tests/NAME.log.
begin() {
    name=$1
    log=$root/target/tests/$name.log
    mkdir -p "$root/target/tests"
    : >"$log"
}

# step PROGRAM ARG..: runs a program; what it prints goes to the log. If it fails, the log's end is shown and the test ends.
step() {
    [ "$(type -t "$1")" = file ] || die "step: $1 is no program"
    if ! "$@" >>"$log" 2>&1; then
        tail -n 60 "$log"
        die "failed: $*"
    fi
}

# quiet PROGRAM ARG..: likewise without a log.
quiet() {
    local told
    [ "$(type -t "$1")" = file ] || die "quiet: $1 is no program"
    if ! told=$("$@" 2>&1); then
        echo "$told"
        die "failed: $*"
    fi
}

# not_run WHAT: says what of a test cannot run and why. With CI=true, or under `./test --all`, that is a failure; else `./test` says it
# again in its last lines (JUBAFIYE_NOT_RUN names the file where it finds them).
not_run() {
    if [ "${CI:-}" = true ] || [ "${JUBAFIYE_ALL:-}" = yes ]; then
        die "not run, and everything has to: $*"
    fi
    echo "$name: not run: $*"
    if [ "${JUBAFIYE_NOT_RUN:-}" ]; then
        echo "$name: not run: $*" >>"$JUBAFIYE_NOT_RUN"
    fi
}

# The sum of all that a program is made of: the crates without what rt made of them and the samples that their programs are run on.
sources() {
    find crates crates.txt -path 'crates/*/out' -prune -o -type f ! -name stdin ! -name stdout ! -path '*/must-fail/*' -print0 |
        sort -z | xargs -0 sha256sum | sha256sum
}

# The programs of crates.txt.
programs() {
    local file
    for file in "$root"/crates/*/src/main.rt; do
        basename "${file%/src/main.rt}"
    done
}

# The crates of crates.txt; with a crate's name, those that it rests on, each after what it rests on itself, and then the crate.
crates() {
    awk -v want="${1:-}" '
        function visit(n,    a, k, m) {
            if (!(n in deps) || seen[n]++) return
            m = split(deps[n], a, " ")
            for (k = 1; k <= m; k++) visit(a[k])
            print n
        }
        { sub(/#.*/, ""); i = index($0, ":"); n = $1; sub(/:.*/, "", n); if (i) { deps[n] = substr($0, i + 1); if (want == "") print n } }
        END { if (want != "") visit(want) }' "$root/crates.txt"
}

# compiler_words CRATE KIT: what the kit's compiler has to be told, in a crate's folder, to check or build it over the libraries in the out/
# folders of those that it rests on; a word on a line.
compiler_words() {
    local name root_file=src/lib.rt direct
    [ ! -f "$root/crates/$1/src/main.rt" ] || root_file=src/main.rt
    ! grep -q "^$1 staticlib:" "$root/crates.txt" || printf '%s\n' --crate-type staticlib
    printf '%s\n' --crate-name "$1" "$root_file" -L "dependency=$2/rlibs" --extern "std=$2/rlibs/std.rlib" --links "$1=" \
        --antt-project "$2/rattle/logic/antt-project.json" --logic-built "$2/logic_built" --jobs 2
    for name in $(crates "$1"); do
        [ "$name" = "$1" ] || printf '%s\n' -L "dependency=$root/crates/$name/out/rlib"
    done
    direct=$(sed -n "s/^$1\>[^:]*:\([^#]*\).*/\1/p" "$root/crates.txt")
    for name in $direct; do
        printf '%s\n' --extern "$name=$root/crates/$name/out/rlib/$name.rlib"
    done
}

# progress TOTAL: of what rt prints, its own lines as they come; a line that says that a crate is proved, kept from an earlier run or begun
# begins with which of TOTAL it is. A loop of the shell's, since some awks hold their input back.
progress() {
    local line number=0
    while IFS= read -r line; do
        if [[ $line =~ ^rt:\ [a-z0-9_]+\ (proved$|is\ kept:) || $line =~ ^rt:\ chose\ --jobs ]]; then
            number=$((number + 1))
            line=${line#rt: }
            printf '%s of %s: %s\n' "$number" "$1" "${line/#chose --jobs * for /}"
        elif [[ $line == "rt: "* ]]; then
            printf '%s\n' "$line"
        fi
    done
}

# Proves and builds the program $1 if that has not been done, and says on standard error how far it is.
build() {
    local log made=target/$1.sources
    if [ -x "target/bin/$1" ] && [ -f "$made" ] && [ "$(sources)" = "$(cat "$made")" ]; then
        return
    fi
    need_rt
    [ -x "target/bin/$1" ] || echo "$1: proving it and the crates that it rests on; the first time takes some minutes" >&2
    log=$(mktemp)
    # On no input: what is wanted is the program, which stays in out/.
    if ! env -C "crates/$1" rt run </dev/null 2>&1 >/dev/null | tee "$log" | progress "$(crates "$1" | wc -l)" >&2; then
        cat "$log" >&2
        rm -f "$log"
        exit 1
    fi
    rm -f "$log"
    mkdir -p target/bin
    cp "crates/$1/out/$1" "target/bin/$1"
    sources >"$made"
}

# Runs the program $1 on standard input, and says on standard error if that is no day: the program itself prints a line that refuses it.
feed() {
    local first length
    first=$(mktemp)
    # shellcheck disable=SC2064  # the file's name as it is now
    trap "rm -f '$first'" EXIT
    head -c 2 >"$first"
    length=$(od -An -tu2 --endian=little "$first" | tr -d ' ')
    if [ ! "$length" ]; then
        echo "$1: standard input is empty: it reads records, each after its length in two bytes" >&2
    elif [ "$length" -ge 1024 ]; then
        echo "$1: standard input is no day: its first two bytes are the length $length, and no record is as long. Is it text? desk/ makes records of it" >&2
    fi
    cat "$first" - | "target/bin/$1"
}
