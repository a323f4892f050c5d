# What ./test and its steps share; they source it from the repository's folder. A step counts its tests by the
# functions below and ends with 'finish': its last line is 'N passed, M failed', and its exit status is 0 exactly
# if M is 0.
set -u

passed=0
failed=0

# Every way out goes through here, so that the counts are always the last line.
finish() {
    if [ $((passed + failed)) -eq 0 ]; then fail "no test was run"; fi
    echo "$passed passed, $failed failed"
    if [ "$failed" -eq 0 ]; then exit 0; else exit 1; fi
}

pass() {
    echo ok
    passed=$((passed + 1))
}

fail() {
    echo "FAILED: $*"
    failed=$((failed + 1))
}

work=$(mktemp -d) || { fail "cannot make a temporary folder"; finish; }
trap 'rm -rf "$work"' EXIT
trap 'fail "interrupted"; finish' HUP INT TERM
# The archive of this repository is meant, whatever the caller's own settings are.
unset COMZSERED_LIB_DIR

# Ends the step if one of these is not installed.
need() { # TOOL...
    for tool in "$@"; do
        command -v "$tool" >/dev/null || fail "$tool is not installed"
    done
    if [ "$failed" -ne 0 ]; then finish; fi
}

# A program that never ends must not keep the tests from ending.
limited() { # SECONDS COMMAND...
    timeout --foreground "$@"
}

heading() { echo "-- $*"; }

# ---- single tests

# Runs a command with no input. Its output is shown as it comes and kept in $work/out; its exit status is left
# in $status.
show() { # COMMAND...
    echo 1 >"$work/status"
    { "$@" </dev/null 2>&1; echo $? >"$work/status"; } | tee "$work/out"
    status=$(cat "$work/status")
}

# One test: that the command succeeds.
one_test() { # NAME COMMAND...
    heading "$1"
    name=$1
    shift
    show "$@"
    if [ "$status" -eq 0 ]; then pass; else fail "$name: exit status $status"; fi
}

# Adds the tests of a command whose last line is 'N passed, M failed'.
counted() { # NAME COMMAND...
    heading "$1"
    name=$1
    shift
    show "$@"
    add_last_line "$name"
}

# Adds the last line of $work/out, by a command that ended with $status.
add_last_line() { # NAME
    last=$(tail -n 1 "$work/out")
    if ! printf '%s\n' "$last" | grep -Eqx '(0|[1-9][0-9]*) passed, (0|[1-9][0-9]*) failed'; then
        fail "$1: its last line is not 'N passed, M failed' (exit status $status)"
        return
    fi
    n=${last%% *}
    m=${last#* passed, }
    add_counts "$1" "$n" "${m%% *}"
}

# Adds what 'cargo test' says of its tests.
cargo_tests() { # NAME COMMAND...
    heading "$1"
    name=$1
    shift
    show "$@"
    counts=$(sed -n 's/^test result: [^.]*\. \([0-9]*\) passed; \([0-9]*\) failed;.*/\1 \2/p' "$work/out" |
        awk '{ n += $1; m += $2 } END { print n + 0, m + 0 }')
    add_counts "$name" "${counts% *}" "${counts#* }"
}

# A command that tried nothing has found nothing out; and its exit status tells whether a test failed.
add_counts() { # NAME PASSED FAILED
    passed=$((passed + $2))
    failed=$((failed + $3))
    if [ $(($2 + $3)) -eq 0 ]; then
        fail "$1: no test was run (exit status $status)"
    elif [ "$status" -ne 0 ] && [ "$3" -eq 0 ]; then
        fail "$1: exit status $status, though it counts no failure"
    elif [ "$status" -eq 0 ] && [ "$3" -ne 0 ]; then
        fail "$1: exit status 0, though it counts failures"
    fi
}

# ---- what is built

archive=target/staticlib/libplanner.a

build_comparisons() {
    cargo build --release --locked --package planner-tests --features library
}

# Builds something that a step cannot do without.
build() { # NAME COMMAND
    heading "build: $1"
    show "$2"
    if [ "$status" -ne 0 ]; then
        fail "$1: not built (exit status $status), so nothing of this step was tried"
        finish
    fi
}

# The programs, the archive and the front end of ./planner, as the sources are now.
need_planner() {
    need rt cargo
    build "the planner" tools/build
}

need_comparisons() {
    need cargo rustc timeout
    need_planner
    build "the comparisons" build_comparisons
}

# Runs a comparison.
compare() { # NAME WORDS...
    comparison=target/cargo/release/compare-$1
    shift
    limited 1200 "$comparison" "$@"
}
