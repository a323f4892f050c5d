#!/bin/sh
# The programs print what is stored in tests/runs, and what the second planner, reader and writer say
cd "$(dirname "$0")/../.." && . tests/lib.sh || exit 1

need_comparisons

# Answers to sheets, answers to typed texts, and the sheets of typed texts.
plan=target/bin/plan
typed=target/bin/typed
as_sheet=target/bin/as_sheet

# Tries a program on each input of tests/runs/ of its form and says what is not printed as stored, byte for byte:
# in the file with this ending, or in .expected where there is none. Refusals are printed alike by all programs,
# so they are stored once.
stored_runs() { # PROGRAM FORM ENDING
    n=0
    m=0
    for input in tests/runs/*."$2"; do
        stored=${input%."$2"}.$3
        [ -e "$stored" ] || stored=${input%."$2"}.expected
        if limited 60 "$1" <"$input" | cmp - "$stored"; then
            n=$((n + 1))
        else
            echo "FAILED: $input"
            m=$((m + 1))
        fi
    done
    echo "$n passed, $m failed"
    [ "$m" -eq 0 ]
}

# The examples that there are in both forms are answered alike.
same_listings() {
    for name in sample lane-four; do
        limited 60 "$plan" <"examples/$name.sheet" >"$work/sheet" &&
            limited 60 "$typed" <"examples/$name.text" >"$work/text" &&
            cmp "$work/sheet" "$work/text" || return 1
    done
}

counted "the stored runs of plan" stored_runs "$plan" sheet expected
counted "the stored runs of typed" stored_runs "$typed" text expected
counted "the stored runs of as_sheet" stored_runs "$as_sheet" text as-sheet
one_test "the examples as sheets and as texts" same_listings

failed_reads=target/cargo/release/failed-reads
counted "plan after failed reads" limited 60 "$failed_reads" "$plan" examples/*.sheet
counted "typed after failed reads" limited 60 "$failed_reads" "$typed" examples/*.text
counted "as_sheet after failed reads" limited 60 "$failed_reads" "$as_sheet" examples/*.text

# The stored run that ends in 9 takes the brute force too long; others like it are among the long lists.
counted "plan against the second planner" \
    compare program "$plan" examples/*.sheet tests/runs/[0-8]*.sheet
counted "typed against the second planner" \
    compare program "$typed" examples/*.text tests/runs/typed-*.text --texts 1
counted "as_sheet against the second reader and writer" \
    compare program "$as_sheet" examples/*.text tests/runs/*.text --as-sheet 1
finish
