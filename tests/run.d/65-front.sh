#!/bin/sh
# ./planner as people call it: each exit status, refusals and answers in words, and what is said when something fails
#
# Its builds are tried in a copy, with stand-ins for rt and cargo.
cd "$(dirname "$0")/../.." && . tests/lib.sh || exit 1

need rt cargo rustc
root=$(pwd -P)
front=$root/target/cargo/release/planner-front
sample=examples/sample.sheet

# There are hundreds of tests: only what fails is shown.
pass() { passed=$((passed + 1)); }

# Runs a command: what it prints is left in $work/out, what it says in $work/said, and its exit status
# in $status.
run() {
    "$@" >"$work/out" 2>"$work/said" </dev/null
    status=$?
}

# One test of the last run: its exit status, and words of what it said (none: it said nothing).
told() { # NAME STATUS WORDS
    if [ "$status" -ne "$2" ]; then
        fail "$1: exit status $status, and not $2"
    elif [ -z "$3" ] && [ -s "$work/said" ]; then
        fail "$1: it says something"
    elif [ -n "$3" ] && ! grep -Fq -e "$3" "$work/said"; then
        fail "$1: it does not say '$3'"
    else
        pass
        return
    fi
    sed 's/^/    /' "$work/said"
}

# One test of the last run: what it printed is this file's content.
printed() { # NAME FILE
    if cmp -s "$work/out" "$2"; then pass; else fail "$1: it does not print what $2 has"; fi
}

# One test: what was said, with the exit status, is this stored file's content.
stored() { # FILE
    { cat "$work/said"; echo "exit status $status"; } >"$work/all"
    if diff "$1" "$work/all"; then pass; else fail "$1"; fi
}

heading "the build"
run ./planner "$sample"
if [ "$status" -ne 0 ]; then
    told "./planner $sample" 0 ''
    finish
fi
run ./planner "$sample"
told "a second run" 0 ''

cargo_tests "unit tests of the front end" cargo test --release --locked --package planner-front

heading "standard output and exit status, for each stored run"
for input in tests/runs/*.sheet tests/runs/*.text; do
    run ./planner "$input"
    printed "$input" "${input%.*}.expected"
    number=$(sed -n '1s/^A *\([0-9]*\).*/\1/p' "$work/out")
    case $number in
    0) told "$input" 0 '' ;;
    8) told "$input" 1 "planner: $input: number 8: " ;;
    *) told "$input" 3 "planner: $input: number $number: " ;;
    esac
done
for input in tests/runs/*.text; do
    output=${input%.text}.as-sheet
    run ./planner --as-sheet "$input"
    if [ -e "$output" ]; then
        told "--as-sheet $input" 0 ''
    else
        output=${input%.text}.expected
        told "--as-sheet $input" 3 "planner: $input: number "
    fi
    printed "--as-sheet $input" "$output"
done

heading "refusals in words, with hints"
for input in tests/front/*.sheet tests/front/*.text; do
    run ./planner "$input"
    stored "$input.said"
    case $input in *.text) program=typed ;; *) program=plan ;; esac
    "target/bin/$program" <"$input" >"$work/direct"
    printed "$input" "$work/direct"
done

heading "answers in words"
for words in tests/front/*.words; do
    name=${words##*/}
    run ./planner --words "examples/${name%.words}"
    cat "$work/out" >"$work/said"
    stored "$words"
done

heading "calls"
for name in sample lane-four; do
    target/bin/typed <"examples/$name.text" >"$work/direct"
    run ./planner "examples/$name.text"
    printed "$name.text" "$work/direct"
    run ./planner --typed -- "examples/$name.text"
    printed "--typed $name.text" "$work/direct"
done
run ./planner --sheet examples/sample.text
told "--sheet with a text" 3 "This looks like a typed text"
run ./planner --help
told --help 0 ''
grep -q '^Usage: ./planner' "$work/out" || fail "--help: no usage"
run ./planner --version
told --version 0 ''
echo "planner $(sed -n 's/^version = "\(.*\)"/\1/p' bindings/rust/Cargo.toml), $(rt version)" >"$work/version"
printed --version "$work/version"
run ./planner --no-such-option
told "an unknown option" 2 "there is no option --no-such-option"
run ./planner --words --as-sheet examples/sample.text
told "--words and --as-sheet" 2 "--as-sheet goes against"
run ./planner "$sample" --words "$sample"
told "two files" 2 "one FILE is enough"
run ./planner examples
told "a folder" 2 "examples is a folder"
run ./planner no-such-file
told "no file" 2 "there is no file no-such-file"
run "$front" target/bin examples
told "a folder, told by the front end" 2 "examples is a folder"
run "$front" target/bin no-such-file
told "no file, told by the front end" 2 "no-such-file cannot be opened"
target/bin/plan <"$sample" >"$work/direct"
ln -s "$root/planner" "$work/link"
ln -s link "$work/second"
# shellcheck disable=SC2016 # expanded there
run sh -c 'cd "$0" && ./second "$1"' "$work" "$root/$sample"
told "a symbolic link" 0 ''
printed "a symbolic link" "$work/direct"
./planner <"$sample" >"$work/out"
printed "standard input" "$work/direct"
./planner --typed --words <examples/lane-four.text >"$work/out"
sed '$d' tests/front/lane-four.text.words >"$work/direct"
printed "standard input, typed" "$work/direct"

heading "reading and writing that fails"
run ./planner /proc/self/mem
told "a failed read" 4 "/proc/self/mem cannot be read"
status=0
./planner <&- >"$work/out" 2>"$work/said" || status=$?
told "a closed standard input" 4 "standard input cannot be read"
for option in '' --words --help --version; do
    status=0
    # shellcheck disable=SC2086 # none or one
    ./planner $option "$sample" >/dev/full 2>"$work/said" || status=$?
    told "a full device $option" 4 "standard output cannot be written"
done
status=0
./planner "$sample" >&- 2>"$work/said" || status=$?
told "a closed standard output" 4 "standard output is closed"

heading "programs that fail"
mkdir "$work/bin"
# Has the front end run this script as the program.
fake() { # SCRIPT
    printf '#!/bin/sh\n%s\n' "$1" >"$work/bin/plan"
    chmod +x "$work/bin/plan"
    run "$front" "$work/bin" "$sample"
}
line='A    0    0    0'
fake "echo '$line'; echo 'Z    1    0    0'"
told "a whole listing of a program that reads nothing" 0 ''
fake "cat >/dev/null; echo '$line'"
told "no Z line" 4 "what plan printed is not whole: 17 bytes, and no right Z line at the end"
[ -s "$work/out" ] && fail "a listing that is not whole is printed"
fake "cat >/dev/null"
told "no output" 4 "plan printed nothing: it could not read its input"
fake "echo '$line'; echo 'Z    1    0    0'; exit 1"
told "an exit status" 4 "ended without an answer: exit status: 1"
fake "kill -SEGV \$\$"
told "a signal" 4 "ended without an answer: signal: 11"
rm "$work/bin/plan"
run "$front" "$work/bin" "$sample"
told "no program" 2 "cannot be run"

# A program whose front end is killed ends too.
printf '#!/bin/sh\necho $$ >%s\nexec sleep 60\n' "$work/pid" >"$work/bin/plan"
chmod +x "$work/bin/plan"
"$front" "$work/bin" "$sample" 2>/dev/null &
for _ in 1 2 3 4 5 6 7 8 9 10; do [ -s "$work/pid" ] || sleep 1; done
kill -KILL $!
wait $! 2>/dev/null
sleep 1
if ! pid=$(cat "$work/pid"); then
    fail "the front end does not run its program"
elif [ -e "/proc/$pid" ] && ! grep -q '^State:.Z' "/proc/$pid/status"; then
    fail "the program goes on without its front end"
    kill "$pid"
else
    pass
fi

heading "at a terminal"
if command -v script >/dev/null; then
    run script -qec "./planner" /dev/null
    cp "$work/out" "$work/said"
    told "nothing named" 3 "type a planning sheet, and Ctrl-D at its end"
else
    echo "not tried: there is no script"
fi

# ---- builds

heading "builds"
copy=$work/copy
mkdir "$copy" "$work/tools" "$work/rt" "$work/cargo"
tar -c --exclude=out planner tools crates crates.txt bindings front Cargo.toml Cargo.lock .cargo | tar -x -C "$copy"
for tool in sh basename cat cp dirname echo env find flock mkdir readlink rm sed sha256sum sort tail; do
    tool=$(command -v "$tool") && ln -s "$tool" "$work/tools"
done
# Stand-ins: they note how they were called, and leave what is built already.
cat >"$work/rt/rt" <<END
#!/bin/sh
case \$1 in version) echo 'some kit' && exit ;; esac
echo "rt \$*" >>"$work/calls"
crate=\$(basename "\$PWD")
mkdir -p out
case \$1 in
run) cp "$root/target/bin/\$crate" out ;;
lib) cp "$root/target/staticlib/libplanner.a" out/libplanner_c.a ;;
esac
END
cat >"$work/cargo/cargo" <<END
#!/bin/sh
echo "cargo \$1" >>"$work/calls"
[ -e "$work/edit" ] && rm "$work/edit" && echo >>crates/plan/src/main.rt
mkdir -p target/cargo/release
cp "$front" target/cargo/release
END
chmod +x "$work/rt/rt" "$work/cargo/cargo"

# Runs the copy with these folders of $work as its path, and notes what it calls.
run_copy() { # FOLDERS
    rm -f "$work/calls"
    run env PATH="$1" "$copy/planner" "$root/$sample"
    if [ -e "$work/calls" ]; then calls=$(tr '\n' ',' <"$work/calls"); else calls=''; fi
}
all=$work/rt:$work/cargo:$work/tools
target/bin/plan <"$sample" >"$work/direct"
building="planner: proving and building, once after each change; from nothing this takes about nine minutes"
prove='rt lib,rt run,rt run,rt run,'

# One test: the copy was built by these calls, said so in one line, and answered.
built() { # NAME CALLS
    told "$1" 0 "$building"
    [ "$(grep -c '' "$work/said")" -eq 1 ] || fail "$1: it says more than one line"
    [ "$calls" = "$2" ] || fail "$1: it calls '$calls', and not '$2'"
    printed "$1" "$work/direct"
}

run_copy "$work/cargo:$work/tools"
told "without rt" 2 'rt is not installed; the README tells under "Two commands" what is needed'
run_copy "$work/rt:$work/tools"
told "without cargo" 2 'cargo is not installed; the README tells under "Two commands"'
run_copy "$all"
built "a first build" "${prove}cargo build,"
run_copy "$all"
told "nothing changed" 0 ''
[ -z "$calls" ] || fail "nothing changed, and it calls '$calls'"
run_copy "$work/tools"
told "nothing changed, and no rt" 0 ''
echo >>"$copy/crates/plan/src/main.rt"
run_copy "$all"
built "a changed program" "${prove}cargo build,"
echo >>"$copy/crates/planner/src/lib.rt"
run_copy "$all"
built "a changed library" "${prove}cargo build,"
echo >>"$copy/front/src/main.rs"
run_copy "$all"
built "a changed front end" "${prove}cargo build,"
rm "$copy/target/bin/typed"
run_copy "$all"
built "a program that was removed" "${prove}cargo build,"
echo >>"$copy/target/staticlib/libplanner.a"
run_copy "$all"
built "another archive" "${prove}cargo build,"
sed -i 's/some kit/another kit/' "$work/rt/rt"
: >"$work/edit"
run_copy "$all"
built "another kit" "${prove}cargo build,"
run_copy "$all"
built "a change while it was built" "${prove}cargo build,"
run_copy "$all"
told "nothing changed again" 0 ''
# shellcheck disable=SC2016 # expanded there
run env PATH="$all" sh -c '"$0" "$1" & "$0" "$1"; wait' "$copy/planner" "$root/$sample"
told "two at once" 0 ''
printf '#!/bin/sh\necho some words of rt\nexit 1\n' >"$work/rt/rt"
run_copy "$all"
told "a build that fails" 2 "'rt lib, in crates/planner_c' failed. The last lines of target/build.log:"
told "a build that fails" 2 "some words of rt"

finish
