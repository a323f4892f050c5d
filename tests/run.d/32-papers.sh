#!/bin/sh
# The papers, the header and the binding against the code, and against each other
#
# - the numbers of the refusals: each has its row in every table, and the same name in C and in Rust
# - the limits: what is said is what the code has, or follows from it
# - the version, and the notes that CHANGELOG.md leads to
# - the crates and what they rest on, and the modules to believe
# - the must-fail edits, definitions, theorems and functions that CLAIMS.md names
# - what is quoted from files, and where links lead
#
# Backquotes in single quotes are those of the papers.
# shellcheck disable=SC2016
cd "$(dirname "$0")/../.." && . tests/lib.sh || exit 1

# There are hundreds of tests: only what fails is shown.
pass() { passed=$((passed + 1)); }

# That two lists are the same, line by line, and not empty.
same() { # NAME EXPECTED FOUND
    if [ ! -s "$2" ]; then
        fail "$1: nothing was found to compare with"
    elif diff "$2" "$3" >"$work/diff"; then
        pass
    else
        sed -n 's/^</expected:/p; s/^>/found:   /p' "$work/diff"
        fail "$1"
    fi
}

# That each line of a list stands in another one.
within() { # NAME LIST WHOLE
    [ -s "$2" ] || fail "$1: nothing was found to look for"
    grep -Fvx -f "$3" "$2" >"$work/missing"
    while read -r missing; do fail "$1: $missing"; done <"$work/missing"
    passed=$((passed + $(wc -l <"$2") - $(wc -l <"$work/missing")))
}

# That a file's lines stand in another one, one after another.
stands() { # NAME QUOTED FILE
    if [ -s "$2" ] && awk -v quoted="$2" '
        BEGIN { while ((getline line < quoted) > 0) want[++n] = line }
        { have[NR] = $0 }
        END {
            for (i = 0; i + n <= NR; i++) {
                for (j = 1; j <= n && have[i + j] == want[j]; j++) { }
                if (j > n) exit 0
            }
            exit 1
        }' "$3"; then pass; else fail "$1"; fi
}

header=include/comzsered.h
binding=bindings/rust/src/lib.rs
causes=bindings/rust/src/refusal.rs

# ---- the numbers of the refusals

heading "refusals"

# The numbers in the first column of a table.
rows() { # FILE HEAD
    awk -v head="$2" '
        index($0, head) == 1 { inside = 1 }
        !/^\|/ { inside = 0 }
        inside && /^\| [0-9]+ \|/ { print $2 }' "$1" | sort -nu
}

# The variants of the binding's Cause, as 'NUMBER NAME' with names as C has them.
upper() { sed 's/\([a-z]\)\([A-Z]\)/\1_\2/g' | tr '[:lower:]' '[:upper:]'; }
variants() { sed -n '/^pub enum Cause/,/^}/s/^    \([A-Za-z]*\) = \([0-9]*\),$/\2 \1/p' "$causes" | upper; }

# The code's: a variant's number is told, or one more than that of the variant before it.
awk '
    /^pub enum Refusal \{/ { inside = 1; next }
    /^}/ { inside = 0 }
    !inside || /^ *\/\// { next }
    /^    [A-Z][A-Za-z]*,$/ { print ++n; next }
    /^    [A-Z][A-Za-z]* = [0-9]+,$/ { n = $3 + 0; print n; next }
    { print "odd: " $0 }' crates/words/src/refusal.rt | sort -n >"$work/numbers"
# Those that promises go by, which are to be believed, with the same variants.
sed -n 's/^number_of \([A-Za-z]*\) = \([0-9]*\)$/\2 \1/p' crates/words/specs/Refusals.antt >"$work/found"
sed -n '/^pub enum Refusal {/,/^}/s/^    \([A-Z][A-Za-z]*\).*,$/\1/p' crates/words/src/refusal.rt |
    paste -d ' ' "$work/numbers" - >"$work/variants"
same "crates/words/specs/Refusals.antt has other refusals than the code" "$work/variants" "$work/found"
{ echo 0 && cat "$work/numbers"; } >"$work/all"

rows README.md '| Number | In words |' >"$work/found"
same "README.md has other numbers than the code" "$work/numbers" "$work/found"
rows docs/FORMAT.md '| Number | Cause |' >"$work/found"
same "docs/FORMAT.md has other numbers than the code" "$work/numbers" "$work/found"
awk '/^ \*    number  cause/ { inside = 1 } / \*$/ { inside = 0 } inside && /^ \* +[0-9]+  / { print $2 }' \
    "$header" | sort -nu >"$work/found"
same "the table of the header has other numbers than the code" "$work/all" "$work/found"
sed -n 's/^    COMZSERED_\([A-Z_]*\) = \([0-9]*\),\{0,1\}$/\2 \1/p' "$header" >"$work/enum"
cut -d ' ' -f 1 "$work/enum" >"$work/found"
same "the enum of the header has other numbers than the code" "$work/all" "$work/found"
sed 1d "$work/enum" >"$work/names"
variants >"$work/found"
same "the binding has other causes than the header" "$work/names" "$work/found"
cut -d ' ' -f 2 "$work/names" >"$work/listed"
sed -n '/const ALL/,/];/s/^ *Cause::\([A-Za-z]*\),$/\1/p' "$causes" | upper >"$work/found"
same "the binding lists other causes than it has" "$work/listed" "$work/found"

# ---- the limits

heading "limits"

# A constant of the code: a number, the name of a limit, or a sum of these.
constant() { # FILE NAME
    sum=0
    for term in $(sed -n "s/^\(pub \)\{0,1\}const $2: [a-z0-9]* = \([A-Z0-9_ +]*\);\$/\2/p" "crates/$1" | tr + ' '); do
        case $term in [A-Z]*) term=$(limit "$term") ;; esac
        sum=$((sum + $(echo "$term" | tr -d _)))
    done
    echo "$sum"
}
limit() { # NAME
    value=$(sed -n "s/^pub const $1: [a-z0-9]* = \([0-9_]*\);\$/\1/p" crates/words/src/limit.rt | tr -d _)
    echo "${value:-0}"
}

# As papers write it: 16384 is 16,384.
commas() { echo "$1" | sed -e :a -e 's/^\([0-9]*[0-9]\)\([0-9]\{3\}\)/\1,\2/' -e ta; }

switches=$(limit MOST_SWITCHES)
faults=$(limit MOST_FAULTS)
gates=$(limit MOST_GATES)
rules=$(limit MOST_RULES)
wishes=$(limit MOST_WISHES)
literals=$(limit MOST_LITERALS)
weight=$(limit MOST_WEIGHT)
text=$(constant text/src/whole.rt MOST_TEXT)
room=$(constant listing/src/whole.rt ROOM)
# The calls take sheets whose lines have weights.
fields=$(constant line/src/line.rt WEIGHTED_FIELDS)
row_fields=$(constant listing/src/row.rt ROW_FIELDS)
columns=$(constant field/src/lib.rt FIELD_SIZE)
counts=$(constant words/src/counts.rt COUNTS)
gate_size=$(constant words/src/gate.rt GATE_SIZE)
wish_size=$(constant words/src/wish.rt WISH_SIZE)
# What follows from these.
line_size=$((1 + fields * columns + 1))
lines=$((gates + rules + wishes + 2))
sheet=$((lines * line_size))
list=$((1 << faults))
cost=$((wishes * weight))
row_size=$((1 + row_fields * columns + 1))
printed=$((switches + wishes + room + 2))
listing=$((printed * row_size))
words=$((counts + gates * gate_size + rules + wishes * wish_size))
# Measured, and said by the header.
stack=$(sed -n 's/^#define COMZSERED_STACK \([0-9]*\)$/\1/p' "$header")

# NAME VALUE, as the header defines them; the binding has those that it needs under the same names.
cat >"$work/limits" <<END
SWITCHES_MAX $switches
FAULTS_MAX $faults
GATES_MAX $gates
RULES_MAX $rules
WISHES_MAX $wishes
LITERALS_MAX $literals
WEIGHT_MAX $weight
SHEET_MAX $sheet
TEXT_MAX $text
LIST_MAX $list
LISTING_MAX $listing
STACK $stack
TABLES_WORDS $words
END
sed -n 's/^#define COMZSERED_\([A-Z_]*\) \([0-9]*\)$/\1 \2/p' "$header" | grep -v '^VERSION' >"$work/found"
same "the header has other limits than the code" "$work/limits" "$work/found"
sed -n 's/^pub const \([A-Z_]*\): [a-z0-9]* = \([0-9_]*\);$/\1 \2/p' "$binding" | sed 's/_\([0-9]\)/\1/g' >"$work/found"
within "the binding has another limit than the code" "$work/found" "$work/limits"

# A paper or a comment as one line, without what a comment begins with.
flat() { sed 's/^ \*//; s/^ *\/\/[\/!]//; s/^  *//' "$1" | tr -s '\n ' '  '; }

# What a file has to say, and on the next line the next one.
while IFS='|' read -r file phrase; do
    if flat "$file" | grep -Fq -e "$phrase"; then pass; else fail "$file does not say: $phrase"; fi
done <<END
README.md|lines of $line_size bytes
README.md|switches (0 to $switches) or of faults (0 to $faults)
README.md|one gate ($gates), rule ($rules) or wish ($wishes) too many
README.md|the weight of a wish is not 1 to $weight
README.md|the column, 1 to $line_size, at which
docs/FORMAT.md|lines of $line_size bytes
docs/FORMAT.md|a switches, 0 to $switches, and f faults, 0 to $faults
docs/FORMAT.md|mixed at will | 0 to $gates |
docs/FORMAT.md|rules | \`R\` | 0 to $rules |
docs/FORMAT.md|wishes | \`W\` | 0 to $wishes |
docs/FORMAT.md|its weight is w, 1 to $weight
docs/FORMAT.md|at most $lines lines, or $(commas $sheet) bytes
docs/FORMAT.md|above $(commas $sheet), or is not a multiple of $line_size
docs/FORMAT.md|$(commas $sheet) bytes are room enough
docs/FORMAT.md|A text has at most $(commas "$text") bytes
docs/FORMAT.md|at most $switches switches and $faults faults, $gates gates, $rules rules and $wishes wishes
docs/FORMAT.md|weights from 1 to $weight
docs/FORMAT.md|it is at most $(commas $cost)
docs/FORMAT.md|the weight of a wish is not 1 to $weight
docs/FORMAT.md|the smallest c, 1 to $line_size, such that
docs/FORMAT.md|this line is gate $((gates + 1)), rule $((rules + 1)) or wish $((wishes + 1))
docs/FORMAT.md|$(commas $words) words of 32 bits
docs/FORMAT.md|$gates times $gate_size
docs/FORMAT.md|$wishes times $wish_size
docs/FORMAT.md|at most $(commas $((sheet + 1))) bytes of it
docs/FORMAT.md|prints lines of $row_size bytes
docs/FORMAT.md|K = $(commas "$room")
docs/FORMAT.md|at most $(commas $((text + 1))) bytes
$header|length is 0, above $(commas $sheet) or no multiple of $line_size
$header|switches (0 to $switches) or of faults (0 to $faults)
$header|gate $((gates + 1)), rule $((rules + 1)) or wish $((wishes + 1))
$header|longer than $(commas "$text") bytes
$header|the weight of a wish is not 1 to $weight
$header|the smallest c from 1 to $line_size such that
$header|of $(commas $words) words
$header|$lines lines of $line_size bytes
$header|at most 2^$faults patterns
$header|$(commas $printed) lines of $row_size bytes
$header|a list of $(commas "$room") words
$binding|a list of $(commas "$room") words
$causes|above $(commas $sheet) or no multiple of $line_size
$causes|switches (0 to $switches) or of faults (0 to $faults)
$causes|One gate ($gates), rule ($rules) or wish ($wishes) too many
$causes|longer than $(commas "$text") bytes
$causes|The weight of a wish is not 1 to $weight
$causes|The column, 1 to $line_size, at which
END

# And no number beyond a thousand but these.
for n in $sheet $((sheet + 1)) "$text" $((text + 1)) "$list" $listing $printed $words "$room" $cost; do commas "$n"; done >"$work/known"
for file in docs/FORMAT.md "$header" bindings/rust/src/*.rs; do
    grep -oE '[0-9]{1,3}(,[0-9]{3})+' "$file" | sort -u >"$work/found"
    [ ! -s "$work/found" ] || within "$file says a number that is no limit" "$work/found" "$work/known"
done

# ---- the version, and the notes

heading "versions and notes"

version=$(sed -n 's/^#define COMZSERED_VERSION "\(.*\)"$/\1/p' "$header")
echo "$version" >"$work/version"
sed -n 's/^#define COMZSERED_VERSION_[A-Z]* \([0-9]*\)$/\1/p' "$header" | paste -s -d . - >"$work/found"
same "the header has two versions" "$work/version" "$work/found"
sed -n 's/^version = "\(.*\)"$/\1/p' bindings/rust/Cargo.toml >"$work/found"
same "the binding has another version than the header" "$work/version" "$work/found"
sed -n '/^name = "comzsered"$/{n;s/^version = "\(.*\)"$/\1/p;}' Cargo.lock >"$work/found"
same "Cargo.lock has another version than the header" "$work/version" "$work/found"
sed -n 's/^## \([0-9.]*\): .*/\1/p' CHANGELOG.md | head -n 1 >"$work/found"
same "CHANGELOG.md begins with another version than the header's" "$work/version" "$work/found"

for note in docs/notes/*.md; do
    if grep -Fq -e "($note)" CHANGELOG.md; then pass; else fail "CHANGELOG.md does not lead to $note"; fi
done

# ---- the crates, and the modules to believe

heading "crates"

# Lines 'CRATE: DEP DEP'.
sed 's/#.*//; /:/!d; s/ *$//; s/ staticlib:/:/' crates.txt | sort >"$work/listed"
awk -F ' *[|] *' '
    /^\| Crate \| Holds \| Rests on \|/ { inside = 1; next }
    !/^\|/ { inside = 0 }
    inside && $2 ~ /^`/ { gsub(/`/, "", $2); gsub(/,/, "", $4); print $2 ":" ($4 == "" ? "" : " " $4) }
' docs/ARCHITECTURE.md | sort >"$work/found"
same "docs/ARCHITECTURE.md has other crates than crates.txt" "$work/listed" "$work/found"

# Lines 'CRATE MODULE'.
for lib in crates/*/specs/Lib.antt; do
    crate=${lib#crates/}
    awk -v crate="${crate%%/*}" '
        /^--/ { believed = /^-- to believe/ }
        believed && /^pub mod / { print crate, $3 }' "$lib"
done | sort >"$work/believed"
# An item names crates before its colon and modules after it, in any order of lines.
awk '
    /^## / { inside = /^## What must be believed/ }
    !inside { next }
    /^- / { item = 1; split("", crates); n = 0; rest = $0; sub(/: .*/, "", rest)
        while (match(rest, /`[a-z_]+`/)) { crates[++n] = substr(rest, RSTART + 1, RLENGTH - 2); rest = substr(rest, RSTART + RLENGTH) } }
    !/^(- |  )/ { item = 0 }
    item { rest = $0
        while (match(rest, /`[A-Z][A-Za-z]*`/)) {
            for (i = 1; i <= n; i++) print crates[i], substr(rest, RSTART + 1, RLENGTH - 2)
            rest = substr(rest, RSTART + RLENGTH)
        } }
' docs/CLAIMS.md | sort >"$work/found"
same "docs/CLAIMS.md has other modules to believe than specs/Lib.antt" "$work/believed" "$work/found"

# ---- what CLAIMS.md names

heading "claims"

for edit in crates/*/must-fail/*.edit; do
    crate=${edit#crates/}
    echo "${crate%%/*} $(basename "$edit" .edit)"
done | sort >"$work/edits"

# How edits are named: 'CRATE: `a`, `b`', or 'CRATE: all'.
crates=$(cut -d ' ' -f 1 "$work/edits" | sort -u | paste -s -d '|' -)
run="($crates): (all|\`[a-z0-9-]+\`(, \`[a-z0-9-]+\`)*)"

# The edits that a paper names, a line 'CRATE NAME' each.
named() { # FILE
    tr -s '\n ' '  ' <"$1" | grep -oE "[^a-z_\`]$run" | tr -d '`' |
        awk '{ sub(/^[^a-z]/, ""); crate = $1; sub(/:$/, "", crate); for (i = 2; i <= NF; i++) { sub(/,$/, "", $i); print crate, $i } }' |
        sort -u
}

# The items of a list, a line each.
items() { # FILE
    awk '
        /^- / { if (item != "") print item; item = $0; next }
        /^  / && item != "" { sub(/^ */, ""); item = item " " $0; next }
        { if (item != "") print item; item = "" }
        END { if (item != "") print item }' "$1"
}

# In the lines 'Refused', and in the table of wrong readings, nothing but edits is named.
{
    items docs/CLAIMS.md | sed -n 's/^- Refused: \(.*\)\.$/\1/p'
    awk '/^## / { inside = /^## Wrong readings/ } inside && /^\| / { gsub(/\\\|/, ""); print }' docs/CLAIMS.md |
        sed '/^| Wrong reading/d; s/^| [^|]*|//; s/|/;/g'
} | tr ';' '\n' | sed 's/^ *//; s/ *$//; /^$/d' >"$work/parts"
[ -s "$work/parts" ] || fail "docs/CLAIMS.md: no refused program was found"
grep -Evx -e "$run" "$work/parts" >"$work/odd"
while read -r odd; do fail "docs/CLAIMS.md does not name edits of a crate here: $odd"; done <"$work/odd"

named docs/CLAIMS.md >"$work/named"
grep -v ' all$' "$work/named" >"$work/found"
within "docs/CLAIMS.md names an edit that its crate does not have" "$work/found" "$work/edits"
# Those of a crate of which all are meant count as named.
grep -E "^($(sed -n 's/ all$//p' "$work/named" | paste -s -d '|' -)) " "$work/edits" >>"$work/found"
within "docs/CLAIMS.md does not name an edit" "$work/edits" "$work/found"
named docs/CHANGING.md >"$work/found"
within "docs/CHANGING.md names an edit that its crate does not have" "$work/found" "$work/edits"

# What is named as definition, theorem or promise, a line 'KIND WORD' each: a word is what stands in backquotes,
# and one with a space in it is a formula. A theorem is one of Claims, or of the module of Laws/ that is named before it.
items docs/CLAIMS.md | awk '
    /^- (Definition|Theorems|Theorems on both ways|Promise): / {
        kind = substr($0, 3, 1)
        module = "Claims"
        while (match($0, /`[^`]*`/)) {
            word = substr($0, RSTART + 1, RLENGTH - 2)
            if (kind == "T" && word ~ /^Laws\//) module = substr(word, 6)
            else if (word !~ / /) print kind, (kind == "T" ? module "." : "") word
            $0 = substr($0, RSTART + RLENGTH)
        }
    }' | sort -u >"$work/words"
# What there is: definitions by name and as MODULE.NAME, modules of specs/, and of proofs/ of the scope and the examples; functions,
# methods as TYPE::NAME, traits and types that have methods, and modules of the code.
find crates -path '*/out' -prune -o \( -path '*/specs/*.antt' -o -path 'crates/scope/proofs/*.antt' -o -path 'crates/examples/proofs/*.antt' \) -exec awk '
    FNR == 1 {
        module = FILENAME; sub(/^crates\//, "", module); sub(/\.antt$/, "", module); print module
        sub(/.*\//, "", module)
    }
    {
        for (i = 1; i <= 3; i++) if ($i == "pub") {
            name = $(i + 1) ~ /^(data|record)$/ ? $(i + 2) : $(i + 1)
            print name
            print module "." name
        }
    }' {} + | sort -u >"$work/defined"
find crates -path '*/out' -prune -o -path '*/src/*.rt' -exec awk '
    FNR == 1 {
        owner = ""
        crate = FILENAME; sub(/^crates\//, "", crate); sub(/\/.*/, "", crate)
        module = FILENAME; sub(/.*\//, "", module); sub(/\.rt$/, "", module)
        print crate "::" module
    }
    /^(pub )?(trait|impl)/ {
        owner = $0; sub(/^(pub )?(trait|impl)(<[^>]*>)? /, "", owner); sub(/.* for /, "", owner); sub(/[^A-Za-z0-9_].*/, "", owner)
        print crate "::" owner
        print crate "::" module "::" owner
    }
    /^}/ { owner = "" }
    /^ *(pub(\([a-z]*\))? )?(extern "C" )?fn / {
        name = $0; sub(/.*fn /, "", name); sub(/[^a-z0-9_].*/, "", name)
        print name
        print crate "::" name
        print crate "::" module "::" name
        if (owner != "") { print owner "::" name; print crate "::" owner "::" name; print crate "::" module "::" owner "::" name }
    }' {} + | sort -u >"$work/functions"
sed -n 's/^[DT] //p' "$work/words" >"$work/found"
within "docs/CLAIMS.md names a definition or theorem that is not there" "$work/found" "$work/defined"
# A function of a form, `planner::answer::<Typed>`, is the function, and the type in its crate.
sed -n 's/^P //p' "$work/words" | sed 's/^\([a-z_]*\)\(.*\)::<\([A-Za-z]*\)>$/\1\2\n\1::\3/' >"$work/found"
within "docs/CLAIMS.md names a function that is not there" "$work/found" "$work/functions"

# ---- quotations

heading "quotations"

# Each block of CHANGING.md is quoted from the last file that the paragraph before it names.
awk -v folder="$work" '
    /^```/ { inside = !inside; if (inside) { file = folder "/quote." ++n; print path >(file ".path"); path = "" }; next }
    inside { print >file; next }
    /^$/ { between = 1; next }
    between { between = 0; path = "" }
    { text = $0; while (match(text, /`crates\/[^`]*`/)) { path = substr(text, RSTART + 1, RLENGTH - 2); text = substr(text, RSTART + RLENGTH) } }
' docs/CHANGING.md
for quote in "$work"/quote.*.path; do
    read -r path <"$quote"
    if [ -f "$path" ]; then
        stands "docs/CHANGING.md quotes what does not stand in $path: $(head -n 1 "${quote%.path}")" "${quote%.path}" "$path"
    else
        fail "docs/CHANGING.md quotes from no file: $(head -n 1 "${quote%.path}")"
    fi
done

# The examples that papers show, as blocks or as the first column of a table.
shown() { sed -n 's/^| `\([^`]*\)` |.*/\1/; s/^    //; /^| |/d; p' "$1"; }
shown README.md >"$work/readme"
shown docs/FORMAT.md >"$work/format"
stands "README.md shows another sheet of lane four" examples/lane-four.sheet "$work/readme"
stands "README.md shows another text of lane four" examples/lane-four.text "$work/readme"
stands "README.md shows another answer of lane four" tests/runs/typed-0-lane-four.expected "$work/readme"
stands "docs/FORMAT.md shows another sheet of the sample" examples/sample.sheet "$work/format"
stands "docs/FORMAT.md shows another text of the sample" examples/sample.text "$work/format"
stands "docs/FORMAT.md shows another answer of the sample" tests/runs/typed-0-sample.expected "$work/format"

# ---- links

heading "links"

# The names by which headings are linked to.
anchors() { sed '/^```/,/^```/d' "$1" | sed -n 's/^##* //p' | tr '[:upper:]' '[:lower:]' | LC_ALL=C sed 's/[^a-z0-9 _-]//g; s/ /-/g'; }

find . -name '*.md' ! -path './target/*' ! -path './.git/*' | sort | while read -r paper; do
    awk -v paper="$paper" '
        /^```/ { inside = !inside }
        inside { next }
        { text = $0; while (match(text, /\]\([^)]*\)/)) { print paper, substr(text, RSTART + 2, RLENGTH - 3); text = substr(text, RSTART + RLENGTH) } }
    ' "$paper"
done | grep -v ' [a-z]*:' >"$work/links"
[ -s "$work/links" ] || fail "no link was found"
while read -r paper link; do
    path=${link%%#*}
    if [ -n "$path" ]; then path=$(dirname "$paper")/$path; else path=$paper; fi
    anchor=
    case $link in *'#'*) anchor=${link#*#} ;; esac
    if [ ! -e "$path" ]; then
        fail "$paper: there is no $link"
    elif [ -n "$anchor" ] && ! anchors "$path" | grep -Fqx -e "$anchor"; then
        fail "$paper: there is no heading for $link"
    else
        pass
    fi
done <"$work/links"

finish
