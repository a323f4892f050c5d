#!/bin/sh
# What a promise may name, and what a definition to believe may rest on
#
# A crate's specs/Lib.antt marks the modules to believe: those after a line that begins '-- to believe', up to
# the next comment.
#
# A promise is an `ensures` of a public function (one of a public trait, too), or what an impl gives for a ghost
# member of a trait that is promised: of a trait of the library any, of one of ours those that a clause names.
#
# - No promise of any crate names a module under Laws/, or of proofs/.
# - A promise that is exported names modules to believe alone. What is exported has no `requires`, and none of its
#   parameters is of a type that asks for a fact (a ghost fact, or impl Model). Exported is what can be reached from
#   outside: what planner's lib.rt hands on by `pub use` or has as `pub mod`, and the calls for C of planner_c.
#   What a contract sees of a type that stands there (`view`, `Value`) is exported with it. A constant promises
#   nothing, so that planner's may come from any crate.
# - A module to believe imports modules to believe alone: none that only computes, none under Laws/ or of proofs/.
cd "$(dirname "$0")/../.." && . tests/lib.sh || exit 1

# ---- the modules to believe, a line 'CRATE MODULE' each

for lib in crates/*/specs/Lib.antt; do
    crate=${lib#crates/}
    crate=${crate%%/*}
    awk -v crate="$crate" '
        /^--/ { believed = /^-- to believe/ }
        believed && /^pub mod / { print crate, $3 }
    ' "$lib"
done >"$work/believed"

# ---- what planner exports, a line 'FILE NAME' each; '*' is all of a file

root=crates/planner/src
{
    echo "$root/lib.rt *"
    sed 's/\/\/.*//' "$root/lib.rt" | tr -s '\n ' '  ' | tr ';' '\n' | awk -v root="$root" '
        /^ *pub mod / { print root "/" $3 ".rt *" }
        /^ *pub use / {
            path = $0; sub(/^ *pub use (crate::)?/, "", path)
            module = path; sub(/::.*/, "", module)
            list = path; sub(/^[a-z_]*::/, "", list)
            # a path of a module and names, and nothing deeper
            if (path !~ /^[a-z_]+::/ || list ~ /:|\{.*\{| as /) { print "odd " $0; next }
            gsub(/[{},]/, " ", list)
            n = split(list, name)
            for (i = 1; i <= n; i++) if (name[i] !~ /^[A-Z][A-Z_]*$/) print root "/" module ".rt " name[i]
        }'
} >"$work/exported"

# ---- promises

# A line for each public function, 'fn FILE NAME', for each name that is exported and was found, 'out FILE NAME',
# and for each thing that is wrong.
promises() {
    # shellcheck disable=SC2016 # the dollars are awk's
    find crates -path '*/out' -prune -o -path '*/src/*.rt' -print | LC_ALL=C sort | xargs awk -v believed="$work/believed" -v exported="$work/exported" '
        function wrong(what) { print "FAILED: " what }
        # The words of a clause, each up to its first dot; what stands behind the dots is noted as named.
        function words(file, of, clause, out,    n, i, w, part, rest) {
            sub(/^ *[a-z_]+ *([a-z_]+ *)?\{/, "", clause)
            n = split(clause, part, /[^A-Za-z0-9_.-]+/)
            for (i = 1; i <= n; i++) {
                w = part[i]
                sub(/^\.+/, "", w)
                rest = w
                while (sub(/^[^.]*\./, "", rest)) { w = rest; sub(/\..*/, "", w); named[w] = 1 }
                w = part[i]
                sub(/^\.+/, "", w)
                if (w ~ /^Rattle\./) name(file, of, w, w, out)
                sub(/\..*/, "", w)
                named[w] = 1
                if (w in from) name(file, of, w, from[w], out)
            }
        }
        function name(file, of, w, path, out,    crate, module) {
            crate = path; sub(/^Rattle\./, "", crate); sub(/\..*/, "", crate)
            if (crate == "std") return
            if (path ~ /\.(Laws|proofs)(\.|$)/) wrong(file ": the promise of " of " names " w " of " path)
            else if (out) {
                module = path; sub(/.*\.specs\./, "", module)
                if (!((crate " " module) in trust)) wrong(file ": the promise of " of ", which is exported, names " w " of " path ", which is not marked as to be believed")
            }
        }
        # Whether this is exported of a file.
        function handed(file, of) { return (file " *") in open || (file " " of) in open }
        # The head of a function has come to its end: the types of its parameters, and all that stand there.
        function parameters(    i, deep, c, n, part) {
            heading = 0
            if (!out) return
            gsub(/->/, "@", head)
            for (i = 1; i <= length(head); i++) {
                c = substr(head, i, 1)
                if (c ~ /[(<[]/) deep++
                if (c ~ /[)>\]]/) deep--
                if (c == "@" && deep == 0) break
            }
            n = split(substr(head, 1, i), part, /[^A-Za-z0-9_]+/)
            for (i = 1; i <= n; i++) asks[part[i]] = FILENAME ": " fn
            n = split(head, part, /[^A-Za-z0-9_]+/)
            for (i = 1; i <= n; i++) shown[part[i]] = 1
        }
        BEGIN {
            while ((getline line < believed) > 0) trust[line] = 1
            while ((getline line < exported) > 0) open[line] = 1
        }
        FNR == 1 { split("", from); fn = ""; owner = ""; trait = ""; inside = ""; heading = 0; public = 0; out = 0 }
        /^ *\/\// { next }
        /^ *(ghost use|ensures|requires)/ && !/[;}],?$/ { wrong(FILENAME ": a clause or an import of several lines cannot be read here: " $0) }
        /^ *ghost use .* as [^{}]*;$/ { alias = $5; sub(/;$/, "", alias); from[alias] = $3; next }
        /^ *ghost use .*\.\{.*\};$/ {
            path = $0; sub(/^ *ghost use /, "", path); sub(/\.\{.*/, "", path)
            list = $0; sub(/.*\.\{/, "", list); sub(/\};$/, "", list)
            n = split(list, item, /, */)
            for (i = 1; i <= n; i++) { w = item[i]; sub(/.* as /, "", w); from[w] = path }
            next
        }
        /^ *ghost use / { w = $3; sub(/;$/, "", w); path = w; sub(/\.[^.]*$/, "", path); sub(/.*\./, "", w); from[w] = path; next }

        # ---- blocks: a trait, an impl, a type
        /^(pub )?trait / { trait = $0; sub(/.*trait /, "", trait); sub(/[^A-Za-z0-9_].*/, "", trait); owner = trait; inside = "trait"; ours[trait] = 1 }
        /^impl/ {
            block = $0
            sub(/^impl(<[^>]*>)? /, "", block); sub(/ where .*/, "", block)
            trait = ""; owner = block
            if (block ~ / for /) { trait = block; sub(/ for .*/, "", trait); sub(/<.*/, "", trait); sub(/.*::/, "", trait); sub(/.* for /, "", owner) }
            sub(/[^A-Za-z0-9_].*/, "", owner)
            inside = "impl"
        }
        /^(pub )?(struct|enum) / { owner = $0; sub(/.*(struct|enum) /, "", owner); sub(/[^A-Za-z0-9_].*/, "", owner); inside = "type" }
        /^pub (trait|struct|enum|type|const) / {
            w = $3; sub(/[^A-Za-z0-9_].*/, "", w)
            if (handed(FILENAME, w)) { print "out " FILENAME " " w; if (/^pub trait/) opened[w] = 1 }
        }
        /^}/ { owner = ""; trait = ""; inside = "" }

        # ---- ghosts of a block
        inside == "trait" && /^ *ghost [A-Za-z_]+: / {
            m = $2; sub(/:$/, "", m)
            member[trait " " m] = 1
            clause = $0; sub(/^ *ghost [A-Za-z_]+:/, " ghost", clause)
            if (trait in opened) words(FILENAME, trait "." m, clause, 1)
            next
        }
        inside == "type" && /^ *ghost [a-z_]+: / { facts[owner] = 1; next }
        inside == "impl" && /^ *ghost [A-Za-z_]+ = / {
            if (trait == "Model") facts[owner] = 1
            given++
            given_line[given] = $0; given_name[given] = $2; given_trait[given] = trait; given_owner[given] = owner; given_file[given] = FILENAME
            list = ""
            for (w in from) list = list w " " from[w] "\n"
            given_from[given] = list
            next
        }

        # ---- functions
        /^ *(pub(\([a-z]*\))? )?(const )?(unsafe )?(extern "C" )?fn / {
            fn = $0; sub(/.*fn /, "", fn); sub(/[^a-z0-9_].*/, "", fn)
            public = /^ *pub (const |unsafe |extern "C" )*fn / || inside == "trait" || (inside == "impl" && trait != "")
            if (inside == "") out = public && handed(FILENAME, fn)
            else out = public && (handed(FILENAME, owner) || (trait in opened))
            if (/extern "C"/) out = 1
            if (public) print "fn " FILENAME " " fn
            if (out && inside == "") print "out " FILENAME " " fn
            head = ""; heading = 1
        }
        heading {
            if (/^ *(ensures|requires|where|ghost) / || /^ *\{/) parameters()
            else { head = head " " $0; if (/[{;]$/) parameters() }
        }
        public && /^ *ensures/ { words(FILENAME, fn, $0, out) }
        out && /^ *requires/ { wrong(FILENAME ": " fn ", which is exported, has a requires") }

        END {
            for (i = 1; i <= given; i++) {
                t = given_trait[i]; m = given_name[i]
                if (t in ours && !(((t " " m) in member) && m in named)) continue
                split("", from)
                n = split(given_from[i], pair, "\n")
                for (j = 1; j < n; j++) { w = pair[j]; sub(/ .*/, "", w); path = pair[j]; sub(/^[^ ]* /, "", path); from[w] = path }
                clause = given_line[i]; sub(/^ *ghost [A-Za-z_]+ =/, " ghost", clause)
                words(given_file[i], m " of " given_owner[i], clause, (t in opened) || (t == "Model" && m != "invariant" && given_owner[i] in shown))
            }
            for (t in asks) if (t in facts) wrong(asks[t] ", which is exported, has a parameter of the type " t ", which asks for a fact")
        }
    '
}

# ---- imports of modules to believe

is_believed() { grep -Fqx "$*" "$work/believed"; } # CRATE MODULE

imports() {
    while read -r crate module; do
        file=crates/$crate/specs/$module.antt
        echo "mod $file"
        sed -n 's/^use Rattle\.\([a-z_]*\)\.\(specs\.\)\{0,1\}\([A-Za-z.]*\).*/\1 \3/p' "$file" |
            while read -r from name; do
                name=${name%.}
                # The standard library, or a type of the code.
                [ "$from" != std ] || continue
                case $name in declared.*) continue ;; esac
                is_believed "$from" "$name" ||
                    echo "FAILED: $file, which is to be believed, imports $name of $from, which is not"
            done
    done <"$work/believed"
}

promises >"$work/found"
imports >>"$work/found"
# What is handed on stands where lib.rt says.
sed -n 's/^odd/FAILED: cannot tell what is exported by/p' "$work/exported" >>"$work/found"
grep -v '^odd\| \*$' "$work/exported" | while read -r line; do
    grep -Fqx "out $line" "$work/found" || echo "FAILED: exported, and not found: $line"
done >"$work/lost"
cat "$work/lost" >>"$work/found"
grep '^FAILED' "$work/found"
failed=$(grep -c '^FAILED' "$work/found")
looked=$(grep -c '^fn \|^mod ' "$work/found")
passed=$((looked > failed ? looked - failed : 0))
# A search that finds hardly a promise has found nothing out.
if [ "$looked" -lt 60 ]; then fail "only $looked public functions and modules to believe were found"; fi
handed=$(grep -c '^out crates/planner/' "$work/found")
if [ "$handed" -lt 7 ]; then fail "only $handed names that planner hands on were found"; fi
finish
