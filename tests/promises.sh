#!/usr/bin/env bash
# Every public function of a library crate, and every function by which a type has a trait, stands in the crate `promises`, in a theorem that no second answer
# meets its contract, or in the table of docs/DECISIONS.md under "What no contract fixes". `rt ci` proves the theorems; here it is seen that none is missing.
set -euo pipefail
name=promises
source "$(dirname "${BASH_SOURCE[0]}")/lib/room.bash"
cd "$root"

# The functions of the library crates, as crate::module::function, and a type's own as crate::module::Type::function: `public` the public ones, `trait` those
# by which a type has a trait, as crate::module::TypeTraitArgument::function. Those of a program or a static library are left out: no other crate can name them.
functions() {
    local file path crate
    for file in crates/*/src/*.rt; do
        [ ! -e "$(dirname "$file")/main.rt" ] || continue
        crate=$(cut -d / -f 2 <<< "$file")
        ! grep -q "^$crate staticlib" crates.txt || continue
        path=$(sed 's|^crates/||; s|/src/lib\.rt$||; s|/src/|::|; s|\.rt$||' <<< "$file")
        awk -v path="$path" -v wanted="$1" '
            function capital(word) { return toupper(substr(word, 1, 1)) substr(word, 2) }
            /^impl/ {
                type = $0
                sub(/^impl(<[^>]*>)? /, "", type)
                sub(/ *\{.*/, "", type)
                kind = "public"
                if (match(type, / for /)) {
                    trait = substr(type, 1, RSTART - 1)
                    type = substr(type, RSTART + 5)
                    type = type ~ /^\(/ ? "Tuple2" : capital(type)
                    sub(/^[a-z]*::/, "", trait)
                    kind = "trait"
                    count = split(trait, words, /[<>, ]+/)
                    for (i = 1; i <= count; i++) type = type capital(words[i])
                }
                sub(/<.*/, "", type)
                within = "::" type
            }
            /^}/ { within = ""; kind = "" }
            match($0, /^ *(pub )?(extern "C" )?fn [a-z0-9_]+/) {
                public = $0 ~ /^ *pub /
                if (wanted == "public" ? !public : kind != "trait" || public) next
                name = substr($0, RSTART, RLENGTH)
                sub(/.* /, "", name)
                print path within "::" name
            }' "$file"
    done
}

# Those that a theorem names: by what their contract reads as (of a generic function at any type), or by its clauses.
promised() {
    local file crate path as
    local -a said
    for file in crates/promises/proofs/*.antt; do
        while read -r crate path as; do
            case $path in
                *.Reads) said=("NoSecond $as.Post " "NoSecond ($as.Post ") ;;
                *) said=("$as.clauses ") ;;
            esac
            path=${path%.Reads}
            ! grep -qF "${said[@]/#/--regexp=}" "$file" || printf '%s::%s\n' "$crate" "${path//./::}"
        done < <(sed -nE 's/^use Rattle\.([a-z_]+)\.(proofs|specs\.contracts)\.([A-Za-z0-9_.]+) as ([^ ]+)$/\1 \3 \4/p' "$file")
    done
}

# Those of the table.
excepted() {
    awk '/^#/ { here = /What no contract fixes$/ } here' docs/DECISIONS.md | sed -nE 's/^\| `([A-Za-z0-9_:]+)` \|.*/\1/p'
}

functions public | sort > "$room/public"
functions trait | sort > "$room/trait"
promised | sort > "$room/promised"
excepted | sort > "$room/excepted"
[ -s "$room/public" ] || fail "no public function was found"

# A fault, and the functions that have it, if there are any.
none() { [ -z "$2" ] || fail "$1: ${2//$'\n'/, }"; }

sort "$room/promised" "$room/excepted" > "$room/answered"
none "two public functions of one name" "$(uniq -d "$room/public")"
none "stands twice" "$(uniq -d "$room/answered")"
sort "$room/public" "$room/trait" > "$room/owing"
none "may have a second answer" "$(comm -23 "$room/owing" "$room/answered")"
none "is no public function" "$(comm -13 "$room/owing" "$room/answered")"
echo "$(grep -c . "$room/owing") functions, public or of a trait: $(grep -c . "$room/promised") with no second answer, $(grep -c . "$room/excepted") excepted"
