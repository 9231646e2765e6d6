# The picture's checks. Sourced by ./test at the top of the repository, after tests/programs.sh, when exercise and second are built.

# Well-formed, and nothing in it that runs or that lies elsewhere.
plain_svg() { # FILE
    need xmllint libxml2-utils && xmllint --noout "$1" && ! grep -E '<script|<style|<image|<!|href|url\([^#]' "$1"
}

# A component as a call has it, with its workload as its tasks: made of the capacities of second's listing, in $work/listed, and the sheet's
# text.
component_of() { # SHEET NUMBER
    { cat "$work/listed" && "$second" text <"$1"; } | awk -v number="$2" '
        $2 == "accepted" { capacity[$1] = $3 }
        $1 == "component" { mine = $2 == number; of[$2] = $3 == "stated" ? $4 " " $6 : $4 " " $5 }
        mine && $1 == "component" { begin = $2 " " ($3 == "stated" ? "stated " $5 " " : "asked ") of[$2] }
        mine && $1 == "task" { add($2 " " $3 " " $4 " " $5 + 0) }
        $1 == "pair" && $3 == number && capacity[$2] > 0 { split(of[$2], span, " "); add(span[1] " " capacity[$2] " " span[2] " 0") }
        function add(task) { tasks++; table = table " " task }
        END { print "make " begin " " tasks + 0 table }' | "$second" answer | sed -n 's/^ok \(.*\) zero$/\1/p'
}
# How many tasks of a component are its own.
own_of() { # SHEET NUMBER
    "$second" text <"$1" | awk -v number="$2" '$1 == "component" { mine = $2 == number } mine && $1 == "task" { tasks++ } END { print tasks + 0 }'
}

# The picture over exercise is the one over second, and its numbers are those of second's listing and answers; a component answered none
# is drawn with its deadline as capacity.
pictured() { # SHEET NUMBER
    scripts/picture "$1" "$2" >"$work/svg" && scripts/picture --second "$1" "$2" >"$work/svg.second" && same "$work/svg.second" "$work/svg" && plain_svg "$work/svg" || return
    local component words judged verdict margin word instant units
    local -x LC_ALL=C
    component=$(component_of "$1" "$2")
    read -ra words <<<"$(grep "^$2 " "$work/listed")"
    judged=$component
    case ${words[1]} in
    accepted) verdict="accepted ${words[2]}" margin="${words[3]} ${words[4]}" ;;
    short) verdict="short ${words[3]} ${words[2]}" margin="${words[4]} ${words[5]}" ;;
    none)
        judged=$(awk '{ $2 = "stated " $4; print }' <<<"$component")
        read -r _ word instant units margin < <(echo "judge $judged" | "$second" answer)
        [ "$word" = short ] || return
        verdict="short $instant $units"
        grep -qx 'verdict none 0' "$work/svg" || return
        ;;
    *) return 1 ;;
    esac
    margin=${margin/#- -/none}
    set -- -v component="$component" -v own="$(own_of "$1" "$2")" -v answer="${words[1]}" -v capacity="${verdict##* }" -v verdict="$verdict" -v margin="$margin"
    awk "$@" -v ask=1 -f tests/picture.awk "$work/svg" | "$second" answer >"$work/answers" && awk "$@" -v answers="$work/answers" -f tests/picture.awk "$work/svg"
}
pictured_sheet() { # SHEET
    local number word
    "$second" list <"$1" >"$work/listed" || return
    while read -r number word _; do
        case $word in
        long) unpictured "is long" scripts/picture "$1" "$number" ;;
        waiting) unpictured "waits" scripts/picture "$1" "$number" ;;
        *) pictured "$1" "$number" ;;
        esac || {
            echo "component $number"
            return 1
        }
    done < <(grep -v '^end ' "$work/listed")
}

# No picture: status 3, nothing on standard output, and the reason on standard error.
unpictured() { # REASON COMMAND...
    local status=0
    "${@:2}" >"$work/svg" 2>"$work/reason" || status=$?
    cat "$work/reason"
    [ $status -eq 3 ] && [ ! -s "$work/svg" ] && grep -qF -- "$1" "$work/reason"
}
full_disk() { scripts/picture examples/sheets/press.sheet 1 >/dev/full; }

stored_picture() { scripts/picture examples/sheets/press.sheet 1 >"$work/svg" && same examples/sheets/press.svg "$work/svg"; }
picture_elsewhere() {
    local top=$PWD
    mkdir "$work/a place" && cp examples/sheets/press.sheet "$work/a place" && (cd "$work" && "$top/scripts/picture" "a place/press.sheet" 1) >"$work/svg" && same examples/sheets/press.svg "$work/svg"
}
check "examples/sheets/press.svg is the picture of the press" stored_picture
check "the same from another directory, of a path with a space" picture_elsewhere
for file in examples/sheets/*.sheet; do
    check "the pictures of $file have second's numbers" pictured_sheet "$file"
done
"$second" bytes <tests/picture.txt >"$work/hard.sheet"
check "the pictures of tests/picture.txt have second's numbers" pictured_sheet "$work/hard.sheet"

head -c 69 examples/sheets/press.sheet >"$work/cut.sheet"
head -c 65537 /dev/zero >"$work/big.sheet"
: >"$work/empty.sheet"
check "no picture of a number that isn't in the sheet" unpictured "no component with number 3" scripts/picture examples/sheets/press.sheet 3
check "no picture of a number that isn't one" unpictured "no component with number -1" scripts/picture examples/sheets/press.sheet -1
check "no picture of a sheet that is cut off" unpictured "refusal 1 at byte 64" scripts/picture "$work/cut.sheet" 1
check "no picture of an empty sheet" unpictured "refusal 1 at byte 0" scripts/picture "$work/empty.sheet" 1
check "no picture of a sheet that is too long" unpictured "refusal 14 at byte 0" scripts/picture "$work/big.sheet" 1
check "no picture of a long component" unpictured "common period" scripts/picture examples/sheets/large.sheet 4
check "no picture of a component that waits" unpictured "a component inside it is not accepted" scripts/picture examples/sheets/waiting.sheet 9
check "no picture of a directory" unpictured "not a file that can be read" scripts/picture examples/sheets 1
check "no picture without a number" unpictured "usage" scripts/picture examples/sheets/press.sheet
check "a picture that can't be written is a failure" unpictured "writing failed" full_disk
