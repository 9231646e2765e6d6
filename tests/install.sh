# What `make install` puts in place, tried as somebody does who has the installed copy and nothing else. Sourced by ./test, after
# tests/programs.sh; the second program must have been built.

copy="$work/installed copy"  # spaces, since a path may have them
abroad="$work/a project"
path_without_rt() {
    local folder found=
    while IFS= read -r -d : folder; do [ -x "$folder/rt" ] || found+=${found:+:}$folder; done <<<"$PATH:"
    echo "$found"
}
bare=$(path_without_rt)
tools_for_install() {
    need make make && need pkg-config pkg-config && need groff groff-base || return
    if [ "$(uname -m)" = x86_64 ]; then
        need gcc gcc && need g++ g++
    else
        need x86_64-linux-gnu-gcc gcc-x86-64-linux-gnu && need x86_64-linux-gnu-g++ g++-x86-64-linux-gnu
    fi
}
for_c=gcc for_cxx=g++
[ "$(uname -m)" = x86_64 ] || for_c="x86_64-linux-gnu-gcc -static" for_cxx="x86_64-linux-gnu-g++ -static"

# ---- installing
make_says() {
    make >"$work/made" || return
    local target
    for target in build install uninstall measure; do grep -q "^make $target " "$work/made" || return; done
}
# Everything is there, nothing of it knows where the repository is, and the two numbers of the version are the header's.
installed() {
    local file version
    make install PREFIX="$copy" || return
    for file in bin/jougsilver bin/jougsilver-sheet include/jougsilver.h lib/libjougsilver.a lib/pkgconfig/jougsilver.pc \
        share/doc/jougsilver/RULES.md share/man/man1/jougsilver.1 share/man/man1/jougsilver-sheet.1 share/man/man3/jougsilver.3 share/man/man3/jougsilver_judge_all.3; do
        [ -s "$copy/$file" ] || { echo "$file is not there"; return 1; }
    done
    ! grep -rlF -- "$root" "$copy" || return
    version=$(sed -n 's/^#define JOUGSILVER_VERSION "\(.*\)"$/\1/p' "$copy/include/jougsilver.h")
    [ "$(abroad pkg-config --modversion jougsilver)" = "$version" ] && grep -q "^\.TH .*\"Jougsilver $version\"" man/jougsilver.1 &&
        grep -q "^\.TH .*\"Jougsilver $version\"" man/jougsilver.3
}
# Under DESTDIR all is staged, and pkg-config is told of PREFIX alone.
staged() {
    make install DESTDIR="$work/stage" PREFIX=/srv/judge || return
    [ "$(ls "$work/stage")" = srv ] && [ "$(ls "$work/stage/srv")" = judge ] && [ ! -e /srv/judge ] &&
        grep -qx 'prefix=/srv/judge' "$work/stage/srv/judge/lib/pkgconfig/jougsilver.pc"
}
# Where the proof fails, nothing is installed.
unproved() {
    mkdir -p "$work/failing" && printf '#!/bin/sh\n[ "$1" != doc ] || exec %q doc\nexit 1\n' "$(command -v rt)" >"$work/failing/rt" && chmod +x "$work/failing/rt" || return
    ! PATH=$work/failing:$PATH make install PREFIX="$work/unproved" && [ ! -e "$work/unproved" ]
}
bad_prefix() {
    rm -rf target/relative
    ! make install PREFIX=target/relative && [ ! -e target/relative ] && ! make install PREFIX="$work/pre#fix" && [ ! -e "$work/pre#fix" ]
}
uninstalled() { make uninstall PREFIX="$copy" && [ -z "$(find "$copy" ! -type d)" ] && [ ! -e "$copy/libexec/jougsilver" ]; }

# ---- a C project that knows only pkg-config
abroad() { (cd "$abroad" && env -i PATH="$bare" PKG_CONFIG_PATH="$copy/lib/pkgconfig" "$@"); }
run_abroad() { (cd "$abroad" && ${emulator:+"$emulator"} "$@"); }
outside_builds() { abroad make CC="$for_c"; }
# The header's functions hold in each language, warnings being errors.
helped() { # COMPILER LANGUAGE STANDARD
    local flags
    flags=$(abroad pkg-config --cflags --libs jougsilver) || return
    eval "(cd \"\$abroad\" && $1 -x $2 -std=$3 -O2 -Wall -Wextra -pedantic -Werror -o helpers.$3 helpers.c -x none $flags)" && run_abroad "./helpers.$3"
}
outside_verdicts() { # SHEET
    "$second" list <"$1" >"$work/second"
    run_abroad ./verdicts <"$1" >"$work/found"
    same "$work/second" "$work/found"
}
outside_fresh() {
    rm -rf "$work/sheets" && mkdir "$work/sheets" && "$second" sheets 3 100 "$work/sheets" || return
    local sheet
    for sheet in "$work"/sheets/*; do outside_verdicts "$sheet" || return; done
}
stack_is_enough() { run_abroad ./worst; }
measured() { make measure RUNS=1 >"$work/made" && [ "$(grep -c '^\(judge\|judge_all\|check\), .* bytes of stack .* ms$' "$work/made")" -eq 12 ]; }

# ---- the installed commands, from another folder and with no rt on the PATH
installed_command() { # NAME WORD...
    local name=$1
    shift
    (cd / && PATH=$bare exec "$copy/bin/$name" "$@")
}
no_rt() { ! PATH=$bare command -v rt; }
installed_lists() { # NAME
    local status expected
    "$second" list <"examples/sheets/$1.sheet" >"$work/second" || return
    listing_status "$work/second"
    expected=$?
    for given in "$root/examples/sheets/$1.sheet" "$root/examples/sheets/$1.txt"; do
        installed_command jougsilver "$given" >"$work/found"
        status=$?
        [ "$status" -eq "$expected" ] && same "$work/second" "$work/found" || return
    done
}
installed_converts() { # NAME
    installed_command jougsilver-sheet "$root/examples/sheets/$1.txt" >"$work/found" && cmp "examples/sheets/$1.sheet" "$work/found"
}
# A status, and what stands on standard output; '-' for nothing.
ends() { # STATUS OUTPUT WORD...
    local expected=$1 output=$2 status found
    shift 2
    found=$(installed_command jougsilver "$@")
    status=$?
    [ "$output" != - ] || output=
    [ "$status" -eq "$expected" ] && [ "$found" = "$output" ] || { echo "status $status, printed: $found"; return 1; }
}
statuses() {
    printf 'component 1 stated 6 2 4\ntask 8 2 8\nend 1\n' >"$work/accepted.txt"
    printf 'component 1 stated 6 2 4\ntask 8 2 7\nend 1\n' >"$work/short.txt"
    printf 'component 1 asked 6 4\ntask 4 2 2\nend 1\n' >"$work/none.txt"
    printf 'component 1 stated 3 1 1\ntask 1048576 1 1048576\nend 1\n' >"$work/long.txt"
    printf 'component 1 stated 6 2 4\ntask 8 2 %s\ncomponent 2 stated 1 1 1\ntask 4 2 4\npair 1 2\nend 2\n' 8 >"$work/nested.txt"
    printf 'component 1 stated 6 2 4\ntask 8 2 %s\ncomponent 2 stated 1 1 1\ntask 4 2 4\npair 1 2\nend 2\n' 7 >"$work/waiting.txt"
    printf 'component 1 stated 6 2 4\npair 1 2\nend 1\n' >"$work/unpaired.txt"
    printf 'component 1 stated 6 2 4\ntask 8 2\nend 1\n' >"$work/wrong.txt"
    : >"$work/empty.sheet"
    ends 0 $'1 accepted 2 0 8\nend 1' "$work/accepted.txt" && ends 1 $'1 short 2 7 -1 7\nend 1' "$work/short.txt" && ends 1 $'1 none\nend 1' "$work/none.txt" &&
        ends 1 $'1 long\nend 1' "$work/long.txt" && ends 0 $'1 accepted 2 0 8\n2 accepted 1 0 4\nend 2' "$work/nested.txt" &&
        ends 1 $'1 short 2 7 -1 7\n2 waiting\nend 2' "$work/waiting.txt" && ends 2 'refused 16 18' "$work/unpaired.txt" && ends 2 'refused 1 0' "$work/empty.sheet" && ends 3 - "$work/wrong.txt" && ends 3 - "$work" &&
        ends 3 - --no-such-option && ends 3 - "$work/not there"
}
full_output() {
    local status
    installed_command jougsilver "$work/accepted.txt" >/dev/full
    status=$?
    [ "$status" -eq 3 ]
}
usage_names_it() { installed_command jougsilver --help | grep -q '^usage: jougsilver ' && installed_command jougsilver-sheet --help | grep -q '^usage: jougsilver-sheet '; }
# Moved as a whole, with a program missing: it says so and lists nothing.
not_whole() {
    local status
    rm -rf "$work/moved" && cp -a "$copy" "$work/moved" || return
    "$work/moved/bin/jougsilver" "$work/accepted.txt" || return
    rm "$work/moved/libexec/jougsilver/bin/listing"
    "$work/moved/bin/jougsilver" "$work/accepted.txt" >"$work/found" 2>"$work/complaint"
    status=$?
    [ "$status" -eq 3 ] && [ ! -s "$work/found" ] && grep -q 'bin/listing is missing' "$work/complaint"
}
installed_picture() {
    ./jougsilver --picture examples/sheets/press.sheet 1 >"$work/expected" && installed_command jougsilver --picture "$root/examples/sheets/press.sheet" 1 >"$work/found" &&
        [ -s "$work/found" ] && same "$work/expected" "$work/found"
}

# ---- the manual
page_is_clean() { # PAGE
    groff -man -Tutf8 -ww -z "man/$1" >"$work/groff" 2>&1 && same /dev/null "$work/groff"
}
# Each refusal of a sheet, beside its number, is said in the same words by the header, the manual and the commands.
refusals_agree() {
    run_abroad ./helpers texts | awk '$1 > 0 && $1 < 10 || $1 == 14 || $1 == 16' >"$work/texts.txt" && [ "$(wc -l <"$work/texts.txt")" -eq 11 ] || return
    sed -n '/^\.SH REFUSALS/,/^\.SH NOT/p' man/jougsilver.1 | awk '/^\.IP/ { number = $2; getline; print number, $0 }' >"$work/page.txt"
    sed -n 's/^ *\([0-9]*\)) echo "\(.*\)" ;;$/\1 \2/p' scripts/command.sh >"$work/command.txt"
    same "$work/texts.txt" "$work/page.txt" && same "$work/texts.txt" "$work/command.txt"
}
page_has_statuses() {
    local number
    for number in 0 1 2 3; do sed -n '/^\.SH EXIT/,/^\.SH TEXT/p' man/jougsilver.1 | grep -qx "\.B $number" || return; done
}
# The codes of a reply are the words of the listing, and the manual and --help have a line for each.
codes_agree() {
    local word
    printf 'accepted\nshort\nnone\nwaiting\n' >"$work/words.txt"
    sed -n 's/^    case JOUGSILVER_[A-Z]*: return "\([a-z]*\)";$/\1/p' include/jougsilver.h | grep -v '^taken$' >"$work/codes.txt" && same "$work/words.txt" "$work/codes.txt" || return
    for word in accepted short none long waiting; do
        ./jougsilver --help | grep -q "^  NUMBER $word " && sed -n '/^\.SH OUTPUT/,/^\.SH EXIT/p' man/jougsilver.1 | grep -q "^\.IB \"NUMBER \" $word" || return
    done
}
# A text among the manual's examples, and the second program lists it as it stands there.
page_example() { # NAME
    sed -n '/^\$ cat '"$1"'/,/^\$ jougsilver '"$1"'/{/^\$/!p}' man/jougsilver.1 | "$second" bytes | "$second" list >"$work/second"
    sed -n '/^\$ jougsilver '"$1"'/,/^\.RE/{/^[$.]/!p}' man/jougsilver.1 | sed 's/\\-/-/g' >"$work/page.txt"
    grep -q '^end [1-9]' "$work/second" && same "$work/second" "$work/page.txt"
}

check "the tools for installing are there" tools_for_install
mkdir -p "$abroad" && cp tests/outside/* "$abroad"
check "make says what there is" make_says
check "make install puts everything in place, under a path with a space" installed
check "make install stages under DESTDIR" staged
check "make install installs nothing where the proof fails" unproved
check "make install takes no PREFIX that it can't use" bad_prefix
check "a C project builds by pkg-config alone" outside_builds
check "the header's functions hold as C99" helped "$for_c" c c99
check "the header's functions hold as C11" helped "$for_c" c c11
check "the header's functions hold as C++17" helped "$for_cxx" c++ c++17
check "no call takes more stack than the header says" stack_is_enough
check "make measure has the stack and the time of each call" measured
check "the C project judges 100 fresh sheets as second does" outside_fresh
check "rt is not on the PATH of the installed commands" no_rt
for file in examples/sheets/*.txt; do
    name=$(basename "$file" .txt)
    check "the C project judges examples/sheets/$name.sheet as second does" outside_verdicts "examples/sheets/$name.sheet"
    check "the installed jougsilver lists examples/sheets/$name as second does" installed_lists "$name"
    check "the installed jougsilver-sheet turns examples/sheets/$name.txt into its bytes" installed_converts "$name"
done
check "the installed jougsilver ends with the statuses that it says" statuses
check "the installed jougsilver fails where its output can't be written" full_output
check "the installed commands say their own names" usage_names_it
check "an installed copy can be moved, and says where it isn't whole" not_whole
[ ! -x scripts/picture ] || check "the installed jougsilver draws as ./jougsilver does" installed_picture
check "jougsilver.1 has no mark that groff doesn't know" page_is_clean jougsilver.1
check "jougsilver.3 has no mark that groff doesn't know" page_is_clean jougsilver.3
check "header, manual and commands say each refusal in the same words" refusals_agree
check "jougsilver.1 has the exit statuses" page_has_statuses
check "header, manual and commands have the same words for an answer" codes_agree
check "jougsilver.1 has an example that is listed as it says" page_example press.txt
check "jougsilver.1 has an example of nested components that is listed as it says" page_example nested.txt
check "jougsilver.1 has an example of late jobs that is listed as it says" page_example tick.txt
check "make uninstall takes everything away" uninstalled
