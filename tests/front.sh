# What a person meets: exit statuses, failures, readiness, names and places of files, text. Sourced by ./test, after tests/programs.sh and
# once everything is built. Where a program or rt has to misbehave, a copy of the commands runs on one that does.
front=$work/front
mkdir -p "$front"
samples=$PWD/examples/sheets
top=$PWD

# A command's status, its standard output (a file, or nothing where it is `-`) and its standard error: a pattern that some line has, or
# nothing where it is empty. The command runs in the folder $at, with a folder of its own for temporary files, which has to be left empty.
at=$front
meets() { # STATUS OUTPUT PATTERN COMMAND...
    local status=$1 output=$2 pattern=$3 found
    shift 3
    [ "$output" != - ] || output=/dev/null
    rm -rf "$front/tmp" && mkdir "$front/tmp" || return
    (cd "$at" && TMPDIR=$front/tmp "$@") >"$front/out" 2>"$front/err"
    found=$?
    cat "$front/err"
    [ "$found" -eq "$status" ] || { echo "status $found, not $status" && return 1; }
    same "$output" "$front/out" || return
    if [ -n "$pattern" ]; then grep -q -e "$pattern" "$front/err"; else [ ! -s "$front/err" ]; fi || { echo "no line with: $pattern" && return 1; }
    [ -z "$(ls -A "$front/tmp")" ] || { echo "left in TMPDIR: $(ls -A "$front/tmp")" && return 1; }
}
# The same with the whole of standard error, in a file.
meets_exactly() { # STATUS OUTPUT ERROR COMMAND...
    local error=$3
    meets "$1" "$2" . "${@:4}" && same "$error" "$front/err"
}

# ---- sheets whose listings the rules settle
printf '\006\000\003\000\000\000' >"$front/none.sheet"
echo 'end 0' >"$front/none.listing"
printf 'component 9 asked 3 3\ntask 1048576 1 1\nend 1\n' >"$front/long.txt"
printf '9 long\nend 1\n' >"$front/long.listing"
printf 'component 4 asked 6 4\ntask 4 2 2\nend 1\n' >"$front/never.txt"
printf '4 none\nend 1\n' >"$front/never.listing"
printf '1 accepted 2 0 8\n2 accepted 3 1 7\n3 short 4 2 -2 2\n4 none\n5 accepted 0 - -\nend 5\n' >"$front/five.listing"
printf 'refused 1 0\n' >"$front/empty.listing"
: >"$front/empty.sheet"
printf 'component 1 stated 6 2 4\n\n# late\ntask 8 9 7  # C above D\nend 1\n' >"$front/range.txt"
printf 'refused 9 18\n' >"$front/range.listing"
cp "$samples/five.sheet" "$samples/five.txt" "$samples/press.sheet" "$front"
# components inside components: RULES 7 and 15
nested() { printf 'component 1 stated 6 2 4\ntask 8 2 %s\ncomponent 2 stated 1 1 1\ntask 4 2 4\ncomponent 3 asked 3 3\ntask 1048576 1 1048576\n%send 3\n' "$@"; }
nested 8 $'pair 1 2\n' >"$front/nested.txt"
printf '1 accepted 2 0 8\n2 accepted 1 0 4\n3 long\nend 3\n' >"$front/nested.listing"
nested 7 $'pair 1 2\npair 2 3\n' >"$front/waits.txt"
printf '1 short 2 7 -1 7\n2 waiting\n3 waiting\nend 3\n' >"$front/waits.listing"
printf 'component 1 stated 6 2 4\ntask 8 2 8\ncomponent 2 stated 1 1 1\ntask 4 2 4\npair 1 2\nend 2\n' >"$front/inside.txt"
printf '1 accepted 2 0 8\n2 accepted 1 0 4\nend 2\n' >"$front/inside.listing"
mkdir "$front/folder"

# ---- statuses
check "status 0: a sheet without components" meets 0 "$front/none.listing" '' "$top/jougsilver" none.sheet
check "status 1: one component is short, one none" meets 1 "$front/five.listing" '' "$top/jougsilver" five.sheet
check "status 1: no capacity is enough" meets 1 "$front/never.listing" '' "$top/jougsilver" never.txt
check "status 1: a common period that is too long" meets 1 "$front/long.listing" '' "$top/jougsilver" long.txt
check "status 0: a parent and its child are accepted" meets 0 "$front/inside.listing" '' "$top/jougsilver" inside.txt
check "status 1: a component that is too long beside an accepted parent" meets 1 "$front/nested.listing" '' "$top/jougsilver" nested.txt
check "status 1: a parent waits for its short child, and its own parent for it" meets 1 "$front/waits.listing" '' "$top/jougsilver" waits.txt
host_waits() { # STATUS NAME
    awk -f tests/panel.awk "$front/$2.listing" >"$front/table"
    meets "$1" "$front/table" '' "$top/scripts/host" "$2.txt"
}
check "the C host tables an accepted parent" host_waits 0 inside
check "the C host tables parents that wait" host_waits 1 waits
check "the C host says who waits" grep -q -x ' *2  waiting for a child *-  *-  *-' "$front/out"
check "status 3: no picture of a component that waits" meets 3 - '^picture: component 3 waits: ' "$top/jougsilver" --picture waits.txt 3
parent_pictured() { "$top/jougsilver" --picture "$front/inside.txt" 2 >"$front/svg" && grep -q '>demand: the units due by then, of 1 task and 1 child<' "$front/svg"; }
check "a parent's picture counts its children" parent_pictured
check "status 2: an empty sheet" meets 2 "$front/empty.listing" '^jougsilver: empty.sheet: byte 0: refused 1 (' "$top/jougsilver" empty.sheet
refused_table() {
    (cd "$front" && "$top/scripts/host" range.txt) >"$front/out" 2>"$front/err"
    [ $? -eq 2 ] && grep -q '^refused 9 at byte 18' "$front/out" && grep -q -x 'host: range.txt:4: refused 9 (.*): task 8 9 7' "$front/err"
}
check "status 2: the C host on a refused sheet" refused_table
for command in jougsilver sheet scripts/host; do
    name=$(basename "$command")
    check "status 3: $command --wrong" meets 3 - "^usage: $name" "$top/$command" --wrong
    check "status 3: $command with two files" meets 3 - "^$name: more than one FILE" "$top/$command" five.txt five.txt
    check "status 3: $command on a file that isn't there" meets 3 - "^$name: nothing.txt can't be read: " "$top/$command" nothing.txt
    check "status 3: $command on a folder" meets 3 - "^$name: folder can't be read: " "$top/$command" folder
    from_folder() { "$top/$command" <folder; }
    check "status 3: $command reading a folder" meets 3 - "^$name: standard input can't be read: " from_folder
    from_closed() { "$top/$command" <&-; }
    check "status 3: $command reading a closed input" meets 3 - "^$name: standard input can't be read: " from_closed
    to_full() { "$top/$command" five.txt >/dev/full; }
    check "status 3: $command writing to a full disk" meets 3 - "^$name: standard output can't be written: " to_full
    to_closed() { "$top/$command" five.txt >&-; }
    check "status 3: $command writing to a closed output" meets 3 - "^$name: standard output can't be written: it is closed$" to_closed
    nowhere() { TMPDIR=$front/nowhere "$top/$command" five.txt; }
    check "status 3: $command without room for temporary files" meets 3 - "^$name: no temporary folder" nowhere
    check "$command -h and --help print the same" meets 0 <("$top/$command" -h) '' "$top/$command" --help
    helps() { "$top/$command" --help | grep -q '^  3  '; }
    check "$command --help names status 3" helps
    help_to_full() { "$top/$command" --help >/dev/full; }
    check "status 3: $command --help to a full disk" meets 3 - "^$name: standard output can't be written" help_to_full
done
unheard() { "$top/jougsilver" empty.sheet 2>&-; }
check "a closed standard error changes no status" meets 2 "$front/empty.listing" '' unheard
broken_pipe() {
    local told=$front/told
    { "$top/jougsilver" "$samples/five.sheet"; echo $? >"$told"; } 2>"$front/err" | true
    [ "$(cat "$told")" = 3 ] && grep -q "standard output can't be written" "$front/err"
}
check "status 3: nobody reads the output" broken_pipe

# ---- the C host by itself
host_itself() { ${emulator:+"$emulator"} "$top/target/panel" "$@"; }
host_to_full() { host_itself five.sheet >/dev/full; }
host_to_closed() { host_itself five.sheet >&-; }
check "the C host: status 3 on a folder" meets 3 - "^host: folder: " host_itself folder
check "the C host: status 3 on a file that isn't there" meets 3 - "^host: nothing: " host_itself nothing
check "the C host: status 3 without a file" meets 3 - "^usage: " host_itself
check "the C host: status 3 on a full disk" meets 3 - "^host: standard output: " host_to_full
check "the C host: status 3 on a closed output" meets 3 - "^host: standard output: " host_to_closed

# ---- a program that misbehaves: the commands over a scripts/program.sh that runs what the test says
mkdir -p "$front/stub/scripts" "$front/stub/examples/host"
cp jougsilver sheet "$front/stub"
cp scripts/command.sh scripts/host "$front/stub/scripts"
cat >"$front/stub/scripts/program.sh" <<'END'
ready() { :; }
program() { bash "$STUB/program" "$@"; }
END
export STUB=$front/stub
printing() { # STATUS OUTPUT PATTERN SCRIPT
    printf '%s\n' "$4" >"$STUB/program"
    meets "$1" "$2" "$3" "$STUB/jougsilver" none.sheet
}
no_answer='nothing was judged$'
printf '1 accepted 2 0 8\nend 1\n' >"$front/whole"
printf '1 short 2 8 -1 8\n2 waiting\nend 2\n' >"$front/waiting"
printf '1 waiting\nend 1\n' >"$front/one.waiting"
check "a whole listing is printed" printing 0 "$front/whole" '' 'printf "1 accepted 2 0 8\nend 1\n"'
check "a waiting component is not accepted" printing 1 "$front/waiting" '' 'printf "1 short 2 8 -1 8\n2 waiting\nend 2\n"'
check "nor is it alone" printing 1 "$front/one.waiting" '' 'printf "1 waiting\nend 1\n"'
check "a waiting line that is not counted is no answer" printing 3 - "$no_answer" 'printf "1 waiting\nend 0\n"'
check "a listing without its end is no answer" printing 3 - "$no_answer" 'printf "1 accepted 2 0 8\n"'
check "a listing with a line too few is no answer" printing 3 - "$no_answer" 'printf "1 accepted 2 0 8\nend 2\n"'
check "a listing with a line too many is no answer" printing 3 - "$no_answer" 'printf "1 accepted 2 0 8\nend 0\n"'
check "a listing whose last line is cut is no answer" printing 3 - "$no_answer" 'printf "1 accepted 2 0 8\nend 1"'
check "lines after the end are no answer" printing 3 - "$no_answer" 'printf "end 0\n1 accepted 2 0 8\n"'
check "half a line after the end is no answer" printing 3 - "$no_answer" 'printf "end 0\n1 acc"'
check "a refusal among lines is no answer" printing 3 - "$no_answer" 'printf "1 accepted 2 0 8\nrefused 1 0\n"'
check "lines after a refusal are no answer" printing 3 - "$no_answer" 'printf "refused 1 0\nend 0\n"'
check "a line of unknown form is no answer" printing 3 - "$no_answer" 'printf "1 perhaps\nend 1\n"'
check "a line of unknown form that isn't counted is no answer" printing 3 - "$no_answer" 'printf "perhaps\nend 0\n"'
check "no output is no answer" printing 3 - "$no_answer" ':'
check "a program that fails gives no answer" printing 3 - "$no_answer" 'printf "end 0\n"; exit 1'
check "a program that is killed gives no answer" printing 3 - "$no_answer" 'printf "end 0\n"; kill -9 $$'
check "a program that complains gives no answer" printing 3 - '^reading failed$' 'printf "refused 1 0\n"; echo reading failed >&2'
stopped() { # SIGNAL
    printf 'sleep 1\n' >"$STUB/program"
    rm -rf "$front/tmp" && mkdir "$front/tmp"
    TMPDIR=$front/tmp "$STUB/jougsilver" "$front/none.sheet" >"$front/out" 2>&1 &
    local child=$! tries=0
    until [ -n "$(ls -A "$front/tmp")" ] || [ $((tries += 1)) -gt 100 ]; do sleep 0.05; done
    kill -s "$1" "$child"
    wait "$child"
    [ $? -gt 128 ] && [ "$tries" -le 100 ] && [ ! -s "$front/out" ] && [ -z "$(ls -A "$front/tmp")" ]
}
check "a command that is ended leaves no file behind" stopped TERM
host_printing() { # STATUS OUTPUT PATTERN SCRIPT
    printf '%s\n' "$4" >"$STUB/program"
    meets "$1" "$2" "$3" "$STUB/scripts/host" none.sheet
}
check "a C host that fails gives no answer" host_printing 3 - "$no_answer" 'echo half a table; exit 3'
check "a C host that is killed gives no answer" host_printing 3 - "$no_answer" 'echo half a table; kill -9 $$'
printf '%s\n' 'echo 12; exit 2' >"$STUB/program"
check "a second program that fails writes no sheet" meets 3 - 'second program failed' "$STUB/sheet" five.txt

# ---- the picture command is given the sheet's bytes, and its output counts only where it succeeds
cat >"$STUB/scripts/picture" <<'END'
cmp "$1" "$SHEET" && echo "picture of $2" && exit "$ENDS"
END
chmod +x "$STUB/scripts/picture"
sed -i '1i #!/bin/sh' "$STUB/scripts/picture"
echo 'picture of 7' >"$front/picture"
printf '%s\n' 'printf "1 short 2 8 -1 8\nend 1\n"' >"$STUB/program"
pictured() { SHEET=$front/none.sheet ENDS=$1 "$STUB/jougsilver" "${@:2}"; }
check "--picture hands on the sheet and the number" meets 0 "$front/picture" '' pictured 0 --picture none.sheet 7
check "--picture that fails prints nothing" meets 3 - '' pictured 1 --picture none.sheet 7
check "--picture needs a number" meets 3 - '^jougsilver: --picture needs' pictured 0 --picture none.sheet
check "--picture takes no word for a number" meets 3 - '^jougsilver: not the number' pictured 0 --picture none.sheet 07
printf '%s\n' 'printf "refused 1 0\n"' >"$STUB/program"
check "--picture of a refused sheet prints nothing" meets 2 - 'refused 1 (' pictured 0 --picture none.sheet 7

# ---- readiness: the commands over an rt that does what the test says. The program that stands there is one that was built before.
built=crates/listing/out/listing
mkdir -p "$front/repo/${built%/*}" "$front/bin"
cp -R jougsilver sheet scripts crates.txt "$front/repo"
real_rt=$(command -v rt)
cat >"$front/bin/rt" <<END
#!/bin/bash
# Stands in for rt: notes that it was called, and does what the file 'does' says.
[ "\$1" != doc ] || exec '$real_rt' doc
echo "began \$* in \${PWD##*/}" >>'$front/calls'
. '$front/does'
status=\$?
echo "ended" >>'$front/calls'
exit \$status
END
chmod +x "$front/bin/rt"
over_rt() { # SCRIPT: what rt does; then a run, whose status is this one's
    printf '%s\n' "$1" >"$front/does"
    PATH=$front/bin:$PATH "$front/repo/jougsilver" "$samples/five.sheet"
}
fresh_repo() { cp "$built" "$front/repo/$built" && : >"$front/calls"; }
unchanged='echo "rt: nothing has changed since the last proved build, by out/listing.stamp, so nothing is checked now"'
fresh_repo
check "rt checks before a run, and is quiet with nothing to do" meets 1 "$front/five.listing" '' over_rt "$unchanged"
check "rt checks before the next run too" meets 1 "$front/five.listing" '' over_rt "$unchanged"
called() { [ "$(grep -c "^began run in listing$" "$front/calls")" -eq "$1" ]; }
check "one check a run" called 2
fails='echo "rt: the library judge did not build, so nothing above it was checked"; false'
check "a program whose check fails is not run" meets 3 - '^jougsilver: judge NOT PROVED' over_rt "$fails"
check "nor is it the second time" meets 3 - "The end of $front/repo/target/ready-listing.log" over_rt "$fails"
check "the log's end is shown" grep -q '^rt: the library judge did not build, so nothing above it was checked$' "$front/err"
check "each crate that is proved has its line" meets 1 "$front/five.listing" '^jougsilver: budget proved ([0-9]* s)$' \
    over_rt 'echo "fn budget::supply: proved"; echo "crate budget: modules loaded=3 checked=2"; echo "logic=proved functions=1"'
check "a long check says what it does and where its log is" meets 1 "$front/five.listing" "proving and building listing.*$front/repo/target/ready-listing.log" over_rt 'sleep 4'
builds="cp '$PWD/$built' out/listing"
cp crates/exercise/out/exercise "$front/repo/$built"
check "what rt has just built is what runs" meets 1 "$front/five.listing" '' over_rt "$builds"
rm "$front/repo/$built"
check "a program that was removed is built again" meets 1 "$front/five.listing" '' over_rt "[ -f out/listing ] || $builds"
called_at_last() { # within 10 s
    local tries=0
    until [ -s "$front/calls" ] || [ $((tries += 1)) -gt 100 ]; do sleep 0.1; done
    [ -s "$front/calls" ]
}
waits() {
    fresh_repo
    over_rt 'sleep 3' >"$front/first" 2>&1 &
    local first=$!
    called_at_last || return
    meets 1 "$front/five.listing" '^jougsilver: another command is building in .*: waiting for it$' over_rt 'sleep 3'
    local met=$?
    wait "$first"
    [ $? -eq 1 ] && [ "$met" -eq 0 ] && [ "$(cut -d ' ' -f 1 "$front/calls" | tr '\n' ' ')" = "began ended began ended " ]
}
check "two at once: the second waits, says so, and both answer" waits
orphaned() {
    fresh_repo
    printf 'sleep 60\n' >"$front/does"
    TMPDIR=$front PATH=$front/bin:$PATH setsid "$front/repo/jougsilver" "$samples/five.sheet" >/dev/null 2>&1 &
    local holder=$!
    called_at_last || return
    kill -s KILL -- "-$holder"
    wait "$holder" 2>/dev/null
    meets 1 "$front/five.listing" '' over_rt "$unchanged"
}
check "a lock goes with those who held it" orphaned

# The real rt, on a copy whose listing program has changed: what doesn't compile is not run though the old program stands there, and a
# change that is proved is met.
real=$front/real
copy_built() {
    local crate part
    ready listing && mkdir "$real" && cp -R jougsilver scripts crates.txt "$real" || return
    for crate in crates/*; do
        mkdir -p "$real/$crate/out" || return
        for part in src specs proofs out/rlib; do [ ! -d "$crate/$part" ] || cp -R "$crate/$part" "$real/$crate/$part" || return; done
    done
    cp -p "$built" "$built.stamp" "$real/${built%/*}"
}
check "the built listing and its crates can be copied" copy_built
check "an unchanged copy is not proved again" meets 1 "$front/five.listing" '' "$real/jougsilver" five.sheet
cp crates/listing/src/main.rt "$front/main.rt"
echo ')' >>"$real/crates/listing/src/main.rt"
check "a source that is changed and wrong is not run" meets 3 - '^jougsilver: listing NOT PROVED' "$real/jougsilver" five.sheet
check "nor is it when asked again" meets 3 - '^jougsilver: listing NOT PROVED' "$real/jougsilver" five.sheet
{ cat "$front/main.rt" && echo '// changed'; } >"$real/crates/listing/src/main.rt"
check "a source that is changed and proved runs" meets 1 "$front/five.listing" '^jougsilver: listing proved (' "$real/jougsilver" five.sheet

# ---- nothing is installed unasked: what is missing is said
mkdir "$front/few"
for tool in bash sh dirname readlink basename mktemp head tail cat rm cp mv mkdir wc cut tee uname flock sha256sum sleep; do
    ln -s "$(command -v "$tool")" "$front/few/$tool"
done
printf '#!/bin/sh\necho "$@" >>"%s"\n' "$front/installed" >"$front/few/apt-get"
chmod +x "$front/few/apt-get"
few() { PATH=$front/few "$@"; }
check "without rt jougsilver says so" meets 3 - '^jougsilver: the Rattle kit.s command rt is not on the PATH$' few "$top/jougsilver" five.sheet
check "without cargo sheet says so" meets 3 - '^sheet: cargo is missing' few "$top/sheet" five.txt
ln -s "$real_rt" "$front/few/rt"
for tool in awk sed sort find date cmp nproc tr env id grep ls python3; do ln -s "$(command -v "$tool")" "$front/few/$tool"; done
rm -f target/panel.from
check "without a compiler host says so" meets 3 - '^host: .*gcc is missing' few "$top/scripts/host" five.sheet
check "nothing was installed" [ ! -e "$front/installed" ]

# ---- names and places: a link to a link, spaces, a leading dash, another folder, CDPATH, standard input
mkdir -p "$front/a place/bin" "$front/a place/scripts"
at="$front/a place"
cp "$samples/five.sheet" "$at/my sheet"
cp "$samples/five.sheet" "$at/-five"
cp "$samples/five.txt" "$at/my text.txt"
"$second" list <"$samples/five.sheet" | awk -f tests/panel.awk >"$front/five.table"
for command in jougsilver sheet scripts/host; do
    name=$(basename "$command") file="my sheet" dashed=-five
    case $name in
    jougsilver) status=1 output=$front/five.listing ;;
    sheet) status=0 output=$samples/five.sheet file="my text.txt" && cp "$samples/five.txt" "$at/-five" ;;
    host) status=1 output=$front/five.table && cp "$samples/five.sheet" "$at/-five" ;;
    esac
    ln -s "$top/$command" "$at/bin/$name"
    ln -s "bin/$name" "$at/a $name"
    elsewhere() { CDPATH=$front:/ "./a $name" "$@"; }
    check "$command by a link, on a name with spaces, from another folder" meets "$status" "$output" '' elsewhere "$file"
    check "$command names itself as it was called" meets 3 - "^a $name: nothing can't be read" elsewhere nothing
    check "$command on a name that begins with a dash" meets "$status" "$output" '' elsewhere -- "$dashed"
    piped() { cat -- "$file" | "./a $name" "$@"; }
    check "$command on standard input" meets "$status" "$output" '' piped
    check "$command on standard input by its name" meets "$status" "$output" '' piped -
    on_terminal() { (cd "$at" && script -qec "'./a $name' >/dev/null" /dev/null) </dev/null >"$front/screen"; grep -q "^a $name: reading standard input" "$front/screen"; }
    check "$command hints where standard input is a terminal" on_terminal
done
at=$front

# ---- sheets as text
check "a name in .txt is read as text" meets 1 "$front/five.listing" '' "$top/jougsilver" five.txt
as_text() { "$top/jougsilver" --text <five.txt; }
check "--text reads standard input as text" meets 1 "$front/five.listing" '' as_text
check "scripts/host reads text too" meets 1 "$front/five.table" '' "$top/scripts/host" five.txt
as_bytes() { "$top/jougsilver" <five.txt; }
printf 'refused 2 0\n' >"$front/unknown.listing"
check "text that is given as bytes is refused, with a hint" meets 2 "$front/unknown.listing" "^jougsilver: standard input looks like a sheet's text: --text " as_bytes
printf '\n#\000\000' >"$front/hash.sheet"
echo 'jougsilver: hash.sheet: byte 0: refused 2 (a record of unknown kind)' >"$front/hash.err"
check "a damaged sheet is not taken for a text" meets_exactly 2 "$front/unknown.listing" "$front/hash.err" "$top/jougsilver" hash.sheet
echo 'jougsilver: range.txt:4: refused 9 (a number outside its range): task 8 9 7' >"$front/range.err"
check "a refusal leads back to the text's line" meets_exactly 2 "$front/range.listing" "$front/range.err" "$top/jougsilver" range.txt
"$second" bytes <"$front/range.txt" >"$front/range.sheet"
echo 'jougsilver: range.sheet: byte 18: refused 9 (a number outside its range)' >"$front/range.err"
check "a refusal of bytes names the byte" meets_exactly 2 "$front/range.listing" "$front/range.err" "$top/jougsilver" range.sheet
printf 'component 1 stated 6 2 4\ntask 8 2 8 0\nend 1\n' >"$front/lateness.txt"
echo 'jougsilver: lateness.txt:2: refused 9 (a number outside its range): task 8 2 8 0' >"$front/lateness.err"
check "a lateness of 0 that is stated leads back to its line" meets_exactly 2 "$front/range.listing" "$front/lateness.err" "$top/jougsilver" lateness.txt
printf 'component 1 asked 6 4\ntask 8 2 8\n# no end\n' >"$front/endless.txt"
printf 'refused 1 30\n' >"$front/endless.listing"
check "a missing end leads back to the last record" meets 2 "$front/endless.listing" '^jougsilver: endless.txt:2: refused 1 (.*): after task 8 2 8$' "$top/jougsilver" endless.txt
{ for n in $(seq 1 256); do echo "component $n asked 6 4" && for _ in $(seq 1 16); do echo task 8 2 8; done; done && echo end 256; } >"$front/big.txt"
printf 'refused 14 0\n' >"$front/big.listing"
# 14 + 16 · 16 = 270 bytes a component of 17 lines: byte 65,536 is 196 in the 243rd, in its 12th task
check "a sheet that is too long leads back to the first line too many" meets 2 "$front/big.listing" "^jougsilver: big.txt:$((242 * 17 + 13)): refused 14 (.*): task 8 2 8$" "$top/jougsilver" big.txt
endless_bytes() { "$top/jougsilver" </dev/zero; }
check "bytes without end are refused" meets 2 "$front/big.listing" '^jougsilver: standard input: byte 0: refused 14 (more than 65,536 bytes)$' endless_bytes
endless_text() { yes '#' | "$top/sheet"; }
check "a text without end is an error" meets 3 - '^sheet: standard input is longer than 16777216 bytes' endless_text
# Pairs that the judge refuses lead back to their lines; a record after a pair to its own.
refused_pair() { # REFUSAL PLACE LINE RECORD TEXT
    printf '%s\n' "${@:5}" >"$front/pairs.txt"
    echo "refused $1 $2" >"$front/pairs.listing"
    meets 2 "$front/pairs.listing" "^jougsilver: pairs.txt:$3: refused $1 (.*): $4\$" "$top/jougsilver" pairs.txt
}
two=('component 1 stated 6 2 4' 'component 2 asked 6 4')
check "a pair whose parent is not the greater" refused_pair 16 32 3 'pair 2 1' "${two[@]}" 'pair 2 1' 'end 2'
check "a component inside itself" refused_pair 16 32 3 'pair 2 2' "${two[@]}" 'pair 2 2' 'end 2'
check "a pair whose parent is not in the sheet" refused_pair 16 32 3 'pair 1 3' "${two[@]}" 'pair 1 3' 'end 2'
check "a pair whose child is not in the sheet" refused_pair 16 32 3 'pair 0 2' "${two[@]}" 'pair 0 2' 'end 2'
check "a second pair for a child" refused_pair 16 40 4 'pair 1 2' "${two[@]}" 'pair 1 2' 'pair 1 2' 'end 2'
check "a pair before its parent's component" refused_pair 16 18 2 'pair 1 2' "${two[0]}" 'pair 1 2' "${two[1]}" 'end 2'
check "a component after a pair" refused_pair 16 40 4 'component 3 asked 6 4' "${two[@]}" 'pair 1 2' 'component 3 asked 6 4' 'end 3'
check "a task after a pair, out of range as it may be" refused_pair 16 40 4 'task 8 9 7' "${two[@]}" 'pair 1 2' 'task 8 9 7' 'end 2'
check "a task with its lateness after a pair" refused_pair 16 40 4 'task 8 2 8 1' "${two[@]}" 'pair 1 2' 'task 8 2 8 1' 'end 2'
check "an end that counts the pairs" refused_pair 8 40 4 'end 3' "${two[@]}" 'pair 1 2' 'end 3'
mapfile -t full < <(printf 'component 1 stated 6 2 4\ncomponent 2 asked 6 4\n' && for _ in $(seq 1 64); do echo 'task 8 1 8'; done)
# 18 + 14 + 64 · 16 bytes before the pair
check "a child for whom its parent has no place" refused_pair 6 1056 67 'pair 1 2' "${full[@]}" 'pair 1 2' 'end 2'
check "a refused pair is said in words" meets 2 "$front/pairs.listing" 'refused 6 (more than 64 tasks and children in a component)' "$top/jougsilver" pairs.txt
printf 'refused 16 32\n' >"$front/pair.listing"
printf 'component 1 stated 6 2 4\ncomponent 2 asked 6 4\npair 2 1\nend 2\n' >"$front/pair.txt"
"$second" bytes <"$front/pair.txt" >"$front/pair.sheet"
echo 'jougsilver: pair.sheet: byte 32: refused 16 (a pair that breaks the rules of pairs, or a component or task after a pair)' >"$front/pair.err"
check "a refused pair of bytes names the byte" meets_exactly 2 "$front/pair.listing" "$front/pair.err" "$top/jougsilver" pair.sheet
grep -v '^#' "$samples/packaging.txt" >"$front/packaging.text"
check "./sheet -t gives pairs back" meets 0 "$front/packaging.text" '' "$top/sheet" -t "$samples/packaging.sheet"
printf 'pair 1 2\ncomponent 1 asked 6 4\n' >"$front/first.txt"
pair_first() { "$top/jougsilver" <first.txt; }
check "a text that begins with a pair is seen to be one" meets 2 "$front/unknown.listing" "^jougsilver: standard input looks like a sheet's text: --text " pair_first
for place in 0 17 18 33 34 39; do
    case $place in 0 | 17) line='1: component 1 stated 6 2 4' ;; 18 | 33) line='4: task 8 9 7' ;; *) line='5: end 1' ;; esac
    echo "$line" >"$front/line"
    check "./sheet --line $place" meets 0 "$front/line" '' "$top/sheet" --line "$place" range.txt
done
check "./sheet --line past the end" meets 3 - '^sheet: range.txt: no line has byte 41: the sheet has 40 bytes$' "$top/sheet" --line 41 range.txt
check "./sheet --line needs a place" meets 3 - '^sheet: --line needs a byte place, not: two$' "$top/sheet" --line two range.txt
{ head -c 20 "$samples/five.sheet" && printf '\011' && tail -c +22 "$samples/five.sheet"; } >"$front/damaged.sheet"
check "./sheet -t on a damaged sheet" meets 2 - '^sheet: damaged.sheet: byte 18: refused 2 (a record of unknown kind)$' "$top/sheet" -t damaged.sheet
check "./sheet -t on nothing" meets 2 - '^sheet: empty.sheet: byte 0: refused 1 (' "$top/sheet" -t empty.sheet

# Wrong lines: each is named, with the file and what the record needs.
cat >"$front/wrong.txt" <<'END'
# a text with wrong lines
component 1 stated 6 2
  task 8 +2 8   # a sign
task 006 2 8
task 8 2
component 2 given 6 4
end 65536
tusk 8 2 8
pair 1
pair 1 -2
pair 70000 2
pair 1 2 3
end 1
END
wrong_lines() { # NAME
    cat <<END
$1: wrong.txt:2: \`component 1 stated 6 2\`: stated needs Π Θ Δ: \`component NUMBER stated Π Θ Δ\`
$1: wrong.txt:3: \`task 8 +2 8 # a sign\`: C is \`+2\`, which is not a number of digits alone
$1: wrong.txt:4: \`task 006 2 8\`: T is \`006\`, which has a zero in front
$1: wrong.txt:5: \`task 8 2\`: a task is \`task T C D\` or \`task T C D J\`
$1: wrong.txt:6: \`component 2 given 6 4\`: a component is \`component NUMBER stated Π Θ Δ\` or \`component NUMBER asked Π Δ\`
$1: wrong.txt:7: \`end 65536\`: COUNT is \`65536\`, which is above 65535, the most that its 2 bytes hold
$1: wrong.txt:8: \`tusk 8 2 8\`: no record begins with \`tusk\`; a line is \`component NUMBER stated Π Θ Δ\` or \`component NUMBER asked Π Δ\` or \`task T C D\` or \`task T C D J\` or \`pair CHILD PARENT\` or \`end COUNT\`
$1: wrong.txt:9: \`pair 1\`: pair needs CHILD PARENT: \`pair CHILD PARENT\`
$1: wrong.txt:10: \`pair 1 -2\`: PARENT is \`-2\`, which is not a number of digits alone
$1: wrong.txt:11: \`pair 70000 2\`: CHILD is \`70000\`, which is above 65535, the most that its 2 bytes hold
$1: wrong.txt:12: \`pair 1 2 3\`: pair needs CHILD PARENT: \`pair CHILD PARENT\`
END
}
for command in jougsilver sheet scripts/host; do
    wrong_lines "$(basename "$command")" >"$front/wrong.err"
    check "$command names every wrong line of a text" meets_exactly 3 - "$front/wrong.err" "$top/$command" wrong.txt
done
wrong_lines sheet | sed 's/wrong.txt/standard input/' >"$front/wrong.err"
from_input() { "$top/sheet" <wrong.txt; }
check "./sheet names the wrong lines of standard input" meets_exactly 3 - "$front/wrong.err" from_input
for _ in $(seq 1 23); do echo task; done >"$front/many.txt"
check "twenty wrong lines are named, and then how many more" meets 3 - '^sheet: many.txt: 3 more wrong lines$' "$top/sheet" many.txt
check "of 23 wrong lines just 20 are named" [ "$(grep -c '^sheet: many.txt:[0-9]*: `task`: a task is `task T C D` or `task T C D J`$' "$front/err")" -eq 20 ]
printf '# nothing\n\n' >"$front/nothing.txt"
check "a text without a record is an error" meets 3 - '^sheet: nothing.txt: no line has a record' "$top/sheet" nothing.txt
check "a sheet's bytes are no text" meets 3 - '^sheet: five.sheet: .*it is not a text' "$top/sheet" five.sheet
printf '\357\273\277# a mark\r\n\r\n\t# indented\r\ncomponent\t4  asked 6\v4 # why\r\n task 4 2 2#why\r\nend 1' >"$front/loose.txt"
"$second" bytes <"$front/never.txt" >"$front/never.sheet"
check "a byte-order mark, white space and comments are taken" meets 0 "$front/never.sheet" '' "$top/sheet" loose.txt

# ---- what the pages show is so: the listings of the samples, and the bytes of the rules' nested components and of their late task
page_listing() { # NAME
    awk -v command="examples/sheets/$1." '/^```/ { on = 0 } on { print } $1 == "$" && $2 == "./jougsilver" && index($3, command) == 1 { on = 1 }' \
        examples/sheets/README.md >"$front/page" && "$second" list <"$samples/$1.sheet" >"$front/listed" && same "$front/listed" "$front/page"
}
for name in press tick packaging waiting; do check "examples/sheets/README.md has the listing of $name" page_listing "$name"; done
# The bytes, as a call has them, of the block of bytes behind the line that begins so.
rules_bytes() { # WORDS
    awk -v words="$1" 'index($0, words) == 1 { on = 1; next } on && /^    / { gsub(/ /, ""); row = row $0; next } on && row { exit } END { print row }' docs/RULES.md
}
rules_nested() {
    local row reply
    row=$(rules_bytes 'Example, the two components of section 7 and their pair')
    reply=$(rules_bytes 'Example: the two components of section 7 in their second form')
    # the second form has D = 7 in its first task, whose last field is at byte 30
    { printf '%s\n' "tree $row 0" "tree $row 1" "host_all ${row:0:60}07${row:62} 84 0" | "$second" answer; } >"$front/page"
    printf '%s\n' 'ok 1 accepted 2 0 8' 'ok 2 accepted 1 0 4' "0 $reply" >"$front/listed"
    same "$front/listed" "$front/page"
}
check "docs/RULES.md has the bytes of nested components and of their reply" rules_nested
rules_late() {
    local row
    row=$(rules_bytes 'Example, the same component with the task (8, 2, 8, 1)')
    # J is the last field of the task, at byte 34
    { printf '%s\n' "tree $row 0" "sheet ${row:0:68}00${row:70}" "sheet ${row:0:68}07${row:70}" | "$second" answer; } >"$front/page"
    printf '%s\n' 'ok 7 short 7 2 -1 7' 'refused 9 18 0' 'refused 9 18 0' >"$front/listed"
    same "$front/listed" "$front/page"
}
check "docs/RULES.md has the bytes of a task that states its lateness" rules_late
