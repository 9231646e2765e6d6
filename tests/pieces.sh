# Input that comes by a pipe, whole and in pieces, is answered as the second program answers the same bytes from a file; what cannot be
# read, written or held is said on standard error. Sourced by ./test.
build_pieces() { need gcc gcc >&2 </dev/null && gcc -O2 -Wall -o target/pieces tests/pieces.c; }

# A few calls of each kind, and lines above 65,535 characters: a walk over 65,536 slots, and a row of 65,600 bytes.
piece_calls() {
    local kind rest
    while read -r kind rest; do "$second" generate 3 12 "$kind" || return; done <tests/kinds.txt
    "$second" row walk && printf 'sheet ' && head -c 131200 /dev/zero | tr '\0' '0' && printf '\nsupply 6 2 4 8\n'
}
# The same without the end of the last line.
open_calls() { printf 'supply 6 2 4 8\nsupply 6 2 4 9'; }

# The program's answer to a file that is fed to it by a pipe is what stands in another.
piped() { # PROGRAM BYTES FILE EXPECTED
    if [ "$2" = whole ]; then
        cat "$3" | program "$1" >"$work/piped"
    else
        target/pieces "$2" <"$3" | program "$1" >"$work/piped"
    fi && [ "${PIPESTATUS[*]}" = "0 0" ] && same "$4" "$work/piped"
}
piped_sheets() { # BYTES
    local sheet
    for sheet in "$work"/pieces/*.sheet; do
        "$second" list <"$sheet" >"$work/second" && piped listing "$1" "$sheet" "$work/second" || return
    done
}

check "the program that cuts input into pieces builds" build_pieces
mkdir "$work/pieces"
piece_calls >"$work/pieces/calls" && open_calls >"$work/pieces/open"
for calls in calls open; do "$second" answer <"$work/pieces/$calls" >"$work/pieces/$calls.answers"; done
"$second" sheets 3 12 "$work/pieces" && for sheet in "$work"/pieces/[0-9]*; do mv "$sheet" "$sheet.sheet"; done
# and one of several pieces of 4,096 bytes
awk 'BEGIN { for (n = 1; n <= 200; n++) print "component " n " stated 6 2 4\ntask 8 2 7\ntask 9 1 9"; print "end 200" }' | "$second" bytes >"$work/pieces/large.sheet"
for bytes in whole 1 7 4096; do
    check "exercise answers $(wc -l <"$work/pieces/calls") calls by pipe, pieces: $bytes" piped exercise "$bytes" "$work/pieces/calls" "$work/pieces/calls.answers"
    check "exercise answers a last line without an end by pipe, pieces: $bytes" piped exercise "$bytes" "$work/pieces/open" "$work/pieces/open.answers"
    check "listing prints sheets by pipe, pieces: $bytes" piped_sheets "$bytes"
done

# A line that is longer than any call ends the input: the calls before it are answered, and nothing after it.
too_long() {
    { cat "$work/pieces/calls" && head -c 300000 /dev/zero | tr '\0' '1' && printf '\nsupply 6 2 4 8\n'; } >"$work/pieces/long"
    program exercise <"$work/pieces/long" >"$work/said_out" 2>"$work/said_err"
    same "$work/pieces/calls.answers" "$work/said_out" && grep -q 'too long' "$work/said_err"
}
# A folder opens and cannot be read; /dev/full opens and cannot be written.
read_fails() { program exercise <tests >"$work/said_out" 2>"$work/said_err"; [ ! -s "$work/said_out" ] && grep -q 'reading' "$work/said_err"; }
write_fails() { program exercise <"$work/pieces/calls" 2>"$work/said_err" >/dev/full; grep -q 'writing' "$work/said_err"; }
check "exercise stops at a line that is longer than any call, and says so" too_long
check "exercise says that its input cannot be read" read_fails
check "exercise says that an answer cannot be written" write_fails
