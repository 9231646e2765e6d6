# What ./jougsilver, ./sheet and scripts/host share. Sourced by bash; `help` is set before to the text of --help, whose first lines are
# the usage. Exit statuses are those of that text; a failure of use or of the machine is 3 and prints nothing on standard output.
name=${0##*/}
true 3>&2 || exec 2>/dev/null
say() { printf '%s: %s\n' "$name" "$*" >&2 || :; }
fail() {
    say "$@"
    exit 3
}
misused() {
    say "$@"
    printf '%s\n' "${help%%$'\n\n'*}" >&2 || :
    exit 3
}

. "${BASH_SOURCE[0]%/*}/program.sh" || exit 3

# A private folder, gone however the command ends.
room=
clean() { [ -z "$room" ] || rm -rf -- "$room"; }
trap clean EXIT
for signal in HUP INT TERM; do
    # shellcheck disable=SC2064
    trap "clean; trap - $signal EXIT; kill -s $signal $$" $signal
done
trap : PIPE
private_room() {
    room=$(mktemp -d -- "${TMPDIR:-/tmp}/jougsilver.XXXXXX" 2>/dev/null) || fail "no temporary folder can be made in ${TMPDIR:-/tmp}"
    case $room in /*) ;; *) room=$PWD/$room ;; esac
}

# The end of what a tool said last, which is the system's word for what went wrong.
reason() {
    local said
    said=$(tail -n 1 -- "$room/said" 2>/dev/null)
    printf '%s' "${said##*: }"
}

# Writes a file to standard output, and fails where not all of it was written.
put() { # FILE
    cat -- "$1" 2>"$room/said" || fail "standard output can't be written: $(reason)"
}
help_and_exit() {
    printf '%s\n' "$help" 2>/dev/null || fail "standard output can't be written"
    exit 0
}

# The command line: `words` are those that are no options, in their order. The command's own function `option` is given an option and what
# follows it, and leaves in `took` how many of them it took.
parse() { # WORD...
    words=()
    while [ $# -gt 0 ]; do
        case $1 in
        -h | --help) help_and_exit ;;
        --)
            words+=("${@:2}")
            return
            ;;
        -?*)
            took=1
            option "$@"
            shift "$took"
            ;;
        *)
            words+=("$1")
            shift
            ;;
        esac
    done
}

# What is read: `file`, and `shown`, its name in messages. Without FILE, or where it is `-`, that is standard input.
named() { # [FILE]
    file=${1--}
    shown=$file
    true 2>/dev/null 3>&1 || fail "standard output can't be written: it is closed"
    [ "$file" = - ] || return 0
    shown="standard input"
    [ $# -gt 0 ] || [ ! -t 0 ] || say "reading standard input; end it with Ctrl-D, or name a FILE ($name --help says more)"
}

# Reads the file's first bytes into a file of the room.
take() { # MOST INTO
    [ "$file" != - ] || true 2>/dev/null 3<&0 || fail "$shown can't be read: it is closed"
    head -c "$1" -- "$file" 2>"$room/said" >"$room/$2" || fail "$shown can't be read: $(reason)"
}

# Reads the file as a text, which is nearly always far smaller than this.
most_text=16777216
take_text() {
    take $((most_text + 1)) text
    [ "$(wc -c <"$room/text")" -le "$most_text" ] || fail "$shown is longer than $most_text bytes: that is no sheet's text"
    ready second || exit 3
}

# Runs the second program on the text. Its messages begin with a line's number or are of the whole text.
on_text() { # INTO WORD...
    local into=$1 status line
    shift
    program second "$@" <"$room/text" >"$room/$into" 2>"$room/said"
    status=$?
    [ "$status" -ne 0 ] || return 0
    [ "$status" -eq 1 ] || say "the second program failed (status $status)"
    while IFS= read -r line; do
        if [[ $line =~ ^[0-9]+: ]]; then say "$shown:$line"; else say "$shown: $line"; fi
    done <"$room/said"
    exit 3
}

# $room/sheet: the sheet's bytes, one more than a sheet may have at most, so that a longer one is seen to be longer.
most_sheet=65536
take_sheet() {
    if [ -n "$text" ]; then
        take_text
        on_text sheet bytes
    else
        take $((most_sheet + 1)) sheet
    fi
}

# A refusal of a sheet in words, for a person; docs/RULES.md, 12. No sheet is refused with the others: 10 to 13, 15, and 17 (a stored
# common period that is not the component's own: no sheet holds one).
meaning() { # NUMBER
    case $1 in
    1) echo "the sheet ends inside a record, or has no end record" ;;
    2) echo "a record of unknown kind" ;;
    3) echo "a record whose length is not its kind's" ;;
    4) echo "a task before any component" ;;
    5) echo "a component number that does not rise" ;;
    6) echo "more than 64 tasks and children in a component" ;;
    7) echo "more than 256 components" ;;
    8) echo "a wrong count in the end record, or bytes after it" ;;
    9) echo "a number outside its range" ;;
    14) echo "more than 65,536 bytes" ;;
    16) echo "a pair that breaks the rules of pairs, or a component or task after a pair" ;;
    *) echo "docs/RULES.md says when" ;;
    esac
}

# Says on standard error what a refusal is and where it stands: the text's line, or the byte. A sheet that is too long is refused at
# place 0; the line that is named is then the first that is too much.
explain() { # NUMBER PLACE
    local line at=$2
    [ "$1" -ne 14 ] || at=$most_sheet
    if [ -n "$text" ] && line=$(program second line "$at" <"$room/text" 2>/dev/null); then
        say "$shown:${line%%:*}: refused $1 ($(meaning "$1")):${line#*:}"
        return
    fi
    say "$shown: byte $2: refused $1 ($(meaning "$1"))"
    [ -n "$text" ] || ! looks_like_text || say "$shown looks like a sheet's text: $for_text"
}
for_text="--text reads it as one, and so does a name that ends in .txt"
# A sheet has bytes of value 0 in every record, a text has none.
looks_like_text() {
    [ "$(tr -d '\000' <"$room/sheet" | wc -c)" -eq "$(wc -c <"$room/sheet")" ] &&
        LC_ALL=C grep -a -q -E $'^(\xef\xbb\xbf)?[[:space:]]*(#|(component|task|pair|end)[[:space:]])' -- "$room/sheet"
}
