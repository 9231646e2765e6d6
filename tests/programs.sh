# What ./test and tests/long share: the count of checks, the second program, and how the proved programs are run.
# Sourced by bash at the top of the repository.
work=$(mktemp -d) || exit 2
trap 'rm -rf "$work"' EXIT
passed=0 failed=0

# Counts one check: WHAT, then the command that must succeed.
check() {
    local what=$1
    shift
    if "$@" >"$work/said" 2>&1; then
        echo "ok: $what"
        passed=$((passed + 1))
    else
        echo "FAILED: $what"
        head -n 20 "$work/said"
        failed=$((failed + 1))
    fi
}

. scripts/program.sh
# Installs Debian's package where a command is missing, for the tests alone: the commands themselves install nothing.
need() { # COMMAND [PACKAGE]
    command -v "$1" >/dev/null 2>&1 && return
    [ -n "${2-}" ] && { apt-get install -y "$2" || { apt-get update && apt-get install -y "$2"; }; } >&2 </dev/null
}
test_second() { cargo test --release --offline --quiet --manifest-path second/Cargo.toml --target-dir target/second; }

# The first lines in which two files differ.
same() { # EXPECTED FOUND
    cmp -s "$1" "$2" && return
    diff "$1" "$2" | head -n 6 | cut -c 1-400
    return 1
}

# The proved program answers a file of calls as the second program does.
exercised() { # CALLS
    "$second" answer <"$1" >"$work/second" && program exercise <"$1" >"$work/exercise" && same "$work/second" "$work/exercise"
}

# The proved listing of a sheet is the second program's.
listed_as() { # SHEET
    "$second" list <"$1" >"$work/second" && program listing <"$1" >"$work/listing" && same "$work/second" "$work/listing"
}
# The same of sheets made afresh.
listed() { # SEED COUNT
    rm -rf "$work/sheets" && mkdir "$work/sheets" && "$second" sheets "$1" "$2" "$work/sheets" || return
    local sheet
    for sheet in "$work"/sheets/*; do
        listed_as "$sheet" || return
    done
}

# A C program that makes the calls of a file.
build_host() { ready archive && host_compiler -O2 -o target/host tests/host.c "${kept[archive]}"; }
hosted() { # CALLS
    "$second" answer <"$1" >"$work/second" && ${emulator:+"$emulator"} target/host <"$1" >"$work/hosted" && same "$work/second" "$work/hosted"
}

# A sample sheet: its bytes are its text's, and the README's command and the C host print what the second program's listing says.
sampled_bytes() { ./sheet "examples/sheets/$1.txt" >"$work/bytes" && cmp "examples/sheets/$1.sheet" "$work/bytes"; }
sampled_text() {
    grep -v -e '^#' -e '^$' "examples/sheets/$1.txt" >"$work/text" && ./sheet -t "examples/sheets/$1.sheet" >"$work/back" && same "$work/text" "$work/back"
}
# The status that goes with a listing.
listing_status() { awk '$1 == "refused" { s = 2 } $1 ~ /^[0-9]/ && $2 != "accepted" { s = 1 } END { exit s }' "$1"; }
sampled_listing() {
    local status
    "$second" list <"examples/sheets/$1.sheet" >"$work/second" || return
    ./jougsilver "examples/sheets/$1.sheet" >"$work/listing"
    status=$?
    listing_status "$work/second"
    [ "$?" -eq "$status" ] && same "$work/second" "$work/listing"
}
sampled_table() {
    local status
    "$second" list <"examples/sheets/$1.sheet" >"$work/second" && awk -f tests/panel.awk "$work/second" >"$work/expected" || return
    scripts/host "examples/sheets/$1.sheet" >"$work/table"
    status=$?
    listing_status "$work/second"
    [ "$?" -eq "$status" ] && same "$work/expected" "$work/table"
}
