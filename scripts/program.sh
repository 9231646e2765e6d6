# Where the programs are and how they are made ready: sourced by bash, by scripts/command.sh, scripts/picture, bench/run and the tests.
# It gives two things, and an installed copy has a file of its own in this one's place that gives the same two:
#   ready NAME...          brings programs up to date, proved as the sources stand now; else says on standard error why not, and fails
#   program NAME [WORD...] runs one
# The programs: listing and exercise (proved), panel (the C host over the proved archive), second (the second program); `ready archive` is
# for who links the exported calls.
# What `ready` made ready is kept as a copy, named by its content, at ${kept[NAME]}, and `program` runs that copy: so what runs is what was
# checked, whoever builds meanwhile. Without `ready` before it, `program` runs what was built last, by `ready` or by `rt ci`.
root=$(CDPATH='' cd -- "$(dirname -- "${BASH_SOURCE[0]}")/.." && pwd -P)
declare -A kept=()
second=$root/target/second/release/second
tell() { printf '%s: %s\n' "${0##*/}" "$*" >&2 || :; }

# Programs are x86-64 code. They run under the kit's loader and C library, and on another processor under the kit's emulator, where it has one.
tools= emulator=
if command -v rt >/dev/null 2>&1; then
    tools=$(dirname -- "$(rt doc)")/toolchain
    [ "$(uname -m)" = x86_64 ] || [ ! -x "$tools/bin/qemu-x86_64" ] || emulator=$tools/bin/qemu-x86_64
fi

# Where a program stands.
file_of() { # NAME
    case $1 in
    second) echo "$second" ;;
    panel) echo "$root/target/panel" ;;
    archive) echo "$archive" ;;
    *) echo "$root/crates/$1/out/$1" ;;
    esac
}

program() { # NAME [WORD...]
    local name=$1 file=${kept[$1]-}
    [ -n "$file" ] || file=$(file_of "$1")
    shift
    case $name in
    second) "$file" "$@" ;;
    panel) ${emulator:+"$emulator"} "$file" "$@" ;;
    *) ${emulator:+"$emulator"} "$tools/lib/ld-linux-x86-64.so.2" --library-path "$tools/lib" "$file" "$@" ;;
    esac
}

ready() { # NAME...
    local name made=0
    locked || return
    for name; do
        case $name in
        second) build_second ;;
        panel) build_panel ;;
        archive) build_archive ;;
        *) prove_program "$name" ;;
        esac && keep "$name" || {
            made=1
            break
        }
    done
    exec 9>&-
    return $made
}
keep() { # NAME
    local file copy
    file=$(file_of "$1")
    copy=$(sha256sum <"$file") && copy=$root/target/run/$1.${copy%% *} && mkdir -p -- "$root/target/run" &&
        { [ -x "$copy" ] || { cp -- "$file" "$copy.$$" && mv -- "$copy.$$" "$copy"; }; } || {
        tell "$file can't be copied"
        return 1
    }
    kept[$1]=$copy
}

# One command at a time builds here: the lock is on a file under target/, and lasts as long as this shell, or a build that it started, lives.
locked() {
    local lock=$root/target/lock
    need flock util-linux || return
    mkdir -p -- "$root/target" 2>/dev/null && { exec 9>>"$lock"; } 2>/dev/null || {
        tell "$lock can't be written"
        return 1
    }
    flock -w 1 9 || {
        tell "another command is building in $root/target: waiting for it"
        flock 9 || {
            tell "$lock can't be locked"
            return 1
        }
    }
}

# Proves a program and what it stands on, as far as something changed since it was last proved, and links it; one that was proved and then
# removed is linked again. rt has no command that builds a program and leaves it at that, so it also runs here, on no input; what it prints
# goes into the log.
prove_program() { run_rt "$1" run; } # NAME

# Runs rt in a crate's folder, a line on standard error for each crate as it is proved; nothing is said where nothing is to be done.
run_rt() { # NAME WORD...
    local log=$root/target/ready-$1.log what=$1 failing
    need rt || return
    shift
    (cd -- "$root/crates/$what" && exec rt "$@") </dev/null 2>&1 | tee -- "$log" | progress "$what" "$log"
    [ "${PIPESTATUS[0]}" -eq 0 ] || {
        failing=$(sed -n 's/^rt: the library \([a-z0-9_]*\) did not build,.*/\1/p' "$log" | tail -n 1)
        tell "${failing:-$what} NOT PROVED"
        tell "$what is not proved as its sources stand, so it is not run. The end of $log:"
        tail -n 20 -- "$log" | cut -c 1-400 >&2
        return 1
    }
}

# The lines that rt has for a crate end with one that names it and one that says whether it is proved. The seconds are counted from the
# crate before it.
progress() { # NAME LOG
    local line begun= status crate=$1 since=$SECONDS
    while :; do
        status=0
        IFS= read -r -t 3 line || status=$?
        if [ "$status" -gt 128 ]; then
            [ -n "$begun" ] || tell "proving and building $1, which takes some minutes the first time (log: $2)"
            begun=1
        elif [ "$status" -ne 0 ]; then
            return 0
        else
            case $line in
            'crate '*': modules loaded='*) crate=${line#crate } crate=${crate%%:*} ;;
            'logic=proved '*)
                tell "$crate proved ($((SECONDS - since)) s)"
                since=$SECONDS
                ;;
            esac
        fi
    done
}

# Says what is missing. Nothing is installed here; ./test puts an installing function in this one's place.
need() { # COMMAND PACKAGE
    command -v "$1" >/dev/null 2>&1 && return
    if [ "$1" = rt ]; then tell "the Rattle kit's command rt is not on the PATH"; else tell "$1 is missing (Debian's package $2 has it)"; fi
    return 1
}

# The second program, which also turns a sheet's text into bytes and back.
build_second() {
    need cargo cargo || return
    [ -x "$second" ] || tell "building the second program, which takes some seconds the first time"
    cargo build --release --offline --quiet --manifest-path "$root/second/Cargo.toml" --target-dir "$root/target/second" </dev/null >&2 || {
        tell "the second program can't be built"
        return 1
    }
}

# The compiler for a C program that links the exported calls, which are x86-64 code; whole where it needs the emulator.
host_compiler() {
    if [ "$(uname -m)" = x86_64 ]; then
        need gcc gcc && gcc "$@"
    else
        need x86_64-linux-gnu-gcc gcc-x86-64-linux-gnu && x86_64-linux-gnu-gcc -static "$@"
    fi
}

# The archive of the exported calls, under the name that a host links. rt makes it anew at each call, so it is kept with the sum of what it
# was made from, taken before and after: an edit meanwhile makes it be built again.
archive=$root/target/libjougsilver.a
build_archive() {
    local from
    need rt && from=$(sources) || return
    ! made_of "$archive" "$from" || return 0
    run_rt jougsilver_c lib || return
    cp -- "$root/crates/jougsilver_c/out/libjougsilver_c.a" "$archive" || {
        tell "$archive can't be written"
        return 1
    }
    [ "$(sources)" != "$from" ] || note_made "$archive" "$from"
}
# A sum of all that a proof here reads: the kit, and the crates without what rt made.
sources() {
    local kit
    kit=$(rt version) || {
        tell "rt doesn't say its version"
        return 1
    }
    (cd -- "$root" && echo "$kit" && find crates.txt crates -name out -prune -o -type f -exec sha256sum {} + | LC_ALL=C sort) | sha256sum
}

build_panel() {
    local from
    build_archive || return
    from=$(cd -- "$root" && cat examples/host/host.c include/jougsilver.h "$archive" | sha256sum) || return
    ! made_of "$root/target/panel" "$from" || return 0
    host_compiler -std=c11 -Wall -Wextra -Werror -pedantic -O2 -I"$root/include" -o "$root/target/panel" "$root/examples/host/host.c" "$archive" >&2 || {
        tell "the C host can't be built"
        return 1
    }
    note_made "$root/target/panel" "$from"
}

# Whether a file is the one that was made from just that; and the note of it.
made_of() { [ -f "$1" ] && [ -f "$1.from" ] && [ "$(cat -- "$1.from")" = "$2 $(sha256sum <"$1")" ]; } # FILE FROM
note_made() { printf '%s %s\n' "$2" "$(sha256sum <"$1")" >"$1.from"; }                              # FILE FROM
