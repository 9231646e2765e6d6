# Where the programs of an installed copy are: stands there as scripts/program.sh, in the place of the repository's, and gives the same two:
#   ready NAME...          sees that programs are there; else says so on standard error, and fails
#   program NAME [WORD...] runs one
# Nothing is proved or built here, and the Rattle kit isn't needed: what was proved as it was installed is what runs.
root=$(cd -- "$(dirname -- "${BASH_SOURCE[0]}")/.." >/dev/null && pwd -P)
tell() { printf '%s: %s\n' "${0##*/}" "$*" >&2 || :; }

# On x86-64 the proved programs run by themselves. For another processor an emulator and a C library were installed beside them.
through=()
[ ! -x "$root/bin/qemu-x86_64" ] || through=("$root/bin/qemu-x86_64" "$root/lib/ld-linux-x86-64.so.2" --library-path "$root/lib")

ready() { # NAME...
    local name
    for name; do
        [ -x "$root/bin/$name" ] || {
            tell "$root/bin/$name is missing: this copy is not whole"
            return 1
        }
    done
}

program() { # NAME [WORD...]
    local name=$1
    shift
    case $name in
    second) "$root/bin/$name" "$@" ;;
    *) "${through[@]}" "$root/bin/$name" "$@" ;;
    esac
}

# The text form's command has a longer name once it is installed.
help=${help-}
help=${help//usage: sheet/usage: jougsilver-sheet}
help=${help//       sheet /       jougsilver-sheet }
