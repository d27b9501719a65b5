# What ./checktable, ./loadtable and ./writetable share; each sources it. The script has set
#   root        the repository's folder
#   name        its own name, which is also that of the program behind it
#   text, was   what the program prints, "report", "totals" or "file", and the verb behind it
# and has a function `usage`, which says how it is called. The program is proved and built first where it is missing or older
# than its source, which takes many minutes the first time; progress is on standard error.
program=$root/crates/$name/out/$name

fail() {
    echo "$name: $*" >&2
    exit 2
}

# Proves and builds the program; what rt says of it goes to standard error. `rt run` runs it too, on a file of no bytes.
build() {
    echo "$name: the program is proved and built first, with all that it uses; from nothing this takes many minutes" >&2
    (cd "$root/crates/$name" && rt run </dev/null 2>&1 >/dev/null) | while read -r line; do
        case $line in
        'rt: running '*) ;;
        rt:*) echo "$name: ${line#rt: }" >&2 ;;
        esac
    done && [ -x "$program" ] || fail "the program was not built: run 'rt check' in crates/$name to see why"
    touch "$program"
}

# Whether a file that a program may be made from is newer than the program.
is_old() {
    [ -n "$(find "$root"/crates/*/{src,specs,proofs} "$root/crates.txt" -newer "$program" -print -quit)" ]
}

# Builds the program where that is needed.
ready() {
    if [ ! -x "$program" ]; then
        command -v rt >/dev/null 2>&1 ||
            fail "the Rattle kit is missing: there is no command 'rt' on the PATH. README.md names the kit that is needed."
        build
    elif is_old; then
        if command -v rt >/dev/null 2>&1; then
            build
        else
            echo "$name: the program is older than its source, and there is no command 'rt' to build it again" >&2
        fi
    fi
}

# Makes the table that the arguments name the standard input, or ends.
take() { # [FILE]
    [ $# -le 1 ] || fail "one table at a time; see $name --help"
    case ${1--} in
    -) ;;
    --help | -h)
        usage
        exit 0
        ;;
    *)
        [ -e "$1" ] || fail "there is no file $1"
        [ ! -d "$1" ] || fail "$1 is a directory"
        [ -f "$1" ] || [ -p "$1" ] || [ -c "$1" ] || fail "$1 is not a file"
        [ -r "$1" ] || fail "the file $1 may not be read"
        exec <"$1"
        ;;
    esac
    { : 3<&0; } 2>/dev/null || fail "standard input is closed"
}

# Prints what the program makes of the table, and keeps it in `printed`. Ends with 2 if there is nothing to print.
print_table() { # [FILE]
    local ended=0
    take "$@"
    ready
    printed=$("$program") || ended=$?
    [ "$ended" -eq 0 ] || fail "the program ended with status $ended before its $text $was whole"
    [ -n "$printed" ] || exit 2
    { printf '%s\n' "$printed"; } 2>/dev/null || fail "the $text cannot be printed"
}
