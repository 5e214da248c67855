# Sourced by samples/try and host/try, at the top of the repository: cases, and a folder for them that is removed in the end.
dir=$(mktemp -d)
trap 'rm -rf "$dir"' EXIT
passed=0

# try NAME STATUS OUTPUT ERRORS COMMAND...: the command ends with the status, writes what is in the file OUTPUT to standard
# output, and to standard error something that has ERRORS in it, or nothing where that is empty.
try() {
    local name=$1 status=$2 output=$3 errors=$4 got=0 wrong=
    shift 4
    "$@" >"$dir/out" 2>"$dir/err" || got=$?
    [ "$got" -eq "$status" ] || wrong="exit $got, not $status"
    cmp -s "$dir/out" "$output" || wrong="its output differs from $output"
    if [ -z "$errors" ]; then
        [ ! -s "$dir/err" ] || wrong="something on standard error"
    else
        grep -q -- "$errors" "$dir/err" || wrong="no '$errors' on standard error"
    fi
    if [ -n "$wrong" ]; then
        echo "$0: $name: $wrong" >&2
        cat "$dir/err" >&2
        exit 1
    fi
    passed=$((passed + 1))
}
