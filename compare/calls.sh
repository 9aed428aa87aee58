# Sourced by compare/dumps and compare/failures: how the calls of programs are held, and counted.
# shellcheck shell=bash
work=$(mktemp -d) || exit 2
trap 'rm -rf "$work"' EXIT
calls=0 different=0

# tried INPUT COMMAND..: keeps what the command prints and what it says on standard error.
tried() {
    local input=$1
    shift
    calls=$((calls + 1))
    "$@" <"$input" >"$work/printed" 2>"$work/said"
}

differs() {
    echo "different: $1"
    different=$((different + 1))
}

# held WHAT TEXT INPUT COMMAND..: prints the file TEXT, says nothing, and ends with status 0.
held() {
    local what=$1 text=$2
    shift 2
    tried "$@" && cmp "$work/printed" "$text" && [ ! -s "$work/said" ] || differs "$what"
}
