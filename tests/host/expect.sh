# What the tests of the host programs share; to be sourced. Their first argument is the folder of the programs.
# shellcheck shell=sh disable=SC2034 # used by the tests
programs=${1:-build}
controller=$programs/controller
tool=$programs/script_tool
script=build/forecourt.script
folder=$(mktemp -d)
trap 'rm -rf "$folder"' EXIT
passed=0
failed=0
# the first lines of a script whose totals are a number
main="function 2 0
  parameter 0 0
  parameter 1 1"

pass() {
    passed=$((passed + 1))
}

# fault WHAT: counts a failure, and shows what the last command said
fault() {
    failed=$((failed + 1))
    echo "failed: $1"
    head -n 5 "$folder/out" "$folder/error" 2>/dev/null
}

# expect WHAT COMMAND..: the command's exit status must be 0
expect() {
    what=$1
    shift
    if "$@" >"$folder/out" 2>"$folder/error"; then pass; else fault "$what"; fi
}

# status NUMBER TEXT COMMAND..: the command must end with this status and say this on standard output or error
status() {
    number=$1
    text=$2
    shift 2
    "$@" >"$folder/out" 2>"$folder/error"
    found=$?
    if [ $found -eq "$number" ] && grep -qF -- "$text" "$folder/out" "$folder/error"; then
        pass
    else
        fault "$* (wanted status $number and '$text', found status $found)"
    fi
}

# places TEXT..: puts each message that the last command had for a place of a file into $folder/said, without its
# column; true where each is followed by its line and a caret, and these texts are all among them
places() {
    sed -n 's/^\(.*:[0-9]*\):[0-9]*: /\1: /p' "$folder/error" >"$folder/said"
    [ "$(grep -c '^  *^$' "$folder/error")" -eq "$(wc -l <"$folder/said")" ] || return 1
    for text; do
        grep -qF -- "$text" "$folder/said" || return 1
    done
}

# refused LINE MESSAGE: checks the text on standard input, which is refused at this line with this message; the engine's
# number in it is the one that a controller gives for the file
refused() {
    cat >"$folder/bad"
    $tool check "$folder/bad" >"$folder/out" 2>"$folder/error"
    if [ $? -eq 1 ] && places "$folder/bad:$1: $2"; then pass; else fault "line $1 with '$2'"; fi
    number=${2%% *}
    $tool assemble --unchecked "$folder/bad" "$folder/bad-file" 2>/dev/null
    if [ "$(head -c 4 "$folder/bad-file" | od -An -tu1 | tr -d ' ')" != 1000 ]; then
        status 1 " $number " $controller "$folder/bad-file" /dev/null
    fi
}

# said WHAT PATTERN: the last command has said this, on standard output or error
said() {
    if grep -q -e "$2" "$folder/out" "$folder/error"; then pass; else fault "$1"; fi
}

# bytes NUMBER..: these bytes
bytes() {
    for byte; do
        # shellcheck disable=SC2059 # the format is the byte
        printf "\\$(printf %o "$byte")"
    done
}

# totals STORE: what the totals of a store are
totals() {
    "$controller" --show "$1" | sed -n 's/^totals *//p'
}

# report WHAT: ends the test
report() {
    echo "$1 ($programs): $passed passed, $failed failed"
    [ "$failed" -eq 0 ] && [ "$passed" -gt 0 ]
}
