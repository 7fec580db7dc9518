# Read by the tools that time programs. They name the folder for what they make in `made`, how often they measure in `rounds`, and stand in the
# project's root.
mkdir -p "$made"

# with a point in the times that the shell prints
export LC_ALL=C

# quietly COMMAND...: what it says is shown only if it fails
quietly() {
    "$@" > "$made/log" 2>&1 || { cat "$made/log" >&2; exit 1; }
}

# programs NAME...: each proved, built and left in the folder. rt runs each once, here on nothing.
programs() {
    local program
    for program in "$@"; do
        quietly from "crates/$program" rt run
        cp "crates/$program/out/$program" "$made/"
    done
}
from() {
    (cd "$1" && shift && "$@" < /dev/null)
}

# port NAME: that program, on this command's standard input
port() {
    "$made/$1"
}

# the Rust as it is, and its floor (oracle/README.md)
rust() {
    target/oracle/cargo/release/oracle "$@"
}
floor() {
    target/oracle/floor/release/floor "$@"
}

# timed FILE COMMAND...: its user and system time in milliseconds; what it printed is in the file. The two are added, since how a system tells them
# apart is coarse. Of a program that fails there is no time: it is named, and nothing is printed.
timed() {
    local out=$1 spent TIMEFORMAT='%U %S'
    shift
    spent=$({ time "$@" > "$out" 2> "$made/errors"; } 2>&1) || { echo "failed, and is not timed: $*" >&2; cat "$made/errors" >&2; return 1; }
    awk '{ printf "%d\n", ($1 + $2) * 1000 + 0.5 }' <<< "$spent"
}

# take NAME MILLISECONDS: the least of a name counts
declare -A least
take() {
    [ -n "$2" ] || exit 1
    if [ "$2" -lt "${least[$1]:-999999999}" ]; then least[$1]=$2; fi
}

# least_of COMMAND...: the least of the numbers that it prints in as many rounds as the tool has; nothing, where it fails
least_of() {
    local all
    all=$(for ((round = 0; round < rounds; round++)); do "$@" || exit 1; done) || return 1
    sort -n <<< "$all" | head -1
}

# run WHO PLAN CALLS: that many calls of a run, RUN SIZE RECORDS, by the Rust, by its floor or by a program of the port
run() {
    case $1 in
        rust | floor) "$1" speed $2 "$3" ;;
        *in_place*) echo "p $2 $3" | port "$1" ;;
        *lent*) echo "l $2 $3" | port "$1" ;;
        *by_value*) echo "v $2 $3" | port "$1" ;;
    esac
}
