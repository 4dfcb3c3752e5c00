# Sourced by the launchers of the Rattle programs.

. "$(dirname "${BASH_SOURCE[0]}")/use.sh"

# tell_if_longer PROGRAM: where standard input is a file that is longer than the programs take, says so; the program itself
# prints the number 21 alone.
tell_if_longer() {
    local length
    length=$(stat -Lc %s /dev/stdin 2>/dev/null) || return 0
    if ((length > 32768)); then
        echo "$1 takes captures of at most 32,768 bytes, and this has $length; scripts/chart and scripts/pcapng take any" >&2
    fi
}

# launch PROGRAM: runs a built program on standard input, and ends with its exit status. The programs
# themselves end with 0 once they have told what failed: where they tell a failure on standard error,
# in a line that begins with 'PROGRAM: ', or a refusal, in a line that is its number alone, the status
# is 1. Other lines are passed on, and change nothing; where they cannot be, the status is 1 too.
launch() {
    local program=$1 binary errors status=0
    binary=$(dirname "${BASH_SOURCE[0]}")/../target/bin/$program
    if [ ! -x "$binary" ]; then
        echo "$program: not built; 'scripts/build $program' builds it" >&2
        exit 1
    fi
    tell_if_longer "$program"
    errors=$(mktemp)
    trap 'rm -f "$errors"' EXIT
    # A pipe that nobody reads is then a failed write, told like any other, and no signal.
    (trap '' PIPE && exec "$binary") 2>"$errors" || status=$?
    if [ -s "$errors" ] && ! cat "$errors" >&2 || grep -Eqx "$program: .*|[0-9]+" "$errors"; then
        status=1
    fi
    exit "$status"
}
