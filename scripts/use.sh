# Sourced by hosts.sh and launch.sh: what all commands do with their arguments.

# usage WORDS..: tells how a script is called, and ends it: status 2 is for wrong arguments alone.
usage() {
    echo "usage: $*" >&2
    exit 2
}

# help USAGE [ARGUMENT..]: with --help, prints the usage and the comment at the head of the script, and ends it.
help() {
    if [ "${2-}" = --help ]; then
        echo "usage: $1"
        sed -n '2,/^[^#]/s/^# \{0,1\}//p' "$(dirname "${BASH_SOURCE[0]}")/$(basename "$0")"
        exit 0
    fi
}

# open_capture USAGE [CAPTURE]: the capture named is then standard input. This stays as it is for none, and for '-'.
open_capture() {
    if (($# > 2)); then
        usage "$1"
    elif [ "${2--}" = - ]; then
        return
    elif [ -d "$2" ] || [ ! -r "$2" ]; then
        usage "$1; there is no file '$2' to be read"
    fi
    exec <"$2"
}

# writable FOLDER: makes the folder where it is missing; where nothing can be written there, tells so and ends the script.
writable() {
    if ! mkdir -p "$1" 2>/dev/null || [ ! -w "$1" ]; then
        echo "$(basename "$0"): nothing can be written to the folder $1" >&2
        exit 1
    fi
}
