# Shared by the other scripts, which source it at the repository's root.

. "$(dirname "${BASH_SOURCE[0]}")/use.sh"

archive=target/staticlib/libpcp.a
sanitizers=(-fsanitize=address,undefined -fno-sanitize-recover=all)

# are_numbers TEXT..: whether each is a number, such that a program can take it.
are_numbers() {
    local text
    for text; do
        [[ $text =~ ^[0-9]{1,18}$ ]] || return 1
    done
}

# package_of TOOL: the Debian package that has it.
package_of() {
    case $1 in
        cargo-clippy) echo rust-clippy ;;
        md5sum) echo coreutils ;;
        *) echo "$1" ;;
    esac
}

# need TOOL..: sees that each is there, and installs its Debian package where it is not.
need() {
    local tool missing=()
    for tool; do
        command -v "$tool" >/dev/null || missing+=("$(package_of "$tool")")
    done
    if [ ${#missing[@]} -gt 0 ]; then
        add_packages "${missing[@]}"
    fi
}

# add_packages PACKAGE..: installs Debian's packages, where it may.
add_packages() {
    if [ "$(id -u)" -ne 0 ] || ! command -v apt-get >/dev/null; then
        echo "missing: $* (on Debian, as root: apt-get install $*)" >&2
        exit 1
    fi
    apt-get update >&2
    DEBIAN_FRONTEND=noninteractive apt-get install -y "$@" >&2
}

# bring FILE PLACE MODE: copies what was built to where all else takes it from. A file that is the same stays: what was made
# from it is then newer still.
bring() {
    writable "$(dirname "$2")"
    cmp -s "$1" "$2" || install -m "$3" "$1" "$2"
}

# build_archive: proves the library, builds its archive and brings it. rt works in a crate's folder, and builds first what
# is below it.
build_archive() {
    (cd crates/pcp && rt lib) </dev/null && bring crates/pcp/out/libpcp.a "$archive" 644
}

# build_program NAME: proves a program, builds it and brings it. rt runs it too: on an empty capture, where it writes
# nothing. What rt says goes to standard error.
build_program() {
    (cd "crates/$1" && rt run) </dev/null >/dev/null && bring "crates/$1/out/$1" "target/bin/$1" 755
}

# for_each MOST COMMAND ARGUMENT..: runs the command on each argument, so many at once; $failed is how many failed. Each
# job is waited for by its id, the oldest first: `wait -n` may take one of which nobody then learns how it ended.
for_each() {
    local most=$1 command=$2 argument job jobs=()
    failed=0
    for argument in "${@:3}"; do
        if ((${#jobs[@]} == most)); then
            wait "${jobs[0]}" || failed=$((failed + 1))
            jobs=("${jobs[@]:1}")
        fi
        "$command" "$argument" &
        jobs+=($!)
    done
    for job in "${jobs[@]}"; do
        wait "$job" || failed=$((failed + 1))
    done
}

# c_host SOURCE PROGRAM FLAG..: builds a C program that links the library, as the header says. Further sources may stand
# among the flags.
c_host() {
    writable target/hosts
    gcc -std=c99 -Wall -Wextra -Werror -O2 "${@:3}" -Iinclude "$1" -L"$(dirname "$archive")" -lpcp -o "target/hosts/$2"
}

# rust_program SOURCE PROGRAM FLAG..: builds a Rust program; with --crate-type, a crate.
rust_program() {
    writable target/hosts
    rustc --edition 2021 -C opt-level=3 -D warnings -o "target/hosts/$2" "$1" "${@:3}"
}

# wrapper: builds the crate of hosts/rust, without the archive: programs of tests link it, or something in its place.
wrapper() {
    rust_program hosts/rust/pcp.rs libpcp.rlib --crate-name pcp --crate-type rlib
}

# What a Rust program needs so that it finds this crate.
with_wrapper=(--extern pcp=target/hosts/libpcp.rlib)

# rust_host SOURCE PROGRAM FLAG..: builds a Rust program that links the library through this crate.
rust_host() {
    rust_program "$1" "$2" "${with_wrapper[@]}" -C link-arg="$archive" "${@:3}"
}

# tool NAME: builds a program of tools/, unless it is there and newer than all that it is made of. What it prints
# meanwhile goes to standard error, and it reads nothing: standard input and output are the tool's.
tool() {
    local program=target/hosts/$1
    if [ -x "$program" ] && [ -f "$archive" ] &&
        [ -z "$(find tools hosts/rust "$archive" -type f -newer "$program" -print -quit)" ]; then
        return
    fi
    {
        need rustc
        [ -f "$archive" ] || build_archive
        wrapper
        rust_host "tools/$1/main.rs" "$1"
    } </dev/null >&2
}

# plain_rust: builds both ends in plain Rust, a crate of its own, so that neither side is inlined into what times it. Its
# functions begin at cache lines: where the linker puts them must not change their speed.
plain_rust() {
    rust_program bench/plain/lib.rs libplain.rlib --crate-name plain --crate-type rlib -C codegen-units=1 \
        -C llvm-args=-align-all-functions=6
}

# What a Rust program needs so that it finds this one.
with_plain=(--extern plain=target/hosts/libplain.rlib)

# crate COMMAND FLAG..: cargo's command on the crate of hosts/rust, from what is here alone.
crate() {
    cargo "$1" --quiet --offline --locked --manifest-path hosts/rust/Cargo.toml --target-dir target/cargo "${@:2}"
}

# last_line PROGRAM ARGUMENT..: runs it and shows its last line, or all that it printed where it fails.
last_line() {
    local output
    if output=$("$@"); then
        tail -n 1 <<<"$output"
    else
        printf '%s\n' "$output"
        return 1
    fi
}

# What a Rust program needs so that its calls of the library pass through tests/c/boundary.c; the archive comes after it.
boundary=(-C linker=gcc -C default-linker-libraries=yes -C link-arg="${sanitizers[0]}" -C link-arg=target/hosts/boundary.o)
for symbol in check message_check recognise raw_device_{new,receive,next_message,install_finished,give_digest} \
    raw_gateway_{start,receive,next_message} raw_capture_{kind,next,mended,write} raw_md5{,_new,_feed,_finish}; do
    boundary+=(-C "link-arg=-Wl,--wrap=pcp_$symbol")
done

# boundary_object: compiles tests/c/boundary.c with sanitizers.
boundary_object() {
    writable target/hosts
    gcc -std=c99 -Wall -Wextra -Werror -O1 -g "${sanitizers[@]}" -Iinclude -c tests/c/boundary.c \
        -o target/hosts/boundary.o
}

# driver_calls NAME FLAG..: compiles the drivers in C as symbols, for programs in Rust.
driver_calls() {
    writable target/hosts
    gcc -std=c99 -Wall -Wextra -Werror -O2 "${@:2}" -Iinclude -c tests/c/driver_calls.c -o "target/hosts/$1.o"
}

# What a Rust program needs so that it finds these, as they are or with sanitizers; they call the archive, which comes
# after them once more.
with_driver_calls=(-C link-arg=target/hosts/driver_calls.o -C link-arg="$archive")
with_sanitized_driver_calls=(-C linker=gcc -C default-linker-libraries=yes -C link-arg="${sanitizers[0]}"
    -C link-arg=target/hosts/driver_calls_sanitized.o -C link-arg="$archive")
