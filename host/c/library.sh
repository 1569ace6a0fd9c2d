# shellcheck shell=sh
# Sourced by the scripts of host/, which stand one folder above; they need an x86-64 machine. The library is built, unless MONTRAKIT_LIB names a folder that holds
# libmontrakit.a; then that one is linked. C programs are compiled with it to target/linked/.
set -eu

if [ -n "${MONTRAKIT_LIB:-}" ]; then
    MONTRAKIT_LIB=$(cd "$MONTRAKIT_LIB" && pwd)
    export MONTRAKIT_LIB
fi
cd "$(dirname "$0")/.."

# Runs a command that is to print nothing; where it fails, what it printed is shown.
quietly() {
    log=target/linked/$1.log
    shift
    "$@" >"$log" 2>&1 || {
        cat "$log" >&2
        exit 1
    }
}

[ "$(uname -m)" = x86_64 ] || {
    echo "the library is for x86-64: nothing links it on this machine, $(uname -m)" >&2
    exit 2
}
mkdir -p target/linked
if [ -n "${MONTRAKIT_LIB:-}" ]; then
    library=$MONTRAKIT_LIB/libmontrakit.a
else
    library=target/staticlib/libmontrakit.a
    quietly library host/library
fi
[ -f "$library" ] || {
    echo "there is no $library" >&2
    exit 2
}

# compile NAME [WORD...]: host/c/NAME.c, with the other sources and words for the compiler that are given, to target/linked/NAME.
compile() {
    name=$1
    shift
    quietly "$name" "${CC:-cc}" -std=c99 -Wall -Wextra -pedantic -Werror -O2 -I host/include -o "target/linked/$name" \
        "host/c/$name.c" "$@" "$library"
}

compile_stand() {
    compile stand host/c/line.c host/c/station.c host/c/telling.c
}

# section PATTERN: the bytes of the library's sections whose names match.
section() {
    size -A "$library" | awk -v pattern="$1" '$1 ~ pattern && $2 ~ /^[0-9]+$/ { sum += $2 } END { print sum + 0 }'
}
CODE='^[.]text'
CONSTANTS='^[.]rodata'

# The stack that a call of each function needs, measured.
tell_stack() {
    compile stack host/c/frames.c
    echo 'Stack of a call, return address and arguments on the stack included. Measured on this build for x86-64: no contract holds it.'
    target/linked/stack
}
