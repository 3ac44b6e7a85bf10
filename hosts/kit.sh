# Sourced by the scripts of this repository: where the Rattle kit is, and how its compiler and linker are called.
# It sets kit and tools (the folder of the compiler and the C library), both for x86-64 Linux: the kit has no other.

unset CDPATH # which would have cd say where it went, or go elsewhere
repository=$(cd "$(dirname "${BASH_SOURCE[0]}")/.." && pwd -P)
version=$(cat "$repository/VERSION")
soname=libzr400.so.${version%%.*}

fail() {
    printf '%s\n' "$*" >&2
    exit 1
}

command -v rt >/dev/null || fail "The command rt is not on the PATH. Put the folder bin of the Rattle kit on it."
kit=$(cd "$(dirname "$(rt doc)")" && pwd -P)
tools=$kit/toolchain
[ "$(uname -m)" = x86_64 ] || fail "The Rattle kit is for x86-64 Linux, and this machine is $(uname -m)."
[ -x "$tools/bin/clang" ] || fail "The Rattle kit at $kit has no compiler: $tools/bin/clang is not there."

# compile OBJECT SOURCE FLAG..: C to an object.
compile() {
    local object=$1 source=$2
    shift 2
    "$tools/bin/clang" --target=x86_64-unknown-linux-gnu -std=c11 -O2 -fPIC -Wall -Wextra -Werror \
        -nostdinc -isystem "$repository/hosts/c/headers" -I "$repository/hosts/c" "$@" -c "$source" -o "$object"
}

# archive ARCHIVE OBJECT..: a static library of objects, or objects added to one.
archive() { "$tools/bin/llvm-ar" rcs "$@"; }

# link_shared LIBRARY.so ARCHIVE: the same library, to be loaded by a running program. Only zr400_.. can be seen.
link_shared() {
    printf '{ global: zr400_*; local: *; };\n' >"$1.names"
    "$tools/bin/ld.lld" -shared -soname "$soname" --version-script="$1.names" -z noexecstack -z relro -z now \
        --no-undefined -o "$1" --whole-archive "$2" --no-whole-archive "$tools/lib/libc.so.6"
    rm -f "$1.names"
}

# link_program PROGRAM FILE..: objects and archives to a program.
link_program() {
    local program=$1 said
    shift
    said=$("$kit/bin/rattle-link" --target x86_64-unknown-linux-gnu --toolchain "$tools" -o "$program" "$@" 2>&1) ||
        fail "$said"
}

# run_program PROGRAM WORD..: runs a program under the kit's C library.
run_program() {
    local program=$1
    shift
    "$tools/lib/ld-linux-x86-64.so.2" --library-path "$tools/lib" "$program" "$@"
}

# prove LOG VERB NAME WORD..: runs `rt VERB WORD..` on a crate of this repository and shows how far it is.
prove() { (cd "$repository" && exec hosts/prove "$@"); }
