# What the programs and the tests share, with home the repository: what is older than the code, a program or the archive for C that is proved and built, and the kit.

# outdated FILE: it is missing, or older than the code.
outdated() {
    local code
    [ -e "$1" ] || return 0
    for code in "$home/crates.txt" "$home"/crates/*/src "$home"/crates/*/src/*; do
        [ ! "$code" -nt "$1" ] || return 0
    done
    return 1
}

# build NAME WORD...: sets program, and proves and builds it where it is outdated; each crate is told as it is proved. rt runs what it builds: with these words it succeeds.
build() {
    local name=$1 log=$home/target/$1.log
    program=$home/crates/$name/out/$name
    outdated "$program" || return 0
    shift
    echo "$name: proved and built first, which takes some minutes" >&2
    mkdir -p "$home/target"
    if ! (set -o pipefail && (cd "$home/crates/$name" && rt run -- "$@" </dev/null) 2>&1 | tee "$log" | sed -un "s/^crate \([a-z0-9_]*\): modules.*/$name: \1 checked/p" >&2); then
        tail -n 20 "$log" >&2
        exit 2
    fi
    # a program that changed nothing is not linked anew
    touch "$program"
}

# The functions for C: sets archive, and proves and builds it where it is outdated; C callers know it by this name.
build_archive() {
    local made=$home/crates/threegp_c/out/libthreegp_c.a log=$home/target/threegp_c.log
    archive=$home/target/staticlib/libthreegp.a
    outdated "$archive" || return 0
    echo 'the functions for C: proved and built first, which takes some minutes' >&2
    mkdir -p "${archive%/*}"
    if ! (cd "$home/crates/threegp_c" && rt lib) >"$log" 2>&1; then
        tail -n 20 "$log" >&2
        exit 2
    fi
    cp "$made" "$archive"
}

# Sets kit and, where this machine is no x86-64, emulator. The kit's place is kept, since to ask for it takes longer than a listing; the shell knows the machine.
find_kit() {
    local place=$home/target/kit machine
    kit='' emulator=''
    [ ! -e "$place" ] || read -r kit <"$place" || true
    if [ ! -x "$kit/toolchain/lib/ld-linux-x86-64.so.2" ]; then
        kit=$(dirname "$(rt doc)")
        mkdir -p "$home/target"
        printf '%s\n' "$kit" 2>/dev/null >"$place" || true
    fi
    machine=${MACHTYPE%%-*}
    [ "$machine" = x86_64 ] || emulator=$kit/on/$machine/toolchain/bin/qemu-x86_64
}
