# What the tests share: where things are, the archive of the functions for C, a compiler for it, and how its programs are run.
# A compiler is installed where it is missing; on Arm it is Debian's cross compiler, and the kit's emulator runs what it makes.
home=$(cd "$(dirname "${BASH_SOURCE[0]}")/.." && pwd)
. "$home/bin/build.sh"
work=$home/target/host

fail() {
    printf 'host: %s\n' "$*" >&2
    exit 1
}

# Sets compiler, prefix (of the tools that belong to it) and run (what the programs are started with).
find_compiler() {
    compiler=cc prefix='' packages=(gcc libc6-dev) run=()
    if [ "$(uname -m)" != x86_64 ]; then
        compiler=x86_64-linux-gnu-gcc prefix=x86_64-linux-gnu- packages=(gcc-x86-64-linux-gnu libc6-dev-amd64-cross)
        find_kit
        run=("$emulator")
    fi
    if ! command -v "$compiler" >/dev/null; then
        echo "host: the compiler is installed first: ${packages[*]}" >&2
        said=$({ apt-get update && apt-get install -y "${packages[@]}"; } 2>&1) || fail "no compiler could be installed: $said"
    fi
}

# compile SOURCE PROGRAM
compile() {
    mkdir -p "$work"
    "$compiler" -std=c11 -O2 -Wall -Wextra -Werror -static -I "$home/include" "$1" "$archive" -o "$2" || fail "$1 does not compile"
}
