#!/bin/sh
# The archive's `tidy`: starts the program with the C library beside it, from any folder and with any environment. HELP.txt says how it is used.
# It is for x86-64 Linux; elsewhere TIDY_EMULATOR names a program that runs those of x86-64.
set -eu

fail() {
    printf 'tidy: %s\n' "$*" >&2
    exit 2
}

PATH=${PATH:+$PATH:}/usr/bin:/bin
here=$0
case $here in
/*) ;;
*) here=./$here ;;
esac
[ ! -L "$here" ] || here=$(readlink -f "$here")
here=${here%/*}
# The loader takes these for the end of a folder's name.
case $here in
*[:\;]*) fail "can't start from a folder with a colon or a semicolon in its name: $here" ;;
esac
machine=$(uname -m 2>/dev/null) || machine=x86_64
[ -n "${TIDY_EMULATOR-}" ] || [ "$machine" = x86_64 ] || fail "made for x86-64, and this machine is $machine; TIDY_EMULATOR may name an emulator"
. "$here/lib/start.sh"
start "${TIDY_EMULATOR-}" "$here/lib" "$here/lib/tidy" "$@"
