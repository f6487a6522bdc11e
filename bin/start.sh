# How a program is started and what it ends with: for bin/tidy, bin/list and the archive for members. POSIX sh, and nothing but the shell.

# start EMULATOR FOLDER PROGRAM WORD...: the program, by the loader and the C library of the folder; EMULATOR is empty on x86-64.
start() {
    emulator=$1 folder=$2
    shift 2
    # Where input, output or errors are shut, nothing else is opened in their place: reads and writes there fail.
    { true 9<&0; } 2>/dev/null || exec 0>/dev/null
    { true 9>&1; } 2>/dev/null || exec 1</dev/null
    true 9>&2 || exec 2</dev/null
    # A pipe that nobody reads is an error of the program's, and doesn't end it.
    trap '' PIPE
    # A library that is preloaded belongs to another C library.
    unset LD_PRELOAD
    # An emulator that can't run the loader ends as it likes; it counts as a program that couldn't start.
    if [ -n "$emulator" ]; then
        case $("$emulator" "$folder/ld-linux-x86-64.so.2" --version </dev/null) in
        'ld.so '*) ;;
        *) exit 2 ;;
        esac
    fi
    # The program ends with 0 done, 1 refused, or 2 wrong use, input or output; a program that couldn't start or was stopped counts as 2.
    status=0
    ${emulator:+"$emulator"} "$folder/ld-linux-x86-64.so.2" --library-path "$folder" "$@" || status=$?
    case $status in
    [012]) exit "$status" ;;
    esac
    exit 2
}
