# Words that a row may put before its command; bash reads this file before each command (tests/shared/playing.py).

# On a disk that takes only the first 1,024 bytes of a file.
full_disk() {
    (
        trap '' XFSZ
        ulimit -f 1
        exec "$@"
    )
}

# With an output that takes nothing: a full disk, and a pipe whose reader has ended.
full() {
    "$@" >/dev/full
}
closed() {
    exec 3> >(true)
    wait $!
    "$@" >&3
}

# By a user who may not write everywhere: nobody, where this is root.
nobody() {
    if [ "$(id -u)" -eq 0 ]; then
        setpriv --reuid=65534 --regid=65534 --clear-groups "$@"
    else
        "$@"
    fi
}

# Turns one bit over, in the byte at a place of a file.
turn() {
    local byte
    byte=$(od -An -tu1 -j "$2" -N 1 "$1")
    printf "\\x$(printf %x $((byte ^ 1)))" | dd of="$1" bs=1 seek="$2" conv=notrunc status=none
}
