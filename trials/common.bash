# What the trials share: a room of their own, the program, and lines that say how each thing came out.
top=$(cd "$(dirname "${BASH_SOURCE[0]}")/.." && pwd) || exit 70
program=${APLSV:-$top/crates/aplsv/out/aplsv}
[ -x "$program" ] || { echo "trials: $program is not built: run ./aplsv first" >&2; exit 70; }

room=$(mktemp -d) || exit 70
place=$room/place
bad=0
tried=0

clean_up() {
    ! mountpoint -q "$place" 2>/dev/null || umount "$place"
    chmod -R u+rwx "$room" 2>/dev/null
    rm -rf "$room"
}
trap clean_up EXIT

# The program, as nobody where this is run by the superuser.
as_nobody() {
    if [ "$(id -u)" = 0 ] && command -v setpriv >/dev/null; then
        setpriv --reuid=65534 --regid=65534 --clear-groups "$@"
    else
        "$@"
    fi
}

# A place that has nothing in it, and is nobody's.
new_place() {
    chmod -R u+rwx "$place" 2>/dev/null
    rm -rf "$place"
    mkdir -p "$place"
    hand_over
}

# All that stands in the room is nobody's.
hand_over() {
    [ "$(id -u)" != 0 ] || chown -hR 65534:65534 "$room"
}

# A bundle of the user 1001 with these lines.
bundle() {
    echo "user 1001"
    printf '|%s\n' "$@"
    echo end
}

# The lines that user 1001 is shown, without the echoes of what was put in. The words stand in `words`, the lines to put in are
# the arguments, and the status is that of the program.
words=()
shown() {
    local out status
    out=$(bundle "$@" | as_nobody "$program" --replay "${words[@]}" 2>"$room/errors")
    status=$?
    sed -n '/^user 1001$/,/^journal$/p' <<<"$out" | sed -n 's/^|//p' | grep -v '^      ' | grep -v '^\['
    return "$status"
}

# Says how something came out: what it is, what is wanted, what was found.
same() {
    tried=$((tried + 1))
    if [ "$2" = "$3" ]; then
        echo "as it should: $1"
    else
        bad=$((bad + 1))
        printf 'OTHERWISE: %s\n  wanted: %s\n  found:  %s\n' "$1" "${2//$'\n'/ / }" "${3//$'\n'/ / }"
    fi
}

left_out() {
    echo "left out: $1"
}

# Whether the program can be given little memory: one that is built with tests of each address can not.
takes_limits() {
    ! grep -qa __asan_init "$program"
}

lines() {
    printf '%s\n' "$@"
}

conclude() {
    echo "${0##*/}: $tried tried, $bad otherwise"
    [ "$bad" = 0 ]
}
